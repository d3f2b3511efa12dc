package fantanolive;

import java.util.List;
import java.util.OptionalLong;

/**
 * The foot of a case page (case page, 132 bytes). Every field is a text without the spaces at its end. What was read is
 * written as the same bytes, whatever they are; nothing is judged here. Written by bin/generate-layouts from package/layouts.json; not to be edited.
 *
 * @param mark Foot, 1-5: TOTAL
 * @param filler1 Filler, 6: a space
 * @param cases Cases on This Page, 7-10: four digits, 0001 to 0058
 * @param filler2 Filler, 11-132: spaces
 */
public record PageFoot(
        String mark,
        String filler1,
        String cases,
        String filler2) implements Layout {
    /** How many bytes a record has. */
    public static final int WIDTH = 132;

    /** The fields, in order and without gaps. */
    public static final List<Field> FIELDS = List.of(
            new Field("mark", "Foot", 1, 5, Field.Kind.TEXT),
            new Field("filler_1", "Filler", 6, 6, Field.Kind.FILLER),
            new Field("cases", "Cases on This Page", 7, 10, Field.Kind.NUMBER),
            new Field("filler_2", "Filler", 11, 132, Field.Kind.FILLER));

    /** A record of spaces. */
    public static PageFoot blank() {
        return new PageFoot("", "", "", "");
    }

    /**
     * Reads a record in EBCDIC.
     *
     * @throws IllegalArgumentException where it hasn't 132 bytes
     */
    public static PageFoot read(byte[] record) {
        Columns.checked(record, WIDTH);
        return new PageFoot(
            Columns.text(record, 1, 5),
            Columns.text(record, 6, 6),
            Columns.text(record, 7, 10),
            Columns.text(record, 11, 132));
    }

    @Override
    public List<Field> fields() {
        return FIELDS;
    }

    @Override
    public List<Object> values() {
        return List.of(mark, filler1, cases, filler2);
    }

    /** The fields that aren't blank, without SSNs. */
    @Override
    public String toString() {
        return Columns.shown("PageFoot", this);
    }

    /** The same with another Foot. */
    public PageFoot withMark(String mark) {
        return new PageFoot(mark, filler1, cases, filler2);
    }

    /** The same with another Filler. */
    public PageFoot withFiller1(String filler1) {
        return new PageFoot(mark, filler1, cases, filler2);
    }

    /** The same with another Cases on This Page. */
    public PageFoot withCases(String cases) {
        return new PageFoot(mark, filler1, cases, filler2);
    }

    /** Cases on This Page as a number; empty where it isn't 4 digits. */
    public OptionalLong casesNumber() {
        return Columns.number(cases, 4);
    }

    /** The same with another Cases on This Page, as a number. */
    public PageFoot withCasesNumber(long number) {
        return withCases(Columns.digits("cases", number, 4));
    }

    /** The same with another Filler. */
    public PageFoot withFiller2(String filler2) {
        return new PageFoot(mark, filler1, cases, filler2);
    }
}
