package fantanolive;

import java.util.List;
import java.util.OptionalLong;

/**
 * The heading of a case page (case page, 132 bytes). Every field is a text without the spaces at its end. What was read is
 * written as the same bytes, whatever they are; nothing is judged here. Written by bin/generate-layouts from package/layouts.json; not to be edited.
 *
 * @param mark Heading, 1-5: CASES
 * @param filler1 Filler, 6: a space
 * @param pageNumber Page Number, 7-12: six digits, the first page being 000001
 * @param filler2 Filler, 13-132: spaces
 */
public record PageHeading(
        String mark,
        String filler1,
        String pageNumber,
        String filler2) implements Layout {
    /** How many bytes a record has. */
    public static final int WIDTH = 132;

    /** The fields, in order and without gaps. */
    public static final List<Field> FIELDS = List.of(
            new Field("mark", "Heading", 1, 5, Field.Kind.TEXT),
            new Field("filler_1", "Filler", 6, 6, Field.Kind.FILLER),
            new Field("page_number", "Page Number", 7, 12, Field.Kind.NUMBER),
            new Field("filler_2", "Filler", 13, 132, Field.Kind.FILLER));

    /** A record of spaces. */
    public static PageHeading blank() {
        return new PageHeading("", "", "", "");
    }

    /**
     * Reads a record in EBCDIC.
     *
     * @throws IllegalArgumentException where it hasn't 132 bytes
     */
    public static PageHeading read(byte[] record) {
        Columns.checked(record, WIDTH);
        return new PageHeading(
            Columns.text(record, 1, 5),
            Columns.text(record, 6, 6),
            Columns.text(record, 7, 12),
            Columns.text(record, 13, 132));
    }

    @Override
    public List<Field> fields() {
        return FIELDS;
    }

    @Override
    public List<Object> values() {
        return List.of(mark, filler1, pageNumber, filler2);
    }

    /** The fields that aren't blank, without SSNs. */
    @Override
    public String toString() {
        return Columns.shown("PageHeading", this);
    }

    /** The same with another Heading. */
    public PageHeading withMark(String mark) {
        return new PageHeading(mark, filler1, pageNumber, filler2);
    }

    /** The same with another Filler. */
    public PageHeading withFiller1(String filler1) {
        return new PageHeading(mark, filler1, pageNumber, filler2);
    }

    /** The same with another Page Number. */
    public PageHeading withPageNumber(String pageNumber) {
        return new PageHeading(mark, filler1, pageNumber, filler2);
    }

    /** Page Number as a number; empty where it isn't 6 digits. */
    public OptionalLong pageNumberNumber() {
        return Columns.number(pageNumber, 6);
    }

    /** The same with another Page Number, as a number. */
    public PageHeading withPageNumberNumber(long number) {
        return withPageNumber(Columns.digits("page_number", number, 6));
    }

    /** The same with another Filler. */
    public PageHeading withFiller2(String filler2) {
        return new PageHeading(mark, filler1, pageNumber, filler2);
    }
}
