package fantanolive;

import java.util.List;
import java.util.OptionalLong;

/**
 * The RCT record of a reconciliation file (Chart 0-7, 245 bytes). Every field is a text without the spaces at its end. What was read is
 * written as the same bytes, whatever they are; nothing is judged here. Written by bin/generate-layouts from package/layouts.json; not to be edited.
 *
 * @param mark Record Identifier, 1-3: RCT
 * @param state Submitting State Code, 4-5
 * @param tanf TANF Cases Returned, 6-14: REC records with case type A, nine digits
 * @param nonTanf Non-TANF Cases Returned, 15-23: REC records with case type N
 * @param total Total Cases Returned, 24-32
 * @param date Extract Date, 33-40: the date asked for, CCYYMMDD
 * @param filler Filler, 41-245: spaces
 */
public record Rct(
        String mark,
        String state,
        String tanf,
        String nonTanf,
        String total,
        String date,
        String filler) implements Layout {
    /** How many bytes a record has. */
    public static final int WIDTH = 245;

    /** The fields, in order and without gaps. */
    public static final List<Field> FIELDS = List.of(
            new Field("mark", "Record Identifier", 1, 3, Field.Kind.TEXT),
            new Field("state", "Submitting State Code", 4, 5, Field.Kind.TEXT),
            new Field("tanf", "TANF Cases Returned", 6, 14, Field.Kind.NUMBER),
            new Field("non_tanf", "Non-TANF Cases Returned", 15, 23, Field.Kind.NUMBER),
            new Field("total", "Total Cases Returned", 24, 32, Field.Kind.NUMBER),
            new Field("date", "Extract Date", 33, 40, Field.Kind.DATE),
            new Field("filler", "Filler", 41, 245, Field.Kind.FILLER));

    /** A record of spaces. */
    public static Rct blank() {
        return new Rct("", "", "", "", "", "", "");
    }

    /**
     * Reads a record in EBCDIC.
     *
     * @throws IllegalArgumentException where it hasn't 245 bytes
     */
    public static Rct read(byte[] record) {
        Columns.checked(record, WIDTH);
        return new Rct(
            Columns.text(record, 1, 3),
            Columns.text(record, 4, 5),
            Columns.text(record, 6, 14),
            Columns.text(record, 15, 23),
            Columns.text(record, 24, 32),
            Columns.text(record, 33, 40),
            Columns.text(record, 41, 245));
    }

    @Override
    public List<Field> fields() {
        return FIELDS;
    }

    @Override
    public List<Object> values() {
        return List.of(mark, state, tanf, nonTanf, total, date, filler);
    }

    /** The fields that aren't blank, without SSNs. */
    @Override
    public String toString() {
        return Columns.shown("Rct", this);
    }

    /** The same with another Record Identifier. */
    public Rct withMark(String mark) {
        return new Rct(mark, state, tanf, nonTanf, total, date, filler);
    }

    /** The same with another Submitting State Code. */
    public Rct withState(String state) {
        return new Rct(mark, state, tanf, nonTanf, total, date, filler);
    }

    /** The same with another TANF Cases Returned. */
    public Rct withTanf(String tanf) {
        return new Rct(mark, state, tanf, nonTanf, total, date, filler);
    }

    /** TANF Cases Returned as a number; empty where it isn't 9 digits. */
    public OptionalLong tanfNumber() {
        return Columns.number(tanf, 9);
    }

    /** The same with another TANF Cases Returned, as a number. */
    public Rct withTanfNumber(long number) {
        return withTanf(Columns.digits("tanf", number, 9));
    }

    /** The same with another Non-TANF Cases Returned. */
    public Rct withNonTanf(String nonTanf) {
        return new Rct(mark, state, tanf, nonTanf, total, date, filler);
    }

    /** Non-TANF Cases Returned as a number; empty where it isn't 9 digits. */
    public OptionalLong nonTanfNumber() {
        return Columns.number(nonTanf, 9);
    }

    /** The same with another Non-TANF Cases Returned, as a number. */
    public Rct withNonTanfNumber(long number) {
        return withNonTanf(Columns.digits("non_tanf", number, 9));
    }

    /** The same with another Total Cases Returned. */
    public Rct withTotal(String total) {
        return new Rct(mark, state, tanf, nonTanf, total, date, filler);
    }

    /** Total Cases Returned as a number; empty where it isn't 9 digits. */
    public OptionalLong totalNumber() {
        return Columns.number(total, 9);
    }

    /** The same with another Total Cases Returned, as a number. */
    public Rct withTotalNumber(long number) {
        return withTotal(Columns.digits("total", number, 9));
    }

    /** The same with another Extract Date. */
    public Rct withDate(String date) {
        return new Rct(mark, state, tanf, nonTanf, total, date, filler);
    }

    /** The same with another Filler. */
    public Rct withFiller(String filler) {
        return new Rct(mark, state, tanf, nonTanf, total, date, filler);
    }
}
