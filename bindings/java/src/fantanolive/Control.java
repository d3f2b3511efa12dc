package fantanolive;

import java.util.List;
import java.util.OptionalLong;

/**
 * The control record of a batch (Chart A-2, 245 bytes). Every field is a text without the spaces at its end. What was read is
 * written as the same bytes, whatever they are; nothing is judged here. Written by bin/generate-layouts from package/layouts.json; not to be edited.
 *
 * @param state Submitting State Code, 1-2: the submitting state
 * @param mark Control, 3-5: CTL
 * @param tanfRecords Total TANF Records, 6-14: details with case type A, nine digits
 * @param nonTanfRecords Total Non-TANF Records, 15-23: details with case type N, nine digits
 * @param tanfAmount Total TANF Amount, 24-34: dollars of A and M details with case type A, eleven digits
 * @param nonTanfAmount Total Non-TANF Amount, 35-45: dollars of A and M details with case type N, eleven digits
 * @param filler Filler, 46-245: spaces
 */
public record Control(
        String state,
        String mark,
        String tanfRecords,
        String nonTanfRecords,
        String tanfAmount,
        String nonTanfAmount,
        String filler) implements Layout {
    /** How many bytes a record has. */
    public static final int WIDTH = 245;

    /** The fields, in order and without gaps. */
    public static final List<Field> FIELDS = List.of(
            new Field("state", "Submitting State Code", 1, 2, Field.Kind.TEXT),
            new Field("mark", "Control", 3, 5, Field.Kind.TEXT),
            new Field("tanf_records", "Total TANF Records", 6, 14, Field.Kind.NUMBER),
            new Field("non_tanf_records", "Total Non-TANF Records", 15, 23, Field.Kind.NUMBER),
            new Field("tanf_amount", "Total TANF Amount", 24, 34, Field.Kind.NUMBER),
            new Field("non_tanf_amount", "Total Non-TANF Amount", 35, 45, Field.Kind.NUMBER),
            new Field("filler", "Filler", 46, 245, Field.Kind.FILLER));

    /** A record of spaces. */
    public static Control blank() {
        return new Control("", "", "", "", "", "", "");
    }

    /**
     * Reads a record in EBCDIC.
     *
     * @throws IllegalArgumentException where it hasn't 245 bytes
     */
    public static Control read(byte[] record) {
        Columns.checked(record, WIDTH);
        return new Control(
            Columns.text(record, 1, 2),
            Columns.text(record, 3, 5),
            Columns.text(record, 6, 14),
            Columns.text(record, 15, 23),
            Columns.text(record, 24, 34),
            Columns.text(record, 35, 45),
            Columns.text(record, 46, 245));
    }

    @Override
    public List<Field> fields() {
        return FIELDS;
    }

    @Override
    public List<Object> values() {
        return List.of(state, mark, tanfRecords, nonTanfRecords, tanfAmount, nonTanfAmount, filler);
    }

    /** The fields that aren't blank, without SSNs. */
    @Override
    public String toString() {
        return Columns.shown("Control", this);
    }

    /** The same with another Submitting State Code. */
    public Control withState(String state) {
        return new Control(state, mark, tanfRecords, nonTanfRecords, tanfAmount, nonTanfAmount, filler);
    }

    /** The same with another Control. */
    public Control withMark(String mark) {
        return new Control(state, mark, tanfRecords, nonTanfRecords, tanfAmount, nonTanfAmount, filler);
    }

    /** The same with another Total TANF Records. */
    public Control withTanfRecords(String tanfRecords) {
        return new Control(state, mark, tanfRecords, nonTanfRecords, tanfAmount, nonTanfAmount, filler);
    }

    /** Total TANF Records as a number; empty where it isn't 9 digits. */
    public OptionalLong tanfRecordsNumber() {
        return Columns.number(tanfRecords, 9);
    }

    /** The same with another Total TANF Records, as a number. */
    public Control withTanfRecordsNumber(long number) {
        return withTanfRecords(Columns.digits("tanf_records", number, 9));
    }

    /** The same with another Total Non-TANF Records. */
    public Control withNonTanfRecords(String nonTanfRecords) {
        return new Control(state, mark, tanfRecords, nonTanfRecords, tanfAmount, nonTanfAmount, filler);
    }

    /** Total Non-TANF Records as a number; empty where it isn't 9 digits. */
    public OptionalLong nonTanfRecordsNumber() {
        return Columns.number(nonTanfRecords, 9);
    }

    /** The same with another Total Non-TANF Records, as a number. */
    public Control withNonTanfRecordsNumber(long number) {
        return withNonTanfRecords(Columns.digits("non_tanf_records", number, 9));
    }

    /** The same with another Total TANF Amount. */
    public Control withTanfAmount(String tanfAmount) {
        return new Control(state, mark, tanfRecords, nonTanfRecords, tanfAmount, nonTanfAmount, filler);
    }

    /** Total TANF Amount as a number; empty where it isn't 11 digits. */
    public OptionalLong tanfAmountNumber() {
        return Columns.number(tanfAmount, 11);
    }

    /** The same with another Total TANF Amount, as a number. */
    public Control withTanfAmountNumber(long number) {
        return withTanfAmount(Columns.digits("tanf_amount", number, 11));
    }

    /** The same with another Total Non-TANF Amount. */
    public Control withNonTanfAmount(String nonTanfAmount) {
        return new Control(state, mark, tanfRecords, nonTanfRecords, tanfAmount, nonTanfAmount, filler);
    }

    /** Total Non-TANF Amount as a number; empty where it isn't 11 digits. */
    public OptionalLong nonTanfAmountNumber() {
        return Columns.number(nonTanfAmount, 11);
    }

    /** The same with another Total Non-TANF Amount, as a number. */
    public Control withNonTanfAmountNumber(long number) {
        return withNonTanfAmount(Columns.digits("non_tanf_amount", number, 11));
    }

    /** The same with another Filler. */
    public Control withFiller(String filler) {
        return new Control(state, mark, tanfRecords, nonTanfRecords, tanfAmount, nonTanfAmount, filler);
    }
}
