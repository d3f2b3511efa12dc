package fantanolive;

import java.util.List;
import java.util.OptionalLong;

/**
 * The control record of a reject file (Chart 0-2, 245 bytes). Every field is a text without the spaces at its end. What was read is
 * written as the same bytes, whatever they are; nothing is judged here. Written by bin/generate-layouts from package/layouts.json; not to be edited.
 *
 * @param state Submitting State Code, 1-2: that of the batch's control record
 * @param mark Reject Control, 3-5: CTL
 * @param tanfAccepted TANF Accepted, 6-14: nine digits each; accepted includes warned
 * @param tanfRejected TANF Rejected, 15-23
 * @param nonTanfAccepted Non-TANF Accepted, 24-32
 * @param nonTanfRejected Non-TANF Rejected, 33-41
 * @param tanfWarned TANF Warning, 42-50
 * @param nonTanfWarned Non-TANF Warning, 51-59
 * @param filler Filler, 60-245: spaces
 */
public record RejectControl(
        String state,
        String mark,
        String tanfAccepted,
        String tanfRejected,
        String nonTanfAccepted,
        String nonTanfRejected,
        String tanfWarned,
        String nonTanfWarned,
        String filler) implements Layout {
    /** How many bytes a record has. */
    public static final int WIDTH = 245;

    /** The fields, in order and without gaps. */
    public static final List<Field> FIELDS = List.of(
            new Field("state", "Submitting State Code", 1, 2, Field.Kind.TEXT),
            new Field("mark", "Reject Control", 3, 5, Field.Kind.TEXT),
            new Field("tanf_accepted", "TANF Accepted", 6, 14, Field.Kind.NUMBER),
            new Field("tanf_rejected", "TANF Rejected", 15, 23, Field.Kind.NUMBER),
            new Field("non_tanf_accepted", "Non-TANF Accepted", 24, 32, Field.Kind.NUMBER),
            new Field("non_tanf_rejected", "Non-TANF Rejected", 33, 41, Field.Kind.NUMBER),
            new Field("tanf_warned", "TANF Warning", 42, 50, Field.Kind.NUMBER),
            new Field("non_tanf_warned", "Non-TANF Warning", 51, 59, Field.Kind.NUMBER),
            new Field("filler", "Filler", 60, 245, Field.Kind.FILLER));

    /** A record of spaces. */
    public static RejectControl blank() {
        return new RejectControl("", "", "", "", "", "", "", "", "");
    }

    /**
     * Reads a record in EBCDIC.
     *
     * @throws IllegalArgumentException where it hasn't 245 bytes
     */
    public static RejectControl read(byte[] record) {
        Columns.checked(record, WIDTH);
        return new RejectControl(
            Columns.text(record, 1, 2),
            Columns.text(record, 3, 5),
            Columns.text(record, 6, 14),
            Columns.text(record, 15, 23),
            Columns.text(record, 24, 32),
            Columns.text(record, 33, 41),
            Columns.text(record, 42, 50),
            Columns.text(record, 51, 59),
            Columns.text(record, 60, 245));
    }

    @Override
    public List<Field> fields() {
        return FIELDS;
    }

    @Override
    public List<Object> values() {
        return List.of(state, mark, tanfAccepted, tanfRejected, nonTanfAccepted, nonTanfRejected, tanfWarned, nonTanfWarned, filler);
    }

    /** The fields that aren't blank, without SSNs. */
    @Override
    public String toString() {
        return Columns.shown("RejectControl", this);
    }

    /** The same with another Submitting State Code. */
    public RejectControl withState(String state) {
        return new RejectControl(state, mark, tanfAccepted, tanfRejected, nonTanfAccepted, nonTanfRejected, tanfWarned, nonTanfWarned, filler);
    }

    /** The same with another Reject Control. */
    public RejectControl withMark(String mark) {
        return new RejectControl(state, mark, tanfAccepted, tanfRejected, nonTanfAccepted, nonTanfRejected, tanfWarned, nonTanfWarned, filler);
    }

    /** The same with another TANF Accepted. */
    public RejectControl withTanfAccepted(String tanfAccepted) {
        return new RejectControl(state, mark, tanfAccepted, tanfRejected, nonTanfAccepted, nonTanfRejected, tanfWarned, nonTanfWarned, filler);
    }

    /** TANF Accepted as a number; empty where it isn't 9 digits. */
    public OptionalLong tanfAcceptedNumber() {
        return Columns.number(tanfAccepted, 9);
    }

    /** The same with another TANF Accepted, as a number. */
    public RejectControl withTanfAcceptedNumber(long number) {
        return withTanfAccepted(Columns.digits("tanf_accepted", number, 9));
    }

    /** The same with another TANF Rejected. */
    public RejectControl withTanfRejected(String tanfRejected) {
        return new RejectControl(state, mark, tanfAccepted, tanfRejected, nonTanfAccepted, nonTanfRejected, tanfWarned, nonTanfWarned, filler);
    }

    /** TANF Rejected as a number; empty where it isn't 9 digits. */
    public OptionalLong tanfRejectedNumber() {
        return Columns.number(tanfRejected, 9);
    }

    /** The same with another TANF Rejected, as a number. */
    public RejectControl withTanfRejectedNumber(long number) {
        return withTanfRejected(Columns.digits("tanf_rejected", number, 9));
    }

    /** The same with another Non-TANF Accepted. */
    public RejectControl withNonTanfAccepted(String nonTanfAccepted) {
        return new RejectControl(state, mark, tanfAccepted, tanfRejected, nonTanfAccepted, nonTanfRejected, tanfWarned, nonTanfWarned, filler);
    }

    /** Non-TANF Accepted as a number; empty where it isn't 9 digits. */
    public OptionalLong nonTanfAcceptedNumber() {
        return Columns.number(nonTanfAccepted, 9);
    }

    /** The same with another Non-TANF Accepted, as a number. */
    public RejectControl withNonTanfAcceptedNumber(long number) {
        return withNonTanfAccepted(Columns.digits("non_tanf_accepted", number, 9));
    }

    /** The same with another Non-TANF Rejected. */
    public RejectControl withNonTanfRejected(String nonTanfRejected) {
        return new RejectControl(state, mark, tanfAccepted, tanfRejected, nonTanfAccepted, nonTanfRejected, tanfWarned, nonTanfWarned, filler);
    }

    /** Non-TANF Rejected as a number; empty where it isn't 9 digits. */
    public OptionalLong nonTanfRejectedNumber() {
        return Columns.number(nonTanfRejected, 9);
    }

    /** The same with another Non-TANF Rejected, as a number. */
    public RejectControl withNonTanfRejectedNumber(long number) {
        return withNonTanfRejected(Columns.digits("non_tanf_rejected", number, 9));
    }

    /** The same with another TANF Warning. */
    public RejectControl withTanfWarned(String tanfWarned) {
        return new RejectControl(state, mark, tanfAccepted, tanfRejected, nonTanfAccepted, nonTanfRejected, tanfWarned, nonTanfWarned, filler);
    }

    /** TANF Warning as a number; empty where it isn't 9 digits. */
    public OptionalLong tanfWarnedNumber() {
        return Columns.number(tanfWarned, 9);
    }

    /** The same with another TANF Warning, as a number. */
    public RejectControl withTanfWarnedNumber(long number) {
        return withTanfWarned(Columns.digits("tanf_warned", number, 9));
    }

    /** The same with another Non-TANF Warning. */
    public RejectControl withNonTanfWarned(String nonTanfWarned) {
        return new RejectControl(state, mark, tanfAccepted, tanfRejected, nonTanfAccepted, nonTanfRejected, tanfWarned, nonTanfWarned, filler);
    }

    /** Non-TANF Warning as a number; empty where it isn't 9 digits. */
    public OptionalLong nonTanfWarnedNumber() {
        return Columns.number(nonTanfWarned, 9);
    }

    /** The same with another Non-TANF Warning, as a number. */
    public RejectControl withNonTanfWarnedNumber(long number) {
        return withNonTanfWarned(Columns.digits("non_tanf_warned", number, 9));
    }

    /** The same with another Filler. */
    public RejectControl withFiller(String filler) {
        return new RejectControl(state, mark, tanfAccepted, tanfRejected, nonTanfAccepted, nonTanfRejected, tanfWarned, nonTanfWarned, filler);
    }
}
