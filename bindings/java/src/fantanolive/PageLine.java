package fantanolive;

import java.util.List;
import java.util.OptionalLong;

/**
 * A case on a case page (case page, 132 bytes). Every field is a text without the spaces at its end. What was read is
 * written as the same bytes, whatever they are; nothing is judged here. Written by bin/generate-layouts from package/layouts.json; not to be edited.
 *
 * @param state Submitting State Code, 1-2: as in the row, like the fields below
 * @param ssn SSN, 3-11
 * @param caseType Case Type Indicator, 12
 * @param filler1 Filler, 13: a space
 * @param localCode Local Code, 14-16
 * @param filler2 Filler, 17: a space
 * @param lastName Obligor Last Name, 18-37
 * @param filler3 Filler, 38: a space
 * @param firstName Obligor First Name, 39-53
 * @param filler4 Filler, 54: a space
 * @param arrearage Arrearage Amount, 55-62: whole dollars; the cents are not shown
 * @param filler5 Filler, 63: a space
 * @param exclusionCount Number of Exclusions, 64: how many exclusions the row has, 0 to 8
 * @param filler6 Filler, 65-132: spaces
 */
public record PageLine(
        String state,
        String ssn,
        String caseType,
        String filler1,
        String localCode,
        String filler2,
        String lastName,
        String filler3,
        String firstName,
        String filler4,
        String arrearage,
        String filler5,
        String exclusionCount,
        String filler6) implements Layout {
    /** How many bytes a record has. */
    public static final int WIDTH = 132;

    /** The fields, in order and without gaps. */
    public static final List<Field> FIELDS = List.of(
            new Field("state", "Submitting State Code", 1, 2, Field.Kind.TEXT),
            new Field("ssn", "SSN", 3, 11, Field.Kind.SSN),
            new Field("case_type", "Case Type Indicator", 12, 12, Field.Kind.TEXT),
            new Field("filler_1", "Filler", 13, 13, Field.Kind.FILLER),
            new Field("local_code", "Local Code", 14, 16, Field.Kind.TEXT),
            new Field("filler_2", "Filler", 17, 17, Field.Kind.FILLER),
            new Field("last_name", "Obligor Last Name", 18, 37, Field.Kind.TEXT),
            new Field("filler_3", "Filler", 38, 38, Field.Kind.FILLER),
            new Field("first_name", "Obligor First Name", 39, 53, Field.Kind.TEXT),
            new Field("filler_4", "Filler", 54, 54, Field.Kind.FILLER),
            new Field("arrearage", "Arrearage Amount", 55, 62, Field.Kind.NUMBER),
            new Field("filler_5", "Filler", 63, 63, Field.Kind.FILLER),
            new Field("exclusion_count", "Number of Exclusions", 64, 64, Field.Kind.NUMBER),
            new Field("filler_6", "Filler", 65, 132, Field.Kind.FILLER));

    /** A record of spaces. */
    public static PageLine blank() {
        return new PageLine("", "", "", "", "", "", "", "", "", "", "", "", "", "");
    }

    /**
     * Reads a record in EBCDIC.
     *
     * @throws IllegalArgumentException where it hasn't 132 bytes
     */
    public static PageLine read(byte[] record) {
        Columns.checked(record, WIDTH);
        return new PageLine(
            Columns.text(record, 1, 2),
            Columns.text(record, 3, 11),
            Columns.text(record, 12, 12),
            Columns.text(record, 13, 13),
            Columns.text(record, 14, 16),
            Columns.text(record, 17, 17),
            Columns.text(record, 18, 37),
            Columns.text(record, 38, 38),
            Columns.text(record, 39, 53),
            Columns.text(record, 54, 54),
            Columns.text(record, 55, 62),
            Columns.text(record, 63, 63),
            Columns.text(record, 64, 64),
            Columns.text(record, 65, 132));
    }

    @Override
    public List<Field> fields() {
        return FIELDS;
    }

    @Override
    public List<Object> values() {
        return List.of(state, ssn, caseType, filler1, localCode, filler2, lastName, filler3, firstName, filler4, arrearage, filler5, exclusionCount, filler6);
    }

    /** The fields that aren't blank, without SSNs. */
    @Override
    public String toString() {
        return Columns.shown("PageLine", this);
    }

    /** The same with another Submitting State Code. */
    public PageLine withState(String state) {
        return new PageLine(state, ssn, caseType, filler1, localCode, filler2, lastName, filler3, firstName, filler4, arrearage, filler5, exclusionCount, filler6);
    }

    /** The same with another SSN. */
    public PageLine withSsn(String ssn) {
        return new PageLine(state, ssn, caseType, filler1, localCode, filler2, lastName, filler3, firstName, filler4, arrearage, filler5, exclusionCount, filler6);
    }

    /** The same with another Case Type Indicator. */
    public PageLine withCaseType(String caseType) {
        return new PageLine(state, ssn, caseType, filler1, localCode, filler2, lastName, filler3, firstName, filler4, arrearage, filler5, exclusionCount, filler6);
    }

    /** The same with another Filler. */
    public PageLine withFiller1(String filler1) {
        return new PageLine(state, ssn, caseType, filler1, localCode, filler2, lastName, filler3, firstName, filler4, arrearage, filler5, exclusionCount, filler6);
    }

    /** The same with another Local Code. */
    public PageLine withLocalCode(String localCode) {
        return new PageLine(state, ssn, caseType, filler1, localCode, filler2, lastName, filler3, firstName, filler4, arrearage, filler5, exclusionCount, filler6);
    }

    /** The same with another Filler. */
    public PageLine withFiller2(String filler2) {
        return new PageLine(state, ssn, caseType, filler1, localCode, filler2, lastName, filler3, firstName, filler4, arrearage, filler5, exclusionCount, filler6);
    }

    /** The same with another Obligor Last Name. */
    public PageLine withLastName(String lastName) {
        return new PageLine(state, ssn, caseType, filler1, localCode, filler2, lastName, filler3, firstName, filler4, arrearage, filler5, exclusionCount, filler6);
    }

    /** The same with another Filler. */
    public PageLine withFiller3(String filler3) {
        return new PageLine(state, ssn, caseType, filler1, localCode, filler2, lastName, filler3, firstName, filler4, arrearage, filler5, exclusionCount, filler6);
    }

    /** The same with another Obligor First Name. */
    public PageLine withFirstName(String firstName) {
        return new PageLine(state, ssn, caseType, filler1, localCode, filler2, lastName, filler3, firstName, filler4, arrearage, filler5, exclusionCount, filler6);
    }

    /** The same with another Filler. */
    public PageLine withFiller4(String filler4) {
        return new PageLine(state, ssn, caseType, filler1, localCode, filler2, lastName, filler3, firstName, filler4, arrearage, filler5, exclusionCount, filler6);
    }

    /** The same with another Arrearage Amount. */
    public PageLine withArrearage(String arrearage) {
        return new PageLine(state, ssn, caseType, filler1, localCode, filler2, lastName, filler3, firstName, filler4, arrearage, filler5, exclusionCount, filler6);
    }

    /** Arrearage Amount as a number; empty where it isn't 8 digits. */
    public OptionalLong arrearageNumber() {
        return Columns.number(arrearage, 8);
    }

    /** The same with another Arrearage Amount, as a number. */
    public PageLine withArrearageNumber(long number) {
        return withArrearage(Columns.digits("arrearage", number, 8));
    }

    /** The same with another Filler. */
    public PageLine withFiller5(String filler5) {
        return new PageLine(state, ssn, caseType, filler1, localCode, filler2, lastName, filler3, firstName, filler4, arrearage, filler5, exclusionCount, filler6);
    }

    /** The same with another Number of Exclusions. */
    public PageLine withExclusionCount(String exclusionCount) {
        return new PageLine(state, ssn, caseType, filler1, localCode, filler2, lastName, filler3, firstName, filler4, arrearage, filler5, exclusionCount, filler6);
    }

    /** Number of Exclusions as a number; empty where it isn't 1 digits. */
    public OptionalLong exclusionCountNumber() {
        return Columns.number(exclusionCount, 1);
    }

    /** The same with another Number of Exclusions, as a number. */
    public PageLine withExclusionCountNumber(long number) {
        return withExclusionCount(Columns.digits("exclusion_count", number, 1));
    }

    /** The same with another Filler. */
    public PageLine withFiller6(String filler6) {
        return new PageLine(state, ssn, caseType, filler1, localCode, filler2, lastName, filler3, firstName, filler4, arrearage, filler5, exclusionCount, filler6);
    }
}
