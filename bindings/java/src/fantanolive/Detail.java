package fantanolive;

import java.util.List;
import java.util.OptionalLong;

/**
 * A detail of a batch (Chart A-1, 245 bytes). Every field is a text without the spaces at its end. What was read is
 * written as the same bytes, whatever they are; nothing is judged here. Written by bin/generate-layouts from package/layouts.json; not to be edited.
 *
 * @param state Submitting State Code, 1-2: the submitting state, that of the control record; key
 * @param localCode Local Code, 3-5: A and L
 * @param ssn SSN, 6-14: key
 * @param caseId Case ID, 15-29: A and C
 * @param lastName Obligor Last Name, 30-49: all types; stored by A and B
 * @param firstName Obligor First Name, 50-64: A and B
 * @param arrearage Arrearage Amount, 65-72: A and M: whole dollars; S: the accumulated payment
 * @param transactionType Transaction Type, 73: A B C D L M R S T Z
 * @param caseType Case Type Indicator, 74: A or N; key
 * @param transferState Transfer State Code, 75-76: T
 * @param transferLocalCode Transfer Local Code, 77-79: T; may be blank
 * @param processYear Process Year, 80-83: S
 * @param addressLine1 Obligor Address Line 1, 84-113: A and Z
 * @param addressLine2 Obligor Address Line 2, 114-143: A and Z
 * @param city Obligor City, 144-168: A and Z
 * @param addressState Obligor State, 169-170: A and Z
 * @param zip Obligor Zip Code, 171-179: A and Z: nine digits, or five and four spaces
 * @param dateIssued Date Issued, 180-187: A: CCYYMMDD, or blank
 * @param exclusions Exclusion Indicator(s), 188-227: A and R: words with commas or spaces between them
 * @param filler Filler, 228-244: spaces
 * @param requestCode Request Code, 245: not looked at
 */
public record Detail(
        String state,
        String localCode,
        String ssn,
        String caseId,
        String lastName,
        String firstName,
        String arrearage,
        String transactionType,
        String caseType,
        String transferState,
        String transferLocalCode,
        String processYear,
        String addressLine1,
        String addressLine2,
        String city,
        String addressState,
        String zip,
        String dateIssued,
        String exclusions,
        String filler,
        String requestCode) implements Layout {
    /** How many bytes a record has. */
    public static final int WIDTH = 245;

    /** The fields, in order and without gaps. */
    public static final List<Field> FIELDS = List.of(
            new Field("state", "Submitting State Code", 1, 2, Field.Kind.TEXT),
            new Field("local_code", "Local Code", 3, 5, Field.Kind.TEXT),
            new Field("ssn", "SSN", 6, 14, Field.Kind.SSN),
            new Field("case_id", "Case ID", 15, 29, Field.Kind.TEXT),
            new Field("last_name", "Obligor Last Name", 30, 49, Field.Kind.TEXT),
            new Field("first_name", "Obligor First Name", 50, 64, Field.Kind.TEXT),
            new Field("arrearage", "Arrearage Amount", 65, 72, Field.Kind.NUMBER),
            new Field("transaction_type", "Transaction Type", 73, 73, Field.Kind.TEXT),
            new Field("case_type", "Case Type Indicator", 74, 74, Field.Kind.TEXT),
            new Field("transfer_state", "Transfer State Code", 75, 76, Field.Kind.TEXT),
            new Field("transfer_local_code", "Transfer Local Code", 77, 79, Field.Kind.TEXT),
            new Field("process_year", "Process Year", 80, 83, Field.Kind.NUMBER),
            new Field("address_line_1", "Obligor Address Line 1", 84, 113, Field.Kind.TEXT),
            new Field("address_line_2", "Obligor Address Line 2", 114, 143, Field.Kind.TEXT),
            new Field("city", "Obligor City", 144, 168, Field.Kind.TEXT),
            new Field("address_state", "Obligor State", 169, 170, Field.Kind.TEXT),
            new Field("zip", "Obligor Zip Code", 171, 179, Field.Kind.TEXT),
            new Field("date_issued", "Date Issued", 180, 187, Field.Kind.DATE),
            new Field("exclusions", "Exclusion Indicator(s)", 188, 227, Field.Kind.TEXT),
            new Field("filler", "Filler", 228, 244, Field.Kind.FILLER),
            new Field("request_code", "Request Code", 245, 245, Field.Kind.TEXT));

    /** A record of spaces. */
    public static Detail blank() {
        return new Detail("", "", "", "", "", "", "", "", "", "", "", "", "", "", "", "", "", "", "", "", "");
    }

    /**
     * Reads a record in EBCDIC.
     *
     * @throws IllegalArgumentException where it hasn't 245 bytes
     */
    public static Detail read(byte[] record) {
        Columns.checked(record, WIDTH);
        return new Detail(
            Columns.text(record, 1, 2),
            Columns.text(record, 3, 5),
            Columns.text(record, 6, 14),
            Columns.text(record, 15, 29),
            Columns.text(record, 30, 49),
            Columns.text(record, 50, 64),
            Columns.text(record, 65, 72),
            Columns.text(record, 73, 73),
            Columns.text(record, 74, 74),
            Columns.text(record, 75, 76),
            Columns.text(record, 77, 79),
            Columns.text(record, 80, 83),
            Columns.text(record, 84, 113),
            Columns.text(record, 114, 143),
            Columns.text(record, 144, 168),
            Columns.text(record, 169, 170),
            Columns.text(record, 171, 179),
            Columns.text(record, 180, 187),
            Columns.text(record, 188, 227),
            Columns.text(record, 228, 244),
            Columns.text(record, 245, 245));
    }

    @Override
    public List<Field> fields() {
        return FIELDS;
    }

    @Override
    public List<Object> values() {
        return List.of(state, localCode, ssn, caseId, lastName, firstName, arrearage, transactionType, caseType, transferState, transferLocalCode, processYear, addressLine1, addressLine2, city, addressState, zip, dateIssued, exclusions, filler, requestCode);
    }

    /** The fields that aren't blank, without SSNs. */
    @Override
    public String toString() {
        return Columns.shown("Detail", this);
    }

    /** The same with another Submitting State Code. */
    public Detail withState(String state) {
        return new Detail(state, localCode, ssn, caseId, lastName, firstName, arrearage, transactionType, caseType, transferState, transferLocalCode, processYear, addressLine1, addressLine2, city, addressState, zip, dateIssued, exclusions, filler, requestCode);
    }

    /** The same with another Local Code. */
    public Detail withLocalCode(String localCode) {
        return new Detail(state, localCode, ssn, caseId, lastName, firstName, arrearage, transactionType, caseType, transferState, transferLocalCode, processYear, addressLine1, addressLine2, city, addressState, zip, dateIssued, exclusions, filler, requestCode);
    }

    /** The same with another SSN. */
    public Detail withSsn(String ssn) {
        return new Detail(state, localCode, ssn, caseId, lastName, firstName, arrearage, transactionType, caseType, transferState, transferLocalCode, processYear, addressLine1, addressLine2, city, addressState, zip, dateIssued, exclusions, filler, requestCode);
    }

    /** The same with another Case ID. */
    public Detail withCaseId(String caseId) {
        return new Detail(state, localCode, ssn, caseId, lastName, firstName, arrearage, transactionType, caseType, transferState, transferLocalCode, processYear, addressLine1, addressLine2, city, addressState, zip, dateIssued, exclusions, filler, requestCode);
    }

    /** The same with another Obligor Last Name. */
    public Detail withLastName(String lastName) {
        return new Detail(state, localCode, ssn, caseId, lastName, firstName, arrearage, transactionType, caseType, transferState, transferLocalCode, processYear, addressLine1, addressLine2, city, addressState, zip, dateIssued, exclusions, filler, requestCode);
    }

    /** The same with another Obligor First Name. */
    public Detail withFirstName(String firstName) {
        return new Detail(state, localCode, ssn, caseId, lastName, firstName, arrearage, transactionType, caseType, transferState, transferLocalCode, processYear, addressLine1, addressLine2, city, addressState, zip, dateIssued, exclusions, filler, requestCode);
    }

    /** The same with another Arrearage Amount. */
    public Detail withArrearage(String arrearage) {
        return new Detail(state, localCode, ssn, caseId, lastName, firstName, arrearage, transactionType, caseType, transferState, transferLocalCode, processYear, addressLine1, addressLine2, city, addressState, zip, dateIssued, exclusions, filler, requestCode);
    }

    /** Arrearage Amount as a number; empty where it isn't 8 digits. */
    public OptionalLong arrearageNumber() {
        return Columns.number(arrearage, 8);
    }

    /** The same with another Arrearage Amount, as a number. */
    public Detail withArrearageNumber(long number) {
        return withArrearage(Columns.digits("arrearage", number, 8));
    }

    /** The same with another Transaction Type. */
    public Detail withTransactionType(String transactionType) {
        return new Detail(state, localCode, ssn, caseId, lastName, firstName, arrearage, transactionType, caseType, transferState, transferLocalCode, processYear, addressLine1, addressLine2, city, addressState, zip, dateIssued, exclusions, filler, requestCode);
    }

    /** The same with another Case Type Indicator. */
    public Detail withCaseType(String caseType) {
        return new Detail(state, localCode, ssn, caseId, lastName, firstName, arrearage, transactionType, caseType, transferState, transferLocalCode, processYear, addressLine1, addressLine2, city, addressState, zip, dateIssued, exclusions, filler, requestCode);
    }

    /** The same with another Transfer State Code. */
    public Detail withTransferState(String transferState) {
        return new Detail(state, localCode, ssn, caseId, lastName, firstName, arrearage, transactionType, caseType, transferState, transferLocalCode, processYear, addressLine1, addressLine2, city, addressState, zip, dateIssued, exclusions, filler, requestCode);
    }

    /** The same with another Transfer Local Code. */
    public Detail withTransferLocalCode(String transferLocalCode) {
        return new Detail(state, localCode, ssn, caseId, lastName, firstName, arrearage, transactionType, caseType, transferState, transferLocalCode, processYear, addressLine1, addressLine2, city, addressState, zip, dateIssued, exclusions, filler, requestCode);
    }

    /** The same with another Process Year. */
    public Detail withProcessYear(String processYear) {
        return new Detail(state, localCode, ssn, caseId, lastName, firstName, arrearage, transactionType, caseType, transferState, transferLocalCode, processYear, addressLine1, addressLine2, city, addressState, zip, dateIssued, exclusions, filler, requestCode);
    }

    /** Process Year as a number; empty where it isn't 4 digits. */
    public OptionalLong processYearNumber() {
        return Columns.number(processYear, 4);
    }

    /** The same with another Process Year, as a number. */
    public Detail withProcessYearNumber(long number) {
        return withProcessYear(Columns.digits("process_year", number, 4));
    }

    /** The same with another Obligor Address Line 1. */
    public Detail withAddressLine1(String addressLine1) {
        return new Detail(state, localCode, ssn, caseId, lastName, firstName, arrearage, transactionType, caseType, transferState, transferLocalCode, processYear, addressLine1, addressLine2, city, addressState, zip, dateIssued, exclusions, filler, requestCode);
    }

    /** The same with another Obligor Address Line 2. */
    public Detail withAddressLine2(String addressLine2) {
        return new Detail(state, localCode, ssn, caseId, lastName, firstName, arrearage, transactionType, caseType, transferState, transferLocalCode, processYear, addressLine1, addressLine2, city, addressState, zip, dateIssued, exclusions, filler, requestCode);
    }

    /** The same with another Obligor City. */
    public Detail withCity(String city) {
        return new Detail(state, localCode, ssn, caseId, lastName, firstName, arrearage, transactionType, caseType, transferState, transferLocalCode, processYear, addressLine1, addressLine2, city, addressState, zip, dateIssued, exclusions, filler, requestCode);
    }

    /** The same with another Obligor State. */
    public Detail withAddressState(String addressState) {
        return new Detail(state, localCode, ssn, caseId, lastName, firstName, arrearage, transactionType, caseType, transferState, transferLocalCode, processYear, addressLine1, addressLine2, city, addressState, zip, dateIssued, exclusions, filler, requestCode);
    }

    /** The same with another Obligor Zip Code. */
    public Detail withZip(String zip) {
        return new Detail(state, localCode, ssn, caseId, lastName, firstName, arrearage, transactionType, caseType, transferState, transferLocalCode, processYear, addressLine1, addressLine2, city, addressState, zip, dateIssued, exclusions, filler, requestCode);
    }

    /** The same with another Date Issued. */
    public Detail withDateIssued(String dateIssued) {
        return new Detail(state, localCode, ssn, caseId, lastName, firstName, arrearage, transactionType, caseType, transferState, transferLocalCode, processYear, addressLine1, addressLine2, city, addressState, zip, dateIssued, exclusions, filler, requestCode);
    }

    /** The same with another Exclusion Indicator(s). */
    public Detail withExclusions(String exclusions) {
        return new Detail(state, localCode, ssn, caseId, lastName, firstName, arrearage, transactionType, caseType, transferState, transferLocalCode, processYear, addressLine1, addressLine2, city, addressState, zip, dateIssued, exclusions, filler, requestCode);
    }

    /** The same with another Filler. */
    public Detail withFiller(String filler) {
        return new Detail(state, localCode, ssn, caseId, lastName, firstName, arrearage, transactionType, caseType, transferState, transferLocalCode, processYear, addressLine1, addressLine2, city, addressState, zip, dateIssued, exclusions, filler, requestCode);
    }

    /** The same with another Request Code. */
    public Detail withRequestCode(String requestCode) {
        return new Detail(state, localCode, ssn, caseId, lastName, firstName, arrearage, transactionType, caseType, transferState, transferLocalCode, processYear, addressLine1, addressLine2, city, addressState, zip, dateIssued, exclusions, filler, requestCode);
    }
}
