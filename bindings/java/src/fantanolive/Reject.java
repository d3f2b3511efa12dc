package fantanolive;

import java.util.List;
import java.util.OptionalLong;

/**
 * A reject record (Chart 0-1, 245 bytes). Every field is a text without the spaces at its end. What was read is
 * written as the same bytes, whatever they are; nothing is judged here. Written by bin/generate-layouts from package/layouts.json; not to be edited.
 *
 * @param state Submitting State Code, 1-2: as sent
 * @param localCode Local Code, 3-5: as sent
 * @param ssn SSN, 6-14: as sent
 * @param caseId Case ID, 15-29: as sent
 * @param lastName Obligor Last Name, 30-49: as sent
 * @param firstName Obligor First Name, 50-64: as sent
 * @param arrearage Arrearage Amount, 65-72: as sent
 * @param transactionType Transaction Type, 73: as sent
 * @param caseType Case Type Indicator, 74: as sent
 * @param transferState Transfer State Code, 75-76: as sent
 * @param transferLocalCode Transfer Local Code, 77-79: as sent
 * @param processYear Process Year, 80-83: as sent
 * @param addressLine1 Obligor Address Line 1, 84-113: as sent
 * @param addressLine2 Obligor Address Line 2, 114-143: as sent
 * @param city Obligor City, 144-168: as sent
 * @param addressState Obligor State, 169-170: as sent
 * @param zip Obligor Zip Code, 171-179: as sent
 * @param dateIssued Date Issued, 180-187: as sent
 * @param exclusions Exclusion Indicator(s), 188-227: as sent
 * @param errorCodes Rejected Error Codes, 228-239: the six lowest, rising, two digits each; spaces behind them
 * @param storedName OCSE Last Name, 240-243: with 17 the first four characters of the row's last name, else spaces
 * @param filler Filler, 244: a space
 * @param requestCode Request Code, 245: as sent
 */
public record Reject(
        String state,
        String localCode,
        String ssn,
        String caseId,
        String lastName,
        String firstName,
        String arrearage,
        String transactionType,
        String caseType,
        String transferState,
        String transferLocalCode,
        String processYear,
        String addressLine1,
        String addressLine2,
        String city,
        String addressState,
        String zip,
        String dateIssued,
        String exclusions,
        String errorCodes,
        String storedName,
        String filler,
        String requestCode) implements Layout {
    /** How many bytes a record has. */
    public static final int WIDTH = 245;

    /** The fields, in order and without gaps. */
    public static final List<Field> FIELDS = List.of(
            new Field("state", "Submitting State Code", 1, 2, Field.Kind.TEXT),
            new Field("local_code", "Local Code", 3, 5, Field.Kind.TEXT),
            new Field("ssn", "SSN", 6, 14, Field.Kind.SSN),
            new Field("case_id", "Case ID", 15, 29, Field.Kind.TEXT),
            new Field("last_name", "Obligor Last Name", 30, 49, Field.Kind.TEXT),
            new Field("first_name", "Obligor First Name", 50, 64, Field.Kind.TEXT),
            new Field("arrearage", "Arrearage Amount", 65, 72, Field.Kind.NUMBER),
            new Field("transaction_type", "Transaction Type", 73, 73, Field.Kind.TEXT),
            new Field("case_type", "Case Type Indicator", 74, 74, Field.Kind.TEXT),
            new Field("transfer_state", "Transfer State Code", 75, 76, Field.Kind.TEXT),
            new Field("transfer_local_code", "Transfer Local Code", 77, 79, Field.Kind.TEXT),
            new Field("process_year", "Process Year", 80, 83, Field.Kind.NUMBER),
            new Field("address_line_1", "Obligor Address Line 1", 84, 113, Field.Kind.TEXT),
            new Field("address_line_2", "Obligor Address Line 2", 114, 143, Field.Kind.TEXT),
            new Field("city", "Obligor City", 144, 168, Field.Kind.TEXT),
            new Field("address_state", "Obligor State", 169, 170, Field.Kind.TEXT),
            new Field("zip", "Obligor Zip Code", 171, 179, Field.Kind.TEXT),
            new Field("date_issued", "Date Issued", 180, 187, Field.Kind.DATE),
            new Field("exclusions", "Exclusion Indicator(s)", 188, 227, Field.Kind.TEXT),
            new Field("error_codes", "Rejected Error Codes", 228, 239, Field.Kind.TEXT),
            new Field("stored_name", "OCSE Last Name", 240, 243, Field.Kind.TEXT),
            new Field("filler", "Filler", 244, 244, Field.Kind.FILLER),
            new Field("request_code", "Request Code", 245, 245, Field.Kind.TEXT));

    /** A record of spaces. */
    public static Reject blank() {
        return new Reject("", "", "", "", "", "", "", "", "", "", "", "", "", "", "", "", "", "", "", "", "", "", "");
    }

    /**
     * Reads a record in EBCDIC.
     *
     * @throws IllegalArgumentException where it hasn't 245 bytes
     */
    public static Reject read(byte[] record) {
        Columns.checked(record, WIDTH);
        return new Reject(
            Columns.text(record, 1, 2),
            Columns.text(record, 3, 5),
            Columns.text(record, 6, 14),
            Columns.text(record, 15, 29),
            Columns.text(record, 30, 49),
            Columns.text(record, 50, 64),
            Columns.text(record, 65, 72),
            Columns.text(record, 73, 73),
            Columns.text(record, 74, 74),
            Columns.text(record, 75, 76),
            Columns.text(record, 77, 79),
            Columns.text(record, 80, 83),
            Columns.text(record, 84, 113),
            Columns.text(record, 114, 143),
            Columns.text(record, 144, 168),
            Columns.text(record, 169, 170),
            Columns.text(record, 171, 179),
            Columns.text(record, 180, 187),
            Columns.text(record, 188, 227),
            Columns.text(record, 228, 239),
            Columns.text(record, 240, 243),
            Columns.text(record, 244, 244),
            Columns.text(record, 245, 245));
    }

    @Override
    public List<Field> fields() {
        return FIELDS;
    }

    @Override
    public List<Object> values() {
        return List.of(state, localCode, ssn, caseId, lastName, firstName, arrearage, transactionType, caseType, transferState, transferLocalCode, processYear, addressLine1, addressLine2, city, addressState, zip, dateIssued, exclusions, errorCodes, storedName, filler, requestCode);
    }

    /** The fields that aren't blank, without SSNs. */
    @Override
    public String toString() {
        return Columns.shown("Reject", this);
    }

    /** The same with another Submitting State Code. */
    public Reject withState(String state) {
        return new Reject(state, localCode, ssn, caseId, lastName, firstName, arrearage, transactionType, caseType, transferState, transferLocalCode, processYear, addressLine1, addressLine2, city, addressState, zip, dateIssued, exclusions, errorCodes, storedName, filler, requestCode);
    }

    /** The same with another Local Code. */
    public Reject withLocalCode(String localCode) {
        return new Reject(state, localCode, ssn, caseId, lastName, firstName, arrearage, transactionType, caseType, transferState, transferLocalCode, processYear, addressLine1, addressLine2, city, addressState, zip, dateIssued, exclusions, errorCodes, storedName, filler, requestCode);
    }

    /** The same with another SSN. */
    public Reject withSsn(String ssn) {
        return new Reject(state, localCode, ssn, caseId, lastName, firstName, arrearage, transactionType, caseType, transferState, transferLocalCode, processYear, addressLine1, addressLine2, city, addressState, zip, dateIssued, exclusions, errorCodes, storedName, filler, requestCode);
    }

    /** The same with another Case ID. */
    public Reject withCaseId(String caseId) {
        return new Reject(state, localCode, ssn, caseId, lastName, firstName, arrearage, transactionType, caseType, transferState, transferLocalCode, processYear, addressLine1, addressLine2, city, addressState, zip, dateIssued, exclusions, errorCodes, storedName, filler, requestCode);
    }

    /** The same with another Obligor Last Name. */
    public Reject withLastName(String lastName) {
        return new Reject(state, localCode, ssn, caseId, lastName, firstName, arrearage, transactionType, caseType, transferState, transferLocalCode, processYear, addressLine1, addressLine2, city, addressState, zip, dateIssued, exclusions, errorCodes, storedName, filler, requestCode);
    }

    /** The same with another Obligor First Name. */
    public Reject withFirstName(String firstName) {
        return new Reject(state, localCode, ssn, caseId, lastName, firstName, arrearage, transactionType, caseType, transferState, transferLocalCode, processYear, addressLine1, addressLine2, city, addressState, zip, dateIssued, exclusions, errorCodes, storedName, filler, requestCode);
    }

    /** The same with another Arrearage Amount. */
    public Reject withArrearage(String arrearage) {
        return new Reject(state, localCode, ssn, caseId, lastName, firstName, arrearage, transactionType, caseType, transferState, transferLocalCode, processYear, addressLine1, addressLine2, city, addressState, zip, dateIssued, exclusions, errorCodes, storedName, filler, requestCode);
    }

    /** Arrearage Amount as a number; empty where it isn't 8 digits. */
    public OptionalLong arrearageNumber() {
        return Columns.number(arrearage, 8);
    }

    /** The same with another Arrearage Amount, as a number. */
    public Reject withArrearageNumber(long number) {
        return withArrearage(Columns.digits("arrearage", number, 8));
    }

    /** The same with another Transaction Type. */
    public Reject withTransactionType(String transactionType) {
        return new Reject(state, localCode, ssn, caseId, lastName, firstName, arrearage, transactionType, caseType, transferState, transferLocalCode, processYear, addressLine1, addressLine2, city, addressState, zip, dateIssued, exclusions, errorCodes, storedName, filler, requestCode);
    }

    /** The same with another Case Type Indicator. */
    public Reject withCaseType(String caseType) {
        return new Reject(state, localCode, ssn, caseId, lastName, firstName, arrearage, transactionType, caseType, transferState, transferLocalCode, processYear, addressLine1, addressLine2, city, addressState, zip, dateIssued, exclusions, errorCodes, storedName, filler, requestCode);
    }

    /** The same with another Transfer State Code. */
    public Reject withTransferState(String transferState) {
        return new Reject(state, localCode, ssn, caseId, lastName, firstName, arrearage, transactionType, caseType, transferState, transferLocalCode, processYear, addressLine1, addressLine2, city, addressState, zip, dateIssued, exclusions, errorCodes, storedName, filler, requestCode);
    }

    /** The same with another Transfer Local Code. */
    public Reject withTransferLocalCode(String transferLocalCode) {
        return new Reject(state, localCode, ssn, caseId, lastName, firstName, arrearage, transactionType, caseType, transferState, transferLocalCode, processYear, addressLine1, addressLine2, city, addressState, zip, dateIssued, exclusions, errorCodes, storedName, filler, requestCode);
    }

    /** The same with another Process Year. */
    public Reject withProcessYear(String processYear) {
        return new Reject(state, localCode, ssn, caseId, lastName, firstName, arrearage, transactionType, caseType, transferState, transferLocalCode, processYear, addressLine1, addressLine2, city, addressState, zip, dateIssued, exclusions, errorCodes, storedName, filler, requestCode);
    }

    /** Process Year as a number; empty where it isn't 4 digits. */
    public OptionalLong processYearNumber() {
        return Columns.number(processYear, 4);
    }

    /** The same with another Process Year, as a number. */
    public Reject withProcessYearNumber(long number) {
        return withProcessYear(Columns.digits("process_year", number, 4));
    }

    /** The same with another Obligor Address Line 1. */
    public Reject withAddressLine1(String addressLine1) {
        return new Reject(state, localCode, ssn, caseId, lastName, firstName, arrearage, transactionType, caseType, transferState, transferLocalCode, processYear, addressLine1, addressLine2, city, addressState, zip, dateIssued, exclusions, errorCodes, storedName, filler, requestCode);
    }

    /** The same with another Obligor Address Line 2. */
    public Reject withAddressLine2(String addressLine2) {
        return new Reject(state, localCode, ssn, caseId, lastName, firstName, arrearage, transactionType, caseType, transferState, transferLocalCode, processYear, addressLine1, addressLine2, city, addressState, zip, dateIssued, exclusions, errorCodes, storedName, filler, requestCode);
    }

    /** The same with another Obligor City. */
    public Reject withCity(String city) {
        return new Reject(state, localCode, ssn, caseId, lastName, firstName, arrearage, transactionType, caseType, transferState, transferLocalCode, processYear, addressLine1, addressLine2, city, addressState, zip, dateIssued, exclusions, errorCodes, storedName, filler, requestCode);
    }

    /** The same with another Obligor State. */
    public Reject withAddressState(String addressState) {
        return new Reject(state, localCode, ssn, caseId, lastName, firstName, arrearage, transactionType, caseType, transferState, transferLocalCode, processYear, addressLine1, addressLine2, city, addressState, zip, dateIssued, exclusions, errorCodes, storedName, filler, requestCode);
    }

    /** The same with another Obligor Zip Code. */
    public Reject withZip(String zip) {
        return new Reject(state, localCode, ssn, caseId, lastName, firstName, arrearage, transactionType, caseType, transferState, transferLocalCode, processYear, addressLine1, addressLine2, city, addressState, zip, dateIssued, exclusions, errorCodes, storedName, filler, requestCode);
    }

    /** The same with another Date Issued. */
    public Reject withDateIssued(String dateIssued) {
        return new Reject(state, localCode, ssn, caseId, lastName, firstName, arrearage, transactionType, caseType, transferState, transferLocalCode, processYear, addressLine1, addressLine2, city, addressState, zip, dateIssued, exclusions, errorCodes, storedName, filler, requestCode);
    }

    /** The same with another Exclusion Indicator(s). */
    public Reject withExclusions(String exclusions) {
        return new Reject(state, localCode, ssn, caseId, lastName, firstName, arrearage, transactionType, caseType, transferState, transferLocalCode, processYear, addressLine1, addressLine2, city, addressState, zip, dateIssued, exclusions, errorCodes, storedName, filler, requestCode);
    }

    /** The same with another Rejected Error Codes. */
    public Reject withErrorCodes(String errorCodes) {
        return new Reject(state, localCode, ssn, caseId, lastName, firstName, arrearage, transactionType, caseType, transferState, transferLocalCode, processYear, addressLine1, addressLine2, city, addressState, zip, dateIssued, exclusions, errorCodes, storedName, filler, requestCode);
    }

    /** The same with another OCSE Last Name. */
    public Reject withStoredName(String storedName) {
        return new Reject(state, localCode, ssn, caseId, lastName, firstName, arrearage, transactionType, caseType, transferState, transferLocalCode, processYear, addressLine1, addressLine2, city, addressState, zip, dateIssued, exclusions, errorCodes, storedName, filler, requestCode);
    }

    /** The same with another Filler. */
    public Reject withFiller(String filler) {
        return new Reject(state, localCode, ssn, caseId, lastName, firstName, arrearage, transactionType, caseType, transferState, transferLocalCode, processYear, addressLine1, addressLine2, city, addressState, zip, dateIssued, exclusions, errorCodes, storedName, filler, requestCode);
    }

    /** The same with another Request Code. */
    public Reject withRequestCode(String requestCode) {
        return new Reject(state, localCode, ssn, caseId, lastName, firstName, arrearage, transactionType, caseType, transferState, transferLocalCode, processYear, addressLine1, addressLine2, city, addressState, zip, dateIssued, exclusions, errorCodes, storedName, filler, requestCode);
    }
}
