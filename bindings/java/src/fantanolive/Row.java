package fantanolive;

import java.util.List;
import java.util.OptionalLong;

/**
 * A row of the master (a case's row, 200 bytes). Every field is a text without the spaces at its end, but the exclusion set, a byte of bits. What was read is
 * written as the same bytes, whatever they are; nothing is judged here. Written by bin/generate-layouts from package/layouts.json; not to be edited.
 *
 * @param state Submitting State Code, 1-2: key
 * @param ssn SSN, 3-11: key
 * @param caseType Case Type Indicator, 12: key: A or N
 * @param localCode Local Code, 13-15: three digits; 000 is the state's own
 * @param caseId Case ID, 16-30: the state's own, free
 * @param lastName Obligor Last Name, 31-50: 31-34 are compared with the name of later records
 * @param firstName Obligor First Name, 51-65
 * @param arrearage Arrearage Amount, 66-73: whole dollars, eight digits
 * @param transferState Transfer State Code, 74-75: blank until a T
 * @param transferLocalCode Transfer Local Code, 76-78: blank until a T
 * @param paymentYear Payment Year, 79-82: 0000 until an S
 * @param payment Accumulated Payment Amount, 83-90: eight digits, zeros until an S
 * @param addressLine1 Obligor Address Line 1, 91-120
 * @param addressLine2 Obligor Address Line 2, 121-150
 * @param city Obligor City, 151-175
 * @param addressState Obligor State, 176-177
 * @param zip Obligor Zip Code, 178-186
 * @param dateIssued Date Issued, 187-194: CCYYMMDD of the notice, or blank
 * @param exclusions Exclusion Indicator(s), 195: one binary byte; bits, lowest first: ADM RET VEN SAL TAX PAS FIN DCK; 00 is the empty set
 * @param status Status, 196: space is live, D is deleted
 * @param cents Cents, 197-198: two digits
 * @param filler Filler, 199-200: spaces
 */
public record Row(
        String state,
        String ssn,
        String caseType,
        String localCode,
        String caseId,
        String lastName,
        String firstName,
        String arrearage,
        String transferState,
        String transferLocalCode,
        String paymentYear,
        String payment,
        String addressLine1,
        String addressLine2,
        String city,
        String addressState,
        String zip,
        String dateIssued,
        int exclusions,
        String status,
        String cents,
        String filler) implements Layout {
    /** How many bytes a record has. */
    public static final int WIDTH = 200;

    /** The fields, in order and without gaps. */
    public static final List<Field> FIELDS = List.of(
            new Field("state", "Submitting State Code", 1, 2, Field.Kind.TEXT),
            new Field("ssn", "SSN", 3, 11, Field.Kind.SSN),
            new Field("case_type", "Case Type Indicator", 12, 12, Field.Kind.TEXT),
            new Field("local_code", "Local Code", 13, 15, Field.Kind.TEXT),
            new Field("case_id", "Case ID", 16, 30, Field.Kind.TEXT),
            new Field("last_name", "Obligor Last Name", 31, 50, Field.Kind.TEXT),
            new Field("first_name", "Obligor First Name", 51, 65, Field.Kind.TEXT),
            new Field("arrearage", "Arrearage Amount", 66, 73, Field.Kind.NUMBER),
            new Field("transfer_state", "Transfer State Code", 74, 75, Field.Kind.TEXT),
            new Field("transfer_local_code", "Transfer Local Code", 76, 78, Field.Kind.TEXT),
            new Field("payment_year", "Payment Year", 79, 82, Field.Kind.NUMBER),
            new Field("payment", "Accumulated Payment Amount", 83, 90, Field.Kind.NUMBER),
            new Field("address_line_1", "Obligor Address Line 1", 91, 120, Field.Kind.TEXT),
            new Field("address_line_2", "Obligor Address Line 2", 121, 150, Field.Kind.TEXT),
            new Field("city", "Obligor City", 151, 175, Field.Kind.TEXT),
            new Field("address_state", "Obligor State", 176, 177, Field.Kind.TEXT),
            new Field("zip", "Obligor Zip Code", 178, 186, Field.Kind.TEXT),
            new Field("date_issued", "Date Issued", 187, 194, Field.Kind.DATE),
            new Field("exclusions", "Exclusion Indicator(s)", 195, 195, Field.Kind.SET),
            new Field("status", "Status", 196, 196, Field.Kind.TEXT),
            new Field("cents", "Cents", 197, 198, Field.Kind.NUMBER),
            new Field("filler", "Filler", 199, 200, Field.Kind.FILLER));

    /** A record of spaces. */
    public static Row blank() {
        return new Row("", "", "", "", "", "", "", "", "", "", "", "", "", "", "", "", "", "", 0, "", "", "");
    }

    /**
     * Reads a record in EBCDIC.
     *
     * @throws IllegalArgumentException where it hasn't 200 bytes
     */
    public static Row read(byte[] record) {
        Columns.checked(record, WIDTH);
        return new Row(
            Columns.text(record, 1, 2),
            Columns.text(record, 3, 11),
            Columns.text(record, 12, 12),
            Columns.text(record, 13, 15),
            Columns.text(record, 16, 30),
            Columns.text(record, 31, 50),
            Columns.text(record, 51, 65),
            Columns.text(record, 66, 73),
            Columns.text(record, 74, 75),
            Columns.text(record, 76, 78),
            Columns.text(record, 79, 82),
            Columns.text(record, 83, 90),
            Columns.text(record, 91, 120),
            Columns.text(record, 121, 150),
            Columns.text(record, 151, 175),
            Columns.text(record, 176, 177),
            Columns.text(record, 178, 186),
            Columns.text(record, 187, 194),
            record[194] & 0xFF,
            Columns.text(record, 196, 196),
            Columns.text(record, 197, 198),
            Columns.text(record, 199, 200));
    }

    @Override
    public List<Field> fields() {
        return FIELDS;
    }

    @Override
    public List<Object> values() {
        return List.of(state, ssn, caseType, localCode, caseId, lastName, firstName, arrearage, transferState, transferLocalCode, paymentYear, payment, addressLine1, addressLine2, city, addressState, zip, dateIssued, exclusions, status, cents, filler);
    }

    /** The fields that aren't blank, without SSNs. */
    @Override
    public String toString() {
        return Columns.shown("Row", this);
    }

    /** The same with another Submitting State Code. */
    public Row withState(String state) {
        return new Row(state, ssn, caseType, localCode, caseId, lastName, firstName, arrearage, transferState, transferLocalCode, paymentYear, payment, addressLine1, addressLine2, city, addressState, zip, dateIssued, exclusions, status, cents, filler);
    }

    /** The same with another SSN. */
    public Row withSsn(String ssn) {
        return new Row(state, ssn, caseType, localCode, caseId, lastName, firstName, arrearage, transferState, transferLocalCode, paymentYear, payment, addressLine1, addressLine2, city, addressState, zip, dateIssued, exclusions, status, cents, filler);
    }

    /** The same with another Case Type Indicator. */
    public Row withCaseType(String caseType) {
        return new Row(state, ssn, caseType, localCode, caseId, lastName, firstName, arrearage, transferState, transferLocalCode, paymentYear, payment, addressLine1, addressLine2, city, addressState, zip, dateIssued, exclusions, status, cents, filler);
    }

    /** The same with another Local Code. */
    public Row withLocalCode(String localCode) {
        return new Row(state, ssn, caseType, localCode, caseId, lastName, firstName, arrearage, transferState, transferLocalCode, paymentYear, payment, addressLine1, addressLine2, city, addressState, zip, dateIssued, exclusions, status, cents, filler);
    }

    /** The same with another Case ID. */
    public Row withCaseId(String caseId) {
        return new Row(state, ssn, caseType, localCode, caseId, lastName, firstName, arrearage, transferState, transferLocalCode, paymentYear, payment, addressLine1, addressLine2, city, addressState, zip, dateIssued, exclusions, status, cents, filler);
    }

    /** The same with another Obligor Last Name. */
    public Row withLastName(String lastName) {
        return new Row(state, ssn, caseType, localCode, caseId, lastName, firstName, arrearage, transferState, transferLocalCode, paymentYear, payment, addressLine1, addressLine2, city, addressState, zip, dateIssued, exclusions, status, cents, filler);
    }

    /** The same with another Obligor First Name. */
    public Row withFirstName(String firstName) {
        return new Row(state, ssn, caseType, localCode, caseId, lastName, firstName, arrearage, transferState, transferLocalCode, paymentYear, payment, addressLine1, addressLine2, city, addressState, zip, dateIssued, exclusions, status, cents, filler);
    }

    /** The same with another Arrearage Amount. */
    public Row withArrearage(String arrearage) {
        return new Row(state, ssn, caseType, localCode, caseId, lastName, firstName, arrearage, transferState, transferLocalCode, paymentYear, payment, addressLine1, addressLine2, city, addressState, zip, dateIssued, exclusions, status, cents, filler);
    }

    /** Arrearage Amount as a number; empty where it isn't 8 digits. */
    public OptionalLong arrearageNumber() {
        return Columns.number(arrearage, 8);
    }

    /** The same with another Arrearage Amount, as a number. */
    public Row withArrearageNumber(long number) {
        return withArrearage(Columns.digits("arrearage", number, 8));
    }

    /** The same with another Transfer State Code. */
    public Row withTransferState(String transferState) {
        return new Row(state, ssn, caseType, localCode, caseId, lastName, firstName, arrearage, transferState, transferLocalCode, paymentYear, payment, addressLine1, addressLine2, city, addressState, zip, dateIssued, exclusions, status, cents, filler);
    }

    /** The same with another Transfer Local Code. */
    public Row withTransferLocalCode(String transferLocalCode) {
        return new Row(state, ssn, caseType, localCode, caseId, lastName, firstName, arrearage, transferState, transferLocalCode, paymentYear, payment, addressLine1, addressLine2, city, addressState, zip, dateIssued, exclusions, status, cents, filler);
    }

    /** The same with another Payment Year. */
    public Row withPaymentYear(String paymentYear) {
        return new Row(state, ssn, caseType, localCode, caseId, lastName, firstName, arrearage, transferState, transferLocalCode, paymentYear, payment, addressLine1, addressLine2, city, addressState, zip, dateIssued, exclusions, status, cents, filler);
    }

    /** Payment Year as a number; empty where it isn't 4 digits. */
    public OptionalLong paymentYearNumber() {
        return Columns.number(paymentYear, 4);
    }

    /** The same with another Payment Year, as a number. */
    public Row withPaymentYearNumber(long number) {
        return withPaymentYear(Columns.digits("payment_year", number, 4));
    }

    /** The same with another Accumulated Payment Amount. */
    public Row withPayment(String payment) {
        return new Row(state, ssn, caseType, localCode, caseId, lastName, firstName, arrearage, transferState, transferLocalCode, paymentYear, payment, addressLine1, addressLine2, city, addressState, zip, dateIssued, exclusions, status, cents, filler);
    }

    /** Accumulated Payment Amount as a number; empty where it isn't 8 digits. */
    public OptionalLong paymentNumber() {
        return Columns.number(payment, 8);
    }

    /** The same with another Accumulated Payment Amount, as a number. */
    public Row withPaymentNumber(long number) {
        return withPayment(Columns.digits("payment", number, 8));
    }

    /** The same with another Obligor Address Line 1. */
    public Row withAddressLine1(String addressLine1) {
        return new Row(state, ssn, caseType, localCode, caseId, lastName, firstName, arrearage, transferState, transferLocalCode, paymentYear, payment, addressLine1, addressLine2, city, addressState, zip, dateIssued, exclusions, status, cents, filler);
    }

    /** The same with another Obligor Address Line 2. */
    public Row withAddressLine2(String addressLine2) {
        return new Row(state, ssn, caseType, localCode, caseId, lastName, firstName, arrearage, transferState, transferLocalCode, paymentYear, payment, addressLine1, addressLine2, city, addressState, zip, dateIssued, exclusions, status, cents, filler);
    }

    /** The same with another Obligor City. */
    public Row withCity(String city) {
        return new Row(state, ssn, caseType, localCode, caseId, lastName, firstName, arrearage, transferState, transferLocalCode, paymentYear, payment, addressLine1, addressLine2, city, addressState, zip, dateIssued, exclusions, status, cents, filler);
    }

    /** The same with another Obligor State. */
    public Row withAddressState(String addressState) {
        return new Row(state, ssn, caseType, localCode, caseId, lastName, firstName, arrearage, transferState, transferLocalCode, paymentYear, payment, addressLine1, addressLine2, city, addressState, zip, dateIssued, exclusions, status, cents, filler);
    }

    /** The same with another Obligor Zip Code. */
    public Row withZip(String zip) {
        return new Row(state, ssn, caseType, localCode, caseId, lastName, firstName, arrearage, transferState, transferLocalCode, paymentYear, payment, addressLine1, addressLine2, city, addressState, zip, dateIssued, exclusions, status, cents, filler);
    }

    /** The same with another Date Issued. */
    public Row withDateIssued(String dateIssued) {
        return new Row(state, ssn, caseType, localCode, caseId, lastName, firstName, arrearage, transferState, transferLocalCode, paymentYear, payment, addressLine1, addressLine2, city, addressState, zip, dateIssued, exclusions, status, cents, filler);
    }

    /** The same with another Exclusion Indicator(s). */
    public Row withExclusions(int exclusions) {
        return new Row(state, ssn, caseType, localCode, caseId, lastName, firstName, arrearage, transferState, transferLocalCode, paymentYear, payment, addressLine1, addressLine2, city, addressState, zip, dateIssued, exclusions, status, cents, filler);
    }

    /** The same with another Status. */
    public Row withStatus(String status) {
        return new Row(state, ssn, caseType, localCode, caseId, lastName, firstName, arrearage, transferState, transferLocalCode, paymentYear, payment, addressLine1, addressLine2, city, addressState, zip, dateIssued, exclusions, status, cents, filler);
    }

    /** The same with another Cents. */
    public Row withCents(String cents) {
        return new Row(state, ssn, caseType, localCode, caseId, lastName, firstName, arrearage, transferState, transferLocalCode, paymentYear, payment, addressLine1, addressLine2, city, addressState, zip, dateIssued, exclusions, status, cents, filler);
    }

    /** Cents as a number; empty where it isn't 2 digits. */
    public OptionalLong centsNumber() {
        return Columns.number(cents, 2);
    }

    /** The same with another Cents, as a number. */
    public Row withCentsNumber(long number) {
        return withCents(Columns.digits("cents", number, 2));
    }

    /** The same with another Filler. */
    public Row withFiller(String filler) {
        return new Row(state, ssn, caseType, localCode, caseId, lastName, firstName, arrearage, transferState, transferLocalCode, paymentYear, payment, addressLine1, addressLine2, city, addressState, zip, dateIssued, exclusions, status, cents, filler);
    }
}
