package fantanolive;

import java.util.List;
import java.util.OptionalLong;

/**
 * A line of a collection file (Chart 0-4, 240 bytes). Every field is a text without the spaces at its end. What was read is
 * written as the same bytes, whatever they are; nothing is judged here. Written by bin/generate-layouts from package/layouts.json; not to be edited.
 *
 * @param state Submitting State Code, 1-2: with SSN and case type the key
 * @param localCode Local Code, 3-5
 * @param ssn SSN, 6-14
 * @param caseId Case ID, 15-29
 * @param lastName Obligor Last Name, 30-49
 * @param firstName Obligor First Name, 50-64
 * @param certifiedArrearage Certified Arrearage Amount, 65-75: dollars and cents
 * @param collection Collection Amount, 76-86: in cents: ten digits and a last digit F0-F9 or C0-C9 (a digit with a plus sign)
 * @param adjustment Adjustment Amount, 87-97: in cents, of the same form
 * @param adjustmentYear Adjustment Year, 98-101
 * @param offsetYear Offset Year, 102-105
 * @param returnIndicator Return Indicator, 106
 * @param caseType Case Type Indicator, 107
 * @param transferState Transfer State Code, 108-109
 * @param transferLocalCode Transfer Local Code, 110-112
 * @param paymentName Payment Name, 113-147
 * @param paymentStreet Payment Street Address, 148-182
 * @param paymentCityAndState Payment City and State, 183-207
 * @param paymentZip Payment Zip Code, 208-216
 * @param offsetType Offset Type, 217-219
 * @param fee Fee Amount, 220-224
 * @param injuredSpouse Injured Spouse Indicator, 225
 * @param zeroBalanceDelete Zero Balance Delete Indicator, 226
 * @param traceNumber TOP Trace Number, 227-236
 * @param filler Filler, 237-240
 */
public record Line(
        String state,
        String localCode,
        String ssn,
        String caseId,
        String lastName,
        String firstName,
        String certifiedArrearage,
        String collection,
        String adjustment,
        String adjustmentYear,
        String offsetYear,
        String returnIndicator,
        String caseType,
        String transferState,
        String transferLocalCode,
        String paymentName,
        String paymentStreet,
        String paymentCityAndState,
        String paymentZip,
        String offsetType,
        String fee,
        String injuredSpouse,
        String zeroBalanceDelete,
        String traceNumber,
        String filler) implements Layout {
    /** How many bytes a record has. */
    public static final int WIDTH = 240;

    /** The fields, in order and without gaps. */
    public static final List<Field> FIELDS = List.of(
            new Field("state", "Submitting State Code", 1, 2, Field.Kind.TEXT),
            new Field("local_code", "Local Code", 3, 5, Field.Kind.TEXT),
            new Field("ssn", "SSN", 6, 14, Field.Kind.SSN),
            new Field("case_id", "Case ID", 15, 29, Field.Kind.TEXT),
            new Field("last_name", "Obligor Last Name", 30, 49, Field.Kind.TEXT),
            new Field("first_name", "Obligor First Name", 50, 64, Field.Kind.TEXT),
            new Field("certified_arrearage", "Certified Arrearage Amount", 65, 75, Field.Kind.AMOUNT),
            new Field("collection", "Collection Amount", 76, 86, Field.Kind.AMOUNT),
            new Field("adjustment", "Adjustment Amount", 87, 97, Field.Kind.AMOUNT),
            new Field("adjustment_year", "Adjustment Year", 98, 101, Field.Kind.NUMBER),
            new Field("offset_year", "Offset Year", 102, 105, Field.Kind.NUMBER),
            new Field("return_indicator", "Return Indicator", 106, 106, Field.Kind.TEXT),
            new Field("case_type", "Case Type Indicator", 107, 107, Field.Kind.TEXT),
            new Field("transfer_state", "Transfer State Code", 108, 109, Field.Kind.TEXT),
            new Field("transfer_local_code", "Transfer Local Code", 110, 112, Field.Kind.TEXT),
            new Field("payment_name", "Payment Name", 113, 147, Field.Kind.TEXT),
            new Field("payment_street", "Payment Street Address", 148, 182, Field.Kind.TEXT),
            new Field("payment_city_and_state", "Payment City and State", 183, 207, Field.Kind.TEXT),
            new Field("payment_zip", "Payment Zip Code", 208, 216, Field.Kind.TEXT),
            new Field("offset_type", "Offset Type", 217, 219, Field.Kind.TEXT),
            new Field("fee", "Fee Amount", 220, 224, Field.Kind.AMOUNT),
            new Field("injured_spouse", "Injured Spouse Indicator", 225, 225, Field.Kind.TEXT),
            new Field("zero_balance_delete", "Zero Balance Delete Indicator", 226, 226, Field.Kind.TEXT),
            new Field("trace_number", "TOP Trace Number", 227, 236, Field.Kind.TEXT),
            new Field("filler", "Filler", 237, 240, Field.Kind.FILLER));

    /** A record of spaces. */
    public static Line blank() {
        return new Line("", "", "", "", "", "", "", "", "", "", "", "", "", "", "", "", "", "", "", "", "", "", "", "", "");
    }

    /**
     * Reads a record in EBCDIC.
     *
     * @throws IllegalArgumentException where it hasn't 240 bytes
     */
    public static Line read(byte[] record) {
        Columns.checked(record, WIDTH);
        return new Line(
            Columns.text(record, 1, 2),
            Columns.text(record, 3, 5),
            Columns.text(record, 6, 14),
            Columns.text(record, 15, 29),
            Columns.text(record, 30, 49),
            Columns.text(record, 50, 64),
            Columns.text(record, 65, 75),
            Columns.text(record, 76, 86),
            Columns.text(record, 87, 97),
            Columns.text(record, 98, 101),
            Columns.text(record, 102, 105),
            Columns.text(record, 106, 106),
            Columns.text(record, 107, 107),
            Columns.text(record, 108, 109),
            Columns.text(record, 110, 112),
            Columns.text(record, 113, 147),
            Columns.text(record, 148, 182),
            Columns.text(record, 183, 207),
            Columns.text(record, 208, 216),
            Columns.text(record, 217, 219),
            Columns.text(record, 220, 224),
            Columns.text(record, 225, 225),
            Columns.text(record, 226, 226),
            Columns.text(record, 227, 236),
            Columns.text(record, 237, 240));
    }

    @Override
    public List<Field> fields() {
        return FIELDS;
    }

    @Override
    public List<Object> values() {
        return List.of(state, localCode, ssn, caseId, lastName, firstName, certifiedArrearage, collection, adjustment, adjustmentYear, offsetYear, returnIndicator, caseType, transferState, transferLocalCode, paymentName, paymentStreet, paymentCityAndState, paymentZip, offsetType, fee, injuredSpouse, zeroBalanceDelete, traceNumber, filler);
    }

    /** The fields that aren't blank, without SSNs. */
    @Override
    public String toString() {
        return Columns.shown("Line", this);
    }

    /** The same with another Submitting State Code. */
    public Line withState(String state) {
        return new Line(state, localCode, ssn, caseId, lastName, firstName, certifiedArrearage, collection, adjustment, adjustmentYear, offsetYear, returnIndicator, caseType, transferState, transferLocalCode, paymentName, paymentStreet, paymentCityAndState, paymentZip, offsetType, fee, injuredSpouse, zeroBalanceDelete, traceNumber, filler);
    }

    /** The same with another Local Code. */
    public Line withLocalCode(String localCode) {
        return new Line(state, localCode, ssn, caseId, lastName, firstName, certifiedArrearage, collection, adjustment, adjustmentYear, offsetYear, returnIndicator, caseType, transferState, transferLocalCode, paymentName, paymentStreet, paymentCityAndState, paymentZip, offsetType, fee, injuredSpouse, zeroBalanceDelete, traceNumber, filler);
    }

    /** The same with another SSN. */
    public Line withSsn(String ssn) {
        return new Line(state, localCode, ssn, caseId, lastName, firstName, certifiedArrearage, collection, adjustment, adjustmentYear, offsetYear, returnIndicator, caseType, transferState, transferLocalCode, paymentName, paymentStreet, paymentCityAndState, paymentZip, offsetType, fee, injuredSpouse, zeroBalanceDelete, traceNumber, filler);
    }

    /** The same with another Case ID. */
    public Line withCaseId(String caseId) {
        return new Line(state, localCode, ssn, caseId, lastName, firstName, certifiedArrearage, collection, adjustment, adjustmentYear, offsetYear, returnIndicator, caseType, transferState, transferLocalCode, paymentName, paymentStreet, paymentCityAndState, paymentZip, offsetType, fee, injuredSpouse, zeroBalanceDelete, traceNumber, filler);
    }

    /** The same with another Obligor Last Name. */
    public Line withLastName(String lastName) {
        return new Line(state, localCode, ssn, caseId, lastName, firstName, certifiedArrearage, collection, adjustment, adjustmentYear, offsetYear, returnIndicator, caseType, transferState, transferLocalCode, paymentName, paymentStreet, paymentCityAndState, paymentZip, offsetType, fee, injuredSpouse, zeroBalanceDelete, traceNumber, filler);
    }

    /** The same with another Obligor First Name. */
    public Line withFirstName(String firstName) {
        return new Line(state, localCode, ssn, caseId, lastName, firstName, certifiedArrearage, collection, adjustment, adjustmentYear, offsetYear, returnIndicator, caseType, transferState, transferLocalCode, paymentName, paymentStreet, paymentCityAndState, paymentZip, offsetType, fee, injuredSpouse, zeroBalanceDelete, traceNumber, filler);
    }

    /** The same with another Certified Arrearage Amount. */
    public Line withCertifiedArrearage(String certifiedArrearage) {
        return new Line(state, localCode, ssn, caseId, lastName, firstName, certifiedArrearage, collection, adjustment, adjustmentYear, offsetYear, returnIndicator, caseType, transferState, transferLocalCode, paymentName, paymentStreet, paymentCityAndState, paymentZip, offsetType, fee, injuredSpouse, zeroBalanceDelete, traceNumber, filler);
    }

    /** Certified Arrearage Amount in cents; empty where it isn't 11 digits. */
    public OptionalLong certifiedArrearageCents() {
        return Columns.cents(certifiedArrearage, 11);
    }

    /** The same with another Certified Arrearage Amount, in cents. */
    public Line withCertifiedArrearageCents(long number) {
        return withCertifiedArrearage(Columns.digits("certified_arrearage", number, 11));
    }

    /** The same with another Collection Amount. */
    public Line withCollection(String collection) {
        return new Line(state, localCode, ssn, caseId, lastName, firstName, certifiedArrearage, collection, adjustment, adjustmentYear, offsetYear, returnIndicator, caseType, transferState, transferLocalCode, paymentName, paymentStreet, paymentCityAndState, paymentZip, offsetType, fee, injuredSpouse, zeroBalanceDelete, traceNumber, filler);
    }

    /** Collection Amount in cents; empty where it isn't 11 digits. */
    public OptionalLong collectionCents() {
        return Columns.cents(collection, 11);
    }

    /** The same with another Collection Amount, in cents. */
    public Line withCollectionCents(long number) {
        return withCollection(Columns.digits("collection", number, 11));
    }

    /** The same with another Adjustment Amount. */
    public Line withAdjustment(String adjustment) {
        return new Line(state, localCode, ssn, caseId, lastName, firstName, certifiedArrearage, collection, adjustment, adjustmentYear, offsetYear, returnIndicator, caseType, transferState, transferLocalCode, paymentName, paymentStreet, paymentCityAndState, paymentZip, offsetType, fee, injuredSpouse, zeroBalanceDelete, traceNumber, filler);
    }

    /** Adjustment Amount in cents; empty where it isn't 11 digits. */
    public OptionalLong adjustmentCents() {
        return Columns.cents(adjustment, 11);
    }

    /** The same with another Adjustment Amount, in cents. */
    public Line withAdjustmentCents(long number) {
        return withAdjustment(Columns.digits("adjustment", number, 11));
    }

    /** The same with another Adjustment Year. */
    public Line withAdjustmentYear(String adjustmentYear) {
        return new Line(state, localCode, ssn, caseId, lastName, firstName, certifiedArrearage, collection, adjustment, adjustmentYear, offsetYear, returnIndicator, caseType, transferState, transferLocalCode, paymentName, paymentStreet, paymentCityAndState, paymentZip, offsetType, fee, injuredSpouse, zeroBalanceDelete, traceNumber, filler);
    }

    /** Adjustment Year as a number; empty where it isn't 4 digits. */
    public OptionalLong adjustmentYearNumber() {
        return Columns.number(adjustmentYear, 4);
    }

    /** The same with another Adjustment Year, as a number. */
    public Line withAdjustmentYearNumber(long number) {
        return withAdjustmentYear(Columns.digits("adjustment_year", number, 4));
    }

    /** The same with another Offset Year. */
    public Line withOffsetYear(String offsetYear) {
        return new Line(state, localCode, ssn, caseId, lastName, firstName, certifiedArrearage, collection, adjustment, adjustmentYear, offsetYear, returnIndicator, caseType, transferState, transferLocalCode, paymentName, paymentStreet, paymentCityAndState, paymentZip, offsetType, fee, injuredSpouse, zeroBalanceDelete, traceNumber, filler);
    }

    /** Offset Year as a number; empty where it isn't 4 digits. */
    public OptionalLong offsetYearNumber() {
        return Columns.number(offsetYear, 4);
    }

    /** The same with another Offset Year, as a number. */
    public Line withOffsetYearNumber(long number) {
        return withOffsetYear(Columns.digits("offset_year", number, 4));
    }

    /** The same with another Return Indicator. */
    public Line withReturnIndicator(String returnIndicator) {
        return new Line(state, localCode, ssn, caseId, lastName, firstName, certifiedArrearage, collection, adjustment, adjustmentYear, offsetYear, returnIndicator, caseType, transferState, transferLocalCode, paymentName, paymentStreet, paymentCityAndState, paymentZip, offsetType, fee, injuredSpouse, zeroBalanceDelete, traceNumber, filler);
    }

    /** The same with another Case Type Indicator. */
    public Line withCaseType(String caseType) {
        return new Line(state, localCode, ssn, caseId, lastName, firstName, certifiedArrearage, collection, adjustment, adjustmentYear, offsetYear, returnIndicator, caseType, transferState, transferLocalCode, paymentName, paymentStreet, paymentCityAndState, paymentZip, offsetType, fee, injuredSpouse, zeroBalanceDelete, traceNumber, filler);
    }

    /** The same with another Transfer State Code. */
    public Line withTransferState(String transferState) {
        return new Line(state, localCode, ssn, caseId, lastName, firstName, certifiedArrearage, collection, adjustment, adjustmentYear, offsetYear, returnIndicator, caseType, transferState, transferLocalCode, paymentName, paymentStreet, paymentCityAndState, paymentZip, offsetType, fee, injuredSpouse, zeroBalanceDelete, traceNumber, filler);
    }

    /** The same with another Transfer Local Code. */
    public Line withTransferLocalCode(String transferLocalCode) {
        return new Line(state, localCode, ssn, caseId, lastName, firstName, certifiedArrearage, collection, adjustment, adjustmentYear, offsetYear, returnIndicator, caseType, transferState, transferLocalCode, paymentName, paymentStreet, paymentCityAndState, paymentZip, offsetType, fee, injuredSpouse, zeroBalanceDelete, traceNumber, filler);
    }

    /** The same with another Payment Name. */
    public Line withPaymentName(String paymentName) {
        return new Line(state, localCode, ssn, caseId, lastName, firstName, certifiedArrearage, collection, adjustment, adjustmentYear, offsetYear, returnIndicator, caseType, transferState, transferLocalCode, paymentName, paymentStreet, paymentCityAndState, paymentZip, offsetType, fee, injuredSpouse, zeroBalanceDelete, traceNumber, filler);
    }

    /** The same with another Payment Street Address. */
    public Line withPaymentStreet(String paymentStreet) {
        return new Line(state, localCode, ssn, caseId, lastName, firstName, certifiedArrearage, collection, adjustment, adjustmentYear, offsetYear, returnIndicator, caseType, transferState, transferLocalCode, paymentName, paymentStreet, paymentCityAndState, paymentZip, offsetType, fee, injuredSpouse, zeroBalanceDelete, traceNumber, filler);
    }

    /** The same with another Payment City and State. */
    public Line withPaymentCityAndState(String paymentCityAndState) {
        return new Line(state, localCode, ssn, caseId, lastName, firstName, certifiedArrearage, collection, adjustment, adjustmentYear, offsetYear, returnIndicator, caseType, transferState, transferLocalCode, paymentName, paymentStreet, paymentCityAndState, paymentZip, offsetType, fee, injuredSpouse, zeroBalanceDelete, traceNumber, filler);
    }

    /** The same with another Payment Zip Code. */
    public Line withPaymentZip(String paymentZip) {
        return new Line(state, localCode, ssn, caseId, lastName, firstName, certifiedArrearage, collection, adjustment, adjustmentYear, offsetYear, returnIndicator, caseType, transferState, transferLocalCode, paymentName, paymentStreet, paymentCityAndState, paymentZip, offsetType, fee, injuredSpouse, zeroBalanceDelete, traceNumber, filler);
    }

    /** The same with another Offset Type. */
    public Line withOffsetType(String offsetType) {
        return new Line(state, localCode, ssn, caseId, lastName, firstName, certifiedArrearage, collection, adjustment, adjustmentYear, offsetYear, returnIndicator, caseType, transferState, transferLocalCode, paymentName, paymentStreet, paymentCityAndState, paymentZip, offsetType, fee, injuredSpouse, zeroBalanceDelete, traceNumber, filler);
    }

    /** The same with another Fee Amount. */
    public Line withFee(String fee) {
        return new Line(state, localCode, ssn, caseId, lastName, firstName, certifiedArrearage, collection, adjustment, adjustmentYear, offsetYear, returnIndicator, caseType, transferState, transferLocalCode, paymentName, paymentStreet, paymentCityAndState, paymentZip, offsetType, fee, injuredSpouse, zeroBalanceDelete, traceNumber, filler);
    }

    /** Fee Amount in cents; empty where it isn't 5 digits. */
    public OptionalLong feeCents() {
        return Columns.cents(fee, 5);
    }

    /** The same with another Fee Amount, in cents. */
    public Line withFeeCents(long number) {
        return withFee(Columns.digits("fee", number, 5));
    }

    /** The same with another Injured Spouse Indicator. */
    public Line withInjuredSpouse(String injuredSpouse) {
        return new Line(state, localCode, ssn, caseId, lastName, firstName, certifiedArrearage, collection, adjustment, adjustmentYear, offsetYear, returnIndicator, caseType, transferState, transferLocalCode, paymentName, paymentStreet, paymentCityAndState, paymentZip, offsetType, fee, injuredSpouse, zeroBalanceDelete, traceNumber, filler);
    }

    /** The same with another Zero Balance Delete Indicator. */
    public Line withZeroBalanceDelete(String zeroBalanceDelete) {
        return new Line(state, localCode, ssn, caseId, lastName, firstName, certifiedArrearage, collection, adjustment, adjustmentYear, offsetYear, returnIndicator, caseType, transferState, transferLocalCode, paymentName, paymentStreet, paymentCityAndState, paymentZip, offsetType, fee, injuredSpouse, zeroBalanceDelete, traceNumber, filler);
    }

    /** The same with another TOP Trace Number. */
    public Line withTraceNumber(String traceNumber) {
        return new Line(state, localCode, ssn, caseId, lastName, firstName, certifiedArrearage, collection, adjustment, adjustmentYear, offsetYear, returnIndicator, caseType, transferState, transferLocalCode, paymentName, paymentStreet, paymentCityAndState, paymentZip, offsetType, fee, injuredSpouse, zeroBalanceDelete, traceNumber, filler);
    }

    /** The same with another Filler. */
    public Line withFiller(String filler) {
        return new Line(state, localCode, ssn, caseId, lastName, firstName, certifiedArrearage, collection, adjustment, adjustmentYear, offsetYear, returnIndicator, caseType, transferState, transferLocalCode, paymentName, paymentStreet, paymentCityAndState, paymentZip, offsetType, fee, injuredSpouse, zeroBalanceDelete, traceNumber, filler);
    }
}
