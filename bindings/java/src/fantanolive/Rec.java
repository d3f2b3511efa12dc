package fantanolive;

import java.util.List;
import java.util.OptionalLong;

/**
 * A REC record of a reconciliation file (Chart 0-6, 245 bytes). Every field is a text without the spaces at its end. What was read is
 * written as the same bytes, whatever they are; nothing is judged here. Written by bin/generate-layouts from package/layouts.json; not to be edited.
 *
 * @param mark Record Identifier, 1-3: REC
 * @param state Submitting State Code, 4-5: as in the row, like the fields below
 * @param localCode Local Code, 6-8
 * @param ssn SSN, 9-17
 * @param caseId Case ID, 18-32
 * @param lastName Obligor Last Name, 33-52
 * @param firstName Obligor First Name, 53-62: its first ten characters
 * @param arrearage Current Arrearage Amount, 63-70: the dollars; the cents are not shown
 * @param caseType Case Type Indicator, 71
 * @param noticeDate Last Pre-Offset Notice Date, 72-79: the row's date issued
 * @param noticeHold Pre-Offset Notice Hold Indicator, 80: a space
 * @param passportAction Department of State Action Indicator, 81: a space
 * @param exclusionAdm Administrative Offset Exclusion Indicator, 82-84: ADM where it is in the set, else spaces; so the seven below
 * @param exclusionRet Federal Retirement Offset Exclusion Indicator, 85-87: RET
 * @param exclusionVen Vendor Payments Exclusion Indicator, 88-90: VEN
 * @param exclusionSal Federal Salary Exclusion Indicator, 91-93: SAL
 * @param exclusionTax Tax Refund Offset Exclusion Indicator, 94-96: TAX
 * @param exclusionPas Passport Denial Exclusion Indicator, 97-99: PAS
 * @param exclusionFin Multi-State Financial Institution Data Match Exclusion Indicator, 100-102: FIN
 * @param exclusionDck Debt Check Exclusion Indicator, 103-105: DCK
 * @param filler Filler, 106-245: spaces
 */
public record Rec(
        String mark,
        String state,
        String localCode,
        String ssn,
        String caseId,
        String lastName,
        String firstName,
        String arrearage,
        String caseType,
        String noticeDate,
        String noticeHold,
        String passportAction,
        String exclusionAdm,
        String exclusionRet,
        String exclusionVen,
        String exclusionSal,
        String exclusionTax,
        String exclusionPas,
        String exclusionFin,
        String exclusionDck,
        String filler) implements Layout {
    /** How many bytes a record has. */
    public static final int WIDTH = 245;

    /** The fields, in order and without gaps. */
    public static final List<Field> FIELDS = List.of(
            new Field("mark", "Record Identifier", 1, 3, Field.Kind.TEXT),
            new Field("state", "Submitting State Code", 4, 5, Field.Kind.TEXT),
            new Field("local_code", "Local Code", 6, 8, Field.Kind.TEXT),
            new Field("ssn", "SSN", 9, 17, Field.Kind.SSN),
            new Field("case_id", "Case ID", 18, 32, Field.Kind.TEXT),
            new Field("last_name", "Obligor Last Name", 33, 52, Field.Kind.TEXT),
            new Field("first_name", "Obligor First Name", 53, 62, Field.Kind.TEXT),
            new Field("arrearage", "Current Arrearage Amount", 63, 70, Field.Kind.NUMBER),
            new Field("case_type", "Case Type Indicator", 71, 71, Field.Kind.TEXT),
            new Field("notice_date", "Last Pre-Offset Notice Date", 72, 79, Field.Kind.DATE),
            new Field("notice_hold", "Pre-Offset Notice Hold Indicator", 80, 80, Field.Kind.TEXT),
            new Field("passport_action", "Department of State Action Indicator", 81, 81, Field.Kind.TEXT),
            new Field("exclusion_adm", "Administrative Offset Exclusion Indicator", 82, 84, Field.Kind.TEXT),
            new Field("exclusion_ret", "Federal Retirement Offset Exclusion Indicator", 85, 87, Field.Kind.TEXT),
            new Field("exclusion_ven", "Vendor Payments Exclusion Indicator", 88, 90, Field.Kind.TEXT),
            new Field("exclusion_sal", "Federal Salary Exclusion Indicator", 91, 93, Field.Kind.TEXT),
            new Field("exclusion_tax", "Tax Refund Offset Exclusion Indicator", 94, 96, Field.Kind.TEXT),
            new Field("exclusion_pas", "Passport Denial Exclusion Indicator", 97, 99, Field.Kind.TEXT),
            new Field("exclusion_fin", "Multi-State Financial Institution Data Match Exclusion Indicator", 100, 102, Field.Kind.TEXT),
            new Field("exclusion_dck", "Debt Check Exclusion Indicator", 103, 105, Field.Kind.TEXT),
            new Field("filler", "Filler", 106, 245, Field.Kind.FILLER));

    /** A record of spaces. */
    public static Rec blank() {
        return new Rec("", "", "", "", "", "", "", "", "", "", "", "", "", "", "", "", "", "", "", "", "");
    }

    /**
     * Reads a record in EBCDIC.
     *
     * @throws IllegalArgumentException where it hasn't 245 bytes
     */
    public static Rec read(byte[] record) {
        Columns.checked(record, WIDTH);
        return new Rec(
            Columns.text(record, 1, 3),
            Columns.text(record, 4, 5),
            Columns.text(record, 6, 8),
            Columns.text(record, 9, 17),
            Columns.text(record, 18, 32),
            Columns.text(record, 33, 52),
            Columns.text(record, 53, 62),
            Columns.text(record, 63, 70),
            Columns.text(record, 71, 71),
            Columns.text(record, 72, 79),
            Columns.text(record, 80, 80),
            Columns.text(record, 81, 81),
            Columns.text(record, 82, 84),
            Columns.text(record, 85, 87),
            Columns.text(record, 88, 90),
            Columns.text(record, 91, 93),
            Columns.text(record, 94, 96),
            Columns.text(record, 97, 99),
            Columns.text(record, 100, 102),
            Columns.text(record, 103, 105),
            Columns.text(record, 106, 245));
    }

    @Override
    public List<Field> fields() {
        return FIELDS;
    }

    @Override
    public List<Object> values() {
        return List.of(mark, state, localCode, ssn, caseId, lastName, firstName, arrearage, caseType, noticeDate, noticeHold, passportAction, exclusionAdm, exclusionRet, exclusionVen, exclusionSal, exclusionTax, exclusionPas, exclusionFin, exclusionDck, filler);
    }

    /** The fields that aren't blank, without SSNs. */
    @Override
    public String toString() {
        return Columns.shown("Rec", this);
    }

    /** The same with another Record Identifier. */
    public Rec withMark(String mark) {
        return new Rec(mark, state, localCode, ssn, caseId, lastName, firstName, arrearage, caseType, noticeDate, noticeHold, passportAction, exclusionAdm, exclusionRet, exclusionVen, exclusionSal, exclusionTax, exclusionPas, exclusionFin, exclusionDck, filler);
    }

    /** The same with another Submitting State Code. */
    public Rec withState(String state) {
        return new Rec(mark, state, localCode, ssn, caseId, lastName, firstName, arrearage, caseType, noticeDate, noticeHold, passportAction, exclusionAdm, exclusionRet, exclusionVen, exclusionSal, exclusionTax, exclusionPas, exclusionFin, exclusionDck, filler);
    }

    /** The same with another Local Code. */
    public Rec withLocalCode(String localCode) {
        return new Rec(mark, state, localCode, ssn, caseId, lastName, firstName, arrearage, caseType, noticeDate, noticeHold, passportAction, exclusionAdm, exclusionRet, exclusionVen, exclusionSal, exclusionTax, exclusionPas, exclusionFin, exclusionDck, filler);
    }

    /** The same with another SSN. */
    public Rec withSsn(String ssn) {
        return new Rec(mark, state, localCode, ssn, caseId, lastName, firstName, arrearage, caseType, noticeDate, noticeHold, passportAction, exclusionAdm, exclusionRet, exclusionVen, exclusionSal, exclusionTax, exclusionPas, exclusionFin, exclusionDck, filler);
    }

    /** The same with another Case ID. */
    public Rec withCaseId(String caseId) {
        return new Rec(mark, state, localCode, ssn, caseId, lastName, firstName, arrearage, caseType, noticeDate, noticeHold, passportAction, exclusionAdm, exclusionRet, exclusionVen, exclusionSal, exclusionTax, exclusionPas, exclusionFin, exclusionDck, filler);
    }

    /** The same with another Obligor Last Name. */
    public Rec withLastName(String lastName) {
        return new Rec(mark, state, localCode, ssn, caseId, lastName, firstName, arrearage, caseType, noticeDate, noticeHold, passportAction, exclusionAdm, exclusionRet, exclusionVen, exclusionSal, exclusionTax, exclusionPas, exclusionFin, exclusionDck, filler);
    }

    /** The same with another Obligor First Name. */
    public Rec withFirstName(String firstName) {
        return new Rec(mark, state, localCode, ssn, caseId, lastName, firstName, arrearage, caseType, noticeDate, noticeHold, passportAction, exclusionAdm, exclusionRet, exclusionVen, exclusionSal, exclusionTax, exclusionPas, exclusionFin, exclusionDck, filler);
    }

    /** The same with another Current Arrearage Amount. */
    public Rec withArrearage(String arrearage) {
        return new Rec(mark, state, localCode, ssn, caseId, lastName, firstName, arrearage, caseType, noticeDate, noticeHold, passportAction, exclusionAdm, exclusionRet, exclusionVen, exclusionSal, exclusionTax, exclusionPas, exclusionFin, exclusionDck, filler);
    }

    /** Current Arrearage Amount as a number; empty where it isn't 8 digits. */
    public OptionalLong arrearageNumber() {
        return Columns.number(arrearage, 8);
    }

    /** The same with another Current Arrearage Amount, as a number. */
    public Rec withArrearageNumber(long number) {
        return withArrearage(Columns.digits("arrearage", number, 8));
    }

    /** The same with another Case Type Indicator. */
    public Rec withCaseType(String caseType) {
        return new Rec(mark, state, localCode, ssn, caseId, lastName, firstName, arrearage, caseType, noticeDate, noticeHold, passportAction, exclusionAdm, exclusionRet, exclusionVen, exclusionSal, exclusionTax, exclusionPas, exclusionFin, exclusionDck, filler);
    }

    /** The same with another Last Pre-Offset Notice Date. */
    public Rec withNoticeDate(String noticeDate) {
        return new Rec(mark, state, localCode, ssn, caseId, lastName, firstName, arrearage, caseType, noticeDate, noticeHold, passportAction, exclusionAdm, exclusionRet, exclusionVen, exclusionSal, exclusionTax, exclusionPas, exclusionFin, exclusionDck, filler);
    }

    /** The same with another Pre-Offset Notice Hold Indicator. */
    public Rec withNoticeHold(String noticeHold) {
        return new Rec(mark, state, localCode, ssn, caseId, lastName, firstName, arrearage, caseType, noticeDate, noticeHold, passportAction, exclusionAdm, exclusionRet, exclusionVen, exclusionSal, exclusionTax, exclusionPas, exclusionFin, exclusionDck, filler);
    }

    /** The same with another Department of State Action Indicator. */
    public Rec withPassportAction(String passportAction) {
        return new Rec(mark, state, localCode, ssn, caseId, lastName, firstName, arrearage, caseType, noticeDate, noticeHold, passportAction, exclusionAdm, exclusionRet, exclusionVen, exclusionSal, exclusionTax, exclusionPas, exclusionFin, exclusionDck, filler);
    }

    /** The same with another Administrative Offset Exclusion Indicator. */
    public Rec withExclusionAdm(String exclusionAdm) {
        return new Rec(mark, state, localCode, ssn, caseId, lastName, firstName, arrearage, caseType, noticeDate, noticeHold, passportAction, exclusionAdm, exclusionRet, exclusionVen, exclusionSal, exclusionTax, exclusionPas, exclusionFin, exclusionDck, filler);
    }

    /** The same with another Federal Retirement Offset Exclusion Indicator. */
    public Rec withExclusionRet(String exclusionRet) {
        return new Rec(mark, state, localCode, ssn, caseId, lastName, firstName, arrearage, caseType, noticeDate, noticeHold, passportAction, exclusionAdm, exclusionRet, exclusionVen, exclusionSal, exclusionTax, exclusionPas, exclusionFin, exclusionDck, filler);
    }

    /** The same with another Vendor Payments Exclusion Indicator. */
    public Rec withExclusionVen(String exclusionVen) {
        return new Rec(mark, state, localCode, ssn, caseId, lastName, firstName, arrearage, caseType, noticeDate, noticeHold, passportAction, exclusionAdm, exclusionRet, exclusionVen, exclusionSal, exclusionTax, exclusionPas, exclusionFin, exclusionDck, filler);
    }

    /** The same with another Federal Salary Exclusion Indicator. */
    public Rec withExclusionSal(String exclusionSal) {
        return new Rec(mark, state, localCode, ssn, caseId, lastName, firstName, arrearage, caseType, noticeDate, noticeHold, passportAction, exclusionAdm, exclusionRet, exclusionVen, exclusionSal, exclusionTax, exclusionPas, exclusionFin, exclusionDck, filler);
    }

    /** The same with another Tax Refund Offset Exclusion Indicator. */
    public Rec withExclusionTax(String exclusionTax) {
        return new Rec(mark, state, localCode, ssn, caseId, lastName, firstName, arrearage, caseType, noticeDate, noticeHold, passportAction, exclusionAdm, exclusionRet, exclusionVen, exclusionSal, exclusionTax, exclusionPas, exclusionFin, exclusionDck, filler);
    }

    /** The same with another Passport Denial Exclusion Indicator. */
    public Rec withExclusionPas(String exclusionPas) {
        return new Rec(mark, state, localCode, ssn, caseId, lastName, firstName, arrearage, caseType, noticeDate, noticeHold, passportAction, exclusionAdm, exclusionRet, exclusionVen, exclusionSal, exclusionTax, exclusionPas, exclusionFin, exclusionDck, filler);
    }

    /** The same with another Multi-State Financial Institution Data Match Exclusion Indicator. */
    public Rec withExclusionFin(String exclusionFin) {
        return new Rec(mark, state, localCode, ssn, caseId, lastName, firstName, arrearage, caseType, noticeDate, noticeHold, passportAction, exclusionAdm, exclusionRet, exclusionVen, exclusionSal, exclusionTax, exclusionPas, exclusionFin, exclusionDck, filler);
    }

    /** The same with another Debt Check Exclusion Indicator. */
    public Rec withExclusionDck(String exclusionDck) {
        return new Rec(mark, state, localCode, ssn, caseId, lastName, firstName, arrearage, caseType, noticeDate, noticeHold, passportAction, exclusionAdm, exclusionRet, exclusionVen, exclusionSal, exclusionTax, exclusionPas, exclusionFin, exclusionDck, filler);
    }

    /** The same with another Filler. */
    public Rec withFiller(String filler) {
        return new Rec(mark, state, localCode, ssn, caseId, lastName, firstName, arrearage, caseType, noticeDate, noticeHold, passportAction, exclusionAdm, exclusionRet, exclusionVen, exclusionSal, exclusionTax, exclusionPas, exclusionFin, exclusionDck, filler);
    }
}
