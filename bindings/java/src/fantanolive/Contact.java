package fantanolive;

import java.util.List;

/**
 * A contact record (Chart A-3, 220 bytes). Every field is a text without the spaces at its end. What was read is
 * written as the same bytes, whatever they are; nothing is judged here. Written by bin/generate-layouts from package/layouts.json; not to be edited.
 *
 * @param state Submitting State Code, 1-2: of the table; key
 * @param localCode Local Code, 3-5: three digits, 000 for the state itself; key
 * @param telephone1 Telephone Number 1, 6-19: of the form `(301) 555-1212`
 * @param extension1 Extension 1, 20-23: up to four digits with only spaces behind, or blank
 * @param telephone2 Telephone Number 2, 24-37: of the same form, or blank
 * @param extension2 Extension 2, 38-41: as extension 1
 * @param agencyName State Agency Name, 42-76: contains CHILD SUPPORT or FAMILY SUPPORT
 * @param addressLine1 State Agency Address Line 1, 77-111: one of lines 1 to 3 is not blank
 * @param addressLine2 State Agency Address Line 2, 112-146
 * @param addressLine3 State Agency Address Line 3, 147-181
 * @param addressLine4 State Agency Address Line 4, 182-216: not blank
 * @param filler Filler, 217-220: spaces
 */
public record Contact(
        String state,
        String localCode,
        String telephone1,
        String extension1,
        String telephone2,
        String extension2,
        String agencyName,
        String addressLine1,
        String addressLine2,
        String addressLine3,
        String addressLine4,
        String filler) implements Layout {
    /** How many bytes a record has. */
    public static final int WIDTH = 220;

    /** The fields, in order and without gaps. */
    public static final List<Field> FIELDS = List.of(
            new Field("state", "Submitting State Code", 1, 2, Field.Kind.TEXT),
            new Field("local_code", "Local Code", 3, 5, Field.Kind.TEXT),
            new Field("telephone_1", "Telephone Number 1", 6, 19, Field.Kind.TEXT),
            new Field("extension_1", "Extension 1", 20, 23, Field.Kind.TEXT),
            new Field("telephone_2", "Telephone Number 2", 24, 37, Field.Kind.TEXT),
            new Field("extension_2", "Extension 2", 38, 41, Field.Kind.TEXT),
            new Field("agency_name", "State Agency Name", 42, 76, Field.Kind.TEXT),
            new Field("address_line_1", "State Agency Address Line 1", 77, 111, Field.Kind.TEXT),
            new Field("address_line_2", "State Agency Address Line 2", 112, 146, Field.Kind.TEXT),
            new Field("address_line_3", "State Agency Address Line 3", 147, 181, Field.Kind.TEXT),
            new Field("address_line_4", "State Agency Address Line 4", 182, 216, Field.Kind.TEXT),
            new Field("filler", "Filler", 217, 220, Field.Kind.FILLER));

    /** A record of spaces. */
    public static Contact blank() {
        return new Contact("", "", "", "", "", "", "", "", "", "", "", "");
    }

    /**
     * Reads a record in EBCDIC.
     *
     * @throws IllegalArgumentException where it hasn't 220 bytes
     */
    public static Contact read(byte[] record) {
        Columns.checked(record, WIDTH);
        return new Contact(
            Columns.text(record, 1, 2),
            Columns.text(record, 3, 5),
            Columns.text(record, 6, 19),
            Columns.text(record, 20, 23),
            Columns.text(record, 24, 37),
            Columns.text(record, 38, 41),
            Columns.text(record, 42, 76),
            Columns.text(record, 77, 111),
            Columns.text(record, 112, 146),
            Columns.text(record, 147, 181),
            Columns.text(record, 182, 216),
            Columns.text(record, 217, 220));
    }

    @Override
    public List<Field> fields() {
        return FIELDS;
    }

    @Override
    public List<Object> values() {
        return List.of(state, localCode, telephone1, extension1, telephone2, extension2, agencyName, addressLine1, addressLine2, addressLine3, addressLine4, filler);
    }

    /** The fields that aren't blank, without SSNs. */
    @Override
    public String toString() {
        return Columns.shown("Contact", this);
    }

    /** The same with another Submitting State Code. */
    public Contact withState(String state) {
        return new Contact(state, localCode, telephone1, extension1, telephone2, extension2, agencyName, addressLine1, addressLine2, addressLine3, addressLine4, filler);
    }

    /** The same with another Local Code. */
    public Contact withLocalCode(String localCode) {
        return new Contact(state, localCode, telephone1, extension1, telephone2, extension2, agencyName, addressLine1, addressLine2, addressLine3, addressLine4, filler);
    }

    /** The same with another Telephone Number 1. */
    public Contact withTelephone1(String telephone1) {
        return new Contact(state, localCode, telephone1, extension1, telephone2, extension2, agencyName, addressLine1, addressLine2, addressLine3, addressLine4, filler);
    }

    /** The same with another Extension 1. */
    public Contact withExtension1(String extension1) {
        return new Contact(state, localCode, telephone1, extension1, telephone2, extension2, agencyName, addressLine1, addressLine2, addressLine3, addressLine4, filler);
    }

    /** The same with another Telephone Number 2. */
    public Contact withTelephone2(String telephone2) {
        return new Contact(state, localCode, telephone1, extension1, telephone2, extension2, agencyName, addressLine1, addressLine2, addressLine3, addressLine4, filler);
    }

    /** The same with another Extension 2. */
    public Contact withExtension2(String extension2) {
        return new Contact(state, localCode, telephone1, extension1, telephone2, extension2, agencyName, addressLine1, addressLine2, addressLine3, addressLine4, filler);
    }

    /** The same with another State Agency Name. */
    public Contact withAgencyName(String agencyName) {
        return new Contact(state, localCode, telephone1, extension1, telephone2, extension2, agencyName, addressLine1, addressLine2, addressLine3, addressLine4, filler);
    }

    /** The same with another State Agency Address Line 1. */
    public Contact withAddressLine1(String addressLine1) {
        return new Contact(state, localCode, telephone1, extension1, telephone2, extension2, agencyName, addressLine1, addressLine2, addressLine3, addressLine4, filler);
    }

    /** The same with another State Agency Address Line 2. */
    public Contact withAddressLine2(String addressLine2) {
        return new Contact(state, localCode, telephone1, extension1, telephone2, extension2, agencyName, addressLine1, addressLine2, addressLine3, addressLine4, filler);
    }

    /** The same with another State Agency Address Line 3. */
    public Contact withAddressLine3(String addressLine3) {
        return new Contact(state, localCode, telephone1, extension1, telephone2, extension2, agencyName, addressLine1, addressLine2, addressLine3, addressLine4, filler);
    }

    /** The same with another State Agency Address Line 4. */
    public Contact withAddressLine4(String addressLine4) {
        return new Contact(state, localCode, telephone1, extension1, telephone2, extension2, agencyName, addressLine1, addressLine2, addressLine3, addressLine4, filler);
    }

    /** The same with another Filler. */
    public Contact withFiller(String filler) {
        return new Contact(state, localCode, telephone1, extension1, telephone2, extension2, agencyName, addressLine1, addressLine2, addressLine3, addressLine4, filler);
    }
}
