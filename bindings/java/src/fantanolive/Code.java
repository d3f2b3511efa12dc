package fantanolive;

/** What a detail got for a fault: errors 1 to 18, warnings 51 and 52. Written by bin/generate-layouts from fantanolive_text.h; not to be edited. */
public enum Code {
    CODE_01(1, "state not in the table of 54, or not the control record's",
            "columns 1-2 (state), all types",
            "put the control record's state into every detail; send another state's cases in a batch of their own"),
    CODE_02(2, "SSN not nine digits, all zero, or with an area, group or serial that is never issued",
            "columns 6-14 (SSN), all types",
            "correct the SSN: nine digits; below 900 the first three are not 000 or 666, the next two not 00, the last four not 0000"),
    CODE_03(3, "transaction type unknown",
            "column 73 (transaction type)",
            "use A, B, C, D, L, M, R, S, T or Z; columns that belong to a type are judged once the type is right"),
    CODE_04(4, "case type neither A nor N",
            "column 74 (case type), all types",
            "use A for a TANF case and N for a Non-TANF case"),
    CODE_05(5, "last name does not begin with letters or hyphens with only spaces behind, or, for A and B, has no letter there",
            "columns 30-33 (last name, first four), all types",
            "write the name in upper case from column 30 on; leave out spaces, apostrophes and other characters within the first four"),
    CODE_06(6, "first name does not begin with a letter",
            "column 50 (first name, first character), types A and B",
            "write the first name in upper case from column 50 on"),
    CODE_07(7, "amount not eight digits",
            "columns 65-72 (arrearage; for S the accumulated payment), types A, M and S",
            "write whole dollars right-justified with leading zeros, without sign, comma or point: 1,500 dollars are 00001500"),
    CODE_08(8, "arrearage below 25 dollars",
            "columns 65-72 (arrearage), type A",
            "send the case once it owes 25 dollars or more; to lower the amount of a live case use M, to delete it D"),
    CODE_09(9, "no live case with this key on the master",
            "columns 1-2 (state), 6-14 (SSN) and 74 (case type), all types but A",
            "check the three fields; if the case was never added, or is deleted, send an A first"),
    CODE_10(10, "local code not in the list",
            "columns 3-5 (local code), type L",
            "use a code of the list, 000 or spaces; or have the code in the list first"),
    CODE_11(11, "case ID blank",
            "columns 15-29 (case ID), type C",
            "write the new case ID"),
    CODE_12(12, "transfer state not in the table of 54",
            "columns 75-76 (transfer state), type T",
            "put the two-letter code of the state that the case goes to there"),
    CODE_13(13, "process year not four digits, in the future or more than seven years back",
            "columns 80-83 (process year), type S",
            "give the year of the offset in four digits, from seven years before the current year to the current year"),
    CODE_14(14, "address incomplete or wrong",
            "columns 84-113 and 114-143 (lines), 144-168 (city), 169-170 (state), 171-179 (ZIP), types Z and A",
            "Z needs a line, the city, a state of the table and a ZIP of nine digits, or five and four spaces; A may leave state and ZIP blank, but one that is sent must be right"),
    CODE_15(15, "date issued not a calendar date",
            "columns 180-187 (date issued), type A",
            "give a day of 1900 to 9999 that exists as CCYYMMDD, or leave the field blank"),
    CODE_16(16, "exclusion word unknown",
            "columns 188-227 (exclusion indicators), types A and R",
            "use ADM, RET, VEN, SAL, TAX, PAS, FIN and DCK, with commas or spaces between them, or leave the field blank for none"),
    CODE_17(17, "last name differs from the stored one",
            "columns 30-33 (last name, first four), all types but A and B",
            "use the stored name (its first four are in columns 240-243 of the reject record), or send the new name in a B of the same key in the same batch"),
    CODE_18(18, "filler not spaces",
            "columns 228-244 (filler), all types",
            "write spaces there"),
    CODE_51(51, "warning: local code not in the list, 000 is stored",
            "columns 3-5 (local code), type A",
            "the record is accepted; to set a code, have it in the list and send an L"),
    CODE_52(52, "warning: name differs from the live case's and replaces it",
            "columns 30-49 (last name) and 50-64 (first name), type A",
            "the record is accepted; check that the SSN is the right one: if it is not, this case took the names, amount and exclusions of another, and an A with its own is to be sent");

    private final int number;
    private final String wrong;
    private final String where;
    private final String mend;

    Code(int number, String wrong, String where, String mend) {
        this.number = number;
        this.wrong = wrong;
        this.where = where;
        this.mend = mend;
    }

    /** Its number. */
    public int number() {
        return number;
    }

    /** What is wrong. */
    public String wrong() {
        return wrong;
    }

    /** Where: which columns, or which argument. */
    public String where() {
        return where;
    }

    /** How to fix it. */
    public String mend() {
        return mend;
    }

    /** The one of a number; null for a number that has none. */
    public static Code of(long number) {
        for (Code one : values()) {
            if (one.number == number) {
                return one;
            }
        }
        return null;
    }
}
