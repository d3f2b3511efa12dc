package fantanolive;

/** Why a call was refused. Written by bin/generate-layouts from fantanolive_text.h; not to be edited. */
public enum Refusal {
    WRONG_YEAR(1, "year outside 1900 to 9999",
            "apply: the year",
            "give the current calendar year in four digits"),
    WRONG_LOCALS(2, "list of local codes not made of three-digit codes, three bytes each, strictly rising",
            "apply, records_to: the list of local codes",
            "write each code as three EBCDIC digits with nothing between them or behind them, lowest first, none twice; an empty list is allowed"),
    WRONG_MASTER(3, "master length no multiple of 200, or row count above length / 200 or above 16,777,215",
            "apply, take_back, find, find_many, reconcile, pages, add_cents, post: the master as a whole, and its row count",
            "check that the file is a master and was copied whole, byte by byte; a row has 200 bytes and no line end, a master at most 16,777,215 rows"),
    UNSOUND_ROW(4, "a row that is not sound, or rows not in strictly rising order of key",
            "apply, take_back, find, find_many, reconcile, pages, add_cents, post: a row's columns 1-12 (key), 13-15, 31-34, 66-73, 79-90 or 196-200, or the order of the rows; records_to: these columns of the row, then of the wanted row, or a row not of 200 bytes",
            "take the last good copy of the master; if columns 197-200 are spaces in every row, run add_cents once (add_cents takes only such a master and refuses one that has its cents)"),
    WRONG_BATCH(5, "batch empty, its length no multiple of 245, or over 16,777,216 records",
            "apply, totals, merge: the batch as a whole; merge looks at the first batch wholly before the second",
            "write every record with 245 bytes and no line end, details first, the control record last; send more than 16,777,215 details in several batches"),
    NO_CTL(6, "CTL is missing in the last record",
            "apply, merge: the batch's last record, columns 3-5",
            "put the control record, with CTL in columns 3-5, behind the last detail; if the batch is in ASCII, convert it to EBCDIC first"),
    WRONG_COUNT(7, "a record count of the control record differs from the details",
            "apply, merge: the control record's columns 6-14 (TANF records) and 15-23 (Non-TANF records)",
            "count the details with A in column 74 and those with N, whatever errors they have; details with another case type count in neither"),
    WRONG_AMOUNT(8, "an amount of the control record differs from the details",
            "apply, merge: the control record's columns 24-34 (TANF amount) and 35-45 (Non-TANF amount)",
            "sum columns 65-72 over the details of types A and M alone, where they are eight digits, by case type A and N, whatever errors they have"),
    NO_ROOM(9, "no room for new rows: rows plus details of type A whose key has no row exceed master length / 200 or 16,777,215",
            "apply: the master's length, and the details with A in column 73",
            "lend a master with 200 bytes behind its rows for each such detail, repeated and faulty ones counted; a master can't have more than 16,777,215 rows"),
    SHORT_VERDICTS(10, "verdict list shorter than the details",
            "apply: the length of the verdict list, counted in numbers",
            "lend one 64-bit number for each detail of the batch"),
    SHORT_OUTPUT(11, "output too short",
            "apply: the reject buffer, below 245 x (details + 1) bytes; reconcile: the output, below 245 x (live rows of the state + 1) bytes",
            "lend 245 bytes for each detail (apply) or row (reconcile) and 245 more"),
    WRONG_STATE(12, "state not in the table of 54",
            "reconcile, contacts_codes: the state",
            "give the two-letter code of a state or territory, two EBCDIC bytes in upper case"),
    WRONG_DATE(13, "not a calendar date CCYYMMDD of 1900 to 9999",
            "reconcile: the date of the file",
            "give a day that exists as eight digits, year, month, day; blank is no date"),
    UNSOUND_KEY(14, "key not of twelve bytes, or its state, SSN or case type wrong",
            "find: the key, which is state (1-2), SSN (3-11) and case type (12)",
            "give a state of the table, an SSN that is right (see code 02) and A or N, with nothing between them"),
    NO_SUCH_ROW(15, "no row has this key",
            "find: the key",
            "check state, SSN and case type (A and N are two cases); a case has a row once an A for it was accepted, and keeps it when it is deleted"),
    NO_COUNTERPART(16, "a byte without a counterpart in the other character set",
            "to_ebcdic, to_ascii: the input, at the place told with the refusal, the first byte being 0",
            "leave only upper case letters, digits, space and - , . ( ) / & ' # in the file: no line ends, no lower case; never convert a master"),
    SHORT_FILE(17, "output shorter than the input",
            "to_ebcdic, to_ascii: the output's length",
            "lend as many bytes as the input has"),
    WRONG_CONTACTS(18, "contact file or table of a wrong length or count, or a table with a faulty record or not in strictly rising order",
            "contacts_update: the file (220 bytes a record, at most 16,777,215) and the table; contacts_codes: the table (220 bytes a record, by columns 1-5)",
            "write contact records with 220 bytes and no line end; for a table take only what contacts_update has written, with its count, or start an empty one"),
    SHORT_CONTACTS(19, "no space for contact records, or a list or output too short",
            "contacts_update: the table's length or that of the list of faulty records; contacts_codes: the output, below 3 bytes a code",
            "lend 220 bytes in the table for its records and for each record of the file, and one number a record of the file in the list; for codes 3 bytes a record of the table"),
    CONTROL_STATE(20, "state of the control record not in the table of 54",
            "apply, merge: the control record's columns 1-2",
            "put the two-letter code of the submitting state there, in upper case"),
    CONTROL_FORM(21, "a total of the control record is not digits, or its filler is not spaces",
            "apply, merge: the control record's columns 6-45 (four totals) and 46-245 (filler)",
            "write the totals right-justified with leading zeros, in 9, 9, 11 and 11 digits, and spaces behind them up to column 245"),
    WRONG_FILE(22, "collection file empty, its length no multiple of 240, or over 16,777,216 records",
            "post: the collection file as a whole",
            "check that the file was copied whole, byte by byte; a record has 240 bytes and no line end, and the last one is the TOTAL record"),
    WRONG_TOTAL(23, "last record of the collection file is not TOTAL, or its counts differ from the lines",
            "post: the last record's columns 6-14 (TOTAL and four spaces), 35-49 (adjustments) and 50-64 (collections)",
            "check that the file is whole and in EBCDIC; the counts, fifteen digits each, are of all lines with an adjustment (87-97) and with a collection (76-86) above zero; if they differ, get the file again"),
    SHORT_LINES(24, "line list shorter than the lines",
            "post: the length of the line list, counted in numbers",
            "lend one 32-bit number for each line of the file"),
    SHORT_JOURNAL(25, "journal buffer below 12 + 205 x details",
            "apply_journaled: the journal buffer's length",
            "lend 12 bytes and 205 bytes for each detail (a detail is every record but the last), however few rows change"),
    WRONG_JOURNAL(26, "not a journal, one that does not fit the master, or the rows that it would leave are not sound or not in order",
            "take_back: the journal, its length, or the master and row count that it goes with",
            "take the journal's bytes, all of them and no more, and the master and row count that its batch left; nothing may have changed the master since; take a batch back once, and only with its own journal"),
    WRONG_KEYS(27, "list of keys of a length no multiple of 12, with a key that is not sound, or not in strictly rising order",
            "find_many: the keys, twelve bytes each: state (1-2), SSN (3-11) and case type (12)",
            "write each key as for find, with nothing between them or behind them, lowest first in byte order (letters before digits), none twice; an empty list is allowed"),
    SHORT_PLACES(28, "answer list shorter than the keys",
            "find_many: the length of the answer list, counted in numbers",
            "lend one 32-bit number for each key"),
    NO_RECORDS(29, "no list of C, L, R and M records leads from the row to the wanted row",
            "records_to: a deleted row, a wanted change outside columns 13-30, 66-73 and 195-198, or one inside them that no such record brings",
            "want the changes alone that such records can make: a case ID that isn't blank, a local code 000 or listed, ADM with RET, VEN and SAL, 00 cents where the balance changes; names, payment, transfer and address go by B, S, T and Z, a new case by A"),
    SHORT_RECORDS(30, "output for the records below 980 bytes",
            "records_to: the length of the output",
            "lend 980 bytes, space for four records, however few come"),
    SHORT_PAGES(31, "buffer too short for the pages",
            "pages: the output, below 132 x (live rows + 2 x pages) bytes",
            "lend 132 bytes for each row and 264 for each page, a page for every 58 rows or part of them"),
    CANNOT_MERGE(32, "batches that can't be merged: two states, over 16,777,215 details together, or an amount total above eleven digits",
            "merge: columns 1-2 of both control records, the numbers of details, and the sums of columns 24-34 and of columns 35-45",
            "send the batches one behind the other; only batches of one state can be merged, and amounts to 99,999,999,999 dollars"),
    SHORT_BATCH(33, "output shorter than the merged batch",
            "merge: the output's length",
            "lend as many bytes as both batches have, less 245");

    private final int number;
    private final String wrong;
    private final String where;
    private final String mend;

    Refusal(int number, String wrong, String where, String mend) {
        this.number = number;
        this.wrong = wrong;
        this.where = where;
        this.mend = mend;
    }

    /** Its number. */
    public int number() {
        return number;
    }

    /** What is wrong. */
    public String wrong() {
        return wrong;
    }

    /** Where: which columns, or which argument. */
    public String where() {
        return where;
    }

    /** How to fix it. */
    public String mend() {
        return mend;
    }

    /** The one of a number; null for a number that has none. */
    public static Refusal of(long number) {
        for (Refusal one : values()) {
            if (one.number == number) {
                return one;
            }
        }
        return null;
    }
}
