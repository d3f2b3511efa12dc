"""What the C headers say: the version, the numbers and the words. Written by ../generate; not to be edited."""
import enum
from typing import Dict, Tuple

VERSION = '2.0.0'

# The constants of fantanolive.h, without FANTANOLIVE_ in front.
VERSION_MAJOR = 2
VERSION_MINOR = 0
VERSION_PATCH = 0
ROW = 200
RECORD = 245
CONTACT = 220
LINE = 240
PAGE_LINE = 132
PAGE_CASES = 58
KEY = 12
STATE = 2
DATE = 8
LOCAL_CODE = 3
MAX_ROWS = 16777215
MAX_RECORDS = 16777216
MAX_CONTACTS = 16777215
RECORDS_SIZE = 980
ACCEPTED = 0
REJECTED = 1
WARNED = 2
NEITHER = 3
ROWS = 4
RESULTS = 5
JOURNAL = 5
JOURNALED_RESULTS = 6
CONTACTS = 0
FAULTY = 1
CONTACT_RESULTS = 2
NO_PLACE = 4294967295
TANF_COUNT = 0
NON_TANF_COUNT = 1
TANF_AMOUNT = 2
NON_TANF_AMOUNT = 3
TOTALS = 4
DONE = 0
WRONG_YEAR = 1
WRONG_LOCALS = 2
WRONG_MASTER = 3
UNSOUND_ROW = 4
WRONG_BATCH = 5
NO_CTL = 6
WRONG_COUNT = 7
WRONG_AMOUNT = 8
NO_ROOM = 9
SHORT_VERDICTS = 10
SHORT_OUTPUT = 11
WRONG_STATE = 12
WRONG_DATE = 13
UNSOUND_KEY = 14
NO_SUCH_ROW = 15
NO_COUNTERPART = 16
SHORT_FILE = 17
WRONG_CONTACTS = 18
SHORT_CONTACTS = 19
CONTROL_STATE = 20
CONTROL_FORM = 21
WRONG_FILE = 22
WRONG_TOTAL = 23
SHORT_LINES = 24
SHORT_JOURNAL = 25
WRONG_JOURNAL = 26
WRONG_KEYS = 27
SHORT_PLACES = 28
NO_RECORDS = 29
SHORT_RECORDS = 30
SHORT_PAGES = 31
CANNOT_MERGE = 32
SHORT_BATCH = 33

# A number's words: what is wrong, where, how to mend it.
REFUSAL_TEXTS: Dict[int, Tuple[str, str, str]] = {
    1: (
        'year outside 1900 to 9999',
        'apply: the year',
        'give the current calendar year in four digits',
    ),
    2: (
        'list of local codes not made of three-digit codes, three bytes each, strictly rising',
        'apply, records_to: the list of local codes',
        'write each code as three EBCDIC digits with nothing between them or behind them, lowest first, none twice; an empty list is allowed',
    ),
    3: (
        'master length no multiple of 200, or row count above length / 200 or above 16,777,215',
        'apply, take_back, find, find_many, reconcile, pages, add_cents, post: the master as a whole, and its row count',
        'check that the file is a master and was copied whole, byte by byte; a row has 200 bytes and no line end, a master at most 16,777,215 rows',
    ),
    4: (
        'a row that is not sound, or rows not in strictly rising order of key',
        "apply, take_back, find, find_many, reconcile, pages, add_cents, post: a row's columns 1-12 (key), 13-15, 31-34, 66-73, 79-90 or 196-200, or the order of the rows; records_to: these columns of the row, then of the wanted row, or a row not of 200 bytes",
        'take the last good copy of the master; if columns 197-200 are spaces in every row, run add_cents once (add_cents takes only such a master and refuses one that has its cents)',
    ),
    5: (
        'batch empty, its length no multiple of 245, or over 16,777,216 records',
        'apply, totals, merge: the batch as a whole; merge looks at the first batch wholly before the second',
        'write every record with 245 bytes and no line end, details first, the control record last; send more than 16,777,215 details in several batches',
    ),
    6: (
        'CTL is missing in the last record',
        "apply, merge: the batch's last record, columns 3-5",
        'put the control record, with CTL in columns 3-5, behind the last detail; if the batch is in ASCII, convert it to EBCDIC first',
    ),
    7: (
        'a record count of the control record differs from the details',
        "apply, merge: the control record's columns 6-14 (TANF records) and 15-23 (Non-TANF records)",
        'count the details with A in column 74 and those with N, whatever errors they have; details with another case type count in neither',
    ),
    8: (
        'an amount of the control record differs from the details',
        "apply, merge: the control record's columns 24-34 (TANF amount) and 35-45 (Non-TANF amount)",
        'sum columns 65-72 over the details of types A and M alone, where they are eight digits, by case type A and N, whatever errors they have',
    ),
    9: (
        'no room for new rows: rows plus details of type A whose key has no row exceed master length / 200 or 16,777,215',
        "apply: the master's length, and the details with A in column 73",
        "lend a master with 200 bytes behind its rows for each such detail, repeated and faulty ones counted; a master can't have more than 16,777,215 rows",
    ),
    10: (
        'verdict list shorter than the details',
        'apply: the length of the verdict list, counted in numbers',
        'lend one 64-bit number for each detail of the batch',
    ),
    11: (
        'output too short',
        'apply: the reject buffer, below 245 x (details + 1) bytes; reconcile: the output, below 245 x (live rows of the state + 1) bytes',
        'lend 245 bytes for each detail (apply) or row (reconcile) and 245 more',
    ),
    12: (
        'state not in the table of 54',
        'reconcile, contacts_codes: the state',
        'give the two-letter code of a state or territory, two EBCDIC bytes in upper case',
    ),
    13: (
        'not a calendar date CCYYMMDD of 1900 to 9999',
        'reconcile: the date of the file',
        'give a day that exists as eight digits, year, month, day; blank is no date',
    ),
    14: (
        'key not of twelve bytes, or its state, SSN or case type wrong',
        'find: the key, which is state (1-2), SSN (3-11) and case type (12)',
        'give a state of the table, an SSN that is right (see code 02) and A or N, with nothing between them',
    ),
    15: (
        'no row has this key',
        'find: the key',
        'check state, SSN and case type (A and N are two cases); a case has a row once an A for it was accepted, and keeps it when it is deleted',
    ),
    16: (
        'a byte without a counterpart in the other character set',
        'to_ebcdic, to_ascii: the input, at the place told with the refusal, the first byte being 0',
        "leave only upper case letters, digits, space and - , . ( ) / & ' # in the file: no line ends, no lower case; never convert a master",
    ),
    17: (
        'output shorter than the input',
        "to_ebcdic, to_ascii: the output's length",
        'lend as many bytes as the input has',
    ),
    18: (
        'contact file or table of a wrong length or count, or a table with a faulty record or not in strictly rising order',
        'contacts_update: the file (220 bytes a record, at most 16,777,215) and the table; contacts_codes: the table (220 bytes a record, by columns 1-5)',
        'write contact records with 220 bytes and no line end; for a table take only what contacts_update has written, with its count, or start an empty one',
    ),
    19: (
        'no space for contact records, or a list or output too short',
        "contacts_update: the table's length or that of the list of faulty records; contacts_codes: the output, below 3 bytes a code",
        'lend 220 bytes in the table for its records and for each record of the file, and one number a record of the file in the list; for codes 3 bytes a record of the table',
    ),
    20: (
        'state of the control record not in the table of 54',
        "apply, merge: the control record's columns 1-2",
        'put the two-letter code of the submitting state there, in upper case',
    ),
    21: (
        'a total of the control record is not digits, or its filler is not spaces',
        "apply, merge: the control record's columns 6-45 (four totals) and 46-245 (filler)",
        'write the totals right-justified with leading zeros, in 9, 9, 11 and 11 digits, and spaces behind them up to column 245',
    ),
    22: (
        'collection file empty, its length no multiple of 240, or over 16,777,216 records',
        'post: the collection file as a whole',
        'check that the file was copied whole, byte by byte; a record has 240 bytes and no line end, and the last one is the TOTAL record',
    ),
    23: (
        'last record of the collection file is not TOTAL, or its counts differ from the lines',
        "post: the last record's columns 6-14 (TOTAL and four spaces), 35-49 (adjustments) and 50-64 (collections)",
        'check that the file is whole and in EBCDIC; the counts, fifteen digits each, are of all lines with an adjustment (87-97) and with a collection (76-86) above zero; if they differ, get the file again',
    ),
    24: (
        'line list shorter than the lines',
        'post: the length of the line list, counted in numbers',
        'lend one 32-bit number for each line of the file',
    ),
    25: (
        'journal buffer below 12 + 205 x details',
        "apply_journaled: the journal buffer's length",
        'lend 12 bytes and 205 bytes for each detail (a detail is every record but the last), however few rows change',
    ),
    26: (
        'not a journal, one that does not fit the master, or the rows that it would leave are not sound or not in order',
        'take_back: the journal, its length, or the master and row count that it goes with',
        "take the journal's bytes, all of them and no more, and the master and row count that its batch left; nothing may have changed the master since; take a batch back once, and only with its own journal",
    ),
    27: (
        'list of keys of a length no multiple of 12, with a key that is not sound, or not in strictly rising order',
        'find_many: the keys, twelve bytes each: state (1-2), SSN (3-11) and case type (12)',
        'write each key as for find, with nothing between them or behind them, lowest first in byte order (letters before digits), none twice; an empty list is allowed',
    ),
    28: (
        'answer list shorter than the keys',
        'find_many: the length of the answer list, counted in numbers',
        'lend one 32-bit number for each key',
    ),
    29: (
        'no list of C, L, R and M records leads from the row to the wanted row',
        'records_to: a deleted row, a wanted change outside columns 13-30, 66-73 and 195-198, or one inside them that no such record brings',
        "want the changes alone that such records can make: a case ID that isn't blank, a local code 000 or listed, ADM with RET, VEN and SAL, 00 cents where the balance changes; names, payment, transfer and address go by B, S, T and Z, a new case by A",
    ),
    30: (
        'output for the records below 980 bytes',
        'records_to: the length of the output',
        'lend 980 bytes, space for four records, however few come',
    ),
    31: (
        'buffer too short for the pages',
        'pages: the output, below 132 x (live rows + 2 x pages) bytes',
        'lend 132 bytes for each row and 264 for each page, a page for every 58 rows or part of them',
    ),
    32: (
        "batches that can't be merged: two states, over 16,777,215 details together, or an amount total above eleven digits",
        'merge: columns 1-2 of both control records, the numbers of details, and the sums of columns 24-34 and of columns 35-45',
        'send the batches one behind the other; only batches of one state can be merged, and amounts to 99,999,999,999 dollars',
    ),
    33: (
        'output shorter than the merged batch',
        "merge: the output's length",
        'lend as many bytes as both batches have, less 245',
    ),
}

CODE_TEXTS: Dict[int, Tuple[str, str, str]] = {
    1: (
        "state not in the table of 54, or not the control record's",
        'columns 1-2 (state), all types',
        "put the control record's state into every detail; send another state's cases in a batch of their own",
    ),
    2: (
        'SSN not nine digits, all zero, or with an area, group or serial that is never issued',
        'columns 6-14 (SSN), all types',
        'correct the SSN: nine digits; below 900 the first three are not 000 or 666, the next two not 00, the last four not 0000',
    ),
    3: (
        'transaction type unknown',
        'column 73 (transaction type)',
        'use A, B, C, D, L, M, R, S, T or Z; columns that belong to a type are judged once the type is right',
    ),
    4: (
        'case type neither A nor N',
        'column 74 (case type), all types',
        'use A for a TANF case and N for a Non-TANF case',
    ),
    5: (
        'last name does not begin with letters or hyphens with only spaces behind, or, for A and B, has no letter there',
        'columns 30-33 (last name, first four), all types',
        'write the name in upper case from column 30 on; leave out spaces, apostrophes and other characters within the first four',
    ),
    6: (
        'first name does not begin with a letter',
        'column 50 (first name, first character), types A and B',
        'write the first name in upper case from column 50 on',
    ),
    7: (
        'amount not eight digits',
        'columns 65-72 (arrearage; for S the accumulated payment), types A, M and S',
        'write whole dollars right-justified with leading zeros, without sign, comma or point: 1,500 dollars are 00001500',
    ),
    8: (
        'arrearage below 25 dollars',
        'columns 65-72 (arrearage), type A',
        'send the case once it owes 25 dollars or more; to lower the amount of a live case use M, to delete it D',
    ),
    9: (
        'no live case with this key on the master',
        'columns 1-2 (state), 6-14 (SSN) and 74 (case type), all types but A',
        'check the three fields; if the case was never added, or is deleted, send an A first',
    ),
    10: (
        'local code not in the list',
        'columns 3-5 (local code), type L',
        'use a code of the list, 000 or spaces; or have the code in the list first',
    ),
    11: (
        'case ID blank',
        'columns 15-29 (case ID), type C',
        'write the new case ID',
    ),
    12: (
        'transfer state not in the table of 54',
        'columns 75-76 (transfer state), type T',
        'put the two-letter code of the state that the case goes to there',
    ),
    13: (
        'process year not four digits, in the future or more than seven years back',
        'columns 80-83 (process year), type S',
        'give the year of the offset in four digits, from seven years before the current year to the current year',
    ),
    14: (
        'address incomplete or wrong',
        'columns 84-113 and 114-143 (lines), 144-168 (city), 169-170 (state), 171-179 (ZIP), types Z and A',
        'Z needs a line, the city, a state of the table and a ZIP of nine digits, or five and four spaces; A may leave state and ZIP blank, but one that is sent must be right',
    ),
    15: (
        'date issued not a calendar date',
        'columns 180-187 (date issued), type A',
        'give a day of 1900 to 9999 that exists as CCYYMMDD, or leave the field blank',
    ),
    16: (
        'exclusion word unknown',
        'columns 188-227 (exclusion indicators), types A and R',
        'use ADM, RET, VEN, SAL, TAX, PAS, FIN and DCK, with commas or spaces between them, or leave the field blank for none',
    ),
    17: (
        'last name differs from the stored one',
        'columns 30-33 (last name, first four), all types but A and B',
        'use the stored name (its first four are in columns 240-243 of the reject record), or send the new name in a B of the same key in the same batch',
    ),
    18: (
        'filler not spaces',
        'columns 228-244 (filler), all types',
        'write spaces there',
    ),
    51: (
        'warning: local code not in the list, 000 is stored',
        'columns 3-5 (local code), type A',
        'the record is accepted; to set a code, have it in the list and send an L',
    ),
    52: (
        "warning: name differs from the live case's and replaces it",
        'columns 30-49 (last name) and 50-64 (first name), type A',
        'the record is accepted; check that the SSN is the right one: if it is not, this case took the names, amount and exclusions of another, and an A with its own is to be sent',
    ),
}



class Refusal(enum.IntEnum):
    """Why a call was refused."""

    # year outside 1900 to 9999
    WRONG_YEAR = 1
    # list of local codes not made of three-digit codes, three bytes each, strictly rising
    WRONG_LOCALS = 2
    # master length no multiple of 200, or row count above length / 200 or above 16,777,215
    WRONG_MASTER = 3
    # a row that is not sound, or rows not in strictly rising order of key
    UNSOUND_ROW = 4
    # batch empty, its length no multiple of 245, or over 16,777,216 records
    WRONG_BATCH = 5
    # CTL is missing in the last record
    NO_CTL = 6
    # a record count of the control record differs from the details
    WRONG_COUNT = 7
    # an amount of the control record differs from the details
    WRONG_AMOUNT = 8
    # no room for new rows: rows plus details of type A whose key has no row exceed master length / 200 or 16,777,215
    NO_ROOM = 9
    # verdict list shorter than the details
    SHORT_VERDICTS = 10
    # output too short
    SHORT_OUTPUT = 11
    # state not in the table of 54
    WRONG_STATE = 12
    # not a calendar date CCYYMMDD of 1900 to 9999
    WRONG_DATE = 13
    # key not of twelve bytes, or its state, SSN or case type wrong
    UNSOUND_KEY = 14
    # no row has this key
    NO_SUCH_ROW = 15
    # a byte without a counterpart in the other character set
    NO_COUNTERPART = 16
    # output shorter than the input
    SHORT_FILE = 17
    # contact file or table of a wrong length or count, or a table with a faulty record or not in strictly rising order
    WRONG_CONTACTS = 18
    # no space for contact records, or a list or output too short
    SHORT_CONTACTS = 19
    # state of the control record not in the table of 54
    CONTROL_STATE = 20
    # a total of the control record is not digits, or its filler is not spaces
    CONTROL_FORM = 21
    # collection file empty, its length no multiple of 240, or over 16,777,216 records
    WRONG_FILE = 22
    # last record of the collection file is not TOTAL, or its counts differ from the lines
    WRONG_TOTAL = 23
    # line list shorter than the lines
    SHORT_LINES = 24
    # journal buffer below 12 + 205 x details
    SHORT_JOURNAL = 25
    # not a journal, one that does not fit the master, or the rows that it would leave are not sound or not in order
    WRONG_JOURNAL = 26
    # list of keys of a length no multiple of 12, with a key that is not sound, or not in strictly rising order
    WRONG_KEYS = 27
    # answer list shorter than the keys
    SHORT_PLACES = 28
    # no list of C, L, R and M records leads from the row to the wanted row
    NO_RECORDS = 29
    # output for the records below 980 bytes
    SHORT_RECORDS = 30
    # buffer too short for the pages
    SHORT_PAGES = 31
    # batches that can't be merged: two states, over 16,777,215 details together, or an amount total above eleven digits
    CANNOT_MERGE = 32
    # output shorter than the merged batch
    SHORT_BATCH = 33
