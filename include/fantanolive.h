/* fantanolive.h: the C interface of the Fantanolive library, libfantanolive.a and libfantanolive.so.
 *
 * The library keeps a state's copy of the federal offset case master: the child support cases that the state has submitted,
 * a row each. It has sixteen calls, and fantanolive_version:
 *
 *     fantanolive_apply            applies a submission batch to a master
 *     fantanolive_apply_journaled  the same, with a journal of what the batch changes
 *     fantanolive_take_back        takes a batch back with its journal
 *     fantanolive_totals           adds up the totals of a batch's details
 *     fantanolive_merge            merges two batches into one
 *     fantanolive_find             finds a case's row in a master
 *     fantanolive_find_many        finds the rows of many cases in one walk
 *     fantanolive_reconcile        writes the reconciliation file of a state
 *     fantanolive_pages            prints the live cases of a master, page by page
 *     fantanolive_add_cents        gives a master whose rows have no cents 00 cents
 *     fantanolive_post             posts a weekly collection file to a master
 *     fantanolive_to_ebcdic        turns a file from ASCII into EBCDIC
 *     fantanolive_to_ascii         turns a file from EBCDIC into ASCII
 *     fantanolive_contacts_update  reads a contact file into a table of contact records
 *     fantanolive_contacts_codes   writes the local codes of a state in such a table
 *     fantanolive_records_to       writes the records that lead from a case's row to a wanted row
 *
 * Words. A master is rows one behind the other, without line ends; so are the records of a batch and of every other file.
 * Columns count from 1: column 1 is byte 0. fantanolive_layout.h has the fields of each row and record with their columns,
 * and the manual, MANUAL.md, what they hold.
 *   state      one of the table of 54: AK AL AR AZ CA CO CT DC DE FL GA GU HI IA ID IL IN KS KY LA MA MD ME MI MN MO MS
 *              MT NC ND NE NH NJ NM NV NY OH OK OR PA PR RI SC SD TN TX UT VA VI VT WA WI WV WY
 *   key        a case's state, SSN and case type (A or N), twelve bytes. It is sound where the state is in the table, the
 *              SSN nine digits that may have been issued (code 02 in fantanolive_text.h) and the case type A or N
 *   row        what a master holds of a case. Rows stand in strictly rising byte order of key. A row is deleted where its
 *              status (column 196) is D, else live; a deleted one keeps its place. It is sound where its key is, columns
 *              13-15, 66-73, 79-90 and 197-198 are digits, 31-34 letters or hyphens with only spaces behind and at least
 *              one letter, 196 is D exactly where dollars and cents are zero and else a space, and 199-200 are spaces
 *   detail     a record of a batch but the last, which is the control record
 *   code       what a detail gets for a fault: errors 1 to 18, by which it is rejected and changes nothing, and warnings 51
 *              and 52, with which it is accepted
 *   faulty     a contact record that breaks a rule of fantanolive_contacts_update
 *
 * Bytes. All text is EBCDIC: letters C1-C9, D1-D9, E2-E9, digits F0-F9, space 40, hyphen 60, comma 6B (hexadecimal).
 * A batch typed in ASCII is turned into EBCDIC by fantanolive_to_ebcdic first; the other calls convert nothing.
 *
 * Answers. Each call answers 0 (FANTANOLIVE_DONE) when it was carried out, else the number of a refusal, 1 to 33. A
 * call answers the first refusal that holds, in the order that is given with it. On a refusal nothing at all is
 * written: no byte of any buffer, and no number of the result but the place that goes with refusal 16.
 * fantanolive_text.h has the refusals and the codes of a verdict in words.
 *
 * Memory. The caller owns every buffer, before, during and after a call. The library allocates nothing, frees nothing
 * and keeps no pointer when a call returns. It reads no file and writes none.
 *
 * Pointers. A pointer must be valid for the length that goes with it: readable where it is const, else readable and
 * writable. No pointer may be NULL, not even with a length of 0; any other pointer of the right alignment does then.
 * Pointers to uint64_t must be aligned as uint64_t is (8 bytes), those to uint32_t as uint32_t is (4 bytes); those to bytes
 * may have any address.
 * The calls do not check this, and a call that breaks it has no defined outcome.
 *
 * Overlap. A buffer that a call writes must not overlap any other argument of the call. Buffers that are only read may
 * overlap each other: a key may be a pointer into the master that it is looked for in.
 *
 * Threads. There is no global state. Calls may run at once in several threads, as long as no buffer that one of them
 * writes is read or written by another. Any number of fantanolive_find, fantanolive_find_many, fantanolive_reconcile and
 * fantanolive_pages calls may read the same master at once.
 *
 * Stack. Every call takes some kilobytes of stack, however much is lent to it, but fantanolive_contacts_update, which takes
 * some 270: two tables with an entry for each of 54,000 keys (54 states of 1,000 codes), of 4 bytes and of 1 byte. One
 * function calls itself, the sort inside fantanolive_apply and fantanolive_apply_journaled, at most 64 deep.
 *
 * Cents. A row's columns 197-198 are its cents, 199-200 spaces; its balance is the dollars of columns 66-73 and these
 * cents, and it is deleted exactly when both are zero. A master with rows from before the cents (spaces in 197-200) gets
 * 4 from every other call that takes a master until fantanolive_add_cents has converted it, once.
 *
 * Limits. A master has at most 16,777,215 rows, a batch at most 16,777,216 records (16,777,215 details and the control
 * record), a contact file at most 16,777,215 records, a collection file at most 16,777,216 (16,777,215 lines and the last
 * record); a table of contact records has no limit of its own. Numbers and lengths outside the limits are refused, not cut.
 * No product and no sum of what can be lent passes 64 bits, at the limits or outside them: nothing wraps.
 */
#ifndef FANTANOLIVE_H
#define FANTANOLIVE_H

#include <stddef.h>
#include <stdint.h>

#ifdef __cplusplus
extern "C" {
#endif

/* The version of the library that this header goes with, as text and as numbers. CHANGELOG.md says how versions are
 * counted; fantanolive_version tells that of the library which is there at run time. */
#define FANTANOLIVE_VERSION "2.0.0"
#define FANTANOLIVE_VERSION_MAJOR 2
#define FANTANOLIVE_VERSION_MINOR 0
#define FANTANOLIVE_VERSION_PATCH 0

/* Sizes in bytes of a row of the master, and of a record of a batch, a reject file and a reconciliation file. */
#define FANTANOLIVE_ROW 200
#define FANTANOLIVE_RECORD 245

/* Size in bytes of a contact record, in a file and in a table. */
#define FANTANOLIVE_CONTACT 220

/* Size in bytes of a record of a collection file. */
#define FANTANOLIVE_LINE 240

/* Size in bytes of a line of a case page, and how many lines for cases a full page has between its heading and its foot. */
#define FANTANOLIVE_PAGE_LINE 132
#define FANTANOLIVE_PAGE_CASES 58

/* Sizes in bytes of a key (columns 1-12 of a row), a state, a date and a local code. */
#define FANTANOLIVE_KEY 12
#define FANTANOLIVE_STATE 2
#define FANTANOLIVE_DATE 8
#define FANTANOLIVE_LOCAL_CODE 3

/* Limits. */
#define FANTANOLIVE_MAX_ROWS 16777215
#define FANTANOLIVE_MAX_RECORDS 16777216
#define FANTANOLIVE_MAX_CONTACTS 16777215

/* Sizes that are always enough, as size_t. The arguments are numbers of details, rows or contact records.
 *   verdicts of fantanolive_apply:  one number per detail
 *   rejects of fantanolive_apply:   FANTANOLIVE_REJECTS_SIZE(details) bytes; fewer are refused (11)
 *   journal of fantanolive_apply_journaled:  FANTANOLIVE_JOURNAL_SIZE(details) bytes; fewer are refused (25)
 *   master of fantanolive_apply:    FANTANOLIVE_MASTER_SIZE(rows + details of type A) bytes, for at most
 *                                   FANTANOLIVE_MAX_ROWS rows
 *   places of fantanolive_find_many:  one number per key; fewer are refused (28)
 *   out of fantanolive_reconcile:   FANTANOLIVE_OUT_SIZE(rows) bytes
 *   out of fantanolive_pages:       FANTANOLIVE_PAGES_SIZE(rows) bytes
 *   table of fantanolive_contacts_update:   FANTANOLIVE_TABLE_SIZE(count + records of the file) bytes
 *   faulty of fantanolive_contacts_update:  one number per record of the file; fewer are refused (19)
 *   out of fantanolive_contacts_codes:      FANTANOLIVE_CODES_SIZE(count) bytes
 *   lines of fantanolive_post:              one number per line of the file; fewer are refused (24)
 *   out of fantanolive_records_to:          FANTANOLIVE_RECORDS_SIZE bytes, four records; fewer are refused (30)
 *   out of fantanolive_merge:               first_length + second_length - FANTANOLIVE_RECORD bytes; fewer are refused (33)
 * The details of a batch are its records less one: batch_length / FANTANOLIVE_RECORD - 1. */
#define FANTANOLIVE_MASTER_SIZE(rows) ((size_t)FANTANOLIVE_ROW * (size_t)(rows))
#define FANTANOLIVE_REJECTS_SIZE(details) ((size_t)FANTANOLIVE_RECORD * ((size_t)(details) + 1))
#define FANTANOLIVE_JOURNAL_SIZE(details) ((size_t)12 + (size_t)205 * (size_t)(details))
#define FANTANOLIVE_OUT_SIZE(rows) ((size_t)FANTANOLIVE_RECORD * ((size_t)(rows) + 1))
#define FANTANOLIVE_PAGES(cases) (((size_t)(cases) + FANTANOLIVE_PAGE_CASES - 1) / FANTANOLIVE_PAGE_CASES)
#define FANTANOLIVE_PAGES_SIZE(cases) ((size_t)FANTANOLIVE_PAGE_LINE * ((size_t)(cases) + 2 * FANTANOLIVE_PAGES(cases)))
#define FANTANOLIVE_TABLE_SIZE(records) ((size_t)FANTANOLIVE_CONTACT * (size_t)(records))
#define FANTANOLIVE_CODES_SIZE(records) ((size_t)FANTANOLIVE_LOCAL_CODE * (size_t)(records))
#define FANTANOLIVE_RECORDS_SIZE 980

/* The numbers of fantanolive_apply's result, by their index. */
#define FANTANOLIVE_ACCEPTED 0 /* details of case type A or N without an error, warned ones included */
#define FANTANOLIVE_REJECTED 1 /* details of case type A or N with an error */
#define FANTANOLIVE_WARNED 2   /* details with a warning; they are among the accepted */
#define FANTANOLIVE_NEITHER 3  /* details of neither case type; they are in none of the three above */
#define FANTANOLIVE_ROWS 4     /* rows of the master afterwards, deleted ones included */
#define FANTANOLIVE_RESULTS 5  /* how many numbers the result has */

/* The numbers of fantanolive_apply_journaled's result are these five, and one more. */
#define FANTANOLIVE_JOURNAL 5           /* bytes of the journal */
#define FANTANOLIVE_JOURNALED_RESULTS 6 /* how many numbers the result has */

/* The numbers of fantanolive_contacts_update's result, by their index. */
#define FANTANOLIVE_CONTACTS 0        /* records of the table afterwards */
#define FANTANOLIVE_FAULTY 1          /* faulty records of the file, whose numbers are in the list */
#define FANTANOLIVE_CONTACT_RESULTS 2 /* how many numbers the result has */

/* The place that fantanolive_find_many tells for a key without a row. */
#define FANTANOLIVE_NO_PLACE 4294967295

/* The numbers of fantanolive_totals, by their index: those that a control record states, in its order. */
#define FANTANOLIVE_TANF_COUNT 0      /* details of case type A */
#define FANTANOLIVE_NON_TANF_COUNT 1  /* details of case type N */
#define FANTANOLIVE_TANF_AMOUNT 2     /* dollars of the details of case type A and type A or M, where they are digits */
#define FANTANOLIVE_NON_TANF_AMOUNT 3 /* the same of case type N */
#define FANTANOLIVE_TOTALS 4          /* how many numbers they are */

/* The answers: 0, and the refusals' numbers. */
#define FANTANOLIVE_DONE 0            /* carried out */
#define FANTANOLIVE_WRONG_YEAR 1      /* year outside 1900-9999 */
#define FANTANOLIVE_WRONG_LOCALS 2    /* list not made of three-digit codes, three bytes each, strictly rising */
#define FANTANOLIVE_WRONG_MASTER 3    /* master length no multiple of 200, or row count above length / 200 or 16,777,215 */
#define FANTANOLIVE_UNSOUND_ROW 4     /* a row that is not sound, or rows not in strictly rising order of key */
#define FANTANOLIVE_WRONG_BATCH 5     /* batch empty, no multiple of 245, or over 16,777,216 records */
#define FANTANOLIVE_NO_CTL 6          /* CTL is missing in columns 3-5 of the last record */
#define FANTANOLIVE_WRONG_COUNT 7     /* a count of the control record differs from the details' */
#define FANTANOLIVE_WRONG_AMOUNT 8    /* an amount of the control record differs from the details' */
#define FANTANOLIVE_NO_ROOM 9         /* rows plus A records whose key has no row exceed length / 200 or 16,777,215 */
#define FANTANOLIVE_SHORT_VERDICTS 10 /* verdict list shorter than the details */
#define FANTANOLIVE_SHORT_OUTPUT 11   /* reject buffer below 245 x (details + 1), reconciliation buffer 245 x (records + 1) */
#define FANTANOLIVE_WRONG_STATE 12    /* state not in the table of 54 */
#define FANTANOLIVE_WRONG_DATE 13     /* not a Gregorian date CCYYMMDD of 1900-9999 */
#define FANTANOLIVE_UNSOUND_KEY 14    /* key not of twelve bytes, or not sound */
#define FANTANOLIVE_NO_SUCH_ROW 15    /* no row with this key */
#define FANTANOLIVE_NO_COUNTERPART 16 /* a byte without a counterpart */
#define FANTANOLIVE_SHORT_FILE 17     /* output shorter than the input */
#define FANTANOLIVE_WRONG_CONTACTS 18 /* contact file or table of a wrong length or count, table faulty or out of order */
#define FANTANOLIVE_SHORT_CONTACTS 19 /* no space in the table, a list or an output of codes too short */
#define FANTANOLIVE_CONTROL_STATE 20  /* the control record's state is not in the table of 54 */
#define FANTANOLIVE_CONTROL_FORM 21   /* a total of the control record is not digits, or its filler not spaces */
#define FANTANOLIVE_WRONG_FILE 22     /* collection file empty, no multiple of 240, or over 16,777,216 records */
#define FANTANOLIVE_WRONG_TOTAL 23    /* its last record not TOTAL with the numbers of adjustments and collections */
#define FANTANOLIVE_SHORT_LINES 24    /* line list shorter than the lines */
#define FANTANOLIVE_SHORT_JOURNAL 25  /* journal buffer below 12 + 205 x details */
#define FANTANOLIVE_WRONG_JOURNAL 26  /* no journal, or one that does not fit the master, or what it would leave is not sound */
#define FANTANOLIVE_WRONG_KEYS 27     /* list of keys not made of sound keys, twelve bytes each, strictly rising */
#define FANTANOLIVE_SHORT_PLACES 28   /* answer list shorter than the keys */
#define FANTANOLIVE_NO_RECORDS 29     /* no list of C, L, R and M records leads from the row to the wanted row */
#define FANTANOLIVE_SHORT_RECORDS 30  /* output of records below 980 bytes */
#define FANTANOLIVE_SHORT_PAGES 31    /* buffer too short for the pages */
#define FANTANOLIVE_CANNOT_MERGE 32   /* two states, over 16,777,215 details together, or an amount above eleven digits */
#define FANTANOLIVE_SHORT_BATCH 33    /* output shorter than the merged batch */

/* A verdict is a number of 64 bits: the sum of 2 to the power c over the codes c that the detail got. Errors are the
 * codes 1 to 18, warnings 51 and 52; a verdict of 0 has none. A detail with an error is rejected and changes nothing.
 *   FANTANOLIVE_HAS_CODE(verdict, c)   1 if the code c is in the verdict, else 0; c from 0 to 63
 *   verdict & FANTANOLIVE_ERRORS       not 0 if the detail is rejected
 *   verdict & FANTANOLIVE_WARNINGS     not 0 if it is accepted with a warning */
#define FANTANOLIVE_HAS_CODE(verdict, c) ((int)(((uint64_t)(verdict) >> (c)) & 1))
#define FANTANOLIVE_ERRORS ((uint64_t)0x7FFFE)
#define FANTANOLIVE_WARNINGS ((uint64_t)3 << 51)

/* fantanolive_apply: applies a batch to a master.
 *
 * Each detail is judged in turn against the row of its key as the details before it left it. Accepted details change the
 * row by their type (column 73), or add one; every detail gets its verdict, and every detail with a code its record in the
 * reject file. The manual says what each type does, and fantanolive_text.h what each code means. The name (columns 30-33) of
 * a detail of a type other than A and B matches that of the row, or that of a B record of the same key, wherever it stands
 * in the batch, that has none of errors 01 to 06 and 18. Where all differ, and none of 01 to 05 and 09 holds, the detail
 * gets error 17 and its reject record the four characters stored. Where the exclusion field of an A or R names ADM, the set
 * stored has RET, VEN and SAL as well; a set that is stored stays as it is.
 *
 * master, master_length   The rows, 200 bytes each, and the space for new ones. The length is in bytes and a multiple of
 *                         200. Bytes behind the last row may hold anything.
 * rows                    How many rows the master has at entry, deleted ones included; 0 for an empty master.
 * batch, batch_length     The records, 245 bytes each: the details, then the control record. The length is in bytes. A batch of a control record alone is carried out.
 * locals, locals_length   The list of local codes: three digits each, strictly rising, nothing between them. The length is
 *                         in bytes; 0 for an empty list.
 * year                    The process year, 1900 to 9999.
 * verdicts, verdicts_length  Where the verdicts go. The length counts numbers, not bytes; at least one per detail.
 * rejects, rejects_length Where the reject file goes. The length is in bytes, at least 245 x (details + 1), however few
 *                         details are rejected.
 * result                  Where the five numbers of the result go (FANTANOLIVE_ACCEPTED to FANTANOLIVE_ROWS).
 *
 * Returns, in the order of checking:
 *   1   FANTANOLIVE_WRONG_YEAR      year below 1900 or above 9999
 *   2   FANTANOLIVE_WRONG_LOCALS    locals not made of three-digit codes, three bytes each, strictly rising
 *   3   FANTANOLIVE_WRONG_MASTER    master_length no multiple of 200, or rows above master_length / 200 or 16,777,215
 *   4   FANTANOLIVE_UNSOUND_ROW     one of the rows is not sound, or their keys do not strictly rise
 *   5   FANTANOLIVE_WRONG_BATCH     batch_length 0, no multiple of 245, or over 16,777,216 records
 *   6   FANTANOLIVE_NO_CTL          columns 3-5 of the last record, the control record, are not CTL
 *   20  FANTANOLIVE_CONTROL_STATE   its state, columns 1-2, is not in the table of 54
 *   21  FANTANOLIVE_CONTROL_FORM    its totals, columns 6-45, are not all digits, or its filler, columns 46-245, not all
 *                                   spaces
 *   7   FANTANOLIVE_WRONG_COUNT     its count of TANF or of Non-TANF records differs from the details'
 *   8   FANTANOLIVE_WRONG_AMOUNT    its amount for TANF or for Non-TANF differs from the details' (types A and M)
 *   9   FANTANOLIVE_NO_ROOM         rows plus the details of type A whose key has no row at entry exceed
 *                                   master_length / 200 or 16,777,215
 *   10  FANTANOLIVE_SHORT_VERDICTS  verdicts_length below the number of details
 *   11  FANTANOLIVE_SHORT_OUTPUT    rejects_length below 245 x (details + 1)
 *   0   FANTANOLIVE_DONE            carried out
 *
 * Written when carried out: the rows, result[FANTANOLIVE_ROWS] of them, in rising order of key, with new rows put in at
 * their place; a verdict per detail in batch order; a reject record per detail whose verdict is not 0, in batch
 * order, and behind them the control record of the reject file; the five numbers of result.
 * Kept: the bytes of master behind the last row, of verdicts behind the last verdict and of rejects behind the control
 * record; batch and locals. */
uint64_t fantanolive_apply(
    uint8_t *master, size_t master_length, size_t rows,
    const uint8_t *batch, size_t batch_length,
    const uint8_t *locals, size_t locals_length,
    uint64_t year,
    uint64_t *verdicts, size_t verdicts_length,
    uint8_t *rejects, size_t rejects_length,
    uint64_t result[FANTANOLIVE_RESULTS]);

/* fantanolive_apply_journaled: applies a batch to a master, and writes a journal with which it can be taken back.
 *
 * All arguments but the last three are those of fantanolive_apply, and rows, verdicts, rejects and counts come out as
 * they do there. Keep the journal with the master that the batch leaves, and use it with no other: fantanolive_take_back
 * looks at row counts, places, marks and what would be left, and cannot tell whose journal it is.
 *
 * journal, journal_length  Where the journal goes. The length is in bytes, at least 12 + 205 x details, however few rows
 *                          change.
 * result                   Where the six numbers of the result go (FANTANOLIVE_ACCEPTED to FANTANOLIVE_JOURNAL).
 *
 * A journal has the row counts before and after, then, by rising place, an entry for each key whose row afterwards is new
 * or differs from that before: its place afterwards, the first row being 0; a mark, 00 for a new row, 01 for a changed
 * one; and behind 01 the 200 bytes of the old row. Numbers are in groups of seven bits, a byte each, low group first,
 * with the high bit set on all bytes but the last, and never longer than they have to be.
 *
 * Returns, in the order of checking: the refusals of fantanolive_apply, then
 *   25  FANTANOLIVE_SHORT_JOURNAL   journal_length below 12 + 205 x details
 *   0   FANTANOLIVE_DONE            carried out
 *
 * Written when carried out: what fantanolive_apply writes, with the six numbers of result; the journal,
 * result[FANTANOLIVE_JOURNAL] bytes, from the first byte of journal on.
 * Kept: what fantanolive_apply keeps, and the bytes behind the journal. */
uint64_t fantanolive_apply_journaled(
    uint8_t *master, size_t master_length, size_t rows,
    const uint8_t *batch, size_t batch_length,
    const uint8_t *locals, size_t locals_length,
    uint64_t year,
    uint64_t *verdicts, size_t verdicts_length,
    uint8_t *rejects, size_t rejects_length,
    uint8_t *journal, size_t journal_length,
    uint64_t result[FANTANOLIVE_JOURNALED_RESULTS]);

/* fantanolive_take_back: takes a batch back with its journal, from the master that it left. Row count and rows are then
 * those from before the batch.
 *
 * master, master_length    The rows that the batch left, 200 bytes each. The length is in bytes and a multiple of 200; it
 *                          may be another than it was for the batch. Bytes behind the last row may hold anything.
 * rows                     How many rows the master has, deleted ones included: what the batch's result said.
 * journal, journal_length  The journal. The length is in bytes, and exact: what the batch's result said.
 * rows_after               Where the number of rows goes that the master has then.
 *
 * Returns, in the order of checking:
 *   3   FANTANOLIVE_WRONG_MASTER    master_length no multiple of 200, or rows above master_length / 200 or 16,777,215
 *   4   FANTANOLIVE_UNSOUND_ROW     one of the rows is not sound, or their keys do not strictly rise
 *   26  FANTANOLIVE_WRONG_JOURNAL   the bytes are no journal (cut off, bytes behind it, another mark, a number longer than
 *                                   it has to be); its count after is not rows, a place is not below it, or the marks 00
 *                                   are not as many as the count grew; its places do not strictly rise; or the rows that
 *                                   would be left are not sound or their keys do not strictly rise
 *   0   FANTANOLIVE_DONE            carried out
 *
 * Written when carried out: the rows, without those at places marked 00 and with the old row at those marked 01, from the
 * first byte of master on; *rows_after, how many they are.
 * Kept: the bytes of master behind them; journal. */
uint64_t fantanolive_take_back(
    uint8_t *master, size_t master_length, size_t rows,
    const uint8_t *journal, size_t journal_length,
    uint64_t *rows_after);

/* fantanolive_totals: adds up the totals of a batch's details, whatever its last record says.
 *
 * They are the totals that refusals 7 and 8 of fantanolive_apply hold against the control record: with them written into
 * its columns 6-14, 15-23, 24-34 and 35-45 (9, 9, 11 and 11 digits) a control record has none of the two, where each amount
 * has at most eleven digits; a larger one no control record can state. All records but the last are details.
 *
 * batch, batch_length     The records, 245 bytes each: the details, then a last record, which may be anything. The length is
 *                         in bytes.
 * totals                  Where the four totals go (FANTANOLIVE_TANF_COUNT to FANTANOLIVE_NON_TANF_AMOUNT).
 *
 * Returns:
 *   5   FANTANOLIVE_WRONG_BATCH     batch_length 0, no multiple of 245, or over 16,777,216 records
 *   0   FANTANOLIVE_DONE            carried out
 *
 * Written when carried out: the four numbers of totals. Kept: all else. */
uint64_t fantanolive_totals(
    const uint8_t *batch, size_t batch_length,
    uint64_t totals[FANTANOLIVE_TOTALS]);

/* fantanolive_merge: merges two batches of one state into one.
 *
 * The merged batch has the first's details, the second's, and a control record with the state of both and the sums of
 * their totals. Applied, it leaves the master and gives the verdicts that the first and then the second would, where all of
 * them are carried out from the same master with the same year and codes, and no key with a B record has records in both.
 *
 * first, first_length     The first batch, 245 bytes a record: details, then the control record. The length is in bytes.
 * second, second_length   The second batch.
 * out, out_length         Where the merged batch goes. The length is in bytes, at least
 *                         first_length + second_length - 245.
 * records                 Where the number of records goes.
 *
 * Returns, in the order of checking; the first batch wholly before the second:
 *   5   FANTANOLIVE_WRONG_BATCH     length 0, no multiple of 245, or over 16,777,216 records
 *   6   FANTANOLIVE_NO_CTL          columns 3-5 of the last record, the control record, are not CTL
 *   20  FANTANOLIVE_CONTROL_STATE   its state, columns 1-2, is not in the table of 54
 *   21  FANTANOLIVE_CONTROL_FORM    its totals, columns 6-45, are not all digits, or its filler, columns 46-245, not all
 *                                   spaces
 *   7   FANTANOLIVE_WRONG_COUNT     its count of TANF or of Non-TANF records differs from the details'
 *   8   FANTANOLIVE_WRONG_AMOUNT    its amount for TANF or for Non-TANF differs from the details' (types A and M)
 *   32  FANTANOLIVE_CANNOT_MERGE    the states of the control records differ, the details are over 16,777,215 together, or
 *                                   a summed amount, of TANF or of Non-TANF, has more than eleven digits
 *   33  FANTANOLIVE_SHORT_BATCH     out_length below first_length + second_length - 245
 *   0   FANTANOLIVE_DONE            carried out
 *
 * Written when carried out: the merged batch at the front of out; *records, how many records it has, the control record
 * included. Kept: the bytes of out behind them; first and second. */
uint64_t fantanolive_merge(
    const uint8_t *first, size_t first_length,
    const uint8_t *second, size_t second_length,
    uint8_t *out, size_t out_length,
    uint64_t *records);

/* fantanolive_find: finds the row of a key.
 *
 * master, master_length   The rows, 200 bytes each; the length is in bytes and a multiple of 200.
 * rows                    How many rows the master has, deleted ones included.
 * key, key_length         The key: state, SSN and case type, twelve bytes. The length is in bytes.
 * place                   Where the answer goes.
 *
 * Returns, in the order of checking:
 *   3   FANTANOLIVE_WRONG_MASTER    master_length no multiple of 200, or rows above master_length / 200 or 16,777,215
 *   4   FANTANOLIVE_UNSOUND_ROW     one of the rows is not sound, or their keys do not strictly rise
 *   14  FANTANOLIVE_UNSOUND_KEY     key_length not 12, state not in the table, SSN wrong (error 02), or case type neither
 *                                   A nor N
 *   15  FANTANOLIVE_NO_SUCH_ROW     no row has this key
 *   0   FANTANOLIVE_DONE            found
 *
 * Written when found: *place, the place of the row, the first row being 0; its bytes start at
 * master + FANTANOLIVE_ROW * *place. A deleted row (D in column 196) is found like a live one.
 * Kept: all else. */
uint64_t fantanolive_find(
    const uint8_t *master, size_t master_length, size_t rows,
    const uint8_t *key, size_t key_length,
    uint64_t *place);

/* fantanolive_find_many: finds the rows of many keys in one walk over the rows.
 *
 * The keys rise strictly, as the rows do. The walk compares the present key with the present row: a smaller row is passed;
 * an equal one gives its place, a larger one or no row left gives none, and the key is passed. An equal row is not passed by
 * its key: the next key meets it again. Each answer is that of fantanolive_find on its key, refusal 15 being
 * FANTANOLIVE_NO_PLACE; the comparisons are at most rows plus keys.
 *
 * master, master_length   The rows, 200 bytes each; the length is in bytes and a multiple of 200.
 * rows                    How many rows the master has, deleted ones included.
 * keys, keys_length       The keys, twelve bytes each, strictly rising in byte order, nothing between them. The length is in
 *                         bytes; 0 for an empty list, which passes.
 * places, places_length   Where the answers go. The length counts numbers, not bytes; at least one per key.
 * comparisons             Where the number of comparisons of a key with a row goes.
 *
 * Returns, in the order of checking:
 *   3   FANTANOLIVE_WRONG_MASTER    master_length no multiple of 200, or rows above master_length / 200 or 16,777,215
 *   4   FANTANOLIVE_UNSOUND_ROW     one of the rows is not sound, or their keys do not strictly rise
 *   27  FANTANOLIVE_WRONG_KEYS      keys_length no multiple of 12, one of the keys not sound (as for 14), or the keys not
 *                                   strictly rising
 *   28  FANTANOLIVE_SHORT_PLACES    places_length below the number of keys
 *   0   FANTANOLIVE_DONE            carried out
 *
 * Written when carried out: a number per key in the order of the keys, the place of its row, the first row being 0, or
 * FANTANOLIVE_NO_PLACE where no row has it; *comparisons. A deleted row (D in column 196) is found like a live one.
 * Kept: the numbers of places behind the last key's; all else. */
uint64_t fantanolive_find_many(
    const uint8_t *master, size_t master_length, size_t rows,
    const uint8_t *keys, size_t keys_length,
    uint32_t *places, size_t places_length,
    uint64_t *comparisons);

/* fantanolive_reconcile: writes the reconciliation file of a state.
 *
 * master, master_length   The rows, 200 bytes each; the length is in bytes and a multiple of 200.
 * rows                    How many rows the master has, deleted ones included.
 * state, state_length     The state, two bytes. The length is in bytes.
 * date, date_length       The date of the file, CCYYMMDD, eight bytes. The length is in bytes.
 * out, out_length         Where the file goes. The length is in bytes, at least 245 x (live rows of the state + 1).
 * records                 Where the number of REC records goes.
 *
 * Returns, in the order of checking:
 *   3   FANTANOLIVE_WRONG_MASTER    master_length no multiple of 200, or rows above master_length / 200 or 16,777,215
 *   4   FANTANOLIVE_UNSOUND_ROW     one of the rows is not sound, or their keys do not strictly rise
 *   12  FANTANOLIVE_WRONG_STATE     state_length not 2, or state not in the table
 *   13  FANTANOLIVE_WRONG_DATE      date_length not 8, or date not a Gregorian date of 1900-9999; blank is no date
 *   11  FANTANOLIVE_SHORT_OUTPUT    out_length below 245 x (records + 1)
 *   0   FANTANOLIVE_DONE            carried out
 *
 * Written when carried out: a REC record per live row of the state, in order of key, and behind them the RCT record;
 * *records, the number of REC records, which may be 0.
 * Kept: the bytes of out behind the RCT record; all else. */
uint64_t fantanolive_reconcile(
    const uint8_t *master, size_t master_length, size_t rows,
    const uint8_t *state, size_t state_length,
    const uint8_t *date, size_t date_length,
    uint8_t *out, size_t out_length,
    uint64_t *records);

/* fantanolive_pages: prints the live cases of a master, whatever their state, in key order.
 *
 * A page is in EBCDIC and has lines of 132 columns, without line ends: a heading, 58 lines for cases (on the last page
 * perhaps fewer, never none), and a foot. A case's line has the key in columns 1-12, the local code in 14-16, the last name
 * in 18-37, the first name in 39-53, the arrearage (dollars) in 55-62, all as in the row, and in 64 the number of bits that
 * are set in its exclusion set. The heading has CASES in 1-5 and the page's number in 7-12, the first being 000001; the foot
 * TOTAL in 1-5 and the number of this page's cases in 7-10. All other columns are spaces.
 *
 * master, master_length   The rows, 200 bytes each; the length is in bytes and a multiple of 200.
 * rows                    How many rows the master has, deleted ones included.
 * out, out_length         Where the pages go. The length is in bytes, at least 132 x (live rows + 2 x pages).
 * pages                   Where the number of pages goes.
 *
 * Returns, in the order of checking:
 *   3   FANTANOLIVE_WRONG_MASTER    master_length no multiple of 200, or rows above master_length / 200 or 16,777,215
 *   4   FANTANOLIVE_UNSOUND_ROW     one of the rows is not sound, or their keys do not strictly rise
 *   31  FANTANOLIVE_SHORT_PAGES     out_length below 132 x (live rows + 2 x pages); without a live row an empty buffer does
 *   0   FANTANOLIVE_DONE            carried out
 *
 * Written when carried out: the pages, one behind the other, 60 lines each but the last, which has two more than its cases;
 * *pages, how many there are, 0 where no row is live.
 * Kept: the bytes of out behind the pages; all else. */
uint64_t fantanolive_pages(
    const uint8_t *master, size_t master_length, size_t rows,
    uint8_t *out, size_t out_length,
    uint64_t *pages);

/* fantanolive_add_cents: gives the rows of a master that have no cents yet 00 cents.
 *
 * master, master_length   The rows, 200 bytes each. The length is in bytes and a multiple of 200. Bytes behind the last row
 *                         may hold anything.
 * rows                    How many rows the master has, deleted ones included.
 *
 * Returns, in the order of checking:
 *   3   FANTANOLIVE_WRONG_MASTER    master_length no multiple of 200, or rows above master_length / 200 or 16,777,215
 *   4   FANTANOLIVE_UNSOUND_ROW     one of the rows is not sound as a row without cents (spaces in 197-200, deleted
 *                                   exactly when the dollars are zero), or their keys do not strictly rise; so a master
 *                                   with rows that is converted already
 *   0   FANTANOLIVE_DONE            carried out
 *
 * Written when carried out: columns 197-198 of every row, deleted ones too. Kept: all else. */
uint64_t fantanolive_add_cents(uint8_t *master, size_t master_length, size_t rows);

/* fantanolive_post: posts a weekly collection file to a master, line by line in file order.
 *
 * A line goes to the row with the key of its columns 1-2, 6-14 and 107. Its collection (76-86) lowers the
 * row's balance, never below zero; its adjustment (87-97) raises it. A balance of zero deletes the case. An amount is ten
 * digits and a last digit F0-F9 or C0-C9, in cents; else it is bad. A line is listed, and changes nothing, where an amount
 * is bad, both are above zero, the key has no live row at the line's turn, or the balance would pass 99,999,999.99.
 *
 * master, master_length   The rows, 200 bytes each. The length is in bytes and a multiple of 200. Bytes behind the last row
 *                         may hold anything.
 * rows                    How many rows the master has, deleted ones included. No row is added.
 * file, file_length       The lines, 240 bytes each, then the last record. The length is in bytes. A last record
 *                         alone is carried out.
 * lines, lines_length     Where the numbers of the listed lines go, the first line being 1. The length counts numbers, not
 *                         bytes; at least one per line, however few are listed.
 * listed                  Where the number of listed lines goes.
 *
 * Returns, in the order of checking:
 *   3   FANTANOLIVE_WRONG_MASTER    master_length no multiple of 200, or rows above master_length / 200 or 16,777,215
 *   4   FANTANOLIVE_UNSOUND_ROW     one of the rows is not sound, or their keys do not strictly rise
 *   22  FANTANOLIVE_WRONG_FILE      file_length 0, no multiple of 240, or over 16,777,216 records
 *   23  FANTANOLIVE_WRONG_TOTAL     columns 6-14 of the last record not TOTAL and four spaces, or 35-49 and 50-64 not, in
 *                                   fifteen digits each, the numbers of lines with an adjustment and with a collection
 *                                   above zero; a bad amount is none, listed lines count
 *   24  FANTANOLIVE_SHORT_LINES     lines_length below the number of lines
 *   0   FANTANOLIVE_DONE            carried out
 *
 * Written when carried out: columns 66-73 and 196-198 of rows; the numbers of the listed lines, in file order; *listed, how
 * many there are, which may be 0.
 * Kept: the bytes of lines behind them; the bytes of master behind the rows; file. */
uint64_t fantanolive_post(
    uint8_t *master, size_t master_length, size_t rows,
    const uint8_t *file, size_t file_length,
    uint32_t *lines, size_t lines_length,
    uint64_t *listed);

/* fantanolive_to_ebcdic: turns a file from ASCII into EBCDIC, byte by byte.
 *
 * The characters are the upper case letters, the digits, the space and - , . ( ) / & ' # (46), with their EBCDIC codes in
 * code page 037. Every other byte, lower case letters and line ends among them, has no counterpart. Masters are not to be
 * converted: column 195 of a row is a set and no character.
 *
 * in, in_length     The file. The length is in bytes; 0 for an empty file, which is converted.
 * out, out_length   Where the converted file goes. The length is in bytes, at least in_length.
 * place             Where the place of the first byte without a counterpart goes.
 *
 * Returns, in the order of checking:
 *   16  FANTANOLIVE_NO_COUNTERPART  a byte of in has no counterpart; the whole of in is looked at before 17 is
 *   17  FANTANOLIVE_SHORT_FILE      out_length below in_length
 *   0   FANTANOLIVE_DONE            converted
 *
 * Written when converted: the first in_length bytes of out.
 * Written with 16, and with 16 alone: *place, the place of the first such byte, the first byte of in being 0.
 * Kept: the bytes of out behind the first in_length, all of out with 16 or 17; *place but with 16; in. */
uint64_t fantanolive_to_ebcdic(
    const uint8_t *in, size_t in_length,
    uint8_t *out, size_t out_length,
    uint64_t *place);

/* fantanolive_to_ascii: turns a file from EBCDIC into ASCII, byte by byte.
 *
 * The same characters, the other way: arguments, answers and what is written are those of fantanolive_to_ebcdic. What
 * either call has written, given to the other, is converted, and gives the first one's input back. */
uint64_t fantanolive_to_ascii(
    const uint8_t *in, size_t in_length,
    uint8_t *out, size_t out_length,
    uint64_t *place);

/* fantanolive_contacts_update: reads a contact file into a table of contact records.
 *
 * The records of the file act in file order. A good one replaces whole the table's record of its state and code (columns
 * 1-5), or else is put in at its place; of several good ones of a key the last stays. A faulty one is skipped, and its
 * number goes to the list. Code 000 is the state's own. A record is good where its state is in the table of
 * 54, its code three digits, telephone 1 of the form (301) 555-1212, telephone 2 of this form or blank, each extension
 * digits with only spaces behind or blank, CHILD SUPPORT or FAMILY SUPPORT in the agency name, neither IRS nor FMS a
 * whole run of letters in the name or an address line, one of lines 1 to 3 and line 4 not blank, and the filler blank.
 *
 * table, table_length     The records, 220 bytes each, in rising order of columns 1-5, and the space for new ones. The
 *                         length is in bytes and a multiple of 220. Bytes behind the last record may hold anything.
 * count                   How many records the table has at entry; 0 for an empty table.
 * file, file_length       The records that are read. The length is in bytes; 0 for an empty file, which is read.
 * faulty, faulty_length   Where the numbers of the faulty records go. The length counts numbers, not bytes; at least one
 *                         per record of the file, however few are faulty.
 * result                  Where the two numbers of the result go (FANTANOLIVE_CONTACTS and FANTANOLIVE_FAULTY).
 *
 * Returns, in the order of checking:
 *   18  FANTANOLIVE_WRONG_CONTACTS  file_length or table_length no multiple of 220, over 16,777,215 records in the file,
 *                                   count above table_length / 220, a record of the table faulty, or their keys not
 *                                   strictly rising
 *   19  FANTANOLIVE_SHORT_CONTACTS  count plus the records of the file, faulty and repeated ones counted, whose key no
 *                                   record of the table has at entry exceed table_length / 220; or faulty_length below
 *                                   the number of records of the file
 *   0   FANTANOLIVE_DONE            carried out
 *
 * Written when carried out: the records of the table, result[FANTANOLIVE_CONTACTS] of them, in rising order of key; the
 * numbers of the faulty records, the first record of the file being 1, in file order; the two numbers of result.
 * Kept: the bytes of table behind the last record, the numbers of faulty behind the last one; file. */
uint64_t fantanolive_contacts_update(
    uint8_t *table, size_t table_length, size_t count,
    const uint8_t *file, size_t file_length,
    uint32_t *faulty, size_t faulty_length,
    uint64_t result[FANTANOLIVE_CONTACT_RESULTS]);

/* fantanolive_contacts_codes: writes the local codes of a state, all but 000, three bytes each and rising. What it writes
 * is a list of local codes as fantanolive_apply takes it.
 *
 * table, table_length     The records, 220 bytes each; the length is in bytes and a multiple of 220.
 * count                   How many records the table has.
 * state, state_length     The state, two bytes. The length is in bytes.
 * out, out_length         Where the codes go. The length is in bytes, at least 3 x (records of the state with a code other
 *                         than 000).
 * codes                   Where the number of codes goes.
 *
 * Returns, in the order of checking:
 *   18  FANTANOLIVE_WRONG_CONTACTS  table_length no multiple of 220, count above table_length / 220, a record of the table
 *                                   faulty, or their keys not strictly rising
 *   12  FANTANOLIVE_WRONG_STATE     state_length not 2, or state not in the table of 54
 *   19  FANTANOLIVE_SHORT_CONTACTS  out_length below 3 x codes
 *   0   FANTANOLIVE_DONE            carried out
 *
 * Written when carried out: the codes at the front of out; *codes, how many they are, which may be 0.
 * Kept: the bytes of out behind the codes; all else. */
uint64_t fantanolive_contacts_codes(
    const uint8_t *table, size_t table_length, size_t count,
    const uint8_t *state, size_t state_length,
    uint8_t *out, size_t out_length,
    uint64_t *codes);

/* fantanolive_records_to: writes the records that lead from a case's row to the row that it is wanted to be.
 *
 * They are C (case ID, columns 15-29), L (local code, 3-5), R (exclusions, 188-227) and M (arrearage, 65-72), in this
 * order, each only if its field differs, M also where the cents differ. A record has the row's key (columns 1-2, 6-14 and
 * 74), its type (73), the row's last name (30-49) and that field, and is blank elsewhere. Code 000 is sent as 000. The
 * exclusions of the wanted set stand in the order ADM RET VEN SAL TAX PAS FIN DCK, parted by commas; an empty set is blank.
 *
 * A batch of these records alone, with a control record of the row's state, that fantanolive_apply carries out with the
 * same list, in whatever year, on a master that holds the row, leaves the wanted row in its place, and no verdict has an
 * error.
 *
 * row, row_length         The row as it is: 200 bytes. The length is in bytes.
 * wanted, wanted_length   The row as it is wanted: 200 bytes. The length is in bytes.
 * locals, locals_length   The list of local codes: three digits each, strictly rising, nothing between them. The length is
 *                         in bytes; 0 for an empty list.
 * out, out_length         Where the records go, 245 bytes each. The length is in bytes, at least 980
 *                         (FANTANOLIVE_RECORDS_SIZE), however few records come.
 * records                 Where the number of records goes.
 *
 * Returns, in the order of checking:
 *   2   FANTANOLIVE_WRONG_LOCALS    locals not made of three-digit codes, three bytes each, strictly rising
 *   4   FANTANOLIVE_UNSOUND_ROW     row_length not 200, or the row not sound; then the same of the wanted row
 *   29  FANTANOLIVE_NO_RECORDS      no list of C, L, R and M records of the row's key leads there without an error, the empty
 *                                   list counted. So it is where the rows differ and: the row is deleted; or a byte differs
 *                                   outside case ID, local code, exclusions, arrearage, status and cents (columns 13-30,
 *                                   66-73 and 195-198); or the case ID differs and is wanted blank; or the local code
 *                                   differs and is neither 000 nor listed; or the set differs and has ADM without all of
 *                                   RET, VEN and SAL; or dollars or cents differ and cents other than 00 are wanted
 *   30  FANTANOLIVE_SHORT_RECORDS   out_length below 980
 *   0   FANTANOLIVE_DONE            carried out
 *
 * Written when carried out: the records at the front of out; *records, how many they are, 0 to 4 (0 where the rows are the
 * same).
 * Kept: the bytes of out behind the records; all else. */
uint64_t fantanolive_records_to(
    const uint8_t *row, size_t row_length,
    const uint8_t *wanted, size_t wanted_length,
    const uint8_t *locals, size_t locals_length,
    uint8_t *out, size_t out_length,
    uint64_t *records);

/* The version of the library that the program was linked with or has loaded, such as "2.0.0". The text is
 * constant, ends with a NUL, and stays valid as long as the library is loaded. */
const char *fantanolive_version(void);

#ifdef __cplusplus
}
#endif

#endif
