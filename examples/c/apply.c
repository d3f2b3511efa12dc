/* The example batch of document 01, "The printed line", through the three calls of fantanolive.h. What the program prints
 * is in expected.txt. Text is turned from ASCII to EBCDIC and back; the program assumes a compiler whose text is ASCII. */
#include <inttypes.h>
#include <stdio.h>
#include <string.h>

#include "fantanolive.h"

enum { DETAILS = 2, RECORDS = DETAILS + 1, SPACE = 4 };

/* The EBCDIC byte of a capital letter, digit, hyphen or comma; a space for any other. */
static uint8_t to_ebcdic(char c)
{
    if (c >= 'A' && c <= 'I') return (uint8_t)(0xC1 + (c - 'A'));
    if (c >= 'J' && c <= 'R') return (uint8_t)(0xD1 + (c - 'J'));
    if (c >= 'S' && c <= 'Z') return (uint8_t)(0xE2 + (c - 'S'));
    if (c >= '0' && c <= '9') return (uint8_t)(0xF0 + (c - '0'));
    if (c == '-') return 0x60;
    if (c == ',') return 0x6B;
    return 0x40;
}

/* The ASCII character of such a byte; a full stop for any other. */
static char to_ascii(uint8_t b)
{
    static const char set[] = " ABCDEFGHIJKLMNOPQRSTUVWXYZ0123456789-,";
    const char *c;
    for (c = set; *c != '\0'; c++)
        if (to_ebcdic(*c) == b) return *c;
    return '.';
}

/* Puts a text into a record, from a column on. */
static void put(uint8_t *record, int column, const char *text)
{
    for (; *text != '\0'; text++, column++) record[column - 1] = to_ebcdic(*text);
}

/* Prints the columns first to last of a record. */
static void show(const char *name, const uint8_t *record, int first, int last)
{
    int column;
    printf("  %s [", name);
    for (column = first; column <= last; column++) putchar(to_ascii(record[column - 1]));
    printf("]\n");
}

/* The batch: A for SMITH JOHN of 25 dollars, M for SMYTH of 100, and the control record with totals 0, 2, 0, 125. */
static void make_batch(uint8_t *batch)
{
    uint8_t *a = batch, *m = batch + FANTANOLIVE_RECORD, *control = batch + 2 * FANTANOLIVE_RECORD;
    memset(batch, 0x40, RECORDS * FANTANOLIVE_RECORD);
    put(a, 1, "OH");
    put(a, 6, "123456789");
    put(a, 30, "SMITH");
    put(a, 50, "JOHN");
    put(a, 65, "00000025AN");
    put(m, 1, "OH");
    put(m, 6, "123456789");
    put(m, 30, "SMYTH");
    put(m, 65, "00000100MN");
    put(control, 1, "OHCTL");
    put(control, 6, "000000000");
    put(control, 15, "000000002");
    put(control, 24, "00000000000");
    put(control, 35, "00000000125");
}

static void show_verdict(int detail, uint64_t verdict)
{
    int code;
    printf("detail %d:", detail);
    if (verdict == 0) printf(" no codes");
    for (code = 1; code < 64; code++)
        if (FANTANOLIVE_HAS_CODE(verdict, code)) printf(" %02d", code);
    printf("\n");
}

/* A reject record (Chart 0-1). */
static void show_reject(int number, const uint8_t *record)
{
    printf("reject record %d\n", number);
    show("SSN", record, 6, 14);
    show("last name", record, 30, 49);
    show("arrearage", record, 65, 72);
    show("type", record, 73, 73);
    show("case type", record, 74, 74);
    show("codes", record, 228, 239);
    show("stored name", record, 240, 243);
}

/* The control record of the reject file (Chart 0-2). */
static void show_reject_control(const uint8_t *record)
{
    printf("reject control record\n");
    show("state", record, 1, 2);
    show("TANF accepted", record, 6, 14);
    show("TANF rejected", record, 15, 23);
    show("Non-TANF accepted", record, 24, 32);
    show("Non-TANF rejected", record, 33, 41);
    show("TANF warned", record, 42, 50);
    show("Non-TANF warned", record, 51, 59);
}

/* A record of the reconciliation file (Chart 0-6). */
static void show_rec(int number, const uint8_t *record)
{
    printf("REC record %d\n", number);
    show("state", record, 4, 5);
    show("local code", record, 6, 8);
    show("SSN", record, 9, 17);
    show("case ID", record, 18, 32);
    show("last name", record, 33, 52);
    show("first name", record, 53, 62);
    show("arrearage", record, 63, 70);
    show("case type", record, 71, 71);
    show("date issued", record, 72, 79);
    show("exclusions", record, 82, 105);
}

/* The control record of the reconciliation file (Chart 0-7). */
static void show_rct(const uint8_t *record)
{
    printf("RCT record\n");
    show("state", record, 4, 5);
    show("TANF", record, 6, 14);
    show("Non-TANF", record, 15, 23);
    show("total", record, 24, 32);
    show("date", record, 33, 40);
}

static int refused(const char *call, uint64_t answer)
{
    printf("%s: refused %" PRIu64 "\n", call, answer);
    return 1;
}

int main(void)
{
    static uint8_t master[SPACE * FANTANOLIVE_ROW], batch[RECORDS * FANTANOLIVE_RECORD];
    static uint8_t rejects[FANTANOLIVE_RECORD * (DETAILS + 1)], out[FANTANOLIVE_RECORD * (SPACE + 1)];
    static uint8_t master_before[sizeof master], rejects_before[sizeof rejects];
    uint64_t verdicts[DETAILS], result[FANTANOLIVE_RESULTS];
    uint64_t verdicts_before[DETAILS], result_before[FANTANOLIVE_RESULTS];
    uint8_t no_locals[1] = {0}, key[FANTANOLIVE_KEY], state[FANTANOLIVE_STATE], date[FANTANOLIVE_DATE];
    uint64_t answer, place, records, i;
    int reject = 0, untouched;

    /* Apply the batch to an empty master, with an empty list of local codes. */
    make_batch(batch);
    answer = fantanolive_apply(master, sizeof master, 0, batch, sizeof batch, no_locals, 0, 2007,
                               verdicts, DETAILS, rejects, sizeof rejects, result);
    if (answer != FANTANOLIVE_DONE) return refused("apply", answer);
    printf("OH accepted %" PRIu64 " rejected %" PRIu64 " warned %" PRIu64 " neither %" PRIu64 " rows %" PRIu64 "\n",
           result[FANTANOLIVE_ACCEPTED], result[FANTANOLIVE_REJECTED], result[FANTANOLIVE_WARNED],
           result[FANTANOLIVE_NEITHER], result[FANTANOLIVE_ROWS]);

    /* The verdicts, then the reject file: a record per detail with a code, and the control record. */
    for (i = 0; i < DETAILS; i++) show_verdict((int)i + 1, verdicts[i]);
    for (i = 0; i < DETAILS; i++) {
        if (verdicts[i] == 0) continue;
        show_reject(reject + 1, rejects + FANTANOLIVE_RECORD * reject);
        reject++;
    }
    show_reject_control(rejects + FANTANOLIVE_RECORD * reject);

    /* Find the case. */
    put(key, 1, "OH123456789N");
    answer = fantanolive_find(master, sizeof master, (size_t)result[FANTANOLIVE_ROWS], key, sizeof key, &place);
    if (answer != FANTANOLIVE_DONE) return refused("find", answer);
    printf("key OH123456789N: place %" PRIu64 "\n", place);

    /* Write the reconciliation file. */
    put(state, 1, "OH");
    put(date, 1, "20071231");
    answer = fantanolive_reconcile(master, sizeof master, (size_t)result[FANTANOLIVE_ROWS], state, sizeof state,
                                   date, sizeof date, out, sizeof out, &records);
    if (answer != FANTANOLIVE_DONE) return refused("reconcile", answer);
    printf("reconciliation: records %" PRIu64 "\n", records);
    for (i = 0; i < records; i++) show_rec((int)i + 1, out + FANTANOLIVE_RECORD * i);
    show_rct(out + FANTANOLIVE_RECORD * records);

    /* The same batch again, with a verdict list that is too short: refused, and nothing is written. */
    memcpy(master_before, master, sizeof master);
    memcpy(rejects_before, rejects, sizeof rejects);
    memcpy(verdicts_before, verdicts, sizeof verdicts);
    memcpy(result_before, result, sizeof result);
    answer = fantanolive_apply(master, sizeof master, (size_t)result[FANTANOLIVE_ROWS], batch, sizeof batch, no_locals, 0,
                               2007, verdicts, DETAILS - 1, rejects, sizeof rejects, result);
    untouched = memcmp(master_before, master, sizeof master) == 0 && memcmp(rejects_before, rejects, sizeof rejects) == 0
        && memcmp(verdicts_before, verdicts, sizeof verdicts) == 0 && memcmp(result_before, result, sizeof result) == 0;
    printf("verdict list of 1 for 2 details: refused %" PRIu64 ", %s\n", answer,
           untouched ? "nothing written" : "something written");
    return answer == FANTANOLIVE_SHORT_VERDICTS && untouched ? 0 : 1;
}
