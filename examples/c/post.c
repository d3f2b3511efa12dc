/* A master from before the cents is converted, then a weekly collection file of four lines is posted to it, through
 * fantanolive.h. What the program prints is in post.txt. Text is turned from ASCII to EBCDIC and back; the program assumes
 * a compiler whose text is ASCII. */
#include <inttypes.h>
#include <stdio.h>
#include <string.h>

#include "fantanolive.h"

enum { ROWS = 2, LINES = 4 };

/* The EBCDIC byte of a capital letter or digit; a space for any other. */
static uint8_t to_ebcdic(char c)
{
    if (c >= 'A' && c <= 'I') return (uint8_t)(0xC1 + (c - 'A'));
    if (c >= 'J' && c <= 'R') return (uint8_t)(0xD1 + (c - 'J'));
    if (c >= 'S' && c <= 'Z') return (uint8_t)(0xE2 + (c - 'S'));
    if (c >= '0' && c <= '9') return (uint8_t)(0xF0 + (c - '0'));
    return 0x40;
}

/* The ASCII character of a digit, a D or a space. */
static char to_ascii(uint8_t b)
{
    if (b >= 0xF0 && b <= 0xF9) return (char)('0' + (b - 0xF0));
    return b == 0xC4 ? 'D' : ' ';
}

/* Puts a text into a record, from a column on. */
static void put(uint8_t *record, int column, const char *text)
{
    for (; *text != '\0'; text++, column++) record[column - 1] = to_ebcdic(*text);
}

/* Prints the columns first to last of a row. */
static void show(const char *name, const uint8_t *row, int first, int last)
{
    int column;
    printf(" %s [", name);
    for (column = first; column <= last; column++) putchar(to_ascii(row[column - 1]));
    printf("]");
}

/* A live row without cents. */
static void make_row(uint8_t *row, const char *key, const char *dollars)
{
    memset(row, 0x40, FANTANOLIVE_ROW);
    put(row, 1, key);
    put(row, 13, "000");
    put(row, 31, "SMITH");
    put(row, 66, dollars);
    put(row, 79, "000000000000");
    row[194] = 0x00;
}

/* A line of the collection file: amounts are ten digits and a last one, in cents. */
static void make_line(uint8_t *line, const char *ssn, const char *case_type, const char *collection, const char *adjustment)
{
    memset(line, 0x40, FANTANOLIVE_LINE);
    put(line, 1, "OH");
    put(line, 6, ssn);
    put(line, 76, collection);
    put(line, 87, adjustment);
    put(line, 107, case_type);
}

/* 10.01 collected and 0.50 adjusted; then 20.00 collected of 14.99, which deletes the case; so 1.00 is not posted. */
static void make_file(uint8_t *file)
{
    uint8_t *last = file + LINES * FANTANOLIVE_LINE;
    make_line(file, "123456789", "N", "00000001001", "00000000000");
    make_line(file + FANTANOLIVE_LINE, "987654321", "A", "00000000000", "00000000050");
    make_line(file + 2 * FANTANOLIVE_LINE, "123456789", "N", "00000002000", "00000000000");
    make_line(file + 3 * FANTANOLIVE_LINE, "123456789", "N", "00000000000", "00000000100");
    memset(last, 0x40, FANTANOLIVE_LINE);
    put(last, 1, "OH");
    put(last, 6, "TOTAL");
    put(last, 35, "000000000000002");
    put(last, 50, "000000000000002");
}

static int refused(const char *call, uint64_t answer)
{
    printf("%s: refused %" PRIu64 "\n", call, answer);
    return 1;
}

int main(void)
{
    static uint8_t master[ROWS * FANTANOLIVE_ROW], before[sizeof master], file[(LINES + 1) * FANTANOLIVE_LINE];
    uint32_t lines[LINES];
    uint64_t answer, listed, i;
    int untouched;

    /* A master without cents, and its conversion. */
    make_row(master, "OH123456789N", "00000025");
    make_row(master + FANTANOLIVE_ROW, "OH987654321A", "00000100");
    answer = fantanolive_add_cents(master, sizeof master, ROWS);
    if (answer != FANTANOLIVE_DONE) return refused("add cents", answer);
    printf("converted: rows %d\n", ROWS);

    /* Post the file. */
    make_file(file);
    answer = fantanolive_post(master, sizeof master, ROWS, file, sizeof file, lines, LINES, &listed);
    if (answer != FANTANOLIVE_DONE) return refused("post", answer);
    printf("posted: listed %" PRIu64 "\n", listed);
    for (i = 0; i < listed; i++) printf("line %" PRIu32 " not posted\n", lines[i]);
    for (i = 0; i < ROWS; i++) {
        const uint8_t *row = master + FANTANOLIVE_ROW * i;
        printf("row %" PRIu64 ":", i + 1);
        show("dollars", row, 66, 73);
        show("cents", row, 197, 198);
        show("status", row, 196, 196);
        printf("\n");
    }

    /* The same file again, with a line list that is too short: refused, and nothing is written. */
    memcpy(before, master, sizeof master);
    answer = fantanolive_post(master, sizeof master, ROWS, file, sizeof file, lines, LINES - 1, &listed);
    untouched = memcmp(before, master, sizeof master) == 0 && lines[0] == 4 && listed == 1;
    printf("line list of 3 for 4 lines: refused %" PRIu64 ", %s\n", answer, untouched ? "nothing written" : "something written");
    return answer == FANTANOLIVE_SHORT_LINES && untouched ? 0 : 1;
}
