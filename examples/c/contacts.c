/* A contact file read into an empty table, and the local codes of a state taken from it for fantanolive_apply. What the
 * program prints is in contacts-expected.txt. Text is turned from ASCII to EBCDIC and back by the library; the program
 * assumes a compiler whose text is ASCII. */
#include <inttypes.h>
#include <stdio.h>
#include <string.h>

#include "fantanolive.h"

enum { RECORDS = 4, SPACE = 6 };

/* Puts a text into a record, from a column on. */
static void put(char *record, int column, const char *text)
{
    memcpy(record + column - 1, text, strlen(text));
}

/* A contact record (Chart A-3): key, telephone 1, agency name, line 1 and line 4. */
static void make_contact(char *record, const char *key, const char *telephone, const char *name, const char *line)
{
    memset(record, ' ', FANTANOLIVE_CONTACT);
    put(record, 1, key);
    put(record, 6, telephone);
    put(record, 42, name);
    put(record, 77, line);
    put(record, 182, "COLUMBUS OH 43215");
}

/* Prints the columns first to last of a record in EBCDIC. */
static void show(const uint8_t *record, int first, int last)
{
    char text[FANTANOLIVE_CONTACT];
    size_t length = (size_t)(last - first + 1);
    uint64_t place;
    if (fantanolive_to_ascii(record + first - 1, length, (uint8_t *)text, length, &place) == FANTANOLIVE_DONE)
        printf(" [%.*s]", (int)length, text);
}

static int refused(const char *call, uint64_t answer)
{
    printf("%s: refused %" PRIu64 "\n", call, answer);
    return 1;
}

int main(void)
{
    static char text[RECORDS * FANTANOLIVE_CONTACT];
    static uint8_t file[sizeof text], table[SPACE * FANTANOLIVE_CONTACT], codes[SPACE * FANTANOLIVE_LOCAL_CODE];
    static const uint8_t ohio[FANTANOLIVE_STATE] = {0xD6, 0xC8};
    uint32_t faulty[RECORDS];
    uint64_t result[FANTANOLIVE_CONTACT_RESULTS], number, place, answer;
    size_t i;

    make_contact(text, "OH007", "(614) 555-0107", "COUNTY CHILD SUPPORT AGENCY", "7 MAIN STREET");
    make_contact(text + 220, "OH000", "(614) 555-0100", "OHIO OFFICE OF CHILD SUPPORT", "30 EAST BROAD STREET");
    make_contact(text + 440, "OH003", "614-555-0103", "COUNTY CHILD SUPPORT AGENCY", "3 MAIN STREET");
    make_contact(text + 660, "OH001", "(614) 555-0101", "BUREAU OF FAMILY SUPPORT", "1 FIRST STREET");
    answer = fantanolive_to_ebcdic((const uint8_t *)text, sizeof text, file, sizeof file, &place);
    if (answer != FANTANOLIVE_DONE) return refused("to_ebcdic", answer);

    answer = fantanolive_contacts_update(table, sizeof table, 0, file, sizeof file, faulty, RECORDS, result);
    if (answer != FANTANOLIVE_DONE) return refused("contacts_update", answer);
    printf("records %" PRIu64 ", faulty %" PRIu64 "\n", result[FANTANOLIVE_CONTACTS], result[FANTANOLIVE_FAULTY]);
    for (i = 0; i < result[FANTANOLIVE_FAULTY]; i++) printf("record %" PRIu32 " of the file is faulty\n", faulty[i]);
    for (i = 0; i < result[FANTANOLIVE_CONTACTS]; i++) {
        const uint8_t *record = table + i * FANTANOLIVE_CONTACT;
        show(record, 1, 5);
        show(record, 6, 19);
        show(record, 42, 76);
        printf("\n");
    }

    answer = fantanolive_contacts_codes(
        table, sizeof table, (size_t)result[FANTANOLIVE_CONTACTS], ohio, sizeof ohio, codes, sizeof codes, &number);
    if (answer != FANTANOLIVE_DONE) return refused("contacts_codes", answer);
    printf("codes %" PRIu64, number);
    show(codes, 1, (int)number * FANTANOLIVE_LOCAL_CODE);
    printf("\n");
    return 0;
}
