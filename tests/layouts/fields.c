/* fields LAYOUT: reads records of a layout from standard input and prints, for each, a line per field (its name, its text in
 * hexadecimal, its number or -), and then the record that these give when they are put into a new one, in hexadecimal.
 * fields LAYOUT COUNT SEED: writes so many records instead, half of them of any bytes and half of likely ones. */
#include <inttypes.h>
#include <stdio.h>
#include <stdlib.h>
#include <string.h>

#include "fantanolive_layout.h"

#define LAYOUT(name) {#name, fantanolive_##name##_fields, sizeof fantanolive_##name##_fields / sizeof(struct fantanolive_field)}

static const struct layout {
    const char *name;
    const struct fantanolive_field *fields;
    size_t count;
} layouts[] = {
    LAYOUT(row), LAYOUT(detail), LAYOUT(control), LAYOUT(reject), LAYOUT(reject_control), LAYOUT(rec), LAYOUT(rct),
    LAYOUT(contact), LAYOUT(line), LAYOUT(total), LAYOUT(page_line), LAYOUT(page_heading), LAYOUT(page_foot),
};

static size_t width_of(const struct layout *layout)
{
    const struct fantanolive_field *last = &layout->fields[layout->count - 1];
    return last->offset + last->length;
}

static void print_hex(const uint8_t *bytes, size_t length)
{
    size_t i;
    for (i = 0; i < length; i++) printf("%02x", bytes[i]);
}

/* The number of a field, and whether it has one. */
static int number_of(const struct fantanolive_field *field, const uint8_t *record, uint64_t *number)
{
    switch (field->kind) {
    case FANTANOLIVE_KIND_NUMBER: return fantanolive_get_number(record, field->offset, field->length, number);
    case FANTANOLIVE_KIND_AMOUNT: return fantanolive_get_cents(record, field->offset, field->length, number);
    case FANTANOLIVE_KIND_SET: *number = record[field->offset]; return 1;
    default: return 0;
    }
}

/* Prints a field and puts it into another record, a number by its value. */
static int pass(const struct fantanolive_field *field, const uint8_t *record, uint8_t *out)
{
    char text[256];
    uint64_t number = 0;
    size_t count = fantanolive_get_text(record, field->offset, field->length, text);
    int has_number = number_of(field, record, &number);
    printf("%s ", field->name);
    if (field->kind != FANTANOLIVE_KIND_SET) print_hex((const uint8_t *)text, count);
    if (has_number) printf(" %" PRIu64 "\n", number); else printf(" -\n");
    if (field->kind == FANTANOLIVE_KIND_SET) {
        out[field->offset] = (uint8_t)number;
        return 1;
    }
    if (has_number && field->kind == FANTANOLIVE_KIND_NUMBER)
        return fantanolive_put_number(out, field->offset, field->length, number);
    return fantanolive_put_characters(out, field->offset, field->length, text, count);
}

static int pass_all(const struct layout *layout)
{
    uint8_t record[256], out[256];
    size_t width = width_of(layout), i;

    while (fread(record, 1, width, stdin) == width) {
        memset(out, 0xEE, sizeof out);
        for (i = 0; i < layout->count; i++)
            if (!pass(&layout->fields[i], record, out)) return 1;
        printf("= ");
        print_hex(out, width);
        printf("\n");
    }
    return 0;
}

static uint8_t likely(const struct fantanolive_field *field, size_t place)
{
    static const char letters[] = "ABCXYZ -0123456789 ";
    int digits = field->kind == FANTANOLIVE_KIND_NUMBER || field->kind == FANTANOLIVE_KIND_AMOUNT || field->kind == FANTANOLIVE_KIND_SSN;
    if (field->kind == FANTANOLIVE_KIND_SET) return (uint8_t)(rand() % 256);
    if (digits && field->kind == FANTANOLIVE_KIND_AMOUNT && place + 1 == field->length) return (uint8_t)((rand() % 2 ? 0xC0 : 0xF0) + rand() % 10);
    if (digits) return (uint8_t)(0xF0 + rand() % 10);
    if (field->kind == FANTANOLIVE_KIND_FILLER || place > 4) return 0x40;
    return fantanolive_codes[(uint8_t)letters[(size_t)rand() % (sizeof letters - 1)]];
}

static void write_records(const struct layout *layout, int count)
{
    uint8_t record[256];
    size_t f, i;
    int n;

    for (n = 0; n < count; n++) {
        for (f = 0; f < layout->count; f++)
            for (i = 0; i < layout->fields[f].length; i++)
                record[layout->fields[f].offset + i] = n % 2 ? likely(&layout->fields[f], i) : (uint8_t)(rand() % 256);
        fwrite(record, 1, width_of(layout), stdout);
    }
}

int main(int argc, char **argv)
{
    size_t i;
    for (i = 0; argc > 1 && i < sizeof layouts / sizeof layouts[0]; i++) {
        if (strcmp(layouts[i].name, argv[1]) != 0) continue;
        if (argc < 4) return pass_all(&layouts[i]);
        srand((unsigned)atoi(argv[3]));
        write_records(&layouts[i], atoi(argv[2]));
        return 0;
    }
    return 2;
}
