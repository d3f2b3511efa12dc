"""include/fantanolive_layout.h: the columns as macros and tables, and functions that read and write fields."""
from . import table

KINDS = {"text": "TEXT", "number": "NUMBER", "ssn": "SSN", "amount": "AMOUNT", "set": "SET", "date": "DATE", "filler": "FILLER"}

HEAD = r'''/* fantanolive_layout.h: the fields of every row and record, and how they are read and written in C.
 *
 * Written by bin/generate-layouts from package/layouts.json; not to be edited. Nothing is allocated, and no function of
 * the library is called.
 *
 * A field is named by its layout and its name. FANTANOLIVE_ROW_LAST_NAME_OFFSET is its place, the first byte being 0,
 * FANTANOLIVE_ROW_LAST_NAME_LENGTH how many bytes it has, and FANTANOLIVE_ROW_LAST_NAME_FIELD both, as the functions take
 * them:
 *
 *     char name[FANTANOLIVE_ROW_LAST_NAME_LENGTH + 1];
 *     uint64_t dollars;
 *     fantanolive_get_text(row, FANTANOLIVE_ROW_LAST_NAME_FIELD, name);
 *     if (!fantanolive_get_number(row, FANTANOLIVE_ROW_ARREARAGE_FIELD, &dollars))
 *         fprintf(stderr, "not digits\n");
 *
 * Records are in EBCDIC. Texts are in ISO 8859-1, of which ASCII is a part, by code page 037, in which every byte has one
 * character of its own: what fantanolive_get_text reads and fantanolive_put_characters puts back is the same bytes, whatever
 * they are. Judging a record is the library's part: it takes 46 of the characters (fantanolive_to_ebcdic); the functions here
 * take all.
 *
 * The layouts:
'''

FUNCTIONS = r'''
/* What the bytes of a field are. */
enum fantanolive_kind {
    FANTANOLIVE_KIND_TEXT,   /* characters, spaces behind them */
    FANTANOLIVE_KIND_NUMBER, /* digits with leading zeros */
    FANTANOLIVE_KIND_SSN,    /* nine digits, not to be shown */
    FANTANOLIVE_KIND_AMOUNT, /* dollars and cents: digits, two decimal places assumed, the last may carry a plus sign */
    FANTANOLIVE_KIND_SET,    /* one byte whose bits are exclusions; no character */
    FANTANOLIVE_KIND_DATE,   /* CCYYMMDD, or blank */
    FANTANOLIVE_KIND_FILLER  /* spaces */
};

/* A field of a layout, for code that goes through all of them. */
struct fantanolive_field {
    const char *name;  /* its name in layouts.json */
    const char *title; /* its name in the charts */
    size_t offset;
    size_t length;
    enum fantanolive_kind kind;
};

/* Writes a field as text, without the spaces at its end, and a NUL behind it: at most length + 1 bytes of text. Returns how
 * many characters it has. */
static inline size_t fantanolive_get_text(const uint8_t *record, size_t offset, size_t length, char *text)
{
    size_t end = length, i;

    while (end > 0 && record[offset + end - 1] == 0x40) end--;
    for (i = 0; i < end; i++) text[i] = (char)fantanolive_characters[record[offset + i]];
    text[end] = '\0';
    return end;
}

/* Puts so many characters into a field, spaces behind them. Returns 1, or 0 where they are more than the field has; the
 * record is then as before. */
static inline int fantanolive_put_characters(
    uint8_t *record, size_t offset, size_t length, const char *text, size_t count)
{
    size_t i;

    if (count > length) return 0;
    for (i = 0; i < count; i++) record[offset + i] = fantanolive_codes[(uint8_t)text[i]];
    for (; i < length; i++) record[offset + i] = 0x40;
    return 1;
}

/* The same with a text that a NUL ends. */
static inline int fantanolive_put_text(uint8_t *record, size_t offset, size_t length, const char *text)
{
    size_t count = 0;

    while (count <= length && text[count] != '\0') count++;
    return fantanolive_put_characters(record, offset, length, text, count);
}

/* Reads a field of up to 19 digits. Returns 1, or 0 where a byte is no digit; the number is then as before. */
static inline int fantanolive_get_number(const uint8_t *record, size_t offset, size_t length, uint64_t *number)
{
    uint64_t sum = 0;
    size_t i;

    if (length > 19) return 0;
    for (i = 0; i < length; i++) {
        uint8_t byte = record[offset + i];
        if (byte < 0xF0 || byte > 0xF9) return 0;
        sum = 10 * sum + (uint64_t)(byte - 0xF0);
    }
    *number = sum;
    return 1;
}

/* Puts a number into a field in digits with leading zeros. Returns 1, or 0 where it has more digits than the field; the
 * record is then as before. */
static inline int fantanolive_put_number(uint8_t *record, size_t offset, size_t length, uint64_t number)
{
    uint64_t rest = number;
    size_t i;

    for (i = 0; i < length; i++) rest /= 10;
    if (rest != 0) return 0;
    for (i = length; i > 0; i--) {
        record[offset + i - 1] = (uint8_t)(0xF0 + number % 10);
        number /= 10;
    }
    return 1;
}

/* Reads an amount in cents: digits, of which the last may carry a plus sign (C0-C9). Returns 1, or 0 where it is none; the
 * number is then as before. An amount is put by fantanolive_put_number, in cents. */
static inline int fantanolive_get_cents(const uint8_t *record, size_t offset, size_t length, uint64_t *cents)
{
    uint64_t front;
    uint8_t last;

    if (length == 0 || !fantanolive_get_number(record, offset, length - 1, &front)) return 0;
    last = record[offset + length - 1];
    if ((last < 0xF0 || last > 0xF9) && (last < 0xC0 || last > 0xC9)) return 0;
    *cents = 10 * front + (uint64_t)(last & 0x0F);
    return 1;
}
'''


def upper(*names):
    return "FANTANOLIVE_" + "_".join(name.upper() for name in names)


def macros(layout):
    lines = [f"/* {table.what(layout)}. */"]
    for field in layout["fields"] + layout["groups"]:
        name = upper(layout["name"], field["name"])
        offset, length = field["first"] - 1, table.width(field)
        lines += [f"#define {name}_OFFSET {offset}", f"#define {name}_LENGTH {length}", f"#define {name}_FIELD {offset}, {length}"]
    return "\n".join(lines)


def fields(layout):
    name = f"fantanolive_{layout['name']}_fields"
    lines = [f"static const struct fantanolive_field {name}[] = {{"]
    for field in layout["fields"]:
        kind = "FANTANOLIVE_KIND_" + KINDS[field["kind"]]
        lines.append(f'    {{"{field["name"]}", "{field["title"]}", {field["first"] - 1}, {table.width(field)}, {kind}}},')
    return "\n".join(lines + ["};"])


def code_page(comment, name, numbers):
    return f"/* {comment} */\nstatic const uint8_t {name}[256] = {{\n{table.rows_of_numbers(numbers, '    ')}\n}};\n"


def exclusions():
    lines = ["/* The exclusions in the byte FANTANOLIVE_ROW_EXCLUSIONS of a row. */"]
    for bit, name in enumerate(table.exclusions()):
        lines.append(f"#define FANTANOLIVE_{name} 0x{1 << bit:02X}")
    return "\n".join(lines)


def header():
    layouts = table.layouts()
    names = max(len(layout["name"]) for layout in layouts)
    listed = "".join(f" *     {layout['name'].upper():{names}}  {table.what(layout)}\n" for layout in layouts)
    parts = [HEAD + listed + " */\n#ifndef FANTANOLIVE_LAYOUT_H\n#define FANTANOLIVE_LAYOUT_H\n"]
    parts += ["#include <stddef.h>\n#include <stdint.h>\n"]
    parts += [macros(layout) + "\n" for layout in layouts] + [exclusions() + "\n"]
    parts += [code_page("The character of each EBCDIC byte.", "fantanolive_characters", table.characters())]
    parts += [code_page("The EBCDIC byte of each character.", "fantanolive_codes", table.codes())]
    parts[-1] = parts[-1].rstrip("\n")
    parts += [FUNCTIONS, "/* The fields of each layout, in order and without gaps. */"]
    parts += [fields(layout) + "\n" for layout in layouts]
    return "\n".join(parts) + "\n#endif\n"


def files():
    return {"include/fantanolive_layout.h": header()}
