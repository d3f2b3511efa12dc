"""bindings/java/src/fantanolive: a Java record for each layout, and the code page."""
from . import table

FOLDER = "bindings/java/src/fantanolive"
WRITTEN = "Written by bin/generate-layouts from package/layouts.json; not to be edited."

HEAD = """package fantanolive;

import java.util.List;
{more}
/**
 * {what}. Every field is a text without the spaces at its end{set}. What was read is
 * written as the same bytes, whatever they are; nothing is judged here. {written}
{params}
 */
public record {name}({components}) implements Layout {{
    /** How many bytes a record has. */
    public static final int WIDTH = {width};

    /** The fields, in order and without gaps. */
    public static final List<Field> FIELDS = List.of({fields});

    /** A record of spaces. */
    public static {name} blank() {{
        return new {name}({blank});
    }}

    /**
     * Reads a record in EBCDIC.
     *
     * @throws IllegalArgumentException where it hasn't {width} bytes
     */
    public static {name} read(byte[] record) {{
        Columns.checked(record, WIDTH);
        return new {name}({reads});
    }}

    @Override
    public List<Field> fields() {{
        return FIELDS;
    }}

    @Override
    public List<Object> values() {{
        return List.of({values});
    }}

    /** The fields that aren't blank, without SSNs. */
    @Override
    public String toString() {{
        return Columns.shown("{name}", this);
    }}
{methods}}}
"""


def joined(parts, indent=12):
    """Parts on a line each, commas between them."""
    pad = "\n" + " " * indent
    return pad + ("," + pad).join(parts)


def field_text(field):
    kind = f"Field.Kind.{field['kind'].upper()}"
    return f'new Field("{field["name"]}", "{field["title"]}", {field["first"]}, {field["last"]}, {kind})'


def read_text(field):
    if field["kind"] == "set":
        return f"record[{field['first'] - 1}] & 0xFF"
    return f"Columns.text(record, {field['first']}, {field['last']})"


def with_method(layout, field):
    """The same record with another value of a field."""
    name, others = table.camel(field["name"]), [table.camel(other["name"]) for other in layout["fields"]]
    kind = "int" if field["kind"] == "set" else "String"
    own = table.pascal(layout["name"])
    return f"""
    /** The same with another {field['title']}. */
    public {own} with{table.pascal(field['name'])}({kind} {name}) {{
        return new {own}({', '.join(others)});
    }}
"""


def number_methods(layout, field):
    what = table.NUMBERS.get(field["kind"])
    if not what:
        return ""
    name, width, own = table.camel(field["name"]), table.width(field), table.pascal(layout["name"])
    meant = "in cents" if what == "cents" else "as a number"
    return f"""
    /** {field['title']} {meant}; empty where it isn't {width} digits. */
    public OptionalLong {name}{what.capitalize()}() {{
        return Columns.{what}({name}, {width});
    }}

    /** The same with another {field['title']}, {meant}. */
    public {own} with{table.pascal(field['name'])}{what.capitalize()}(long number) {{
        return with{table.pascal(field['name'])}(Columns.digits("{field['name']}", number, {width}));
    }}
"""


def described(field):
    held = f": {field['holds']}" if field["holds"] else ""
    return f" * @param {table.camel(field['name'])} {field['title']}, {table.columns(field)}{held}"


def record(layout):
    fields = layout["fields"]
    names = [table.camel(field["name"]) for field in fields]
    has_set = any(field["kind"] == "set" for field in fields)
    has_numbers = any(field["kind"] in table.NUMBERS for field in fields)
    kinds = ["int" if field["kind"] == "set" else "String" for field in fields]
    methods = "".join(with_method(layout, field) + number_methods(layout, field) for field in fields)
    return HEAD.format(
        what=table.what(layout), set=", but the exclusion set, a byte of bits" if has_set else "", written=WRITTEN,
        more="import java.util.OptionalLong;\n" if has_numbers else "", name=table.pascal(layout["name"]), width=layout["width"],
        params="\n".join([" *"] + [described(field) for field in fields]),
        components=joined([f"{kind} {name}" for kind, name in zip(kinds, names)], 8),
        fields=joined([field_text(field) for field in fields]),
        blank=", ".join("0" if kind == "int" else '""' for kind in kinds),
        reads=joined([read_text(field) for field in fields]), values=", ".join(names), methods=methods,
    )


def code_page():
    lines = []
    characters = table.characters()
    for start in range(0, 256, 16):
        lines.append('"' + "".join(f"\\{number:03o}" for number in characters[start : start + 16]) + '"')
    text = "\n            + ".join(lines)
    return f"""package fantanolive;

/** Code page 037, in which every byte has one character of its own. {WRITTEN} */
final class CodePage {{
    /** The character of each EBCDIC byte. */
    static final String CHARACTERS =
            {text};

    private CodePage() {{}}
}}
"""


def exclusions():
    names = ", ".join(table.exclusions())
    return f"""package fantanolive;

import java.util.EnumSet;

/** The exclusions in the set of a row, the lowest bit first. {WRITTEN} */
public enum Exclusion {{
    {names};

    /** Its bit. */
    public int bit() {{
        return 1 << ordinal();
    }}

    /** The exclusions of a set. */
    public static EnumSet<Exclusion> of(int set) {{
        EnumSet<Exclusion> found = EnumSet.noneOf(Exclusion.class);
        for (Exclusion exclusion : values()) {{
            if ((set & exclusion.bit()) != 0) {{
                found.add(exclusion);
            }}
        }}
        return found;
    }}
}}
"""


def files():
    made = {f"{FOLDER}/{table.pascal(layout['name'])}.java": record(layout) for layout in table.layouts()}
    made[f"{FOLDER}/CodePage.java"] = code_page()
    made[f"{FOLDER}/Exclusion.java"] = exclusions()
    return made
