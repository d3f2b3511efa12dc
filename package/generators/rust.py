"""bindings/rust/src/layouts.rs, a struct for each layout, and bindings/rust/src/code_page.rs."""
from . import table

HEAD = """//! Rows and records as structs: every field a text in Unicode, without the spaces at its end, but the exclusion set of a row.
//!
//! Written by bin/generate-layouts from package/layouts.json; not to be edited.
//!
//! [`Record::read`] takes the bytes of a record and [`Record::write`] gives them; what was read is written as the same bytes,
//! whatever they are. Numbers have functions of their own: `arrearage_number` is none where the columns aren't digits. Nothing
//! is judged here: that is the part of the calls. `{:?}` shows no SSN.

use std::fmt;

use crate::fields::{self, Field, Kind, Record, Unfit};

/// The names of the exclusions in the set of a row, the lowest bit first.
pub const EXCLUSIONS: [&str; 8] = [%s];
"""


def described(field):
    columns = table.columns(field).replace("-", "–")
    held = f": {field['holds']}" if field["holds"] else ""
    return f"    /// {field['title']}, column{'s' if field['first'] != field['last'] else ''} {columns}{held}."


def structure(layout):
    name = table.pascal(layout["name"])
    lines = [f"/// {table.what(layout)}.", "#[derive(Clone, Default, PartialEq, Eq, Hash)]", f"pub struct {name} {{"]
    for field in layout["fields"]:
        kind = "u8" if field["kind"] == "set" else "String"
        lines += [described(field), f"    pub {field['name']}: {kind},"]
    return "\n".join(lines + ["}\n"])


def constants(layout):
    lines = [f'    const NAME: &\'static str = "{layout["name"]}";', f"    const WIDTH: usize = {layout['width']};"]
    lines.append("    const FIELDS: &'static [Field] = &[")
    for field in layout["fields"]:
        text = f'name: "{field["name"]}", title: "{field["title"]}", first: {field["first"]}, last: {field["last"]}'
        lines.append(f"        Field {{ {text}, kind: Kind::{field['kind'].capitalize()} }},")
    return lines + ["    ];", ""]


def reading(layout):
    name = table.pascal(layout["name"])
    lines = ["    fn read(record: &[u8]) -> Option<Self> {", "        (record.len() == Self::WIDTH).then_some(())?;"]
    lines.append(f"        Some({name} {{")
    for field in layout["fields"]:
        first, last = field["first"], field["last"]
        value = f"*record.get({first - 1})?" if field["kind"] == "set" else f"fields::text(record, {first}, {last})"
        lines.append(f"            {field['name']}: {value},")
    return lines + ["        })", "    }", ""]


def number(field):
    """A field as a number."""
    if field["kind"] == "set":
        return f"Some(u64::from(self.{field['name']}))"
    what = table.NUMBERS.get(field["kind"])
    return f"self.{field['name']}_{what}()" if what else "None"


def writing(layout):
    lines = ["    fn write(&self) -> Result<Vec<u8>, Unfit> {", "        let mut record = vec![0x40; Self::WIDTH];"]
    for place, field in enumerate(layout["fields"]):
        if field["kind"] == "set":
            lines.append(f"        record[{field['first'] - 1}] = self.{field['name']};")
        else:
            lines.append(f"        fields::put(&mut record, &Self::FIELDS[{place}], &self.{field['name']})?;")
    lines += ["        Ok(record)", "    }", "", "    fn texts(&self) -> Vec<String> {", "        vec!["]
    for field in layout["fields"]:
        value = f"fields::set_text(self.{field['name']})" if field["kind"] == "set" else f"self.{field['name']}.clone()"
        lines.append(f"            {value},")
    lines += ["        ]", "    }", "", "    fn numbers(&self) -> Vec<Option<u64>> {", "        vec!["]
    lines += [f"            {number(field)}," for field in layout["fields"]]
    return lines + ["        ]", "    }"]


def numbers(layout):
    lines = []
    for field in layout["fields"]:
        what = table.NUMBERS.get(field["kind"])
        if not what:
            continue
        name, width = field["name"], table.width(field)
        lines += [
            f"    /// {field['title']} {'in cents' if what == 'cents' else 'as a number'}; none where it isn't {width} digits.",
            f"    pub fn {name}_{what}(&self) -> Option<u64> {{",
            f"        fields::{what}(&self.{name}, {width})",
            "    }",
            "",
            f"    /// Sets {field['title']}, {width} digits{' with two decimal places' if what == 'cents' else ''}.",
            "    ///",
            "    /// # Errors",
            "    ///",
            "    /// A number of more digits; the record is then as before.",
            f"    pub fn set_{name}_{what}(&mut self, number: u64) -> Result<(), Unfit> {{",
            f'        self.{name} = fields::digits("{name}", {width}, number)?;',
            "        Ok(())",
            "    }",
            "",
        ]
    return lines[:-1]


def layout_text(layout):
    name = table.pascal(layout["name"])
    lines = [structure(layout), f"impl Record for {name} {{"] + constants(layout) + reading(layout) + writing(layout) + ["}", ""]
    if numbers(layout):
        lines += [f"impl {name} {{"] + numbers(layout) + ["}", ""]
    lines += [f"impl fmt::Debug for {name} {{", "    fn fmt(&self, f: &mut fmt::Formatter<'_>) -> fmt::Result {"]
    return "\n".join(lines + [f'        fields::debug(self, "{name}", f)', "    }", "}\n"])


def code_page():
    text = "//! Code page 037, in which every byte has one character of its own.\n//!\n//! Written by bin/generate-layouts; not to be edited.\n"
    for comment, name, found in [
        ("The character of each EBCDIC byte, one of the first 256 of Unicode.", "CHARACTERS", table.characters()),
        ("The EBCDIC byte of each of the first 256 characters of Unicode.", "CODES", table.codes()),
    ]:
        text += f"\n/// {comment}\npub(crate) const {name}: [u8; 256] = [\n{table.rows_of_numbers(found, '    ')}\n];\n"
    return text


def files():
    head = HEAD % ", ".join(f'"{name}"' for name in table.exclusions())
    text = "\n".join([head] + [layout_text(layout) for layout in table.layouts()])
    return {"bindings/rust/src/layouts.rs": text, "bindings/rust/src/code_page.rs": code_page()}
