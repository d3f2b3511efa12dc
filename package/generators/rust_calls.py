"""What the Rust crate has of fantanolive.h: bindings/rust/src/raw.rs, the calls over slices, and bindings/rust/src/header.rs, the
sizes, limits and refusals."""
import re

from . import header, table

WRITTEN = "Written by bin/generate-layouts from fantanolive.h; not to be edited."
NUMBERS = {"uint8_t": "u8", "uint32_t": "u32", "uint64_t": "u64", "size_t": "usize"}

# The constants of the crate: name, type, name in the header, and what each is.
CONSTANTS = [
    ("ROW", "usize", "ROW", "Bytes of a row of the master."),
    ("RECORD", "usize", "RECORD", "Bytes of a record of a batch, a reject file and a reconciliation file."),
    ("RECORDS", "usize", "RECORDS_SIZE", "Bytes of the output of `records_to`: four records."),
    ("CONTACT", "usize", "CONTACT", "Bytes of a contact record, in a file and in a table."),
    ("LINE", "usize", "LINE", "Bytes of a record of a collection file."),
    ("KEY", "usize", "KEY", "Bytes of a key: columns 1–12 of a row."),
    ("STATE", "usize", "STATE", "Bytes of a state."),
    ("DATE", "usize", "DATE", "Bytes of a date, CCYYMMDD."),
    ("LOCAL_CODE", "usize", "LOCAL_CODE", "Bytes of a local code."),
    ("PAGE_LINE", "usize", "PAGE_LINE", "Bytes of a line of a case page."),
    ("PAGE_CASES", "usize", "PAGE_CASES", "Lines for cases on a full page, between its heading and its foot."),
    ("MAX_ROWS", "usize", "MAX_ROWS", "The most rows that a master may have."),
    ("MAX_RECORDS", "usize", "MAX_RECORDS", "The most records that a batch or a collection file may have, the last record included."),
    ("MAX_CONTACTS", "usize", "MAX_CONTACTS", "The most records that a contact file may have."),
    ("NO_PLACE", "u32", "NO_PLACE", "The place that [`crate::find_many`] tells for a key without a row."),
    ("ERRORS", "u64", "ERRORS", "The errors, codes 1 to 18. A detail whose verdict has one is rejected."),
    ("WARNINGS", "u64", "WARNINGS", "The warnings, codes 51 and 52. A detail whose verdict has one is accepted."),
]
# The sizes that depend on a count.
SIZES = [
    ("JOURNAL_SIZE", "Bytes that the journal of a batch of so many details always has room in; fewer are refused (25)."),
    ("PAGES", "Pages of so many live rows."),
    ("PAGES_SIZE", "Bytes of the pages of so many live rows."),
]

RAW = f"""//! The calls as C has them, over slices: each answers 0 when it was carried out, else the number of a refusal, and writes its
//! numbers where they go. The functions of the crate's root make the same calls and answer a `Result`.
//!
//! {WRITTEN}
//!
//! Every `unsafe` block is sound for the same reason: each pointer comes from a slice with its length, or from a reference, so it
//! is not null, is aligned and is valid for that length; those that are written come from exclusive borrows, so they overlap
//! nothing. The library keeps no pointer.

use std::ffi::{{c_char, CStr}};

"""
VERSION = """/// The version of the library that is there at run time.
pub fn version() -> &'static CStr {
    // SAFETY: the library answers a constant text that a NUL ends.
    unsafe { CStr::from_ptr(fantanolive_version()) }
}
"""
REFUSAL = """/// Why a call was refused. The value is the refusal's number.
#[derive(Clone, Copy, Debug, PartialEq, Eq, Hash)]
#[repr(u64)]
pub enum Refusal {
%s    /// A number that this version of the crate doesn't know; a library of another version may answer it.
    Unknown = 0,
}

impl Refusal {
    /// Every refusal but [`Refusal::Unknown`], in rising order of number.
    pub const ALL: [Refusal; %d] = [
%s    ];
}
"""


def rust_name(name):
    """An argument's name; `in` is a word of Rust's."""
    return "input" if name == "in" else name


def declared(argument):
    """The parameters of an argument in a declaration of C."""
    name, kind, written, has_length = argument
    name = rust_name(name)
    if kind.endswith("value"):
        return [f"{name}: {NUMBERS[kind.split()[0]]}"]
    pointer = f"{name}: *{'mut' if written else 'const'} {NUMBERS[kind]}"
    return [pointer, f"{name}_length: usize"] if has_length else [pointer]


def parameter(argument, numbers):
    """The parameter of an argument over slices; a result has so many numbers."""
    name, kind, written, has_length = argument
    name = rust_name(name)
    if kind.endswith("value"):
        return f"{name}: {NUMBERS[kind.split()[0]]}"
    if not has_length:
        return f"{name}: &mut [u64; {numbers}]" if numbers > 1 else f"{name}: &mut u64"
    return f"{name}: &{'mut ' if written else ''}[{NUMBERS[kind]}]"


def passed(argument, numbers):
    """What a call of C is given of an argument."""
    name, kind, written, has_length = argument
    name = rust_name(name)
    pointer = f"{name}.as_mut_ptr()" if written else f"{name}.as_ptr()"
    if has_length:
        return f"{pointer}, {name}.len()"
    return pointer if not kind.endswith("value") and numbers > 1 else name


def raw_call(name, given, numbers):
    parameters = [parameter(argument, numbers) for argument in given]
    lines = [f"/// `fantanolive_{name}`."]
    if len(parameters) > 7:
        lines.append("#[allow(clippy::too_many_arguments)]")
    lines += [f"pub fn {name}("] + [f"    {one}," for one in parameters] + [") -> u64 {"]
    lines += ["    // SAFETY: slices with their lengths, as said above.", "    unsafe {", f"        fantanolive_{name}("]
    lines += [f"            {passed(argument, numbers)}," for argument in given]
    return "\n".join(lines + ["        )", "    }", "}\n"])


def raw():
    calls, numbers = header.calls(), header.result_sizes()
    lines = ['extern "C" {', "    fn fantanolive_version() -> *const c_char;"]
    for name, given in calls:
        parameters = [f"        {one}," for argument in given for one in declared(argument)]
        lines += [f"    fn fantanolive_{name}("] + parameters + ["    ) -> u64;"]
    lines += ["}\n", VERSION]
    lines += [raw_call(name, given, numbers[name]) for name, given in calls]
    lines += ["/// The addresses of the calls by their names, for programs that lend memory of their own making.", f"pub fn addresses() -> [(&'static str, *const ()); {len(calls)}] {{", "    ["]
    lines += [f'        ("{name}", fantanolive_{name} as *const ()),' for name, _ in calls]
    return RAW + "\n".join(lines + ["    ]", "}\n"])


def expression(of_c):
    """An expression of the header in Rust: without its casts, and with the crate's names."""
    found = re.sub(r"\((size_t|uint64_t)\)", "", of_c)
    found = re.sub(r"FANTANOLIVE_(\w+)\(", lambda name: name[1].lower() + "(", found).replace("FANTANOLIVE_", "")
    found = re.sub(r"(?<!\w)\((\w+)\)", r"\1", found)
    found = re.sub(r"\((\w+) \+ (\w+) - 1\) / \2", r"\1.div_ceil(\2)", found)
    while found.startswith("(") and found.endswith(")"):
        found = found[1:-1]
    return f"{int(found):_}" if found.isdigit() else found


def capital(words):
    return words[0].upper() + words[1:]


def constants():
    text = "".join(f"/// {what}\npub const {name}: {kind} = {expression(header.macro(of_c)[1])};\n" for name, kind, of_c, what in CONSTANTS)
    for name, what in SIZES:
        argument, of_c = header.macro(name)
        shown = "" if name == "PAGES" else "pub "
        text += f"\n/// {what}\n{shown}const fn {name.lower()}({argument[1:-1]}: usize) -> usize {{\n    {expression(of_c)}\n}}\n"
    return text


def refusals():
    found = [(table.pascal(name.lower()), number, capital(comment)) for name, number, comment in header.answers()]
    members = "".join(f"    /// {comment}.\n    {name} = {number},\n" for name, number, comment in found)
    listed = "".join(f"        Refusal::{name},\n" for name, _, _ in found)
    return REFUSAL % (members, len(found), listed)


def files():
    head = f"//! Sizes in bytes, limits and refusals, as `fantanolive.h` has them.\n//!\n//! {WRITTEN}\n\n"
    return {"bindings/rust/src/raw.rs": raw(), "bindings/rust/src/header.rs": head + constants() + "\n" + refusals()}
