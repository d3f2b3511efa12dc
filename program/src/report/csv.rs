//! Tables as CSV (RFC 4180): a line of names, then a line per entry, a line feed behind each.

use std::borrow::Cow;
use std::io::{self, Write};

use crate::mask::masked;
use crate::report::sheet::Sheet;

/// A cell, in quotation marks where it has to be.
fn quoted(cell: &str) -> Cow<'_, str> {
    match cell.contains(['"', ',', '\n', '\r']) {
        true => Cow::Owned(format!("\"{}\"", cell.replace('"', "\"\""))),
        false => Cow::Borrowed(cell),
    }
}

/// Writes a line.
pub fn put_line(out: &mut dyn Write, cells: &[&str]) -> io::Result<()> {
    for (place, cell) in cells.iter().enumerate() {
        if place > 0 {
            out.write_all(b",")?;
        }
        out.write_all(quoted(cell).as_bytes())?;
    }
    out.write_all(b"\n")
}

/// Writes a table, without SSNs unless they are asked for.
pub fn put_sheet(out: &mut dyn Write, sheet: &dyn Sheet, full: bool) -> io::Result<()> {
    let names = sheet.heads().iter();
    let names: Vec<String> = names
        .map(|name| name.to_lowercase().replace(' ', "_"))
        .collect();
    let names: Vec<&str> = names.iter().map(String::as_str).collect();
    put_line(out, &names)?;
    let mut put = |cells: &[&str]| {
        if full {
            return put_line(out, cells);
        }
        let cells: Vec<Cow<str>> = cells.iter().map(|cell| masked(cell)).collect();
        let cells: Vec<&str> = cells.iter().map(|cell| &**cell).collect();
        put_line(out, &cells)
    };
    sheet.put_lines(&mut put)?;
    sheet.put_feet(&mut put)
}

#[cfg(test)]
mod tests {
    use super::*;

    #[test]
    fn cells_are_quoted_where_they_have_to_be() {
        let mut out = Vec::new();
        put_line(&mut out, &["a", "", "b,c", "d \"e\"", "f\ng"]).expect("a list takes everything");
        assert_eq!(out, b"a,,\"b,c\",\"d \"\"e\"\"\",\"f\ng\"\n");
    }
}
