//! Files of lines: ASCII with a line feed behind each record, or a carriage return and a line feed; the last may lack it. A line
//! that is shorter than a record gets spaces; empty lines at the end are none.

use crate::failure::{grouped, Failure};
use crate::files::read::Input;

/// What may stand in front of a text in UTF-8.
const MARK: &[u8] = b"\xEF\xBB\xBF";

/// The records of a file of lines. A line that is too long is told with its number.
pub fn records_of(mut input: Input) -> Result<Input, Failure> {
    let bytes = std::mem::take(&mut input.bytes);
    let text = &bytes[..input.read];
    let width = input.kind.width;
    if text.starts_with(MARK) {
        let what = "begins with a byte order mark (UTF-8): save it as plain ASCII";
        return Err(Failure::file(&input.path, what));
    }
    let mut records = Vec::with_capacity(text.len());
    let mut lines: Vec<&[u8]> = text.split(|&byte| byte == b'\n').collect();
    while matches!(lines.last(), Some(&b"" | &b"\r")) {
        lines.pop();
    }
    let has_no_ends = lines.len() == 1;
    for (number, line) in (1u64..).zip(lines) {
        let line = line.strip_suffix(b"\r").unwrap_or(line);
        if line.len() > width {
            let (number, length) = (grouped(number), line.len());
            let hint = match has_no_ends && length % width == 0 {
                true => "; a file without line ends takes --ascii",
                false => "",
            };
            let what = format!("line {number} has {length} characters, and a record {width}{hint}");
            return Err(Failure::file(&input.path, what));
        }
        records.extend_from_slice(line);
        records.resize(records.len() + width - line.len(), b' ');
    }
    input.read = records.len();
    input.length = records.len() as u64;
    input.bytes = records;
    Ok(input)
}
