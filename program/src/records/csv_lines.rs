//! CSV (RFC 4180), read: lines of cells, with quotation marks, line ends of either form, and a byte order mark or none.

/// A line: its number in the file, the first being 1, and its cells.
#[derive(Debug, PartialEq, Eq)]
pub struct Line {
    pub number: usize,
    pub cells: Vec<String>,
}

/// The lines of a text; blank ones are none. With an error the number of the line where quotation marks are not closed, or
/// something stands behind them.
pub fn lines_of(text: &str) -> Result<Vec<Line>, usize> {
    let mut rest = text.strip_prefix('\u{FEFF}').unwrap_or(text);
    let mut lines = Vec::new();
    let mut number = 1;
    while !rest.is_empty() {
        let start = number;
        let mut cells = Vec::new();
        loop {
            let (cell, behind) = cell_of(rest).ok_or(start)?;
            number += cell.matches('\n').count();
            cells.push(cell);
            match behind.strip_prefix(',') {
                Some(next) => rest = next,
                None => {
                    let end = behind.strip_prefix('\r').unwrap_or(behind);
                    rest = end.strip_prefix('\n').unwrap_or(end);
                    break;
                }
            }
        }
        number += 1;
        if cells != [""] {
            lines.push(Line {
                number: start,
                cells,
            });
        }
    }
    Ok(lines)
}

/// A cell, and what stands behind it: a comma, a line end or nothing.
fn cell_of(text: &str) -> Option<(String, &str)> {
    let Some(mut rest) = text.strip_prefix('"') else {
        let end = text.find([',', '\n']).unwrap_or(text.len());
        let (cell, behind) = text.split_at(end);
        let is_last = !behind.starts_with(',');
        return match cell.strip_suffix('\r').filter(|_| is_last) {
            Some(cell) => Some((cell.to_string(), &text[cell.len()..])),
            None => Some((cell.to_string(), behind)),
        };
    };
    let mut cell = String::new();
    loop {
        let (front, behind) = rest.split_once('"')?;
        cell.push_str(front);
        match behind.strip_prefix('"') {
            Some(more) => {
                cell.push('"');
                rest = more;
            }
            None => {
                let is_end = behind.is_empty() || behind.starts_with([',', '\n', '\r']);
                return is_end.then_some((cell, behind));
            }
        }
    }
}

#[cfg(test)]
mod tests {
    use super::*;

    fn cells(text: &str) -> Vec<(usize, Vec<String>)> {
        let lines = lines_of(text).expect("it is CSV");
        lines
            .into_iter()
            .map(|line| (line.number, line.cells))
            .collect()
    }

    #[test]
    fn lines_and_cells() {
        let of = |list: &[&str]| list.iter().map(|cell| cell.to_string()).collect::<Vec<_>>();
        assert_eq!(cells(""), []);
        assert_eq!(
            cells("a,b\n1,\n"),
            [(1, of(&["a", "b"])), (2, of(&["1", ""]))]
        );
        assert_eq!(
            cells("a,b\r\n\r\n1,2"),
            [(1, of(&["a", "b"])), (3, of(&["1", "2"]))]
        );
        assert_eq!(cells("\u{FEFF}a\n"), [(1, of(&["a"]))]);
        assert_eq!(
            cells("\"a,\"\"b\"\"\nc\",d\ne"),
            [(1, of(&["a,\"b\"\nc", "d"])), (3, of(&["e"]))]
        );
        assert_eq!(cells(",\n"), [(1, of(&["", ""]))]);
        assert_eq!(lines_of("a\n\"b\nc"), Err(2));
        assert_eq!(lines_of("a,\"b\"c\n"), Err(1));
    }
}
