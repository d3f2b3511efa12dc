//! The columns of a CSV file of details, by its first line.

use super::columns::{detail, reject, Field};
use super::csv_fields::{field_named, name_of};
use super::csv_lines::Line;
use crate::quote::quoted;

/// What a column holds.
#[derive(Clone, Copy, Debug, PartialEq, Eq)]
pub enum Column {
    Field(&'static Field),
    /// A field that a reject record has and a detail doesn't.
    PassedOver(&'static Field),
    /// No name stands over it, and nothing in it.
    Empty,
}

const TEMPLATE: &str = "`fantanolive build --template --out FILE` writes the names";

/// The columns that the first line names, or what is wrong with it.
pub fn columns_of(first: &Line) -> Result<Vec<Column>, Vec<String>> {
    let number = first.number;
    let known: Vec<Option<Column>> = first.cells.iter().map(|name| column_of(name)).collect();
    let is_field = |column: &Option<Column>| matches!(column, Some(Column::Field(_)));
    if !known.iter().any(is_field) {
        let name = first.cells.iter().find(|name| !name.trim().is_empty());
        let name = quoted(name.map_or("", String::as_str));
        return Err(vec![format!(
            "line {number} names no field, the first cell being {name}: is the line of names missing, or is this no CSV file? {TEMPLATE}"
        )]);
    }
    let mut columns = Vec::new();
    let mut wrong = Vec::new();
    for (column, name) in known.into_iter().zip(&first.cells) {
        let name = quoted(name);
        match column {
            Some(column) if column != Column::Empty && columns.contains(&column) => {
                wrong.push(format!("line {number}: two columns are named {name}"));
            }
            Some(column) => columns.push(column),
            None => wrong.push(format!(
                "line {number}: no field is named {name}; {TEMPLATE}"
            )),
        }
    }
    match wrong.is_empty() {
        true => Ok(columns),
        false => Err(wrong),
    }
}

fn column_of(name: &str) -> Option<Column> {
    if name.trim().is_empty() {
        return Some(Column::Empty);
    }
    let of_detail = field_named(detail::FIELDS, name).map(Column::Field);
    of_detail.or_else(|| field_named(reject::FIELDS, name).map(Column::PassedOver))
}

/// A note on the columns that a detail doesn't have.
pub fn passed_over(columns: &[Column]) -> Option<String> {
    let name = |column: &Column| match column {
        Column::PassedOver(field) => Some(name_of(field)),
        _ => None,
    };
    let names: Vec<String> = columns.iter().filter_map(name).collect();
    (!names.is_empty()).then(|| {
        let names = names.join(", ");
        format!("passed over, since a detail has no such field: {names}")
    })
}

#[cfg(test)]
mod tests {
    use super::*;

    fn columns(names: &[&str]) -> Result<Vec<Column>, Vec<String>> {
        columns_of(&Line {
            number: 1,
            cells: names.iter().map(|name| name.to_string()).collect(),
        })
    }

    #[test]
    fn names_in_several_forms() {
        let names = ["SSN", "Obligor Last Name", "", "rejected_error_codes", ""];
        let found = columns(&names).expect("they are names");
        let wanted = [
            Column::Field(&detail::SSN),
            Column::Field(&detail::LAST_NAME),
            Column::Empty,
            Column::PassedOver(&reject::ERROR_CODES),
            Column::Empty,
        ];
        assert_eq!(found, wanted);
        let note = passed_over(&found).expect("there is one");
        assert!(note.ends_with(": rejected_error_codes"), "{note}");
        assert_eq!(passed_over(&found[..2]), None);
    }

    #[test]
    fn names_that_are_none() {
        let wrong = columns(&["ssn", "name", "SSN"]).expect_err("two are wrong");
        assert!(wrong[0].starts_with("line 1: no field is named 'name'; "));
        assert_eq!(wrong[1], "line 1: two columns are named 'SSN'");
        let wrong = columns(&["OH025100101000OH-1", "A"]).expect_err("none is a name");
        let words = "line 1 names no field, the first cell being 'OH********1000OH-1': is the line of names missing";
        assert!(wrong.len() == 1 && wrong[0].starts_with(words), "{wrong:?}");
    }
}
