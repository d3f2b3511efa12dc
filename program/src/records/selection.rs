//! Which records of a file are asked for: those whose fields have values, and those in which a text is found.

use super::columns::{Field, Kind, Layout};
use super::csv_fields::{field_named, name_of};
use super::field::Form;

/// Records are compared by their texts, with SSNs whole, letters in either case; numbers as numbers.
pub struct Selection {
    form: Form,
    wanted: Vec<Wanted>,
    searched: Option<Search>,
}

/// A text that is looked for in names and case IDs, or the digits of an SSN, all nine or the last four.
struct Search {
    text: String,
    ssn: Option<String>,
    last_four: Option<String>,
    fields: Vec<&'static Field>,
    /// The last and the first name, which reports put behind each other.
    name: Option<[&'static Field; 2]>,
}

/// A field and the value that it is to have.
struct Wanted {
    field: &'static Field,
    value: String,
    /// The value in cents, where the field is a number and so is the value.
    number: Option<u64>,
}

/// Whether what stands in a field is a number, so that zeros at its front say nothing. A case ID is none.
fn is_number(field: &Field) -> bool {
    let ends = ["Amount", "Local Code", "Year", "Cents"];
    let is_typed_number = ends.iter().any(|end| field.name.ends_with(end));
    matches!(field.kind, Kind::Number | Kind::Amount) || is_typed_number
}

/// A number with two decimal places or none, in hundredths.
fn hundredths(text: &str) -> Option<u64> {
    let (whole, behind) = text.split_once('.').unwrap_or((text, "00"));
    let are_digits = |text: &str| !text.is_empty() && text.bytes().all(|b| b.is_ascii_digit());
    let is_number = are_digits(whole) && are_digits(behind) && behind.len() == 2;
    let digits = format!("{whole}{behind}");
    digits.parse().ok().filter(|_| is_number)
}

impl Wanted {
    fn of(field: &'static Field, value: &str) -> Wanted {
        let value = value.trim().to_uppercase();
        let number = hundredths(&value.replace(',', "")).filter(|_| is_number(field));
        let value = match field.kind {
            Kind::Ssn => ssn_of(&value).unwrap_or(value),
            _ => value,
        };
        Wanted {
            field,
            value,
            number,
        }
    }

    /// Whether a record has the value; of a set of words, each that is asked for, or none where none is.
    fn is_in(&self, form: &Form, record: &[u8]) -> bool {
        let text = form.field(self.field, record);
        if self.field.kind == Kind::Set && !self.value.is_empty() {
            let mut words = self.value.split([',', ' ']).filter(|word| !word.is_empty());
            return words.all(|word| text.split(',').any(|other| other == word));
        }
        text == self.value || self.number.is_some() && hundredths(&text) == self.number
    }
}

/// The conditions of a list with commas between them: what has no equals sign belongs to the value before it, which has a comma.
fn conditions_of(list: &str) -> Result<Vec<(&str, String)>, String> {
    let mut conditions: Vec<(&str, String)> = Vec::new();
    for part in list.split(',') {
        match (part.split_once('='), conditions.last_mut()) {
            (Some((name, value)), _) => conditions.push((name, value.to_string())),
            (None, Some((_, value))) if !part.trim().is_empty() => *value += &format!(",{part}"),
            (None, Some(_)) => return Err("--where has a comma with nothing behind it".to_string()),
            (None, None) => return Err(format!("--where wants FIELD=VALUE, not '{part}'")),
        }
    }
    Ok(conditions)
}

/// The last four digits of an SSN, alone or behind the stars of a report.
fn last_four_of(text: &str) -> Option<String> {
    let behind = match text.rfind('*') {
        Some(star) => {
            let behind = text[star + 1..].trim_start_matches('-');
            behind.trim_end_matches(|c: char| c.is_ascii_alphabetic())
        }
        None => text,
    };
    let are_four = behind.len() == 4 && behind.bytes().all(|byte| byte.is_ascii_digit());
    are_four.then(|| behind.to_string())
}

/// The nine digits of an SSN, with hyphens or without.
fn ssn_of(text: &str) -> Option<String> {
    let plain = match text.len() {
        11 => text.replace('-', ""),
        _ => text.to_string(),
    };
    let is_ssn = plain.len() == 9 && plain.bytes().all(|byte| byte.is_ascii_digit());
    is_ssn.then_some(plain)
}

/// The field of a name, or a message with the names.
pub fn field_of(fields: Layout, name: &str) -> Result<&'static Field, String> {
    let plain = name.trim().to_lowercase().replace([' ', '-'], "_");
    let by_name = fields.iter().find(|field| name_of(field) == plain);
    by_name.or(field_named(fields, &plain)).ok_or_else(|| {
        let shown = fields.iter().filter(|field| field.kind != Kind::Filler);
        let names: Vec<String> = shown.map(name_of).collect();
        format!("no field is named '{name}': {}", names.join(", "))
    })
}

/// Whether a field is one in which a text is looked for.
fn is_searched(field: &&Field) -> bool {
    matches!(field.kind, Kind::Text)
        && (field.name.contains("Name") || field.name.contains("Case ID"))
}

impl Selection {
    /// By conditions, `FIELD=VALUE` with commas between them, and a text; a message where one can't be taken.
    pub fn of(
        fields: Layout,
        conditions: Option<&str>,
        text: Option<&str>,
        form: Form,
    ) -> Result<Selection, String> {
        let mut wanted = Vec::new();
        for (name, value) in conditions.map_or(Ok(Vec::new()), conditions_of)? {
            wanted.push(Wanted::of(field_of(fields, name)?, &value));
        }
        let searched = text.map(|text| Search::of(fields, text.trim()));
        let form = Form { full: true, ..form };
        Ok(Selection {
            form,
            wanted,
            searched,
        })
    }

    /// Whether every record is asked for.
    pub fn is_all(&self) -> bool {
        self.wanted.is_empty() && self.searched.is_none()
    }

    pub fn has(&self, fields: Layout, record: &[u8]) -> bool {
        let is_so = |wanted: &Wanted| wanted.is_in(&self.form, record);
        self.wanted.iter().all(is_so)
            && self
                .searched
                .as_ref()
                .is_none_or(|search| search.is_in(&self.form, fields, record))
    }
}

impl Search {
    fn of(fields: Layout, text: &str) -> Search {
        let named = |word: &str| fields.iter().find(|field| field.name.contains(word));
        let name = named("Last Name").zip(named("First Name"));
        Search {
            text: text.to_uppercase(),
            ssn: ssn_of(text),
            last_four: last_four_of(text),
            fields: fields.iter().filter(is_searched).collect(),
            name: name
                .map(|(last, first)| [last, first])
                .filter(|_| text.contains(',')),
        }
    }

    /// Whether the SSN, or its last four digits, are those of a record.
    fn is_ssn(&self, form: &Form, fields: Layout, record: &[u8]) -> bool {
        if self.ssn.is_none() && self.last_four.is_none() {
            return false;
        }
        let mut ssns = fields.iter().filter(|field| field.kind == Kind::Ssn);
        ssns.any(|field| {
            let ssn = form.field(field, record);
            let is_end = |four: &String| ssn.ends_with(four.as_str());
            self.ssn.as_ref() == Some(&ssn) || self.last_four.as_ref().is_some_and(is_end)
        })
    }

    fn is_in(&self, form: &Form, fields: Layout, record: &[u8]) -> bool {
        if self.is_ssn(form, fields, record) {
            return true;
        }
        if let Some([last, first]) = self.name {
            let mut name = String::new();
            form.put_name(last, first, record, &mut name);
            if name.contains(&self.text) {
                return true;
            }
        }
        let mut texts = self.fields.iter();
        texts.any(|field| form.field(field, record).contains(&self.text))
    }
}

#[cfg(test)]
mod tests {
    use super::super::columns::row;
    use super::*;

    #[test]
    fn values_with_commas() {
        let of = |list| conditions_of(list).expect("they are conditions");
        assert_eq!(of("a=1,b=2"), [("a", "1".into()), ("b", "2".into())]);
        assert_eq!(of("a=1,2,b="), [("a", "1,2".into()), ("b", "".into())]);
        for wrong in ["x,a=1", "a=1,", "a=,", "a=1,,b=2", ""] {
            assert!(conditions_of(wrong).is_err(), "{wrong}");
        }
    }

    #[test]
    fn numbers_as_numbers() {
        for (one, other) in [("60", "00000060"), ("025", "25"), ("10", "10.00")] {
            assert_eq!(hundredths(one), hundredths(other), "{one}");
        }
        for none in [
            "",
            ".",
            "1.",
            "1.5",
            "1,500",
            "6X",
            ".50",
            "99999999999999999999",
        ] {
            assert_eq!(hundredths(none), None, "{none}");
        }
        assert!(is_number(&row::ARREARAGE) && is_number(&row::LOCAL_CODE));
        assert!(!is_number(&row::CASE_ID) && !is_number(&row::SSN) && !is_number(&row::ZIP));
    }

    #[test]
    fn four_digits_of_an_ssn() {
        for text in ["6789", "*****6789", "OH*****6789N", "***-**-6789"] {
            assert_eq!(last_four_of(text).as_deref(), Some("6789"), "{text}");
        }
        for none in ["678", "67890", "SMITH", "*****678", "6789N"] {
            assert_eq!(last_four_of(none), None, "{none}");
        }
    }

    #[test]
    fn ssns_with_hyphens_and_without() {
        assert_eq!(ssn_of("123-45-6789").as_deref(), Some("123456789"));
        assert_eq!(ssn_of("123456789").as_deref(), Some("123456789"));
        for none in ["12345678", "123-45-678", "SMITH", "12345678X"] {
            assert_eq!(ssn_of(none), None, "{none}");
        }
    }
}
