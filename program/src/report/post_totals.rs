//! Notes on the counts of a collection file's last record: what is stated there, and what the library counts.

use fantanolive::LINE;

use crate::code_page::Charset;
use crate::failure::grouped;
use crate::files::read::Input;
use crate::records::columns::total;
use crate::records::field::{Form, Placeholder};
use crate::records::posting::above_zero;
use crate::report::notes::of_last_record;

/// Notes on a file that was refused by 23: the counts that differ, with the difference; else the counts as they stand.
pub fn of_counts(file: &Input) -> Vec<String> {
    let fields = [total::COLLECTIONS, total::ADJUSTMENTS];
    let as_they_stand = || of_last_record(file, &[total::ADJUSTMENTS, total::COLLECTIONS]);
    let form = Form::new(Charset::Ebcdic, Placeholder::Dot, true);
    let Some(last) = file.last() else {
        return Vec::new();
    };
    if file.kind.marked(last, &form).is_none() {
        return as_they_stand();
    }
    let mut counts = [0; 2];
    let lines = file.records().saturating_sub(1) * LINE;
    for record in file.bytes[..lines].chunks_exact(LINE) {
        for (count, is_above) in counts.iter_mut().zip(above_zero(record)) {
            *count += u64::from(is_above);
        }
    }
    let mut notes = Vec::new();
    for (field, counted) in fields.iter().zip(counts) {
        let Ok(stated) = form.field(field, last).parse::<u64>() else {
            return as_they_stand();
        };
        if stated != counted {
            notes.push(format!(
                "{}: {} ({}): stated {}, counted {}, difference {}",
                file.name(),
                field.name,
                field.columns(),
                grouped(stated),
                grouped(counted),
                grouped(stated.abs_diff(counted)),
            ));
        }
    }
    match notes.is_empty() {
        true => as_they_stand(),
        false => notes,
    }
}
