//! What is known of a batch that was refused by itself: fields of its control record as they stand, and the totals that the
//! library adds up.

use fantanolive::{totals, Refusal};

use crate::code_page::Charset;
use crate::failure::{counted, grouped, Failure};
use crate::files::length;
use crate::files::read::Input;
use crate::records::columns::{control, Field};
use crate::records::control_record::{fields_of, refusal_of};
use crate::records::field::{Form, Placeholder};
use crate::report::notes::{of_last_record, refused};

/// Notes on a batch that was refused by 5, 6, 20, 21, 7 or 8; none for other refusals.
pub fn of_batch(refusal: Refusal, batch: &Input) -> Vec<String> {
    let of_control = |fields| of_last_record(batch, fields);
    match refusal {
        Refusal::WrongBatch => length::of_file(batch),
        Refusal::NoCtl => [length::of_file(batch), of_control(&[])].concat(),
        Refusal::ControlState => of_control(&[control::STATE]),
        Refusal::ControlForm => of_control(&[
            control::TANF_RECORDS,
            control::NON_TANF_RECORDS,
            control::TANF_AMOUNT,
            control::NON_TANF_AMOUNT,
        ]),
        Refusal::WrongCount | Refusal::WrongAmount => of_totals(batch),
        _ => Vec::new(),
    }
}

/// The totals that differ: what the control record states, what the library counts, and the difference.
fn of_totals(batch: &Input) -> Vec<String> {
    let (Some(record), Ok(counted)) = (batch.last(), totals(&batch.bytes)) else {
        return Vec::new();
    };
    let form = Form::new(Charset::Ebcdic, Placeholder::Dot, true);
    let mut notes = Vec::new();
    for (field, counted) in fields_of(&counted) {
        let stated = stated(&form, &field, record);
        if stated != counted {
            notes.push(format!(
                "{}: {} ({}): stated {}, counted {}, difference {}",
                batch.name(),
                field.name,
                field.columns(),
                grouped(stated),
                grouped(counted),
                grouped(stated.abs_diff(counted)),
            ));
        }
    }
    notes
}

/// What is summed when a batch is merged with others: its state, details and amounts.
pub fn of_sums(batch: &Input) -> String {
    let form = Form::new(Charset::Ebcdic, Placeholder::Dot, true);
    let record = batch.last().unwrap_or_default();
    let amount = |field| counted(stated(&form, field, record), "dollar");
    format!(
        "{}: state {}, {}, TANF {}, Non-TANF {}",
        batch.name(),
        form.field(&control::STATE, record),
        counted(batch.records() as u64 - 1, "detail"),
        amount(&control::TANF_AMOUNT),
        amount(&control::NON_TANF_AMOUNT),
    )
}

/// A total as a control record states it.
fn stated(form: &Form, field: &Field, record: &[u8]) -> u64 {
    form.field(field, record).parse().unwrap_or_default()
}

/// Sees that the library takes a batch by itself.
pub fn see_whole(batch: &Input) -> Result<(), Failure> {
    match refusal_of(&batch.bytes) {
        None => Ok(()),
        Some(refusal) => Err(refused(refusal, of_batch(refusal, batch))),
    }
}
