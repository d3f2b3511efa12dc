//! The master of a command: whether it is to be there, and its rows read with room for new ones.

use fantanolive::{Refusal, MAX_ROWS, ROW};

use crate::arguments::Arguments;
use crate::code_page::Charset;
use crate::failure::Failure;
use crate::files::length;
use crate::files::outputs::expect;
use crate::files::protect::reads_as_master;
use crate::files::read::{read_with_room, Input};
use crate::files::target::Target;
use crate::progress::Progress;
use crate::records::kinds::MASTER;
use crate::report::notes;

/// Reads the first operand, a master, with room for so many new rows; with --new there is none to read.
pub fn read_master(
    arguments: &Arguments,
    new_rows: usize,
    progress: &Progress,
) -> Result<Input, Failure> {
    let path = arguments.path(0);
    // A file of a wrong length is lent as it is, so that the call refuses it.
    let room = |length: usize| match (length / ROW, length % ROW) {
        (rows, 0) => (rows + new_rows).min(MAX_ROWS) * ROW,
        _ => length,
    };
    if arguments.flag("--new") {
        return Input::none(path, &MASTER, room(0));
    }
    let master = read_with_room(path, &MASTER, Charset::Ebcdic, &room, progress)?;
    if master.length == 0 {
        expect(&Target::of(path)?, arguments)?;
    }
    Ok(master)
}

/// That the other file of a command looks like a master and MASTER doesn't: they may have been given in the wrong order.
pub fn swapped(master: &Input, other: &Input) -> Option<String> {
    let is_master = |input: &Input| reads_as_master(&input.bytes[..input.read], input.length);
    let is_swapped = master.length > 0 && !is_master(master) && is_master(other);
    is_swapped.then(|| {
        format!(
            "{} looks like a master, and {} doesn't: MASTER comes first",
            other.name(),
            master.name()
        )
    })
}

/// What is known of a master that was refused; none for other refusals.
pub fn notes_of(refusal: Refusal, master: &mut Input, full: bool) -> Vec<String> {
    let rows = master.records();
    match refusal {
        Refusal::WrongMaster => length::of_length(master),
        Refusal::UnsoundRow => notes::of_rows(master, rows, full),
        _ => Vec::new(),
    }
}
