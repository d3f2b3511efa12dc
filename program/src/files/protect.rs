//! Files that no output may take the place of, whatever their names: masters, tables of contact records and logs. Whether a
//! file is one is asked of the library, over its front.

use std::fs::File;
use std::io::{self, Read};

use fantanolive::{add_cents, contacts_codes, find, Refusal, CONTACT, MAX_ROWS, ROW};

use crate::failure::Failure;
use crate::files::read::unread;
use crate::files::target::Target;
use crate::log::line;
use crate::records::kinds::TABLE;

/// The most bytes that a master or a table has.
const LONGEST: usize = if MAX_ROWS * ROW > TABLE.most * CONTACT {
    MAX_ROWS * ROW
} else {
    TABLE.most * CONTACT
};

/// How much of a file is looked at: whole rows, and whole contact records.
const FRONT: usize = 500 * (ROW * CONTACT / 20);

/// Whether the library takes bytes as the rows of a master, from before the cents too.
pub fn is_master(bytes: &[u8]) -> bool {
    let rows = bytes.len() / ROW;
    let refused = [Refusal::WrongMaster, Refusal::UnsoundRow];
    let is_sound =
        |answer: Result<u64, Refusal>| answer.err().is_none_or(|r| !refused.contains(&r));
    bytes.len() % ROW == 0
        && (is_sound(find(bytes, rows, &[])) || add_cents(&mut bytes.to_vec(), rows).is_ok())
}

fn is_table(bytes: &[u8]) -> bool {
    let answer = contacts_codes(bytes, bytes.len() / CONTACT, &[], &mut []);
    bytes.len() % CONTACT == 0 && answer != Err(Refusal::WrongContacts)
}

/// What a file of a length is, by its front, that must not be replaced by another kind.
fn protected(front: &[u8], length: u64) -> Option<&'static str> {
    let has_whole = |width: usize| length.is_multiple_of(width as u64);
    if front.is_empty() {
        return None;
    }
    if has_whole(ROW) && is_master(front) {
        return Some("a master");
    }
    if has_whole(CONTACT) && is_table(front) {
        return Some("a table of contact records");
    }
    line::is_log(front).then_some("a log of runs")
}

/// The length of a file, and its front.
fn front_of(target: &Target) -> io::Result<(u64, Vec<u8>)> {
    let file = File::open(&target.path)?;
    let length = file.metadata()?.len();
    let mut front = Vec::new();
    file.take(FRONT as u64).read_to_end(&mut front)?;
    Ok((length, front))
}

/// Whether what was read of a file is a master by its length and its front.
pub fn reads_as_master(bytes: &[u8], length: u64) -> bool {
    let front = &bytes[..bytes.len().min(FRONT)];
    length > 0 && length.is_multiple_of(ROW as u64) && is_master(&front[..front.len() / ROW * ROW])
}

/// Whether a file is a master by its length and its front; one without a row may become one.
pub fn looks_like_master(target: &Target) -> Result<bool, Failure> {
    let read = front_of(target).map_err(|error| unread(&target.given, &error));
    let (length, front) = read?;
    Ok(length.is_multiple_of(ROW as u64) && (front.is_empty() || is_master(&front)))
}

/// Sees that a file to be made is not there, or with --force that it is nothing that is kept.
pub fn may_be_made(target: &Target, force: bool) -> Result<(), Failure> {
    if !target.exists() {
        return Ok(());
    }
    if !force {
        let what = "is there already; --force replaces it";
        return Err(Failure::file(&target.given, what));
    }
    let read = front_of(target).map_err(|error| unread(&target.given, &error));
    let (length, front) = read?;
    match protected(&front, length).filter(|_| length <= LONGEST as u64) {
        None => Ok(()),
        Some(kind) => {
            let what = format!("looks like {kind}, which --force doesn't replace; name another file, or move this one away");
            Err(Failure::file(&target.given, what))
        }
    }
}
