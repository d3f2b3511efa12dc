//! The list of local codes of a command that may go without one.

use std::path::Path;

use crate::arguments::Arguments;
use crate::code_page::Charset;
use crate::failure::Failure;
use crate::files::read::{read, Input};
use crate::progress::Progress;
use crate::records::kinds::LOCALS;

/// The inputs of a command with its list, where one is given.
pub fn with_list<'a>(arguments: &'a Arguments, inputs: &[&'a Path]) -> Vec<&'a Path> {
    let list = arguments.value("--locals").map(Path::new);
    inputs.iter().copied().chain(list).collect()
}

/// Reads the list; without one it is empty.
pub fn read_list(
    arguments: &Arguments,
    charset: Charset,
    progress: &Progress,
) -> Result<Input, Failure> {
    match arguments.value("--locals") {
        Some(path) => read(Path::new(path), &LOCALS, charset, progress)?.into_ebcdic(),
        None => Input::none(Path::new(""), &LOCALS, 0),
    }
}
