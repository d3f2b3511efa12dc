//! The help of the program and of each command.

use fantanolive::VERSION;

use crate::failure::{Status, STATUSES};
use crate::syntax::{Command, Opt, COMMANDS, HELP};

const WIDTH: usize = 80;

/// `--name VALUE`, in brackets where it may be left out.
fn shown(option: &Opt) -> String {
    let text = match option.value {
        Some(value) => format!("{} {value}", option.name),
        None => option.name.to_string(),
    };
    if option.required {
        text
    } else {
        format!("[{text}]")
    }
}

/// `usage: fantanolive NAME OPERANDS OPTIONS`, broken at the width.
fn usage(command: &Command) -> String {
    let start = format!("usage: fantanolive {}", command.name);
    let indent = " ".repeat(start.len());
    let operands = command.operands.iter().map(|operand| operand.to_string());
    let mut text = start.clone();
    let mut length = start.len();
    for part in operands.chain(command.options.iter().map(shown)) {
        if length + 1 + part.len() > WIDTH {
            text += &format!("\n{indent}");
            length = indent.len();
        }
        length += 1 + part.len();
        text += &format!(" {part}");
    }
    text
}

/// The help of a command.
pub fn of_command(command: &Command) -> String {
    let mut text = format!("{}\n\n{}\n\n", usage(command), command.help);
    text += &statuses(|status| command.statuses.contains(&status));
    text += "\noptions:\n";
    for option in command.options.iter().chain([&HELP]) {
        let name = match option.value {
            Some(value) => format!("{} {value}", option.name),
            None => option.name.to_string(),
        };
        text += &format!("  {name:<18} {}\n", option.help);
    }
    text
}

/// The help of the program.
pub fn of_program() -> String {
    let mut text = String::from(
        "usage: fantanolive COMMAND ..\n\n\
         Keeps a state's copy of the federal offset case master: checks and applies\n\
         batches, posts collections, reconciles, and says what is wrong.\n\ncommands:\n",
    );
    for command in COMMANDS {
        text += &format!("  {:<10} {}\n", command.name, command.purpose);
    }
    text += "\n`fantanolive COMMAND --help` says more of a command; `fantanolive --version`\n\
             prints the version.\n\n\
             Files are in EBCDIC, without line ends; --ascii is for files in ASCII, but a\n\
             master and a table of contact records are always in EBCDIC. SSNs are printed\n\
             with their last four digits alone unless --full is given. - is standard input\n\
             or output in the place of any file but a master, or a table or journal that is\n\
             kept.\n\n";
    text += &statuses(|_| true);
    text
}

/// The name of a program and the version.
pub fn version(program: &str) -> String {
    format!("{program} {VERSION}\n")
}

/// The table of statuses, or those of a command.
fn statuses(is_shown: impl Fn(Status) -> bool) -> String {
    let mut text = String::from("Exit status:\n");
    for (status, words) in STATUSES.iter().filter(|(status, _)| is_shown(*status)) {
        text += &format!("  {}  {words}\n", *status as u8);
    }
    text
}
