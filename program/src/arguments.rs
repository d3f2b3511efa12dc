//! The command line, read by the table of commands.

use std::ffi::{OsStr, OsString};
use std::os::unix::ffi::OsStrExt;
use std::path::Path;

use crate::code_page::Charset;
use crate::failure::{Failure, STANDARD};
use crate::nearest::nearest;
use crate::syntax::{command, Command, COMMANDS, FULL, HELP, JSON};

/// A command with what was given to it.
pub struct Arguments {
    pub command: &'static Command,
    operands: Vec<OsString>,
    options: Vec<(&'static str, OsString)>,
}

pub enum Parsed {
    Run(Arguments),
    /// The help of a command, or that of the program.
    Help(Option<&'static Command>),
    Version,
}

impl Arguments {
    /// An operand by its number; all are there.
    pub fn operand(&self, number: usize) -> &OsStr {
        &self.operands[number]
    }

    pub fn path(&self, number: usize) -> &Path {
        Path::new(self.operand(number))
    }

    /// The operands from a number on.
    pub fn operands_from(&self, number: usize) -> &[OsString] {
        &self.operands[number..]
    }

    /// All operands, where all are files.
    pub fn paths(&self) -> Vec<&Path> {
        self.operands.iter().map(Path::new).collect()
    }

    pub fn value(&self, name: &str) -> Option<&OsStr> {
        let given = self.options.iter().find(|(option, _)| *option == name);
        given.map(|(_, value)| value.as_os_str())
    }

    /// The value of an option that must be given.
    pub fn needed(&self, name: &str) -> &OsStr {
        self.value(name).expect("parse asks for it")
    }

    /// The state that --state gives; its letters may be lower case.
    pub fn state(&self) -> Option<String> {
        let given = self.value("--state")?;
        Some(given.to_string_lossy().to_uppercase())
    }

    pub fn flag(&self, name: &str) -> bool {
        self.value(name).is_some()
    }

    /// Whether a file is written to standard output, so that the report goes to standard error.
    pub fn prints_file(&self) -> bool {
        let made = self.command.made.iter();
        let mut places = made.filter_map(|option| self.value(option));
        places.any(|place| place == STANDARD)
    }

    /// The mode that --mode gives new files.
    pub fn mode(&self) -> Result<Option<u32>, Failure> {
        let Some(value) = self.value("--mode") else {
            return Ok(None);
        };
        let text = value.to_str().filter(|text| text.len() == 3);
        match text.and_then(|text| u32::from_str_radix(text, 8).ok()) {
            Some(mode) => Ok(Some(mode)),
            None => Err(self.wrong(format!(
                "--mode wants three octal digits such as 640, not '{}'",
                value.to_string_lossy()
            ))),
        }
    }

    /// What the files are in that --ascii and --lines concern.
    pub fn charset(&self) -> Charset {
        match (self.flag("--lines"), self.flag("--ascii")) {
            (true, _) => Charset::Lines,
            (_, true) => Charset::Ascii,
            _ => Charset::Ebcdic,
        }
    }

    /// A message on an argument of this command.
    pub fn wrong(&self, message: impl Into<String>) -> Failure {
        wrong(Some(self.command), message)
    }

    /// The number that an option gives.
    pub fn number(&self, name: &str) -> Result<Option<u64>, Failure> {
        let Some(value) = self.value(name) else {
            return Ok(None);
        };
        match value.to_str().and_then(number_of) {
            Some(number) => Ok(Some(number)),
            None => Err(self.wrong(format!(
                "{name} wants a number, not '{}'",
                value.to_string_lossy()
            ))),
        }
    }

    /// The numbers that an option gives, with commas between them.
    pub fn numbers(&self, name: &str) -> Result<Option<Vec<u64>>, Failure> {
        let Some(value) = self.value(name) else {
            return Ok(None);
        };
        let list = value.to_str().map(|text| text.split(',').map(number_of));
        match list.and_then(Iterator::collect) {
            Some(numbers) => Ok(Some(numbers)),
            None => Err(self.wrong(format!(
                "{name} wants numbers with commas between them, not '{}'",
                value.to_string_lossy()
            ))),
        }
    }
}

/// The number that digits are.
fn number_of(text: &str) -> Option<u64> {
    let is_number = !text.is_empty() && text.len() < 19 && text.bytes().all(|b| b.is_ascii_digit());
    text.parse().ok().filter(|_| is_number)
}

fn wrong(command: Option<&'static Command>, message: impl Into<String>) -> Failure {
    Failure::Argument {
        message: message.into(),
        command: command.map(|command| command.name),
    }
}

/// `unknown WHAT 'GIVEN'`, and what may have been meant.
fn unknown(what: &str, given: &str, names: &mut dyn Iterator<Item = &'static str>) -> String {
    match nearest(given, names) {
        Some(name) => format!("unknown {what} '{given}'; did you mean '{name}'?"),
        None => format!("unknown {what} '{given}'"),
    }
}

pub fn parse(list: Vec<OsString>) -> Result<Parsed, Failure> {
    let mut rest = list.into_iter();
    let Some(first) = rest.next() else {
        return Err(wrong(None, "no command is given"));
    };
    match first.to_str() {
        Some("--help" | "-h") => return Ok(Parsed::Help(None)),
        Some("--version" | "-V") => return Ok(Parsed::Version),
        Some("help") => return help(rest.next()),
        _ => {}
    }
    let command = named(&first)?;
    let rest: Vec<OsString> = rest.collect();
    if asks_for_help(&rest) {
        return Ok(Parsed::Help(Some(command)));
    }
    let arguments = gather(command, rest)?;
    complete(&arguments)?;
    Ok(Parsed::Run(arguments))
}

/// The command of a name.
fn named(name: &OsStr) -> Result<&'static Command, Failure> {
    let shown = name.to_string_lossy();
    command(&shown).ok_or_else(|| {
        let mut names = COMMANDS.iter().map(|command| command.name);
        wrong(None, unknown("command", &shown, &mut names))
    })
}

fn help(name: Option<OsString>) -> Result<Parsed, Failure> {
    match name {
        None => Ok(Parsed::Help(None)),
        Some(name) => Ok(Parsed::Help(Some(named(&name)?))),
    }
}

/// The arguments before a `--`.
fn before_dashes(list: &[OsString]) -> impl Iterator<Item = &OsString> {
    list.iter().take_while(|argument| *argument != "--")
}

/// Whether --help stands before a `--`.
fn asks_for_help(list: &[OsString]) -> bool {
    before_dashes(list).any(|a| a == HELP.name || a == "-h")
}

/// Whether --full stands before a `--`.
pub fn asks_for_full(list: &[OsString]) -> bool {
    before_dashes(list).any(|a| a == FULL.name)
}

/// Whether --json stands before a `--`, so that a command line that can't be taken is told in JSON too.
pub fn asks_for_json(list: &[OsString]) -> bool {
    before_dashes(list).any(|a| a == JSON.name)
}

/// Tells operands from options; `--` ends the options.
fn gather(command: &'static Command, list: Vec<OsString>) -> Result<Arguments, Failure> {
    let mut arguments = Arguments {
        command,
        operands: Vec::new(),
        options: Vec::new(),
    };
    let mut rest = list.into_iter();
    while let Some(argument) = rest.next() {
        if argument == "--" {
            arguments.operands.extend(rest);
            break;
        }
        if argument.len() > 1 && argument.as_bytes().starts_with(b"-") {
            take_option(&mut arguments, &argument, &mut rest)?;
        } else {
            arguments.operands.push(argument);
        }
    }
    Ok(arguments)
}

/// Takes `--name VALUE`, `--name=VALUE` or a flag.
fn take_option(
    arguments: &mut Arguments,
    argument: &OsStr,
    rest: &mut dyn Iterator<Item = OsString>,
) -> Result<(), Failure> {
    let bytes = argument.as_bytes();
    let (name, joined) = match bytes.iter().position(|&byte| byte == b'=') {
        Some(at) => (&bytes[..at], Some(OsStr::from_bytes(&bytes[at + 1..]))),
        None => (bytes, None),
    };
    let name = &*String::from_utf8_lossy(name);
    let command = arguments.command;
    let option = command.option(name).ok_or_else(|| {
        let mut names = command.options.iter().map(|option| option.name);
        wrong(Some(command), unknown("option", name, &mut names))
    })?;
    let value = match (option.value, joined) {
        (None, None) => OsString::new(),
        (None, Some(_)) => return Err(arguments.wrong(format!("{name} takes no value"))),
        (Some(_), Some(value)) => OsString::from(value),
        (Some(value), None) => value_behind(arguments, name, value, rest.next())?,
    };
    if arguments.value(option.name).is_some() {
        return Err(arguments.wrong(format!("{name} is given twice")));
    }
    arguments.options.push((option.name, value));
    Ok(())
}

/// The value that stands behind an option. What begins as options do is none: the value was forgotten.
fn value_behind(
    arguments: &Arguments,
    name: &str,
    value: &str,
    given: Option<OsString>,
) -> Result<OsString, Failure> {
    let Some(given) = given else {
        return Err(arguments.wrong(format!("{name} wants a value: {name} {value}")));
    };
    if !given.as_bytes().starts_with(b"--") {
        return Ok(given);
    }
    let wanted = match value {
        "FILE" | "PREFIX" => "a file's name".to_string(),
        value => format!("a value, {name} {value}"),
    };
    let given = given.to_string_lossy();
    let option = given.split('=').next().unwrap_or_default();
    Err(arguments.wrong(match arguments.command.option(option) {
        Some(_) => format!("{name} wants {wanted}, and {option} is an option"),
        None => {
            format!("{name} wants {wanted}; one that begins with -- is given as {name}={given}")
        }
    }))
}

/// Sees that every operand and every option that is needed is there.
fn complete(arguments: &Arguments) -> Result<(), Failure> {
    let (command, given) = (arguments.command, arguments.operands.len());
    if let Some(name) = command.needed_operands().get(given) {
        return Err(arguments.wrong(format!("{name} is missing")));
    }
    let extra = arguments.operands.get(command.operands.len());
    if let Some(extra) = extra.filter(|_| !command.takes_several()) {
        let shown = extra.to_string_lossy();
        return Err(arguments.wrong(format!("'{shown}' is one argument too many")));
    }
    see_standard(arguments)?;
    for option in command.options.iter().filter(|option| option.required) {
        if arguments.value(option.name).is_none() {
            let value = option.value.unwrap_or("");
            return Err(arguments.wrong(format!("{} {value} is missing", option.name)));
        }
    }
    Ok(())
}

/// Sees that no master or table is to come from standard input, and no two inputs.
fn see_standard(arguments: &Arguments) -> Result<(), Failure> {
    let command = arguments.command;
    let is_standard = |place: &&OsString| **place == STANDARD;
    let named = |(number, given)| (command.operand(number).unwrap_or_default(), given);
    let operands = arguments.operands.iter().enumerate().map(named);
    let options = arguments.options.iter().map(|(name, given)| (*name, given));
    let all = operands.clone().chain(options);
    for (name, _) in all.clone().filter(|(_, given)| is_standard(given)) {
        if command.kept.contains(&name) {
            let what = format!("{name} can't be -: it is no file to be read or written once");
            return Err(arguments.wrong(what));
        }
    }
    let made =
        |(name, given): &(&str, &OsString)| command.made.contains(name) && *given == STANDARD;
    if all.filter(made).count() > 1 {
        return Err(arguments.wrong("- is standard output, and can be one of the files made alone"));
    }
    let of_operands = operands.map(|(_, given)| given);
    let reads = |(name, _): &&(&str, OsString)| command.read.contains(name);
    let of_options = arguments
        .options
        .iter()
        .filter(reads)
        .map(|(_, given)| given);
    if of_operands.chain(of_options).filter(is_standard).count() > 1 {
        return Err(arguments.wrong("- is standard input, and can be one of the inputs alone"));
    }
    Ok(())
}
