//! What both programs do: the command line is read, the command run, and its status is the program's.

use std::env;
use std::ffi::OsString;
use std::io::{self, Write};
use std::panic::{self, UnwindSafe};
use std::process::ExitCode;

use crate::arguments::{asks_for_full, asks_for_json, parse, Arguments, Parsed};
use crate::failure::{Failure, Status};
use crate::files::leftovers;
use crate::files::replace::has_changed;
use crate::help;
use crate::progress::Progress;
use crate::report::problem::{self, Form};
use crate::syntax::Run;

/// The program fantanolive: every command, by its name.
pub fn all_commands() -> ExitCode {
    let list: Vec<OsString> = env::args_os().skip(1).collect();
    ended(|| answer(list, None))
}

/// A program of one command, which it runs by a function of its own. It takes what stands behind the command's name.
pub fn one_command(name: &'static str, run: Run) -> ExitCode {
    let first = env::args_os().nth(1);
    if first.is_some_and(|first| first == "--version" || first == "-V") {
        return ended(|| say(&help::version(&format!("fantanolive-{name}"))));
    }
    let behind = env::args_os().skip(1);
    let list: Vec<OsString> = [name.into()].into_iter().chain(behind).collect();
    ended(|| answer(list, Some(run)))
}

/// The status as the system takes it; a fault of the program itself ends with a status of its own too.
fn ended(answer: impl FnOnce() -> Status + UnwindSafe) -> ExitCode {
    panic::set_hook(Box::new(|_| {}));
    let status = panic::catch_unwind(answer).unwrap_or_else(|_| fault());
    ExitCode::from(status as u8)
}

/// Does what a command line asks for; its command is run by the function given, or by the one of the table.
fn answer(list: Vec<OsString>, own: Option<Run>) -> Status {
    let form = Form {
        as_json: asks_for_json(&list),
        full: asks_for_full(&list),
        ..Form::default()
    };
    match parse(list) {
        Ok(Parsed::Run(arguments)) => run(&arguments, own.unwrap_or(arguments.command.run)),
        Ok(Parsed::Help(None)) => say(&help::of_program()),
        Ok(Parsed::Help(Some(command))) => say(&help::of_command(command)),
        Ok(Parsed::Version) => say(&help::version("fantanolive")),
        Err(failure) => complain(&failure, form),
    }
}

/// A fault of the program itself.
fn fault() -> Status {
    let files = match has_changed() {
        true => "the files are as the command leaves them: don't run it again",
        false => "no file is changed",
    };
    let _ = writeln!(io::stderr(), "fantanolive: a fault of the program; {files}");
    Status::of_lost_report(has_changed())
}

fn run(arguments: &Arguments, command: Run) -> Status {
    leftovers::watch();
    let progress = Progress::start();
    let result = command(arguments, &progress);
    drop(progress);
    match result {
        Ok(status) => status,
        Err(failure) => {
            let is_lost = matches!(failure, Failure::Output { .. });
            let form = Form {
                as_json: arguments.flag("--json") && !is_lost,
                full: arguments.flag("--full"),
                to_error: arguments.prints_file(),
                ascii: arguments.flag("--ascii"),
                lines: arguments.flag("--lines"),
            };
            complain_of(arguments.command.name, &failure, form)
        }
    }
}

/// Prints a text on standard output.
fn say(text: &str) -> Status {
    let mut out = io::stdout().lock();
    match out.write_all(text.as_bytes()).and_then(|()| out.flush()) {
        Err(error) if error.kind() != io::ErrorKind::BrokenPipe => {
            let lost = Failure::Output {
                error,
                changed: false,
            };
            complain_of("", &lost, Form::default())
        }
        _ => Status::Done,
    }
}

/// A command line that can't be taken.
fn complain(failure: &Failure, form: Form) -> Status {
    let command = match failure {
        Failure::Argument { command, .. } => *command,
        _ => None,
    };
    complain_of(command.unwrap_or(""), failure, form)
}

/// Says what is wrong with the run of a command.
fn complain_of(command: &str, failure: &Failure, form: Form) -> Status {
    problem::print(command, failure, form);
    if !form.as_json {
        point_to_help(failure);
    }
    failure.status()
}

/// Names the help that says more of a wrong argument.
fn point_to_help(failure: &Failure) {
    if let Failure::Argument { command, .. } = failure {
        let command = command.map_or(String::new(), |name| format!("{name} "));
        let _ = writeln!(io::stderr(), "See `fantanolive {command}--help`.");
    }
}
