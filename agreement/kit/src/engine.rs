//! Engines: functions of this process, a shared library in a process of its own, or a program that speaks the line protocol.

use std::ffi::OsString;
use std::io;
use std::os::fd::{AsRawFd, RawFd};
use std::os::unix::process::ExitStatusExt;
use std::path::{Path, PathBuf};
use std::process::{Child, Command, Stdio};
use std::time::{Duration, Instant};

use crate::calls::{CALLS, OWN};
use crate::case::{Answered, Case};
use crate::frame;
use crate::lent::{Memory, Side};
use crate::limits;
use crate::protocol;
use crate::serve;
use crate::system;

pub trait Engine {
    fn has(&self, call: usize) -> bool;
    fn run(&mut self, case: &Case) -> Answered;

    /// One of the limits, by its place; none where the engine can't be lent so much. Err says why it came to no answer.
    fn run_limit(&mut self, place: usize) -> Option<Result<limits::Outcome, String>>;
}

/// Both sides in turn.
fn side_of(turn: u64) -> Side {
    match turn % 2 {
        0 => Side::Behind,
        _ => Side::Before,
    }
}

/// The calls of this process, in the order of `CALLS`.
pub struct Linked {
    functions: Vec<*const ()>,
    memory: Memory,
    turn: u64,
}

impl Linked {
    /// The calls by their names, in the order of `CALLS`.
    ///
    /// # Safety
    /// Each must be the call of its name, with the interface of `fantanolive.h`.
    pub unsafe fn new(calls: &[(&str, *const ())]) -> Linked {
        let names = calls.iter().map(|(name, _)| *name);
        assert!(names.eq(CALLS[..OWN].iter().map(|call| call.name)));
        Linked {
            functions: calls.iter().map(|(_, function)| *function).collect(),
            memory: Memory::default(),
            turn: 0,
        }
    }
}

impl Engine for Linked {
    fn has(&self, _: usize) -> bool {
        true
    }

    fn run(&mut self, case: &Case) -> Answered {
        self.turn += 1;
        let function = self.functions[case.call];
        // SAFETY: what `new` asks for.
        let ran = unsafe { self.memory.run(function, case, side_of(self.turn)) };
        match ran {
            Ok(outcome) => Answered::Outcome(outcome),
            Err(name) => Answered::Failed(frame::outside(name)),
        }
    }

    fn run_limit(&mut self, place: usize) -> Option<Result<limits::Outcome, String>> {
        let limit = &limits::limits()[place];
        // SAFETY: what `new` asks for.
        Some(Ok(unsafe {
            limits::run(self.functions[limit.call], limit)
        }))
    }
}

/// What is said of an engine that takes longer than it may.
pub const NO_ANSWER: &str = "it gave no answer in the time limit";
/// How long an engine may take for a limit.
const LIMIT_TIME: Duration = Duration::from_secs(600);

/// How a process is spoken to.
enum Speech {
    Frames,
    Lines,
}

/// An engine in a process of its own, which is started again where it ends.
pub struct Remote {
    command: PathBuf,
    arguments: Vec<OsString>,
    variables: Vec<(&'static str, OsString)>,
    speech: Speech,
    limit: Duration,
    calls: Vec<usize>,
    process: Option<Process>,
    turn: u64,
}

struct Process {
    child: Child,
    input: RawFd,
    output: RawFd,
    /// Read and not taken yet.
    buffered: Vec<u8>,
}

impl Drop for Process {
    fn drop(&mut self) {
        let _ = self.child.kill();
        let _ = self.child.wait();
    }
}

impl Remote {
    /// A shared library, held by another process of this program, which calls `serve::serve`.
    pub fn library(path: &Path, prefix: &str, limit: Duration) -> Result<Remote, String> {
        let program = std::env::current_exe().map_err(|error| error.to_string())?;
        let path = std::path::absolute(path).map_err(|error| error.to_string())?;
        let variables = vec![
            (serve::LIBRARY, path.into_os_string()),
            (serve::PREFIX, prefix.into()),
        ];
        let arguments = vec!["-".into()];
        Remote::start(program, arguments, variables, Speech::Frames, limit)
    }

    /// A program that speaks the line protocol.
    pub fn program(path: &Path, limit: Duration) -> Result<Remote, String> {
        let path = std::path::absolute(path).map_err(|error| error.to_string())?;
        Remote::start(path, Vec::new(), Vec::new(), Speech::Lines, limit)
    }

    fn start(
        command: PathBuf,
        arguments: Vec<OsString>,
        variables: Vec<(&'static str, OsString)>,
        speech: Speech,
        limit: Duration,
    ) -> Result<Remote, String> {
        let mut remote = Remote {
            command,
            arguments,
            variables,
            speech,
            limit,
            calls: Vec::new(),
            process: None,
            turn: 0,
        };
        let mut process = remote.spawn()?;
        remote.calls = remote.ask_calls(&mut process)?;
        remote.process = Some(process);
        Ok(remote)
    }

    pub fn calls(&self) -> &[usize] {
        &self.calls
    }

    fn spawn(&self) -> Result<Process, String> {
        let mut child = Command::new(&self.command)
            .args(&self.arguments)
            .envs(self.variables.iter().map(|(name, value)| (name, value)))
            .stdin(Stdio::piped())
            .stdout(Stdio::piped())
            .stderr(Stdio::null())
            .spawn()
            .map_err(|error| self.unstarted(&error))?;
        let input = child.stdin.as_ref().map(AsRawFd::as_raw_fd);
        let output = child.stdout.as_ref().map(AsRawFd::as_raw_fd);
        let (Some(input), Some(output)) = (input, output) else {
            let _ = child.kill();
            return Err("it has no pipes".to_string());
        };
        system::set_non_blocking(input);
        system::set_non_blocking(output);
        Ok(Process {
            child,
            input,
            output,
            buffered: Vec::new(),
        })
    }

    /// Why no process came of it. The name decided already that it is no shared library.
    fn unstarted(&self, error: &io::Error) -> String {
        const NO_PROGRAM: i32 = 8;
        let is_program = !matches!(
            (error.kind(), error.raw_os_error()),
            (io::ErrorKind::PermissionDenied, _) | (_, Some(NO_PROGRAM))
        );
        match (&self.speech, error.kind()) {
            (Speech::Lines, _) if !is_program => {
                "it is neither a shared library (by its name, *.so) nor a program that may be run"
                    .to_string()
            }
            (Speech::Lines, io::ErrorKind::NotFound) => {
                "it can't be started: the program named in its first line isn't there".to_string()
            }
            _ => format!("it can't be started: {error}"),
        }
    }

    fn ask_calls(&self, process: &mut Process) -> Result<Vec<usize>, String> {
        let deadline = Instant::now() + self.limit;
        if matches!(self.speech, Speech::Lines) {
            let asked =
                system::write_until(process.input, protocol::ASK_CALLS.as_bytes(), deadline);
            asked.map_err(|error| process.words(&error))?;
        }
        let line = process.line(deadline);
        let line = line.map_err(|error| process.words(&error))?;
        let calls = protocol::calls_in(&line);
        calls.ok_or_else(|| match line.strip_prefix("error ") {
            Some(error) => error.trim_end().to_string(),
            None => format!("it doesn't name its calls, but says '{}'", line.trim_end()),
        })
    }

    /// One case on a process that runs; Err is what became of the process.
    fn ask(&self, process: &mut Process, case: &Case) -> Result<Answered, String> {
        let deadline = Instant::now() + self.limit;
        let sent = match self.speech {
            Speech::Frames => frame::of_case(case, side_of(self.turn)),
            Speech::Lines => protocol::of_case(case).into_bytes(),
        };
        let said = system::write_until(process.input, &sent, deadline);
        said.map_err(|error| process.words(&error))?;
        match self.speech {
            Speech::Frames => {
                let bytes = process.frame(deadline);
                let bytes = bytes.map_err(|error| process.words(&error))?;
                let answered = frame::answered_in(&bytes, case);
                answered.ok_or_else(|| "it answered bytes of another form".to_string())
            }
            Speech::Lines => {
                let lines = process.lines(deadline);
                let lines = lines.map_err(|error| process.words(&error))?;
                protocol::answered_in(&lines, case)
                    .map_err(|what| format!("it answered lines of another form: {what}"))
            }
        }
    }
}

impl Engine for Remote {
    fn has(&self, call: usize) -> bool {
        self.calls.contains(&call)
    }

    fn run(&mut self, case: &Case) -> Answered {
        self.turn += 1;
        let mut process = match self.process.take() {
            Some(process) => process,
            None => {
                let started = self.spawn().and_then(|mut process| {
                    self.ask_calls(&mut process)?;
                    Ok(process)
                });
                match started {
                    Ok(process) => process,
                    Err(error) => return Answered::Failed(error),
                }
            }
        };
        match self.ask(&mut process, case) {
            Ok(answered) => {
                self.process = Some(process);
                answered
            }
            Err(words) => Answered::Failed(words),
        }
    }

    fn run_limit(&mut self, place: usize) -> Option<Result<limits::Outcome, String>> {
        if matches!(self.speech, Speech::Lines) {
            return None;
        }
        // a process of its own, which gives the memory back
        let answered = self.spawn().and_then(|mut process| {
            self.ask_calls(&mut process)?;
            let deadline = Instant::now() + LIMIT_TIME;
            let sent = system::write_until(process.input, &frame::of_limit(place), deadline);
            sent.map_err(|error| process.words(&error))?;
            let bytes = process
                .frame(deadline)
                .map_err(|error| process.words(&error))?;
            let outcome = frame::limit_outcome_in(&bytes);
            outcome.ok_or_else(|| "it answered bytes of another form".to_string())
        });
        Some(answered)
    }
}

impl Process {
    /// What an error of its pipes means.
    fn words(&mut self, error: &io::Error) -> String {
        if error.kind() == io::ErrorKind::TimedOut {
            return NO_ANSWER.to_string();
        }
        // its pipes close before its end is known
        for _ in 0..100 {
            match self.child.try_wait() {
                Ok(Some(status)) => {
                    return match (status.signal(), status.code()) {
                        (Some(signal), _) => format!("it crashed ({})", signal_name(signal)),
                        (_, Some(code)) => format!("it ended with status {code}"),
                        _ => "it ended".to_string(),
                    }
                }
                Ok(None) => std::thread::sleep(Duration::from_millis(5)),
                Err(_) => break,
            }
        }
        "it closed its pipe".to_string()
    }

    fn more(&mut self, deadline: Instant) -> io::Result<()> {
        let mut bytes = [0; 65536];
        match system::read_until(self.output, &mut bytes, deadline)? {
            0 => Err(io::ErrorKind::UnexpectedEof.into()),
            count => {
                self.buffered.extend(&bytes[..count]);
                Ok(())
            }
        }
    }

    fn frame(&mut self, deadline: Instant) -> io::Result<Vec<u8>> {
        while self.buffered.len() < frame::LENGTH {
            self.more(deadline)?;
        }
        let mut length = [0; frame::LENGTH];
        length.copy_from_slice(&self.buffered[..frame::LENGTH]);
        let end = frame::LENGTH + u64::from_le_bytes(length) as usize;
        while self.buffered.len() < end {
            self.more(deadline)?;
        }
        let rest = self.buffered.split_off(end);
        let whole = std::mem::replace(&mut self.buffered, rest);
        Ok(whole[frame::LENGTH..].to_vec())
    }

    fn line(&mut self, deadline: Instant) -> io::Result<String> {
        let mut looked_at = 0;
        loop {
            let end = self.buffered[looked_at..].iter().position(|&b| b == b'\n');
            if let Some(end) = end {
                let rest = self.buffered.split_off(looked_at + end + 1);
                let line = std::mem::replace(&mut self.buffered, rest);
                return Ok(String::from_utf8_lossy(&line).trim_end().to_string());
            }
            looked_at = self.buffered.len();
            self.more(deadline)?;
        }
    }

    /// The lines before `done`.
    fn lines(&mut self, deadline: Instant) -> io::Result<Vec<String>> {
        let mut lines = Vec::new();
        loop {
            let line = self.line(deadline)?;
            if line == "done" {
                return Ok(lines);
            }
            lines.push(line);
        }
    }
}

fn signal_name(signal: i32) -> String {
    let name = match signal {
        4 => "SIGILL",
        6 => "SIGABRT",
        7 => "SIGBUS",
        8 => "SIGFPE",
        9 => "SIGKILL",
        11 => "SIGSEGV: it read or wrote outside what was lent",
        _ => return format!("signal {signal}"),
    };
    name.to_string()
}
