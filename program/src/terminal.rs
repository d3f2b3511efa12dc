//! The terminal: whether there is one, how wide it is, whether it gets colours.

use std::env;
use std::ffi::{c_int, c_ulong};
use std::io::{self, IsTerminal};
use std::os::fd::{AsRawFd, RawFd};

#[repr(C)]
#[derive(Default)]
struct Size {
    rows: u16,
    columns: u16,
    width: u16,
    height: u16,
}

extern "C" {
    fn ioctl(fd: c_int, request: c_ulong, ...) -> c_int;
}

/// The request for the size of a terminal (TIOCGWINSZ of Linux).
const GET_SIZE: c_ulong = 0x5413;

/// How wide a terminal is where it does not say.
const USUAL: usize = 80;

fn asked(fd: RawFd) -> Option<usize> {
    let mut size = Size::default();
    // SAFETY: with this request the system writes one structure of four 16-bit numbers, which is exclusively borrowed here.
    let answer = unsafe { ioctl(fd, GET_SIZE, &raw mut size) };
    (answer == 0 && size.columns > 0).then(|| usize::from(size.columns))
}

fn of_variable() -> Option<usize> {
    let columns = env::var("COLUMNS").ok()?.parse().ok()?;
    (columns > 0).then_some(columns)
}

/// The width of a terminal; none where the stream is none.
fn width(stream: &(impl IsTerminal + AsRawFd)) -> Option<usize> {
    let terminal = stream.is_terminal();
    terminal.then(|| {
        asked(stream.as_raw_fd())
            .or_else(of_variable)
            .unwrap_or(USUAL)
    })
}

/// The width of standard output, none where it is no terminal.
pub fn output_width() -> Option<usize> {
    width(&io::stdout())
}

/// The width of standard error, none where it is no terminal.
pub fn error_width() -> Option<usize> {
    width(&io::stderr())
}

/// Whether a terminal gets colours: not with NO_COLOR, nor where it is a dumb one.
pub fn takes_colours() -> bool {
    let refused = env::var_os("NO_COLOR").is_some_and(|value| !value.is_empty());
    let dumb = env::var_os("TERM").is_none_or(|name| name == "dumb");
    !refused && !dumb
}
