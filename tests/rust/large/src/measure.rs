//! A run of the program: its status, time and memory.

use std::env;
use std::ffi::OsString;
use std::fs::File;
use std::path::Path;
use std::process::{Command, Stdio};
use std::time::Instant;

pub struct Measured {
    pub status: i32,
    pub seconds: f64,
    /// The most memory that it had at once, in bytes.
    pub memory: u64,
}

/// The structure rusage of 64-bit Linux: two times of two numbers, then fourteen numbers of which the first is the memory.
#[repr(C)]
#[derive(Default)]
struct Usage {
    times: [i64; 4],
    memory: i64,
    others: [i64; 13],
}

extern "C" {
    fn getrusage(who: i32, usage: *mut Usage) -> i32;
}

/// RUSAGE_CHILDREN of Linux: the children that were waited for.
const CHILDREN: i32 = -1;

/// The argument with which this program runs another and prints what it measured.
pub const SMALL: &str = "--measure";

/// Runs the program in a folder; what it prints goes to the file `report` there. The system counts the memory of the process
/// that starts another as the other's, so a small one starts it: this program without its files.
pub fn measure(program: &Path, arguments: &[String], folder: &Path) -> Measured {
    let output = Command::new(env::current_exe().expect("it has a name"))
        .arg(SMALL)
        .arg(program)
        .args(arguments)
        .current_dir(folder)
        .output()
        .expect("the program can be run");
    let text = String::from_utf8(output.stdout).expect("it prints text");
    let numbers: Vec<&str> = text.split_whitespace().collect();
    let [status, seconds, memory] = numbers[..] else {
        panic!("not measured: {arguments:?}");
    };
    Measured {
        status: status.parse().expect("a number"),
        seconds: seconds.parse().expect("a number"),
        memory: memory.parse().expect("a number"),
    }
}

/// Runs the program of the arguments in the present folder and prints its status, time and memory.
pub fn measure_here(arguments: &[OsString]) {
    let report = File::create("report").expect("the folder takes files");
    let start = Instant::now();
    let mut child = Command::new(&arguments[0])
        .args(&arguments[1..])
        .stdin(Stdio::null())
        .stdout(report)
        .spawn()
        .expect("the program can be run");
    let mut usage = Usage::default();
    let status = child.wait().expect("it ends").code();
    let seconds = start.elapsed().as_secs_f64();
    // SAFETY: the structure is the one that the call fills in on 64-bit Linux, exclusively borrowed.
    let answer = unsafe { getrusage(CHILDREN, &mut usage) };
    assert_eq!(answer, 0, "the usage of children is known");
    let status = status.expect("no signal ended it");
    println!("{status} {seconds} {}", usage.memory * 1024);
}
