//! What the programs `fantanolive` and `fantanolive-agree` are made of: the calls of the Fantanolive library over whole files.
//!
//! Nothing is judged here: the commands read files, call the library, replace files and print what the call answered.

mod arguments;
mod code_page;
mod commands;
mod failure;
mod files;
mod help;
mod log;
mod mask;
mod memory;
mod nearest;
mod number;
mod progress;
mod quote;
mod records;
mod report;
mod start;
mod syntax;
mod system;
mod terminal;

pub use start::{all_commands, one_command};

// what a program of one command takes beside that
pub use arguments::Arguments;
pub use failure::{counted, grouped, words, Failure, Status};
pub use progress::Progress;
pub use report::json::Json;
pub use report::screen::{report_output, Screen, Style};
