//! fantanolive: the calls of the Fantanolive library over whole files.

use std::process::ExitCode;

fn main() -> ExitCode {
    fantanolive_program::all_commands()
}
