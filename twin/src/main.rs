//! The command line of the twin.

use std::process::ExitCode;

use twin::command_line::commands::{obey, USAGE};

fn main() -> ExitCode {
    let words: Vec<String> = std::env::args().skip(1).collect();
    match obey(&words) {
        Ok(true) => ExitCode::SUCCESS,
        Ok(false) => ExitCode::FAILURE,
        Err(message) => {
            eprint!("twin: {message}\n{}", if words.is_empty() { USAGE } else { "" });
            ExitCode::FAILURE
        }
    }
}
