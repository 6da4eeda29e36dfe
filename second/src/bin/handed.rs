//! Reads stores from standard input, a line each, and prints how an answer to their first write is taken.
#![forbid(unsafe_code)]

use std::io::{stderr, stdin, stdout};
use std::process::ExitCode;

fn main() -> ExitCode {
    match second::handed::run(stdin(), stdout(), stderr()) {
        true => ExitCode::SUCCESS,
        false => ExitCode::FAILURE,
    }
}
