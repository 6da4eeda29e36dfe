//! Reads a disk's first two sectors from standard input and prints what they say.
#![forbid(unsafe_code)]

use std::io::{stderr, stdin, stdout};
use std::process::ExitCode;

fn main() -> ExitCode {
    match second::sectors::run(stdin(), stdout(), stderr()) {
        true => ExitCode::SUCCESS,
        false => ExitCode::FAILURE,
    }
}
