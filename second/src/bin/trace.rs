//! Reads a day from standard input and prints one row a step; with an argument, a file, keeps the disk there.
#![forbid(unsafe_code)]

use std::ffi::OsString;
use std::io::{stderr, stdin, stdout};
use std::process::ExitCode;

fn main() -> ExitCode {
    let files: Vec<OsString> = std::env::args_os().skip(1).collect();
    match second::trace::run(&files, stdin(), stdout(), stderr()) {
        true => ExitCode::SUCCESS,
        false => ExitCode::FAILURE,
    }
}
