//! Prints the record of each disk that is named: `record FILE N T [FILE N T ..]`.
#![forbid(unsafe_code)]

use std::ffi::OsString;
use std::io::{stderr, stdout};
use std::process::ExitCode;

fn main() -> ExitCode {
    let arguments: Vec<OsString> = std::env::args_os().skip(1).collect();
    match second::record::run(&arguments, stdout(), stderr()) {
        true => ExitCode::SUCCESS,
        false => ExitCode::FAILURE,
    }
}
