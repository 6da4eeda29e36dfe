//! Instructions, counted by valgrind's callgrind on this same program: the difference of two counts of repetitions, so that the start and
//! the making of the input fall out.
use std::fs::File;
use std::path::Path;
use std::process::{Command, Stdio};

pub fn there() -> bool {
    Command::new("valgrind")
        .arg("--version")
        .stdout(Stdio::null())
        .stderr(Stdio::null())
        .status()
        .is_ok_and(|s| s.success())
}

/// The instructions of a program's run, from callgrind's line `Collected : N`.
fn collected(program: &Path, args: &[&str], input: Option<&Path>) -> Option<u64> {
    let mut c = Command::new("valgrind");
    c.args(["--tool=callgrind", "--callgrind-out-file=/dev/null"])
        .arg(program)
        .args(args)
        .stdout(Stdio::null());
    if let Some(path) = input {
        c.stdin(File::open(path).ok()?);
    }
    let said = String::from_utf8_lossy(&c.output().ok()?.stderr).into_owned();
    said.lines().find_map(|l| l.split("Collected : ").nth(1)?.trim().parse().ok())
}

pub fn of_work(name: &str, side: &str, count: u64) -> Option<f64> {
    let program = std::env::current_exe().ok()?;
    let run = |n: u64| collected(&program, &["once", name, side, &n.to_string()], None);
    let (few, many) = (run(count)?, run(2 * count)?);
    Some(many.saturating_sub(few) as f64 / count as f64)
}

pub fn of_program(program: &Path, input: &Path) -> Option<f64> {
    collected(program, &[], Some(input)).map(|n| n as f64)
}
