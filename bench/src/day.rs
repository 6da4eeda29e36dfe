//! Days by the proved trace program and by the independent store's, on the same input: a long one, and loads alone.
use crate::{callgrind, table};
use std::fs::File;
use std::path::{Path, PathBuf};
use std::process::{Command, Stdio};
use std::time::Instant;

const TURNS: usize = 5;

fn timed(program: &Path, input: &Path) -> f64 {
    let day = File::open(input).expect("the day");
    let from = Instant::now();
    let done = Command::new(program).stdin(day).stdout(Stdio::null()).status().expect("it runs");
    assert!(done.success());
    from.elapsed().as_nanos() as f64
}

fn rows(program: &Path, input: &Path) -> Vec<u8> {
    let day = File::open(input).expect("the day");
    Command::new(program).stdin(day).output().expect("it runs").stdout
}

/// So many loads of a journal of no blocks, on a disk whose rows are cheap, by these six lines, a crash behind each.
const LOADS: usize = 2000;
const DISK: &str = "disk 1 1 0 0 0 12288 1 0 0 0 12288 1\n";
const BY_HAND: &str = "rs 0 0\nas 0 0\nrs 1 0\nas 1 0\nf1\nf2\n";
const BY_DRIVER: &str = "drive\ndrive\ndrive\ndrive\ndrive\ndrive\n";

fn loads(name: &str, lines: &str) -> PathBuf {
    let path = std::env::temp_dir().join(name);
    let day = String::from(DISK) + &(String::from(lines) + "crash\n").repeat(LOADS);
    std::fs::write(&path, day).expect("a day can be written");
    path
}

fn row(name: &str, ours: &Path, plain: &Path, day: &Path) {
    if rows(ours, day) != rows(plain, day) {
        println!("| {name} | the two programs differ: not timed |");
        std::process::exit(1);
    }
    let mut t = (f64::MAX, f64::MAX);
    for _ in 0..TURNS {
        t = (t.0.min(timed(ours, day)), t.1.min(timed(plain, day)));
    }
    let count = |p: &Path| if callgrind::there() { callgrind::of_program(p, day) } else { None };
    table::line(name, t, (count(ours), count(plain)));
}

/// The paths come from bench/run, which builds both programs and finds or makes the long day.
pub fn all() {
    let path = |name| std::env::var_os(name).map(PathBuf::from).filter(|p| p.exists());
    let (Some(ours), Some(plain), Some(day)) = (path("BENCH_TRACE"), path("BENCH_SECOND"), path("BENCH_DAY"))
    else {
        println!("| days by the trace programs | - | - | - | - | - | - |");
        return;
    };
    row("a long day by the trace programs, whole", &ours, &plain, &day);
    for (name, file, lines) in [
        ("2,000 loads by hand by the trace programs, whole", "wokujani-by-hand.day", BY_HAND),
        ("2,000 loads by `drive` by the trace programs, whole", "wokujani-by-drive.day", BY_DRIVER),
    ] {
        let day = loads(file, lines);
        row(name, &ours, &plain, &day);
        let _ = std::fs::remove_file(day);
    }
}
