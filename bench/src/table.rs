//! The table's rows: each work timed by turns, the median of each side, and instructions where they can be counted.
use crate::callgrind;
use crate::works::{self, Aim, Work};
use std::sync::OnceLock;
use std::time::Instant;

const TURNS: usize = 101;
const TURN_NS: f64 = 10_000_000.0;

fn counting() -> bool {
    static THERE: OnceLock<bool> = OnceLock::new();
    *THERE.get_or_init(callgrind::there)
}

pub fn head() {
    println!("| work | ours ns | plain ns | ratio | ours instructions | plain instructions | ratio |");
    println!("|---|--:|--:|--:|--:|--:|--:|");
}

fn number(x: f64) -> String {
    let digits = format!("{x:.0}");
    let parts: Vec<&str> =
        digits.as_bytes().rchunks(3).rev().map(|c| std::str::from_utf8(c).expect("digits")).collect();
    parts.join(",")
}

fn pair(ours: Option<f64>, plain: Option<f64>) -> String {
    match (ours, plain) {
        (Some(a), Some(b)) => format!("{} | {} | {:.2}", number(a), number(b), a / b),
        _ => "- | - | -".to_string(),
    }
}

pub fn line(what: &str, times: (f64, f64), instructions: (Option<f64>, Option<f64>)) {
    println!(
        "| {what} | {} | {} |",
        pair(Some(times.0), Some(times.1)),
        pair(instructions.0, instructions.1)
    );
}

fn timed(f: &mut dyn FnMut(), count: u64) -> f64 {
    let from = Instant::now();
    for _ in 0..count {
        f();
    }
    from.elapsed().as_nanos() as f64 / count as f64
}

fn median(mut xs: Vec<f64>) -> f64 {
    xs.sort_by(f64::total_cmp);
    xs[xs.len() / 2]
}

/// By turns, so that what else the machine does falls on both.
fn times(w: &mut Work) -> (f64, f64) {
    let first = timed(&mut w.ours, 1).max(timed(&mut w.plain, 1));
    let count = (TURN_NS / first).max(1.0) as u64;
    let (mut ours, mut plain) = (Vec::new(), Vec::new());
    for _ in 0..TURNS {
        ours.push(timed(&mut w.ours, count));
        plain.push(timed(&mut w.plain, count));
    }
    (median(ours), median(plain))
}

pub fn row(name: &str, mut w: Work) {
    if !(w.same)() {
        println!("| {} | the two sides differ: not timed |", w.what);
        std::process::exit(1);
    }
    let count = |side| if counting() { callgrind::of_work(name, side, w.counted) } else { None };
    let instructions = (count("ours"), count("plain"));
    let mark = if w.aim == Aim::Copy { " (copy)" } else { "" };
    let t = times(&mut w);
    line(&format!("{}{mark}", w.what), t, instructions);
}

/// The replay of 1,000,000 entries to its end, once each way: too long for an instruction counter.
pub fn whole_replay() {
    let mut w = works::replay("a replay of 1,000,000 one-byte entries by 16, whole", 1024, 1_000_000, 62_500);
    let t = (timed(&mut w.ours, 1), timed(&mut w.plain, 1));
    line(w.what, t, (None, None));
}
