//! The conformance stores: inputs for `handed`, each line with the answers that the papers give it.

use crate::handed::{self, ANSWERS, HEADER};
use crate::handed_cases::CASES;

/// A case's name, what it shows, and its lines, each with the refusals of disk and store, or `-` where it is
/// not a store. A last line that ends with `~` has no line feed.
pub type Source = (&'static str, &'static str, &'static [(&'static str, &'static str)]);

pub struct Case {
    pub name: &'static str,
    pub shows: &'static str,
    pub input: String,
    pub rows: String,
}

/// The row that the answers make.
fn right(n: usize, answers: &str) -> String {
    match answers {
        "-" => format!("line {n} is not a store\n"),
        answers => format!("{n} {answers}\n"),
    }
}

/// The case with second's rows, which must be those written by hand.
fn played(&(name, shows, lines): &Source) -> Case {
    let input: String = lines.iter().map(|(line, _)| format!("{line}\n")).collect();
    let input = input.strip_suffix("~\n").map_or(input.clone(), String::from);
    let rows = handed::rows(input.as_bytes());
    let answers = (1..).zip(lines).map(|(n, (_, answers))| right(n, answers));
    let written: String = [format!("{HEADER}\n")].into_iter().chain(answers).collect();
    for ((line, mine), written) in lines.iter().zip(rows.lines().skip(1)).zip(written.lines().skip(1)) {
        assert_eq!(mine, written, "{name}: {:?}", line.0);
    }
    assert_eq!(rows, written, "{name}");
    Case { name, shows, input, rows }
}

pub fn cases() -> Vec<Case> {
    CASES.iter().map(played).collect()
}

/// How many of these rows end so.
fn count(rows: &str, end: &str) -> usize {
    rows.lines().skip(1).filter(|row| row.ends_with(&format!(" {end}"))).count()
}

/// The table of conformance/README.md: each case, and how many lines have which answers.
pub fn table() -> String {
    let answers = ANSWERS.map(|a| format!("`{a}`")).join(" | ");
    let head = format!("\n| case | {answers} | not a store | what it shows |\n|---|");
    let head = head + &"---|".repeat(ANSWERS.len() + 2) + "\n";
    let row = |Case { name, shows, rows, .. }: Case| {
        let counts = ANSWERS.map(|answers| count(&rows, answers).to_string()).join(" | ");
        format!("| `{name}` | {counts} | {} | {shows} |\n", count(&rows, "is not a store"))
    };
    format!("{head}{}\n", cases().into_iter().map(row).collect::<String>())
}
