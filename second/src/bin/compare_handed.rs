//! Gives random lines to two `handed` programs, and compares every row.
#![forbid(unsafe_code)]

use std::collections::BTreeMap;
use std::io::{self, Write};
use std::path::PathBuf;
use std::process::{Command, ExitCode, Stdio};
use std::time::Instant;

use second::handed::ANSWERS;
use second::handed_inputs::{input, lines};
use second::handed_situations::{met, situations};

const USAGE: &str = "compare-handed [--seeds FIRST LAST] [PROGRAM [PROGRAM]]";

/// What is counted of a line's row, beside the answers.
const NO_STORE: &str = "not a store";

struct Arguments {
    seeds: (u64, u64),
    programs: Vec<String>,
}

fn arguments() -> Result<Arguments, String> {
    let mut arguments = Arguments { seeds: (1, 500), programs: vec![] };
    let mut words = std::env::args().skip(1);
    while let Some(word) = words.next() {
        let mut number = || words.next().and_then(|w| w.parse().ok()).ok_or(USAGE);
        match word.as_str() {
            "--seeds" => arguments.seeds = (number()?, number()?),
            word if word.starts_with('-') => return Err(USAGE.into()),
            _ => arguments.programs.push(word),
        }
    }
    if arguments.programs.is_empty() {
        let own = std::env::current_exe().map_err(|e| e.to_string())?.with_file_name("handed");
        let first: PathBuf = [env!("CARGO_MANIFEST_DIR"), "..", "target", "bin", "handed"].iter().collect();
        let found = [own, first].into_iter().filter(|p| p.exists());
        arguments.programs.extend(found.map(|p| p.display().to_string()));
    }
    let right = arguments.seeds.0 <= arguments.seeds.1 && (1..=2).contains(&arguments.programs.len());
    right.then_some(arguments).ok_or(USAGE.into())
}

/// The rows that the program prints; a program that ends early shows by them.
fn play(program: &str, input: &[u8]) -> Result<Vec<u8>, String> {
    let fail = |e: io::Error| format!("{program}: {e}");
    let mut words = program.split_whitespace();
    let mut command = Command::new(words.next().ok_or("no program")?);
    command.args(words).stdin(Stdio::piped()).stdout(Stdio::piped());
    let mut child = command.spawn().map_err(fail)?;
    let stdin = child.stdin.take();
    let ended = std::thread::scope(|scope| {
        scope.spawn(|| stdin.map(|mut stdin| stdin.write_all(input)));
        child.wait_with_output()
    });
    let ended = ended.map_err(fail)?;
    if ended.status.code().is_none() {
        return Err(format!("{program}: {}", ended.status));
    }
    Ok(ended.stdout)
}

/// The rows with their line feeds, the header first.
fn rows(output: &[u8]) -> Vec<&[u8]> {
    output.split_inclusive(|byte| *byte == b'\n').collect()
}

/// The first row apart: its line, and what each program printed.
fn difference(programs: &[String], outputs: &[Vec<u8>], lines: &[String]) -> String {
    let rows: Vec<_> = outputs.iter().map(|output| rows(output)).collect();
    let apart = |n: &usize| rows.iter().any(|r| r.get(*n) != rows[0].get(*n));
    let n = (0..).find(apart).expect("some row is apart");
    let line = match n.checked_sub(1) {
        None => "the header".into(),
        Some(k) => format!("line {n} {:?}", lines.get(k).map_or("", String::as_str)),
    };
    let shown = programs.iter().zip(&rows).map(|(program, rows)| match rows.get(n) {
        Some(row) => format!("\n  {:?} {program}", String::from_utf8_lossy(row)),
        None => format!("\n  no row {program}"),
    });
    line + &shown.collect::<String>()
}

/// One seed's lines through all programs: the rows, or what is apart.
fn compare(seed: u64, lines: &[String], programs: &[String]) -> Result<Vec<u8>, String> {
    let input = input(seed, lines);
    let mut outputs = programs.iter().map(|p| play(p, &input)).collect::<Result<Vec<_>, _>>()?;
    if outputs.iter().any(|output| *output != outputs[0]) {
        return Err(difference(programs, &outputs, lines));
    }
    Ok(outputs.swap_remove(0))
}

/// How many lines had which answers, and met which situation.
#[derive(Default)]
struct Totals {
    answers: BTreeMap<String, u64>,
    situations: BTreeMap<&'static str, u64>,
}

impl Totals {
    fn add(&mut self, lines: &[String], output: &[u8]) {
        for row in String::from_utf8_lossy(output).lines().skip(1) {
            let answers = match row.split_once(' ') {
                Some((first, answers)) if first != "line" => answers,
                _ => NO_STORE,
            };
            *self.answers.entry(answers.into()).or_default() += 1;
        }
        for name in lines.iter().flat_map(|line| met(line)) {
            *self.situations.entry(name).or_default() += 1;
        }
    }

    fn answer(&self, answers: &str) -> u64 {
        self.answers.get(answers).copied().unwrap_or(0)
    }

    fn situation(&self, name: &str) -> u64 {
        self.situations.get(name).copied().unwrap_or(0)
    }

    /// The answers of disk and store, then the situations.
    fn tables(&self) {
        println!("{:>8} d s", "lines");
        for answers in ANSWERS.iter().chain([&NO_STORE]) {
            println!("{:>8} {answers}", self.answer(answers));
        }
        for (answers, lines) in &self.answers {
            if !ANSWERS.contains(&answers.as_str()) && answers != NO_STORE {
                println!("{lines:>8} {answers}, which no store of a line should have");
            }
        }
        println!();
        for name in situations() {
            println!("{:>8} {name}", self.situation(name));
        }
    }

    /// What these lines could have met and didn't.
    fn missing(&self) -> Vec<&'static str> {
        let answers = ANSWERS.into_iter().chain([NO_STORE]).filter(|answers| self.answer(answers) == 0);
        answers.chain(situations().into_iter().filter(|name| self.situation(name) == 0)).collect()
    }
}

fn compare_all(Arguments { seeds: (first, last), programs }: &Arguments) -> ExitCode {
    let begun = Instant::now();
    let mut totals = Totals::default();
    let (seeds, mut count) = (last - first + 1, 0);
    for seed in *first..=*last {
        let lines = lines(seed);
        match compare(seed, &lines, programs) {
            Ok(output) => totals.add(&lines, &output),
            Err(what) => {
                println!("seed {seed}, {what}");
                return ExitCode::FAILURE;
            }
        }
        count += lines.len();
        let done = seed - first + 1;
        if done % (seeds / 10 + 1) == 0 {
            eprintln!("{done} of {seeds} seeds, {} s", begun.elapsed().as_secs());
        }
    }
    totals.tables();
    match totals.missing() {
        none if none.is_empty() => println!("every pair of answers and every situation was met"),
        missing => println!("not met: {}", missing.join("; ")),
    }
    let apart = if programs.len() < 2 { "one program stands alone" } else { "none apart" };
    println!("seeds {first} to {last}: {count} lines, {apart}");
    ExitCode::SUCCESS
}

fn main() -> ExitCode {
    match arguments() {
        Ok(arguments) => {
            println!("{}", arguments.programs.join(" | "));
            compare_all(&arguments)
        }
        Err(error) => {
            eprintln!("{error}");
            ExitCode::from(2)
        }
    }
}
