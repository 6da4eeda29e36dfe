//! Plays random and damaged sectors through two `sectors` programs, and compares all that they print.
#![forbid(unsafe_code)]

use std::collections::BTreeMap;
use std::fs::{self, File, OpenOptions};
use std::io::{self, Write};
use std::path::PathBuf;
use std::process::{ChildStdin, Command, ExitCode, Stdio};
use std::time::{Duration, Instant};

use second::sector_inputs::{situations, Input, Way};
use second::sectors::SELECTED;

const USAGE: &str = "compare-sectors [--seeds FIRST LAST] [PROGRAM [PROGRAM]]";

/// What a slot's row can say first.
const ANSWERS: [&str; 4] = ["0", "10", "11", "12"];

struct Arguments {
    seeds: (u64, u64),
    programs: Vec<String>,
}

fn arguments() -> Result<Arguments, String> {
    let mut arguments = Arguments { seeds: (1, 5000), programs: vec![] };
    let mut words = std::env::args().skip(1);
    while let Some(word) = words.next() {
        let mut number = || words.next().and_then(|w| w.parse().ok()).ok_or(USAGE);
        match word.as_str() {
            "--seeds" => arguments.seeds = (number()?, number()?),
            word if word.starts_with('-') => return Err(USAGE.into()),
            _ => arguments.programs.push(word),
        }
    }
    if arguments.programs.is_empty() {
        let own = std::env::current_exe().map_err(|e| e.to_string())?.with_file_name("sectors");
        let first: PathBuf = [env!("CARGO_MANIFEST_DIR"), "..", "target", "bin", "sectors"].iter().collect();
        let found = [own, first].into_iter().filter(|p| p.exists());
        arguments.programs.extend(found.map(|p| p.display().to_string()));
    }
    let right = arguments.seeds.0 <= arguments.seeds.1 && (1..=2).contains(&arguments.programs.len());
    right.then_some(arguments).ok_or(USAGE.into())
}

#[derive(PartialEq, Eq)]
struct Printed {
    output: Vec<u8>,
    errors: Vec<u8>,
}

impl Printed {
    /// Both outputs, their lines set in.
    fn shown(&self) -> String {
        let lines = |bytes: &[u8]| {
            let text = String::from_utf8_lossy(bytes).into_owned();
            let lines = text.split_inclusive('\n').map(|l| format!("      {l:?}\n")).collect::<String>();
            if lines.is_empty() {
                "      nothing\n".into()
            } else {
                lines
            }
        };
        format!("    standard output\n{}    standard error\n{}", lines(&self.output), lines(&self.errors))
    }
}

/// A program that ends early shows by what it prints.
fn feed(mut stdin: ChildStdin, input: &Input) -> io::Result<()> {
    let (before, behind) = input.bytes.split_at(if input.way == Way::Pieces { input.pause } else { 0 });
    if !before.is_empty() {
        stdin.write_all(before)?;
        std::thread::sleep(Duration::from_millis(2));
    }
    stdin.write_all(behind)
}

fn opened(file: PathBuf, how: &OpenOptions) -> Result<File, String> {
    how.open(&file).map_err(|e| format!("{}: {e}", file.display()))
}

/// What the program prints, given this input.
fn play(program: &str, input: &Input) -> Result<Printed, String> {
    let fail = |e: io::Error| format!("{program}: {e}");
    let mut words = program.split_whitespace();
    let mut command = Command::new(words.next().ok_or("no program")?);
    command.args(words).stdin(Stdio::piped()).stdout(Stdio::piped()).stderr(Stdio::piped());
    match input.way {
        // A folder can be opened, not read.
        Way::NoRead => command.stdin(opened(std::env::temp_dir(), File::options().read(true))?),
        Way::FullOutput => command.stdout(opened("/dev/full".into(), File::options().write(true))?),
        _ => &mut command,
    };
    let mut child = command.spawn().map_err(fail)?;
    let stdin = child.stdin.take();
    let ended = std::thread::scope(|scope| {
        scope.spawn(|| stdin.map(|stdin| feed(stdin, input)));
        child.wait_with_output()
    });
    let ended = ended.map_err(fail)?;
    if ended.status.code().is_none() {
        return Err(format!("{program}: {}", ended.status));
    }
    Ok(Printed { output: ended.stdout, errors: ended.stderr })
}

/// One input through all programs: what they print, or what is apart.
fn compare(input: &Input, programs: &[String]) -> Result<Printed, String> {
    let mut printed = programs.iter().map(|p| play(p, input)).collect::<Result<Vec<_>, _>>()?;
    if printed.iter().any(|p| *p != printed[0]) {
        let shown = programs.iter().zip(&printed).map(|(program, p)| format!("  {program}\n{}", p.shown()));
        return Err(shown.collect());
    }
    Ok(printed.swap_remove(0))
}

#[derive(Default)]
struct Totals {
    /// By the two slots' answers, by the last row, by situation.
    answers: BTreeMap<(String, String), u64>,
    selected: BTreeMap<String, u64>,
    situations: BTreeMap<String, u64>,
}

impl Totals {
    fn add(&mut self, input: &Input, printed: &Printed) {
        let rows = String::from_utf8_lossy(&printed.output);
        let rows: Vec<&str> = rows.lines().collect();
        if let [one, two, last] = rows[..] {
            let answer = |row: &str| row.split(' ').nth(2).unwrap_or("-").to_string();
            *self.answers.entry((answer(one), answer(two))).or_default() += 1;
            *self.selected.entry(last.replacen("selected ", "", 1)).or_default() += 1;
        }
        for name in input.situations() {
            *self.situations.entry(name).or_default() += 1;
        }
    }

    fn answer(&self, one: &str, two: &str) -> u64 {
        self.answers.get(&(one.into(), two.into())).copied().unwrap_or(0)
    }

    /// Slot 1's answers by slot 2's, then the last rows, then the situations.
    fn tables(&self) {
        println!("{:>12}{}", "", ANSWERS.map(|two| format!(" {:>11}", format!("slot 2: {two}"))).concat());
        for one in ANSWERS {
            let counts = ANSWERS.map(|two| format!(" {:>11}", self.answer(one, two)));
            println!("{:>12}{}", format!("slot 1: {one}"), counts.concat());
        }
        println!();
        for last in SELECTED {
            println!("{:>8} selected {last}", self.selected.get(last).copied().unwrap_or(0));
        }
        println!();
        for name in situations() {
            println!("{:>8} {name}", self.situations.get(&name).copied().unwrap_or(0));
        }
    }

    /// What these inputs could have met and didn't.
    fn missing(&self) -> Vec<String> {
        let pairs = ANSWERS.iter().flat_map(|one| ANSWERS.map(|two| (one, two)));
        let pairs = pairs.filter(|(one, two)| self.answer(one, two) == 0);
        let pairs = pairs.map(|(one, two)| format!("slot 1: {one} and slot 2: {two}"));
        let selected = SELECTED.iter().filter(|last| !self.selected.contains_key(**last));
        let selected = selected.map(|last| format!("selected {last}"));
        let situations = situations().into_iter().filter(|name| !self.situations.contains_key(name));
        pairs.chain(selected).chain(situations).collect()
    }
}

/// The first input apart: where it is kept, what it is, and what was printed.
fn report(seed: u64, input: &Input, what: &str) {
    let file = std::env::temp_dir().join(format!("sectors-{seed}.bytes"));
    let kept = match fs::write(&file, &input.bytes) {
        Ok(()) => format!("kept in {}", file.display()),
        Err(error) => format!("not kept, {}: {error}", file.display()),
    };
    println!("seed {seed}, {} bytes, {kept}\n  {}", input.bytes.len(), input.situations().join("; "));
    println!("{}", what.trim_end());
}

fn compare_all(Arguments { seeds: (first, last), programs }: &Arguments) -> ExitCode {
    let begun = Instant::now();
    let mut totals = Totals::default();
    let inputs = last - first + 1;
    for seed in *first..=*last {
        let input = Input::new(seed);
        match compare(&input, programs) {
            Ok(printed) => totals.add(&input, &printed),
            Err(what) => {
                report(seed, &input, &what);
                return ExitCode::FAILURE;
            }
        }
        let done = seed - first + 1;
        if done % (inputs / 10 + 1) == 0 {
            eprintln!("{done} of {inputs} inputs, {} s", begun.elapsed().as_secs());
        }
    }
    totals.tables();
    match totals.missing() {
        none if none.is_empty() => println!("every pair of answers, last row and situation was met"),
        missing => println!("not met: {}", missing.join("; ")),
    }
    let apart = if programs.len() < 2 { "one program stands alone" } else { "none apart" };
    println!("seeds {first} to {last}: {inputs} inputs, {apart}");
    ExitCode::SUCCESS
}

fn main() -> ExitCode {
    match arguments() {
        Ok(arguments) => {
            println!("{}", arguments.programs.join(" | "));
            compare_all(&arguments)
        }
        Err(error) => {
            eprintln!("{error}");
            ExitCode::from(2)
        }
    }
}
