//! Plays random days through two trace programs and compares every row; checks each load against the
//! ledger, worked out from the lines and the refusals alone, each request at State1 by its landings, and each load
//! by `drive` for its length.
#![forbid(unsafe_code)]

use std::collections::BTreeMap;
use std::io::Write;
use std::path::{Path, PathBuf};
use std::process::{Command, ExitCode, Stdio};
use std::sync::atomic::{AtomicU64, Ordering};
use std::sync::Mutex;
use std::time::Instant;

use second::coverage::{Seen, BLOCK_LINES, REFUSALS, SITUATIONS, STEPS};
use second::covered::{Covered, REACHED};
use second::days::{Day, Options};
use second::driven::{Driven, DRIVEN};
use second::driver::Call;
use second::layout::Location;
use second::ledger::Ledger;
use second::range::{blank, valid_entry, Entry};
use second::store::{Step, Store};
use second::text::{Line, Reader};
use second::trace::first_store;

const USAGE: &str = "compare [--seeds FIRST LAST] [--steps K] [--plain] [--ill] [PROGRAM [PROGRAM]]";

struct Arguments {
    seeds: (u64, u64),
    options: Options,
    programs: Vec<String>,
}

fn arguments() -> Result<Arguments, String> {
    let options = Options { steps: 300, ledger: true, ill: false };
    let mut arguments = Arguments { seeds: (1, 1000), options, programs: vec![] };
    let mut words = std::env::args().skip(1);
    while let Some(word) = words.next() {
        let mut number = || words.next().and_then(|w| w.parse().ok()).ok_or(USAGE);
        match word.as_str() {
            "--seeds" => arguments.seeds = (number()?, number()?),
            "--steps" => arguments.options.steps = number()? as usize,
            "--plain" => arguments.options.ledger = false,
            "--ill" => arguments.options.ill = true,
            word if word.starts_with('-') => return Err(USAGE.into()),
            _ => arguments.programs.push(word),
        }
    }
    if arguments.programs.is_empty() {
        let own = std::env::current_exe().map_err(|e| e.to_string())?.with_file_name("trace");
        let first: PathBuf = [env!("CARGO_MANIFEST_DIR"), "..", "target", "bin", "trace"].iter().collect();
        let there = |p: &&Path| p.exists();
        let found = [own.as_path(), first.as_path()].into_iter().filter(|p| there(p));
        arguments.programs.extend(found.map(|p| p.display().to_string()));
    }
    Ok(arguments)
}

/// The program's rows for a day.
fn play(program: &str, day: &str) -> Result<Vec<String>, String> {
    let mut words = program.split_whitespace();
    let fail = |e: std::io::Error| format!("{program}: {e}");
    let mut child = Command::new(words.next().ok_or("no program")?)
        .args(words)
        .stdin(Stdio::piped())
        .stdout(Stdio::piped())
        .spawn()
        .map_err(fail)?;
    let mut input = child.stdin.take().ok_or("no standard input")?;
    let output = std::thread::scope(|scope| {
        // A program that ends early shows by its rows.
        scope.spawn(move || input.write_all(day.as_bytes()));
        child.wait_with_output()
    });
    let output = output.map_err(fail)?;
    if !output.status.success() {
        return Err(format!("{program}: {}", output.status));
    }
    Ok(String::from_utf8_lossy(&output.stdout).lines().map(String::from).collect())
}

/// What is known of a store loaded since its last crash.
struct Loaded {
    replay: Vec<Entry>,
    taken: usize,
    table: Location,
    received: Option<Location>,
    committed: bool,
}

impl Loaded {
    /// A replay is taken exactly where its entries are the next ones.
    fn replayed(&mut self, entries: &[Entry], taken: bool) -> Result<(), String> {
        let sound = entries.len() <= 16 && entries.iter().all(valid_entry);
        let prefix = sound && self.replay[self.taken..].starts_with(entries);
        if prefix != taken {
            let not = if prefix { "" } else { "not " };
            return Err(format!("by the ledger this replay is {not}a prefix"));
        }
        self.taken += if taken { entries.len() } else { 0 };
        Ok(())
    }
}

/// No add that is taken has a blank entry, and none without one is a 13 (S-6).
fn blank_is_told(step: &Step, refusal: &str) -> Result<(), String> {
    let Step::Add(entries) = step else { return Ok(()) };
    match (refusal, entries.iter().any(blank)) {
        ("0", true) => Err("a blank entry is added".into()),
        ("13", false) => Err("no entry is blank".into()),
        _ => Ok(()),
    }
}

/// The step as the ledger hears it. Of what `drive` names only a load's end is of use to it, and that alone is taken
/// with a row at R.
fn heard(call: &Call, taken: bool, kind: char) -> Step {
    match call {
        Call::Step(step) => step.clone(),
        Call::Drive if taken && kind == 'R' => Step::FinishJournal,
        Call::Drive => Step::NoOp,
    }
}

/// The ledger beside one program's rows, what its landings covered, and how its loads by `drive` went.
struct Audit {
    ledger: Option<Ledger>,
    covered: Covered,
    driven: Driven,
    loaded: Option<Loaded>,
    loads: u64,
}

impl Audit {
    fn new(first: &Store) -> Self {
        let ledger = Ledger::new(first);
        let (covered, driven) = (Covered::new(ledger.clone()), Driven::new(first));
        Audit { covered, driven, ledger, loaded: None, loads: 0 }
    }

    /// Takes a step and its row; says what is not the ledger's, which request isn't covered, or what `drive` may
    /// not do.
    fn feed(&mut self, call: &Call, row: &str) -> Result<(), String> {
        let columns: Vec<&str> = row.split(' ').collect();
        let &[_, r, k, c, s, l, w, _, _, _, _, _, y, q1, q2, q3, _] = columns.as_slice() else {
            return Err("no row".into());
        };
        let [Ok(q1), Ok(q2), Ok(q3)] = [q1, q2, q3].map(|q| q.parse::<u8>().map(usize::from)) else {
            return Err("no number of sync requests".into());
        };
        let (Ok(refusal), Ok(kind)) = (r.parse(), k.parse()) else {
            return Err("no refusal or no kind".into());
        };
        self.driven.feed(call, refusal, kind)?;
        let step = heard(call, refusal == 0, kind);
        blank_is_told(&step, r)?;
        self.covered.feed(&step, refusal > 0, [q1, q2, q3])?;
        self.shown(&step, refusal == 0, [c, s, l, w, y])
    }

    /// What a load shows, and the steps after it that tell more of it.
    fn shown(&mut self, step: &Step, taken: bool, row: [&str; 5]) -> Result<(), String> {
        let Some(ledger) = &mut self.ledger else {
            let loads = taken && *step == Step::FinishJournal;
            return if loads { Err("by the first disk nothing can be loaded".into()) } else { Ok(()) };
        };
        ledger.feed(step, !taken);
        match (step, &mut self.loaded) {
            (Step::Crash, _) if taken => self.loaded = None,
            (Step::FinishJournal, _) if taken => {
                let replay: Vec<Entry> = ledger.entries().cloned().collect();
                let shown = [ledger.counter, ledger.start, ledger.len(), ledger.len(), replay.len() as u64];
                if shown.map(|x| x.to_string()) != row {
                    return Err(format!("the ledger is c s l w y = {shown:?}"));
                }
                let table = ledger.table;
                self.loaded = Some(Loaded { replay, taken: 0, table, received: None, committed: false });
                self.loads += 1;
            }
            (Step::Replay(entries), Some(known)) => known.replayed(entries, taken)?,
            (Step::Freeze, Some(known)) if !known.committed && known.taken == known.replay.len() => {
                if (known.received == Some(known.table)) == taken {
                    return Err(format!("the ledger's location is {:?}", known.table));
                }
                known.received = known.received.filter(|_| !taken);
            }
            (Step::ReceiveLocation(loc), Some(known)) if taken => known.received = Some(*loc),
            (Step::CommitLog { .. } | Step::CommitLocation { .. }, Some(known)) if taken => {
                known.committed = true
            }
            _ => {}
        }
        Ok(())
    }
}

#[derive(Default)]
struct Totals {
    days: u64,
    rows: u64,
    loads: u64,
    /// By step and refusal; a line that is no step has no refusal.
    met: BTreeMap<(&'static str, String), u64>,
    situations: BTreeMap<&'static str, u64>,
    failure: Option<(u64, String)>,
}

/// One day through all programs: its counts, or what is apart.
fn day(seed: u64, arguments: &Arguments) -> Result<Totals, String> {
    let lines: Vec<String> = Day::new(seed, arguments.options).collect();
    let text = lines.iter().map(|l| format!("{l}\n")).collect::<String>();
    let played: Vec<Vec<String>> = arguments
        .programs
        .iter()
        .map(|p| play(p, &text))
        .collect::<Result<_, _>>()
        .map_err(|e| format!("seed {seed}: {e}"))?;
    let mut store = first_store(&lines).ok_or("the day has no disk")?;
    let mut judge = Judge::new(&store, played.len());
    // A block line has no row: from then on a line's row isn't the one of its number.
    let mut shown = 0;
    for (n, line) in lines.iter().enumerate() {
        let read = (n > 0).then(|| judge.reader.read(line.as_bytes()));
        if let Some(Line::Block(..)) = read {
            judge.totals.situation(BLOCK_LINES[0]);
            continue;
        }
        let rows: Vec<&str> = played.iter().map(|p| p.get(shown).map_or("no row", |r| r)).collect();
        shown += 1;
        judge.line(n, read, &rows, &mut store).map_err(|what| {
            let rows = arguments.programs.iter().zip(&rows).map(|(p, r)| format!("\n  {p}\n    {r}"));
            let line = if line.len() > 300 { format!("{}..", &line[..300]) } else { line.clone() };
            format!("seed {seed}, step {n}: {line}\n  {what}{}", rows.collect::<String>())
        })?;
    }
    if let Some(p) = played.iter().position(|p| p.len() > shown) {
        return Err(format!("seed {seed}: {} has rows after the day's end", arguments.programs[p]));
    }
    Ok(judge.counts())
}

/// What is known while a day's rows are gone through.
struct Judge {
    first: Store,
    reader: Reader,
    audits: Vec<Audit>,
    totals: Totals,
}

impl Judge {
    fn new(first: &Store, programs: usize) -> Self {
        Judge {
            first: first.clone(),
            reader: Reader::new(first.geometry),
            audits: (0..programs).map(|_| Audit::new(first)).collect(),
            totals: Totals { days: 1, ..Totals::default() },
        }
    }

    /// A line that has a row, with the rows of all programs; the disk's is the header.
    fn line(&mut self, n: usize, read: Option<Line>, rows: &[&str], store: &mut Store) -> Result<(), String> {
        if rows.iter().any(|r| *r != rows[0] || *r == "no row") {
            return Err("the rows differ".into());
        }
        self.totals.rows += 1;
        let call = match read {
            None => return Ok(()),
            Some(Line::Step(call)) => call,
            Some(other) => {
                if rows[0] != format!("line {n} is not a step") {
                    return Err("this line is not a step".into());
                }
                *self.totals.met.entry(("no step", "-".into())).or_default() += 1;
                if other == Line::Late {
                    self.totals.situation(BLOCK_LINES[1]);
                }
                return Ok(());
            }
        };
        self.totals.count(&self.first, &call, rows[0], store);
        self.audits.iter_mut().zip(rows).try_for_each(|(audit, row)| audit.feed(&call, row))
    }

    fn counts(mut self) -> Totals {
        self.totals.loads = self.audits.iter().map(|a| a.loads).sum();
        let reached = self.audits.first().map_or([0; REACHED.len()], |a| a.covered.reached);
        let driven = self.audits.first().map_or([0; DRIVEN.len()], |a| a.driven.met);
        let counts = REACHED.into_iter().zip(reached).chain(DRIVEN.into_iter().zip(driven));
        self.totals.situations.extend(counts.filter(|(_, count)| *count > 0));
        self.totals
    }
}

/// What is counted beside steps and refusals.
fn situations() -> impl Iterator<Item = &'static str> {
    SITUATIONS.iter().map(|(name, _)| *name).chain(BLOCK_LINES).chain(REACHED).chain(DRIVEN)
}

impl Totals {
    fn situation(&mut self, name: &'static str) {
        *self.situations.entry(name).or_default() += 1;
    }

    /// Counts a step by its row's refusal, and the situations that a store of ours is in with it.
    fn count(&mut self, first: &Store, call: &Call, row: &str, store: &mut Store) {
        let refusal = row.split(' ').nth(1).unwrap_or("-").to_string();
        *self.met.entry((call.word(), refusal)).or_default() += 1;
        let before = store.clone();
        let (step, result) = call.take(store);
        let seen =
            Seen { first, before: &before, step: &step, driven: *call == Call::Drive, result, after: store };
        SITUATIONS.iter().filter(|(_, holds)| holds(&seen)).for_each(|(name, _)| self.situation(name));
    }

    fn add(&mut self, other: Totals) {
        self.days += other.days;
        self.rows += other.rows;
        self.loads += other.loads;
        for (key, count) in other.met {
            *self.met.entry(key).or_default() += count;
        }
        for (name, count) in other.situations {
            *self.situations.entry(name).or_default() += count;
        }
    }

    /// Each step by refusal, then the situations.
    fn tables(&self) {
        let count = |word: &str, r: &str| {
            let here = self.met.iter().filter(|((w, n), _)| (word == "all" || *w == word) && n == r);
            here.map(|(_, count)| count).sum::<u64>()
        };
        let refusals: Vec<String> = REFUSALS.iter().map(u8::to_string).chain(["-".into()]).collect();
        println!("{:>8}{}", "step", refusals.iter().map(|r| format!(" {r:>8}")).collect::<String>());
        for word in STEPS.iter().map(|(word, _)| *word).chain(["no step", "all"]) {
            let counts = refusals.iter().map(|r| format!(" {:>8}", count(word, r)));
            println!("{word:>8}{}", counts.collect::<String>());
        }
        println!();
        for name in situations() {
            println!("{:>8} {name}", self.situations.get(name).copied().unwrap_or(0));
        }
    }

    /// What these days could have met and didn't.
    fn missing(&self) -> Vec<String> {
        let steps = STEPS.iter().flat_map(|(word, numbers)| numbers.iter().map(|r| (*word, r.to_string())));
        let steps = steps.filter(|key| !self.met.contains_key(key)).map(|(word, r)| format!("{word} {r}"));
        let situations = situations().filter(|name| !self.situations.contains_key(name)).map(String::from);
        steps.chain(situations).collect()
    }
}

fn main() -> ExitCode {
    let arguments = match arguments() {
        Ok(arguments) => arguments,
        Err(error) => {
            eprintln!("{error}");
            return ExitCode::FAILURE;
        }
    };
    let (first, last) = arguments.seeds;
    println!(
        "seeds {first} to {last}, {} steps a day: {}",
        arguments.options.steps,
        arguments.programs.join(" | ")
    );
    if arguments.programs.len() < 2 {
        println!("(one program only: its rows stand alone, against the ledger)");
    }
    let begun = Instant::now();
    let next = AtomicU64::new(first);
    let totals = Mutex::new(Totals::default());
    std::thread::scope(|scope| {
        for _ in 0..std::thread::available_parallelism().map_or(2, |n| n.get()) {
            scope.spawn(|| loop {
                let seed = next.fetch_add(1, Ordering::Relaxed);
                if seed > last {
                    break;
                }
                let played = day(seed, &arguments);
                let mut totals = totals.lock().expect("no worker fails");
                match played {
                    Ok(more) => totals.add(more),
                    Err(what) => {
                        if totals.failure.as_ref().is_none_or(|(s, _)| seed < *s) {
                            totals.failure = Some((seed, what));
                        }
                        next.store(last + 1, Ordering::Relaxed);
                    }
                }
                if totals.days % ((last - first) / 20 + 1) == 0 && totals.failure.is_none() {
                    eprintln!(
                        "{} of {} days, {} rows, {} loads, {} s: none apart",
                        totals.days,
                        last - first + 1,
                        totals.rows,
                        totals.loads,
                        begun.elapsed().as_secs()
                    );
                }
            });
        }
    });
    let totals = totals.into_inner().expect("no worker fails");
    totals.tables();
    let missing = totals.missing();
    match totals.failure {
        Some((_, what)) => {
            println!("{what}");
            ExitCode::FAILURE
        }
        None => {
            match missing.is_empty() {
                true => println!("every refusal that a trace can show, and every situation, was met"),
                false => println!("not met: {}", missing.join(", ")),
            }
            println!(
                "seeds {first} to {last}: {} days, {} rows, {} loads showing their ledger: none apart",
                totals.days, totals.rows, totals.loads
            );
            ExitCode::SUCCESS
        }
    }
}
