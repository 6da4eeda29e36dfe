//! Gives random and damaged disks to two `record` programs, and compares all that they print.
#![forbid(unsafe_code)]

use std::collections::BTreeMap;
use std::fs::{self, File};
use std::io::{self, Write};
use std::path::{Path, PathBuf};
use std::process::{Command, ExitCode, Stdio};
use std::time::Instant;

use second::days::Rng;
use second::image_days::Played;
use second::image_situations::{situations, Input};
use second::record_ways::{Place, FULL, WAYS};

const USAGE: &str = "compare-record [--seeds FIRST LAST] [--trace PROGRAM] [PROGRAM [PROGRAM]]";

/// From so many seeds on each situation must be met.
const ENOUGH: u64 = 1000;

/// One seed in so many also calls the programs in another way.
const SELDOM: u64 = 3;

struct Arguments {
    seeds: (u64, u64),
    trace: Option<String>,
    programs: Vec<String>,
}

fn arguments() -> Result<Arguments, String> {
    let mut arguments = Arguments { seeds: (1, 1000), trace: None, programs: vec![] };
    let mut words = std::env::args().skip(1);
    while let Some(word) = words.next() {
        let mut number = || words.next().and_then(|w| w.parse().ok()).ok_or(USAGE);
        match word.as_str() {
            "--seeds" => arguments.seeds = (number()?, number()?),
            "--trace" => arguments.trace = Some(words.next().ok_or(USAGE)?),
            word if word.starts_with('-') => return Err(USAGE.into()),
            _ => arguments.programs.push(word),
        }
    }
    if arguments.programs.is_empty() {
        let own = std::env::current_exe().map_err(|e| e.to_string())?.with_file_name("record");
        let first: PathBuf = [env!("CARGO_MANIFEST_DIR"), "..", "target", "bin", "record"].iter().collect();
        let found = [own, first].into_iter().filter(|p| p.exists());
        arguments.programs.extend(found.map(|p| p.display().to_string()));
    }
    let right = arguments.seeds.0 <= arguments.seeds.1 && (1..=2).contains(&arguments.programs.len());
    right.then_some(arguments).ok_or(USAGE.into())
}

#[derive(PartialEq, Eq)]
struct Printed {
    output: Vec<u8>,
    errors: Vec<u8>,
}

/// Lines set in; long ones are cut, and so is what stands behind the first few.
fn shown(bytes: &[u8]) -> String {
    let text = String::from_utf8_lossy(bytes);
    let line = |line: &str| match line.char_indices().nth(120) {
        Some((cut, _)) => format!("      {:?}..\n", &line[..cut]),
        None => format!("      {line:?}\n"),
    };
    let lines: Vec<String> = text.split_inclusive('\n').map(line).collect();
    match lines.len() {
        0 => "      nothing\n".into(),
        many if many > 6 => format!("{}      .. and {} more\n", lines[..6].concat(), many - 6),
        _ => lines.concat(),
    }
}

/// The first line in which two outputs differ.
fn first_apart(one: &[u8], two: &[u8]) -> Option<usize> {
    let lines = |bytes: &[u8]| bytes.split_inclusive(|b| *b == b'\n').map(<[u8]>::to_vec).collect::<Vec<_>>();
    let (one, two) = (lines(one), lines(two));
    (0..one.len().max(two.len())).find(|k| one.get(*k) != two.get(*k))
}

/// A command that may have arguments of its own.
fn command(program: &str) -> Result<Command, String> {
    let mut words = program.split_whitespace();
    let mut command = Command::new(words.next().ok_or("no program")?);
    command.args(words);
    Ok(command)
}

/// What a program prints, called with these arguments.
fn call(program: &str, arguments: &[String], full: bool) -> Result<Printed, String> {
    let fail = |e: io::Error| format!("{program}: {e}");
    let mut command = command(program)?;
    command.args(arguments).stdin(Stdio::null());
    if full {
        command.stdout(File::options().write(true).open("/dev/full").map_err(fail)?);
    }
    let ended = command.output().map_err(fail)?;
    if ended.status.code().is_none() {
        return Err(format!("{program}: {}", ended.status));
    }
    Ok(Printed { output: ended.stdout, errors: ended.stderr })
}

/// One call of all programs: what they print, or what is apart.
fn compare(programs: &[String], arguments: &[String], full: bool) -> Result<Printed, String> {
    let calls = programs.iter().map(|program| call(program, arguments, full));
    let mut printed = calls.collect::<Result<Vec<_>, _>>()?;
    if let [one, two] = &printed[..] {
        if one != two {
            let row = first_apart(&one.output, &two.output);
            let mut what = row.map_or(String::new(), |k| format!("  row {} differs\n", k + 1));
            for (program, Printed { output, errors }) in programs.iter().zip(&printed) {
                let from = row.unwrap_or(0).saturating_sub(2);
                let rows: Vec<&[u8]> = output.split_inclusive(|b| *b == b'\n').skip(from).collect();
                what += &format!("  {program}\n    standard output, from row {} on\n", from + 1);
                what += &format!("{}    standard error\n{}", shown(&rows.concat()), shown(errors));
            }
            return Err(what);
        }
    }
    Ok(printed.swap_remove(0))
}

/// The day through a trace that keeps its disk, which must be second's own.
fn traced(program: &str, day: &Played, right: &[u8], file: &Path) -> Result<(), String> {
    let fail = |e: io::Error| format!("{program}: {e}");
    drop(fs::remove_file(file));
    let mut child = command(program)?
        .arg(file)
        .stdin(Stdio::piped())
        .stdout(Stdio::null())
        .stderr(Stdio::piped())
        .spawn()
        .map_err(fail)?;
    let written = child.stdin.take().map(|mut stdin| stdin.write_all(day.text().as_bytes()));
    let ended = child.wait_with_output().map_err(fail)?;
    if !ended.stderr.is_empty() || !matches!(written, Some(Ok(()))) {
        return Err(format!("  {program} did not take the day\n{}", shown(&ended.stderr)));
    }
    let bytes = fs::read(file).map_err(|e| format!("  {program} kept no disk: {e}"))?;
    if bytes != right {
        let at = bytes.iter().zip(right).position(|(a, b)| a != b).unwrap_or(bytes.len().min(right.len()));
        return Err(format!(
            "  {program} kept {} bytes of {}, apart from byte {at} on",
            bytes.len(),
            right.len()
        ));
    }
    Ok(())
}

/// A folder for the disks, gone at the end.
struct Folder(PathBuf);

impl Folder {
    fn new() -> io::Result<Self> {
        let folder = std::env::temp_dir().join(format!("compare-record-{}", std::process::id()));
        fs::create_dir_all(&folder)?;
        Ok(Folder(folder))
    }

    /// Puts a disk into its file: the arguments that name it.
    fn put(&self, name: &str, input: &Input) -> Result<[String; 3], String> {
        let file = self.0.join(name);
        fs::write(&file, &input.bytes).map_err(|e| format!("{}: {e}", file.display()))?;
        Ok([file.display().to_string(), input.given.0.to_string(), input.given.1.to_string()])
    }
}

impl Drop for Folder {
    fn drop(&mut self) {
        drop(fs::remove_dir_all(&self.0));
    }
}

/// What is apart: the disks that are to be kept, and what was printed.
struct Apart {
    what: String,
    calls: Vec<Vec<String>>,
    files: Vec<String>,
}

/// Programs may agree, and yet not show what a day's ledger has kept.
fn held(input: &Input, printed: &Printed) -> Result<(), String> {
    let rows = String::from_utf8_lossy(&printed.output);
    let shown = input.day.as_ref().map_or(Ok(()), |day| day.shown(&rows));
    shown.map_err(|what| format!("  {what}\n    standard output\n{}", self::shown(&printed.output)))
}

#[derive(Default)]
struct Totals {
    images: u64,
    calls: u64,
    days: u64,
    traced: u64,
    met: BTreeMap<String, u64>,
}

impl Totals {
    fn meet(&mut self, name: String) {
        *self.met.entry(name).or_default() += 1;
    }

    fn tables(&self) {
        for name in names() {
            println!("{:>8} {name}", self.met.get(&name).copied().unwrap_or(0));
        }
    }

    fn missing(&self) -> Vec<String> {
        names().into_iter().filter(|name| !self.met.contains_key(name)).collect()
    }
}

/// Each situation, and each way to call.
fn names() -> Vec<String> {
    situations().into_iter().chain(WAYS.iter().map(|(name, _)| way_name(name))).collect()
}

fn way_name(name: &str) -> String {
    format!("called otherwise: {name}")
}

/// The two disks of a seed through all programs, now and then called in another way.
fn seed(seed: u64, arguments: &Arguments, folder: &Folder, totals: &mut Totals) -> Result<(), Apart> {
    let rng = &mut Rng::new(seed ^ 0x3a75);
    let inputs = [("sound", Input::sound(seed)), ("damaged", Input::damaged(seed))];
    let mut places = vec![];
    for (name, input) in &inputs {
        let place = folder.put(name, input);
        let apart = |what: String, call: &[String]| Apart {
            what: format!("seed {seed}, {}\n{what}", input.words()),
            calls: vec![call.to_vec()],
            files: call.iter().take(1).cloned().collect(),
        };
        let place = place.map_err(|what| apart(what, &[]))?;
        let printed = compare(&arguments.programs, &place, false).map_err(|what| apart(what, &place))?;
        held(input, &printed).map_err(|what| apart(what, &place))?;
        if let (Some(program), Some(day)) = (&arguments.trace, &input.day) {
            let kept = traced(program, day, &input.bytes, &folder.0.join("kept"));
            kept.map_err(|what| apart(what, &place))?;
            totals.traced += 1;
        }
        let rows = String::from_utf8_lossy(&printed.output);
        input.situations(&rows).into_iter().for_each(|name| totals.meet(name));
        totals.images += 1;
        totals.days += u64::from(input.day.is_some());
        places.push(place);
    }
    if rng.one_in(SELDOM) {
        let (name, way) = rng.of(WAYS);
        let place = Place { one: places[0].clone(), two: places[1].clone(), folder: &folder.0 };
        let call = way(rng, &place);
        compare(&arguments.programs, &call, name == FULL).map_err(|what| Apart {
            what: format!("seed {seed}, {}\n{what}", way_name(name)),
            calls: vec![call.clone()],
            files: places.iter().map(|place| place[0].clone()).collect(),
        })?;
        totals.meet(way_name(name));
        totals.calls += 1;
    }
    Ok(())
}

/// Moves the files out of the folder that will be gone, and says how to call the programs on them.
fn report(number: u64, apart: &Apart, programs: &[String]) {
    println!("{}", apart.what.trim_end());
    let mut calls = apart.calls.clone();
    for file in &apart.files {
        let name = Path::new(file).file_name().unwrap_or_default().to_string_lossy().into_owned();
        let kept = std::env::temp_dir().join(format!("record-{number}-{name}"));
        match fs::copy(file, &kept) {
            Ok(_) => println!("  kept in {}", kept.display()),
            Err(error) => println!("  not kept, {}: {error}", kept.display()),
        }
        let kept = kept.display().to_string();
        calls.iter_mut().flatten().filter(|word| *word == file).for_each(|word| word.clone_from(&kept));
    }
    for call in calls {
        let words: Vec<String> = call.iter().map(|word| quoted(word)).collect();
        programs.iter().for_each(|program| println!("  {program} {}", words.join(" ")));
    }
}

/// A word as a shell takes it.
fn quoted(word: &str) -> String {
    let plain = |b: u8| b.is_ascii_alphanumeric() || b"/._-+".contains(&b);
    match !word.is_empty() && word.bytes().all(plain) {
        true => word.into(),
        false => format!("'{word}'"),
    }
}

fn compare_all(arguments: &Arguments) -> Result<ExitCode, String> {
    let (begun, mut totals) = (Instant::now(), Totals::default());
    let folder = Folder::new().map_err(|e| format!("no folder for the disks: {e}"))?;
    let (first, last) = arguments.seeds;
    let seeds = last - first + 1;
    for number in first..=last {
        if let Err(apart) = seed(number, arguments, &folder, &mut totals) {
            report(number, &apart, &arguments.programs);
            return Ok(ExitCode::FAILURE);
        }
        let done = number - first + 1;
        if done % (seeds / 10 + 1) == 0 {
            eprintln!("{done} of {seeds} seeds, {} s", begun.elapsed().as_secs());
        }
    }
    totals.tables();
    let missing = totals.missing();
    match missing.is_empty() {
        true => println!("every situation was met"),
        false => println!("not met: {}", missing.join("; ")),
    }
    if arguments.trace.is_some() {
        println!("{} disks that the trace kept are second's own", totals.traced);
    }
    let apart = if arguments.programs.len() < 2 { "one program stands alone" } else { "none apart" };
    let Totals { images, calls, days, .. } = totals;
    println!("seeds {first} to {last}: {images} disks, {days} of them days' by their ledgers, {calls} other calls, {apart}");
    Ok(if missing.is_empty() || seeds < ENOUGH { ExitCode::SUCCESS } else { ExitCode::FAILURE })
}

fn main() -> ExitCode {
    let compared = arguments().and_then(|arguments| {
        println!("{}", arguments.programs.join(" | "));
        compare_all(&arguments)
    });
    compared.unwrap_or_else(|error| {
        eprintln!("{error}");
        ExitCode::from(2)
    })
}
