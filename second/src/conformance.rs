//! The conformance days: short days, each step with the refusal that document 01 gives it, and one long random day.

use crate::coverage::{REFUSALS, STEPS};
use crate::driver::Call;
use crate::handed_conformance;
use crate::image_conformance;
use crate::range::Entry;
use crate::scripts::DAYS;
use crate::sector_conformance;
use crate::text::{entries_line, parse_call};
use crate::trace;

/// A day's name, what it shows, and its lines, parted by commas or line feeds. A step is taken unless
/// `=R` says which refusal it meets; a `block` line has no row; `? line` is not a step; `! line` is not a disk;
/// `^K` pads a line to K bytes; `#KxL` stands for K entries of L bytes; `00*L` for L bytes 00, `00*L*K` for K such
/// words, `41+00*L` for one behind the other; `@name` for the lines below, `~` for no line feed at the end.
pub type Script = (&'static str, &'static str, &'static str);

pub struct Conformance {
    pub name: &'static str,
    pub shows: String,
    pub input: String,
    pub rows: String,
}

const LINES: &[(&str, &str)] = &[
    ("@brew", "disk 8 4096 0 0 0 40960 4096 0 0 0 40960 4096"),
    ("@superblocks", "rs 0 1, rs 1 2, as 0 1, as 1 2, f1"),
    ("@load", "@superblocks, f2"),
    ("@front", "@superblocks, rj 0 3, ar 3, f2"),
    ("@pieces", "@superblocks, rj 0 3, rj 1 4, ar 3, ar 4, f2"),
    ("@drive-4", "drive, drive, drive, drive"),
    ("@drive-5", "@drive-4, drive"),
    ("@drive-6", "@drive-4, drive, drive"),
    ("@64", "add #16x1, add #16x1, add #16x1, add #16x1"),
    ("@16320", "add #16x255, add #16x255, add #16x255, add #16x255"),
];

/// The long day's lines: what the generator makes of a seed changes with the store, these stay.
const LONG: &str = include_str!("../../conformance/days/long.day");

/// A step's line: what is written, and the row that it must have.
struct Line {
    text: String,
    expected: Expected,
}

enum Expected {
    Disk,
    NoDisk,
    Block,
    Refusal(String),
    NoStep,
}

/// K entries of L bytes, each byte another than its neighbours.
fn pattern(count: usize, len: usize, from: usize) -> impl Iterator<Item = Entry> {
    (from..from + count).map(move |j| (0..len).map(|k| (j * 31 + k * 7 + len) as u8).collect())
}

/// Bytes behind each other, `HH*L` being L bytes HH, `HH*L*K` K words of them.
pub(crate) fn repeated(word: &str) -> String {
    let piece = |piece: &str| {
        let mut parts = piece.split('*');
        let bytes = parts.next().unwrap_or_default().to_string();
        let mut count = || parts.next().map_or(1, |k| k.parse().expect("a count"));
        let bytes = bytes.repeat(count());
        vec![bytes; count()].join(" ")
    };
    word.split('+').map(piece).collect()
}

/// The words `#KxL` and `HH*L` spelled out as hexadecimal digits.
fn spelled(line: &str) -> String {
    let mut from = 0;
    let word = |word: &str| {
        let (short, blank) = word.strip_suffix(' ').map_or((word, ""), |short| (short, " "));
        let sizes = short.strip_prefix('#').and_then(|w| w.split_once('x'));
        let digits = match sizes.map(|(k, l)| (k.parse().expect("a count"), l.parse().expect("a length"))) {
            Some((count, len)) => {
                let entries: Vec<Entry> = pattern(count, len, from).collect();
                from += count;
                entries_line(&entries).trim_start().to_string()
            }
            None if short.contains(['*', '+']) && !short.starts_with('+') => repeated(short),
            None => short.to_string(),
        };
        digits + blank
    };
    line.split_inclusive(' ').map(word).collect()
}

fn line(source: &str) -> Line {
    let (text, len) = source.split_once(" ^").unwrap_or((source, "0"));
    let (text, refusal) = text.split_once(" =").unwrap_or((text, "0"));
    let (text, expected) = match (text.strip_prefix('?'), text.strip_prefix('!')) {
        (Some(text), _) => (text.strip_prefix(' ').unwrap_or(text), Expected::NoStep),
        (_, Some(text)) => (text.strip_prefix(' ').unwrap_or(text), Expected::NoDisk),
        _ if text.trim().starts_with("disk") => (text, Expected::Disk),
        _ if text.trim().starts_with("block") => (text, Expected::Block),
        _ => (text, Expected::Refusal(refusal.into())),
    };
    let len: usize = len.parse().expect("a length");
    let text = spelled(text);
    Line { text: format!("{text}{}", " ".repeat(len.saturating_sub(text.len()))), expected }
}

fn lines(script: &str) -> Vec<Line> {
    let sources = script.split(['\n', ',']).map(|s| s.trim_matches(' ')).filter(|s| !s.is_empty());
    sources
        .flat_map(|s| match LINES.iter().find(|(name, _)| *name == s) {
            Some((_, more)) => lines(more),
            None => vec![line(s)],
        })
        .collect()
}

fn rows(day: &str) -> String {
    let mut output = vec![];
    trace::play(day.as_bytes(), &mut output).expect("memory takes all rows");
    String::from_utf8(output).expect("rows are text")
}

/// The day with its rows, which must be as the script says.
fn played((name, shows, script): &Script) -> Conformance {
    let (script, end) = script.strip_suffix('~').map_or((*script, "\n"), |s| (s, ""));
    let lines = lines(script);
    let texts: Vec<&str> = lines.iter().map(|l| l.text.as_str()).collect();
    let input = if texts.is_empty() { String::new() } else { texts.join("\n") + end };
    let rows = rows(&input);
    let disk = matches!(lines.first(), Some(Line { expected: Expected::Disk, .. }));
    let shown = lines.iter().enumerate().filter(|(_, line)| !matches!(line.expected, Expected::Block));
    assert_eq!(rows.lines().count(), if disk { shown.clone().count() } else { 1 }, "{name}");
    for ((n, line), row) in shown.zip(rows.lines()) {
        let right = match &line.expected {
            Expected::Disk => n == 0 && row == trace::HEADER,
            Expected::NoDisk => n == 0 && row == "line 0 is not a disk",
            Expected::Block => false,
            Expected::NoStep => row == format!("line {n} is not a step"),
            Expected::Refusal(r) => row.starts_with(&format!("{n} {r} ")),
        };
        assert!(right, "{name}, line {n}: {:.80}\n{row}", line.text);
    }
    Conformance { name, shows: shows.to_string(), input, rows }
}

/// Every day, the long one last.
pub fn days() -> Vec<Conformance> {
    let mut days: Vec<_> = DAYS.iter().map(played).collect();
    let shows = "3000 random steps, as `days 88 3000` of second/ made them before document 02's S-2; blank entries end with a byte 80, but for the refused adds', which are a 13 now where it isn't a 3";
    days.push(Conformance { name: "long", shows: shows.into(), rows: rows(LONG), input: LONG.into() });
    days
}

/// Each step's word, and for each of `REFUSALS` the first day that meets it, the long one aside.
pub fn coverage(days: &[Conformance]) -> Vec<(&'static str, [Option<&'static str>; REFUSALS.len()])> {
    let mut table: Vec<_> = STEPS.iter().map(|(word, _)| (*word, [None; REFUSALS.len()])).collect();
    for day in days.iter().filter(|day| day.name != "long") {
        for (call, refusal) in answers(day) {
            let row = table.iter_mut().find(|(word, _)| *word == call.word());
            let cell = REFUSALS.iter().position(|r| *r == refusal);
            if let (Some((_, cells)), Some(cell)) = (row, cell) {
                cells[cell].get_or_insert(day.name);
            }
        }
    }
    table
}

/// A day's steps with their refusals: a row begins with its line's number.
fn answers(day: &Conformance) -> impl Iterator<Item = (Call, u8)> + '_ {
    let lines: Vec<&str> = day.input.lines().collect();
    day.rows.lines().filter_map(move |row| {
        let mut numbers = row.split(' ').map(|word| word.parse::<usize>().ok());
        let (line, refusal) = (lines.get(numbers.next()??)?, numbers.next()??);
        Some((parse_call(line.as_bytes())?, refusal as u8))
    })
}

/// The two tables of conformance/README.md.
pub fn tables() -> String {
    let days = days();
    let mut text = String::from("\n| day | lines | what it shows |\n|---|---|---|\n");
    for Conformance { name, shows, input, .. } in &days {
        text += &format!("| `{name}` | {} | {shows} |\n", input.lines().count().saturating_sub(1));
    }
    let heads = REFUSALS.map(|r| format!(" {r} |")).concat();
    text += &format!("\n| step |{heads}\n|---|{}\n", REFUSALS.map(|_| "---|").concat());
    for (word, cells) in coverage(&days) {
        let cells = cells.map(|c| c.map_or("-".into(), |name| format!("`{name}`")));
        text += &format!("| `{word}` | {} |\n", cells.join(" | "));
    }
    text + "\n"
}

/// The page with this text between the two marks of that name.
fn between(old: &str, name: &str, text: &str) -> Option<String> {
    let (begin, end) = (format!("<!-- {name} -->"), format!("<!-- end of {name} -->"));
    let (head, rest) = old.split_once(&begin)?;
    let (_, tail) = rest.split_once(&end)?;
    Some(format!("{head}{begin}\n{text}{end}{tail}"))
}

/// The page with its tables made anew: those of the days, of the sectors, of the handed stores and of the disks.
pub fn page(old: &str) -> Option<String> {
    let page = between(old, "tables", &tables())?;
    let page = between(&page, "sectors", &sector_conformance::table())?;
    let page = between(&page, "handed", &handed_conformance::table())?;
    between(&page, "images", &image_conformance::table())
}
