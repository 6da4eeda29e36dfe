//! A day's lines: the first disk, what its blocks hold, and the steps, as text.

use std::fmt;

use crate::driver::Call;
use crate::layout::{Geometry, Location, BLOCK};
use crate::range::Entry;
use crate::store::Step;
use crate::superblock::Superblock;

/// The most blocks a trace's disk may have.
pub const MAX_BLOCKS: u64 = 32;

/// The longest line that is a disk, a block or a step, without its line feed.
pub const LONGEST_LINE: usize = 16_384;

/// A line's words: blanks between them are spaces, tabs, form feeds and carriage returns.
pub fn words(line: &[u8]) -> Option<std::str::SplitAsciiWhitespace<'_>> {
    std::str::from_utf8(line).ok().map(str::split_ascii_whitespace)
}

/// The words of a line that isn't too long for a disk, a block or a step.
fn short_words(line: &[u8]) -> Option<std::str::SplitAsciiWhitespace<'_>> {
    words(line).filter(|_| line.len() <= LONGEST_LINE)
}

/// Plain decimal digits, as one 64-bit number.
pub fn number(word: &str) -> Option<u64> {
    word.bytes().all(|b| b.is_ascii_digit()).then(|| word.parse().ok())?
}

/// Pairs of hexadecimal digits, a byte each.
pub fn entry(word: &str) -> Option<Entry> {
    let digit = |b: u8| char::from(b).to_digit(16).map(|d| d as u8);
    let byte = |pair: &[u8]| match pair {
        [high, low] => Some(digit(*high)? << 4 | digit(*low)?),
        _ => None,
    };
    word.as_bytes().chunks(2).map(byte).collect()
}

/// `disk N T`, then the five numbers of each superblock.
pub fn parse_disk(line: &[u8]) -> Option<(Geometry, [Superblock; 2])> {
    let mut words = short_words(line)?;
    if words.next()? != "disk" {
        return None;
    }
    let numbers: Vec<u64> = words.map(number).collect::<Option<_>>()?;
    let [n, t, c1, s1, l1, a1, t1, c2, s2, l2, a2, t2] = numbers[..] else { return None };
    let geometry = Geometry::new(n, t).filter(|_| n <= MAX_BLOCKS)?;
    let slots = [[c1, s1, l1, a1, t1], [c2, s2, l2, a2, t2]];
    Some((geometry, slots.map(Superblock::from_numbers)))
}

pub fn disk_line(g: Geometry, slots: &[Superblock; 2]) -> String {
    let numbers = slots.iter().flat_map(Superblock::numbers);
    numbers.fold(format!("disk {} {}", g.n(), g.t()), |line, x| format!("{line} {x}"))
}

/// `block k`, below N, and what it holds: up to a block's bytes, none where the word is missing.
fn parse_block(line: &[u8], n: u64) -> Option<(usize, Vec<u8>)> {
    let mut words = short_words(line)?;
    if words.next()? != "block" {
        return None;
    }
    let k = number(words.next()?).filter(|k| *k < n)?;
    let bytes = entry(words.next().unwrap_or_default()).filter(|bytes| bytes.len() <= BLOCK)?;
    words.next().is_none().then_some((k as usize, bytes))
}

pub fn block_line(k: usize, bytes: &[u8]) -> String {
    let word = if bytes.is_empty() { String::new() } else { entries_line(&[bytes.to_vec()]) };
    format!("block {k}{word}")
}

/// Each byte as a pair of small hexadecimal digits.
pub fn digits(bytes: &[u8]) -> String {
    let digit = |d: u8| char::from(b"0123456789abcdef"[usize::from(d)]);
    bytes.iter().flat_map(|byte| [digit(byte >> 4), digit(byte & 15)]).collect()
}

/// Each entry's bytes as hexadecimal digits, a space before each entry.
pub fn entries_line(entries: &[Entry]) -> String {
    entries.iter().map(|entry| format!(" {}", digits(entry))).collect()
}

pub fn parse_step(line: &[u8]) -> Option<Step> {
    let mut words = short_words(line)?;
    let name = words.next()?;
    if let "add" | "replay" = name {
        let entries = words.map(entry).collect::<Option<_>>()?;
        return Some(if name == "add" { Step::Add(entries) } else { Step::Replay(entries) });
    }
    let numbers: Vec<u64> = words.map(number).collect::<Option<_>>()?;
    Some(match (name, &numbers[..]) {
        ("wj", &[id]) => Step::WriteJournal { id, second: None },
        ("wj", &[id, second]) => Step::WriteJournal { id, second: Some(second) },
        ("aj", &[id]) => Step::JournalWritten { id },
        ("cl", &[id]) => Step::CommitLog { id },
        ("co", &[id]) => Step::CommitLocation { id },
        ("ac", &[id]) => Step::SuperblockWritten { id },
        ("rs", &[which, id]) => Step::ReadSuperblock { which, id },
        ("as", &[which, id]) => Step::SuperblockRead { which, id, whole: true },
        ("xs", &[which, id]) => Step::SuperblockRead { which, id, whole: false },
        ("rj", &[which, id]) => Step::ReadJournal { which, id },
        ("ar", &[id]) => Step::JournalRead { id, whole: true },
        ("xr", &[id]) => Step::JournalRead { id, whole: false },
        ("f1", []) => Step::FinishSuperblocks,
        ("f2", []) => Step::FinishJournal,
        ("freeze", []) => Step::Freeze,
        ("loc", &[addr, len]) => Step::ReceiveLocation(Location { addr, len }),
        ("push", &[id]) => Step::Push { id },
        ("pop", &[id]) => Step::Pop { id },
        ("noop", []) => Step::NoOp,
        ("again", &[which]) => Step::AskAgain { which },
        ("land", &[which]) => Step::Land { which },
        ("crash", []) => Step::Crash,
        _ => return None,
    })
}

/// A line that is a step: `drive` alone, or a step with its arguments.
pub fn parse_call(line: &[u8]) -> Option<Call> {
    match short_words(line)?.collect::<Vec<_>>()[..] {
        ["drive"] => Some(Call::Drive),
        _ => parse_step(line).map(Call::Step),
    }
}

/// What a line behind the disk's is.
#[derive(Clone, Debug, PartialEq, Eq)]
pub enum Line {
    /// A block, and the bytes that it begins with.
    Block(usize, Vec<u8>),
    /// A block line behind the first step: not a step.
    Late,
    Step(Call),
    Other,
}

/// Reads the lines behind the disk's: block lines up to the first step, whether taken or refused.
pub struct Reader {
    n: u64,
    begun: bool,
}

impl Reader {
    pub fn new(geometry: Geometry) -> Self {
        Reader { n: geometry.n(), begun: false }
    }

    pub fn read(&mut self, line: &[u8]) -> Line {
        if let Some(call) = parse_call(line) {
            self.begun = true;
            return Line::Step(call);
        }
        match parse_block(line, self.n) {
            Some(_) if self.begun => Line::Late,
            Some((k, bytes)) => Line::Block(k, bytes),
            None => Line::Other,
        }
    }
}

impl Step {
    /// The word its line begins with.
    pub fn word(&self) -> &'static str {
        match self {
            Step::WriteJournal { .. } => "wj",
            Step::JournalWritten { .. } => "aj",
            Step::CommitLog { .. } => "cl",
            Step::CommitLocation { .. } => "co",
            Step::SuperblockWritten { .. } => "ac",
            Step::ReadSuperblock { .. } => "rs",
            Step::SuperblockRead { whole: true, .. } => "as",
            Step::SuperblockRead { whole: false, .. } => "xs",
            Step::ReadJournal { .. } => "rj",
            Step::JournalRead { whole: true, .. } => "ar",
            Step::JournalRead { whole: false, .. } => "xr",
            Step::FinishSuperblocks => "f1",
            Step::FinishJournal => "f2",
            Step::Freeze => "freeze",
            Step::ReceiveLocation(_) => "loc",
            Step::Add(_) => "add",
            Step::Replay(_) => "replay",
            Step::Push { .. } => "push",
            Step::Pop { .. } => "pop",
            Step::NoOp => "noop",
            Step::AskAgain { .. } => "again",
            Step::Land { .. } => "land",
            Step::Crash => "crash",
        }
    }
}

impl Call {
    /// The word its line begins with.
    pub fn word(&self) -> &'static str {
        match self {
            Call::Step(step) => step.word(),
            Call::Drive => "drive",
        }
    }
}

impl fmt::Display for Call {
    fn fmt(&self, f: &mut fmt::Formatter) -> fmt::Result {
        match self {
            Call::Step(step) => step.fmt(f),
            Call::Drive => f.write_str(self.word()),
        }
    }
}

impl fmt::Display for Step {
    fn fmt(&self, f: &mut fmt::Formatter) -> fmt::Result {
        f.write_str(self.word())?;
        match self {
            Step::WriteJournal { id, second: Some(second) } => write!(f, " {id} {second}"),
            Step::WriteJournal { id, second: None }
            | Step::JournalWritten { id }
            | Step::CommitLog { id }
            | Step::CommitLocation { id }
            | Step::SuperblockWritten { id }
            | Step::JournalRead { id, .. }
            | Step::Push { id }
            | Step::Pop { id } => write!(f, " {id}"),
            Step::ReadSuperblock { which, id }
            | Step::SuperblockRead { which, id, .. }
            | Step::ReadJournal { which, id } => write!(f, " {which} {id}"),
            Step::ReceiveLocation(loc) => write!(f, " {} {}", loc.addr, loc.len),
            Step::AskAgain { which } | Step::Land { which } => write!(f, " {which}"),
            Step::Add(entries) | Step::Replay(entries) => f.write_str(&entries_line(entries)),
            _ => Ok(()),
        }
    }
}
