//! The program `handed`: a store a line, handed in as it is, and whether question 2 lets it take an answer.

use std::io::{Read, Write};

use crate::disk::{Op, JOURNAL_WRITES};
use crate::layout::{Geometry, Interval, Location};
use crate::machine::{Loading, Phase, Piece, Ready};
use crate::store::{Step, Store};
use crate::superblock::Superblock;
use crate::text::{number, words};
use crate::{ask, sound, Refusal};

pub const HEADER: &str = "n d s";

/// What a row can say behind its number: the disk's refusal and the store's.
pub const ANSWERS: [&str; 5] = ["0 0", "0 2", "2 2", "5 2", "5 5"];

/// The most bytes of an input.
pub const LONGEST_INPUT: usize = 65_536;

/// The write that is answered.
const ANSWERED: u64 = 1;

/// N and T.
pub const BLOCKS: u64 = 8;
const TABLE: u64 = 4096;

pub fn geometry() -> Geometry {
    Geometry::new(BLOCKS, TABLE).expect("N and T are in range")
}

/// What a line says of its store: the selected interval, and the journal writes with the ids 1, 2, 3 ..
#[derive(Clone, Debug, PartialEq, Eq)]
pub struct Handed {
    pub selected: Interval,
    pub writes: Vec<Interval>,
}

impl Handed {
    /// None where the line isn't a store.
    pub fn parse(line: &[u8]) -> Option<Self> {
        let numbers: Vec<u64> = words(line)?.map(number).collect::<Option<_>>()?;
        let mut pairs = numbers.chunks_exact(2);
        let mut intervals = pairs.by_ref().map(|pair| Interval::new(pair[0], pair[1]));
        let (selected, writes) = (intervals.next()?, intervals.collect::<Vec<_>>());
        let whole = pairs.remainder().is_empty() && writes.len() <= JOURNAL_WRITES;
        whole.then_some(Handed { selected, writes })
    }

    /// Machine and disk: slot 2 selected, the machine ready on it and awaiting the writes.
    pub fn store(&self) -> Store {
        let g = geometry();
        let table = Location { addr: g.tables()[0], len: g.t() };
        let slot = |counter, Interval { start, len }| Superblock { counter, start, len, table };
        let slots = [slot(7, Interval::new(0, 0)), slot(8, self.selected)];
        let mut store = Store::new(g, slots);
        store.disk.journal.marks.fill(true);
        store.disk.journal_writes = (1..).zip(self.writes.iter().copied()).collect();
        let loading = Loading { superblock: slots[1], which: 1, pieces: [Piece::Unread, Piece::Unread] };
        let mut ready = Ready::loaded(&loading, vec![]);
        ready.outstanding = store.disk.journal_writes.keys().copied().collect();
        store.machine.phase = Phase::Ready(ready);
        store
    }

    /// The refusals, 0 for none, of the disk alone and of the store, told that write 1 is answered.
    pub fn answers(&self) -> [u8; 2] {
        let mut store = self.store();
        let disk = ask(sound::disk(store.geometry, &store.disk), Refusal::State)
            .and_then(|()| store.disk.ask(&Op::JournalWritten { id: ANSWERED }));
        let system = store.step(&Step::JournalWritten { id: ANSWERED });
        [disk, system].map(|answer| answer.err().map_or(0, Refusal::number))
    }
}

/// The lines without their line feeds; nothing behind the last line feed is no line.
pub fn lines(input: &[u8]) -> impl Iterator<Item = &[u8]> {
    input.split_inclusive(|byte| *byte == b'\n').map(|line| line.strip_suffix(b"\n").unwrap_or(line))
}

fn row(n: usize, line: &[u8]) -> String {
    match Handed::parse(line).map(|handed| handed.answers()) {
        Some([disk, system]) => format!("{n} {disk} {system}\n"),
        None => format!("line {n} is not a store\n"),
    }
}

/// The header, and a row for each line.
pub fn rows(input: &[u8]) -> String {
    let rows = (1..).zip(lines(input)).map(|(n, line)| row(n, line));
    [format!("{HEADER}\n")].into_iter().chain(rows).collect()
}

/// The whole input, or why there is none.
fn read(input: impl Read) -> Result<Vec<u8>, String> {
    let mut bytes = vec![];
    // A byte more shows that the input is too long.
    let read = input.take(LONGEST_INPUT as u64 + 1).read_to_end(&mut bytes);
    read.map_err(|_| "standard input can't be read")?;
    if bytes.len() > LONGEST_INPUT {
        return Err(format!("the input has more than {LONGEST_INPUT} bytes"));
    }
    Ok(bytes)
}

/// Reads lines and prints their rows; false where nothing was read or not all was printed.
pub fn run(input: impl Read, mut output: impl Write, mut errors: impl Write) -> bool {
    let printed = read(input).and_then(|bytes| {
        let printed = output.write_all(rows(&bytes).as_bytes()).and_then(|()| output.flush());
        printed.map_err(|_| "the rows can't be written".into())
    });
    if let Err(what) = &printed {
        // Where this fails there is no place left to say so.
        drop(errors.write_all(format!("handed: {what}\n").as_bytes()));
    }
    printed.is_ok()
}
