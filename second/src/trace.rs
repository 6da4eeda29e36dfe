//! The trace: a day in, one row a step out.

use std::ffi::OsString;
use std::fmt::Write as _;
use std::io::{self, BufRead, BufReader, BufWriter, Read, Write};

use crate::image::Image;
use crate::machine::{Phase, Piece};
use crate::range::Entry;
use crate::store::Store;
use crate::superblock::Superblock;
use crate::text::{parse_disk, Line, Reader, LONGEST_LINE};
use crate::Refusal;

pub const HEADER: &str = "n r k c s l w z f p m o y q1 q2 q3 h";

/// The check number: each byte b by h = (h * 257 + b + 1) mod 4,294,967,291.
#[derive(Default)]
struct Check(u64);

impl Check {
    const MODULUS: u64 = 4_294_967_291;

    fn bytes(&mut self, bytes: &[u8]) {
        // Three bytes fit 64 bits before the remainder must be taken.
        let mut chunks = bytes.chunks_exact(3);
        for c in &mut chunks {
            let low = (u64::from(c[0]) + 1) * 257 * 257 + (u64::from(c[1]) + 1) * 257 + u64::from(c[2]) + 1;
            self.0 = (self.0 * (257 * 257 * 257) + low) % Self::MODULUS;
        }
        for b in chunks.remainder() {
            self.0 = (self.0 * 257 + u64::from(*b) + 1) % Self::MODULUS;
        }
    }

    fn entries<'a>(&mut self, entries: impl Iterator<Item = &'a Entry> + Clone) {
        entries.clone().for_each(|e| self.bytes(&(e.len() as u16).to_le_bytes()));
        entries.for_each(|e| self.bytes(e));
    }
}

/// The check number of the store's whole visible content.
pub fn check(store: &Store) -> u64 {
    let mut h = Check::default();
    let disk = &store.disk;
    for x in disk.slots.iter().flatten().flat_map(Superblock::numbers) {
        h.bytes(&x.to_le_bytes());
    }
    for (mark, block) in disk.journal.marks.iter().zip(&disk.journal.blocks) {
        h.bytes(&[u8::from(*mark)]);
        if *mark {
            h.bytes(block);
        }
    }
    match &store.machine.phase {
        Phase::Superblocks(_) => {}
        Phase::Journal(loading) => {
            for piece in &loading.pieces {
                if let Piece::In(bytes) = piece {
                    h.bytes(bytes);
                }
            }
        }
        Phase::Ready(r) => {
            h.entries(r.frozen.iter().chain(&r.memory));
            h.entries(r.replay_left().iter());
        }
    }
    h.0
}

/// The row after step `n` with its result.
pub fn row(n: u64, result: Result<(), Refusal>, store: &Store) -> String {
    let refusal = result.err().map_or(0, Refusal::number);
    let mut row = match &store.machine.phase {
        Phase::Superblocks(_) => format!("{n} {refusal} S - - - - - - - - - -"),
        Phase::Journal(l) => {
            let s = l.superblock;
            format!("{n} {refusal} O {} {} {} - - - - - - -", s.counter, s.start, s.len)
        }
        Phase::Ready(r) => {
            let s = r.superblock;
            format!(
                "{n} {refusal} R {} {} {} {} {} {} {} {} {} {}",
                s.counter,
                s.start,
                s.len,
                r.written,
                u8::from(r.is_frozen),
                r.frozen_position,
                r.frozen.len(),
                r.memory.len(),
                r.outstanding.len(),
                r.replay_left().len()
            )
        }
    };
    for count in store.machine.sync_counts() {
        let _ = write!(row, " {count}");
    }
    let _ = write!(row, " {}", check(store));
    row
}

/// The next line without its line feed, or none at the input's end. Of one that is too long, a byte
/// more than the longest is kept, and the rest passed over.
fn next_line<'a>(input: &mut impl BufRead, line: &'a mut Vec<u8>) -> io::Result<Option<&'a [u8]>> {
    line.clear();
    if input.by_ref().take(LONGEST_LINE as u64 + 1).read_until(b'\n', line)? == 0 {
        return Ok(None);
    }
    if line.pop_if(|b| *b == b'\n').is_none() && line.len() > LONGEST_LINE {
        input.skip_until(b'\n')?;
    }
    Ok(Some(line))
}

/// The store that a day's first step finds: its disk, with the blocks that the lines before that step give.
pub fn first_store<L: AsRef<[u8]>>(lines: impl IntoIterator<Item = L>) -> Option<Store> {
    let mut lines = lines.into_iter();
    let (geometry, slots) = parse_disk(lines.next()?.as_ref())?;
    let (mut store, mut reader) = (Store::new(geometry, slots), Reader::new(geometry));
    for line in lines {
        match reader.read(line.as_ref()) {
            Line::Block(k, bytes) => store.disk.journal.put(k, &bytes),
            Line::Step(_) => break,
            Line::Late | Line::Other => {}
        }
    }
    Some(store)
}

/// Plays a day, line by line; rows go out as soon as no more input is at hand. The store at the day's end, or none
/// where the first line isn't a disk.
pub fn play(input: impl Read, output: impl Write) -> io::Result<Option<Store>> {
    let mut input = BufReader::with_capacity(1 << 16, input);
    let mut output = BufWriter::with_capacity(1 << 16, output);
    let mut line = Vec::new();
    let Some((geometry, slots)) = next_line(&mut input, &mut line)?.and_then(parse_disk) else {
        writeln!(output, "line 0 is not a disk")?;
        return output.flush().map(|()| None);
    };
    let (mut store, mut reader) = (Store::new(geometry, slots), Reader::new(geometry));
    writeln!(output, "{HEADER}")?;
    for n in 1.. {
        if input.buffer().is_empty() {
            output.flush()?;
        }
        let Some(line) = next_line(&mut input, &mut line)? else { break };
        match reader.read(line) {
            Line::Block(k, bytes) => store.disk.journal.put(k, &bytes),
            Line::Step(call) => {
                let (_, result) = call.take(&mut store);
                writeln!(output, "{}", row(n, result, &store))?;
            }
            Line::Late | Line::Other => writeln!(output, "line {n} is not a step")?,
        }
    }
    output.flush().map(|()| Some(store))
}

/// Plays a day, and keeps its disk in the file that is named; else what is to be said.
fn kept(files: &[OsString], input: impl Read, output: impl Write) -> Result<bool, Vec<u8>> {
    if files.len() > 1 {
        return Err(b"expected at most one argument, a file for the disk's bytes".to_vec());
    }
    let store = play(input, output).map_err(|error| error.to_string().into_bytes())?;
    if let (Some(store), Some(file)) = (&store, files.first()) {
        Image::new(store).keep(file)?;
    }
    Ok(store.is_some())
}

/// The program: plays a day; false where the first line isn't a disk, or something was said.
pub fn run(files: &[OsString], input: impl Read, output: impl Write, mut errors: impl Write) -> bool {
    kept(files, input, output).unwrap_or_else(|what| {
        // Where this fails there is no place left to say so.
        drop(errors.write_all(&[b"trace: ", &what[..], b"\n"].concat()));
        false
    })
}
