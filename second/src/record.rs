//! The program `record`: the record of a disk, from its bytes, N and T.

use std::ffi::{OsStr, OsString};
use std::fs::File;
use std::io::{Read, Write};

use crate::image::{self, Image};
use crate::layout::{Geometry, Interval};
use crate::range::{self, Entry};
use crate::sectors::reason;
use crate::superblock::Superblock;
use crate::text::{digits, number};
use crate::{sector, Refusal};

/// The most blocks that the program takes; document 01 has up to 4,096.
pub const MOST_BLOCKS: u64 = 256;

pub const EXPECTED: &str = "expected FILE N T: a disk's bytes, its journal blocks, the greatest table length";

/// What a slot holds: a sector that is refused, an ill-formed superblock, or a sound one.
enum Slot {
    Refused(Refusal),
    Ill(Superblock),
    Sound(Superblock),
}

impl Slot {
    fn read(g: Geometry, sector: &[u8]) -> Self {
        match sector::read(sector) {
            Err(refusal) => Slot::Refused(refusal),
            Ok(superblock) if superblock.well_formed(g) => Slot::Sound(superblock),
            Ok(superblock) => Slot::Ill(superblock),
        }
    }

    /// Its refusal, or 0, and the five numbers where they can be read.
    fn row(&self, slot: usize) -> String {
        let row = |refusal: u8, s: &Superblock| {
            s.numbers().iter().fold(format!("slot {slot} {refusal}"), |row, x| format!("{row} {x}")) + "\n"
        };
        match self {
            Slot::Refused(refusal) => format!("slot {slot} {}\n", refusal.number()),
            Slot::Ill(superblock) => row(Refusal::State.number(), superblock),
            Slot::Sound(superblock) => row(0, superblock),
        }
    }
}

/// Both superblocks, or the refusal: slot 1's sector, slot 2's, and then the form of either.
fn sound(slots: &[Slot; 2]) -> Result<[Superblock; 2], Refusal> {
    match slots {
        [Slot::Refused(refusal), _] | [_, Slot::Refused(refusal)] => Err(*refusal),
        [Slot::Sound(one), Slot::Sound(two)] => Ok([*one, *two]),
        _ => Err(Refusal::State),
    }
}

fn refused(refusal: Refusal) -> String {
    format!("refused {}\n", refusal.number())
}

fn piece(name: &str, piece: Option<Interval>) -> String {
    piece.map_or(String::new(), |Interval { start, len }| format!("{name} {start} {len}\n"))
}

/// A range from this block on, its entries numbered from `first` on.
fn range_rows(block: u64, entries: &[Entry], first: usize) -> String {
    let head = format!("range {block} {} {}\n", range::blocks(entries), entries.len());
    let entry = |(k, entry): (usize, &Entry)| format!("entry {k} {} {}\n", entry.len(), digits(entry));
    [head].into_iter().chain((first..).zip(entries).map(entry)).collect()
}

/// The interval's ranges, to its last block, and how much they hold.
fn record_rows(image: &Image, journal: Interval) -> String {
    let Some(ranges) = range::read_ranges(&image.journal(journal)) else { return refused(Refusal::Parse) };
    let (mut rows, mut block, mut count) = (String::new(), journal.start, 0);
    for entries in &ranges {
        rows += &range_rows(block, entries, count + 1);
        block = image.geometry.advance(block, range::blocks(entries) as u64);
        count += entries.len();
    }
    let bytes: usize = ranges.iter().flatten().map(Vec::len).sum();
    rows + &format!("record {count} {bytes}\n")
}

/// All rows of a disk.
pub fn rows(image: &Image) -> String {
    let g = image.geometry;
    let slots = [0, 1].map(|k| Slot::read(g, &image.bytes[image::slot(k)]));
    let heads = slots[0].row(1) + &slots[1].row(2);
    let superblocks = match sound(&slots) {
        Ok(superblocks) => superblocks,
        Err(refusal) => return heads + &refused(refusal),
    };
    let journal = superblocks[Superblock::select(&superblocks)].journal();
    let selected = format!("selected {}\n", reason(&superblocks));
    let pieces = piece("front", g.front(journal)) + &piece("back", g.back(journal));
    heads + &selected + &pieces + &record_rows(image, journal)
}

/// A word's number, where it is one up to `most`; else what the word should be.
fn size(what: &str, word: &OsStr, most: u64) -> Result<u64, Vec<u8>> {
    let number = word.to_str().and_then(number).filter(|x| (1..=most).contains(x));
    let expected = format!("{what} is a number from 1 to {most}, not ");
    number.ok_or_else(|| [expected.as_bytes(), word.as_encoded_bytes()].concat())
}

fn geometry(n: &OsStr, t: &OsStr) -> Result<Geometry, Vec<u8>> {
    let n = size("N", n, 4096)?;
    if n > MOST_BLOCKS {
        let most = format!("N is at most {MOST_BLOCKS} here; the library takes up to 4096 (docs/LINKING.md)");
        return Err(most.into_bytes());
    }
    let t = size("T", t, 16_777_216)?;
    Ok(Geometry::new(n, t).expect("N and T are in range"))
}

/// As many bytes of the file as are looked at; what lies behind them isn't read.
fn read(file: &OsStr, n: &OsStr, t: &OsStr) -> Result<Image, Vec<u8>> {
    let named = |what: &[u8]| [file.as_encoded_bytes(), what].concat();
    let geometry = geometry(n, t).map_err(|what| named(&[b": ", &what[..]].concat()))?;
    let (size, mut bytes) = (image::size(geometry), vec![]);
    let opened = File::open(file).and_then(|file| file.take(size as u64).read_to_end(&mut bytes));
    opened.map_err(|error| image::of_file(file, &error))?;
    if bytes.len() < size {
        let short = format!(" has {} bytes, and N = {} takes {size}", bytes.len(), geometry.n());
        return Err(named(short.as_bytes()));
    }
    Ok(Image { geometry, bytes })
}

/// Prints the record of each disk that is named; false where one couldn't be read or not all was printed. A disk that
/// can't be read keeps no other back; rows that can't be written end it.
pub fn run(arguments: &[OsString], mut output: impl Write, mut errors: impl Write) -> bool {
    // Where this fails there is no place left to say so.
    let mut say = |what: &[u8]| drop(errors.write_all(&[b"record: ", what, b"\n"].concat()));
    let disks = arguments.chunks_exact(3);
    if arguments.is_empty() || !disks.remainder().is_empty() {
        say(EXPECTED.as_bytes());
        return false;
    }
    let mut all = true;
    for disk in disks {
        match read(&disk[0], &disk[1], &disk[2]) {
            Ok(image) => {
                let printed = output.write_all(rows(&image).as_bytes()).and_then(|()| output.flush());
                if printed.is_err() {
                    say(b"the rows can't be written");
                    return false;
                }
            }
            Err(what) => {
                say(&what);
                all = false;
            }
        }
    }
    all
}
