//! The program `sectors`: its rows and messages, and the random inputs it is compared on.

use std::collections::BTreeSet;
use std::io::{self, Error, ErrorKind, Read, Write};

use crate::sector::{written, SECTOR};
use crate::sector_inputs::{situations, Input};
use crate::sectors::{run, SELECTED};
use crate::superblock::Superblock;

fn sector(counter: u64) -> Vec<u8> {
    written(&Superblock::from_numbers([counter, 6, 5, 40_960, 4096]))
}

fn disk(one: u64, two: u64) -> Vec<u8> {
    [sector(one), sector(two)].concat()
}

/// Both outputs for an input that can be read and rows that can be written.
fn printed(input: impl Read) -> (String, String) {
    let (mut output, mut errors) = (vec![], vec![]);
    assert!(run(input, &mut output, &mut errors));
    (String::from_utf8(output).unwrap(), String::from_utf8(errors).unwrap())
}

fn rows(input: &[u8]) -> String {
    let (output, errors) = printed(input);
    assert_eq!(errors, "");
    output
}

/// Bytes one at a time, an interrupted read before each; then the input's end, or a failure.
pub(super) struct Slow<'a> {
    bytes: &'a [u8],
    fails: bool,
    interrupted: bool,
}

impl<'a> Slow<'a> {
    pub(super) fn new(bytes: &'a [u8], fails: bool) -> Self {
        Slow { bytes, fails, interrupted: false }
    }
}

impl Read for Slow<'_> {
    fn read(&mut self, into: &mut [u8]) -> io::Result<usize> {
        self.interrupted = !self.interrupted;
        if self.interrupted {
            return Err(ErrorKind::Interrupted.into());
        }
        if self.bytes.is_empty() && self.fails {
            return Err(Error::other("a read failed"));
        }
        let len = into.len().min(1);
        self.bytes.read(&mut into[..len])
    }
}

/// Takes some bytes, then fails; or takes all and fails when it is flushed.
pub(super) struct Full {
    pub(super) room: usize,
}

impl Write for Full {
    fn write(&mut self, bytes: &[u8]) -> io::Result<usize> {
        let taken = bytes.len().min(self.room);
        self.room -= taken;
        if taken == 0 {
            Err(ErrorKind::StorageFull.into())
        } else {
            Ok(taken)
        }
    }

    fn flush(&mut self) -> io::Result<()> {
        Err(ErrorKind::StorageFull.into())
    }
}

#[test]
fn rows_of_the_page() {
    let slot = |counter: u64, len: u64| written(&Superblock::from_numbers([counter, 6, len, 40_960, 4096]));
    let mut disk = [slot(7, 5), slot(8, 6)].concat();
    let one = "slot 1 0 7 6 5 40960 4096\n";
    let follows = "slot 2 0 8 6 6 40960 4096\nselected 2: its counter follows slot 1's\n";
    assert_eq!(rows(&disk), format!("{one}{follows}"));
    disk[SECTOR + 64] += 1;
    assert_eq!(rows(&disk), format!("{one}slot 2 12\nselected none: slot 2 is refused\n"));
    disk[SECTOR - 1] = 1;
    assert_eq!(rows(&disk), "slot 1 11\nslot 2 12\nselected none: both slots are refused\n");
    disk[SECTOR + 64] -= 1;
    let two = "slot 2 0 8 6 6 40960 4096\n";
    assert_eq!(rows(&disk), format!("slot 1 11\n{two}selected none: slot 1 is refused\n"));
    disk[13] = 1;
    assert_eq!(rows(&disk), format!("slot 1 10\n{two}selected none: slot 1 is refused\n"));
}

#[test]
fn selections() {
    let max = u64::MAX;
    let last = |one, two| rows(&disk(one, two)).lines().last().unwrap().to_string();
    let pairs = [(7, 8), (max, 0), (7, 7), (max, max), (8, 7), (0, max), (7, 9), (9, 7), (1, max), (max, 1)];
    let right = [0, 0, 1, 1, 2, 2, 3, 3, 3, 3].map(|k| format!("selected {}", SELECTED[k]));
    assert_eq!(pairs.map(|(one, two)| last(one, two)), right);
}

#[test]
fn short_and_long_inputs() {
    let disk = [disk(7, 8), vec![1; SECTOR]].concat();
    let none = "slot 1 10\nslot 2 10\nselected none: both slots are refused\n";
    let half = "slot 1 0 7 6 5 40960 4096\nslot 2 10\nselected none: slot 2 is refused\n";
    for len in [0, 1, 13, 904, 4095, 4096, 4097, 8191] {
        let (output, errors) = printed(&disk[..len]);
        assert_eq!(output, if len < SECTOR { none } else { half }, "{len} bytes");
        let line = |slot: u8, len: usize| format!("sectors: slot {slot} has {len} of 4096 bytes\n");
        let one = if len < SECTOR { line(1, len) } else { String::new() };
        assert_eq!(errors, one + &line(2, len.saturating_sub(SECTOR)), "{len} bytes");
    }
    let whole = rows(&disk[..2 * SECTOR]);
    for len in [8193, 12_288] {
        let goes_on = "sectors: the input goes on after 8192 bytes, which were not read\n";
        assert_eq!(printed(&disk[..len]), (whole.clone(), goes_on.into()), "{len} bytes");
    }
    // A read behind the first byte too many isn't made.
    assert_eq!(printed(Slow::new(&disk[..8193], true)).0, whole);
}

#[test]
fn slow_inputs() {
    let disk = disk(7, 8);
    for len in [0, 5000, 8192] {
        assert_eq!(printed(Slow::new(&disk[..len], false)), printed(&disk[..len]));
    }
}

#[test]
fn inputs_that_cannot_be_read() {
    let disk = disk(7, 8);
    for len in [0, 1, 4096, 8191, 8192] {
        let (mut output, mut errors) = (vec![], vec![]);
        assert!(!run(Slow::new(&disk[..len], true), &mut output, &mut errors));
        assert_eq!(output, b"", "after {len} bytes");
        assert_eq!(errors, b"sectors: standard input can't be read\n", "after {len} bytes");
    }
}

#[test]
fn rows_that_cannot_be_written() {
    let disk = disk(7, 8);
    for room in [0, 1, 40, 10_000] {
        for (len, before) in [(8192, ""), (4100, "sectors: slot 2 has 4 of 4096 bytes\n")] {
            let mut errors = vec![];
            assert!(!run(&disk[..len], Full { room }, &mut errors));
            let right = format!("{before}sectors: the rows can't be written\n");
            assert_eq!(String::from_utf8(errors).unwrap(), right, "room for {room}");
        }
    }
    // With no place for messages the rows are printed none the less.
    let mut output = vec![];
    assert!(run(&disk[..4096], &mut output, Full { room: 0 }));
    assert_eq!(output, printed(&disk[..4096]).0.as_bytes());
}

/// Three thousand random inputs meet each situation, each pair of answers and each last row.
#[test]
fn random_inputs() {
    let (mut met, mut pairs, mut last) = (BTreeSet::new(), BTreeSet::new(), BTreeSet::new());
    for seed in 1..=3000 {
        let input = Input::new(seed);
        let (output, _) = printed(&input.bytes[..]);
        let rows: Vec<&str> = output.lines().collect();
        let answers = [rows[0], rows[1]].map(|row| row.split(' ').nth(2).unwrap().parse::<u8>().unwrap());
        for (answer, damage) in answers.iter().zip(input.slots) {
            let right = damage.map_or(&[10][..], |(_, refusals, _)| refusals);
            assert!(right.contains(answer), "seed {seed}: {output}{:?}", input.situations());
        }
        pairs.insert(answers);
        last.insert(rows[2].to_string());
        met.extend(input.situations());
    }
    assert_eq!(met, situations().into_iter().collect());
    assert_eq!(last, SELECTED.map(|row| format!("selected {row}")).into());
    assert_eq!(pairs.len(), 16);
}
