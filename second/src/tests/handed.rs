//! The program `handed`: its rows and messages, and question 2 held to the blocks that intervals have.

use std::collections::BTreeSet;
use std::io::Read;

use super::sectors::{Full, Slow};
use crate::handed::{geometry, lines, rows, run, Handed, ANSWERS, HEADER, LONGEST_INPUT};
use crate::handed_inputs::{self, LINES};
use crate::handed_situations::{met, situations};
use crate::layout::Interval;

/// Both outputs for an input that can be read and rows that can be written.
fn printed(input: impl Read) -> (String, String) {
    let (mut output, mut errors) = (vec![], vec![]);
    assert!(run(input, &mut output, &mut errors));
    (String::from_utf8(output).unwrap(), String::from_utf8(errors).unwrap())
}

/// The table of docs/HANDED.md.
const PAGE: &[(&str, &str)] = &[
    ("1 4 3 0", "1 0 0"),
    ("1 4 3 1", "2 0 2"),
    ("3 0 1 4", "3 0 0"),
    ("6 0 1 4 2 1", "4 0 2"),
    ("6 0 1 4 3 0", "5 0 0"),
    ("6 5 0 0", "6 0 0"),
    ("1 4", "7 5 5"),
    ("8 0 0 1", "8 0 2"),
    ("0 0 8 1", "9 2 2"),
    ("0 0 7 2", "10 2 2"),
    ("1 4 3", "line 11 is not a store"),
    ("8 0", "12 5 2"),
];

#[test]
fn rows_of_the_page() {
    let (lines, right): (Vec<_>, Vec<_>) = PAGE.iter().copied().unzip();
    let right = format!("{HEADER}\n{}\n", right.join("\n"));
    for end in ["\n", ""] {
        assert_eq!(printed((lines.join("\n") + end).as_bytes()), (right.clone(), String::new()));
    }
    assert_eq!(printed(Slow::new(lines.join("\n").as_bytes(), false)).0, right);
    assert_eq!(rows(b""), "n d s\n");
    assert_eq!(rows(b"\n"), "n d s\nline 1 is not a store\n");
}

/// The store of a line is the one that the page tells.
#[test]
fn the_store_of_a_line() {
    let store = Handed::parse(b"6 5 3 2 5 1").unwrap().store();
    let slots = store.disk.slots.map(|s| s.unwrap().numbers());
    assert_eq!(slots, [[7, 0, 0, 40_960, 4096], [8, 6, 5, 40_960, 4096]]);
    let writes: Vec<_> = store.disk.journal_writes.iter().map(|(id, i)| (*id, i.start, i.len)).collect();
    assert_eq!(writes, [(1, 3, 2), (2, 5, 1)]);
    assert!(store.disk.journal.marks.iter().all(|mark| *mark));
    let row = crate::trace::row(1, Ok(()), &store);
    assert!(row.starts_with("1 0 R 8 6 5 5 0 0 0 0 2 0 0 0 0 "), "{row}");
}

/// The answers by blocks: what lies in the ring, and whether two have a block in common.
fn by_blocks(selected: Interval, writes: &[Interval]) -> [u8; 2] {
    let blocks = |i: Interval| (i.start..i.start + i.len).map(|b| b % 8).collect::<BTreeSet<u64>>();
    let disk = writes.iter().all(|i| i.start < 8 && i.start + i.len <= 8);
    let well_formed = selected.start < 8 && selected.len <= 8;
    let all: Vec<BTreeSet<u64>> = [selected].iter().chain(writes).map(|i| blocks(*i)).collect();
    let apart = (1..all.len()).all(|k| all[..k].iter().all(|earlier| earlier.is_disjoint(&all[k])));
    let known = if writes.is_empty() { 5 } else { 0 };
    let refusal = |state: bool| if state { known } else { 2 };
    [refusal(disk), refusal(disk && well_formed && apart)]
}

/// Each selected interval with each write, each pair of writes, and some beyond the bounds.
#[test]
fn every_store_of_one_write_or_two() {
    let intervals = || (0..=8).flat_map(|start| (0..=9).map(move |len| Interval::new(start, len)));
    let held = |selected: Interval, writes: &[Interval]| {
        let answers = Handed { selected, writes: writes.to_vec() }.answers();
        assert_eq!(answers, by_blocks(selected, writes), "{selected:?}, {writes:?}");
    };
    for selected in intervals() {
        held(selected, &[]);
        intervals().for_each(|write| held(selected, &[write]));
    }
    for one in intervals().filter(|i| geometry().valid(*i)) {
        intervals().for_each(|two| held(Interval::new(3, 0), &[one, two]));
        intervals().for_each(|two| held(Interval::new(6, 4), &[one, two]));
    }
}

#[test]
fn inputs_that_are_too_long_or_cannot_be_read() {
    let refused = |input: &mut dyn Read| {
        let (mut output, mut errors) = (vec![], vec![]);
        assert!(!run(input, &mut output, &mut errors));
        assert_eq!(output, b"");
        String::from_utf8(errors).unwrap()
    };
    let line = format!("1 4 3{}0\n", " ".repeat(LONGEST_INPUT - 7));
    assert_eq!(printed(line.as_bytes()), ("n d s\n1 0 0\n".into(), String::new()));
    let long = format!("{line}\n");
    assert_eq!(refused(&mut long.as_bytes()), "handed: the input has more than 65536 bytes\n");
    assert_eq!(
        refused(&mut Slow::new(long.as_bytes(), true)),
        "handed: the input has more than 65536 bytes\n"
    );
    for input in ["", "1 4 3 0\n", &line] {
        let failing = &mut Slow::new(input.as_bytes(), true);
        assert_eq!(refused(failing), "handed: standard input can't be read\n");
    }
}

#[test]
fn rows_that_cannot_be_written() {
    for room in [0, 1, 8, 10_000] {
        let mut errors = vec![];
        assert!(!run(&b"1 4 3 0\n"[..], Full { room }, &mut errors));
        assert_eq!(errors, b"handed: the rows can't be written\n", "room for {room}");
    }
    assert!(!run(&b""[..], Full { room: 0 }, Full { room: 0 }));
}

/// The lines of two hundred seeds meet each situation and each pair of answers, and no other pair.
#[test]
fn random_lines() {
    let (mut seen, mut answers) = (BTreeSet::new(), BTreeSet::new());
    for seed in 1..=200 {
        let texts = handed_inputs::lines(seed);
        let input = handed_inputs::input(seed, &texts);
        assert!(input.len() < LONGEST_INPUT / 2, "seed {seed}: {} bytes", input.len());
        assert!(lines(&input).eq(texts.iter().map(|text| text.as_bytes())) && texts.len() == LINES);
        seen.extend(texts.iter().flat_map(|text| met(text)));
        let rows = rows(&input);
        let pairs = rows.lines().skip(1).filter_map(|row| row.split_once(' '));
        answers.extend(pairs.filter(|(first, _)| *first != "line").map(|(_, pair)| pair.to_string()));
    }
    assert_eq!(seen, situations().into_iter().collect());
    assert_eq!(answers, ANSWERS.map(String::from).into());
}
