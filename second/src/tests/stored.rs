//! Disks that were written before: block lines, and the ledger that begins with what they hold.

use super::{g, play, reload, superblock};
use crate::layout::BLOCK;
use crate::ledger::Ledger;
use crate::machine::Phase;
use crate::range::{self, Entry};
use crate::store::Store;
use crate::superblock::Superblock;
use crate::text::{block_line, disk_line, parse_call, parse_step, Line, Reader};
use crate::trace;

fn rows(lines: &[&str]) -> Vec<String> {
    let (mut output, day) = (vec![], lines.iter().map(|line| format!("{line}\n")).collect::<String>());
    assert!(trace::play(day.as_bytes(), &mut output).unwrap().is_some());
    String::from_utf8(output).unwrap().lines().map(String::from).collect()
}

const DISK: &str = "disk 2 1 0 0 0 16384 1 0 0 0 16384 1";

/// A block line has no row and counts as a line; the check number has its mark, its bytes and the zeros behind them.
#[test]
fn a_block_line_is_content() {
    let rows = rows(&[DISK, "block 1 4a4B", "noop", "block 1 4a", "crash"]);
    let slot = [0u64, 0, 0, 16_384, 1].map(u64::to_le_bytes).concat();
    let bytes = [slot.clone(), slot, vec![0, 1, 0x4a, 0x4b], vec![0; BLOCK - 2]].concat();
    let h = bytes.iter().fold(0u64, |h, b| (h * 257 + u64::from(*b) + 1) % 4_294_967_291);
    let row = |n| format!("{n} 0 S - - - - - - - - - - 0 0 0 {h}");
    assert_eq!(rows, [trace::HEADER.into(), row(2), "line 3 is not a step".into(), row(4)]);
}

/// Of two lines for one block the later counts; a line without bytes makes it readable too.
#[test]
fn the_later_block_line_counts() {
    let last = |lines: &[&str]| {
        let day = [&[DISK][..], lines, &["noop"]].concat();
        rows(&day)[1].rsplit_once(' ').unwrap().1.to_string()
    };
    assert_eq!(last(&["block 0 4142", "block 0 43"]), last(&["block 0 43"]));
    assert_eq!(last(&["block 0 4142", "block 0"]), last(&["block 0 0000"]));
    assert_ne!(last(&["block 0"]), last(&[]));
    assert_eq!(last(&["block 0 43", "block 1"]), last(&["block 1", "block 0 43"]));
}

#[test]
fn what_a_block_line_is() {
    let read = |line: &str| Reader::new(g()).read(line.as_bytes());
    let most = "ab".repeat(BLOCK);
    assert_eq!(read("block 7 41"), Line::Block(7, vec![0x41]));
    assert_eq!(read(" block\t007 4F4f\r"), Line::Block(7, vec![0x4f; 2]));
    assert_eq!(read("block 0"), Line::Block(0, vec![]));
    assert_eq!(read(&format!("block 0 {most}")), Line::Block(0, vec![0xab; BLOCK]));
    let wrong =
        ["block", "block 8", "block 0 4", "block 0 4g", "block 0 41 42", "Block 0", "block -1", "block 0x0"];
    assert!(wrong.iter().all(|line| read(line) == Line::Other));
    assert_eq!(read(&format!("block 0 {most}00")), Line::Other);
    for bytes in [vec![], vec![0, 1, 0xfe]] {
        assert_eq!(read(&block_line(3, &bytes)), Line::Block(3, bytes));
    }
}

/// Their time ends with the first step, a refused one too; other lines don't end it.
#[test]
fn late_block_lines() {
    let mut reader = Reader::new(g());
    let mut read = |line: &str| reader.read(line.as_bytes());
    assert_eq!([read("brew"), read("block 8")], [Line::Other, Line::Other]);
    assert_eq!(read("block 1"), Line::Block(1, vec![]));
    assert_eq!(read("f1"), Line::Step(parse_call(b"f1").unwrap()));
    assert_eq!([read("block 1"), read("block 8")], [Line::Late, Line::Other]);
}

/// A store whose selected journal, from block 6 on and round the ring's end, holds these ranges.
pub(super) fn stored(ranges: &[Vec<Entry>]) -> Store {
    let bytes = ranges.iter().flat_map(|entries| range::write(entries)).collect::<Vec<u8>>();
    let selected = Superblock { start: 6, len: (bytes.len() / BLOCK) as u64, ..superblock(5) };
    let slots = [superblock(4), selected];
    let blocks = (0..).zip(bytes.chunks(BLOCK)).map(|(k, bytes)| block_line((6 + k) % 8, bytes));
    trace::first_store([disk_line(g(), &slots)].into_iter().chain(blocks)).expect("a disk")
}

fn ranges() -> Vec<Vec<Entry>> {
    let long: Vec<Entry> = (1..=17).map(|k| vec![k; 255]).collect();
    vec![vec![vec![0x41], vec![0, 0]], long, vec![vec![0x42]]]
}

#[test]
fn a_ledger_begins_with_what_is_stored() {
    let mut store = stored(&ranges());
    let mut ledger = Ledger::new(&store).expect("it can be loaded");
    assert_eq!((ledger.start, ledger.len(), ledger.entries().count()), (6, 4, 20));
    reload(&mut store);
    assert!(ledger.shown_by(&store));
    let Phase::Ready(ready) = &store.machine.phase else { panic!("not ready") };
    assert_eq!(ready.replay, ranges().concat());
    let entries = ready.replay.clone();
    // A log commit keeps them, and a location commit drops them.
    let mut taken = |day: &str| {
        for line in day.split(", ") {
            let refused = play(&mut store, line) != [0];
            assert!(!refused, "{line}");
            ledger.feed(&parse_step(line.as_bytes()).unwrap(), refused);
        }
        let mut copy = store.clone();
        copy.crash(None);
        reload(&mut copy);
        assert!(ledger.shown_by(&copy), "{day}");
        (ledger.start, ledger.len())
    };
    for chunk in entries.chunks(16) {
        taken(&crate::store::Step::Replay(chunk.to_vec()).to_string());
    }
    assert_eq!(taken("add 43, wj 1, aj 1, cl 2, land 0, ac 2"), (6, 5));
    assert_eq!(taken("freeze, loc 45056 1, add 44, wj 1, aj 1, co 2, land 1, ac 2"), (3, 1));
}

/// Nothing can be loaded, and so there is no ledger, where a block isn't readable or the blocks don't parse.
#[test]
fn no_ledger() {
    let with = |alter: fn(&mut Store)| {
        let mut store = stored(&ranges());
        alter(&mut store);
        Ledger::new(&store).is_some()
    };
    assert!(with(|_| {}) && with(|s| s.disk.journal.marks[2] = false));
    assert!(with(|s| s.disk.journal.blocks[6][6] ^= 1), "a body's byte: another entry");
    assert!(!with(|s| s.disk.journal.marks[7] = false));
    assert!(!with(|s| s.disk.journal.blocks[6][0] ^= 1));
    assert!(!with(|s| s.disk.journal.blocks[1][BLOCK - 1] ^= 1));
    assert!(!with(|s| s.disk.slots[0] = s.disk.slots[0].map(|s| Superblock { start: 8, ..s })));
}
