//! Document 02's S-4: what the loading driver names, in which order and under which id, what refuses it, and that
//! loads by it come up on random days.

use std::collections::{BTreeMap, BTreeSet};

use super::stored::stored;
use super::{g, loaded, play, superblock};
use crate::days::{Day, Options};
use crate::disk::{Disk, Journal};
use crate::driven::{Driven, DRIVEN};
use crate::driver::{least, next, Call};
use crate::layout::Interval;
use crate::ledger::Ledger;
use crate::machine::{Phase, Piece, Slot};
use crate::store::{Step, Store};
use crate::superblock::Superblock;
use crate::text::{parse_call, Line, Reader};
use crate::trace::first_store;
use crate::{conformance, sound, Refusal};

/// A store that was read from before: its journal goes round the ring's end.
fn two_pieces() -> Store {
    stored(&[vec![vec![0x41]], vec![vec![0x42]], vec![vec![0x43]]])
}

fn is_up(store: &Store) -> bool {
    matches!(store.machine.phase, Phase::Ready(_))
}

/// The steps that the driver names, as lines, up to R.
fn driven(mut store: Store) -> Vec<String> {
    let mut lines = vec![];
    while !is_up(&store) {
        lines.push(next(&store).expect("a step").to_string());
        assert_eq!(play(&mut store, "drive"), [0], "{lines:?}");
    }
    assert_eq!(play(&mut store, "drive"), [3]);
    lines
}

/// The same, behind steps by hand that are taken.
fn taken_up(mut store: Store, by_hand: &str) -> String {
    assert!(play(&mut store, by_hand).iter().all(|r| *r == 0), "{by_hand}");
    driven(store).join(", ")
}

#[test]
fn the_order() {
    let store = Store::new(g(), [superblock(0); 2]);
    assert_eq!(driven(store).join(", "), "rs 0 0, as 0 0, rs 1 0, as 1 0, f1, f2");
    assert_eq!(
        driven(stored(&[vec![vec![0x41]]])).join(", "),
        "rs 0 0, as 0 0, rs 1 0, as 1 0, f1, rj 0 0, ar 0, f2"
    );
    assert_eq!(
        driven(two_pieces()).join(", "),
        "rs 0 0, as 0 0, rs 1 0, as 1 0, f1, rj 0 0, ar 0, rj 1 0, ar 0, f2"
    );
    assert_eq!(
        taken_up(two_pieces(), "rs 1 7, rs 0 8, xs 1 7, xs 0 8"),
        "again 0, rs 0 0, as 0 0, again 1, rs 1 0, as 1 0, f1, rj 0 0, ar 0, rj 1 0, ar 0, f2"
    );
}

/// Whatever is waiting, read or corrupt: slot 1 is seen through, then slot 2.
#[test]
fn slots_by_hand() {
    let load = |by_hand| taken_up(Store::new(g(), [superblock(0); 2]), by_hand);
    assert_eq!(load("rs 0 9"), "as 0 9, rs 1 0, as 1 0, f1, f2");
    assert_eq!(load("rs 1 9"), "rs 0 0, as 0 0, as 1 9, f1, f2");
    assert_eq!(load("rs 1 0"), "rs 0 1, as 0 1, as 1 0, f1, f2");
    assert_eq!(load("rs 1 1"), "rs 0 0, as 0 0, as 1 1, f1, f2");
    assert_eq!(load("rs 1 9, as 1 9"), "rs 0 0, as 0 0, f1, f2");
    assert_eq!(load("rs 1 9, xs 1 9"), "rs 0 0, as 0 0, again 1, rs 1 0, as 1 0, f1, f2");
    assert_eq!(load("rs 1 0, rs 0 9, xs 0 9"), "again 0, rs 0 1, as 0 1, as 1 0, f1, f2");
    assert_eq!(load("rs 1 0, rs 0 9, xs 0 9, again 0"), "rs 0 1, as 0 1, as 1 0, f1, f2");
    assert_eq!(load("rs 0 0, rs 1 18446744073709551615"), "as 0 0, as 1 18446744073709551615, f1, f2");
    assert_eq!(load("rs 0 0, rs 1 1, as 1 1, as 0 0"), "f1, f2");
}

#[test]
fn pieces_by_hand() {
    let superblocks = "rs 0 0, rs 1 1, as 0 0, as 1 1, f1";
    let load = |by_hand| taken_up(two_pieces(), &format!("{superblocks}{by_hand}"));
    assert_eq!(load(""), "rj 0 0, ar 0, rj 1 0, ar 0, f2");
    assert_eq!(load(", rj 0 9"), "ar 9, rj 1 0, ar 0, f2");
    assert_eq!(load(", rj 1 0"), "rj 0 1, ar 1, ar 0, f2");
    assert_eq!(load(", rj 1 9, rj 0 0"), "ar 0, ar 9, f2");
    assert_eq!(load(", rj 1 9, ar 9"), "rj 0 0, ar 0, f2");
    assert_eq!(load(", rj 0 9, ar 9"), "rj 1 0, ar 0, f2");
    assert_eq!(load(", rj 0 9, rj 1 0, xr 9"), "rj 0 1, ar 1, ar 0, f2");
    assert_eq!(load(", rj 0 9, rj 1 0, xr 0, ar 9"), "rj 1 0, ar 0, f2");
    assert_eq!(load(", rj 0 9, rj 1 0, ar 0, ar 9"), "f2");
}

/// Each of the disk's tables counts.
#[test]
fn the_least_id() {
    let mut disk = Disk::new(g(), [Some(superblock(0)); 2], Journal::empty(g()));
    assert_eq!(least(&disk), 0);
    disk.journal_writes = BTreeMap::from([(1, Interval::new(0, 1)), (u64::MAX, Interval::new(1, 1))]);
    assert_eq!(least(&disk), 0);
    disk.superblock_reads = [BTreeSet::from([0]), BTreeSet::from([4, 6])];
    assert_eq!(least(&disk), 2);
    disk.journal_reads = BTreeMap::from([(2, Interval::new(2, 1))]);
    assert_eq!(least(&disk), 3);
    disk.superblock_writes[0] = Some((5, superblock(1)));
    assert_eq!(least(&disk), 3);
    disk.superblock_writes[1] = Some((3, superblock(1)));
    assert_eq!(least(&disk), 7);
}

/// A sync request's id isn't one that the disk holds.
#[test]
fn sync_requests_hold_no_id() {
    assert_eq!(
        taken_up(Store::new(g(), [superblock(0); 2]), "push 0, push 1"),
        "rs 0 0, as 0 0, rs 1 0, as 1 0, f1, f2"
    );
}

/// A refused `drive` gives its number as often as it is asked, and alters nothing.
#[test]
fn refused() {
    let ill = Superblock { len: 9, ..superblock(0) };
    let mut unreadable = two_pieces();
    unreadable.disk.journal.marks[0] = false;
    assert_eq!(play(&mut unreadable, "drive, drive, drive, drive, drive, drive, drive, drive"), [0; 8]);
    let mut damaged = two_pieces();
    damaged.disk.journal.blocks[7][0] = 2;
    assert_eq!(play(&mut damaged, "drive, drive, drive, drive, drive, drive, drive, drive, drive"), [0; 9]);
    let mut working = loaded();
    assert_eq!(play(&mut working, "add 41, push 9, wj 1, aj 1, cl 2"), [0; 5]);
    let stores = [
        (Store::new(g(), [superblock(0), ill]), 2),
        (loaded(), 3),
        (working, 3),
        (unreadable, 6),
        (damaged, 7),
    ];
    for (mut store, number) in stores {
        let before = store.clone();
        assert_eq!(play(&mut store, "drive, drive"), [number; 2]);
        assert_eq!(store, before);
    }
}

/// The driver refuses by 2 and by 3 alone; a 6 or a 7 is the named step's own.
#[test]
fn what_is_named_where_it_is_refused() {
    let mut store = two_pieces();
    store.disk.journal.marks[6] = false;
    assert_eq!(play(&mut store, "drive, drive, drive, drive, drive, drive, drive"), [0, 0, 0, 0, 0, 0, 6]);
    assert_eq!(next(&store), Ok(Step::JournalRead { id: 0, whole: true }));
    assert_eq!(
        Call::Drive.take(&mut store),
        (Step::JournalRead { id: 0, whole: true }, Err(Refusal::Condition))
    );
    store.disk.slots[1] = None;
    assert_eq!(Call::Drive.take(&mut store), (Step::NoOp, Err(Refusal::State)));
    assert_eq!(Call::Drive.take(&mut loaded()), (Step::NoOp, Err(Refusal::Kind)));
}

#[test]
fn its_line() {
    assert_eq!(parse_call(b"\tdrive \r"), Some(Call::Drive));
    assert_eq!(Call::Drive.to_string(), "drive");
    let wrong = ["drive 0", "drive 0 1", "drive drive", "drive x", "Drive", "drives", "drive0"];
    assert!(wrong.iter().all(|line| parse_call(line.as_bytes()).is_none()));
    // It ends the time of block lines, and a line that isn't one doesn't.
    let mut reader = Reader::new(g());
    let mut read = |line: &str| reader.read(line.as_bytes());
    assert_eq!([read("drive 0"), read("block 1")], [Line::Other, Line::Block(1, vec![])]);
    assert_eq!([read("drive"), read("block 1")], [Line::Step(Call::Drive), Line::Late]);
}

fn kind(store: &Store) -> char {
    match store.machine.phase {
        Phase::Superblocks(_) => 'S',
        Phase::Journal(_) => 'O',
        Phase::Ready(_) => 'R',
    }
}

/// How many steps are left up to R, by what is known of slots and pieces.
fn left(store: &Store) -> usize {
    let slot = |slot: &Slot| match slot {
        Slot::Corrupt => 3,
        Slot::Unread => 2,
        Slot::Asked(_) => 1,
        Slot::Read(_) => 0,
    };
    let piece = |(piece, there): (&Piece, Option<Interval>)| match piece {
        Piece::Unread => 2 * usize::from(there.is_some()),
        Piece::Asked(_) => 1,
        Piece::In(_) => 0,
    };
    match &store.machine.phase {
        Phase::Superblocks(slots) => {
            let there = sound::slots(store).expect("both slots");
            let journal = there[Superblock::select(&there)].journal();
            let pieces = [store.geometry.front(journal), store.geometry.back(journal)];
            slots.iter().map(slot).sum::<usize>() + 1 + 2 * pieces.iter().flatten().count() + 1
        }
        Phase::Journal(loading) => {
            loading.pieces.iter().zip(loading.intervals(store.geometry)).map(piece).sum::<usize>() + 1
        }
        Phase::Ready(_) => 0,
    }
}

/// Plays a day's lines; what was met of loads by `drive`.
fn held(lines: &[String]) -> [u64; DRIVEN.len()] {
    let mut store = first_store(lines).expect("a disk");
    let mut driven = Driven::new(&store);
    for (n, line) in lines.iter().enumerate() {
        let Some(call) = parse_call(line.as_bytes()) else { continue };
        let (_, result) = call.take(&mut store);
        let fed = driven.feed(&call, result.err().map_or(0, Refusal::number), kind(&store));
        fed.unwrap_or_else(|what| panic!("line {n}, {line:.40}: {what}"));
    }
    driven.met
}

#[test]
fn random_days() {
    let mut met = [0; DRIVEN.len()];
    for seed in 1..=200 {
        let lines: Vec<String> = Day::new(seed, Options { steps: 300, ledger: true, ill: false }).collect();
        met.iter_mut().zip(held(&lines)).for_each(|(count, more)| *count += more);
    }
    DRIVEN.iter().zip(met).for_each(|(name, count)| println!("{count:>8} {name}"));
    assert!(met.iter().all(|count| *count > 0), "{met:?}");
}

/// From each loading state of a day that can be loaded the driver needs as many steps as are left, 12 at most, none
/// is refused, and the load shows the ledger.
#[test]
fn each_loading_state_comes_up() {
    let mut lengths = [0; 13];
    for seed in 1..=100 {
        let lines: Vec<String> = Day::new(seed, Options { steps: 300, ledger: true, ill: false }).collect();
        let mut store = first_store(&lines).expect("a disk");
        let Some(mut ledger) = Ledger::new(&store) else { continue };
        for (n, call) in lines.iter().filter_map(|line| parse_call(line.as_bytes())).enumerate() {
            let (step, result) = call.take(&mut store);
            ledger.feed(&step, result.is_err());
            if is_up(&store) {
                continue;
            }
            let mut copy = store.clone();
            let length = left(&copy);
            for rest in (0..length).rev() {
                assert!(!is_up(&copy));
                assert_eq!(play(&mut copy, "drive"), [0], "seed {seed}, step {n}");
                assert_eq!(left(&copy), rest, "seed {seed}, step {n}");
            }
            assert!(ledger.shown_by(&copy), "seed {seed}, step {n}");
            assert_eq!(copy.machine.sync, store.machine.sync, "requests made meanwhile stay");
            lengths[length] += 1;
        }
    }
    assert!(lengths[0] == 0 && lengths[1..].iter().all(|count| *count > 0), "{lengths:?}");
}

/// The longest load, of a day that begins with `Init`.
#[test]
fn twelve() {
    let day = conformance::days().into_iter().find(|day| day.name == "drive-twelve").expect("the day");
    let lines: Vec<String> = day.input.lines().map(String::from).collect();
    assert!(sound::init(&first_store(&lines).expect("a disk")));
    let met = held(&lines);
    assert_eq!(DRIVEN[4], "a load by `drive` of 12 lines, from a disk that meets `Init`");
    assert_eq!(met[3..6], [1; 3]);
}

/// `Init` wants an empty selected journal at block 0, and asks nothing of the blocks or of the other slot's journal.
#[test]
fn what_meets_init() {
    let meets = |slots| sound::init(&Store::new(g(), slots));
    let with = |counter, start, len| Superblock { start, len, ..superblock(counter) };
    assert!(meets([superblock(0); 2]) && meets([with(3, 0, 0), with(2, 5, 8)]));
    assert!(!meets([with(3, 1, 0), superblock(2)]) && !meets([with(3, 0, 1), superblock(2)]));
    assert!(!meets([superblock(3), with(4, 1, 0)]) && !meets([superblock(3), with(2, 8, 0)]));
    let mut written = Store::new(g(), [superblock(0); 2]);
    written.disk.journal.put(0, &[7]);
    assert!(sound::init(&written) && Ledger::new(&written).is_some());
    assert_eq!(play(&mut written, "rs 0 1"), [0]);
    assert!(!sound::init(&written));
}

/// Rows of wrong drivers break the claim: refused before R, not refused at R, or too long.
#[test]
fn wrong_rows_are_told() {
    let first = Store::new(g(), [superblock(0); 2]);
    let fed = |rows: &[(&str, u8, char)]| {
        let mut driven = Driven::new(&first);
        rows.iter().try_for_each(|(line, r, k)| driven.feed(&parse_call(line.as_bytes()).unwrap(), *r, *k))
    };
    let (slow, up) = (("drive", 0, 'S'), ("drive", 0, 'R'));
    assert!([2, 3, 5, 6, 7].iter().all(|r| fed(&[("drive", *r, 'S')]).is_err()));
    assert!(fed(&[up, ("drive", 3, 'R')]).is_ok() && fed(&[up, up]).is_err());
    assert!(fed(&[up, ("drive", 2, 'R')]).is_err());
    assert!(fed(&[slow; 11]).is_ok() && fed(&[slow; 12]).is_err());
    assert!(fed(&[&[slow; 11][..], &[up]].concat()).is_ok());
    // What doesn't count, and what begins anew.
    for line in [("push 1", 0, 'S'), ("pop 1", 6, 'S'), ("noop", 0, 'S'), ("f1", 6, 'S')] {
        assert!(fed(&[&[slow; 11][..], &[line, slow]].concat()).is_err(), "{line:?}");
    }
    for line in [("crash", 0, 'S'), ("xs 0 1", 0, 'S'), ("again 0", 0, 'S')] {
        assert!(fed(&[&[slow; 11][..], &[line, slow]].concat()).is_ok(), "{line:?}");
    }
}
