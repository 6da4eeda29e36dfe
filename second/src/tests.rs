//! Document 01's brew day, its wrong turns, demand 3 on random days, and the conformance files.

mod blank;
mod border;
mod covered;
mod drive;
mod handed;
mod image;
mod images;
mod record;
mod sector;
mod sectors;
mod stored;
mod sync;

use std::fs;
use std::path::Path;

use crate::coverage::{possible, REFUSALS};
use crate::days::{Day, Options, Rng};
use crate::disk::{Disk, Journal, Op};
use crate::layout::{Geometry, Interval, Location, BLOCK};
use crate::ledger::Ledger;
use crate::machine::{Phase, Piece, Ready, Slot};
use crate::range::{self, Entry};
use crate::store::{Step, Store};
use crate::superblock::Superblock;
use crate::text::{parse_call, parse_step, LONGEST_LINE};
use crate::{conformance, handed_conformance, image_conformance, sector_conformance, sound, trace, Refusal};

fn g() -> Geometry {
    Geometry::new(8, 4096).unwrap()
}

fn superblock(counter: u64) -> Superblock {
    Superblock { counter, start: 0, len: 0, table: Location { addr: 40_960, len: 4096 } }
}

fn select(a: u64, b: u64) -> usize {
    Superblock::select(&[superblock(a), superblock(b)])
}

/// A store, played by lines; the refusals it gave.
fn play(store: &mut Store, day: &str) -> Vec<u8> {
    let calls = day.split(',').map(|line| parse_call(line.as_bytes()).expect("a step"));
    calls.map(|c| c.take(store).1.err().map_or(0, Refusal::number)).collect()
}

/// A random day's first store, and its lines, of which those that are steps are played on it.
fn random_day(seed: u64) -> (Store, Vec<String>) {
    let lines: Vec<String> = Day::new(seed, Options { steps: 300, ledger: false, ill: false }).collect();
    (trace::first_store(&lines).expect("a disk"), lines)
}

const LOAD: &str = "rs 0 1, rs 1 2, as 0 1, as 1 2, f1, f2";

fn loaded() -> Store {
    let mut store = Store::new(g(), [superblock(0); 2]);
    assert_eq!(play(&mut store, LOAD), [0; 6]);
    store
}

#[test]
fn positions_and_pieces() {
    assert_eq!((g().advance(6, 2), g().advance(6, 1)), (0, 7));
    let pieces = |s, l| (g().front(Interval::new(s, l)), g().back(Interval::new(s, l)));
    assert_eq!(pieces(6, 5), (Some(Interval::new(6, 2)), Some(Interval::new(0, 3))));
    assert_eq!(pieces(6, 2), (Some(Interval::new(6, 2)), None));
    assert_eq!(pieces(6, 0), (None, None));
}

#[test]
fn overlaps() {
    let overlap = |a: (u64, u64), b: (u64, u64)| {
        let (a, b) = (Interval::new(a.0, a.1), Interval::new(b.0, b.1));
        assert_eq!(g().overlap(a, b), g().overlap(b, a));
        g().overlap(a, b)
    };
    assert!(overlap((6, 4), (1, 1)));
    assert!(!overlap((6, 4), (2, 4)));
    assert!(!overlap((3, 0), (1, 4)), "empty: S-3");
    assert!(!overlap((0, 0), (6, 4)), "empty at block 0 of one that wraps");
    assert!(overlap((7, 2), (5, 4)));
    assert!(g().subinterval(Interval::new(0, 2), Interval::new(6, 5)));
    assert!(!g().subinterval(Interval::new(3, 1), Interval::new(6, 5)));
    for i in 0..8 {
        assert_eq!(
            g().contains(Interval::new(6, 5), i),
            g().ring(Interval::new(6, 5)).any(|b| b as u64 == i)
        );
    }
}

/// Each pair of valid intervals overlaps exactly where it has a block in common: no empty one does.
#[test]
fn overlap_is_a_common_block() {
    let intervals = || (0..8).flat_map(|start| (0..=8).map(move |len| Interval::new(start, len)));
    for (a, b) in intervals().flat_map(|a| intervals().map(move |b| (a, b))) {
        let common = g().ring(a).any(|block| g().contains(b, block as u64));
        assert_eq!(g().overlap(a, b), common, "{a:?} and {b:?}");
        assert_eq!(g().overlap(b, a), common, "{b:?} and {a:?}");
        assert!(!common || (a.len > 0 && b.len > 0));
        if g().contiguous(a) && g().contiguous(b) {
            assert_eq!([a.meets(b), b.meets(a)], [common; 2], "{a:?} and {b:?} on a line");
        }
    }
}

#[test]
fn selection() {
    assert_eq!([select(7, 8), select(7, 7), select(7, 9), select(u64::MAX, 0)], [1, 0, 0, 1]);
    assert_eq!(select(8, 7), 0);
    assert_eq!(select(0, u64::MAX), 0, "the larger counter is a wrong turn");
}

#[test]
fn tables() {
    let valid = |addr, len| g().valid_table(Location { addr, len });
    assert_eq!(g().tables(), [40_960, 45_056]);
    assert_eq!([4096, 0, 4097].map(|len| valid(40_960, len)), [true, false, false]);
    assert!(valid(45_056, 1) && !valid(40_961, 1) && !valid(8192, 1));
}

#[test]
fn ranges() {
    let mut bytes = vec![1, 0, 1, 0, 1, 0x41];
    bytes.resize(BLOCK, 0);
    assert_eq!(range::write(&[vec![0x41]]), bytes);
    let sixteen = |last| [255; 15].into_iter().chain([last]).map(|len| vec![3; len]).collect::<Vec<Entry>>();
    assert_eq!([251, 252].map(|last| range::blocks(&sixteen(last))), [1, 2]);
    let both = [range::write(&sixteen(252)), bytes.clone()].concat();
    assert_eq!(range::read(&both).unwrap().len(), 17);
    assert_eq!(range::read(&[]), Some(vec![]));
    // A block too many, no entries, a length of 0, a tail that isn't 0, a range cut off.
    for (at, wrong) in [(0, 2), (0, 0), (2, 0), (2, 3), (4, 0), (4095, 1), (3, 5)] {
        let mut other = bytes.clone();
        other[at] = wrong;
        assert_eq!(range::read(&other), None, "byte {at} is {wrong}");
    }
    assert_eq!(range::read(&both[..BLOCK]), None);
    let padded = [&[2], &bytes[1..], &[0; BLOCK][..]].concat();
    assert_eq!(range::read(&padded), None, "not the fewest blocks");
    let most = vec![vec![5; 64]; 1024];
    assert_eq!(range::read(&range::write(&most)), Some(most.clone()));
    assert_eq!(range::read(&range::write(&[most, vec![vec![1]]].concat())), None, "1,025 entries");
}

#[test]
fn brewday() {
    let day = format!("{LOAD}, add 41, wj 3, aj 3, cl 4, land 1, crash");
    let mut store = Store::new(g(), [superblock(0); 2]);
    let mut output = String::from("n r k c s l w\n");
    for (n, line) in (1..).zip(day.split(',')) {
        let result = store.step(&parse_step(line.as_bytes()).unwrap());
        let row = trace::row(n, result, &store);
        output += &row.split(' ').take(7).collect::<Vec<_>>().join(" ");
        output += "\n";
    }
    let expected = "n r k c s l w
1 0 S - - - -
2 0 S - - - -
3 0 S - - - -
4 0 S - - - -
5 0 O 0 0 0 -
6 0 R 0 0 0 0
7 0 R 0 0 0 0
8 0 R 0 0 0 1
9 0 R 0 0 0 1
10 0 R 0 0 0 1
11 0 R 0 0 0 1
12 0 S - - - -
";
    assert_eq!(output, expected);
}

#[test]
fn trace_text() {
    let day = b"disk 1 1 0 0 0 12288 1 0 0 0 12288 1\nrs 0 1\nbrew\nnoop";
    let mut output = vec![];
    assert!(trace::play(&day[..], &mut output).unwrap().is_some());
    let output = String::from_utf8(output).unwrap();
    let rows: Vec<&str> = output.lines().collect();
    assert_eq!(rows[0], trace::HEADER);
    assert_eq!(rows[2], "line 2 is not a step");
    // The check number by its definition, a byte at a time.
    let slot = [0u64, 0, 0, 12288, 1].map(u64::to_le_bytes).concat();
    let bytes = [slot.clone(), slot, vec![0]].concat();
    let h = bytes.iter().fold(0u64, |h, b| (h * 257 + u64::from(*b) + 1) % 4_294_967_291);
    assert_eq!(rows[1], format!("1 0 S - - - - - - - - - - 0 0 0 {h}"));
    assert_eq!(rows[3], format!("3 0 S - - - - - - - - - - 0 0 0 {h}"));
    for bad in ["", "disk", "disk 33 1 0 0 0 0 0 0 0 0 0 0", "disk 8 0 0 0 0 0 0 0 0 0 0 0", "noop"] {
        let mut output = vec![];
        assert!(trace::play(bad.as_bytes(), &mut output).unwrap().is_none());
        assert_eq!(output, b"line 0 is not a disk\n");
    }
}

#[test]
fn long_lines() {
    let disk = "disk 1 1 0 0 0 12288 1 0 0 0 12288 1";
    let rows = |day: String| {
        let mut output = vec![];
        trace::play(day.as_bytes(), &mut output).unwrap();
        String::from_utf8(output).unwrap().lines().map(String::from).collect::<Vec<_>>()
    };
    let padded = |line: &str, len: usize| format!("{line}{}\n", " ".repeat(len - line.len()));
    let most = LONGEST_LINE;
    let lines = [(disk, most), ("noop", most), ("noop", most + 1), ("noop", 100_000), ("noop", 4)];
    let day = rows(lines.map(|(line, len)| padded(line, len)).concat());
    let starts = [trace::HEADER, "1 0 S", "line 2 is not a step", "line 3 is not a step", "4 0 S"];
    assert_eq!(day.len(), starts.len());
    assert!(day.iter().zip(starts).all(|(row, start)| row.starts_with(start)), "{day:?}");
    assert_eq!(rows(padded(disk, most + 1) + "noop"), ["line 0 is not a disk"]);
}

#[test]
fn refusals() {
    let mut s = Store::new(g(), [superblock(0); 2]);
    assert_eq!(
        play(&mut s, "rs 2 1, rs 0 1, rs 1 1, rs 0 1, again 0, xs 0 1, again 0"),
        [4, 0, 5, 6, 6, 0, 0]
    );
    assert_eq!(play(&mut s, "f1, add 41, f2, as 1 1, as 2 1, land 2, crash"), [6, 3, 3, 5, 4, 4, 0]);
    let mut s = loaded();
    assert_eq!(play(&mut s, "wj 1, add, wj 1, add 41, wj 1 2, wj 1, aj 2, wj 1"), [6, 0, 6, 0, 9, 0, 5, 6]);
    assert_eq!(
        play(&mut s, "add 42, wj 1, cl 4, aj 1, wj 1, aj 1, cl 1, wj 2, freeze"),
        [0, 5, 6, 0, 0, 0, 0, 6, 6]
    );
    assert_eq!(
        play(&mut s, "land 1, ac 1, loc 45056 1, freeze, loc 45057 1, loc 45056 1"),
        [0, 0, 6, 0, 4, 0]
    );
    assert_eq!(
        play(&mut s, "co 3, loc 45056 1, land 0, land 0, ac 3, freeze, loc 45056 1, freeze"),
        [0, 6, 0, 0, 0, 0, 0, 6]
    );
    let mut full = loaded();
    for id in 0..32 {
        assert_eq!(full.step(&Step::Push { id }), Ok(()));
    }
    assert_eq!(play(&mut full, "push 31, push 32"), [5, 8]);
    let ill = Superblock { len: 9, ..superblock(0) };
    assert_eq!(play(&mut Store::new(g(), [superblock(0), ill]), "noop, crash"), [2, 2]);
}

#[test]
fn a_loaded_journal_must_parse() {
    let slots = [Superblock { start: 7, len: 2, ..superblock(0) }, superblock(5)];
    let mut s = Store::new(g(), slots);
    let load = "rs 0 1, rs 1 2, as 0 1, as 1 2, f1, rj 0 1, rj 1 1, rj 1 2, ar 1, ar 2";
    assert_eq!(play(&mut s, load), [0, 0, 0, 0, 0, 0, 5, 0, 6, 6]);
    s.disk.journal.marks = vec![true; 8];
    assert_eq!(play(&mut s, "xr 1, rj 0 1, ar 1, ar 2, f2"), [0, 0, 0, 0, 7]);
    assert!(
        matches!(&s.machine.phase, Phase::Journal(l) if matches!(l.pieces, [Piece::In(_), Piece::In(_)]))
    );
}

#[test]
fn a_disk_alone() {
    let mut disk = Disk::new(g(), [None; 2], Journal::empty(g()));
    for id in 0..8 {
        let op = Op::ReadSuperblock { which: 1, id };
        assert_eq!(disk.ask(&op), Ok(()));
        disk.take(op);
    }
    assert_eq!(disk.ask(&Op::ReadSuperblock { which: 1, id: 8 }), Err(Refusal::Room));
    assert_eq!(disk.ask(&Op::ReadSuperblock { which: 0, id: 7 }), Err(Refusal::Id));
    assert_eq!(disk.ask(&Op::SuperblockRead { which: 1, id: 7, whole: true }), Err(Refusal::Condition));
    let write = |start, second| Op::WriteJournal { id: 1, second, start, range: vec![0; 2 * BLOCK] };
    let asked = [(6, None), (6, Some(2)), (7, None), (7, Some(1)), (7, Some(2)), (8, None)];
    let no = Err(Refusal::SecondId);
    assert_eq!(
        asked.map(|(s, id2)| disk.ask(&write(s, id2))),
        [Ok(()), no, no, no, Ok(()), Err(Refusal::Argument)]
    );
}

fn reload(store: &mut Store) {
    for line in ["rs 0 1", "rs 1 2", "as 0 1", "as 1 2", "f1"] {
        assert_eq!(play(store, line), [0]);
    }
    let Phase::Journal(loading) = &store.machine.phase else { panic!("not loading") };
    for (which, _) in (0..).zip(loading.intervals(store.geometry)).filter(|(_, i)| i.is_some()) {
        assert_eq!(play(store, &format!("rj {which} 3, ar 3")), [0, 0]);
    }
    assert_eq!(play(store, "f2"), [0]);
}

/// A store that is handed in is asked the whole of question 2.
#[test]
fn states_that_are_turned_away() {
    let handed = |alter: fn(&mut Store, &mut Ready)| {
        let mut store = loaded();
        assert_eq!(play(&mut store, "add 41, wj 1, freeze, loc 45056 1"), [0; 4]);
        let Phase::Ready(mut ready) = store.machine.phase.clone() else { panic!("not ready") };
        alter(&mut store, &mut ready);
        store.machine.phase = Phase::Ready(ready);
        let before = store.clone();
        let answer = play(&mut store, "noop")[0];
        assert_eq!(store, before);
        answer
    };
    assert_eq!(handed(|_, _| {}), 0);
    let wrong: [fn(&mut Store, &mut Ready); 14] = [
        |s, _| s.disk.slots[0] = None,
        |_, r| r.superblock.start = 8,
        |_, r| r.which = 2,
        |_, r| r.written = 9,
        |_, r| r.frozen_position = 2,
        |_, r| r.frozen_loc = Some(Location { addr: 45_057, len: 1 }),
        |_, r| r.is_frozen = false,
        |_, r| r.memory = vec![vec![]],
        |_, r| r.memory = vec![vec![7]; 1025],
        |_, r| r.replayed = 1,
        |_, r| r.outstanding.extend([2]),
        |s, _| s.disk.journal_writes.clear(),
        |s, r| {
            r.outstanding.extend(2..=17);
            s.disk.journal_writes.extend((2..=17).map(|id| (id, Interval::new(0, 0))));
        },
        |s, _| s.disk.superblock_writes[0] = Some((5, superblock(1))),
    ];
    assert_eq!(wrong.map(handed), [2; 14]);
}

/// What the machine has read of a slot lies there still.
fn slots_as_read(store: &Store) -> bool {
    let Phase::Superblocks(slots) = &store.machine.phase else { return true };
    let mut slots = slots.iter().zip(store.disk.slots);
    slots.all(|(slot, there)| !matches!(slot, Slot::Read(s) if Some(*s) != there))
}

/// Demand 3: after a crash with any picture, a load shows the ledger. A refusal alters nothing.
#[test]
fn loads_show_the_ledger() {
    let mut pictured = 0;
    for seed in 1..=300 {
        let mut rng = Rng::new(seed ^ 0xb4e3);
        let (mut store, day) = random_day(seed);
        let g = store.geometry;
        let Some(mut ledger) = Ledger::new(&store) else { continue };
        for (n, line) in (0..).zip(day) {
            let Some(call) = parse_call(line.as_bytes()) else { continue };
            assert_eq!(parse_call(call.to_string().as_bytes()).as_ref(), Some(&call));
            let before = store.clone();
            let (step, result) = call.take(&mut store);
            let refused = result.is_err();
            assert!(!refused || store == before, "seed {seed}, step {n}: a refusal altered the store");
            assert!(sound::system(&store) && slots_as_read(&store), "seed {seed}, step {n}");
            ledger.feed(&step, refused);
            if n % 10 == 0 {
                let picture = Journal {
                    blocks: (0..g.n()).map(|_| rng.bytes(BLOCK).try_into().unwrap()).collect(),
                    marks: (0..g.n()).map(|_| rng.below(2) == 0).collect(),
                };
                pictured += usize::from(!store.disk.journal_writes.is_empty());
                let mut copy = store.clone();
                copy.crash(Some(&picture));
                reload(&mut copy);
                assert!(ledger.shown_by(&copy), "seed {seed}, step {n}");
            }
        }
    }
    assert!(pictured > 100);
}

/// The conformance days meet each step with each refusal that a trace can show, and no other.
#[test]
fn conformance_covers() {
    for (word, cells) in conformance::coverage(&conformance::days()) {
        for (refusal, day) in REFUSALS.iter().zip(cells) {
            assert_eq!(day.is_some(), possible(word, *refusal), "{word} refused by {refusal}: {day:?}");
        }
    }
}

/// A folder of ../conformance has these files, and no others.
fn holds(folder: &Path, files: &[(String, &[u8])]) {
    let there = fs::read_dir(folder).unwrap().map(|f| f.unwrap().file_name().into_string().unwrap());
    let mut there: Vec<String> = there.collect();
    let mut names: Vec<&str> = files.iter().map(|(name, _)| name.as_str()).collect();
    there.sort();
    names.sort();
    assert_eq!(there, names);
    for (name, bytes) in files {
        assert!(fs::read(folder.join(name)).unwrap() == *bytes, "{name}");
    }
}

/// Days, sectors, handed stores, disks, rows and tables in ../conformance are those that `conformance` writes.
#[test]
fn conformance_is_written() {
    let folder = Path::new(env!("CARGO_MANIFEST_DIR")).join("../conformance");
    let days = conformance::days();
    let inputs = days.iter().map(|day| (format!("{}.day", day.name), day.input.as_bytes()));
    let rows = days.iter().map(|day| (format!("{}.rows", day.name), day.rows.as_bytes()));
    holds(&folder.join("days"), &inputs.chain(rows).collect::<Vec<_>>());
    let cases = sector_conformance::cases();
    let inputs = cases.iter().map(|case| (format!("{}.bytes", case.name), &case.input[..]));
    let rows = cases.iter().map(|case| (format!("{}.rows", case.name), case.rows.as_bytes()));
    holds(&folder.join("sectors"), &inputs.chain(rows).collect::<Vec<_>>());
    let cases = handed_conformance::cases();
    let inputs = cases.iter().map(|case| (format!("{}.lines", case.name), case.input.as_bytes()));
    let rows = cases.iter().map(|case| (format!("{}.rows", case.name), case.rows.as_bytes()));
    holds(&folder.join("handed"), &inputs.chain(rows).collect::<Vec<_>>());
    let cases = image_conformance::cases();
    let inputs = cases.iter().map(|case| (format!("{}.bytes", case.name), &case.bytes[..]));
    let args = cases.iter().map(|case| (format!("{}.args", case.name), case.args.as_bytes()));
    let rows = cases.iter().map(|case| (format!("{}.rows", case.name), case.rows.as_bytes()));
    holds(&folder.join("images"), &inputs.chain(args).chain(rows).collect::<Vec<_>>());
    let page = fs::read_to_string(folder.join("README.md")).unwrap();
    assert!(conformance::page(&page).as_ref() == Some(&page), "the tables of README.md");
}
