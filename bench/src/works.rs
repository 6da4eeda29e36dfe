//! Each piece of work, by the library and in plain Rust, on the same input, with a test that both leave the same.
use crate::linked::{self, Answer, Lent, Replay};
use crate::plain::{self, Machine, BLOCK};
use std::cell::RefCell;
use std::hint::black_box;
use std::rc::Rc;

/// What a ratio is held to.
#[derive(Clone, Copy, PartialEq)]
pub enum Aim {
    /// At most 1.0 of plain Rust.
    Par,
    /// The same of copies, whose time memory decides more than the code.
    Copy,
}

pub struct Work {
    pub what: &'static str,
    pub aim: Aim,
    /// Repetitions under callgrind; the work is counted over as many more.
    pub counted: u64,
    pub ours: Box<dyn FnMut()>,
    pub plain: Box<dyn FnMut()>,
    pub same: Box<dyn Fn() -> bool>,
}

fn entries(n: usize, size: u16) -> (Vec<u8>, Vec<u16>) {
    let bytes = (0..n * usize::from(size)).map(|i| (i * 7 + 1) as u8).collect();
    (bytes, vec![size; n])
}

/// A journal that is full of ranges of one block, each of as many entries of `size` bytes as `n` says.
fn journal(blocks: usize, n: usize, size: u16) -> Vec<u8> {
    let (bytes, lens) = entries(n, size);
    let mut all = vec![0; blocks * BLOCK];
    for block in all.chunks_exact_mut(BLOCK) {
        plain::write_range(&bytes, &lens, n, block, 0).expect("one block holds them");
    }
    all
}

fn range_writer(what: &'static str, n: usize, blocks: usize, start: usize) -> Work {
    let input = Rc::new(entries(n, 60));
    let ring = move || vec![0xee; blocks * BLOCK];
    let (a, b, c) = (input.clone(), input.clone(), input);
    let (mut ours, mut theirs) = (ring(), ring());
    Work {
        what,
        aim: Aim::Copy,
        counted: 200,
        ours: Box::new(move || {
            black_box(linked::write_range(black_box(&a.0), &a.1, n as u64, &mut ours, start as u64)).unwrap();
        }),
        plain: Box::new(move || {
            black_box(plain::write_range(black_box(&b.0), &b.1, n, &mut theirs, start)).unwrap();
        }),
        same: Box::new(move || {
            let (mut x, mut y) = (ring(), ring());
            let p = linked::write_range(&c.0, &c.1, n as u64, &mut x, start as u64);
            p == plain::write_range(&c.0, &c.1, n, &mut y, start) && p.is_ok() && x == y
        }),
    }
}

fn listing(what: &'static str, n: usize) -> Work {
    let range = Rc::new(journal(1, n, 1));
    let (a, b, c) = (range.clone(), range.clone(), range);
    let (mut ours, mut theirs) = ([0; 1024], [0; 1024]);
    Work {
        what,
        aim: Aim::Par,
        counted: 100,
        ours: Box::new(move || {
            black_box(linked::list_entries(black_box(&a), black_box(&mut ours))).unwrap();
        }),
        plain: Box::new(move || {
            black_box(plain::list_entries(black_box(&b), black_box(&mut theirs))).unwrap();
        }),
        same: Box::new(move || {
            let (mut x, mut y) = ([9; 1024], [9; 1024]);
            let p = linked::list_entries(&c, &mut x);
            p == plain::list_entries(&c, &mut y) && p == Ok(n as u64) && x == y
        }),
    }
}

fn scan(what: &'static str, blocks: usize, n: usize, size: u16) -> Work {
    let all = Rc::new(journal(blocks, n, size));
    let (a, b, c) = (all.clone(), all.clone(), all);
    Work {
        what,
        aim: Aim::Par,
        counted: (4096 / blocks as u64).min(200),
        ours: Box::new(move || {
            black_box(linked::scan(black_box(&a))).unwrap();
        }),
        plain: Box::new(move || {
            black_box(plain::scan(black_box(&b))).unwrap();
        }),
        same: Box::new(move || {
            let mut torn = c.to_vec();
            *torn.last_mut().expect("not empty") = 1;
            linked::scan(&c) == plain::scan(&c) && linked::scan(&torn) == plain::scan(&torn)
        }),
    }
}

fn unpack(what: &'static str, blocks: usize, n: usize, size: u16) -> Work {
    let all = Rc::new(journal(blocks, n, size));
    let memory = move || (vec![0xee; blocks * BLOCK], vec![0xeeee; blocks * BLOCK]);
    let (a, b, c) = (all.clone(), all.clone(), all);
    let (mut ours, mut theirs) = (memory(), memory());
    Work {
        what,
        aim: Aim::Copy,
        counted: (4096 / blocks as u64).min(200),
        ours: Box::new(move || {
            black_box(linked::unpack(black_box(&a), &mut ours.0, &mut ours.1)).unwrap();
        }),
        plain: Box::new(move || {
            black_box(plain::unpack(black_box(&b), &mut theirs.0, &mut theirs.1)).unwrap();
        }),
        same: Box::new(move || {
            let (mut x, mut y) = (memory(), memory());
            let p = linked::unpack(&c, &mut x.0, &mut x.1);
            p == plain::unpack(&c, &mut y.0, &mut y.1) && p.is_ok() && x == y
        }),
    }
}

/// A full disk: its interval is the whole ring from block `start` on, in ranges of `per` entries of `size` bytes, the last of which has as many
/// as still fit.
fn full_disk(n: usize, start: usize, per: usize, size: u16) -> Vec<u8> {
    let mut disk = vec![0; (2 + n) * BLOCK];
    let (bytes, lens) = entries(per, size);
    let mut used = 0;
    while used < n {
        let fit = ((n - used) * BLOCK - 4) / (usize::from(size) + 1);
        let at = (start + used) % n;
        let taken = plain::write_range(&bytes, &lens, per.min(fit), &mut disk[2 * BLOCK..], at);
        used += taken.expect("it fits") as usize;
    }
    for (slot, counter) in disk.chunks_exact_mut(BLOCK).zip([7, 8]) {
        let five = [counter, start as u64, n as u64, ((2 + n) * BLOCK) as u64, 1];
        plain::write_sector(five, slot).expect("a sector's length");
    }
    disk
}

fn replay_memory(n: usize) -> Replay {
    Replay { pieces: vec![0xee; n * BLOCK], bytes: vec![0xee; n * BLOCK], lens: vec![0xeeee; n * BLOCK] }
}

/// The record of a full disk of n blocks. Both sides fill the same memory: how it lies to the disk's counts for a small one.
fn record(what: &'static str, n: usize, disk: Vec<u8>) -> Work {
    let disk = Rc::new(disk);
    let (a, b, c) = (disk.clone(), disk.clone(), disk);
    let memory = Rc::new(RefCell::new(replay_memory(n)));
    let (ours, theirs) = (memory.clone(), memory);
    Work {
        what,
        aim: Aim::Copy,
        counted: (4096 / n as u64).min(200),
        ours: Box::new(move || {
            black_box(linked::record(n as u64, 4096, black_box(&a), &mut ours.borrow_mut())).unwrap();
        }),
        plain: Box::new(move || {
            black_box(plain::record(n, 4096, black_box(&b), &mut theirs.borrow_mut())).unwrap();
        }),
        same: Box::new(move || {
            let mut torn = c.to_vec();
            *torn.last_mut().expect("not empty") ^= 1;
            let alike = |disk: &[u8]| {
                let (mut x, mut y) = (replay_memory(n), replay_memory(n));
                let p = linked::record(n as u64, 4096, disk, &mut x);
                (p == plain::record(n, 4096, disk, &mut y) && x == y).then_some(p.is_ok())
            };
            alike(&c) == Some(true) && alike(&torn).is_some()
        }),
    }
}

/// The same against a copy of the disk's bytes. It goes to the middle of a page, since a copy whose two ends lie at nearly the same place of
/// a page takes up to ten times as long on some machines.
fn record_by_copy(what: &'static str, n: usize, disk: Vec<u8>) -> Work {
    let (b, mut to) = (disk.clone(), vec![0xee; disk.len() + BLOCK]);
    let at = (b.as_ptr() as usize + BLOCK / 2).wrapping_sub(to.as_ptr() as usize) % BLOCK;
    let plain = Box::new(move || black_box(&mut to[at..at + b.len()]).copy_from_slice(black_box(&b)));
    Work { plain, ..record(what, n, disk) }
}

/// A superblock's numbers, the counter at its largest.
const FIVE: [u64; 5] = [u64::MAX, 6, 5, 40_960, 4096];

fn sector_writer(what: &'static str) -> Work {
    let (mut ours, mut theirs) = (vec![0xee; BLOCK], vec![0xee; BLOCK]);
    Work {
        what,
        aim: Aim::Par,
        counted: 1000,
        ours: Box::new(move || {
            black_box(linked::write_sector(black_box(FIVE), black_box(&mut ours))).unwrap();
        }),
        plain: Box::new(move || {
            black_box(plain::write_sector(black_box(FIVE), black_box(&mut theirs))).unwrap();
        }),
        same: Box::new(move || {
            let (mut x, mut y) = (vec![0xee; BLOCK], vec![0xee; BLOCK]);
            let p = linked::write_sector(FIVE, &mut x);
            p == plain::write_sector(FIVE, &mut y) && p.is_ok() && x == y
        }),
    }
}

fn sector_reader(what: &'static str, read: fn(&[u8]) -> Answer<[u64; 5]>) -> Work {
    let mut sector = vec![0; BLOCK];
    plain::write_sector(FIVE, &mut sector).expect("a sector's length");
    let sector = Rc::new(sector);
    let (a, b, c) = (sector.clone(), sector.clone(), sector);
    Work {
        what,
        aim: Aim::Par,
        counted: 1000,
        ours: Box::new(move || {
            black_box(linked::read_sector(black_box(&a))).unwrap();
        }),
        plain: Box::new(move || {
            black_box(read(black_box(&b))).unwrap();
        }),
        same: Box::new(move || {
            let alike = |s: &[u8]| linked::read_sector(s) == read(s);
            let altered = |at: usize| {
                let mut s = c.to_vec();
                s[at] ^= 1;
                alike(&s)
            };
            alike(&c) && linked::read_sector(&c) == Ok(FIVE) && (0..BLOCK).all(altered)
        }),
    }
}

fn look_marks(what: &'static str, n: usize) -> Work {
    let lent = Rc::new((vec![0u8; n * BLOCK], vec![1u8; n]));
    let (a, b, c) = (lent.clone(), lent.clone(), lent);
    Work {
        what,
        aim: Aim::Par,
        counted: 1000,
        ours: Box::new(move || {
            black_box(linked::ask_journal(n as u64, 4096, black_box(&a.0), black_box(&a.1)));
        }),
        plain: Box::new(move || {
            black_box(plain::ask_journal(n, 4096, black_box(&b.0), black_box(&b.1)));
        }),
        same: Box::new(move || {
            let mut wrong = c.1.to_vec();
            *wrong.last_mut().expect("not empty") = 2;
            linked::ask_journal(n as u64, 4096, &c.0, &c.1) == plain::ask_journal(n, 4096, &c.0, &c.1)
                && linked::ask_journal(n as u64, 4096, &c.0, &wrong)
                    == plain::ask_journal(n, 4096, &c.0, &wrong)
        }),
    }
}

fn look_pending(what: &'static str, n: usize) -> Work {
    let lent = Rc::new((vec![0u8; 65536], vec![60u16; 1024]));
    let (a, b, c) = (lent.clone(), lent.clone(), lent);
    Work {
        what,
        aim: Aim::Par,
        counted: 1000,
        ours: Box::new(move || {
            black_box(linked::count_pending(black_box(&a.0), black_box(&a.1), n as u64, 0)).unwrap();
        }),
        plain: Box::new(move || {
            black_box(plain::count_pending(black_box(&b.0), black_box(&b.1), n, 0)).unwrap();
        }),
        same: Box::new(move || {
            [0, n / 2, n, n + 1].iter().all(|&f| {
                linked::count_pending(&c.0, &c.1, n as u64, f as u64)
                    == plain::count_pending(&c.0, &c.1, n, f)
            })
        }),
    }
}

fn look_replay(what: &'static str, blocks: usize, n: usize) -> Work {
    let lent = Rc::new((vec![0u8; blocks * BLOCK], vec![1u16; blocks * BLOCK]));
    let (a, b, c) = (lent.clone(), lent.clone(), lent);
    Work {
        what,
        aim: Aim::Par,
        counted: 10,
        ours: Box::new(move || {
            black_box(linked::count_left(blocks as u64, black_box(&a.0), black_box(&a.1), n as u64, (0, 0)))
                .unwrap();
        }),
        plain: Box::new(move || {
            black_box(plain::count_left(blocks, black_box(&b.0), black_box(&b.1), n, (0, 0))).unwrap();
        }),
        same: Box::new(move || {
            [(0, 0), (16, 16), (n, n), (n + 1, 0)].iter().all(|&t| {
                linked::count_left(blocks as u64, &c.0, &c.1, n as u64, (t.0 as u64, t.1 as u64))
                    == plain::count_left(blocks, &c.0, &c.1, n, t)
            })
        }),
    }
}

/// A machine at work with so many pending entries and so many to be replayed.
pub fn machine(n: usize, pending: usize, replay: usize) -> Machine {
    Machine {
        n,
        t: 4096,
        start: 0,
        len: 0,
        table: ((2 + n) * BLOCK, 1),
        which: 0,
        written: 0,
        frozen: None,
        pending,
        frozen_entries: 0,
        replay,
        taken: (0, 0),
    }
}

fn lent(n: usize, size: u16) -> Lent {
    Lent {
        bytes: (0..65536usize).map(|i| (i * 3 + 2) as u8).collect(),
        lens: vec![size; 1024],
        pieces: vec![0; n * BLOCK],
        rbytes: vec![5; n * BLOCK],
        rlens: vec![1; n * BLOCK],
    }
}

fn same_lent(a: &Lent, b: &Lent) -> bool {
    a.bytes == b.bytes && a.lens == b.lens && a.rbytes == b.rbytes && a.rlens == b.rlens
}

/// Entries of zeros but for one byte within: every byte of them is looked at.
fn nearly_blank(n: usize, size: u16) -> (Vec<u8>, Vec<u16>) {
    let within = usize::from(size) * 3 / 4;
    let bytes = (0..n * usize::from(size)).map(|i| u8::from(i % usize::from(size) == within)).collect();
    (bytes, vec![size; n])
}

fn add(what: &'static str, n: usize, pending: usize, brought: (Vec<u8>, Vec<u16>)) -> Work {
    let brought = Rc::new(brought);
    let (a, b, c) = (brought.clone(), brought.clone(), brought);
    let (mut ours, mut theirs) = (lent(n, 60), lent(n, 60));
    Work {
        what,
        aim: Aim::Par,
        counted: 500,
        ours: Box::new(move || {
            let mut m = machine(n, pending, 0).numbers(1);
            black_box(linked::add(black_box(&mut m), &a.0, &a.1, 16, &mut ours));
        }),
        plain: Box::new(move || {
            let mut m = machine(n, pending, 0);
            black_box(black_box(&mut m).add(&b.0, &b.1, &mut theirs)).unwrap();
        }),
        same: Box::new(move || {
            let (mut x, mut y, mut m) = (lent(n, 60), lent(n, 60), machine(n, pending, 0));
            let mut k = m.numbers(1);
            let q = linked::add(&mut k, &c.0, &c.1, 16, &mut x);
            m.add(&c.0, &c.1, &mut y) == Ok(()) && q == 0 && k == m.numbers(1) && same_lent(&x, &y)
        }),
    }
}

fn journal_write(what: &'static str, n: usize, pending: usize) -> Work {
    let (mut ours, mut theirs) = (lent(n, 60), lent(n, 60));
    let (mut out, mut their_out) = (vec![0; n * BLOCK], vec![0; n * BLOCK]);
    Work {
        what,
        aim: Aim::Copy,
        counted: 200,
        ours: Box::new(move || {
            let mut m = machine(n, pending, 0).numbers(1);
            black_box(linked::write_journal(black_box(&mut m), 7, None, &mut out, &mut ours));
        }),
        plain: Box::new(move || {
            let mut m = machine(n, pending, 0);
            black_box(black_box(&mut m).write_journal(&mut their_out, &mut theirs)).unwrap();
        }),
        same: Box::new(move || {
            [None, Some(0)].iter().all(|&frozen| {
                let (mut x, mut y, mut m) = (lent(n, 60), lent(n, 60), machine(n, pending, 0));
                (m.frozen, m.frozen_entries) = (frozen, frozen.map_or(0, |_| pending / 2));
                let mut k = m.numbers(1);
                let (mut s, mut t) = (vec![0xee; n * BLOCK], vec![0xee; n * BLOCK]);
                let q = linked::write_journal(&mut k, 7, None, &mut s, &mut x);
                let r = m.write_journal(&mut t, &mut y);
                r == Ok(()) && q == 0 && k == m.numbers(1) && s == t && same_lent(&x, &y)
            })
        }),
    }
}

/// A whole replay of so many one-byte entries by 16; `steps` of it where fewer are asked for.
pub fn replay(what: &'static str, n: usize, all: usize, steps: usize) -> Work {
    let memory = Rc::new(lent(n, 1));
    let (a, b, c) = (memory.clone(), memory.clone(), memory);
    let (bytes, sizes) = ([5u8; 16], [1u16; 16]);
    Work {
        what,
        aim: Aim::Par,
        counted: 2,
        ours: Box::new(move || {
            let mut m = machine(n, 0, all).numbers(1);
            for _ in 0..steps {
                assert_eq!(linked::replay(black_box(&mut m), &bytes, &sizes, 16, &a), 0);
            }
        }),
        plain: Box::new(move || {
            let mut m = machine(n, 0, all);
            for _ in 0..steps {
                assert_eq!(black_box(&mut m).replay(&bytes, &sizes, &b), Ok(()));
            }
        }),
        same: Box::new(move || {
            let mut m = machine(n, 0, 40);
            let mut k = m.numbers(1);
            (0..3).all(|_| {
                let q = linked::replay(&mut k, &bytes, &sizes, 16, &c);
                let r = m.replay(&bytes, &sizes, &c);
                (q, k) == (r.err().unwrap_or(0), m.numbers(1))
            })
        }),
    }
}

/// Every piece of work by its name; none is made before it is asked for.
pub fn all() -> Vec<(&'static str, fn() -> Work)> {
    vec![
        ("write-64", || range_writer("range of 64 entries of 60 bytes, one part", 64, 32, 0)),
        ("write-1024", || range_writer("range of 1,024 entries of 60 bytes, one part", 1024, 32, 0)),
        ("write-round", || range_writer("range of 1,024 entries of 60 bytes, round the end", 1024, 32, 28)),
        ("list-64", || listing("listing of 64 one-byte entries", 64)),
        ("list-1024", || listing("listing of 1,024 one-byte entries", 1024)),
        ("scan-8", || scan("scan of a full journal, N = 8, one-byte entries", 8, 1024, 1)),
        ("scan-4096", || scan("scan of a full journal, N = 4,096, one-byte entries", 4096, 1024, 1)),
        ("unpack-8", || unpack("unpacking of a full journal, N = 8, one-byte entries", 8, 1024, 1)),
        ("unpack-4096", || unpack("unpacking of a full journal, N = 4,096, one-byte entries", 4096, 1024, 1)),
        ("unpack-60", || unpack("unpacking of a full journal, N = 4,096, 60-byte entries", 4096, 67, 60)),
        ("record-8", || {
            record("the record of a full disk, N = 8, 60-byte entries", 8, full_disk(8, 0, 1024, 60))
        }),
        ("record-4096", || {
            record(
                "the record of a full disk, N = 4,096, 60-byte entries",
                4096,
                full_disk(4096, 0, 1024, 60),
            )
        }),
        ("record-round", || {
            let disk = full_disk(4096, 2050, 1024, 60);
            record("the record of a full disk, N = 4,096, 60-byte entries, round the end", 4096, disk)
        }),
        ("record-small", || {
            let disk = full_disk(4096, 0, 16, 60);
            record("the record of a full disk, N = 4,096, 16 60-byte entries a range", 4096, disk)
        }),
        ("record-255", || {
            record(
                "the record of a full disk, N = 4,096, 255-byte entries",
                4096,
                full_disk(4096, 0, 256, 255),
            )
        }),
        ("record-copy-8", || {
            let disk = full_disk(8, 0, 1024, 60);
            record_by_copy(
                "the record of a full disk, N = 8, 60-byte entries, against memcpy of its bytes",
                8,
                disk,
            )
        }),
        ("record-copy-4096", || {
            let disk = full_disk(4096, 0, 1024, 60);
            let what = "the record of a full disk, N = 4,096, 60-byte entries, against memcpy of its bytes";
            record_by_copy(what, 4096, disk)
        }),
        ("record-copy-round", || {
            let disk = full_disk(4096, 2050, 1024, 60);
            let what = "the record of a full disk, N = 4,096, round the end, against memcpy of its bytes";
            record_by_copy(what, 4096, disk)
        }),
        ("sector-write", || sector_writer("a superblock written as a sector")),
        ("sector-read", || sector_reader("a sector read", plain::read_sector)),
        ("sector-slices", || {
            sector_reader("a sector read, zeros compared by memcmp", plain::read_sector_by_slices)
        }),
        ("marks-8", || look_marks("question 1 of a journal, N = 8", 8)),
        ("marks-4096", || look_marks("question 1 of a journal, N = 4,096", 4096)),
        ("pending", || look_pending("question 2 of 1,024 pending entries", 1024)),
        ("replay-look", || look_replay("question 2 of 1,000,000 replay entries", 1024, 1_000_000)),
        ("add", || add("an add of 16 entries of 60 bytes, N = 8, none held", 8, 0, entries(16, 60))),
        ("add-4096", || {
            add("an add of 16 entries of 60 bytes, N = 4,096, none held", 4096, 0, entries(16, 60))
        }),
        ("add-held", || add("an add of 16 entries of 60 bytes, N = 8, 1,000 held", 8, 1000, entries(16, 60))),
        ("add-zeros", || {
            add(
                "an add of 16 entries of 60 bytes, 59 of them 0, N = 8, none held",
                8,
                0,
                nearly_blank(16, 60),
            )
        }),
        ("journal-write-1", || journal_write("a journal write of 1 entry of 60 bytes, N = 32", 32, 1)),
        ("journal-write", || journal_write("a journal write of 1,024 entries of 60 bytes, N = 32", 32, 1024)),
        ("replay-step", || replay("a replay step by 16 of 1,000,000 entries left", 1024, 1_000_000, 1)),
    ]
}
