//! The record of a disk: the program of docs/LINKING.md on images that are made here, and the library's functions that it stands on.
use crate::c;
use crate::linked::{self, Record, Replay};
use crate::plain::{self, BLOCK};
use std::fs;

const T: u64 = 4096;

/// An image: both slots name the interval that begins at `start` and has these ranges, and have these counters.
fn image(n: usize, counters: [u64; 2], start: usize, ranges: &[Vec<Vec<u8>>]) -> Vec<u8> {
    let mut disk = vec![0; (2 + n) * BLOCK];
    let mut len = 0;
    for range in ranges {
        let (bytes, lens): (Vec<u8>, Vec<u16>) =
            (range.concat(), range.iter().map(|e| e.len() as u16).collect());
        let at = ((start + len) % n) as u64;
        len += linked::write_range(&bytes, &lens, lens.len() as u64, &mut disk[2 * BLOCK..], at).unwrap()
            as usize;
    }
    for (slot, counter) in disk.chunks_exact_mut(BLOCK).zip(counters) {
        let five = [counter, start as u64, len as u64, ((2 + n) * BLOCK) as u64, T];
        linked::write_sector(five, slot).unwrap();
    }
    disk
}

fn words(words: &[&str]) -> Vec<Vec<u8>> {
    words.iter().map(|w| w.as_bytes().to_vec()).collect()
}

/// Three ranges of 1, 2 and 1 blocks.
fn ranges() -> Vec<Vec<Vec<u8>>> {
    vec![words(&["mash", "sparge"]), (0..20).map(|i| vec![i + 1; 255]).collect(), words(&["boil"])]
}

fn replay(n: usize) -> Replay {
    Replay { pieces: vec![0xee; n * BLOCK], bytes: vec![0xee; n * BLOCK], lens: vec![0xeeee; n * BLOCK] }
}

/// What the program prints of entries.
fn rows(ranges: &[Vec<Vec<u8>>]) -> String {
    let (entries, mut text) = (ranges.concat(), String::new());
    for (i, e) in entries.iter().enumerate() {
        let hex: String = e.iter().map(|b| format!("{b:02x}")).collect();
        text += &format!("entry {} {} {hex}\n", i + 1, e.len());
    }
    text + &format!("record {} {}\n", entries.len(), entries.concat().len())
}

#[test]
fn page_has_the_program() {
    let file = fs::read_to_string(c::top().join("bench/c/record.c")).expect("the program");
    assert_eq!(c::page("The record of a disk in C", "it prints").0, file);
}

/// The disk of the page: N = 8, an interval of two blocks that goes round the ring's end.
fn page_disk() -> Vec<u8> {
    let mut disk = image(8, [6, 7], 7, &[words(&["mash", "sparge"]), words(&["boil"])]);
    linked::write_sector([6, 7, 1, 40960, 4096], &mut disk[..BLOCK]).unwrap();
    disk
}

#[test]
fn program_prints_the_record() {
    if !c::there() {
        return eprintln!("no cc: bench/c/record.c was not compiled");
    }
    let (text, printed) = c::page("The record of a disk in C", "it prints");
    let folder = c::Folder::new("record");
    let (program, file) = (folder.compile(&text), folder.0.join("disk"));
    let name = file.to_str().expect("a name in UTF-8");
    let run = |disk: &[u8], n: &str| {
        fs::write(&file, disk).expect("the disk");
        let ran = c::ran(&program, &[name, n, "4096"]);
        assert_eq!(ran.stderr, b"");
        (ran.status.code(), String::from_utf8(ran.stdout).expect("text"))
    };
    assert_eq!(run(&page_disk(), "8"), (Some(0), printed));

    // straight, and more behind the journal
    let mut straight = image(8, [7, 6], 2, &ranges());
    let head = "slot 1 0 7 2 4 40960 4096\nslot 2 0 6 2 4 40960 4096\nselected 1\nfront 2 4\n";
    assert_eq!(run(&straight, "8"), (Some(0), head.to_string() + &rows(&ranges())));
    straight.extend([1; 100]);
    assert_eq!(run(&straight, "8"), (Some(0), head.to_string() + &rows(&ranges())));
    // round, within a range; the counter after the largest is 0
    let round = image(8, [u64::MAX, 0], 6, &ranges());
    let head = "slot 1 0 18446744073709551615 6 4 40960 4096\nslot 2 0 0 6 4 40960 4096\nselected 2\nfront 6 2\nback 0 2\n";
    assert_eq!(run(&round, "8"), (Some(0), head.to_string() + &rows(&ranges())));
    // nothing
    let nothing = image(1, [3, 3], 0, &[]);
    let head = "slot 1 0 3 0 0 12288 4096\nslot 2 0 3 0 0 12288 4096\nselected 1\n";
    assert_eq!(run(&nothing, "1"), (Some(0), head.to_string() + &rows(&[])));
    // as many blocks as a disk may have
    let large = vec![vec![vec![9; 255]; 15]; 4096];
    let (status, text) = run(&image(4096, [1, 1], 4000, &large), "4096");
    let last = rows(&large[..1]).lines().nth(14).expect("a row").replace("entry 15 ", "entry 61440 ");
    assert_eq!((status, text.lines().count()), (Some(0), 5 + 61440 + 1));
    assert!(text.ends_with(&format!("{last}\nrecord 61440 15667200\n")));

    // refused
    let mut torn = straight.clone();
    torn[2 * BLOCK + 2 * BLOCK + 4095] = 1;
    assert_eq!(run(&torn, "8"), (Some(1), "refused 7 0\n".to_string()));
    let mut torn = straight.clone();
    torn[BLOCK + 64] += 1;
    assert_eq!(run(&torn, "8"), (Some(1), "refused 12 2\n".to_string()));
    let mut other = straight.clone();
    linked::write_sector([7, 8, 4, 40960, 4096], &mut other[..BLOCK]).unwrap();
    assert_eq!(run(&other, "8"), (Some(1), "refused 2 1\n".to_string()));
}

#[test]
fn program_says_what_is_wrong() {
    if !c::there() {
        return eprintln!("no cc: bench/c/record.c was not compiled");
    }
    let text = fs::read_to_string(c::top().join("bench/c/record.c")).expect("the program");
    let folder = c::Folder::new("wrong");
    let (program, file) = (folder.compile(&text), folder.0.join("disk"));
    let name = file.to_str().expect("a name in UTF-8");
    let run = |args: &[&str]| {
        let ran = c::ran(&program, args);
        assert_eq!((ran.status.code(), &ran.stdout[..]), (Some(2), &b""[..]));
        String::from_utf8(ran.stderr).expect("text")
    };
    let expected =
        "record: expected FILE N T: a disk's bytes, its journal blocks, the greatest table length\n";
    assert_eq!(run(&[]), expected);
    assert_eq!(run(&[name, "8", "4096", "9"]), expected);
    assert_eq!(run(&[name, "8", "4096"]), format!("record: {name}: No such file or directory\n"));
    fs::write(&file, vec![0; 5000]).expect("the disk");
    assert_eq!(run(&[name, "8", "4096"]), format!("record: {name} has 5000 bytes, and 40960 are needed\n"));
    for n in ["0", "4097", "8x", "", "-1", "99999999999999999999"] {
        assert_eq!(run(&[name, n, "4096"]), format!("record: {n}: N is a number from 1 to 4096\n"));
    }
    assert_eq!(run(&[name, "8", "16777217"]), "record: 16777217: T is a number from 1 to 16777216\n");
}

/// The library's answer and what it leaves, which are plain Rust's.
fn recorded(n: usize, disk: &[u8]) -> linked::Recorded {
    let (mut x, mut y) = (replay(n), replay(n));
    let r = linked::record(n as u64, T, disk, &mut x);
    assert_eq!(r, plain::record(n, T as usize, disk, &mut y));
    assert!(x == y);
    r
}

#[test]
fn refusals_come_in_order() {
    let good = image(8, [7, 6], 6, &ranges());
    assert_eq!(recorded(8, &good), Ok(Record { which: 0, entries: 23, bytes: 5114 }));
    assert_eq!(recorded(8, &good[1..]), Err((10, 1)));
    assert_eq!(recorded(8, &good[..good.len() - 1]), Err((1, 0)));
    assert_eq!(recorded(7, &good), Err((1, 0)));
    let mut bad = good.clone();
    bad[8 * BLOCK] = 0;
    assert_eq!(recorded(8, &bad), Err((7, 0)));
    for (at, number, slot) in
        [(0, 10, 1), (63, 11, 1), (64, 12, 1), (BLOCK, 10, 2), (2 * BLOCK - 1, 11, 2), (BLOCK + 104, 12, 2)]
    {
        let mut worse = bad.clone();
        worse[at] ^= 1;
        assert_eq!(recorded(8, &worse), Err((number, slot)));
        assert_eq!(recorded(9, &worse), Err((number, slot)));
        worse[104] ^= 2;
        assert_eq!(recorded(8, &worse), Err((if slot == 1 { number } else { 12 }, 1)));
    }
    let numbers = [[7, 8, 4, 40960, 1], [7, 6, 9, 40960, 1], [7, 6, 4, 40961, 1], [7, 6, 4, 45056, 0]];
    for (five, slot) in numbers.iter().flat_map(|f| [(*f, 0), (*f, 1)]) {
        let mut other = good.clone();
        linked::write_sector(five, &mut other[slot * BLOCK..][..BLOCK]).unwrap();
        assert_eq!(recorded(8, &other), Err((2, slot as u64 + 1)));
        assert_eq!(linked::ask_superblock(8, T, &five), 2);
    }
}

#[test]
fn marks_are_asked_of_the_interval_alone() {
    let disk = image(8, [7, 6], 6, &ranges());
    let marked = |marks: &[u8]| linked::record_marked(8, T, &disk, marks, &mut replay(8));
    for block in 0..8 {
        let mut marks = [1; 8];
        marks[block] = 0;
        assert_eq!(marked(&marks).err(), [6, 7, 0, 1].contains(&block).then_some((6, 0)));
        marks[block] = 2;
        assert_eq!(marked(&marks), Err((1, 0)));
    }
    assert_eq!(marked(&[1; 7]), Err((1, 0)));
    let (mut x, mut y) = (replay(8), replay(8));
    assert_eq!(linked::record_marked(8, T, &disk, &[1; 8], &mut x), linked::record(8, T, &disk, &mut y));
    assert!(x == y);
}

#[test]
fn superblocks_and_parts() {
    assert_eq!(linked::ask_superblock(8, T, &[u64::MAX, 7, 8, 45056, 4096]), 0);
    assert_eq!(linked::ask_superblock(8, T, &[0; 4]), 1);
    assert_eq!(linked::ask_superblock(0, T, &[0; 5]), 1);
    assert_eq!(linked::ask_superblock(8, 0, &[0; 5]), 1);
    let selected =
        [(0, 1), (1, 0), (4, 4), (7, 9), (u64::MAX, 0), (0, u64::MAX)].map(|(a, b)| linked::select(a, b));
    assert_eq!(selected, [1, 0, 0, 0, 1, 0]);
    let parts = |start, len| (linked::front(8, T, start, len), linked::back(8, T, start, len));
    assert_eq!(parts(6, 5), (Ok((6, 2)), Ok((0, 3))));
    assert_eq!(parts(6, 2), (Ok((6, 2)), Ok((0, 0))));
    assert_eq!(parts(3, 0), (Ok((0, 0)), Ok((0, 0))));
    assert_eq!(parts(8, 0), (Err(4), Err(4)));
    assert_eq!(parts(0, 9), (Err(4), Err(4)));
    assert_eq!(linked::front(4097, T, 0, 0), Err(1));
}
