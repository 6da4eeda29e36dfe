//! The program `record`: its rows, its refusals and their order, its messages.

use std::ffi::OsString;
use std::fs;

use super::image::Folder;
use super::sectors::Full;
use crate::image::{self, Image};
use crate::layout::{Geometry, BLOCK};
use crate::range::{self, Entry};
use crate::record::{rows, run};
use crate::sector;
use crate::superblock::Superblock;

/// N = 8 and T = 4,096: two superblocks on table 1, and ranges one behind the other from a block on.
fn image(slots: [[u64; 3]; 2], first: usize, ranges: &[&[&[u8]]]) -> Image {
    let geometry = Geometry::new(8, 4096).unwrap();
    let mut image = Image { geometry, bytes: vec![0; 40_960] };
    for (k, [counter, start, len]) in slots.into_iter().enumerate() {
        put(&mut image, k, [counter, start, len, 40_960, 4096]);
    }
    let entries = |range: &&[&[u8]]| range::write(&range.iter().map(|e| e.to_vec()).collect::<Vec<Entry>>());
    let bytes: Vec<u8> = ranges.iter().flat_map(entries).collect();
    for (k, chunk) in bytes.chunks(BLOCK).enumerate() {
        image.bytes[image::block((first + k) % 8)].copy_from_slice(chunk);
    }
    image
}

fn put(image: &mut Image, slot: usize, numbers: [u64; 5]) {
    image.bytes[image::slot(slot)].copy_from_slice(&sector::written(&Superblock::from_numbers(numbers)));
}

fn last(image: &Image) -> String {
    rows(image).lines().last().unwrap().to_string()
}

const HEADS: &str = "slot 1 0 7 6 3 40960 4096\nslot 2 0 6 6 2 40960 4096\n";

#[test]
fn rows_of_the_page() {
    let long: Vec<&[u8]> = vec![&[0xab; 255]; 16];
    let disk = image([[7, 6, 3], [6, 6, 2]], 6, &[&[b"hello", b"A"], &long]);
    let shown = rows(&disk);
    let begin = "selected 1: its counter follows slot 2's\nfront 6 2\nback 0 1\n\
        range 6 1 2\nentry 1 5 68656c6c6f\nentry 2 1 41\nrange 7 2 16\nentry 3 255 abab";
    assert!(shown.starts_with(&format!("{HEADS}{begin}")), "{shown:.400}");
    let end = format!("\nentry 18 255 {}\nrecord 18 4086\n", "ab".repeat(255));
    assert!(shown.ends_with(&end));
    assert_eq!(shown.lines().count(), 2 + 3 + 2 + 18 + 1);
}

#[test]
fn empty_and_full_journals() {
    let empty = image([[1, 6, 8], [2, 6, 0]], 0, &[]);
    let heads = "slot 1 0 1 6 8 40960 4096\nslot 2 0 2 6 0 40960 4096\n";
    assert_eq!(rows(&empty), format!("{heads}selected 2: its counter follows slot 1's\nrecord 0 0\n"));
    let one: &[&[u8]] = &[b"A"];
    for (start, pieces) in [(0, "front 0 8\n"), (3, "front 3 5\nback 0 3\n")] {
        let full = image([[5, start, 8], [5, 0, 0]], start as usize, &[one; 8]);
        let ranges = (0..8).map(|k| format!("range {} 1 1\nentry {} 1 41\n", (start + k) % 8, k + 1));
        let right = format!(
            "slot 1 0 5 {start} 8 40960 4096\nslot 2 0 5 0 0 40960 4096\nselected 1: the counters are equal\n\
            {pieces}{}record 8 8\n",
            ranges.collect::<String>()
        );
        assert_eq!(rows(&full), right);
    }
}

/// Slot 1's sector first, then slot 2's, and last the form of both.
#[test]
fn refusals_in_order() {
    let sound = image([[7, 6, 1], [8, 6, 1]], 6, &[&[b"A"]]);
    let (ten, eleven, twelve) = (0, 63, 64);
    let damaged = |one: &[usize], two: &[usize], ill: [bool; 2]| {
        let mut disk = sound.clone();
        for (slot, ill) in ill.into_iter().enumerate().filter(|(_, ill)| *ill) {
            put(&mut disk, slot, [7 + slot as u64, 8 * u64::from(ill), 1, 40_960, 4096]);
        }
        one.iter().for_each(|at| disk.bytes[*at] += 1);
        two.iter().for_each(|at| disk.bytes[4096 + at] += 1);
        let shown = rows(&disk);
        assert_eq!(shown.lines().count(), 3);
        shown.lines().map(|row| row.split(' ').next_back().unwrap().to_string()).collect::<Vec<_>>()
    };
    let no = [false, false];
    assert_eq!(damaged(&[ten], &[], no), ["10", "4096", "10"]);
    assert_eq!(damaged(&[], &[eleven], no), ["4096", "11", "11"]);
    assert_eq!(damaged(&[twelve], &[ten], no), ["12", "10", "12"]);
    assert_eq!(damaged(&[ten, twelve], &[eleven], no), ["10", "11", "10"]);
    assert_eq!(damaged(&[], &[twelve], [true, false]), ["4096", "12", "12"]);
    assert_eq!(damaged(&[eleven], &[], [false, true]), ["11", "4096", "11"]);
    assert_eq!(damaged(&[], &[], [true, false]), ["4096", "4096", "2"]);
    assert_eq!(damaged(&[], &[], [true, true]), ["4096", "4096", "2"]);
    let mut ill = sound.clone();
    put(&mut ill, 1, [8, 6, 9, 40_960, 4096]);
    let right = "slot 1 0 7 6 1 40960 4096\nslot 2 2 8 6 9 40960 4096\nrefused 2\n";
    assert_eq!(rows(&ill), right);
}

#[test]
fn well_formed_superblocks() {
    let sound = image([[7, 0, 0], [8, 6, 0]], 0, &[]);
    let with = |numbers: [u64; 4]| {
        let mut disk = sound.clone();
        let [start, len, addr, size] = numbers;
        put(&mut disk, 0, [7, start, len, addr, size]);
        last(&disk)
    };
    let well = [[7, 8, 40_960, 4096], [0, 0, 40_960, 1], [7, 0, 45_056, 4096], [0, 8, 45_056, 1]];
    assert_eq!(well.map(with), ["record 0 0"; 4]);
    let max = u64::MAX;
    let ill = [
        [8, 0, 40_960, 1],
        [max, 0, 40_960, 1],
        [0, 9, 40_960, 1],
        [7, max, 40_960, 1],
        [0, 0, 40_960, 0],
        [0, 0, 45_056, 4097],
        [0, 0, 40_961, 1],
        [0, 0, 49_152, 1],
        [0, 0, 8192, 1],
        [0, 0, 0, 1],
    ];
    assert_eq!(ill.map(with), ["refused 2"; 10]);
}

/// What isn't ranges to the interval's last block has no ranges in its rows.
#[test]
fn journals_that_are_no_ranges() {
    let long: Vec<&[u8]> = vec![b"abc"; 5];
    let sound = image([[7, 6, 3], [6, 6, 2]], 6, &[&[b"A"], &[b"B"], &long]);
    assert_eq!(last(&sound), "record 7 17");
    let (first, second) = (image::block(7).start, image::block(0).start);
    let changes: [(usize, u8); 10] = [
        (first, 0),
        (first, 2),
        (second, 2),
        (second + 1, 1),
        (first + 2, 0),
        (first + 3, 4),
        (first + 4, 0),
        (first + 6, 1),
        (second + 2, 4),
        (second + 4095, 1),
    ];
    let refused = "selected 1: its counter follows slot 2's\nfront 6 2\nback 0 1\nrefused 7\n";
    for (at, byte) in changes {
        let mut disk = sound.clone();
        disk.bytes[at] = byte;
        assert_eq!(rows(&disk), format!("{HEADS}{refused}"), "byte {at}");
    }
    // A length that takes in zeros from behind is another entry; an entry of zeros is one like any other.
    let mut disk = sound.clone();
    disk.bytes[first + 4] = 255;
    assert_eq!(last(&disk), "record 7 271");
    disk.bytes[first + 5] = 0;
    assert!(rows(&disk).contains(&format!("\nentry 2 255 {}\n", "00".repeat(255))));
    // A block more, of zeros; a range that the interval cuts.
    let mut disk = sound.clone();
    put(&mut disk, 0, [7, 6, 4, 40_960, 4096]);
    assert_eq!(last(&disk), "refused 7");
    let two_blocks: Vec<&[u8]> = vec![&[1; 255]; 17];
    let mut disk = image([[7, 6, 2], [6, 6, 2]], 6, &[&two_blocks]);
    assert_eq!(last(&disk), "record 17 4335");
    put(&mut disk, 0, [7, 6, 1, 40_960, 4096]);
    assert_eq!(last(&disk), "refused 7");
}

/// Rows and messages of a run.
fn printed(arguments: &[OsString]) -> (String, String) {
    let (mut output, mut errors) = (vec![], vec![]);
    let all = run(arguments, &mut output, &mut errors);
    assert_eq!(all, errors.is_empty());
    (String::from_utf8(output).unwrap(), String::from_utf8(errors).unwrap())
}

fn words(file: &OsString, n: &str, t: &str) -> [OsString; 3] {
    [file.clone(), n.into(), t.into()]
}

#[test]
fn messages_of_the_page() {
    let folder = Folder::new("messages");
    let (file, none) = (folder.file("disk"), folder.file("none"));
    let disk = image([[7, 6, 1], [8, 6, 1]], 6, &[&[b"A"]]);
    fs::write(&file, &disk.bytes).unwrap();
    let right = (rows(&disk), String::new());
    for n in ["8", "08", "00000000000000000000008"] {
        assert_eq!(printed(&words(&file, n, "4096")), right);
    }
    let said = |arguments: &[OsString], what: &str| {
        assert_eq!(printed(arguments), (String::new(), format!("record: {what}\n")));
    };
    let expected = "expected FILE N T: a disk's bytes, its journal blocks, the greatest table length";
    let four = [words(&file, "8", "4096").as_slice(), std::slice::from_ref(&file)].concat();
    for count in [0, 1, 2, 4] {
        said(&four[..count], expected);
    }
    let name = file.to_str().unwrap();
    for n in [
        "0",
        "4097",
        "8x",
        "",
        "-1",
        "+8",
        "8.0",
        " 8",
        "0x8",
        "18446744073709551616",
        "18446744073709551624",
    ] {
        said(&words(&file, n, "4096"), &format!("{name}: N is a number from 1 to 4096, not {n}"));
    }
    for n in ["257", "4096", "0300"] {
        let most = "N is at most 256 here; the library takes up to 4096 (docs/LINKING.md)";
        said(&words(&file, n, "4096"), &format!("{name}: {most}"));
        said(&words(&none, n, "0"), &format!("{}: {most}", none.to_str().unwrap()));
    }
    for t in ["0", "16777217", "4096x", "", "-4096"] {
        said(&words(&file, "8", t), &format!("{name}: T is a number from 1 to 16777216, not {t}"));
        said(
            &words(&none, "0", t),
            &format!("{}: N is a number from 1 to 4096, not 0", none.to_str().unwrap()),
        );
    }
    said(&words(&none, "8", "4096"), &format!("{}: No such file or directory", none.to_str().unwrap()));
    said(&words(&"".into(), "8", "4096"), ": No such file or directory");
    let folder = folder.file("");
    said(&words(&folder, "8", "4096"), &format!("{}: Is a directory", folder.to_str().unwrap()));
    for len in [0, 1, 4096, 8192, 8193, 40_959] {
        fs::write(&file, &disk.bytes[..len]).unwrap();
        said(&words(&file, "8", "4096"), &format!("{name} has {len} bytes, and N = 8 takes 40960"));
    }
    fs::write(&file, [&disk.bytes[..], &[1; 100]].concat()).unwrap();
    assert_eq!(printed(&words(&file, "8", "4096")), right);
}

/// One record behind the other; what can't be read keeps no other back.
#[test]
fn several_disks() {
    let folder = Folder::new("several");
    let disks = [image([[7, 6, 1], [8, 6, 1]], 6, &[&[b"A"]]), image([[7, 6, 1], [7, 6, 1]], 6, &[])];
    let files = ["one", "two"].map(|name| folder.file(name));
    for (file, disk) in files.iter().zip(&disks) {
        fs::write(file, &disk.bytes).unwrap();
    }
    let [one, two] = disks.each_ref().map(rows);
    assert!(one.ends_with("record 1 1\n") && two.ends_with("refused 7\n"));
    let [first, second] = files.each_ref().map(|file| words(file, "8", "4096"));
    let missing = words(&folder.file("none"), "8", "4096");
    let short = words(&files[0], "9", "4096");
    assert_eq!(printed(&[&first[..], &second[..]].concat()), (one.clone() + &two, String::new()));
    let (output, errors) = printed(&[&missing[..], &first[..], &short[..], &second[..]].concat());
    assert_eq!(output, one + &two);
    let said: Vec<&str> = errors.lines().map(|line| line.rsplit_once(['/', '\\']).unwrap().1).collect();
    assert_eq!(said, ["none: No such file or directory", "one has 40960 bytes, and N = 9 takes 45056"]);
    let mut errors = vec![];
    assert!(!run(&[&first[..], &second[..]].concat(), Full { room: 10 }, &mut errors));
    assert_eq!(errors, b"record: the rows can't be written\n");
}
