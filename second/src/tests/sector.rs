//! The sector's bytes, its refusals and their order.

use crate::days::Rng;
use crate::sector::{read, write, written, BODIES, CONTENTS, END, SECTOR};
use crate::sector_damage::{DAMAGES, NONE};
use crate::sector_inputs::any_record;
use crate::superblock::Superblock;
use crate::Refusal;

/// A reader's answer as a number: 0 for a record.
fn answer(sector: &[u8]) -> u8 {
    read(sector).err().map_or(0, Refusal::number)
}

/// The number of the question that byte belongs to.
fn question(at: usize) -> u8 {
    match at {
        _ if at < CONTENTS => 10,
        _ if (BODIES..END).contains(&at) => 12,
        _ => 11,
    }
}

#[test]
fn a_sector_by_hand() {
    let mut right = vec![0; 4096];
    right[..14].copy_from_slice(&[6, 0, 64, 0, 72, 0, 80, 0, 88, 0, 96, 0, 104, 0]);
    // The check number of 7, 6, 5, 40960 and 4096 is 45074, hexadecimal b012.
    for (at, byte) in [(64, 7), (72, 6), (80, 5), (89, 0xa0), (97, 0x10), (104, 0x12), (105, 0xb0)] {
        right[at] = byte;
    }
    let record = Superblock::from_numbers([7, 6, 5, 40_960, 4096]);
    assert_eq!(written(&record), right);
    let mut buffer = [0xa5; 4096];
    assert_eq!(write(&record, &mut buffer), Ok(()));
    assert_eq!(buffer[..], right, "each byte is written");
    assert_eq!(read(&right), Ok(record));
}

#[test]
fn a_written_sector_reads_as_its_record() {
    let (max, half) = (u64::MAX, 1 << 63);
    let extremes = [[0; 5], [max; 5], [half; 5], [max, 1, 0, 0, 0], [0, 0, 0, half, half], [1, 2, 3, 4, max]];
    let mut rng = Rng::new(1);
    let random = (0..5000).map(|_| any_record(&mut rng));
    for record in extremes.map(Superblock::from_numbers).into_iter().chain(random) {
        assert_eq!(read(&written(&record)), Ok(record));
    }
    let sum = |numbers| written(&Superblock::from_numbers(numbers))[104..112].to_vec();
    assert_eq!(sum([max; 5]), (max - 4).to_le_bytes(), "the carry is dropped");
    assert_eq!(sum([max, 1, 0, 0, 0]), [0; 8]);
}

/// Each of the 4,096 bytes, with each bit altered and as each of a few bytes.
#[test]
fn every_byte_counts() {
    let mut rng = Rng::new(2);
    let whole = written(&any_record(&mut rng));
    let mut sector = whole.clone();
    for at in 0..SECTOR {
        let random = rng.number() as u8;
        let others = [0, 1, 6, 255, random].into_iter().chain((0..8).map(|bit| whole[at] ^ 1 << bit));
        for other in others.filter(|other| *other != whole[at]) {
            sector[at] = other;
            assert_eq!(answer(&sector), question(at), "byte {at} is {other}");
        }
        sector[at] = whole[at];
    }
}

/// Each damage meets the refusals it is listed with, and no others; whatever is read, a writer writes.
#[test]
fn damages() {
    let mut rng = Rng::new(3);
    for (name, refusals, damage) in [&NONE].into_iter().chain(DAMAGES) {
        let mut met = vec![];
        for _ in 0..3000 {
            let mut sector = written(&any_record(&mut rng));
            damage(&mut rng, &mut sector);
            met.push(answer(&sector));
            if let Ok(record) = read(&sector) {
                assert!(written(&record) == sector, "{name}: a second sector of {record:?}");
            }
        }
        met.sort_unstable();
        met.dedup();
        assert_eq!(met, *refusals, "{name}");
    }
}

#[test]
fn order_of_refusals() {
    let whole = written(&Superblock::from_numbers([7, 6, 5, 40_960, 4096]));
    let altered = |places: &[usize]| {
        let mut sector = whole.clone();
        places.iter().for_each(|at| sector[*at] ^= 1);
        sector
    };
    let edges = [[13, 14], [13, 64], [13, 4095], [0, 111], [63, 64], [111, 112], [104, 4095]];
    assert_eq!(edges.map(|places| answer(&altered(&places))), [10, 10, 10, 10, 11, 11, 11]);
    assert_eq!(answer(&altered(&[13, 63, 111])), 10);
    // Another length comes before all.
    assert_eq!(answer(&altered(&[14, 64])[..4095]), 10);
}

#[test]
fn other_lengths() {
    let record = Superblock::from_numbers([7, 6, 5, 40_960, 4096]);
    let long = [written(&record), vec![0; 2 * SECTOR]].concat();
    for len in [0, 1, 2, 13, 14, 64, 112, 4095, 4097, 8192, 12_288] {
        assert_eq!(read(&long[..len]), Err(Refusal::Contents), "{len} bytes");
        let mut buffer = vec![0x5a; len];
        assert_eq!(write(&record, &mut buffer), Err(Refusal::Contents), "{len} bytes");
        assert!(buffer.iter().all(|byte| *byte == 0x5a), "{len} bytes are altered");
    }
    assert_eq!(read(&long[..4096]), Ok(record));
}
