//! Random images that hold a record, put together so that more is met than days reach: any N, journals anywhere on the
//! ring and of any length, ranges of one block to many, any counters, and whatever may lie elsewhere.

use crate::days::{location, Rng};
use crate::image::{block, slot, Image};
use crate::layout::{Geometry, Interval, BLOCK};
use crate::range::{self, Entry, MAX_ENTRIES, MAX_ENTRY};
use crate::record::MOST_BLOCKS;
use crate::sector::written;
use crate::sector_inputs::COUNTERS;
use crate::stored::entry;
use crate::superblock::Superblock;

/// The most blocks of a range: 1,024 entries of 255 bytes.
const MOST_OF_A_RANGE: u64 = 65;

/// Most disks are small, so that many can be looked at.
fn geometry(rng: &mut Rng) -> Geometry {
    let n = match rng.below(100) {
        0 | 1 => MOST_BLOCKS,
        2 => 41 + rng.below(MOST_BLOCKS - 40),
        3..=14 => 17 + rng.below(24),
        15..=24 => 1,
        _ => 2 + rng.below(15),
    };
    let any = rng.below(16_777_216) + 1;
    Geometry::new(n, rng.of(&[1, 2, 4096, 4096, 16_777_216, any])).expect("sizes in range")
}

/// The least, the most, or any number between them; seldom far from the least.
fn between(rng: &mut Rng, least: usize, most: usize) -> usize {
    let span = most - least;
    match rng.below(6) {
        0 => least,
        1 => most,
        2 => least + rng.below(span as u64 + 1) as usize,
        _ => least + rng.below(span.min(60) as u64 + 1) as usize,
    }
}

/// So many lengths of 1 to 255 with this sum.
fn lengths(rng: &mut Rng, count: usize, sum: usize) -> Vec<usize> {
    let mut left = sum;
    let length = |behind: usize| {
        let least = left.saturating_sub(MAX_ENTRY * behind).max(1);
        let most = (left - behind).min(MAX_ENTRY);
        let len = least + rng.below((most - least) as u64 + 1) as usize;
        left -= len;
        len
    };
    (0..count).rev().map(length).collect()
}

/// Entries whose range has this many blocks: it may begin its last block with one byte, or fill it.
pub fn entries(rng: &mut Rng, blocks: usize) -> Vec<Entry> {
    let (least, most) = ((blocks - 1) * BLOCK + 1, (blocks * BLOCK).min(4 + MAX_ENTRIES * (1 + MAX_ENTRY)));
    let used = between(rng, least.max(6), most) - 4;
    let (few, many) = (used.div_ceil(1 + MAX_ENTRY), (used / 2).min(MAX_ENTRIES));
    let count = between(rng, few, many);
    lengths(rng, count, used - count).into_iter().map(|len| entry(rng, len)).collect()
}

/// Ranges of so many blocks together.
fn ranges(rng: &mut Rng, blocks: u64) -> Vec<u8> {
    let (mut bytes, mut left) = (vec![], blocks);
    while left > 0 {
        let most = left.min(MOST_OF_A_RANGE);
        let blocks = match rng.below(4) {
            0 => most,
            1 => 1 + rng.below(most),
            _ => 1,
        };
        bytes.extend(range::write(&entries(rng, blocks as usize)));
        left -= blocks;
    }
    bytes
}

/// Where the selected journal lies: of no blocks, of one, of all, of any number; straight or round the ring's end.
fn journal(rng: &mut Rng, n: u64) -> Interval {
    let any = rng.below(n + 1);
    let len = rng.of(&[0, 1, n, n, any, any, any, any]);
    let any = rng.below(n);
    let round = n - 1 - rng.below(len.max(1).min(n));
    Interval::new(rng.of(&[0, any, n - 1, round, round]), len)
}

/// What lies in the blocks outside of the journal, one way for a disk.
fn elsewhere(rng: &mut Rng, way: u64) -> Vec<u8> {
    match way {
        0 => vec![0; BLOCK],
        1 => rng.bytes(BLOCK),
        2 => ranges(rng, 1),
        _ => {
            let way = rng.below(3);
            elsewhere(rng, way)
        }
    }
}

/// Two well-formed superblocks, the selected one with this journal.
fn superblocks(rng: &mut Rng, g: Geometry, journal: Interval) -> [Superblock; 2] {
    let counters = rng.of(COUNTERS).1;
    let mut slots = counters(rng).map(|counter| {
        let (start, len) = (rng.below(g.n()), rng.below(g.n() + 1));
        Superblock { counter, start, len, table: location(rng, g) }
    });
    let selected = &mut slots[Superblock::select(&slots)];
    (selected.start, selected.len) = (journal.start, journal.len);
    slots
}

/// A disk that holds a record; one in four goes on behind its journal.
pub fn made(rng: &mut Rng) -> Image {
    let geometry = geometry(rng);
    let journal = journal(rng, geometry.n());
    let slots = superblocks(rng, geometry, journal);
    let way = rng.below(4);
    let mut bytes: Vec<u8> = slots.iter().flat_map(written).collect();
    (0..geometry.n()).for_each(|_| bytes.extend(elsewhere(rng, way)));
    let held = ranges(rng, journal.len);
    for (k, held) in geometry.ring(journal).zip(held.chunks_exact(BLOCK)) {
        bytes[block(k)].copy_from_slice(held);
    }
    if rng.one_in(4) {
        let len = rng.of(&[1, 4095, 4096, 4097, 10_000]);
        bytes.extend(rng.bytes(len));
    }
    Image { geometry, bytes }
}

/// Another superblock in a slot.
pub fn put(image: &mut Image, k: usize, superblock: &Superblock) {
    image.bytes[slot(k)].copy_from_slice(&written(superblock));
}
