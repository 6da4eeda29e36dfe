//! A range: entries as they lie in whole journal blocks.
//! b (2 bytes), e (2 bytes), e lengths, the bodies, zeros up to b blocks.

use crate::layout::BLOCK;

pub type Entry = Vec<u8>;

pub const MAX_ENTRIES: usize = 1024;
pub const MAX_ENTRY: usize = 255;

pub fn valid_entry(entry: &Entry) -> bool {
    (1..=MAX_ENTRY).contains(&entry.len())
}

/// Zeros only: a range may hold it, an add brings none (S-6).
pub fn blank(entry: &Entry) -> bool {
    entry.iter().all(|&b| b == 0)
}

/// The fewest blocks that hold the entries.
pub fn blocks(entries: &[Entry]) -> usize {
    (4 + entries.iter().map(|e| 1 + e.len()).sum::<usize>()).div_ceil(BLOCK)
}

/// The range of 1 to 1,024 valid entries.
pub fn write(entries: &[Entry]) -> Vec<u8> {
    let blocks = blocks(entries);
    let mut bytes = Vec::with_capacity(blocks * BLOCK);
    bytes.extend((blocks as u16).to_le_bytes());
    bytes.extend((entries.len() as u16).to_le_bytes());
    bytes.extend(entries.iter().map(|e| e.len() as u8));
    entries.iter().for_each(|e| bytes.extend(e));
    bytes.resize(blocks * BLOCK, 0);
    bytes
}

/// The entries of the range that `bytes` begins with, and what follows it.
fn read_one(bytes: &[u8]) -> Option<(Vec<Entry>, &[u8])> {
    let number = |at: usize| Some(u16::from_le_bytes(bytes.get(at..at + 2)?.try_into().ok()?));
    let (count, size) = (usize::from(number(2)?), usize::from(number(0)?) * BLOCK);
    let (range, rest) = bytes.split_at_checked(size)?;
    let lengths = range.get(4..4 + count)?;
    let mut bodies = &range[4 + count..];
    let mut entries = Vec::with_capacity(count);
    for &len in lengths {
        let (body, after) = bodies.split_at_checked(len.into())?;
        entries.push(body.to_vec());
        bodies = after;
    }
    let sound = (1..=MAX_ENTRIES).contains(&count)
        && entries.iter().all(valid_entry)
        && blocks(&entries) * BLOCK == size
        && bodies.iter().all(|&b| b == 0);
    sound.then_some((entries, rest))
}

/// Ranges one after another, to the last byte.
pub fn read_ranges(mut bytes: &[u8]) -> Option<Vec<Vec<Entry>>> {
    let mut all = Vec::new();
    while !bytes.is_empty() {
        let (entries, rest) = read_one(bytes)?;
        all.push(entries);
        bytes = rest;
    }
    Some(all)
}

/// All their entries.
pub fn read(bytes: &[u8]) -> Option<Vec<Entry>> {
    read_ranges(bytes).map(|ranges| ranges.concat())
}
