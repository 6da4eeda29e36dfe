//! A superblock as it lies in its sector (S-1). Contents first: the field count (2 bytes), each field's
//! offset (2 bytes). The bodies, 8 bytes each: the five numbers, then their check number. Low byte first,
//! zeros elsewhere.

use std::array;

use crate::superblock::Superblock;
use crate::{ask, Refusal};

pub const SECTOR: usize = 4096;
pub const FIELDS: usize = 6;

/// Where the contents end, where the bodies begin and end.
pub const CONTENTS: usize = 2 + 2 * FIELDS;
pub const BODIES: usize = 64;
pub const END: usize = BODIES + 8 * FIELDS;

/// The bytes every sector begins with.
pub fn contents() -> [u8; CONTENTS] {
    let mut bytes = [0; CONTENTS];
    let offsets = (0..FIELDS).map(|field| BODIES + 8 * field);
    for (pair, number) in bytes.chunks_exact_mut(2).zip([FIELDS].into_iter().chain(offsets)) {
        pair.copy_from_slice(&(number as u16).to_le_bytes());
    }
    bytes
}

/// The sum of the five, without the carry past 64 bits.
pub fn check(numbers: [u64; 5]) -> u64 {
    numbers.into_iter().fold(0, u64::wrapping_add)
}

/// The body of each field, whatever the rest of the sector is.
pub fn fields(sector: &[u8]) -> [u64; FIELDS] {
    array::from_fn(|field| {
        let at = BODIES + 8 * field;
        u64::from_le_bytes(array::from_fn(|k| sector[at + k]))
    })
}

pub fn put_fields(sector: &mut [u8], numbers: [u64; FIELDS]) {
    for (body, number) in sector[BODIES..END].chunks_exact_mut(8).zip(numbers) {
        body.copy_from_slice(&number.to_le_bytes());
    }
}

/// Writes each byte of the sector; a buffer of another length stays as it was.
pub fn write(superblock: &Superblock, sector: &mut [u8]) -> Result<(), Refusal> {
    ask(sector.len() == SECTOR, Refusal::Contents)?;
    let numbers @ [counter, start, len, addr, size] = superblock.numbers();
    sector.fill(0);
    sector[..CONTENTS].copy_from_slice(&contents());
    put_fields(sector, [counter, start, len, addr, size, check(numbers)]);
    Ok(())
}

/// A sector with this record.
pub fn written(superblock: &Superblock) -> Vec<u8> {
    let mut sector = vec![0; SECTOR];
    write(superblock, &mut sector).expect("a sector's length");
    sector
}

/// The record of a sector that is right in every byte.
pub fn read(sector: &[u8]) -> Result<Superblock, Refusal> {
    ask(sector.len() == SECTOR && sector.starts_with(&contents()), Refusal::Contents)?;
    let mut rest = sector[CONTENTS..BODIES].iter().chain(&sector[END..]);
    ask(rest.all(|byte| *byte == 0), Refusal::Zeros)?;
    let [counter, start, len, addr, size, sum] = fields(sector);
    let numbers = [counter, start, len, addr, size];
    ask(check(numbers) == sum, Refusal::Check)?;
    Ok(Superblock::from_numbers(numbers))
}
