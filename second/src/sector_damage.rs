//! What can befall a written sector: each damage by its name, with the refusals that are right for it.

use std::ops::Range;

use crate::days::Rng;
use crate::sector::{fields, put_fields, BODIES, CONTENTS, END, FIELDS, SECTOR};

/// Its name, the numbers that are right for it (0: it is a record, perhaps another), and how it is done.
pub type Damage = (&'static str, &'static [u8], fn(&mut Rng, &mut [u8]));

pub const NONE: Damage = ("undamaged", &[0], |_, _| {});

#[rustfmt::skip]
pub const DAMAGES: &[Damage] = &[
    // A single place.
    ("a bit altered anywhere", &[10, 11, 12], alter_bit),
    ("a byte altered anywhere", &[10, 11, 12], |r, s| alter(r, s, 0..SECTOR)),
    ("a byte altered at an edge", &[10, 11, 12], alter_edge),
    ("the field count altered", &[10], |r, s| alter(r, s, 0..2)),
    ("an offset altered", &[10], |r, s| alter(r, s, 2..CONTENTS)),
    ("the gap altered", &[11], |r, s| alter(r, s, CONTENTS..BODIES)),
    ("the counter altered", &[12], |r, s| alter(r, s, body(0))),
    ("the start altered", &[12], |r, s| alter(r, s, body(1))),
    ("the length altered", &[12], |r, s| alter(r, s, body(2))),
    ("the table address altered", &[12], |r, s| alter(r, s, body(3))),
    ("the table length altered", &[12], |r, s| alter(r, s, body(4))),
    ("the check number altered", &[12], |r, s| alter(r, s, body(5))),
    ("a byte behind the bodies altered", &[11], |r, s| alter(r, s, END..SECTOR)),
    // Several places: the order of the questions counts.
    ("contents and zeros altered", &[10], |r, s| { contents(r, s); zeros(r, s) }),
    ("contents and a body altered", &[10], |r, s| { contents(r, s); bodies(r, s) }),
    ("zeros and a body altered", &[11], |r, s| { zeros(r, s); bodies(r, s) }),
    ("contents, zeros and a body altered", &[10], |r, s| { contents(r, s); zeros(r, s); bodies(r, s) }),
    ("bytes altered all over", &[10, 11], all_over),
    // Bytes out of their places.
    ("two bytes exchanged", &[0, 10, 11, 12], exchange_bytes),
    ("two of the five numbers exchanged", &[0], exchange_numbers),
    ("the check number exchanged", &[0, 12], |r, s| { let with = r.below(5) as usize; with_fields(s, |f| f.swap(with, 5)) }),
    ("the bodies a byte later", &[0, 11, 12], |_, s| { s.copy_within(BODIES..END, BODIES + 1); s[BODIES] = 0 }),
    ("the sector a byte later", &[10], |_, s| s.rotate_right(1)),
    ("contents high byte first", &[10], |_, s| s[..CONTENTS].chunks_exact_mut(2).for_each(<[u8]>::reverse)),
    ("bodies high byte first", &[0, 12], |_, s| with_fields(s, |f| *f = f.map(u64::swap_bytes))),
    // Other contents.
    ("an offset one off", &[10], offset_one_off),
    ("field count 5 or 7", &[10], |r, s| s[0] = r.of(&[5, 7])),
    ("a sector of five fields", &[10], |_, s| { let numbers = fields(s); write_numbers(s, &numbers[..4]) }),
    ("a sector of seven fields", &[10], |_, s| { let numbers = fields(s); write_numbers(s, &numbers) }),
    // Other sums.
    ("one number more, another less", &[0], |r, s| { let by = r.number(); move_numbers(r, s, by) }),
    ("the check number one off", &[12], |r, s| { let by = r.of(&[1, u64::MAX]); with_fields(s, |f| f[5] = f[5].wrapping_add(by)) }),
    ("the check number over four", &[12], check_over_four),
    ("the check number with the carry added", &[12], |_, s| with_fields(s, check_with_carry)),
    ("the check number as exclusive or", &[0, 12], |_, s| with_fields(s, |f| f[5] = f[..5].iter().fold(0, |a, b| a ^ b))),
    // The whole sector.
    ("all zeros", &[10], |_, s| s.fill(0)),
    ("all ones", &[10], |_, s| s.fill(255)),
    ("all random", &[10], randomise),
    ("random behind the contents", &[11], |r, s| randomise(r, &mut s[CONTENTS..])),
    ("random bodies", &[12], |r, s| randomise(r, &mut s[BODIES..END])),
];

/// The first and the last byte of the contents, the gap, the five, the check number, and what is behind.
const EDGES: [usize; 10] =
    [0, CONTENTS - 1, CONTENTS, BODIES - 1, BODIES, END - 9, END - 8, END - 1, END, SECTOR - 1];

fn body(field: usize) -> Range<usize> {
    BODIES + 8 * field..BODIES + 8 * (field + 1)
}

/// A byte of the range becomes another.
fn alter(rng: &mut Rng, sector: &mut [u8], range: Range<usize>) {
    let at = range.start + rng.below(range.len() as u64) as usize;
    sector[at] ^= 1 + rng.below(255) as u8;
}

fn alter_bit(rng: &mut Rng, sector: &mut [u8]) {
    sector[rng.below(SECTOR as u64) as usize] ^= 1 << rng.below(8);
}

fn alter_edge(rng: &mut Rng, sector: &mut [u8]) {
    let at = rng.of(&EDGES);
    alter(rng, sector, at..at + 1);
}

fn contents(rng: &mut Rng, sector: &mut [u8]) {
    alter(rng, sector, 0..CONTENTS);
}

fn zeros(rng: &mut Rng, sector: &mut [u8]) {
    let range = if rng.one_in(2) { CONTENTS..BODIES } else { END..SECTOR };
    alter(rng, sector, range);
}

fn bodies(rng: &mut Rng, sector: &mut [u8]) {
    alter(rng, sector, BODIES..END);
}

/// A byte in the sector's last sixteenth, and in some of the others.
fn all_over(rng: &mut Rng, sector: &mut [u8]) {
    let part = SECTOR / 16;
    for from in (0..SECTOR).step_by(part) {
        if from + part == SECTOR || rng.one_in(4) {
            alter(rng, sector, from..from + part);
        }
    }
}

fn randomise(rng: &mut Rng, bytes: &mut [u8]) {
    bytes.iter_mut().for_each(|byte| *byte = rng.number() as u8);
}

/// Two bytes that differ change places, often within contents and bodies.
fn exchange_bytes(rng: &mut Rng, sector: &mut [u8]) {
    let end = if rng.one_in(2) { SECTOR } else { END };
    let written: Vec<usize> = (0..END).filter(|at| sector[*at] != 0).collect();
    let one = rng.of(&written);
    let others: Vec<usize> = (0..end).filter(|at| sector[*at] != sector[one]).collect();
    sector.swap(one, rng.of(&others));
}

fn offset_one_off(rng: &mut Rng, sector: &mut [u8]) {
    let low = &mut sector[2 + 2 * rng.below(FIELDS as u64) as usize];
    *low = low.wrapping_add(rng.of(&[1, 255]));
}

fn with_fields(sector: &mut [u8], change: impl FnOnce(&mut [u64; FIELDS])) {
    let mut numbers = fields(sector);
    change(&mut numbers);
    put_fields(sector, numbers);
}

/// Two different ones of the five fields that are summed.
fn two_fields(rng: &mut Rng) -> (usize, usize) {
    let one = rng.below(5) as usize;
    (one, (one + 1 + rng.below(4) as usize) % 5)
}

fn exchange_numbers(rng: &mut Rng, sector: &mut [u8]) {
    let (one, other) = two_fields(rng);
    with_fields(sector, |f| f.swap(one, other));
}

/// The sum stays: it is another record.
fn move_numbers(rng: &mut Rng, sector: &mut [u8], by: u64) {
    let (one, other) = two_fields(rng);
    with_fields(sector, |f| {
        f[one] = f[one].wrapping_add(by);
        f[other] = f[other].wrapping_sub(by);
    });
}

/// One of the five isn't summed; it is made another than zero.
fn check_over_four(rng: &mut Rng, sector: &mut [u8]) {
    let without = rng.below(5) as usize;
    with_fields(sector, |f| {
        f[without] |= 1;
        f[5] = (0..5).filter(|k| *k != without).fold(0, |sum, k| sum.wrapping_add(f[k]));
    });
}

/// Five numbers whose sum passes 64 bits, and what is carried added below.
fn check_with_carry(f: &mut [u64; FIELDS]) {
    f[1] = u64::MAX;
    f[2] |= 1;
    let sum: u128 = f[..5].iter().map(|x| u128::from(*x)).sum();
    f[5] = (sum as u64).wrapping_add((sum >> 64) as u64);
}

/// A sector of some numbers and their sum, right in itself.
fn write_numbers(sector: &mut [u8], numbers: &[u64]) {
    let sum = numbers.iter().fold(0u64, |sum, x| sum.wrapping_add(*x));
    sector.fill(0);
    sector[0] = numbers.len() as u8 + 1;
    for (field, number) in numbers.iter().chain([&sum]).enumerate() {
        sector[2 + 2 * field] = body(field).start as u8;
        sector[body(field)].copy_from_slice(&number.to_le_bytes());
    }
}
