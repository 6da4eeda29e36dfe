//! Entries of zeros only: an add of one is a 13, and those that are pending or to be replayed already are as all others.
use crate::linked::{self, Lent};
use crate::plain::BLOCK;
use crate::works::machine;

const N: usize = 8;

/// Memory of zeros: every entry that it holds is of three of them.
fn zeros() -> Lent {
    Lent {
        bytes: vec![0; 65536],
        lens: vec![3; 1024],
        pieces: vec![0; N * BLOCK],
        rbytes: vec![0; N * BLOCK],
        rlens: vec![3; N * BLOCK],
    }
}

/// The library's answer to an add, which is plain Rust's; a refusal leaves everything.
fn added(pending: usize, replay: usize, brought: &[u8], sizes: &[u16]) -> u8 {
    let (mut l, mut k, mut m) = (zeros(), zeros(), machine(N, pending, replay));
    let mut state = m.numbers(1);
    let before = state.clone();
    let q = linked::add(&mut state, brought, sizes, sizes.len() as u64, &mut l);
    assert_eq!(q, m.add(brought, sizes, &mut k).err().unwrap_or(0));
    assert_eq!(state, m.numbers(1));
    assert!(l.bytes == k.bytes && l.lens == k.lens);
    if q != 0 {
        assert!(state == before && l.bytes == zeros().bytes && l.lens == zeros().lens);
    }
    q
}

#[test]
fn add_of_zeros_is_a_13() {
    assert_eq!(added(2, 0, &[0], &[1]), 13);
    assert_eq!(added(2, 0, &[0; 255], &[255]), 13);
    assert_eq!(added(2, 0, &[1, 0, 0, 2], &[1, 2, 1]), 13);
    assert_eq!(added(2, 0, &[1, 2, 0], &[1, 1, 1]), 13);
    for place in [0, 127, 254] {
        let mut entry = [0; 255];
        entry[place] = 1;
        assert_eq!(added(2, 0, &entry, &[255]), 0);
    }
    assert_eq!(added(2, 0, &[], &[]), 0);
}

#[test]
fn it_comes_behind_a_4_and_before_a_6_and_an_8() {
    assert_eq!(added(2, 0, &[0; 17], &[1; 17]), 4);
    assert_eq!(added(2, 0, &[0, 0], &[1, 0]), 4);
    assert_eq!(added(2, 0, &[0; 300], &[1, 256]), 4);
    assert_eq!(added(2, 0, &[0], &[1, 1]), 4);
    assert_eq!(added(2, 1, &[0], &[1]), 13);
    assert_eq!(added(2, 1, &[1], &[1]), 6);
    assert_eq!(added(1024, 0, &[0], &[1]), 13);
    assert_eq!(added(1024, 0, &[1], &[1]), 8);
}

#[test]
fn those_that_are_pending_are_written_as_they_are() {
    let (mut l, mut k, mut m) = (zeros(), zeros(), machine(N, 5, 0));
    let mut state = m.numbers(1);
    let (mut out, mut plain) = (vec![0xee; N * BLOCK], vec![0xee; N * BLOCK]);
    assert_eq!(linked::write_journal(&mut state, 1, None, &mut out, &mut l), 0);
    assert_eq!(m.write_journal(&mut plain, &mut k), Ok(()));
    assert_eq!(out[..9], [1, 0, 5, 0, 3, 3, 3, 3, 3]);
    assert!(out == plain && out[9..BLOCK].iter().all(|&b| b == 0));
    let (mut bytes, mut lens) = (vec![7; BLOCK], vec![7; BLOCK]);
    assert_eq!(linked::unpack(&out[..BLOCK], &mut bytes, &mut lens), Ok((5, 15)));
    assert_eq!((&bytes[..15], &lens[..5]), (&[0; 15][..], &[3; 5][..]));
}

#[test]
fn those_that_come_next_are_replayed() {
    let (l, mut m) = (zeros(), machine(N, 0, 4));
    let mut state = m.numbers(1);
    assert_eq!(linked::replay(&mut state, &[0; 6], &[3, 3], 2, &l), 0);
    assert_eq!(m.replay(&[0; 6], &[3, 3], &l), Ok(()));
    assert_eq!(state, m.numbers(1));
    assert_eq!(linked::replay(&mut state, &[0; 2], &[2], 1, &l), 6);
}
