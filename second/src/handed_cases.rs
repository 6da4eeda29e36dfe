//! The conformance stores, written by hand from document 01's question 2 and document 02's S-3 with the answers
//! that are right; `handed_conformance.rs` says how they are read.

use crate::handed_conformance::Source;

#[rustfmt::skip]
pub(crate) const CASES: &[Source] = &[
("page", "the lines of docs/HANDED.md", &[
    ("1 4 3 0", "0 0"), ("1 4 3 1", "0 2"), ("3 0 1 4", "0 0"), ("6 0 1 4 2 1", "0 2"), ("6 0 1 4 3 0", "0 0"), ("6 5 0 0", "0 0"),
    ("1 4", "5 5"), ("8 0 0 1", "0 2"), ("0 0 8 1", "2 2"), ("0 0 7 2", "2 2"), ("1 4 3", "-"), ("8 0", "5 2"),
]),
// S-3: an empty interval overlaps nothing. Each stands beside one of a block, which is refused or clear.
("empty-write", "a write at each block, of no block (odd lines) and of one (even lines), the selected interval being (1, 4): of its blocks only those of one are refused", &[
    ("1 4 0 0", "0 0"), ("1 4 0 1", "0 0"), ("1 4 1 0", "0 0"), ("1 4 1 1", "0 2"), ("1 4 2 0", "0 0"), ("1 4 2 1", "0 2"),
    ("1 4 3 0", "0 0"), ("1 4 3 1", "0 2"), ("1 4 4 0", "0 0"), ("1 4 4 1", "0 2"), ("1 4 5 0", "0 0"), ("1 4 5 1", "0 0"),
    ("1 4 6 0", "0 0"), ("1 4 6 1", "0 0"), ("1 4 7 0", "0 0"), ("1 4 7 1", "0 0"),
]),
("empty-write-round", "the same with (6, 5), which goes round: at its blocks 6, 7, 0, 1, 2, at its end, before its start", &[
    ("6 5 6 0", "0 0"), ("6 5 6 1", "0 2"), ("6 5 7 0", "0 0"), ("6 5 7 1", "0 2"), ("6 5 0 0", "0 0"), ("6 5 0 1", "0 2"),
    ("6 5 1 0", "0 0"), ("6 5 1 1", "0 2"), ("6 5 2 0", "0 0"), ("6 5 2 1", "0 2"), ("6 5 3 0", "0 0"), ("6 5 3 1", "0 0"),
    ("6 5 5 0", "0 0"), ("6 5 5 1", "0 0"),
]),
("empty-selected", "an empty selected interval inside a write, at its first block, at its end, outside; each but the last three beside one of a block", &[
    ("3 0 1 4", "0 0"), ("3 1 1 4", "0 2"), ("1 0 1 4", "0 0"), ("1 1 1 4", "0 2"), ("5 0 1 4", "0 0"), ("5 1 1 4", "0 0"),
    ("4 0 1 4", "0 0"), ("4 1 1 4", "0 2"), ("0 0 1 4", "0 0"), ("0 1 1 4", "0 0"), ("3 0 0 8", "0 0"), ("3 1 0 8", "0 2"),
    ("7 0 0 8", "0 0"), ("0 0 0 8", "0 0"), ("3 0 3 0", "0 0"),
]),
("empty-in-write", "an empty write inside another, either first, at its first block, at its end; each beside one of a block", &[
    ("6 0 1 4 3 0", "0 0"), ("6 0 1 4 3 1", "0 2"), ("6 0 3 0 1 4", "0 0"), ("6 0 3 1 1 4", "0 2"), ("6 0 1 4 1 0", "0 0"), ("6 0 1 4 1 1", "0 2"),
    ("6 0 1 4 4 0", "0 0"), ("6 0 1 4 4 1", "0 2"), ("6 0 1 4 5 0", "0 0"), ("6 0 1 4 5 1", "0 0"), ("6 0 0 8 7 0", "0 0"), ("6 0 0 8 7 1", "0 2"),
]),
("empty-pairs", "two empty writes at one place: alone, inside the selected interval, inside a third; and with a block", &[
    ("6 0 3 0 3 0", "0 0"), ("6 0 3 0 3 1", "0 0"), ("6 0 3 1 3 1", "0 2"), ("1 4 3 0 3 0", "0 0"), ("1 4 3 0 3 1", "0 2"),
    ("1 0 2 4 3 0 3 0", "0 0"), ("1 0 2 4 3 0 3 1", "0 2"), ("3 0 3 0 3 0", "0 0"), ("3 1 3 0 3 0", "0 0"),
]),
("empty-and-other", "an empty overlap takes nothing away from another: a third write has a block in common", &[
    ("1 4 3 0 6 1", "0 0"), ("1 4 3 0 4 1", "0 2"), ("3 0 1 4 6 1", "0 0"), ("3 0 1 4 4 1", "0 2"), ("6 5 0 0 3 1", "0 0"), ("6 5 0 0 0 1", "0 2"),
]),
// Writes in flight lie apart from each other.
("apart", "writes that touch, in each order and at both ends of the ring; with one block more they overlap", &[
    ("0 0 1 2 3 2", "0 0"), ("0 0 3 2 1 2", "0 0"), ("0 0 1 3 3 2", "0 2"), ("0 0 3 2 1 3", "0 2"), ("0 0 0 1 7 1", "0 0"), ("0 0 7 1 0 1", "0 0"),
    ("0 0 0 4 4 4", "0 0"), ("0 0 0 5 4 4", "0 2"), ("0 0 0 8", "0 0"), ("0 0 0 7 7 1", "0 0"), ("0 0 0 8 7 1", "0 2"),
]),
("inside", "a write inside another, equal ones, the same first block, the same end; the third of three", &[
    ("6 0 1 4 2 2", "0 2"), ("6 0 2 2 1 4", "0 2"), ("6 0 1 4 1 4", "0 2"), ("6 0 1 4 1 1", "0 2"), ("6 0 1 4 4 1", "0 2"), ("6 0 2 1 2 1", "0 2"),
    ("6 0 0 2 3 2 4 1", "0 2"), ("6 0 0 2 3 2 1 1", "0 2"), ("6 0 0 2 3 2 5 1", "0 0"), ("6 0 4 1 0 2 3 2", "0 2"),
]),
("sixteen", "16 writes: of no block, eight of one block and eight of none, two in one block (the last, the first), one outside; 15; 17, which are not a store", &[
    ("1 4 0 0 1 0 2 0 3 0 4 0 5 0 6 0 7 0 0 0 1 0 2 0 3 0 4 0 5 0 6 0 7 0", "0 0"),
    ("3 0 0 1 1 1 2 1 3 1 4 1 5 1 6 1 7 1 0 0 1 0 2 0 3 0 4 0 5 0 6 0 7 0", "0 0"),
    ("3 1 0 1 1 1 2 1 3 1 4 1 5 1 6 1 7 1 0 0 1 0 2 0 3 0 4 0 5 0 6 0 7 0", "0 2"),
    ("3 0 0 1 1 1 2 1 3 1 4 1 5 1 6 1 7 1 0 0 1 0 2 0 3 0 4 0 5 0 6 0 0 1", "0 2"),
    ("3 0 0 1 0 1 1 1 2 1 3 1 4 1 5 1 6 1 7 1 1 0 2 0 3 0 4 0 5 0 6 0 7 0", "0 2"),
    ("3 0 0 1 1 1 2 1 3 1 4 1 5 1 6 1 7 1 0 0 1 0 2 0 3 0 4 0 5 0 6 0 8 0", "2 2"),
    ("3 0 0 1 1 1 2 1 3 1 4 1 5 1 6 1 7 1 0 0 1 0 2 0 3 0 4 0 5 0 6 0", "0 0"),
    ("3 0 0 1 1 1 2 1 3 1 4 1 5 1 6 1 7 1 0 0 1 0 2 0 3 0 4 0 5 0 6 0 7 0 0 0", "-"),
]),
// Writes in flight are clear of the selected interval.
("clear", "a straight selected interval: writes that touch it, and such as reach one block into it or cover it", &[
    ("2 3 0 2", "0 0"), ("2 3 0 3", "0 2"), ("2 3 5 3", "0 0"), ("2 3 4 4", "0 2"), ("2 3 0 8", "0 2"), ("2 3 3 1", "0 2"),
    ("2 3 2 3", "0 2"), ("2 3 0 2 5 3", "0 0"), ("2 3 0 2 5 3 4 1", "0 2"), ("6 2 0 6", "0 0"), ("6 2 0 7", "0 2"), ("0 2 2 6", "0 0"), ("0 2 1 7", "0 2"),
]),
("clear-round", "one that goes round, from block 6 to block 2, from 7 to 0, from 2 to 0: a write may lie only in the blocks that it leaves", &[
    ("6 5 3 3", "0 0"), ("6 5 2 4", "0 2"), ("6 5 3 4", "0 2"), ("6 5 7 1", "0 2"), ("6 5 0 1", "0 2"), ("6 5 0 8", "0 2"),
    ("7 2 1 6", "0 0"), ("7 2 0 7", "0 2"), ("7 2 1 7", "0 2"), ("7 2 0 1", "0 2"), ("2 7 1 1", "0 0"), ("2 7 0 1", "0 2"), ("2 7 2 1", "0 2"),
]),
("clear-all-blocks", "a selected interval of all 8 blocks, straight and round: each write of a block is refused, none of no block", &[
    ("0 8 0 1", "0 2"), ("0 8 7 1", "0 2"), ("0 8 0 8", "0 2"), ("0 8 0 0", "0 0"), ("0 8 7 0", "0 0"), ("5 8 4 1", "0 2"), ("5 8 5 1", "0 2"),
    ("5 8 0 1", "0 2"), ("5 8 5 0", "0 0"), ("5 8 0 0", "0 0"), ("5 8 0 8", "0 2"), ("0 8", "5 5"), ("5 8", "5 5"),
]),
// What is well formed.
("superblock", "a selected interval that isn't well formed: 2 for the store, even where no write waits; the disk alone doesn't ask", &[
    ("7 8 0 0", "0 0"), ("8 0 0 0", "0 2"), ("8 1 0 1", "0 2"), ("0 9 0 0", "0 2"), ("7 9 3 1", "0 2"), ("8 0", "5 2"), ("0 9", "5 2"), ("7 8", "5 5"),
    ("8 9 3 0", "0 2"), ("18446744073709551615 0 0 1", "0 2"), ("0 18446744073709551615 0 1", "0 2"), ("18446744073709551615 18446744073709551615", "5 2"),
    ("18446744073709551615 1 0 0", "0 2"),
]),
("write", "a write outside of the ring, an empty one too, one that passes the end, one that is too long: 2 for both, wherever it stands", &[
    ("0 0 7 1", "0 0"), ("0 0 7 0", "0 0"), ("0 0 8 0", "2 2"), ("0 0 8 1", "2 2"), ("0 0 7 2", "2 2"), ("0 0 0 8", "0 0"), ("0 0 0 9", "2 2"),
    ("0 0 1 8", "2 2"), ("0 0 6 5", "2 2"), ("0 0 1 1 8 0", "2 2"), ("0 0 8 0 1 1", "2 2"), ("0 0 1 1 2 1 7 2", "2 2"), ("8 0 7 2", "2 2"), ("1 4 3 1 8 0", "2 2"),
]),
("huge", "numbers up to 2^64 - 1, whose sums pass 64 bits", &[
    ("0 0 18446744073709551615 0", "2 2"), ("0 0 18446744073709551615 1", "2 2"), ("0 0 0 18446744073709551615", "2 2"),
    ("0 0 1 18446744073709551615", "2 2"), ("0 0 7 18446744073709551609", "2 2"), ("0 0 18446744073709551608 8", "2 2"),
    ("0 0 18446744073709551608 9", "2 2"), ("0 0 9223372036854775808 9223372036854775808", "2 2"), ("0 0 4294967296 1", "2 2"), ("0 0 0 4294967296", "2 2"),
    ("7 18446744073709551610 0 1", "0 2"), ("4294967297 0 0 1", "0 2"), ("18446744073709551615 18446744073709551615 18446744073709551615 18446744073709551615", "2 2"),
]),
("no-write", "no write waits: 5 for both; for a store whose superblock isn't well formed 2", &[
    ("0 0", "5 5"), ("7 0", "5 5"), ("7 1", "5 5"), ("6 5", "5 5"), ("8 8", "5 2"),
]),
// Words.
("blanks", "runs of spaces, tabs, form feeds and carriage returns between words and at both ends; zeros that lead", &[
    ("1\t4\t3\t0", "0 0"), ("  1  4  3  1  ", "0 2"), ("1 4 3 0\r", "0 0"), ("\r1\r4\r3\r1\r", "0 2"), ("1\x0c4 \t\r\x0c3 1", "0 2"), ("\t1 4 ", "5 5"),
    ("01 04 03 00", "0 0"), ("1 4 3 0000000000000000000000000001", "0 2"), ("00 000 0007 00000000000000000000000018446744073709551615", "2 2"),
]),
("words", "words that aren't decimal numbers: letters, signs, points, hexadecimal digits, other characters", &[
    ("1 4 3 x", "-"), ("one four", "-"), ("1 4 3 -1", "-"), ("1 4 3 +1", "-"), ("-0 4 3 0", "-"), ("1 4 3 0.0", "-"), ("1,4 3 0", "-"), ("1 4 0x3 0", "-"),
    ("1 4 a 0", "-"), ("1 4 3 0 #", "-"), ("1 4 3 1_0", "-"), ("1 4 3 \u{661}", "-"), ("1 4 3\u{b}0", "-"), ("1 4 3\u{a0}0", "-"), ("n d s", "-"), ("1 4 3 0", "0 0"),
]),
("above-64-bits", "2^64 - 1 is a number, 2^64 and what is longer isn't", &[
    ("18446744073709551615 0", "5 2"), ("18446744073709551616 0", "-"), ("1 4 3 18446744073709551616", "-"), ("1 4 3 99999999999999999999", "-"),
    ("1 4 3 100000000000000000000000000000000000000000", "-"), ("1 4 18446744073709551617 0", "-"), ("1 4 3 0", "0 0"),
]),
("counts", "no number, one, three, 33 and 35 of them, 36: not a store; the lines between are", &[
    ("", "-"), ("1 4 3 0", "0 0"), ("   ", "-"), ("\t\r\x0c", "-"), ("1", "-"), ("1 4", "5 5"), ("1 4 3", "-"), ("1 4 3 0 6", "-"),
    ("1 4 0 0 1 0 2 0 3 0 4 0 5 0 6 0 7 0 0 0 1 0 2 0 3 0 4 0 5 0 6 0 7", "-"), ("1 4 0 0 1 0 2 0 3 0 4 0 5 0 6 0 7 0 0 0 1 0 2 0 3 0 4 0 5 0 6 0 7 0", "0 0"),
    ("1 4 0 0 1 0 2 0 3 0 4 0 5 0 6 0 7 0 0 0 1 0 2 0 3 0 4 0 5 0 6 0 7 0 0", "-"), ("1 4 0 0 1 0 2 0 3 0 4 0 5 0 6 0 7 0 0 0 1 0 2 0 3 0 4 0 5 0 6 0 7 0 0 0", "-"),
    ("", "-"), ("1 4 3 1", "0 2"),
]),
("no-last-line-feed", "a last line without its line feed counts", &[("1 4 3 0", "0 0"), ("1 4 3 1~", "0 2")]),
("no-line", "no line at all: the header alone", &[]),
];
