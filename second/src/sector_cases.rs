//! The conformance sectors, written by hand from document 02's S-1 with the rows that are right;
//! `sector_conformance.rs` says how they are read.

use crate::sector_conformance::Source;

#[rustfmt::skip]
pub(crate) const CASES: &[Source] = &[
// Which slot is selected.
("slot-2-follows", "counters 7 and 8", "7 6 5 40960 4096 | 8 6 6 40960 4096",
    "0 7 6 5 40960 4096 | 0 8 6 6 40960 4096 | 2: its counter follows slot 1's"),
("slot-1-follows", "counters 8 and 7", "8 6 6 40960 4096 | 7 6 5 40960 4096",
    "0 8 6 6 40960 4096 | 0 7 6 5 40960 4096 | 1: its counter follows slot 2's"),
("counters-equal", "counters 7 and 7", "7 6 5 40960 4096 | 7 6 6 45056 4096",
    "0 7 6 5 40960 4096 | 0 7 6 6 45056 4096 | 1: the counters are equal"),
("counters-apart", "counters 7 and 9: 9 is larger, and doesn't follow 7", "7 6 5 40960 4096 | 9 6 6 40960 4096",
    "0 7 6 5 40960 4096 | 0 9 6 6 40960 4096 | 1: neither counter follows the other"),
("counter-wrap", "counters 2^64 - 1 and 0: 0 follows", "18446744073709551615 6 5 40960 4096 | 0 6 6 40960 4096",
    "0 18446744073709551615 6 5 40960 4096 | 0 0 6 6 40960 4096 | 2: its counter follows slot 1's"),
("counter-wrap-back", "counters 0 and 2^64 - 1", "0 6 6 40960 4096 | 18446744073709551615 6 5 40960 4096",
    "0 0 6 6 40960 4096 | 0 18446744073709551615 6 5 40960 4096 | 1: its counter follows slot 2's"),
// Any five numbers make a record.
("extremes", "five times 0, a sector of contents and zeros; five times 2^64 - 1, whose check number is 2^64 - 5",
    "0 0 0 0 0 | 18446744073709551615 18446744073709551615 18446744073709551615 18446744073709551615 18446744073709551615",
    "0 0 0 0 0 0 | 0 18446744073709551615 18446744073709551615 18446744073709551615 18446744073709551615 18446744073709551615 | 1: its counter follows slot 2's"),
("check-wraps", "sums of 2^64: the check number is 0", "18446744073709551615 1 0 0 0 | 1 0 0 9223372036854775807 9223372036854775808",
    "0 18446744073709551615 1 0 0 0 | 0 1 0 0 9223372036854775807 9223372036854775808 | 1: neither counter follows the other"),
("numbers-exchanged", "start and length of slot 1 exchanged; slot 2's start one more, its length one less: the sums are right, so each is a record, another one",
    "7 6 5 40960 4096 @72:05 @80:06 | 8 6 6 40960 4096 @72:07 @80:05",
    "0 7 5 6 40960 4096 | 0 8 7 5 40960 4096 | 2: its counter follows slot 1's"),
("high-byte-first", "bodies high byte first: without a carry from byte to byte the sum is right, and it is another record (slot 1); with one it isn't (slot 2: 200, 100, 0, 0, 0)",
    "7 6 5 40960 4096 @64:0000000000000007 @72:0000000000000006 @80:0000000000000005 @88:000000000000a000 @96:0000000000001000 @104:000000000000b012
    | 200 100 0 0 0 @64:00000000000000c8 @72:0000000000000064 @104:000000000000012c",
    "0 504403158265495552 432345564227567616 360287970189639680 45035996273704960 4503599627370496 | 12 | none: slot 2 is refused"),
// 10: the contents.
("field-count", "field counts 5 and 7, all else as it was", "7 6 5 40960 4096 @0:05 | 8 6 6 40960 4096 @0:07",
    "10 | 10 | none: both slots are refused"),
("seven-fields", "slot 1 has seven fields and is right in itself, the sum of six at byte 112: still other contents, and so a 10, not an 11",
    "7 6 5 40960 4096 @0:07 @14:7000 @104:0900000000000000 @112:1bb0 | 8 6 6 40960 4096",
    "10 | 0 8 6 6 40960 4096 | none: slot 1 is refused"),
("offset-one-off", "the first offset is 65, the last 103", "7 6 5 40960 4096 @2:41 | 8 6 6 40960 4096 @12:67",
    "10 | 10 | none: both slots are refused"),
("contents-high-bytes", "bytes 1 and 13, the high bytes of the field count and of the last offset", "7 6 5 40960 4096 @1:01 | 8 6 6 40960 4096 @13:80",
    "10 | 10 | none: both slots are refused"),
("contents-high-byte-first", "slot 2's contents high byte first", "7 6 5 40960 4096 | 8 6 6 40960 4096 @0:0006004000480050005800600068",
    "0 7 6 5 40960 4096 | 10 | none: slot 2 is refused"),
("blank", "a sector of zeros, one of ones", "all 00 | all ff",
    "10 | 10 | none: both slots are refused"),
// 11: the zeros.
("zeros-gap", "bytes 14 and 63, the first and the last between contents and bodies", "7 6 5 40960 4096 @14:01 | 8 6 6 40960 4096 @63:80",
    "11 | 11 | none: both slots are refused"),
("zeros-behind", "bytes 112 and 4,095, the first and the last behind the bodies", "7 6 5 40960 4096 @112:01 | 8 6 6 40960 4096 @4095:80",
    "11 | 11 | none: both slots are refused"),
("zeros-midst", "byte 2,048", "7 6 5 40960 4096 @2048:ff | 8 6 6 40960 4096",
    "11 | 0 8 6 6 40960 4096 | none: slot 1 is refused"),
// 12: the check number.
("check-counter-start", "the counter's first byte, the start's last", "7 6 5 40960 4096 @64:08 | 8 6 6 40960 4096 @79:80",
    "12 | 12 | none: both slots are refused"),
("check-length-address", "the length's first byte, the table address's last", "7 6 5 40960 4096 @80:04 | 8 6 6 40960 4096 @95:80",
    "12 | 12 | none: both slots are refused"),
("check-table-check", "the table length's last byte, the check number's last", "7 6 5 40960 4096 @103:01 | 8 6 6 40960 4096 @111:80",
    "12 | 12 | none: both slots are refused"),
("check-over-four", "check numbers without the counter and without the table length", "7 6 5 40960 4096 @104:0bb0 | 8 6 6 40960 4096 @104:14a0",
    "12 | 12 | none: both slots are refused"),
("check-carry-added", "a sum of 2^64 whose carry is added below: the check number is 1", "18446744073709551615 6 5 40960 4096 | 18446744073709551615 1 0 0 0 @104:01",
    "0 18446744073709551615 6 5 40960 4096 | 12 | none: slot 2 is refused"),
// The order of the questions.
("order-contents", "contents and zeros (bytes 13, 14), contents and check number (bytes 0, 111): 10 is first", "7 6 5 40960 4096 @13:0101 | 8 6 6 40960 4096 @0:05 @111:01",
    "10 | 10 | none: both slots are refused"),
("order-zeros", "zeros and a body (bytes 63, 64), the check number and zeros (bytes 111, 112): 11 is before 12", "7 6 5 40960 4096 @63:0108 | 8 6 6 40960 4096 @111:0101",
    "11 | 11 | none: both slots are refused"),
// Other lengths of the input.
("bytes-0", "no byte: both slots are a 10", "", "10 | 10 | none: both slots are refused"),
("bytes-112", "slot 1 ends with its bodies: what isn't there isn't zero", "7 6 5 40960 4096 ^112",
    "10 | 10 | none: both slots are refused"),
("bytes-4095", "a byte less than slot 1", "7 6 5 40960 4096 ^4095", "10 | 10 | none: both slots are refused"),
("bytes-4096", "slot 1 alone", "7 6 5 40960 4096", "0 7 6 5 40960 4096 | 10 | none: slot 2 is refused"),
("bytes-8191", "a byte less than both; slot 1 has its own refusal", "7 6 5 40960 4096 @4095:01 | 8 6 6 40960 4096 ^4095",
    "11 | 10 | none: both slots are refused"),
("bytes-8193", "a byte more than both, which isn't looked at", "7 6 5 40960 4096 | 8 6 6 40960 4096 | all 41 ^1",
    "0 7 6 5 40960 4096 | 0 8 6 6 40960 4096 | 2: its counter follows slot 1's"),
("three-sectors", "a third sector, sound and with the next counter, which isn't looked at", "7 6 5 40960 4096 | 8 6 6 40960 4096 | 9 6 7 40960 4096",
    "0 7 6 5 40960 4096 | 0 8 6 6 40960 4096 | 2: its counter follows slot 1's"),
];
