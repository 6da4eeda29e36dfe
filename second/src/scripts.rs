//! The conformance days as scripts, written by hand from documents 01 and 02; `conformance.rs` says how they are read.

use crate::conformance::Script;

#[rustfmt::skip]
pub(crate) const DAYS: &[Script] = &[
// A day as it should go, and each step in its family.
("brew-day", "document 01's brew day", "
    @brew, @load, add 41, wj 3, aj 3, cl 4, land 1, crash"),
("wrong-kind", "each step that names a kind, in the two other kinds: 3, before any other question; steps that name none, in each kind", "
    @brew, noop, push 9
    wj 1 =3, cl 1 =3, co 1 =3, rj 0 1 =3, rj 2 1 =3, f2 =3, freeze =3, loc 40960 1 =3, loc 0 0 =3
    add 41 =3, add #17x1 =3, replay 41 =3, aj 1 =5, ac 1 =5, ar 1 =5, xr 1 =5, land 0 =6, pop 9 =6
    @superblocks, noop, push 8
    wj 1 =3, cl 1 =3, co 1 =3, rs 0 1 =3, rs 2 1 =3, f1 =3, freeze =3, loc 40960 1 =3
    add 41 =3, replay 41 =3, again 0 =3, again 2 =3, as 0 1 =5, xs 0 1 =5, aj 1 =5, ac 1 =5, land 0 =6, pop 9 =6
    f2, noop, push 7
    rs 0 1 =3, rs 2 1 =3, f1 =3, again 0 =3, rj 0 1 =3, rj 2 1 =3, f2 =3
    as 0 1 =5, xs 0 1 =5, ar 1 =5, xr 1 =5, aj 1 =5, ac 1 =5, land 0 =6, pop 9 =6, crash"),
("superblock-reads", "`rs`, `as`, `f1`: `which` above 1 (4), the other slot's id (5, even where the slot is read), a slot asked or read (6), an answer nobody waits for (5)", "
    @brew, f1 =6, rs 2 1 =4, rs 18446744073709551615 1 =4, as 0 1 =5, as 2 1 =4, xs 0 1 =5, xs 2 1 =4
    rs 0 1, rs 0 1 =6, rs 0 3 =6, rs 1 1 =5, as 1 1 =5, f1 =6, rs 1 2, as 1 2, as 1 2 =5
    rs 1 1 =5, rs 1 3 =6, f1 =6, as 0 1, rs 1 1 =6, again 0 =6, f1"),
("damaged-superblock", "`xs`, `again`: a damaged slot is asked for again; without it no load, however sound the other slot is", "
    @brew, again 0 =6, again 2 =4, rs 0 1, again 0 =6, rs 1 2, as 1 2, xs 0 1, xs 0 1 =5, f1 =6, rs 0 1 =6, again 1 =6
    again 0, f1 =6, again 0 =6, rs 0 1, xs 0 1, again 0, rs 0 2, as 0 2, f1, f2"),
("load-empty", "a journal of no blocks: no piece can be read, and `f2` is taken at once", "
    @brew, @superblocks, rj 0 3 =6, rj 1 3 =6, rj 2 3 =4, f2"),
("load-one-piece", "a journal without a back piece; the frozen position is 0 after the load", "
    @brew, @load, add 41 42, wj 3, aj 3, add 43, wj 3, aj 3, cl 4, land 1, ac 4, crash
    @superblocks, rj 1 3 =6, f2 =6, rj 0 3, f2 =6, ar 3, rj 0 3 =6, f2, replay 41 42 43"),
("load-two-pieces", "a journal round the ring's end: the back piece first; each answer goes to the piece whose id it has", "
    disk 4 4096 0 3 0 24576 4096 0 0 0 24576 4096, @load, add #16x255, wj 5 6, aj 6, aj 5, cl 7, land 1, ac 7, crash
    @superblocks, rj 2 1 =4, ar 1 =5, xr 1 =5, f2 =6, rj 0 1, rj 0 2 =6, rj 1 1 =5, f2 =6, rj 1 2, ar 2, ar 2 =5, rj 1 2 =6
    f2 =6, ar 1, rj 0 1 =6, f2, replay #16x255"),
("damaged-journal", "`xr`: a damaged piece is asked for again, under any id; the other piece stays", "
    disk 4 4096 0 3 0 24576 4096 0 0 0 24576 4096, @load, add #16x255, wj 5 6, aj 5, aj 6, cl 7, land 1, ac 7, crash
    @superblocks, rj 0 1, rj 1 2, xr 1, xr 1 =5, f2 =6, rj 0 2 =5, ar 2, rj 0 2, xr 2, rj 0 2, ar 2, f2, replay #16x255"),
("unreadable-journal", "a first disk whose selected journal was never written (marks 0): a whole answer is a 6, a damaged one is taken", "
    disk 4 4096 0 3 2 24576 4096 0 0 0 24576 4096
    @superblocks, rj 0 1, ar 1 =6, xr 1, rj 0 1, rj 1 2, ar 2 =6, xr 2, f2 =6, crash"),
("journal-write", "`wj`, `aj`: nothing pending or a commit in flight (6), an id in flight (5), a second id where the write runs straight (9)", "
    @brew, @load, wj 1 =6, add, wj 1 =6, add 41, wj 1 2 =9, wj 1 1 =9, wj 1, aj 2 =5, wj 2 =6
    add 42, wj 1 =5, wj 1 1 =5, wj 2 1 =5, wj 2, aj 2, aj 1, aj 1 =5, add 43, cl 3, wj 4 =6, land 1, wj 4 =6, ac 3, wj 4
    aj 4, wj 5 =6, add 44, wj 18446744073709551615, aj 18446744073709551615"),
("one-block-or-two", "15 entries of 255 bytes and one of 251 fill a block; with one of 252 they take two", "
    @brew, @load, add #15x255 #1x251, wj 1, add #15x255 #1x252, wj 2, aj 1, aj 2, cl 3, land 1, ac 3, crash, @front
    replay #15x255 #1x251, replay #15x255 #1x252"),
("journal-full", "`wj` refused by 8 where blocks and written exceed N; a location commit makes room, and the next write goes round", "
    disk 2 4096 0 0 0 16384 4096 0 0 0 16384 4096, @load, add 41, wj 1, aj 1, freeze, loc 20480 5, add #16x255
    wj 2 =8, wj 2 3 =8, co 3, land 1, ac 3, wj 2 =9, wj 2 3, aj 2, aj 3, add 42, wj 4 =8"),
("sixteen-in-flight", "16 journal writes in flight, counted by their ids: 8 before 9; an id in flight is a 5 even then", "
    disk 20 4096 0 0 0 90112 4096 0 0 0 90112 4096, @load
    add 01, wj 1, add 02, wj 2, add 03, wj 3, add 04, wj 4, add 05, wj 5, add 06, wj 6, add 07, wj 7, add 08, wj 8
    add 09, wj 9, add 0a, wj 10, add 0b, wj 11, add 0c, wj 12, add 0d, wj 13, add 0e, wj 14, add 0f, wj 15
    add 10, wj 16 17 =8, wj 16 1 =5, wj 16, add 11, wj 17 =8, wj 17 18 =8, wj 1 =5, wj 1 17 =8, aj 8, wj 17, aj 17, crash"),
("one-row-left", "15 in flight, and a write that goes round: it needs two rows, so 8, however many ids it brings; with two rows left 9", "
    disk 17 4096 0 1 0 77824 4096 0 0 0 77824 4096, @load
    add 01, wj 1, add 02, wj 2, add 03, wj 3, add 04, wj 4, add 05, wj 5, add 06, wj 6, add 07, wj 7, add 08, wj 8
    add 09, wj 9, add 0a, wj 10, add 0b, wj 11, add 0c, wj 12, add 0d, wj 13, add 0e, wj 14, add 0f, wj 15
    add #16x255, wj 16 =8, wj 16 16 =8, wj 16 17 =8, wj 1 =5, aj 1, wj 16 =9, wj 16 16 =9, wj 16 17, crash"),
("log-commit", "`cl`, `ac`, `land`: writes or frozen entries left (6), a commit in flight (6), an answer before the landing (6), landings that come again", "
    @brew, @load, ac 1 =5, land 0 =6, land 1 =6, land 2 =4, add 41, wj 1, cl 2 =6, aj 1, cl 2, cl 3 =6, co 3 =6, freeze =6
    ac 1 =5, ac 2 =6, land 0 =6, land 1, land 1, ac 3 =5, ac 2, ac 2 =5, land 1 =6
    add 42, freeze, cl 4 =6, wj 3, cl 4 =6, aj 3, cl 4, land 1 =6, land 0, land 0, ac 4, cl 4, land 1, ac 4, crash, @front, replay 41 42"),
("location-commit", "`co`: no location, writes or frozen entries left (6); it drops the ranges before the mark, keeps those after, moves start and takes the location", "
    @brew, @load, add 41, wj 1, aj 1, co 2 =6, freeze, co 2 =6, add 42, loc 45056 77, wj 3, co 2 =6, aj 3, add 43, co 2
    co 4 =6, cl 4 =6, ac 2 =6, land 1, ac 2, co 4 =6, freeze, loc 40960 1, co 5 =6, wj 5, aj 5, co 5, land 0, ac 5
    crash, @load, add 44, wj 3, crash, @load"),
("location-commit-kept", "a location commit lands, and the crash comes before its answer: the load shows the new start, length and location", "
    @brew, @load, add 41, wj 1, add 42, wj 2, aj 1, aj 2, freeze, add 43, wj 3, loc 45056 9, aj 3, co 4, land 1, crash
    @front, replay 43, freeze, loc 45056 9, freeze =6"),
("log-commit-frozen", "a log commit with a location received keeps start and location, and what is frozen; the location commit after it takes them", "
    @brew, @load, add 41, wj 1, aj 1, freeze, loc 45056 7, add 42, wj 2, aj 2, cl 3, land 1, ac 3, loc 45056 8 =6, co 4, land 0, ac 4, crash
    @front, replay 42, freeze, loc 45056 7, freeze =6"),
("freeze-and-location", "`freeze`: a commit in flight, the superblock's own location received, replay entries left (6). `loc`: address or length out of range (4), not frozen or received already (6)", "
    @brew, @load, loc 45056 1 =6, freeze, loc 45057 1 =4, loc 8192 1 =4, loc 0 1 =4, loc 45056 0 =4, loc 45056 4097 =4
    loc 18446744073709551615 1 =4, loc 40960 18446744073709551615 =4, loc 45056 4096, loc 45056 4096 =6, loc 0 1 =4, freeze, loc 40960 4096, freeze =6
    co 1, loc 45056 1 =6, freeze =6, land 1, ac 1, loc 45056 1 =6, freeze, add 41, freeze, wj 1, aj 1, cl 2, land 0, ac 2
    crash, @front, freeze =6, replay 41, freeze"),
("frozen-first", "a journal write sends the frozen entries where there are any, and those in memory stay", "
    @brew, @load, add 41, freeze, add 42, wj 1, wj 2, add 43, freeze, add 44, freeze, add 45, wj 3, freeze, wj 4
    aj 1, aj 2, aj 3, aj 4, cl 5, land 1, ac 5, crash, @front, replay 41 42 43 44 45"),
("add", "`add`: 0 to 16 entries of 1 to 255 bytes; 17 entries or one of 256 bytes (4), replay entries left (6)", "
    @brew, @load, add, add 41, add 80, add #16x1, add #17x1 =4, add #1x255, add #1x256 =4, add 41 #1x300 =4, add #20x256 =4
    wj 1, aj 1, cl 2, land 1, ac 2, crash, @front, add 41 =6, add =6, add #17x1 =4, replay 41 80, replay #16x1, add 41 =6, replay #1x255, add 41, crash"),
("blank-alone", "a blank entry, one of zeros only, added alone: 13, whatever its length; nothing is pending by it, and what was stays", "
    @brew, @load, add 00 =13, wj 1 =6, add 0000 =13, add 00*254 =13, add 00*255 =13, freeze, add 00 =13, wj 1 =6, add 41, add 00 =13, push 9, freeze, add 00*255 =13, add 42, add 00 =13
    wj 1, wj 2, aj 1, aj 2, add 00 =13, cl 3, add 00 =13, land 1, add 00 =13, ac 3, pop 9, crash, @front, replay 41 42, add 00 =13"),
("blank-among", "a blank entry among others, the first, in the middle, the last, all of 16: 13, and none of them is taken; the same without it are", "
    @brew, @load, add 00 41 =13, add 41 00 42 =13, add 41 42 00 =13, add 41 000000 42 =13, add 00 00 =13, add 00*1*16 =13, add #15x1 00 =13, add 00 #15x1 =13, add #15x255 00*255 =13, wj 1 =6
    add 41, add 42 00 =13, add 42, wj 1, aj 1, cl 2, land 1, ac 2, crash, @front, replay 41 42 00 =6, replay 41 42, add #7x1 0000 #8x1 =13, add #15x1, wj 1, aj 1"),
("blank-nearly", "one byte that isn't zero, the first, in the middle, the last, keeps an entry from being blank: taken, stored, loaded and replayed", "
    @brew, @load, add 01, add 80, add 0100 0001 010000 000100 000001, add 01+00*254, add 00*127+01+00*127 00*254+80, add 00*254+01 00*255 =13, add 00*254+01, wj 1, aj 1, cl 2, land 1, ac 2, crash
    @front, replay 01 80 0100 0001 010000, replay 000100 000001 01+00*254, replay 00*127+01+00*127 00*255 =6, replay 00*127+01+00*127 00*254+80 00*254+01"),
("blank-order", "where a 13 stands: after 3 (the wrong kind) and 4 (17 entries, one of 256 bytes), before 6 (replay entries left) and 8 (pending is full); an `add` of none brings none", "
    @brew, add 00 =3, add 00*256 =3, add 00*1*17 =3, @superblocks, add 00 =3, f2
    add 00*1*17 =4, add #16x1 00 =4, add 00*256 =4, add 00 00*256 =4, add 41 00 #1x256 =4, add 00 =13, add, add 41, wj 1, aj 1, cl 2, land 1, ac 2, crash
    @front, add 41 =6, add 00 =13, add 41 00 =13, add 00*1*17 =4, add 00*256 =4, add =6, replay 41, add, add 00 =13
    @64, @64, @64, @64, @64, @64, @64, @64, @64, @64, @64, @64, @64, @64, @64, @64, add 41 =8, add 00 =13, add 41 00 =13, add 00*1*17 =4, add 00*256 =4, add, freeze, add 41 =8, add 00 =13"),
("blank-order-bytes", "the same with 65,536 bytes pending", "
    disk 20 4096 0 0 0 90112 4096 0 0 0 90112 4096, @load, @16320, @16320, @16320, @16320, add #1x255, add #1x2 =8, add 00 =13, add 0000 =13, add #1x2 00 =13, add #1x1, add #1x1 =8, add 00 =13, add 00*255 =13, add #16x255 00 =4, add, wj 1, add 00 =13, add 41"),
("pending-entries", "1,024 entries pending, frozen ones included; one more is an 8, none more is taken", "
    @brew, @load, @64, @64, @64, @64, @64, @64, @64, @64, @64, @64, @64, @64, @64, @64, @64, add #16x1, add #16x1, add #16x1, freeze, add #15x1, add #2x1 =8, add #1x1, add #1x1 =8, add, wj 1, aj 1, add #1x1, wj 2, aj 2, cl 3, land 1, crash
    @front, replay #16x1"),
("pending-bytes", "65,536 bytes pending; one more is an 8", "
    disk 20 4096 0 0 0 90112 4096 0 0 0 90112 4096, @load, @16320, @16320, @16320, @16320, freeze, add #1x255, add #1x2 =8, add #1x1, add #1x1 =8, add
    wj 1, wj 2, aj 1, aj 2, cl 3, land 1, ac 3, crash, @front, replay #16x255"),
("replay", "`replay`: right, empty, wrong (6), more than is left (6), 17 entries or one of 256 bytes (4), behind the end (6); commits don't wait for it", "
    @brew, @load, replay, replay 41 =6, add 41 80 43 #1x255, wj 1, add #14x1, wj 2, aj 1, aj 2, cl 3, land 1, ac 3, crash, @front
    replay, replay 42 =6, replay 41 00 =6, replay 41 81 =6, replay 4100 =6, replay 41, replay 41 =6, replay 00 =6, replay 80 43 44 =6, replay 80 43, replay #17x1 =4, replay #1x256 =4
    add 41 =6, freeze =6, cl 1, replay #1x254 =6, replay #1x255, land 0, ac 1, replay #15x1 =6, replay #14x1, replay #1x1 =6, replay, add 45, freeze"),
("sync-requests", "`push`, `pop`: State3 at the push; State2 at a write of entries in memory, at a freeze, or at a commit's request with none in memory; State1 at a commit's answer; an id known (5), unknown (5), not yet at State1 (6)", "
    @brew, push 1, push 1 =5, pop 2 =5, pop 1 =6, @load, push 2, add 41, wj 1, push 3, pop 2 =6, aj 1, cl 2, push 4, pop 1 =6, land 1, pop 1 =6, ac 2
    pop 1, pop 1 =5, push 1, pop 3, freeze, push 5, cl 3, land 0, ac 3, pop 3 =5, pop 5, pop 2, pop 4, pop 1, crash, pop 5 =5, push 5"),
("sync-idle", "a request on an idle store: with nothing in memory `cl` takes it to State2, and the answer to State1; so too after frozen entries were written, while replay entries are left, after an `add` of none", "
    @brew, @load, push 1, cl 2, land 1, ac 2, pop 1, add 41, freeze, push 2, wj 3, aj 3, cl 4, land 0, ac 4, pop 1 =5, pop 2
    crash, push 3, @front, cl 5, land 1, ac 5, pop 3, replay 41, push 4, add, cl 6, land 0, ac 6, pop 4"),
("sync-idle-location", "the same by `co`, which drops what was written before the freeze", "
    @brew, @load, add 41, wj 1, aj 1, freeze, loc 45056 7, push 1, co 2, pop 1 =6, land 1, pop 1 =6, ac 2, pop 1, crash, @load"),
("sync-in-memory", "an entry in memory at `cl` and at `co`: requests made before it was added and after stay at State3, until it is written", "
    @brew, @load, freeze, loc 45056 7, push 1, add 41, push 2, cl 3, land 1, ac 3, pop 1 =6, co 4, land 0, ac 4, pop 1 =6, wj 5, aj 5, cl 6, land 1, pop 1 =6, ac 6
    pop 1, pop 2, crash, @front, replay 41"),
("sync-frozen", "frozen entries left, none in memory: `cl` and `co` are a 6, and a request stays at State3 until they are written", "
    @brew, @load, add 41, freeze, loc 45056 7, push 1, cl 2 =6, co 2 =6, wj 3, cl 2 =6, co 2 =6, aj 3, pop 1 =6, cl 2, land 1, ac 2, pop 1"),
("sync-after-request", "requests made while a commit is in flight, before its landing and between two, stay at State3 through the answer; the next commit takes them", "
    @brew, @load, cl 1, push 1, land 1, push 2, land 1, ac 1, pop 1 =6, pop 2 =6, cl 2, land 0, ac 2, pop 1, pop 2"),
("sync-full", "32 sync requests; the 33rd is an 8, a known id a 5 even then", "
    @brew, push 0, push 1, push 2, push 3, push 4, push 5, push 6, push 7, push 8, push 9, push 10, push 11, push 12, push 13, push 14, push 15
    push 16, push 17, push 18, push 19, push 20, push 21, push 22, push 23, push 24, push 25, push 26, push 27, push 28, push 29, push 30, push 18446744073709551615
    push 31 =8, push 30 =5, @load, push 31 =8, freeze, cl 3, land 1, ac 3, pop 7, push 31, push 32 =8, crash, push 32"),
// The wrong turns, and what stands beside them.
("turn-larger-counter", "wrong turn 1, choosing the larger counter: 2^64 - 1 and 0 select slot 2", "
    disk 8 4096 18446744073709551615 1 0 40960 4096 0 2 0 45056 4096, @load"),
("turn-larger-counter-2", "wrong turn 1: 0 and 2^64 - 1 select slot 1", "
    disk 8 4096 0 1 0 40960 4096 18446744073709551615 2 0 45056 4096, @load"),
("counters-7-8", "counters 7 and 8 select slot 2", "
    disk 8 4096 7 1 0 40960 4096 8 2 0 45056 4096, @load"),
("counters-7-7", "equal counters select slot 1", "
    disk 8 4096 7 1 0 40960 4096 7 2 0 45056 4096, @load"),
("counters-7-9", "counters 7 and 9 select slot 1: 9 doesn't follow 7", "
    disk 8 4096 7 1 0 40960 4096 9 2 0 45056 4096, @load"),
("counters-8-7", "counters 8 and 7 select slot 1", "
    disk 8 4096 8 1 0 40960 4096 7 2 0 45056 4096, @load"),
("turn-current-slot", "wrong turn 2, writing the current slot: a commit goes to the other slot, in turn", "
    @brew, @load, add 41, wj 1, aj 1, cl 2, land 0 =6, land 1, ac 2, cl 3, land 1 =6, land 0, ac 3, cl 4, land 0 =6, crash
    @front, replay 41, cl 5, land 0 =6, land 1, ac 5"),
("turn-sync-at-request", "wrong turn 3, moving sync requests on when a commit is sent: they reach State1 at its answer; one pushed meanwhile stays at State3", "
    @brew, @load, add 41, push 1, wj 1, aj 1, cl 2, push 2, pop 1 =6, land 1, pop 1 =6, ac 2, pop 1, pop 2 =6"),
// Wraps.
("counter-wrap", "commits take the counter from 2^64 - 2 to 2^64 - 1, 0 and 1; each crash loads the newest", "
    disk 8 4096 18446744073709551614 0 0 40960 4096 18446744073709551613 0 0 40960 4096, @load, cl 1, land 1, ac 1, crash, @load
    cl 1, land 0, crash, @load, cl 1, land 1, crash, @load"),
("ring-wrap", "N = 3: writes and location commits take the journal round the ring, and start past its end", "
    disk 3 4096 0 0 0 20480 4096 0 0 0 20480 4096, @load, add 41, wj 1, aj 1, add 42, wj 1, aj 1, freeze, loc 24576 1, co 2, land 1, ac 2
    add #16x255, wj 1 =9, wj 1 1 =9, wj 1 2, aj 1, aj 2, cl 3, land 0, ac 3, crash, @pieces, replay #16x255
    freeze, add 43, loc 20480 1, wj 1, aj 1, co 2, land 1, ac 2, crash, @front, replay 43, add 44, wj 5, aj 5, cl 6, land 0, crash, @front, replay 43 44"),
// Crashes.
("crash-before-landing", "a commit that hasn't landed is lost: the load shows the record before it", "
    @brew, @load, add 41, wj 1, aj 1, cl 2, land 1, ac 2, add 42, wj 3, aj 3, cl 4, crash, ac 4 =5, land 0 =6, @front, replay 41"),
("crash-after-landing", "a commit that has landed, answered or not, once or twice, is kept: its counter steps once", "
    @brew, @load, add 41, wj 1, aj 1, cl 2, land 1, land 1, crash, ac 2 =5, @front, replay 41, cl 3, land 0, ac 3, crash, @front, replay 41"),
("crash-in-flight", "journal writes in flight at a crash: their blocks stay on the disk, the journal doesn't show them", "
    @brew, @load, add 41, wj 1, aj 1, cl 2, land 1, ac 2, add 42, wj 3, add 43, wj 4, aj 3, crash, aj 4 =5, @front, replay 41, add 44, wj 4, aj 4, cl 5, land 0, crash
    @front, replay 41 44"),
("crash-while-loading", "a crash at each point of a load: reads are forgotten and their ids free", "
    @brew, @load, add 41, wj 1, aj 1, cl 2, land 1, crash, rs 0 1, crash, as 0 1 =5, rs 0 1, rs 1 2, as 0 1, crash
    @superblocks, rj 0 1, crash, ar 1 =5, @superblocks, rj 0 1, ar 1, crash, @front, crash, @front, replay 41"),
// Loads by the driver.
("drive-empty", "a load by `drive` alone of a journal of no blocks: six lines up to R, the seventh is a 3 (document 02's S-4)", "
    @brew, @drive-6, drive =3, add 41, crash, @drive-6, drive =3"),
("drive-one-piece", "the same of a journal without a back piece: eight lines", "
    @brew, @drive-6, add 41 42, wj 3, aj 3, cl 4, land 1, ac 4, crash, @drive-6, drive, drive, drive =3, replay 41 42"),
("drive-two-pieces", "the same of a journal round the ring's end: ten lines", "
    disk 4 4096 0 3 0 24576 4096 0 0 0 24576 4096, @drive-6, add #16x255, wj 5 6, aj 6, aj 5, cl 7, land 1, ac 7, crash
    @drive-6, drive, drive, drive, drive, drive =3, replay #16x255"),
("drive-twelve", "the longest load: from a disk that meets `Init` the day brings the journal round the ring's end; after a crash both slots are read damaged, and twelve lines `drive` lead to R: ask again, request and answer of slot 1, of slot 2, `f1`, request and answer of the front, of the back, `f2`; the thirteenth is a 3", "
    disk 4 4096 0 0 0 24576 4096 0 0 0 24576 4096, @load, add 41, wj 1, aj 1, add 42, wj 1, aj 1, add 43, wj 1, aj 1, freeze, loc 28672 1, co 2, land 1, ac 2
    add #16x255, wj 1 2, aj 1, aj 2, cl 3, land 0, ac 3, crash, rs 0 1, rs 1 2, xs 0 1, xs 1 2, @drive-6, @drive-6, drive =3, replay #16x255"),
("drive-names", "what each `drive` named: behind each stand steps by hand whose refusals tell it, a request under id 0, its answer, an end", "
    disk 4 4096 0 3 0 24576 4096 0 0 0 24576 4096, @load, add #16x255, wj 5 6, aj 5, aj 6, cl 7, land 1, crash
    drive, rs 0 5 =6, rs 1 0 =5, f1 =6, drive, as 0 0 =5, rs 0 5 =6, drive, rs 1 5 =6, as 1 1 =5, f1 =6, drive, as 1 0 =5, drive, f1 =3, drive, rj 0 5 =6, rj 1 0 =5, f2 =6
    drive, ar 0 =5, rj 0 5 =6, f2 =6, drive, rj 1 5 =6, ar 5 =5, f2 =6, drive, ar 0 =5, drive, f2 =3, drive =3, replay #16x255"),
("drive-slots-by-hand", "slots that were asked for, read or read damaged by hand: `drive` takes them up, slot 1 first, under the id that waits; a new id is 1 where slot 2 waits under 0, which its damaged answer shows, else 0", "
    @brew, rs 0 9, drive, as 0 9 =5, @drive-4, drive =3, crash, rs 1 0, drive, as 0 0 =5, xs 0 1, @drive-6, drive =3, crash, rs 1 1, drive, xs 0 0, @drive-6, drive =3, crash
    rs 1 9, as 1 9, @drive-4, drive =3, crash, rs 1 9, xs 1 9, drive, drive, again 0 =6, drive, again 1 =6, @drive-4, drive =3, crash, rs 0 9, xs 0 9, rs 1 0, drive, drive, xs 0 1, @drive-6, drive =3, crash
    rs 0 9, xs 0 9, again 0, @drive-6, drive =3, crash, rs 1 18446744073709551614, rs 0 18446744073709551615, drive, as 0 18446744073709551615 =5, drive, as 1 18446744073709551614 =5, drive, drive, drive =3, crash
    rs 0 0, rs 1 1, as 1 1, as 0 0, drive, f1 =3, drive, drive =3, crash, @superblocks, drive, drive =3"),
("drive-pieces-by-hand", "the same of pieces: one that waits, one that is in, one that was read damaged, the back one before the front", "
    disk 4 4096 0 3 0 24576 4096 0 0 0 24576 4096, @load, add #16x255, wj 5 6, aj 5, aj 6, cl 7, land 1, crash
    @superblocks, rj 0 9, drive, ar 9 =5, drive, drive, drive, drive =3, crash, @superblocks, rj 1 0, drive, xr 1, @drive-4, drive =3, crash, @superblocks, rj 1 1, drive, xr 0, @drive-4, drive =3, crash
    @superblocks, rj 1 9, ar 9, drive, drive, drive, drive =3, crash, @superblocks, rj 0 9, ar 9, drive, drive, drive, drive =3, crash, @superblocks, rj 0 5, xr 5, @drive-5, drive =3, crash
    @superblocks, rj 0 5, rj 1 0, xr 5, drive, xr 1, @drive-4, drive =3, crash, @superblocks, rj 0 5, rj 1 6, ar 5, xr 6, drive, drive, drive, drive =3, crash
    @superblocks, rj 1 3, rj 0 18446744073709551615, drive, ar 18446744073709551615 =5, drive, drive, drive =3, crash, @superblocks, rj 0 5, rj 1 6, ar 6, ar 5, drive, drive =3, replay #16x255"),
("drive-sync", "sync requests pushed and popped between: they don't count, their ids aren't ones that the disk holds, and they wait at R as any do; nor do `noop`, refused lines and lines that aren't steps count", "
    @brew, push 0, drive, rs 1 0 =5, push 1, pop 0 =6, drive, push 0 =5, pop 7 =5, drive, noop, f1 =6, drive, push 2, ? drive 0, drive, add 41 =3, pop 1 =6, drive, drive =3, pop 2 =6
    freeze, cl 3, land 1, ac 3, pop 0, pop 1, push 3, pop 2, crash, pop 3 =5, push 3, @drive-4, pop 3 =6, push 0, drive, drive, drive =3"),
("drive-ready", "`drive` at R is a 3 and alters nothing: entries in memory, frozen, in flight, a commit in flight, landed, answered, replay entries left", "
    @brew, @load, drive =3, push 1, add 41, drive =3, freeze, drive =3, wj 1, drive =3, aj 1, loc 45056 7, drive =3, cl 2, drive =3, land 1, drive =3, ac 2, drive =3, pop 1
    crash, @front, drive =3, replay 41, drive =3, rs 0 0 =3, as 0 0 =5, f2 =3"),
("drive-crash", "a crash at each point of a load by `drive`: what was asked for is forgotten, its id free, and the next load is as long as any", "
    @brew, @load, add 41, wj 1, aj 1, cl 2, land 1, crash, drive, crash, as 0 0 =5, drive, drive, crash, drive, drive, drive, crash, as 1 0 =5, @drive-4, crash, @drive-5, crash, @drive-6, crash, ar 0 =5
    @drive-6, drive, crash, @drive-6, drive, drive, drive =3, crash, rs 1 0, crash, rs 1 0, xs 1 0, crash, @drive-6, drive, drive, drive =3, replay 41"),
("drive-stored", "a disk from before, its journal round the ring's end, blank entries in it: ten lines; after a commit and a crash with both slots read damaged twelve", "
    disk 4 4096 0 2 3 24576 4096 0 0 0 24576 4096, block 2 0100+0200+0102+41+0000, block 3 0200+1000+ff*16, block 0
    @drive-6, @drive-4, drive =3, replay 41 0000, replay 00*255*16, add 43, wj 5, aj 5, cl 6, land 1, crash, rs 1 3, xs 1 3, rs 0 4, xs 0 4, @drive-6, @drive-6, drive =3, replay 41 0000, replay 00*255*16, replay 43"),
("drive-unreadable", "a selected journal that was never written (marks 0): the answer that `drive` names is a 6, as often as it is asked; after a damaged answer by hand the piece is asked for again, and that is a 6 too", "
    disk 4 4096 0 3 2 24576 4096 0 0 0 24576 4096, @drive-6, drive =6, drive =6, ar 0 =6, push 1, drive =6, xr 0, drive, drive =6, rj 1 1, drive =6, xr 0, xr 1, rj 1 0, drive, drive =6, xr 1, xr 0
    crash, @drive-6, drive =6, drive =6"),
("drive-unreadable-back", "the same where only the back piece can't be read: the front one is in", "
    disk 4 4096 0 3 2 24576 4096 0 0 0 24576 4096, block 3 0100+0100+01+41, @drive-6, drive, drive, drive =6, drive =6, ar 0 =6, rj 0 5 =6, xr 0, drive, drive =6, crash"),
("drive-unparsable", "a stored range with a byte behind its bodies that isn't 0: `drive` names `f2`, a 7, as often as it is asked, before and after a crash", "
    disk 8 4096 0 0 2 40960 4096 0 0 0 40960 4096, block 0 0100+0100+01+41, block 1 0100+0100+01+42+01
    @drive-6, drive, drive =7, drive =7, f2 =7, push 9, drive =7, rj 0 0 =6, crash, @drive-6, drive, drive =7, drive =7"),
("drive-ill", "on a disk with an ill-formed superblock `drive` is a 2, and ends the time of `block` lines as any step does", "
    disk 8 4096 0 0 9 40960 4096 1 0 0 40960 4096, block 0 0100+0100+01+41, ? drive 0, block 1 00, drive =2, ? block 0 42, drive =2, crash =2, drive =2"),
("drive-spelling", "`drive` stands alone: with another word, a number too, it isn't a step, and doesn't end the time of `block` lines; `drive` does", "
    @brew, ? drive 0, ? drive 0 1, ? drive drive, ? drive x, ? drive 41, ? Drive, ? DRIVE, ? drives, ? driv, ? drive0, ? drive;, ? drive ^16385, ? drive 0 ^16384, block 0 41
    \tdrive\x0c\r, ? block 0 42, ? drive 0, drive ^16384, ? drive 1, drive, drive, drive, ? drive 0, drive\r, ? drive 0, drive =3"),
// Disks that were written before.
("blank-stored", "a disk from before with blank entries: they are loaded and replayed as they are, kept by a log commit with what is added, loaded again after a crash, and dropped by a location commit", "
    disk 8 4096 3 5 1 40960 4096 2 0 0 40960 4096, block 5 0100+0500+010102ff01+41+00+0000+00*255+42
    @front, replay 00 =6, replay 41 0000 =6, replay 41 01 =6, add 00 =13, replay 41 00, replay 00 =6, replay 0000 00*254 =6, add 43 =6, replay 0000 00*255, replay 00 =6, replay 42
    add 00 =13, add 43, freeze, wj 1, aj 1, cl 2, land 1, ac 2, crash, @front, replay 00 =6, replay 41 00 0000 00*255 42 43 00 =6, replay 41 00 0000 00*255 42 43
    freeze, add 44, loc 45056 7, wj 1, aj 1, co 2, land 0, ac 2, crash, @front, replay 00 =6, replay 44, add 00 =13"),
("blank-stored-alone", "stored ranges of blank entries only, of one byte and of 255, back to back; the store takes no more of them, and keeps these through commits and crashes", "
    disk 4 4096 7 1 2 24576 4096 8 2 2 24576 4096, block 2 0100+0100+01, block 3 0100+0200+ff02
    @front, cl 1, land 0, ac 1, replay 00, add 00 =13, crash, @front, replay 00 00*255 0000, add 00*255 =13, cl 1, land 1, ac 1, crash, @front, replay 00 00*255, replay 0000, add =0, add 41, wj 1, aj 1, cl 2, land 0, crash
    @pieces, replay 00 00*255 0000 41"),
("stored-two-pieces", "a disk from before, its journal round the ring's end: two ranges back to back, the second of two blocks, of which the back one is zeros alone; a range joins them", "
    disk 4 4096 0 2 3 24576 4096 0 0 0 24576 4096, block 2 0100+0200+0102+41+0000, block 3 0200+1000+ff*16, block 0
    @superblocks, rj 0 3, rj 1 4, ar 4, f2 =6, xr 3, rj 0 3, ar 3, f2, replay 41 00 =6, replay 41 0000, replay 00*255*16
    add 43, wj 5, aj 5, cl 6, land 1, ac 6, crash, @pieces, replay 41 0000, replay 00*254 =6, replay 00*255*16, replay 43"),
("stored-elsewhere", "blocks outside of the selected journal may hold anything, the other slot's too: they aren't read, and a write goes over them", "
    disk 8 4096 1 7 1 40960 4096 0 0 3 40960 4096, block 7 0100+0100+01+41, block 0 ff*4096, block 1 00, block 2 4142, block 5
    @front, replay 41, add #15x255 #1x252, wj 1, aj 1, add 42, wj 1, aj 1, cl 2, land 1, ac 2, crash, @pieces, replay 41, replay #15x255 #1x252, replay 42"),
("stored-damaged", "a stored range with a byte behind its bodies that isn't 0: `f2` is a 7 as often as it is asked, behind the 6 of a piece that isn't in; the piece stays, and a crash mends nothing", "
    disk 8 4096 0 0 2 40960 4096 0 0 0 40960 4096, block 0 0100+0100+01+41, block 1 0100+0100+01+42+01
    @superblocks, f2 =6, rj 0 3, f2 =6, xr 3, f2 =6, rj 0 3, ar 3, f2 =7, f2 =7, rj 0 3 =6, ar 3 =5, xr 3 =5, replay 41 =3, add 43 =3, push 9, noop, f2 =7
    crash, @superblocks, rj 0 3, ar 3, f2 =7, crash"),
("stored-damaged-piece", "the same where the damaged byte, a length of 0, is in the back piece", "
    disk 4 4096 0 3 2 24576 4096 0 0 0 24576 4096, block 3 0100+0100+01+41, block 0 0100+0200+0100+41, @superblocks, rj 0 3, rj 1 4, ar 3, f2 =6, ar 4, f2 =7, f2 =7"),
("stored-zeros", "a block of zeros alone is no range: 7", "
    disk 8 4096 0 0 1 40960 4096 0 0 0 40960 4096, block 0, @superblocks, rj 0 3, ar 3, f2 =7"),
("stored-no-entry", "a range of no entry: 7", "
    disk 8 4096 0 0 1 40960 4096 0 0 0 40960 4096, block 0 0100+0000, @superblocks, rj 0 3, ar 3, f2 =7"),
("stored-block-too-many", "a range of two blocks where one would do: 7", "
    disk 8 4096 0 0 2 40960 4096 0 0 0 40960 4096, block 0 0200+0100+01+41, block 1, @superblocks, rj 0 3, ar 3, f2 =7"),
("stored-cut", "a range of two blocks in a journal of one: 7, though the block behind it holds its rest", "
    disk 8 4096 0 0 1 40960 4096 0 0 0 40960 4096, block 0 0200+1000+ff*16+41*4076, block 1 41*4, @superblocks, rj 0 3, ar 3, f2 =7"),
("stored-unreadable", "a block of the selected journal without a line: its mark is 0, and a whole answer is a 6", "
    disk 8 4096 0 0 2 40960 4096 0 0 0 40960 4096, block 0 0100+0100+01+41, @superblocks, rj 0 3, ar 3 =6, xr 3, rj 0 3, ar 3 =6, f2 =6, crash"),
("stored-spelling", "what a `block` line is and what it isn't; of two for one block the later counts; lines that aren't steps don't end their time, and a step does, a refused one too", "
    @brew, ? block, ? block 8, ? block 8 41, ? block 18446744073709551616 41, ? block -1 41, ? block x, ? block 0x1 41, ? block41 0, ? blocks 0 41, ? Block 0 41, ? BLOCK 0
    ? block 0 4, ? block 0 414, ? block 0 4g, ? block 0 0x41, ? block 0 41 42, ? block 0 41 ;, ? block 0 00*4097, ? block 0 41 ^16385, ?, ? brew, ? add 4, ? disk 8 4096, ? noop ^16385
    block 0 41, block 0 42+43, block 1 44+45, block 1, \tblock  002\x0caB+Cd\r, block 3 ff*4096, block 00000000000000000000000000000000000004 00, block 5 \t, block 6 41 ^16384, ? block 8
    block 7, f1 =6, ? block 0 46, ? block 7, rs 0 1, ? block 0 46, crash, ? block 0 46, ? block 8, noop"),
// Disks and lines.
("smallest-disk", "N = 1 and T = 1", "
    disk 1 1 0 0 0 12288 1 0 0 0 12289 1, @load, add 41, wj 1, aj 1, add 42, wj 1 =8, freeze, loc 12289 2 =4, loc 12289 1, cl 2 =6, crash
    @load, add 43, wj 1, aj 1, cl 2, land 1, crash, @front, replay 43, freeze, loc 12289 1, co 2, land 0, ac 2, add 44, wj 1, aj 1"),
("largest-disk", "N = 32 and T = 16,777,216", "
    disk 32 16777216 5 31 0 139264 16777216 6 31 0 16916480 16777216, @load, add #16x255, wj 1 2, aj 1, aj 2
    freeze, loc 139264 16777217 =4, loc 139264 16777216, co 3, land 0, ac 3, crash, @load"),
("ill-superblock", "a slot that isn't selected starts at N: no step is taken, each is a 2, before any other question", "
    disk 8 4096 0 0 0 40960 4096 0 8 0 40960 4096
    wj 1 =2, aj 1 =2, cl 1 =2, co 1 =2, ac 1 =2, rs 0 1 =2, rs 2 1 =2, as 0 1 =2, xs 0 1 =2, rj 0 1 =2, ar 1 =2, xr 1 =2, f1 =2, f2 =2
    freeze =2, loc 40960 1 =2, add 41 =2, add #17x1 =2, add 00 =2, replay 41 =2, push 1 =2, pop 1 =2, noop =2, again 0 =2, land 0 =2, crash =2, ? brew, noop =2"),
("ill-superblock-len", "a slot of N + 1 blocks: 2", "
    disk 8 4096 0 0 9 40960 4096 1 0 0 40960 4096, noop =2, rs 0 1 =2, crash =2"),
("ill-superblock-address", "a slot whose table has neither address: 2", "
    disk 8 4096 0 0 0 40961 4096 0 0 0 40960 4096, noop =2, rs 0 1 =2, crash =2"),
("ill-superblock-empty-table", "a slot whose table has no bytes: 2", "
    disk 8 4096 0 0 0 40960 0 0 0 0 40960 4096, noop =2, rs 0 1 =2, crash =2"),
("ill-superblock-long-table", "a slot whose table has T + 1 bytes: 2", "
    disk 8 4096 0 0 0 40960 4096 0 0 0 45056 4097, noop =2, rs 0 1 =2, crash =2"),
("stored-ill", "on a disk with an ill-formed superblock `block` lines are what they are elsewhere; each step is a 2, and ends their time", "
    disk 8 4096 0 0 9 40960 4096 1 0 0 40960 4096, block 0 0100+0100+01+41, block 7 00, noop =2, ? block 0 42, rs 0 1 =2, add 00 =2, ? block 8, crash =2"),
("full-superblock", "slots at their bounds (start N - 1, length N, table 2 of T bytes) are well formed", "
    disk 8 4096 3 7 0 45056 4096 3 7 8 40960 1, noop, @load"),
("spelling", "blanks are runs of spaces, tabs, form feeds and carriage returns; digits of either case; zeros may lead; a line of 16,384 bytes is a step", "
    \tdisk  8 \x0c4096 0 00 000 40960 4096\r 0 0 0 0040960 4096 \r
    rs\t0\t1, \x0crs  1   2\r, as 0 00000000000000000000000000000000000001, \r\tas 1 2 \t, f1 ^16384, f2\r
    add 4a 4B fF, add\x0c, add 4C ^16384, wj 1, aj 1, cl 2, land 1, crash, @front, replay 4A 4b Ff 4c"),
("not-steps", "lines that aren't steps say so with their number, and alter nothing; the lines after them are played", "
    @brew, ?, ? \t, ? brew, ? rs, ? rs 0, ? rs 0 1 2, rs 0 1, ? RS 1 2, ? rs 1 -2, ? rs 1 +2, ? rs 1 0x2, ? rs 1 2., ? rs 1 18446744073709551616
    ? rs 1 99999999999999999999, ? rs\x0b1 2, ? rs 1 2\x00, rs 1 2, ? as, as 0 1, ? as 1 2 ^16385, ? as 1 2 ^40000, as 1 2, ? f1 1, ? f 1, f1, ? f3, f2
    ? wj, ? wj 1 2 3, ? wj one, ? aj, ? aj 1 2, ? cl, ? cl 1 2, ? co, ? ac, ? xs 1, ? rj 1, ? ar, ? xr, ? xr 1 2, ? freeze 1, ? loc 40960, ? loc 40960 1 1
    ? add 4, ? add 4g, ? add 41 4, ? add 0x41, ? add 41;42, ? add é1, ? replay 123, ? replay x, ? push, ? push -1, ? push 1 2, ? pop x, ? pop, ? noop noop
    ? again, ? again 0 1, ? land, ? land 0 1, ? crash 0, ? crash now, ? noopnoop, ? addd 41, ? disk 8 4096 0 0 0 40960 4096 0 0 0 40960 4096
    ? add 41 ^16385, add 41, wj 1"),
("no-last-line-feed", "a last line without its line feed counts", "@brew, noop, rs 0 1~"),
("no-disk", "the first line is a step: nothing more is read, and there is no header", "
    ! rs 0 1\nnoop"),
("no-disk-33-blocks", "N = 33", "! disk 33 4096 0 0 0 143360 4096 0 0 0 143360 4096\nnoop"),
("no-disk-0-blocks", "N = 0", "! disk 0 4096 0 0 0 8192 4096 0 0 0 8192 4096\nnoop"),
("no-disk-0-table", "T = 0", "! disk 8 0 0 0 0 40960 0 0 0 0 40960 0\nnoop"),
("no-disk-long-table", "T = 16,777,217", "! disk 8 16777217 0 0 0 40960 1 0 0 0 40960 1\nnoop"),
("no-disk-11-numbers", "a number is missing", "! disk 8 4096 0 0 0 40960 4096 0 0 0 40960\nnoop"),
("no-disk-13-numbers", "a number too many", "! disk 8 4096 0 0 0 40960 4096 0 0 0 40960 4096 0\nnoop"),
("no-disk-65-bits", "a counter of 2^64", "! disk 8 4096 18446744073709551616 0 0 40960 4096 0 0 0 40960 4096\nnoop"),
("no-disk-long-line", "a disk line of 16,385 bytes", "! disk 8 4096 0 0 0 40960 4096 0 0 0 40960 4096 ^16385\nnoop"),
("no-disk-no-line", "no line at all", ""),
("no-disk-empty-line", "an empty line first", "!\ndisk 8 4096 0 0 0 40960 4096 0 0 0 40960 4096"),
];
