//! The program `sectors`: what the two superblocks of a disk say, and which of them a store would load from.

use std::io::{Read, Write};

use crate::sector::{self, SECTOR};
use crate::superblock::Superblock;
use crate::Refusal;

/// What the last row can say.
pub const SELECTED: [&str; 7] = [
    "2: its counter follows slot 1's",
    "1: the counters are equal",
    "1: its counter follows slot 2's",
    "1: neither counter follows the other",
    "none: slot 1 is refused",
    "none: slot 2 is refused",
    "none: both slots are refused",
];

type Answer = Result<Superblock, Refusal>;

fn slot_row(slot: usize, answer: &Answer) -> String {
    match answer {
        Ok(s) => s.numbers().iter().fold(format!("slot {slot} 0"), |row, x| format!("{row} {x}")),
        Err(refusal) => format!("slot {slot} {}", refusal.number()),
    }
}

/// Which of two slots is selected, and why.
pub fn reason(slots: &[Superblock; 2]) -> &'static str {
    let [follows, equal, back, apart, ..] = SELECTED;
    match slots {
        _ if Superblock::select(slots) == 1 => follows,
        [one, two] if one.counter == two.counter => equal,
        [one, two] if one.counter == two.next_counter() => back,
        _ => apart,
    }
}

fn selected(answers: [Answer; 2]) -> &'static str {
    let [.., none_1, none_2, none] = SELECTED;
    match answers {
        [Ok(one), Ok(two)] => reason(&[one, two]),
        [Err(_), Ok(_)] => none_1,
        [Ok(_), Err(_)] => none_2,
        [Err(_), Err(_)] => none,
    }
}

/// The three rows of two slots' bytes.
pub fn rows(slots: [&[u8]; 2]) -> String {
    let answers = slots.map(sector::read);
    let [one, two] = [slot_row(1, &answers[0]), slot_row(2, &answers[1])];
    format!("{one}\n{two}\nselected {}\n", selected(answers))
}

/// The bytes of each slot, as far as they are there.
pub fn slots(bytes: &[u8]) -> [&[u8]; 2] {
    let mut chunks = bytes.chunks(SECTOR);
    [(); 2].map(|()| chunks.next().unwrap_or_default())
}

/// Reads two sectors and prints their rows; false where nothing was read or not all was printed.
pub fn run(input: impl Read, mut output: impl Write, mut errors: impl Write) -> bool {
    // Where this fails there is no place left to say so.
    let mut say = |what: String| drop(errors.write_all(format!("sectors: {what}\n").as_bytes()));
    let mut bytes = vec![];
    // A byte behind the second sector shows that the input goes on.
    if input.take(2 * SECTOR as u64 + 1).read_to_end(&mut bytes).is_err() {
        say("standard input can't be read".into());
        return false;
    }
    let slots = slots(&bytes);
    for (slot, bytes) in (1..).zip(slots).filter(|(_, bytes)| bytes.len() < SECTOR) {
        say(format!("slot {slot} has {} of {SECTOR} bytes", bytes.len()));
    }
    if bytes.len() > 2 * SECTOR {
        say(format!("the input goes on after {} bytes, which were not read", 2 * SECTOR));
    }
    let printed = output.write_all(rows(slots).as_bytes()).and_then(|()| output.flush());
    if printed.is_err() {
        say("the rows can't be written".into());
    }
    printed.is_ok()
}
