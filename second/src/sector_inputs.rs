//! Random inputs for `sectors`, repeatable from a seed: two sectors, sound or damaged; the input whole, cut or
//! longer; and how it comes.

use crate::days::Rng;
use crate::sector::{written, SECTOR};
use crate::sector_damage::{Damage, DAMAGES, NONE};
use crate::sectors;
use crate::superblock::Superblock;

/// How two counters stand to each other.
type Counters = (&'static str, fn(&mut Rng) -> [u64; 2]);

pub const COUNTERS: &[Counters] = &[
    ("slot 2's counter follows", |r| after(r, 1)),
    ("slot 2's counter follows, 0 after 2^64 - 1", |_| [u64::MAX, 0]),
    ("the counters are equal", |r| after(r, 0)),
    ("slot 1's counter follows", |r| after(r, u64::MAX)),
    ("slot 1's counter follows, 0 after 2^64 - 1", |_| [0, u64::MAX]),
    ("slot 2's counter is two ahead", |r| after(r, 2)),
    ("slot 1's counter is two ahead", |r| after(r, u64::MAX - 1)),
    ("the counters are 2^63 apart", |r| after(r, 1 << 63)),
    ("the counters are far apart", |r| {
        let ahead = 3 + r.below(u64::MAX - 4);
        after(r, ahead)
    }),
];

/// Which of the two sectors lies in which slot.
pub const PLACES: &[(&str, [usize; 2])] = &[
    ("each sector in its slot", [0, 1]),
    ("the sectors exchanged", [1, 0]),
    ("slot 1's sector in both", [0, 0]),
    ("slot 2's sector in both", [1, 1]),
];

/// The input's length in bytes, from the least to the most.
pub const LENGTHS: &[(&str, usize, usize)] = &[
    ("two sectors", 2 * SECTOR, 2 * SECTOR),
    ("no byte", 0, 0),
    ("1 byte", 1, 1),
    ("13 bytes", 13, 13),
    ("14 to 112 bytes", 14, 112),
    ("part of slot 1", 1, SECTOR - 1),
    ("a byte less than slot 1", SECTOR - 1, SECTOR - 1),
    ("slot 1 alone", SECTOR, SECTOR),
    ("a byte more than slot 1", SECTOR + 1, SECTOR + 1),
    ("slot 1 and part of slot 2", SECTOR + 1, 2 * SECTOR - 1),
    ("a byte less than two sectors", 2 * SECTOR - 1, 2 * SECTOR - 1),
    ("a byte more than two sectors", 2 * SECTOR + 1, 2 * SECTOR + 1),
    ("three sectors", 3 * SECTOR, 3 * SECTOR),
    ("more than two sectors", 2 * SECTOR + 1, 8 * SECTOR),
];

/// How the input comes, and where the rows go.
#[derive(Clone, Copy, Debug, PartialEq, Eq)]
pub enum Way {
    Plain,
    /// The input pauses at some byte.
    Pieces,
    /// Each read fails.
    NoRead,
    /// Each write fails: no room.
    FullOutput,
}

pub const WAYS: &[(&str, Way)] = &[
    ("read at once", Way::Plain),
    ("read in pieces", Way::Pieces),
    ("the input can't be read", Way::NoRead),
    ("the output is full", Way::FullOutput),
];

pub struct Input {
    pub bytes: Vec<u8>,
    pub way: Way,
    /// Where the input pauses, if it comes in pieces.
    pub pause: usize,
    /// What befell each slot, where it has all its bytes.
    pub slots: [Option<Damage>; 2],
    /// Its counters, places, length and way, by name.
    made: [&'static str; 4],
}

fn after(rng: &mut Rng, ahead: u64) -> [u64; 2] {
    let counter = number(rng);
    [counter, counter.wrapping_add(ahead)]
}

/// Any number, extreme ones and such as a store has among them.
fn number(rng: &mut Rng) -> u64 {
    match rng.below(8) {
        0 => 0,
        1 => u64::MAX - rng.below(3),
        2 => 1 << rng.below(64),
        3 => (1 << rng.below(64)) - 1,
        4 | 5 => rng.number(),
        6 => rng.below(4096),
        _ => 4096 * (2 + rng.below(4096)),
    }
}

fn record(rng: &mut Rng, counter: u64) -> Superblock {
    let [start, len, addr, size] = [(); 4].map(|()| number(rng));
    Superblock::from_numbers([counter, start, len, addr, size])
}

/// A record whose counter is any number too.
pub fn any_record(rng: &mut Rng) -> Superblock {
    let counter = number(rng);
    record(rng, counter)
}

/// A damage, or none in two of five.
pub fn any_damage(rng: &mut Rng) -> Damage {
    if rng.below(5) < 2 {
        NONE
    } else {
        rng.of(DAMAGES)
    }
}

/// The first of the list in most cases, each of the others now and then.
fn mostly<T: Copy>(rng: &mut Rng, list: &[T], seldom: u64) -> T {
    if rng.one_in(seldom) {
        rng.of(list)
    } else {
        list[0]
    }
}

/// What follows two sectors: a sound one that no program should look at, or random bytes.
fn lengthen(rng: &mut Rng, bytes: &mut Vec<u8>, len: usize) {
    let more = match rng.below(2) {
        0 => rng.bytes(SECTOR),
        _ => written(&any_record(rng)),
    };
    bytes.extend(more.iter().cycle().take(len.saturating_sub(bytes.len())));
    bytes.truncate(len);
}

impl Input {
    pub fn new(seed: u64) -> Self {
        let rng = &mut Rng::new(seed ^ 0x5ec7);
        let (counters, pair) = rng.of(COUNTERS);
        let (places, order) = mostly(rng, PLACES, 6);
        let (length, least, most) = mostly(rng, LENGTHS, 4);
        let (comes, way) = mostly(rng, WAYS, 20);
        let sectors = pair(rng).map(|counter| {
            let damage = any_damage(rng);
            let mut sector = written(&record(rng, counter));
            damage.2(rng, &mut sector);
            (damage, sector)
        });
        let mut bytes = order.map(|k| sectors[k].1.as_slice()).concat();
        let len = least + rng.below((most - least) as u64 + 1) as usize;
        lengthen(rng, &mut bytes, len);
        let whole = sectors::slots(&bytes).map(|slot| slot.len() == SECTOR);
        let slots = [0, 1].map(|slot| whole[slot].then_some(sectors[order[slot]].0));
        let pause = rng.below(len as u64 + 1) as usize;
        Input { bytes, way, pause, slots, made: [counters, places, length, comes] }
    }

    /// What this input is, in the names of `situations`: only such as show in what is printed.
    pub fn situations(&self) -> Vec<String> {
        let [counters, places, length, comes] = self.made.map(String::from);
        match self.way {
            Way::NoRead => return vec![comes],
            Way::FullOutput => return vec![length, comes],
            Way::Plain | Way::Pieces => {}
        }
        let slots = (1..).zip(&self.slots).filter_map(|(slot, d)| d.map(|d| format!("slot {slot}: {}", d.0)));
        let mut situations: Vec<String> = [places, length, comes].into_iter().chain(slots).collect();
        let sound = self.slots.iter().all(|damage| damage.is_some_and(|(name, ..)| name == NONE.0));
        if sound && self.made[1] == PLACES[0].0 {
            situations.insert(0, counters);
        }
        situations
    }
}

/// Each situation that random inputs must meet.
pub fn situations() -> Vec<String> {
    let made = COUNTERS.iter().map(|(name, _)| *name);
    let made = made.chain(PLACES.iter().map(|(name, _)| *name));
    let made = made.chain(LENGTHS.iter().map(|(name, ..)| *name)).chain(WAYS.iter().map(|(name, _)| *name));
    let slot =
        |slot| [&NONE].into_iter().chain(DAMAGES).map(move |(name, ..)| format!("slot {slot}: {name}"));
    made.map(String::from).chain(slot(1)).chain(slot(2)).collect()
}
