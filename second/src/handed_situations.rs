//! What a line of `handed` can be; random lines must meet each of these.

use crate::disk::JOURNAL_WRITES;
use crate::handed::{geometry, Handed, BLOCKS};
use crate::layout::Interval;
use crate::text::{number, words};

/// Its name, and whether a store or a line's text is such a one.
type Situation<T> = (&'static str, fn(&T) -> bool);

/// Whether a place lies in an interval, not at its first block.
fn strictly_inside(place: u64, of: Interval) -> bool {
    geometry().valid(of) && place != of.start && geometry().contains(of, place)
}

fn goes_round(i: Interval) -> bool {
    geometry().valid(i) && geometry().wraps(i)
}

impl Handed {
    fn any(&self, is: impl Fn(Interval) -> bool) -> bool {
        self.writes.iter().any(|write| is(*write))
    }

    fn any_empty(&self, is: impl Fn(u64) -> bool) -> bool {
        self.any(|write| write.len == 0 && is(write.start))
    }

    /// Some write with another, both in the ring.
    fn any_two(&self, are: impl Fn(Interval, Interval) -> bool) -> bool {
        let sound = |k: usize| geometry().contiguous(self.writes[k]);
        let pairs = (0..self.writes.len()).flat_map(|a| (0..self.writes.len()).map(move |b| (a, b)));
        let mut pairs = pairs.filter(|(a, b)| a != b && sound(*a) && sound(*b));
        pairs.any(|(a, b)| are(self.writes[a], self.writes[b]))
    }

    fn taken(&self) -> bool {
        self.answers() == [0, 0]
    }

    fn empty_in_selected(&self) -> bool {
        self.any_empty(|place| strictly_inside(place, self.selected))
    }

    fn selected_in_write(&self) -> bool {
        self.selected.len == 0 && self.any(|write| strictly_inside(self.selected.start, write))
    }

    fn empty_in_write(&self) -> bool {
        self.any_two(|a, b| a.len == 0 && strictly_inside(a.start, b))
    }

    /// A write begins where the selected interval ends, or ends where it begins.
    fn touches_selected(&self) -> bool {
        let (g, kept) = (geometry(), self.selected);
        let touch = |write: Interval| g.next_start(write) == kept.start || g.next_start(kept) == write.start;
        g.valid(kept) && kept.len > 0 && self.any(|w| g.contiguous(w) && w.len > 0 && touch(w))
    }
}

const STORES: &[Situation<Handed>] = &[
    ("an empty write strictly inside the selected interval", Handed::empty_in_selected),
    ("an empty write strictly inside the selected interval, taken", |h| h.empty_in_selected() && h.taken()),
    ("an empty write at the selected interval's first block", |h| {
        h.selected.len > 0 && h.any_empty(|place| place == h.selected.start)
    }),
    ("an empty write at the selected interval's end", |h| {
        let (g, i) = (geometry(), h.selected);
        g.valid(i) && i.len > 0 && h.any_empty(|place| place == g.next_start(i))
    }),
    ("an empty write at block 0 of a selected interval that goes round", |h| {
        goes_round(h.selected) && h.any_empty(|place| place == 0)
    }),
    ("an empty selected interval strictly inside a write", Handed::selected_in_write),
    ("an empty selected interval strictly inside a write, taken", |h| h.selected_in_write() && h.taken()),
    ("an empty write strictly inside another", Handed::empty_in_write),
    ("an empty write strictly inside another, taken", |h| h.empty_in_write() && h.taken()),
    ("two empty writes at one place", |h| h.any_two(|a, b| a == b && a.len == 0)),
    ("a write of one block strictly inside the selected interval", |h| {
        h.any(|write| write.len == 1 && strictly_inside(write.start, h.selected))
    }),
    ("a write of one block strictly inside another", |h| {
        h.any_two(|a, b| a.len == 1 && strictly_inside(a.start, b))
    }),
    ("two writes with blocks are equal", |h| h.any_two(|a, b| a == b && a.len > 0)),
    ("writes that touch", |h| h.any_two(|a, b| a.len > 0 && b.len > 0 && a.start + a.len == b.start)),
    ("writes that touch, taken", |h| {
        h.any_two(|a, b| a.len > 0 && b.len > 0 && a.start + a.len == b.start) && h.taken()
    }),
    ("a write touches the selected interval, taken", |h| h.touches_selected() && h.taken()),
    ("a write of all 8 blocks, taken", |h| h.any(|write| write.len == BLOCKS) && h.taken()),
    ("the selected interval goes round", |h| goes_round(h.selected)),
    ("the selected interval goes round, a write with blocks is taken", |h| {
        goes_round(h.selected) && h.any(|write| write.len > 0) && h.taken()
    }),
    ("the selected interval has all 8 blocks", |h| h.selected == Interval::new(0, BLOCKS)),
    ("the selected interval has all 8 blocks and goes round", |h| {
        h.selected.len == BLOCKS && goes_round(h.selected)
    }),
    ("no write", |h| h.writes.is_empty()),
    ("16 writes", |h| h.writes.len() == JOURNAL_WRITES),
    ("16 writes, taken", |h| h.writes.len() == JOURNAL_WRITES && h.taken()),
    ("the selected interval starts outside of the ring", |h| h.selected.start >= BLOCKS),
    ("the selected interval has more than 8 blocks", |h| h.selected.len > BLOCKS),
    ("an empty write outside of the ring", |h| h.any_empty(|place| place >= BLOCKS)),
    ("a write with blocks outside of the ring", |h| h.any(|write| write.start >= BLOCKS && write.len > 0)),
    ("a write passes the ring's end", |h| h.any(goes_round)),
    ("a write of more than 8 blocks", |h| h.any(|write| write.start < BLOCKS && write.len > BLOCKS)),
    ("a write whose end passes 64 bits", |h| h.any(|write| write.start.checked_add(write.len).is_none())),
];

/// A line's words; no words where it isn't text.
fn words_of(line: &str) -> Vec<&str> {
    words(line.as_bytes()).into_iter().flatten().collect()
}

/// How many numbers, where each word is one.
fn numbers(line: &str) -> Option<usize> {
    words_of(line).into_iter().map(number).collect::<Option<Vec<_>>>().map(|numbers| numbers.len())
}

fn is_store(line: &str) -> bool {
    Handed::parse(line.as_bytes()).is_some()
}

fn digits(word: &str) -> bool {
    word.bytes().all(|byte| byte.is_ascii_digit())
}

/// Some word that isn't a number, and is such a one.
fn wrong(line: &str, is: impl Fn(&str) -> bool) -> bool {
    words_of(line).into_iter().any(|word| number(word).is_none() && is(word))
}

const TEXTS: &[Situation<str>] = &[
    ("not a store: no byte", |line| line.is_empty()),
    ("not a store: only blanks", |line| !line.is_empty() && numbers(line) == Some(0)),
    ("not a store: one number", |line| numbers(line) == Some(1)),
    ("not a store: 3 to 33 numbers, an odd count", |line| {
        numbers(line).is_some_and(|count| count % 2 == 1 && (3..=33).contains(&count))
    }),
    ("not a store: 35 numbers", |line| numbers(line) == Some(35)),
    ("not a store: 36 numbers", |line| numbers(line) == Some(36)),
    ("not a store: a number above 64 bits", |line| wrong(line, digits)),
    ("not a store: a sign", |line| wrong(line, |word| word.starts_with(['+', '-']))),
    ("not a store: another word", |line| wrong(line, |word| !digits(word) && !word.starts_with(['+', '-']))),
    ("a store with tabs, form feeds or carriage returns", |line| {
        line.contains(['\t', '\r', '\u{c}']) && is_store(line)
    }),
    ("a store with blanks before or behind its words", |line| {
        line.trim_ascii().len() < line.len() && is_store(line)
    }),
    ("a store with zeros that lead", |line| {
        words_of(line).iter().any(|word| word.len() > 1 && word.starts_with('0')) && is_store(line)
    }),
    ("a store with a number of more than 20 digits", |line| {
        words_of(line).iter().any(|word| word.len() > 20) && is_store(line)
    }),
];

/// Each situation that random lines must meet.
pub fn situations() -> Vec<&'static str> {
    STORES.iter().map(|(name, _)| *name).chain(TEXTS.iter().map(|(name, _)| *name)).collect()
}

/// Those that this line meets.
pub fn met(line: &str) -> Vec<&'static str> {
    let handed = Handed::parse(line.as_bytes());
    let stores = STORES.iter().filter(|(_, is)| handed.as_ref().is_some_and(is)).map(|(name, _)| *name);
    stores.chain(TEXTS.iter().filter(|(_, is)| is(line)).map(|(name, _)| *name)).collect()
}
