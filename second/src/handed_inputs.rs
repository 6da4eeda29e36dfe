//! Random lines for `handed`, repeatable from a seed: stores that question 2 passes, such as it turns away, and
//! lines that aren't stores.

use crate::days::Rng;
use crate::disk::JOURNAL_WRITES;
use crate::handed::{geometry, Handed, BLOCKS};
use crate::layout::Interval;

/// How many lines an input has.
pub const LINES: usize = 100;

/// A number far outside, extreme ones among them.
fn huge(rng: &mut Rng) -> u64 {
    match rng.below(4) {
        0 => u64::MAX - rng.below(10),
        1 => 1 << (4 + rng.below(60)),
        2 => (1 << 32) + rng.below(BLOCKS),
        _ => rng.number(),
    }
}

/// An interval that isn't contiguous on the ring.
fn outside(rng: &mut Rng) -> Interval {
    let (start, beyond) = (rng.below(BLOCKS), rng.below(3));
    match rng.below(6) {
        0 => Interval::new(BLOCKS + beyond, rng.below(3)),
        1 => Interval::new(start, BLOCKS - start + 1 + rng.below(start + 1)),
        2 => Interval::new(start, BLOCKS + 1 + beyond),
        3 => Interval::new(huge(rng), rng.below(3)),
        4 => Interval::new(start, huge(rng)),
        _ => Interval::new(huge(rng), huge(rng)),
    }
}

/// Any contiguous interval, empty in one of three.
fn contiguous(rng: &mut Rng) -> Interval {
    let start = rng.below(BLOCKS);
    let len = if rng.one_in(3) { 0 } else { 1 + rng.below(BLOCKS - start) };
    Interval::new(start, len)
}

/// A selected interval: empty, of all blocks, going round, of any length; seldom not well formed.
fn selected(rng: &mut Rng) -> Interval {
    let start = rng.below(BLOCKS);
    match rng.below(12) {
        0..=2 => Interval::new(start, 0),
        3 => Interval::new(start, BLOCKS),
        4 | 5 => Interval::new(start, BLOCKS - start + rng.below(start + 1)),
        6..=10 => Interval::new(start, rng.below(BLOCKS + 1)),
        _ => outside(rng),
    }
}

/// Writes in the blocks that the selected interval leaves, some of which touch.
fn apart(rng: &mut Rng, selected: Interval) -> Vec<Interval> {
    let mut writes: Vec<Interval> = vec![];
    let kept = |block| geometry().valid(selected) && geometry().contains(selected, block);
    for block in (0..BLOCKS).filter(|block| !kept(*block)) {
        match writes.last_mut() {
            Some(last) if last.start + last.len == block && !rng.one_in(3) => last.len += 1,
            _ if rng.one_in(3) => {}
            _ => writes.push(Interval::new(block, 1)),
        }
    }
    writes
}

/// Empty writes anywhere.
fn add_empty(rng: &mut Rng, writes: &mut Vec<Interval>, count: u64) {
    for _ in 0..count {
        let at = rng.below(writes.len() as u64 + 1) as usize;
        writes.insert(at, Interval::new(rng.below(BLOCKS), 0));
    }
}

/// One write grows at either end, moves, comes again, or another joins it.
fn change_one(rng: &mut Rng, writes: &mut Vec<Interval>) {
    if writes.is_empty() {
        return writes.push(contiguous(rng));
    }
    let k = rng.below(writes.len() as u64) as usize;
    let Interval { start, len } = writes[k];
    match rng.below(5) {
        0 => writes[k] = Interval::new(start, len + 1),
        1 => writes[k] = Interval::new(start.saturating_sub(1), len + 1),
        2 => writes[k] = Interval::new((start + 1) % BLOCKS, len),
        3 => writes.push(writes[k]),
        _ => writes.push(contiguous(rng)),
    }
}

/// The store of a line; it may have a write too many.
fn store(rng: &mut Rng) -> Handed {
    let selected = selected(rng);
    let mut writes = match rng.below(6) {
        0 => (0..rng.below(5)).map(|_| contiguous(rng)).collect(),
        1 => vec![],
        _ => apart(rng, selected),
    };
    if rng.one_in(2) {
        let count = 1 + rng.below(3);
        add_empty(rng, &mut writes, count);
    }
    if rng.one_in(4) {
        change_one(rng, &mut writes);
    }
    if rng.one_in(12) {
        writes.push(outside(rng));
    }
    if rng.one_in(12) {
        let count = JOURNAL_WRITES - writes.len() + usize::from(rng.one_in(3));
        add_empty(rng, &mut writes, count as u64);
    }
    Handed { selected, writes }
}

/// A word that isn't a number of 64 bits.
fn wrong_word(rng: &mut Rng) -> String {
    let any = rng.below(100);
    match rng.below(8) {
        0 => "18446744073709551616".into(),
        1 => format!("{}{any:02}", u64::MAX),
        2 => format!("-{any}"),
        3 => format!("+{any}"),
        4 => format!("{any}x"),
        5 => format!("0x{any:x}"),
        6 => format!("{any}.0"),
        _ => rng.of(&["a", "store", "1_0", "1,2", "#", "\u{b}", "\u{a0}", "\u{663}"]).into(),
    }
}

/// One word wrong, missing or too many, or none left.
fn damage(rng: &mut Rng, words: &mut Vec<String>) {
    let at = rng.below(words.len() as u64) as usize;
    match rng.below(8) {
        0 => words.clear(),
        1 | 2 => drop(words.remove(at)),
        3 => words.insert(at, rng.below(BLOCKS).to_string()),
        _ => words[at] = wrong_word(rng),
    }
}

fn blanks(rng: &mut Rng) -> String {
    if rng.below(8) > 0 {
        return " ".into();
    }
    (0..=rng.below(3)).map(|_| rng.of(&[' ', '\t', '\r', '\u{c}'])).collect()
}

/// The words with blanks between them, seldom before and behind them.
fn spelled(rng: &mut Rng, words: &[String]) -> String {
    let mut line = String::new();
    for (k, word) in words.iter().enumerate() {
        let blank = k > 0 || rng.one_in(20);
        line += &if blank { blanks(rng) } else { String::new() };
        line += word;
    }
    if rng.one_in(20) || words.is_empty() && rng.one_in(2) {
        line += &blanks(rng);
    }
    line
}

fn line(rng: &mut Rng) -> String {
    let Handed { selected, writes } = store(rng);
    let intervals = [selected].into_iter().chain(writes);
    let mut words: Vec<String> = intervals.flat_map(|i| [i.start, i.len]).map(|x| x.to_string()).collect();
    if rng.one_in(8) {
        damage(rng, &mut words);
    }
    for word in &mut words {
        let zeros = if rng.one_in(40) { 1 + rng.below(25) } else { 0 };
        word.insert_str(0, &"0".repeat(zeros as usize));
    }
    spelled(rng, &words)
}

/// The lines of a seed; nothing else enters.
pub fn lines(seed: u64) -> Vec<String> {
    let rng = &mut Rng::new(seed ^ 0x4a4d);
    (0..LINES).map(|_| line(rng)).collect()
}

/// The lines as an input. That of an odd seed lacks its last line feed, unless there would be no last line then.
pub fn input(seed: u64, lines: &[String]) -> Vec<u8> {
    let cut = seed % 2 == 1 && lines.last().is_some_and(|line| !line.is_empty());
    (lines.join("\n") + if cut { "" } else { "\n" }).into_bytes()
}
