//! The conformance disks: files for `record` with their N and T, each with the rows that the papers give it.

use crate::conformance::repeated;
use crate::image::{block, size, Image};
use crate::image_cases::CASES;
use crate::layout::Geometry;
use crate::record;
use crate::sector_conformance::{bytes, sector};

/// A case's name, what it shows, N and T, its slots, its blocks and its rows; `|` parts slots, blocks and rows.
/// A slot is as in the cases of sectors. `K: HEX ..` puts bytes from block K on, round the ring's end, `end: HEX ..` behind
/// the journal, `cut: K` leaves the first K bytes; `HH*L` is L bytes. A row `entry A-B ..` stands for entries A to B.
pub type Source = (&'static str, &'static str, &'static str, &'static str, &'static str, &'static str);

pub struct Case {
    pub name: &'static str,
    pub shows: &'static str,
    pub bytes: Vec<u8>,
    /// N and T, as they are given.
    pub args: String,
    pub rows: String,
}

fn parts(source: &str) -> impl Iterator<Item = &str> {
    source.split('|').map(str::trim).filter(|part| !part.is_empty())
}

/// What stands behind the colon, its words one behind the other.
fn held(words: &str) -> Vec<u8> {
    bytes(&words.split_whitespace().map(repeated).collect::<String>())
}

/// Puts bytes from a block on.
fn fill(image: &mut Image, first: usize, held: &[u8]) {
    let n = image.geometry.n() as usize;
    for (k, held) in held.chunks(block(0).len()).enumerate() {
        let from = block((first + k) % n).start;
        image.bytes[from..from + held.len()].copy_from_slice(held);
    }
}

fn image(geometry: Geometry, slots: &str, blocks: &str) -> Image {
    let mut bytes: Vec<u8> = slots.split('|').flat_map(sector).collect();
    bytes.resize(size(geometry), 0);
    let mut image = Image { geometry, bytes };
    for part in parts(blocks) {
        match part.split_once(':').expect("a place and bytes") {
            ("end", words) => image.bytes.extend(held(words)),
            ("cut", words) => image.bytes.truncate(words.trim().parse().expect("a length")),
            (first, words) => fill(&mut image, first.parse().expect("a block"), &held(words)),
        }
    }
    image
}

/// A row, or several like it.
fn row(source: &str) -> String {
    let spelled = |source: &str| {
        source
            .split(' ')
            .map(|w| if w.contains('*') { repeated(w) } else { w.into() })
            .collect::<Vec<_>>()
            .join(" ")
    };
    let several = source.strip_prefix("entry ").and_then(|rest| rest.split_once(' '));
    match several.and_then(|(numbers, rest)| Some((numbers.split_once('-')?, rest))) {
        Some(((from, to), rest)) => {
            let [from, to]: [usize; 2] = [from, to].map(|k| k.parse().expect("a number"));
            (from..=to).map(|k| format!("entry {k} {}\n", spelled(rest))).collect()
        }
        None => spelled(source) + "\n",
    }
}

/// The case with second's rows, which must be those written by hand.
fn played(&(name, shows, sizes, slots, blocks, right): &Source) -> Case {
    let [n, t] = [0, 1].map(|k| sizes.split(' ').nth(k).and_then(|x| x.parse().ok()).expect("N and T"));
    let geometry = Geometry::new(n, t).expect("sizes in range");
    let image = image(geometry, slots, blocks);
    let rows = if image.bytes.len() < size(geometry) { String::new() } else { record::rows(&image) };
    assert_eq!(rows, parts(right).map(row).collect::<String>(), "{name}");
    Case { name, shows, bytes: image.bytes, args: format!("{sizes}\n"), rows }
}

pub fn cases() -> Vec<Case> {
    CASES.iter().map(played).collect()
}

/// The selected slot and what it holds, or the refusal.
fn answer(rows: &str) -> String {
    let last = rows.lines().last().unwrap_or("nothing");
    match (rows.lines().nth(2).and_then(|row| row.strip_prefix("selected ")), last.strip_prefix("record ")) {
        (Some(selected), Some(record)) => {
            format!("slot {}, {} entries", &selected[..1], record.split(' ').next().unwrap_or_default())
        }
        (Some(selected), None) => format!("slot {}, {last}", &selected[..1]),
        _ => last.into(),
    }
}

/// The table of conformance/README.md: each case with its answer.
pub fn table() -> String {
    let head = "\n| case | N | T | bytes | slot 1 | slot 2 | answer | what it shows |\n|---|---|---|---|---|---|---|---|\n";
    let row = |Case { name, shows, bytes, args, rows }: Case| {
        let slot =
            |k: usize| rows.lines().nth(k).and_then(|row| row.split(' ').nth(2)).unwrap_or("-").to_string();
        let (sizes, one, two) = (args.trim_end().replace(' ', " | "), slot(0), slot(1));
        format!("| `{name}` | {sizes} | {} | {one} | {two} | {} | {shows} |\n", bytes.len(), answer(&rows))
    };
    format!("{head}{}\n", cases().into_iter().map(row).collect::<String>())
}
