//! The conformance sectors: inputs for `sectors`, each with the rows that document 02's S-1 gives it.

use crate::sector::{written, SECTOR};
use crate::sector_cases::CASES;
use crate::sectors;
use crate::superblock::Superblock;
use crate::text::entry;

/// A case's name, what it shows, its sectors, and the three rows without their first words; `|` parts sectors
/// and rows. A sector is five numbers, as they are written, or `all` and a byte; then `@AT:HEX` puts other
/// bytes from AT on, and `^LEN` cuts it.
pub type Source = (&'static str, &'static str, &'static str, &'static str);

pub struct Case {
    pub name: &'static str,
    pub shows: &'static str,
    pub input: Vec<u8>,
    pub rows: String,
}

pub(crate) fn bytes(digits: &str) -> Vec<u8> {
    entry(digits).expect("pairs of hexadecimal digits")
}

pub(crate) fn sector(source: &str) -> Vec<u8> {
    let words: Vec<&str> = source.split_whitespace().collect();
    let changes = words.iter().position(|word| word.starts_with(['@', '^'])).unwrap_or(words.len());
    let mut sector = match words[..changes] {
        ["all", byte] => bytes(byte).repeat(SECTOR),
        [c, s, l, a, t] => {
            let numbers = [c, s, l, a, t].map(|word| word.parse().expect("a number"));
            written(&Superblock::from_numbers(numbers))
        }
        _ => vec![],
    };
    for change in &words[changes..] {
        match change[1..].split_once(':') {
            Some((at, digits)) => {
                let (at, bytes): (usize, _) = (at.parse().expect("a place"), bytes(digits));
                sector[at..at + bytes.len()].copy_from_slice(&bytes);
            }
            None => sector.truncate(change[1..].parse().expect("a length")),
        }
    }
    sector
}

/// The case with second's rows, which must be those written by hand.
fn played(&(name, shows, source, right): &Source) -> Case {
    let input: Vec<u8> = source.split('|').flat_map(sector).collect();
    let mut rows = vec![];
    sectors::run(&input[..], &mut rows, std::io::sink());
    let rows = String::from_utf8(rows).expect("rows are text");
    let firsts = ["slot 1", "slot 2", "selected"].into_iter();
    let right: String = firsts.zip(right.split('|')).map(|(a, b)| format!("{a} {}\n", b.trim())).collect();
    assert_eq!(rows, right, "{name}");
    Case { name, shows, input, rows }
}

pub fn cases() -> Vec<Case> {
    CASES.iter().map(played).collect()
}

/// The table of conformance/README.md: each case with its answers.
pub fn table() -> String {
    let head = "\n| case | bytes | slot 1 | slot 2 | selected | what it shows |\n|---|---|---|---|---|---|\n";
    let row = |Case { name, shows, input, rows }: Case| {
        let rows: Vec<&str> = rows.lines().collect();
        let slot = |row: &str| row.split(' ').nth(2).unwrap_or_default().to_string();
        let last = rows[2].split([' ', ':']).nth(1).unwrap_or_default();
        let (one, two) = (slot(rows[0]), slot(rows[1]));
        format!("| `{name}` | {} | {one} | {two} | {last} | {shows} |\n", input.len())
    };
    format!("{head}{}\n", cases().into_iter().map(row).collect::<String>())
}
