//! The disk at a random day's end as an image, and whether its rows show the day's ledger.

use crate::days::{Day, Options, Rng};
use crate::image::Image;
use crate::ledger::Ledger;
use crate::range::Entry;
use crate::sound;
use crate::store::Store;
use crate::superblock::Superblock;
use crate::text::{digits, Line, Reader};
use crate::trace::first_store;

/// A day, played on second's own store.
pub struct Played {
    /// The words by which `days` prints it.
    pub words: String,
    pub lines: Vec<String>,
    pub store: Store,
    /// None where the first disk can't be loaded.
    pub ledger: Option<Ledger>,
}

/// A day's store and ledger at its end.
fn played(lines: &[String]) -> (Store, Option<Ledger>) {
    let mut store = first_store(lines).expect("a disk");
    let (mut ledger, mut reader) = (Ledger::new(&store), Reader::new(store.geometry));
    for line in lines.iter().skip(1) {
        // What block lines hold is in the first store.
        let Line::Step(call) = reader.read(line.as_bytes()) else { continue };
        let (step, result) = call.take(&mut store);
        if let Some(ledger) = &mut ledger {
            ledger.feed(&step, result.is_err());
        }
    }
    (store, ledger)
}

impl Played {
    /// A day of some steps; it ends wherever they end.
    pub fn new(rng: &mut Rng) -> Self {
        let (seed, steps) = (rng.number(), rng.of(&[10, 60, 150, 300, 300]));
        let options = Options { steps, ledger: rng.one_in(2), ill: rng.one_in(20) };
        let [ledger, ill] =
            [(options.ledger, " ledger"), (options.ill, " ill")].map(|(on, word)| if on { word } else { "" });
        let lines: Vec<String> = Day::new(seed, options).collect();
        let (store, ledger_kept) = played(&lines);
        Played { words: format!("days {seed} {steps}{ledger}{ill}"), lines, store, ledger: ledger_kept }
    }

    pub fn image(&self) -> Image {
        Image::new(&self.store)
    }

    /// The day as `trace` reads it.
    pub fn text(&self) -> String {
        self.lines.iter().map(|line| format!("{line}\n")).collect()
    }

    /// Says what the rows of the day's image don't show of the ledger. Without one the disk is as it was at first, and
    /// refused; but where a mark is 0, of which an image knows nothing, the zeros there may be a range's end.
    pub fn shown(&self, rows: &str) -> Result<(), String> {
        let last = rows.lines().last().unwrap_or_default();
        match (&self.ledger, sound::system(&self.store)) {
            (Some(ledger), _) => shows(ledger, rows),
            (None, false) if last != "refused 2" => Err("a superblock is ill-formed".into()),
            (None, true) if last != "refused 7" && self.readable() => Err("the journal doesn't parse".into()),
            _ => Ok(()),
        }
    }

    /// Is each block of the selected journal readable?
    fn readable(&self) -> bool {
        let selected = sound::slots(&self.store).map(|slots| slots[Superblock::select(&slots)].journal());
        selected.is_some_and(|journal| self.store.disk.journal.readable(self.store.geometry, journal))
    }
}

/// Rows that begin with this word, without it.
fn rows_of<'a>(rows: &'a str, word: &'static str) -> impl Iterator<Item = &'a str> {
    rows.lines().filter_map(move |row| row.strip_prefix(word)?.strip_prefix(' '))
}

/// The selected slot has the ledger's numbers; entries, their bytes and their order are the ledger's.
fn shows(ledger: &Ledger, rows: &str) -> Result<(), String> {
    let slot = rows_of(rows, "selected")
        .next()
        .and_then(|row| row.split(':').next())
        .ok_or("no slot is selected")?;
    let numbers = [ledger.counter, ledger.start, ledger.len(), ledger.table.addr, ledger.table.len];
    let right = numbers.iter().fold(format!("{slot} 0"), |row, x| format!("{row} {x}"));
    if !rows_of(rows, "slot").any(|row| row == right) {
        return Err(format!("the ledger is slot {right}"));
    }
    let entries: Vec<&Entry> = ledger.entries().collect();
    let right = (1..).zip(&entries).map(|(k, entry)| format!("{k} {} {}", entry.len(), digits(entry)));
    if !rows_of(rows, "entry").eq(right) {
        return Err("the ledger has other entries".into());
    }
    let right =
        format!("record {} {}", entries.len(), entries.iter().map(|entry| entry.len()).sum::<usize>());
    if rows.lines().last() != Some(&right) {
        return Err(format!("the ledger is {right}"));
    }
    Ok(())
}
