//! A second supplier's fermentation store: the journal, its commit machine and its disk,
//! written from document 01 and the five Dafny files alone; its sectors from document 02's S-1, its saves on
//! an idle store from S-2, its empty intervals from S-3, its loading driver from S-4, its blank entries from S-6.
#![forbid(unsafe_code)]

pub mod conformance;
pub mod coverage;
pub mod covered;
pub mod days;
pub mod disk;
pub mod driven;
pub mod driver;
pub mod handed;
mod handed_cases;
pub mod handed_conformance;
pub mod handed_inputs;
pub mod handed_situations;
pub mod image;
mod image_cases;
pub mod image_conformance;
pub mod image_damage;
pub mod image_days;
pub mod image_inputs;
pub mod image_situations;
pub mod layout;
pub mod ledger;
pub mod machine;
pub mod range;
pub mod record;
pub mod record_ways;
mod scripts;
pub mod sector;
mod sector_cases;
pub mod sector_conformance;
pub mod sector_damage;
pub mod sector_inputs;
pub mod sectors;
pub mod sound;
pub mod store;
pub mod stored;
pub mod superblock;
pub mod text;
pub mod trace;

#[cfg(test)]
mod tests;

/// Document 01's questions, then document 02's: a sector's, and an add's; the one answered no is the refusal.
#[derive(Clone, Copy, Debug, PartialEq, Eq)]
pub enum Refusal {
    Sizes = 1,
    State = 2,
    Kind = 3,
    Argument = 4,
    Id = 5,
    Condition = 6,
    Parse = 7,
    Room = 8,
    SecondId = 9,
    /// A sector of another length, or that begins with other contents.
    Contents = 10,
    /// A byte of a sector that should be zero.
    Zeros = 11,
    /// A sector's check number.
    Check = 12,
    /// An entry of zeros only, of an add; asked after 4 and before 5.
    Blank = 13,
}

impl Refusal {
    pub fn number(self) -> u8 {
        self as u8
    }
}

/// Asks one question: `Ok` on a yes, `no` otherwise.
fn ask(yes: bool, no: Refusal) -> Result<(), Refusal> {
    if yes {
        Ok(())
    } else {
        Err(no)
    }
}
