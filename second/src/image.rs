//! A disk as its bytes: the two slots' sectors, then the journal's blocks. What follows these, tables and nodes,
//! isn't looked at.

use std::ffi::OsStr;
use std::fs::File;
use std::io::{self, Write};
use std::ops::Range;

use crate::layout::{Geometry, Interval, BLOCK};
use crate::sector::{self, SECTOR};
use crate::store::Store;

/// At least two sectors and N blocks.
#[derive(Clone, Debug, PartialEq, Eq)]
pub struct Image {
    pub geometry: Geometry,
    pub bytes: Vec<u8>,
}

/// Where a slot's sector lies, 0 being slot 1.
pub fn slot(slot: usize) -> Range<usize> {
    let from = Geometry::SUPERBLOCKS[slot] as usize;
    from..from + SECTOR
}

/// Where a block of the journal lies.
pub fn block(block: usize) -> Range<usize> {
    let from = Geometry::JOURNAL as usize + BLOCK * block;
    from..from + BLOCK
}

/// How many bytes are looked at.
pub fn size(g: Geometry) -> usize {
    block(g.n() as usize).start
}

impl Image {
    /// A slot that holds no superblock is zeros, which no reader takes.
    pub fn new(store: &Store) -> Self {
        let mut bytes = vec![0; size(store.geometry)];
        for (k, superblock) in store.disk.slots.iter().enumerate() {
            if let Some(superblock) = superblock {
                sector::write(superblock, &mut bytes[slot(k)]).expect("a sector's length");
            }
        }
        for (k, held) in store.disk.journal.blocks.iter().enumerate() {
            bytes[block(k)].copy_from_slice(held);
        }
        Image { geometry: store.geometry, bytes }
    }

    /// The interval's blocks, one behind the other.
    pub fn journal(&self, i: Interval) -> Vec<u8> {
        self.geometry.ring(i).flat_map(|k| &self.bytes[block(k)]).copied().collect()
    }

    /// Writes it to a file, over what is there; else why it can't.
    pub fn keep(&self, file: &OsStr) -> Result<(), Vec<u8>> {
        let mut opened = File::create(file).map_err(|error| of_file(file, &error))?;
        opened.write_all(&self.bytes).map_err(|_| b"the disk's bytes can't be written".to_vec())
    }
}

/// The file as it was named, and the system's words.
pub fn of_file(file: &OsStr, error: &io::Error) -> Vec<u8> {
    let words = error.to_string();
    let words = words.split(" (os error").next().unwrap_or_default();
    [file.as_encoded_bytes(), b": ", words.as_bytes()].concat()
}
