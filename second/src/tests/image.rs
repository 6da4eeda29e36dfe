//! A disk as bytes, and the file in which `trace` keeps it.

use std::ffi::OsString;
use std::fs;
use std::path::PathBuf;

use super::g;
use crate::image::{self, Image};
use crate::layout::BLOCK;
use crate::sector::{self, SECTOR};
use crate::store::Store;
use crate::superblock::Superblock;
use crate::trace::{self, HEADER};

/// A folder of one's own, gone when it is dropped.
pub(super) struct Folder(PathBuf);

impl Folder {
    pub(super) fn new(name: &str) -> Self {
        let folder = std::env::temp_dir().join(format!("second-{name}-{}", std::process::id()));
        fs::create_dir_all(&folder).unwrap();
        Folder(folder)
    }

    pub(super) fn file(&self, name: &str) -> OsString {
        self.0.join(name).into()
    }
}

impl Drop for Folder {
    fn drop(&mut self) {
        fs::remove_dir_all(&self.0).unwrap();
    }
}

/// What `trace` prints, rows and messages.
fn traced(files: &[OsString], day: &str) -> (String, String) {
    let (mut output, mut errors) = (vec![], vec![]);
    let right = trace::run(files, day.as_bytes(), &mut output, &mut errors);
    assert_eq!(right, errors.is_empty() && output.starts_with(HEADER.as_bytes()));
    (String::from_utf8(output).unwrap(), String::from_utf8(errors).unwrap())
}

const DISK: &str = "disk 2 1 7 1 1 16384 1 6 0 0 16385 1";

#[test]
fn slots_and_blocks_lie_where_the_page_has_them() {
    let slots = [[7, 1, 1, 16_384, 1], [6, 0, 0, 16_385, 1]].map(Superblock::from_numbers);
    let mut store = Store::new(crate::layout::Geometry::new(2, 1).unwrap(), slots);
    store.disk.journal.put(1, &[1, 0, 1, 0, 1, 0x41]);
    let Image { bytes, .. } = Image::new(&store);
    assert_eq!(bytes.len(), 16_384);
    assert_eq!([sector::read(&bytes[..4096]), sector::read(&bytes[4096..8192])], slots.map(Ok));
    assert!(bytes[8192..12_288].iter().all(|byte| *byte == 0));
    assert_eq!(bytes[12_288..12_294], [1, 0, 1, 0, 1, 0x41]);
    store.disk.slots[1] = None;
    assert_eq!(Image::new(&store).bytes[4096..8192], [0; SECTOR]);
    assert_eq!([image::slot(0), image::slot(1)], [0..4096, 4096..8192]);
    assert_eq!([image::block(0), image::block(7)], [8192..12_288, 36_864..40_960]);
    assert_eq!(image::size(g()), 40_960);
}

/// The disk at the day's end: what has landed, and what a write in flight has put into its blocks.
#[test]
fn a_day_keeps_its_disk() {
    let folder = Folder::new("keeps");
    let file = folder.file("disk");
    fs::write(&file, vec![1; 50_000]).unwrap();
    let load = "drive\ndrive\ndrive\ndrive\ndrive\n";
    let day = format!("{DISK}\nblock 1 010001000141\n{load}drive\ndrive\ndrive\nreplay 41\nadd 4243\nwj 3\n");
    let (rows, errors) = traced(std::slice::from_ref(&file), &day);
    assert_eq!((rows.lines().count(), errors.as_str()), (12, ""));
    let bytes = fs::read(&file).unwrap();
    assert_eq!(bytes.len(), 8192 + 2 * BLOCK);
    assert_eq!(bytes[8192..8199], [1, 0, 1, 0, 2, 0x42, 0x43]);
    // Sent, landed, and sent again.
    let numbers = |bytes: &[u8]| sector::read(&bytes[SECTOR..2 * SECTOR]).unwrap().numbers();
    let day = format!("{day}aj 3\ncl 4\n");
    let rest = ["", "land 1\n", "land 1\nac 4\nfreeze\ncl 5\n"];
    let slots = rest.map(|rest| {
        assert_eq!(traced(std::slice::from_ref(&file), &format!("{day}{rest}")).1, "");
        numbers(&fs::read(&file).unwrap())
    });
    assert_eq!(slots, [[6, 0, 0, 16_385, 1], [8, 1, 2, 16_384, 1], [8, 1, 2, 16_384, 1]]);
    assert_eq!(traced(&[], &day).0, traced(&[file], &day).0);
}

#[test]
fn disks_that_cannot_be_kept() {
    let folder = Folder::new("kept");
    let (there, none) = (folder.file("there"), folder.file("none"));
    fs::write(&there, b"as it was").unwrap();
    let day = format!("{DISK}\nnoop\n");
    let rows = traced(&[], &day).0;
    let expected = "trace: expected at most one argument, a file for the disk's bytes\n".to_string();
    assert_eq!(traced(&[there.clone(), none.clone()], &day), (String::new(), expected));
    for file in [&there, &none] {
        let no_disk = traced(std::slice::from_ref(file), "noop\n");
        assert_eq!(no_disk, ("line 0 is not a disk\n".into(), String::new()));
    }
    assert_eq!(fs::read(&there).unwrap(), b"as it was");
    assert!(fs::metadata(&none).is_err());
    let cases = [
        (folder.file(""), "Is a directory"),
        (folder.file("none/disk"), "No such file or directory"),
        (folder.file("there/disk"), "Not a directory"),
    ];
    for (file, words) in cases {
        let said = format!("trace: {}: {words}\n", file.to_str().unwrap());
        assert_eq!(traced(&[file], &day), (rows.clone(), said));
    }
    let said = "trace: the disk's bytes can't be written\n".to_string();
    assert_eq!(traced(&["/dev/full".into()], &day), (rows, said));
}
