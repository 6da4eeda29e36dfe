//! Writes the conformance days, sectors, handed stores and disks, their rows, and the tables of their page:
//! `conformance FOLDER`.
#![forbid(unsafe_code)]

use std::path::Path;
use std::{fs, io};

use second::conformance::{days, page};
use second::{handed_conformance, image_conformance, sector_conformance};

/// An input and its rows.
fn write(folder: &Path, name: &str, input: (&str, &[u8]), rows: &str) -> io::Result<()> {
    fs::create_dir_all(folder)?;
    fs::write(folder.join(format!("{name}.{}", input.0)), input.1)?;
    fs::write(folder.join(format!("{name}.rows")), rows)
}

fn main() -> io::Result<()> {
    let folder = std::env::args().nth(1).ok_or(io::Error::other("conformance FOLDER"))?;
    let folder = Path::new(&folder);
    for day in days() {
        write(&folder.join("days"), day.name, ("day", day.input.as_bytes()), &day.rows)?;
    }
    for case in sector_conformance::cases() {
        write(&folder.join("sectors"), case.name, ("bytes", &case.input), &case.rows)?;
    }
    for case in handed_conformance::cases() {
        write(&folder.join("handed"), case.name, ("lines", case.input.as_bytes()), &case.rows)?;
    }
    for case in image_conformance::cases() {
        let images = folder.join("images");
        write(&images, case.name, ("bytes", &case.bytes), &case.rows)?;
        fs::write(images.join(format!("{}.args", case.name)), case.args)?;
    }
    let readme = folder.join("README.md");
    let text =
        page(&fs::read_to_string(&readme)?).ok_or(io::Error::other("the page has no place for tables"))?;
    fs::write(readme, text)
}
