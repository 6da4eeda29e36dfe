//! Ways of calling `record` beside a disk, its N and its T: arguments that are wrong, files that can't be read,
//! several disks at once, and an output that is full.

use std::path::Path;

use crate::days::Rng;
use crate::record::MOST_BLOCKS;

/// What the arguments are made of: two files with their N and T, and a folder in which nothing is named `none`.
pub struct Place<'a> {
    pub one: [String; 3],
    pub two: [String; 3],
    pub folder: &'a Path,
}

impl Place<'_> {
    fn none(&self) -> String {
        self.folder.join("none").display().to_string()
    }
}

/// Its name, and the arguments.
pub type Way = (&'static str, fn(&mut Rng, &Place) -> Vec<String>);

/// The way by which rows can't be written.
pub const FULL: &str = "the output is full";

/// Words that are no number in range.
const WRONG: [&str; 9] =
    ["0", "", "8x", "-1", "+8", " 8", "1e3", "18446744073709551616", "18446744073709551624"];

#[rustfmt::skip]
pub const WAYS: &[Way] = &[
    (FULL, |_, p| p.one.to_vec()),
    ("no argument", |_, _| vec![]),
    ("one argument", |_, p| p.one[..1].to_vec()),
    ("two arguments", |_, p| p.one[..2].to_vec()),
    ("four arguments", |_, p| [&p.one[..], &p.two[..1]].concat()),
    ("five arguments", |_, p| [&p.one[..], &p.two[..2]].concat()),
    ("N is no number in range", |r, p| with_n(&p.one, r.of(&WRONG))),
    ("N is 4,097", |_, p| with_n(&p.one, "4097")),
    ("N is 257 to 4,096", |r, p| { let any = 258 + r.below(3838); let n = r.of(&[MOST_BLOCKS + 1, any, 4096]); with_n(&p.one, &n.to_string()) }),
    ("T is no number in range", |r, p| with_t(&p.one, r.of(&WRONG))),
    ("T is 16,777,217", |_, p| with_t(&p.one, "16777217")),
    ("N and T are no numbers in range", |r, p| with_t(&with_n(&p.one, r.of(&WRONG)), "0")),
    ("N is 257, T no number in range", |r, p| with_t(&with_n(&p.one, "257"), r.of(&WRONG))),
    ("N is no number in range, no such file", |r, p| with_file(&with_n(&p.one, r.of(&WRONG)), p.none())),
    ("T is no number in range, no such file", |r, p| with_file(&with_t(&p.one, r.of(&WRONG)), p.none())),
    ("zeros lead N and T", |_, p| with_t(&with_n(&p.one, &format!("000{}", p.one[1])), &format!("0{}", p.one[2]))),
    ("no such file", |_, p| with_file(&p.one, p.none())),
    ("a file without a name", |_, p| with_file(&p.one, String::new())),
    ("a folder", |_, p| with_file(&p.one, p.folder.display().to_string())),
    ("a file in a file", |_, p| with_file(&p.one, format!("{}/disk", p.one[0]))),
    ("two disks", |_, p| [&p.one[..], &p.two[..]].concat()),
    ("one disk twice", |_, p| [&p.one[..], &p.one[..]].concat()),
    ("three disks, no such file between", |_, p| [&p.one[..], &with_file(&p.one, p.none()), &p.two[..]].concat()),
    ("three disks, the first one's N wrong", |r, p| [&with_n(&p.two, r.of(&WRONG))[..], &p.one[..], &p.two[..]].concat()),
];

fn with_file(words: &[String], file: String) -> Vec<String> {
    vec![file, words[1].clone(), words[2].clone()]
}

fn with_n(words: &[String], n: &str) -> Vec<String> {
    vec![words[0].clone(), n.into(), words[2].clone()]
}

fn with_t(words: &[String], t: &str) -> Vec<String> {
    vec![words[0].clone(), words[1].clone(), t.into()]
}
