//! Random and damaged images: what they meet, what is right for each damage, and what a day's ledger has kept.

use std::collections::BTreeMap;

use crate::days::Rng;
use crate::image::{size, Image};
use crate::image_damage::{Subject, DAMAGES, SHORT};
use crate::image_days::Played;
use crate::image_inputs::{entries, made};
use crate::image_situations::{situations, Input};
use crate::layout::Geometry;
use crate::range;
use crate::record;

/// The rows, or nothing where the file is too short.
fn rows(bytes: &[u8], given: (u64, u64)) -> String {
    let geometry = Geometry::new(given.0, given.1).unwrap();
    match bytes.len() < size(geometry) {
        true => String::new(),
        false => record::rows(&Image { geometry, bytes: bytes.to_vec() }),
    }
}

/// The refusal, 0 for a record.
fn answer(rows: &str) -> u8 {
    match rows.lines().last().map(|row| row.split(' ').collect::<Vec<_>>()) {
        Some(last) if last[0] == "refused" => last[1].parse().unwrap(),
        Some(_) => 0,
        None => SHORT,
    }
}

/// Each damage has each of its answers, and no other; a byte anywhere seldom lies in a slot, and another
/// N seldom has tables where the disk's was.
#[test]
fn answers_of_damages() {
    let mut met: BTreeMap<&str, Vec<u8>> = BTreeMap::new();
    let rng = &mut Rng::new(77);
    for _ in 0..150 {
        let subject = Subject::new(made(rng)).unwrap();
        for (name, right, done) in DAMAGES {
            let mut damaged = subject.clone();
            if done(rng, &mut damaged) {
                let rows = rows(&damaged.image.bytes, damaged.given);
                let answer = answer(&rows);
                assert!(right.contains(&answer), "{name}: {answer}");
                met.entry(name).or_default().push(answer);
            }
        }
    }
    let often = |name: &str| !name.ends_with("anywhere") && !name.ends_with("than the disk's");
    for (name, right, _) in DAMAGES.iter().filter(|(name, ..)| often(name)) {
        let missing: Vec<&u8> = right.iter().filter(|answer| !met[name].contains(answer)).collect();
        assert_eq!(missing, Vec::<&u8>::new(), "{name}");
    }
}

/// What lies outside of slots and selected journal isn't looked at.
#[test]
fn what_lies_elsewhere_alters_no_row() {
    let rng = &mut Rng::new(78);
    let elsewhere = |name: &str| name.contains("outside of") || name.contains("behind the journal");
    for (name, _, done) in DAMAGES.iter().filter(|(name, ..)| elsewhere(name)) {
        let mut met = 0;
        for _ in 0..60 {
            let subject = Subject::new(made(rng)).unwrap();
            let mut altered = subject.clone();
            if done(rng, &mut altered) {
                assert_eq!(rows(&altered.image.bytes, altered.given), record::rows(&subject.image), "{name}");
                met += 1;
            }
        }
        assert!(met > 5, "{name}");
    }
}

/// The rows of a day's disk show its ledger, whatever is in flight and wherever the day ends.
#[test]
fn days_leave_their_ledger() {
    let rng = &mut Rng::new(79);
    for k in 0..600 {
        let day = Played::new(rng);
        let rows = record::rows(&day.image());
        assert_eq!(day.shown(&rows), Ok(()), "day {k}, {}", day.words);
    }
    // An entry more, less, or other, and other numbers, are told.
    let shown = |day: &Played| record::rows(&day.image()).contains("\nentry 2 ");
    let day = std::iter::repeat_with(|| Played::new(rng)).find(shown).unwrap();
    let rows = record::rows(&day.image());
    let other = [
        rows.replace("\nentry 2 ", "\nentry 3 "),
        rows.lines().filter(|row| !row.starts_with("entry 2 ")).map(|row| format!("{row}\n")).collect(),
        rows.replace("\nrecord ", "\nrecord 1"),
        rows.replace("\nentry 1 ", "\nentry 1 1"),
        rows.replace("selected ", "selected 3"),
        rows.replace(&format!(" {} ", day.image().geometry.tables()[0]), " 0 ")
            .replace(&format!(" {} ", day.image().geometry.tables()[1]), " 0 "),
    ];
    for other in other {
        assert!(day.shown(&other).is_err(), "{other:.300}");
    }
}

#[test]
fn ranges_of_so_many_blocks() {
    let rng = &mut Rng::new(80);
    for blocks in (1..=65).chain([1, 1, 1, 2, 2, 65, 65]) {
        let entries = entries(rng, blocks);
        assert_eq!(range::blocks(&entries), blocks);
        let bytes = range::write(&entries);
        assert_eq!((bytes.len(), range::read(&bytes)), (blocks * 4096, Some(entries)));
    }
}

/// A thousand seeds meet each situation.
#[test]
fn random_images() {
    let mut met: BTreeMap<String, u64> = BTreeMap::new();
    for seed in 1..=1000 {
        for input in [Input::sound(seed), Input::damaged(seed)] {
            let rows = rows(&input.bytes, input.given);
            let right = input.damage.map_or(&[0, 2, 7][..], |(_, right, _)| right);
            assert!(right.contains(&answer(&rows)), "seed {seed}, {}", input.words());
            input.situations(&rows).into_iter().for_each(|name| *met.entry(name).or_default() += 1);
        }
    }
    let missing: Vec<String> = situations().into_iter().filter(|name| !met.contains_key(name)).collect();
    assert_eq!(missing, Vec::<String>::new());
}
