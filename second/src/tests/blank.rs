//! Document 02's S-6: no add brings a blank entry, and those stored or pending earlier stay as they are.

use super::stored::stored;
use super::{loaded, play, reload};
use crate::coverage::{Seen, SITUATIONS};
use crate::days::{Day, Options};
use crate::driver::Call;
use crate::ledger::Ledger;
use crate::machine::{Phase, Ready, PENDING_BYTES, PENDING_ENTRIES};
use crate::range::{self, Entry};
use crate::store::{Step, Store};
use crate::text::{parse_call, parse_step};
use crate::trace::first_store;
use crate::Refusal;

fn ready(store: &mut Store) -> &mut Ready {
    let Phase::Ready(ready) = &mut store.machine.phase else { panic!("not ready") };
    ready
}

/// The refusal of an add, 0 where it is taken; a refused one alters nothing, a taken one brings its entries.
fn added(store: &Store, entries: &[Entry]) -> u8 {
    let mut after = store.clone();
    let result = after.step(&Step::Add(entries.to_vec()));
    if result.is_err() {
        assert_eq!(&after, store);
    } else {
        let before = ready(&mut store.clone()).memory.clone();
        assert_eq!(ready(&mut after).memory, [before, entries.to_vec()].concat());
    }
    result.err().map_or(0, Refusal::number)
}

fn zeros(len: usize) -> Entry {
    vec![0; len]
}

#[test]
fn blank_entries_are_refused() {
    let mut store = loaded();
    for _ in 0..2 {
        for len in 1..=255 {
            assert_eq!(added(&store, &[zeros(len)]), 13);
        }
        for at in 0..16 {
            let mut entries = vec![vec![0x41]; 16];
            assert_eq!(added(&store, &entries), 0);
            entries[at] = zeros(1 + at);
            assert_eq!(added(&store, &entries), 13, "the blank one at {at}");
        }
        assert_eq!(added(&store, &vec![zeros(255); 16]), 13);
        assert_eq!(added(&store, &[]), 0);
        // The same with entries frozen and in memory.
        assert_eq!(play(&mut store, "add 41, freeze, add 42"), [0; 3]);
    }
}

/// One byte that isn't zero is enough, wherever it stands.
#[test]
fn nearly_blank_entries_are_taken() {
    let store = loaded();
    for (len, at) in (1..=255).flat_map(|len| (0..len).map(move |at| (len, at))) {
        let mut entry = zeros(len);
        entry[at] = if at % 2 == 0 { 1 } else { 0x80 };
        assert!(!range::blank(&entry));
        if at == 0 || at == len / 2 || at + 1 == len {
            assert_eq!(added(&store, &[entry]), 0, "{len} bytes, all but byte {at} zero");
        }
    }
}

/// After 3 and 4, before 6 and 8.
#[test]
fn the_order_of_an_add() {
    let long = vec![zeros(1), zeros(256)];
    let (many, one) = (vec![zeros(1); 17], vec![zeros(1)]);
    let wrong_kind = Store::new(super::g(), [super::superblock(0); 2]);
    assert_eq!([&long, &many, &one].map(|e| added(&wrong_kind, e)), [3; 3]);
    assert_eq!([&long, &many, &one].map(|e| added(&loaded(), e)), [4, 4, 13]);
    assert_eq!(added(&loaded(), &[vec![]]), 4, "an entry without bytes");
    let mut left = stored(&[vec![vec![0x41]]]);
    reload(&mut left);
    assert_eq!([&long, &many, &one].map(|e| added(&left, e)), [4, 4, 13]);
    assert_eq!([added(&left, &[vec![7]]), added(&left, &[])], [6; 2]);
    for (count, len) in [(PENDING_ENTRIES, 1), (PENDING_BYTES / 64, 64)] {
        let mut full = loaded();
        ready(&mut full).memory = vec![vec![7; len]; count];
        assert_eq!([&long, &many, &one].map(|e| added(&full, e)), [4, 4, 13]);
        assert_eq!([added(&full, &[vec![7]]), added(&full, &[])], [8, 0]);
    }
    let mut ill = loaded();
    ready(&mut ill).memory = vec![vec![]];
    assert_eq!(added(&ill, &one), 2);
}

fn blanks() -> Vec<Entry> {
    vec![zeros(1), vec![0x41], zeros(255), zeros(2)]
}

/// Loads, and replays these entries, one by one; an add of a blank one is refused at each point.
fn replayed(store: &mut Store, entries: &[Entry]) {
    reload(store);
    assert_eq!(ready(store).replay, entries);
    for entry in entries {
        assert_eq!(added(store, &[zeros(1)]), 13);
        assert_eq!(store.step(&Step::Replay(vec![vec![9]])), Err(Refusal::Condition));
        assert_eq!(store.step(&Step::Replay(vec![entry.clone()])), Ok(()));
    }
    assert_eq!([added(store, &[zeros(1)]), added(store, &[vec![7]])], [13, 0]);
}

/// A store that took blank entries before S-6 goes on with them: they are written, loaded and replayed.
#[test]
fn pending_blank_entries_stay() {
    for frozen in [false, true] {
        let mut store = loaded();
        ready(&mut store).memory = blanks();
        assert_eq!(play(&mut store, "noop"), [0], "question 2 passes it");
        assert_eq!(added(&store, &[zeros(1)]), 13);
        assert_eq!(added(&store, &[vec![7]]), 0);
        assert!(!frozen || play(&mut store, "freeze") == [0]);
        assert_eq!(play(&mut store, "wj 1, aj 1"), [0; 2]);
        assert_eq!(store.disk.journal.blocks[0][..], range::write(&blanks()));
        assert_eq!(play(&mut store, "cl 2, land 1, ac 2, crash"), [0; 4]);
        replayed(&mut store, &blanks());
    }
}

#[test]
fn stored_blank_entries_stay() {
    let mut store = stored(&[blanks(), vec![zeros(255); 16], vec![zeros(1)]]);
    let all = [blanks(), vec![zeros(255); 16], vec![zeros(1)]].concat();
    let mut ledger = Ledger::new(&store).expect("it can be loaded");
    assert!(ledger.entries().eq(&all));
    replayed(&mut store, &all);
    for line in ["add 42", "wj 1", "aj 1", "cl 2", "land 0", "crash"] {
        assert_eq!(play(&mut store, line), [0]);
        ledger.feed(&parse_step(line.as_bytes()).unwrap(), false);
    }
    let all = [all, vec![vec![0x42]]].concat();
    assert!(ledger.entries().eq(&all));
    replayed(&mut store, &all);
}

/// Random days meet blank entries in each of these situations, and a stored journal that doesn't parse.
#[test]
fn random_days_meet_them() {
    let wanted = |name: &str| name.contains("blank") || name.starts_with("13") || name.starts_with("7");
    let situations: Vec<_> = SITUATIONS.iter().filter(|(name, _)| wanted(name)).collect();
    let mut met = vec![0; situations.len()];
    for seed in 1..=200 {
        let lines: Vec<String> = Day::new(seed, Options { steps: 300, ledger: true, ill: false }).collect();
        let first = first_store(&lines).expect("a disk");
        let mut store = first.clone();
        for call in lines.iter().filter_map(|line| parse_call(line.as_bytes())) {
            let before = store.clone();
            let (step, result) = call.take(&mut store);
            let driven = call == Call::Drive;
            let seen = Seen { first: &first, before: &before, step: &step, driven, result, after: &store };
            met.iter_mut().zip(&situations).for_each(|(count, (_, holds))| *count += u32::from(holds(&seen)));
        }
    }
    let few: Vec<_> =
        situations.iter().zip(&met).filter(|(_, count)| **count == 0).map(|(s, _)| s.0).collect();
    assert!(met.len() == 15 && few.is_empty(), "{} situations, not met: {few:?}", met.len());
}
