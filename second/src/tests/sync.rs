//! Sync requests: what moves them from State3 by State2 to State1, and what leaves them.

use super::{loaded, play, random_day};
use crate::coverage::{Seen, SITUATIONS};
use crate::driver::Call;
use crate::store::Store;
use crate::text::parse_call;

/// Plays lines that are taken; how many requests are then at State1, State2 and State3.
fn taken(store: &mut Store, day: &str) -> Vec<[usize; 3]> {
    let mut after = vec![];
    for line in day.split(',') {
        assert_eq!(play(store, line), [0], "{line}");
        after.push(store.machine.sync_counts());
    }
    after
}

const ONE: [[usize; 3]; 3] = [[1, 0, 0], [0, 1, 0], [0, 0, 1]];

#[test]
fn they_move_at_the_answer() {
    let mut store = loaded();
    assert_eq!(play(&mut store, "push 9, add 41, wj 3, aj 3"), [0; 4]);
    assert_eq!(store.machine.sync_counts(), ONE[1]);
    assert_eq!(play(&mut store, "pop 9, cl 4, ac 4, land 0, land 1, pop 9"), [6, 0, 6, 6, 0, 6]);
    assert_eq!(store.machine.sync_counts(), ONE[1]);
    assert_eq!(play(&mut store, "ac 4, pop 9, pop 9"), [0, 0, 5]);
}

#[test]
fn an_idle_save_is_done() {
    let mut store = loaded();
    let [one, two, three] = ONE;
    assert_eq!(taken(&mut store, "push 9, cl 4, land 1, ac 4"), [three, two, two, one]);
    assert_eq!(play(&mut store, "pop 9"), [0]);
    // What was added is written; a request after that finds nothing in memory either.
    assert_eq!(taken(&mut store, "add 41, wj 1, aj 1, push 9")[3], three);
    assert_eq!(taken(&mut store, "add, cl 4, land 0, ac 4"), [three, two, two, one]);
}

#[test]
fn an_idle_save_by_a_location_commit() {
    let mut store = loaded();
    let [one, two, three] = ONE;
    assert_eq!(taken(&mut store, "add 41, wj 1, aj 1, freeze, loc 45056 1, push 9")[5], three);
    assert_eq!(taken(&mut store, "co 4, land 1, ac 4"), [two, two, one]);
}

/// Entries to be replayed aren't in memory, and a request made while loading is like any other.
#[test]
fn an_idle_save_before_the_replay() {
    let mut store = loaded();
    let [one, two, three] = ONE;
    taken(&mut store, "add 41, wj 1, aj 1, cl 4, land 1, crash");
    let load = "push 9, rs 0 1, rs 1 2, as 0 1, as 1 2, f1, rj 0 3, ar 3, f2";
    assert_eq!(taken(&mut store, load), [three; 9]);
    assert_eq!(taken(&mut store, "cl 4, land 0, ac 4, replay 41"), [two, two, one, one]);
}

#[test]
fn entries_in_memory_leave_them() {
    let mut store = loaded();
    let [one, two, three] = ONE;
    taken(&mut store, "freeze, loc 45056 1, push 9, add 41");
    assert_eq!(taken(&mut store, "cl 4, land 1, ac 4"), [three; 3]);
    assert_eq!(taken(&mut store, "co 4, land 0, ac 4"), [three; 3]);
    assert_eq!(taken(&mut store, "wj 1, aj 1, cl 4, land 1, ac 4"), [two, two, two, two, one]);
}

#[test]
fn frozen_entries_leave_them() {
    let mut store = loaded();
    let [one, two, three] = ONE;
    assert_eq!(taken(&mut store, "add 41, freeze, loc 45056 1, push 9")[3], three);
    assert_eq!(play(&mut store, "cl 4, co 4"), [6, 6]);
    assert_eq!(taken(&mut store, "wj 1"), [three], "written, but not answered");
    assert_eq!(play(&mut store, "cl 4, co 4"), [6, 6]);
    assert_eq!(taken(&mut store, "aj 1, cl 4, land 1, ac 4"), [three, two, two, one]);
}

#[test]
fn a_commit_in_flight_leaves_them() {
    let mut store = loaded();
    assert_eq!(taken(&mut store, "cl 4, push 9, land 1, push 8, land 1, ac 4")[5], [0, 0, 2]);
    assert_eq!(play(&mut store, "pop 9, pop 8"), [6, 6]);
    assert_eq!(taken(&mut store, "cl 4, land 0, ac 4"), [[0, 2, 0], [0, 2, 0], [2, 0, 0]]);
}

/// Random days meet commits that move requests, and commits that leave them.
#[test]
fn random_days_meet_these_commits() {
    let situations: Vec<_> = SITUATIONS.iter().filter(|(name, _)| name.contains("in memory")).collect();
    let mut met = [0; 3];
    assert_eq!(situations.len(), met.len());
    for seed in 1..=100 {
        let (first, day) = random_day(seed);
        let mut store = first.clone();
        for call in day.iter().filter_map(|line| parse_call(line.as_bytes())) {
            let before = store.clone();
            let (step, result) = call.take(&mut store);
            let driven = call == Call::Drive;
            let seen = Seen { first: &first, before: &before, step: &step, driven, result, after: &store };
            met.iter_mut().zip(&situations).for_each(|(count, (_, holds))| *count += u32::from(holds(&seen)));
        }
    }
    assert!(met.iter().all(|count| *count > 10), "{met:?}");
}
