//! Document 02's S-2 on random days: no request reaches State1 uncovered, and stores with wrong rules are told.

use super::{g, random_day, superblock, LOAD};
use crate::covered::{Covered, REACHED};
use crate::ledger::Ledger;
use crate::machine::Sync;
use crate::store::{Step, Store};
use crate::text::parse_call;

/// A wrong rule: what it does to the requests beside a step that was taken.
type Wrong = fn(&mut Store, &Step);

/// Plays lines on a store with this rule; what reached State1, or the line that breaks the claim.
fn played(lines: impl Iterator<Item = String>, mut store: Store, wrong: Wrong) -> Result<[u64; 5], String> {
    let mut covered = Covered::new(Ledger::new(&store));
    for (n, line) in (1..).zip(lines) {
        let Some(call) = parse_call(line.as_bytes()) else { continue };
        let (step, result) = call.take(&mut store);
        if result.is_ok() {
            wrong(&mut store, &step);
        }
        let fed = covered.feed(&step, result.is_err(), store.machine.sync_counts());
        fed.map_err(|what| format!("step {n}, {line:.40}: {what}"))?;
    }
    Ok(covered.reached)
}

fn random(seed: u64, wrong: Wrong) -> Result<[u64; 5], String> {
    let (store, day) = random_day(seed);
    played(day.into_iter().skip(1), store, wrong)
}

fn by_hand(day: &str, wrong: Wrong) -> Result<[u64; 5], String> {
    let day = format!("{LOAD}, {day}");
    played(day.split(',').map(String::from), Store::new(g(), [superblock(0); 2]), wrong)
}

fn right(_: &mut Store, _: &Step) {}

fn move_all(store: &mut Store, from: Sync, to: Sync) {
    store.machine.sync.values_mut().filter(|s| **s == from).for_each(|s| *s = to);
}

fn requests_commit(step: &Step) -> bool {
    matches!(step, Step::CommitLog { .. } | Step::CommitLocation { .. })
}

/// State3 to State2 at a commit's request, whatever is in memory.
fn whatever_is_in_memory(store: &mut Store, step: &Step) {
    if requests_commit(step) {
        move_all(store, Sync::State3, Sync::State2);
    }
}

/// State2 to State1 when a commit is sent: document 01's third wrong turn.
fn when_sent(store: &mut Store, step: &Step) {
    if requests_commit(step) {
        move_all(store, Sync::State2, Sync::State1);
    }
}

/// A commit's answer takes along what was pushed while it was in flight.
fn all_at_the_answer(store: &mut Store, step: &Step) {
    if matches!(step, Step::SuperblockWritten { .. }) {
        move_all(store, Sync::State3, Sync::State1);
    }
}

#[test]
fn random_days() {
    let mut reached = [0; 5];
    for seed in 1..=300 {
        let more = random(seed, right).unwrap_or_else(|what| panic!("seed {seed}, {what}"));
        reached.iter_mut().zip(more).for_each(|(count, more)| *count += more);
    }
    REACHED.iter().zip(reached).for_each(|(name, count)| println!("{count:>8} {name}"));
    assert!(reached.iter().all(|count| *count > 20), "{reached:?}");
}

/// The requests at State1 are the earliest pushed: so the numbers at each state say which they are.
#[test]
fn they_move_in_the_order_of_pushes() {
    for seed in 1..=100 {
        let ((mut store, day), mut pushed) = (random_day(seed), vec![]);
        for call in day.iter().filter_map(|line| parse_call(line.as_bytes())) {
            let (step, result) = call.take(&mut store);
            match (result, &step) {
                (Ok(()), Step::Push { id }) => pushed.push(*id),
                (Ok(()), Step::Pop { id }) => pushed.retain(|p| p != id),
                (Ok(()), Step::Crash) => pushed.clear(),
                _ => {}
            }
            let states: Vec<u8> = pushed.iter().map(|id| store.machine.sync[id] as u8).collect();
            assert!(states.is_sorted() && states.len() == store.machine.sync.len(), "seed {seed}");
        }
    }
}

#[test]
fn wrong_rules_break_the_claim() {
    for wrong in [whatever_is_in_memory, when_sent, all_at_the_answer] {
        let broken: Vec<String> = (1..=300).filter_map(|seed| random(seed, wrong).err()).collect();
        println!("{} of 300 days break the claim, the first at {}", broken.len(), broken[0]);
        assert!(broken.len() > 20 && broken.iter().all(|what| what.contains("no landing covered")));
    }
}

/// Entries are covered by their places: an equal one that was kept earlier doesn't stand for them.
#[test]
fn places_count() {
    let day = "add 41, wj 1, aj 1, cl 2, land 1, ac 2, add 41, push 9, cl 2, land 0, ac 2";
    assert_eq!(by_hand(day, right), Ok([0; 5]));
    assert!(by_hand(day, whatever_is_in_memory).is_err());
    // The same where the earlier one was dropped, and where it came before a crash.
    let day =
        "add 41, freeze, loc 45056 1, wj 1, aj 1, co 2, land 1, ac 2, add 41, push 9, cl 2, land 0, ac 2";
    assert_eq!(by_hand(day, right), Ok([0; 5]));
    assert!(by_hand(day, whatever_is_in_memory).is_err());
    let load = "rs 0 1, rs 1 2, as 0 1, as 1 2, f1, rj 0 3, ar 3, f2, replay 41";
    let day = format!("add 41, wj 1, aj 1, cl 2, land 1, crash, {load}, add 41, push 9, cl 2, land 0, ac 2");
    assert_eq!(by_hand(&day, right), Ok([0; 5]));
    assert!(by_hand(&day, whatever_is_in_memory).is_err());
}

/// What was dropped counts as covered, at the landing that drops it and at later ones.
#[test]
fn dropped_entries_are_covered() {
    let day = "add 41, push 9, freeze, loc 45056 1, wj 1, aj 1, add 42, co 2, land 1, ac 2, pop 9";
    assert_eq!(by_hand(day, right), Ok([1, 1, 1, 0, 0]));
    let later = format!("{day}, wj 1, aj 1, push 8, cl 2, land 0, ac 2");
    assert_eq!(by_hand(&later, right), Ok([2, 2, 2, 1, 1]));
}

/// A write in flight lands again: that is no landing for a request pushed in between.
#[test]
fn a_repeated_landing_is_none() {
    for day in ["cl 1, land 1, push 9, land 1, ac 1", "cl 1, land 1, push 9, ac 1"] {
        assert_eq!(by_hand(day, right), Ok([0; 5]));
        assert!(by_hand(day, all_at_the_answer).is_err());
    }
    assert_eq!(by_hand("cl 1, push 9, land 1, land 1, ac 1", all_at_the_answer), Ok([1, 0, 0, 0, 0]));
}

/// A request that is popped had reached State1.
#[test]
fn pops() {
    let mut covered = Covered::new(None);
    assert!(covered.feed(&Step::Push { id: 9 }, false, [0, 0, 1]).is_ok());
    assert!(covered.feed(&Step::NoOp, false, [0, 1, 1]).is_err(), "a request too many");
    assert!(covered.feed(&Step::Pop { id: 9 }, true, [0, 0, 1]).is_ok());
    assert!(covered.feed(&Step::Pop { id: 9 }, false, [0, 0, 0]).is_err());
    assert!(covered.feed(&Step::NoOp, false, [1, 0, 0]).is_err(), "no landing");
}
