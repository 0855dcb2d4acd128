//! Repeated stores (02, "Repeated stores without a new timestamp") in lists of calls
//! from a fresh engine: what dirty is, where a store commits, that rts of a dirty
//! copy never passes both clocks of its core, and that no store is made within a
//! lease.

use std::collections::{BTreeMap, BTreeSet};
use std::ops::Range;

use reference::generate;
use reference::machine::*;

const SEEDS: Range<u64> = 1..400;

/// Plays the calls of a seed. Each is looked at with the machine before it, its
/// answer and the machine after it.
fn play(seed: u64, mut look: impl FnMut(&Step, &Machine, Answer, &Machine)) {
    let (sizes, steps) = generate::calls(seed, 300);
    let mut machine = Machine::open(sizes).unwrap();
    for step in &steps {
        let before = machine.clone();
        let answer = machine.call(step);
        look(step, &before, answer, &machine);
    }
}

/// The copies of all cores and lines that there are.
fn copies(machine: &Machine) -> impl Iterator<Item = (u32, u32, PrivateCopy)> + '_ {
    let lines = |core| machine.copies(core).iter().zip(0..).map(move |(copy, line)| (core, line, *copy));
    (0..machine.state.sizes.cores).flat_map(lines)
}

/// Dirty by its words: this core stored to the line, and has owned it ever since. By
/// that each store commits at its formula.
#[test]
fn dirty_and_the_timestamps_of_stores_by_their_words() {
    let (mut repeated, mut first, mut first_again) = (0, 0, 0);
    for seed in SEEDS {
        let (mut dirty, mut once_dirty) = (BTreeSet::new(), BTreeSet::new());
        play(seed, |step, before, answer, after| {
            match (*step, answer) {
                (Step::Store { core, line, .. }, Answer::Commit(Commit::Store { ts, .. })) => {
                    let Core { lts, sts, .. } = before.state.cores[core as usize];
                    let rts = before.copy(core, line).rts().unwrap();
                    if dirty.insert((core, line)) {
                        assert_eq!(ts, lts.max(sts).max(rts + 1), "seed {seed}: {step:?}");
                        first += 1;
                        first_again += u32::from(!once_dirty.insert((core, line)));
                    } else {
                        assert_eq!(ts, lts.max(sts).max(rts), "seed {seed}: {step:?}");
                        repeated += u32::from(ts == rts);
                    }
                }
                (Step::Evict { core, line }, Answer::Evict)
                | (Step::Writeback { core, line }, Answer::Writeback) => drop(dirty.remove(&(core, line))),
                (Step::Yield { line }, Answer::Yield) => dirty.retain(|(_, other)| *other != line),
                _ => {}
            }
            for (core, line, copy) in copies(after) {
                let is_dirty = matches!(copy, PrivateCopy::Owned { dirty: true, .. });
                assert_eq!(is_dirty, dirty.contains(&(core, line)), "seed {seed}: {step:?}");
            }
        });
    }
    assert!(
        repeated > 1_000 && first > 1_000 && first_again > 500,
        "{repeated} repeated, {first} first ones, {first_again} of them to a line that was dirty before"
    );
}

/// rts of a dirty copy is the timestamp of the store that made it, below which sts
/// never falls, or of a load of its core since, below which lts never falls. So a
/// store to a dirty line is at max(lts, sts) here: no list of calls tells whether it
/// looks at rts, only a state that none leads to (`points.rs`).
#[test]
fn rts_of_a_dirty_copy_never_passes_both_clocks() {
    let (mut of_store, mut of_load) = (0, 0);
    for seed in SEEDS {
        play(seed, |step, _, _, after| {
            for (core, line, copy) in copies(after) {
                let PrivateCopy::Owned { wts, rts, dirty: true } = copy else {
                    continue;
                };
                let Core { lts, sts, .. } = after.state.cores[core as usize];
                assert!(wts <= sts && rts <= lts.max(sts), "seed {seed}: {step:?}: core {core}, line {line}");
                of_store += u32::from(rts == wts);
                of_load += u32::from(rts > wts);
            }
        });
    }
    assert!(of_store > 10_000 && of_load > 1_000, "{of_store} of a store, {of_load} of a load");
}

/// However often a line is stored to: each store is past all leases of the line that
/// were given before it, and what the manager takes with the wts of a version that it
/// had before has that version's bytes.
#[test]
fn no_store_is_made_within_a_lease() {
    let (mut past_lease, mut same_version) = (0, 0);
    for seed in SEEDS {
        let (mut leases, mut versions) = (BTreeMap::new(), BTreeMap::new());
        play(seed, |step, _, answer, after| match (*step, answer) {
            (Step::Store { line, .. }, Answer::Commit(Commit::Store { ts, .. })) => {
                if let Some(&end) = leases.get(&line) {
                    assert!(ts > end, "seed {seed}: {step:?} at {ts}, lent until {end}");
                    past_lease += 1;
                }
            }
            (Step::Serve { core }, Answer::Share | Answer::Renew) => {
                if let Slot::Answered { line, rts, .. } = after.state.cores[core as usize].slot {
                    let end = leases.entry(line).or_insert(rts);
                    *end = rts.max(*end);
                }
            }
            (Step::Take { line }, Answer::Take) => {
                if let Holder::Shared { wts, .. } = after.state.lines[line as usize].holder {
                    let bytes = after.shared[after.manager_place(line)].to_vec();
                    if let Some(before) = versions.insert((line, wts), bytes.clone()) {
                        assert_eq!(before, bytes, "seed {seed}: line {line}, wts {wts}");
                        same_version += 1;
                    }
                }
            }
            _ => {}
        });
    }
    assert!(past_lease > 3_000 && same_version > 100, "{past_lease} past a lease, {same_version} again");
}
