//! Lists of calls that mix evict, drop and writeback (02, "Evict becomes drop and
//! writeback"), on engines of any capacity: demand 3 holds on them, the tally adds
//! up, and evict does what the one of the other two that fits the copy does.

use reference::generate;
use reference::machine::*;
use reference::order::{self, Ties};
use reference::run::Record;
use reference::tally::Tallied;

/// Plays the calls of a seed on a fresh engine; their records, and the engine left.
fn played(seed: u64, count: usize) -> (Vec<Record>, Machine) {
    let (sizes, steps) = generate::calls(seed, count);
    let mut machine = Machine::open(sizes).unwrap();
    let call = |(at, step): (usize, &Step)| {
        let answer = machine.call(step);
        Record { place: at as u32 + 1, step: Some(*step), answer }
    };
    let records = steps.iter().enumerate().map(call).collect();
    (records, machine)
}

#[test]
fn demand_3_holds_and_the_tally_adds_up() {
    for seed in 1..400 {
        let (records, machine) = played(seed, 300);
        assert_eq!(order::check(&order::commits(&records), Ties::ByPlace), Ok(()), "seed {seed}");
        assert!(Tallied::of_run(&records, Some(&machine)).adds_up(), "seed {seed}");
    }
}

/// Lists without one of these would show little.
#[test]
fn the_lists_have_all_answers_of_the_three() {
    let mut met = [[0; 4]; 3];
    for record in (1..400).flat_map(|seed| played(seed, 300).0) {
        let kind = match record.step {
            Some(Step::Evict { .. }) => 0,
            Some(Step::Drop { .. }) => 1,
            Some(Step::Writeback { .. }) => 2,
            _ => continue,
        };
        let answer = match record.answer {
            Answer::Refused(26) => 0,
            Answer::Refused(30) => 1,
            Answer::Refused(number) => {
                assert!(number == 3 || number == 4, "{record:?}");
                2
            }
            done => {
                assert_eq!(done, [Answer::Evict, Answer::Drop, Answer::Writeback][kind]);
                3
            }
        };
        met[kind][answer] += 1;
    }
    let [evict, drop, writeback] = met;
    assert_eq!(evict[1], 0, "evict never gives 30");
    for count in [evict[0], evict[2], evict[3]].into_iter().chain(drop).chain(writeback) {
        assert!(count > 10, "{met:?}");
    }
}

#[test]
fn evict_is_drop_or_writeback() {
    for seed in 1..200 {
        let (sizes, steps) = generate::calls(seed, 300);
        let mut machine = Machine::open(sizes).unwrap();
        for step in &steps {
            if let Step::Evict { core, line } = *step {
                let mut evicted = machine.clone();
                let answer = evicted.call(step);
                let owned =
                    answer == Answer::Evict && matches!(machine.copy(core, line), PrivateCopy::Owned { .. });
                let (fitting, done) = match owned {
                    true => (Step::Writeback { core, line }, Answer::Writeback),
                    false => (Step::Drop { core, line }, Answer::Drop),
                };
                let mut other = machine.clone();
                let other_answer = other.call(&fitting);
                assert_eq!(evicted, other, "seed {seed}: {step:?}");
                assert_eq!(other_answer, if answer == Answer::Evict { done } else { answer });
            }
            machine.call(step);
        }
    }
}
