//! Whether two journals, whatever their forms, mean the same (02, "Journals between the
//! two forms"): the same commits, timestamps and refusals at each place. Where one
//! has an evict, the other has a drop or a writeback; every other step and every
//! other answer is equal, and so is the machine that is left.

use crate::machine::{Answer, Step};
use crate::run::{Record, Run};

/// How two journals differ in what they mean, if they do.
pub fn difference(one: &[u8], other: &[u8]) -> Option<String> {
    let (mut first, mut second) = (Run::new(one), Run::new(other));
    loop {
        match (first.next(), second.next()) {
            (None, None) => break,
            (Some(one), Some(other)) if same_record(&one, &other) => {}
            (one, other) => return Some(format!("one has {one:?}, the other {other:?}")),
        }
    }
    (first.machine() != second.machine()).then(|| "the machines left differ".to_string())
}

/// Whether two records are of one place and say the same, and none of them ends its
/// run.
fn same_record(one: &Record, other: &Record) -> bool {
    let steps = match (one.step, other.step) {
        (Some(one), Some(other)) => same_step(one, other),
        (None, None) => true,
        _ => false,
    };
    one.place == other.place && steps && same_answer(one.answer, other.answer) && !one.ends_run()
}

/// Whether two steps are the same but for the name of an eviction. A writeback that
/// is refused comes back as a drop.
fn same_step(one: Step, other: Step) -> bool {
    let as_evict = |step| match step {
        Step::Drop { core, line } | Step::Writeback { core, line } => Step::Evict { core, line },
        _ => step,
    };
    as_evict(one) == as_evict(other)
}

/// Whether two answers are the same but for the name of an eviction.
fn same_answer(one: Answer, other: Answer) -> bool {
    let by_state = [Answer::Drop, Answer::Writeback];
    one == other
        || one == Answer::Evict && by_state.contains(&other)
        || other == Answer::Evict && by_state.contains(&one)
}

/// How the listings of two journals differ in what they mean, if they do: a line
/// that is not the same must be one of an eviction in both.
pub fn listing_difference(one: &[u8], other: &[u8]) -> Option<String> {
    let lines = |text: &[u8]| -> Vec<String> {
        let lines = text.split_inclusive(|&byte| byte == b'\n');
        lines.map(|line| line.escape_ascii().to_string()).collect()
    };
    let evicts = |evict: &str, other: &str| {
        evict.contains(" done=evict\\n")
            && ["drop", "writeback"].iter().any(|name| evict.replace("evict", name) == *other)
    };
    let (one, other) = (lines(one), lines(other));
    if one.len() != other.len() {
        return Some(format!("one listing has {} lines, the other {}", one.len(), other.len()));
    }
    let differs =
        |(one, other): &(&String, &String)| one != other && !evicts(one, other) && !evicts(other, one);
    let (one, other) = one.iter().zip(&other).find(differs)?;
    Some(format!("one listing has {one}, the other {other}"))
}
