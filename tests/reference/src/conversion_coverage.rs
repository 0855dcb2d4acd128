//! What conversions of generated journals have to meet (02, "Journals between the
//! two forms"): each way results and every number, with its reasons and with what a
//! later check would have given, and what becomes of each kind of eviction.

use crate::convert::Draft;
use crate::faults::Fault;
use crate::journal::{self, unknown_kind, Form, Lines, MAX_JOURNAL, MAX_LINE};
use crate::machine::*;
use crate::rows::Rows;
use crate::run::Run;

/// Rows of both ways, each of which is there for `to1` and for `to2`.
const BOTH: &[&str] = &[
    "converted",
    "converted, no steps",
    "converted to 65,536 bytes",
    "14, input",
    "14, input, else it would be converted",
    "14, input, and a malformed line",
    "14, input, and sizes outside",
    "10, a line over 200 bytes",
    "10, no last newline",
    "11, empty",
    "11, a first line of the other form",
    "11, another first line",
    "11, a step of the other form",
    "11, another step line",
    "12, first line",
    "12, step line",
    "13",
    "malformed, the last line",
    "malformed, and a further line of another number",
    "malformed, and sizes outside",
    "malformed, and a result too long",
    "7",
    "7, and a result too long",
    "14, result",
    "14, result of 65,537 bytes",
];

/// Rows of the way to the first form.
const TO_1: &[&str] = &[
    "to1: 32, cap alone",
    "to1: 32, victim alone",
    "to1: 32, 30 alone",
    "to1: 32, several",
    "to1: 32, and a result too long",
    "to1: 14, input, and 32",
    "to1: malformed, and 32",
    "to1: 7, and 32",
    "to1: drop, shared",
    "to1: drop, refused 26",
    "to1: drop, refused 3",
    "to1: drop, refused 4",
    "to1: writeback, owned",
    "to1: writeback, refused 26",
    "to1: writeback, refused 3",
    "to1: writeback, refused 4",
];

/// Rows of the way to the second form.
const TO_2: &[&str] = &[
    "to2: 14, result, only by its writebacks",
    "to2: drop, shared",
    "to2: drop, shared, the line's owner",
    "to2: drop, shared, another core's copy is owned",
    "to2: drop, no copy",
    "to2: drop, no copy, the line's owner",
    "to2: drop, no such core",
    "to2: drop, no such line",
    "to2: writeback, clean",
    "to2: writeback, dirty",
];

/// All rows.
pub fn rows() -> Vec<String> {
    let both = ["to1", "to2"].into_iter().flat_map(|way| BOTH.iter().map(move |row| format!("{way}: {row}")));
    both.chain([TO_1, TO_2].concat().into_iter().map(String::from)).collect()
}

/// The name of the way to a form.
pub fn way(to: Form) -> &'static str {
    match to {
        Form::One => "to1",
        Form::Two => "to2",
    }
}

/// Counts what the conversion of a journal meets, which had this outcome.
pub fn count(met: &mut Rows, to: Form, journal: &[u8], outcome: &Result<Vec<u8>, u32>) {
    let draft = Draft::of(to, journal, Fault::None);
    let mut row = |row: &str| met.count(format!("{}: {row}", way(to)));
    let long_input = journal.len() > MAX_JOURNAL;
    let long_result = draft.text.len() > MAX_JOURNAL;
    match outcome {
        Ok(text) => {
            row("converted");
            if text.iter().filter(|byte| **byte == b'\n').count() == 1 {
                row("converted, no steps");
            }
            if text.len() == MAX_JOURNAL {
                row("converted to 65,536 bytes");
            }
            count_evictions(met, to, journal);
        }
        Err(14) if long_input => {
            row("14, input");
            match (draft.malformed, draft.outside, draft.unfit.any()) {
                (None, false, false) if !long_result => row("14, input, else it would be converted"),
                (None, false, true) => row("14, input, and 32"),
                (None, true, _) => row("14, input, and sizes outside"),
                (Some(_), _, _) => row("14, input, and a malformed line"),
                _ => {}
            }
        }
        Err(14) => {
            row("14, result");
            if draft.text.len() == MAX_JOURNAL + 1 {
                row("14, result of 65,537 bytes");
            }
            let longer = "writeback".len() - "drop".len();
            let writebacks =
                draft.text.split(|byte| *byte == b'\n').filter(|line| line.starts_with(b"op=writeback"));
            if to == Form::Two && draft.text.len() - longer * writebacks.count() <= MAX_JOURNAL {
                row("14, result, only by its writebacks");
            }
        }
        Err(7) => {
            row("7");
            if long_result {
                row("7, and a result too long");
            }
            if draft.unfit.victim {
                row("7, and 32");
            }
        }
        Err(32) => {
            let unfit = draft.unfit;
            match (unfit.cap, unfit.victim, unfit.other_state) {
                (true, false, false) => row("32, cap alone"),
                (false, true, false) => row("32, victim alone"),
                (false, false, true) => row("32, 30 alone"),
                _ => row("32, several"),
            }
            if long_result {
                row("32, and a result too long");
            }
        }
        Err(number) => {
            count_malformed(met, to, journal, *number);
            let mut row = |row: &str| met.count(format!("{}: {row}", way(to)));
            if draft.outside {
                row("malformed, and sizes outside");
            } else if draft.unfit.any() {
                row("malformed, and 32");
            }
            if long_result {
                row("malformed, and a result too long");
            }
        }
    }
}

/// Why the first malformed line has its number.
fn count_malformed(met: &mut Rows, to: Form, journal: &[u8], number: u32) {
    let form = to.other();
    let mut row = |row: &str| met.count(format!("{}: {row}", way(to)));
    let lines: Vec<_> = Lines::new(journal).collect();
    let number_of = |(at, line): (usize, &Result<&[u8], u32>)| match *line {
        Err(number) => Some(number),
        Ok(line) if at > 0 => journal::step(form, line).err(),
        Ok(line) if !line.starts_with(form.start().as_bytes()) => Some(11),
        Ok(line) => journal::opening(line).err(),
    };
    let numbers: Vec<_> = lines.iter().enumerate().map(number_of).collect();
    let Some(at) = numbers.iter().position(Option::is_some) else {
        row("11, empty");
        return;
    };
    let bytes: Vec<&[u8]> = journal.split_inclusive(|byte| *byte == b'\n').collect();
    let line = bytes[at].strip_suffix(b"\n").unwrap_or(bytes[at]);
    row(match number {
        10 if line.len() > MAX_LINE => "10, a line over 200 bytes",
        10 => "10, no last newline",
        11 if at == 0 && line.starts_with(to.start().as_bytes()) => "11, a first line of the other form",
        11 if at == 0 => "11, another first line",
        11 if unknown_kind(form, line).is_some_and(|kind| to.has_kind(kind)) => {
            "11, a step of the other form"
        }
        11 => "11, another step line",
        12 if at == 0 => "12, first line",
        12 => "12, step line",
        _ => "13",
    });
    if at + 1 == numbers.len() {
        row("malformed, the last line");
    }
    if numbers[at + 1..].iter().any(|later| later.is_some_and(|later| later != number)) {
        row("malformed, and a further line of another number");
    }
}

/// What the evictions of a journal that is converted find. A second machine follows
/// one step behind.
fn count_evictions(met: &mut Rows, to: Form, journal: &[u8]) {
    let mut behind: Option<Machine> = None;
    let mut run = Run::new(journal);
    while let Some(record) = run.next() {
        let Some(machine) = &mut behind else {
            behind = run.machine().cloned();
            continue;
        };
        let Some(step) = record.step else {
            continue;
        };
        match (step, record.answer) {
            (Step::Evict { core, line }, _) => met.count(format!("to2: {}", becomes(machine, core, line))),
            (Step::Drop { .. } | Step::Writeback { .. }, answer) => {
                let found = match answer {
                    Answer::Refused(number) => format!("refused {number}"),
                    Answer::Drop => "shared".to_string(),
                    _ => "owned".to_string(),
                };
                met.count(format!("{}: {}, {found}", way(to), journal::kind_name(&step)));
            }
            _ => {}
        }
        machine.step(&step);
    }
}

/// What an evict becomes, and why.
fn becomes(machine: &Machine, core: u32, line: u32) -> &'static str {
    let Sizes { cores, lines, .. } = machine.state.sizes;
    if core >= cores {
        return "drop, no such core";
    }
    if line >= lines {
        return "drop, no such line";
    }
    let owner = machine.state.lines[line as usize].holder == Holder::Owned { core };
    let owned = |core| matches!(machine.copy(core, line), PrivateCopy::Owned { .. });
    match machine.copy(core, line) {
        PrivateCopy::Owned { dirty: true, .. } => "writeback, dirty",
        PrivateCopy::Owned { .. } => "writeback, clean",
        PrivateCopy::Shared { .. } if owner => "drop, shared, the line's owner",
        PrivateCopy::Shared { .. } if (0..cores).any(owned) => "drop, shared, another core's copy is owned",
        PrivateCopy::Shared { .. } => "drop, shared",
        PrivateCopy::None if owner => "drop, no copy, the line's owner",
        PrivateCopy::None => "drop, no copy",
    }
}
