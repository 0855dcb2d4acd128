//! Writes what each fault changes in what is printed for the kept journals and the
//! kept conversions: the table of the conformance kit.
//!
//! Usage: fault-lines [--whole FILE] JOURNALS CONVERSIONS
//!
//! The table's first lines say how to read it. With `--whole` all that is printed
//! with a fault, wherever it differs, is written to a file too: a line `KIND FAULT
//! JOURNAL OUT ERROR`, then so many bytes of standard output and of standard error.

use std::io::Write;
use std::path::Path;
use std::process::ExitCode;

use reference::convert;
use reference::faults::Fault;
use reference::journal::Form;
use reference::kept;
use reference::listing::listing_with_fault;
use reference::program::Printed;
use reference::tally::tally_with_fault;

/// The head of the table: what its rows are.
const HEAD: &str = "\
# What the known faults change in what is printed for the kept journals. Made by
#     fault-lines tests/journals tests/conversions > conformance/faults.txt
# with the program fault-lines of tests/reference, and not by hand.
#
# KIND JOURNAL SUM         a kept journal, and the CRC-32 of the journal followed by what is printed for it
#
# then for each fault
#
# FAULT SENTENCE
#  KIND SUM                a kind of output that it changes, and the CRC-32 of all outputs that it changes, each after its
#                          journal's name
#   JOURNAL LINE TEXT      the first line that it changes there: its number, and what it is with the fault. After a `~`
#                          just the words that are other than in the right line; `(nothing)` where the output has ended;
#                          `(no newline)` before a last line that has none
";

/// What is printed for a journal with a fault.
type Print = fn(&[u8], Fault) -> Printed;

/// The kinds of output.
const KINDS: [(&str, Print); 4] = [
    ("listing", |journal, fault| Printed::out(listing_with_fault(journal, fault))),
    ("tally", |journal, fault| Printed::out(tally_with_fault(journal, fault))),
    ("to1", |journal, fault| convert::printed(Form::One, journal, fault)),
    ("to2", |journal, fault| convert::printed(Form::Two, journal, fault)),
];

/// A kept journal and what is to be printed for it.
struct Kept {
    name: String,
    journal: Vec<u8>,
    right: Printed,
}

/// The kept journals of each kind of output, sorted by name.
type AllKept = [Vec<Kept>; KINDS.len()];

/// A fault, and for each kind of output the journals for which it prints something
/// else, with what it prints.
struct Changes<'a> {
    fault: Fault,
    kinds: [Vec<(&'a Kept, Printed)>; KINDS.len()],
}

fn main() -> ExitCode {
    let arguments: Vec<String> = std::env::args().skip(1).collect();
    let arguments: Vec<&Path> = arguments.iter().map(Path::new).collect();
    let (whole, journals, conversions) = match arguments[..] {
        [journals, conversions] => (None, journals, conversions),
        [option, file, journals, conversions] if option == Path::new("--whole") => {
            (Some(file), journals, conversions)
        }
        _ => {
            eprintln!("usage: fault-lines [--whole FILE] JOURNALS CONVERSIONS");
            return ExitCode::from(2);
        }
    };
    match write(whole, journals, conversions) {
        Ok(()) => ExitCode::SUCCESS,
        Err(error) => {
            eprintln!("fault-lines: {error}");
            ExitCode::from(2)
        }
    }
}

/// Writes the table, and the whole outputs to a file, if one is given.
fn write(whole: Option<&Path>, journals: &Path, conversions: &Path) -> Result<(), String> {
    let all = read(journals, conversions)?;
    let changes = changes(&all);
    if let Some(file) = whole {
        std::fs::write(file, outputs(&changes)).map_err(|error| format!("{}: {error}", file.display()))?;
    }
    let table = table(&all, &changes)?;
    std::io::stdout().write_all(table.as_bytes()).map_err(|error| error.to_string())
}

/// Reads both folders.
fn read(journals: &Path, conversions: &Path) -> Result<AllKept, String> {
    let mut all = AllKept::default();
    for kept::Kept { name, journal, listing, tally } in kept::read(journals)? {
        all[0].push(Kept { name: name.clone(), journal: journal.clone(), right: Printed::out(listing) });
        all[1].push(Kept { name, journal, right: Printed::out(tally) });
    }
    for conversion in kept::read_conversions(conversions)? {
        let right = conversion.printed();
        let kind = if conversion.to == Form::One { 2 } else { 3 };
        all[kind].push(Kept { name: conversion.name, journal: conversion.journal, right });
    }
    Ok(all)
}

/// What each fault changes, worked out by as many threads as there are processors.
fn changes(all: &AllKept) -> Vec<Changes<'_>> {
    let threads = std::thread::available_parallelism().map_or(1, usize::from);
    let share = |first: usize| {
        let faults = Fault::ALL.iter().skip(first).step_by(threads);
        faults.map(|fault| changed(all, *fault)).collect::<Vec<_>>().into_iter()
    };
    std::thread::scope(|scope| {
        let started: Vec<_> = (0..threads).map(|first| scope.spawn(move || share(first))).collect();
        let mut shares: Vec<_> = started.into_iter().map(|thread| thread.join().expect("no panic")).collect();
        (0..Fault::ALL.len()).filter_map(|at| shares[at % threads].next()).collect()
    })
}

/// What a fault changes.
fn changed(all: &AllKept, fault: Fault) -> Changes<'_> {
    let mut changes = Changes { fault, kinds: Default::default() };
    for (((_, print), kept), changed) in KINDS.iter().zip(all).zip(&mut changes.kinds) {
        let printed = kept.iter().map(|kept| (kept, print(&kept.journal, fault)));
        changed.extend(printed.filter(|(kept, printed)| *printed != kept.right));
    }
    changes
}

/// All that is printed with each fault, wherever it differs.
fn outputs(all: &[Changes]) -> Vec<u8> {
    let mut out = Vec::new();
    for Changes { fault, kinds } in all {
        for ((kind, _), changed) in KINDS.iter().zip(kinds) {
            for (Kept { name, .. }, printed) in changed {
                let (length, errors) = (printed.out.len(), printed.error.len());
                out.extend(format!("{kind} {} {name} {length} {errors}\n", fault.name()).into_bytes());
                out.extend(&printed.out);
                out.extend(&printed.error);
            }
        }
    }
    out
}

/// The table.
fn table(all: &AllKept, changes: &[Changes]) -> Result<String, String> {
    let mut table = HEAD.to_string();
    for ((kind, _), kept) in KINDS.iter().zip(all) {
        for Kept { name, journal, right } in kept {
            table += &format!("{kind} {name} {:08x}\n", sum(&[journal, text(right)]));
        }
    }
    for Changes { fault, kinds } in changes {
        table += &format!("{} {}\n", fault.name(), fault.meaning());
        for ((kind, _), changed) in KINDS.iter().zip(kinds).filter(|(_, changed)| !changed.is_empty()) {
            let parts = changed.iter().flat_map(|(kept, printed)| [kept.name.as_bytes(), text(printed)]);
            table += &format!(" {kind} {:08x}\n", sum(&parts.collect::<Vec<_>>()));
            for (Kept { name, right, .. }, printed) in changed {
                let (number, line) = first_change(text(right), text(printed));
                if !line.bytes().all(|byte| (b' '..=b'~').contains(&byte)) {
                    return Err(format!("{}: {name}: no line for a table: {line:?}", fault.name()));
                }
                table += &format!("  {name} {number} {line}\n");
            }
        }
    }
    Ok(table)
}

/// What counts of what is printed: standard output, and where that is empty standard
/// error, which has a conversion's refusal.
fn text(printed: &Printed) -> &[u8] {
    if printed.out.is_empty() {
        &printed.error
    } else {
        &printed.out
    }
}

/// The number of the first line that is other than in the right text, and that line
/// in the table's form.
fn first_change(right: &[u8], text: &[u8]) -> (usize, String) {
    let lines = |text: &[u8]| -> Vec<String> {
        let lines = text.split_inclusive(|&byte| byte == b'\n');
        lines.map(|line| String::from_utf8_lossy(line).into_owned()).collect()
    };
    let (right, text) = (lines(right), lines(text));
    let same = text.iter().zip(&right).take_while(|(one, other)| one == other).count();
    let right = right.get(same).and_then(|line| line.strip_suffix('\n'));
    let line = match text.get(same).map(|line| (line, line.strip_suffix('\n'))) {
        None => "(nothing)".into(),
        Some((line, None)) => format!("(no newline){line}"),
        Some((_, Some(line))) => {
            right.and_then(|right| other_words(right, line)).unwrap_or_else(|| line.into())
        }
    };
    (same + 1, line)
}

/// The words of a line that are other than in the right one, after a `~`; none where
/// the two have not the same keys.
fn other_words(right: &str, line: &str) -> Option<String> {
    let (mut other, mut right) = (Vec::new(), right.split(' '));
    for word in line.split(' ') {
        let right = right.next()?;
        if word.split_once('=')?.0 != right.split_once('=')?.0 {
            return None;
        }
        if word != right {
            other.push(word);
        }
    }
    right.next().is_none().then(|| format!("~{}", other.join(" ")))
}

/// The CRC-32 of some bytes, one after another, as zlib has it.
fn sum(parts: &[&[u8]]) -> u32 {
    let bits = |rest: u32| (0..8).fold(rest, |rest, _| (rest >> 1) ^ (0xedb8_8320 * (rest & 1)));
    let bytes = parts.iter().flat_map(|part| part.iter());
    !bytes.fold(u32::MAX, |rest, byte| bits(rest ^ u32::from(*byte)))
}
