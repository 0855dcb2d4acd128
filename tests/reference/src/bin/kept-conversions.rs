//! Checks the kept conversions.
//!
//! Usage: kept-conversions [--limit SECONDS] FOLDER [TO1 TO2]
//!
//! Each kept journal must become its kept result, or be refused with its kept
//! number, in the reference and, if they are given, in the programs, which have to
//! end in time and with exit status 0. A result must mean what its journal means,
//! and so must what it becomes when it is converted back.

use std::path::Path;
use std::process::ExitCode;

use reference::convert::{self, convert};
use reference::faults::Fault;
use reference::journal::{Form, MAX_JOURNAL};
use reference::kept::{self, Conversion};
use reference::meaning;
use reference::program;

fn main() -> ExitCode {
    let mut arguments: Vec<String> = std::env::args().skip(1).collect();
    let patience = program::patience_of(&mut arguments);
    let (Some(patience), Some(folder), 1 | 3) = (patience, arguments.first(), arguments.len()) else {
        eprintln!("usage: kept-conversions [--limit SECONDS] FOLDER [TO1 TO2]");
        return ExitCode::from(2);
    };
    let folder = Path::new(folder);
    let all = match kept::read_conversions(folder) {
        Ok(all) => all,
        Err(error) => {
            eprintln!("{error}");
            return ExitCode::from(2);
        }
    };
    let mut failed = 0;
    for kept in &all {
        for trouble in troubles(kept) {
            println!("{}: {trouble}", kept.name);
            failed += 1;
        }
    }
    for (program, to) in arguments[1..].iter().zip(Form::ALL) {
        let kept = all.iter().filter(|kept| kept.to == to).map(|kept| (kept.name.clone(), kept.printed()));
        failed += program::failures(program, folder, kept, patience);
    }
    println!("kept-conversions: {} journals, {failed} failures", all.len());
    if failed == 0 && !all.is_empty() {
        ExitCode::SUCCESS
    } else {
        ExitCode::FAILURE
    }
}

/// What is wrong with one kept conversion in the reference.
fn troubles(kept: &Conversion) -> Vec<String> {
    let mut troubles = Vec::new();
    let printed = convert::printed(kept.to, &kept.journal, Fault::None);
    troubles.extend(printed.difference("the reference", &kept.printed()));
    if kept.printed().error.is_empty() {
        let mut means = |what: &str, text: &[u8]| {
            if let Some(trouble) = meaning::difference(&kept.journal, text) {
                troubles.push(format!("{what} has another meaning: {trouble}"));
            }
        };
        means("the kept result", &kept.result);
        match convert(kept.to.other(), &kept.result, MAX_JOURNAL) {
            Ok(back) => means("the kept result, converted back,", &back),
            Err(number) => {
                troubles.push(format!("the kept result, converted back, is refused with {number}"))
            }
        }
    }
    troubles
}
