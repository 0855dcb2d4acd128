//! Checks the kept journals.
//!
//! Usage: kept [--limit SECONDS] FOLDER [STEPS [TALLY]]
//!
//! Each kept journal must give its kept listing and its kept tally, in the
//! reference and, if they are given, in the programs, which have to end in time
//! and with exit status 0; demand 3 must hold on the reference's commits, and
//! sequential consistency where they obey the hypothesis of 02's fences; its tally
//! must add up, and no core of it may hold more copies than the capacity.

use std::path::Path;
use std::process::ExitCode;

use reference::faults::Fault;
use reference::kept::{self, Kept};
use reference::listing::listing;
use reference::order::{self, Made, Ties};
use reference::program::{self, Printed};
use reference::run::{overfull, Run};
use reference::sequential;
use reference::tally::Tallied;
use reference::text::first_difference;

/// What each program has to print for a kept journal: steps, then tally.
const PRINTED: [fn(&Kept) -> &[u8]; 2] = [|kept| &kept.listing, |kept| &kept.tally];

fn main() -> ExitCode {
    let mut arguments: Vec<String> = std::env::args().skip(1).collect();
    let patience = program::patience_of(&mut arguments);
    let (Some(patience), Some(folder), true) = (patience, arguments.first(), arguments.len() <= 3) else {
        eprintln!("usage: kept [--limit SECONDS] FOLDER [STEPS [TALLY]]");
        return ExitCode::from(2);
    };
    let folder = Path::new(folder);
    let all = match kept::read(folder) {
        Ok(all) => all,
        Err(error) => {
            eprintln!("{error}");
            return ExitCode::from(2);
        }
    };
    let mut failed = 0;
    for kept in &all {
        for trouble in troubles(kept) {
            println!("{}: {trouble}", kept.name);
            failed += 1;
        }
    }
    for (program, printed) in arguments[1..].iter().zip(PRINTED) {
        let kept = all.iter().map(|kept| (kept.name.clone(), Printed::out(printed(kept).to_vec())));
        failed += program::failures(program, folder, kept, patience);
    }
    let commits: Vec<_> = all.iter().map(commits).collect();
    let fenced: Vec<_> = commits.iter().filter(|made| sequential::fenced(made)).collect();
    println!(
        "kept: {} journals, {failed} failures; {} obey the hypothesis of sequential consistency ({} need a fence)",
        all.len(),
        fenced.len(),
        fenced.iter().filter(|made| sequential::asks_for_fences(made)).count()
    );
    if failed == 0 && !all.is_empty() {
        ExitCode::SUCCESS
    } else {
        ExitCode::FAILURE
    }
}

/// What is wrong with one kept journal in the reference.
fn troubles(kept: &Kept) -> Vec<String> {
    let mut troubles = Vec::new();
    let reference = listing(&kept.journal);
    if reference != kept.listing {
        troubles.push(first_difference("the reference", &reference, &kept.listing));
    }
    let tallied = Tallied::of(&kept.journal, Fault::None);
    let line = tallied.tally.line();
    if line != kept.tally {
        troubles.push(format!("tally: {}", first_difference("the reference", &line, &kept.tally)));
    }
    if !tallied.adds_up() {
        troubles.push(format!("the tally does not add up: {tallied:?}"));
    }
    if let Some((place, core)) = overfull(&kept.journal, Fault::None) {
        troubles.push(format!("core {core} holds more copies than cap after place {place}"));
    }
    let made = commits(kept);
    if let Err(trouble) = order::check(&made, Ties::ByPlace) {
        troubles.push(format!("demand 3 fails: {trouble:?}"));
    }
    if let (true, Err(trouble)) = (sequential::fenced(&made), sequential::check(&made)) {
        troubles.push(format!("its fences do not give sequential consistency: {trouble:?}"));
    }
    troubles
}

/// The commits of a kept journal in the reference.
fn commits(kept: &Kept) -> Vec<Made> {
    order::commits(&Run::new(&kept.journal).collect::<Vec<_>>())
}
