//! Reads a journal on standard input and writes its listing.
//!
//! Usage: reference [--fault NAME] [--order] [--sequential] [--tally | --to1 | --to2]
//!        reference --list-faults
//!
//! `--fault` switches a fault on. `--tally` writes the tally's line in the place
//! of the listing; `--to1` and `--to2` write the journal in the other form, or the
//! number of the refusal on standard error. `--order` also checks demand 3 on the run's commits, says the
//! result on standard error and fails if it does not hold. `--sequential` says there
//! whether they obey the hypothesis of 02's fences and whether they are sequentially
//! consistent, and fails if they obey it and are not.

use std::io::{Read, Write};
use std::process::ExitCode;

use reference::convert;
use reference::faults::Fault;
use reference::journal::{Form, MAX_JOURNAL};
use reference::listing::listing_with_fault;
use reference::order::{self, Made, Ties};
use reference::program::Printed;
use reference::run::Run;
use reference::sequential;
use reference::tally::tally_with_fault;

fn main() -> ExitCode {
    let mut fault = Fault::None;
    let (mut order, mut fences) = (false, false);
    let mut print: fn(&[u8], Fault) -> Printed =
        |journal, fault| Printed::out(listing_with_fault(journal, fault));
    let mut arguments = std::env::args().skip(1);
    while let Some(argument) = arguments.next() {
        match argument.as_str() {
            "--order" => order = true,
            "--sequential" => fences = true,
            "--tally" => print = |journal, fault| Printed::out(tally_with_fault(journal, fault)),
            "--to1" => print = |journal, fault| convert::printed(Form::One, journal, fault),
            "--to2" => print = |journal, fault| convert::printed(Form::Two, journal, fault),
            "--list-faults" => return list_faults(),
            "--fault" => match arguments.next().as_deref().and_then(Fault::named) {
                Some(named) => fault = named,
                None => return usage("--fault needs a name of --list-faults"),
            },
            _ => {
                return usage(
                    "usage: reference [--fault NAME] [--order] [--sequential] [--tally | --to1 | --to2] | --list-faults",
                )
            }
        }
    }
    let journal = match read_journal() {
        Ok(journal) => journal,
        Err(error) => return usage(&format!("standard input: {error}")),
    };
    let Printed { out, error } = print(&journal, fault);
    if std::io::stdout().write_all(&out).and(std::io::stderr().write_all(&error)).is_err() {
        return ExitCode::FAILURE;
    }
    if !order && !fences {
        return ExitCode::SUCCESS;
    }
    let made = order::commits(&Run::with_fault(&journal, fault).collect::<Vec<_>>());
    let in_order = !order || check_order(&made, fault);
    let as_claimed = !fences || check_fences(&made);
    if in_order && as_claimed {
        ExitCode::SUCCESS
    } else {
        ExitCode::FAILURE
    }
}

/// Reads standard input; two bytes above the limit are enough to tell 14.
fn read_journal() -> std::io::Result<Vec<u8>> {
    let mut journal = Vec::with_capacity(MAX_JOURNAL + 2);
    std::io::stdin().lock().take(MAX_JOURNAL as u64 + 2).read_to_end(&mut journal)?;
    Ok(journal)
}

/// Says whether demand 3 holds on the commits of a run.
fn check_order(made: &[Made], fault: Fault) -> bool {
    let ties = if fault == Fault::TiesByCore { Ties::ByCore } else { Ties::ByPlace };
    let checked = order::check(made, ties);
    match checked {
        Ok(()) => eprintln!("demand 3 holds"),
        Err(trouble) => eprintln!("demand 3 fails: {trouble:?}"),
    }
    checked.is_ok()
}

/// Says whether the commits of a run obey the hypothesis of 02's fences, and whether
/// they are sequentially consistent; whether they are as 02 claims.
fn check_fences(made: &[Made]) -> bool {
    let (unfenced, checked) = (sequential::unfenced(made), sequential::check(made));
    match unfenced {
        None => eprintln!("fenced"),
        Some((store, load)) => {
            eprintln!("not fenced: no fence between the store at {store} and the load at {load}")
        }
    }
    match checked {
        Ok(()) => eprintln!("sequential"),
        Err(trouble) => eprintln!("not sequential: {trouble:?}"),
    }
    unfenced.is_some() || checked.is_ok()
}

fn list_faults() -> ExitCode {
    for fault in Fault::ALL {
        println!("{:29} {}", fault.name(), fault.meaning());
    }
    ExitCode::SUCCESS
}

fn usage(text: &str) -> ExitCode {
    eprintln!("{text}");
    ExitCode::from(2)
}
