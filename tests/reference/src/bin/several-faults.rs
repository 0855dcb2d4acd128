//! Reads a journal on standard input and writes the listing of an implementation
//! with several faults at once.
//!
//! Usage: several-faults FAULT ..
//!
//! Each step is made on one machine: by the first of the faults that bends it, as
//! that fault makes it, and rightly where none does. Faults of the reader, of the end
//! line and of other outputs change nothing here.

use std::io::{Read, Write};
use std::process::ExitCode;

use reference::faults::{Fault, Faulty};
use reference::journal::{write_field, write_number};
use reference::listing::write_record;
use reference::machine::{Answer, Machine, Step};
use reference::run::{Record, Run};

fn main() -> ExitCode {
    let named: Option<Vec<Fault>> = std::env::args().skip(1).map(|name| Fault::named(&name)).collect();
    let Some(faults) = named else {
        eprintln!("usage: several-faults FAULT ..");
        return ExitCode::from(2);
    };
    let mut journal = Vec::new();
    let read = std::io::stdin().read_to_end(&mut journal);
    match read.and_then(|_| std::io::stdout().write_all(&listing(&journal, &faults))) {
        Ok(()) => ExitCode::SUCCESS,
        Err(_) => ExitCode::FAILURE,
    }
}

/// The listing of a journal with these faults.
fn listing(journal: &[u8], faults: &[Fault]) -> Vec<u8> {
    let mut out = Vec::new();
    let (mut end, mut commits, mut refused) = (0, 0, 0);
    let mut run = Run::new(journal);
    let mut together = None;
    while let Some(record) = run.next() {
        let answer = match (&record.step, &mut together) {
            (Some(step), Some(together)) => Together::step(together, step),
            _ => {
                together = run.machine().map(|machine| Together::new(machine, faults));
                Some(record.answer)
            }
        };
        let Some(answer) = answer else {
            continue;
        };
        end = record.place;
        commits += u32::from(matches!(answer, Answer::Commit(_)));
        refused += u32::from(matches!(answer, Answer::Refused(_)));
        write_record(&mut out, &Record { answer, ..record });
    }
    out.extend_from_slice(b"end=");
    write_number(&mut out, end);
    write_field(&mut out, " commits=", commits);
    write_field(&mut out, " refused=", refused);
    out.push(b'\n');
    out
}

/// A machine with several faults.
struct Together {
    machine: Machine,
    faulty: Vec<Faulty>,
}

impl Together {
    fn new(machine: &Machine, faults: &[Fault]) -> Together {
        let faulty = faults.iter().map(|fault| Faulty::new(machine.clone(), *fault)).collect();
        Together { machine: machine.clone(), faulty }
    }

    /// One step. Nothing comes back if a fault skips it.
    fn step(&mut self, step: &Step) -> Option<Answer> {
        let mut right = self.machine.clone();
        let right_answer = Some(right.step(step));
        let mut bent = None;
        for faulty in &mut self.faulty {
            faulty.machine = self.machine.clone();
            let answer = faulty.step(step);
            if (&answer, &faulty.machine) != (&right_answer, &right) {
                bent = bent.or(Some((faulty.machine.clone(), answer)));
            }
        }
        let (machine, answer) = bent.unwrap_or((right, right_answer));
        self.machine = machine;
        answer
    }
}
