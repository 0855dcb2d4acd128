//! The tally of a run: its commits by kind, its requests, and what the manager
//! answered to them (02, "A tally of the traffic").

use crate::faults::Fault;
use crate::journal::write_field;
use crate::machine::{Answer, Commit, Machine, Slot, Step};
use crate::run::{Record, Run};

/// The line that `tally` prints for a journal.
pub fn tally(journal: &[u8]) -> Vec<u8> {
    tally_with_fault(journal, Fault::None)
}

/// The line that an implementation with this fault would print.
pub fn tally_with_fault(journal: &[u8], fault: Fault) -> Vec<u8> {
    Tallied::of(journal, fault).tally.line()
}

/// What the line counts, in its order.
#[derive(Clone, Copy, Default, PartialEq, Eq, Debug)]
pub struct Tally {
    pub loads: u32,
    pub stores: u32,
    pub fences: u32,
    pub asks: u32,
    pub shares: u32,
    pub renews: u32,
    pub owns: u32,
}

impl Tally {
    /// The tally of a run's records.
    pub fn of(records: &[Record]) -> Tally {
        let mut tally = Tally::default();
        for record in records {
            tally.count(record);
        }
        tally
    }

    /// The counts with their names, in the order of the line.
    pub fn counts(&self) -> [(&'static str, u32); 7] {
        [
            ("loads", self.loads),
            ("stores", self.stores),
            ("fences", self.fences),
            ("asks", self.asks),
            ("shares", self.shares),
            ("renews", self.renews),
            ("owns", self.owns),
        ]
    }

    /// Counts a record. Share, renew and own count where a serve answers them,
    /// not where they are received; an opening or a line that ends the run, which
    /// has no step, counts nowhere.
    pub fn count(&mut self, record: &Record) {
        let Some(step) = &record.step else {
            return;
        };
        match (step, &record.answer) {
            (_, Answer::Commit(Commit::Load { .. })) => self.loads += 1,
            (_, Answer::Commit(Commit::Store { .. })) => self.stores += 1,
            (_, Answer::Commit(Commit::Fence { .. })) => self.fences += 1,
            (_, Answer::Ask) => self.asks += 1,
            (Step::Serve { .. }, Answer::Share) => self.shares += 1,
            (Step::Serve { .. }, Answer::Renew) => self.renews += 1,
            (Step::Serve { .. }, Answer::Own) => self.owns += 1,
            _ => {}
        }
    }

    /// The printed line.
    pub fn line(&self) -> Vec<u8> {
        let mut out = Vec::new();
        for (at, (name, count)) in self.counts().into_iter().enumerate() {
            let blank = if at == 0 { "" } else { " " };
            write_field(&mut out, &format!("{blank}{name}="), count);
        }
        out.push(b'\n');
        out
    }
}

/// A run's tally, and how many cores still ask at its end.
#[derive(Clone, Copy, PartialEq, Eq, Debug)]
pub struct Tallied {
    pub tally: Tally,
    pub still_asked: u32,
}

impl Tallied {
    /// Plays a journal on a machine with a fault, or with none, and counts.
    pub fn of(journal: &[u8], fault: Fault) -> Tallied {
        let mut run = Run::with_fault(journal, fault);
        let records = run.by_ref().collect();
        Tallied::of_run(&fault.tallied(records), run.machine())
    }

    /// The tally of a run with these records, which left this machine, or none.
    pub fn of_run(records: &[Record], machine: Option<&Machine>) -> Tallied {
        Tallied { tally: Tally::of(records), still_asked: machine.map_or(0, still_asked) }
    }

    /// Whether every request was answered by the manager or is still asked: asks =
    /// shares + renews + owns + cores whose slot is still asked.
    pub fn adds_up(&self) -> bool {
        let Tally { asks, shares, renews, owns, .. } = self.tally;
        asks == shares + renews + owns + self.still_asked
    }
}

/// How many cores of a machine have a slot that asks.
fn still_asked(machine: &Machine) -> u32 {
    let cores = &machine.state.cores[..machine.state.sizes.cores as usize];
    cores.iter().filter(|core| matches!(core.slot, Slot::Asked { .. })).count() as u32
}
