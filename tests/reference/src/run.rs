//! The driver: a journal in, one record for the opening and for each step line
//! out (01, "Journal and driver").

use std::borrow::Cow;

use crate::faults::{Fault, Faulty};
use crate::journal::{Form, Lines, MAX_JOURNAL};
use crate::machine::{Answer, Machine, Step};

/// What happened at one place of the list. The step is there if the line was
/// one of the grammar.
#[derive(Clone, Copy, PartialEq, Debug)]
pub struct Record {
    pub place: u32,
    pub step: Option<Step>,
    pub answer: Answer,
}

impl Record {
    /// Whether this is a line or an opening that ended its run.
    pub fn ends_run(&self) -> bool {
        self.step.is_none() && matches!(self.answer, Answer::Refused(_))
    }
}

/// The first place of a run with this fault after which a core holds more copies
/// than the capacity, and that core. 02, "Caches with a size": there is none.
pub fn overfull(journal: &[u8], fault: Fault) -> Option<(u32, u32)> {
    let mut run = Run::with_fault(journal, fault);
    while let Some(record) = run.next() {
        if let Some(core) = run.machine().and_then(Machine::overfull_core) {
            return Some((record.place, core));
        }
    }
    None
}

/// A run over a journal. It yields the records one by one.
pub struct Run<'a> {
    /// The journal as it is read, how many of its bytes have been read, and its length
    /// as it came.
    journal: Cow<'a, [u8]>,
    read: usize,
    length: usize,
    opened: Option<(Form, Faulty)>,
    place: u32,
    over: bool,
    fault: Fault,
}

impl<'a> Run<'a> {
    pub fn new(journal: &'a [u8]) -> Run<'a> {
        Run::with_fault(journal, Fault::None)
    }

    /// A run with a fault switched on.
    pub fn with_fault(journal: &'a [u8], fault: Fault) -> Run<'a> {
        let (length, journal) = (journal.len(), fault.forgiven(journal));
        Run { journal, read: 0, length, opened: None, place: 0, over: false, fault }
    }

    /// The machine as it stands now, if the opening was good.
    pub fn machine(&self) -> Option<&Machine> {
        self.opened.as_ref().map(|(_, faulty)| &faulty.machine)
    }

    /// The journal's form, if the opening was good.
    pub fn form(&self) -> Option<Form> {
        self.opened.as_ref().map(|(form, _)| *form)
    }

    /// The opening: 14, then 10 to 12 of the first line, then 7.
    fn open(&mut self) -> Result<(Form, Machine), u32> {
        if self.length > MAX_JOURNAL + self.fault.journal_excess() {
            return Err(14);
        }
        let line = next_line(&self.journal, &mut self.read).unwrap_or(Err(11))?;
        let (form, sizes) = self.fault.opening(line)?;
        if self.fault.takes_sizes(sizes) {
            return Ok((form, Machine::fresh(sizes)));
        }
        Ok((form, Machine::open(sizes)?))
    }

    /// The record of a bad line or opening, which ends the run.
    fn end_with(&mut self, number: u32) -> Record {
        self.over = !(self.fault == Fault::GoesOnAfter11 && number == 11 && self.place > 0);
        Record { place: self.place, step: None, answer: Answer::Refused(number) }
    }
}

/// The next line of a journal of which so many bytes have been read, or 10.
fn next_line<'a>(journal: &'a [u8], read: &mut usize) -> Option<Result<&'a [u8], u32>> {
    let mut lines = Lines::new(&journal[*read..]);
    let line = lines.next();
    *read = journal.len() - lines.left();
    line
}

impl Iterator for Run<'_> {
    type Item = Record;

    fn next(&mut self) -> Option<Record> {
        if self.over {
            return None;
        }
        let Some(form) = self.form() else {
            return Some(match self.open() {
                Err(number) => self.end_with(number),
                Ok((form, machine)) => {
                    self.opened = Some((form, Faulty::new(machine, self.fault)));
                    Record { place: 0, step: None, answer: Answer::Open }
                }
            });
        };
        loop {
            let line = next_line(&self.journal, &mut self.read)?;
            if line.is_ok_and(|line| self.fault.passes_over(form, line)) {
                continue;
            }
            self.place += 1;
            let step = match line.and_then(|line| self.fault.step(form, line)) {
                Err(number) => return Some(self.end_with(number)),
                Ok(step) => step,
            };
            // A step gives no answer only if a fault skips it.
            let (_, machine) = self.opened.as_mut()?;
            if let Some(answer) = machine.step(&step) {
                return Some(Record { place: self.place, step: Some(step), answer });
            }
        }
    }
}
