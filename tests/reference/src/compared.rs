//! A program beside the reference: what both print for a journal, and the smallest
//! journal on which they differ.

use std::time::{Duration, Instant};

use crate::faults::Fault;
use crate::program::{self, Failure, Printed};
use crate::shrink::shrink;
use crate::text::print_text;

/// How many journals the search for a small one may try, unless said otherwise, and
/// for how long.
pub const TRIES: u32 = 4000;
const TIME_TO_SHRINK: Duration = Duration::from_secs(60);

/// A program that is compared, and what it has to print by a reference with a fault.
pub struct Compared<'a> {
    pub program: &'a str,
    pub what: &'static str,
    pub printed: fn(&[u8], Fault) -> Printed,
    pub fault: Fault,
    pub patience: Duration,
    pub tries: u32,
}

impl Compared<'_> {
    /// What the program prints for a journal.
    fn run(&self, journal: &[u8]) -> Result<Printed, Failure> {
        program::on_bytes(self.program, journal, self.patience)
    }

    /// What the reference prints for it.
    fn expected(&self, journal: &[u8]) -> Printed {
        (self.printed)(journal, self.fault)
    }

    /// Whether the program prints for a journal what the reference does.
    pub fn agrees(&self, journal: &[u8]) -> bool {
        self.run(journal).is_ok_and(|printed| printed == self.expected(journal))
    }

    /// Shrinks a journal and prints it with what both print for it.
    pub fn show_difference(&self, name: &str, journal: Vec<u8>) {
        let start = Instant::now();
        let differs = |candidate: &[u8]| start.elapsed() < TIME_TO_SHRINK && !self.agrees(candidate);
        let small = match self.run(&journal) {
            Err(Failure::Hangs) => journal,
            _ => shrink(&journal, self.tries, differs),
        };
        let what = self.what;
        println!("{name}: the {what} differ. The smallest journal found ({} bytes):", small.len());
        print_text(&small);
        println!("the reference prints:");
        show(&self.expected(&small));
        println!("{} prints:", self.program);
        match self.run(&small) {
            Ok(printed) => show(&printed),
            Err(failure) => println!("    ({failure})"),
        }
    }
}

fn show(printed: &Printed) {
    print_text(&printed.out);
    if !printed.error.is_empty() {
        println!("and on standard error:");
        print_text(&printed.error);
    }
}
