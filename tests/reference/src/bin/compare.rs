//! Runs generated journals through programs and through the reference and
//! compares what they print byte for byte: whole listings, and tallies.
//!
//! Usage: compare [--count N] [--first SEED] [--fault NAME] [--limit SECONDS] STEPS [TALLY]
//!        compare [--count N] [--first SEED] [--fault NAME]
//!        compare --print SEED | --print-fenced SEED
//!
//! To N journals of `generate::journal` come a fifth as many of
//! `generate::fenced_journal`.
//!
//! Without a program it checks the reference itself: demand 3 on the commits of
//! every journal, and sequential consistency on those with its fences, which must
//! fail where they are left out. It then also says how many journals show each fault
//! by a listing, by demand 3 or by a tally. `--fault` switches a fault on in the
//! reference.
//!
//! Either way it fails where a tally of the reference does not add up, where a core
//! of it holds more copies than the capacity, and where the journals never meet a
//! row of `coverage::rows`: few journals prove little.

use std::fmt::{self, Debug, Display, Formatter};
use std::io::Write;
use std::ops::Range;
use std::process::ExitCode;
use std::sync::atomic::{AtomicU64, Ordering};
use std::sync::Mutex;
use std::time::{Duration, Instant};

use reference::compared::{Compared, TRIES};
use reference::coverage::Coverage;
use reference::faults::Fault;
use reference::findings::Findings;
use reference::generate;
use reference::listing::{listing, listing_with_fault};
use reference::order::{self, Ties};
use reference::program::{self, Printed};
use reference::run::{overfull, Run};
use reference::seeds::for_each_seed;
use reference::tally::{tally_with_fault, Tallied, Tally};

/// What a program has to print for a journal, by a reference with a fault.
type Expected = fn(&[u8], Fault) -> Printed;

/// What the programs have to print, in the order in which they are given.
const PRINTED: [(&str, Expected); 2] = [
    ("listings", |journal, fault| Printed::out(listing_with_fault(journal, fault))),
    ("tallies", |journal, fault| Printed::out(tally_with_fault(journal, fault))),
];

/// What is wrong where asks is not what a run's answers and slots come to.
const NOT_THE_SUM: &str = "the tally does not add up";

/// What is wrong where a core holds more copies than the capacity: after which
/// place, and which core.
const OVERFULL: &str = "more copies than cap (place, core)";

struct Options {
    count: u64,
    first: u64,
    patience: Duration,
    fault: Fault,
    programs: Vec<String>,
}

impl Options {
    /// How many journals are made with fences.
    fn fenced(&self) -> u64 {
        self.count.div_ceil(5)
    }

    /// The numbers of all journals.
    fn numbers(&self) -> Range<u64> {
        0..self.count + self.fenced()
    }

    /// The journal of a number: those with fences come last.
    fn generated(&self, number: u64) -> Generated {
        let fenced = number >= self.count;
        let seed = self.first + if fenced { number - self.count } else { number };
        Generated { seed, fenced }
    }
}

/// A generated journal: its seed, and whether it is made with fences.
#[derive(Clone, Copy)]
struct Generated {
    seed: u64,
    fenced: bool,
}

impl Generated {
    fn journal(self) -> Vec<u8> {
        if self.fenced {
            generate::fenced_journal(self.seed)
        } else {
            generate::journal(self.seed)
        }
    }
}

impl Display for Generated {
    fn fmt(&self, f: &mut Formatter<'_>) -> fmt::Result {
        write!(f, "seed {}{}", self.seed, if self.fenced { " with fences" } else { "" })
    }
}

fn main() -> ExitCode {
    let mut options = Options {
        count: 5000,
        first: 1,
        patience: program::PATIENCE,
        fault: Fault::None,
        programs: Vec::new(),
    };
    let mut arguments = std::env::args().skip(1);
    while let Some(argument) = arguments.next() {
        if argument == "--fault" {
            match arguments.next().as_deref().and_then(Fault::named) {
                Some(fault) => options.fault = fault,
                None => return usage(),
            }
            continue;
        }
        let mut number = || arguments.next().and_then(|text| text.parse::<u64>().ok());
        match argument.as_str() {
            "--count" => options.count = number().unwrap_or(0),
            "--first" => options.first = number().unwrap_or(0),
            "--limit" => options.patience = Duration::from_secs(number().unwrap_or(0)),
            "--print" => return print(Generated { seed: number().unwrap_or(0), fenced: false }),
            "--print-fenced" => return print(Generated { seed: number().unwrap_or(0), fenced: true }),
            _ => options.programs.push(argument),
        }
    }
    if options.count == 0 || options.programs.len() > PRINTED.len() {
        return usage();
    }
    if options.programs.is_empty() {
        self_test(&options)
    } else {
        compare(&options)
    }
}

fn usage() -> ExitCode {
    eprintln!(
        "usage: compare [--count N] [--first SEED] [--fault NAME] [--limit SECONDS] [STEPS [TALLY]] | --print SEED | --print-fenced SEED"
    );
    ExitCode::from(2)
}

fn print(generated: Generated) -> ExitCode {
    match std::io::stdout().write_all(&generated.journal()) {
        Ok(()) => ExitCode::SUCCESS,
        Err(_) => ExitCode::FAILURE,
    }
}

/// Names the rows that were never met; whether there are none.
fn whole(coverage: &Coverage) -> bool {
    let missing = coverage.missing();
    for row in &missing {
        println!("never met: {row}");
    }
    missing.is_empty()
}

fn exit(success: bool) -> ExitCode {
    if success {
        ExitCode::SUCCESS
    } else {
        ExitCode::FAILURE
    }
}

/// Prints the journals, by their seeds, on which something is wrong, and how;
/// whether there are none.
fn none_failed(what: &str, failed: &[(Generated, impl Debug)]) -> bool {
    for (generated, trouble) in failed {
        println!("{generated}: {what}: {trouble:?}");
    }
    failed.is_empty()
}

// ---- Against programs ----

fn compare(options: &Options) -> ExitCode {
    let start = Instant::now();
    let done = AtomicU64::new(0);
    let coverage = Mutex::new(Coverage::default());
    let differing: Mutex<Option<(Generated, &Compared)>> = Mutex::new(None);
    let wrong_sums = Mutex::new(Vec::new());
    let too_full = Mutex::new(Vec::new());
    let programs = options.programs.iter().zip(PRINTED);
    let programs = programs.map(|(program, (what, printed))| {
        let (fault, patience) = (options.fault, options.patience);
        Compared { program, what, printed, fault, patience, tries: TRIES }
    });
    let programs: Vec<Compared> = programs.collect();
    for_each_seed(options.numbers(), |number| {
        let generated = options.generated(number);
        let journal = generated.journal();
        let mut own = Coverage::default();
        own.run(&journal);
        coverage.lock().unwrap().add(&own);
        let tallied = Tallied::of(&journal, options.fault);
        if !tallied.adds_up() {
            wrong_sums.lock().unwrap().push((generated, tallied));
        }
        if let Some(where_and_who) = overfull(&journal, options.fault) {
            too_full.lock().unwrap().push((generated, where_and_who));
        }
        let other = programs.iter().find(|compared| !compared.agrees(&journal));
        if let Some(compared) = other {
            differing.lock().unwrap().get_or_insert((generated, compared));
        }
        done.fetch_add(1, Ordering::Relaxed);
        other.is_none()
    });
    let done = done.into_inner();
    if let Some((generated, compared)) = differing.into_inner().unwrap() {
        compared.show_difference(&generated.to_string(), generated.journal());
        println!("compare: a difference at {generated}, after {done} journals");
        return ExitCode::FAILURE;
    }
    let whole = whole(&coverage.into_inner().unwrap());
    let add_up = none_failed(NOT_THE_SUM, &wrong_sums.into_inner().unwrap());
    let within = none_failed(OVERFULL, &too_full.into_inner().unwrap());
    let printed: Vec<_> = programs.iter().map(|compared| compared.what).collect();
    println!(
        "compare: {done} journals, {} of them with fences, all {} equal, {}, {}, {}, {:.1} s",
        options.fenced(),
        printed.join(" and "),
        if add_up { "every tally adds up" } else { "FAILED: tallies that do not add up" },
        if whole { "every row met" } else { "FAILED: rows never met" },
        if within { "every cache within its cap" } else { "FAILED: more copies than cap" },
        start.elapsed().as_secs_f64()
    );
    exit(whole && add_up && within)
}

// ---- The reference alone ----

fn self_test(options: &Options) -> ExitCode {
    let start = Instant::now();
    let coverage = Mutex::new(Coverage::default());
    let disorders = Mutex::new(Vec::new());
    let wrong_sums = Mutex::new(Vec::new());
    let too_full = Mutex::new(Vec::new());
    let findings = Mutex::new(Findings::default());
    let faults: Vec<Fault> = Fault::ALL.iter().copied().filter(|fault| !fault.of_conversion()).collect();
    let shown: Vec<[AtomicU64; 3]> = faults.iter().map(|_| Default::default()).collect();
    for_each_seed(options.numbers(), |number| {
        let generated = options.generated(number);
        let journal = generated.journal();
        let mut own = Coverage::default();
        let records = own.run(&journal);
        coverage.lock().unwrap().add(&own);
        let records = match options.fault {
            Fault::None => records,
            fault => Run::with_fault(&journal, fault).collect(),
        };
        let made = order::commits(&records);
        if let Err(trouble) = order::check(&made, Ties::ByPlace) {
            disorders.lock().unwrap().push((generated, trouble));
        }
        let name = generated.to_string();
        let found = match generated.fenced {
            true => Findings::of_fenced(&name, &journal, options.fault),
            false => Findings::of_other(&name, &made),
        };
        findings.lock().unwrap().add(found);
        let tallied = Tallied::of(&journal, options.fault);
        if !tallied.adds_up() {
            wrong_sums.lock().unwrap().push((generated, tallied));
        }
        if let Some(where_and_who) = overfull(&journal, options.fault) {
            too_full.lock().unwrap().push((generated, where_and_who));
        }
        // Every tenth short journal is enough to see what faults do.
        if generated.seed % 10 == 0 && journal.len() < 10_000 {
            let (listing, tally) = (listing(&journal), Tallied::of(&journal, Fault::None).tally);
            for (fault, counts) in faults.iter().zip(&shown) {
                for (count, by_this) in counts.iter().zip(shows(&journal, &listing, &tally, *fault)) {
                    count.fetch_add(u64::from(by_this), Ordering::Relaxed);
                }
            }
        }
        true
    });
    println!("{}", coverage.lock().unwrap().table());
    println!(
        "Of every tenth journal, how many show a fault by their listing, by demand 3, and by their tally:"
    );
    for (fault, counts) in faults.iter().zip(shown) {
        let [by_listing, by_order, by_tally] = counts.map(AtomicU64::into_inner);
        println!("{by_listing:>10} {by_order:>8} {by_tally:>8}  {}", fault.name());
    }
    let (disorders, wrong_sums) = (disorders.into_inner().unwrap(), wrong_sums.into_inner().unwrap());
    let too_full = too_full.into_inner().unwrap();
    let ordered = none_failed("demand 3 fails", &disorders);
    let add_up = none_failed(NOT_THE_SUM, &wrong_sums);
    let within = none_failed(OVERFULL, &too_full);
    let whole = whole(&coverage.into_inner().unwrap());
    let findings = findings.into_inner().unwrap();
    let troubles = findings.troubles();
    for trouble in &troubles {
        println!("{trouble}");
    }
    println!("{}", findings.summary());
    println!(
        "self-test: {} journals, demand 3 fails on {}, the tally does not add up on {}, the cap is passed on {}, {}, {:.1} s",
        options.numbers().end,
        disorders.len(),
        wrong_sums.len(),
        too_full.len(),
        if whole { "every row met" } else { "FAILED: rows never met" },
        start.elapsed().as_secs_f64()
    );
    exit(ordered && add_up && within && whole && troubles.is_empty())
}

/// Whether a fault shows itself on a journal with this listing and this tally: by
/// the listing, by demand 3, by the tally.
fn shows(journal: &[u8], listing: &[u8], tally: &Tally, fault: Fault) -> [bool; 3] {
    let relisted = listing_with_fault(journal, fault) != listing;
    let records: Vec<_> = Run::with_fault(journal, fault).collect();
    let ties = if fault == Fault::TiesByCore { Ties::ByCore } else { Ties::ByPlace };
    let ordered = order::check(&order::commits(&records), ties).is_ok();
    [relisted, !ordered, Tally::of(&fault.tallied(records)) != *tally]
}
