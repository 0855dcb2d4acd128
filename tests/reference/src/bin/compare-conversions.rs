//! Converts generated journals of both forms with programs and with the reference
//! and compares what they print byte for byte: the journals of the other form, and
//! the refusals.
//!
//! Usage: compare-conversions [OPTION].. [TO1 TO2 [STEPS]]
//!        compare-conversions --print to1|to2 SEED
//!
//! Options: --journals FOLDER, --count N, --first SEED, --limit SECONDS, --tries N, --fault NAME.
//!
//! Each result must mean what its journal means: the same commits, timestamps and
//! refusals at each place, and the same machine at the end; it must be convertible
//! back, from the second form to the very journal that it was, from the first to one
//! of the same meaning. Every tenth result is compared in the listings of STEPS too. `--journals` has the kept journals of a folder converted both ways too;
//! `--fault` switches a fault on in the reference's conversion; `--tries` says how many
//! journals the search for a small difference may try.
//!
//! It fails too where the journals never meet a row of `conversion_coverage::rows`.

use std::io::Write;
use std::path::Path;
use std::process::ExitCode;
use std::sync::Mutex;
use std::time::{Duration, Instant};

use reference::compared::{Compared, TRIES};
use reference::conversion_coverage::{self, way};
use reference::convert::{self, convert, convert_with_fault};
use reference::faults::Fault;
use reference::generate::journal_to_convert;
use reference::journal::{Form, MAX_JOURNAL};
use reference::kept;
use reference::meaning;
use reference::program::{self, Printed};
use reference::rows::Rows;
use reference::seeds::for_each_seed;

/// What the programs have to print, in the order in which they are given.
const PRINTED: [(&str, fn(&[u8], Fault) -> Printed); 2] = [
    ("results of to1", |journal, fault| convert::printed(Form::One, journal, fault)),
    ("results of to2", |journal, fault| convert::printed(Form::Two, journal, fault)),
];

struct Options {
    count: u64,
    first: u64,
    patience: Duration,
    fault: Fault,
    tries: u32,
    journals: Vec<(String, Vec<u8>)>,
    programs: Vec<String>,
}

fn main() -> ExitCode {
    let mut options = Options {
        count: 5000,
        first: 1,
        patience: program::PATIENCE,
        fault: Fault::None,
        tries: TRIES,
        journals: Vec::new(),
        programs: Vec::new(),
    };
    let mut arguments = std::env::args().skip(1);
    while let Some(argument) = arguments.next() {
        let mut text = || arguments.next().unwrap_or_default();
        let number = |text: String| text.parse::<u64>().unwrap_or(0);
        match argument.as_str() {
            "--count" => options.count = number(text()),
            "--first" => options.first = number(text()),
            "--tries" => options.tries = number(text()) as u32,
            "--limit" => options.patience = Duration::from_secs(number(text())),
            "--fault" => match Fault::named(&text()) {
                Some(fault) => options.fault = fault,
                None => return usage(),
            },
            "--journals" => match kept::read(Path::new(&text())) {
                Ok(kept) => options.journals.extend(kept.into_iter().map(|kept| (kept.name, kept.journal))),
                Err(error) => {
                    eprintln!("{error}");
                    return ExitCode::from(2);
                }
            },
            "--print" => {
                let (to, seed) = (text(), number(text()));
                return match Form::ALL.into_iter().find(|form| way(*form) == to) {
                    Some(to) => print(to, seed),
                    None => usage(),
                };
            }
            _ => options.programs.push(argument),
        }
    }
    if options.count == 0 || ![0, 2, 3].contains(&options.programs.len()) {
        return usage();
    }
    compare(&options)
}

fn usage() -> ExitCode {
    eprintln!(
        "usage: compare-conversions [OPTION].. [TO1 TO2 [STEPS]] | --print to1|to2 SEED\n\
         options: --journals FOLDER, --count N, --first SEED, --limit SECONDS, --tries N, --fault NAME"
    );
    ExitCode::from(2)
}

fn print(to: Form, seed: u64) -> ExitCode {
    match std::io::stdout().write_all(&journal_to_convert(seed, to.other())) {
        Ok(()) => ExitCode::SUCCESS,
        Err(_) => ExitCode::FAILURE,
    }
}

/// What is wrong with a conversion: a program prints something else, or the result
/// is not what it should be.
enum Trouble<'a> {
    Differs(&'a Compared<'a>),
    Wrong(String),
}

fn compare(options: &Options) -> ExitCode {
    let start = Instant::now();
    let programs = options.programs.iter().zip(PRINTED).map(|(program, (what, printed))| {
        let (fault, patience) = (options.fault, options.patience);
        Compared { program, what, printed, fault, patience, tries: options.tries }
    });
    let programs: Vec<Compared> = programs.collect();
    for (name, journal) in &options.journals {
        for to in Form::ALL {
            let (_, trouble) = convert_both(options, &programs, to, journal, true);
            if let Some(trouble) = trouble {
                return say_trouble(name, to, journal.clone(), trouble);
            }
        }
    }
    let rows = Mutex::new(Rows::default());
    let first_trouble: Mutex<Option<(u64, Form, Trouble)>> = Mutex::new(None);
    for_each_seed(options.first..options.first + options.count, |seed| {
        for to in Form::ALL {
            let journal = journal_to_convert(seed, to.other());
            let (met, trouble) = convert_both(options, &programs, to, &journal, seed % 10 == 0);
            rows.lock().unwrap().add(&met);
            if let Some(trouble) = trouble {
                first_trouble.lock().unwrap().get_or_insert((seed, to, trouble));
                return false;
            }
        }
        true
    });
    if let Some((seed, to, trouble)) = first_trouble.into_inner().unwrap() {
        return say_trouble(&format!("seed {seed}"), to, journal_to_convert(seed, to.other()), trouble);
    }
    say_end(options, &rows.into_inner().unwrap(), start)
}

/// Converts a journal with the reference and with the program of this form: the rows
/// that it meets, and what is wrong. The listings of STEPS are looked at if so said.
fn convert_both<'a>(
    options: &Options,
    programs: &'a [Compared<'a>],
    to: Form,
    journal: &[u8],
    listings: bool,
) -> (Rows, Option<Trouble<'a>>) {
    let outcome = convert_with_fault(to, journal, MAX_JOURNAL, options.fault);
    let mut met = Rows::default();
    conversion_coverage::count(&mut met, to, journal, &outcome);
    let program = Form::ALL.into_iter().zip(programs).find(|(form, _)| *form == to);
    let trouble = match (program, outcome) {
        (Some((_, compared)), _) if !compared.agrees(journal) => Some(Trouble::Differs(compared)),
        (_, Ok(result)) => wrong(options, to, journal, &result, listings).map(Trouble::Wrong),
        _ => None,
    };
    (met, trouble)
}

/// Says what is wrong with the conversion of a journal, by its name.
fn say_trouble(name: &str, to: Form, journal: Vec<u8>, trouble: Trouble) -> ExitCode {
    match trouble {
        Trouble::Differs(compared) => compared.show_difference(name, journal),
        Trouble::Wrong(trouble) => println!("{name}, {}: {trouble}", way(to)),
    }
    println!("compare-conversions: trouble at {name}, {}", way(to));
    ExitCode::FAILURE
}

/// The last line, and before it the rows that were never met.
fn say_end(options: &Options, rows: &Rows, start: Instant) -> ExitCode {
    let all = conversion_coverage::rows();
    let all: Vec<&str> = all.iter().map(String::as_str).collect();
    let missing = rows.missing(&all);
    if options.programs.is_empty() {
        println!("{}", rows.table(&all));
    }
    for row in &missing {
        println!("never met: {row}");
    }
    let kept = match options.journals.len() {
        0 => String::new(),
        kept => format!("{kept} kept journals and "),
    };
    println!(
        "compare-conversions: {kept}{} generated ones of each form, {}of these {} converted to 1 and {} to 2, all of the same meaning, {}, {:.1} s",
        options.count,
        if options.programs.is_empty() { "" } else { "all results equal, " },
        rows.met("to1: converted"),
        rows.met("to2: converted"),
        if missing.is_empty() { "every row met" } else { "FAILED: rows never met" },
        start.elapsed().as_secs_f64()
    );
    if missing.is_empty() {
        ExitCode::SUCCESS
    } else {
        ExitCode::FAILURE
    }
}

/// What is wrong with a result, if something is.
fn wrong(options: &Options, to: Form, journal: &[u8], result: &[u8], listings: bool) -> Option<String> {
    if let Some(trouble) = meaning::difference(journal, result) {
        return Some(format!("the result has another meaning: {trouble}"));
    }
    let back = match convert(to.other(), result, MAX_JOURNAL) {
        Ok(back) => back,
        Err(number) => return Some(format!("converted back, it is refused with {number}")),
    };
    if to == Form::Two && back != journal {
        return Some("converted back, it is another journal".to_string());
    }
    if let Some(trouble) = meaning::difference(journal, &back) {
        return Some(format!("converted back, it has another meaning: {trouble}"));
    }
    let steps = options.programs.get(2).filter(|_| listings)?;
    let listing = |text: &[u8]| program::on_bytes(steps, text, options.patience);
    match (listing(journal), listing(result)) {
        (Ok(one), Ok(other)) => meaning::listing_difference(&one.out, &other.out),
        (Err(failure), _) | (_, Err(failure)) => Some(format!("{steps}: {failure}")),
    }
}
