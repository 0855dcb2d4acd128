//! Shows that the kept journals and the kept conversions notice every fault.
//!
//! Usage: check-faults JOURNALS CONVERSIONS
//!
//! For each fault, the journal that `faults.txt` of the folder of journals names
//! must give another listing with the fault than the kept one (`listing`), or break
//! demand 3 (`order`), or do both (`both`), exactly as its row says; or it must give
//! another tally (`tally`). The journal that `faults.txt` of the folder of
//! conversions names must be converted to something else, or give another number.
//! Every fault must have a row, those of the conversion in the second folder.

use std::path::Path;
use std::process::ExitCode;
use std::rc::Rc;

use reference::convert;
use reference::faults::Fault;
use reference::kept::{self, Conversion, Kept, Shown};
use reference::listing::listing_with_fault;
use reference::order::{self, Ties};
use reference::run::Run;
use reference::tally::tally_with_fault;

fn main() -> ExitCode {
    let [_, journals, conversions] = &std::env::args().collect::<Vec<_>>()[..] else {
        eprintln!("usage: check-faults JOURNALS CONVERSIONS");
        return ExitCode::from(2);
    };
    let rows = match rows(Path::new(journals), Path::new(conversions)) {
        Ok(rows) => rows,
        Err(error) => {
            eprintln!("{error}");
            return ExitCode::from(2);
        }
    };
    let mut failed = 0;
    for row in &rows {
        let trouble = match Fault::named(&row.fault) {
            None => Some("no such fault".to_string()),
            Some(fault) => (row.check)(fault).err(),
        };
        if let Some(trouble) = trouble {
            println!("{}: {}: {trouble}", row.fault, row.journal);
            failed += 1;
        }
    }
    for fault in Fault::ALL {
        let shown = |row: &Row| row.fault == fault.name() && (row.converts || !fault.of_conversion());
        if !rows.iter().any(shown) {
            println!("{}: no row in faults.txt", fault.name());
            failed += 1;
        }
    }
    println!("check-faults: {} faults, {} rows, {failed} not shown", Fault::ALL.len(), rows.len());
    if failed == 0 {
        ExitCode::SUCCESS
    } else {
        ExitCode::FAILURE
    }
}

/// A row of one of the two tables: whether it is of the conversions, and what the
/// fault has to do to the journal.
struct Row {
    fault: String,
    journal: String,
    converts: bool,
    check: Box<dyn Fn(Fault) -> Result<(), String>>,
}

/// The rows of both tables.
fn rows(journals: &Path, conversions: &Path) -> Result<Vec<Row>, String> {
    let (kept, converted) = (Rc::new(kept::read(journals)?), Rc::new(kept::read_conversions(conversions)?));
    let mut rows = Vec::new();
    for (fault, journal, shown) in kept::fault_table(journals)? {
        let (kept, name) = (kept.clone(), journal.clone());
        let check = Box::new(move |fault| check(&kept, fault, &name, shown));
        rows.push(Row { fault, journal, converts: false, check });
    }
    for (fault, journal) in kept::conversion_fault_table(conversions)? {
        let (converted, name) = (converted.clone(), journal.clone());
        let check = Box::new(move |fault| check_conversion(&converted, fault, &name));
        rows.push(Row { fault, journal, converts: true, check });
    }
    Ok(rows)
}

/// Checks a row of the kept journals.
fn check(all: &[Kept], fault: Fault, name: &str, shown: Shown) -> Result<(), String> {
    let kept = all.iter().find(|kept| kept.name == name).ok_or("no such journal")?;
    if listing_with_fault(&kept.journal, Fault::None) != kept.listing {
        return Err("the kept listing is not the one without faults".into());
    }
    if tally_with_fault(&kept.journal, Fault::None) != kept.tally {
        return Err("the kept tally is not the one without faults".into());
    }
    if !order_holds(&kept.journal, Fault::None) {
        return Err("demand 3 fails without the fault".into());
    }
    let differs = listing_with_fault(&kept.journal, fault) != kept.listing;
    let holds = order_holds(&kept.journal, fault);
    let counts_differ = tally_with_fault(&kept.journal, fault) != kept.tally;
    match (shown, differs, holds) {
        (Shown::Listing, true, true) | (Shown::Order, false, false) | (Shown::Both, true, false) => Ok(()),
        (Shown::Tally, _, _) if counts_differ => Ok(()),
        _ => Err(format!(
            "with the fault, listing differs: {differs}, demand 3 holds: {holds}, tally differs: {counts_differ}"
        )),
    }
}

/// Checks a row of the kept conversions.
fn check_conversion(all: &[Conversion], fault: Fault, name: &str) -> Result<(), String> {
    let kept = all.iter().find(|kept| kept.name == name).ok_or("no such journal")?;
    let printed = |fault| convert::printed(kept.to, &kept.journal, fault);
    if printed(Fault::None) != kept.printed() {
        return Err("the kept result is not the one without faults".into());
    }
    if printed(fault) == kept.printed() {
        return Err("with the fault, the result is the same".into());
    }
    Ok(())
}

/// Whether demand 3 holds on the commits of a run with this fault.
fn order_holds(journal: &[u8], fault: Fault) -> bool {
    let records: Vec<_> = Run::with_fault(journal, fault).collect();
    let ties = if fault == Fault::TiesByCore { Ties::ByCore } else { Ties::ByPlace };
    order::check(&order::commits(&records), ties).is_ok()
}
