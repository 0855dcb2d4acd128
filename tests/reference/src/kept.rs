//! The kept journals: files `NAME.journal` with their `NAME.listing` and
//! `NAME.tally`; the kept conversions: files `to1-NAME.journal` and
//! `to2-NAME.journal` with their `.result`; and of both `faults.txt`, which names for
//! each fault the journal that shows it.

use std::fs;
use std::path::Path;

use crate::journal::Form;
use crate::program::Printed;

/// A kept journal with its listing and its tally.
pub struct Kept {
    pub name: String,
    pub journal: Vec<u8>,
    pub listing: Vec<u8>,
    pub tally: Vec<u8>,
}

/// Reads all kept journals of a folder, sorted by name. A journal without a
/// listing or a tally, and one of these without a journal, is an error.
pub fn read(folder: &Path) -> Result<Vec<Kept>, String> {
    let read_one = |name: String| {
        let file = |ending: &str| read_file(folder, &name, ending);
        let (journal, listing, tally) = (file(".journal")?, file(".listing")?, file(".tally")?);
        Ok(Kept { name, journal, listing, tally })
    };
    names(folder, &[".listing", ".tally"])?.into_iter().map(read_one).collect()
}

/// A kept conversion: a journal, the form that it is brought into, and what it
/// becomes there, or the line of its refusal.
pub struct Conversion {
    pub name: String,
    pub to: Form,
    pub journal: Vec<u8>,
    pub result: Vec<u8>,
}

impl Conversion {
    /// What a program prints for it: a refusal's line goes to standard error.
    pub fn printed(&self) -> Printed {
        let result = self.result.clone();
        match self.result.starts_with(b"refused=") {
            true => Printed { out: Vec::new(), error: result },
            false => Printed { out: result, error: Vec::new() },
        }
    }
}

/// Reads all kept conversions of a folder, sorted by name.
pub fn read_conversions(folder: &Path) -> Result<Vec<Conversion>, String> {
    let read_one = |name: String| {
        let to = match name.split_once('-') {
            Some(("to1", _)) => Form::One,
            Some(("to2", _)) => Form::Two,
            _ => return Err(format!("{name}: the name begins neither with to1- nor with to2-")),
        };
        let file = |ending: &str| read_file(folder, &name, ending);
        let (journal, result) = (file(".journal")?, file(".result")?);
        Ok(Conversion { name, to, journal, result })
    };
    names(folder, &[".result"])?.into_iter().map(read_one).collect()
}

/// The names of a folder's journals, sorted, each of which must have files with
/// these endings too, and no other name may have one.
fn names(folder: &Path, endings: &[&str]) -> Result<Vec<String>, String> {
    let names = names_with_ending(folder, ".journal")?;
    for ending in endings {
        if names != names_with_ending(folder, ending)? {
            return Err(format!("each .journal needs a {ending} of the same name, and the other way round"));
        }
    }
    Ok(names)
}

/// The names of the files of a folder that have this ending, without it, sorted.
fn names_with_ending(folder: &Path, ending: &str) -> Result<Vec<String>, String> {
    let entries = fs::read_dir(folder).map_err(|error| format!("{}: {error}", folder.display()))?;
    let files = entries.filter_map(|entry| entry.ok()?.file_name().into_string().ok());
    let mut names: Vec<_> = files.filter_map(|name| name.strip_suffix(ending).map(str::to_string)).collect();
    names.sort();
    Ok(names)
}

fn read_file(folder: &Path, name: &str, ending: &str) -> Result<Vec<u8>, String> {
    let path = folder.join(format!("{name}{ending}"));
    fs::read(&path).map_err(|error| format!("{}: {error}", path.display()))
}

/// How a fault shows itself.
#[derive(Clone, Copy, PartialEq, Eq, Debug)]
pub enum Shown {
    /// The journal's listing differs.
    Listing,
    /// The listing is the same, and demand 3 fails.
    Order,
    /// The listing differs, and demand 3 fails.
    Both,
    /// The journal's tally differs, whatever its listing does.
    Tally,
}

/// The lines of the kept journals' `faults.txt`: fault, journal, and `listing`,
/// `order`, `both` or `tally`.
pub fn fault_table(folder: &Path) -> Result<Vec<(String, String, Shown)>, String> {
    fault_rows(folder, |row| match *row {
        [fault, journal, "listing"] => Some((fault.into(), journal.into(), Shown::Listing)),
        [fault, journal, "order"] => Some((fault.into(), journal.into(), Shown::Order)),
        [fault, journal, "both"] => Some((fault.into(), journal.into(), Shown::Both)),
        [fault, journal, "tally"] => Some((fault.into(), journal.into(), Shown::Tally)),
        _ => None,
    })
}

/// The lines of the kept conversions' `faults.txt`: fault, journal.
pub fn conversion_fault_table(folder: &Path) -> Result<Vec<(String, String)>, String> {
    fault_rows(folder, |row| match *row {
        [fault, journal] => Some((fault.into(), journal.into())),
        _ => None,
    })
}

/// The rows of a folder's `faults.txt`, each read from its words.
fn fault_rows<R>(folder: &Path, read: impl Fn(&[&str]) -> Option<R>) -> Result<Vec<R>, String> {
    let path = folder.join("faults.txt");
    let text = fs::read_to_string(&path).map_err(|error| format!("{}: {error}", path.display()))?;
    let rows = text.lines().filter(|line| !line.is_empty() && !line.starts_with('#'));
    rows.map(|row| {
        read(&row.split_whitespace().collect::<Vec<_>>()).ok_or(format!("faults.txt: not a row: {row}"))
    })
    .collect()
}
