//! Writes the journals for measuring speed into a folder: loads, stores and
//! mixed traffic, of 8, 16, 32 and 64 KB.
//!
//! Usage: speed-journals FOLDER

use std::path::Path;
use std::process::ExitCode;

use reference::speed::{journal, KINDS, LENGTHS};

fn main() -> ExitCode {
    let Some(folder) = std::env::args().nth(1) else {
        eprintln!("usage: speed-journals FOLDER");
        return ExitCode::from(2);
    };
    match write_all(Path::new(&folder)) {
        Ok(()) => ExitCode::SUCCESS,
        Err(error) => {
            eprintln!("{folder}: {error}");
            ExitCode::FAILURE
        }
    }
}

fn write_all(folder: &Path) -> std::io::Result<()> {
    std::fs::create_dir_all(folder)?;
    for kind in KINDS {
        for bytes in LENGTHS {
            std::fs::write(folder.join(format!("{kind}-{bytes}.journal")), journal(kind, bytes))?;
        }
    }
    Ok(())
}
