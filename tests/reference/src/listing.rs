//! The listing of a run: one line for each record and the end line (01,
//! "Journal and driver"; 02, "Caches with a size", for a victim's line).

use crate::faults::Fault;
use crate::journal::{write_field, write_hex, write_number};
use crate::machine::{Answer, Bytes, Commit};
use crate::run::{Record, Run};

/// The whole listing of a journal.
pub fn listing(journal: &[u8]) -> Vec<u8> {
    listing_with_fault(journal, Fault::None)
}

/// The listing that an implementation with this fault would write.
pub fn listing_with_fault(journal: &[u8], fault: Fault) -> Vec<u8> {
    let mut out = Vec::with_capacity(2 * journal.len().min(65_536) + 64);
    let mut counts = Counts::default();
    for record in Run::with_fault(journal, fault) {
        counts.count(&record);
        write_record(&mut out, &record);
    }
    write_end(&mut out, &fault.distort_counts(counts));
    out.truncate(fault.longest_listing());
    out
}

/// What the end line says, and how many victims it leaves out.
#[derive(Clone, Copy, Default, PartialEq, Eq, Debug)]
pub struct Counts {
    pub end: u32,
    pub commits: u32,
    pub refused: u32,
    pub victims: u32,
}

impl Counts {
    fn count(&mut self, record: &Record) {
        self.end = record.place;
        match record.answer {
            Answer::Commit(_) => self.commits += 1,
            Answer::Refused(_) => self.refused += 1,
            Answer::Victim { .. } => self.victims += 1,
            _ => {}
        }
    }
}

/// Writes a record's line.
pub fn write_record(out: &mut Vec<u8>, record: &Record) {
    write_field(out, "n=", record.place);
    match &record.answer {
        Answer::Commit(commit) => write_commit(out, commit),
        Answer::Refused(number) => write_field(out, " refused=", *number),
        done => {
            out.extend_from_slice(b" done=");
            out.extend_from_slice(done_name(done).as_bytes());
            if let Answer::Victim { line } = done {
                write_field(out, " line=", *line);
            }
        }
    }
    out.push(b'\n');
}

fn write_commit(out: &mut Vec<u8>, commit: &Commit) {
    match commit {
        Commit::Load { core, line, ts, data } => write_access(out, "load", [*core, *line, *ts], data),
        Commit::Store { core, line, ts, data } => write_access(out, "store", [*core, *line, *ts], data),
        Commit::Fence { core, ts } => {
            out.extend_from_slice(b" commit=fence");
            write_field(out, " core=", *core);
            write_field(out, " ts=", *ts);
        }
    }
}

fn write_access(out: &mut Vec<u8>, kind: &str, [core, line, ts]: [u32; 3], data: &Bytes) {
    out.extend_from_slice(b" commit=");
    out.extend_from_slice(kind.as_bytes());
    write_field(out, " core=", core);
    write_field(out, " line=", line);
    write_field(out, " ts=", ts);
    out.extend_from_slice(b" data=");
    write_hex(out, data.as_slice());
}

/// The word after `done=`. Commits and refusals have lines of their own form.
pub fn done_name(answer: &Answer) -> &'static str {
    match answer {
        Answer::Open => "open",
        Answer::Ask => "ask",
        Answer::Recall => "recall",
        Answer::Share => "share",
        Answer::Renew => "renew",
        Answer::Own => "own",
        Answer::Drop => "drop",
        Answer::Evict => "evict",
        Answer::Writeback => "writeback",
        Answer::Advance => "advance",
        Answer::Yield => "yield",
        Answer::Take => "take",
        Answer::Victim { .. } => "victim",
        Answer::Commit(_) | Answer::Refused(_) => "",
    }
}

fn write_end(out: &mut Vec<u8>, counts: &Counts) {
    out.extend_from_slice(b"end=");
    write_number(out, counts.end);
    write_field(out, " commits=", counts.commits);
    write_field(out, " refused=", counts.refused);
    out.push(b'\n');
}
