//! Running a program on a journal: what it prints, if it ends in time and with exit
//! status 0.

use std::fmt;
use std::fs::File;
use std::io::{self, Read, Write};
use std::path::Path;
use std::process::{Child, Command, Stdio};
use std::sync::mpsc::{self, Receiver};
use std::time::{Duration, Instant};

use crate::text::first_difference;

/// How long a program may take over one journal, unless said otherwise.
pub const PATIENCE: Duration = Duration::from_secs(20);

/// Why a run of a program counts as failed, whatever it printed.
#[derive(Debug)]
pub enum Failure {
    /// It had not ended, or not closed its output, in time.
    Hangs,
    /// It could not be started or read, or ended in another way than with 0.
    Ended(String),
}

impl fmt::Display for Failure {
    fn fmt(&self, f: &mut fmt::Formatter<'_>) -> fmt::Result {
        match self {
            Failure::Hangs => write!(f, "the program hangs"),
            Failure::Ended(how) => write!(f, "{how}"),
        }
    }
}

impl From<std::io::Error> for Failure {
    fn from(error: std::io::Error) -> Failure {
        Failure::Ended(error.to_string())
    }
}

/// What a program prints on standard output and on standard error.
#[derive(Clone, PartialEq, Eq, Debug)]
pub struct Printed {
    pub out: Vec<u8>,
    pub error: Vec<u8>,
}

impl Printed {
    /// Nothing but this on standard output.
    pub fn out(out: Vec<u8>) -> Printed {
        Printed { out, error: Vec::new() }
    }

    /// How it differs from what is kept, if it does.
    pub fn difference(&self, who: &str, kept: &Printed) -> Option<String> {
        let both = |printed: &Printed| [&printed.out[..], &printed.error[..]].concat();
        if self == kept {
            return None;
        }
        Some(match (both(self), both(kept)) {
            (text, kept) if text == kept => {
                format!("{who} has it partly on the other one of standard output and standard error")
            }
            (text, kept) => first_difference(who, &text, &kept),
        })
    }
}

/// How long a program may take, by `--limit SECONDS` where the arguments begin
/// with it, which is taken off them; none if that is no number.
pub fn patience_of(arguments: &mut Vec<String>) -> Option<Duration> {
    if arguments.first().is_none_or(|first| first != "--limit") {
        return Some(PATIENCE);
    }
    let limit = arguments.get(1).and_then(|text| text.parse().ok()).map(Duration::from_secs);
    arguments.drain(..arguments.len().min(2));
    limit
}

/// Plays kept journals of a folder, by name, through a program, and counts those
/// for which it does not print what it has to. It stops at a journal over which
/// the program hangs.
pub fn failures(
    program: &str,
    folder: &Path,
    kept: impl Iterator<Item = (String, Printed)>,
    patience: Duration,
) -> u32 {
    let mut failed = 0;
    for (name, wanted) in kept {
        let (trouble, hangs) = match on_file(program, &folder.join(format!("{name}.journal")), patience) {
            Ok(printed) => match printed.difference(program, &wanted) {
                Some(difference) => (difference, false),
                None => continue,
            },
            Err(failure) => (format!("{program}: {failure}"), matches!(failure, Failure::Hangs)),
        };
        println!("{name}: {trouble}");
        failed += 1;
        if hangs {
            break;
        }
    }
    failed
}

/// What a program prints that gets these bytes through a pipe.
pub fn on_bytes(program: &str, journal: &[u8], patience: Duration) -> Result<Printed, Failure> {
    let mut child = spawn(program, Stdio::piped())?;
    if let Some(mut input) = child.stdin.take() {
        let journal = journal.to_vec();
        // A program may stop reading early, so an error here is no matter.
        std::thread::spawn(move || drop(input.write_all(&journal)));
    }
    output(child, patience)
}

/// What a program prints that has this file as its standard input.
pub fn on_file(program: &str, journal: &Path, patience: Duration) -> Result<Printed, Failure> {
    output(spawn(program, Stdio::from(File::open(journal)?))?, patience)
}

fn spawn(program: &str, input: Stdio) -> Result<Child, Failure> {
    let child = Command::new(program).stdin(input).stdout(Stdio::piped()).stderr(Stdio::piped()).spawn();
    child.map_err(|error| Failure::Ended(format!("{program}: {error}")))
}

fn output(mut child: Child, patience: Duration) -> Result<Printed, Failure> {
    let deadline = Instant::now() + patience;
    let (out, error) = (child.stdout.take().map(collect), child.stderr.take().map(collect));
    let (out, error) = (collected(out, deadline), collected(error, deadline));
    let ended = wait(&mut child, deadline);
    ended?;
    Ok(Printed { out: out?, error: error? })
}

/// What came through a pipe, if it was closed in time.
fn collected(pipe: Option<Collected>, deadline: Instant) -> Result<Vec<u8>, Failure> {
    let left = deadline.saturating_duration_since(Instant::now());
    match pipe {
        Some(pipe) => Ok(pipe.recv_timeout(left).map_err(|_| Failure::Hangs)??),
        None => Ok(Vec::new()),
    }
}

/// Hands over what was read from a pipe.
type Collected = Receiver<io::Result<Vec<u8>>>;

/// Reads a pipe to its end, beside what else is done.
fn collect(mut pipe: impl Read + Send + 'static) -> Collected {
    let (send, receive) = mpsc::channel();
    std::thread::spawn(move || {
        let mut text = Vec::new();
        let read = pipe.read_to_end(&mut text);
        drop(send.send(read.map(|_| text)));
    });
    receive
}

/// Waits for a program's end; one that takes too long is stopped.
fn wait(child: &mut Child, deadline: Instant) -> Result<(), Failure> {
    loop {
        match child.try_wait()? {
            Some(status) if status.success() => return Ok(()),
            Some(status) => return Err(Failure::Ended(format!("ended with {status}"))),
            None if Instant::now() >= deadline => {
                drop(child.kill());
                drop(child.wait());
                return Err(Failure::Hangs);
            }
            None => std::thread::sleep(Duration::from_micros(200)),
        }
    }
}
