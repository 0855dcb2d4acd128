//! Writes step lines, good and bad, with the number that the line check must
//! give: one case a line, the number, a blank, and the line's bytes in hex.
//!
//! Usage: step-lines [COUNT]

use std::io::Write;
use std::process::ExitCode;

use reference::damage;
use reference::generate;
use reference::journal::{check_line, write_hex, write_number, Form};
use reference::random::Random;

fn main() -> ExitCode {
    let count = std::env::args().nth(1).map_or(Some(10_000), |text| text.parse().ok());
    let Some(count) = count else {
        eprintln!("usage: step-lines [COUNT]");
        return ExitCode::from(2);
    };
    let mut out = Vec::new();
    for line in lines(count) {
        write_number(&mut out, check_line(&line));
        out.push(b' ');
        write_hex(&mut out, &line);
        out.push(b'\n');
    }
    match std::io::stdout().write_all(&out) {
        Ok(()) => ExitCode::SUCCESS,
        Err(_) => ExitCode::FAILURE,
    }
}

/// So many lines: by turns a bad one and one of a generated journal, whose form may
/// be the other one, which the line check does not know.
fn lines(count: usize) -> Vec<Vec<u8>> {
    let mut random = Random::new(1);
    let mut lines = Vec::new();
    let mut seed = 0;
    while lines.len() < count {
        seed += 1;
        for line in generate::journal(seed).split(|&byte| byte == b'\n').skip(1).take(20) {
            lines.push(line.to_vec());
            lines.push(damage::bad_step(&mut random, Form::One));
        }
    }
    lines.truncate(count);
    lines
}
