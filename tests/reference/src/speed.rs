//! Journals for measuring speed: three kinds of traffic, each of an exact
//! number of bytes.

use crate::generate::{Length, Traffic};
use crate::journal::Form;
use crate::machine::Sizes;
use crate::random::Random;

/// The sizes of the speed journals in bytes.
pub const LENGTHS: [usize; 4] = [8_192, 16_384, 32_768, 65_536];

/// The kinds of speed journals.
pub const KINDS: [&str; 3] = ["loads", "stores", "mixed"];

/// A speed journal of a kind, of exactly this many bytes.
pub fn journal(kind: &str, bytes: usize) -> Vec<u8> {
    match kind {
        "loads" => loads(bytes),
        "stores" => stores(bytes),
        _ => mixed(bytes),
    }
}

/// One core loads one line again and again.
fn loads(bytes: usize) -> Vec<u8> {
    let load = "op=load core=3 line=5\n".to_string();
    let opening = "fabric=1 cores=16 lines=64 width=8 lease=10\n";
    let start = format!("{opening}{load}op=serve core=3\nop=receive core=3\n");
    repeated(&start, &[load], bytes)
}

/// One core stores to one line of the greatest width again and again.
fn stores(bytes: usize) -> Vec<u8> {
    let opening = "fabric=1 cores=16 lines=64 width=64 lease=10\n";
    let first = store_of_64("0f");
    let start = format!("{opening}{first}op=serve core=3\nop=receive core=3\n");
    repeated(&start, &[first, store_of_64("a5")], bytes)
}

/// A store of 64 equal bytes.
fn store_of_64(pair: &str) -> String {
    format!("op=store core=3 line=5 data={}\n", pair.repeat(64))
}

/// A start, then the given lines in turn, then a few advance steps that bring
/// the journal to its exact length.
fn repeated(start: &str, lines: &[String], bytes: usize) -> Vec<u8> {
    let mut text = start.as_bytes().to_vec();
    for line in lines.iter().cycle() {
        if text.len() + line.len() + 100 > bytes {
            break;
        }
        text.extend_from_slice(line.as_bytes());
    }
    crate::generate::fill_up(&mut text, bytes);
    text
}

/// Traffic of all nine kinds of `fabric=1` on a middle-sized engine.
fn mixed(bytes: usize) -> Vec<u8> {
    let mut random = Random::new(1);
    let sizes = Sizes { cores: 8, lines: 16, width: 8, lease: 10, cap: 16 };
    Traffic::of_sizes(&mut random, Form::One, sizes).tame().journal(Length::Exactly(bytes))
}
