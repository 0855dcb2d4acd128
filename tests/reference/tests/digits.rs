//! The store whose bytes are given in digits (02, "Store bytes without the scratch
//! line"): it is the store of the bytes spelt, wrong digits are 13 and change
//! nothing, and demand 3 holds on lists that have both. And what the program of
//! direct calls in crates/digits must print.

use reference::generate;
use reference::journal::write_hex;
use reference::listing::write_record;
use reference::machine::*;
use reference::order::{self, Ties};
use reference::random::Random;
use reference::run::Record;

/// The digits of bytes.
fn spelt(bytes: &[u8]) -> Vec<u8> {
    let mut digits = Vec::new();
    write_hex(&mut digits, bytes);
    digits
}

/// Digits made wrong: another byte at some position, one digit less, or none.
fn wrong(random: &mut Random, digits: &[u8]) -> Vec<u8> {
    let mut digits = digits.to_vec();
    match random.below(4) {
        0 => digits.clear(),
        1 => drop(digits.pop()),
        _ => {
            let at = random.below(digits.len() as u32) as usize;
            let other = random.pick(b"/:`gAF \n\0\xff@G");
            digits[at] = other;
        }
    }
    digits
}

/// Lists of calls in which about every other store is in digits, and wrong digits
/// come between: the answers and the machine are those of the list of stores, the
/// refused ones apart.
#[test]
fn a_store_in_digits_is_the_store_of_the_bytes_spelt() {
    let (mut in_digits, mut refused) = (0, 0);
    for seed in 1..400 {
        let (sizes, steps) = generate::calls(seed, 300);
        let mut random = Random::new(seed);
        let mut machine = Machine::open(sizes).unwrap();
        let mut mixed = machine.clone();
        let mut records = Vec::new();
        for step in &steps {
            let answer = machine.call(step);
            let same = match *step {
                Step::Store { core, line, data } if random.below(2) == 0 => {
                    let digits = spelt(data.as_slice());
                    let before = mixed.clone();
                    let bad = wrong(&mut random, &digits);
                    assert_eq!(mixed.store_digits(core, line, &bad), Answer::Refused(13), "seed {seed}");
                    assert!(mixed == before, "seed {seed}: wrong digits change something");
                    records.push(Record { place: records.len() as u32 + 1, step: None, answer: Answer::Refused(13) });
                    in_digits += 1;
                    mixed.store_digits(core, line, &digits)
                }
                _ => mixed.call(step),
            };
            assert_eq!(same, answer, "seed {seed}: {step:?}");
            assert!(mixed == machine, "seed {seed}: {step:?}");
            refused += u32::from(matches!(same, Answer::Refused(_)));
            records.push(Record { place: records.len() as u32 + 1, step: Some(*step), answer: same });
        }
        assert_eq!(order::check(&order::commits(&records), Ties::ByPlace), Ok(()), "seed {seed}");
    }
    assert!(in_digits > 5_000 && refused > 5_000, "{in_digits} in digits, {refused} refused");
}

/// 13 comes before every other number of a store.
#[test]
fn wrong_digits_come_first() {
    let sizes = Sizes { cores: 2, lines: 2, width: 2, lease: 10, cap: 2 };
    let mut broken = Machine::open(sizes).unwrap();
    broken.state.sizes.lease = 0;
    let mut short = Machine::open(sizes).unwrap();
    short.private.pop();
    let whole = Machine::open(sizes).unwrap();
    for (machine, core, line, number) in [(broken, 0, 0, 1), (short, 0, 0, 2), (whole.clone(), 2, 0, 3), (whole, 0, 2, 4)] {
        for (digits, expected) in [(&b"0708"[..], number), (b"07g8", 13), (b"070", 13), (b"", 13)] {
            let mut machine = machine.clone();
            let before = machine.clone();
            assert_eq!(machine.store_digits(core, line, digits), Answer::Refused(expected));
            assert!(machine == before);
        }
    }
}

/// The list of calls of crates/digits: what is called, core, line, which digits.
const LIST: &str = "S11r V1.. R1.. S11r S11x S11o S11l S11e S11f S11m S21r S21x S12r S12x S01r S01r S01x B11r B11x T11r \
                    T11x M1.. S11r S11r S11x S10r V1.. R1.. L10. S10r S10x R0..";

/// Digits of a line and one byte more: other digits for another number.
fn right(n: usize) -> Vec<u8> {
    (0..130).map(|i| b"0123456789abcdef"[(7 * i + n) % 16]).collect()
}

/// The digits of the call at a place of the list.
fn digits_of(which: u8, width: usize, at: usize) -> Vec<u8> {
    let count = match which {
        b'o' => 2 * width - 1,
        b'l' => 2 * width + 1,
        b'f' => 2 * width - 2,
        b'm' => 2 * width + 2,
        b'e' => 0,
        _ => 2 * width,
    };
    let mut digits = right(width + at)[..count].to_vec();
    if which == b'x' {
        digits[0] = b'g';
    }
    digits
}

/// A call of the list.
fn made(machine: &mut Machine, kind: u8, core: u32, line: u32, digits: &[u8]) -> Answer {
    match kind {
        b'S' => machine.store_digits(core, line, digits),
        b'B' => {
            let lease = std::mem::replace(&mut machine.state.sizes.lease, 0);
            let answer = machine.store_digits(core, line, digits);
            machine.state.sizes.lease = lease;
            answer
        }
        b'T' => {
            let first = machine.private.remove(0);
            let answer = machine.store_digits(core, line, digits);
            machine.private.insert(0, first);
            answer
        }
        b'M' => machine.call(&Step::Advance { core, by: GREATEST }),
        b'L' => machine.call(&Step::Load { core, line }),
        b'V' => machine.call(&Step::Serve { core }),
        _ => machine.call(&Step::Receive { core }),
    }
}

fn write_bytes(out: &mut Vec<u8>, text: &str, bytes: &[u8]) {
    out.extend_from_slice(text.as_bytes());
    write_hex(out, bytes);
    out.push(b'\n');
}

/// What the program prints at one width.
fn printed(width: usize) -> Vec<u8> {
    let sizes = Sizes { cores: 2, lines: 2, width: width as u32, lease: 10, cap: 2 };
    let mut machine = Machine::open(sizes).unwrap();
    let mut out = format!("width={width}\n").into_bytes();
    for (at, call) in LIST.split(' ').map(str::as_bytes).enumerate() {
        let digits = digits_of(call[3], width, at);
        let number = |byte: u8| u32::from(byte & 15);
        let answer = made(&mut machine, call[0], number(call[1]), number(call[2]), &digits);
        write_record(&mut out, &Record { place: at as u32 + 1, step: None, answer });
    }
    write_bytes(&mut out, "shown data=", machine.show(1, 1));
    let one_wrong = |&at: &usize| {
        let mut digits = right(width + LIST.split(' ').count())[..2 * width].to_vec();
        digits[at] = b'g';
        machine.store_digits(1, 1, &digits) == Answer::Refused(13)
    };
    let refused = (0..2 * width).filter(one_wrong).count();
    out.extend_from_slice(format!("one wrong digit, refused=13: {refused}\n").as_bytes());
    write_bytes(&mut out, "private data=", &machine.private);
    write_bytes(&mut out, "shared data=", &machine.shared);
    out
}

/// What the program is held to is what these calls answer here.
#[test]
fn the_program_of_direct_calls() {
    let expected: Vec<u8> = (1..=64).flat_map(printed).collect();
    let path = concat!(env!("CARGO_MANIFEST_DIR"), "/../../crates/digits/stdout");
    let kept = std::fs::read(path).unwrap();
    let same = expected.iter().zip(&kept).take_while(|(a, b)| a == b).count();
    assert!(expected == kept, "crates/digits/stdout differs from byte {same} on");
}
