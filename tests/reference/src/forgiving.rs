//! The faults of readers that forgive, as those made of getline, strtoul and sscanf
//! do. Each is a change of the journal before it is read: a forgiven line becomes
//! the right line that it is taken for, and one that is passed over takes no place.

use std::borrow::Cow;

use crate::faults::Fault;
use crate::journal::MAX_LINE;

/// The keys of both forms, each after those that stand before it in a line.
const KEYS: [&[u8]; 9] = [b"core", b"cores", b"line", b"lines", b"width", b"lease", b"cap", b"data", b"by"];

impl Fault {
    /// The journal that a reader with this fault takes a journal for. A line that is
    /// too long stays as it is: it is 10 whatever it says.
    pub fn forgiven(self, journal: &[u8]) -> Cow<'_, [u8]> {
        let Some(forgiven) = self.forgives() else {
            return Cow::Borrowed(journal);
        };
        let taken =
            |line: &[u8]| if without_newline(line).len() > MAX_LINE { line.to_vec() } else { forgiven(line) };
        Cow::Owned(journal.split_inclusive(|&byte| byte == b'\n').flat_map(taken).collect())
    }

    /// What a reader with this fault takes each line for, which has its newline with
    /// it where there is one; none if the fault is another one.
    fn forgives(self) -> Option<fn(&[u8]) -> Vec<u8>> {
        Some(match self {
            Fault::SkipsEmptyLines => |line| if line == b"\n" { Vec::new() } else { line.to_vec() },
            Fault::SkipsComments => |line| if line.starts_with(b"#") { Vec::new() } else { line.to_vec() },
            Fault::TakesCarriageReturns => |line| match line.strip_suffix(b"\r\n") {
                Some(text) => [text, b"\n"].concat(),
                None => line.to_vec(),
            },
            Fault::TakesLeadingBlanks => {
                |line| line.iter().copied().skip_while(|&byte| byte == b' ').collect()
            }
            Fault::DropsZeroBytes => |line| line.iter().copied().filter(|&byte| byte != 0).collect(),
            Fault::TakesALineWithoutNewline => |line| [without_newline(line), b"\n"].concat(),
            Fault::TakesKeysInAnyOrder => |line| with_words(line, in_order),
            Fault::TakesPlusSigns => |line| with_words(line, |words| of_each(words, without_plus)),
            Fault::TakesLeadingZeros => |line| with_words(line, |words| of_each(words, without_zeros)),
            Fault::TakesUpperCase => |line| with_words(line, |words| of_each(words, in_lower_case)),
            Fault::TakesUpperCaseHex => |line| with_words(line, |words| of_each(words, with_lower_case_hex)),
            _ => return None,
        })
    }
}

/// A line without its newline, if it has one.
fn without_newline(line: &[u8]) -> &[u8] {
    line.strip_suffix(b"\n").unwrap_or(line)
}

/// A line with its words changed, and the newline as it was.
fn with_words(line: &[u8], change: fn(&mut [Vec<u8>])) -> Vec<u8> {
    let text = without_newline(line);
    let mut words: Vec<Vec<u8>> = text.split(|&byte| byte == b' ').map(<[u8]>::to_vec).collect();
    change(&mut words);
    [&words.join(&b' ')[..], &line[text.len()..]].concat()
}

/// Changes each word that is a key and its value.
fn of_each(words: &mut [Vec<u8>], changed: fn(&[u8], &[u8]) -> Vec<u8>) {
    for word in words {
        if let Some(at) = word.iter().position(|&byte| byte == b'=') {
            *word = changed(&word[..at], &word[at + 1..]);
        }
    }
}

/// A key and its value as a word.
fn word(key: &[u8], value: &[u8]) -> Vec<u8> {
    [key, b"=", value].concat()
}

/// A number without a plus sign before it.
fn without_plus(key: &[u8], value: &[u8]) -> Vec<u8> {
    match value {
        [b'+', digit, ..] if digit.is_ascii_digit() && key != b"data" => word(key, &value[1..]),
        _ => word(key, value),
    }
}

/// A number without leading zeros.
fn without_zeros(key: &[u8], value: &[u8]) -> Vec<u8> {
    match value {
        [b'0', digit, ..] if digit.is_ascii_digit() && key != b"data" => without_zeros(key, &value[1..]),
        _ => word(key, value),
    }
}

/// Key and kind in lower case. Data stay as they are.
fn in_lower_case(key: &[u8], value: &[u8]) -> Vec<u8> {
    match &key.to_ascii_lowercase()[..] {
        b"op" => word(b"op", &value.to_ascii_lowercase()),
        key => word(key, value),
    }
}

/// Data in lower case.
fn with_lower_case_hex(key: &[u8], value: &[u8]) -> Vec<u8> {
    match key {
        b"data" => word(key, &value.to_ascii_lowercase()),
        _ => word(key, value),
    }
}

/// Puts the words after the first one in the order of their keys, if each has a key.
fn in_order(words: &mut [Vec<u8>]) {
    let place =
        |word: &Vec<u8>| KEYS.iter().position(|key| word.split(|&byte| byte == b'=').next() == Some(key));
    let Some((_, rest)) = words.split_first_mut() else {
        return;
    };
    if rest.iter().all(|word| place(word).is_some()) {
        rest.sort_by_key(place);
    }
}
