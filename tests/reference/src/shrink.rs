//! Shrinking of a journal that shows a difference: first whole lines go, then
//! cores and lines get small numbers, the engine gets few lines, data get short,
//! numbers become small, and at last single bytes go.

/// The smallest journal found that still differs. At most `tries` journals are
/// tried.
pub fn shrink(journal: &[u8], tries: u32, mut differs: impl FnMut(&[u8]) -> bool) -> Vec<u8> {
    let mut tries = tries;
    let mut test = |candidate: &[u8]| {
        if tries == 0 {
            return false;
        }
        tries -= 1;
        differs(candidate)
    };
    let mut smallest = journal.to_vec();
    loop {
        let before = smallest.clone();
        smallest = without_lines(smallest, &mut test);
        smallest = with_small_names(smallest, "core=", &mut test);
        smallest = with_small_names(smallest, "line=", &mut test);
        smallest = with_few_lines(smallest, &mut test);
        smallest = with_short_data(smallest, &mut test);
        smallest = with_small_numbers(smallest, &mut test);
        smallest = without_bytes(smallest, &mut test);
        if smallest == before {
            return smallest;
        }
    }
}

/// Takes away runs of lines, long ones first.
fn without_lines(journal: Vec<u8>, test: &mut impl FnMut(&[u8]) -> bool) -> Vec<u8> {
    let mut lines: Vec<&[u8]> = journal.split_inclusive(|&byte| byte == b'\n').collect();
    let mut length = lines.len().div_ceil(2);
    while length > 0 {
        let mut at = lines.len();
        while at > 0 {
            let start = at.saturating_sub(length);
            let rest = [&lines[..start], &lines[at..]].concat();
            if test(&rest.concat()) {
                lines = rest;
            }
            at = start;
        }
        length = if length == 1 { 0 } else { length.div_ceil(2) };
    }
    lines.concat()
}

/// The numbers that stand after a key, each once.
fn numbers_after(journal: &[u8], key: &str) -> Vec<u32> {
    let text = String::from_utf8_lossy(journal);
    let after = text.split([' ', '\n']).filter_map(|word| word.strip_prefix(key)?.parse().ok());
    let mut numbers: Vec<u32> = after.collect();
    numbers.sort_unstable();
    numbers.dedup();
    numbers
}

/// Changes every word of a journal that starts with a key.
fn change_words(journal: &[u8], key: &str, change: impl Fn(&[u8]) -> Vec<u8>) -> Vec<u8> {
    let words = journal.split_inclusive(|&byte| byte == b' ' || byte == b'\n');
    let changed = words.map(|word| {
        let end = word.len() - usize::from(word.ends_with(b" ") || word.ends_with(b"\n"));
        match word[..end].strip_prefix(key.as_bytes()) {
            Some(value) => [key.as_bytes(), &change(value)[..], &word[end..]].concat(),
            None => word.to_vec(),
        }
    });
    changed.collect::<Vec<_>>().concat()
}

/// Gives a core or a line a smaller number everywhere.
fn with_small_names(journal: Vec<u8>, key: &str, test: &mut impl FnMut(&[u8]) -> bool) -> Vec<u8> {
    let mut smallest = journal;
    for number in numbers_after(&smallest, key) {
        let old = number.to_string();
        for small in 0..number.min(4) {
            let rename = |value: &[u8]| match value == old.as_bytes() {
                true => small.to_string().into_bytes(),
                false => value.to_vec(),
            };
            let candidate = change_words(&smallest, key, rename);
            if candidate != smallest && test(&candidate) {
                smallest = candidate;
                break;
            }
        }
    }
    smallest
}

/// Gives the engine fewer lines, and a capacity that is not above them.
fn with_few_lines(journal: Vec<u8>, test: &mut impl FnMut(&[u8]) -> bool) -> Vec<u8> {
    let most = |key| numbers_after(&journal, key).first().copied();
    let (lines, cap) = (most("lines=").unwrap_or(1), most("cap=").unwrap_or(u32::MAX));
    for fewer in 1..lines.min(64) {
        let small = change_words(&journal, "lines=", |_| fewer.to_string().into_bytes());
        let candidate = change_words(&small, "cap=", |_| fewer.min(cap).to_string().into_bytes());
        if test(&candidate) {
            return candidate;
        }
    }
    journal
}

/// Makes the width smaller and cuts all data to it.
fn with_short_data(journal: Vec<u8>, test: &mut impl FnMut(&[u8]) -> bool) -> Vec<u8> {
    for width in 1..numbers_after(&journal, "width=").first().copied().unwrap_or(1).min(64) {
        let narrow = change_words(&journal, "width=", |_| width.to_string().into_bytes());
        let cut = |value: &[u8]| value[..value.len().min(2 * width as usize)].to_vec();
        let candidate = change_words(&narrow, "data=", cut);
        if test(&candidate) {
            return candidate;
        }
    }
    journal
}

/// Replaces each run of digits by a smaller number.
fn with_small_numbers(journal: Vec<u8>, test: &mut impl FnMut(&[u8]) -> bool) -> Vec<u8> {
    let mut smallest = journal;
    let mut at = 0;
    while at < smallest.len() {
        let digits = smallest[at..].iter().take_while(|byte| byte.is_ascii_digit()).count();
        for small in ["0", "1", "2", "3"] {
            let candidate = [&smallest[..at], small.as_bytes(), &smallest[at + digits..]].concat();
            let smaller = digits > 1 || (digits == 1 && small.as_bytes()[0] < smallest[at]);
            if smaller && test(&candidate) {
                smallest = candidate;
                break;
            }
        }
        let left = smallest[at..].iter().take_while(|byte| byte.is_ascii_digit()).count();
        at += left.max(1);
    }
    smallest
}

/// Takes away runs of bytes inside a short journal.
fn without_bytes(journal: Vec<u8>, test: &mut impl FnMut(&[u8]) -> bool) -> Vec<u8> {
    let mut smallest = journal;
    for length in [64, 16, 4, 2, 1] {
        let mut at = 0;
        while at + length <= smallest.len() {
            let candidate = [&smallest[..at], &smallest[at + length..]].concat();
            if test(&candidate) {
                smallest = candidate;
            } else {
                at += length;
            }
        }
    }
    smallest
}
