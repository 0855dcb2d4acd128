//! Damage to journals: every refusal number that a journal can reach, at every
//! position, and the edges of every limit.

use crate::journal::{opening, write_opening, Form, MAX_JOURNAL};
use crate::machine::Sizes;
use crate::random::Random;

/// Damages a good journal of a form in one of many ways.
pub fn damage(random: &mut Random, form: Form, text: Vec<u8>) -> Vec<u8> {
    match random.below(100) {
        0..=46 => with_bad_line(random, form, text),
        47..=54 => with_bad_cap(random, text),
        55..=62 => with_bad_bytes(random, text),
        63..=66 => without_last_newline(text),
        67..=69 => cut(random, text),
        70..=78 => with_sizes_outside(random, form, text),
        79..=84 => of_length(random, text),
        85..=88 => whole_oddity(random, form),
        89..=90 => with_carriage_returns(random, text),
        91..=92 => without_opening(text),
        93..=96 => with_other_start(random, form, text),
        _ => with_second_opening(random, text),
    }
}

/// The lines of a text, each with its newline.
fn lines(text: &[u8]) -> Vec<Vec<u8>> {
    text.split_inclusive(|&byte| byte == b'\n').map(<[u8]>::to_vec).collect()
}

/// A position for a bad line: the opening, the first step, the last step, after
/// the last step, or anywhere.
fn position(random: &mut Random, lines: usize) -> usize {
    match random.below(10) {
        0 => 0,
        1 => 1.min(lines),
        2 => lines - 1,
        3 => lines,
        _ => random.below(lines as u32 + 1) as usize,
    }
}

/// Puts a bad line somewhere, instead of a good one or between two.
fn with_bad_line(random: &mut Random, form: Form, text: Vec<u8>) -> Vec<u8> {
    let mut lines = lines(&text);
    let at = position(random, lines.len());
    let mut bad = if at == 0 { bad_opening(random, form) } else { bad_step(random, form) };
    bad.push(b'\n');
    if at < lines.len() && (at == 0 || random.percent(50)) {
        lines[at] = bad;
    } else {
        lines.insert(at, bad);
    }
    lines.concat()
}

/// A step line of a form with something wrong; in a few cases it turns out to be
/// right.
pub fn bad_step(random: &mut Random, form: Form) -> Vec<u8> {
    match random.below(8) {
        0 => long_line(random),
        1 | 2 => no_form(random),
        3 => of_other_form(random, form),
        4 | 5 => bad_number(random, form),
        6 => bad_data(random),
        _ => several_wrongs(random),
    }
}

/// An opening line with something wrong, of a form where it has one.
fn bad_opening(random: &mut Random, form: Form) -> Vec<u8> {
    const NO_FORM: &[&str] = &[
        "",
        " ",
        "fabric=1",
        "fabric=2",
        "fabric=0 cores=1 lines=1 width=1 lease=1",
        "fabric=6 cores=1 lines=1 width=1 lease=1",
        "fabric=11 cores=1 lines=1 width=1 lease=1",
        "fabric=12 cores=1 lines=1 width=1 lease=1",
        "fabric=01 cores=1 lines=1 width=1 lease=1",
        "fabric=02 cores=1 lines=1 width=1 lease=1",
        "fabric= cores=1 lines=1 width=1 lease=1",
        "fabric=1 cores=1 lines=1 width=1",
        "fabric=2 cores=1 lines=1 width=1",
        "fabric=2 cores=1 lines=1 width=1 cap=1",
        "fabric=2 cores=1 lines=1 width=1 lease=1",
        "fabric=1 cores=1 lines=1 width=1 lease=1 ",
        "fabric=2 cores=1 lines=1 width=1 lease=1 ",
        "fabric=2 cores=1 lines=1 width=1 lease=1 cap=1 ",
        " fabric=1 cores=1 lines=1 width=1 lease=1",
        "fabric=1  cores=1 lines=1 width=1 lease=1",
        "fabric=2  cores=1 lines=1 width=1 lease=1 cap=1",
        "fabric=1 lines=1 cores=1 width=1 lease=1",
        "fabric=2 cores=1 width=1 lines=1 lease=1 cap=1",
        "fabric=1 cores=1 lines=1 width=1 lease=1 x=1",
        "fabric=2 cores=1 lines=1 width=1 lease=1 cap=1 x=1",
        "fabric=1 cores=1 lines=1 width=1 lease=1 cap=1",
        "fabric=6 cores=1 lines=1 width=1 lease=1 cap=1",
        "fabric=02 cores=1 lines=1 width=1 lease=1 cap=1",
        "fabric=22 cores=1 lines=1 width=1 lease=1 cap=1",
        "fabric=1\tcores=1\tlines=1\twidth=1\tlease=1",
        "FABRIC=1 cores=1 lines=1 width=1 lease=1",
        "op=take line=0",
    ];
    let start = form.start();
    match random.below(4) {
        0 => random.pick(NO_FORM).as_bytes().to_vec(),
        1 => long_line(random),
        2 => {
            let keys = size_keys(form);
            let mut values: Vec<_> = keys.iter().map(|_| random.between(1, 10).to_string()).collect();
            for _ in 0..random.between(1, 2) {
                values[random.below(keys.len() as u32) as usize] = wrong_number(random);
            }
            let sizes = keys.iter().zip(values).map(|(key, value)| format!(" {key}={value}"));
            format!("{start}{}", sizes.collect::<String>()).into_bytes()
        }
        _ => {
            let last = if form == Form::Two { "1 cap=" } else { "" };
            let keys = format!("{start} cores=1 lines=1 width=1 lease={last}");
            let value = long_value(random, keys.len(), b"0123456789");
            [keys.as_bytes(), &value[..]].concat()
        }
    }
}

/// The keys of a form's first line, in their order.
fn size_keys(form: Form) -> &'static [&'static str] {
    match form {
        Form::One => &["cores", "lines", "width", "lease"],
        Form::Two => &["cores", "lines", "width", "lease", "cap"],
    }
}

/// Line lengths around the limit of 200 bytes.
fn edge_length(random: &mut Random) -> usize {
    random.pick(&[198, 199, 199, 200, 200, 200, 201, 201, 201, 202, 255, 256, 400, 4000])
}

/// A value that brings a line up to a length around the limit.
fn long_value(random: &mut Random, before: usize, from: &[u8]) -> Vec<u8> {
    (before..edge_length(random)).map(|_| random.pick(from)).collect()
}

/// A line around the limit of 200 bytes: a store with much data (10, 13 or 5),
/// a long number, or no form at all.
fn long_line(random: &mut Random) -> Vec<u8> {
    let (start, from): (&str, &[u8]) = random.pick(&[
        ("op=store core=0 line=0 data=", b"0123456789abcdef" as &[u8]),
        ("op=store core=10 line=0 data=", b"0123456789abcdef"),
        ("op=store core=0 line=0 data=", b"0123456789ABCDEF"),
        ("op=fence core=", b"0123456789"),
        ("op=advance core=0 by=", b"0"),
        ("", b"abc =\t"),
        ("op=take line=0", b" "),
    ]);
    let value = long_value(random, start.len(), from);
    [start.as_bytes(), &value[..]].concat()
}

/// A line that is not a form of the grammar.
fn no_form(random: &mut Random) -> Vec<u8> {
    const NO_FORM: &[&str] = &[
        "",
        " ",
        "x",
        "op",
        "op=",
        "=",
        "op= core=0",
        "# op=take line=0",
        "op=loads core=0 line=0",
        "op=Load core=0 line=0",
        "OP=load core=0 line=0",
        "op=load",
        "op=load ",
        "op=load core=0",
        "op=load core=0 ",
        "op=load line=0 core=0",
        "op=load core=0 line=0 ",
        " op=load core=0 line=0",
        "op=load  core=0 line=0",
        "op=load core=0  line=0",
        "op=load core=0 line=0 data=00",
        "op=load core=0\tline=0",
        "op=load core=0line=0",
        "op=load core 0 line 0",
        "op=load Core=0 line=0",
        "op=store core=0 line=0",
        "op=store core=0 line=0 data",
        "op=store core=0 data=00 line=0",
        "op=store core=0 line=0 data=00 ",
        "op=store core=0 line=0 data=0 0",
        "op=fence",
        "op=fence core=0 line=0",
        "op=fence line=0",
        "op=evict core=0",
        "op=advance core=0",
        "op=advance by=1 core=0",
        "op=advance core=0 by",
        "op=serve line=0",
        "op=receive",
        "op=yield core=0",
        "op=yield line=0 core=0",
        "op=take core=0",
        "op=take",
        "op=take line=0 line=0",
        "op=show core=0 line=0",
        "op=open",
        "fabric=1",
        "op=load core=0 core=0 line=0",
        "op=load\0core=0 line=0",
        "op=load core=0 lines=0",
        "op=drop core=0",
        "op=drop line=0 core=0",
        "op=drop core=0 line=0 ",
        "op=drops core=0 line=0",
        "op=writeback line=0",
        "op=writeback core=0 line=0 data=00",
        "op=write core=0 line=0",
        "op=writeback  core=0 line=0",
        "fabric=2",
        "op=victim",
        "op=victim ",
        "op=victim line=0",
        "op=victim core=0 line=0",
        "op=victim core=0 ",
        "op=victims core=0",
        "op=victim  core=0",
        "op=victim cores=0",
    ];
    random.pick(NO_FORM).as_bytes().to_vec()
}

/// A line of the other form that is none of this one.
fn of_other_form(random: &mut Random, form: Form) -> Vec<u8> {
    let (core, line) = (fair_number(random), fair_number(random));
    let kind = match form {
        Form::One => random.pick(&["drop", "writeback", "victim"]),
        Form::Two => "evict",
    };
    match kind {
        "victim" => format!("op=victim core={core}").into_bytes(),
        _ => format!("op={kind} core={core} line={line}").into_bytes(),
    }
}

/// A value that is no number.
fn wrong_number(random: &mut Random) -> String {
    const WRONG: &[&str] = &[
        "",
        "x",
        "00",
        "01",
        "000",
        "4294967296",
        "4294967300",
        "10000000000",
        "99999999999999999999",
        "18446744073709551616",
        "18446744073709551617",
        "+1",
        "-1",
        "-0",
        "1.0",
        "0x1",
        "1e3",
        "1,000",
        "1_0",
        "1\t",
        "\t1",
        "0\r",
        "1=",
        "=1",
        "١",
        "1\0",
        "a1",
        "1a",
        "1/",
        "1:",
        "9223372036854775808",
    ];
    random.pick(WRONG).to_string()
}

/// Data that are no hex pairs.
fn wrong_data(random: &mut Random) -> String {
    const WRONG: &[&str] = &[
        "", "0", "000", "0g", "g0", "AB", "aB", "Ab", "0x07", "07,", "0\t", "07\r", "é", "==", "0/", "0:",
        "0`", "/0", ":0", "`0",
    ];
    random.pick(WRONG).to_string()
}

/// Numbers for a good line; also the greatest, which is one of the grammar.
fn fair_number(random: &mut Random) -> String {
    random.pick(&["0", "0", "0", "1", "2", "15", "63", "4294967295", "100"]).to_string()
}

/// A line of a known kind with one number wrong.
fn bad_number(random: &mut Random, form: Form) -> Vec<u8> {
    let mut values = [fair_number(random), fair_number(random)];
    let kind = random.below(if form == Form::Two { 10 } else { 9 });
    let wrong = if kind < 4 { random.below(2) } else { 0 };
    values[wrong as usize] = wrong_number(random);
    let [one, two] = values;
    let text = match kind {
        0 => format!("op=load core={one} line={two}"),
        1 => {
            let eviction = match form {
                Form::One => "evict",
                Form::Two => random.pick(&["drop", "writeback"]),
            };
            format!("op={eviction} core={one} line={two}")
        }
        2 => format!("op=store core={one} line={two} data=00"),
        3 => format!("op=advance core={one} by={two}"),
        4 => format!("op=fence core={one}"),
        5 => format!("op=serve core={one}"),
        6 => format!("op=receive core={one}"),
        7 => format!("op=yield line={one}"),
        8 => format!("op=take line={one}"),
        _ => format!("op=victim core={one}"),
    };
    text.into_bytes()
}

/// A store whose data are wrong and whose numbers are right.
fn bad_data(random: &mut Random) -> Vec<u8> {
    let (core, line, data) = (fair_number(random), fair_number(random), wrong_data(random));
    format!("op=store core={core} line={line} data={data}").into_bytes()
}

/// A store with more than one wrong, so that the order of the checks counts.
fn several_wrongs(random: &mut Random) -> Vec<u8> {
    let core = if random.percent(50) { wrong_number(random) } else { fair_number(random) };
    let line = if random.percent(50) { wrong_number(random) } else { fair_number(random) };
    let data = if random.percent(60) { wrong_data(random) } else { "00".to_string() };
    let more = random.pick(&["", "", "", " ", " x=1"]);
    let mut text = format!("op=store core={core} line={line} data={data}{more}").into_bytes();
    if random.percent(15) {
        let length = edge_length(random).max(text.len());
        let fill = random.pick(b" 0g");
        text.resize(length, fill);
    }
    text
}

/// Changes, adds or removes a few bytes anywhere.
fn with_bad_bytes(random: &mut Random, mut text: Vec<u8>) -> Vec<u8> {
    const BYTES: &[u8] = b" =\n\t\r\x00019af_gAFxz\x7f\x80\xff";
    for _ in 0..random.between(1, 3) {
        let at = random.below(text.len() as u32) as usize;
        match random.below(3) {
            0 => text[at] = random.pick(BYTES),
            1 => text.insert(at, random.pick(BYTES)),
            _ => drop(text.remove(at)),
        }
    }
    text
}

fn without_last_newline(mut text: Vec<u8>) -> Vec<u8> {
    text.pop();
    text
}

/// Ends the journal in the middle.
fn cut(random: &mut Random, mut text: Vec<u8>) -> Vec<u8> {
    let length = random.below(text.len() as u32 + 1) as usize;
    text.truncate(length);
    text
}

/// An opening with one or more sizes outside the limits, or just inside.
pub fn with_sizes_outside(random: &mut Random, form: Form, text: Vec<u8>) -> Vec<u8> {
    let mut sizes = Sizes::SMALLEST;
    for _ in 0..random.between(1, 2) {
        match random.below(size_keys(form).len() as u32) {
            0 => sizes.cores = random.pick(&[0, 17, 16, 32, 65_536, u32::MAX]),
            1 => sizes.lines = random.pick(&[0, 65, 64, 128, 65_536, u32::MAX]),
            2 => sizes.width = random.pick(&[0, 65, 64, 128, 65_536, u32::MAX]),
            3 => sizes.lease = random.pick(&[0, 1001, 1000, 65_536, u32::MAX]),
            _ => {
                sizes.lines = random.pick(&[1, 2, 3, 64]);
                sizes.cap = random.pick(&[0, 0, sizes.lines, sizes.lines + 1, 65, u32::MAX]);
            }
        }
    }
    with_opening(form, &sizes, text)
}

/// A journal with another first line.
fn with_opening(form: Form, sizes: &Sizes, text: Vec<u8>) -> Vec<u8> {
    let mut lines = lines(&text);
    lines[0].clear();
    write_opening(&mut lines[0], form, sizes);
    lines[0].push(b'\n');
    lines.concat()
}

/// A first line whose cap is not there, is there twice or at another place, has
/// another name or another value, or, in the first form, is there at all.
fn with_bad_cap(random: &mut Random, text: Vec<u8>) -> Vec<u8> {
    let mut lines = lines(&text);
    let opening = String::from_utf8_lossy(&lines[0]).trim_end().to_string();
    let (sizes, cap) = opening.split_once(" cap=").unwrap_or((&opening, "1"));
    let (before, lease) = sizes.split_once(" lease=").unwrap_or((sizes, "1"));
    let wrong = wrong_number(random);
    let above = opened_sizes(&text).lines.saturating_add(1);
    let bad = match random.below(14) {
        0 | 1 => sizes.to_string(),
        2 | 3 => format!("{sizes} cap={cap} cap={cap}"),
        4 | 5 => format!("{before} cap={cap} lease={lease}"),
        6 => format!("{sizes} {}{cap}", random.pick(&["Cap=", "caps=", "cap", "cap =", " cap=", "", "="])),
        7 | 8 => format!("{sizes} cap={wrong}"),
        9 => format!("{before} lease={wrong} cap={wrong}"),
        10 | 11 => format!("{sizes} cap={}", random.pick(&[0, 0, above, above, 65, u32::MAX])),
        _ => format!("{sizes} cap={cap}{}", random.pick(&["", " ", "0", "00", "99999999", " lease=1"])),
    };
    lines[0] = format!("{bad}\n").into_bytes();
    lines.concat()
}

/// A journal of a length around the limit of 65,536 bytes or far above it. The
/// journal is repeated without its opening until it is long enough.
fn of_length(random: &mut Random, mut text: Vec<u8>) -> Vec<u8> {
    let length = random.pick(&[
        MAX_JOURNAL - 1,
        MAX_JOURNAL,
        MAX_JOURNAL,
        MAX_JOURNAL + 1,
        MAX_JOURNAL + 1,
        MAX_JOURNAL + 2,
        70_000,
        131_072,
        200_000,
    ]);
    let opening = text.iter().position(|&byte| byte == b'\n').map_or(0, |end| end + 1);
    let mut steps = text[opening..].to_vec();
    if steps.is_empty() {
        steps = b"op=take line=0\n".to_vec();
    }
    while text.len() < length {
        text.extend_from_slice(&steps);
    }
    text.truncate(length);
    if random.percent(70) {
        text[length - 1] = b'\n';
    }
    if random.percent(10) {
        text[0] = b'x';
    }
    text
}

/// Whole inputs of a few bytes, of a form where they have one.
fn whole_oddity(random: &mut Random, form: Form) -> Vec<u8> {
    const ODD: &[&str] = &[
        "",
        "",
        "",
        "\n",
        "\n\n",
        " ",
        "\0",
        "fabric=1",
        "fabric=1 cores=1 lines=1 width=1 lease=1",
        "fabric=1 cores=1 lines=1 width=1 lease=1\n",
        "fabric=1 cores=1 lines=1 width=1 lease=1\n\n",
        "fabric=1 cores=1 lines=1 width=1 lease=1\n ",
        "fabric=1 cores=0 lines=1 width=1 lease=1",
    ];
    let odd = random.pick(ODD).replace(Form::One.start(), form.start());
    match form {
        Form::One => odd.into_bytes(),
        Form::Two => odd.replace("lease=1", "lease=1 cap=1").into_bytes(),
    }
}

/// Ends every line, or every line after the opening, with a carriage return.
fn with_carriage_returns(random: &mut Random, text: Vec<u8>) -> Vec<u8> {
    let first = usize::from(random.percent(50));
    let mut lines = lines(&text);
    for line in &mut lines[first..] {
        line.insert(line.len() - 1, b'\r');
    }
    lines.concat()
}

fn without_opening(text: Vec<u8>) -> Vec<u8> {
    lines(&text)[1..].concat()
}

/// Lets a journal start as one of the other form, mostly with a first line that
/// this one has.
fn with_other_start(random: &mut Random, form: Form, text: Vec<u8>) -> Vec<u8> {
    if random.percent(25) {
        return [form.other().start().as_bytes(), &text[form.start().len()..]].concat();
    }
    let sizes = opened_sizes(&text);
    with_opening(form.other(), &sizes, text)
}

/// The sizes that a good journal opens.
fn opened_sizes(text: &[u8]) -> Sizes {
    let line = text.split(|&byte| byte == b'\n').next().unwrap_or(&[]);
    opening(line).map_or(Sizes::SMALLEST, |(_, sizes)| sizes)
}

/// Puts a first line of either form between two lines.
fn with_second_opening(random: &mut Random, text: Vec<u8>) -> Vec<u8> {
    let mut lines = lines(&text);
    let at = position(random, lines.len());
    let mut opening = Vec::new();
    write_opening(&mut opening, random.pick(&Form::ALL), &opened_sizes(&text));
    opening.push(b'\n');
    lines.insert(at, opening);
    lines.concat()
}
