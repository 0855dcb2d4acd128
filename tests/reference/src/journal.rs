//! The journal: its two forms, its lines, their grammar and the refusals 10 to 14
//! (01, "Journal and driver"; 02, "Evict becomes drop and writeback" and "Caches
//! with a size"), and the text of a step, which the generator writes.

use crate::machine::{Bytes, Sizes, Step};

/// The longest journal and the longest line, newline not counted.
pub const MAX_JOURNAL: usize = 65_536;
pub const MAX_LINE: usize = 200;

/// Hands out the lines of a journal, one at a time.
pub struct Lines<'a> {
    rest: &'a [u8],
}

impl<'a> Lines<'a> {
    pub fn new(journal: &'a [u8]) -> Lines<'a> {
        Lines { rest: journal }
    }

    /// How many bytes are not handed out yet.
    pub fn left(&self) -> usize {
        self.rest.len()
    }
}

impl<'a> Iterator for Lines<'a> {
    /// A line without its newline, or 10.
    type Item = Result<&'a [u8], u32>;

    fn next(&mut self) -> Option<Self::Item> {
        if self.rest.is_empty() {
            return None;
        }
        let Some(end) = self.rest.iter().position(|&byte| byte == b'\n') else {
            self.rest = &[];
            return Some(Err(10));
        };
        let line = &self.rest[..end];
        self.rest = &self.rest[end + 1..];
        Some(if line.len() > MAX_LINE { Err(10) } else { Ok(line) })
    }
}

/// The forms of a journal, which its first line names.
#[derive(Clone, Copy, PartialEq, Eq, Debug)]
pub enum Form {
    /// `fabric=1`: a copy is given up by evict, and a core may hold every line.
    One,
    /// `fabric=2`: drop and writeback stand in the place of evict, the first line
    /// names the capacity, and victim is a step.
    Two,
}

impl Form {
    pub const ALL: [Form; 2] = [Form::One, Form::Two];

    /// The text that a first line of this form starts with.
    pub fn start(self) -> &'static str {
        match self {
            Form::One => "fabric=1",
            Form::Two => "fabric=2",
        }
    }

    /// Whether the form has steps of this kind.
    pub fn has_kind(self, kind: &[u8]) -> bool {
        match kind {
            b"evict" => self == Form::One,
            b"drop" | b"writeback" | b"victim" => self == Form::Two,
            _ => KINDS.iter().any(|known| known.as_bytes() == kind),
        }
    }

    /// The other one of the two.
    pub fn other(self) -> Form {
        match self {
            Form::One => Form::Two,
            Form::Two => Form::One,
        }
    }
}

/// The kinds of steps that both forms have.
const KINDS: [&str; 8] = ["load", "store", "fence", "advance", "serve", "receive", "yield", "take"];

/// Reads the opening line: the form, the sizes, the lease and the capacity, or 11
/// or 12. The limits of the sizes are not looked at here.
pub fn opening(line: &[u8]) -> Result<(Form, Sizes), u32> {
    let after = |form: Form| Some((form, line.strip_prefix(form.start().as_bytes())?));
    let (form, rest) = Form::ALL.into_iter().find_map(after).ok_or(11u32)?;
    let ([cores, lines, width, lease], cap) = match form {
        Form::One => (fields(rest, [" cores=", " lines=", " width=", " lease="])?, None),
        Form::Two => {
            let keys = [" cores=", " lines=", " width=", " lease=", " cap="];
            let [cores, lines, width, lease, cap] = fields(rest, keys)?;
            ([cores, lines, width, lease], Some(cap))
        }
    };
    let (cores, lines, width, lease) = (number(cores)?, number(lines)?, number(width)?, number(lease)?);
    let cap = cap.map_or(Ok(lines), number)?;
    Ok((form, Sizes { cores, lines, width, lease, cap }))
}

/// Reads a step line of a journal of this form: the step, or 11, 12 or 13.
pub fn step(form: Form, line: &[u8]) -> Result<Step, u32> {
    let (kind, rest) = kind(line).filter(|(kind, _)| form.has_kind(kind)).ok_or(11u32)?;
    match kind {
        b"load" => core_and_line(rest).map(|(core, line)| Step::Load { core, line }),
        b"evict" => core_and_line(rest).map(|(core, line)| Step::Evict { core, line }),
        b"drop" => core_and_line(rest).map(|(core, line)| Step::Drop { core, line }),
        b"writeback" => core_and_line(rest).map(|(core, line)| Step::Writeback { core, line }),
        b"store" => {
            let [core, line, data] = fields(rest, [" core=", " line=", " data="])?;
            let (core, line) = (number(core)?, number(line)?);
            Ok(Step::Store { core, line, data: hex(data)? })
        }
        b"fence" => one(rest, " core=").map(|core| Step::Fence { core }),
        b"serve" => one(rest, " core=").map(|core| Step::Serve { core }),
        b"receive" => one(rest, " core=").map(|core| Step::Receive { core }),
        b"advance" => {
            let [core, by] = fields(rest, [" core=", " by="])?;
            Ok(Step::Advance { core: number(core)?, by: number(by)? })
        }
        b"yield" => one(rest, " line=").map(|line| Step::Yield { line }),
        b"take" => one(rest, " line=").map(|line| Step::Take { line }),
        b"victim" => one(rest, " core=").map(|core| Step::Victim { core }),
        _ => Err(11),
    }
}

/// What the host simulator gets for one step line without newline: 0, 10, 11,
/// 12 or 13. It keeps to `fabric=1`.
pub fn check_line(line: &[u8]) -> u32 {
    if line.len() > MAX_LINE {
        return 10;
    }
    step(Form::One, line).err().unwrap_or(0)
}

/// The word after `op=`, and what comes after it.
fn kind(line: &[u8]) -> Option<(&[u8], &[u8])> {
    let rest = line.strip_prefix(b"op=")?;
    Some(rest.split_at(value_length(rest)))
}

fn core_and_line(rest: &[u8]) -> Result<(u32, u32), u32> {
    let [core, line] = fields(rest, [" core=", " line="])?;
    Ok((number(core)?, number(line)?))
}

fn one(rest: &[u8], key: &str) -> Result<u32, u32> {
    let [value] = fields(rest, [key])?;
    number(value)
}

/// The length of a value: up to the next blank or the line's end.
fn value_length(text: &[u8]) -> usize {
    text.iter().position(|&byte| byte == b' ').unwrap_or(text.len())
}

/// The values of the given keys, which must stand in this order and fill the
/// text to its end; else 11. Each key is given with the blank before it.
fn fields<'a, const K: usize>(text: &'a [u8], keys: [&str; K]) -> Result<[&'a [u8]; K], u32> {
    let mut rest = text;
    let mut values = [text; K];
    for (value, key) in values.iter_mut().zip(keys) {
        rest = rest.strip_prefix(key.as_bytes()).ok_or(11u32)?;
        (*value, rest) = rest.split_at(value_length(rest));
    }
    if rest.is_empty() {
        Ok(values)
    } else {
        Err(11)
    }
}

/// A decimal number without leading zero up to 4,294,967,295, or 12.
fn number(text: &[u8]) -> Result<u32, u32> {
    if text.is_empty() || (text.len() > 1 && text[0] == b'0') {
        return Err(12);
    }
    let mut value: u32 = 0;
    for &byte in text {
        if !byte.is_ascii_digit() {
            return Err(12);
        }
        let digit = u32::from(byte - b'0');
        value = value.checked_mul(10).and_then(|tens| tens.checked_add(digit)).ok_or(12u32)?;
    }
    Ok(value)
}

/// Lower-case hex pairs, at least one, or 13.
pub fn hex(text: &[u8]) -> Result<Bytes, u32> {
    if text.is_empty() || text.len() & 1 == 1 {
        return Err(13);
    }
    let mut bytes = [0; crate::machine::MAX_DATA];
    for (byte, pair) in bytes.iter_mut().zip(text.chunks_exact(2)) {
        *byte = 16 * hex_digit(pair[0])? + hex_digit(pair[1])?;
    }
    Ok(Bytes::new(&bytes[..text.len() / 2]))
}

fn hex_digit(byte: u8) -> Result<u8, u32> {
    match byte {
        b'0'..=b'9' => Ok(byte - b'0'),
        b'a'..=b'f' => Ok(byte - b'a' + 10),
        _ => Err(13),
    }
}

// ---- Text ----

/// Writes a number in decimal.
pub fn write_number(out: &mut Vec<u8>, number: u32) {
    let mut digits = [0; 10];
    let mut at = digits.len();
    let mut rest = number;
    loop {
        at -= 1;
        digits[at] = b'0' + (rest % 10) as u8;
        rest /= 10;
        if rest == 0 {
            break;
        }
    }
    out.extend_from_slice(&digits[at..]);
}

/// Writes bytes as lower-case hex pairs.
pub fn write_hex(out: &mut Vec<u8>, bytes: &[u8]) {
    const DIGITS: &[u8; 16] = b"0123456789abcdef";
    for &byte in bytes {
        out.push(DIGITS[usize::from(byte >> 4)]);
        out.push(DIGITS[usize::from(byte & 15)]);
    }
}

/// Writes a key with its blank and `=`, and a number.
pub fn write_field(out: &mut Vec<u8>, key: &str, number: u32) {
    out.extend_from_slice(key.as_bytes());
    write_number(out, number);
}

/// Writes an opening line without newline. The first form does not say the
/// capacity.
pub fn write_opening(out: &mut Vec<u8>, form: Form, sizes: &Sizes) {
    out.extend_from_slice(form.start().as_bytes());
    write_field(out, " cores=", sizes.cores);
    write_field(out, " lines=", sizes.lines);
    write_field(out, " width=", sizes.width);
    write_field(out, " lease=", sizes.lease);
    if form == Form::Two {
        write_field(out, " cap=", sizes.cap);
    }
}

/// The word of a line that starts like a step, if the form has no steps of that
/// kind.
pub fn unknown_kind(form: Form, line: &[u8]) -> Option<&[u8]> {
    let (kind, _) = kind(line)?;
    (!kind.is_empty() && !form.has_kind(kind)).then_some(kind)
}

/// The name of a step's kind.
pub fn kind_name(step: &Step) -> &'static str {
    match step {
        Step::Load { .. } => "load",
        Step::Store { .. } => "store",
        Step::Fence { .. } => "fence",
        Step::Evict { .. } => "evict",
        Step::Drop { .. } => "drop",
        Step::Writeback { .. } => "writeback",
        Step::Advance { .. } => "advance",
        Step::Serve { .. } => "serve",
        Step::Receive { .. } => "receive",
        Step::Yield { .. } => "yield",
        Step::Take { .. } => "take",
        Step::Victim { .. } => "victim",
    }
}

/// Writes a step line without newline.
pub fn write_step(out: &mut Vec<u8>, step: &Step) {
    out.extend_from_slice(b"op=");
    out.extend_from_slice(kind_name(step).as_bytes());
    if let Some(core) = step.core() {
        write_field(out, " core=", core);
    }
    if let Some(line) = step.line() {
        write_field(out, " line=", line);
    }
    match step {
        Step::Store { data, .. } => {
            out.extend_from_slice(b" data=");
            write_hex(out, data.as_slice());
        }
        Step::Advance { by, .. } => write_field(out, " by=", *by),
        _ => {}
    }
}
