//! The faults of the conversion between the forms. Each bends what `convert.rs` has
//! worked out rightly: its checks, what it reads, what becomes of a step, the text.

use std::borrow::Cow;

use crate::convert::Check;
use crate::faults::Fault;
use crate::journal::{write_field, Form};
use crate::machine::*;

impl Fault {
    /// Whether this is a fault of the conversion.
    pub fn of_conversion(self) -> bool {
        ["to1-", "to2-", "convert-"].iter().any(|start| self.name().starts_with(start))
    }

    /// The checks in the order in which they are made.
    pub fn checks(self) -> [Check; 5] {
        use Check::{Input, Lines, Room, Sizes, Unfit};
        match self {
            Fault::ConvertLinesBefore14 => [Lines, Input, Sizes, Unfit, Room],
            Fault::Convert7Before14 => [Sizes, Input, Lines, Unfit, Room],
            Fault::To132Before14 => [Unfit, Input, Lines, Sizes, Room],
            Fault::Convert7BeforeLines => [Input, Sizes, Lines, Unfit, Room],
            Fault::To132BeforeLines => [Input, Unfit, Lines, Sizes, Room],
            Fault::ConvertRoomBeforeLines => [Input, Room, Lines, Sizes, Unfit],
            Fault::To132Before7 => [Input, Lines, Unfit, Sizes, Room],
            Fault::ConvertRoomBefore7 => [Input, Lines, Room, Sizes, Unfit],
            Fault::To1Room14Before32 => [Input, Lines, Sizes, Room, Unfit],
            _ => Check::ALL,
        }
    }

    /// The longest result that is given, where this is the right one.
    pub fn longest_result(self, right: usize) -> usize {
        match self {
            Fault::ConvertLongResult => usize::MAX,
            Fault::ConvertShortRoom => right - 1,
            _ => right,
        }
    }

    // ---- What is read ----

    /// Whether a journal is handed back unread.
    pub fn takes_as_it_is(self, to: Form, journal: &[u8]) -> bool {
        match self {
            Fault::ConvertEmptyTaken => journal.is_empty(),
            Fault::ConvertOtherFormCopied => journal.starts_with(to.start().as_bytes()),
            _ => false,
        }
    }

    /// The bytes that are read.
    pub fn journal_read(self, journal: &[u8]) -> Cow<'_, [u8]> {
        match journal.last() {
            Some(last) if self == Fault::ConvertNewlineAdded && *last != b'\n' => {
                Cow::Owned([journal, b"\n"].concat())
            }
            _ => self.forgiven(journal),
        }
    }

    /// The step lines that are read.
    pub fn lines_read(self, mut lines: Vec<Result<Step, u32>>) -> Vec<Result<Step, u32>> {
        match (self, lines.iter().position(Result::is_err)) {
            (Fault::ConvertStopsAtBadLine, Some(bad)) => lines.truncate(bad),
            (Fault::ConvertBadLinePassedOver, Some(bad)) => drop(lines.remove(bad)),
            _ => {}
        }
        lines
    }

    /// The number that malformed step lines give.
    pub fn malformed(self, lines: &[Result<Step, u32>]) -> Option<u32> {
        let mut numbers = lines.iter().filter_map(|line| line.err());
        match self {
            Fault::ConvertLastBadLine => numbers.last(),
            Fault::ConvertSmallestNumber => numbers.min(),
            _ => numbers.next(),
        }
    }

    // ---- What becomes of a step ----

    /// Whether the copy that a step names is taken for an owned one, beside the
    /// machine on which the step is played and what is right there.
    pub fn holds_owned(self, right: bool, machine: &Machine, steps: &[Step], at: usize) -> bool {
        let Step::Evict { core, line } = steps[at] else {
            return right;
        };
        let Sizes { cores, lines, .. } = machine.state.sizes;
        let inside = core < cores && line < lines;
        match self {
            Fault::To2AllDrop => false,
            Fault::To2AllWriteback => true,
            Fault::To2AnyCopy => inside && machine.copy(core, line) != PrivateCopy::None,
            Fault::To2AllButShared => {
                inside && !matches!(machine.copy(core, line), PrivateCopy::Shared { .. })
            }
            Fault::To2DirtyOnly => {
                inside && matches!(machine.copy(core, line), PrivateCopy::Owned { dirty: true, .. })
            }
            Fault::To2ByLastMachine => inside && owned(&played(machine, steps), core, line),
            Fault::To2OneStepEarly => {
                inside && owned(&played(machine, &steps[..at.saturating_sub(1)]), core, line)
            }
            Fault::To2ByManager => {
                inside && machine.state.lines[line as usize].holder == Holder::Owned { core }
            }
            Fault::To2OfAnyCore => inside && (0..cores).any(|other| owned(machine, other, line)),
            Fault::To2OfAnyLine => inside && (0..lines).any(|other| owned(machine, core, other)),
            Fault::To2WrappedCore => line < lines && owned(machine, core % cores, line),
            Fault::To2WrappedLine => core < cores && owned(machine, core, line % lines),
            Fault::To2FlatIndex => {
                let index = u64::from(core) * u64::from(lines) + u64::from(line);
                let (core, line) = (index / u64::from(lines), index % u64::from(lines));
                core < u64::from(cores) && owned(machine, core as u32, line as u32)
            }
            _ => right,
        }
    }

    /// Whether the capacity is taken for one that the first form does not have.
    pub fn unfit_cap(self, right: bool) -> bool {
        right && self != Fault::To1CapTaken
    }

    /// Whether a step with this answer is taken for a victim step.
    pub fn unfit_victim(self, right: bool, answer: Option<Answer>) -> bool {
        match self {
            Fault::To1VictimKept | Fault::To1VictimLeftOut => false,
            Fault::To1RefusedVictimLeftOut => right && !matches!(answer, Some(Answer::Refused(_))),
            _ => right,
        }
    }

    /// Whether a step with this answer is taken for one that answers 30.
    pub fn unfit_answer(self, right: bool, step: &Step, answer: Option<Answer>) -> bool {
        let drops = matches!(step, Step::Drop { .. });
        let eviction = drops || matches!(step, Step::Writeback { .. });
        let number = match answer {
            Some(Answer::Refused(number)) => number,
            _ => 0,
        };
        match self {
            Fault::To130Taken => false,
            Fault::To130OfDropTaken => right && !drops,
            Fault::To130OfWritebackTaken => right && drops,
            Fault::To132For3 => right || eviction && number == 3,
            Fault::To132For4 => right || eviction && number == 4,
            Fault::To132For26 => right || eviction && number == 26,
            Fault::To132ForRefusals => right || !eviction && number != 0,
            _ => right,
        }
    }

    /// Whether a step's line is not in the result.
    pub fn leaves_out(self, step: &Step, answer: Option<Answer>) -> bool {
        let refused = matches!(answer, Some(Answer::Refused(_)));
        match self {
            Fault::To1VictimLeftOut => matches!(step, Step::Victim { .. }),
            Fault::To1RefusedVictimLeftOut => matches!(step, Step::Victim { .. }) && refused,
            Fault::To2RefusedLeftOut => matches!(step, Step::Evict { .. }) && refused,
            Fault::ConvertRefusedLeftOut => refused,
            _ => false,
        }
    }

    /// The step that is spelled in the place of the right one.
    pub fn step_spelled(self, step: Step, right: Step, sizes: Sizes) -> Step {
        match (self, step) {
            (Fault::To2EvictKept, Step::Evict { .. })
            | (Fault::To1DropKept, Step::Drop { .. })
            | (Fault::To1WritebackKept, Step::Writeback { .. }) => step,
            (Fault::ConvertDataToWidth, Step::Store { core, line, data }) => {
                let width = data.as_slice().len().min(sizes.width as usize);
                Step::Store { core, line, data: Bytes::new(&data.as_slice()[..width]) }
            }
            _ => right,
        }
    }

    // ---- The text ----

    /// Bends the first line's text.
    pub fn opening_spelled(self, line: &mut Vec<u8>, sizes: Sizes) {
        let second = line.starts_with(Form::Two.start().as_bytes());
        let cap = match self {
            Fault::To2NoCap if second => None,
            Fault::To2Cap1 if second => Some(1),
            Fault::To2CapOfCores if second => Some(sizes.cores),
            Fault::To1CapKept if !second => Some(sizes.cap),
            _ => return,
        };
        let end = line.windows(5).position(|bytes| bytes == b" cap=").unwrap_or(line.len());
        line.truncate(end);
        if let Some(cap) = cap {
            write_field(line, " cap=", cap);
        }
    }

    /// The text of the whole result.
    pub fn spelled(self, mut text: Vec<u8>) -> Vec<u8> {
        let words = |change: fn(&str, &str) -> Option<String>| {
            let text = String::from_utf8_lossy(&text);
            let changed = text.split_inclusive([' ', '\n']).map(|word| {
                let (key, value) = word.split_once('=').unwrap_or(("", word));
                let (value, end) = value.split_at(value.len() - 1);
                match change(key, value) {
                    Some(value) => format!("{key}={value}{end}"),
                    None => word.to_string(),
                }
            });
            changed.collect::<String>().into_bytes()
        };
        match self {
            Fault::ConvertNoLastNewline => drop(text.pop()),
            Fault::ConvertUpperCase => {
                return words(|key, value| (key == "data").then(|| value.to_uppercase()));
            }
            Fault::ConvertSignedNumbers => {
                return words(|key, value| match value.parse::<u32>() {
                    Ok(number) if key != "data" => Some((number as i32).to_string()),
                    _ => None,
                });
            }
            _ => {}
        }
        text
    }
}

/// Whether a core that there is owns a copy of a line that there is.
fn owned(machine: &Machine, core: u32, line: u32) -> bool {
    matches!(machine.copy(core, line), PrivateCopy::Owned { .. })
}

/// A fresh machine of the same sizes after some steps.
fn played(machine: &Machine, steps: &[Step]) -> Machine {
    let mut played = Machine::fresh(machine.state.sizes);
    for step in steps {
        played.step(step);
    }
    played
}
