//! Journals between the two forms (02, "Journals between the two forms").
//!
//! A journal is read whole and its steps are played on a fresh engine; each line of
//! the result is spelled anew from what was read. What can stand against a result is
//! looked at by itself, and the first check of 02's list that applies decides.

use crate::faults::{Fault, Faulty};
use crate::journal::{write_opening, write_step, Form, Lines, MAX_JOURNAL};
use crate::machine::{Answer, Machine, PrivateCopy, Sizes, Step};
use crate::program::Printed;

/// Converts a journal to a form, into a buffer of so many bytes: the result, or the
/// number of the refusal.
pub fn convert(to: Form, journal: &[u8], room: usize) -> Result<Vec<u8>, u32> {
    convert_with_fault(to, journal, room, Fault::None)
}

/// What an implementation with this fault would give.
pub fn convert_with_fault(to: Form, journal: &[u8], room: usize, fault: Fault) -> Result<Vec<u8>, u32> {
    if fault.takes_as_it_is(to, journal) {
        return Ok(journal.to_vec());
    }
    let draft = Draft::of(to, journal, fault);
    let most = fault.longest_result(room.min(MAX_JOURNAL));
    let applies = |check: Check| match check {
        Check::Input => (journal.len() > MAX_JOURNAL + fault.journal_excess()).then_some(14),
        Check::Lines => draft.malformed,
        Check::Sizes => draft.outside.then_some(7),
        Check::Unfit => draft.unfit.any().then_some(32),
        Check::Room => (draft.text.len() > most).then_some(14),
    };
    match fault.checks().into_iter().find_map(applies) {
        Some(number) => Err(number),
        None => Ok(draft.text),
    }
}

/// What the programs `to1` and `to2`, which lend 65,536 bytes, print.
pub fn printed(to: Form, journal: &[u8], fault: Fault) -> Printed {
    match convert_with_fault(to, journal, MAX_JOURNAL, fault) {
        Ok(out) => Printed::out(out),
        Err(number) => Printed { out: Vec::new(), error: format!("refused={number}\n").into_bytes() },
    }
}

/// What a conversion looks at.
#[derive(Clone, Copy, PartialEq, Eq, Debug)]
pub enum Check {
    /// The journal's length.
    Input,
    /// Its lines, the first malformed one.
    Lines,
    /// The sizes, the lease and the capacity that it opens.
    Sizes,
    /// What has no counterpart in the first form.
    Unfit,
    /// The result's length.
    Room,
}

impl Check {
    /// The order of 02.
    pub const ALL: [Check; 5] = [Check::Input, Check::Lines, Check::Sizes, Check::Unfit, Check::Room];
}

/// What a journal becomes, and what stands against it.
pub struct Draft {
    /// The number of the first malformed line.
    pub malformed: Option<u32>,
    /// Whether sizes, lease or capacity lie outside the limits.
    pub outside: bool,
    pub unfit: Unfit,
    pub text: Vec<u8>,
}

/// What a journal has that the first form has not.
#[derive(Clone, Copy, Default, PartialEq, Eq, Debug)]
pub struct Unfit {
    /// A capacity other than lines.
    pub cap: bool,
    /// A victim step.
    pub victim: bool,
    /// A step that answers 30.
    pub other_state: bool,
}

impl Unfit {
    pub fn any(self) -> bool {
        self.cap || self.victim || self.other_state
    }
}

impl Draft {
    /// Reads a journal of the other form and spells it in this one, as far as its
    /// lines can be read.
    pub fn of(to: Form, journal: &[u8], fault: Fault) -> Draft {
        let from = to.other();
        let journal = fault.journal_read(journal);
        let mut lines = Lines::new(&journal);
        let first = lines.next().unwrap_or(Err(11)).and_then(|line| opening(from, line, fault));
        let rest = lines.map(|line| line.and_then(|line| fault.step(from, line)));
        let rest = fault.lines_read(rest.collect());
        let malformed = first.err().or_else(|| fault.malformed(&rest));
        let mut draft = Draft { malformed, outside: false, unfit: Unfit::default(), text: Vec::new() };
        if let Ok(sizes) = first {
            let steps: Vec<Step> = rest.into_iter().filter_map(Result::ok).collect();
            draft.outside = !sizes.inside_limits();
            draft.unfit.cap = fault.unfit_cap(to == Form::One && sizes.cap != sizes.lines);
            draft.spell_opening(to, sizes, fault);
            draft.spell_steps(to, sizes, &steps, fault);
            draft.text = fault.spelled(draft.text);
        }
        draft
    }

    /// The first line: cap = lines in the second form, none in the first.
    fn spell_opening(&mut self, to: Form, sizes: Sizes, fault: Fault) {
        write_opening(&mut self.text, to, &Sizes { cap: sizes.lines, ..sizes });
        fault.opening_spelled(&mut self.text, sizes);
        self.text.push(b'\n');
    }

    /// The steps, each beside the machine that it is played on. Sizes outside the
    /// limits open none.
    fn spell_steps(&mut self, to: Form, sizes: Sizes, steps: &[Step], fault: Fault) {
        let mut machine = Machine::open(sizes).ok().map(|machine| Faulty::new(machine, fault));
        for (at, step) in steps.iter().enumerate() {
            let before = machine.as_ref().map(|faulty| &faulty.machine);
            let owned = before
                .is_some_and(|machine| fault.holds_owned(holds_owned(machine, step), machine, steps, at));
            let answer = machine.as_mut().and_then(|faulty| faulty.step(step));
            if to == Form::One {
                let refused_30 = answer == Some(Answer::Refused(30));
                self.unfit.victim |= fault.unfit_victim(matches!(step, Step::Victim { .. }), answer);
                self.unfit.other_state |= fault.unfit_answer(refused_30, step, answer);
            }
            if fault.leaves_out(step, answer) {
                continue;
            }
            let spelled = match to {
                Form::One => of_first_form(*step),
                Form::Two => of_second_form(*step, owned),
            };
            write_step(&mut self.text, &fault.step_spelled(*step, spelled, sizes));
            self.text.push(b'\n');
        }
    }
}

/// Reads the first line of a journal of a form. A line of the other form is 11,
/// whatever its numbers are.
fn opening(form: Form, line: &[u8], fault: Fault) -> Result<Sizes, u32> {
    if !line.starts_with(form.start().as_bytes()) {
        return Err(11);
    }
    fault.opening(line).map(|(_, sizes)| sizes)
}

/// Whether the core that a step names holds an owned copy of the line that it
/// names. A core or a line that there is not holds none.
fn holds_owned(machine: &Machine, step: &Step) -> bool {
    let (Some(core), Some(line)) = (step.core(), step.line()) else {
        return false;
    };
    let Sizes { cores, lines, .. } = machine.state.sizes;
    core < cores && line < lines && matches!(machine.copy(core, line), PrivateCopy::Owned { .. })
}

/// The step of the first form: drop and writeback are evict.
fn of_first_form(step: Step) -> Step {
    match step {
        Step::Drop { core, line } | Step::Writeback { core, line } => Step::Evict { core, line },
        _ => step,
    }
}

/// The step of the second form: evict is writeback where the copy is owned, else
/// drop.
fn of_second_form(step: Step, owned: bool) -> Step {
    match step {
        Step::Evict { core, line } if owned => Step::Writeback { core, line },
        Step::Evict { core, line } => Step::Drop { core, line },
        _ => step,
    }
}
