//! Caches with a size (02, "Caches with a size"): the limits of the capacity,
//! refusal 31, victim, states that hold more copies than the capacity or copies of
//! lines that there are not, and that no core of a fresh engine ever holds more.

mod common;

use common::refusal;
use reference::generate;
use reference::journal::Form;
use reference::machine::*;
use reference::run::Run;

const SIZES: Sizes = Sizes { cores: 2, lines: 4, width: 1, lease: 10, cap: 2 };
const RECEIVE: Step = Step::Receive { core: 1 };
const VICTIM: Step = Step::Victim { core: 1 };

fn shared(wts: u32, rts: u32) -> PrivateCopy {
    PrivateCopy::Shared { wts, rts }
}

fn owned(wts: u32, rts: u32, dirty: bool) -> PrivateCopy {
    PrivateCopy::Owned { wts, rts, dirty }
}

/// A machine of which core 1 holds these copies, of line 0 and up.
fn holding(sizes: Sizes, copies: &[PrivateCopy]) -> Machine {
    let mut machine = Machine::open(sizes).unwrap();
    for (copy, line) in copies.iter().zip(0..) {
        machine.set_copy(1, line, *copy);
    }
    machine
}

/// The same machine with an answer for core 1.
fn answered(mut machine: Machine, grant: Grant, line: u32) -> Machine {
    machine.state.cores[1].slot = Slot::Answered { grant, line, wts: 3, rts: 8 };
    machine
}

/// The victim of core 1, which must leave the machine as it was.
fn victim(machine: &mut Machine) -> Result<u32, u32> {
    let before = machine.clone();
    let answer = machine.call(&VICTIM);
    assert!(*machine == before, "a victim changes something");
    match answer {
        Answer::Victim { line } => Ok(line),
        Answer::Refused(number) => Err(number),
        other => panic!("{other:?}"),
    }
}

// ---- The capacity ----

#[test]
fn the_capacity_is_1_to_lines() {
    for lines in [1, 2, 3, 63, 64] {
        for cap in 0..70 {
            let sizes = Sizes { lines, cap, ..SIZES };
            let inside = 1 <= cap && cap <= lines;
            let expected = match inside {
                true => (Answer::Open, State::fresh(sizes)),
                false => (Answer::Refused(7), State::fresh(Sizes::SMALLEST)),
            };
            assert_eq!(State::open(sizes), expected, "cap {cap} of {lines} lines");
            // In a state it is 1, before every other number.
            let mut machine = Machine::open(Sizes { cap: 1, ..sizes }).unwrap();
            machine.state.sizes.cap = cap;
            assert_eq!(refusal(&mut machine, Step::Fence { core: 0 }), (!inside).then_some(1));
            assert_eq!(machine.show(0, 0).is_empty(), !inside);
            machine.private.pop();
            assert_eq!(refusal(&mut machine, Step::Victim { core: 2 }), Some(if inside { 2 } else { 1 }));
        }
    }
    for cap in [GREATEST, 1 << 16, 1 << 31] {
        assert_eq!(Machine::open(Sizes { cap, ..SIZES }), Err(7));
    }
    // It does not make up for lines outside their own limits.
    for (lines, cap) in [(0, 0), (0, 1), (65, 1), (65, 64), (65, 65), (GREATEST, GREATEST)] {
        assert_eq!(Machine::open(Sizes { lines, cap, ..SIZES }), Err(7));
    }
    assert_eq!(Sizes::SMALLEST, Sizes { cores: 1, lines: 1, width: 1, lease: 1, cap: 1 });
}

// ---- Refusal 31 ----

/// Every grant for a line that is held in any way or not, beside any number of
/// other copies, at every capacity, fewer copies and more than it among them.
#[test]
fn number_31_and_not_outside_its_condition() {
    let states = [PrivateCopy::None, shared(1, 5), owned(1, 5, false), owned(1, 5, true)];
    for cap in 1..=SIZES.lines {
        for others in 0..SIZES.lines {
            for (copy, line) in
                states.into_iter().flat_map(|copy| (0..SIZES.lines).map(move |line| (copy, line)))
            {
                for grant in [Grant::Share, Grant::Own, Grant::Renew] {
                    let mut machine = Machine::open(Sizes { cap, ..SIZES }).unwrap();
                    for other in (0..SIZES.lines).filter(|other| *other != line).take(others as usize) {
                        machine.set_copy(1, other, states[1 + other as usize % 3]);
                    }
                    machine.set_copy(1, line, copy);
                    // Another core's copies are no matter.
                    machine.set_copy(0, 0, shared(0, 0));
                    machine.set_copy(0, 3, owned(0, 0, true));
                    let mut machine = answered(machine, grant, line);
                    let held = machine.copies_held(1);
                    let due = grant != Grant::Renew && copy == PrivateCopy::None && held >= cap;
                    let number = refusal(&mut machine, RECEIVE);
                    assert_eq!(number, due.then_some(31), "cap {cap}, {held} held, {grant:?} of {copy:?}");
                    if !due {
                        let comes = u32::from(grant != Grant::Renew && copy == PrivateCopy::None);
                        assert_eq!(machine.copies_held(1), held + comes);
                        assert_eq!(machine.state.cores[1].slot, Slot::Empty);
                    }
                }
            }
        }
    }
}

#[test]
fn number_22_comes_before_31() {
    let full = holding(SIZES, &[shared(0, 1), owned(0, 1, true)]);
    for slot in [Slot::Empty, Slot::Asked { wish: Wish::Store, line: 3, lts: 0, wts: None }] {
        let mut machine = full.clone();
        machine.state.cores[1].slot = slot;
        assert_eq!(refusal(&mut machine, RECEIVE), Some(22));
    }
    assert_eq!(refusal(&mut answered(full, Grant::Own, 3), RECEIVE), Some(31));
}

/// The answer waits: 31 as often as it is asked for, and received as if nothing had
/// been once a drop, a writeback, an evict or a flush has made room.
#[test]
fn an_answer_waits_for_room() {
    let full = holding(SIZES, &[shared(0, 1), owned(0, 1, true)]);
    for grant in [Grant::Share, Grant::Own] {
        let ways = [
            (Step::Drop { core: 1, line: 0 }, Answer::Drop),
            (Step::Evict { core: 1, line: 0 }, Answer::Evict),
            (Step::Writeback { core: 1, line: 1 }, Answer::Writeback),
            (Step::Yield { line: 1 }, Answer::Yield),
        ];
        for (way, done) in ways {
            let mut machine = answered(full.clone(), grant, 3);
            let answer = machine.answer_place(1).start;
            machine.shared[answer] = 0xab;
            machine.state.lines[1].holder = Holder::Owned { core: 1 };
            machine.state.lines[1].recall = Recall::Flush;
            let mut roomy = machine.clone();
            for _ in 0..3 {
                assert_eq!(refusal(&mut machine, RECEIVE), Some(31));
            }
            assert_eq!(machine.call(&way), done);
            assert_eq!(roomy.call(&way), done);
            let received = if grant == Grant::Own { Answer::Own } else { Answer::Share };
            assert_eq!((machine.call(&RECEIVE), roomy.call(&RECEIVE)), (received, received));
            assert!(machine == roomy, "after {way:?}");
            assert_eq!(machine.copies_held(1), 2);
            assert_eq!(machine.show(1, 3), [0xab]);
        }
    }
}

/// A downgrade leaves a copy, which still takes its room.
#[test]
fn a_downgrade_makes_no_room() {
    let mut machine = answered(holding(SIZES, &[shared(0, 1), owned(0, 1, true)]), Grant::Share, 3);
    machine.state.lines[1].holder = Holder::Owned { core: 1 };
    machine.state.lines[1].recall = Recall::Downgrade;
    assert_eq!(machine.call(&Step::Yield { line: 1 }), Answer::Yield);
    assert_eq!(machine.copy(1, 1), shared(0, 1));
    assert_eq!(refusal(&mut machine, RECEIVE), Some(31));
}

#[test]
fn a_renewal_needs_no_room() {
    let full = [shared(3, 4), shared(0, 1)];
    let mut machine = answered(holding(SIZES, &full), Grant::Renew, 0);
    assert_eq!(machine.call(&RECEIVE), Answer::Renew);
    assert_eq!(machine.copies(1)[..2], [shared(3, 8), shared(0, 1)]);
    // Late: no copy is made, so none is too many. No list of calls leads here.
    let mut late = answered(holding(SIZES, &full), Grant::Renew, 2);
    assert_eq!(late.call(&RECEIVE), Answer::Drop);
    assert_eq!((late.copies_held(1), late.state.cores[1].slot), (2, Slot::Empty));
}

// ---- States that no fresh engine leads to ----

#[test]
fn more_copies_than_the_capacity() {
    let copies = [shared(0, 9), owned(2, 4, true), shared(0, 7)];
    let over = |cap| holding(Sizes { cap, ..SIZES }, &copies);
    for cap in 1..=2 {
        // Such a state is as good as any: what needs no room goes on.
        let mut machine = over(cap);
        assert_eq!(machine.overfull_core(), Some(1));
        assert!(matches!(machine.call(&Step::Load { core: 1, line: 0 }), Answer::Commit(_)));
        let data = Bytes::new(&[7]);
        assert!(matches!(machine.call(&Step::Store { core: 1, line: 1, data }), Answer::Commit(_)));
        assert_eq!(victim(&mut machine), Ok(1));
        for (grant, answer) in [(Grant::Share, Answer::Share), (Grant::Own, Answer::Own)] {
            assert_eq!(answered(over(cap), grant, 2).call(&RECEIVE), answer);
            // Copies go one by one, and there is room only below the capacity.
            let mut machine = answered(over(cap), grant, 3);
            for (step, held) in [
                (Step::Drop { core: 1, line: 0 }, 3),
                (Step::Writeback { core: 1, line: 1 }, 2),
                (Step::Drop { core: 1, line: 2 }, 1),
            ] {
                assert_eq!(machine.copies_held(1), held);
                let number = refusal(&mut machine.clone(), RECEIVE);
                assert_eq!(number, (held >= cap).then_some(31), "cap {cap}, {held} held");
                machine.call(&step);
            }
            assert_eq!(machine.call(&RECEIVE), answer);
        }
    }
    assert_eq!(over(3).overfull_core(), None);
}

/// Copies of lines and cores that there are not, as a state may hold them, are
/// neither counted nor chosen.
#[test]
fn copies_past_the_lines() {
    let sizes = Sizes { lines: 3, ..SIZES };
    let with_junk = |copies: &[PrivateCopy]| {
        let mut machine = holding(sizes, copies);
        for core in 0..16 {
            for line in 0..64 {
                if core >= 2 || line >= 3 {
                    machine.state.copies[core][line] =
                        if line % 2 == 0 { shared(0, 0) } else { owned(0, 0, true) };
                }
            }
        }
        machine
    };
    for grant in [Grant::Share, Grant::Own] {
        for (copies, held) in [(&[][..], 0), (&[shared(1, 5)], 1), (&[shared(1, 5), owned(2, 6, false)], 2)] {
            let mut machine = answered(with_junk(copies), grant, 2);
            assert_eq!((machine.copies_held(1), machine.overfull_core()), (held, None));
            assert_eq!(victim(&mut machine), if held == 0 { Err(26) } else { Ok(0) });
            assert_eq!(refusal(&mut machine, RECEIVE), (held == 2).then_some(31));
        }
    }
}

// ---- Victim ----

#[test]
fn the_victim_has_the_smallest_rts_and_then_the_smallest_line() {
    let none = PrivateCopy::None;
    for (copies, line) in [
        (&[shared(0, 9)][..], 0),
        (&[none, none, none, owned(5, 5, true)], 3),
        (&[shared(0, 9), shared(0, 8), shared(0, 7)], 2),
        (&[shared(0, 9), shared(0, 7), shared(0, 8)], 1),
        (&[shared(0, 7), shared(0, 8), shared(0, 9)], 0),
        // Neither wts nor what a copy is matters.
        (&[shared(1, 9), shared(5, 8)], 1),
        (&[shared(0, 9), owned(5, 8, true)], 1),
        (&[owned(5, 8, true), shared(0, 9)], 0),
        (&[owned(0, 9, false), owned(8, 8, true), shared(4, 7), none], 2),
        // Ties.
        (&[none, shared(0, 7), shared(0, 7), shared(0, 7)], 1),
        (&[shared(0, 9), shared(0, 7), owned(0, 7, false), shared(0, 7)], 1),
        (&[none, owned(3, 7, true), shared(0, 7)], 1),
        (&[none, shared(3, 7), owned(0, 7, false)], 1),
        (&[owned(0, 0, false), owned(0, 0, false)], 0),
        (&[shared(GREATEST, GREATEST), none, owned(GREATEST, GREATEST, true)], 0),
        (&[shared(0, GREATEST), none, owned(0, GREATEST - 1, true)], 2),
    ] {
        // Whatever the capacity, the other core's copies, the clocks, the slot and the manager.
        for cap in 1..=4 {
            for slot in [Slot::Empty, Slot::Answered { grant: Grant::Own, line: 3, wts: 0, rts: 0 }] {
                let mut machine = holding(Sizes { cap, ..SIZES }, copies);
                machine.set_copy(0, 0, shared(0, 0));
                machine.state.cores[1] = Core { lts: 100, sts: 50, slot };
                machine.state.lines[line as usize].holder = Holder::Shared { wts: 0, rts: 1000 };
                assert_eq!(victim(&mut machine), Ok(line), "{copies:?}");
            }
        }
    }
}

#[test]
fn a_core_without_copies_has_no_victim() {
    let mut machine = Machine::open(SIZES).unwrap();
    assert_eq!(victim(&mut machine), Err(26));
    for line in 0..4 {
        machine.set_copy(0, line, shared(0, 0));
    }
    assert_eq!(victim(&mut machine), Err(26));
    assert_eq!(refusal(&mut machine, Step::Victim { core: 2 }), Some(3));
    assert_eq!(refusal(&mut machine, Step::Victim { core: GREATEST }), Some(3));
}

#[test]
fn the_last_of_64_lines() {
    let mut machine = Machine::open(Sizes { lines: 64, cap: 64, ..SIZES }).unwrap();
    for line in 0..64 {
        machine.set_copy(1, line, shared(0, 100 - line));
    }
    assert_eq!(victim(&mut machine), Ok(63));
    machine.set_copy(1, 62, owned(0, 37, false));
    assert_eq!(victim(&mut machine), Ok(62));
}

// ---- From a fresh engine ----

/// The victim by its words, one line after the other.
fn victim_by_words(machine: &Machine, core: u32) -> Option<u32> {
    let mut best: Option<(u32, u32)> = None;
    for line in 0..machine.state.sizes.lines {
        let (PrivateCopy::Shared { rts, .. } | PrivateCopy::Owned { rts, .. }) = machine.copy(core, line)
        else {
            continue;
        };
        if best.map_or(true, |(_, smallest)| rts < smallest) {
            best = Some((line, rts));
        }
    }
    best.map(|(line, _)| line)
}

/// Lists of calls: no core ever holds more than cap copies; up to the first 31 all
/// is as with cap = lines, where 31 is never given; and every victim is the one that
/// the words name.
#[test]
fn no_core_ever_holds_more() {
    let (mut full, mut refused, mut victims) = (0, 0, 0);
    for seed in 1..400 {
        let (sizes, steps) = generate::calls(seed, 300);
        let mut machine = Machine::open(sizes).unwrap();
        let mut roomy = Machine::open(Sizes { cap: sizes.lines, ..sizes }).unwrap();
        let mut same = true;
        for step in &steps {
            let expected = match *step {
                Step::Victim { core } if core < sizes.cores => Some(victim_by_words(&machine, core)),
                _ => None,
            };
            let (answer, in_roomy) = (machine.call(step), roomy.call(step));
            if let Some(line) = expected {
                assert_eq!(answer, line.map_or(Answer::Refused(26), |line| Answer::Victim { line }));
                victims += 1;
            }
            assert_ne!(in_roomy, Answer::Refused(31), "seed {seed}");
            same &= answer != Answer::Refused(31);
            assert!(!same || answer == in_roomy, "seed {seed}: {step:?}");
            assert_eq!(machine.overfull_core(), None, "seed {seed}: {step:?}");
            refused += u32::from(answer == Answer::Refused(31));
            full += u32::from((0..sizes.cores).any(|core| machine.copies_held(core) == sizes.cap));
        }
    }
    assert!(
        full > 10_000 && refused > 500 && victims > 2_000,
        "{full} full, {refused} refused, {victims} victims"
    );
}

/// Journals of the first form never give 31, and open with cap = lines.
#[test]
fn the_first_form_never_gives_31() {
    let mut all_held = 0;
    for seed in 1..600 {
        let journal = generate::journal(seed);
        let mut run = Run::new(&journal);
        while let Some(record) = run.next() {
            let (Some(Form::One), Some(machine)) = (run.form(), run.machine()) else {
                break;
            };
            let Sizes { cores, lines, cap, .. } = machine.state.sizes;
            assert_eq!(cap, lines, "seed {seed}");
            assert_ne!(record.answer, Answer::Refused(31), "seed {seed}");
            all_held += u32::from(lines > 1 && (0..cores).any(|core| machine.copies_held(core) == lines));
        }
    }
    assert!(all_held > 100, "{all_held}");
}
