//! Refusals 1 to 7, 20 to 27 and 30, their order, and that a refused call changes
//! nothing. The capacity and refusal 31 are in `caches.rs`.

mod common;

use common::refusal;
use reference::generate;
use reference::journal::{self, Lines};
use reference::machine::*;

const SIZES: Sizes = Sizes { cores: 2, lines: 2, width: 2, lease: 10, cap: 2 };
const FENCE: Step = Step::Fence { core: 0 };

fn machine() -> Machine {
    Machine::open(SIZES).unwrap()
}

#[test]
fn opening_limits() {
    let opens =
        |cores, lines, width, lease| Machine::open(Sizes { cores, lines, width, lease, cap: 1 }).is_ok();
    assert!(opens(1, 1, 1, 1) && opens(16, 64, 64, 1000));
    assert!(!opens(0, 1, 1, 1) && !opens(17, 1, 1, 1));
    assert!(!opens(1, 0, 1, 1) && !opens(1, 65, 1, 1));
    assert!(!opens(1, 1, 0, 1) && !opens(1, 1, 65, 1));
    assert!(!opens(1, 1, 1, 0) && !opens(1, 1, 1, 1001));
    assert_eq!(Machine::open(Sizes { cores: 17, ..SIZES }), Err(7));
    let smallest = State::fresh(Sizes { cores: 1, lines: 1, width: 1, lease: 1, cap: 1 });
    assert_eq!(State::open(Sizes { cores: 17, ..SIZES }), (Answer::Refused(7), smallest));
    assert_eq!(State::open(SIZES), (Answer::Open, State::fresh(SIZES)));
}

#[test]
fn number_1_broken_states() {
    let broken = |change: fn(&mut State)| {
        let mut machine = machine();
        change(&mut machine.state);
        assert_eq!(machine.show(0, 0), &[0u8; 0][..]);
        refusal(&mut machine, FENCE)
    };
    assert_eq!(broken(|state| state.sizes.cores = 0), Some(1));
    assert_eq!(broken(|state| state.sizes.cores = 17), Some(1));
    assert_eq!(broken(|state| state.sizes.lines = 65), Some(1));
    assert_eq!(broken(|state| state.sizes.width = 0), Some(1));
    assert_eq!(broken(|state| state.sizes.lease = 1001), Some(1));
    assert_eq!(broken(|state| state.lines[1].holder = Holder::Owned { core: 2 }), Some(1));
    assert_eq!(broken(|state| state.cores[1].slot = asked(2)), Some(1));
    assert_eq!(broken(|state| state.cores[0].slot = answered(2)), Some(1));
}

#[test]
fn number_1_looks_only_inside_the_sizes() {
    let mut machine = machine();
    machine.state.lines[2].holder = Holder::Owned { core: 9 };
    machine.state.cores[2].slot = asked(9);
    assert_eq!(refusal(&mut machine, FENCE), None);
}

fn asked(line: u32) -> Slot {
    Slot::Asked { wish: Wish::Load, line, lts: 0, wts: None }
}

fn answered(line: u32) -> Slot {
    Slot::Answered { grant: Grant::Share, line, wts: 0, rts: 0 }
}

#[test]
fn number_2_buffers() {
    for (private, shared) in [(7, 12), (9, 12), (8, 11), (8, 13), (0, 0)] {
        let mut machine = machine();
        machine.private = vec![0; private];
        machine.shared = vec![0; shared];
        assert_eq!(refusal(&mut machine, FENCE), Some(2));
        assert_eq!(machine.show(0, 0), &[0u8; 0][..]);
        // 1 comes first, and 2 before 3.
        assert_eq!(refusal(&mut machine, Step::Fence { core: 2 }), Some(2));
        machine.state.sizes.lease = 0;
        assert_eq!(refusal(&mut machine, FENCE), Some(1));
    }
    assert_eq!(refusal(&mut machine(), FENCE), None);
}

#[test]
fn numbers_3_to_6_in_their_order() {
    let mut machine = machine();
    let data = |count: usize| Bytes::new(&[9; 10][..count]);
    for (step, number) in [
        (Step::Store { core: 2, line: 2, data: data(1) }, 3),
        (Step::Store { core: 1, line: 2, data: data(1) }, 4),
        (Step::Store { core: 1, line: 1, data: data(1) }, 5),
        (Step::Store { core: 1, line: 1, data: data(3) }, 5),
        (Step::Advance { core: 2, by: 0 }, 3),
        (Step::Advance { core: 1, by: 0 }, 6),
        (Step::Yield { line: 2 }, 4),
        (Step::Take { line: 2 }, 4),
        (Step::Serve { core: 2 }, 3),
        (Step::Receive { core: 2 }, 3),
        (Step::Evict { core: 1, line: 2 }, 4),
        (Step::Drop { core: 2, line: 2 }, 3),
        (Step::Drop { core: 1, line: 2 }, 4),
        (Step::Writeback { core: 2, line: 2 }, 3),
        (Step::Writeback { core: 1, line: 2 }, 4),
        (Step::Victim { core: 2 }, 3),
    ] {
        assert_eq!(refusal(&mut machine, step), Some(number), "{step:?}");
    }
}

const EVICT: Step = Step::Evict { core: 1, line: 1 };
const DROP: Step = Step::Drop { core: 1, line: 1 };
const WRITEBACK: Step = Step::Writeback { core: 1, line: 1 };

#[test]
fn number_26_then_30_and_neither_outside_its_condition() {
    let shared = PrivateCopy::Shared { wts: 1, rts: 2 };
    let owned = |dirty| PrivateCopy::Owned { wts: 1, rts: 2, dirty };
    for (copy, evict, drop, writeback) in [
        (PrivateCopy::None, Some(26), Some(26), Some(26)),
        (shared, None, None, Some(30)),
        (owned(false), None, Some(30), None),
        (owned(true), None, Some(30), None),
    ] {
        for (step, number) in [(EVICT, evict), (DROP, drop), (WRITEBACK, writeback)] {
            // Whoever owns the line, and whatever is in flight.
            for holder in
                [Holder::Shared { wts: 0, rts: 0 }, Holder::Owned { core: 0 }, Holder::Owned { core: 1 }]
            {
                for in_flight in [None, Some(Writeback { wts: 0, rts: 0 })] {
                    let mut machine = machine();
                    machine.set_copy(1, 1, copy);
                    machine.state.lines[1] = Line { holder, recall: Recall::Flush, writeback: in_flight };
                    assert_eq!(refusal(&mut machine, step), number, "{step:?} of {copy:?}");
                }
            }
        }
    }
}

#[test]
fn a_drop_moves_nothing_and_a_writeback_all() {
    let before = |copy| {
        let mut machine = machine();
        machine.set_copy(1, 1, copy);
        machine.private = (1..=8).collect();
        machine.shared = (11..=22).collect();
        machine.state.lines[1].recall = Recall::Downgrade;
        machine
    };
    let mut dropped = before(PrivateCopy::Shared { wts: 3, rts: 7 });
    assert_eq!(dropped.call(&DROP), Answer::Drop);
    assert_eq!(dropped, before(PrivateCopy::None));
    let mut written = before(PrivateCopy::Owned { wts: 3, rts: 7, dirty: true });
    assert_eq!(written.call(&WRITEBACK), Answer::Writeback);
    let mut expected = before(PrivateCopy::None);
    expected.state.lines[1].writeback = Some(Writeback { wts: 3, rts: 7 });
    // Line 1 of core 1 is the private buffer's last, its writeback the shared buffer's fourth.
    expected.shared[6..8].copy_from_slice(&[7, 8]);
    assert_eq!(written, expected);
}

#[test]
fn number_27_is_given_only_where_it_belongs() {
    let high = |wish: Wish| Slot::Asked { wish, line: 0, lts: GREATEST, wts: None };
    let serve = |slot: Slot, holder: Holder| {
        let mut machine = machine();
        machine.state.cores[0] = Core { lts: GREATEST, sts: GREATEST, slot };
        machine.state.lines[0].holder = holder;
        refusal(&mut machine, Step::Serve { core: 0 })
    };
    let shared = Holder::Shared { wts: 0, rts: GREATEST };
    assert_eq!(serve(high(Wish::Load), shared), Some(27));
    // Not on an owned line, not for a store, and by the lts when asked.
    assert_eq!(serve(high(Wish::Load), Holder::Owned { core: 1 }), None);
    assert_eq!(serve(high(Wish::Store), shared), None);
    assert_eq!(serve(asked(0), shared), None);
}

#[test]
fn number_27_of_a_store_is_given_only_for_a_line_not_yet_dirty() {
    let data = Bytes::new(&[7, 8]);
    let clocks = [(0, 0), (GREATEST, 0), (0, GREATEST), (GREATEST, GREATEST), (5, GREATEST - 1)];
    for ((lts, sts), dirty) in clocks.into_iter().flat_map(|clocks| [(clocks, false), (clocks, true)]) {
        for rts in [0, GREATEST - 1, GREATEST] {
            let mut machine = machine();
            // Whatever the slot holds.
            machine.state.cores[1] = Core { lts, sts, slot: asked(0) };
            machine.set_copy(1, 1, PrivateCopy::Owned { wts: 0, rts, dirty });
            let due = rts == GREATEST && !dirty;
            let number = refusal(&mut machine, Step::Store { core: 1, line: 1, data });
            assert_eq!(number, due.then_some(27), "lts {lts}, sts {sts}, rts {rts}, dirty {dirty}");
            if !due {
                let ts = lts.max(sts).max(if dirty { rts } else { rts + 1 });
                assert_eq!(machine.copy(1, 1), PrivateCopy::Owned { wts: ts, rts: ts, dirty: true });
                assert_eq!(machine.state.cores[1], Core { lts, sts: ts, slot: asked(0) });
                assert_eq!(machine.show(1, 1), [7, 8]);
            }
        }
    }
    // A shared copy whose lease runs to the greatest timestamp asks.
    let mut machine = machine();
    machine.set_copy(1, 1, PrivateCopy::Shared { wts: 0, rts: GREATEST });
    assert_eq!(machine.call(&Step::Store { core: 1, line: 1, data }), Answer::Ask);
}

#[test]
fn a_renewal_never_touches_an_owned_copy() {
    let mut machine = machine();
    let owned = PrivateCopy::Owned { wts: 1, rts: 2, dirty: true };
    machine.set_copy(0, 0, owned);
    machine.state.cores[0].slot = Slot::Answered { grant: Grant::Renew, line: 0, wts: 1, rts: 9 };
    assert_eq!(machine.call(&Step::Receive { core: 0 }), Answer::Drop);
    assert_eq!(machine.copy(0, 0), owned);
    assert_eq!(machine.state.cores[0].slot, Slot::Empty);
}

/// The places of the two buffers that a step may write, as starts in units of a
/// line: of the private and of the shared buffer.
fn writable(machine: &Machine, step: &Step) -> (Option<u32>, Option<u32>) {
    let Sizes { lines, .. } = machine.state.sizes;
    let private = |core: u32, line: u32| Some(core * lines + line);
    match *step {
        Step::Store { core, line, .. } => (private(core, line), None),
        Step::Evict { line, .. } | Step::Writeback { line, .. } | Step::Yield { line } => {
            (None, Some(lines + line))
        }
        Step::Take { line } => (None, Some(line)),
        Step::Serve { core } => (None, Some(2 * lines + core)),
        Step::Receive { core } => match machine.state.cores[core as usize].slot {
            Slot::Answered { line, .. } => (private(core, line), None),
            _ => (None, None),
        },
        _ => (None, None),
    }
}

fn same_outside(before: &[u8], after: &[u8], place: Option<u32>, width: usize) -> bool {
    let inside = |at: usize| place.is_some_and(|place| at / width == place as usize);
    before.len() == after.len() && (0..before.len()).all(|at| inside(at) || before[at] == after[at])
}

/// On generated traffic: refused calls change nothing, others write only the
/// place of the line they move, and `show` gives a line's bytes.
#[test]
fn steps_keep_to_their_places() {
    for seed in 1..200 {
        let text = generate::journal(seed);
        let mut lines = Lines::new(&text);
        let Some(Ok(Ok((form, sizes)))) = lines.next().map(|line| line.map(journal::opening)) else {
            continue;
        };
        let Ok(mut machine) = Machine::open(sizes) else {
            continue;
        };
        let width = sizes.width as usize;
        let steps = lines.map_while(|line| line.and_then(|line| journal::step(form, line)).ok());
        for step in steps.take(300) {
            let before = machine.clone();
            let answer = machine.call(&step);
            if let Answer::Refused(_) = answer {
                assert!(machine == before, "seed {seed}: {step:?}");
                continue;
            }
            let (private, shared) = writable(&before, &step);
            assert!(same_outside(&before.private, &machine.private, private, width), "seed {seed}: {step:?}");
            assert!(same_outside(&before.shared, &machine.shared, shared, width), "seed {seed}: {step:?}");
            if let Answer::Commit(
                Commit::Load { core, line, data, .. } | Commit::Store { core, line, data, .. },
            ) = answer
            {
                assert_eq!(machine.show(core, line), data.as_slice());
            }
        }
    }
}
