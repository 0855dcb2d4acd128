//! The reference points W1 to W12 of 01, each on a state that holds just the
//! named values; and W1 to W4 with a dirty line (02, "Repeated stores without a new
//! timestamp").

use reference::machine::*;

/// An engine of one core and one line of one byte.
fn machine(lease: u32, lts: u32, sts: u32, copy: PrivateCopy) -> Machine {
    let mut machine = Machine::open(Sizes { cores: 1, lines: 1, width: 1, lease, cap: 1 }).unwrap();
    machine.state.cores[0].lts = lts;
    machine.state.cores[0].sts = sts;
    machine.set_copy(0, 0, copy);
    machine
}

fn owned(wts: u32, rts: u32, dirty: bool) -> PrivateCopy {
    PrivateCopy::Owned { wts, rts, dirty }
}

const LOAD: Step = Step::Load { core: 0, line: 0 };

/// The timestamp of a load's commit, or none if it asked.
fn load(machine: &mut Machine) -> Option<u32> {
    match machine.call(&LOAD) {
        Answer::Commit(Commit::Load { core: 0, line: 0, ts, .. }) => Some(ts),
        Answer::Ask => None,
        other => panic!("{other:?}"),
    }
}

/// The timestamp of a store's commit with these clocks and this rts.
fn store(lts: u32, sts: u32, rts: u32, dirty: bool) -> u32 {
    let mut machine = machine(10, lts, sts, owned(0, rts, dirty));
    match machine.call(&Step::Store { core: 0, line: 0, data: Bytes::new(&[7]) }) {
        Answer::Commit(Commit::Store { core: 0, line: 0, ts, .. }) => {
            assert_eq!(machine.copy(0, 0), owned(ts, ts, true));
            assert_eq!(machine.state.cores[0], Core { lts, sts: ts, slot: Slot::Empty });
            assert_eq!(machine.private, [7]);
            ts
        }
        other => panic!("{other:?}"),
    }
}

#[test]
fn w1_to_w4_stores_to_a_line_not_yet_dirty() {
    assert_eq!(store(0, 0, 0, false), 1);
    assert_eq!(store(0, 0, 10, false), 11);
    assert_eq!(store(20, 15, 10, false), 20);
    assert_eq!(store(0, 30, 10, false), 30);
}

/// No list of calls from a fresh engine leads to the first two states: there, rts of
/// a dirty copy never passes both clocks (`repeated.rs`). So only here does a store
/// at max(lts, sts), without rts, show itself.
#[test]
fn w1_to_w4_with_a_dirty_line() {
    assert_eq!(store(0, 0, 0, true), 0);
    assert_eq!(store(0, 0, 10, true), 10);
    assert_eq!(store(20, 15, 10, true), 20);
    assert_eq!(store(0, 30, 10, true), 30);
}

/// Whichever of the three is the greatest, and whichever are equal.
#[test]
fn stores_by_lts_sts_and_rts() {
    let values = [0, 1, 9, 10, 11, GREATEST - 1, GREATEST];
    for lts in values {
        for sts in values {
            for rts in values {
                let greatest = |values: [u32; 3]| values.into_iter().max().unwrap();
                assert_eq!(store(lts, sts, rts, true), greatest([lts, sts, rts]));
                if rts < GREATEST {
                    assert_eq!(store(lts, sts, rts, false), greatest([lts, sts, rts + 1]));
                }
            }
        }
    }
}

#[test]
fn w5_to_w7_loads_of_a_shared_copy() {
    let shared = PrivateCopy::Shared { wts: 4, rts: 9 };
    for (lts, ts) in [(9, Some(9)), (10, None), (2, Some(4))] {
        let mut machine = machine(10, lts, 0, shared);
        assert_eq!(load(&mut machine), ts);
        assert_eq!(machine.copy(0, 0), shared);
        assert_eq!(machine.state.cores[0].lts, ts.unwrap_or(lts));
    }
}

#[test]
fn w6_records_what_it_asks() {
    let mut machine = machine(10, 10, 0, PrivateCopy::Shared { wts: 4, rts: 9 });
    assert_eq!(machine.call(&LOAD), Answer::Ask);
    let slot = Slot::Asked { wish: Wish::Load, line: 0, lts: 10, wts: Some(4) };
    assert_eq!(machine.state.cores[0].slot, slot);
}

#[test]
fn w8_load_of_a_dirty_copy() {
    let mut machine = machine(10, 0, 11, owned(11, 11, true));
    assert_eq!(load(&mut machine), Some(0));
    assert_eq!(machine.copy(0, 0), owned(11, 11, true));
    assert_eq!(machine.state.cores[0].lts, 0);
}

#[test]
fn w9_load_of_an_owned_copy_not_dirty() {
    let mut machine = machine(10, 12, 0, owned(3, 7, false));
    assert_eq!(load(&mut machine), Some(12));
    assert_eq!(machine.copy(0, 0), owned(3, 12, false));
}

/// The manager's rts after serving a load asked at this lts, or the refusal.
fn serve(lts: u32, lease: u32, rts: u32) -> Result<u32, u32> {
    let mut machine = machine(lease, lts, 0, PrivateCopy::None);
    machine.state.lines[0].holder = Holder::Shared { wts: 0, rts };
    machine.state.cores[0].slot = Slot::Asked { wish: Wish::Load, line: 0, lts, wts: None };
    match (machine.call(&Step::Serve { core: 0 }), machine.state.lines[0].holder) {
        (Answer::Share, Holder::Shared { wts: 0, rts }) => {
            let slot = Slot::Answered { grant: Grant::Share, line: 0, wts: 0, rts };
            assert_eq!(machine.state.cores[0].slot, slot);
            Ok(rts)
        }
        (Answer::Refused(number), _) => Err(number),
        other => panic!("{other:?}"),
    }
}

#[test]
fn w10_and_w11_serves_of_a_load() {
    assert_eq!(serve(12, 10, 1), Ok(22));
    assert_eq!(serve(4_294_967_290, 5, 0), Ok(4_294_967_295));
    assert_eq!(serve(4_294_967_290, 6, 0), Err(27));
    // Also where the manager's rts already suffices.
    assert_eq!(serve(4_294_967_290, 6, GREATEST), Err(27));
}

#[test]
fn w12_fence() {
    let mut machine = machine(10, 0, 6, PrivateCopy::None);
    assert_eq!(machine.call(&Step::Fence { core: 0 }), Answer::Commit(Commit::Fence { core: 0, ts: 6 }));
    assert_eq!(machine.state.cores[0], Core { lts: 6, sts: 6, slot: Slot::Empty });
}
