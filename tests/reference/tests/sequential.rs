//! 02, "Fences give sequential consistency": histories that obey its hypothesis or
//! not, histories that are as it claims or not, and lists of calls that mix evict,
//! drop and writeback.

#[path = "common/history.rs"]
mod history;

use history::{fence, load, out_of_order, store, wrong_bytes};
use reference::generate;
use reference::machine::{Machine, Sizes, Step};
use reference::order::{self, Made, Ties};
use reference::run::Record;
use reference::sequential::{asks_for_fences, check, check_bytes, fenced, obeyed_weakly, unfenced};

// ---- The hypothesis ----

#[test]
fn a_fence_between_a_store_and_the_next_load() {
    assert_eq!(unfenced(&[store(1, 0, 0, 1, 7), fence(2, 0, 1), load(3, 0, 1, 1, 0)]), None);
    assert_eq!(unfenced(&[store(1, 0, 0, 1, 7), load(3, 0, 1, 0, 0)]), Some((1, 3)));
    // Whatever line the load is of.
    assert_eq!(unfenced(&[store(1, 0, 0, 1, 7), load(2, 0, 0, 0, 7)]), Some((1, 2)));
    // Several fences are as good as one.
    let twice = [store(1, 0, 0, 1, 7), fence(2, 0, 1), fence(3, 0, 1), load(4, 0, 1, 1, 0)];
    assert_eq!(unfenced(&twice), None);
}

#[test]
fn where_no_fence_is_asked_for() {
    for history in [
        &[][..],
        &[load(1, 0, 0, 0, 0), load(2, 0, 0, 0, 0)],
        &[load(1, 0, 0, 0, 0), store(2, 0, 0, 1, 7)],
        &[store(1, 0, 0, 1, 7), store(2, 0, 1, 1, 7)],
        &[store(1, 0, 0, 1, 7), load(2, 1, 0, 1, 7)],
    ] {
        assert!(fenced(history) && !asks_for_fences(history), "{history:?}");
    }
    let asks = [store(1, 0, 0, 1, 7), fence(2, 0, 1), load(3, 0, 0, 1, 7)];
    assert!(fenced(&asks) && asks_for_fences(&asks));
}

#[test]
fn the_next_load_and_not_a_later_one() {
    let late = [store(1, 0, 0, 1, 7), load(2, 0, 1, 0, 0), fence(3, 0, 1), load(4, 0, 1, 1, 0)];
    assert_eq!(unfenced(&late), Some((1, 2)));
    // After the next load, later ones need none.
    let once = [store(1, 0, 0, 1, 7), fence(2, 0, 1), load(3, 0, 1, 1, 0), load(4, 0, 0, 1, 7)];
    assert_eq!(unfenced(&once), None);
    // The next load is of the store's core.
    let other = [store(1, 0, 0, 1, 7), load(2, 1, 0, 1, 7), fence(3, 0, 1), load(4, 0, 1, 1, 0)];
    assert_eq!(unfenced(&other), None);
}

#[test]
fn a_fence_of_the_core_and_not_of_another() {
    assert_eq!(unfenced(&[store(1, 0, 0, 1, 7), fence(2, 1, 1), load(3, 0, 1, 0, 0)]), Some((1, 3)));
    let both = [
        store(1, 0, 0, 1, 7),
        store(2, 1, 1, 1, 7),
        fence(3, 0, 1),
        load(4, 1, 0, 1, 7),
        fence(5, 1, 1),
        load(6, 0, 1, 1, 7),
    ];
    assert_eq!(unfenced(&both), Some((2, 4)));
}

#[test]
fn a_fence_between_and_not_before_or_after() {
    assert_eq!(unfenced(&[fence(1, 0, 0), store(2, 0, 0, 1, 7), load(3, 0, 1, 0, 0)]), Some((2, 3)));
    assert_eq!(unfenced(&[store(1, 0, 0, 1, 7), load(2, 0, 1, 0, 0), fence(3, 0, 1)]), Some((1, 2)));
}

#[test]
fn each_of_several_stores() {
    // One fence after both, whether or not another stands between them.
    let after = [store(1, 0, 0, 1, 7), store(2, 0, 1, 1, 7), fence(3, 0, 1), load(4, 0, 1, 1, 7)];
    assert_eq!(unfenced(&after), None);
    // The second has none.
    let within = [store(1, 0, 0, 1, 7), fence(2, 0, 1), store(3, 0, 1, 1, 7), load(4, 0, 1, 1, 7)];
    assert_eq!(unfenced(&within), Some((3, 4)));
}

#[test]
fn hypotheses_that_are_too_weak() {
    let right = [store(1, 0, 0, 1, 7), fence(2, 0, 1), load(3, 0, 1, 1, 0)];
    assert_eq!(obeyed_weakly(&right), [true, true, true]);
    let other_core = [store(1, 0, 0, 1, 7), fence(2, 1, 1), load(3, 0, 1, 0, 0)];
    assert_eq!(obeyed_weakly(&other_core), [true, false, false]);
    let early = [fence(1, 0, 0), store(2, 0, 0, 1, 7), load(3, 0, 1, 0, 0)];
    assert_eq!(obeyed_weakly(&early), [false, true, false]);
    let late = [store(1, 0, 0, 1, 7), load(2, 0, 1, 0, 0), fence(3, 0, 1)];
    assert_eq!(obeyed_weakly(&late), [false, false, true]);
    // Each lets a history through that the claim does not hold for.
    for history in [&other_core, &early, &late] {
        assert!(!fenced(history) && check(history).is_err(), "{history:?}");
    }
}

// ---- The claim ----

#[test]
fn nothing_passes_anything() {
    assert_eq!(check(&[]), Ok(()));
    assert_eq!(check(&[store(1, 0, 0, 5, 7), load(2, 0, 1, 4, 0)]), out_of_order(1, 2));
    assert_eq!(check(&[load(1, 0, 0, 5, 0), load(2, 0, 1, 4, 0)]), out_of_order(1, 2));
    assert_eq!(check(&[load(1, 0, 0, 5, 0), store(2, 0, 1, 4, 7)]), out_of_order(1, 2));
    assert_eq!(check(&[store(1, 0, 0, 5, 7), store(2, 0, 1, 4, 7)]), out_of_order(1, 2));
    assert_eq!(check(&[store(1, 0, 0, 5, 7), fence(2, 0, 4)]), out_of_order(1, 2));
    assert_eq!(check(&[fence(1, 0, 5), load(2, 0, 0, 4, 0)]), out_of_order(1, 2));
    // Not only neighbours.
    let apart = [store(1, 0, 0, 5, 7), fence(2, 1, 5), load(3, 1, 0, 5, 7), load(4, 0, 1, 4, 0)];
    assert_eq!(check(&apart), out_of_order(1, 4));
    // Other cores are free.
    assert_eq!(check(&[store(1, 0, 0, 5, 7), load(2, 1, 0, 4, 0)]), Ok(()));
}

#[test]
fn ties_are_sorted_by_place() {
    let one = [store(1, 0, 0, 5, 7), fence(2, 0, 5), load(3, 0, 1, 5, 0)];
    assert_eq!(check(&one), Ok(()));
    let (first, second) = (store(2, 1, 0, 5, 7), store(4, 0, 0, 5, 8));
    assert_eq!(
        check(&[load(1, 0, 0, 5, 0), first, load(3, 0, 0, 5, 7), second, load(5, 1, 0, 5, 8)]),
        Ok(())
    );
    assert_eq!(check(&[first, load(3, 0, 0, 5, 0)]), wrong_bytes(3, Some(2)));
    assert_eq!(check(&[first, load(3, 0, 0, 5, 8), second]), wrong_bytes(3, Some(2)));
}

#[test]
fn a_load_gives_the_bytes_of_the_last_store_before_it() {
    assert_eq!(check(&[load(1, 0, 0, 0, 0)]), Ok(()));
    assert_eq!(check(&[load(1, 0, 0, 0, 7)]), wrong_bytes(1, None));
    // Stale bytes.
    assert_eq!(check(&[store(1, 1, 0, 1, 7), load(2, 0, 0, 1, 0)]), wrong_bytes(2, Some(1)));
    let two = [store(1, 1, 0, 1, 7), store(2, 2, 0, 3, 8), load(3, 0, 0, 4, 7)];
    assert_eq!(check(&two), wrong_bytes(3, Some(2)));
    // Of another line, or after the load.
    assert_eq!(check(&[store(1, 1, 1, 1, 7), load(2, 0, 0, 1, 0)]), Ok(()));
    assert_eq!(check(&[store(1, 1, 0, 2, 7), load(2, 0, 0, 1, 0)]), Ok(()));
    assert_eq!(check(&[store(1, 1, 0, 2, 7), load(2, 0, 0, 1, 7)]), wrong_bytes(2, None));
    // A store made later, yet of a smaller timestamp, is before the load.
    assert_eq!(check(&[load(1, 0, 0, 4, 0), store(2, 1, 0, 3, 7)]), wrong_bytes(1, Some(2)));
}

/// A core that reads its own store before the order has it: TSO shows it the store,
/// and sequential consistency what was there before.
#[test]
fn a_core_that_reads_its_own_store() {
    let forwarded = [store(1, 0, 0, 5, 7), load(2, 0, 0, 1, 7)];
    assert_eq!(order::check(&forwarded, Ties::ByPlace), Ok(()));
    assert_eq!(check(&forwarded), out_of_order(1, 2));
    assert_eq!(check_bytes(&forwarded), wrong_bytes(2, None));
    let before = [store(1, 0, 0, 5, 7), load(2, 0, 0, 1, 0)];
    assert_eq!(order::check(&before, Ties::ByPlace), wrong_bytes(2, Some(1)));
    assert_eq!(check_bytes(&before), Ok(()));
    // Where the order has it, both agree.
    let after = [store(1, 0, 0, 5, 7), fence(2, 0, 5), load(3, 0, 0, 5, 7)];
    assert_eq!(order::check(&after, Ties::ByPlace), Ok(()));
    assert_eq!(check(&after), Ok(()));
}

/// Store buffering: both loads read zeros, which no sequential order allows.
#[test]
fn store_buffering() {
    let both = |loads: [Made; 2]| [store(1, 0, 0, 11, 1), store(2, 1, 1, 11, 1), loads[0], loads[1]];
    let at_0 = both([load(3, 0, 1, 0, 0), load(4, 1, 0, 0, 0)]);
    assert_eq!(order::check(&at_0, Ties::ByPlace), Ok(()));
    assert_eq!(check(&at_0), out_of_order(1, 3));
    assert_eq!(check(&both([load(3, 0, 1, 11, 0), load(4, 1, 0, 11, 1)])), wrong_bytes(3, Some(2)));
    assert_eq!(check(&both([load(3, 0, 1, 11, 1), load(4, 1, 0, 11, 1)])), Ok(()));
}

// ---- Lists of calls ----

/// The commits of a list of calls from a fresh engine.
fn commits((sizes, steps): (Sizes, Vec<Step>)) -> Vec<Made> {
    let mut machine = Machine::open(sizes).unwrap();
    let records = steps.iter().zip(1..).map(|(step, place)| {
        let answer = machine.call(step);
        Record { place, step: Some(*step), answer }
    });
    order::commits(&records.collect::<Vec<_>>())
}

/// Lists with fences that mix evict, drop and writeback, on engines of any
/// capacity; and the same lists without their fences.
#[test]
fn mixed_lists_with_fences() {
    let mut not_sequential = 0;
    for seed in 1..400 {
        let (sizes, steps) = generate::fenced_calls(seed, 200);
        let made = commits((sizes, steps.clone()));
        assert_eq!(unfenced(&made), None, "seed {seed}");
        assert_eq!(check(&made), Ok(()), "seed {seed}");
        let without = steps.into_iter().filter(|step| !matches!(step, Step::Fence { .. })).collect();
        not_sequential += u32::from(check(&commits((sizes, without))).is_err());
    }
    assert!(not_sequential > 100, "only {not_sequential} lists are not sequential without their fences");
}

/// Of lists that are not made so, those that obey the hypothesis.
#[test]
fn mixed_lists_that_obey() {
    let mut obey = 0;
    for seed in 1..400 {
        let made = commits(generate::calls(seed, 60));
        if fenced(&made) && asks_for_fences(&made) {
            assert_eq!(check(&made), Ok(()), "seed {seed}");
            obey += 1;
        }
    }
    assert!(obey > 3, "only {obey} lists obey the hypothesis");
}

// ---- Journals without their fences, and with those of others ----

#[test]
fn fences_left_out_and_fences_of_others() {
    let opening = "fabric=1 cores=2 lines=1 width=1 lease=1\n";
    let journal = |steps: &str| format!("{opening}{steps}").into_bytes();
    let both = journal("op=fence core=0\nop=load core=0 line=0\nop=fence core=1\nop=fence core=9\n");
    assert_eq!(generate::without_fences(&both), journal("op=load core=0 line=0\n"));
    let others = journal("op=fence core=1\nop=load core=0 line=0\nop=fence core=0\nop=fence core=0\n");
    assert_eq!(generate::with_fences_of_others(&both), others);
}
