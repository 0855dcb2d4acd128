//! The check of demand 3 must fail on histories that break it.

#[path = "common/history.rs"]
mod history;

use history::{fence, load, out_of_order, store, wrong_bytes};
use reference::machine::Step;
use reference::order::{check, Made, Ties, Trouble};

#[test]
fn an_empty_history_is_orderly() {
    assert_eq!(check(&[], Ties::ByPlace), Ok(()));
}

#[test]
fn only_a_load_may_pass_a_store() {
    let by_place = |history: &[Made]| check(history, Ties::ByPlace);
    assert_eq!(by_place(&[store(1, 0, 0, 5, 1), load(2, 0, 1, 4, 0)]), Ok(()));
    assert_eq!(by_place(&[load(1, 0, 0, 5, 0), load(2, 0, 1, 4, 0)]), out_of_order(1, 2));
    assert_eq!(by_place(&[load(1, 0, 0, 5, 0), store(2, 0, 1, 4, 0)]), out_of_order(1, 2));
    assert_eq!(by_place(&[store(1, 0, 0, 5, 0), store(2, 0, 1, 4, 0)]), out_of_order(1, 2));
    assert_eq!(by_place(&[store(1, 0, 0, 5, 0), fence(2, 0, 4)]), out_of_order(1, 2));
    assert_eq!(by_place(&[fence(1, 0, 5), load(2, 0, 0, 4, 0)]), out_of_order(1, 2));
    assert_eq!(by_place(&[fence(1, 0, 5), store(2, 0, 0, 4, 0)]), out_of_order(1, 2));
    assert_eq!(by_place(&[fence(1, 0, 5), fence(2, 0, 4)]), out_of_order(1, 2));
    // Other cores are free.
    assert_eq!(by_place(&[load(1, 0, 0, 5, 0), load(2, 1, 1, 4, 0)]), Ok(()));
}

#[test]
fn a_load_sees_the_last_store() {
    let by_place = |history: &[Made]| check(history, Ties::ByPlace);
    assert_eq!(by_place(&[load(1, 0, 0, 0, 1)]), wrong_bytes(1, None));
    assert_eq!(by_place(&[store(1, 1, 0, 1, 7), load(2, 0, 0, 1, 0)]), wrong_bytes(2, Some(1)));
    assert_eq!(by_place(&[store(1, 1, 0, 2, 7), load(2, 0, 0, 1, 0)]), Ok(()));
    assert_eq!(by_place(&[store(1, 1, 1, 1, 7), load(2, 0, 0, 1, 0)]), Ok(()));
    // The last of several, by timestamp and not by place.
    let two = [store(1, 1, 0, 5, 7), store(2, 2, 0, 3, 8), load(3, 0, 0, 6, 7)];
    assert_eq!(by_place(&two), Ok(()));
    // A core's own store counts although it stands later in the order.
    assert_eq!(by_place(&[store(1, 0, 0, 5, 7), load(2, 0, 0, 1, 7)]), Ok(()));
    assert_eq!(by_place(&[store(1, 0, 0, 5, 7), load(2, 0, 0, 1, 0)]), wrong_bytes(2, Some(1)));
    // A store made later, yet of a smaller timestamp, precedes the load.
    assert_eq!(by_place(&[load(1, 0, 0, 4, 0), store(2, 1, 0, 3, 7)]), wrong_bytes(1, Some(2)));
}

#[test]
fn ties_are_sorted_by_place() {
    let history = [store(1, 1, 0, 1, 7), load(2, 0, 0, 1, 7)];
    assert_eq!(check(&history, Ties::ByPlace), Ok(()));
    assert_eq!(check(&history, Ties::ByCore), wrong_bytes(2, None));
}

/// Stores of one timestamp to one line, as repeated stores are: the place decides.
#[test]
fn equal_timestamps_in_one_line() {
    let by_place = |history: &[Made]| check(history, Ties::ByPlace);
    let (first, second) = (store(2, 0, 0, 5, 7), store(4, 0, 0, 5, 8));
    assert_eq!(by_place(&[first, second, load(5, 1, 0, 5, 8)]), Ok(()));
    assert_eq!(by_place(&[first, second, load(5, 1, 0, 5, 7)]), wrong_bytes(5, Some(4)));
    // A load of that timestamp between the two stands between them, and one before both.
    assert_eq!(by_place(&[first, load(3, 1, 0, 5, 7), second]), Ok(()));
    assert_eq!(by_place(&[first, load(3, 1, 0, 5, 8), second]), wrong_bytes(3, Some(2)));
    assert_eq!(by_place(&[load(1, 1, 0, 5, 0), first, second]), Ok(()));
    // A later timestamp sees the second, whatever its place.
    assert_eq!(by_place(&[first, load(3, 1, 0, 6, 7), second]), wrong_bytes(3, Some(4)));
    // The core itself sees its last store, also from a smaller timestamp.
    assert_eq!(by_place(&[first, load(3, 0, 0, 1, 7), second, load(5, 0, 0, 1, 8)]), Ok(()));
    assert_eq!(by_place(&[first, second, load(5, 0, 0, 1, 7)]), wrong_bytes(5, Some(4)));
    // Stores of two cores.
    let other = store(3, 1, 0, 5, 9);
    assert_eq!(by_place(&[first, other, load(5, 2, 0, 5, 9)]), Ok(()));
    assert_eq!(by_place(&[first, other, second, load(5, 2, 0, 5, 9)]), wrong_bytes(5, Some(4)));
}

#[test]
fn other_calls_do_not_commit() {
    let odd = Made { place: 1, ts: 0, call: Step::Take { line: 0 }, loaded: None };
    assert_eq!(check(&[odd], Ties::ByPlace), Err(Trouble::WrongKind { place: 1 }));
}
