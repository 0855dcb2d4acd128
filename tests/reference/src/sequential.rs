//! 02, "Fences give sequential consistency", checked by its definition.
//!
//! The hypothesis: between a committed store and the next committed load of its
//! core, that core commits a fence. The claim: then all commits of a core stand in
//! the sorted order as made, and each load gives the bytes of the last store to its
//! line before it in that order, zeros if none.
//!
//! The commits of a run are always given in the order of their places.

use crate::order::{self, Made, Model, Ties, Trouble};

/// Nothing passes anything, and a load sees only what precedes it.
pub const SEQUENTIAL: Model = Model { may_pass: |_, _| false, sees_besides: |_, _| false };

/// Checks the claim over all commits of a run.
pub fn check(made: &[Made]) -> Result<(), Trouble> {
    order::check_model(made, &SEQUENTIAL, Ties::ByPlace)
}

/// Checks only the claim about bytes, in whatever order a core's commits stand. It
/// fails where a core reads its own store and the store stands later, which TSO
/// allows.
pub fn check_bytes(made: &[Made]) -> Result<(), Trouble> {
    order::check_bytes(made, &SEQUENTIAL, Ties::ByPlace)
}

/// Whether the commits of a run obey the hypothesis.
pub fn fenced(made: &[Made]) -> bool {
    unfenced(made).is_none()
}

/// The places of the first store, and of the next load of its core, that have no
/// fence of that core between them.
pub fn unfenced(made: &[Made]) -> Option<(u32, u32)> {
    lacks_fence(made, |store, fence, load| fence.same_core(store) && between(store, fence, load))
}

/// Whether the hypothesis asks for a fence at all: some store has a next load.
pub fn asks_for_fences(made: &[Made]) -> bool {
    next_loads(made).next().is_some()
}

/// Each store that has a next load of its core, with that load.
pub fn next_loads(made: &[Made]) -> impl Iterator<Item = (&Made, &Made)> {
    let stores = made.iter().enumerate().filter(|(_, commit)| commit.is_store());
    stores.filter_map(move |(at, store)| {
        let next = made[at + 1..].iter().find(|later| later.is_load() && later.same_core(store))?;
        Some((store, next))
    })
}

/// Whether a fence is enough for a store and the next load of its core, which are
/// given before and after it.
type Enough = fn(&Made, &Made, &Made) -> bool;

/// The places of the first store, and of the next load of its core, for which no
/// fence is enough.
fn lacks_fence(made: &[Made], enough: Enough) -> Option<(u32, u32)> {
    let fences = || made.iter().filter(|commit| commit.is_fence());
    let mut lacking =
        next_loads(made).filter(|(store, load)| !fences().any(|fence| enough(store, fence, load)));
    lacking.next().map(|(store, load)| (store.place, load.place))
}

/// Whether a commit was made after one and before another.
pub fn between(earlier: &Made, commit: &Made, later: &Made) -> bool {
    earlier.place < commit.place && commit.place < later.place
}

/// The hypothesis with one of its words left out. None of these is enough: some run
/// obeys it and is not sequential.
const TOO_WEAK: [(&str, Enough); 3] = [
    ("a fence of any core", between),
    ("a fence anywhere before the load", |store, fence, load| {
        fence.same_core(store) && fence.place < load.place
    }),
    ("a fence anywhere after the store", |store, fence, _| {
        fence.same_core(store) && store.place < fence.place
    }),
];

/// How many hypotheses are too weak.
pub const WEAK: usize = TOO_WEAK.len();

/// Their names.
pub fn too_weak() -> [&'static str; WEAK] {
    TOO_WEAK.map(|(name, _)| name)
}

/// Which of them the commits of a run obey.
pub fn obeyed_weakly(made: &[Made]) -> [bool; WEAK] {
    TOO_WEAK.map(|(_, enough)| lacks_fence(made, enough).is_none())
}
