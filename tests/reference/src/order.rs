//! What a memory model says of the commits of a run, sorted by timestamp and then
//! by place, checked by its definition (01, "The sorted order").
//!
//! - Two commits of one core stand in the order in which they were made, unless
//!   the model lets the later one pass the earlier.
//! - A load's bytes are those of the last store to its line among the stores
//!   that precede it and those that the model shows it besides; zeros if none.
//!
//! Demand 3 is this with the model TSO. `sequential.rs` has another one.

use crate::machine::{Answer, Bytes, Commit, Step};
use crate::run::Record;

/// A commit as the order sees it: kind, core, line and a store's bytes are
/// those that the call was given; of the answer only the timestamp is used.
/// A load's bytes are kept apart, to be compared.
#[derive(Clone, Copy, Debug)]
pub struct Made {
    pub place: u32,
    pub ts: u32,
    pub call: Step,
    pub loaded: Option<Bytes>,
}

impl Made {
    fn core(&self) -> Option<u32> {
        self.call.core()
    }

    pub fn same_core(&self, other: &Made) -> bool {
        self.core() == other.core()
    }

    pub fn is_load(&self) -> bool {
        matches!(self.call, Step::Load { .. })
    }

    pub fn is_store(&self) -> bool {
        matches!(self.call, Step::Store { .. })
    }

    pub fn is_fence(&self) -> bool {
        matches!(self.call, Step::Fence { .. })
    }
}

/// How commits of equal timestamp are sorted. 01 sorts by place; by core is one
/// of the faults that 01 names.
#[derive(Clone, Copy, PartialEq, Eq, Debug)]
pub enum Ties {
    ByPlace,
    ByCore,
}

/// A memory model.
pub struct Model {
    /// Whether, of two commits of one core, the later (given second) may stand
    /// before the earlier.
    pub may_pass: fn(&Made, &Made) -> bool,
    /// Whether a load (given second) sees a store that does not precede it.
    pub sees_besides: fn(&Made, &Made) -> bool,
}

/// Demand 3: a load may pass a store, and a load sees the stores that its core made
/// earlier.
pub const TSO: Model = Model {
    may_pass: |earlier, later| earlier.is_store() && later.is_load(),
    sees_besides: made_by_its_core,
};

/// Whether a store was made earlier by a load's core.
fn made_by_its_core(store: &Made, load: &Made) -> bool {
    store.same_core(load) && store.place < load.place
}

/// Where a model's rules fail.
#[derive(Clone, Copy, PartialEq, Eq, Debug)]
pub enum Trouble {
    /// A call that is no load, store or fence committed.
    WrongKind { place: u32 },
    /// Two commits of one core do not stand in the order in which they were made.
    OutOfOrder { earlier: u32, later: u32 },
    /// A load's bytes are not those of the store at this place (or zeros).
    WrongBytes { load: u32, store: Option<u32> },
}

/// The commits among the records of a run.
pub fn commits(records: &[Record]) -> Vec<Made> {
    records.iter().filter_map(made).collect()
}

fn made(record: &Record) -> Option<Made> {
    let Answer::Commit(commit) = record.answer else {
        return None;
    };
    let (ts, loaded) = match commit {
        Commit::Load { ts, data, .. } => (ts, Some(data)),
        Commit::Store { ts, .. } | Commit::Fence { ts, .. } => (ts, None),
    };
    Some(Made { place: record.place, ts, call: record.step?, loaded })
}

/// Whether one commit precedes another.
pub fn precedes(one: &Made, other: &Made, ties: Ties) -> bool {
    match ties {
        Ties::ByPlace => (one.ts, one.place) < (other.ts, other.place),
        Ties::ByCore => (one.ts, one.core(), one.place) < (other.ts, other.core(), other.place),
    }
}

/// Checks demand 3 over all commits of a run, given in the order of their places.
pub fn check(made: &[Made], ties: Ties) -> Result<(), Trouble> {
    check_model(made, &TSO, ties)
}

/// Checks the rules of a model over all commits of a run, given in the order of
/// their places.
pub fn check_model(made: &[Made], model: &Model, ties: Ties) -> Result<(), Trouble> {
    check_kinds(made)?;
    check_program_order(made, model, ties)?;
    check_bytes(made, model, ties)
}

/// Commits come from load, store and fence only.
fn check_kinds(made: &[Made]) -> Result<(), Trouble> {
    match made.iter().find(|commit| !(commit.is_load() || commit.is_store() || commit.is_fence())) {
        Some(commit) => Err(Trouble::WrongKind { place: commit.place }),
        None => Ok(()),
    }
}

fn check_program_order(made: &[Made], model: &Model, ties: Ties) -> Result<(), Trouble> {
    for (at, earlier) in made.iter().enumerate() {
        for later in &made[at + 1..] {
            let must_stand = earlier.same_core(later) && !(model.may_pass)(earlier, later);
            if must_stand && !precedes(earlier, later, ties) {
                return Err(Trouble::OutOfOrder { earlier: earlier.place, later: later.place });
            }
        }
    }
    Ok(())
}

/// The rule about the bytes of loads, by itself.
pub fn check_bytes(made: &[Made], model: &Model, ties: Ties) -> Result<(), Trouble> {
    for load in made.iter().filter(|commit| commit.is_load()) {
        let store = last_store(made, load, model, ties);
        if !bytes_agree(load, store) {
            return Err(Trouble::WrongBytes { load: load.place, store: store.map(|s| s.place) });
        }
    }
    Ok(())
}

/// The last store to the load's line among those that precede the load and
/// those that it sees besides.
fn last_store<'a>(made: &'a [Made], load: &Made, model: &Model, ties: Ties) -> Option<&'a Made> {
    let mut last: Option<&Made> = None;
    for store in made.iter().filter(|commit| commit.is_store()) {
        let seen = precedes(store, load, ties) || (model.sees_besides)(store, load);
        let later = match last {
            Some(last) => precedes(last, store, ties),
            None => true,
        };
        if store.call.line() == load.call.line() && seen && later {
            last = Some(store);
        }
    }
    last
}

fn bytes_agree(load: &Made, store: Option<&Made>) -> bool {
    let Some(loaded) = load.loaded else {
        return false;
    };
    match store.map(|store| store.call) {
        Some(Step::Store { data, .. }) => loaded == data,
        _ => loaded.as_slice().iter().all(|&byte| byte == 0),
    }
}
