//! Which rows of 01 and 02 a run meets: every answer, every row of the step
//! tables, every refusal with each of its reasons, every place where one can end a
//! run, in both forms. `rows` lists them; generated journals have to meet them all.
//!
//! Rows that no list of calls reaches are left out: refusals 1 and 2, which
//! need a broken state or buffer, answers that find an owned copy, and a late
//! renewal that finds a full cache. A core's copies come only by the answer in its
//! one slot, so a share or renewal that is under way never finds its own copy
//! owned, and where a renewal's copy is gone, nothing has come in its place. Nor
//! does rts alone decide on a store to a dirty line: it is the timestamp of the
//! core's store that made the copy, or of a load of the core since, so it never
//! passes both clocks.

use std::collections::BTreeMap;

use crate::journal::{self, kind_name, unknown_kind, Form, MAX_JOURNAL, MAX_LINE};
use crate::listing::done_name;
use crate::machine::*;
use crate::order::{self, Made, Ties};
use crate::rows::Rows;
use crate::run::{Record, Run};
use crate::sequential::{between, next_loads};
use crate::tally::Tallied;

const ANSWERS: &[&str] = &[
    "done open",
    "done ask",
    "done recall",
    "done share",
    "done renew",
    "done own",
    "done drop",
    "done evict",
    "done writeback",
    "done advance",
    "done yield",
    "done take",
    "done victim",
    "commit load",
    "commit store",
    "commit fence",
];

/// 01, "Steps".
const STEPS: &[&str] = &[
    "load: owned dirty, lts up to rts",
    "load: owned dirty, lts past rts",
    "load: owned clean, lts below wts",
    "load: owned clean, lts from wts to rts",
    "load: owned clean, lts past rts",
    "load: shared, lts below wts",
    "load: shared, lts from wts on, below rts",
    "load: shared, lts at rts",
    "load: shared, lts past rts",
    "load: no copy",
    "load: commits within 2,000 of the greatest timestamp",
    "store: owned clean, at lts",
    "store: owned clean, at sts",
    "store: owned clean, at rts + 1",
    "store: owned dirty, at wts again",
    "store: owned dirty, at rts past wts",
    "store: owned dirty, at lts past rts",
    "store: owned dirty, at sts past rts",
    "store: shared",
    "store: no copy",
    "store: commits within 2,000 of the greatest timestamp",
    "fence: lts below sts",
    "fence: lts from sts on",
    "fence: commits within 2,000 of the greatest timestamp",
    "evict: shared",
    "evict: shared, a request for the line under way",
    "evict: shared, a writeback of the line in flight",
    "evict: owned, no recall",
    "evict: owned, downgrade",
    "evict: owned, flush",
    "drop: shared",
    "drop: shared, a request for the line under way",
    "drop: shared, a writeback of the line in flight",
    "writeback: clean, no recall",
    "writeback: clean, downgrade",
    "writeback: clean, flush",
    "writeback: dirty, no recall",
    "writeback: dirty, downgrade",
    "writeback: dirty, flush",
    "writeback: rts past wts",
    "advance",
    "serve: owned, load, no recall",
    "serve: owned, load, downgrade",
    "serve: owned, load, flush",
    "serve: owned, store, no recall",
    "serve: owned, store, downgrade",
    "serve: owned, store, flush",
    "serve: owned by the asking core",
    "serve: owned, a writeback in flight",
    "serve: owned, load, asked lts + lease past the greatest",
    "serve: shared, load, no version held",
    "serve: shared, load, another version held",
    "serve: shared, load, the same version held",
    "serve: shared, load, rts grows",
    "serve: shared, load, rts stays",
    "serve: shared, store",
    "serve: shared, store, asked lts + lease past the greatest",
    "receive: share, no copy",
    "receive: share, shared copy",
    "receive: own, no copy",
    "receive: own, shared copy",
    "receive: renew, no copy",
    "receive: renew, shared copy",
    "yield: downgrade, clean",
    "yield: downgrade, dirty",
    "yield: flush, clean",
    "yield: flush, dirty",
    "take: no recall",
    "take: downgrade",
    "take: flush",
    "a step on an engine of 16 x 64 x 64",
];

/// 02, "Caches with a size": what is received where the cache is full or has one
/// room left, and which line is the victim. Full means that cap copies are held,
/// where cap is below lines.
const CACHES: &[&str] = &[
    "opened: cap 1, several lines",
    "opened: cap 2, more lines",
    "opened: cap = lines, several",
    "opened: another cap",
    "receive: share, no copy, the last room",
    "receive: own, no copy, the last room",
    "receive: share, shared copy, full",
    "receive: own, shared copy, full",
    "receive: renew, shared copy, full",
    "receive: renew, no copy, its copy's room is free",
    "receive: after 31, a drop made room",
    "receive: after 31, a writeback made room",
    "receive: after 31, a yield made room",
    "victim: the only copy",
    "victim: by rts",
    "victim: by rts, a smaller line is held",
    "victim: by rts, another copy's wts is smaller",
    "victim: by tie",
    "victim: by tie, line 0 is not held",
    "victim: by tie, an owned copy before a shared one",
    "victim: shared",
    "victim: owned clean",
    "victim: owned dirty",
    "victim: full",
    "victim: room is left",
    "victim: an answer waits for room",
];

/// 02, "Repeated stores without a new timestamp": where the two formulas part,
/// lines that were dirty and are not any more, though their core owns them again,
/// and stores of one timestamp to one line.
const REPEATED: &[&str] = &[
    "store: owned clean, rts + 1 is the greatest timestamp",
    "store: owned dirty, rts is the greatest timestamp",
    "store: owned dirty, a recall stands",
    "store: owned dirty, the slot is asked for a load",
    "store: owned dirty, the slot is asked for a store",
    "store: owned dirty, the slot is answered",
    "store: owned again after a downgrade, past another core's lease",
    "store: owned again after an eviction, past another core's lease",
    "store: owned again after a flush, past another core's lease",
    "load: at the timestamp of several stores of another core to the line",
    "refused 27: store, the line was dirty before",
];

/// 01, "Refused because of the input" and "of the state".
const REFUSALS: &[&str] = &[
    "refused 14",
    "refused 10: line over 200 bytes",
    "refused 10: no last newline",
    "refused 11: empty journal",
    "refused 11: opening",
    "refused 11: unknown step kind",
    "refused 11: evict under fabric=2",
    "refused 11: drop under fabric=1",
    "refused 11: writeback under fabric=1",
    "refused 11: victim under fabric=1",
    "refused 11: fabric=2 without cap",
    "refused 11: fabric=1 with cap",
    "refused 11: cap twice",
    "refused 11: cap before lease",
    "refused 11: a first line of the journal's form",
    "refused 11: a first line of the other form",
    "refused 11: another form",
    "refused 12: no digits",
    "refused 12: another byte",
    "refused 12: leading zero",
    "refused 12: above the greatest",
    "refused 12: only the cap",
    "refused 13: empty",
    "refused 13: odd in count",
    "refused 13: not 0-9 a-f",
    "refused 7: cores 0",
    "refused 7: cores above the limit",
    "refused 7: lines 0",
    "refused 7: lines above the limit",
    "refused 7: width 0",
    "refused 7: width above the limit",
    "refused 7: lease 0",
    "refused 7: lease above the limit",
    "refused 7: cap 0",
    "refused 7: cap above lines",
    "refused 3: load",
    "refused 3: store",
    "refused 3: fence",
    "refused 3: evict",
    "refused 3: drop",
    "refused 3: writeback",
    "refused 3: advance",
    "refused 3: serve",
    "refused 3: receive",
    "refused 3: victim",
    "refused 3: and the line is none",
    "refused 3: and by is 0",
    "refused 4: load",
    "refused 4: store",
    "refused 4: evict",
    "refused 4: drop",
    "refused 4: writeback",
    "refused 4: yield",
    "refused 4: take",
    "refused 4: and the data do not fit",
    "refused 5: too few bytes",
    "refused 5: too many bytes",
    "refused 5: and the slot is not empty",
    "refused 6",
    "refused 20: load, no copy, slot asked",
    "refused 20: load, no copy, slot answered",
    "refused 20: load, shared, slot asked",
    "refused 20: load, shared, slot answered",
    "refused 20: store, no copy, slot asked",
    "refused 20: store, no copy, slot answered",
    "refused 20: store, shared, slot asked",
    "refused 20: store, shared, slot answered",
    "refused 21: slot empty",
    "refused 21: slot answered",
    "refused 22: slot empty",
    "refused 22: slot asked",
    "refused 22: slot empty, full",
    "refused 22: slot asked, full",
    "refused 23: line shared",
    "refused 23: no recall",
    "refused 24: the owner's copy is shared",
    "refused 24: the owner has no copy, no writeback in flight",
    "refused 24: the owner has no copy, a writeback in flight",
    "refused 25: line shared",
    "refused 25: line owned",
    "refused 26: evict",
    "refused 26: drop",
    "refused 26: writeback",
    "refused 26: drop, a writeback in flight",
    "refused 26: writeback, a writeback in flight",
    "refused 26: victim",
    "refused 26: victim, other cores hold copies",
    "refused 30: drop, owned clean",
    "refused 30: drop, owned dirty",
    "refused 30: writeback, shared",
    "refused 30: writeback, shared, the line's owner",
    "refused 27: store",
    "refused 27: advance",
    "refused 27: serve",
    "refused 31: share",
    "refused 31: own",
    "refused 31: cap 1",
    "refused 31: cap above 1",
    "refused 31: only shared copies held",
    "refused 31: only owned copies held",
    "refused 31: again",
];

/// 01, "Journal and driver": limits, and where a run ends.
const JOURNALS: &[&str] = &[
    "journal of 65,536 bytes",
    "journal of 65,537 bytes",
    "line of 200 bytes",
    "line of 201 bytes",
    "read to its end",
    "ended by 7: opening",
    "ended by 14: opening",
    "ended by 10: opening",
    "ended by 10: first step",
    "ended by 10: middle step",
    "ended by 10: last step",
    "ended by 11: opening",
    "ended by 11: first step",
    "ended by 11: middle step",
    "ended by 11: last step",
    "ended by 12: opening",
    "ended by 12: first step",
    "ended by 12: middle step",
    "ended by 12: last step",
    "ended by 13: first step",
    "ended by 13: middle step",
    "ended by 13: last step",
];

/// 02, "Evict becomes drop and writeback": the second form, also where the rows
/// above could be met in the first one alone.
const FORM_2: &[&str] = &[
    "fabric=2: receive: renew, no copy",
    "fabric=2: serve: owned, a writeback in flight",
    "fabric=2: refused 24: the owner has no copy, a writeback in flight",
    "fabric=2: take: no recall",
    "fabric=2: take: downgrade",
    "fabric=2: take: flush",
    "fabric=2: fences: one between a store and the next load",
    "fabric=2: fences: none, the next load stands before the store",
    "fabric=2: read to its end",
    "fabric=2: ended by 7: opening",
    "fabric=2: ended by 10: opening",
    "fabric=2: ended by 11: opening",
    "fabric=2: ended by 12: opening",
    "fabric=2: ended by 10: first step",
    "fabric=2: ended by 10: middle step",
    "fabric=2: ended by 10: last step",
    "fabric=2: ended by 11: first step",
    "fabric=2: ended by 11: middle step",
    "fabric=2: ended by 11: last step",
    "fabric=2: ended by 12: first step",
    "fabric=2: ended by 12: middle step",
    "fabric=2: ended by 12: last step",
    "fabric=2: ended by 13: first step",
    "fabric=2: ended by 13: middle step",
    "fabric=2: ended by 13: last step",
];

/// 02, "A tally of the traffic": counts that are not 0, and how runs end.
const TALLIES: &[&str] = &[
    "tally: loads",
    "tally: stores",
    "tally: fences",
    "tally: asks",
    "tally: shares",
    "tally: renews",
    "tally: owns",
    "tally: all seven",
    "tally: none, after steps",
    "tally: one core still asks at the end",
    "tally: several cores still ask at the end",
    "tally: an answer is not received at the end",
    "tally: counts before a line that ends the run",
];

/// 02, "Fences give sequential consistency": what fences there are around a store and
/// the next load of its core, of that core where nothing else is said, and how the
/// two stand in the sorted order.
const FENCES: &[&str] = &[
    "fences: one between a store and the next load",
    "fences: one between several stores and the next load",
    "fences: one while the next load's request is under way",
    "fences: store, fence and next load at one timestamp",
    "fences: another core's between a store and the next load, none of its own",
    "fences: one before the store, none between",
    "fences: one between two stores, none after the second",
    "fences: one after the next load, none between",
    "fences: none, the next load stands before the store",
    "fences: none, the next load stands after the store",
    "fences: none, the next load reads the store, which stands later",
    "fences: a store without a next load",
];

/// Every row that generated journals must meet.
pub fn rows() -> Vec<&'static str> {
    [ANSWERS, STEPS, CACHES, REPEATED, REFUSALS, JOURNALS, FORM_2, TALLIES, FENCES].concat()
}

/// How often each row was met.
#[derive(Default)]
pub struct Coverage {
    met: Rows,
    /// Whether the journal that is played starts as one of the second form.
    second: bool,
    /// For each core that got 31 and has not received since, what made room since.
    waiting: [Option<Room>; MAX_CORES],
    /// For each core and line that was dirty and has not been stored to by that core
    /// since: by what the core ceased to own it.
    lost: BTreeMap<(u32, u32), &'static str>,
    /// For each line its last stores.
    stored: BTreeMap<u32, Stored>,
}

/// The last stores to a line, as many as one core made at one timestamp.
#[derive(Clone, Copy)]
struct Stored {
    core: u32,
    ts: u32,
    count: u32,
}

/// What has made room in a cache since 31.
#[derive(Clone, Copy)]
enum Room {
    None,
    By(&'static str),
}

impl Coverage {
    /// Counts a row, and in the second form also its row of `FORM_2`, if it has one.
    fn count(&mut self, row: impl Into<String>) {
        let row = row.into();
        let of_form_2 = format!("fabric=2: {row}");
        if self.second && FORM_2.contains(&of_form_2.as_str()) {
            self.met.count(of_form_2);
        }
        self.met.count(row);
    }

    pub fn add(&mut self, other: &Coverage) {
        self.met.add(&other.met);
    }

    /// The rows that were never met, and what was counted that is no row.
    pub fn missing(&self) -> Vec<String> {
        self.met.missing(&rows())
    }

    /// All rows with their counts, one a line.
    pub fn table(&self) -> String {
        self.met.table(&rows())
    }

    /// Runs a journal, counts what occurs and gives the records. A second
    /// machine follows one step behind, to tell which row of a table applied.
    pub fn run(&mut self, journal: &[u8]) -> Vec<Record> {
        self.second = journal.starts_with(Form::Two.start().as_bytes());
        self.waiting = [None; MAX_CORES];
        self.lost.clear();
        self.stored.clear();
        self.count_limits(journal);
        let mut records = Vec::new();
        let mut run = Run::new(journal);
        let mut behind: Option<Machine> = None;
        while let Some(record) = run.next() {
            self.count_answer(&record);
            match (&mut behind, &record.step) {
                (None, _) => {
                    behind = run.machine().cloned();
                    self.count_cap(behind.as_ref());
                }
                (Some(machine), Some(step)) => {
                    self.count_step(step, record.answer, &machine.state);
                    self.count_room(step, record.answer, machine);
                    self.count_repeated(step, record.answer, &machine.state);
                    machine.step(step);
                }
                _ => {}
            }
            records.push(record);
        }
        self.count_end(journal, run.form(), &records);
        self.count_tally(&records, run.machine());
        self.count_fences(&records);
        records
    }

    /// What fences there are around each store and the next load of its core.
    fn count_fences(&mut self, records: &[Record]) {
        let made = order::commits(records);
        let mut stores = made.iter().filter(|commit| commit.is_store()).count();
        for (store, load) in next_loads(&made) {
            let of_core: Vec<_> = made.iter().filter(|commit| commit.same_core(store)).collect();
            match of_core.iter().find(|commit| commit.is_fence() && between(store, commit, load)) {
                Some(fence) => self.count_fence(records, &of_core, [store, fence, load]),
                None => self.count_no_fence(&made, &of_core, [store, load]),
            }
            stores -= 1;
        }
        if stores > 0 {
            self.count("fences: a store without a next load");
        }
    }

    /// Of a fence between a store and the next load of its core, all among the commits
    /// of that core: what else is there, and how the three stand.
    fn count_fence(&mut self, records: &[Record], of_core: &[&Made], [store, fence, load]: [&Made; 3]) {
        self.count("fences: one between a store and the next load");
        if before(of_core, store).next().is_some_and(Made::is_store) {
            self.count("fences: one between several stores and the next load");
        }
        let asks = |record: &Record| record.step == Some(load.call) && record.answer == Answer::Ask;
        if records[store.place as usize..fence.place as usize].iter().any(asks) {
            self.count("fences: one while the next load's request is under way");
        }
        if store.ts == fence.ts && fence.ts == load.ts {
            self.count("fences: store, fence and next load at one timestamp");
        }
    }

    /// Where there is no fence of the core between a store and the next load: what
    /// fences there are, and how the two stand.
    fn count_no_fence(&mut self, made: &[Made], of_core: &[&Made], [store, load]: [&Made; 2]) {
        if made.iter().any(|commit| commit.is_fence() && between(store, commit, load)) {
            self.count("fences: another core's between a store and the next load, none of its own");
        }
        if before(of_core, store).any(Made::is_fence) {
            self.count("fences: one before the store, none between");
        }
        let mut earlier = before(of_core, store);
        if earlier.next().is_some_and(Made::is_fence) && earlier.next().is_some_and(Made::is_store) {
            self.count("fences: one between two stores, none after the second");
        }
        if of_core.iter().any(|commit| commit.is_fence() && commit.place > load.place) {
            self.count("fences: one after the next load, none between");
        }
        if order::precedes(store, load, Ties::ByPlace) {
            self.count("fences: none, the next load stands after the store");
            return;
        }
        self.count("fences: none, the next load stands before the store");
        let reads = |line, data| load.call.line() == Some(line) && load.loaded == Some(data);
        if matches!(store.call, Step::Store { line, data, .. } if reads(line, data)) {
            self.count("fences: none, the next load reads the store, which stands later");
        }
    }

    /// What capacity a journal of the second form opens.
    fn count_cap(&mut self, machine: Option<&Machine>) {
        let Some(Sizes { lines, cap, .. }) = machine.map(|machine| machine.state.sizes) else {
            return;
        };
        if self.second && lines > 1 {
            self.count(match cap {
                _ if cap == lines => "opened: cap = lines, several",
                1 => "opened: cap 1, several lines",
                2 => "opened: cap 2, more lines",
                _ => "opened: another cap",
            });
        }
    }

    /// What a core that has got 31 does until it receives.
    fn count_room(&mut self, step: &Step, answer: Answer, before: &Machine) {
        match (*step, answer) {
            (Step::Receive { core }, Answer::Refused(31)) => {
                if self.waiting[core as usize].replace(Room::None).is_some() {
                    self.count("refused 31: again");
                }
            }
            (Step::Receive { core }, Answer::Share | Answer::Own) => {
                if let Some(Room::By(kind)) = self.waiting[core as usize].take() {
                    self.count(format!("receive: after 31, a {kind} made room"));
                }
            }
            (Step::Drop { core, .. }, Answer::Drop) | (Step::Writeback { core, .. }, Answer::Writeback) => {
                self.made_room(core, kind_name(step));
            }
            (Step::Yield { line }, Answer::Yield) => {
                let manager = before.state.lines[line as usize];
                if let (Holder::Owned { core }, Recall::Flush) = (manager.holder, manager.recall) {
                    self.made_room(core, kind_name(step));
                }
            }
            _ => {}
        }
    }

    /// Notes what has made room for the answer that a core waits for.
    fn made_room(&mut self, core: u32, kind: &'static str) {
        if let Some(room) = &mut self.waiting[core as usize] {
            *room = Room::By(kind);
        }
    }

    /// What a store or a load has to do with the stores to its line before it.
    fn count_repeated(&mut self, step: &Step, answer: Answer, before: &State) {
        match (*step, answer) {
            (Step::Store { core, line, .. }, Answer::Commit(Commit::Store { ts, .. })) => {
                self.count_store(core, line, before);
                let count = match self.stored.get(&line) {
                    Some(last) if (last.core, last.ts) == (core, ts) => last.count + 1,
                    _ => 1,
                };
                self.stored.insert(line, Stored { core, ts, count });
            }
            (Step::Store { core, line, .. }, Answer::Refused(27))
                if self.lost.contains_key(&(core, line)) =>
            {
                self.count("refused 27: store, the line was dirty before");
            }
            (Step::Load { core, line }, Answer::Commit(Commit::Load { ts, .. })) => {
                let several = |last: &Stored| last.core != core && last.ts == ts && last.count > 1;
                if self.stored.get(&line).is_some_and(several) {
                    self.count("load: at the timestamp of several stores of another core to the line");
                }
            }
            (Step::Evict { core, line }, Answer::Evict)
            | (Step::Writeback { core, line }, Answer::Writeback) => {
                self.lose(core, line, "an eviction", before);
            }
            (Step::Yield { line }, Answer::Yield) => match before.lines[line as usize] {
                Line { holder: Holder::Owned { core }, recall: Recall::Flush, .. } => {
                    self.lose(core, line, "a flush", before);
                }
                Line { holder: Holder::Owned { core }, .. } => self.lose(core, line, "a downgrade", before),
                _ => {}
            },
            _ => {}
        }
    }

    /// Notes by what a core ceases to own a line, if it is dirty.
    fn lose(&mut self, core: u32, line: u32, by: &'static str, before: &State) {
        if matches!(copy(before, core, line), PrivateCopy::Owned { dirty: true, .. }) {
            self.lost.insert((core, line), by);
        }
    }

    /// How a store that commits stands to the greatest timestamp, to a recall, and
    /// to the leases of the line that were given since it was dirty last.
    fn count_store(&mut self, core: u32, line: u32, before: &State) {
        let PrivateCopy::Owned { rts, dirty, .. } = copy(before, core, line) else {
            return;
        };
        let lost = self.lost.remove(&(core, line));
        match (dirty, rts) {
            (true, GREATEST) => self.count("store: owned dirty, rts is the greatest timestamp"),
            (false, rts) if rts == GREATEST - 1 => {
                self.count("store: owned clean, rts + 1 is the greatest timestamp");
            }
            _ => {}
        }
        if dirty && before.lines[line as usize].recall != Recall::None {
            self.count("store: owned dirty, a recall stands");
        }
        let Core { lts, sts, slot } = before.cores[core as usize];
        match slot {
            Slot::Asked { wish: Wish::Load, .. } if dirty => {
                self.count("store: owned dirty, the slot is asked for a load");
            }
            Slot::Asked { .. } if dirty => self.count("store: owned dirty, the slot is asked for a store"),
            Slot::Answered { .. } if dirty => self.count("store: owned dirty, the slot is answered"),
            _ => {}
        }
        let lent =
            |other| matches!(copy(before, other, line), PrivateCopy::Shared { rts: end, .. } if end == rts);
        if let Some(by) = lost {
            if rts >= lts.max(sts) && (0..before.sizes.cores).any(lent) {
                self.count(format!("store: owned again after {by}, past another core's lease"));
            }
        }
    }

    fn count_limits(&mut self, journal: &[u8]) {
        match journal.len() {
            MAX_JOURNAL => self.count("journal of 65,536 bytes"),
            n if n == MAX_JOURNAL + 1 => self.count("journal of 65,537 bytes"),
            _ => {}
        }
        for line in journal.split(|&byte| byte == b'\n') {
            match line.len() {
                MAX_LINE => self.count("line of 200 bytes"),
                n if n == MAX_LINE + 1 => self.count("line of 201 bytes"),
                _ => {}
            }
        }
    }

    fn count_answer(&mut self, record: &Record) {
        let (kind, ts) = match record.answer {
            Answer::Refused(_) => return,
            Answer::Commit(Commit::Load { ts, .. }) => ("load", ts),
            Answer::Commit(Commit::Store { ts, .. }) => ("store", ts),
            Answer::Commit(Commit::Fence { ts, .. }) => ("fence", ts),
            done => return self.count(format!("done {}", done_name(&done))),
        };
        self.count(format!("commit {kind}"));
        if ts > GREATEST - 2000 {
            self.count(format!("{kind}: commits within 2,000 of the greatest timestamp"));
        }
    }

    /// The number that ended the run, its reason and its place.
    fn count_end(&mut self, journal: &[u8], form: Option<Form>, records: &[Record]) {
        let Some(Record { place, step: None, answer: Answer::Refused(number) }) = records.last() else {
            return self.count("read to its end");
        };
        let lines = journal.iter().filter(|&&byte| byte == b'\n').count() as u32;
        let position = match *place {
            0 => "opening",
            1 => "first step",
            place if place + 1 >= lines => "last step",
            _ => "middle step",
        };
        self.count(format!("ended by {number}: {position}"));
        let line = journal.split(|&byte| byte == b'\n').nth(*place as usize).unwrap_or(&[]);
        match number {
            7 => self.count_limits_of(line),
            14 => self.count("refused 14"),
            11 if journal.is_empty() => self.count("refused 11: empty journal"),
            11 if *place == 0 => {
                self.count("refused 11: opening");
                self.count_wrong_cap(line);
            }
            11 => self.count(format!("refused 11: {}", no_form(form.unwrap_or(Form::One), line))),
            _ => {
                self.count(format!("refused {number}: {}", reason(*number, line)));
                let others = line.split(|&byte| byte == b' ').filter(|word| !word.starts_with(b"cap="));
                let others = [&others.collect::<Vec<_>>().join(&b' '), &b" cap=1"[..]].concat();
                if *place == 0 && *number == 12 && journal::opening(&others).is_ok() {
                    self.count("refused 12: only the cap");
                }
            }
        }
    }

    /// What is wrong with the cap of a first line that is 11, where all else is right.
    fn count_wrong_cap(&mut self, line: &[u8]) {
        let opens = |line: String| journal::opening(line.as_bytes()).is_ok();
        let text = String::from_utf8_lossy(line);
        if opens(format!("{text} cap=1")) {
            self.count("refused 11: fabric=2 without cap");
        }
        if text.starts_with(Form::One.start()) && opens(text.replacen("fabric=1", "fabric=2", 1)) {
            self.count("refused 11: fabric=1 with cap");
        }
        let caps: Vec<_> = text.split(' ').filter(|word| word.starts_with("cap=")).collect();
        if let [one, other] = caps[..] {
            if opens(text.replacen(&format!(" {one} {other}"), &format!(" {one}"), 1)) {
                self.count("refused 11: cap twice");
            }
        }
        if let [cap] = caps[..] {
            if !text.ends_with(cap) && opens(text.replacen(&format!(" {cap}"), "", 1) + " " + cap) {
                self.count("refused 11: cap before lease");
            }
        }
    }

    /// Which counts of a run's tally are not 0, and what the slots hold at its end.
    fn count_tally(&mut self, records: &[Record], machine: Option<&Machine>) {
        let Tallied { tally, still_asked } = Tallied::of_run(records, machine);
        let counts = tally.counts();
        for (name, _) in counts.iter().filter(|(_, count)| *count > 0) {
            self.count(format!("tally: {name}"));
        }
        let nonzero = counts.iter().filter(|(_, count)| *count > 0).count();
        if nonzero == counts.len() {
            self.count("tally: all seven");
        }
        if nonzero == 0 && records.iter().any(|record| record.step.is_some()) {
            self.count("tally: none, after steps");
        }
        match still_asked {
            0 => {}
            1 => self.count("tally: one core still asks at the end"),
            _ => self.count("tally: several cores still ask at the end"),
        }
        let answered = |core: &Core| matches!(core.slot, Slot::Answered { .. });
        if machine.is_some_and(|machine| machine.state.cores.iter().any(answered)) {
            self.count("tally: an answer is not received at the end");
        }
        if nonzero > 0 && records.last().is_some_and(Record::ends_run) {
            self.count("tally: counts before a line that ends the run");
        }
    }

    /// Which sizes of an opening line lie outside the limits.
    fn count_limits_of(&mut self, line: &[u8]) {
        let Ok((form, Sizes { cores, lines, width, lease, cap })) = journal::opening(line) else {
            return;
        };
        if form == Form::Two && cap == 0 {
            self.count("refused 7: cap 0");
        } else if cap > lines {
            self.count("refused 7: cap above lines");
        }
        let most = [MAX_CORES, MAX_LINES, MAX_WIDTH, MAX_LEASE as usize];
        let names = ["cores", "lines", "width", "lease"];
        for ((size, most), name) in [cores, lines, width, lease].into_iter().zip(most).zip(names) {
            if size == 0 {
                self.count(format!("refused 7: {name} 0"));
            } else if size as usize > most {
                self.count(format!("refused 7: {name} above the limit"));
            }
        }
    }

    /// The rows that apply to a step of the grammar, by the state before it.
    fn count_step(&mut self, step: &Step, answer: Answer, before: &State) {
        match answer {
            Answer::Refused(number @ 3..=6) => self.count_input_refusal(number, step, before),
            Answer::Refused(number) => {
                self.count(state_refusal(number, step, before));
                self.count_eviction_refusal(number, step, before);
                self.count_cache_refusal(number, step, before);
            }
            _ => {
                self.count(step_row(step, before));
                self.count_asides(step, before);
            }
        }
        let sizes = before.sizes;
        if (sizes.cores, sizes.lines, sizes.width) == (16, 64, 64) {
            self.count("a step on an engine of 16 x 64 x 64");
        }
    }

    /// What else is to be met where a step is performed.
    fn count_asides(&mut self, step: &Step, before: &State) {
        match *step {
            Step::Evict { core, line } | Step::Drop { core, line }
                if matches!(copy(before, core, line), PrivateCopy::Shared { .. }) =>
            {
                let kind = kind_name(step);
                if slot_is_on(before.cores[core as usize].slot, line) {
                    self.count(format!("{kind}: shared, a request for the line under way"));
                }
                if before.lines[line as usize].writeback.is_some() {
                    self.count(format!("{kind}: shared, a writeback of the line in flight"));
                }
            }
            Step::Writeback { core, line } => {
                if matches!(copy(before, core, line), PrivateCopy::Owned { wts, rts, .. } if rts > wts) {
                    self.count("writeback: rts past wts");
                }
            }
            Step::Serve { core } => self.count_serve(core, before),
            Step::Receive { core } => self.count_receive(core, before),
            Step::Victim { core } => self.count_victim(core, before),
            _ => {}
        }
    }

    /// What is received where the cache is full, or is full with it.
    fn count_receive(&mut self, core: u32, before: &State) {
        let Slot::Answered { grant, line, .. } = before.cores[core as usize].slot else {
            return;
        };
        let Sizes { lines, cap, .. } = before.sizes;
        let (count, row) = (held(before, core).count() as u32, receive_row(core, before));
        match (copy(before, core, line), grant) {
            _ if cap == lines => {}
            (PrivateCopy::None, Grant::Renew) if count + 1 == cap => {
                self.count(format!("receive: {row}, its copy's room is free"));
            }
            (PrivateCopy::None, Grant::Share | Grant::Own) if count + 1 == cap => {
                self.count(format!("receive: {row}, the last room"));
            }
            (PrivateCopy::Shared { .. }, _) if count == cap => self.count(format!("receive: {row}, full")),
            _ => {}
        }
    }

    /// What kind of copy the victim has, where it stands among the others, and what
    /// it is asked for.
    fn count_victim(&mut self, core: u32, before: &State) {
        let copies: Vec<_> = held(before, core).collect();
        let Some(&(rts, line)) = copies.iter().min() else {
            return;
        };
        let is_owned = |line| matches!(copy(before, core, line), PrivateCopy::Owned { .. });
        let wts = |line| match copy(before, core, line) {
            PrivateCopy::Shared { wts, .. } | PrivateCopy::Owned { wts, .. } => wts,
            PrivateCopy::None => GREATEST,
        };
        if is_owned(line) {
            self.count(format!("victim: owned {}", cleanness(copy(before, core, line))));
        } else {
            self.count("victim: shared");
        }
        let equal: Vec<_> = copies.iter().filter(|(other, _)| *other == rts).collect();
        if equal.len() == 1 {
            if copies[0].1 < line {
                self.count("victim: by rts, a smaller line is held");
            }
            if copies.iter().any(|&(_, other)| wts(other) < wts(line)) {
                self.count("victim: by rts, another copy's wts is smaller");
            }
        } else {
            if line > 0 {
                self.count("victim: by tie, line 0 is not held");
            }
            if is_owned(line) && equal.iter().any(|(_, other)| !is_owned(*other)) {
                self.count("victim: by tie, an owned copy before a shared one");
            }
        }
        let full = copies.len() as u32 == before.sizes.cap;
        self.count(if full { "victim: full" } else { "victim: room is left" });
        let slot = before.cores[core as usize].slot;
        if matches!(slot, Slot::Answered { grant: Grant::Share | Grant::Own, line, .. }
            if full && copy(before, core, line) == PrivateCopy::None)
        {
            self.count("victim: an answer waits for room");
        }
    }

    /// Where a full cache is refused, and where a core without copies is.
    fn count_cache_refusal(&mut self, number: u32, step: &Step, before: &State) {
        let (Step::Receive { core } | Step::Victim { core }) = *step else {
            return;
        };
        let Sizes { cores, lines, cap, .. } = before.sizes;
        let owned = |(_, line): &(u32, u32)| matches!(copy(before, core, *line), PrivateCopy::Owned { .. });
        let count = held(before, core).count() as u32;
        match number {
            22 if count == cap && cap < lines => {
                let row = state_refusal(number, step, before);
                self.count(format!("{row}, full"));
            }
            26 if (0..cores).any(|core| held(before, core).count() > 0) => {
                self.count("refused 26: victim, other cores hold copies");
            }
            31 => {
                self.count(if cap == 1 { "refused 31: cap 1" } else { "refused 31: cap above 1" });
                match held(before, core).filter(owned).count() as u32 {
                    0 => self.count("refused 31: only shared copies held"),
                    all if all == count => self.count("refused 31: only owned copies held"),
                    _ => {}
                }
            }
            _ => {}
        }
    }

    /// Where a drop or writeback is refused beside a writeback in flight, and where
    /// the line's owner holds a shared copy.
    fn count_eviction_refusal(&mut self, number: u32, step: &Step, before: &State) {
        let (Step::Drop { core, line } | Step::Writeback { core, line }) = *step else {
            return;
        };
        let manager = before.lines[line as usize];
        if number == 26 && manager.writeback.is_some() {
            self.count(format!("refused 26: {}, a writeback in flight", kind_name(step)));
        }
        let shared = matches!(copy(before, core, line), PrivateCopy::Shared { .. });
        if number == 30 && shared && manager.holder == (Holder::Owned { core }) {
            self.count("refused 30: writeback, shared, the line's owner");
        }
    }

    fn count_serve(&mut self, core: u32, before: &State) {
        let Slot::Asked { wish, line, lts, .. } = before.cores[core as usize].slot else {
            return;
        };
        let manager = before.lines[line as usize];
        let end = lts.checked_add(before.sizes.lease);
        match (manager.holder, wish) {
            (Holder::Owned { core: owner }, _) => {
                if owner == core {
                    self.count("serve: owned by the asking core");
                }
                if manager.writeback.is_some() {
                    self.count("serve: owned, a writeback in flight");
                }
                if wish == Wish::Load && end.is_none() {
                    self.count("serve: owned, load, asked lts + lease past the greatest");
                }
            }
            (Holder::Shared { .. }, Wish::Store) if end.is_none() => {
                self.count("serve: shared, store, asked lts + lease past the greatest");
            }
            (Holder::Shared { rts, .. }, Wish::Load) => {
                let stays = end.is_some_and(|end| end <= rts);
                self.count(format!("serve: shared, load, rts {}", if stays { "stays" } else { "grows" }));
            }
            _ => {}
        }
    }

    /// 3 to 6, and where a later number would apply too.
    fn count_input_refusal(&mut self, number: u32, step: &Step, before: &State) {
        let sizes = before.sizes;
        if let (3 | 4, kind) = (number, kind_name(step)) {
            self.count(format!("refused {number}: {kind}"));
        }
        let no_line = step.line().is_some_and(|line| line >= sizes.lines);
        match (number, step) {
            (3, _) if no_line => self.count("refused 3: and the line is none"),
            (3, Step::Advance { by: 0, .. }) => self.count("refused 3: and by is 0"),
            (4, Step::Store { data, .. }) if data.as_slice().len() != sizes.width as usize => {
                self.count("refused 4: and the data do not fit");
            }
            (5, Step::Store { core, data, .. }) => {
                let few = data.as_slice().len() < sizes.width as usize;
                self.count(format!("refused 5: too {} bytes", if few { "few" } else { "many" }));
                if before.cores[*core as usize].slot != Slot::Empty {
                    self.count("refused 5: and the slot is not empty");
                }
            }
            (6, _) => self.count("refused 6"),
            _ => {}
        }
    }
}

/// The commits before one of them, the last first.
fn before<'a>(made: &'a [&Made], commit: &'a Made) -> impl Iterator<Item = &'a Made> {
    made.iter().rev().copied().skip_while(|other| other.place >= commit.place)
}

/// Why a step line has no form of a journal's grammar.
fn no_form(form: Form, line: &[u8]) -> &'static str {
    match (unknown_kind(form, line), journal::opening(line)) {
        (Some(b"evict"), _) => "evict under fabric=2",
        (Some(b"drop"), _) => "drop under fabric=1",
        (Some(b"writeback"), _) => "writeback under fabric=1",
        (Some(b"victim"), _) => "victim under fabric=1",
        (Some(_), _) => "unknown step kind",
        (None, Ok((named, _))) if named == form => "a first line of the journal's form",
        (None, Ok(_)) => "a first line of the other form",
        (None, Err(_)) => "another form",
    }
}

/// The reason of a line's refusal by 10, 12 or 13.
fn reason(number: u32, line: &[u8]) -> &'static str {
    match number {
        10 if line.len() > MAX_LINE => "line over 200 bytes",
        10 => "no last newline",
        12 => numbers(line).find_map(wrong_number).unwrap_or("?"),
        13 => values(line).find(|(key, _)| *key == b"data").map_or("?", |(_, value)| wrong_data(value)),
        _ => "?",
    }
}

/// The keys of a line with their values.
fn values(line: &[u8]) -> impl Iterator<Item = (&[u8], &[u8])> {
    line.split(|&byte| byte == b' ').filter_map(|word| {
        let equals = word.iter().position(|&byte| byte == b'=')?;
        Some((&word[..equals], &word[equals + 1..]))
    })
}

/// The values that have to be numbers.
fn numbers(line: &[u8]) -> impl Iterator<Item = &[u8]> {
    let others: [&[u8]; 3] = [b"fabric", b"op", b"data"];
    values(line).filter(move |(key, _)| !others.contains(key)).map(|(_, value)| value)
}

/// Why a value is no number.
fn wrong_number(value: &[u8]) -> Option<&'static str> {
    match value {
        [] => Some("no digits"),
        _ if !value.iter().all(u8::is_ascii_digit) => Some("another byte"),
        [b'0', _, ..] => Some("leading zero"),
        _ => (value.len() > 10 || value.len() == 10 && value > b"4294967295").then_some("above the greatest"),
    }
}

fn wrong_data(value: &[u8]) -> &'static str {
    match value.len() {
        0 => "empty",
        n if n % 2 == 1 => "odd in count",
        _ => "not 0-9 a-f",
    }
}

fn copy(before: &State, core: u32, line: u32) -> PrivateCopy {
    before.copies[core as usize][line as usize]
}

/// The lines that a core holds, each after its copy's rts.
fn held(before: &State, core: u32) -> impl Iterator<Item = (u32, u32)> + '_ {
    let copies = &before.copies[core as usize][..before.sizes.lines as usize];
    copies.iter().zip(0..).filter_map(|(copy, line)| Some((copy.rts()?, line)))
}

fn slot_is_on(slot: Slot, wanted: u32) -> bool {
    match slot {
        Slot::Empty => false,
        Slot::Asked { line, .. } | Slot::Answered { line, .. } => line == wanted,
    }
}

/// Which row of its table a step that is not refused follows.
fn step_row(step: &Step, before: &State) -> String {
    let clocks = |core: u32| &before.cores[core as usize];
    match *step {
        Step::Load { core, line } => {
            format!("load: {}", load_row(clocks(core).lts, copy(before, core, line)))
        }
        Step::Store { core, line, .. } => {
            format!("store: {}", store_row(clocks(core), copy(before, core, line)))
        }
        Step::Fence { core } if clocks(core).lts < clocks(core).sts => "fence: lts below sts".into(),
        Step::Fence { .. } => "fence: lts from sts on".into(),
        Step::Evict { core, line } => match copy(before, core, line) {
            PrivateCopy::Owned { .. } => format!("evict: owned, {}", recall_name(before, line)),
            _ => "evict: shared".into(),
        },
        Step::Drop { core, line } => format!("drop: {}", state_name(copy(before, core, line))),
        Step::Writeback { core, line } => {
            format!("writeback: {}, {}", cleanness(copy(before, core, line)), recall_name(before, line))
        }
        Step::Advance { .. } => "advance".into(),
        Step::Serve { core } => format!("serve: {}", serve_row(clocks(core).slot, before)),
        Step::Receive { core } => format!("receive: {}", receive_row(core, before)),
        Step::Yield { line } => {
            let Holder::Owned { core } = before.lines[line as usize].holder else {
                return "yield: line not owned".into();
            };
            format!("yield: {}, {}", recall_name(before, line), cleanness(copy(before, core, line)))
        }
        Step::Take { line } => format!("take: {}", recall_name(before, line)),
        Step::Victim { core } => format!("victim: {}", victim_row(core, before)),
    }
}

/// What makes a copy the victim.
fn victim_row(core: u32, before: &State) -> &'static str {
    let copies: Vec<_> = held(before, core).map(|(rts, _)| rts).collect();
    let smallest = copies.iter().min();
    match copies.iter().filter(|rts| Some(*rts) == smallest).count() {
        _ if copies.len() == 1 => "the only copy",
        1 => "by rts",
        _ => "by tie",
    }
}

/// What state a copy has.
fn state_name(copy: PrivateCopy) -> &'static str {
    match copy {
        PrivateCopy::None => "no copy",
        PrivateCopy::Shared { .. } => "shared",
        PrivateCopy::Owned { .. } => "owned",
    }
}

/// Whether an owned copy was stored to.
fn cleanness(copy: PrivateCopy) -> &'static str {
    match copy {
        PrivateCopy::Owned { dirty: true, .. } => "dirty",
        PrivateCopy::Owned { dirty: false, .. } => "clean",
        _ => "not owned",
    }
}

fn recall_name(before: &State, line: u32) -> &'static str {
    match before.lines[line as usize].recall {
        Recall::None => "no recall",
        Recall::Downgrade => "downgrade",
        Recall::Flush => "flush",
    }
}

fn load_row(lts: u32, copy: PrivateCopy) -> &'static str {
    match copy {
        PrivateCopy::None => "no copy",
        PrivateCopy::Shared { wts, .. } if lts < wts => "shared, lts below wts",
        PrivateCopy::Shared { rts, .. } if lts < rts => "shared, lts from wts on, below rts",
        PrivateCopy::Shared { rts, .. } if lts == rts => "shared, lts at rts",
        PrivateCopy::Shared { .. } => "shared, lts past rts",
        PrivateCopy::Owned { dirty: true, rts, .. } if lts <= rts => "owned dirty, lts up to rts",
        PrivateCopy::Owned { dirty: true, .. } => "owned dirty, lts past rts",
        PrivateCopy::Owned { wts, .. } if lts < wts => "owned clean, lts below wts",
        PrivateCopy::Owned { rts, .. } if lts <= rts => "owned clean, lts from wts to rts",
        PrivateCopy::Owned { .. } => "owned clean, lts past rts",
    }
}

fn store_row(clocks: &Core, copy: PrivateCopy) -> &'static str {
    let Core { lts, sts, .. } = *clocks;
    match copy {
        PrivateCopy::None => "no copy",
        PrivateCopy::Shared { .. } => "shared",
        PrivateCopy::Owned { rts, dirty: false, .. } if rts >= lts.max(sts) => "owned clean, at rts + 1",
        PrivateCopy::Owned { dirty: false, .. } if lts >= sts => "owned clean, at lts",
        PrivateCopy::Owned { dirty: false, .. } => "owned clean, at sts",
        PrivateCopy::Owned { wts, rts, .. } if wts >= lts.max(sts).max(rts) => "owned dirty, at wts again",
        PrivateCopy::Owned { rts, .. } if rts >= lts.max(sts) => "owned dirty, at rts past wts",
        PrivateCopy::Owned { .. } if lts >= sts => "owned dirty, at lts past rts",
        PrivateCopy::Owned { .. } => "owned dirty, at sts past rts",
    }
}

fn serve_row(slot: Slot, before: &State) -> String {
    let Slot::Asked { wish, line, wts, .. } = slot else {
        return "slot not asked".into();
    };
    match (before.lines[line as usize].holder, wish) {
        (Holder::Owned { .. }, Wish::Load) => format!("owned, load, {}", recall_name(before, line)),
        (Holder::Owned { .. }, Wish::Store) => format!("owned, store, {}", recall_name(before, line)),
        (Holder::Shared { .. }, Wish::Store) => "shared, store".into(),
        (Holder::Shared { wts: now, .. }, Wish::Load) => match wts {
            None => "shared, load, no version held".into(),
            Some(held) if held == now => "shared, load, the same version held".into(),
            Some(_) => "shared, load, another version held".into(),
        },
    }
}

fn receive_row(core: u32, before: &State) -> String {
    let Slot::Answered { grant, line, .. } = before.cores[core as usize].slot else {
        return "slot not answered".into();
    };
    let grant = grant_name(grant);
    match copy(before, core, line) {
        PrivateCopy::None => format!("{grant}, no copy"),
        PrivateCopy::Shared { .. } => format!("{grant}, shared copy"),
        PrivateCopy::Owned { .. } => format!("{grant}, owned copy"),
    }
}

fn grant_name(grant: Grant) -> &'static str {
    match grant {
        Grant::Share => "share",
        Grant::Renew => "renew",
        Grant::Own => "own",
    }
}

/// 20 to 27, 30 or 31 with the reason.
fn state_refusal(number: u32, step: &Step, before: &State) -> String {
    let slot_of = |core: u32| match before.cores[core as usize].slot {
        Slot::Empty => "slot empty",
        Slot::Asked { .. } => "slot asked",
        Slot::Answered { .. } => "slot answered",
    };
    let held = |core, line| state_name(copy(before, core, line));
    let owner = |line: u32| match before.lines[line as usize].holder {
        Holder::Owned { core } => Some(core),
        Holder::Shared { .. } => None,
    };
    let reason = match (number, *step) {
        (20, Step::Load { core, line } | Step::Store { core, line, .. }) => {
            format!("{}, {}, {}", kind_name(step), held(core, line), slot_of(core))
        }
        (21, Step::Serve { core }) | (22, Step::Receive { core }) => slot_of(core).into(),
        (23, Step::Yield { line }) => match owner(line) {
            Some(_) => "no recall".into(),
            None => "line shared".into(),
        },
        (24, Step::Yield { line }) => match owner(line).map(|core| copy(before, core, line)) {
            Some(PrivateCopy::Shared { .. }) => "the owner's copy is shared".into(),
            _ => {
                let flight = before.lines[line as usize].writeback.map_or("no", |_| "a");
                format!("the owner has no copy, {flight} writeback in flight")
            }
        },
        (25, Step::Take { line }) => match owner(line) {
            Some(_) => "line owned".into(),
            None => "line shared".into(),
        },
        (31, Step::Receive { core }) => match before.cores[core as usize].slot {
            Slot::Answered { grant, .. } => grant_name(grant).into(),
            _ => slot_of(core).into(),
        },
        (30, Step::Drop { core, line }) => format!("drop, owned {}", cleanness(copy(before, core, line))),
        (30, Step::Writeback { core, line }) => format!("writeback, {}", held(core, line)),
        _ => kind_name(step).into(),
    };
    format!("refused {number}: {reason}")
}
