//! The machine of document 01: its parts, its steps and its refusals; with drop
//! and writeback and their refusal 30, of 02, "Evict becomes drop and writeback";
//! the store in digits of 02, "Store bytes without the scratch line"; the
//! capacity with its refusal 31, and victim, of 02, "Caches with a size"; and the
//! store to a dirty line of 02, "Repeated stores without a new timestamp".
//!
//! The file follows 01's sections: "Parts of the machine", "Refused because of
//! the input", "Refused because of the state", "Steps".

use crate::journal;
use std::ops::Range;

/// Limits of an engine's sizes and lease (01, "Parts of the machine").
pub const MAX_CORES: usize = 16;
pub const MAX_LINES: usize = 64;
pub const MAX_WIDTH: usize = 64;
pub const MAX_LEASE: u32 = 1000;

/// The greatest timestamp.
pub const GREATEST: u32 = u32::MAX;

/// Room for the data of one store step. A step line has at most 200 bytes, so
/// at most 86 bytes of data fit on it.
pub const MAX_DATA: usize = 100;

/// Up to `MAX_DATA` bytes: the data of a store step or of a commit.
#[derive(Clone, Copy)]
pub struct Bytes {
    len: usize,
    at: [u8; MAX_DATA],
}

impl Bytes {
    pub fn new(bytes: &[u8]) -> Bytes {
        let mut at = [0; MAX_DATA];
        at[..bytes.len()].copy_from_slice(bytes);
        Bytes { len: bytes.len(), at }
    }

    pub fn as_slice(&self) -> &[u8] {
        &self.at[..self.len]
    }
}

impl PartialEq for Bytes {
    fn eq(&self, other: &Bytes) -> bool {
        self.as_slice() == other.as_slice()
    }
}

impl std::fmt::Debug for Bytes {
    fn fmt(&self, f: &mut std::fmt::Formatter<'_>) -> std::fmt::Result {
        write!(f, "{:02x?}", self.as_slice())
    }
}

// ---- Parts of the machine ----

/// Sizes, lease and capacity of an engine. The capacity limits the copies that a
/// core receives.
#[derive(Clone, Copy, PartialEq, Eq, Debug)]
pub struct Sizes {
    pub cores: u32,
    pub lines: u32,
    pub width: u32,
    pub lease: u32,
    pub cap: u32,
}

impl Sizes {
    /// What a refused opening gives back.
    pub const SMALLEST: Sizes = Sizes { cores: 1, lines: 1, width: 1, lease: 1, cap: 1 };

    /// Whether all five lie inside the limits.
    pub fn inside_limits(&self) -> bool {
        let within = |n: u32, most: usize| 1 <= n && n as usize <= most;
        within(self.cores, MAX_CORES)
            && within(self.lines, MAX_LINES)
            && within(self.width, MAX_WIDTH)
            && within(self.lease, MAX_LEASE as usize)
            && within(self.cap, self.lines as usize)
    }
}

/// What a core asks for.
#[derive(Clone, Copy, PartialEq, Eq, Debug)]
pub enum Wish {
    Load,
    Store,
}

/// What the manager answers with.
#[derive(Clone, Copy, PartialEq, Eq, Debug)]
pub enum Grant {
    Share,
    Renew,
    Own,
}

/// A core's request slot.
#[derive(Clone, Copy, PartialEq, Eq, Debug)]
pub enum Slot {
    Empty,
    /// With the lts when asked and the wts of the shared copy held, or none.
    Asked {
        wish: Wish,
        line: u32,
        lts: u32,
        wts: Option<u32>,
    },
    Answered {
        grant: Grant,
        line: u32,
        wts: u32,
        rts: u32,
    },
}

/// A core: timestamp of its last load or fence, of its last store, its slot.
#[derive(Clone, Copy, PartialEq, Eq, Debug)]
pub struct Core {
    pub lts: u32,
    pub sts: u32,
    pub slot: Slot,
}

impl Core {
    pub const FRESH: Core = Core { lts: 0, sts: 0, slot: Slot::Empty };
}

/// A core's private copy of a line.
#[derive(Clone, Copy, PartialEq, Eq, Debug)]
pub enum PrivateCopy {
    None,
    Shared { wts: u32, rts: u32 },
    Owned { wts: u32, rts: u32, dirty: bool },
}

impl PrivateCopy {
    /// The end of its lease, if it is there.
    pub fn rts(&self) -> Option<u32> {
        match *self {
            PrivateCopy::None => None,
            PrivateCopy::Shared { rts, .. } | PrivateCopy::Owned { rts, .. } => Some(rts),
        }
    }
}

/// Who holds a manager line: the manager itself, or an owner.
#[derive(Clone, Copy, PartialEq, Eq, Debug)]
pub enum Holder {
    Shared { wts: u32, rts: u32 },
    Owned { core: u32 },
}

/// What the manager wants back from an owner.
#[derive(Clone, Copy, PartialEq, Eq, Debug)]
pub enum Recall {
    None,
    Downgrade,
    Flush,
}

/// A writeback's timestamps; its bytes lie in the shared buffer.
#[derive(Clone, Copy, PartialEq, Eq, Debug)]
pub struct Writeback {
    pub wts: u32,
    pub rts: u32,
}

/// A manager line.
#[derive(Clone, Copy, PartialEq, Eq, Debug)]
pub struct Line {
    pub holder: Holder,
    pub recall: Recall,
    pub writeback: Option<Writeback>,
}

impl Line {
    pub const FRESH: Line =
        Line { holder: Holder::Shared { wts: 0, rts: 0 }, recall: Recall::None, writeback: None };
}

/// The state of an engine. The tables have their greatest size; only cores and
/// lines inside the sizes are ever looked at.
#[derive(Clone, PartialEq, Eq, Debug)]
pub struct State {
    pub sizes: Sizes,
    pub cores: [Core; MAX_CORES],
    pub lines: [Line; MAX_LINES],
    pub copies: [[PrivateCopy; MAX_LINES]; MAX_CORES],
}

impl State {
    /// The fresh state of the given sizes, lease and capacity.
    pub fn fresh(sizes: Sizes) -> State {
        State {
            sizes,
            cores: [Core::FRESH; MAX_CORES],
            lines: [Line::FRESH; MAX_LINES],
            copies: [[PrivateCopy::None; MAX_LINES]; MAX_CORES],
        }
    }

    /// The call `open`: the fresh state, or 7 with the fresh state of the smallest
    /// engine.
    pub fn open(sizes: Sizes) -> (Answer, State) {
        if sizes.inside_limits() {
            return (Answer::Open, State::fresh(sizes));
        }
        (Answer::Refused(7), State::fresh(Sizes::SMALLEST))
    }

    /// Refusal 1: sizes, lease or capacity outside the limits, an owner or a
    /// slot's line that does not exist.
    fn is_broken(&self) -> bool {
        if !self.sizes.inside_limits() {
            return true;
        }
        let cores = &self.cores[..self.sizes.cores as usize];
        let lines = &self.lines[..self.sizes.lines as usize];
        let bad_owner = |line: &Line| match line.holder {
            Holder::Owned { core } => core >= self.sizes.cores,
            Holder::Shared { .. } => false,
        };
        let bad_slot = |core: &Core| match core.slot {
            Slot::Empty => false,
            Slot::Asked { line, .. } | Slot::Answered { line, .. } => line >= self.sizes.lines,
        };
        lines.iter().any(bad_owner) || cores.iter().any(bad_slot)
    }
}

/// One step, as a caller gives it.
#[derive(Clone, Copy, PartialEq, Debug)]
pub enum Step {
    Load { core: u32, line: u32 },
    Store { core: u32, line: u32, data: Bytes },
    Fence { core: u32 },
    Evict { core: u32, line: u32 },
    Drop { core: u32, line: u32 },
    Writeback { core: u32, line: u32 },
    Advance { core: u32, by: u32 },
    Serve { core: u32 },
    Receive { core: u32 },
    Yield { line: u32 },
    Take { line: u32 },
    Victim { core: u32 },
}

impl Step {
    /// The core the step names, if it names one.
    pub fn core(&self) -> Option<u32> {
        match *self {
            Step::Load { core, .. }
            | Step::Store { core, .. }
            | Step::Fence { core }
            | Step::Evict { core, .. }
            | Step::Drop { core, .. }
            | Step::Writeback { core, .. }
            | Step::Advance { core, .. }
            | Step::Serve { core }
            | Step::Receive { core }
            | Step::Victim { core } => Some(core),
            Step::Yield { .. } | Step::Take { .. } => None,
        }
    }

    /// The line the step names, if it names one.
    pub fn line(&self) -> Option<u32> {
        match *self {
            Step::Load { line, .. }
            | Step::Store { line, .. }
            | Step::Evict { line, .. }
            | Step::Drop { line, .. }
            | Step::Writeback { line, .. }
            | Step::Yield { line }
            | Step::Take { line } => Some(line),
            _ => None,
        }
    }
}

/// What a commit carries.
#[derive(Clone, Copy, PartialEq, Debug)]
pub enum Commit {
    Load { core: u32, line: u32, ts: u32, data: Bytes },
    Store { core: u32, line: u32, ts: u32, data: Bytes },
    Fence { core: u32, ts: u32 },
}

/// The answer to an opening or a step. Drop answers a drop, and the receipt of a
/// renewal whose copy is gone. Victim names the line that is the victim.
#[derive(Clone, Copy, PartialEq, Debug)]
pub enum Answer {
    Open,
    Ask,
    Recall,
    Share,
    Renew,
    Own,
    Drop,
    Evict,
    Writeback,
    Advance,
    Yield,
    Take,
    Victim { line: u32 },
    Commit(Commit),
    Refused(u32),
}

/// A state with both of its buffers.
#[derive(Clone, PartialEq, Debug)]
pub struct Machine {
    pub state: State,
    pub private: Vec<u8>,
    pub shared: Vec<u8>,
}

impl Machine {
    /// Opens a fresh engine with zeroed buffers, or refuses with 7.
    pub fn open(sizes: Sizes) -> Result<Machine, u32> {
        let (answer, state) = State::open(sizes);
        if let Answer::Refused(number) = answer {
            return Err(number);
        }
        Ok(Machine::fresh(state.sizes))
    }

    /// A fresh engine with zeroed buffers.
    pub fn fresh(sizes: Sizes) -> Machine {
        let (private, shared) = buffer_lengths(sizes);
        Machine { state: State::fresh(sizes), private: vec![0; private], shared: vec![0; shared] }
    }

    /// One call: every refusal of 01 is checked, 1 and 2 too.
    pub fn call(&mut self, step: &Step) -> Answer {
        match self.whole_refusal() {
            Some(number) => Answer::Refused(number),
            None => self.step(step),
        }
    }

    /// The store whose bytes are given as the digits of `data=`: wrong digits are
    /// 13, before every other number; else it is the store of the bytes spelt.
    pub fn store_digits(&mut self, core: u32, line: u32, digits: &[u8]) -> Answer {
        match journal::hex(digits) {
            Err(number) => Answer::Refused(number),
            Ok(data) => self.call(&Step::Store { core, line, data }),
        }
    }

    /// One call on a machine that is known to be whole, as one that was opened
    /// here always is: refusals 3 and up.
    pub fn step(&mut self, step: &Step) -> Answer {
        match self.refusal(step) {
            Some(number) => Answer::Refused(number),
            None => self.perform(step),
        }
    }

    /// The number with which a whole machine would refuse the step, if it would.
    pub fn refusal(&self, step: &Step) -> Option<u32> {
        self.input_refusal(step).or_else(|| self.state_refusal(step))
    }

    /// The line's bytes: the core's own copy if it holds one, else the manager
    /// line's. Empty under 1 to 4.
    pub fn show(&self, core: u32, line: u32) -> &[u8] {
        let sizes = self.state.sizes;
        if self.whole_refusal().is_some() || core >= sizes.cores || line >= sizes.lines {
            return &self.shared[..0];
        }
        match self.copy(core, line) {
            PrivateCopy::None => &self.shared[self.manager_place(line)],
            _ => &self.private[self.private_place(core, line)],
        }
    }

    // ---- Places in the buffers ----

    fn width(&self) -> usize {
        self.state.sizes.width as usize
    }

    fn place(&self, number: usize) -> Range<usize> {
        let start = number * self.width();
        start..start + self.width()
    }

    pub fn private_place(&self, core: u32, line: u32) -> Range<usize> {
        self.place((core * self.state.sizes.lines + line) as usize)
    }

    pub fn manager_place(&self, line: u32) -> Range<usize> {
        self.place(line as usize)
    }

    pub fn writeback_place(&self, line: u32) -> Range<usize> {
        self.place((self.state.sizes.lines + line) as usize)
    }

    pub fn answer_place(&self, core: u32) -> Range<usize> {
        self.place((2 * self.state.sizes.lines + core) as usize)
    }

    // ---- Short names for parts ----

    fn core(&self, core: u32) -> &Core {
        &self.state.cores[core as usize]
    }

    fn core_mut(&mut self, core: u32) -> &mut Core {
        &mut self.state.cores[core as usize]
    }

    pub fn copy(&self, core: u32, line: u32) -> PrivateCopy {
        self.state.copies[core as usize][line as usize]
    }

    pub fn set_copy(&mut self, core: u32, line: u32, copy: PrivateCopy) {
        self.state.copies[core as usize][line as usize] = copy;
    }

    /// A core's copies of the lines that there are.
    pub fn copies(&self, core: u32) -> &[PrivateCopy] {
        &self.state.copies[core as usize][..self.state.sizes.lines as usize]
    }

    /// How many copies a core holds.
    pub fn copies_held(&self, core: u32) -> u32 {
        self.copies(core).iter().filter(|copy| **copy != PrivateCopy::None).count() as u32
    }

    /// The first core that holds more copies than the capacity, if there is one.
    /// From a fresh engine there never is.
    pub fn overfull_core(&self) -> Option<u32> {
        (0..self.state.sizes.cores).find(|&core| self.copies_held(core) > self.state.sizes.cap)
    }

    /// The held line with the smallest rts, of several the first; none without a
    /// copy.
    pub fn victim(&self, core: u32) -> Option<u32> {
        let held = self.copies(core).iter().zip(0..).filter_map(|(copy, line)| Some((copy.rts()?, line)));
        held.min().map(|(_, line)| line)
    }

    fn line(&self, line: u32) -> &Line {
        &self.state.lines[line as usize]
    }

    fn line_mut(&mut self, line: u32) -> &mut Line {
        &mut self.state.lines[line as usize]
    }

    // ---- Refused because of the input ----

    /// Refusals 1 and 2, which no journal can reach.
    fn whole_refusal(&self) -> Option<u32> {
        if self.state.is_broken() {
            return Some(1);
        }
        let lengths = (self.private.len(), self.shared.len());
        (lengths != buffer_lengths(self.state.sizes)).then_some(2)
    }

    /// Refusals 3 to 6.
    fn input_refusal(&self, step: &Step) -> Option<u32> {
        let sizes = &self.state.sizes;
        if step.core().is_some_and(|core| core >= sizes.cores) {
            return Some(3);
        }
        if step.line().is_some_and(|line| line >= sizes.lines) {
            return Some(4);
        }
        match step {
            Step::Store { data, .. } if data.as_slice().len() != self.width() => Some(5),
            Step::Advance { by: 0, .. } => Some(6),
            _ => None,
        }
    }

    // ---- Refused because of the state ----

    /// Refusals 20 to 27, 30 and 31.
    fn state_refusal(&self, step: &Step) -> Option<u32> {
        match *step {
            Step::Load { core, line } => self.load_refusal(core, line),
            Step::Store { core, line, .. } => self.store_refusal(core, line),
            Step::Fence { .. } => None,
            Step::Evict { .. } | Step::Drop { .. } | Step::Writeback { .. } => self.eviction_refusal(step),
            Step::Advance { core, by } => passes_greatest(self.core(core).lts, by).then_some(27),
            Step::Serve { core } => self.serve_refusal(core),
            Step::Receive { core } => self.receive_refusal(core),
            Step::Yield { line } => self.yield_refusal(line),
            Step::Take { line } => self.line(line).writeback.is_none().then_some(25),
            Step::Victim { core } => self.victim(core).is_none().then_some(26),
        }
    }

    /// 20 of a load.
    fn load_refusal(&self, core: u32, line: u32) -> Option<u32> {
        (self.load_must_ask(core, line) && self.core(core).slot != Slot::Empty).then_some(20)
    }

    /// A load asks if there is no copy, or a shared one whose lease is over.
    pub fn load_must_ask(&self, core: u32, line: u32) -> bool {
        match self.copy(core, line) {
            PrivateCopy::None => true,
            PrivateCopy::Shared { rts, .. } => self.core(core).lts > rts,
            PrivateCopy::Owned { .. } => false,
        }
    }

    /// 27 of a store to an owned line that is not dirty; 20 of one that must ask
    /// while the slot is in use.
    fn store_refusal(&self, core: u32, line: u32) -> Option<u32> {
        match self.copy(core, line) {
            PrivateCopy::Owned { dirty: true, .. } => None,
            PrivateCopy::Owned { rts, dirty: false, .. } => passes_greatest(rts, 1).then_some(27),
            _ => (self.core(core).slot != Slot::Empty).then_some(20),
        }
    }

    /// 21, and 27 where a lease is to be given.
    fn serve_refusal(&self, core: u32) -> Option<u32> {
        let Slot::Asked { wish, line, lts, .. } = self.core(core).slot else {
            return Some(21);
        };
        let lends = wish == Wish::Load && matches!(self.line(line).holder, Holder::Shared { .. });
        (lends && passes_greatest(lts, self.state.sizes.lease)).then_some(27)
    }

    /// 22; then 31 where a share or own brings one copy more than the capacity.
    fn receive_refusal(&self, core: u32) -> Option<u32> {
        let Slot::Answered { grant, line, .. } = self.core(core).slot else {
            return Some(22);
        };
        let one_more = grant != Grant::Renew && self.copy(core, line) == PrivateCopy::None;
        (one_more && self.copies_held(core) >= self.state.sizes.cap).then_some(31)
    }

    /// 23 and 24.
    fn yield_refusal(&self, line: u32) -> Option<u32> {
        let Holder::Owned { core } = self.line(line).holder else {
            return Some(23);
        };
        if self.line(line).recall == Recall::None {
            return Some(23);
        }
        match self.copy(core, line) {
            PrivateCopy::Owned { .. } => None,
            _ => Some(24),
        }
    }

    /// 26 without a copy; then 30 where the step names the other state of a copy.
    fn eviction_refusal(&self, step: &Step) -> Option<u32> {
        let copy = self.copy(step.core()?, step.line()?);
        match (copy, step) {
            (PrivateCopy::None, _) => Some(26),
            (PrivateCopy::Owned { .. }, Step::Drop { .. })
            | (PrivateCopy::Shared { .. }, Step::Writeback { .. }) => Some(30),
            _ => None,
        }
    }

    // ---- Steps ----

    /// Performs a step that is not refused.
    fn perform(&mut self, step: &Step) -> Answer {
        match *step {
            Step::Load { core, line } => self.load(core, line),
            Step::Store { core, line, data } => self.store(core, line, data),
            Step::Fence { core } => self.fence(core),
            Step::Evict { core, line } => self.evict(core, line),
            Step::Drop { core, line } => self.drop_copy(core, line),
            Step::Writeback { core, line } => self.return_copy(core, line),
            Step::Advance { core, by } => self.advance(core, by),
            Step::Serve { core } => self.serve(core),
            Step::Receive { core } => self.receive(core),
            Step::Yield { line } => self.give_back(line),
            Step::Take { line } => self.take(line),
            Step::Victim { core } => match self.victim(core) {
                Some(line) => Answer::Victim { line },
                None => Answer::Refused(26),
            },
        }
    }

    /// A dirty copy is read at lts; any other moves lts up to its wts. An owned
    /// copy's rts follows.
    fn load(&mut self, core: u32, line: u32) -> Answer {
        if self.load_must_ask(core, line) {
            return self.ask(Wish::Load, core, line);
        }
        let lts = self.core(core).lts;
        let ts = match self.copy(core, line) {
            PrivateCopy::None => return self.ask(Wish::Load, core, line),
            PrivateCopy::Owned { dirty: true, .. } => lts,
            PrivateCopy::Owned { wts, dirty: false, .. } | PrivateCopy::Shared { wts, .. } => lts.max(wts),
        };
        self.core_mut(core).lts = ts;
        if let PrivateCopy::Owned { wts, rts, dirty } = self.copy(core, line) {
            self.set_copy(core, line, PrivateCopy::Owned { wts, rts: rts.max(ts), dirty });
        }
        let data = Bytes::new(&self.private[self.private_place(core, line)]);
        Answer::Commit(Commit::Load { core, line, ts, data })
    }

    /// An owned line is stored to past its lease, or at the lease's end if it is
    /// dirty, and not before its core's loads and stores.
    fn store(&mut self, core: u32, line: u32, data: Bytes) -> Answer {
        let PrivateCopy::Owned { rts, dirty, .. } = self.copy(core, line) else {
            return self.ask(Wish::Store, core, line);
        };
        let clocks = self.core_mut(core);
        let ts = clocks.lts.max(clocks.sts).max(if dirty { rts } else { rts + 1 });
        clocks.sts = ts;
        self.set_copy(core, line, PrivateCopy::Owned { wts: ts, rts: ts, dirty: true });
        let place = self.private_place(core, line);
        self.private[place].copy_from_slice(data.as_slice());
        Answer::Commit(Commit::Store { core, line, ts, data })
    }

    /// Fills the slot with a request.
    fn ask(&mut self, wish: Wish, core: u32, line: u32) -> Answer {
        let wts = match self.copy(core, line) {
            PrivateCopy::Shared { wts, .. } => Some(wts),
            _ => None,
        };
        let asking = self.core_mut(core);
        asking.slot = Slot::Asked { wish, line, lts: asking.lts, wts };
        Answer::Ask
    }

    /// Brings lts up to sts.
    fn fence(&mut self, core: u32) -> Answer {
        let clocks = self.core_mut(core);
        clocks.lts = clocks.lts.max(clocks.sts);
        Answer::Commit(Commit::Fence { core, ts: clocks.lts })
    }

    /// A copy goes, and an owned one goes back to the manager as a writeback.
    fn evict(&mut self, core: u32, line: u32) -> Answer {
        if let PrivateCopy::Owned { wts, rts, .. } = self.copy(core, line) {
            self.write_back(core, line, Writeback { wts, rts });
        }
        self.set_copy(core, line, PrivateCopy::None);
        Answer::Evict
    }

    /// The step drop: a shared copy goes, and nobody is told.
    fn drop_copy(&mut self, core: u32, line: u32) -> Answer {
        self.set_copy(core, line, PrivateCopy::None);
        Answer::Drop
    }

    /// The step writeback: an owned copy goes back to the manager.
    fn return_copy(&mut self, core: u32, line: u32) -> Answer {
        let PrivateCopy::Owned { wts, rts, .. } = self.copy(core, line) else {
            return Answer::Refused(30);
        };
        self.write_back(core, line, Writeback { wts, rts });
        self.set_copy(core, line, PrivateCopy::None);
        Answer::Writeback
    }

    /// Puts a core's bytes of a line, and their timestamps, in flight.
    fn write_back(&mut self, core: u32, line: u32, writeback: Writeback) {
        let from = self.private_place(core, line);
        let to = self.writeback_place(line);
        self.shared[to].copy_from_slice(&self.private[from]);
        self.line_mut(line).writeback = Some(writeback);
    }

    /// Moves lts ahead.
    fn advance(&mut self, core: u32, by: u32) -> Answer {
        self.core_mut(core).lts += by;
        Answer::Advance
    }

    /// The manager looks at a core's request.
    fn serve(&mut self, core: u32) -> Answer {
        let Slot::Asked { wish, line, lts, wts } = self.core(core).slot else {
            return Answer::Refused(21);
        };
        match self.line(line).holder {
            Holder::Owned { .. } => self.serve_owned(wish, line),
            Holder::Shared { wts: now, rts } => match wish {
                Wish::Load => self.serve_load(core, line, lts, wts, now, rts),
                Wish::Store => self.serve_store(core, line, now, rts),
            },
        }
    }

    /// On an owned line a recall is set: a store's is flush, a load's is downgrade
    /// if none stands.
    fn serve_owned(&mut self, wish: Wish, line: u32) -> Answer {
        let line = self.line_mut(line);
        line.recall = match (wish, line.recall) {
            (Wish::Store, _) => Recall::Flush,
            (Wish::Load, Recall::None) => Recall::Downgrade,
            (Wish::Load, standing) => standing,
        };
        Answer::Recall
    }

    /// Lends the line: the manager's rts covers the new lease. A core that holds
    /// the same version gets no bytes.
    fn serve_load(
        &mut self,
        core: u32,
        line: u32,
        asked_lts: u32,
        asked_wts: Option<u32>,
        wts: u32,
        rts: u32,
    ) -> Answer {
        let rts = rts.max(asked_lts + self.state.sizes.lease);
        self.line_mut(line).holder = Holder::Shared { wts, rts };
        if asked_wts == Some(wts) {
            self.core_mut(core).slot = Slot::Answered { grant: Grant::Renew, line, wts, rts };
            return Answer::Renew;
        }
        self.core_mut(core).slot = Slot::Answered { grant: Grant::Share, line, wts, rts };
        self.answer_with_bytes(core, line);
        Answer::Share
    }

    /// Gives the line away.
    fn serve_store(&mut self, core: u32, line: u32, wts: u32, rts: u32) -> Answer {
        self.line_mut(line).holder = Holder::Owned { core };
        self.core_mut(core).slot = Slot::Answered { grant: Grant::Own, line, wts, rts };
        self.answer_with_bytes(core, line);
        Answer::Own
    }

    /// Puts the manager's bytes of a line into the answer to a core.
    fn answer_with_bytes(&mut self, core: u32, line: u32) {
        let from = self.manager_place(line);
        let to = self.answer_place(core).start;
        self.shared.copy_within(from, to);
    }

    /// A core takes its answer in.
    fn receive(&mut self, core: u32) -> Answer {
        let Slot::Answered { grant, line, wts, rts } = self.core(core).slot else {
            return Answer::Refused(22);
        };
        self.core_mut(core).slot = Slot::Empty;
        match grant {
            Grant::Share => {
                self.set_copy(core, line, PrivateCopy::Shared { wts, rts });
                self.bring_bytes(core, line);
                Answer::Share
            }
            Grant::Own => {
                self.set_copy(core, line, PrivateCopy::Owned { wts, rts, dirty: false });
                self.bring_bytes(core, line);
                Answer::Own
            }
            Grant::Renew => self.renew(core, line, rts),
        }
    }

    /// Puts the bytes of the answer to a core into its copy of a line.
    fn bring_bytes(&mut self, core: u32, line: u32) {
        let from = self.answer_place(core);
        let to = self.private_place(core, line);
        self.private[to].copy_from_slice(&self.shared[from]);
    }

    /// Only a shared copy that still is there is renewed.
    fn renew(&mut self, core: u32, line: u32, rts: u32) -> Answer {
        match self.copy(core, line) {
            PrivateCopy::Shared { wts, .. } => {
                self.set_copy(core, line, PrivateCopy::Shared { wts, rts });
                Answer::Renew
            }
            _ => Answer::Drop,
        }
    }

    /// The step `yield`: the owner gives the line back, and keeps a shared copy at
    /// a downgrade.
    fn give_back(&mut self, line: u32) -> Answer {
        let Holder::Owned { core } = self.line(line).holder else {
            return Answer::Refused(23);
        };
        let PrivateCopy::Owned { wts, rts, .. } = self.copy(core, line) else {
            return Answer::Refused(24);
        };
        self.write_back(core, line, Writeback { wts, rts });
        let left = match self.line(line).recall {
            Recall::Flush => PrivateCopy::None,
            _ => PrivateCopy::Shared { wts, rts },
        };
        self.set_copy(core, line, left);
        Answer::Yield
    }

    /// The manager takes the writeback in.
    fn take(&mut self, line: u32) -> Answer {
        let Some(Writeback { wts, rts }) = self.line(line).writeback else {
            return Answer::Refused(25);
        };
        let from = self.writeback_place(line);
        let to = self.manager_place(line).start;
        self.shared.copy_within(from, to);
        let shared = Holder::Shared { wts, rts };
        *self.line_mut(line) = Line { holder: shared, recall: Recall::None, writeback: None };
        Answer::Take
    }
}

/// The exact lengths of the private and the shared buffer.
pub fn buffer_lengths(sizes: Sizes) -> (usize, usize) {
    let (cores, lines) = (sizes.cores as usize, sizes.lines as usize);
    let width = sizes.width as usize;
    (cores * lines * width, (2 * lines + cores) * width)
}

/// Whether a timestamp grown by an amount passes the greatest one.
fn passes_greatest(timestamp: u32, by: u32) -> bool {
    timestamp.checked_add(by).is_none()
}
