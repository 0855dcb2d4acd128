//! Journals made from a seed.
//!
//! A generator plays each step on a machine of its own, so that it can choose
//! steps that matter where the machine stands: pending requests go on, leases
//! run out by one, renewals find their copy gone, recalls meet writebacks in
//! flight, full caches make room. Some steps are wild, and some journals are
//! damaged afterwards. In others each core makes a fence between a store and its
//! next load.

use crate::damage;
use crate::journal::{self, write_opening, write_step, Form, MAX_JOURNAL};
use crate::machine::*;
use crate::random::Random;

/// The journal of a seed.
pub fn journal(seed: u64) -> Vec<u8> {
    let mut random = Random::new(seed);
    let form = random.pick(&Form::ALL);
    let damaged = random.percent(35);
    let length = length(&mut random, damaged);
    let mut traffic = Traffic::new(&mut random, form);
    let text = traffic.journal(length);
    if damaged {
        damage::damage(&mut random, form, text)
    } else {
        text
    }
}

/// The journal of a seed for the conversion from this form. Of the second form, about two thirds
/// keep to what the first has too, and the others do without a part of that; of both,
/// some come to a length around the limit once they are converted.
pub fn journal_to_convert(seed: u64, form: Form) -> Vec<u8> {
    let mut random = Random::new(seed);
    let damages = random.pick(&[0, 0, 0, 0, 0, 0, 0, 1, 1, 2]);
    let length = match random.below(100) {
        0..=4 => {
            Length::Converted(MAX_JOURNAL + random.pick(&[0, 0, 1, 1, 2, 300]) - random.pick(&[0, 0, 0, 100]))
        }
        _ => length(&mut random, damages > 0),
    };
    if random.percent(1) {
        return at_limit(&mut random, form);
    }
    let mut traffic = Traffic::new(&mut random, form).keeping_to_first_form();
    if matches!(length, Length::Converted(_)) && traffic.random.percent(50) {
        traffic.mood.weights = [40, 0, 5, 40, 15];
    }
    let mut text = traffic.journal(length);
    for _ in 0..damages {
        // A few bytes leave little to damage.
        if text.len() > 100 {
            text = damage::damage(&mut random, form, text);
        }
    }
    text
}

/// A journal around the limit of 65,536 bytes that is too long once it is converted,
/// mostly with sizes outside their limits.
fn at_limit(random: &mut Random, form: Form) -> Vec<u8> {
    let mut text = damage::with_sizes_outside(random, form, b"\n".to_vec());
    if form == Form::Two {
        text.extend(b"op=drop core=0 line=0\n".repeat(20));
    }
    fill_up(&mut text, MAX_JOURNAL + 1 - random.below(4) as usize);
    text
}

/// The journal with fences of a seed: between a committed store and the next
/// committed load of its core, that core commits a fence (02, "Fences give sequential
/// consistency").
pub fn fenced_journal(seed: u64) -> Vec<u8> {
    let mut random = Random::new(seed);
    let form = random.pick(&Form::ALL);
    let length = Length::Steps(random.between(20, 250));
    Traffic::with_fences(&mut random, form).journal(length)
}

/// A journal with its fences left out.
pub fn without_fences(journal: &[u8]) -> Vec<u8> {
    change_fences(journal, |_| None)
}

/// A journal in which each fence is made by the core after its own.
pub fn with_fences_of_others(journal: &[u8]) -> Vec<u8> {
    let first = journal.split(|&byte| byte == b'\n').next().unwrap_or(&[]);
    let cores = journal::opening(first).map_or(1, |(_, sizes)| sizes.cores);
    change_fences(journal, |core| Some((core % cores + 1) % cores))
}

/// A journal whose fences are made by other cores, or by none.
fn change_fences(journal: &[u8], other: impl Fn(u32) -> Option<u32>) -> Vec<u8> {
    let lines = journal.split_inclusive(|&byte| byte == b'\n');
    let changed = lines.map(|line| {
        let core = line.strip_prefix(b"op=fence core=").and_then(|core| std::str::from_utf8(core).ok());
        match core.and_then(|core| core.trim_end().parse().ok()) {
            None => line.to_vec(),
            Some(core) => {
                other(core).map_or(Vec::new(), |core| format!("op=fence core={core}\n").into_bytes())
            }
        }
    });
    changed.collect::<Vec<_>>().concat()
}

/// A list of calls of a seed, on an engine of these sizes, of any capacity. It
/// mixes evict, drop and writeback, which no journal can.
pub fn calls(seed: u64, count: usize) -> (Sizes, Vec<Step>) {
    let mut random = Random::new(seed);
    Traffic::new(&mut random, Form::Two).calls(count)
}

/// Such a list with the fences of `fenced_journal`.
pub fn fenced_calls(seed: u64, count: usize) -> (Sizes, Vec<Step>) {
    let mut random = Random::new(seed);
    Traffic::with_fences(&mut random, Form::Two).calls(count)
}

/// How long a journal is to be.
#[derive(Clone, Copy)]
pub enum Length {
    /// A number of steps, as long as they fit.
    Steps(u32),
    /// Exactly this number of bytes.
    Exactly(usize),
    /// Exactly this number of bytes once it is of the other form.
    Converted(usize),
}

fn length(random: &mut Random, damaged: bool) -> Length {
    match random.below(100) {
        0 => Length::Steps(0),
        1..=19 => Length::Steps(random.between(1, 12)),
        20..=59 => Length::Steps(random.between(12, 100)),
        60..=89 => Length::Steps(random.between(100, 400)),
        90..=97 => Length::Steps(random.between(400, 1200)),
        _ if damaged => Length::Steps(random.between(1, 400)),
        _ => Length::Exactly(MAX_JOURNAL - random.pick(&[0, 0, 0, 1, 2, 100])),
    }
}

/// Sizes with weight on small engines, where cores meet on few lines, and on
/// the limits. The second form also has capacities, mostly small ones.
fn sizes(random: &mut Random, form: Form) -> Sizes {
    let (cores, lines, width) = match random.below(100) {
        0..=24 => (random.between(2, 4), random.between(1, 2), random.between(1, 2)),
        25..=49 => (random.between(1, 6), random.between(1, 4), random.between(1, 8)),
        50..=74 => (random.between(1, 16), random.between(1, 64), random.between(1, 64)),
        75..=89 => (16, 64, 64),
        _ => (random.pick(&[1, 16]), random.pick(&[1, 64]), random.pick(&[1, 64])),
    };
    let lease = match random.below(6) {
        0 => random.between(1, 3),
        1 => random.between(1, MAX_LEASE),
        2 => random.pick(&[1, MAX_LEASE]),
        _ => random.between(2, 20),
    };
    let cap = capacity(random, form, lines);
    Sizes { cores, lines, width, lease, cap }
}

/// How many copies a core may hold: as many as lines in the first form, mostly few in the second.
fn capacity(random: &mut Random, form: Form, lines: u32) -> u32 {
    match form {
        Form::One => lines,
        Form::Two => match random.below(10) {
            0..=2 => 1,
            3..=5 => 2.min(lines),
            6 | 7 => lines,
            _ => random.between(1, lines),
        },
    }
}

/// Sizes of a small engine with short leases, where each store matters to others.
fn small_sizes(random: &mut Random, form: Form) -> Sizes {
    let (cores, lines, width) = (random.between(2, 4), random.between(1, 4), random.between(1, 2));
    let lease = random.pick(&[1, 2, 3, 5, 10, 20]);
    let cap = capacity(random, form, lines);
    Sizes { cores, lines, width, lease, cap }
}

/// What kind of traffic a journal has: chances in a hundred, and the cores and
/// lines on which most of it takes place.
struct Mood {
    cores: Vec<u32>,
    lines: Vec<u32>,
    wild: u32,
    pending: u32,
    mischief: u32,
    /// Weights of load, store, fence, eviction and advance.
    weights: [u32; 5],
    /// Whether timestamps go near the greatest one.
    high: bool,
}

impl Mood {
    fn new(random: &mut Random, sizes: &Sizes) -> Mood {
        let hot_cores = random.between(1, 4.min(sizes.cores));
        let hot_lines = random.between(1, 3.min(sizes.lines));
        Mood {
            cores: (0..hot_cores).map(|_| random.below(sizes.cores)).collect(),
            lines: (0..hot_lines).map(|_| random.below(sizes.lines)).collect(),
            wild: random.pick(&[0, 1, 3, 10, 30]),
            pending: random.pick(&[15, 30, 45, 60]),
            mischief: random.pick(&[0, 5, 15, 30]),
            weights: random.pick(&[
                [50, 25, 5, 5, 15],
                [30, 50, 5, 10, 5],
                [60, 10, 5, 5, 20],
                [30, 30, 10, 20, 10],
                [20, 20, 20, 20, 20],
            ]),
            high: random.percent(25),
        }
    }
}

/// What traffic of the second form does without, to keep to the first.
#[derive(Clone, Copy, Default)]
struct Without {
    victims: bool,
    /// Drops of owned copies and writebacks of shared ones.
    misfits: bool,
}

/// The fences that are due in traffic with fences.
struct Fences {
    /// Whether one mostly follows a store at once.
    at_once: bool,
    /// The chance in a hundred that one comes in the place of another step of its
    /// core. In any case it comes in the place of a load that would commit.
    early: u32,
    /// Which cores have stored since their last fence.
    due: [bool; MAX_CORES],
}

/// A source of steps that belong together.
pub struct Traffic<'a> {
    random: &'a mut Random,
    form: Form,
    /// Whether it has the evictions of both forms.
    mixed: bool,
    without: Without,
    /// Set where each core makes a fence between a store and its next load.
    fences: Option<Fences>,
    mood: Mood,
    machine: Machine,
    /// What each core wants to do until it commits.
    wishes: [Option<Step>; MAX_CORES],
    /// What would best follow the last step.
    remedy: Option<Step>,
}

impl<'a> Traffic<'a> {
    pub fn new(random: &'a mut Random, form: Form) -> Traffic<'a> {
        let sizes = sizes(random, form);
        Traffic::of_sizes(random, form, sizes)
    }

    /// Traffic for an engine of given sizes, which lie inside the limits.
    pub fn of_sizes(random: &'a mut Random, form: Form, sizes: Sizes) -> Traffic<'a> {
        let mood = Mood::new(random, &sizes);
        let machine = Machine::open(sizes).expect("sizes inside the limits");
        let without = Without::default();
        Traffic {
            random,
            form,
            mixed: false,
            without,
            fences: None,
            mood,
            machine,
            wishes: [None; MAX_CORES],
            remedy: None,
        }
    }

    /// Traffic that mostly has no capacity other than lines, no victims, and no
    /// evictions that do not fit the copy.
    fn keeping_to_first_form(mut self) -> Traffic<'a> {
        let all = self.random.percent(60);
        let mut keeps = || all || self.random.percent(60);
        let (cap, victims, misfits) = (keeps(), keeps(), keeps());
        if cap {
            let sizes = Sizes { cap: self.sizes().lines, ..self.sizes() };
            self.machine = Machine::open(sizes).expect("sizes inside the limits");
        }
        self.without = Without { victims, misfits };
        self
    }

    /// Traffic of all cores on all lines of a small engine, in which each core makes a
    /// fence between a store and its next load: right after the store or the last of
    /// several, right before the load, or somewhere between, also while the load's
    /// request is under way.
    pub fn with_fences(random: &'a mut Random, form: Form) -> Traffic<'a> {
        let sizes = small_sizes(random, form);
        let mut traffic = Traffic::of_sizes(random, form, sizes);
        traffic.mood.cores = (0..sizes.cores).collect();
        traffic.mood.lines = (0..sizes.lines).collect();
        traffic.mood.weights = traffic.random.pick(&[
            [50, 30, 0, 5, 15],
            [40, 50, 2, 3, 5],
            [40, 30, 5, 15, 10],
            [50, 40, 0, 5, 5],
        ]);
        let at_once = traffic.random.percent(30);
        let early = traffic.random.pick(&[0, 0, 5, 20, 50]);
        traffic.fences = Some(Fences { at_once, early, due: [false; MAX_CORES] });
        traffic
    }

    /// Only reasonable traffic, of all cores on all lines: no wild steps and low
    /// timestamps.
    pub fn tame(mut self) -> Traffic<'a> {
        self.mood = Mood {
            cores: (0..self.sizes().cores).collect(),
            lines: (0..self.sizes().lines).collect(),
            wild: 0,
            pending: 45,
            mischief: 5,
            weights: [50, 25, 5, 5, 15],
            high: false,
        };
        self
    }

    /// A whole journal.
    pub fn journal(&mut self, length: Length) -> Vec<u8> {
        let mut text = Vec::new();
        write_opening(&mut text, self.form, &self.machine.state.sizes);
        text.push(b'\n');
        let (steps, limit) = match length {
            Length::Steps(steps) => (steps, MAX_JOURNAL),
            // Room for the lines that fill up to the exact length.
            Length::Exactly(bytes) | Length::Converted(bytes) => (u32::MAX, bytes - 400),
        };
        let mut growth = self.growth_of_opening();
        for _ in 0..steps {
            let before = text.len();
            let step = self.mostly_fruitful_step();
            write_step(&mut text, &step);
            text.push(b'\n');
            let converted = text.len().saturating_add_signed(growth + self.growth(&step));
            if text.len() > limit || matches!(length, Length::Converted(_)) && converted > limit {
                text.truncate(before);
                break;
            }
            growth += self.growth(&step);
            self.play(&step);
        }
        match length {
            Length::Exactly(bytes) => fill_up(&mut text, bytes),
            Length::Converted(bytes) => fill_up(&mut text, bytes.saturating_add_signed(-growth)),
            Length::Steps(_) => {}
        }
        text
    }

    /// A whole list of calls with the evictions of both forms, and the engine's sizes.
    fn calls(mut self, count: usize) -> (Sizes, Vec<Step>) {
        self.mixed = true;
        let mut steps = Vec::new();
        for _ in 0..count {
            let step = self.mostly_fruitful_step();
            self.play(&step);
            steps.push(step);
        }
        (self.sizes(), steps)
    }

    /// By how many bytes the first line of the other form is longer.
    fn growth_of_opening(&self) -> isize {
        let Sizes { lines, cap, .. } = self.sizes();
        match self.form {
            Form::One => format!(" cap={lines}").len() as isize,
            Form::Two => -(format!(" cap={cap}").len() as isize),
        }
    }

    /// By how many bytes a step's line of the other form is longer.
    fn growth(&self, step: &Step) -> isize {
        let Sizes { cores, lines, .. } = self.sizes();
        match *step {
            Step::Evict { core, line } if core < cores && line < lines => {
                match self.machine.copy(core, line) {
                    PrivateCopy::Owned { .. } => 4,
                    _ => -1,
                }
            }
            Step::Evict { .. } => -1,
            Step::Drop { .. } => 1,
            Step::Writeback { .. } => -4,
            _ => 0,
        }
    }

    /// Plays a step and forgets a wish that has come true.
    fn play(&mut self, step: &Step) {
        let answer = self.machine.step(step);
        if let (Answer::Commit(commit), Some(core)) = (answer, step.core()) {
            let core = core as usize;
            // A fence that was due came in the place of another step.
            if self.fences.is_none() || !matches!(commit, Commit::Fence { .. }) {
                self.wishes[core] = None;
            }
            if let Some(fences) = &mut self.fences {
                match commit {
                    Commit::Load { .. } => {}
                    Commit::Store { .. } => fences.due[core] = true,
                    Commit::Fence { .. } => fences.due[core] = false,
                }
            }
        }
        self.remedy = self.remedy(step, answer).or_else(|| self.fence_or_load(step, answer));
    }

    /// What may follow at once in traffic with fences: a store's fence, and after a
    /// fence what its core wants to do.
    fn fence_or_load(&self, step: &Step, answer: Answer) -> Option<Step> {
        let fences = self.fences.as_ref()?;
        match (*step, answer) {
            (Step::Store { core, .. }, Answer::Commit(_)) if fences.at_once => Some(Step::Fence { core }),
            (Step::Fence { core }, Answer::Commit(_)) => self.wishes[core as usize],
            _ => None,
        }
    }

    /// What leads a full cache on after a step: after 31 its victim, after that the
    /// end of the victim's copy, and then the answer that there was no room for.
    fn remedy(&self, step: &Step, answer: Answer) -> Option<Step> {
        match (*step, answer) {
            (Step::Receive { core }, Answer::Refused(31)) => Some(Step::Victim { core }),
            (Step::Victim { core }, Answer::Victim { line }) => Some(self.fitting_eviction(core, line)),
            (Step::Drop { core, .. }, Answer::Drop) | (Step::Writeback { core, .. }, Answer::Writeback) => {
                matches!(self.slot(core), Slot::Answered { .. }).then_some(Step::Receive { core })
            }
            _ => None,
        }
    }

    fn sizes(&self) -> Sizes {
        self.machine.state.sizes
    }

    fn slot(&self, core: u32) -> Slot {
        self.machine.state.cores[core as usize].slot
    }

    fn lts(&self, core: u32) -> u32 {
        self.machine.state.cores[core as usize].lts
    }

    /// Mostly one of the few busy cores.
    fn some_core(&mut self) -> u32 {
        if self.random.percent(90) {
            self.random.pick(&self.mood.cores)
        } else {
            self.random.below(self.machine.state.sizes.cores)
        }
    }

    /// Mostly one of the few busy lines.
    fn some_line(&mut self) -> u32 {
        if self.random.percent(90) {
            self.random.pick(&self.mood.lines)
        } else {
            self.random.below(self.machine.state.sizes.lines)
        }
    }

    fn some_data(&mut self, count: usize) -> Bytes {
        let bytes: Vec<u8> = (0..count).map(|_| self.random.byte()).collect();
        Bytes::new(&bytes)
    }

    /// A step; one that the machine refuses is mostly given up for another.
    fn mostly_fruitful_step(&mut self) -> Step {
        let mut step = self.kept_step();
        for _ in 0..3 {
            if self.machine.refusal(&step).is_none() || self.random.percent(20) {
                break;
            }
            step = self.kept_step();
        }
        self.after_fence(step)
    }

    /// The step, or a fence in its place: of a load that would commit where its core's
    /// fence is due, and sometimes of another step of that core.
    fn after_fence(&mut self, step: Step) -> Step {
        let (Some(fences), Some(core)) = (&self.fences, step.core()) else {
            return step;
        };
        if !fences.due.get(core as usize).is_some_and(|due| *due) {
            return step;
        }
        let commits = match step {
            Step::Load { core, line } => {
                self.machine.refusal(&step).is_none() && !self.machine.load_must_ask(core, line)
            }
            _ => false,
        };
        if commits || self.random.percent(fences.early) {
            Step::Fence { core }
        } else {
            step
        }
    }

    /// The next step, or another in its place where the traffic does without it.
    fn kept_step(&mut self) -> Step {
        match self.next_step() {
            Step::Victim { core } if self.without.victims => Step::Fence { core },
            step @ (Step::Drop { core, line } | Step::Writeback { core, line })
                if self.without.misfits && self.machine.refusal(&step) == Some(30) =>
            {
                self.fitting_eviction(core, line)
            }
            step => step,
        }
    }

    fn next_step(&mut self) -> Step {
        if let Some(remedy) = self.remedy.take() {
            if self.random.percent(60) {
                return remedy;
            }
        }
        if self.random.percent(self.mood.wild) {
            return self.wild_step();
        }
        if self.random.percent(self.mood.mischief) {
            if let Some(step) = self.mischief() {
                return step;
            }
        }
        if self.random.percent(self.mood.pending) {
            if let Some(step) = self.pending_step() {
                return step;
            }
        }
        self.core_step()
    }

    /// A step that carries a request or a writeback on, or makes room for an answer.
    fn pending_step(&mut self) -> Option<Step> {
        let mut steps = Vec::new();
        for core in 0..self.sizes().cores {
            match self.slot(core) {
                Slot::Empty => {}
                Slot::Asked { .. } => steps.push(Step::Serve { core }),
                Slot::Answered { .. } => {
                    steps.push(Step::Receive { core });
                    if self.machine.refusal(&Step::Receive { core }) == Some(31) {
                        steps.push(self.way_out(core));
                    }
                }
            }
        }
        for line in 0..self.sizes().lines {
            let manager = &self.machine.state.lines[line as usize];
            if manager.writeback.is_some() {
                steps.push(Step::Take { line });
            } else if manager.recall != Recall::None {
                steps.push(Step::Yield { line });
            }
        }
        steps.retain(|step| self.machine.refusal(step).is_none() || self.random.percent(5));
        if steps.is_empty() {
            None
        } else {
            Some(self.random.pick(&steps))
        }
    }

    /// A step that comes at a bad moment: an eviction while a renewal is under
    /// way, while a recall stands, or of an owned line at all; a yield or an
    /// access while a writeback is in flight.
    fn mischief(&mut self) -> Option<Step> {
        let mut steps = Vec::new();
        for core in 0..self.sizes().cores {
            if let Slot::Asked { wts: Some(_), line, .. } | Slot::Answered { grant: Grant::Renew, line, .. } =
                self.slot(core)
            {
                if self.machine.copy(core, line) != PrivateCopy::None {
                    steps.push(self.eviction(core, line));
                }
            }
        }
        for line in 0..self.sizes().lines {
            let manager = self.machine.state.lines[line as usize];
            let Holder::Owned { core } = manager.holder else {
                continue;
            };
            let owned = matches!(self.machine.copy(core, line), PrivateCopy::Owned { .. });
            if owned && self.random.percent(if manager.recall == Recall::None { 10 } else { 50 }) {
                steps.push(self.eviction(core, line));
            } else if !owned {
                let data = self.some_data(self.sizes().width as usize);
                let late =
                    [Step::Yield { line }, Step::Load { core, line }, Step::Store { core, line, data }];
                steps.push(match self.form {
                    Form::Two if self.random.percent(25) => self.any_eviction(core, line),
                    _ => self.random.pick(&late),
                });
            }
        }
        if steps.is_empty() {
            None
        } else {
            Some(self.random.pick(&steps))
        }
    }

    /// A step of a core whose cache is full: its victim, or the end of that copy.
    fn way_out(&mut self, core: u32) -> Step {
        match self.machine.victim(core) {
            Some(line) if self.random.percent(60) => self.fitting_eviction(core, line),
            _ => Step::Victim { core },
        }
    }

    /// A step that gives up a copy: in the second form mostly the one that fits it.
    fn eviction(&mut self, core: u32, line: u32) -> Step {
        if self.form == Form::One || self.random.percent(40) {
            return self.any_eviction(core, line);
        }
        self.fitting_eviction(core, line)
    }

    /// The step of the second form that fits a copy.
    fn fitting_eviction(&self, core: u32, line: u32) -> Step {
        match self.machine.copy(core, line) {
            PrivateCopy::Owned { .. } => Step::Writeback { core, line },
            _ => Step::Drop { core, line },
        }
    }

    /// A step of the form that gives up a copy, whatever the copy is.
    fn any_eviction(&mut self, core: u32, line: u32) -> Step {
        let evict = Step::Evict { core, line };
        let by_state = [Step::Drop { core, line }, Step::Writeback { core, line }];
        match self.form {
            _ if self.mixed => self.random.pick(&[evict, by_state[0], by_state[1]]),
            Form::One => evict,
            Form::Two => self.random.pick(&by_state),
        }
    }

    /// A step that a core takes on its own.
    fn core_step(&mut self) -> Step {
        let mut core = self.some_core();
        if self.is_stuck(core) && self.random.percent(90) {
            core = self.random.below(self.sizes().cores);
        }
        if self.slot(core) != Slot::Empty && self.random.percent(60) {
            return self.go_on(core);
        }
        if let Some(wish) = self.wishes[core as usize] {
            if self.random.percent(75) {
                return wish;
            }
        }
        let step = self.new_step(core);
        if matches!(step, Step::Load { .. } | Step::Store { .. }) {
            self.wishes[core as usize] = Some(step);
        }
        step
    }

    /// Whether a core's request can never be served, because its lease would pass
    /// the greatest timestamp.
    fn is_stuck(&self, core: u32) -> bool {
        self.machine.refusal(&Step::Serve { core }) == Some(27)
    }

    /// The next step on the way of a core's request.
    fn go_on(&mut self, core: u32) -> Step {
        let Slot::Asked { line, .. } = self.slot(core) else {
            return Step::Receive { core };
        };
        let manager = &self.machine.state.lines[line as usize];
        match manager.holder {
            Holder::Owned { .. } if manager.writeback.is_some() => Step::Take { line },
            Holder::Owned { .. } if manager.recall != Recall::None => Step::Yield { line },
            _ => Step::Serve { core },
        }
    }

    fn new_step(&mut self, core: u32) -> Step {
        let line = self.some_line();
        let total = self.mood.weights.iter().sum();
        let mut at = self.random.below(total);
        let mut kind = 0;
        while at >= self.mood.weights[kind] {
            at -= self.mood.weights[kind];
            kind += 1;
        }
        match kind {
            0 => Step::Load { core, line },
            1 => Step::Store { core, line, data: self.some_data(self.sizes().width as usize) },
            2 => Step::Fence { core },
            3 if self.form == Form::Two && self.random.percent(30) => Step::Victim { core },
            3 => {
                let line = self.held_line(core, line);
                self.eviction(core, line)
            }
            _ => Step::Advance { core, by: self.some_advance(core, line) },
        }
    }

    /// A line that the core holds a copy of, or else the given one.
    fn held_line(&mut self, core: u32, line: u32) -> u32 {
        let held: Vec<u32> = (0..self.sizes().lines)
            .filter(|&line| self.machine.copy(core, line) != PrivateCopy::None)
            .collect();
        if held.is_empty() || self.random.percent(10) {
            line
        } else {
            self.random.pick(&held)
        }
    }

    /// How far a core goes ahead: a little, by about a lease, exactly to the end
    /// of a lease or one past it, or near to the greatest timestamp.
    fn some_advance(&mut self, core: u32, line: u32) -> u32 {
        let lts = self.lts(core);
        let lease = self.sizes().lease;
        if self.mood.high && self.random.percent(25) {
            let room = GREATEST - lts;
            let short = self.random.below(lease + 3);
            return if self.random.percent(25) { room.saturating_add(1) } else { room.saturating_sub(short) };
        }
        let held = self.held_line(core, line);
        if let PrivateCopy::Shared { rts, .. } | PrivateCopy::Owned { rts, .. } =
            self.machine.copy(core, held)
        {
            if rts >= lts && self.random.percent(60) {
                return (rts - lts).saturating_add(self.random.below(2));
            }
        }
        self.random.between(1, 2 * lease)
    }

    /// Any step at all, also one with numbers outside the sizes.
    fn wild_step(&mut self) -> Step {
        let Sizes { cores, lines, width, .. } = self.sizes();
        let core = wild_number(self.random, cores);
        let line = wild_number(self.random, lines);
        match self.random.below(if self.form == Form::Two { 10 } else { 9 }) {
            0 => Step::Load { core, line },
            1 => {
                let width = width as usize;
                let count = self.random.pick(&[width, width + 1, (width - 1).max(1), 1, 80, 80, 85, 86]);
                Step::Store { core, line, data: self.some_data(count) }
            }
            2 => Step::Fence { core },
            3 => self.any_eviction(core, line),
            4 => {
                let by = self.random.pick(&[0, 0, 1, 2, GREATEST, GREATEST - 1, 1 << 31]);
                Step::Advance { core, by }
            }
            5 => Step::Serve { core },
            6 => Step::Receive { core },
            7 => Step::Yield { line },
            8 => Step::Take { line },
            _ => Step::Victim { core },
        }
    }
}

/// A number that is mostly below a bound, sometimes at or far above it.
fn wild_number(random: &mut Random, bound: u32) -> u32 {
    match random.below(12) {
        0 => bound,
        1 => random.pick(&[bound + 1, 16, 64, 255, 256, 65_536, GREATEST]),
        _ => random.below(bound),
    }
}

/// Adds advance steps of core 0 until the text has exactly so many bytes. Such
/// a line has 23 to 32 bytes; at least 92 bytes must be missing.
pub fn fill_up(text: &mut Vec<u8>, bytes: usize) {
    const SHORTEST: usize = "op=advance core=0 by=1\n".len();
    const LONGEST: usize = SHORTEST + 9;
    while text.len() < bytes {
        let missing = bytes - text.len();
        let lines = missing.div_ceil(LONGEST);
        let length = missing / lines;
        text.extend_from_slice(b"op=advance core=0 by=1");
        text.resize(text.len() + length - SHORTEST, b'0');
        text.push(b'\n');
    }
}
