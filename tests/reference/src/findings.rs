//! What many runs show of 02's claim that fences give sequential consistency: that
//! it holds wherever its hypothesis does, that it fails where the fences are left
//! out, and that less than the hypothesis is not enough.

use crate::faults::Fault;
use crate::generate;
use crate::order::{self, Made, Ties, Trouble};
use crate::run::Run;
use crate::sequential;

/// Counts over journals, and the names of those that are not as they should be.
#[derive(Default)]
pub struct Findings {
    /// Journals made with fences: those that obey the hypothesis, and of these those in
    /// which it asks for a fence.
    fenced: u64,
    fenced_need: u64,
    /// The others: all, those that obey it, and of these those in which it asks for a
    /// fence.
    others: u64,
    others_obey: u64,
    others_need: u64,
    /// Journals made with fences that do not obey the hypothesis: the places of a
    /// store and the load that lacks one.
    unfenced: Vec<(String, (u32, u32))>,
    /// Journals that obey it and are not sequential.
    failed: Vec<(String, Trouble)>,
    /// Journals that obey demand 3 without their fences and are not sequential, and of
    /// these those in which also a load's bytes are not those of the last store before
    /// it.
    not_sequential: u64,
    other_bytes: u64,
    /// For each hypothesis that is too weak, the runs that obey it and are not
    /// sequential.
    weak: [u64; sequential::WEAK],
}

impl Findings {
    /// What the commits of a journal show that was not made with fences.
    pub fn of_other(name: &str, made: &[Made]) -> Findings {
        let mut findings = Findings { others: 1, ..Findings::default() };
        if sequential::fenced(made) {
            findings.others_obey = 1;
            findings.others_need = u64::from(sequential::asks_for_fences(made));
            findings.check(name, made);
        }
        findings.look_for_weak(made);
        findings
    }

    /// What a journal that was made with fences shows, in a run with this fault; also
    /// without its fences, and with those of other cores.
    pub fn of_fenced(name: &str, journal: &[u8], fault: Fault) -> Findings {
        let commits = |journal: &[u8]| order::commits(&Run::with_fault(journal, fault).collect::<Vec<_>>());
        let mut findings = Findings::default();
        let made = commits(journal);
        match sequential::unfenced(&made) {
            None => {
                findings.fenced = 1;
                findings.fenced_need = u64::from(sequential::asks_for_fences(&made));
                findings.check(name, &made);
            }
            Some(places) => findings.unfenced.push((name.into(), places)),
        }
        let without = commits(&generate::without_fences(journal));
        if order::check(&without, Ties::ByPlace).is_ok() {
            findings.not_sequential = u64::from(sequential::check(&without).is_err());
            findings.other_bytes = u64::from(sequential::check_bytes(&without).is_err());
        }
        for made in [&made, &without, &commits(&generate::with_fences_of_others(journal))] {
            findings.look_for_weak(made);
        }
        findings
    }

    /// Checks the claim on commits that obey the hypothesis.
    fn check(&mut self, name: &str, made: &[Made]) {
        if let Err(trouble) = sequential::check(made) {
            self.failed.push((name.into(), trouble));
        }
    }

    /// Counts the hypotheses that are too weak, where the commits show it.
    fn look_for_weak(&mut self, made: &[Made]) {
        let obeyed = sequential::obeyed_weakly(made);
        if obeyed.contains(&true) && sequential::check(made).is_err() {
            for (count, obeyed) in self.weak.iter_mut().zip(obeyed) {
                *count += u64::from(obeyed);
            }
        }
    }

    /// Takes in what other journals show.
    pub fn add(&mut self, other: Findings) {
        self.fenced += other.fenced;
        self.fenced_need += other.fenced_need;
        self.others += other.others;
        self.others_obey += other.others_obey;
        self.others_need += other.others_need;
        self.unfenced.extend(other.unfenced);
        self.failed.extend(other.failed);
        self.not_sequential += other.not_sequential;
        self.other_bytes += other.other_bytes;
        for (count, more) in self.weak.iter_mut().zip(other.weak) {
            *count += more;
        }
    }

    /// What is not as it should be, one a line.
    pub fn troubles(&self) -> Vec<String> {
        let mut troubles = Vec::new();
        for (name, (store, load)) in &self.unfenced {
            troubles.push(format!(
                "{name}: made without a fence between the store at {store} and the load at {load}"
            ));
        }
        for (name, trouble) in &self.failed {
            troubles.push(format!("{name}: its fences do not give sequential consistency: {trouble:?}"));
        }
        if self.fenced_need == 0 {
            troubles.push("no journal made with fences needs one".into());
        }
        if self.others_need == 0 {
            troubles.push("no other journal obeys the hypothesis and needs a fence".into());
        }
        if self.not_sequential == 0 {
            troubles.push("no journal shows that it is not sequential without its fences".into());
        }
        if self.other_bytes == 0 {
            troubles.push("no journal without its fences shows that a load reads a store after it".into());
        }
        for (name, count) in sequential::too_weak().into_iter().zip(self.weak) {
            if count == 0 {
                troubles.push(format!("no journal shows that this is too weak: {name}"));
            }
        }
        troubles
    }

    /// The counts, in two lines.
    pub fn summary(&self) -> String {
        let weak = sequential::too_weak().into_iter().zip(self.weak);
        let weak: Vec<_> = weak.map(|(name, count)| format!("{name} on {count}")).collect();
        let Findings { fenced, fenced_need, others, others_obey, others_need, .. } = self;
        format!(
            "sequential: {fenced} journals with fences ({fenced_need} need one) and {others_obey} of {others} others \
             ({others_need} need one) obey the hypothesis, {} of them fail\n\
             sequential: without their fences {} fail, {} of them also by a load's bytes; too weak is {}",
            self.failed.len(),
            self.not_sequential,
            self.other_bytes,
            weak.join(", "),
        )
    }
}
