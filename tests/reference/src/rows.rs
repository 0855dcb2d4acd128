//! Counts of named rows, which generated journals have to meet.

use std::collections::BTreeMap;

/// How often each row was met.
#[derive(Default)]
pub struct Rows {
    counts: BTreeMap<String, u64>,
}

impl Rows {
    pub fn count(&mut self, row: impl Into<String>) {
        *self.counts.entry(row.into()).or_insert(0) += 1;
    }

    pub fn add(&mut self, other: &Rows) {
        for (row, count) in &other.counts {
            *self.counts.entry(row.clone()).or_insert(0) += count;
        }
    }

    /// How often a row was met.
    pub fn met(&self, row: &str) -> u64 {
        self.counts.get(row).copied().unwrap_or(0)
    }

    /// Of these rows those that were never met, and what was counted that is none of
    /// them.
    pub fn missing(&self, rows: &[&str]) -> Vec<String> {
        let unmet = rows.iter().filter(|row| self.met(row) == 0).map(|row| row.to_string());
        let unknown = self.counts.keys().filter(|name| !rows.contains(&name.as_str()));
        unmet.chain(unknown.map(|name| format!("{name}, which is no row"))).collect()
    }

    /// These rows with their counts, one a line.
    pub fn table(&self, rows: &[&str]) -> String {
        rows.iter().map(|row| format!("{:>10}  {row}\n", self.met(row))).collect()
    }
}
