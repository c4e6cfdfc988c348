//! How many calls of each kind ended in which way.
use std::collections::BTreeMap;
use std::fmt;

#[derive(Default)]
pub struct Counts {
    ended: BTreeMap<(&'static str, String), u64>,
    /// The refusal whose runs on tables as built are kept below to be read.
    pub show: Option<u64>,
    pub shown: Vec<String>,
}

impl Counts {
    pub fn add(&mut self, kind: &'static str, ending: impl ToString) {
        *self.ended.entry((kind, ending.to_string())).or_default() += 1;
    }
}

/// A kind, its sum, then each ending with its count.
impl fmt::Display for Counts {
    fn fmt(&self, f: &mut fmt::Formatter) -> fmt::Result {
        let mut kinds: Vec<&str> = self.ended.keys().map(|k| k.0).collect();
        kinds.dedup();
        for (i, kind) in kinds.into_iter().enumerate() {
            let mut of: Vec<_> = self.ended.iter().filter(|(k, _)| k.0 == kind).collect();
            of.sort_by_key(|(k, _)| k.1.parse::<u64>().unwrap_or(0));
            let sum: u64 = of.iter().map(|(_, n)| **n).sum();
            write!(f, "{}{kind} {sum} (", if i > 0 { "; " } else { "" })?;
            for (j, ((_, ending), n)) in of.into_iter().enumerate() {
                write!(f, "{}{ending}: {n}", if j > 0 { ", " } else { "" })?;
            }
            write!(f, ")")?;
        }
        Ok(())
    }
}
