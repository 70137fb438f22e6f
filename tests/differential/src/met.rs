//! What the comparisons met, so that comparisons that meet nothing fail.

use std::collections::BTreeMap;
use std::fmt;

/// How often each outcome came, also at each size, and each sort of calls that a test
/// stopped, and how many comparisons were made.
#[derive(Default)]
pub struct Met {
    pub made: u64,
    pub outcomes: Counts,
    pub at_sizes: Counts,
    pub sorts: Counts,
}

impl Met {
    /// What was met in both of two parts.
    pub fn and(mut self, other: Met) -> Met {
        self.made += other.made;
        self.outcomes.add(other.outcomes);
        self.at_sizes.add(other.at_sizes);
        self.sorts.add(other.sorts);
        self
    }
}

#[derive(Default)]
pub struct Counts(BTreeMap<String, u64>);

impl Counts {
    pub fn count(&mut self, what: &str) {
        *self.0.entry(what.into()).or_default() += 1;
    }

    fn add(&mut self, other: Counts) {
        other.0.into_iter().for_each(|(what, times)| *self.0.entry(what).or_default() += times);
    }

    /// Fails where this was met less often than it must be.
    pub fn demand(&self, what: &str, least: u64) {
        let met = self.0.get(what).copied().unwrap_or(0);
        assert!(met >= least, "{what} was met {met} times, and must be {least} times");
    }
}

impl fmt::Display for Met {
    fn fmt(&self, f: &mut fmt::Formatter) -> fmt::Result {
        write!(f, "{} comparisons, no difference", self.made)?;
        self.outcomes.0.iter().try_for_each(|(what, times)| write!(f, "; {what}: {times}"))?;
        match self.sorts.0.values().min() {
            Some(least) => write!(f, "; {} sorts, each {least} times or more", self.sorts.0.len()),
            None => Ok(()),
        }
    }
}

#[cfg(test)]
mod tests {
    use super::*;

    #[test]
    fn what_was_met() {
        let mut met = Met::default();
        met.outcomes.count("whole");
        met.outcomes.count("whole");
        met.outcomes.demand("whole", 2);
        met.outcomes.demand("fault", 0);
        met.at_sizes.count("whole at size 9");
        assert_eq!(met.to_string(), "0 comparisons, no difference; whole: 2");
        for sort in ["layer 0", "layer 1", "layer 0"] {
            met.sorts.count(sort);
        }
        met.sorts.demand("layer 0", 2);
        assert!(met.to_string().ends_with("; whole: 2; 2 sorts, each 1 times or more"));
        let mut other = Met { made: 7, ..Met::default() };
        ["whole", "fault"].into_iter().for_each(|end| other.outcomes.count(end));
        other.sorts.count("layer 2");
        other.at_sizes.count("whole at size 9");
        let both = met.and(other);
        both.outcomes.demand("whole", 3);
        both.at_sizes.demand("whole at size 9", 2);
        let text =
            "7 comparisons, no difference; fault: 1; whole: 3; 3 sorts, each 1 times or more";
        assert_eq!(both.to_string(), text);
    }

    #[test]
    #[should_panic(expected = "fault was met 0 times")]
    fn what_was_not_met() {
        Counts::default().demand("fault", 1);
    }
}
