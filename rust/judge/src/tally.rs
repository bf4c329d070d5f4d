//! How many questions were answered as wanted, what was not, and how often each kind of answer came up.

use crate::asking::disagreement;
use crate::asking::kind::Kind;
use crate::asking::wanted::Asked;
use std::collections::{BTreeMap, BTreeSet};
use std::process::exit;

/// After so many disagreements a judge stops.
const ENOUGH: usize = 5;

pub struct Tally {
    judge: &'static str,
    /// where the questions come from
    place: String,
    passed: usize,
    failed: usize,
    /// how often each kind of answer was wanted
    wanted: BTreeMap<Kind, usize>,
}

impl Tally {
    pub fn new(judge: &'static str) -> Self {
        Tally { judge, place: String::new(), passed: 0, failed: 0, wanted: BTreeMap::new() }
    }

    /// From here on the questions come from this place, which is told with what is not as wanted.
    pub fn at(&mut self, place: impl Into<String>) {
        self.place = place.into();
    }

    /// Asks a question, and counts whether all came as wanted.
    pub fn judge(&mut self, asked: &Asked) {
        self.count(Kind::of(&asked.1), disagreement(asked));
    }

    pub fn count(&mut self, wanted: Kind, disagreement: Option<String>) {
        *self.wanted.entry(wanted).or_default() += 1;
        match disagreement {
            None => self.passed += 1,
            Some(what) => self.fail(&what),
        }
    }

    pub fn fail(&mut self, what: &str) {
        self.failed += 1;
        println!("{}, {}: {what}", self.judge, self.place);
        if self.failed == ENOUGH {
            println!("that is enough: the judge stops here");
            close(std::slice::from_ref(self));
            exit(1);
        }
    }

    /// What speaks against an answer of the judge's own.
    pub fn object(&mut self, what: &str) {
        self.fail(&format!("two readings of document 01 differ: {what}"));
    }

    /// Each of these kinds must have come up.
    pub fn demand(&mut self, kinds: impl IntoIterator<Item = Kind>) {
        self.at("at the end");
        for kind in kinds {
            if !self.wanted.contains_key(&kind) {
                self.fail(&format!("no question came up whose answer is '{kind}'"));
            }
        }
    }

    fn of(&self, is_meant: impl Fn(&Kind) -> bool) -> usize {
        self.wanted.iter().filter(|(kind, _)| is_meant(kind)).map(|(_, n)| n).sum()
    }
}

// ---- telling

fn line(name: &str, numbers: impl Iterator<Item = usize>) {
    let all: Vec<usize> = numbers.collect();
    let columns: String = all.iter().map(|n| format!("{n:>12}")).collect();
    // what several judges have asked is added up
    let sum = if all.len() > 1 { format!("{:>12}", all.iter().sum::<usize>()) } else { String::new() };
    println!("{name:<16}{columns}{sum}");
}

/// A column for each judge, a line for each kind of answer.
fn table(tallies: &[Tally]) {
    let names: String = tallies.iter().map(|tally| format!("{:>12}", tally.judge)).collect();
    println!("{:<16}{names}{}", "", if tallies.len() > 1 { "         all" } else { "" });
    let is_refused = |kind: &Kind| matches!(kind, Kind::Refused(_));
    line("questions", tallies.iter().map(|tally| tally.of(|_| true)));
    line("answered", tallies.iter().map(|tally| tally.of(|kind| !is_refused(kind))));
    line("refused", tallies.iter().map(|tally| tally.of(is_refused)));
    let kinds: BTreeSet<Kind> = tallies.iter().flat_map(|tally| tally.wanted.keys().copied()).collect();
    for kind in kinds {
        line(&format!("{kind}"), tallies.iter().map(|tally| tally.wanted.get(&kind).copied().unwrap_or(0)));
    }
}

/// Tells all that was counted, ends with the line 'N passed, M failed', and says whether nothing failed.
pub fn close(tallies: &[Tally]) -> bool {
    table(tallies);
    let sum = |number: fn(&Tally) -> usize| tallies.iter().map(number).sum::<usize>();
    let failed = sum(|tally| tally.failed);
    println!("{} passed, {failed} failed", sum(|tally| tally.passed));
    failed == 0
}
