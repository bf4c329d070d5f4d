//! The judge of the smaller head: of every two records with few coordinates, at the grid's ends too, of arrays of every
//! two lengths up to 20, and of drawn ones. The order of records is held to a second opinion.

use crate::asking::kind::Kind;
use crate::asking::wanted::head;
use crate::dice::Dice;
use crate::making::arrays::records;
use crate::progress::told;
use crate::rules::records::{comes_first, record_of};
use crate::rules::second;
use crate::tally::Tally;

fn ask(tally: &mut Tally, a: &[i16], b: &[i16]) {
    if a.len() >= 5 && b.len() >= 5 {
        let (r, e) = (record_of(a), record_of(b));
        if comes_first(r, e) != second::comes_first(r, e) {
            tally.object(&format!("the order of {r:?} and {e:?}"));
        }
    }
    tally.judge(&head(a, b));
}

fn ask_listed(tally: &mut Tally) {
    for among in [[-1, 0, 1], [-32768, 0, 32767], [-32768, 32766, 32767]] {
        let all = records(among);
        tally.at(format!("records among {among:?}"));
        all.iter().for_each(|r| all.iter().for_each(|e| ask(tally, r, e)));
        let (a, b) = (all[..4].concat(), all[40..44].concat());
        tally.at(format!("lengths to 20, of records among {among:?}"));
        for (m, n) in (0..=20).flat_map(|m| (0..=20).map(move |n| (m, n))) {
            ask(tally, &a[..m], &b[..n]);
            ask(tally, &b[..n], &a[..m]);
        }
    }
}

fn ask_drawn(tally: &mut Tally, count: usize, seed: u64) {
    let mut dice = Dice(seed);
    for n in told("drawn arrays", 0..count) {
        let (a, b) = dice.arrays();
        tally.at(format!("drawn arrays {n} of seed {seed}"));
        ask(tally, &a, &b);
    }
}

pub fn judge(count: usize, seed: u64) -> Tally {
    let mut tally = Tally::new("heads");
    ask_listed(&mut tally);
    ask_drawn(&mut tally, count, seed);
    tally.demand([Kind::NeitherHead, Kind::FirstHead, Kind::SecondHead]);
    tally
}
