//! The judge of joining: union, intersection and difference of two charts. It asks about listed pairs into arrays of
//! every length, about damaged charts on either side and on both, about results as long as they may be and longer,
//! about every two of the small charts and every two colours of some subdivisions, and about drawn pairs.

use super::results::objection;
use crate::asking::answer::Answer;
use crate::asking::kind::Kind;
use crate::asking::wanted::Pair;
use crate::dice::Dice;
use crate::making::damages::damages;
use crate::making::drawn_pairs::{drawn, points_for, room_for};
use crate::making::limits::{far, near};
use crate::making::long_pairs::long;
use crate::making::pairs::{examples, subdivisions, Example};
use crate::making::small;
use crate::making::subdivisions::{all_coloured, Made};
use crate::progress::told;
use crate::rules::joins::{Op, OPS};
use crate::rules::records::Point;
use crate::tally::Tally;

/// The most points that a listed pair is looked at.
const POINTS: usize = 300;

struct Joins {
    tally: Tally,
    /// how often each of the refusals 1 to 9 named the first chart, and the second
    named: [[usize; 9]; 2],
    /// of each operation: how many results had no record, up to 20, 100 and 511, and 512
    sizes: [[usize; 5]; 3],
}

impl Joins {
    fn count(&mut self, op: Op, answer: &Answer) {
        match *answer {
            Answer::Refused(number, _, chart @ 1..=2) => self.named[chart as usize - 1][number as usize - 1] += 1,
            Answer::Records(ref numbers) => {
                let size = [0, 20, 100, 511].iter().position(|&most| numbers.len() / 5 <= most);
                self.sizes[op as usize][size.unwrap_or(4)] += 1;
            }
            _ => {}
        }
    }

    /// What is made of a pair, into arrays of the lengths that are given for a result of so many numbers; what speaks
    /// against the results at some points and by the pieces that the pair was made of.
    fn ask(&mut self, pair: &Pair, points: &[Point], made: Option<&Made>, mut rooms: impl FnMut(usize) -> Vec<usize>) {
        if let Some(what) = objection(pair, points, made) {
            self.tally.object(&format!("{what} of {:?} and {:?}", pair.a, pair.b));
        }
        for op in OPS {
            for room in rooms(pair.length(op)) {
                let asked = pair.join(op, room);
                self.count(op, &asked.1);
                self.tally.judge(&asked);
            }
        }
    }

    /// The same at points near the two, into an array that is just long enough.
    fn ask_near(&mut self, a: &[i16], b: &[i16], made: Option<&Made>) {
        self.ask(&Pair::new(a, b), &points_near(a, b), made, |length| vec![length]);
    }

    // ---- listed

    /// Pairs with known results, which the rules as they are written here must give.
    fn ask_known(&mut self, all: Vec<Example>, rooms: fn(usize) -> Vec<usize>) {
        for Example { name, a, b, known } in told("listed pairs", all.into_iter()) {
            self.tally.at(name);
            let pair = Pair::new(&a, &b);
            let lengths = pair.joint.as_ref().map(|joint| joint.results.each_ref().map(|numbers| numbers.len() / 5));
            let own = lengths.map_err(|&refusal| refusal);
            if own != known {
                self.tally.object(&format!("made as {known:?}, and it is {own:?}"));
            }
            self.ask(&pair, &points_near(&a, &b), None, rooms);
        }
    }

    /// Every two of the small charts, which overlap in all ways.
    fn ask_small(&mut self) {
        let all = small::charts();
        for (name, a) in told("small charts", all.iter()) {
            for (other, b) in &all {
                self.tally.at(format!("{name} and {other}"));
                self.ask_near(a, b, None);
            }
        }
    }

    fn ask_colours(&mut self) {
        for (name, pieces) in subdivisions() {
            for (n, made) in told("colours", all_coloured(&pieces).enumerate()) {
                self.tally.at(format!("{name}, colours {n}"));
                let (a, b) = made.charts();
                self.ask_near(&a, &b, Some(&made));
            }
        }
    }

    /// Every damage to the square: of the first chart, of the second, and of both with another to the second.
    fn ask_damaged(&mut self) {
        let (_, square) = small::charts().swap_remove(0);
        let all = damages(&square);
        for (n, damaged) in all.iter().enumerate() {
            let other = &all[(n + 5) % all.len()];
            self.tally.at(format!("the square, {}, and {}", damaged.how, other.how));
            let (numbers, others) = (&damaged.numbers, &other.numbers);
            for (a, b) in [(numbers, &square), (&square, numbers), (numbers, others)] {
                self.ask(&Pair::new(a, b), &[], None, |length| vec![length]);
            }
        }
    }

    /// Arrays about as long as a chart may be, and far longer ones, on either side.
    fn ask_limits(&mut self) {
        let (_, square) = small::charts().swap_remove(0);
        for numbers in near().into_iter().chain(far()) {
            self.tally.at(format!("the square and {} numbers", numbers.len()));
            for (a, b) in [(&numbers, &square), (&square, &numbers), (&numbers, &numbers)] {
                self.ask(&Pair::new(a, b), &[], None, |length| vec![length]);
            }
        }
    }

    // ---- drawn

    fn ask_drawn(&mut self, count: usize, seed: u64) {
        let mut dice = Dice(seed);
        for n in told("drawn pairs", 0..count) {
            let draft = drawn(&mut dice);
            let points = points_for(&mut dice, &draft);
            self.tally.at(format!("drawn pair {n} of seed {seed}, {}", draft.kind));
            let pair = Pair::new(&draft.a, &draft.b);
            self.ask(&pair, &points, draft.made.as_ref(), |length| vec![length, room_for(&mut dice, length)]);
        }
    }

    /// Tells what was counted, and misses what never came up.
    fn close(mut self) -> Tally {
        println!("refused by 1 to 9, naming the first chart: {:?}, the second: {:?}", self.named[0], self.named[1]);
        for op in OPS {
            let sizes = self.sizes[op as usize];
            println!("{op:?}, by records (none, to 20, to 100, to 511, 512): {sizes:?}");
        }
        let answers = [Kind::Records, Kind::NoRecords].into_iter();
        self.tally.demand(answers.chain((1..=9).chain(11..=13).map(Kind::Refused)));
        if self.named.as_flattened().contains(&0) || self.sizes.as_flattened().contains(&0) {
            self.tally.fail("one of these never came up");
        }
        self.tally
    }
}

/// Some points near two charts.
fn points_near(a: &[i16], b: &[i16]) -> Vec<Point> {
    let all = small::points(&[a, b].concat());
    let step = all.len().div_ceil(POINTS).max(1);
    all.into_iter().step_by(step).collect()
}

pub fn judge(count: usize, seed: u64) -> Tally {
    let mut joins = Joins { tally: Tally::new("joins"), named: [[0; 9]; 2], sizes: [[0; 5]; 3] };
    joins.ask_known(examples(), |length| (0..=length + 6).collect());
    joins.ask_damaged();
    joins.ask_known(long(), |length| vec![0, length - length.min(1), length, length + 1, 2560, 2565]);
    joins.ask_limits();
    joins.ask_small();
    joins.ask_colours();
    joins.ask_drawn(count, seed);
    joins.close()
}
