//! The judge of what the boundary does not offer: the nearest below a point, and its place told by the nearest's mark.
//! A program answers over pipes: for each point its place, one byte, 0 Outside, 1 Inside, 2 Edge, 3 where the chart is
//! refused; and the nearest below, two bytes, its record's index, 65,535 where there is none, 65,534 where refused.

use super::objections::objection;
use super::pipe::{ask, count, TAKEN};
use crate::asking::answer::Answer;
use crate::asking::kind::Kind;
use crate::asking::wanted::Subject;
use crate::dice::Dice;
use crate::making::drafts::{draft, Draft};
use crate::making::points::points_for;
use crate::making::{examples, small};
use crate::progress::told;
use crate::rules::records::Point;
use crate::tally::Tally;
use std::io::Result;

/// How many points a question has room for.
const POINTS: usize = 255;

/// How many bytes are answered for each.
const SIZE: usize = 3;

/// A chart and points of it.
struct Question {
    draft: Draft,
    points: Vec<Point>,
}

impl Question {
    /// How many numbers, how many points, then both.
    fn bytes(&self) -> Vec<u8> {
        let numbers = &self.draft.numbers;
        assert!(numbers.len() <= 4096 && self.points.len() <= POINTS, "the program takes no more");
        let front = [&(numbers.len() as u16).to_le_bytes()[..], &[self.points.len() as u8]].concat();
        let points = self.points.iter().flat_map(|&(x, y)| [x as i16, y as i16]);
        front.into_iter().chain(numbers.iter().copied().chain(points).flat_map(count)).collect()
    }

    fn drawn(dice: &mut Dice) -> Self {
        let draft = draft(dice);
        let points = points_for(dice, &draft);
        Question { draft, points }
    }
}

/// The papers' examples at their own points, and the small charts at every point near them.
fn listed() -> Vec<Question> {
    let question = |kind: &'static str, numbers: &[i16], points: &[Point]| {
        let draft = Draft { kind, numbers: numbers.to_vec(), pieces: None };
        Question { draft, points: points.to_vec() }
    };
    let at_examples = examples::all().into_iter().map(|example| {
        let points: Vec<Point> = example.places.iter().map(|&(p, _)| p).chain([(0, 0)]).collect();
        question(example.name, &example.numbers, &points)
    });
    let at_small = small::charts().into_iter().flat_map(|(name, numbers)| {
        let points = small::points(&numbers);
        points.chunks(POINTS).map(|some| question(name, &numbers, some)).collect::<Vec<Question>>()
    });
    at_examples.chain(at_small).collect()
}

// ---- judging

struct Nearest {
    tally: Tally,
    program: String,
    /// how many points had none below, one nearest, two level, more
    level: [usize; 4],
}

impl Nearest {
    /// The wanted bytes for a point, and of what kind its place is.
    fn wanted(&mut self, subject: &Subject, p: Point) -> (Vec<u8>, Kind) {
        let place = subject.point(p).1;
        let (byte, nearest) = match (&place, &subject.chart) {
            (Answer::At(place), Some(chart)) => {
                let nearest = chart.nearest_below(p);
                self.level[nearest.map_or(0, |_| chart.level_below(p).min(3))] += 1;
                (*place as u8, nearest.unwrap_or(65535))
            }
            _ => (3, 65534),
        };
        ([&[byte][..], &(nearest as u16).to_le_bytes()].concat(), Kind::of(&place))
    }

    /// Takes the answers to a question off the bytes and compares them.
    fn compare(&mut self, question: &Question, rest: &mut &[u8]) {
        let Draft { kind, numbers, pieces } = &question.draft;
        let subject = Subject::new(numbers);
        self.tally.at(*kind);
        if let Some(what) = objection(&subject, &question.points, pieces.as_deref()) {
            self.tally.object(&format!("{what} of {numbers:?}"));
        }
        for &p in &question.points {
            let (wanted, place) = self.wanted(&subject, p);
            let (got, left) = rest.split_at(SIZE.min(rest.len()));
            *rest = left;
            let differ = || format!("nearest below {p:?} of {numbers:?}: wanted {wanted:?}, got {got:?}");
            self.tally.count(place, (got != wanted).then(differ));
        }
    }

    fn ask(&mut self, batch: &[Question]) -> Result<()> {
        let bytes: Vec<u8> = batch.iter().flat_map(Question::bytes).collect();
        let answers = ask(&self.program, &bytes)?;
        let mut rest = &answers[..];
        batch.iter().for_each(|question| self.compare(question, &mut rest));
        if !rest.is_empty() {
            self.tally.fail(&format!("{} bytes were answered that nothing asked for", rest.len()));
        }
        Ok(())
    }

    /// As many at once as the program takes.
    fn ask_all(&mut self, questions: impl Iterator<Item = Question>) -> Result<()> {
        let (mut batch, mut used) = (vec![], 0);
        for question in questions {
            let size = question.bytes().len();
            if used + size > TAKEN {
                self.ask(&batch)?;
                batch.clear();
                used = 0;
            }
            used += size;
            batch.push(question);
        }
        self.ask(&batch)
    }
}

pub fn judge(program: &str, count: usize, seed: u64) -> Tally {
    let mut nearest = Nearest { tally: Tally::new("nearest"), program: program.to_string(), level: [0; 4] };
    let mut dice = Dice(seed);
    let drawn = told("drawn charts", (0..count).map(|_| Question::drawn(&mut dice)));
    let asked = nearest.ask_all(listed().into_iter()).and_then(|()| nearest.ask_all(drawn));
    println!("points with none below, one nearest, two level, more: {:?}", nearest.level);
    let mut tally = nearest.tally;
    if let Err(error) = asked {
        tally.fail(&format!("{program}: {error}"));
    }
    tally.demand([Kind::Outside, Kind::Inside, Kind::Edge]);
    if nearest.level.contains(&0) {
        tally.fail("one of these never came up");
    }
    tally
}
