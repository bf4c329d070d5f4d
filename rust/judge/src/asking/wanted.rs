//! Questions with the answers that document 01's rules want.

use super::answer::Answer;
use super::question::Question;
use crate::rules::chart::{verdict, Chart};
use crate::rules::faces::{Boundary, Faces};
use crate::rules::files;
use crate::rules::gauges::{reading, Card};
use crate::rules::heads::smaller_head;
use crate::rules::joins::{charts, fitted, result, Op, Refusal, OPS};
use crate::rules::records::{run_at, Point};

/// A question and the answer that is wanted.
pub type Asked<'a> = (Question<'a>, Answer);

/// An array that is asked about as a chart. "Every question about charts, but for the corner run and the smaller head,
/// first gives these refusals."
pub struct Subject<'a> {
    pub numbers: &'a [i16],
    /// document 01's number and index
    pub verdict: (u8, usize),
    /// where it is accepted
    pub chart: Option<Chart>,
}

impl<'a> Subject<'a> {
    pub fn new(numbers: &'a [i16]) -> Self {
        let verdict = verdict(numbers);
        Subject { numbers, verdict, chart: (verdict.0 == 0).then(|| Chart::new(numbers)) }
    }

    /// What the chart answers, or its refusal.
    fn unless_refused(&self, answer: impl FnOnce(&Chart) -> Answer) -> Answer {
        self.chart.as_ref().map_or(Answer::Refused(self.verdict.0, self.verdict.1, 0), answer)
    }

    pub fn check(&self) -> Asked<'a> {
        (Question::Check { chart: self.numbers }, self.unless_refused(|_| Answer::Accepted))
    }

    pub fn area(&self) -> Asked<'a> {
        let area = |chart: &Chart| Answer::Area(i64::try_from(chart.twice_area()).expect("twice an area of the grid"));
        (Question::Area { chart: self.numbers }, self.unless_refused(area))
    }

    pub fn point(&self, p: Point) -> Asked<'a> {
        let (x, y) = (p.0 as i16, p.1 as i16);
        (Question::Point { chart: self.numbers, x, y }, self.unless_refused(|chart| Answer::At(chart.place(p))))
    }

    /// "An empty part if there is none or the chart is refused."
    pub fn corner(&self, p: Point) -> Asked<'a> {
        let (x, y) = (p.0 as i16, p.1 as i16);
        let run = self.chart.as_ref().map_or(0..0, |_| run_at(self.numbers, p));
        (Question::Corner { chart: self.numbers, x, y }, Answer::Run(run))
    }
}

/// An array that is asked about for its faces and holes, and the list where it is accepted.
pub struct Listing<'a> {
    pub subject: Subject<'a>,
    pub list: Option<Faces>,
}

impl<'a> Listing<'a> {
    pub fn new(numbers: &'a [i16]) -> Self {
        let subject = Subject::new(numbers);
        let list = subject.chart.as_ref().map(|chart| Boundary::new(chart).list(numbers));
        Listing { subject, list }
    }

    /// How many labels and how many numbers of cycles are written; those of the square, say, where it is refused.
    pub fn lengths(&self) -> [usize; 2] {
        self.list.as_ref().map_or([8, 2], |list| [list.labels.len(), 2 * list.cycles.len()])
    }

    pub fn faces(&self, rooms: [usize; 2]) -> Asked<'a> {
        let (number, index) = self.subject.verdict;
        let answer = match &self.list {
            None => Answer::Refused(number, index, 0),
            Some(list) if list.fits(rooms) => Answer::Faces(list.clone()),
            Some(_) => Answer::Refused(10, 0, 0),
        };
        (Question::Faces { chart: self.subject.numbers, rooms }, answer)
    }
}

pub fn head<'a>(a: &'a [i16], b: &'a [i16]) -> Asked<'a> {
    (Question::Head { a, b }, Answer::Head(smaller_head(a, b)))
}

/// Two accepted charts that do not touch, and what is made of them, in the order of `OPS`.
pub struct Joint {
    pub charts: [Chart; 2],
    pub results: [Vec<i16>; 3],
}

/// Two arrays that are asked about as charts to be joined.
pub struct Pair<'a> {
    pub a: &'a [i16],
    pub b: &'a [i16],
    /// where they can be joined
    pub joint: Result<Joint, Refusal>,
}

impl<'a> Pair<'a> {
    pub fn new(a: &'a [i16], b: &'a [i16]) -> Self {
        let joint = |charts: [Chart; 2]| Joint { results: OPS.map(|op| result(op, &charts)), charts };
        Pair { a, b, joint: charts(a, b).map(joint) }
    }

    /// How many numbers a result has; those of the square, say, where the two cannot be joined.
    pub fn length(&self, op: Op) -> usize {
        self.joint.as_ref().map_or(40, |joint| joint.results[op as usize].len())
    }

    pub fn join(&self, op: Op, room: usize) -> Asked<'a> {
        let joined = self.joint.as_ref().map_err(|&refusal| refusal);
        let written = joined.and_then(|joint| fitted(&joint.results[op as usize], room));
        let refused = |(number, index, chart)| Answer::Refused(number, index, chart);
        let answer = written.map_or_else(refused, |numbers| Answer::Records(numbers.to_vec()));
        (Question::Join { op, a: self.a, b: self.b, room }, answer)
    }
}

pub fn gauge(card: Card, sample: i16) -> Asked<'static> {
    let answer = reading(card, sample).map_or_else(|number| Answer::Refused(number, 0, 0), Answer::Read);
    (Question::Gauge { card, sample }, answer)
}

pub fn read(file: &[u8], room: usize) -> Asked<'_> {
    let refused = |(number, place)| Answer::Refused(number, place, 0);
    (Question::Read { file, room }, files::read(file, room).map_or_else(refused, Answer::Records))
}
