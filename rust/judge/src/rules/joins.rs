//! Document 01's rules for joining two charts, sentence by sentence.

use super::chart::{verdict, Chart};
use super::records::{order, record_of, Point};
use super::segments::{touch, Segment};

/// What is made of two charts.
#[derive(Clone, Copy, Debug, PartialEq, Eq)]
pub enum Op {
    Union,
    Intersection,
    Difference,
}

pub const OPS: [Op; 3] = [Op::Union, Op::Intersection, Op::Difference];

impl Op {
    /// "Under or, and, or and-not."
    pub fn joins(self, first: bool, second: bool) -> bool {
        match self {
            Op::Union => first || second,
            Op::Intersection => first && second,
            Op::Difference => first && !second,
        }
    }
}

/// A refusal's number and index, and the chart that it names, 0 where it names none.
pub type Refusal = (u8, usize, u8);

// ---- which two charts can be joined

/// "A segment of one touches a segment of the other (index: first such record of the first chart)."
fn first_touching(a: &[i16], second: &Chart) -> Option<usize> {
    let is_touched = |s: Segment| second.segments.iter().any(|&t| touch(s, t));
    a.chunks_exact(5).position(|record| is_touched(Segment::of(record_of(record))))
}

/// The two charts; or the refusal that does not ask what is made of them. "With two charts the first is judged first,
/// and the refusal names which. Refusals 10 to 13 come after them and name no chart."
pub fn charts(a: &[i16], b: &[i16]) -> Result<[Chart; 2], Refusal> {
    for (numbers, name) in [(a, 1), (b, 2)] {
        let (number, index) = verdict(numbers);
        if number != 0 {
            return Err((number, index, name));
        }
    }
    let charts = [a, b].map(Chart::new);
    match first_touching(a, &charts[1]) {
        Some(index) => Err((11, index, 0)),
        None => Ok(charts),
    }
}

// ---- what is made of them

/// "A segment's upper side, or a vertical one's left, lies in a chart exactly if the mark's count for that segment,
/// taken over that chart's own segments, is odd."
fn has_upper_side(chart: &Chart, s: Segment) -> bool {
    chart.counted_mark(s) == 1
}

/// "So does its other side, but the reverse if the chart has that segment."
fn has_other_side(chart: &Chart, s: Segment) -> bool {
    if chart.segments.contains(&s) { !has_upper_side(chart, s) } else { has_upper_side(chart, s) }
}

/// "The segments of either chart", each once.
pub fn of_either([a, b]: &[Chart; 2]) -> Vec<Segment> {
    let mut all = [&a.segments[..], &b.segments].concat();
    all.sort();
    all.dedup();
    all
}

/// "The result keeps the segments of either chart whose two sides differ under or, and, or and-not, in record order,
/// marked afresh."
pub fn result(op: Op, charts: &[Chart; 2]) -> Vec<i16> {
    let [a, b] = charts;
    let is_kept = |s: &Segment| {
        let upper = op.joins(has_upper_side(a, *s), has_upper_side(b, *s));
        let other = op.joins(has_other_side(a, *s), has_other_side(b, *s));
        upper != other
    };
    marked_afresh(halves(of_either(charts).into_iter().filter(is_kept)))
}

/// "Each segment has both", in record order and not marked yet.
fn halves(segments: impl Iterator<Item = Segment>) -> Vec<[i16; 5]> {
    let half = |p: Point, q: Point| [p.0, p.1, q.0, q.1, 0].map(|number| number as i16);
    let mut all: Vec<[i16; 5]> = segments.flat_map(|s| [half(s.left, s.right), half(s.right, s.left)]).collect();
    all.sort_by(|r, e| order(record_of(r), record_of(e)));
    all
}

/// Each mark as the count over these very segments has it.
fn marked_afresh(mut records: Vec<[i16; 5]>) -> Vec<i16> {
    let chart = Chart::new(&records.concat());
    records.iter_mut().for_each(|record| record[4] = chart.counted_mark(Segment::of(record_of(record))));
    records.concat()
}

/// A result for an array of so many numbers. "12 the result has more than 512 records; 13 the lent array is shorter
/// than the result. In that order."
pub fn fitted(result: &[i16], room: usize) -> Result<&[i16], Refusal> {
    if result.len() / 5 > 512 {
        return Err((12, 0, 0));
    }
    if room < result.len() { Err((13, 0, 0)) } else { Ok(result) }
}
