//! What speaks against the judge's own results of joining: that a result is no chart, or has not the inside that the
//! two charts and what is made of them say, at points, by second opinions on every side, by area, and by the pieces
//! that the charts were made of.

use crate::asking::wanted::{Joint, Pair};
use crate::making::regions;
use crate::making::sides::side_of;
use crate::making::subdivisions::Made;
use crate::rules::chart::{verdict, Chart, Place};
use crate::rules::joins::{of_either, Op, OPS};
use crate::rules::records::Point;
use crate::rules::second;
use crate::rules::segments::Segment;

/// What is said against a pair's refusal or results, the pieces being those that the two were made of.
pub fn objection(pair: &Pair, points: &[Point], made: Option<&Made>) -> Option<String> {
    let joint = match &pair.joint {
        Ok(joint) => joint,
        Err(refusal) => return made.and_then(|made| about_refusal(refusal.0, made)),
    };
    let results = joint.results.each_ref().map(|numbers| Chart::new(numbers));
    let about = |op: Op| {
        let (numbers, result) = (&joint.results[op as usize], &results[op as usize]);
        let by_points = || points.iter().find_map(|&p| about_point(op, joint, result, p, made));
        let by_pieces = || about_pieces(op, result, made?);
        let what = about_verdict(numbers).or_else(|| about_sides(op, joint, result)).or_else(by_points);
        what.or_else(by_pieces).map(|what| format!("{op:?}: {what}"))
    };
    OPS.into_iter().find_map(about).or_else(|| about_areas(joint, &results))
}

/// Charts made of pieces are good ones, and touch only where sides of one were cut or joined.
fn about_refusal(number: u8, made: &Made) -> Option<String> {
    (number != 11 || made.is_whole).then(|| format!("made as good charts that do not touch, and refused by {number}"))
}

/// A result is itself a chart, unless it has too many records for one.
fn about_verdict(numbers: &[i16]) -> Option<String> {
    let (number, index) = verdict(numbers);
    let is_wanted = number == if numbers.len() / 5 > 512 { 2 } else { 0 };
    (!is_wanted).then(|| format!("the result is refused by {number} at {index}"))
}

/// Off both boundaries the result answers as the two charts and the operation do, counting downwards and to the left.
fn about_point(op: Op, joint: &Joint, result: &Chart, p: Point, made: Option<&Made>) -> Option<String> {
    let [first, second] = joint.charts.each_ref().map(|chart| chart.place(p));
    if first == Place::Edge || second == Place::Edge {
        return None;
    }
    let is_inside = op.joins(first == Place::Inside, second == Place::Inside);
    let place = if is_inside { Place::Inside } else { Place::Outside };
    let is_made_so = |made: &Made| op.joins(regions::has(&made.first, p), regions::has(&made.second, p)) == is_inside;
    let is_counted_so = result.place(p) == place && second::is_inside(result, p) == is_inside;
    let is_so = is_counted_so && made.is_none_or(is_made_so);
    (!is_so).then(|| format!("the place of {p:?}"))
}

/// Each segment is kept and marked as its two sides say, seen at its middle.
fn about_sides(op: Op, joint: &Joint, result: &Chart) -> Option<String> {
    let is_so = |s: Segment| {
        let upper = joint.charts.each_ref().map(|chart| second::has_upper_side(chart, s));
        let other = [0, 1].map(|i| upper[i] != joint.charts[i].segments.contains(&s));
        let [upper, other] = [upper, other].map(|[first, second]| op.joins(first, second));
        let is_kept = result.segments.contains(&s);
        is_kept == (upper != other) && (!is_kept || result.mark_of(s) == upper as i16)
    };
    of_either(&joint.charts).into_iter().find(|&s| !is_so(s)).map(|s| format!("the side {s:?}"))
}

/// The result has the area of its pieces and, where nothing was cut or joined, their sides.
fn about_pieces(op: Op, result: &Chart, made: &Made) -> Option<String> {
    let pieces = made.joined(op);
    let (wanted, area) = (regions::twice_area(&pieces), result.twice_area());
    if area != wanted {
        return Some(format!("twice the area, {area}, made as {wanted}"));
    }
    let mut all: Vec<Segment> = regions::sides(&pieces).into_iter().map(|way| side_of(way).segment).collect();
    all.sort();
    (made.is_whole && all != result.segments).then(|| format!("its segments, made as {all:?}"))
}

/// What is in either is in the first or in the second, and twice where it is in both.
fn about_areas(joint: &Joint, results: &[Chart; 3]) -> Option<String> {
    let [first, second] = joint.charts.each_ref().map(Chart::twice_area);
    let [union, intersection, difference] = results.each_ref().map(Chart::twice_area);
    let adds_up = union + intersection == first + second && difference + intersection == first;
    (!adds_up).then(|| format!("areas {first} and {second} made {union}, {intersection} and {difference}"))
}
