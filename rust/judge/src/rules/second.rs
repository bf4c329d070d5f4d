//! Second opinions: other ways to the answers that document 01's counts give, for charts that it accepts. They look to
//! the left where the document looks down, and at the middle of a segment where it looks at an end.

use super::chart::Chart;
use super::records::{direction, Point, Record};
use super::segments::{Fraction, Segment};

/// How many segments of a chart lie strictly left of a spot, at its height: on a way out to the left the inside ends or
/// begins at each. The spot is given by twice its coordinates.
fn left_of(chart: &Chart, twice: Point) -> usize {
    let (x, y) = twice;
    let passing = chart.segments.iter().map(|s| doubled(*s)).filter(|s| {
        let (low, high) = (s.left.1.min(s.right.1), s.left.1.max(s.right.1));
        low <= y && y < high
    });
    passing.filter(|s| across(*s, y) < Fraction::whole(x)).count()
}

/// How many segments lie strictly below a spot, given by twice its coordinates.
fn below(chart: &Chart, twice: Point) -> usize {
    let (x, y) = twice;
    let there = chart.segments.iter().map(|s| doubled(*s)).filter(|s| s.left.0 <= x && x < s.right.0);
    there.filter(|s| s.height(x) < Fraction::whole(y)).count()
}

fn doubled(s: Segment) -> Segment {
    Segment { left: (2 * s.left.0, 2 * s.left.1), right: (2 * s.right.0, 2 * s.right.1) }
}

/// How far across s is at height y. It must not be level.
fn across(s: Segment, y: i128) -> Fraction {
    let (dx, dy) = s.way();
    Fraction::new(s.left.0 * dy + dx * (y - s.left.1), dy)
}

/// Whether a point that is on no segment is inside, by the way out to the left.
pub fn is_inside(chart: &Chart, p: Point) -> bool {
    left_of(chart, (2 * p.0, 2 * p.1)) % 2 == 1
}

/// "Side mark 1 means that the inside lies above the segment, or left of a vertical one": seen at the segment's middle,
/// to the left; below a level one.
pub fn mark(chart: &Chart, s: Segment) -> i16 {
    let middle = (s.left.0 + s.right.0, s.left.1 + s.right.1);
    let rise = s.way().1;
    if rise == 0 {
        return ((below(chart, middle) + 1) % 2) as i16;
    }
    // the left of a falling segment is below it
    let left_is_below = (rise < 0) as usize;
    ((left_of(chart, middle) + left_is_below) % 2) as i16
}

/// Whether the upper side of a segment that touches none of the chart's, or the left of a vertical one, is inside. One
/// that the chart has not got is inside, all of it and on both sides, where its middle is.
pub fn has_upper_side(chart: &Chart, s: Segment) -> bool {
    if chart.segments.contains(&s) {
        return mark(chart, s) == 1;
    }
    left_of(chart, (s.left.0 + s.right.0, s.left.1 + s.right.1)) % 2 == 1
}

/// Document 01's count for the mark of a segment that is not vertical, with 'just right of x' a step of 1 / 2^60: two
/// heights at x that differ are at least 1 / 2^32 apart, and no two slopes differ by more than 2^17.
pub fn stepped_mark(chart: &Chart, s: Segment) -> i16 {
    let x = s.left.0;
    let there = chart.segments.iter().filter(|t| !t.is_vertical() && t.left.0 <= x && t.right.0 > x);
    (there.filter(|t| stepped_height(**t, x) <= stepped_height(s, x)).count() % 2) as i16
}

/// 2^60 times the height of s a step right of x.
fn stepped_height(s: Segment, x: i128) -> Fraction {
    const STEPS: i128 = 1 << 60;
    let (dx, dy) = s.way();
    Fraction::new(s.left.1 * dx * STEPS + dy * ((x - s.left.0) * STEPS + 1), dx)
}

/// The order of records by steepness: seen from one end, directions to the left come first, then those to the right,
/// and among either the less steep before the steeper, the upright last; in line the nearer first. A record with equal
/// ends is nearer than any.
pub fn comes_first(r: Record, e: Record) -> bool {
    by_steepness(r) < by_steepness(e)
}

/// The dominating end; whether the other end is right of it, upwards counting as right; how steep, upright last; how
/// far, across and up.
fn by_steepness(r: Record) -> (Point, bool, bool, bool, Fraction, i128) {
    let (dx, dy) = direction(r.dominating, r.other);
    let is_right = dx > 0 || dx == 0 && dy > 0;
    let steepness = if dx == 0 { Fraction::whole(0) } else { Fraction::new(dy, dx) };
    (r.dominating, is_right, (dx, dy) != (0, 0), dx == 0, steepness, dx.abs() + dy.abs())
}
