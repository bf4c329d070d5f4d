//! Document 01's rules for points, records, their order and the run at a corner, from its sentences, in wide integers.

use std::cmp::Ordering;
use std::ops::Range;

pub type Point = (i128, i128);

#[derive(Clone, Copy, Debug)]
pub struct Record {
    pub dominating: Point,
    pub other: Point,
}

/// "Points are ordered by x, then y."
pub fn smaller(p: Point, q: Point) -> bool {
    p.0 < q.0 || (p.0 == q.0 && p.1 < q.1)
}

pub fn direction(from: Point, to: Point) -> Point {
    (to.0 - from.0, to.1 - from.1)
}

pub fn determinant(u: Point, v: Point) -> i128 {
    u.0 * v.1 - u.1 * v.0
}

/// "A record is a left half if its dominating end is the smaller, else a right half."
pub fn is_left_half(r: Record) -> bool {
    smaller(r.dominating, r.other)
}

fn length_squared(r: Record) -> i128 {
    let d = direction(r.dominating, r.other);
    d.0 * d.0 + d.1 * d.1
}

/// "Order of two records: smaller dominating end first; at one end, right halves before left; then the one that turns
/// counter-clockwise onto the other (positive determinant of their directions); where that determinant is zero, the
/// shorter."
pub fn comes_first(r: Record, e: Record) -> bool {
    if r.dominating != e.dominating {
        return smaller(r.dominating, e.dominating);
    }
    if is_left_half(r) != is_left_half(e) {
        return !is_left_half(r);
    }
    let d = determinant(direction(r.dominating, r.other), direction(e.dominating, e.other));
    if d != 0 {
        return d > 0;
    }
    length_squared(r) < length_squared(e)
}

/// The same order, to sort by.
pub fn order(r: Record, e: Record) -> Ordering {
    comes_first(e, r).cmp(&comes_first(r, e))
}

pub fn record_of(numbers: &[i16]) -> Record {
    let n = |i: usize| numbers[i] as i128;
    Record { dominating: (n(0), n(1)), other: (n(2), n(3)) }
}

/// "The run of records at a corner, those whose dominating end is the point asked for", by the places of its numbers;
/// 0..0 if there is none. In a chart they stand together.
pub fn run_at(numbers: &[i16], p: Point) -> Range<usize> {
    let there = |record: &&[i16]| record_of(record).dominating == p;
    let Some(start) = numbers.chunks_exact(5).position(|record| there(&record)) else { return 0..0 };
    let records = numbers.chunks_exact(5).skip(start).take_while(there).count();
    5 * start..5 * (start + records)
}
