//! Document 01's rules for segments: what they share, how high they are at a column, in exact fractions.

use super::records::{determinant, direction, smaller, Point, Record};
use std::cmp::Ordering;

/// An exact fraction; what it is over is positive.
#[derive(Clone, Copy, Debug)]
pub struct Fraction {
    number: i128,
    over: i128,
}

impl Fraction {
    pub fn new(number: i128, over: i128) -> Self {
        assert!(over != 0);
        Fraction { number: number * over.signum(), over: over.abs() }
    }

    pub fn whole(number: i128) -> Self {
        Fraction { number, over: 1 }
    }
}

impl Ord for Fraction {
    fn cmp(&self, other: &Self) -> Ordering {
        (self.number * other.over).cmp(&(other.number * self.over))
    }
}

impl PartialOrd for Fraction {
    fn partial_cmp(&self, other: &Self) -> Option<Ordering> {
        Some(self.cmp(other))
    }
}

impl PartialEq for Fraction {
    fn eq(&self, other: &Self) -> bool {
        self.cmp(other) == Ordering::Equal
    }
}

impl Eq for Fraction {}

/// A point of the plane, which need not be one of the grid.
pub type Spot = (Fraction, Fraction);

/// A segment, its smaller end first.
#[derive(Clone, Copy, Debug, PartialEq, Eq, PartialOrd, Ord)]
pub struct Segment {
    pub left: Point,
    pub right: Point,
}

impl Segment {
    pub fn between(p: Point, q: Point) -> Self {
        if smaller(p, q) { Segment { left: p, right: q } } else { Segment { left: q, right: p } }
    }

    pub fn of(r: Record) -> Self {
        Segment::between(r.dominating, r.other)
    }

    pub fn way(self) -> Point {
        direction(self.left, self.right)
    }

    pub fn is_vertical(self) -> bool {
        self.left.0 == self.right.0
    }

    /// How high it is at column x. It must not be vertical.
    pub fn height(self, x: i128) -> Fraction {
        let (dx, dy) = self.way();
        Fraction::new(self.left.1 * dx + dy * (x - self.left.0), dx)
    }

    pub fn slope(self) -> Fraction {
        let (dx, dy) = self.way();
        Fraction::new(dy, dx)
    }

    pub fn ends_at(self, p: Point) -> bool {
        self.left == p || self.right == p
    }

    /// Whether p is on it, ends included.
    pub fn holds(self, p: Point) -> bool {
        let between = !smaller(p, self.left) && !smaller(self.right, p);
        between && determinant(self.way(), direction(self.left, p)) == 0
    }
}

/// Points that the two share: the one where their lines meet, if both have it; of a common stretch in line its ends and
/// its middle.
fn shared(s: Segment, t: Segment) -> Vec<Spot> {
    let across = determinant(s.way(), t.way());
    let apart = direction(s.left, t.left);
    if across == 0 {
        return if determinant(s.way(), apart) == 0 { common_stretch(s, t) } else { vec![] };
    }
    // left end of s + along s * way of s = left end of t + along t * way of t
    let along_s = Fraction::new(determinant(apart, t.way()), across);
    let along_t = Fraction::new(determinant(apart, s.way()), across);
    let has = |along: Fraction| Fraction::whole(0) <= along && along <= Fraction::whole(1);
    if !has(along_s) || !has(along_t) {
        return vec![];
    }
    let at = |from: i128, step: i128| Fraction::new(from * along_s.over + step * along_s.number, along_s.over);
    vec![(at(s.left.0, s.way().0), at(s.left.1, s.way().1))]
}

/// Of two segments in one line, along which points come in their order.
fn common_stretch(s: Segment, t: Segment) -> Vec<Spot> {
    let from = if smaller(s.left, t.left) { t.left } else { s.left };
    let upto = if smaller(s.right, t.right) { s.right } else { t.right };
    if smaller(upto, from) {
        return vec![];
    }
    let middle = (Fraction::new(from.0 + upto.0, 2), Fraction::new(from.1 + upto.1, 2));
    let spot = |p: Point| (Fraction::whole(p.0), Fraction::whole(p.1));
    vec![spot(from), middle, spot(upto)]
}

/// "Two distinct segments touch if they share a point that is not an end of both."
pub fn touch(s: Segment, t: Segment) -> bool {
    let is = |p: Point, at: Spot| Fraction::whole(p.0) == at.0 && Fraction::whole(p.1) == at.1;
    let is_end = |u: Segment, at: Spot| is(u.left, at) || is(u.right, at);
    s != t && shared(s, t).into_iter().any(|at| !(is_end(s, at) && is_end(t, at)))
}
