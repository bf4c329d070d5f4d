//! Ways from one point of the grid to another, and the points of the grid along and beside them.

use crate::rules::records::{direction, Point};

/// From a point to another.
pub type Way = (Point, Point);

pub const LEAST: i128 = -32768;
pub const GREATEST: i128 = 32767;

pub fn is_on_grid(p: Point) -> bool {
    p == onto_grid(p)
}

/// The point of the grid nearest to p.
pub fn onto_grid(p: Point) -> Point {
    (p.0.clamp(LEAST, GREATEST), p.1.clamp(LEAST, GREATEST))
}

/// The greatest common divisor d of a and b, with s and t such that s * a + t * b = d; d may be negative.
fn common_divisor(a: i128, b: i128) -> (i128, i128, i128) {
    if b == 0 {
        return (a, 1, 0);
    }
    let (d, s, t) = common_divisor(b, a % b);
    (d, t, s - a / b * t)
}

/// How many steps from one point of the grid to the next a way has.
pub fn steps((from, to): Way) -> i128 {
    let (dx, dy) = direction(from, to);
    common_divisor(dx, dy).0.abs()
}

/// The point of the grid so many steps along a way.
pub fn along((from, to): Way, step: i128) -> Point {
    let (dx, dy) = direction(from, to);
    let n = steps((from, to)).max(1);
    (from.0 + dx / n * step, from.1 + dy / n * step)
}

/// The points nearest to a way on its left and on its right, beside its first step; None where there is no way, or
/// where they are off the grid.
pub fn beside((from, to): Way) -> Option<(Point, Point)> {
    let (dx, dy) = direction(from, to);
    let n = steps((from, to));
    if n == 0 {
        return None;
    }
    let (dx, dy) = (dx / n, dy / n);
    // dx * v - dy * u = 1, so (u, v) turns left by the least there is
    let (d, s, t) = common_divisor(dx, -dy);
    let (u, v) = (t * d, s * d);
    // the same so many whole steps back that it lies within the first
    let back = if dx != 0 { (u * dx.signum()).div_euclid(dx.abs()) } else { v * dy };
    let (u, v) = (u - back * dx, v - back * dy);
    let (left, right) = ((from.0 + u, from.1 + v), (from.0 + dx - u, from.1 + dy - v));
    (is_on_grid(left) && is_on_grid(right)).then_some((left, right))
}
