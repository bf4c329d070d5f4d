//! Small good charts, which are damaged in every way and asked about at every point near them; and those points.

use super::grid::{onto_grid, GREATEST, LEAST};
use super::sides::walked;
use crate::rules::records::{record_of, Point};

/// A square by its lower left corner and its side, the inside on the left.
pub fn square(x: i128, y: i128, side: i128) -> Vec<Point> {
    vec![(x, y), (x + side, y), (x + side, y + side), (x, y + side)]
}

pub fn turned(mut walk: Vec<Point>) -> Vec<Point> {
    walk.reverse();
    walk
}

/// The walks of each chart.
fn walks() -> Vec<(&'static str, Vec<Vec<Point>>)> {
    let (low, high) = (LEAST, GREATEST - 3);
    let nested = vec![square(0, 0, 8), turned(square(1, 1, 6)), square(2, 2, 4), turned(square(3, 3, 2))];
    let in_line = vec![(0, 0), (2, 0), (4, 0), (4, 1), (4, 3), (4, 4), (1, 4), (0, 4), (0, 2)];
    let ring = [vec![(1, 1), (3, 6), (6, 1)], vec![(3, 6), (6, 11), (9, 6)], vec![(6, 1), (9, 6), (11, 1)]];
    let holes = [vec![(1, 1), (10, 10), (20, 5)], vec![(10, 10), (20, 15), (20, 9)]];
    let level = [vec![(0, 10), (10, 5), (20, 10), (20, 30), (0, 30)], vec![(0, 0), (20, 0), (10, 5)]];
    vec![
        ("the square", vec![square(0, 0, 4)]),
        ("the square and a hole", vec![square(0, 0, 4), vec![(0, 0), (1, 2), (2, 1)]]),
        ("the large triangle", vec![vec![(LEAST, LEAST), (GREATEST, LEAST), (LEAST, GREATEST)]]),
        ("the whole grid", vec![square(LEAST, LEAST, 65535)]),
        ("a square at the grid's least corner", vec![square(low, low, 3)]),
        ("a square at the grid's greatest corner", vec![square(high, high, 3)]),
        ("a square at the grid's upper left corner", vec![square(low, high, 3)]),
        ("a square at the grid's lower right corner", vec![square(high, low, 3)]),
        ("a sliver", vec![vec![(0, 0), (3, 1), (5, 2)]]),
        ("two faces at a corner", vec![square(0, 0, 2), square(2, 2, 2)]),
        ("sides in line", vec![in_line]),
        ("slanted sides in line", vec![vec![(0, 0), (6, 0), (6, 6), (4, 4), (2, 2)]]),
        ("one column", vec![square(0, 0, 2), square(0, 3, 2), square(2, 2, 1)]),
        ("nested faces", nested),
        ("holes in a ring", [vec![square(0, 0, 12)], ring.to_vec()].concat()),
        ("holes that touch", [vec![square(0, 0, 30)], holes.to_vec(), vec![vec![(8, 4), (12, 5), (9, 7)]]].concat()),
        ("level below", [level.to_vec(), vec![vec![(10, 15), (12, 20), (14, 16)]]].concat()),
    ]
}

/// Each with its name.
pub fn charts() -> Vec<(&'static str, Vec<i16>)> {
    let chart = |walks: Vec<Vec<Point>>| walked(&walks.iter().map(Vec::as_slice).collect::<Vec<&[Point]>>());
    walks().into_iter().map(|(name, walks)| (name, chart(walks))).collect()
}

// ---- the points near a chart

/// The points from one to another that the grid has, widened by 2.
fn window(least: Point, greatest: Point) -> Vec<Point> {
    let (from, to) = (onto_grid((least.0 - 2, least.1 - 2)), onto_grid((greatest.0 + 2, greatest.1 + 2)));
    (from.0..=to.0).flat_map(|x| (from.1..=to.1).map(move |y| (x, y))).collect()
}

/// The corners of a chart, each once.
pub fn corners(numbers: &[i16]) -> Vec<Point> {
    let mut all: Vec<Point> = numbers.chunks_exact(5).map(|record| record_of(record).dominating).collect();
    all.sort();
    all.dedup();
    all
}

/// Every point of the window that a chart lies in; of a chart that is larger, those near its corners.
pub fn points(numbers: &[i16]) -> Vec<Point> {
    let corners = corners(numbers);
    let (xs, ys): (Vec<i128>, Vec<i128>) = corners.iter().copied().unzip();
    let (Some(&left), Some(&right)) = (xs.iter().min(), xs.iter().max()) else { return window((0, 0), (0, 0)) };
    let (&low, &high) = (ys.iter().min().expect("a corner"), ys.iter().max().expect("a corner"));
    if right - left <= 40 && high - low <= 40 {
        return window((left, low), (right, high));
    }
    corners.iter().flat_map(|&p| window(p, p)).collect()
}
