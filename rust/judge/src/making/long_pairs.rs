//! Charts to be joined, two by two, that are large or make something large: results about as long as a chart may be.

use super::pairs::{chart, joined, Example, Walk};
use super::small::{square, turned};
use crate::rules::records::Point;

/// So many squares and triangles in a row, apart.
fn row(squares: usize, triangles: usize, y: i128) -> Vec<Walk> {
    let shape = |i: usize| {
        let mut walk = square(4 * i as i128, y, 2);
        walk.truncate(if i < squares { 4 } else { 3 });
        walk
    };
    (0..squares + triangles).map(shape).collect()
}

/// The same as holes of one face.
fn pierced(squares: usize, triangles: usize, y: i128) -> Vec<Walk> {
    let holes = row(squares, triangles, y).into_iter().map(turned);
    [square(-9, -9, 300)].into_iter().chain(holes).collect()
}

/// Results of 510, 512, 514 and far more records, of each operation.
pub fn long() -> Vec<Example> {
    let first = row(32, 0, 0);
    vec![
        joined("a union of 510 records", &first, &row(31, 1, 9), [510, 0, 256]),
        joined("a union of 512 records", &first, &row(32, 0, 9), [512, 0, 256]),
        joined("a union of 514 records", &first, &row(30, 3, 9), [514, 0, 256]),
        joined("a union of 1,024 records", &row(64, 0, 0), &row(64, 0, 9), [1024, 0, 512]),
        joined("the longest chart twice", &row(64, 0, 0), &row(64, 0, 0), [512, 512, 0]),
        joined("an intersection of 512 records", &pierced(32, 0, 0), &pierced(31, 0, 9), [8, 512, 248]),
        joined("an intersection of 514 records", &pierced(32, 0, 0), &pierced(29, 3, 9), [8, 514, 250]),
        joined("a difference of 512 records", &pierced(32, 0, 0), &row(31, 0, 9), [264, 248, 512]),
        joined("a difference of 514 records", &pierced(32, 0, 0), &row(29, 3, 9), [264, 250, 514]),
    ]
}

/// Two charts of 512 records each: the squares of either colour of a chequered board, which fill it together; slanted
/// cells apart from each other, half of which both have.
pub fn largest() -> Vec<(&'static str, Vec<i16>, Vec<i16>)> {
    let cells = |colour: i128| {
        let all = (0..16).flat_map(|i| (0..8).map(move |j| (i, j))).filter(move |(i, j)| (i + j) % 2 == colour);
        all.map(|(i, j)| square(2 * i, 2 * j, 2)).collect()
    };
    let slant = |(x, y): Point| (3 * x + 2 * y, 3 * y - x);
    let slanted = |from: i128| {
        let all = (from..from + 64).map(|n| square(2 * (n % 12), 2 * (n / 12), 1));
        all.map(|cell| cell.into_iter().map(slant).collect()).collect()
    };
    let pair = |name: &'static str, a: Vec<Walk>, b: Vec<Walk>| (name, chart(&a), chart(&b));
    vec![pair("opposite boards", cells(0), cells(1)), pair("slanted cells", slanted(0), slanted(32))]
}
