//! Charts of 512 records with as many faces or holes as there can be, or as few.

use super::pairs::{chart, Walk};
use super::small::{square, turned};
use crate::rules::records::Point;

/// 84 triangles in a row, apart, and a square: 85 cycles, and no chart has more.
fn triangles() -> Vec<Walk> {
    let triangle = |i: i128| vec![(3 * i, 0), (3 * i + 2, 0), (3 * i + 1, 2)];
    (0..84).map(triangle).chain([square(252, 0, 2)]).collect()
}

/// One outline of 256 sides, like a fan with teeth.
fn saw() -> Vec<Walk> {
    let teeth = (0..255).rev().map(|i| (100 * i, if i % 2 == 0 { 20_000 } else { 19_700 }));
    vec![[(12_700, -30_000)].into_iter().chain(teeth).collect()]
}

/// A hole like a diamond, the inside of the chart on the left.
fn diamond((x, y): Point) -> Walk {
    vec![(x, y), (x + 1, y + 1), (x + 2, y), (x + 1, y - 1)]
}

/// 63 holes of one face, each touching the next at a corner: all of them one walk.
fn chain() -> Vec<Walk> {
    [square(-9, -100, 200)].into_iter().chain((0..63).map(|i| diamond((2 * i, 0)))).collect()
}

/// 63 holes of one face in nine rows of seven, touching up and down and to both sides: what they cut off are faces.
fn lattice() -> Vec<Walk> {
    let at = |n: i128| (2 * (n % 7), 2 * (n / 7));
    [square(-9, -9, 50)].into_iter().chain((0..63).map(|n| diamond(at(n)))).collect()
}

/// 63 holes of one face that touch nothing, in rows: below most of them is another hole.
fn pierced() -> Vec<Walk> {
    let at = |n: i128| (3 * (n % 7), 3 * (n / 7));
    [square(-9, -9, 50)].into_iter().chain((0..63).map(|n| diamond(at(n)))).collect()
}

/// 64 squares, each within the one before.
fn nest() -> Vec<Walk> {
    let ring = |i: i128| square(i, i, 200 - 2 * i);
    (0..64).map(|i| if i % 2 == 0 { ring(i) } else { turned(ring(i)) }).collect()
}

/// Each with how many cycles and faces it has.
pub fn largest() -> Vec<(&'static str, Vec<i16>, [usize; 2])> {
    let large = |name: &'static str, walks: Vec<Walk>, counts: [usize; 2]| (name, chart(&walks), counts);
    vec![
        large("small triangles", triangles(), [85, 85]),
        large("one large polygon", saw(), [1, 1]),
        large("holes that touch in a chain", chain(), [64, 1]),
        large("holes that touch in a lattice", lattice(), [50, 49]),
        large("holes apart", pierced(), [64, 1]),
        large("squares in squares", nest(), [64, 32]),
    ]
}
