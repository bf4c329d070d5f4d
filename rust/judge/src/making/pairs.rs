//! Listed charts to be joined, two by two: document 01's example and others whose results are known; and subdivisions
//! whose every two regions are asked about.

use super::grid::{GREATEST, LEAST};
use super::regions::Piece;
use super::sides::walked;
use super::small::{square, turned};
use crate::rules::joins::Refusal;
use crate::rules::records::Point;

/// Two charts; and how many records their union, intersection and difference have, or how they are refused.
pub struct Example {
    pub name: &'static str,
    pub a: Vec<i16>,
    pub b: Vec<i16>,
    pub known: Result<[usize; 3], Refusal>,
}

/// Corners in order, the inside on the left.
pub type Walk = Vec<Point>;

pub fn chart(walks: &[Walk]) -> Vec<i16> {
    walked(&walks.iter().map(Vec::as_slice).collect::<Vec<&[Point]>>())
}

pub fn joined(name: &'static str, a: &[Walk], b: &[Walk], records: [usize; 3]) -> Example {
    Example { name, a: chart(a), b: chart(b), known: Ok(records) }
}

fn touching(name: &'static str, a: &[Walk], b: &[Walk], index: usize) -> Example {
    Example { name, a: chart(a), b: chart(b), known: Err((11, index, 0)) }
}

// ---- known results

/// Document 01's "square and its neighbour (4,0) to (8,4): union 12 records, intersection none, first minus second the
/// first"; the same twice, empty charts, the one within the other and apart.
fn plain() -> Vec<Example> {
    let (none, one, small) = ([], [square(0, 0, 4)], [square(1, 1, 2)]);
    let [around, wide] = [(4, 2), (8, 6)].map(|(side, hole)| [square(0, 0, side), turned(square(1, 1, hole))]);
    vec![
        joined("the square and its neighbour", &one, &[square(4, 0, 4)], [12, 0, 8]),
        joined("a chart twice", &one, &one, [8, 8, 0]),
        joined("a chart and none", &one, &none, [8, 0, 8]),
        joined("none and a chart", &none, &one, [8, 0, 0]),
        joined("none and none", &none, &none, [0, 0, 0]),
        joined("the second within the first", &one, &small, [8, 8, 16]),
        joined("the first within the second", &small, &one, [8, 8, 0]),
        joined("apart", &one, &[square(6, 0, 4)], [16, 0, 8]),
        joined("a chart and what fills its hole", &around, &small, [8, 0, 16]),
        joined("what fills a hole, and the chart around it", &small, &around, [8, 0, 8]),
        joined("a chart and the same without its hole", &around, &one, [8, 16, 0]),
        joined("a chart without a hole and with it", &one, &around, [8, 16, 8]),
        joined("a face in the other's hole", &wide, &[square(2, 2, 2)], [24, 0, 16]),
    ]
}

/// Corners and sides in common.
fn common() -> Vec<Example> {
    let one = [square(0, 0, 4)];
    let (above, below) = ([vec![(0, 0), (4, 0), (2, 2)]], [vec![(0, 0), (2, -2), (4, 0)]]);
    let (right, left) = ([vec![(0, 0), (2, 2), (0, 4)]], [vec![(0, 0), (0, 4), (-2, 2)]]);
    let slanted = [vec![(0, 0), (4, 0), (4, 4)]];
    let in_line = [vec![(0, 0), (2, 0), (4, 0), (4, 4), (0, 4)]];
    vec![
        joined("a corner, from outside", &one, &[square(4, 4, 4)], [16, 0, 8]),
        joined("a corner, from inside", &one, &[vec![(0, 0), (2, 1), (1, 2)]], [8, 6, 14]),
        joined("two corners, from inside", &one, &[vec![(0, 0), (4, 4), (1, 3)]], [8, 6, 14]),
        joined("a level side, from the same side", &one, &above, [8, 6, 10]),
        joined("a level side, from opposite sides", &one, &below, [10, 0, 8]),
        joined("an upright side, from the same side", &one, &right, [8, 6, 10]),
        joined("an upright side, from opposite sides", &one, &left, [10, 0, 8]),
        joined("a slanted side, from the same side", &slanted, &[vec![(0, 0), (3, 1), (4, 4)]], [6, 6, 8]),
        joined("a slanted side, from opposite sides", &slanted, &[vec![(0, 0), (4, 4), (0, 4)]], [8, 0, 6]),
        joined("a side in line with others", &in_line, &[vec![(0, 0), (1, -1), (2, 0)]], [12, 0, 10]),
        joined("two sides and the corner between", &one, &slanted, [8, 6, 6]),
    ]
}

/// From one end of the grid to the other.
fn extreme() -> Vec<Example> {
    let (whole, low) = ([square(LEAST, LEAST, 65535)], [vec![(LEAST, LEAST), (GREATEST, LEAST), (LEAST, GREATEST)]]);
    let high = [vec![(GREATEST, LEAST), (GREATEST, GREATEST), (LEAST, GREATEST)]];
    let crossing = [vec![(LEAST, LEAST), (GREATEST, LEAST), (GREATEST, GREATEST)]];
    let sliver = [vec![(LEAST, LEAST), (1, 0), (GREATEST, GREATEST)]];
    vec![
        joined("the grid's two halves", &low, &high, [8, 0, 6]),
        joined("the whole grid and its half", &whole, &low, [8, 6, 6]),
        joined("a half of the grid and the whole", &high, &whole, [8, 6, 0]),
        joined("the whole grid and a sliver", &whole, &sliver, [8, 6, 14]),
        touching("halves that cross off the grid", &low, &crossing, 3),
    ]
}

/// A point in common that is not an end of both.
fn touched() -> Vec<Example> {
    let one = [square(0, 0, 4)];
    let beside = [vec![(4, 1), (6, 1), (6, 3), (4, 3)]];
    vec![
        touching("crossing", &one, &[square(2, 2, 4)], 3),
        touching("a corner on a side of the first", &one, &[vec![(4, 2), (6, 1), (6, 3)]], 5),
        touching("a corner on a side of the second", &[vec![(4, 2), (6, 1), (6, 3)]], &one, 0),
        touching("part of a side", &one, &beside, 5),
        touching("part of a side, from the other chart", &beside, &one, 0),
        touching("a side's half, from its end", &one, &[vec![(0, 0), (1, -1), (2, 0)]], 0),
        touching("sides in line that overlap", &one, &[vec![(2, 0), (2, -2), (6, 0)]], 0),
        touching("a side crossed twice", &one, &[vec![(5, 4), (3, 2), (6, 1)]], 5),
    ]
}

pub fn examples() -> Vec<Example> {
    [plain(), common(), extreme(), touched()].into_iter().flatten().collect()
}

// ---- subdivisions whose every colour is asked about

/// Six cells; four triangles around a corner, and slanted cells at an end of the grid; slivers on both sides of a line
/// across the grid.
pub fn subdivisions() -> Vec<(&'static str, Vec<Piece>)> {
    let cells = (0..3).flat_map(|i| (0..2).map(move |j| square(2 * i, 2 * j, 2))).collect();
    let rim = square(-2, -2, 4);
    let around = (0..4).map(|i| vec![rim[i], rim[(i + 1) % 4], (0, 0)]).collect();
    let slant = |p: Point| (LEAST + p.0 + 2 * p.1, GREATEST - 12 + p.0 + 3 * p.1);
    let cell = |x: i128, y: i128| square(x, y, 1).into_iter().map(slant).collect();
    let slanted = vec![cell(0, 0), cell(1, 0), cell(0, 1), cell(1, 1)];
    let (from, to) = ((LEAST, LEAST), (GREATEST, GREATEST));
    let slivers = vec![vec![from, to, (LEAST, LEAST + 1)], vec![to, from, (GREATEST, GREATEST - 1)]];
    vec![("six cells", cells), ("four triangles", around), ("slanted cells", slanted), ("slivers", slivers)]
}
