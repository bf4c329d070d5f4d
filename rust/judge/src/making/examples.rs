//! Charts that the papers themselves speak of, with the answers that they give: document 01's bench examples, and the
//! examples by which its unclear points are read.

use super::grid::{GREATEST, LEAST};
use super::sides::walked;
use crate::rules::chart::Place;
use crate::rules::records::Point;

#[derive(Clone)]
pub struct Example {
    pub name: &'static str,
    pub numbers: Vec<i16>,
    pub verdict: (u8, usize),
    pub places: Vec<(Point, Place)>,
    pub area: Option<i128>,
}

const AROUND: &[Point] = &[(0, 0), (4, 0), (4, 4), (0, 4)];

fn square() -> Vec<i16> {
    walked(&[AROUND])
}

fn accepted(name: &'static str, numbers: Vec<i16>, places: &[(Point, Place)], area: i128) -> Example {
    Example { name, numbers, verdict: (0, 0), places: places.to_vec(), area: Some(area) }
}

fn refused(name: &'static str, numbers: Vec<i16>, verdict: (u8, usize)) -> Example {
    Example { name, numbers, verdict, places: vec![], area: None }
}

/// The square with other numbers at some places.
fn changed(places: &[(usize, i16)]) -> Vec<i16> {
    let mut numbers = square();
    places.iter().for_each(|&(at, v)| numbers[at] = v);
    numbers
}

/// Document 01's "Bench examples".
fn bench() -> Vec<Example> {
    use Place::{Edge, Inside, Outside};
    let hole: &[Point] = &[(0, 0), (1, 2), (2, 1)];
    let triangle: &[Point] = &[(LEAST, LEAST), (GREATEST, LEAST), (LEAST, GREATEST)];
    let halves = [((-1, -1), Inside), ((0, -1), Edge), ((0, 0), Outside)];
    vec![
        accepted("the square", square(), &[((2, 2), Inside), ((4, 2), Edge), ((5, 2), Outside)], 32),
        refused("the square, last mark 0", changed(&[(39, 0)]), (6, 5)),
        refused("the square, bottom side marked 0", changed(&[(4, 0), (24, 0)]), (9, 0)),
        accepted("the square and a hole", walked(&[AROUND, hole]), &[((1, 1), Outside), ((3, 3), Inside)], 29),
        accepted("the large triangle", walked(&[triangle]), &halves, 4_294_836_225),
        refused("513 records", vec![0; 2565], (2, 0)),
        refused("six numbers", vec![0; 6], (1, 0)),
    ]
}

/// Where document 01 is unclear, and the empty chart.
fn readings() -> Vec<Example> {
    use Place::{Edge, Inside, Outside};
    let whole: &[Point] = &[(LEAST, LEAST), (GREATEST, LEAST), (GREATEST, GREATEST), (LEAST, GREATEST)];
    let (around, face) = (&[(0, 0), (30, 0), (30, 30), (0, 30)][..], &[(8, 4), (12, 5), (9, 7)][..]);
    let (hole, next) = (&[(1, 1), (10, 10), (20, 5)][..], &[(10, 10), (20, 15), (20, 9)][..]);
    let places = [((9, 5), Inside), ((7, 5), Outside), ((19, 10), Outside), ((25, 25), Inside)];
    let crossed = [[0, 0, 1, 1, 1], [0, 1, 1, 0, 0], [1, 0, 0, 1, 0], [1, 1, 0, 0, 1]].concat();
    vec![
        accepted("the empty chart", vec![], &[((0, 0), Outside)], 0),
        accepted("the whole grid", walked(&[whole]), &[((0, 0), Inside), ((LEAST, 5), Edge)], 8_589_672_450),
        refused("a bad mark and, later, equal ends", changed(&[(4, 2), (27, 4), (28, 0)]), (3, 5)),
        refused("a record again with another mark", [&square()[..5], &[0, 0, 4, 0, 0]].concat(), (5, 1)),
        refused("a crossing off the grid", crossed, (7, 0)),
        accepted("holes that touch", walked(&[around, hole, next, face]), &places, 1800 - 135 - 60 + 11),
    ]
}

pub fn all() -> Vec<Example> {
    [bench(), readings()].concat()
}
