//! Two regions cut from one subdivision of the plane. Its pieces share whole sides, so no side of the one touches a
//! side of the other, and what is made of the two is made of the same pieces.

use super::grid::{along, steps, Way};
use super::regions::{board, both_slivers, moved, scattered, sides, triangulated, turn, ways, Piece};
use super::sides::{array, side_of, Side};
use crate::dice::Dice;
use crate::rules::joins::Op;
use crate::rules::records::Point;
use crate::rules::segments::Segment;
use std::collections::{BTreeMap, HashSet};

/// The pieces of the two regions.
pub struct Made {
    pub first: Vec<Piece>,
    pub second: Vec<Piece>,
    /// whether their charts have the pieces' own sides, none cut or joined since
    pub is_whole: bool,
}

impl Made {
    pub fn new(first: Vec<Piece>, second: Vec<Piece>) -> Self {
        Made { first, second, is_whole: true }
    }

    /// The two charts.
    pub fn charts(&self) -> (Vec<i16>, Vec<i16>) {
        let chart = |pieces| array(&sides(pieces).into_iter().map(side_of).collect::<Vec<Side>>());
        (chart(&self.first), chart(&self.second))
    }

    /// The pieces of what is made of the two.
    pub fn joined(&self, op: Op) -> Vec<Piece> {
        let [first, second] = [&self.first, &self.second].map(|pieces| pieces.iter().collect::<HashSet<&Piece>>());
        let is_in = |piece: &&&Piece| op.joins(first.contains(**piece), second.contains(**piece));
        first.union(&second).filter(is_in).map(|piece| piece.to_vec()).collect()
    }
}

// ---- subdivisions

/// Some sides cut in two at a point of the grid, in both pieces that share one.
pub fn jointed(dice: &mut Dice, pieces: Vec<Piece>) -> Vec<Piece> {
    let odds = 1 + dice.roll(5);
    let mut joints: BTreeMap<Segment, Option<Point>> = BTreeMap::new();
    let mut joint = |way: Way| {
        *joints.entry(Segment::between(way.0, way.1)).or_insert_with(|| {
            let is_cut = steps(way) > 1 && dice.roll(odds) == 0;
            is_cut.then(|| along(way, 1 + dice.roll(steps(way) as u64 - 1) as i128))
        })
    };
    pieces.iter().map(|piece| ways(piece).flat_map(|way| [Some(way.0), joint(way)]).flatten().collect()).collect()
}

/// All pieces: cells or points of triangles, at most so many, or slivers.
pub fn subdivision(dice: &mut Dice, most: u64) -> Vec<Piece> {
    let pieces = match dice.roll(9) {
        0 => both_slivers(dice),
        1..=4 => board(dice, most).2,
        _ => {
            let n = 3 + dice.roll(most);
            triangulated(&scattered(dice, n).into_iter().collect::<Vec<Point>>())
        }
    };
    let pieces = moved(dice, pieces);
    if dice.roll(3) == 0 { jointed(dice, pieces) } else { pieces }
}

// ---- colours

/// How often a piece goes to neither region, to the first, to the second, to both.
type Mixture = [u64; 4];

const MIXTURES: [Mixture; 14] = [
    [1, 1, 1, 1],
    [5, 1, 1, 1],
    [1, 1, 1, 5],
    // side by side, with gaps and without
    [2, 1, 1, 0],
    [0, 1, 1, 0],
    // a region and what fills its holes
    [0, 4, 1, 0],
    [0, 1, 4, 0],
    // the one within the other
    [1, 1, 0, 1],
    [1, 0, 1, 1],
    [0, 1, 0, 4],
    [0, 0, 1, 4],
    // the same twice; only one
    [1, 0, 0, 1],
    [1, 2, 0, 0],
    [1, 0, 2, 0],
];

/// Whether a piece goes to the first region, and to the second.
fn drawn_from(dice: &mut Dice, mixture: Mixture) -> (bool, bool) {
    let bag: Vec<usize> = (0..4).flat_map(|colour| vec![colour; mixture[colour] as usize]).collect();
    let colour = *dice.pick(&bag);
    (colour % 2 == 1, colour >= 2)
}

/// Colours pieces twice, by one mixture or by another on the other side of a line.
pub fn coloured(dice: &mut Dice, pieces: &[Piece]) -> Made {
    let mut made = Made::new(vec![], vec![]);
    if pieces.is_empty() {
        return made;
    }
    let mixtures = [*dice.pick(&MIXTURES), *dice.pick(&MIXTURES)];
    let (from, to) = (dice.pick(pieces)[0], dice.pick(pieces)[1]);
    let by_line = dice.roll(2) == 0;
    for piece in pieces {
        let is_left = by_line && turn(from, to, piece[0]) >= 0 && turn(from, to, piece[1]) >= 0;
        let (is_first, is_second) = drawn_from(dice, mixtures[is_left as usize]);
        made.first.extend(is_first.then(|| piece.clone()));
        made.second.extend(is_second.then(|| piece.clone()));
    }
    made
}

// ---- every colour

/// The pieces whose bits are set.
fn picked(pieces: &[Piece], bits: usize) -> Vec<Piece> {
    (0..pieces.len()).filter(|i| bits >> i & 1 == 1).map(|i| pieces[i].clone()).collect()
}

/// Every two regions of a subdivision.
pub fn all_coloured(pieces: &[Piece]) -> impl Iterator<Item = Made> + '_ {
    let colours = 1usize << pieces.len();
    (0..colours * colours).map(move |n| Made::new(picked(pieces, n / colours), picked(pieces, n % colours)))
}
