//! Regions made of pieces, from which good charts come. A piece is convex and given by its corners, counter-clockwise;
//! pieces that lie side by side share whole sides. So the sides of a region are those that only one piece has, and
//! where its inside is, how large it is and on which side of a segment it lies is known without any of document 01's
//! counts.

use super::grid::{beside, is_on_grid, Way, GREATEST, LEAST};
use crate::dice::Dice;
use crate::rules::records::{determinant, direction, Point};
use std::collections::{BTreeSet, HashSet};

pub type Piece = Vec<Point>;

// ---- what is known of a region

pub fn twice_area(pieces: &[Piece]) -> i128 {
    pieces.iter().flat_map(ways).map(|(from, to)| determinant(from, to)).sum()
}

/// Whether a piece has the point, its sides included.
pub fn has(pieces: &[Piece], p: Point) -> bool {
    let is_left = |(from, to): Way| determinant(direction(from, to), direction(from, p)) >= 0;
    pieces.iter().any(|piece| ways(piece).all(is_left))
}

/// The ways along the sides of a piece, the inside on the left.
pub fn ways(piece: &Piece) -> impl Iterator<Item = Way> + '_ {
    (0..piece.len()).map(|i| (piece[i], piece[(i + 1) % piece.len()]))
}

/// The sides that only one piece has.
pub fn sides(pieces: &[Piece]) -> Vec<Way> {
    let all: Vec<Way> = pieces.iter().flat_map(ways).collect();
    let known: HashSet<Way> = all.iter().copied().collect();
    all.into_iter().filter(|&(from, to)| !known.contains(&(to, from))).collect()
}

// ---- cells of a grid that is drawn at random

/// n coordinates, ascending: from one end of the grid to the other, or close together, at an end of the grid too.
fn ladder(dice: &mut Dice, n: usize) -> Vec<i128> {
    if dice.roll(3) == 0 {
        let mut all = BTreeSet::from([LEAST, GREATEST]);
        while all.len() < n {
            all.insert(LEAST + dice.roll(65536) as i128);
        }
        return all.into_iter().collect();
    }
    let step = *dice.pick(&[1, 1, 2, 6, 60]);
    let start = match dice.roll(4) {
        0 => LEAST,
        1 => GREATEST - (n as i128 - 1) * step,
        _ => dice.roll(20) as i128 - 10,
    };
    (0..n as i128).map(|i| start + i * step).collect()
}

/// All cells, at most so many, by their columns, and how many columns and rows there are.
pub fn board(dice: &mut Dice, most: u64) -> (usize, usize, Vec<Piece>) {
    let w = 1 + dice.roll(most.min(16)) as usize;
    let h = 1 + dice.roll((most / w as u64).clamp(1, 16)) as usize;
    let (xs, ys) = (ladder(dice, w + 1), ladder(dice, h + 1));
    let cell = |i: usize, j: usize| {
        let (a, b, c, d) = (xs[i], xs[i + 1], ys[j], ys[j + 1]);
        vec![(a, c), (b, c), (b, d), (a, d)]
    };
    (w, h, (0..w * h).map(|n| cell(n / h, n % h)).collect())
}

/// Coloured cells, at most so many: a chequered board, rings within rings, or by chance.
fn cells(dice: &mut Dice, most: u64) -> Vec<Piece> {
    let (w, h, all) = board(dice, most);
    let kind = dice.roll(5);
    let mut is_inside = |n: usize| {
        let (i, j) = (n / h, n % h);
        let from_rim = i.min(j).min(w - 1 - i).min(h - 1 - j);
        match kind {
            0 => (i + j) % 2 == 0,
            1 => from_rim % 2 == 0,
            2 => dice.roll(4) > 0,
            3 => dice.roll(4) == 0,
            _ => dice.roll(2) == 0,
        }
    };
    all.into_iter().enumerate().filter(|(n, _)| is_inside(*n)).map(|(_, cell)| cell).collect()
}

// ---- triangles that fill what random points span

/// Points in a small square or a larger one, or over the grid and its four corners.
pub fn scattered(dice: &mut Dice, n: u64) -> BTreeSet<Point> {
    let side = *dice.pick(&[3, 6, 40, 65536]);
    let corner = if side == 65536 { LEAST } else { dice.roll(9) as i128 - 5 };
    let mut all: BTreeSet<Point> = (0..n)
        .map(|_| (corner + dice.roll(side) as i128, corner + dice.roll(side) as i128))
        .collect();
    if side == 65536 && dice.roll(2) == 0 {
        all.extend([(LEAST, LEAST), (LEAST, GREATEST), (GREATEST, LEAST), (GREATEST, GREATEST)]);
    }
    all
}

/// Positive where the way from a to b turns left onto the way from a to c.
pub fn turn(a: Point, b: Point, c: Point) -> i128 {
    determinant(direction(a, b), direction(a, c))
}

/// Triangles that fill what the points span. Points come in their order, so each is outside of what those before it
/// span, and is joined to every side of that which it sees.
pub fn triangulated(points: &[Point]) -> Vec<Piece> {
    let Some(first) = (2..points.len()).find(|&i| turn(points[0], points[1], points[i]) != 0) else { return vec![] };
    // the points before the first that makes a turn are in line; the rim goes counter-clockwise
    let mut rim: Vec<Point> = points[..first].to_vec();
    if turn(points[0], points[1], points[first]) < 0 {
        rim.reverse();
    }
    let mut all: Vec<Piece> = rim.windows(2).map(|side| vec![side[0], side[1], points[first]]).collect();
    rim.push(points[first]);
    for &p in &points[first + 1..] {
        let n = rim.len();
        let sees = |i: usize| turn(rim[i % n], rim[(i + 1) % n], p) < 0;
        let start = (0..n).find(|&i| sees(i) && !sees(i + n - 1)).expect("a point outside sees a side");
        let end = (start..start + n).find(|&i| !sees(i)).expect("a point outside does not see all sides");
        all.extend((start..end).map(|i| vec![rim[(i + 1) % n], rim[i % n], p]));
        rim = (end..=start + n).map(|i| rim[i % n]).chain([p]).collect();
    }
    all
}

/// Coloured triangles over at most so many points: by chance, or those on one side of a line and a few more.
fn triangles(dice: &mut Dice, most: u64) -> Vec<Piece> {
    let n = 3 + dice.roll(most);
    let points: Vec<Point> = scattered(dice, n).into_iter().collect();
    let (from, to) = (*dice.pick(&points), *dice.pick(&points));
    let odds = 2 + dice.roll(4);
    let by_line = dice.roll(2) == 0;
    let mut is_inside = |piece: &Piece| {
        let is_drawn = dice.roll(odds) == 0;
        if by_line { is_drawn != (turn(from, to, piece[0]) >= 0 && turn(from, to, piece[1]) >= 0) } else { is_drawn }
    };
    triangulated(&points).into_iter().filter(|piece| is_inside(piece)).collect()
}

/// Triangles as thin as the grid allows, on both sides of a segment.
pub fn both_slivers(dice: &mut Dice) -> Vec<Piece> {
    let (a, b) = ((dice.number() as i128, dice.number() as i128), (dice.number() as i128, dice.number() as i128));
    let Some((left, right)) = beside((a, b)) else { return vec![] };
    vec![vec![a, b, left], vec![b, a, right]]
}

/// One of them, or both.
fn slivers(dice: &mut Dice) -> Vec<Piece> {
    let mut all = both_slivers(dice);
    if !all.is_empty() {
        all.truncate(1 + dice.roll(2) as usize);
    }
    all
}

// ---- any region

/// Mirrored, turned, sheared or moved; as it is where it would leave the grid.
pub fn moved(dice: &mut Dice, pieces: Vec<Piece>) -> Vec<Piece> {
    let (a, b) = (dice.roll(7) as i128 - 3, dice.roll(7) as i128 - 3);
    let (c, d) = (dice.roll(20000) as i128 - 10000, dice.roll(65536) as i128 + LEAST);
    let kind = dice.roll(8);
    let change = |(x, y): Point| match kind {
        0 => (-1 - x, y),
        1 => (x, -1 - y),
        2 => (y, x),
        3 => (-1 - y, x),
        4 => (x + a * y, y + b * x),
        5 => (a * x + b * y + c, (a + 1) * x + (b - 1) * y - c),
        6 => (x + c, y + d),
        _ => (x, y),
    };
    let mut all: Vec<Piece> = pieces.iter().map(|piece| piece.iter().map(|&p| change(p)).collect()).collect();
    let grown = turn(change((0, 0)), change((1, 0)), change((0, 1)));
    if grown == 0 || !all.iter().flatten().all(|&p| is_on_grid(p)) {
        return pieces;
    }
    if grown < 0 {
        all.iter_mut().for_each(|piece| piece.reverse());
    }
    all
}

/// A region of at most so many cells, or so many points of triangles.
pub fn region(dice: &mut Dice, most: u64) -> Vec<Piece> {
    let pieces = match dice.roll(9) {
        0 => slivers(dice),
        1..=4 => cells(dice, most),
        _ => triangles(dice, most),
    };
    moved(dice, pieces)
}
