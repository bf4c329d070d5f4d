//! Drawn points to ask about with a drawn array.

use super::drafts::Draft;
use super::grid::{along, beside, onto_grid, steps};
use super::harms::any_point;
use crate::dice::Dice;
use crate::rules::records::{record_of, Point};
use crate::rules::segments::Segment;

fn middle(p: Point, q: Point) -> Point {
    ((p.0 + q.0).div_euclid(2), (p.1 + q.1).div_euclid(2))
}

/// Some points to ask about with an array; fewer where it is longer, since every question takes the check of it.
pub fn points_for(dice: &mut Dice, draft: &Draft) -> Vec<Point> {
    let most = match draft.numbers.len() {
        _ if draft.pieces.is_none() => 3,
        0..=150 => 12,
        _ => 4,
    };
    (0..dice.roll(most)).map(|_| point_for(dice, draft)).collect()
}

/// A point of a few kinds: a corner, on a side, beside either, above a corner, in a piece, at the grid's ends, any.
pub fn point_for(dice: &mut Dice, draft: &Draft) -> Point {
    let records: Vec<&[i16]> = draft.numbers.chunks_exact(5).collect();
    if records.is_empty() || dice.roll(10) == 0 {
        return any_point(dice);
    }
    if let Some(pieces) = draft.pieces.as_ref().filter(|all| !all.is_empty() && dice.roll(4) == 0) {
        let piece = dice.pick(pieces);
        return middle(middle(piece[0], piece[1]), piece[2]);
    }
    let s = Segment::of(record_of(*dice.pick(&records)));
    let way = (s.left, s.right);
    let on = along(way, dice.roll(steps(way).max(1) as u64) as i128);
    let reach = *dice.pick(&[2, 2, 40, 65536]);
    let far = 1 + dice.roll(reach) as i128;
    let mut step = || dice.roll(3) as i128 - 1;
    let next = (on.0 + step(), on.1 + step());
    onto_grid(match dice.roll(9) {
        0 => s.right,
        1 => on,
        2 => next,
        3 | 4 => (s.left.0, s.left.1 + far),
        5 => (s.left.0 + far, s.left.1),
        6 => beside(way).map_or(on, |both| both.0),
        7 => beside(way).map_or(on, |both| both.1),
        _ => middle(s.left, s.right),
    })
}
