//! Outlines within outlines, of which no two touch: faces, holes in them, faces in these, and so on. An outline belongs
//! to the one around it.

use super::grid::{Way, GREATEST, LEAST};
use super::owners::{Owner, Owners};
use super::sides::{array, cut, side_of, Side};
use crate::dice::Dice;
use crate::rules::records::Point;
use crate::rules::segments::Segment;

/// From one corner to the opposite one.
type Field = (Point, Point);

struct Outline {
    ways: Vec<Way>,
    owner: Owner,
}

/// A box, a diamond or a triangle that a box has room for, counter-clockwise; and a box within it, off its sides.
fn shape(dice: &mut Dice, ((left, low), (right, high)): Field) -> (Vec<Point>, Field) {
    let (w, h) = (right - left, high - low);
    let (x, y) = (left + w / 2, low + h / 2);
    match dice.roll(3) {
        0 => {
            let inner = ((left + w / 4 + 1, low + h / 4 + 1), (right - w / 4 - 1, high - h / 4 - 1));
            (vec![(left, y), (x, low), (right, y), (x, high)], inner)
        }
        1 => {
            let inner = ((left + 1, low + 1), (left + w / 3, low + h / 3));
            (vec![(left, low), (right, low), (left, high)], inner)
        }
        _ => {
            let inner = ((left + 1, low + 1), (right - 1, high - 1));
            (vec![(left, low), (right, low), (right, high), (left, high)], inner)
        }
    }
}

/// Outlines in parts of a box, and in these again; holes where they are within a face.
fn fill(dice: &mut Dice, all: &mut Vec<Outline>, ((left, low), (right, high)): Field, face: Option<usize>) {
    const LEAST_SIDE: i128 = 6;
    let (columns, rows) = (1 + dice.roll(3) as i128, 1 + dice.roll(3) as i128);
    let (w, h) = ((right - left) / columns, (high - low) / rows);
    if w < LEAST_SIDE || h < LEAST_SIDE {
        return;
    }
    for n in 0..columns * rows {
        let at = (left + n % columns * w, low + n / columns * h);
        if all.len() >= 60 || dice.roll(4) == 0 {
            continue;
        }
        let (mut walk, inner) = shape(dice, ((at.0 + 1, at.1 + 1), (at.0 + w - 1, at.1 + h - 1)));
        let name = all.len();
        if face.is_some() {
            walk.reverse();
        }
        let ways: Vec<Way> = (0..walk.len()).map(|i| (walk[i], walk[(i + 1) % walk.len()])).collect();
        let upto = ways.len() + dice.roll(6).saturating_sub(4) as usize;
        let owner = Owner { cycle: (name, 0), is_hole: face.is_some(), face: face.unwrap_or(name) };
        all.push(Outline { ways: cut(dice, ways, upto), owner });
        fill(dice, all, inner, if face.is_some() { None } else { Some(name) });
    }
}

/// A chart, and what each of its sides belongs to; with at most 60 outlines of at most 5 sides it may have too many.
pub fn nested(dice: &mut Dice) -> (Vec<i16>, Owners) {
    let side = *dice.pick(&[20, 60, 200, 65535]);
    let corner = if side == 65535 { (LEAST, LEAST) } else { (dice.roll(99) as i128 - 50, GREATEST - 200) };
    let mut all = vec![];
    fill(dice, &mut all, (corner, (corner.0 + side, corner.1 + side)), None);
    let sides: Vec<Side> = all.iter().flat_map(|outline| outline.ways.iter().map(|&way| side_of(way))).collect();
    let owned = |outline: &Outline| {
        let owner = outline.owner;
        outline.ways.iter().map(move |&(p, q)| (Segment::between(p, q), owner)).collect::<Vec<_>>()
    };
    (array(&sides), all.iter().flat_map(owned).collect())
}
