//! Sides of a region as segments with marks, and the arrays that hold both halves of each in the order of records.

use super::grid::{along, steps, Way};
use crate::dice::Dice;
use crate::rules::chart::Chart;
use crate::rules::records::{determinant, direction, order, record_of, smaller, Point};
use crate::rules::segments::Segment;

/// A segment with its mark.
#[derive(Clone, Copy)]
pub struct Side {
    pub segment: Segment,
    pub mark: i16,
}

/// The side with the inside on the left of a way: above it, or left of a vertical one, if the way goes up in the order
/// of points.
pub fn side_of((from, to): Way) -> Side {
    Side { segment: Segment::between(from, to), mark: smaller(from, to) as i16 }
}

// ---- arrays

/// The records of an array in their order; what is left over at its end stays there.
pub fn ordered(numbers: &[i16]) -> Vec<i16> {
    let mut records: Vec<&[i16]> = numbers.chunks_exact(5).collect();
    records.sort_by(|r, e| order(record_of(r), record_of(e)));
    let left_over = numbers.chunks_exact(5).remainder();
    records.into_iter().chain([left_over]).flatten().copied().collect()
}

/// Both halves of each side.
pub fn array(sides: &[Side]) -> Vec<i16> {
    let half = |from: Point, to: Point, mark: i16| [from.0 as i16, from.1 as i16, to.0 as i16, to.1 as i16, mark];
    let halves = sides.iter().flat_map(|side| {
        let Segment { left, right } = side.segment;
        [half(left, right, side.mark), half(right, left, side.mark)]
    });
    ordered(&halves.flatten().collect::<Vec<i16>>())
}

/// A chart by its walks, the inside on the left of each.
pub fn walked(walks: &[&[Point]]) -> Vec<i16> {
    let ways = |walk: &&[Point]| -> Vec<Way> {
        (0..walk.len()).map(|i| (walk[i], walk[(i + 1) % walk.len()])).collect()
    };
    array(&walks.iter().flat_map(ways).map(side_of).collect::<Vec<Side>>())
}

/// The same with every mark counted as document 01 says; as they are where a side has equal ends.
pub fn marked_afresh(sides: &[Side]) -> Vec<Side> {
    if sides.iter().any(|side| side.segment.left == side.segment.right) {
        return sides.to_vec();
    }
    let chart = Chart::new(&array(sides));
    sides.iter().map(|side| Side { mark: chart.counted_mark(side.segment), ..*side }).collect()
}

// ---- the same region by other sides

/// Sides in line joined to one where nothing else ends between them, each by chance.
pub fn joined(dice: &mut Dice, mut ways: Vec<Way>) -> Vec<Way> {
    let joints: Vec<Point> = ways.iter().map(|way| way.0).collect();
    let odds = 1 + dice.roll(3);
    for p in joints {
        let there: Vec<usize> = (0..ways.len()).filter(|&i| ways[i].0 == p || ways[i].1 == p).collect();
        let [i, j] = there[..] else { continue };
        let (i, j) = if ways[i].1 == p { (i, j) } else { (j, i) };
        let (from, to) = (ways[i].0, ways[j].1);
        if determinant(direction(from, p), direction(p, to)) == 0 && dice.roll(odds) == 0 {
            ways[i] = (from, to);
            ways.swap_remove(j);
        }
    }
    ways
}

/// Sides cut in two at a point of the grid, until there are so many or none can be cut.
pub fn cut(dice: &mut Dice, mut ways: Vec<Way>, upto: usize) -> Vec<Way> {
    while ways.len() < upto {
        let long: Vec<usize> = (0..ways.len()).filter(|&i| steps(ways[i]) > 1).collect();
        if long.is_empty() {
            break;
        }
        let (from, to) = ways.swap_remove(*dice.pick(&long));
        let joint = along((from, to), 1 + dice.roll(steps((from, to)) as u64 - 1) as i128);
        ways.extend([(from, joint), (joint, to)]);
    }
    ways
}
