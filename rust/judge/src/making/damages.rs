//! Every way to damage a chart at one of its records or corners, one at a time. The array may have been damaged before.

use super::grid::{along, is_on_grid, steps};
use super::sides::ordered;
use super::small::corners;
use crate::rules::records::{record_of, Point};
use crate::rules::segments::Segment;

type Record = [i16; 5];

/// A damaged array; and, where how it was damaged tells it, what becomes of a good chart.
pub struct Damaged {
    pub how: &'static str,
    pub numbers: Vec<i16>,
    /// the refusal's number, and its index where that is told too
    pub known: Option<(u8, Option<usize>)>,
}

/// The array with a damage whose refusal is known.
fn refused(how: &'static str, records: Vec<Record>, number: u8, index: usize) -> Damaged {
    Damaged { how, numbers: records.concat(), known: Some((number, Some(index))) }
}

fn records_of(numbers: &[i16]) -> Vec<Record> {
    numbers.chunks_exact(5).map(|record| record.try_into().expect("five numbers")).collect()
}

/// The first record with the ends swapped, whatever its mark.
fn other_half(records: &[Record], i: usize) -> Option<usize> {
    let [x, y, u, v, _] = records[i];
    records.iter().position(|record| record[..4] == [u, v, x, y])
}

fn turn(mark: &mut i16) {
    *mark = 1 - (*mark).clamp(0, 1);
}

// ---- at a record

/// The record changed, by itself.
fn changed(records: &[Record], i: usize) -> Vec<Damaged> {
    let with = |change: fn(&mut Record)| {
        let mut all = records.to_vec();
        change(&mut all[i]);
        all
    };
    let one_more = |at: usize| {
        let mut all = records.to_vec();
        all[i][at] = all[i][at].wrapping_add(1);
        Damaged { how: "a number one higher", numbers: all.concat(), known: None }
    };
    let first_half = i.min(other_half(records, i).unwrap_or(i));
    let mut all = vec![
        refused("the other end equal", with(|r| r.copy_within(0..2, 2)), 3, i),
        refused("the dominating end equal", with(|r| r.copy_within(2..4, 0)), 3, i),
        refused("mark 2", with(|r| r[4] = 2), 4, i),
        refused("mark -1", with(|r| r[4] = -1), 4, i),
        refused("mark turned", with(|r| turn(&mut r[4])), 6, first_half),
    ];
    all.extend((0..4).map(one_more));
    all
}

/// The record doubled, or swapped with the next.
fn misplaced(records: &[Record], i: usize) -> Vec<Damaged> {
    let doubled = [&records[..=i], &records[i..]].concat();
    let mut swapped = records.to_vec();
    let is_last = i + 1 == records.len();
    if !is_last {
        swapped.swap(i, i + 1);
    }
    let mut all = vec![refused("doubled", doubled, 5, i + 1), refused("swapped with the next", swapped, 5, i + 1)];
    all.truncate(if is_last { 1 } else { 2 });
    all
}

/// The record dropped, which at its other half's place is the other half dropped; the mark turned on both halves, and
/// both halves dropped, once for each segment.
fn halves(records: &[Record], i: usize) -> Vec<Damaged> {
    let Some(half) = other_half(records, i) else { return vec![] };
    let without = |gone: &[usize]| -> Vec<Record> {
        (0..records.len()).filter(|k| !gone.contains(k)).map(|k| records[k]).collect()
    };
    let mut all = vec![refused("dropped", without(&[i]), 6, half - (half > i) as usize)];
    if i < half {
        let mut marked = records.to_vec();
        [i, half].iter().for_each(|&k| turn(&mut marked[k][4]));
        let left = without(&[i, half]);
        let is_end = |record: &Record| record[..2] == records[i][..2] || record[..2] == records[i][2..4];
        let first_odd = left.iter().position(is_end).unwrap_or(0);
        all.push(refused("mark turned on both halves", marked, 9, i));
        all.push(refused("both halves dropped", left, 8, first_odd));
    }
    all
}

// ---- at a corner

/// The corner moved, with all that ends there, onto each side that does not end there and has a point between its ends.
fn moved(records: &[Record], p: Point) -> Vec<Damaged> {
    let onto = |side: &Segment| -> Option<Damaged> {
        let way = (side.left, side.right);
        if side.ends_at(p) || steps(way) < 2 {
            return None;
        }
        let (to, from) = (along(way, 1), [p.0 as i16, p.1 as i16]);
        let change = |end: &[i16]| if end == from { [to.0 as i16, to.1 as i16] } else { [end[0], end[1]] };
        let change = |r: &Record| [&change(&r[..2])[..], &change(&r[2..4]), &r[4..]].concat();
        let numbers = ordered(&records.iter().flat_map(change).collect::<Vec<i16>>());
        Some(Damaged { how: "a corner on another side", numbers, known: Some((7, None)) })
    };
    let mut sides: Vec<Segment> = records.iter().map(|record| Segment::of(record_of(record))).collect();
    sides.sort();
    sides.dedup();
    sides.iter().filter_map(onto).collect()
}

/// A segment more from the corner, to two others and to the point next to it.
fn added(records: &[Record], p: Point) -> Vec<Damaged> {
    let has = |q: Point| records.iter().any(|r| Segment::of(record_of(r)) == Segment::between(p, q));
    let others = corners(&records.concat()).into_iter().filter(|&q| q > p && !has(q)).take(2);
    let next = [(p.0 + 1, p.1 + 2), (p.0 - 1, p.1 - 2)].into_iter().find(|&q| is_on_grid(q));
    let to = |q: Point| {
        let [x, y, u, v] = [p.0, p.1, q.0, q.1].map(|n| n as i16);
        let numbers = ordered(&[&records.concat()[..], &[x, y, u, v, 0, u, v, x, y, 0]].concat());
        Damaged { how: "a segment added", numbers, known: None }
    };
    others.chain(next).map(to).collect()
}

// ---- all

/// The array cut by one to four numbers; every mark turned.
fn whole(numbers: &[i16], records: &[Record]) -> Vec<Damaged> {
    if records.is_empty() {
        return vec![];
    }
    let cut = |less: usize| Damaged {
        how: "cut short",
        numbers: numbers[..numbers.len() - less].to_vec(),
        known: Some((1, Some(0))),
    };
    let mut inside_out = records.to_vec();
    inside_out.iter_mut().for_each(|record| turn(&mut record[4]));
    (1..5).map(cut).chain([refused("every mark turned", inside_out, 9, 0)]).collect()
}

/// One damage each, at every record and every corner.
pub fn damages(numbers: &[i16]) -> Vec<Damaged> {
    let records = records_of(numbers);
    let at_record = |i: usize| [changed(&records, i), misplaced(&records, i), halves(&records, i)];
    let at_corner = |p: Point| [moved(&records, p), added(&records, p)];
    let by_records = (0..records.len()).flat_map(at_record).flatten();
    let by_corners = corners(numbers).into_iter().flat_map(at_corner).flatten();
    by_records.chain(by_corners).chain(whole(numbers, &records)).collect()
}
