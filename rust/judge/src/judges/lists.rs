//! What speaks against the judge's own lists of faces and holes: what document 01 says of each number in one, second
//! opinions on the cycles, walks that start elsewhere, and how a chart was made.

use crate::asking::wanted::Listing;
use crate::making::owners::{listed, Owners};
use crate::rules::chart::Chart;
use crate::rules::faces::{Boundary, Faces, Way};
use crate::rules::records::{determinant, record_of, smaller, Point};
use crate::rules::segments::Segment;
use std::collections::BTreeMap;

/// What is said against a list or a refusal, where it is known what the sides belong to too.
pub fn objection(listing: &Listing, owners: Option<&Owners>) -> Option<String> {
    let subject = &listing.subject;
    let (Some(chart), Some(list)) = (&subject.chart, &listing.list) else {
        return owners.map(|_| format!("made as a good chart, and refused: {:?}", subject.verdict));
    };
    about_numbers(list)
        .or_else(|| about_halves(subject.numbers, list))
        .or_else(|| about_cycles(subject.numbers, chart, list))
        .or_else(|| about_starts(subject.numbers, chart, list))
        .or_else(|| about_made(subject.numbers, list, owners?))
}

/// Each number is one that there is; cycles come in the order of their first records, faces in that of their outer
/// cycles.
fn about_numbers(list: &Faces) -> Option<String> {
    let mut known = 0;
    for &label in &list.labels {
        if label > known || label as usize >= list.cycles.len() {
            return Some(format!("label {label} where {known} is the next"));
        }
        known += (label == known) as u16;
    }
    if known as usize != list.cycles.len() {
        return Some(format!("{known} cycles have records, and {} are listed", list.cycles.len()));
    }
    let outer: Vec<u16> = list.cycles.iter().filter(|cycle| cycle[0] == 0).map(|cycle| cycle[1]).collect();
    if outer.len() != list.faces || outer.iter().zip(0..).any(|(&face, place)| face != place) {
        return Some(format!("the outer cycles' faces, {outer:?}, of {}", list.faces));
    }
    let is_known = |cycle: &&[u16; 2]| cycle[0] <= 1 && (cycle[1] as usize) < list.faces;
    (!list.cycles.iter().all(|cycle| is_known(&cycle))).then(|| format!("the cycles {:?}", list.cycles))
}

/// Both halves of a segment belong to one cycle.
fn about_halves(numbers: &[i16], list: &Faces) -> Option<String> {
    let mut of_segment: BTreeMap<Segment, u16> = BTreeMap::new();
    numbers.chunks_exact(5).zip(&list.labels).find_map(|(record, &label)| {
        let segment = Segment::of(record_of(record));
        let differs = *of_segment.entry(segment).or_insert(label) != label;
        differs.then(|| format!("the halves of {segment:?}"))
    })
}

/// The ways of a cycle by its label, the inside on the left, from each point that it departs from.
fn ways_of(numbers: &[i16], list: &Faces, label: u16) -> Vec<Way> {
    let of_label = numbers.chunks_exact(5).zip(&list.labels).filter(|(_, &other)| other == label);
    let way = |(record, _): (&[i16], _)| {
        let r = record_of(record);
        // a record is walked from its dominating end where that end and the mark agree
        (smaller(r.dominating, r.other) == (record[4] == 1)).then_some((r.dominating, r.other))
    };
    of_label.filter_map(way).collect()
}

/// Each cycle is one closed way that departs once from each of its points, and its area says what it is. So does the
/// mark of its first record: right above the lower one of its two segments at its smallest point lies what it goes
/// round, which is inside where it is an outer one.
fn about_cycles(numbers: &[i16], chart: &Chart, list: &Faces) -> Option<String> {
    let mut area = 0;
    for (label, cycle) in (0..).zip(&list.cycles) {
        let ways = ways_of(numbers, list, label);
        let onward: BTreeMap<Point, Point> = ways.iter().copied().collect();
        if onward.len() != ways.len() {
            return Some(format!("cycle {label} departs twice from a point: {ways:?}"));
        }
        let start = ways[0].0;
        let mut at = start;
        for step in 1..=ways.len() {
            let Some(&next) = onward.get(&at) else { return Some(format!("cycle {label} is not closed: {ways:?}")) };
            at = next;
            if (at == start) != (step == ways.len()) {
                return Some(format!("cycle {label} is not one closed way: {ways:?}"));
            }
        }
        let twice: i128 = ways.iter().map(|&(p, q)| determinant(p, q)).sum();
        let first = list.labels.iter().position(|&other| other == label).expect("a cycle has records");
        if (twice > 0) != (cycle[0] == 0) || twice == 0 || (numbers[5 * first + 4] == 1) != (cycle[0] == 0) {
            return Some(format!("cycle {label}, of twice the area {twice}, is {cycle:?}"));
        }
        area += twice;
    }
    (area != chart.twice_area()).then(|| format!("the cycles' areas, {area} in all"))
}

/// "The start of the walk makes no difference": neither where a walk starts, nor which starts first.
fn about_starts(numbers: &[i16], chart: &Chart, list: &Faces) -> Option<String> {
    let backwards = Boundary::started(chart, |starts| starts.reverse());
    let half = chart.segments.len() / 2;
    let from_middle = Boundary::started(chart, |starts| starts.rotate_left(half));
    [backwards, from_middle].iter().map(|boundary| boundary.list(numbers)).find(|other| other != list).map(|other| {
        format!("walks that start elsewhere give {other:?} and not {list:?}")
    })
}

fn about_made(numbers: &[i16], list: &Faces, owners: &Owners) -> Option<String> {
    let made = listed(numbers, owners);
    (made != *list).then(|| format!("made as {made:?}, and it is {list:?}"))
}
