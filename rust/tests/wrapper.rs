//! The wrapper on document 01's bench examples: each question once answered and once refused, and what a refusal says.

use berzulka::{area2, check, corner, difference, faces, gauge, head, intersection, point, read, union};
use berzulka::{Card, FaceCount, Head, Place, Reading, Reason, Refusal, LIMIT, WIDTH};

/// Document 01's square with corners (0,0) and (4,4), and its file.
const SQUARE: [i16; 40] = [
    0, 0, 4, 0, 1, 0, 0, 0, 4, 0, 0, 4, 0, 0, 0, 0, 4, 4, 4, 0, //
    4, 0, 0, 0, 1, 4, 0, 4, 4, 1, 4, 4, 0, 4, 0, 4, 4, 4, 0, 1,
];
const FILE: &[u8] = include_bytes!("../../examples/square.chart");

/// Its neighbour, with corners (4,0) and (8,4).
const NEIGHBOUR: [i16; 40] = [
    4, 0, 8, 0, 1, 4, 0, 4, 4, 0, 4, 4, 4, 0, 0, 4, 4, 8, 4, 0, //
    8, 0, 4, 0, 1, 8, 0, 8, 4, 1, 8, 4, 4, 4, 0, 8, 4, 8, 0, 1,
];

/// The square plus hole (0,0), (2,1), (1,2).
const PIERCED: [i16; 70] = [
    0, 0, 4, 0, 1, 0, 0, 2, 1, 0, 0, 0, 1, 2, 1, 0, 0, 0, 4, 0, 0, 4, 0, 0, 0, 0, 4, 4, 4, 0, 1, 2, 0, 0, 1, //
    1, 2, 2, 1, 1, 2, 1, 1, 2, 1, 2, 1, 0, 0, 0, 4, 0, 0, 0, 1, 4, 0, 4, 4, 1, 4, 4, 0, 4, 0, 4, 4, 4, 0, 1,
];

/// The square with other numbers at some places.
fn changed(places: &[usize], number: i16) -> [i16; 40] {
    let mut numbers = SQUARE;
    places.iter().for_each(|&at| numbers[at] = number);
    numbers
}

/// The records of a chart, so far across and up from where they were.
fn moved(chart: &[i16], x: i16, y: i16) -> Vec<i16> {
    chart.chunks(WIDTH).flat_map(|r| [r[0] + x, r[1] + y, r[2] + x, r[3] + y, r[4]]).collect()
}

/// The number and the index of a refusal.
fn refused<T: std::fmt::Debug>(answer: Result<T, Refusal>) -> (u16, usize) {
    let refusal = answer.expect_err("this is refused");
    (refusal.number(), refusal.index())
}

// ---- each question

#[test]
fn charts_are_checked() {
    assert_eq!(check(&SQUARE), Ok(()));
    assert_eq!(check(&[]), Ok(()));
    assert_eq!(refused(check(&changed(&[39], 0))), (6, 5));
    assert_eq!(refused(check(&changed(&[4, 24], 0))), (9, 0));
    assert_eq!(refused(check(&[0; 6])), (1, 0));
    assert_eq!(refused(check(&[0; (LIMIT + 1) * WIDTH])), (2, 0));
}

#[test]
fn points_have_a_place() {
    assert_eq!(point(&SQUARE, 2, 2), Ok(Place::Inside));
    assert_eq!(point(&SQUARE, 4, 2), Ok(Place::Edge));
    assert_eq!(point(&SQUARE, 5, 2), Ok(Place::Outside));
    assert_eq!(refused(point(&changed(&[39], 0), 2, 2)), (6, 5));
}

#[test]
fn a_run_is_that_very_part() {
    let run = corner(&SQUARE, 4, 4);
    assert_eq!(run.as_ptr_range(), SQUARE[30..].as_ptr_range());
    assert!(corner(&SQUARE, 2, 2).is_empty());
    assert!(corner(&changed(&[39], 0), 4, 4).is_empty());
}

#[test]
fn a_head_is_that_very_part() {
    let (first, later) = SQUARE.split_at(WIDTH);
    assert_eq!(head(later, first), Head::Second(first));
    assert_eq!(head(later, first).record().as_ptr(), first.as_ptr());
    assert_eq!(head(first, &SQUARE), Head::First(first));
    assert_eq!(head(&first[1..], &SQUARE).record().as_ptr(), SQUARE.as_ptr());
    assert_eq!(head(&first[1..], &[]), Head::Neither);
    assert!(Head::Neither.record().is_empty());
}

#[test]
fn areas_are_doubled() {
    assert_eq!(area2(&SQUARE), Ok(32));
    assert_eq!(refused(area2(&changed(&[39], 0))), (6, 5));
}

#[test]
fn faces_and_holes_are_listed() {
    let (mut labels, mut cycles) = ([7; 16], [7; 6]);
    assert_eq!(faces(&PIERCED, &mut labels, &mut cycles), Ok(FaceCount { cycles: 2, faces: 1 }));
    assert_eq!(labels, [0, 1, 1, 0, 0, 0, 1, 1, 1, 1, 0, 0, 0, 0, 7, 7]);
    assert_eq!(cycles, [0, 0, 1, 0, 7, 7]);
    // just enough room, and no room where none is needed
    assert_eq!(faces(&SQUARE, &mut labels[..8], &mut cycles[..2]), Ok(FaceCount { cycles: 1, faces: 1 }));
    assert_eq!(labels[..8], [0; 8]);
    assert_eq!(faces(&[], &mut [], &mut []), Ok(FaceCount { cycles: 0, faces: 0 }));
}

#[test]
fn a_refused_list_leaves_both_arrays() {
    let (mut labels, mut cycles) = ([7; 16], [7; 6]);
    assert_eq!(refused(faces(&changed(&[39], 0), &mut [], &mut cycles)), (6, 5));
    assert_eq!(refused(faces(&PIERCED[1..], &mut labels, &mut cycles)), (1, 0));
    assert_eq!(refused(faces(&PIERCED, &mut labels[..13], &mut cycles)), (10, 0));
    assert_eq!(refused(faces(&PIERCED, &mut labels, &mut cycles[..3])), (10, 0));
    assert_eq!(refused(faces(&PIERCED, &mut labels[..13], &mut cycles[..3])), (10, 0));
    assert_eq!(refused(faces(&PIERCED, &mut [], &mut [])), (10, 0));
    assert_eq!((labels, cycles), ([7; 16], [7; 6]));
}

#[test]
fn charts_are_joined() {
    let mut out = [7; 62];
    assert_eq!(union(&SQUARE, &NEIGHBOUR, &mut out), Ok(12));
    assert_eq!(area2(&out[..60]), Ok(64));
    assert_eq!(out[60..], [7, 7]);
    assert_eq!(intersection(&SQUARE, &NEIGHBOUR, &mut []), Ok(0));
    assert_eq!(difference(&SQUARE, &NEIGHBOUR, &mut out), Ok(8));
    assert_eq!(out[..40], SQUARE);
    assert_eq!(difference(&NEIGHBOUR, &SQUARE, &mut out), Ok(8));
    assert_eq!(out[..40], NEIGHBOUR);
    // one array as both charts
    assert_eq!(union(&SQUARE, &SQUARE, &mut out), Ok(8));
    assert_eq!(out[..40], SQUARE);
    assert_eq!(difference(&SQUARE, &SQUARE, &mut []), Ok(0));
}

#[test]
fn a_refused_joining_leaves_the_array() {
    let named = |answer: Result<usize, Refusal>| {
        let refusal = answer.expect_err("this is refused");
        (refusal.number(), refusal.index(), refusal.chart())
    };
    // as many squares as a chart may have
    let row = |y| (0..64).flat_map(|i| moved(&SQUARE, 5 * i, y)).collect::<Vec<i16>>();
    let mut out = [7; 62];
    assert_eq!(named(union(&changed(&[39], 0), &[0; 6], &mut out)), (6, 5, 1));
    assert_eq!(named(intersection(&SQUARE, &changed(&[39], 0), &mut out)), (6, 5, 2));
    assert_eq!(named(difference(&SQUARE, &moved(&NEIGHBOUR, 0, 2), &mut out)), (11, 3, 0));
    assert_eq!(named(union(&row(0), &row(5), &mut out)), (12, 0, 0));
    assert_eq!(named(union(&SQUARE, &NEIGHBOUR, &mut out[..59])), (13, 0, 0));
    assert_eq!(out, [7; 62]);
}

#[test]
fn samples_are_read() {
    let bridge = |gain, zero| Card::Bridge { gain, zero };
    let spring = Card::Spring { rate: 1.0, pin: 1000.0 };
    assert_eq!(gauge(bridge(2.0, 0.0), 16383), Ok(Reading { pressure: 32766.0, row: 32766 }));
    assert_eq!(gauge(bridge(0.5, 0.0), -1), Ok(Reading { pressure: -0.5, row: 0 }));
    assert_eq!(gauge(spring, 999), Ok(Reading { pressure: 999.0, row: 999 }));
    assert_eq!(refused(gauge(bridge(3.0, 0.0), 0)), (21, 0));
    assert_eq!(refused(gauge(spring, 1000)), (22, 0));
    assert_eq!(refused(gauge(bridge(2.0, 0.0), 16384)), (23, 0));
    assert_eq!(refused(gauge(bridge(1.0, 1.0), -32768)), (23, 0));
}

#[test]
fn files_are_read() {
    let mut out = [7; 42];
    assert_eq!(read(FILE, &mut out), Ok(8));
    assert_eq!(out[..40], SQUARE);
    assert_eq!(out[40..], [7, 7]);
    assert_eq!(read(&[0], &mut []), Ok(0));
}

#[test]
fn a_refused_file_leaves_the_array() {
    let mut out = [7; 42];
    assert_eq!(refused(read(&FILE[..40], &mut out)), (31, 40));
    assert_eq!(refused(read(&[FILE, &[0]].concat(), &mut out)), (34, 41));
    assert_eq!(refused(read(FILE, &mut out[..39])), (36, 0));
    assert_eq!(refused(read(&[], &mut [])), (31, 0));
    assert_eq!(out, [7; 42]);
}

// ---- what a refusal says

#[test]
fn a_refusal_says_what_is_wrong() {
    let refusal = check(&changed(&[39], 0)).unwrap_err();
    assert_eq!(refusal.reason(), Reason::NoOtherHalf);
    assert_eq!(refusal.to_string(), "refused 6 at 5: the other half, ends swapped and same mark, is missing");
    let refusal = union(&[], &changed(&[4, 24], 0), &mut []).unwrap_err();
    assert_eq!(refusal.reason(), Reason::WrongMark);
    assert_eq!(refusal.to_string(), "refused 9 at 0 of chart 2: the mark is not the counted one");
    let refusal = faces(&SQUARE, &mut [0; 8], &mut [0; 1]).unwrap_err();
    assert_eq!(refusal.reason(), Reason::NoRoomForFaces);
    assert_eq!(refusal.to_string(), "refused 10 at 0: the array for labels or the one for cycles is too short");
    let refusal = read(&FILE[..40], &mut [0; 40]).unwrap_err();
    assert_eq!(refusal.reason(), Reason::CutShort);
    assert_eq!(refusal.to_string(), "refused 31 at 40: the bytes end inside a number or before it");
}

#[test]
fn a_refusal_is_an_error() {
    fn area_of(file: &[u8]) -> Result<i64, Box<dyn std::error::Error>> {
        let mut numbers = [0; LIMIT * WIDTH];
        let records = read(file, &mut numbers)?;
        Ok(area2(&numbers[..records * WIDTH])?)
    }
    assert_eq!(area_of(FILE).unwrap(), 32);
    let error = area_of(&FILE[1..]).unwrap_err();
    assert_eq!(error.downcast_ref::<Refusal>().map(Refusal::number), Some(34));
}
