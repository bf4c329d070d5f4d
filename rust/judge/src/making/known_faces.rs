//! Charts whose faces and holes are known by number: document 01's example, those by which its unclear points are read,
//! and others.

use super::grid::{GREATEST, LEAST};
use super::large_faces;
use super::pairs::{chart, Walk};
use super::small::{square, turned};
use crate::rules::faces::Faces;

pub struct Known {
    pub name: &'static str,
    pub numbers: Vec<i16>,
    pub list: Faces,
}

/// A chart by its walks; the cycle of each record, a digit each; and of each cycle two, 0 or 1 for a hole and the face.
fn known(name: &'static str, walks: &[Walk], labels: &str, cycles: &str) -> Known {
    let digits = |text: &str| text.bytes().map(|digit| (digit - b'0') as u16).collect::<Vec<u16>>();
    let cycles: Vec<[u16; 2]> = digits(cycles).chunks(2).map(|cycle| [cycle[0], cycle[1]]).collect();
    let faces = cycles.iter().filter(|cycle| cycle[0] == 0).count();
    Known { name, numbers: chart(walks), list: Faces { labels: digits(labels), cycles, faces } }
}

/// Nothing, one face, faces that meet, faces within faces.
fn plain() -> Vec<Known> {
    let whole = square(LEAST, LEAST, 65535);
    let meeting = [vec![(0, 0), (4, -4), (8, 0)], vec![(0, 0), (4, 2), (8, 0), (4, 6)]];
    let thrice = [vec![(0, 0), (4, 1), (4, 2)], vec![(0, 0), (2, 4), (1, 4)], vec![(0, 0), (-4, 2), (-4, 1)]];
    vec![
        known("the empty chart", &[], "", ""),
        known("the square", &[square(0, 0, 4)], "00000000", "00"),
        known("the whole grid", &[whole], "00000000", "00"),
        known("two faces apart", &[square(0, 0, 2), square(3, 0, 2)], "0000000011111111", "0001"),
        known("two faces that meet at one corner", &[square(0, 0, 2), square(2, 2, 2)], "0000000011111111", "0001"),
        known("two faces that meet at two corners", &meeting, "00110011111100", "0001"),
        known("three faces that meet at one corner", &thrice, "000000112222221111", "000102"),
        known(
            "a face in a hole in a face",
            &[square(0, 0, 8), turned(square(2, 2, 4)), square(3, 3, 2)],
            "000011112222222211110000",
            "001001",
        ),
    ]
}

/// Holes that touch: the outer cycle at one corner and at two, each other in a chain and in a ring.
fn touching() -> Vec<Known> {
    let at_corner = vec![(0, 0), (1, 2), (2, 1)];
    let chain = [vec![(1, 1), (2, 4), (3, 2)], vec![(2, 4), (3, 7), (4, 5)], vec![(3, 7), (4, 11), (5, 8)]];
    let ring = [vec![(1, 1), (3, 6), (6, 1)], vec![(3, 6), (6, 11), (9, 6)], vec![(6, 1), (9, 6), (11, 1)]];
    let at_rim = [vec![(0, 0), (1, 2), (2, 1)], vec![(2, 1), (3, 3), (4, 1)]];
    let in_ring = [vec![square(0, 0, 12)], ring.to_vec(), vec![vec![(6, 3), (5, 5), (7, 5)]]].concat();
    vec![
        known("a touching hole", &[square(0, 0, 4), at_corner], "01100011110000", "0010"),
        known(
            "a touching hole at the last corner",
            &[square(0, 0, 4), vec![(4, 4), (3, 2), (2, 3)]],
            "00001111000110",
            "0010",
        ),
        known(
            "a hole at two outer corners",
            &[square(0, 0, 4), vec![(0, 0), (1, 3), (4, 4)]],
            "00111111001100",
            "0001",
        ),
        known(
            "two holes, one at an outer corner",
            &[vec![square(0, 0, 6)], at_rim.to_vec()].concat(),
            "01100011112222220000",
            "001010",
        ),
        known(
            "three holes in a chain",
            &[vec![square(0, 0, 12)], chain.to_vec()].concat(),
            "00001111221122332233330000",
            "00101010",
        ),
        known(
            "three holes in a ring",
            &[vec![square(0, 0, 12)], ring.to_vec()].concat(),
            "00001112212112111221110000",
            "001001",
        ),
        known(
            "a ring of holes with a hole in what it cuts off",
            &in_ring,
            "00001112213321123311331221110000",
            "00100111",
        ),
    ]
}

/// Holes that touch no outer cycle, by what is nearest below their walk's smallest point.
fn below() -> Vec<Known> {
    let holes = [vec![(1, 1), (10, 10), (20, 5)], vec![(10, 10), (20, 15), (20, 9)]];
    let read = [vec![square(0, 0, 30)], holes.to_vec(), vec![vec![(8, 4), (12, 5), (9, 7)]]].concat();
    let level = [vec![(0, 10), (10, 5), (20, 10), (20, 30), (0, 30)], vec![(0, 0), (20, 0), (10, 5)]];
    let level = [level.to_vec(), vec![vec![(10, 15), (12, 20), (14, 16)]]].concat();
    let above = [square(0, 0, 12), turned(square(1, 1, 2)), turned(square(2, 4, 2)), turned(square(2, 8, 2))];
    let apart = [square(0, 0, 4), square(6, 0, 6), turned(square(8, 2, 2))];
    vec![
        known("both holes belong to face 0", &read, "00001122221133221133330000", "00100110"),
        known("the hole is the upper face's", &level, "0011111001222222001111", "000111"),
        known("holes above a hole", &above, "00001111222233331111222233330000", "00101010"),
        known("the second face's hole", &apart, "000000001111222222221111", "000111"),
    ]
}

/// From one end of the grid to the other; sides in line.
fn extreme() -> Vec<Known> {
    let (low, high) = (LEAST, GREATEST);
    let corner = (low + 1, low + 1);
    let level = [
        vec![(low, 0), corner, (high, high), (low, high)],
        vec![corner, (high, low), (high, 0)],
        vec![(low + 1, 1000), (low + 2, 2000), (low + 3, 1500)],
    ];
    let apart = [
        vec![(low, low), (high, low), (high, high - 1)],
        vec![(low, low + 1), (high, high), (low, high)],
        vec![(0, 5), (1, 9), (2, 7)],
    ];
    let sliver = [square(low, low, 65535), vec![(low, low), (-1, 0), (high, high)]];
    let in_line = [
        vec![(0, 0), (3, 0), (8, 0), (8, 8), (0, 8), (0, 5)],
        vec![(2, 2), (2, 4), (2, 6), (6, 6), (6, 2), (4, 2)],
    ];
    vec![
        known("level below, by slopes across the grid", &level, "00000110222222111100", "000110"),
        known("halves of the grid, a hole in the second", &apart, "001111222222000011", "000111"),
        known("a sliver that cuts the grid in two", &sliver, "00111111001100", "0001"),
        known("sides in line, of a face and of its hole", &in_line, "000000111111001111110000", "0010"),
    ]
}

/// 512 records of small triangles, and a square.
fn many() -> Known {
    let (name, numbers, _) = large_faces::largest().swap_remove(0);
    let labels = (0..512).map(|i| (i / 6).min(84)).collect();
    Known { name, numbers, list: Faces { labels, cycles: (0..85).map(|face| [0, face]).collect(), faces: 85 } }
}

pub fn all() -> Vec<Known> {
    [plain(), touching(), below(), extreme(), vec![many()]].into_iter().flatten().collect()
}
