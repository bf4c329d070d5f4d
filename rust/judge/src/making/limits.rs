//! Arrays about as long as a chart may be, and far longer ones.

use super::small::charts;
use super::sides::walked;
use crate::rules::records::Point;

/// A chequered board of 64 squares that meet at their corners. Its 256 segments are as many as a chart may have.
fn board() -> Vec<Vec<Point>> {
    let cells = (0..16).flat_map(|i| (0..8).map(move |j| (2 * i, 2 * j))).filter(|(x, y)| (x + y) % 4 == 0);
    cells.map(|(x, y)| vec![(x, y), (x + 2, y), (x + 2, y + 2), (x, y + 2)]).collect()
}

/// The board with another walk for its first square's.
fn with_first(walk: &[Point]) -> Vec<i16> {
    let board = board();
    let others = board[1..].iter().map(Vec::as_slice);
    walked(&[walk].into_iter().chain(others).collect::<Vec<&[Point]>>())
}

/// A triangle less makes 510 records and a joint more 514; a record missing or doubled 511 and 513.
pub fn near() -> Vec<Vec<i16>> {
    let [fewer, whole, more] = [
        with_first(&[(0, 0), (2, 0), (0, 2)]),
        with_first(&[(0, 0), (2, 0), (2, 2), (0, 2)]),
        with_first(&[(0, 0), (1, 0), (2, 0), (2, 2), (0, 2)]),
    ];
    let cut = whole[..whole.len() - 5].to_vec();
    let doubled = [&whole[..], &whole[whole.len() - 5..]].concat();
    let lengthened = (1..5).map(|n| [&whole[..], &whole[..n]].concat());
    let zeros = (510..515).map(|records| vec![0; 5 * records]);
    [fewer, cut, whole.clone(), doubled, more].into_iter().chain(lengthened).chain(zeros).collect()
}

/// The square again and again, with lengths that sixteen bits would wrap, in numbers or in records, to that of a chart.
pub fn far() -> Vec<Vec<i16>> {
    let (_, square) = charts().swap_remove(0);
    let lengths = [2561, 4095, 4096, 65535, 65536, 65540, 65576, 327_680, 327_720, 327_721, 1_310_760];
    lengths.map(|length| square.iter().copied().cycle().take(length).collect()).to_vec()
}
