//! Makes a chart file of document 01 from outlines: a text at standard input, the file's bytes at standard output.
//!
//!     make < NAME.outline > NAME.chart
//!
//! Each line of the text is one closed outline: its corners in order, either way round, each as `x,y`, with spaces
//! between them. `#` starts a comment; lines with nothing else are skipped. Faces, holes and faces in holes come in
//! any order: where the inside lies follows from document 01's count, by which every side is marked. The file has both
//! halves of each side, in record order.
//!
//! The chart is not judged: outlines that cross or touch, or that have a side in common, are written as they stand,
//! and `chartcheck` turns them away. Refused here, with the line's number and nothing at standard output, is what is
//! no outline: a word that is no corner, a corner off the grid, fewer than two corners, a side of length zero; and the
//! line with which there are more records than a chart may have.

use std::cmp::Ordering;
use std::io::{self, Read, Write};
use std::num::IntErrorKind;
use std::process::ExitCode;

const LEAST: i64 = -32_768;
const GREATEST: i64 = 32_767;
const MOST_RECORDS: usize = 512;

/// A point of the grid, or a direction from one to another. Its order is document 01's: by x, then y.
#[derive(Clone, Copy, PartialEq, Eq, PartialOrd, Ord)]
struct Point {
    x: i64,
    y: i64,
}

impl Point {
    fn direction_to(self, other: Point) -> Point {
        Point { x: other.x - self.x, y: other.y - self.y }
    }
}

/// Positive where u turns counter-clockwise onto v. A product reaches 65,535 squared, so 32 bits would not do.
fn determinant(u: Point, v: Point) -> i64 {
    u.x * v.y - u.y * v.x
}

// ---- outlines

/// A side of an outline, its smaller end first.
#[derive(Clone, Copy)]
struct Segment {
    left: Point,
    right: Point,
}

/// The sides of all outlines of a text; or what is wrong with it, and in which line.
fn segments_of(text: &str) -> Result<Vec<Segment>, String> {
    let mut all = vec![];
    for (i, line) in text.lines().enumerate() {
        let in_line = |what: String| format!("line {}: {what}", i + 1);
        all.extend(sides_of(line).map_err(in_line)?);
        if 2 * all.len() > MOST_RECORDS {
            return Err(in_line(format!("more than {MOST_RECORDS} records")));
        }
    }
    Ok(all)
}

/// The sides of a line's outline; none where the line has only a comment.
fn sides_of(line: &str) -> Result<Vec<Segment>, String> {
    let outline = line.split('#').next().unwrap_or("");
    let corners: Vec<Point> = outline.split_whitespace().map(corner).collect::<Result<_, _>>()?;
    if corners.len() == 1 {
        return Err("fewer than two corners".to_string());
    }
    (0..corners.len()).map(|i| side(corners[i], corners[(i + 1) % corners.len()])).collect()
}

/// The side between two corners that follow each other.
fn side(p: Point, q: Point) -> Result<Segment, String> {
    if p == q {
        return Err(format!("a side of length zero at {},{}", p.x, p.y));
    }
    Ok(Segment { left: p.min(q), right: p.max(q) })
}

/// A corner from a word `x,y`.
fn corner(word: &str) -> Result<Point, String> {
    let (x, y) = word.split_once(',').ok_or_else(|| format!("'{word}' is not a corner x,y"))?;
    Ok(Point { x: coordinate(x)?, y: coordinate(y)? })
}

/// A coordinate of the grid from its digits.
fn coordinate(word: &str) -> Result<i64, String> {
    let off_the_grid = || format!("{word} is off the grid");
    match word.parse::<i64>() {
        Ok(n) if (LEAST..=GREATEST).contains(&n) => Ok(n),
        Ok(_) => Err(off_the_grid()),
        Err(e) if matches!(e.kind(), IntErrorKind::PosOverflow | IntErrorKind::NegOverflow) => Err(off_the_grid()),
        Err(_) => Err(format!("'{word}' is not a number")),
    }
}

// ---- marks

impl Segment {
    fn direction(self) -> Point {
        self.left.direction_to(self.right)
    }

    fn is_vertical(self) -> bool {
        self.left.x == self.right.x
    }

    /// Whether document 01's count for the mark of s takes this segment.
    fn is_counted_for(self, s: Segment) -> bool {
        if self.is_vertical() {
            return false;
        }
        // the end of s that counts, the lower one of a vertical s, and whether it lies above this segment
        let (x, above) = (s.left.x, determinant(self.direction(), self.left.direction_to(s.left)));
        if s.is_vertical() {
            return self.left.x < x && x <= self.right.x && above >= 0;
        }
        // just right of x: where this segment passes through that end, the slopes decide
        let is_no_steeper = determinant(self.direction(), s.direction()) >= 0;
        self.left.x <= x && x < self.right.x && (above > 0 || above == 0 && is_no_steeper)
    }
}

/// The mark of s: 1 exactly if the number of segments counted for it is odd.
fn mark_of(s: Segment, all: &[Segment]) -> u64 {
    all.iter().filter(|t| t.is_counted_for(s)).count() as u64 % 2
}

// ---- records

/// A half of a segment, with its mark.
#[derive(Clone, Copy)]
struct Record {
    dominating: Point,
    other: Point,
    mark: u64,
}

impl Record {
    fn direction(self) -> Point {
        self.dominating.direction_to(self.other)
    }

    fn is_left_half(self) -> bool {
        self.dominating < self.other
    }

    fn length_squared(self) -> i64 {
        let Point { x, y } = self.direction();
        x * x + y * y
    }
}

/// Document 01's order: the smaller dominating end first; at one end right halves before left; then the one that turns
/// counter-clockwise onto the other; where neither does, the shorter.
fn order(r: &Record, e: &Record) -> Ordering {
    let turn = determinant(r.direction(), e.direction());
    let ends = r.dominating.cmp(&e.dominating);
    let halves = r.is_left_half().cmp(&e.is_left_half());
    ends.then(halves).then(0.cmp(&turn)).then(r.length_squared().cmp(&e.length_squared()))
}

/// Both halves of each segment, marked, in record order.
fn records_of(segments: &[Segment]) -> Vec<Record> {
    let halves = |s: &Segment| {
        let mark = mark_of(*s, segments);
        [(s.left, s.right), (s.right, s.left)].map(|(dominating, other)| Record { dominating, other, mark })
    };
    let mut all: Vec<Record> = segments.iter().flat_map(halves).collect();
    all.sort_by(order);
    all
}

// ---- the file

/// Groups of seven bits, lowest first, with the high bit set on all but the last.
fn put_number(file: &mut Vec<u8>, mut n: u64) {
    while n > 0x7f {
        file.push((n & 0x7f) as u8 | 0x80);
        n >>= 7;
    }
    file.push(n as u8);
}

/// Signed n as 2n, or -2n-1 below zero.
fn put_signed(file: &mut Vec<u8>, n: i64) {
    put_number(file, if n < 0 { -2 * n - 1 } else { 2 * n } as u64);
}

/// The record count, then each record: four signed numbers and the mark.
fn file_of(records: &[Record]) -> Vec<u8> {
    let mut file = vec![];
    put_number(&mut file, records.len() as u64);
    for r in records {
        for n in [r.dominating.x, r.dominating.y, r.other.x, r.other.y] {
            put_signed(&mut file, n);
        }
        put_number(&mut file, r.mark);
    }
    file
}

/// Reads the text, and writes the file once it is whole.
fn run() -> Result<(), String> {
    let mut text = vec![];
    io::stdin().read_to_end(&mut text).map_err(|e| format!("standard input: {e}"))?;
    // bytes that are no text are no corner either, unless they are in a comment
    let segments = segments_of(&String::from_utf8_lossy(&text))?;
    let mut out = io::stdout();
    let written = out.write_all(&file_of(&records_of(&segments))).and_then(|()| out.flush());
    written.map_err(|e| format!("standard output: {e}"))
}

fn main() -> ExitCode {
    let Err(what) = run() else { return ExitCode::SUCCESS };
    eprintln!("make: {what}");
    ExitCode::FAILURE
}
