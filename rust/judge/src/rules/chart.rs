//! Document 01's rules for charts, sentence by sentence: the table of refusals, where a point lies, the nearest below
//! it, twice the area.

use super::records::{comes_first, record_of, Point, Record};
use super::segments::{touch, Fraction, Segment};

#[derive(Clone, Copy, Debug, PartialEq, Eq)]
pub enum Place {
    Outside,
    Inside,
    Edge,
}

/// An array of whole records, looked at as a chart; it need not be a good one.
pub struct Chart {
    records: Vec<Record>,
    marks: Vec<i16>,
    /// the segments, each once
    pub segments: Vec<Segment>,
}

impl Chart {
    pub fn new(numbers: &[i16]) -> Self {
        let records: Vec<Record> = numbers.chunks_exact(5).map(record_of).collect();
        let mut segments: Vec<Segment> = records.iter().map(|&r| Segment::of(r)).collect();
        segments.sort();
        segments.dedup();
        let marks = numbers.chunks_exact(5).map(|record| record[4]).collect();
        Chart { records, marks, segments }
    }

    pub fn segment(&self, i: usize) -> Segment {
        Segment::of(self.records[i])
    }

    /// The first record of a segment.
    pub fn index_of(&self, s: Segment) -> usize {
        (0..self.records.len()).find(|&i| self.segment(i) == s).expect("a segment of the chart")
    }

    pub fn mark_of(&self, s: Segment) -> i16 {
        self.marks[self.index_of(s)]
    }

    fn sloping(&self) -> impl Iterator<Item = Segment> + '_ {
        self.segments.iter().copied().filter(|s| !s.is_vertical())
    }

    // ---- what each row of the table looks for, at record i

    fn has_equal_ends(&self, i: usize) -> bool {
        self.records[i].dominating == self.records[i].other
    }

    fn has_bad_mark(&self, i: usize) -> bool {
        self.marks[i] != 0 && self.marks[i] != 1
    }

    fn is_not_after(&self, i: usize) -> bool {
        i > 0 && !comes_first(self.records[i - 1], self.records[i])
    }

    fn lacks_other_half(&self, i: usize) -> bool {
        let r = self.records[i];
        !(0..self.records.len()).any(|j| {
            let e = self.records[j];
            e.dominating == r.other && e.other == r.dominating && self.marks[j] == self.marks[i]
        })
    }

    fn takes_part_in_touching(&self, i: usize) -> bool {
        self.segments.iter().any(|&t| touch(self.segment(i), t))
    }

    fn is_at_odd_point(&self, i: usize) -> bool {
        let p = self.records[i].dominating;
        self.segments.iter().filter(|s| s.ends_at(p)).count() % 2 == 1
    }

    fn has_wrong_mark(&self, i: usize) -> bool {
        self.marks[i] != self.counted_mark(self.segment(i))
    }

    // ---- marks

    /// "For a segment that is not vertical, with left end at x, take the non-vertical segments whose left x is at most
    /// x and right x exceeds x, and which just right of x lie at or below it, itself included. Mark 1 exactly if the
    /// number is odd. For a vertical one with lower end (x, y), take those with left x below x and right x at least x
    /// whose height at x is at most y. Mark 1 exactly if odd."
    pub fn counted_mark(&self, s: Segment) -> i16 {
        let (x, y) = s.left;
        let number = if s.is_vertical() {
            let there = self.sloping().filter(|t| t.left.0 < x && t.right.0 >= x);
            there.filter(|t| t.height(x) <= Fraction::whole(y)).count()
        } else {
            let there = self.sloping().filter(|t| t.left.0 <= x && t.right.0 > x);
            there.filter(|t| just_right(*t, x) <= just_right(s, x)).count()
        };
        (number % 2) as i16
    }

    // ---- points

    /// "The non-vertical segments with left x at most the point's x, right x greater, lying strictly below it there."
    fn below(&self, p: Point) -> impl Iterator<Item = Segment> + '_ {
        let there = self.sloping().filter(move |s| s.left.0 <= p.0 && s.right.0 > p.0);
        there.filter(move |s| s.height(p.0) < Fraction::whole(p.1))
    }

    /// "A point on a segment, ends included, is Edge. Otherwise count ...: odd is Inside, even Outside."
    pub fn place(&self, p: Point) -> Place {
        if self.segments.iter().any(|s| s.holds(p)) {
            return Place::Edge;
        }
        if self.below(p).count() % 2 == 1 { Place::Inside } else { Place::Outside }
    }

    /// "The nearest below is the highest counted there; if several start at one point, the highest just to the right."
    /// Its first record.
    pub fn nearest_below(&self, p: Point) -> Option<usize> {
        self.below(p).max_by_key(|s| just_right(*s, p.0)).map(|s| self.index_of(s))
    }

    /// How many of those counted below p are as high as the highest.
    pub fn level_below(&self, p: Point) -> usize {
        let top = self.below(p).map(|s| s.height(p.0)).max();
        self.below(p).filter(|s| Some(s.height(p.0)) == top).count()
    }

    /// "Over non-vertical segments, width times the sum of both end heights, minus for mark 1, plus for mark 0."
    pub fn twice_area(&self) -> i128 {
        let term = |s: Segment| (s.right.0 - s.left.0) * (s.left.1 + s.right.1);
        self.sloping().map(|s| if self.mark_of(s) == 1 { -term(s) } else { term(s) }).sum()
    }
}

/// How high s is just right of x, to compare: first its height at x, then its slope.
fn just_right(s: Segment, x: i128) -> (Fraction, Fraction) {
    (s.height(x), s.slope())
}

/// "Checked in this order; the first that applies is given, with the smallest record index at fault." 0 where none
/// applies.
pub fn verdict(numbers: &[i16]) -> (u8, usize) {
    if numbers.len() % 5 != 0 {
        return (1, 0);
    }
    if numbers.len() / 5 > 512 {
        return (2, 0);
    }
    let chart = Chart::new(numbers);
    let table: [(u8, fn(&Chart, usize) -> bool); 7] = [
        (3, Chart::has_equal_ends),
        (4, Chart::has_bad_mark),
        (5, Chart::is_not_after),
        (6, Chart::lacks_other_half),
        (7, Chart::takes_part_in_touching),
        (8, Chart::is_at_odd_point),
        (9, Chart::has_wrong_mark),
    ];
    for (number, at_fault) in table {
        if let Some(i) = (0..chart.records.len()).find(|&i| at_fault(&chart, i)) {
            return (number, i);
        }
    }
    (0, 0)
}
