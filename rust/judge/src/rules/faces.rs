//! Document 01's rules for faces and holes, sentence by sentence.

use super::chart::Chart;
use super::records::{determinant, direction, record_of, smaller, Point};
use super::segments::Segment;
use std::cmp::Ordering;
use std::collections::BTreeMap;

/// "One lent array gets the cycle number of each record; another gets two numbers per cycle: 0 for outer or 1 for hole,
/// then the face." And "the number of cycles and of faces".
#[derive(Clone, Debug, PartialEq)]
pub struct Faces {
    pub labels: Vec<u16>,
    pub cycles: Vec<[u16; 2]>,
    pub faces: usize,
}

impl Faces {
    /// "Refusal 10 exactly when either array is too short", by the lengths of the arrays for labels and for cycles.
    pub fn fits(&self, [labels, cycles]: [usize; 2]) -> bool {
        labels >= self.labels.len() && cycles >= 2 * self.cycles.len()
    }
}

/// A segment as it is walked, from one end to the other.
pub type Way = (Point, Point);

// ---- walks

/// How far clockwise from one direction another is met: after less than half a turn, half a turn, more, a whole one.
fn turn_of(from: Point, to: Point) -> u8 {
    match determinant(from, to).cmp(&0) {
        Ordering::Less => 0,
        Ordering::Equal => if from.0 * to.0 + from.1 * to.1 < 0 { 1 } else { 3 },
        Ordering::Greater => 2,
    }
}

/// Which of two directions is met first on a turn clockwise from a third.
fn met_first(from: Point, u: Point, v: Point) -> Ordering {
    // of two in the same half of the turn, the one that the other lies clockwise of
    turn_of(from, u).cmp(&turn_of(from, v)).then(determinant(u, v).cmp(&0))
}

/// The segments of a chart as they are walked, each once.
pub struct Walker<'a> {
    chart: &'a Chart,
    ways: Vec<Way>,
}

impl<'a> Walker<'a> {
    /// "Walk each segment with the inside on the left": above a segment that is walked to the right, left of one that
    /// is walked upwards.
    pub fn new(chart: &'a Chart) -> Self {
        let way = |s: &Segment| if chart.mark_of(*s) == 1 { (s.left, s.right) } else { (s.right, s.left) };
        Walker { chart, ways: chart.segments.iter().map(way).collect() }
    }

    /// "At its far end turn clockwise from the way back to the first segment met": the way along that segment.
    fn next(&self, (from, at): Way) -> Way {
        let back = direction(at, from);
        let onward = |&&(a, b): &&Way| if a == at { direction(at, b) } else { direction(at, a) };
        let there = self.ways.iter().filter(|&&(a, b)| (a == at || b == at) && (a, b) != (from, at));
        let first = there.min_by(|s, t| met_first(back, onward(s), onward(t)));
        *first.expect("more than one segment ends at a point")
    }

    /// The walk that starts with a way, until it is back at that way.
    fn walk(&self, start: Way) -> Vec<Way> {
        let mut all = vec![start];
        loop {
            let way = self.next(all[all.len() - 1]);
            if way == start {
                return all;
            }
            assert!(way.0 == all[all.len() - 1].1 && all.len() < self.ways.len(), "a walk goes on, and comes back");
            all.push(way);
        }
    }

    /// All walks, started in the order of the ways that are given.
    fn walks(&self, starts: &[Way]) -> Vec<Vec<Way>> {
        let mut walks: Vec<Vec<Way>> = vec![];
        for start in starts {
            if !walks.iter().flatten().any(|way| way == start) {
                walks.push(self.walk(*start));
            }
        }
        walks
    }
}

/// "A walk that returns to a point it has passed is cut there: the stretch between is a cycle, and the rest goes on
/// without it."
fn cut(walk: &[Way]) -> Vec<Vec<Way>> {
    let (mut cycles, mut rest) = (vec![], vec![]);
    for &way in walk {
        rest.push(way);
        if let Some(passed) = rest.iter().position(|earlier: &Way| earlier.0 == way.1) {
            cycles.push(rest.split_off(passed));
        }
    }
    assert!(rest.is_empty(), "a walk ends where it began");
    cycles
}

// ---- cycles and faces

/// A cycle, and which walk it is of.
pub struct Cycle {
    pub ways: Vec<Way>,
    pub walk: usize,
}

impl Cycle {
    fn twice_area(&self) -> i64 {
        self.ways.iter().map(|&(p, q)| determinant(p, q) as i64).sum()
    }

    /// "A cycle of positive signed area is outer, of negative a hole."
    pub fn is_outer(&self) -> bool {
        let area = self.twice_area();
        assert!(area != 0, "a cycle has an area");
        area > 0
    }
}

/// The walks of a chart and the cycles that they are cut into, numbered.
pub struct Boundary<'a> {
    walker: Walker<'a>,
    pub walks: Vec<Vec<Way>>,
    pub cycles: Vec<Cycle>,
    /// the cycle of each segment
    numbers: BTreeMap<Segment, usize>,
}

impl<'a> Boundary<'a> {
    /// "The start of the walk makes no difference": walks start with the ways in the chart's order, changed so.
    pub fn started(chart: &'a Chart, change: impl FnOnce(&mut Vec<Way>)) -> Self {
        let walker = Walker::new(chart);
        let mut starts = walker.ways.clone();
        change(&mut starts);
        let walks = walker.walks(&starts);
        let of_walk = |(walk, ways): (usize, &Vec<Way>)| cut(ways).into_iter().map(move |ways| Cycle { ways, walk });
        let mut cycles: Vec<Cycle> = walks.iter().enumerate().flat_map(of_walk).collect();
        // "Cycles are numbered by smallest record index"
        let first = |cycle: &Cycle| cycle.ways.iter().map(|&(p, q)| chart.index_of(Segment::between(p, q))).min();
        cycles.sort_by_key(first);
        let numbered = |(number, cycle): (usize, &Cycle)| -> Vec<(Segment, usize)> {
            cycle.ways.iter().map(|&(p, q)| (Segment::between(p, q), number)).collect()
        };
        let numbers = cycles.iter().enumerate().flat_map(numbered).collect();
        Boundary { walker, walks, cycles, numbers }
    }

    pub fn new(chart: &'a Chart) -> Self {
        Boundary::started(chart, |_| {})
    }

    pub fn cycle_of(&self, s: Segment) -> usize {
        self.numbers[&s]
    }

    /// The outer cycle in a walk, where it has one.
    pub fn outer_in(&self, walk: usize) -> Option<usize> {
        (0..self.cycles.len()).find(|&i| self.cycles[i].walk == walk && self.cycles[i].is_outer())
    }

    /// "The walk's smallest point".
    pub fn least_of(&self, walk: usize) -> Point {
        let least = |p: Point, q: Point| if smaller(q, p) { q } else { p };
        self.walks[walk].iter().map(|way| way.0).reduce(least).expect("a walk has points")
    }

    /// The cycle of "the segment nearest strictly below it".
    pub fn below(&self, walk: usize) -> usize {
        let nearest = self.walker.chart.nearest_below(self.least_of(walk));
        let nearest = nearest.expect("a walk without an outer cycle is above a segment");
        self.cycle_of(self.walker.chart.segment(nearest))
    }

    /// Faces are numbered "by their outer cycles' order". "A hole's face is that of the outer cycle in its own walk; if
    /// the walk has none, take the walk's smallest point, the segment nearest strictly below it, and the face of the
    /// cycle that segment belongs to."
    fn face(&self, cycle: usize) -> usize {
        if self.cycles[cycle].is_outer() {
            return (0..cycle).filter(|&i| self.cycles[i].is_outer()).count();
        }
        let walk = self.cycles[cycle].walk;
        self.face(self.outer_in(walk).unwrap_or_else(|| self.below(walk)))
    }

    /// The list, for the array that the chart is.
    pub fn list(&self, numbers: &[i16]) -> Faces {
        let label = |record: &[i16]| self.cycle_of(Segment::of(record_of(record))) as u16;
        let cycle = |i: usize| [!self.cycles[i].is_outer() as u16, self.face(i) as u16];
        Faces {
            labels: numbers.chunks_exact(5).map(label).collect(),
            cycles: (0..self.cycles.len()).map(cycle).collect(),
            faces: self.cycles.iter().filter(|cycle| cycle.is_outer()).count(),
        }
    }
}
