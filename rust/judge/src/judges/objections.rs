//! What speaks against the judge's own answers about charts: second opinions that do not count as the document does,
//! and where the inside was put when a chart was made.

use crate::asking::wanted::Subject;
use crate::making::regions::{self, Piece};
use crate::rules::chart::{Chart, Place};
use crate::rules::records::Point;
use crate::rules::second;
use crate::rules::segments::Segment;

/// What is said against the answers about an array and some points, the pieces being those that it was made of.
pub fn objection(subject: &Subject, points: &[Point], pieces: Option<&[Piece]>) -> Option<String> {
    let Some(chart) = &subject.chart else {
        return pieces.map(|_| format!("made as a good chart, and refused: {:?}", subject.verdict));
    };
    let by_points = || points.iter().find_map(|&p| about_point(subject, chart, p, pieces));
    about_marks(chart).or_else(by_points).or_else(|| about_area(chart, pieces?))
}

fn about_marks(chart: &Chart) -> Option<String> {
    let differs = |s: Segment| {
        let mark = chart.mark_of(s);
        mark != second::mark(chart, s) || !s.is_vertical() && mark != second::stepped_mark(chart, s)
    };
    chart.segments.iter().find(|&&s| differs(s)).map(|s| format!("the mark of {s:?}"))
}

fn about_point(subject: &Subject, chart: &Chart, p: Point, pieces: Option<&[Piece]>) -> Option<String> {
    let place = chart.place(p);
    if place == Place::Edge {
        return None;
    }
    let is_inside = place == Place::Inside;
    let is_made_so = pieces.is_none_or(|pieces| regions::has(pieces, p) == is_inside);
    if !is_made_so || second::is_inside(chart, p) != is_inside {
        return Some(format!("the place of {p:?}"));
    }
    // demand 3: the side mark of the nearest boundary straight below, or outside where there is none
    let is_marked_so = chart.nearest_below(p).is_some_and(|i| subject.numbers[5 * i + 4] == 1) == is_inside;
    (!is_marked_so).then(|| format!("the mark of the nearest below {p:?}"))
}

fn about_area(chart: &Chart, pieces: &[Piece]) -> Option<String> {
    let made = regions::twice_area(pieces);
    (made != chart.twice_area()).then(|| format!("twice the area, made as {made}"))
}
