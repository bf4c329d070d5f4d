//! The judge of charts: the check, twice the area, places and corner runs. It asks about the papers' examples, about
//! small charts whole and with every damage, at every point near them, about arrays as long as a chart may be and
//! longer, and about drawn ones, good and damaged.

use super::objections::objection;
use crate::asking::kind::Kind;
use crate::asking::wanted::Subject;
use crate::dice::Dice;
use crate::making::damages::{damages, Damaged};
use crate::making::drafts::draft;
use crate::making::examples::{self, Example};
use crate::making::limits::{far, near};
use crate::making::points::points_for;
use crate::making::regions::Piece;
use crate::making::small;
use crate::progress::told;
use crate::rules::chart::Chart;
use crate::rules::records::Point;
use crate::tally::Tally;

/// Charts with no more records than this are damaged twice at once, in every way.
const TWICE: usize = 16;

struct Charts {
    tally: Tally,
    /// how many charts were accepted with no segment, up to 10, 50, 100 and 255, and with 256
    sizes: [usize; 6],
}

impl Charts {
    /// The check and twice the area of an array; the places and the runs of points; what speaks against the answers.
    fn ask(&mut self, subject: &Subject, points: &[Point], pieces: Option<&[Piece]>) {
        if let Some(what) = objection(subject, points, pieces) {
            self.tally.object(&format!("{what} of {:?}", subject.numbers));
        }
        if let Some(chart) = &subject.chart {
            let size = [0, 10, 50, 100, 255].iter().position(|&most| chart.segments.len() <= most);
            self.sizes[size.unwrap_or(5)] += 1;
        }
        self.tally.judge(&subject.check());
        self.tally.judge(&subject.area());
        for &p in points {
            self.tally.judge(&subject.point(p));
            self.tally.judge(&subject.corner(p));
        }
    }

    // ---- listed

    /// The papers' examples, which the rules as they are written here must answer as the papers do.
    fn ask_examples(&mut self) {
        let holds = |example: &Example, subject: &Subject| {
            let chart = Chart::new(&example.numbers);
            subject.verdict == example.verdict
                && example.places.iter().all(|&(p, place)| chart.place(p) == place)
                && example.area.is_none_or(|area| chart.twice_area() == area)
        };
        for example in examples::all() {
            let subject = Subject::new(&example.numbers);
            self.tally.at(example.name);
            if !holds(&example, &subject) {
                self.tally.object("the papers say otherwise");
            }
            let points: Vec<Point> = example.places.iter().map(|&(p, _)| p).collect();
            self.ask(&subject, &points, None);
        }
    }

    /// A damaged chart, at the first corner of the whole one; where that was good it may be known what became of it.
    fn ask_damaged(&mut self, whole: &[i16], damaged: &Damaged, was_good: bool) {
        let subject = Subject::new(&damaged.numbers);
        let (number, index) = subject.verdict;
        if let Some((known, place)) = damaged.known.filter(|_| was_good) {
            if known != number || place.is_some_and(|place| place != index) {
                self.tally.object(&format!("{number} at {index}, made as {known} at {place:?}: {:?}", damaged.numbers));
            }
        }
        self.ask(&subject, &[(whole[0] as i128, whole[1] as i128)], None);
    }

    /// The small charts: at every point near them, with every damage, and the smaller ones with every two.
    fn ask_small(&mut self) {
        for (name, whole) in told("small charts", small::charts().into_iter()) {
            self.tally.at(name);
            self.ask(&Subject::new(&whole), &small::points(&whole), None);
            for once in damages(&whole) {
                self.tally.at(format!("{name}, {}", once.how));
                self.ask_damaged(&whole, &once, true);
                let again = if whole.len() <= 5 * TWICE { damages(&once.numbers) } else { vec![] };
                for twice in again {
                    self.tally.at(format!("{name}, {}, then {}", once.how, twice.how));
                    self.ask_damaged(&whole, &twice, false);
                }
            }
        }
    }

    fn ask_limits(&mut self) {
        self.tally.at("about as many records as a chart may have");
        near().iter().for_each(|numbers| self.ask(&Subject::new(numbers), &[(0, 0), (1, 1), (2, 3)], None));
        self.tally.at("far more records than a chart may have");
        far().iter().for_each(|numbers| self.ask(&Subject::new(numbers), &[(0, 0), (1, 1)], None));
    }

    // ---- drawn

    /// At some points; one short array in fifty at all points near it, up to 200.
    fn ask_drawn(&mut self, count: usize, seed: u64) {
        let mut dice = Dice(seed);
        for n in told("drawn charts", 0..count) {
            let draft = draft(&mut dice);
            let points = match dice.roll(50) {
                0 if draft.numbers.len() <= 100 => small::points(&draft.numbers).into_iter().take(200).collect(),
                _ => points_for(&mut dice, &draft),
            };
            self.tally.at(format!("drawn chart {n} of seed {seed}, {}", draft.kind));
            self.ask(&Subject::new(&draft.numbers), &points, draft.pieces.as_deref());
        }
    }
}

pub fn judge(count: usize, seed: u64) -> Tally {
    let mut charts = Charts { tally: Tally::new("charts"), sizes: [0; 6] };
    charts.ask_examples();
    charts.ask_small();
    charts.ask_limits();
    charts.ask_drawn(count, seed);
    println!("accepted, by segments (none, to 10, to 50, to 100, to 255, 256): {:?}", charts.sizes);
    let answers = [Kind::Accepted, Kind::Outside, Kind::Inside, Kind::Edge, Kind::Run, Kind::EmptyRun, Kind::Area];
    charts.tally.demand(answers.into_iter().chain((1..=9).map(Kind::Refused)));
    charts.tally
}
