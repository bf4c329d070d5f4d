//! The judge of faces and holes. It asks about charts whose lists are known and about the small charts into arrays of
//! many lengths, about every damage to some of them, about every painting of some subdivisions, about charts as large
//! as they may be and larger arrays, and about drawn ones.

use super::lists::objection;
use crate::asking::kind::Kind;
use crate::asking::wanted::Listing;
use crate::dice::Dice;
use crate::making::damages::damages;
use crate::making::drawn_faces::{drawn, rooms_for};
use crate::making::known_faces::{self, Known};
use crate::making::large_faces::largest;
use crate::making::limits::{far, near};
use crate::making::owners::Owners;
use crate::making::painted::Painted;
use crate::making::regions::Piece;
use crate::making::small::{self, square};
use crate::making::{examples, pairs};
use crate::progress::told;
use crate::rules::chart::Chart;
use crate::rules::faces::Boundary;
use crate::tally::Tally;

type Rooms = Vec<[usize; 2]>;

struct Faces {
    tally: Tally,
    /// how many charts had no face, one, up to 5, up to 20, more; and the same of holes
    faces: [usize; 5],
    holes: [usize; 5],
    /// how many walks had an outer cycle and no other, and others too; no outer cycle, and then one cycle or several
    walks: [usize; 4],
    /// of a walk without an outer cycle: how often below it was an outer cycle, a hole, and one segment of several as
    /// high
    below: [usize; 3],
}

impl Faces {
    /// Counts what a chart has.
    fn count(&mut self, chart: &Chart) {
        let boundary = Boundary::new(chart);
        let outer = boundary.cycles.iter().filter(|cycle| cycle.is_outer()).count();
        let size = |n: usize| [0, 1, 5, 20].iter().position(|&most| n <= most).unwrap_or(4);
        self.faces[size(outer)] += 1;
        self.holes[size(boundary.cycles.len() - outer)] += 1;
        for walk in 0..boundary.walks.len() {
            let cycles = boundary.cycles.iter().filter(|cycle| cycle.walk == walk).count();
            let has_outer = boundary.outer_in(walk).is_some();
            self.walks[2 * !has_outer as usize + (cycles > 1) as usize] += 1;
            if !has_outer {
                self.below[!boundary.cycles[boundary.below(walk)].is_outer() as usize] += 1;
                self.below[2] += (chart.level_below(boundary.least_of(walk)) > 1) as usize;
            }
        }
    }

    /// The list of an array, into arrays of the lengths that are given for a list of so many labels and numbers.
    fn ask(&mut self, listing: &Listing, owners: Option<&Owners>, rooms: impl FnOnce([usize; 2]) -> Rooms) {
        if let Some(what) = objection(listing, owners) {
            self.tally.object(&format!("{what} of {:?}", listing.subject.numbers));
        }
        if let Some(chart) = &listing.subject.chart {
            self.count(chart);
        }
        rooms(listing.lengths()).into_iter().for_each(|rooms| self.tally.judge(&listing.faces(rooms)));
    }

    // ---- listed

    /// Charts with known lists, which the rules as they are written here must give, into arrays of every length.
    fn ask_known(&mut self) {
        for Known { name, numbers, list } in told("known lists", known_faces::all().into_iter()) {
            self.tally.at(name);
            let listing = Listing::new(&numbers);
            if listing.list.as_ref() != Some(&list) {
                self.tally.object(&format!("known as {list:?}, and it is {:?}", listing.list));
            }
            self.ask(&listing, None, every_room);
        }
    }

    /// Charts as large as they may be, by how many cycles and faces they have.
    fn ask_large(&mut self) {
        for (name, numbers, [cycles, faces]) in told("large charts", largest().into_iter()) {
            self.tally.at(name);
            let listing = Listing::new(&numbers);
            let is_known = numbers.len() == 2560
                && listing.list.as_ref().is_some_and(|list| (list.cycles.len(), list.faces) == (cycles, faces));
            if !is_known {
                self.tally.object(&format!("known to have {cycles} cycles and {faces} faces: {:?}", listing.list));
            }
            self.ask(&listing, None, beside);
        }
    }

    /// The papers' examples, the small charts, and each with every damage.
    fn ask_small(&mut self) {
        for example in examples::all() {
            self.tally.at(example.name);
            self.ask(&Listing::new(&example.numbers), None, beside);
        }
        for (name, whole) in told("small charts", small::charts().into_iter()) {
            self.tally.at(name);
            self.ask(&Listing::new(&whole), None, beside);
            let just = |_| vec![[whole.len() / 5 + 1, whole.len() / 5 + 1], [0, 0]];
            for damaged in damages(&whole) {
                self.tally.at(format!("{name}, {}", damaged.how));
                self.ask(&Listing::new(&damaged.numbers), None, just);
            }
        }
    }

    /// Every painting of a subdivision, but for pieces that are always painted.
    fn ask_paintings(&mut self) {
        for (name, pieces, always) in subdivisions() {
            let all = [&pieces[..], &always].concat();
            for bits in told("paintings", 0..1 << pieces.len()) {
                self.tally.at(format!("{name}, painting {bits}"));
                let painted = Painted::by_bits(&all, bits | usize::MAX << pieces.len());
                let chart = painted.chart();
                self.ask(&Listing::new(&chart), Some(&painted.owners()), |lengths| vec![lengths]);
            }
        }
    }

    fn ask_limits(&mut self) {
        for numbers in near().into_iter().chain(far()) {
            self.tally.at(format!("{} numbers", numbers.len()));
            self.ask(&Listing::new(&numbers), None, |lengths| vec![lengths, [600, 600], [0, 0]]);
        }
    }

    // ---- drawn

    fn ask_drawn(&mut self, count: usize, seed: u64) {
        let mut dice = Dice(seed);
        for n in told("drawn lists", 0..count) {
            let draft = drawn(&mut dice);
            self.tally.at(format!("drawn list {n} of seed {seed}, {}", draft.kind));
            let rooms = |lengths| vec![lengths, rooms_for(&mut dice, lengths)];
            self.ask(&Listing::new(&draft.numbers), draft.owners.as_ref(), rooms);
        }
    }

    /// Tells what was counted, and misses what never came up.
    fn close(mut self) -> Tally {
        println!("charts by faces (none, 1, to 5, to 20, more): {:?}, by holes: {:?}", self.faces, self.holes);
        println!("walks (one outer cycle, an outer one and holes, one hole, several holes): {:?}", self.walks);
        println!("below a walk without an outer cycle (an outer cycle, a hole, several level): {:?}", self.below);
        self.tally.demand([Kind::NoFaces, Kind::Faces, Kind::Holes].into_iter().chain((1..=10).map(Kind::Refused)));
        let counted = [&self.faces[..], &self.holes, &self.walks, &self.below];
        if counted.iter().any(|counts| counts.contains(&0)) {
            self.tally.fail("one of these never came up");
        }
        self.tally
    }
}

/// Both arrays of every length up to some more than needed, the other one just long enough; and none at all.
fn every_room([labels, cycles]: [usize; 2]) -> Rooms {
    let first = (0..=labels + 3).map(|room| [room, cycles]);
    first.chain((0..=cycles + 3).map(|room| [labels, room])).chain(beside([labels, cycles])).collect()
}

/// Each array empty, shorter by one, just long enough, and longer.
fn beside([labels, cycles]: [usize; 2]) -> Rooms {
    let lengths = |length: usize| [0, length.saturating_sub(1), length, length + 1, length + 9];
    lengths(labels).into_iter().flat_map(|room| lengths(cycles).map(|other| [room, other])).collect()
}

/// Pieces, and those that are always painted: the subdivisions of the joins; ten cells; and twelve cells within others,
/// so that what is not painted are holes, which touch in chains and in rings.
fn subdivisions() -> Vec<(&'static str, Vec<Piece>, Vec<Piece>)> {
    let of_joins = pairs::subdivisions().into_iter().map(|(name, pieces)| (name, pieces, vec![]));
    let cells = |columns: i128, rows: i128| (0..columns * rows).map(move |n| (n / rows, n % rows));
    let cell = |(i, j): (i128, i128)| square(2 * i, 2 * j, 2);
    let ten = cells(5, 2).map(cell).collect();
    let is_within = |&(i, j): &(i128, i128)| (1..5).contains(&i) && (1..4).contains(&j);
    let (within, around): (Vec<_>, Vec<_>) = cells(6, 5).partition(is_within);
    let [within, around] = [within, around].map(|some| some.into_iter().map(cell).collect());
    of_joins.chain([("ten cells", ten, vec![]), ("twelve cells within others", within, around)]).collect()
}

pub fn judge(count: usize, seed: u64) -> Tally {
    let tally = Tally::new("faces");
    let mut faces = Faces { tally, faces: [0; 5], holes: [0; 5], walks: [0; 4], below: [0; 3] };
    faces.ask_known();
    faces.ask_large();
    faces.ask_small();
    faces.ask_paintings();
    faces.ask_limits();
    faces.ask_drawn(count, seed);
    faces.close()
}
