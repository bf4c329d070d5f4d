//! A tape: questions with their wanted answers, one after another in bytes, to be replayed by a program that knows none
//! of the rules. All numbers are written lowest byte first.

use crate::asking::lent::Lent;
use crate::asking::question::Question;
use crate::asking::wanted::{gauge, head, read, Asked, Listing, Pair, Subject};
use crate::dice::Dice;
use crate::making::damages::damages;
use crate::making::drafts::draft;
use crate::making::drawn_faces::{self, rooms_for};
use crate::making::drawn_pairs::{self, room_for};
use crate::making::points::point_for;
use crate::making::{cards, examples, files, floats, known_faces, long_pairs, pairs, small};
use crate::progress::told;
use crate::rules::gauges::Card;
use crate::rules::joins::OPS;
use crate::rules::records::Point;
use std::io::{Result, Write};

type Entry = Vec<u8>;

fn bytes_of(numbers: &[i16]) -> Vec<u8> {
    numbers.iter().flat_map(|v| v.to_le_bytes()).collect()
}

/// The front of an entry, of ever the same size; what a question does not have is 0.
#[derive(Default)]
struct Front {
    letter: u8,
    kind: u8,
    x: i16,
    y: i16,
    first: u64,
    second: u64,
}

impl Front {
    fn bytes(&self) -> Vec<u8> {
        let (at, floats) = ([self.x, self.y].map(i16::to_le_bytes), [self.first, self.second].map(u64::to_le_bytes));
        [&[self.letter, self.kind][..], &at.concat(), &floats.concat()].concat()
    }
}

/// The front and the two inputs of a question.
fn put(question: &Question) -> (Front, Vec<u8>, Vec<u8>) {
    let front = |letter: u8| Front { letter, ..Front::default() };
    match *question {
        Question::Check { chart } => (front(b'c'), bytes_of(chart), vec![]),
        Question::Point { chart, x, y } => (Front { x, y, ..front(b'p') }, bytes_of(chart), vec![]),
        Question::Corner { chart, x, y } => (Front { x, y, ..front(b'r') }, bytes_of(chart), vec![]),
        Question::Head { a, b } => (front(b'h'), bytes_of(a), bytes_of(b)),
        Question::Area { chart } => (front(b'a'), bytes_of(chart), vec![]),
        // of the two arrays that are lent the first one's length, in labels
        Question::Faces { chart, rooms } => {
            let x = i16::try_from(rooms[0]).expect("an array that a tape may have");
            (Front { x, ..front(b'w') }, bytes_of(chart), vec![])
        }
        Question::Join { op, a, b, .. } => (front(b"uid"[op as usize]), bytes_of(a), bytes_of(b)),
        Question::Gauge { card: Card { kind, first, second }, sample } => {
            (Front { kind, x: sample, first, second, ..front(b'g') }, vec![], vec![])
        }
        Question::Read { file, .. } => (front(b'f'), file.to_vec(), vec![]),
    }
}

/// The front, three sizes in bytes, the inputs, what is lent before and after, and the wanted word.
fn entry((question, wanted): &Asked) -> Entry {
    let (front, first, second) = put(question);
    let before = Lent::with(question);
    let [before, after] = [before.clone(), wanted.leaves(before)].map(|lent| lent.bytes());
    let sizes = [&first, &second, &before].map(|part| (part.len() as u32).to_le_bytes());
    [front.bytes(), sizes.concat(), first, second, before, after, wanted.word().to_le_bytes().to_vec()].concat()
}

// ---- what is on the tape

/// All questions about an array, at a point and at its first corner.
fn about(numbers: &[i16], p: Point) -> [Entry; 5] {
    let subject = Subject::new(numbers);
    let corner = match *numbers {
        [x, y, ..] => (x as i128, y as i128),
        _ => (0, 0),
    };
    let asked = [subject.check(), subject.area(), subject.point(p), subject.corner(p), subject.corner(corner)];
    asked.map(|asked| entry(&asked))
}

/// The list of faces of an array, into arrays of lengths that are given for a list of so many labels and numbers.
fn faces(numbers: &[i16], rooms: impl FnOnce([usize; 2]) -> [usize; 2]) -> Entry {
    let listing = Listing::new(numbers);
    entry(&listing.faces(rooms(listing.lengths())))
}

/// Known lists into arrays that are longer, into just long ones, and with either array too short; damaged charts.
fn listed_faces(damaged: &[&[i16]]) -> Vec<Entry> {
    let all = known_faces::all();
    let longer = all.iter().map(|known| faces(&known.numbers, |[labels, cycles]| [labels + 3, cycles + 2]));
    let just = all.iter().map(|known| faces(&known.numbers, |lengths| lengths));
    let some = &all[all.len() - 4..];
    let no_labels = some.iter().map(|known| faces(&known.numbers, |[labels, cycles]| [labels - 1, cycles]));
    let no_cycles = some.iter().map(|known| faces(&known.numbers, |[labels, cycles]| [labels, cycles - 1]));
    let refused = damaged.iter().map(|numbers| faces(numbers, |_| [9, 3]));
    let without = damaged.iter().map(|numbers| faces(numbers, |_| [0, 0]));
    longer.chain(just).chain(no_labels).chain(no_cycles).chain(refused).chain(without).collect()
}

/// What is made of two arrays, each into an array of a length that is given for a result of so many numbers.
fn joined(a: &[i16], b: &[i16], mut room: impl FnMut(usize) -> usize) -> Vec<Entry> {
    let pair = Pair::new(a, b);
    OPS.map(|op| entry(&pair.join(op, room(pair.length(op))))).to_vec()
}

/// Listed pairs into arrays that are longer than the result, a few and long ones into short arrays; a damaged chart on
/// either side and on both.
fn listed_joins(damaged: &[&[i16]]) -> Vec<Entry> {
    let known = pairs::examples().into_iter().flat_map(|pair| joined(&pair.a, &pair.b, |length| length + 3));
    let short = pairs::examples().into_iter().take(3).flat_map(|pair| joined(&pair.a, &pair.b, |length| length / 2));
    let long = long_pairs::long().into_iter().take(4).flat_map(|pair| joined(&pair.a, &pair.b, |_| 40));
    let (_, square) = small::charts().swap_remove(0);
    let refused = damaged.iter().flat_map(|numbers| {
        let on_sides = [(*numbers, &square[..]), (&square, numbers), (numbers, &[0])];
        on_sides.map(|(a, b)| joined(a, b, |length| length).swap_remove(0))
    });
    known.chain(short).chain(long).chain(refused).collect()
}

/// The papers' examples, a chart refused by each number, known lists, listed pairs, and cards of no kind.
fn listed() -> Vec<Entry> {
    let (_, square) = small::charts().swap_remove(0);
    let all = damages(&square);
    let refused = |number: u8| all.iter().find(|damaged| damaged.known.is_some_and(|known| known.0 == number));
    let damaged: Vec<&[i16]> = (1..=9).filter_map(refused).map(|damaged| &damaged.numbers[..]).collect();
    let by_numbers = damaged.iter().flat_map(|numbers| about(numbers, (0, 0)));
    let charts = examples::all().into_iter().flat_map(|example| {
        let p = example.places.first().map_or((0, 0), |place| place.0);
        about(&example.numbers, p)
    });
    let gauges = cards::examples().into_iter().map(|(card, sample, _)| entry(&gauge(card, sample)));
    let no_cards = floats::no_cards().step_by(100).map(|card| entry(&gauge(card, 1)));
    let files = files::examples().into_iter().map(|file| entry(&read(&file.bytes, file.room)));
    let others = gauges.chain(no_cards).chain(files).chain(listed_faces(&damaged)).chain(listed_joins(&damaged));
    by_numbers.chain(charts).chain(others).collect()
}

/// A chart with a point, two arrays, a sample by a card, a file, a chart's faces, two charts to be joined.
fn drawn(dice: &mut Dice) -> Vec<Entry> {
    let draft = draft(dice);
    let p = point_for(dice, &draft);
    let (a, b) = dice.arrays();
    let card = dice.card();
    let (samples, file) = (dice.samples(card), dice.file());
    let others = [head(&a, &b), gauge(card, *dice.pick(&samples)), read(&file.bytes, file.room)];
    let entries = about(&draft.numbers, p).into_iter().chain(others.iter().map(entry));
    let listed = drawn_faces::drawn(dice).numbers;
    let entries = entries.chain([faces(&listed, |lengths| rooms_for(dice, lengths))]).collect::<Vec<Entry>>();
    let pair = drawn_pairs::drawn(dice);
    entries.into_iter().chain(joined(&pair.a, &pair.b, |length| room_for(dice, length))).collect()
}

/// Writes so many questions.
pub fn write(count: usize, seed: u64, out: &mut impl Write) -> Result<()> {
    let mut dice = Dice(seed);
    let drawn = std::iter::repeat_with(|| drawn(&mut dice)).flatten();
    told("questions", listed().into_iter().chain(drawn).take(count)).try_for_each(|entry| out.write_all(&entry))?;
    out.flush()
}
