//! The judge of gauges: every sample of a list of cards, some samples of cards that have floats of every sort and of
//! cards of no kind, and of drawn ones.

use crate::asking::kind::Kind;
use crate::asking::wanted::gauge;
use crate::dice::Dice;
use crate::making::cards::{broken, examples, sound};
use crate::making::floats::{cards, no_cards};
use crate::progress::told;
use crate::rules::gauges::{reading, Card};
use crate::tally::Tally;

const SAMPLES: [i16; 9] = [-32768, -32767, -1, 0, 1, 999, 1000, 32766, 32767];

fn ask(tally: &mut Tally, card: Card, samples: impl IntoIterator<Item = i16>) {
    samples.into_iter().for_each(|sample| tally.judge(&gauge(card, sample)));
}

/// The papers' examples, which the rules as they are written here must answer as the papers do.
fn ask_examples(tally: &mut Tally) {
    tally.at("the papers' examples");
    for (card, sample, answer) in examples() {
        let own = reading(card, sample);
        if own != answer {
            tally.object(&format!("{card}, sample {sample}: the paper has {answer:?}, the judge {own:?}"));
        }
        ask(tally, card, [sample]);
    }
}

fn ask_listed(tally: &mut Tally) {
    let listed = [sound(), broken()].concat();
    tally.at("listed cards, every sample");
    told("listed cards", listed.into_iter()).for_each(|card| ask(tally, card, i16::MIN..=i16::MAX));
    tally.at("floats of every sort");
    cards().for_each(|card| ask(tally, card, SAMPLES));
    tally.at("cards of no kind");
    no_cards().for_each(|card| ask(tally, card, SAMPLES));
}

fn ask_drawn(tally: &mut Tally, count: usize, seed: u64) {
    let mut dice = Dice(seed);
    for n in told("drawn cards", 0..count) {
        let card = dice.card();
        tally.at(format!("drawn card {n} of seed {seed}"));
        ask(tally, card, dice.samples(card));
    }
}

pub fn judge(count: usize, seed: u64) -> Tally {
    let mut tally = Tally::new("gauges");
    ask_examples(&mut tally);
    ask_listed(&mut tally);
    ask_drawn(&mut tally, count, seed);
    tally.demand([21, 22, 23].map(Kind::Refused).into_iter().chain([Kind::Reading]));
    tally
}
