//! The judge of chart files: the papers' own, listed ones, good ones with every byte damaged, and drawn ones. Its own
//! answers are held to how a file was spoiled, where that is known, and to a writer: what is read gives the same bytes
//! when it is written again.

use crate::asking::answer::Answer;
use crate::asking::kind::Kind;
use crate::asking::wanted::read;
use crate::dice::Dice;
use crate::making::damaged_files::{self, damaged, drawn, Named};
use crate::making::files::{changed_squares, examples, long, numbers, small, squares, File};
use crate::progress::told;
use crate::rules::files::parts;
use crate::tally::Tally;

/// What is known of the file, or the writer, says against an answer.
fn objection(file: &File, own: &Answer) -> Option<String> {
    let known = file.known.as_ref().map(|known| match known {
        Ok(numbers) => Answer::Records(numbers.clone()),
        Err((number, place)) => Answer::Refused(*number, *place, 0),
    });
    if let Some(known) = known.filter(|known| known != own) {
        return Some(format!("{own:?}, made as {known:?}: {:02x?}, room {}", file.bytes, file.room));
    }
    let Answer::Records(numbers) = own else { return None };
    let again = parts(numbers).concat();
    (again != file.bytes).then(|| format!("{:02x?}, written again it is {again:02x?}", file.bytes))
}

fn ask(tally: &mut Tally, file: &File) {
    let asked = read(&file.bytes, file.room);
    if let Some(what) = objection(file, &asked.1) {
        tally.object(&what);
    }
    tally.judge(&asked);
}

fn ask_listed(tally: &mut Tally) {
    let lists: [(&str, Box<dyn Iterator<Item = File>>); 6] = [
        ("files of the papers", Box::new(examples().into_iter())),
        ("spoiled files of the square", Box::new(squares())),
        ("files of the square with another byte", Box::new(changed_squares())),
        ("longest files", Box::new(long())),
        ("files of every count, mark and coordinate", Box::new(numbers())),
        ("short files", Box::new(small())),
    ];
    for (name, files) in lists {
        tally.at(name);
        told(name, files).for_each(|file| ask(tally, &file));
    }
}

/// Good files, which give records, and all damages to them.
fn ask_damaged(tally: &mut Tally, all: Vec<Named>) {
    for (name, bytes) in told("good files, damaged", all.into_iter()) {
        tally.at(format!("{name}, damaged"));
        let Answer::Records(numbers) = read(&bytes, usize::MAX).1 else {
            tally.object(&format!("made as a good file, and refused: {bytes:02x?}"));
            continue;
        };
        damaged(&bytes, numbers.len() / 5).for_each(|file| ask(tally, &file));
    }
}

fn ask_drawn(tally: &mut Tally, count: usize, seed: u64) {
    let mut dice = Dice(seed);
    ask_damaged(tally, drawn(&mut dice, 40, 60));
    for n in told("drawn files", 0..count) {
        tally.at(format!("drawn file {n} of seed {seed}"));
        ask(tally, &dice.file());
    }
}

pub fn judge(count: usize, seed: u64) -> Tally {
    let mut tally = Tally::new("files");
    ask_listed(&mut tally);
    match damaged_files::examples() {
        Ok(all) if !all.is_empty() => ask_damaged(&mut tally, all),
        other => tally.fail(&format!("the example charts: {other:?}")),
    }
    ask_drawn(&mut tally, count, seed);
    tally.demand((31..=36).map(Kind::Refused).chain([Kind::Records]));
    tally
}
