//! A judge from outside: document 01's rules, written from its sentences with wide integers and exact fractions, and
//! compared with what the proved library answers at its boundary, by the raw functions and through the safe wrapper. It
//! shares nothing with the library but the questions. Its own answers are held to the papers' examples, to second
//! opinions and to how a chart or a file was made. The last line is 'N passed, M failed'.

mod asking;
mod bench;
mod dice;
mod judges;
mod making;
mod progress;
mod rules;
mod tally;

use judges::{charts, faces, files, gauges, heads, joins, nearest, tape};
use std::io::{stdout, BufWriter};
use std::process::ExitCode;
use std::thread;
use tally::{close, Tally};

const USAGE: &str = "usage:
    judge charts|faces|heads|joins|gauges|files [COUNT [SEED]]
                                           asks the boundary: listed questions, then COUNT drawn ones
    judge all [COUNT [SEED]]               all of these
    judge nearest PROGRAM [COUNT [SEED]]   asks the program what the boundary does not offer
    judge tape [COUNT [SEED]]              writes COUNT questions with their answers to standard output
    judge bench-faces|bench-joins [COUNT]  times COUNT lists or joins of large charts, and judges no time
COUNT is 20000, of what is timed 50, and SEED is 1 where they are not given.";

type Judge = fn(usize, u64) -> Tally;

const JUDGES: [(&str, Judge); 6] = [
    ("charts", charts::judge),
    ("faces", faces::judge),
    ("heads", heads::judge),
    ("joins", joins::judge),
    ("gauges", gauges::judge),
    ("files", files::judge),
];

/// How many questions are drawn, and the seed.
fn numbers(words: &[&str]) -> Option<(usize, u64)> {
    match words {
        [] => Some((20_000, 1)),
        [count] => Some((count.parse().ok()?, 1)),
        [count, seed] => Some((count.parse().ok()?, seed.parse().ok()?)),
        _ => None,
    }
}

fn write_tape(count: usize, seed: u64) -> bool {
    let written = tape::write(count, seed, &mut BufWriter::new(stdout().lock()));
    written.inspect_err(|error| eprintln!("judge: {error}")).is_ok()
}

/// What each of these tallies, each in a thread of its own: the archive keeps nothing between two questions.
fn ask<'a>(judges: impl Iterator<Item = &'a (&'static str, Judge)>, count: usize, seed: u64) -> Vec<Tally> {
    thread::scope(|scope| {
        let asking: Vec<_> = judges.map(|&(_, judge)| scope.spawn(move || judge(count, seed))).collect();
        asking.into_iter().map(|judge| judge.join().expect("a judge closes with its tally")).collect()
    })
}

/// Does what the words say, and whether all is well; none where they say nothing that is known.
fn run(words: &[&str]) -> Option<bool> {
    match *words {
        ["nearest", program, ref rest @ ..] => {
            let (count, seed) = numbers(rest)?;
            Some(close(&[nearest::judge(program, count, seed)]))
        }
        ["tape", ref rest @ ..] => {
            let (count, seed) = numbers(rest)?;
            Some(write_tape(count, seed))
        }
        [name @ ("bench-faces" | "bench-joins"), ref rest @ ..] => {
            let count = match rest {
                [] => 50,
                [count] => count.parse().ok().filter(|&count| count > 0)?,
                _ => return None,
            };
            Some(if name == "bench-faces" { bench::faces(count) } else { bench::joins(count) })
        }
        [name, ref rest @ ..] => {
            let (count, seed) = numbers(rest)?;
            let meant = JUDGES.iter().filter(|(known, _)| name == *known || name == "all");
            let tallies = ask(meant, count, seed);
            (!tallies.is_empty()).then(|| close(&tallies))
        }
        [] => None,
    }
}

fn main() -> ExitCode {
    let words: Vec<String> = std::env::args().skip(1).collect();
    match run(&words.iter().map(String::as_str).collect::<Vec<&str>>()) {
        Some(true) => ExitCode::SUCCESS,
        Some(false) => ExitCode::FAILURE,
        None => {
            eprintln!("{USAGE}");
            ExitCode::from(2)
        }
    }
}
