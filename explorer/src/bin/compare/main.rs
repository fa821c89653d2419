//! Runs the console on many listings and the bench on many sessions, and compares all that they print, and their exit
//! status, with the explorer's answers and with answers written by hand. The first argument is the console's path, if
//! it is not the one that the repository builds; the bench then lies beside it.

mod by_hand;
mod edges;
mod sessions;
mod trials;

use std::collections::HashSet;
use std::env;
use std::fs;
use std::io;
use std::process::ExitCode;

use explorer::generate::{built, damaged, plain, telling};
use explorer::hard::{hard, Hard};
use explorer::litmus::{Litmus, LITMUS};
use explorer::process;
use explorer::random::Random;
use trials::{Judge, Trial};

/// All random listings follow from this fixed start value.
const START: u64 = 20_260_417;
/// The random listings of each of the three kinds.
const RANDOM_LISTINGS: usize = 240;

fn main() -> ExitCode {
    process::exit_code(compare().map(|failed| failed == 0))
}

/// The number of failed checks.
fn compare() -> io::Result<usize> {
    let console = process::console(env::args().nth(1))?;
    let bench = process::bench(&console)?;
    // Sessions name the listings that they read from here.
    env::set_current_dir(process::repository_root()?)?;
    let mut judge = Judge::new(console);
    judge.group("examples", examples()?);
    judge.group("litmus", litmus());
    judge.group("hard", hard().into_iter().map(hard_trial).collect());
    judge.group("edges", edges::edges());
    for (name, trials) in random_listings() {
        judge.group(name, trials);
    }
    judge.check_kinds();
    sessions::compare(&mut judge, bench)?;
    Ok(judge.conclude())
}

/// Each example, with the answer of the table if it has one there.
fn examples() -> io::Result<Vec<Trial>> {
    let mut trials = Vec::new();
    for path in process::examples()? {
        let text = fs::read(&path)?;
        let known = LITMUS.iter().find(|litmus| litmus.listing.as_bytes() == text);
        let trial = Trial::new(path.display().to_string(), text);
        trials.push(match known {
            Some(litmus) => trial.expecting(litmus.answer, litmus.reason),
            None => trial,
        });
    }
    Ok(trials)
}

/// Each program of the table at every bound, with the table's answer where it holds.
fn litmus() -> Vec<Trial> {
    let at_bound = |litmus: &Litmus, bound| {
        let trial = Trial::new(format!("{} at bound {bound}", litmus.name), litmus.at_bound(bound).into_bytes());
        if litmus.bounds.contains(&bound) {
            trial.expecting(litmus.answer, litmus.reason)
        } else {
            trial
        }
    };
    LITMUS.iter().flat_map(|litmus| (1..=4).map(move |bound| at_bound(litmus, bound))).collect()
}

fn hard_trial(hard: Hard) -> Trial {
    Trial::new(hard.name.to_string(), hard.listing.into_bytes()).expecting(hard.answer, hard.reason)
}

/// Plain, damaged and built listings, no two of them alike.
fn random_listings() -> [(&'static str, Vec<Trial>); 3] {
    let mut random = Random::starting_from(START);
    let mut seen = HashSet::new();
    let mut trials = |kind: &str, listing: &dyn Fn(&mut Random, usize) -> Vec<u8>| {
        let mut trials = Vec::new();
        while trials.len() < RANDOM_LISTINGS {
            let number = trials.len();
            let text = listing(&mut random, number);
            if seen.insert(text.clone()) {
                trials.push(Trial::new(format!("{kind} {number}"), text));
            }
        }
        trials
    };
    [
        (
            "random",
            trials("random program", &|random, number| match number % 2 {
                0 => plain(random),
                _ => telling(random),
            }),
        ),
        ("damaged", trials("damaged listing", &|random, number| damaged(random, 1 + number % 7))),
        ("built", trials("built program", &|random, number| built(random, 1 + number % 4))),
    ]
}
