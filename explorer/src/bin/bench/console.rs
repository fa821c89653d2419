//! The console and the explorer side by side, each as a process of its own on the same standard input.

use std::fs;
use std::io::{self, Write};
use std::path::Path;
use std::time::{Duration, Instant};

use explorer::answer::{answer, Answer, CONSOLE_ROWS};
use explorer::generate::{built, telling};
use explorer::hard::hard;
use explorer::listing;
use explorer::litmus::LITMUS;
use explorer::machine::buffered_graph;
use explorer::process;
use explorer::random::Random;

use crate::shown::{median, milliseconds};
use crate::AS_EXPLORER;

/// All random listings follow from this fixed start value.
const START: u64 = 20_260_418;
const RUNS: usize = 9;
const CONSOLE_LIMIT: Duration = Duration::from_secs(1);

/// A guard against a search that goes wrong: far more than any of the listings takes.
const EXPLORATION_LIMIT: u32 = 66;

struct Subject {
    name: String,
    text: Vec<u8>,
}

impl Subject {
    fn new(name: impl Into<String>, text: impl Into<Vec<u8>>) -> Subject {
        Subject { name: name.into(), text: text.into() }
    }
}

/// False if the console took too long for a listing that fits its rows, or explored it too often.
pub fn bench(console: &Path, effort: &Path, explorer: &Path) -> io::Result<bool> {
    println!(
        "| listing | standings | answer | explorations | console ms | explorer ms |\n|---|---:|---|---:|---:|---:|"
    );
    let mut slowest = (Duration::ZERO, String::new());
    let mut slower = Vec::new();
    let mut most = 0;
    for subject in subjects()? {
        let standings = standings(&subject.text);
        let (consoles, explorers) = measure(console, explorer, &subject.text)?;
        let (shown, answer) = (shown(standings), kind(&answer(&subject.text, CONSOLE_ROWS)));
        let explorations = explorations(effort, &subject.text)?;
        most = most.max(explorations);
        println!(
            "| {} | {shown} | {answer} | {explorations} | {} | {} |",
            subject.name,
            milliseconds(consoles),
            milliseconds(explorers)
        );
        if consoles > explorers {
            slower.push(subject.name.clone());
        }
        if standings.is_some() && consoles > slowest.0 {
            slowest = (consoles, subject.name);
        }
    }
    let slower = if slower.is_empty() { "none of them".to_string() } else { slower.join(", ") };
    println!("\nThe console is slower than the explorer on {slower}.");
    println!("Of the listings that fit, the console is slowest on {}: {} ms.", slowest.1, milliseconds(slowest.0));
    println!("No listing is explored more than {most} times.");
    Ok(slowest.0 <= CONSOLE_LIMIT && most <= EXPLORATION_LIMIT)
}

/// How often the console's search explores the listing, as `effort` counts it.
fn explorations(effort: &Path, text: &[u8]) -> io::Result<u32> {
    Ok(process::report(effort, &[], text)?.number("explorations")? as u32)
}

/// The medians of the console's and the explorer's times, which run by turns.
fn measure(console: &Path, explorer: &Path, text: &[u8]) -> io::Result<(Duration, Duration)> {
    let mut times = (Vec::new(), Vec::new());
    for _ in 0..RUNS {
        times.0.push(time(console, &[], text)?);
        times.1.push(time(explorer, &[AS_EXPLORER], text)?);
    }
    Ok((median(times.0), median(times.1)))
}

/// From the start of the process to its end. A listing fits a pipe, so it can be written before any output is read.
fn time(program: &Path, arguments: &[&str], text: &[u8]) -> io::Result<Duration> {
    let start = Instant::now();
    let mut child = process::started(program, arguments)?;
    child.stdin.take().expect("standard input is piped").write_all(text)?;
    child.wait_with_output()?;
    Ok(start.elapsed())
}

/// None if they do not fit the console's rows.
fn standings(text: &[u8]) -> Option<usize> {
    let program = listing::read(text).ok()?;
    Some(buffered_graph(&program, CONSOLE_ROWS)?.standings.len())
}

fn shown(standings: Option<usize>) -> String {
    standings.map_or("over 512".to_string(), |count| count.to_string())
}

fn kind(answer: &Answer) -> String {
    match answer {
        Answer::Fences(fences) => format!("fences {}", fences.len()),
        Answer::Refused(refusal) => format!("refused {}", refusal.reason as u8),
    }
}

fn subjects() -> io::Result<Vec<Subject>> {
    let mut subjects = examples()?;
    for litmus in LITMUS {
        if subjects.iter().all(|example| example.text != litmus.listing.as_bytes()) {
            subjects.push(Subject::new(litmus.name, litmus.listing));
        }
    }
    subjects.extend(hard().into_iter().map(|hard| Subject::new(hard.name, hard.listing)));
    subjects.extend(largest());
    Ok(subjects)
}

fn examples() -> io::Result<Vec<Subject>> {
    process::examples()?
        .into_iter()
        .map(|path| {
            let name = path.file_name().unwrap_or_default().to_string_lossy().into_owned();
            Ok(Subject::new(name, fs::read(&path)?))
        })
        .collect()
}

/// The largest of many random listings that are solved, for plain programs and for each number of fences that is built for.
fn largest() -> Vec<Subject> {
    let mut random = Random::starting_from(START);
    let mut found = vec![Subject::new("large random", largest_of(200, || telling(&mut random)))];
    for fences in 1..=4 {
        let listing = largest_of(200, || built(&mut random, fences));
        found.push(Subject::new(format!("large random, {fences} built in"), listing));
    }
    found
}

fn largest_of(draws: usize, mut draw: impl FnMut() -> Vec<u8>) -> Vec<u8> {
    let size = |text: &Vec<u8>| match answer(text, CONSOLE_ROWS) {
        Answer::Fences(_) => standings(text),
        Answer::Refused(_) => None,
    };
    (0..draws).map(|_| draw()).max_by_key(size).expect("there is at least one draw")
}
