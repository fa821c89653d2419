//! A trial is an input for the console; the judge gives it and keeps count.

use std::collections::BTreeMap;
use std::fmt;
use std::path::PathBuf;

use explorer::answer::{answer, Answer, CONSOLE_ROWS};
use explorer::process::{run, Feed};
use explorer::transcript::excerpt;

pub struct Trial {
    name: String,
    text: Vec<u8>,
    feed: Feed,
    expected: Option<Expected>,
}

/// What has to be printed, whole, by the rules or the literature, and why.
struct Expected {
    output: &'static str,
    reason: &'static str,
}

impl Trial {
    pub fn new(name: String, text: Vec<u8>) -> Trial {
        Trial { name, text, feed: Feed::Whole, expected: None }
    }

    pub fn expecting(self, output: &'static str, reason: &'static str) -> Trial {
        Trial { expected: Some(Expected { output, reason }), ..self }
    }

    pub fn fed(self, feed: Feed) -> Trial {
        Trial { feed, ..self }
    }
}

/// What a program printed and its exit status, if it has one.
#[derive(PartialEq, Eq)]
struct Reply {
    output: String,
    status: Option<i32>,
}

impl fmt::Display for Reply {
    fn fmt(&self, out: &mut fmt::Formatter) -> fmt::Result {
        match self.status {
            Some(status) => write!(out, "{:?} with status {status}", self.output),
            None => write!(out, "{:?} without a status", self.output),
        }
    }
}

pub struct Judge {
    console: PathBuf,
    groups: Vec<String>,
    passed: usize,
    failures: Vec<String>,
    /// How often each kind of answer came up in each group.
    kinds: BTreeMap<Kind, Vec<usize>>,
}

/// Such as `fences 2` or `refused 3`.
type Kind = (&'static str, usize);

impl Judge {
    pub fn new(console: PathBuf) -> Judge {
        Judge { console, groups: Vec::new(), passed: 0, failures: Vec::new(), kinds: BTreeMap::new() }
    }

    /// Runs the trials of a group and prints a line about them.
    pub fn group(&mut self, name: &str, trials: Vec<Trial>) {
        self.groups.push(name.to_string());
        let complaints: Vec<Option<String>> = trials.iter().map(|trial| self.complaint_in_full(trial)).collect();
        self.note_all(name, complaints);
    }

    /// Counts comparisons, each with what was wrong with it, and prints a line about them.
    pub fn note_all(&mut self, name: &str, complaints: Vec<Option<String>>) {
        let failed = complaints.iter().flatten().count();
        println!("{name}: {} passed, {failed} failed", complaints.len() - failed);
        complaints.into_iter().for_each(|complaint| self.note(complaint));
    }

    fn note(&mut self, failure: Option<String>) {
        match failure {
            None => self.passed += 1,
            Some(failure) => self.failures.push(failure),
        }
    }

    /// What is wrong with the answers to a trial, with the trial's name and listing.
    fn complaint_in_full(&mut self, trial: &Trial) -> Option<String> {
        let complaint = self.complaint(trial)?;
        Some(format!("{}: {complaint}, listing {}", trial.name, excerpt(&trial.text, 600)))
    }

    /// The answers to a trial, if they are not all the same.
    fn complaint(&mut self, trial: &Trial) -> Option<String> {
        let answer = answer(&trial.text, CONSOLE_ROWS);
        self.count(&answer);
        let explorer = Reply { output: answer.to_string(), status: Some(i32::from(answer.exit_status())) };
        let wrong = trial.expected.as_ref().filter(|expected| expected.output != explorer.output);
        let console = match run(&self.console, &[], &trial.text, trial.feed) {
            Ok(outcome) => {
                let output = String::from_utf8_lossy(&outcome.output).into_owned();
                Reply { output, status: outcome.status.code() }
            }
            Err(error) => return Some(format!("console {error}, explorer {explorer}")),
        };
        match wrong {
            Some(Expected { output, reason }) => {
                Some(format!("console {console}, explorer {explorer}, by hand {output:?} ({reason})"))
            }
            None => (console != explorer).then(|| format!("console {console}, explorer {explorer}")),
        }
    }

    fn count(&mut self, answer: &Answer) {
        let kind = match answer {
            Answer::Fences(fences) => ("fences", fences.len()),
            Answer::Refused(refusal) => ("refused", refusal.reason as usize),
        };
        let times = self.kinds.entry(kind).or_default();
        times.resize(self.groups.len(), 0);
        times[self.groups.len() - 1] += 1;
    }

    /// Every refusal of the console, and 0 to 4 fences, must have come up.
    pub fn check_kinds(&mut self) {
        let refusals = [1, 2, 3, 4, 5, 6, 7, 14, 15].map(|number| ("refused", number));
        let fences = [0, 1, 2, 3, 4].map(|number| ("fences", number));
        for kind in refusals.into_iter().chain(fences) {
            let never = !self.kinds.contains_key(&kind);
            self.note(never.then(|| format!("no listing has the answer {} {}", kind.0, kind.1)));
        }
    }

    /// How often each answer came up, as a table.
    fn print_kinds(&self) {
        println!("\n| answer | {} | all |", self.groups.join(" | "));
        println!("|---|{}", "---|".repeat(self.groups.len() + 1));
        for ((word, number), times) in &self.kinds {
            let mut cells: Vec<String> = times.iter().map(usize::to_string).collect();
            cells.resize(self.groups.len(), "0".to_string());
            println!("| {word} {number} | {} | {} |", cells.join(" | "), times.iter().sum::<usize>());
        }
        println!();
    }

    /// Prints the table, the failures and, last, the counts; gives the number of failures.
    pub fn conclude(self) -> usize {
        self.print_kinds();
        for failure in &self.failures {
            println!("failed: {failure}");
        }
        println!("{} passed, {} failed", self.passed, self.failures.len());
        self.failures.len()
    }
}
