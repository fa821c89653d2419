//! Runs the bench on sessions, by hand and random ones, and compares all that it prints.

use std::collections::BTreeMap;
use std::env;
use std::fs;
use std::io;
use std::path::{Path, PathBuf};
use std::process;

use explorer::generate::commands::{session, Pool};
use explorer::job::Board;
use explorer::process::{run, Feed, Outcome};
use explorer::random::Random;
use explorer::session::{status, Reply, Session};
use explorer::transcript::{complaint, excerpt};

use crate::by_hand::{cases, Case};
use crate::trials::Judge;

/// All random sessions follow from this fixed start value.
const START: u64 = 20_260_419;
const RANDOM_SESSIONS: usize = 400;

/// The answers of each call that random sessions must have had.
const KINDS: &[(&str, &[&str])] = &[
    ("board", &["board none", "board tso"]),
    ("rows", &["rows"]),
    ("runs", &["runs"]),
    ("read", &["cannot read", "places", "refused 1", "refused 2"]),
    ("listing", &["places", "refused 1", "refused 2", "refused 3", "refused 4", "refused 5", "refused 6", "refused 7"]),
    ("bar", &["barred", "refused 8", "refused 9", "refused 10"]),
    ("free", &["freed", "refused 8", "refused 9", "refused 10"]),
    ("solve", &["report", "refused 8", "refused 14", "refused 15"]),
    ("report", &["report", "refused 8", "refused 12"]),
    ("test", &["enough", "run", "refused 8", "refused 9", "refused 11", "refused 14"]),
    ("show", &["run", "refused 8", "refused 9", "refused 11", "refused 12", "refused 13", "refused 14"]),
    ("plain", &["free of faults", "run", "refused 8", "refused 11", "refused 14"]),
    ("look", &["kept none", "placement"]),
    ("help", &["help"]),
    ("none", &["no such command"]),
];

/// Prints a line for each group of sessions and the table of what the random ones were answered.
pub fn compare(judge: &mut Judge, bench: PathBuf) -> io::Result<()> {
    if !bench.is_file() {
        judge.note_all("sessions", vec![Some(format!("sessions: there is no bench at {}", bench.display()))]);
        return Ok(());
    }
    let scratch = Scratch::new()?;
    let (help, complaint) = help(&bench);
    judge.note_all("help", vec![complaint]);
    let bench = Bench { path: bench, help, file: scratch.path("session") };
    let by_hand = cases(&scratch)?;
    judge.note_all("sessions by hand", by_hand.iter().map(|case| bench.complaint_by_hand(case)).collect());
    judge.note_all("sessions from files", by_hand.iter().map(|case| bench.complaint_from_file(case)).collect());
    judge.note_all("files that are not there", vec![bench.complaint_without_file(&scratch.path("missing"))]);
    let mut random = Random::starting_from(START);
    let pool = Pool::new(&mut random)?;
    let inputs: Vec<Vec<u8>> = (0..RANDOM_SESSIONS).map(|_| session(&mut random, &pool)).collect();
    let replies: Vec<Vec<Reply>> = inputs.iter().map(|input| Session::default().replies(input)).collect();
    let complaint = |number: usize| {
        let wrong = bench.wrong(&replies[number], &[], &inputs[number], Feed::Whole)?;
        Some(format!("random session {number}: {wrong}, session {}", excerpt(&inputs[number], 4_000)))
    };
    judge.note_all("random sessions", (0..RANDOM_SESSIONS).map(complaint).collect());
    judge.note_all("answers in sessions", Kinds::of(replies.iter().flatten()).complaints());
    Ok(())
}

/// A folder for files that only this comparison needs.
pub struct Scratch {
    folder: PathBuf,
}

impl Scratch {
    fn new() -> io::Result<Scratch> {
        let folder = env::temp_dir().join(format!("compare-sessions-{}", process::id()));
        fs::create_dir_all(&folder)?;
        Ok(Scratch { folder })
    }

    /// The path of a file, which may contain nothing yet.
    pub fn path(&self, name: &str) -> String {
        self.folder.join(name).display().to_string()
    }
}

impl Drop for Scratch {
    fn drop(&mut self) {
        // A folder that is left behind does no harm.
        let _ = fs::remove_dir_all(&self.folder);
    }
}

/// The text that the bench prints as its help, which is its own choice, and what is wrong with it.
fn help(bench: &Path) -> (Vec<u8>, Option<String>) {
    let outcome = match run(bench, &[], b"help\n", Feed::Whole) {
        Ok(outcome) => outcome,
        Err(error) => return (Vec::new(), Some(format!("help: {error}"))),
    };
    let is_text = outcome.output.len() > 1 && outcome.output.ends_with(b"\n");
    let complaint = if !is_text {
        Some(format!("help: no text, but {}", excerpt(&outcome.output, 200)))
    } else {
        wrong_status(&outcome, 0).map(|wrong| format!("help: {wrong}"))
    };
    (outcome.output, complaint)
}

struct Bench {
    path: PathBuf,
    help: Vec<u8>,
    /// Where a session is put that is not given on standard input.
    file: String,
}

impl Bench {
    fn complaint_by_hand(&self, case: &Case) -> Option<String> {
        let replies = Session::default().replies(&case.input);
        let wrong = case.wrong(&replies).or_else(|| self.wrong(&replies, &[], &case.input, case.feed))?;
        Some(format!("session by hand, {}: {wrong}, session {}", case.reason, excerpt(&case.input, 1_000)))
    }

    /// The same session from a file; standard input then has a command that is not met.
    fn complaint_from_file(&self, case: &Case) -> Option<String> {
        let replies = Session::default().replies(&case.input);
        let wrong = match fs::write(&self.file, &case.input) {
            Ok(()) => self.wrong(&replies, &[&self.file], b"plain\n", Feed::Whole)?,
            Err(error) => error.to_string(),
        };
        Some(format!("session from a file, {}: {wrong}, session {}", case.reason, excerpt(&case.input, 1_000)))
    }

    /// Where the commands cannot be read there is no session: nothing is printed on standard output, and the status is 1.
    fn complaint_without_file(&self, path: &str) -> Option<String> {
        let wrong = match run(&self.path, &[path], b"plain\n", Feed::Whole) {
            Ok(outcome) if outcome.output.is_empty() => wrong_status(&outcome, 1)?,
            Ok(outcome) => format!("printed {}", excerpt(&outcome.output, 100)),
            Err(error) => error.to_string(),
        };
        Some(format!("commands from {path}, which is not there: {wrong}"))
    }

    /// What is wrong with what the bench prints, or with its status.
    fn wrong(&self, replies: &[Reply], arguments: &[&str], input: &[u8], feed: Feed) -> Option<String> {
        match run(&self.path, arguments, input, feed) {
            Ok(outcome) => {
                complaint(replies, &self.help, &outcome.output).or_else(|| wrong_status(&outcome, status(replies)))
            }
            Err(error) => Some(error.to_string()),
        }
    }
}

fn wrong_status(outcome: &Outcome, status: i32) -> Option<String> {
    (outcome.status.code() != Some(status)).then(|| format!("ended with {}, not status {status}", outcome.status))
}

/// How often each call had each answer, on the buffered and on the unbuffered board.
struct Kinds {
    times: BTreeMap<(&'static str, String), [usize; 2]>,
}

impl Kinds {
    fn of<'a>(replies: impl Iterator<Item = &'a Reply>) -> Kinds {
        let mut times: BTreeMap<(&'static str, String), [usize; 2]> = BTreeMap::new();
        for reply in replies {
            let column = usize::from(reply.board == Board::Unbuffered);
            times.entry((reply.call, reply.kind.clone())).or_default()[column] += 1;
        }
        Kinds { times }
    }

    fn of_kind(&self, call: &'static str, kind: &str) -> [usize; 2] {
        self.times.get(&(call, kind.to_string())).copied().unwrap_or_default()
    }

    /// Prints the table; what never came up is a complaint.
    fn complaints(&self) -> Vec<Option<String>> {
        println!("\n| call | answer | tso | none | all |\n|---|---|---:|---:|---:|");
        let mut complaints = Vec::new();
        for &(call, kinds) in KINDS {
            for kind in kinds {
                let [tso, none] = self.of_kind(call, kind);
                println!("| {call} | {kind} | {tso} | {none} | {} |", tso + none);
                let never = tso + none == 0;
                complaints.push(never.then(|| format!("no random session has the answer {kind} to {call}")));
            }
        }
        for ((call, kind), times) in &self.times {
            let is_listed = KINDS.iter().any(|(name, kinds)| name == call && kinds.contains(&kind.as_str()));
            complaints
                .push((!is_listed).then(|| format!("{call} was answered {kind}, {times:?} times: not in the table")));
        }
        println!();
        complaints
    }
}
