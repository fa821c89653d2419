//! Random sessions: commands that follow what the job holds, so that every answer and refusal comes up.

use std::collections::BTreeSet;
use std::io;

use super::{built, damaged, plain, telling};
use crate::job::{Board, MOST_ROWS};
use crate::listing::{self, Program};
use crate::litmus::LITMUS;
use crate::machine::buffered_graph;
use crate::process;
use crate::random::Random;
use crate::session::Session;

/// A listing that reaches more standings would make a session's searches slow.
const MOST_STANDINGS: usize = 3_000;

/// Commands that give a job a listing, each with all its lines.
pub struct Pool {
    /// Listings that are read.
    good: Vec<Vec<u8>>,
    /// Listings that were damaged, most of which are refused.
    damaged: Vec<Vec<u8>>,
    /// Files that are listings.
    files: Vec<Vec<u8>>,
}

/// Names of files that are there and are no listings, and of files that are not there.
const OTHER_FILES: [&str; 4] = ["README.md", "crates.txt", "examples/missing.lst", "missing/store_buffering.lst"];

impl Pool {
    pub fn new(random: &mut Random) -> io::Result<Pool> {
        let mut good: Vec<Vec<u8>> = Vec::new();
        for litmus in LITMUS {
            good.extend((1..=4).map(|bound| litmus.at_bound(bound).into_bytes()));
        }
        good.extend(EDGES.map(|listing| listing.as_bytes().to_vec()));
        good.extend((0..160).map(|number| match number % 4 {
            0 => plain(random),
            1 => telling(random),
            _ => built(random, 1 + number / 4 % 4),
        }));
        let mut damaged: Vec<Vec<u8>> = (0..140).map(|number| damaged(random, 1 + number % 7)).collect();
        good = good.into_iter().map(|listing| with_more_faults(random, listing)).collect();
        good.retain(|listing| is_small(listing));
        damaged.retain(|listing| is_small(listing));
        let files = process::examples()?.iter().filter_map(|path| path.file_name()?.to_str()).map(example).collect();
        Ok(Pool { good: inline(good), damaged: inline(damaged), files })
    }
}

/// Small listings of a kind that is rare among the others.
const EDGES: [&str; 5] = [
    "bound 1\nthread\nstore a 1\nfault mem a 2\n",
    "bound 1\nthread\nstore a 1\nfault mem a 1\n",
    "bound 1\nthread\njump 0\nfault mem a 0\n",
    "bound 4\nthread\nstore a 1\nstore a 2\nstore a 3\nfault mem b 1\nfault mem a 3\nfault mem a 2\n",
    "bound 1\nthread\nload r0 a\njne r0 1 0\nload r1 b\nthread\nstore b 1\nstore a 1\nfault at 0 3 reg 0 r1 0\n",
];

/// Often with a first fault line that never holds, and with the last one once more, where there is room for them. So
/// the first line that holds is not always the first or the last.
fn with_more_faults(random: &mut Random, listing: Vec<u8>) -> Vec<u8> {
    let mut lines: Vec<&[u8]> = listing.split(|&byte| byte == b'\n').collect();
    let is_fault = |line: &&[u8]| line.trim_ascii_start().starts_with(b"fault");
    let (Some(first), Some(last)) = (lines.iter().position(is_fault), lines.iter().rposition(is_fault)) else {
        return listing;
    };
    if random.percent(40) {
        lines.insert(last + 1, lines[last]);
    }
    if random.percent(40) {
        lines.insert(first, b"fault mem h 14 mem h 15");
    }
    let longer = lines.join(&b'\n');
    if listing::read(&longer).is_ok() {
        longer
    } else {
        listing
    }
}

fn example(name: &str) -> Vec<u8> {
    format!("read examples/{name}\n").into_bytes()
}

/// The listing is refused, or what it reaches is searched quickly.
fn is_small(listing: &[u8]) -> bool {
    listing::read(listing).map_or(true, |program| buffered_graph(&program, MOST_STANDINGS).is_some())
}

/// Each listing as a command; no line of them may look like the listing's end.
fn inline(listings: Vec<Vec<u8>>) -> Vec<Vec<u8>> {
    let command = |listing: Vec<u8>| {
        let end = if listing.is_empty() || listing.ends_with(b"\n") { "end\n" } else { "\nend\n" };
        [b"listing\n".as_slice(), &listing, end.as_bytes()].concat()
    };
    let has_end = |listing: &Vec<u8>| listing.split(|&byte| byte == b'\n').any(|line| line == b"end");
    listings.into_iter().filter(|listing| !has_end(listing)).map(command).collect()
}

/// A session of 10 to 30 commands, not counting the looks that follow some of them. The last may lack its line end.
pub fn session(random: &mut Random, pool: &Pool) -> Vec<u8> {
    let mut writer = Writer { random, pool, session: Session::default(), input: Vec::new() };
    if writer.random.percent(50) {
        writer.write_board();
    }
    for _ in 0..writer.random.between(10, 30) {
        writer.write_command();
    }
    if writer.random.percent(10) {
        writer.input.pop();
    }
    writer.input
}

/// What is written so far, and the session as it stands after it.
struct Writer<'a> {
    random: &'a mut Random,
    pool: &'a Pool,
    session: Session,
    input: Vec<u8>,
}

impl Writer<'_> {
    fn write(&mut self, command: impl AsRef<[u8]>) {
        self.input.extend(command.as_ref());
        let replies = self.session.replies(command.as_ref());
        let has_failed = replies.iter().any(|reply| reply.fails);
        if has_failed && self.random.percent(60) {
            self.write_looks();
        }
    }

    /// What the job holds is seen, so that a refused call which changed it is found out.
    fn write_looks(&mut self) {
        self.write_quietly("look\n");
        if self.random.percent(50) {
            self.write_quietly("report\n");
        }
    }

    fn write_quietly(&mut self, command: &str) {
        self.input.extend(command.as_bytes());
        self.session.replies(command.as_bytes());
    }

    fn write_command(&mut self) {
        if self.session.job().program().is_none() && self.random.percent(60) {
            return self.write_listing();
        }
        match self.random.below(100) {
            0..=5 => self.write_listing(),
            6..=19 => self.write_rows(),
            20..=25 => self.write_run_list(),
            26..=32 => self.write_bar(),
            33..=37 => self.write_free(),
            38..=51 => self.write("solve\n"),
            52..=64 => self.write_test(),
            65..=82 => self.write_show(),
            83..=89 => self.write("plain\n"),
            90..=94 => self.write_looks(),
            95 => self.write_board(),
            96 => self.write("help\n"),
            97 => self.write(" \n"),
            _ => self.write_no_command(),
        }
    }

    fn write_board(&mut self) {
        let board = if self.random.percent(60) { "tso" } else { "none" };
        self.write(format!("board {board}\n"));
    }

    fn write_listing(&mut self) {
        let command = match self.random.below(100) {
            0..=24 => self.random.pick(&self.pool.files).clone(),
            25..=74 => self.random.pick(&self.pool.good).clone(),
            75..=92 => self.random.pick(&self.pool.damaged).clone(),
            _ => format!("read {}\n", self.random.pick(&OTHER_FILES)).into_bytes(),
        };
        self.write(command);
    }

    /// Often as many rows as the program has standings, one fewer or one more.
    fn write_rows(&mut self) {
        let board = if self.random.percent(70) { Board::Buffered } else { Board::Unbuffered };
        let standings = self.session.job().standings(board).unwrap_or(4);
        let rows = match self.random.below(100) {
            0..=7 => self.random.below(4),
            8..=12 => self.random.between(4, 40),
            13..=26 => standings - 1,
            27..=49 => standings,
            50..=59 => standings + 1,
            60..=69 => 512,
            70..=89 => 8192,
            _ => MOST_ROWS,
        };
        self.write(format!("rows {rows}\n"));
    }

    /// Often as long as there are rows, or one shorter.
    fn write_run_list(&mut self) {
        let rows = self.session.lent().rows;
        let length = match self.random.below(100) {
            0..=29 => rows.saturating_sub(1),
            30..=59 => rows,
            60..=69 => (rows + 1).min(MOST_ROWS),
            70..=79 => self.random.below(rows + 1),
            80..=84 => 0,
            _ => MOST_ROWS,
        };
        self.write(format!("runs {length}\n"));
    }

    fn write_bar(&mut self) {
        let place = match self.random.below(4) {
            0 => self.place_of(75, |session| Some(session.job().barred().clone())),
            _ => self.place_of(60, |session| session.job().kept().cloned()),
        };
        self.write(format!("bar {place}\n"));
    }

    fn write_free(&mut self) {
        let place = self.place_of(70, |session| Some(session.job().barred().clone()));
        self.write(format!("free {place}\n"));
    }

    /// What is not kept cannot be shown, so that most times a set is looked for first.
    fn write_show(&mut self) {
        if self.session.job().kept().is_none() && self.random.percent(70) {
            self.write("solve\n");
        }
        let place = self.place_of(85, |session| session.job().kept().cloned());
        self.write(format!("show {place}\n"));
    }

    /// This many times in a hundred a place of the set, if it has any; else some place, or one that is not there.
    fn place_of(&mut self, chance: usize, set: impl Fn(&Session) -> Option<BTreeSet<usize>>) -> String {
        let set: Vec<usize> = set(&self.session).unwrap_or_default().into_iter().collect();
        if !set.is_empty() && self.random.percent(chance) {
            let place = *self.random.pick(&set);
            return self.written(place);
        }
        self.some_place(75)
    }

    /// This many times in a hundred a place of the program, if there is one.
    fn some_place(&mut self, chance: usize) -> String {
        let places = self.places();
        if places > 0 && self.random.percent(chance) {
            let place = self.random.below(places);
            return self.written(place);
        }
        let threads = self.session.job().program().map_or(vec![1], |p| p.threads.iter().map(Vec::len).collect());
        let thread = self.random.below(threads.len());
        match self.random.below(4) {
            0 => format!("{thread} {}", threads[thread]),
            1 => format!("{} 0", threads.len()),
            2 => format!("{} {}", self.random.between(4, 255), self.random.below(16)),
            _ => format!("{thread} {}", self.random.between(16, 255)),
        }
    }

    fn places(&self) -> usize {
        self.session.job().program().map_or(0, Program::places)
    }

    fn written(&self, place: usize) -> String {
        let program = self.session.job().program().expect("a place is one of a program");
        let (thread, instruction) = program.whereabouts(place);
        format!("{thread} {instruction}")
    }

    /// Sets near the kept one, which is enough by little, and others; in any order, and some places more than once.
    fn write_test(&mut self) {
        let mut set: Vec<usize> = match self.random.below(100) {
            0..=19 => Vec::new(),
            20..=29 => (0..self.places()).collect(),
            30..=64 => self.session.job().kept().iter().flat_map(|kept| kept.iter().copied()).collect(),
            _ => (0..self.places()).filter(|_| self.random.percent(40)).collect(),
        };
        self.random.shuffle(&mut set);
        if self.random.percent(40) {
            set.pop();
        }
        if !set.is_empty() && self.random.percent(20) {
            set.push(set[0]);
        }
        let mut words: Vec<String> = set.into_iter().map(|place| self.written(place)).collect();
        if self.random.percent(12) {
            words.push(self.some_place(0));
            self.random.shuffle(&mut words);
        }
        let words: String = words.into_iter().map(|place| format!(" {place}")).collect();
        self.write(format!("test{words}\n"));
    }

    fn write_no_command(&mut self) {
        const NONE: [&str; 12] = [
            "sovle",
            "solve now",
            "bar 0",
            "bar 0 0 0",
            "test 0",
            "show",
            "rows",
            "rows 65537",
            "runs -1",
            "board both",
            "Look",
            "end",
        ];
        if self.random.percent(60) {
            let line = *self.random.pick(&NONE);
            return self.write(format!("{line}\n"));
        }
        let bytes = (0..self.random.between(1, 40)).map(|_| self.random.below(256) as u8);
        let mut line: Vec<u8> = bytes.filter(|&byte| byte != b'\n').collect();
        line.push(b'\n');
        self.write(line);
    }
}
