//! A session with a job: commands, a line each, and what has to be printed for each of them.

use std::ffi::OsStr;
use std::fmt;
use std::fs;
use std::os::unix::ffi::OsStrExt;

use crate::job::{At, Board, Job, Lent, MOST_ROWS};
use crate::listing::{Reason, Refusal};
use crate::run::FaultRun;

/// The memory of a session that has not said otherwise.
const ROWS_AT_THE_START: usize = 8192;
/// The highest number of a thread or an instruction that a job is asked about.
const MOST_OF_A_PLACE: usize = 255;

/// A line that is of one of these forms; all others are no command.
enum Command<'a> {
    Board(Board),
    Rows(usize),
    Runs(usize),
    Read(&'a [u8]),
    Listing,
    Bar(At),
    Free(At),
    Solve,
    Report,
    Test(Vec<At>),
    Show(At),
    Plain,
    Look,
    Help,
    Quit,
}

/// The line without the spaces around it.
fn trimmed(line: &[u8]) -> &[u8] {
    let start = line.iter().position(|&byte| byte != b' ').unwrap_or(line.len());
    let end = line.iter().rposition(|&byte| byte != b' ').map_or(start, |last| last + 1);
    &line[start..end]
}

impl<'a> Command<'a> {
    /// A path is the rest of its line, so that it may have spaces in it; all other commands go by their words.
    fn of_line(line: &'a [u8], words: &[&'a [u8]]) -> Option<Command<'a>> {
        match trimmed(line).strip_prefix(b"read ") {
            Some(rest) => Some(Command::Read(trimmed(rest))),
            None => Command::new(words),
        }
    }

    fn new(words: &[&'a [u8]]) -> Option<Command<'a>> {
        let (&name, rest) = words.split_first()?;
        Some(match (name, rest) {
            (b"board", [b"tso"]) => Command::Board(Board::Buffered),
            (b"board", [b"none"]) => Command::Board(Board::Unbuffered),
            (b"rows", [rows]) => Command::Rows(number(rows, MOST_ROWS)?),
            (b"runs", [runs]) => Command::Runs(number(runs, MOST_ROWS)?),
            (b"listing", []) => Command::Listing,
            (b"bar", [thread, instruction]) => Command::Bar(at(thread, instruction)?),
            (b"free", [thread, instruction]) => Command::Free(at(thread, instruction)?),
            (b"solve", []) => Command::Solve,
            (b"report", []) => Command::Report,
            (b"test", places) => Command::Test(set(places)?),
            (b"show", [thread, instruction]) => Command::Show(at(thread, instruction)?),
            (b"plain", []) => Command::Plain,
            (b"look", []) => Command::Look,
            (b"help", []) => Command::Help,
            (b"quit", []) => Command::Quit,
            _ => return None,
        })
    }

    fn name(&self) -> &'static str {
        match self {
            Command::Board(_) => "board",
            Command::Rows(_) => "rows",
            Command::Runs(_) => "runs",
            Command::Read(_) => "read",
            Command::Listing => "listing",
            Command::Bar(_) => "bar",
            Command::Free(_) => "free",
            Command::Solve => "solve",
            Command::Report => "report",
            Command::Test(_) => "test",
            Command::Show(_) => "show",
            Command::Plain => "plain",
            Command::Look => "look",
            Command::Help => "help",
            Command::Quit => "quit",
        }
    }
}

/// A word of digits alone, up to a limit.
fn number(word: &[u8], most: usize) -> Option<usize> {
    word.iter().try_fold(0, |sum, digit| {
        let sum = 10 * sum + usize::from(digit.checked_sub(b'0')?);
        (digit.is_ascii_digit() && sum <= most).then_some(sum)
    })
}

fn at(thread: &[u8], instruction: &[u8]) -> Option<At> {
    Some(At { thread: number(thread, MOST_OF_A_PLACE)?, instruction: number(instruction, MOST_OF_A_PLACE)? })
}

fn set(words: &[&[u8]]) -> Option<Vec<At>> {
    let pair = |pair: &[&[u8]]| match pair {
        [thread, instruction] => at(thread, instruction),
        _ => None,
    };
    words.chunks(2).map(pair).collect()
}

/// What has to be printed for a command, line ends included.
#[derive(Clone, Debug)]
pub enum Printed {
    Exactly(Vec<u8>),
    /// Any run that is asked for.
    Run(FaultRun),
    /// The help, of which the words are free.
    Help,
    /// A line that begins by saying that the file of this name cannot be read.
    Unreadable(Vec<u8>),
}

/// What is free is shown in brackets, or left away at a line's end.
impl fmt::Display for Printed {
    fn fmt(&self, out: &mut fmt::Formatter) -> fmt::Result {
        match self {
            Printed::Exactly(text) => write!(out, "{}", String::from_utf8_lossy(text)),
            Printed::Run(_) => writeln!(out, "(run)"),
            Printed::Help => writeln!(out, "(help)"),
            Printed::Unreadable(name) => writeln!(out, "cannot read {}", String::from_utf8_lossy(name)),
        }
    }
}

/// An answer: its kind in a word or two, what is printed, and whether it makes the session end with status 1.
#[derive(Clone, Debug)]
struct Answer {
    kind: String,
    printed: Printed,
    fails: bool,
}

impl Answer {
    fn text(kind: &str, text: impl Into<Vec<u8>>) -> Answer {
        Answer { kind: kind.to_string(), printed: Printed::Exactly(text.into()), fails: false }
    }

    fn refused(refusal: Refusal) -> Answer {
        let kind = format!("refused {}", refusal.reason as u8);
        Answer { kind, printed: Printed::Exactly(format!("{refusal}\n").into()), fails: true }
    }

    /// All calls but `read` are refused at line 0.
    fn declined(reason: Reason) -> Answer {
        Answer::refused(Refusal { reason, line: 0 })
    }

    /// A fault run, or these words if there is none.
    fn run_or(run: Option<FaultRun>, words: &str) -> Answer {
        match run {
            Some(run) => Answer { kind: "run".to_string(), printed: Printed::Run(run), fails: false },
            None => Answer::text(words, format!("{words}\n")),
        }
    }

    fn unreadable(name: &[u8]) -> Answer {
        Answer { kind: "cannot read".to_string(), printed: Printed::Unreadable(name.to_vec()), fails: true }
    }
}

/// A command that was met and its answer.
#[derive(Clone, Debug)]
pub struct Reply {
    /// The command's line, without what follows `listing`.
    pub line: Vec<u8>,
    /// The command's name; that of no command is `none`.
    pub call: &'static str,
    pub kind: String,
    pub board: Board,
    pub printed: Printed,
    pub fails: bool,
}

impl Reply {
    fn new(line: &[u8], call: &'static str, board: Board, answer: Answer) -> Reply {
        let Answer { kind, printed, fails } = answer;
        Reply { line: line.to_vec(), call, kind, board, printed, fails }
    }
}

/// The exit status after these replies.
pub fn status(replies: &[Reply]) -> i32 {
    i32::from(replies.iter().any(|reply| reply.fails))
}

/// The lines of an input, of which the last may lack its end.
struct Lines<'a> {
    left: &'a [u8],
}

impl<'a> Iterator for Lines<'a> {
    type Item = &'a [u8];

    fn next(&mut self) -> Option<&'a [u8]> {
        if self.left.is_empty() {
            return None;
        }
        let end = self.left.iter().position(|&byte| byte == b'\n');
        let line = &self.left[..end.unwrap_or(self.left.len())];
        self.left = &self.left[(line.len() + 1).min(self.left.len())..];
        Some(line)
    }
}

impl Lines<'_> {
    /// The lines up to one that says `end`, each with a line end.
    fn listing(&mut self) -> Vec<u8> {
        self.take_while(|&line| trimmed(line) != b"end").flat_map(|line| [line, b"\n"].concat()).collect()
    }
}

pub struct Session {
    job: Job,
    lent: Lent,
    has_quit: bool,
}

impl Default for Session {
    fn default() -> Session {
        let lent = Lent { rows: ROWS_AT_THE_START, run_list: ROWS_AT_THE_START };
        Session { job: Job::new(Board::Buffered), lent, has_quit: false }
    }
}

impl Session {
    pub fn job(&self) -> &Job {
        &self.job
    }

    pub fn lent(&self) -> Lent {
        self.lent
    }

    /// Goes on with more input, of whole commands.
    pub fn replies(&mut self, input: &[u8]) -> Vec<Reply> {
        let mut lines = Lines { left: input };
        let mut replies = Vec::new();
        while !self.has_quit {
            let Some(line) = lines.next() else {
                break;
            };
            replies.extend(self.reply(line, &mut lines));
        }
        replies
    }

    /// None where nothing is printed.
    fn reply(&mut self, line: &[u8], lines: &mut Lines) -> Option<Reply> {
        let words: Vec<&[u8]> = line.split(|&byte| byte == b' ').filter(|word| !word.is_empty()).collect();
        if words.is_empty() {
            return None;
        }
        let Some(command) = Command::of_line(line, &words) else {
            let text = [b"no such command: ", line, b"\n"].concat();
            let answer = Answer { fails: true, ..Answer::text("no such command", text) };
            return Some(Reply::new(line, "none", self.job.board(), answer));
        };
        let name = command.name();
        let answer = self.answer(command, lines)?;
        Some(Reply::new(line, name, self.job.board(), answer))
    }

    fn answer(&mut self, command: Command, lines: &mut Lines) -> Option<Answer> {
        let answer = match command {
            Command::Board(board) => Ok(self.change_board(board)),
            Command::Rows(rows) => Ok(self.change_rows(rows)),
            Command::Runs(runs) => Ok(self.change_run_list(runs)),
            Command::Read(path) => Ok(self.read_file(path)),
            Command::Listing => Ok(self.read(&lines.listing())),
            Command::Bar(at) => self.job.bar(at).map(|()| changed("barred", at)),
            Command::Free(at) => self.job.free(at).map(|()| changed("freed", at)),
            Command::Solve => self.job.solve(self.lent.rows).and_then(|()| self.report()),
            Command::Report => self.report(),
            Command::Test(places) => self.job.test(&places, self.lent).map(|run| Answer::run_or(run, "enough")),
            Command::Show(at) => self.job.show(at, self.lent).map(|run| Answer::run_or(Some(run), "")),
            Command::Plain => self.job.plain(self.lent).map(|run| Answer::run_or(run, "free of faults")),
            Command::Look => Ok(self.look()),
            Command::Help => Ok(Answer { printed: Printed::Help, ..Answer::text("help", "") }),
            Command::Quit => {
                self.has_quit = true;
                return None;
            }
        };
        Some(answer.unwrap_or_else(Answer::declined))
    }

    fn change_board(&mut self, board: Board) -> Answer {
        self.job = Job::new(board);
        match board {
            Board::Buffered => Answer::text("board tso", "board tso\n"),
            Board::Unbuffered => Answer::text("board none", "board none\n"),
        }
    }

    fn change_rows(&mut self, rows: usize) -> Answer {
        self.lent = Lent { rows, run_list: rows };
        Answer::text("rows", format!("rows {rows}\n"))
    }

    fn change_run_list(&mut self, run_list: usize) -> Answer {
        self.lent.run_list = run_list;
        Answer::text("runs", format!("runs {run_list}\n"))
    }

    fn read_file(&mut self, path: &[u8]) -> Answer {
        match fs::read(OsStr::from_bytes(path)) {
            Ok(text) => self.read(&text),
            Err(_) => Answer::unreadable(path),
        }
    }

    fn read(&mut self, text: &[u8]) -> Answer {
        match self.job.read(text) {
            Ok(places) => Answer::text("places", format!("places {places}\n")),
            Err(refusal) => Answer::refused(refusal),
        }
    }

    fn report(&self) -> Result<Answer, Reason> {
        self.job.report().map(|report| Answer::text("report", report.to_string()))
    }

    fn look(&self) -> Answer {
        let kind = if self.job.kept().is_some() { "placement" } else { "kept none" };
        Answer::text(kind, self.job.look())
    }
}

fn changed(word: &str, at: At) -> Answer {
    Answer::text(word, format!("{word} {} {}\n", at.thread, at.instruction))
}

#[cfg(test)]
mod tests {
    use super::*;

    /// What a session prints, and its status.
    fn printed(input: &[u8]) -> (String, i32) {
        let replies = Session::default().replies(input);
        (replies.iter().map(|reply| reply.printed.to_string()).collect(), status(&replies))
    }

    fn prints(input: &str, output: &str, status: i32) {
        assert_eq!(printed(input.as_bytes()), (output.to_string(), status), "{input:?}");
    }

    #[test]
    fn nothing_is_printed_for_blank_lines() {
        prints("", "", 0);
        prints("\n  \n ", "", 0);
    }

    #[test]
    fn words_are_parted_by_spaces_alone() {
        prints("  rows   7 \n", "rows 7\n", 0);
        prints("\trows 7\n", "no such command: \trows 7\n", 1);
    }

    #[test]
    fn numbers_have_digits_alone_and_a_limit() {
        prints("rows 65536\nruns 65536\nrows 0\n", "rows 65536\nruns 65536\nrows 0\n", 0);
        for line in ["rows 65537", "rows -1", "rows +1", "rows 1a", "rows 99999999999999999999", "runs 65537"] {
            prints(line, &format!("no such command: {line}\n"), 1);
        }
    }

    #[test]
    fn places_go_up_to_255() {
        prints("bar 255 255\n", "refused 8 line 0\n", 1);
        prints("test 0 0 255 0\n", "refused 8 line 0\n", 1);
        for line in ["bar 256 0", "bar 0 256", "test 0 0 256 0", "test 0 0 0", "show 0"] {
            prints(line, &format!("no such command: {line}\n"), 1);
        }
    }

    #[test]
    fn a_listing_goes_to_its_end_or_the_inputs() {
        let listing = "listing\nbound 1\nthread\nstore a 1\nfault mem a 2\n";
        prints(&format!("{listing}end\nlook\n"), "places 1\nkept none\n", 0);
        prints(&format!("{listing}end"), "places 1\n", 0);
        prints(listing, "places 1\n", 0);
        prints(listing.trim_end(), "places 1\n", 0);
        prints("listing\nlook\nend\n", "refused 3 line 1\n", 1);
        prints("listing", "refused 6 line 0\n", 1);
    }

    #[test]
    fn a_listing_has_a_line_end_after_each_line() {
        let spaces = |count| format!("listing\n{}\nend\n", " ".repeat(count));
        prints(&spaces(4095), "refused 6 line 0\n", 1);
        prints(&spaces(4096), "refused 1 line 0\n", 1);
    }

    #[test]
    fn nothing_is_answered_after_quit() {
        prints("look\nquit\nsolve\n", "kept none\n", 0);
    }

    #[test]
    fn rows_set_the_run_list_and_outlast_a_job() {
        let mut session = Session::default();
        assert_eq!(session.lent(), Lent { rows: 8192, run_list: 8192 });
        session.replies(b"runs 5\n");
        assert_eq!(session.lent(), Lent { rows: 8192, run_list: 5 });
        session.replies(b"rows 3\nboard none\n");
        assert_eq!(session.lent(), Lent { rows: 3, run_list: 3 });
    }

    #[test]
    fn a_line_that_is_no_command_is_printed_as_it_came() {
        let replies = Session::default().replies(b" \xff\0 x ");
        let Printed::Exactly(text) = &replies[0].printed else { panic!("the text is fixed") };
        assert_eq!(text, b"no such command:  \xff\0 x \n");
    }
}
