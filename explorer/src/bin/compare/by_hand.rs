//! Sessions with all that has to be printed for them written down by the rules. A fault run, which may be any, is
//! written `(run)`, and the help `(help)`.

use std::fs;
use std::io;

use explorer::process::Feed;
use explorer::session::{status, Reply};
use explorer::transcript::excerpt;

use crate::sessions::Scratch;

pub struct Case {
    pub reason: &'static str,
    pub input: Vec<u8>,
    pub feed: Feed,
    output: String,
    status: i32,
}

impl Case {
    fn new(reason: &'static str, input: impl Into<Vec<u8>>, output: impl Into<String>, status: i32) -> Case {
        Case { reason, input: input.into(), feed: Feed::Whole, output: output.into(), status }
    }

    /// Commands, each with what it has to print.
    fn talk(reason: &'static str, talk: &[(&str, &str)], status: i32) -> Case {
        let line = |text: &str| if text.is_empty() { String::new() } else { format!("{text}\n") };
        let input: String = talk.iter().map(|(command, _)| format!("{command}\n")).collect();
        let output: String = talk.iter().map(|(_, answer)| line(answer)).collect();
        Case::new(reason, input, output, status)
    }

    fn fed(self, feed: Feed) -> Case {
        Case { feed, ..self }
    }

    /// Where the explorer's replies are not what is written here.
    pub fn wrong(&self, replies: &[Reply]) -> Option<String> {
        let output: String = replies.iter().map(|reply| reply.printed.to_string()).collect();
        let explorer = (output, status(replies));
        (explorer != (self.output.clone(), self.status)).then(|| {
            let shown = |output: &str| excerpt(output.as_bytes(), 1_000);
            format!(
                "explorer {} with status {}, by hand {} with status {}",
                shown(&explorer.0),
                explorer.1,
                shown(&self.output),
                self.status
            )
        })
    }
}

pub fn cases(scratch: &Scratch) -> io::Result<Vec<Case>> {
    let mut cases = without_files();
    cases.extend(files(scratch)?);
    Ok(cases)
}

fn without_files() -> Vec<Case> {
    let mut cases: Vec<Case> = TALKS.iter().map(|(reason, talk, status)| Case::talk(reason, talk, *status)).collect();
    cases.extend(no_commands());
    cases.extend(inputs());
    cases.extend(long_lines());
    cases.extend(strange_bytes());
    cases
}

type Talk = (&'static str, &'static [(&'static str, &'static str)], i32);

/// Three standings with queues, two without, and no fault.
const ONE: &str = "listing\nbound 1\nthread\nstore a 1\nfault mem a 2\nend";
/// The same, and the fault is what the store does.
const SEEN: &str = "listing\nbound 1\nthread\nstore a 1\nfault mem a 1\nend";
/// The same, with a fault line before it that never holds and one after it that holds as well.
const SEEN_TWICE: &str = "listing\nbound 1\nthread\nstore a 1\nfault mem a 2\nfault mem a 1\nfault at 0 1\nend";
/// One standing, which is a fault.
const SPIN: &str = "listing\nbound 1\nthread\njump 0\nfault mem a 1\nfault mem a 0\nend";
/// Store buffering: 34 standings with queues, 13 without.
const SB: &str = "listing\nbound 1\nthread\nstore a 1\nload r0 b\nthread\nstore b 1\nload r0 a\n\
                  fault at 0 2 at 1 2 reg 0 r0 0 reg 1 r0 0\nend";
/// Store buffering in which thread 0 has two places for its fence.
const WIDE: &str = "listing\nbound 1\nthread\nstore a 1\nset r1 0\nload r0 b\nthread\nstore b 1\nload r0 a\n\
                    fault at 0 3 at 1 2 reg 0 r0 0 reg 1 r0 0\nend";

const BOTH: &str = "fences 2\nbefore 0 1\nbefore 1 1";

const TALKS: &[Talk] = &[
    ("nothing is asked", &[("quit", "")], 0),
    ("blank lines are no commands", &[("", ""), ("   ", ""), ("look", "kept none"), ("", "")], 0),
    ("nothing is answered after quit", &[("look", "kept none"), ("quit", "")], 0),
    ("help changes nothing", &[(ONE, "places 1"), ("solve", "fences 0"), ("help", "(help)"), ("look", "fences 0")], 0),
    (
        "any number of spaces parts words",
        &[(SB, "places 4"), ("  bar   0  1   ", "barred 0 1"), (" look", "barred 0 1\nkept none")],
        0,
    ),
    (
        "a job without a program",
        &[
            ("bar 0 0", "refused 8 line 0"),
            ("free 0 0", "refused 8 line 0"),
            ("solve", "refused 8 line 0"),
            ("report", "refused 8 line 0"),
            ("test", "refused 8 line 0"),
            ("test 0 0", "refused 8 line 0"),
            ("show 0 0", "refused 8 line 0"),
            ("plain", "refused 8 line 0"),
            ("look", "kept none"),
            ("help", "(help)"),
        ],
        1,
    ),
    (
        "8 comes before all others",
        &[
            ("bar 255 255", "refused 8 line 0"),
            ("free 255 255", "refused 8 line 0"),
            ("runs 0", "runs 0"),
            ("test 4 0", "refused 8 line 0"),
            ("show 4 0", "refused 8 line 0"),
            ("plain", "refused 8 line 0"),
            ("rows 0", "rows 0"),
            ("solve", "refused 8 line 0"),
        ],
        1,
    ),
    (
        "three rows are needed for three standings",
        &[
            (ONE, "places 1"),
            ("rows 3", "rows 3"),
            ("solve", "fences 0"),
            ("test", "enough"),
            ("rows 2", "rows 2"),
            ("solve", "refused 14 line 0"),
            ("look", "fences 0"),
            ("report", "fences 0"),
            ("test", "refused 14 line 0"),
            ("plain", "free of faults"),
            ("rows 1", "rows 1"),
            ("plain", "refused 14 line 0"),
            ("rows 0", "rows 0"),
            ("solve", "refused 14 line 0"),
            ("test 0 0", "refused 14 line 0"),
            ("plain", "refused 14 line 0"),
            ("look", "fences 0"),
            ("rows 65536", "rows 65536"),
            ("solve", "fences 0"),
        ],
        1,
    ),
    (
        "two rows are needed without queues",
        &[
            ("board none", "board none"),
            (ONE, "places 1"),
            ("rows 2", "rows 2"),
            ("solve", "fences 0"),
            ("plain", "free of faults"),
            ("rows 1", "rows 1"),
            ("solve", "refused 14 line 0"),
            ("test", "refused 14 line 0"),
            ("plain", "refused 14 line 0"),
            ("report", "fences 0"),
        ],
        1,
    ),
    (
        "a barred place leaves no set that is enough",
        &[
            (SB, "places 4"),
            ("bar 0 1", "barred 0 1"),
            ("solve", "refused 15 line 0"),
            ("plain", "free of faults"),
            ("look", "barred 0 1\nkept none"),
            ("report", "refused 12 line 0"),
            ("test 0 1 1 1", "enough"),
            ("free 0 1", "freed 0 1"),
            ("look", "kept none"),
            ("solve", BOTH),
            ("look", BOTH),
            ("report", BOTH),
        ],
        1,
    ),
    (
        "sets that are tested",
        &[
            (SB, "places 4"),
            ("test", "(run)"),
            ("test 0 1", "(run)"),
            ("test 1 1", "(run)"),
            ("test 0 0 1 0", "(run)"),
            ("test 0 1 1 1", "enough"),
            ("test 1 1 0 1", "enough"),
            ("test 1 1 0 1 1 1 0 0 1 1", "enough"),
            ("test 1 1 1 1 0 0 0 0", "(run)"),
            ("look", "kept none"),
        ],
        0,
    ),
    (
        "kept places that are shown",
        &[
            (SB, "places 4"),
            ("show 0 1", "refused 12 line 0"),
            ("solve", BOTH),
            ("show 0 1", "(run)"),
            ("show 1 1", "(run)"),
            ("show 0 0", "refused 13 line 0"),
            ("show 1 0", "refused 13 line 0"),
            ("show 0 2", "refused 9 line 0"),
            ("show 2 0", "refused 9 line 0"),
            ("look", BOTH),
        ],
        1,
    ),
    (
        "of sets of equal counts the lowest place decides",
        &[
            (WIDE, "places 5"),
            ("solve", BOTH),
            ("bar 0 1", "barred 0 1"),
            ("look", "barred 0 1\nkept none"),
            ("solve", "fences 2\nbefore 0 2\nbefore 1 1"),
            ("show 0 2", "(run)"),
            ("show 0 1", "refused 13 line 0"),
            ("bar 0 2", "barred 0 2"),
            ("solve", "refused 15 line 0"),
            ("look", "barred 0 1\nbarred 0 2\nkept none"),
            ("free 0 1", "freed 0 1"),
            ("solve", BOTH),
            ("look", "barred 0 2\nfences 2\nbefore 0 1\nbefore 1 1"),
        ],
        1,
    ),
    (
        "a fault that no fence keeps out",
        &[
            (SEEN, "places 1"),
            ("solve", "refused 15 line 0"),
            ("test", "(run)"),
            ("test 0 0", "(run)"),
            ("plain", "(run)"),
            ("rows 2", "rows 2"),
            ("plain", "(run)"),
            ("solve", "refused 14 line 0"),
            ("rows 3", "rows 3"),
            ("test", "(run)"),
        ],
        1,
    ),
    (
        "a start that is a fault",
        &[
            (SPIN, "places 1"),
            ("rows 1", "rows 1"),
            ("test", "(run)"),
            ("plain", "(run)"),
            ("solve", "refused 15 line 0"),
            ("rows 0", "rows 0"),
            ("test", "refused 14 line 0"),
            ("plain", "refused 14 line 0"),
            ("solve", "refused 14 line 0"),
        ],
        1,
    ),
    (
        "of the fault lines that hold the first is named",
        &[
            (SEEN_TWICE, "places 1"),
            ("test", "(run)"),
            ("plain", "(run)"),
            ("board none", "board none"),
            (SEEN_TWICE, "places 1"),
            ("test 0 0", "(run)"),
        ],
        0,
    ),
    (
        "the unbuffered board",
        &[
            ("board none", "board none"),
            (SB, "places 4"),
            ("rows 13", "rows 13"),
            ("solve", "fences 0"),
            ("show 0 1", "refused 13 line 0"),
            ("test", "enough"),
            ("test 0 1", "enough"),
            ("plain", "free of faults"),
            ("bar 0 0", "barred 0 0"),
            ("show 0 1", "refused 12 line 0"),
            ("solve", "fences 0"),
            ("look", "barred 0 0\nfences 0"),
            ("rows 12", "rows 12"),
            ("solve", "refused 14 line 0"),
            (SEEN, "places 1"),
            ("solve", "refused 15 line 0"),
            ("test 0 0", "(run)"),
            ("plain", "(run)"),
        ],
        1,
    ),
    (
        "a run list is as long as there are rows",
        &[
            (SB, "places 4"),
            ("runs 8191", "runs 8191"),
            ("test", "refused 11 line 0"),
            ("plain", "refused 11 line 0"),
            ("runs 8192", "runs 8192"),
            ("test", "(run)"),
            ("rows 34", "rows 34"),
            ("runs 33", "runs 33"),
            ("test", "refused 11 line 0"),
            ("plain", "refused 11 line 0"),
            ("solve", BOTH),
            ("show 0 1", "refused 11 line 0"),
            ("runs 34", "runs 34"),
            ("show 0 1", "(run)"),
            ("runs 0", "runs 0"),
            ("rows 35", "rows 35"),
            ("test", "(run)"),
            ("rows 65536", "rows 65536"),
            ("runs 65535", "runs 65535"),
            ("test 0 1 1 1", "refused 11 line 0"),
            ("runs 65536", "runs 65536"),
            ("test 0 1 1 1", "enough"),
        ],
        1,
    ),
    (
        "the plain machine needs 13 rows",
        &[
            (SB, "places 4"),
            ("rows 13", "rows 13"),
            ("plain", "free of faults"),
            ("solve", "refused 14 line 0"),
            ("rows 12", "rows 12"),
            ("plain", "refused 14 line 0"),
            ("runs 11", "runs 11"),
            ("plain", "refused 11 line 0"),
        ],
        1,
    ),
    (
        "the order of refusals",
        &[
            (SB, "places 4"),
            ("rows 33", "rows 33"),
            ("show 0 1", "refused 12 line 0"),
            ("test", "refused 14 line 0"),
            ("test 0 2", "refused 9 line 0"),
            ("runs 32", "runs 32"),
            ("show 0 1", "refused 11 line 0"),
            ("show 0 2", "refused 9 line 0"),
            ("test", "refused 11 line 0"),
            ("test 0 0 0 2", "refused 9 line 0"),
            ("rows 34", "rows 34"),
            ("solve", BOTH),
            ("runs 33", "runs 33"),
            ("show 0 0", "refused 11 line 0"),
            ("show 4 0", "refused 9 line 0"),
            ("rows 33", "rows 33"),
            ("show 0 0", "refused 13 line 0"),
            ("show 0 1", "refused 14 line 0"),
            ("look", BOTH),
            ("bar 0 1", "barred 0 1"),
            ("solve", "refused 14 line 0"),
            ("show 0 1", "refused 12 line 0"),
            ("rows 34", "rows 34"),
            ("solve", "refused 15 line 0"),
        ],
        1,
    ),
    (
        "places that are not there, or are so already",
        &[
            (SB, "places 4"),
            ("bar 0 2", "refused 9 line 0"),
            ("bar 1 2", "refused 9 line 0"),
            ("bar 2 0", "refused 9 line 0"),
            ("bar 255 255", "refused 9 line 0"),
            ("free 0 0", "refused 10 line 0"),
            ("bar 0 0", "barred 0 0"),
            ("bar 0 0", "refused 10 line 0"),
            ("bar 1 1", "barred 1 1"),
            ("look", "barred 0 0\nbarred 1 1\nkept none"),
            ("free 0 0", "freed 0 0"),
            ("free 0 0", "refused 10 line 0"),
            ("free 0 4", "refused 9 line 0"),
            ("look", "barred 1 1\nkept none"),
        ],
        1,
    ),
    (
        "bar and free drop the placement, but not where they are refused",
        &[
            (SB, "places 4"),
            ("solve", BOTH),
            ("free 0 0", "refused 10 line 0"),
            ("look", BOTH),
            ("bar 0 0", "barred 0 0"),
            ("report", "refused 12 line 0"),
            ("solve", BOTH),
            ("bar 0 0", "refused 10 line 0"),
            ("bar 0 5", "refused 9 line 0"),
            ("report", BOTH),
            ("free 0 0", "freed 0 0"),
            ("report", "refused 12 line 0"),
            ("look", "kept none"),
        ],
        1,
    ),
    (
        "what is refused leaves the job as it was",
        &[
            (SB, "places 4"),
            ("bar 1 0", "barred 1 0"),
            ("solve", BOTH),
            ("listing\nbound 9\nend", "refused 4 line 1"),
            ("listing\nbound 9\n  end ", "refused 4 line 1"),
            ("look", "barred 1 0\nfences 2\nbefore 0 1\nbefore 1 1"),
            ("listing\nend", "refused 6 line 0"),
            ("read missing.lst", "cannot read missing.lst"),
            ("  read  missing one two.lst ", "cannot read missing one two.lst"),
            ("look", "barred 1 0\nfences 2\nbefore 0 1\nbefore 1 1"),
            ("rows 2", "rows 2"),
            ("solve", "refused 14 line 0"),
            ("plain", "refused 14 line 0"),
            ("frobnicate", "no such command: frobnicate"),
            ("board", "no such command: board"),
            ("rows 65537", "no such command: rows 65537"),
            ("solve", "refused 14 line 0"),
            ("look", "barred 1 0\nfences 2\nbefore 0 1\nbefore 1 1"),
            ("rows 34", "rows 34"),
            ("show 1 1", "(run)"),
        ],
        1,
    ),
    (
        "a listing that is read drops bars and placement",
        &[
            (SB, "places 4"),
            ("bar 0 0", "barred 0 0"),
            ("solve", BOTH),
            (SB, "places 4"),
            ("look", "kept none"),
            ("report", "refused 12 line 0"),
            ("free 0 0", "refused 10 line 0"),
        ],
        1,
    ),
    (
        "a board makes a new job",
        &[
            (SB, "places 4"),
            ("bar 0 0", "barred 0 0"),
            ("solve", BOTH),
            ("board tso", "board tso"),
            ("look", "kept none"),
            ("report", "refused 8 line 0"),
            (SB, "places 4"),
            ("look", "kept none"),
            ("board none", "board none"),
            ("solve", "refused 8 line 0"),
        ],
        1,
    ),
    (
        "a new job has the memory that was set",
        &[
            ("rows 2", "rows 2"),
            ("board tso", "board tso"),
            (ONE, "places 1"),
            ("solve", "refused 14 line 0"),
            ("board none", "board none"),
            (ONE, "places 1"),
            ("solve", "fences 0"),
        ],
        1,
    ),
    (
        "every refusal of a listing",
        &[
            ("listing\nbound 1\nthread\nstore a !\nend", "refused 2 line 3"),
            ("listing\nlook\nend", "refused 3 line 1"),
            ("listing\n\n# one\nbound 5\nend", "refused 4 line 3"),
            ("listing\nbound 1\nthread\nthread\nthread\nthread\nthread\nend", "refused 5 line 6"),
            ("listing\nbound 1\nthread\nend", "refused 6 line 2"),
            ("listing\nbound 1\nthread\nstore a 1\nend", "refused 6 line 0"),
            ("listing\nbound 1\nthread\njump 2\nfault mem a 1\nend", "refused 7 line 3"),
            ("look", "kept none"),
            ("solve", "refused 8 line 0"),
        ],
        1,
    ),
];

/// Lines that are of no form, among them forms with a word or a number that is not permitted.
const NO_COMMANDS: &[&str] = &[
    "frobnicate",
    "  frobnicate  now  ",
    "Solve",
    "solv",
    "solves",
    "solve now",
    "solve\r",
    "\tsolve",
    "solve\t",
    "\t",
    "#",
    "end",
    "0",
    "board",
    "board pso",
    "board tso none",
    "rows",
    "rows 65537",
    "rows 100000",
    "rows 18446744073709551616",
    "rows 4294967297",
    "rows -1",
    "rows +1",
    "rows 0x1",
    "rows 1 2",
    "rows ten",
    "runs",
    "runs 65537",
    "runs -1",
    "runs 1x",
    "runs 1 1",
    "read",
    "listing now",
    "bar",
    "bar 0",
    "bar 0 0 0",
    "bar a 0",
    "bar 0 r0",
    "bar -1 0",
    "bar 0 +1",
    "bar 256 0",
    "bar 0 256",
    "bar 4294967296 0",
    "bar 0 18446744073709551616",
    "bar 99999999999999999999999999999999999999990 0",
    "bar\t0 0",
    "free",
    "free 0",
    "free 0 0 0",
    "free 0 x",
    "free 256 0",
    "report now",
    "test 0",
    "test 0 0 0",
    "test 0 0 0 x",
    "test 0 1 256 1",
    "show",
    "show 0",
    "show 0 1 1 1",
    "show 0 256",
    "plain 0",
    "look up",
    "help me",
    "quit now",
];

/// Each line alone, and all of them in a session whose job they must not change.
fn no_commands() -> Vec<Case> {
    let answer = |line: &&str| format!("no such command: {line}\n");
    let mut cases: Vec<Case> = NO_COMMANDS
        .iter()
        .map(|line| Case::new("a line that is no command", format!("{line}\n"), answer(line), 1))
        .collect();
    let input = format!("{SB}\nbar 0 0\nsolve\n{}\nlook\nreport\n", NO_COMMANDS.join("\n"));
    let answers: String = NO_COMMANDS.iter().map(answer).collect();
    let output = format!("places 4\nbarred 0 0\n{BOTH}\n{answers}barred 0 0\n{BOTH}\n{BOTH}\n");
    cases.push(Case::new("what is no command changes nothing", input, output, 1));
    cases
}

/// Inputs that end in other ways than with a whole command line.
fn inputs() -> Vec<Case> {
    vec![
        Case::new("empty input", "", "", 0),
        Case::new("line ends alone", "\n\n\n", "", 0),
        Case::new("spaces without a line end", "   ", "", 0),
        Case::new("a command without a line end", "look", "kept none\n", 0),
        Case::new("a refusal without a line end", "look\nsolve", "kept none\nrefused 8 line 0\n", 1),
        Case::new("no command without a line end", "solve it", "no such command: solve it\n", 1),
        Case::new("quit without a line end", "quit", "", 0),
        Case::new("commands after quit are not met", "quit\nsolve\n", "", 0),
        Case::new("a refusal before quit", "solve\nquit\nlook\n", "refused 8 line 0\n", 1),
        Case::new("a failure is not made good", "solve\nlook\n", "refused 8 line 0\nkept none\n", 1),
        Case::new("quit within a listing", "listing\nquit\nend\nlook\n", "refused 3 line 1\nkept none\n", 1),
        Case::new("a listing at the input's end", "listing\n", "refused 6 line 0\n", 1),
        Case::new("the same without a line end", "listing", "refused 6 line 0\n", 1),
        Case::new("a listing without its end", "listing\nbound 1\nthread\nstore a 1\nfault mem a 2\n", "places 1\n", 0),
        Case::new("the same without a line end", "listing\nbound 1\nthread\nstore a 1\nfault mem a 2", "places 1\n", 0),
        Case::new("an end without a line end", ONE, "places 1\n", 0),
        Case::new("the input comes byte by byte", format!("{SB}\nsolve\n"), format!("places 4\n{BOTH}\n"), 0)
            .fed(Feed::ByteByByte),
    ]
}

/// A hundred thousand bytes.
const LONG: usize = 100_000;

fn long_lines() -> Vec<Case> {
    let long = "x".repeat(LONG);
    let no_command = format!("no such command: {long}\n");
    let path = format!("read {long}");
    let repeated = " 0 1 1 1".repeat(LONG / 8);
    let spread = format!("look{}\n", " ".repeat(LONG));
    let spaces = |count| format!("listing\n{}\nend\nlook\n", " ".repeat(count));
    vec![
        Case::new("a long line", format!("{long}\nlook\n"), format!("{no_command}kept none\n"), 1),
        Case::new("a long line without its end", long.clone(), no_command, 1),
        Case::new("a long line of spaces", " ".repeat(LONG), "", 0),
        Case::new("a long line with a command", spread, "kept none\n", 0),
        Case::new(
            "a long number",
            format!("rows {}\n", "9".repeat(LONG)),
            format!("no such command: rows {}\n", "9".repeat(LONG)),
            1,
        ),
        Case::new("a long name", format!("{path}\nlook\n"), format!("cannot {path}\nkept none\n"), 1),
        Case::new("a long set", format!("{SB}\ntest{repeated}\n"), "places 4\nenough\n", 0),
        Case::new(
            "a long set without a place's second number",
            format!("{SB}\ntest{repeated} 0\n"),
            format!("places 4\nno such command: test{repeated} 0\n"),
            1,
        ),
        Case::new("a long line of a listing", spaces(LONG), "refused 1 line 0\nkept none\n", 1),
        Case::new("a listing of 4096 bytes with its line end", spaces(4095), "refused 6 line 0\nkept none\n", 1),
        Case::new("a listing of 4097 bytes with its line end", spaces(4096), "refused 1 line 0\nkept none\n", 1),
    ]
}

/// Bytes that no command has. What is written by hand has one sign for all that is no text; the bench's output is
/// compared byte for byte.
fn strange_bytes() -> Vec<Case> {
    let shown = |line: &[u8]| format!("no such command: {}\n", String::from_utf8_lossy(line));
    let no_command =
        |reason, line: &[u8]| Case::new(reason, [line, b"\nlook\n"].concat(), shown(line) + "kept none\n", 1);
    let all: Vec<u8> = (0..=255).filter(|&byte| byte != b'\n').collect();
    vec![
        no_command("bytes above 127", b"\x80\xff\xfe"),
        no_command("bytes above 127 in a number", b"rows 1\xb2"),
        no_command("bytes above 127 after a command", b"look\xa0"),
        no_command("a letter of two bytes", "lo\u{f6}k".as_bytes()),
        no_command("a zero byte", b"look\0"),
        no_command("a zero byte alone", b"\0"),
        no_command("every byte", &all),
        Case::new("a byte above 127 in a listing", b"listing\nbound 1\n\xff\nend\n".to_vec(), "refused 2 line 2\n", 1),
        Case::new(
            "bytes above 127 in a listing's comment",
            b"listing\nbound 1 #\x80\xff\0\nthread\nstore a 1\nfault mem a 2\nend\n".to_vec(),
            "places 1\n",
            0,
        ),
    ]
}

/// Listings from files.
fn files(scratch: &Scratch) -> io::Result<Vec<Case>> {
    let file = |name: &str, text: &str| {
        let path = scratch.path(name);
        fs::write(&path, text)?;
        Ok::<String, io::Error>(format!("read {path}\n"))
    };
    let good = "bound 1\nthread\nstore a 1\nfault mem a 2";
    let missing = format!("read {}\n", scratch.path("missing"));
    Ok(vec![
        Case::new("an example", "read examples/store_buffering.lst\nsolve\n", format!("places 4\n{BOTH}\n"), 0),
        Case::new("a file without a last line end", file("good", good)?, "places 1\n", 0),
        Case::new("a file with a line `end`", file("end", &format!("{good}\nend\n"))?, "refused 3 line 5\n", 1),
        Case::new("an empty file", file("empty", "")?, "refused 6 line 0\n", 1),
        Case::new("a file of 4096 bytes", file("most", &" ".repeat(4096))?, "refused 6 line 0\n", 1),
        Case::new("a file of 4097 bytes", file("more", &" ".repeat(4097))?, "refused 1 line 0\n", 1),
        Case::new("a file of a mebibyte", file("mebibyte", &" ".repeat(1 << 20))?, "refused 1 line 0\n", 1),
        Case::new("a file that is not there", missing.clone(), format!("cannot {missing}"), 1),
        Case::new("a folder", "read examples\nlook\n", "cannot read examples\nkept none\n", 1),
    ])
}

#[cfg(test)]
mod tests {
    use super::*;
    use explorer::session::Session;

    #[test]
    fn the_explorer_answers_as_is_written() {
        for case in without_files() {
            let replies = Session::default().replies(&case.input);
            assert_eq!(case.wrong(&replies), None, "{}", case.reason);
        }
    }
}
