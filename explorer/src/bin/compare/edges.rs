//! Inputs at the edges of the format and of the machines, each with what has to be printed by the rules.

use explorer::listing::MOST_BYTES;
use explorer::process::Feed;

use crate::trials::Trial;

/// A listing that needs no fence, four lines long.
const GOOD: &str = "bound 1\nthread\nstore a 1\nfault mem a 2\n";

const SB: &str = "bound 1\nthread\nstore a 1\nload r0 b\nthread\nstore b 1\nload r0 a\n\
                  fault at 0 2 at 1 2 reg 0 r0 0 reg 1 r0 0\n";

pub fn edges() -> Vec<Trial> {
    let mut trials = lengths();
    trials.extend(feeds());
    for table in [BYTES, FORMS, STANDING, NUMBERS, ORDER, MISSING, REFERENCES, MACHINE] {
        trials.extend(table.iter().map(|&(text, expected, reason)| edge(text.as_bytes().to_vec(), expected, reason)));
    }
    trials.extend(bytes_above_127());
    trials.extend(limits());
    trials.extend(rows());
    trials
}

fn edge(text: Vec<u8>, expected: &'static str, reason: &'static str) -> Trial {
    Trial::new(format!("edge input, {reason}"), text).expecting(expected, reason)
}

/// The text with bytes after it, up to this length.
fn filled(text: &str, filler: u8, length: usize) -> Vec<u8> {
    let mut text = text.as_bytes().to_vec();
    text.resize(length, filler);
    text
}

fn lengths() -> Vec<Trial> {
    let (most, more) = (MOST_BYTES, MOST_BYTES + 1);
    vec![
        edge(filled("", b' ', 0), "refused 6 line 0\n", "empty input has no thread"),
        edge(filled("", b' ', most), "refused 6 line 0\n", "4096 spaces have no thread"),
        edge(filled("", b' ', more), "refused 1 line 0\n", "4097 spaces are too long"),
        edge(filled("", b'\n', most), "refused 6 line 0\n", "4096 line ends have no thread"),
        edge(filled("", b'\n', more), "refused 1 line 0\n", "4097 line ends are too long"),
        edge(filled("", b'!', most), "refused 2 line 1\n", "4096 bytes may be looked at"),
        edge(filled("", b'!', more), "refused 1 line 0\n", "4097 bytes are refused unseen"),
        edge(filled("", b'b', most), "refused 3 line 1\n", "a word may be as long as the text"),
        edge(filled("bound ", b'1', most), "refused 4 line 1\n", "a number may be as long as the text"),
        edge(filled(GOOD, b'\n', most), "fences 0\n", "a listing may have 4096 bytes"),
        edge(filled(GOOD, b'\n', more), "refused 1 line 0\n", "a listing may not have 4097 bytes"),
        edge(filled(&format!("{GOOD}#"), 0xff, most), "fences 0\n", "its comments count, up to 4096 bytes"),
        edge(filled(&format!("{GOOD}#"), 0xff, more), "refused 1 line 0\n", "its comments count, past 4096 bytes"),
        edge(filled("", b' ', 1 << 20), "refused 1 line 0\n", "a mebibyte is too long"),
    ]
}

fn feeds() -> Vec<Trial> {
    let answer = "fences 2\nbefore 0 1\nbefore 1 1\n";
    let in_pieces = edge(SB.as_bytes().to_vec(), answer, "the input comes byte by byte");
    let long = edge(filled("", b' ', MOST_BYTES + 1), "refused 1 line 0\n", "4097 bytes of an input that does not end");
    vec![in_pieces.fed(Feed::ByteByByte), long.fed(Feed::HeldOpen)]
}

type Row = (&'static str, &'static str, &'static str);

const BYTES: &[Row] = &[
    (GOOD, "fences 0\n", "the listing that the others vary"),
    ("bound 1\nthread\nstore a 1\nfault mem a 2", "fences 0\n", "the last line may lack its end"),
    ("bound 1\nthread\nstore a 1\nfault mem a 2\n#", "fences 0\n", "a last comment may lack its end"),
    (
        "\n\n# one\n  \n bound  1 # two\n\nthread# three\nstore a 1\n#\nfault mem a 2\n",
        "fences 0\n",
        "blank lines and comments",
    ),
    ("\n# one\n\nbound 1\n   # two\nthread\nstore a\n", "refused 3 line 7\n", "blank lines and comments are counted"),
    ("  bound    1  \nthread \n   store   a 1\nfault  mem  a   2   \n", "fences 0\n", "any number of spaces"),
    ("bound 1#\nthread##\nstore a 1# # #\nfault mem a 2#fault\n", "fences 0\n", "a comment may touch a word"),
    ("bound 1 # \t\r\0ABC!\u{7f}\nthread\nstore a 1\nfault mem a 2\n", "fences 0\n", "a comment may hold any byte"),
    ("bound 1\nthread\nsto#re a 1\nfault mem a 2\n", "refused 3 line 3\n", "a comment may cut a word short"),
    ("bound 1\nthread\nstore a #1\nfault mem a 2\n", "refused 3 line 3\n", "a comment may hide a word"),
    ("bound\t1\nthread\nstore a 1\nfault mem a 2\n", "refused 2 line 1\n", "a tab"),
    ("bound 1\nthread\r\nstore a 1\nfault mem a 2\n", "refused 2 line 2\n", "a carriage return"),
    ("bound 1\nthread\nSTORE a 1\nfault mem a 2\n", "refused 2 line 3\n", "a capital letter"),
    ("bound 1\nthread\nstore a 1\nfault mem a -2\n", "refused 2 line 4\n", "a sign"),
    ("bound 1\nthread\nstore a 1\nfault mem a 2\n\0", "refused 2 line 5\n", "a zero byte after the last line"),
    ("bound 1\nthread\nstore a 1,\nfault mem a 2\n", "refused 2 line 3\n", "a comma"),
    ("bound 1\nthread\nstore a `\nfault mem a 2\n", "refused 2 line 3\n", "the byte below a"),
    ("bound 1\nthread\nstore a {\nfault mem a 2\n", "refused 2 line 3\n", "the byte above z"),
    ("bound 1\nthread\nstore a /\nfault mem a 2\n", "refused 2 line 3\n", "the byte below 0"),
    ("bound 1\nthread\nstore a :\nfault mem a 2\n", "refused 2 line 3\n", "the byte above 9"),
    ("bound 1\nthread\nstore a \"\nfault mem a 2\n", "refused 2 line 3\n", "the byte below the comment sign"),
    ("bound 1\nthread\nstore a $\nfault mem a 2\n", "refused 2 line 3\n", "the byte above the comment sign"),
    ("\u{b}bound 1\nthread\nstore a 1\nfault mem a 2\n", "refused 2 line 1\n", "a vertical tab"),
    (" ! # fine\n", "refused 2 line 1\n", "a bad byte before a comment"),
];

fn bytes_above_127() -> Vec<Trial> {
    let with = |before: &str, bytes: &[u8], after: &str| [before.as_bytes(), bytes, after.as_bytes()].concat();
    let all: Vec<u8> = (0..=255).filter(|&byte| byte != b'\n').collect();
    vec![
        edge(with("bound 1 #", &all, "\nthread\nstore a 1\nfault mem a 2\n"), "fences 0\n", "a comment of all bytes"),
        edge(with(GOOD, b"#\xff\xfe\x80", ""), "fences 0\n", "bytes above 127 in a last comment"),
        edge(with("bound 1\nthread\nstore a 1", b"\x80", "\nfault mem a 2\n"), "refused 2 line 3\n", "byte 128"),
        edge(with("bound 1\nthread\n", b"\xff", "store a 1\nfault mem a 2\n"), "refused 2 line 3\n", "byte 255"),
        edge(
            with("bound 1\nthread\nstore a 1\nfault mem a 2\n", b"\xc3\xa4", ""),
            "refused 2 line 5\n",
            "a letter of two bytes",
        ),
        edge(
            with("bound 1\nthread\nstore a 1\nfault mem a 2\n", b"\xc2\xa0", "\n"),
            "refused 2 line 5\n",
            "a space of two bytes",
        ),
        edge(with("", b"\xef\xbb\xbf", GOOD), "refused 2 line 1\n", "a byte order mark"),
    ]
}

/// Lines that are of no form.
const FORMS: &[Row] = &[
    ("bound\n", "refused 3 line 1\n", "a bound without its number"),
    ("bound 1 1\n", "refused 3 line 1\n", "a bound with two numbers"),
    ("bound a\n", "refused 3 line 1\n", "a bound with a letter"),
    ("bound r0\n", "refused 3 line 1\n", "a bound with a register"),
    ("bounds 1\n", "refused 3 line 1\n", "a misspelt first word"),
    ("1 bound\n", "refused 3 line 1\n", "a number as first word"),
    ("bound1\n", "refused 3 line 1\n", "no space between words"),
    ("bound 1\nthread 1\n", "refused 3 line 2\n", "a thread line with a number"),
    ("bound 1\nthread\nfence 1\n", "refused 3 line 3\n", "a fence with a number"),
    ("bound 1\nthread\nnop\n", "refused 3 line 3\n", "an unknown instruction"),
    ("bound 1\nthread\n7\n", "refused 3 line 3\n", "a number alone"),
    ("bound 1\nthread\nr0\n", "refused 3 line 3\n", "a register alone"),
    ("bound 1\nthread\nat 0 1\n", "refused 3 line 3\n", "a condition where an instruction stands"),
    ("bound 1\nthread\nstore a\n", "refused 3 line 3\n", "a store without its value"),
    ("bound 1\nthread\nstore a 1 1\n", "refused 3 line 3\n", "a store with two values"),
    ("bound 1\nthread\nstore 1 a\n", "refused 3 line 3\n", "a store the wrong way round"),
    ("bound 1\nthread\nstore r0 1\n", "refused 3 line 3\n", "a store to a register"),
    ("bound 1\nthread\nstore i 1\n", "refused 3 line 3\n", "a store to a variable past h"),
    ("bound 1\nthread\nstore aa 1\n", "refused 3 line 3\n", "a store to a variable of two letters"),
    ("bound 1\nthread\nstore a b\n", "refused 3 line 3\n", "a store of a variable"),
    ("bound 1\nthread\nstore a r4\n", "refused 3 line 3\n", "a store of a register past r3"),
    ("bound 1\nthread\nstore a 12a\n", "refused 3 line 3\n", "digits and letters in one word"),
    ("bound 1\nthread\nload a r0\n", "refused 3 line 3\n", "a load the wrong way round"),
    ("bound 1\nthread\nload r0 1\n", "refused 3 line 3\n", "a load of a number"),
    ("bound 1\nthread\nload r0 r1\n", "refused 3 line 3\n", "a load of a register"),
    ("bound 1\nthread\nload r4 a\n", "refused 3 line 3\n", "a load into a register past r3"),
    ("bound 1\nthread\nload r00 a\n", "refused 3 line 3\n", "a register with two digits"),
    ("bound 1\nthread\nload r a\n", "refused 3 line 3\n", "a register without a digit"),
    ("bound 1\nthread\nload r0\n", "refused 3 line 3\n", "a load without its variable"),
    ("bound 1\nthread\nset a 1\n", "refused 3 line 3\n", "a set of a variable"),
    ("bound 1\nthread\nset r0 a\n", "refused 3 line 3\n", "a set to a variable"),
    ("bound 1\nthread\nset r0\n", "refused 3 line 3\n", "a set without its value"),
    ("bound 1\nthread\nadd 1 r0\n", "refused 3 line 3\n", "an add the wrong way round"),
    ("bound 1\nthread\nadd r0 1 2\n", "refused 3 line 3\n", "an add with two values"),
    ("bound 1\nthread\ncas r0 a 1\n", "refused 3 line 3\n", "a cas with one value"),
    ("bound 1\nthread\ncas r0 a 1 2 3\n", "refused 3 line 3\n", "a cas with three values"),
    ("bound 1\nthread\ncas a r0 1 2\n", "refused 3 line 3\n", "a cas the wrong way round"),
    ("bound 1\nthread\njump\n", "refused 3 line 3\n", "a jump without its target"),
    ("bound 1\nthread\njump r0\n", "refused 3 line 3\n", "a jump to a register"),
    ("bound 1\nthread\njump 0 0\n", "refused 3 line 3\n", "a jump with two targets"),
    ("bound 1\nthread\njeq r0 1\n", "refused 3 line 3\n", "a jeq without its target"),
    ("bound 1\nthread\njeq 1 r0 0\n", "refused 3 line 3\n", "a jeq the wrong way round"),
    ("bound 1\nthread\njne r0 1 r1\n", "refused 3 line 3\n", "a jne to a register"),
    ("bound 1\nthread\njne r0 a 1\n", "refused 3 line 3\n", "a jne with a variable"),
    ("bound 1\nthread\nfence\nfault\n", "refused 3 line 4\n", "a fault line without a condition"),
    ("bound 1\nthread\nfence\nfaults mem a 1\n", "refused 3 line 4\n", "a misspelt fault line"),
    ("bound 1\nthread\nfence\nfault at\n", "refused 3 line 4\n", "an at without its numbers"),
    ("bound 1\nthread\nfence\nfault at 0\n", "refused 3 line 4\n", "an at with one number"),
    ("bound 1\nthread\nfence\nfault at 0 1 1\n", "refused 3 line 4\n", "an at with three numbers"),
    ("bound 1\nthread\nfence\nfault at r0 1\n", "refused 3 line 4\n", "an at with a register"),
    ("bound 1\nthread\nfence\nfault at a 1\n", "refused 3 line 4\n", "an at with a letter"),
    ("bound 1\nthread\nfence\nfault reg 0 r0\n", "refused 3 line 4\n", "a reg without its value"),
    ("bound 1\nthread\nfence\nfault reg r0 0 0\n", "refused 3 line 4\n", "a reg the wrong way round"),
    ("bound 1\nthread\nfence\nfault reg 0 a 0\n", "refused 3 line 4\n", "a reg with a variable"),
    ("bound 1\nthread\nfence\nfault reg 0 r0 r1\n", "refused 3 line 4\n", "a reg with two registers"),
    ("bound 1\nthread\nfence\nfault mem a\n", "refused 3 line 4\n", "a mem without its value"),
    ("bound 1\nthread\nfence\nfault mem a r0\n", "refused 3 line 4\n", "a mem with a register"),
    ("bound 1\nthread\nfence\nfault mem 0 a\n", "refused 3 line 4\n", "a mem the wrong way round"),
    ("bound 1\nthread\nfence\nfault mem r0 0\n", "refused 3 line 4\n", "a mem of a register"),
    ("bound 1\nthread\nfence\nfault mem a 0 and mem b 0\n", "refused 3 line 4\n", "a word between conditions"),
    ("bound 1\nthread\nfence\nfault mem a 0 fault mem b 0\n", "refused 3 line 4\n", "two fault lines in one"),
    ("bound 1\nthread\nfence\nfault store a 1\n", "refused 3 line 4\n", "an instruction where a condition stands"),
];

/// Lines that are of a form but may not stand there, and some that may.
const STANDING: &[Row] = &[
    ("thread\nstore a 1\nfault mem a 2\n", "refused 3 line 1\n", "a thread before the bound"),
    ("store a 1\n", "refused 3 line 1\n", "an instruction before the bound"),
    ("fault mem a 2\n", "refused 3 line 1\n", "a fault line before the bound"),
    ("bound 1\nbound 1\n", "refused 3 line 2\n", "the bound twice"),
    ("bound 1\nbound 9\n", "refused 3 line 2\n", "the bound twice, the second out of range"),
    ("bound 1\nthread\nbound 1\n", "refused 3 line 3\n", "a bound in a thread"),
    ("bound 1\nthread\nstore a 1\nfault mem a 2\nbound 1\n", "refused 3 line 5\n", "a bound after the faults"),
    ("bound 1\nstore a 1\n", "refused 3 line 2\n", "an instruction outside a thread"),
    (
        "bound 1\nthread\nstore a 1\nfault mem a 2\nstore a 1\n",
        "refused 3 line 5\n",
        "an instruction after a fault line",
    ),
    ("bound 1\nthread\nstore a 1\nfault mem a 2\nfence\n", "refused 3 line 5\n", "a fence after a fault line"),
    ("bound 1\nthread\nstore a 1\nfault mem a 2\nthread\n", "refused 3 line 5\n", "a thread after a fault line"),
    (
        "bound 1\nfault mem a 2\nthread\nstore a 1\n",
        "refused 3 line 3\n",
        "a thread after a fault line that comes early",
    ),
    ("bound 1\nfault mem a 2\nstore a 1\n", "refused 3 line 3\n", "an instruction after a fault line that comes early"),
    ("bound 1\nfault mem a 2\n", "refused 6 line 0\n", "a fault line alone may stand there"),
    ("bound 1\nthread\nfault mem a 2\nfault mem a 1\n", "refused 6 line 2\n", "a fault line may follow a thread line"),
];

const NUMBERS: &[Row] = &[
    ("bound 0\nthread\nstore a 1\nfault mem a 2\n", "refused 4 line 1\n", "bound 0"),
    ("bound 4\nthread\nstore a 1\nfault mem a 2\n", "fences 0\n", "bound 4"),
    ("bound 5\nthread\nstore a 1\nfault mem a 2\n", "refused 4 line 1\n", "bound 5"),
    ("bound 01\nthread\nstore a 1\nfault mem a 2\n", "fences 0\n", "a leading zero"),
    ("bound 001\nthread\nstore a 1\nfault mem a 2\n", "refused 4 line 1\n", "two leading zeros"),
    ("bound 00\nthread\nstore a 1\nfault mem a 2\n", "refused 4 line 1\n", "bound 00"),
    ("bound 18446744073709551617\n", "refused 4 line 1\n", "a bound one past 64 bits"),
    ("bound 257\n", "refused 4 line 1\n", "a bound one past 8 bits"),
    ("bound 1\nthread\nstore a 15\nfault mem a 14\n", "fences 0\n", "value 15 in a store"),
    ("bound 1\nthread\nstore a 16\nfault mem a 14\n", "refused 4 line 3\n", "value 16 in a store"),
    ("bound 1\nthread\nstore a 00\nfault mem a 14\n", "fences 0\n", "value 00"),
    ("bound 1\nthread\nstore a 015\nfault mem a 14\n", "refused 4 line 3\n", "value 015"),
    ("bound 1\nthread\nstore a 000\nfault mem a 14\n", "refused 4 line 3\n", "value 000"),
    ("bound 1\nthread\nstore a 100\nfault mem a 14\n", "refused 4 line 3\n", "value 100"),
    ("bound 1\nthread\nset r0 15\nfault mem a 14\n", "fences 0\n", "value 15 in a set"),
    ("bound 1\nthread\nset r0 16\nfault mem a 14\n", "refused 4 line 3\n", "value 16 in a set"),
    ("bound 1\nthread\nadd r0 15\nfault mem a 14\n", "fences 0\n", "value 15 in an add"),
    ("bound 1\nthread\nadd r0 16\nfault mem a 14\n", "refused 4 line 3\n", "value 16 in an add"),
    ("bound 1\nthread\ncas r0 a 15 15\nfault mem a 14\n", "fences 0\n", "value 15 in a cas"),
    ("bound 1\nthread\ncas r0 a 16 0\nfault mem a 14\n", "refused 4 line 3\n", "first value 16 in a cas"),
    ("bound 1\nthread\ncas r0 a 0 16\nfault mem a 14\n", "refused 4 line 3\n", "second value 16 in a cas"),
    ("bound 1\nthread\njeq r0 15 0\nfault mem a 14\n", "fences 0\n", "value 15 in a jeq"),
    ("bound 1\nthread\njeq r0 16 0\nfault mem a 14\n", "refused 4 line 3\n", "value 16 in a jeq"),
    ("bound 1\nthread\njne r0 16 0\nfault mem a 14\n", "refused 4 line 3\n", "value 16 in a jne"),
    ("bound 1\nthread\njump 17\nfault mem a 14\n", "refused 4 line 3\n", "target 17"),
    ("bound 1\nthread\njump 16\nfault mem a 14\n", "refused 7 line 3\n", "target 16 in a short thread"),
    ("bound 1\nthread\njeq r0 0 17\nfault mem a 14\n", "refused 4 line 3\n", "target 17 in a jeq"),
    ("bound 1\nthread\njne r0 0 17\nfault mem a 14\n", "refused 4 line 3\n", "target 17 in a jne"),
    ("bound 1\nthread\njump 001\nfault mem a 14\n", "refused 4 line 3\n", "target 001"),
    ("bound 1\nthread\nstore a 1\nfault mem a 15\n", "fences 0\n", "value 15 in a mem"),
    ("bound 1\nthread\nstore a 1\nfault mem a 16\n", "refused 4 line 4\n", "value 16 in a mem"),
    ("bound 1\nthread\nstore a 1\nfault reg 0 r0 15\n", "fences 0\n", "value 15 in a reg"),
    ("bound 1\nthread\nstore a 1\nfault reg 0 r0 16\n", "refused 4 line 4\n", "value 16 in a reg"),
    ("bound 1\nthread\nstore a 1\nfault reg 4 r0 1\n", "refused 4 line 4\n", "thread 4 in a reg"),
    ("bound 1\nthread\nstore a 1\nfault reg 3 r0 1\n", "refused 7 line 4\n", "thread 3 in a reg, of one thread"),
    ("bound 1\nthread\nstore a 1\nfault reg 000 r0 1\n", "refused 4 line 4\n", "thread 000 in a reg"),
    ("bound 1\nthread\nstore a 1\nfault at 4 0\n", "refused 4 line 4\n", "thread 4 in an at"),
    ("bound 1\nthread\nstore a 1\nfault at 3 0\n", "refused 7 line 4\n", "thread 3 in an at, of one thread"),
    ("bound 1\nthread\nstore a 1\nfault at 0 17\n", "refused 4 line 4\n", "position 17"),
    ("bound 1\nthread\nstore a 1\nfault at 0 16\n", "refused 7 line 4\n", "position 16 in a short thread"),
    (
        "bound 1\nthread\nstore a 1\nfault mem a 2 mem a 2 mem a 99\n",
        "refused 4 line 4\n",
        "a bad number in a later condition",
    ),
];

/// Lines that are wrong in several ways, and several wrong lines.
const ORDER: &[Row] = &[
    ("bound 9\nthread!\n", "refused 4 line 1\n", "the earlier line decides, a number before a byte"),
    ("bound 1\nthread\nstore a\nSTORE\n", "refused 3 line 3\n", "the earlier line decides, a form before a byte"),
    ("bound 1\nthread\nstore a 16\nstore\n", "refused 4 line 3\n", "the earlier line decides, a number before a form"),
    ("nothing !\n", "refused 2 line 1\n", "on one line a byte goes before a form"),
    ("bound 9 !\n", "refused 2 line 1\n", "on one line a byte goes before a number"),
    ("! bound 1\n", "refused 2 line 1\n", "a bad byte as first word"),
    ("bound 1\nthread\nstore a 99 x\n", "refused 3 line 3\n", "on one line a form goes before a number"),
    ("bound 1\nthread\ncas r0 a 99 b\n", "refused 3 line 3\n", "a bad word after a bad number"),
    ("bound 1\nstore a 99\n", "refused 3 line 2\n", "an instruction that may not stand there, with a bad number"),
    ("bound 1\nthread\nfence\nfault mem a 99 mem\n", "refused 3 line 4\n", "a bad condition after a bad number"),
    ("bound 1\nthread\njump 99\nfault at 3 0\n", "refused 4 line 3\n", "a number goes before a reference"),
    ("bound 1\nthread\njump 2\nfault mem\n", "refused 3 line 4\n", "a form on a later line goes before a reference"),
    ("bound 1\nthread\nthread\nfence\nfault mem a 99\n", "refused 4 line 5\n", "a number goes before an empty thread"),
    (
        "bound 1\nthread\njump 2\nthread\nfault mem a 1\n",
        "refused 6 line 4\n",
        "an empty thread goes before a reference",
    ),
    ("bound 1\nthread\njump 2\n", "refused 6 line 0\n", "a missing fault line goes before a reference"),
];

/// Listings of good lines that lack something.
const MISSING: &[Row] = &[
    ("# nothing\n\n", "refused 6 line 0\n", "comments alone"),
    ("bound 1\n", "refused 6 line 0\n", "the bound alone"),
    ("bound 1\nthread\nstore a 1\n", "refused 6 line 0\n", "no fault line"),
    ("bound 1\nthread\n", "refused 6 line 2\n", "an empty thread and no fault line"),
    ("bound 1\nthread\nfault mem a 1\n", "refused 6 line 2\n", "the only thread is empty"),
    (
        "bound 1\nthread\nthread\nfence\nthread\nfence\nfault mem a 1\n",
        "refused 6 line 2\n",
        "the first thread is empty",
    ),
    (
        "bound 1\nthread\nfence\nthread\nthread\nfence\nfault mem a 1\n",
        "refused 6 line 4\n",
        "the middle thread is empty",
    ),
    (
        "bound 1\nthread\nfence\nthread\nfence\nthread\nfault mem a 1\n",
        "refused 6 line 6\n",
        "the last thread is empty",
    ),
    (
        "bound 1\nthread\nfence\nthread # empty\n\nthread\nfault mem a 1\n",
        "refused 6 line 4\n",
        "two threads are empty",
    ),
];

/// Numbers that have to fit the thread that they speak of.
const REFERENCES: &[Row] = &[
    ("bound 1\nthread\njump 2\nfence\nfault mem a 1\n", "fences 0\n", "a jump to the length"),
    ("bound 1\nthread\njump 3\nfence\nfault mem a 1\n", "refused 7 line 3\n", "a jump past the length"),
    ("bound 1\nthread\njeq r0 0 3\nfence\nfault mem a 1\n", "refused 7 line 3\n", "a jeq past the length"),
    ("bound 1\nthread\njne r0 0 3\nfence\nfault mem a 1\n", "refused 7 line 3\n", "a jne past the length"),
    (
        "bound 1\nthread\njump 2\nthread\nfence\nfence\nfault mem a 1\n",
        "refused 7 line 3\n",
        "a jump past its own length only",
    ),
    (
        "bound 1\nthread\nfence\nfence\nthread\njump 2\nfault mem a 1\n",
        "refused 7 line 6\n",
        "a jump past its own length only, second thread",
    ),
    ("bound 1\nthread\njump 1\nthread\njump 2\nfault at 2 0\n", "refused 7 line 5\n", "the first of two such lines"),
    ("bound 1\nthread\nfence\nfault at 0 1 mem a 1\n", "fences 0\n", "a position that is the length"),
    ("bound 1\nthread\nfence\nfault at 0 2\n", "refused 7 line 4\n", "a position past the length"),
    (
        "bound 1\nthread\nfence\nthread\nfence\nfence\nfault at 0 2 at 1 2\n",
        "refused 7 line 7\n",
        "a position past its own thread's length",
    ),
    ("bound 1\nthread\nfence\nfault at 1 0\n", "refused 7 line 4\n", "a position of no thread"),
    ("bound 1\nthread\nfence\nfault reg 1 r0 0\n", "refused 7 line 4\n", "a register of no thread"),
    (
        "bound 1\nthread\nfence\nfault mem a 1 mem b 1 reg 1 r0 0\n",
        "refused 7 line 4\n",
        "a register of no thread, third condition",
    ),
    (
        "bound 1\nthread\nfence\nfault mem a 1\n\nfault at 0 2\nfault at 1 0\n",
        "refused 7 line 6\n",
        "the first of two such fault lines",
    ),
];

const MACHINE: &[Row] = &[
    ("bound 1\nthread\njump 0\nfault mem a 1\n", "fences 0\n", "a thread that loops for ever"),
    ("bound 1\nthread\nadd r0 1\njump 0\nfault mem a 1\n", "fences 0\n", "a thread that counts for ever"),
    ("bound 4\nthread\nstore a 1\nstore a 2\njump 0\nfault mem a 3\n", "fences 0\n", "a thread that writes for ever"),
    ("bound 1\nthread\nfence\nfault at 0 0\n", "refused 15 line 0\n", "a fault that holds at the start"),
    (
        "bound 1\nthread\nstore a 1\nfault mem b 1\nfault mem a 0\n",
        "refused 15 line 0\n",
        "a second fault line that holds at the start",
    ),
    ("bound 1\nthread\nstore a 1\nfault at 0 1 mem a 0\n", "fences 0\n", "a fault is judged only when no write waits"),
    ("bound 1\nthread\nstore a 1\nfault at 0 1 mem a 1\n", "refused 15 line 0\n", "a write drains in the end"),
    ("bound 1\nthread\nstore a 1\nload r0 a\nfault at 0 2 reg 0 r0 0\n", "fences 0\n", "a thread sees its own write"),
    (
        "bound 2\nthread\nstore a 1\nstore a 2\nload r0 a\nfault at 0 3 reg 0 r0 1\n",
        "fences 0\n",
        "a thread sees its newest write",
    ),
    (
        "bound 2\nthread\nstore a 1\nstore b 2\nload r0 a\nfault at 0 3 reg 0 r0 2\n",
        "fences 0\n",
        "a thread sees its newest write to that variable",
    ),
    (
        "bound 1\nthread\nstore a 1\ncas r0 a 1 2\nfault at 0 2 reg 0 r0 0\nfault at 0 2 mem a 1\n",
        "fences 0\n",
        "a cas waits for its queue",
    ),
    (
        "bound 1\nthread\nstore a 1\ncas r0 a 1 2\nfault at 0 2 reg 0 r0 1 mem a 2\n",
        "refused 15 line 0\n",
        "a cas that succeeds",
    ),
    (
        "bound 1\nthread\nset r0 5\ncas r0 a 1 2\nfault at 0 2 reg 0 r0 0 mem a 0\n",
        "refused 15 line 0\n",
        "a cas that fails",
    ),
    (
        "bound 1\nthread\nset r0 3\nset r1 7\ncas r0 a r2 r1\nfault at 0 3 reg 0 r0 1 mem a 7\n",
        "refused 15 line 0\n",
        "a cas of registers",
    ),
    (
        "bound 1\nthread\nset r0 4\ncas r0 a 0 r0\nfault at 0 2 mem a 4\n",
        "refused 15 line 0\n",
        "a cas that writes the register it sets",
    ),
    (
        "bound 1\nthread\nset r0 15\nadd r0 1\nfault at 0 2 reg 0 r0 0\n",
        "refused 15 line 0\n",
        "an add that wraps to 0",
    ),
    (
        "bound 1\nthread\nset r0 9\nadd r0 r0\nfault at 0 2 reg 0 r0 2\n",
        "refused 15 line 0\n",
        "an add of a register to itself",
    ),
    (
        "bound 1\nthread\nset r1 6\nset r0 r1\nstore h r0\nfault mem h 6\n",
        "refused 15 line 0\n",
        "values through registers",
    ),
    ("bound 1\nthread\njeq r0 r1 2\nstore a 1\nfault mem a 1\n", "fences 0\n", "a jeq that jumps"),
    ("bound 1\nthread\njeq r0 1 2\nstore a 1\nfault mem a 1\n", "refused 15 line 0\n", "a jeq that moves on"),
    ("bound 1\nthread\njne r0 1 2\nstore a 1\nfault mem a 1\n", "fences 0\n", "a jne that jumps"),
    ("bound 1\nthread\njne r0 r1 2\nstore a 1\nfault mem a 1\n", "refused 15 line 0\n", "a jne that moves on"),
    (
        "bound 1\nthread\nload r0 a\nfault mem a 1 mem b 1\nfault mem c 0 mem d 1\nfault mem a 0 at 0 1\n",
        "refused 15 line 0\n",
        "one fault line is enough, but all of its conditions are needed",
    ),
    (
        "bound 1\nthread\nstore a 1\nset r1 0\nload r0 b\nthread\nstore b 1\nload r0 a\n\
         fault at 0 3 at 1 2 reg 0 r0 0 reg 1 r0 0\n",
        "fences 2\nbefore 0 1\nbefore 1 1\n",
        "of two places that do, the lower wins",
    ),
    (
        "bound 1\nthread\nstore a 1\nstore b 1\nload r0 c\nthread\nstore c 1\nload r0 a\n\
         fault at 0 3 at 1 2 reg 0 r0 0 reg 1 r0 0\n",
        "fences 1\nbefore 1 1\n",
        "with bound 1 the second write has the first one drained, as a fence would",
    ),
    (
        "bound 2\nthread\nstore a 1\nstore b 1\nload r0 c\nthread\nstore c 1\nload r0 a\n\
         fault at 0 3 at 1 2 reg 0 r0 0 reg 1 r0 0\n",
        "fences 2\nbefore 0 1\nbefore 1 1\n",
        "with bound 2 both writes can wait past the load",
    ),
    (
        "bound 3\nthread\nstore a 1\nstore b 1\nstore c 1\nstore d 1\nload r0 e\nthread\nstore e 1\nfence\nload r0 a\n\
         fault at 0 5 at 1 3 reg 0 r0 0 reg 1 r0 0\n",
        "fences 0\n",
        "with bound 3 the fourth write has the first one drained before the load",
    ),
    (
        "bound 4\nthread\nstore a 1\nstore b 1\nstore c 1\nstore d 1\nload r0 e\nthread\nstore e 1\nfence\nload r0 a\n\
         fault at 0 5 at 1 3 reg 0 r0 0 reg 1 r0 0\n",
        "fences 1\nbefore 0 1\n",
        "with bound 4 four writes can wait past the load, and a fence after any of them stops the first",
    ),
    (
        // Fences before both loads do too, and are left over if fences are taken away from the lowest place on.
        "bound 1\nthread\nload r1 d\nstore a 1\njeq r1 1 5\nload r0 b\njump 6\nload r0 c\n\
         thread\nstore d 1\nstore b 1\nstore c 1\nfence\nload r0 a\nfault at 0 6 at 1 5 reg 0 r0 0 reg 1 r0 0\n",
        "fences 1\nbefore 0 2\n",
        "one fence before a branch is fewer than one in each of its ways",
    ),
];

/// A listing by its threads' lengths, of fences only.
fn fences(lengths: &[usize], faults: &str) -> Vec<u8> {
    let thread = |&length: &usize| format!("thread\n{}", "fence\n".repeat(length));
    let threads: String = lengths.iter().map(thread).collect();
    format!("bound 1\n{threads}{faults}").into_bytes()
}

/// All counts that are limited, from both sides.
fn limits() -> Vec<Trial> {
    const FAULT: &str = "fault mem a 1\n";
    let conditions = |count: usize, last: &str| format!("fault {}{last}\n", "mem a 1 ".repeat(count));
    let with_last = |lengths: &[usize], last: &str| fences(lengths, &format!("{last}\n{FAULT}"));
    vec![
        edge(fences(&[1; 4], FAULT), "fences 0\n", "four threads"),
        edge(fences(&[1; 5], FAULT), "refused 5 line 10\n", "a fifth thread"),
        edge(with_last(&[1; 4], "thread 0"), "refused 3 line 10\n", "a fifth thread with a number"),
        edge(fences(&[16], FAULT), "fences 0\n", "sixteen instructions"),
        edge(fences(&[17], FAULT), "refused 5 line 19\n", "a seventeenth instruction"),
        edge(fences(&[1, 17], FAULT), "refused 5 line 21\n", "a seventeenth instruction in the second thread"),
        edge(with_last(&[16], "store a 16"), "refused 4 line 19\n", "a seventeenth instruction with a bad number"),
        edge(with_last(&[16], "store a"), "refused 3 line 19\n", "a seventeenth instruction of no form"),
        edge(with_last(&[15], "jump 16"), "fences 0\n", "a jump to 16 in a thread of sixteen"),
        edge(fences(&[16], "fault at 0 16 mem a 1\n"), "fences 0\n", "position 16 in a thread of sixteen"),
        edge(fences(&[16, 16], FAULT), "fences 0\n", "thirty-two instructions in two threads"),
        edge(fences(&[8; 4], "fault at 0 0\n"), "refused 14 line 0\n", "thirty-two instructions in four threads"),
        edge(fences(&[16, 16, 1], FAULT), "refused 5 line 37\n", "a thirty-third instruction in the third thread"),
        edge(fences(&[8, 8, 8, 9], FAULT), "refused 5 line 38\n", "a thirty-third instruction in the fourth thread"),
        edge(fences(&[16, 16, 0], FAULT), "refused 6 line 36\n", "a third thread with no room for instructions"),
        edge(fences(&[1], &FAULT.repeat(8)), "fences 0\n", "eight fault lines"),
        edge(fences(&[1], &FAULT.repeat(9)), "refused 5 line 12\n", "a ninth fault line"),
        edge(
            fences(&[1], &format!("{}fault mem a 16", FAULT.repeat(8))),
            "refused 4 line 12\n",
            "a ninth fault line with a bad number",
        ),
        edge(
            fences(&[1], &format!("{}fault", FAULT.repeat(8))),
            "refused 3 line 12\n",
            "a ninth fault line of no form",
        ),
        edge(fences(&[1], &conditions(6, "")), "fences 0\n", "six conditions"),
        edge(fences(&[1], &conditions(7, "")), "refused 5 line 4\n", "a seventh condition"),
        edge(fences(&[1], &conditions(6, "mem a 16")), "refused 4 line 4\n", "a seventh condition with a bad number"),
        edge(fences(&[1], &conditions(6, "mem a")), "refused 3 line 4\n", "a seventh condition of no form"),
        edge(fences(&[1], &conditions(60, "")), "refused 5 line 4\n", "sixty conditions"),
    ]
}

/// Programs whose standings can be counted by hand. A thread of n fences has n + 1 standings, and threads that share
/// nothing multiply. `add r0 1`, `jump 0` has 32, two for each value; a loop of two with `add r0 2` has 16. A thread
/// that writes once has 3, before the write, while it waits and after it drained, and one more with a fence behind it.
fn rows() -> Vec<Trial> {
    let listing = |threads: &[(usize, &str)], fault: &str| {
        let thread = |&(fences, rest): &(usize, &str)| format!("thread\n{}{rest}", "fence\n".repeat(fences));
        let threads: String = threads.iter().map(thread).collect();
        format!("bound 2\n{threads}{fault}\n").into_bytes()
    };
    let none = "fault mem h 1";
    let start = "fault at 0 0";
    let met_early = "fault mem a 1";
    vec![
        edge(listing(&[(0, "add r0 1\njump 0\n"), (15, "")], none), "fences 0\n", "32 times 16 standings fit 512 rows"),
        edge(
            listing(&[(0, "add r0 1\njump 0\n"), (15, "")], start),
            "refused 15 line 0\n",
            "512 standings and a fault at the start",
        ),
        edge(
            listing(&[(3, "add r0 2\njump 3\n"), (11, "add r0 2\njump 11\n")], none),
            "refused 14 line 0\n",
            "19 times 27 standings do not fit 512 rows",
        ),
        edge(
            listing(&[(3, "add r0 2\njump 3\n"), (11, "add r0 2\njump 11\n")], start),
            "refused 14 line 0\n",
            "513 standings and a fault at the start",
        ),
        edge(
            listing(&[(0, "store a 1\nfence\n"), (7, ""), (15, "")], none),
            "fences 0\n",
            "4 times 8 times 16 standings fit 512 rows",
        ),
        edge(
            listing(&[(0, "store a 1\n"), (8, ""), (3, "add r0 2\njump 3\n")], none),
            "refused 14 line 0\n",
            "3 times 9 times 19 standings do not fit 512 rows",
        ),
        edge(
            // With a still 0 the thread stands at 0, or at 1 while its write waits; with a 1 it stands at 0, 1 or 2, or
            // at 1 while its next write waits.
            listing(&[(0, "store a 1\nfence\njump 0\n"), (4, ""), (16, "")], none),
            "fences 0\n",
            "6 times 5 times 17 standings fit 512 rows, if a queue that was used is as good as new",
        ),
        edge(
            listing(&[(0, "store a 1\n"), (16, ""), (15, "")], met_early),
            "refused 14 line 0\n",
            "3 times 17 times 16 standings and a fault that is met early",
        ),
    ]
}
