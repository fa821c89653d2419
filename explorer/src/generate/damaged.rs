//! Good listings with something wrong done to them, so that reading refuses most of them.

use super::layout::lay_out;
use super::{built, plain, Draft};
use crate::listing::MOST_BYTES;
use crate::random::Random;

/// A listing with a damage that this refusal of reading, from 1 to 7, is for, and sometimes with another one.
/// Which refusal it gets in the end is left to the reader: damages meet, miss, or stay within the limits.
pub fn damaged(random: &mut Random, refusal: usize) -> Vec<u8> {
    let draft = if random.percent(50) { plain::draft(random) } else { built::draft(random) };
    let mut refusals = vec![refusal];
    if random.percent(30) {
        refusals.push(random.between(1, 7));
    }
    let mut draft = draft;
    if refusals.contains(&6) {
        empty_something(random, &mut draft);
    }
    if refusals.contains(&5) {
        overfill_something(random, &mut draft);
    }
    let mut lines = draft.lines();
    if refusals.contains(&7) {
        misdirect(random, &mut lines);
    }
    if refusals.contains(&4) {
        spoil_number(random, &mut lines);
    }
    if refusals.contains(&3) {
        spoil_words(random, &mut lines);
    }
    let mut text = lay_out(random, &lines);
    if refusals.contains(&2) {
        put_in_byte(random, &mut text);
    }
    if refusals.contains(&1) {
        lengthen(random, &mut text);
    }
    text
}

fn empty_something(random: &mut Random, draft: &mut Draft) {
    match random.below(5) {
        0 => draft.faults.clear(),
        1 => draft.threads.clear(),
        _ => {
            let thread = random.below(draft.threads.len());
            draft.threads[thread].clear();
        }
    }
}

/// Goes to a limit of the format or one past it.
fn overfill_something(random: &mut Random, draft: &mut Draft) {
    let past = random.below(4).min(1);
    match random.below(5) {
        0 => draft.threads.resize(4 + past, vec!["fence".to_string()]),
        1 => draft.threads = vec![vec!["fence".to_string(); 8 + past]; 4],
        2 => match draft.threads.last_mut() {
            Some(thread) => thread.resize(16 + past, "load r3 h".to_string()),
            None => draft.threads.push(vec!["fence".to_string(); 16 + past]),
        },
        3 => draft.faults.resize(8 + past, "mem h 15".to_string()),
        _ => draft.faults.push(vec!["mem h 15"; 6 + past].join(" ")),
    }
}

/// Makes a jump or a condition point out of its thread, or name a thread that may not be there.
fn misdirect(random: &mut Random, lines: &mut [String]) {
    let able: Vec<usize> =
        (0..lines.len()).filter(|&line| lines[line].starts_with('j') || lines[line].contains("at ")).collect();
    if able.is_empty() {
        return;
    }
    let line = &mut lines[*random.pick(&able)];
    let mut words: Vec<String> = line.split(' ').map(String::from).collect();
    let far = random.between(6, 16).to_string();
    if words[0].starts_with('j') {
        *words.last_mut().expect("a jump has words") = far;
    } else if let Some(at) = words.iter().position(|word| word == "at") {
        let (offset, number) = if random.percent(50) { (1, random.below(4).to_string()) } else { (2, far) };
        words[at + offset] = number;
    }
    *line = words.join(" ");
}

fn spoil_number(random: &mut Random, lines: &mut [String]) {
    let is_number = |word: &&str| word.bytes().all(|byte| byte.is_ascii_digit());
    let able: Vec<usize> =
        (0..lines.len()).filter(|&line| lines[line].split(' ').any(|word| is_number(&word))).collect();
    let line = &mut lines[*random.pick(&able)];
    let mut words: Vec<String> = line.split(' ').map(String::from).collect();
    let numbers: Vec<usize> = (0..words.len()).filter(|&word| is_number(&words[word].as_str())).collect();
    let word = &mut words[*random.pick(&numbers)];
    *word = match random.below(4) {
        0 => format!("00{word}"),
        1 => random.between(100, 400).to_string(),
        2 => random.between(15, 18).to_string(),
        _ => random.between(4, 99).to_string(),
    };
    *line = words.join(" ");
}

fn spoil_words(random: &mut Random, lines: &mut Vec<String>) {
    const STRAY: [&str; 14] =
        ["bound", "thread", "fault", "fence", "at", "reg", "mem", "r4", "i", "rr", "1a", "7", "a", "r0"];
    let line = random.below(lines.len());
    let mut words: Vec<String> = lines[line].split(' ').map(String::from).collect();
    let word = random.below(words.len());
    match random.below(7) {
        0 => {
            words.remove(word);
        }
        1 => words.insert(word, words[word].clone()),
        2 => words[word] = random.pick(&STRAY).to_string(),
        3 => words.insert(word + 1, random.pick(&STRAY).to_string()),
        4 => words[word].push('e'),
        5 => words.rotate_left(1),
        _ => {
            let moved = lines.remove(line);
            lines.insert(random.below(lines.len() + 1), moved);
            return;
        }
    }
    lines[line] = words.join(" ");
}

fn put_in_byte(random: &mut Random, text: &mut Vec<u8>) {
    const BYTES: &[u8] = b"\t\r\0\x0b\x1f!\"+,-./:;@A_Z[`{|~\x7f\x80\xa0\xc3\xff";
    let at = random.below(text.len());
    let byte = *random.pick(BYTES);
    if random.percent(50) {
        text.insert(at, byte);
    } else {
        text[at] = byte;
    }
}

/// Fills up to the most bytes that a listing may have, or somewhat past them.
fn lengthen(random: &mut Random, text: &mut Vec<u8>) {
    let past = *random.pick(&[0, 1, 1, 2, 1000]);
    let filler = *random.pick(b" \n#x");
    let length = MOST_BYTES + past;
    let rest = length.saturating_sub(text.len());
    if random.percent(50) {
        text.extend(std::iter::repeat_n(filler, rest));
    } else {
        text.splice(0..0, std::iter::repeat_n(filler, rest));
    }
}
