//! The bytes of a listing: all that the format leaves free, spaces, comments, blank lines and leading zeros, varies.

use crate::random::Random;

pub fn lay_out(random: &mut Random, lines: &[String]) -> Vec<u8> {
    let mut text = Vec::new();
    for (index, line) in lines.iter().enumerate() {
        if random.percent(4) {
            comment_or_nothing(random, &mut text);
            text.push(b'\n');
        }
        words(random, line, &mut text);
        if random.percent(8) {
            comment_or_nothing(random, &mut text);
        }
        let is_last = index + 1 == lines.len();
        if !is_last || random.percent(70) {
            text.push(b'\n');
        }
    }
    text
}

fn words(random: &mut Random, line: &str, text: &mut Vec<u8>) {
    spaces(random, 0, text);
    for (index, word) in line.split(' ').enumerate() {
        if index > 0 {
            spaces(random, 1, text);
        }
        let is_digit = word.len() == 1 && word.as_bytes()[0].is_ascii_digit();
        if is_digit && random.percent(3) {
            text.push(b'0');
        }
        text.extend(word.as_bytes());
    }
    spaces(random, 0, text);
}

fn spaces(random: &mut Random, least: usize, text: &mut Vec<u8>) {
    let more = if random.percent(5) { random.between(1, 3) } else { 0 };
    text.extend(std::iter::repeat_n(b' ', least + more));
}

fn comment_or_nothing(random: &mut Random, text: &mut Vec<u8>) {
    if random.percent(20) {
        return;
    }
    text.push(b'#');
    for _ in 0..random.below(12) {
        let byte = random.below(256) as u8;
        text.push(if byte == b'\n' { b'#' } else { byte });
    }
}
