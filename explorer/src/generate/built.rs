//! Programs put together from small ones that are known to go wrong when writes wait.

use super::layout::lay_out;
use super::Draft;
use crate::answer::{answer, Answer, CONSOLE_ROWS};
use crate::random::Random;

/// A small program. `x`, `y`, `z` stand for variables and `p`, `q` for registers, to be named anew in each listing.
/// The conditions are those of the fault line apart from all threads being done.
struct Fragment {
    threads: &'static [&'static [&'static str]],
    conditions: &'static [&'static str],
}

const STORE_BUFFERING: Fragment = Fragment {
    threads: &[&["store x 1", "load p y"], &["store y 1", "load p x"]],
    conditions: &["reg 0 p 0", "reg 1 p 0"],
};

const FORWARDED: Fragment = Fragment {
    threads: &[&["store x 1", "load p x", "load q y"], &["store y 1", "load p y", "load q x"]],
    conditions: &["reg 0 p 1", "reg 0 q 0", "reg 1 p 1", "reg 1 q 0"],
};

const N6: Fragment = Fragment {
    threads: &[&["store x 1", "load p x", "load q y"], &["store y 2", "store x 2"]],
    conditions: &["reg 0 p 1", "reg 0 q 0", "mem x 1"],
};

const R: Fragment = Fragment {
    threads: &[&["store x 1", "store y 1"], &["store y 2", "load p x"]],
    conditions: &["mem y 2", "reg 1 p 0"],
};

const MESSAGE_PASSING: Fragment = Fragment {
    threads: &[&["store x 1", "store y 1"], &["load p y", "load q x"]],
    conditions: &["reg 1 p 1", "reg 1 q 0"],
};

const RING_OF_THREE: Fragment = Fragment {
    threads: &[&["store x 1", "load p y"], &["store y 1", "load p z"], &["store z 1", "load p x"]],
    conditions: &["reg 0 p 0", "reg 1 p 0", "reg 2 p 0"],
};

const READ_TO_WRITE: Fragment = Fragment {
    threads: &[&["store x 1"], &["load p x", "load q y"], &["store y 1", "load p x"]],
    conditions: &["reg 1 p 1", "reg 1 q 0", "reg 2 p 0"],
};

const WRITES_THEN_READS: Fragment = Fragment {
    threads: &[&["store x 1", "store y 1"], &["store y 2", "load p z"], &["store z 1", "load p x"]],
    conditions: &["mem y 2", "reg 1 p 0", "reg 2 p 0"],
};

const FOR_TWO_THREADS: [&Fragment; 5] = [&STORE_BUFFERING, &FORWARDED, &N6, &R, &MESSAGE_PASSING];
const FOR_THREE_THREADS: [&Fragment; 3] = [&RING_OF_THREE, &READ_TO_WRITE, &WRITES_THEN_READS];

/// A listing that needs exactly so many fences, from 1 to 4.
pub fn built(random: &mut Random, fences: usize) -> Vec<u8> {
    const TRIES: usize = 10_000;
    let fits = |text: &Vec<u8>| matches!(answer(text, CONSOLE_ROWS), Answer::Fences(found) if found.len() == fences);
    (0..TRIES)
        .map(|_| {
            let draft = draft(random);
            lay_out(random, &draft.lines())
        })
        .find(fits)
        .unwrap_or_else(|| panic!("no listing that needs {fences} fences in {TRIES} tries"))
}

/// Programs that mostly need one to four fences, and that mostly fit the console's rows.
pub fn draft(random: &mut Random) -> Draft {
    let fragments: Vec<&Fragment> = match random.below(4) {
        0 => vec![*random.pick(&FOR_THREE_THREADS)],
        1 => vec![*random.pick(&FOR_TWO_THREADS)],
        _ => vec![*random.pick(&FOR_TWO_THREADS), *random.pick(&FOR_TWO_THREADS)],
    };
    let mut names = Names::new(random);
    let mut threads = vec![Vec::new(); fragments[0].threads.len()];
    let mut faults = Vec::new();
    for fragment in fragments {
        faults.push(append(random, &mut names, fragment, &mut threads));
    }
    for instructions in &mut threads {
        pad(random, instructions);
    }
    let done: Vec<String> = threads.iter().enumerate().map(|(t, own)| format!("at {t} {}", own.len())).collect();
    let faults = faults.into_iter().map(|conditions| format!("{} {}", done.join(" "), conditions.join(" "))).collect();
    let bound = if random.percent(60) { 1 } else { random.between(2, 4) };
    Draft { bound, threads, faults }
}

/// Names that no fragment has used yet.
struct Names {
    variables: Vec<char>,
    registers: Vec<usize>,
}

impl Names {
    fn new(random: &mut Random) -> Names {
        let mut variables: Vec<char> = ('a'..='h').collect();
        let mut registers = vec![0, 1, 2, 3];
        random.shuffle(&mut variables);
        random.shuffle(&mut registers);
        Names { variables, registers }
    }

    /// The words that stand for `x`, `y`, `z`, `p` and `q` in one fragment.
    fn take(&mut self) -> [(&'static str, String); 5] {
        let mut variable = || self.variables.pop().expect("three variables for each fragment").to_string();
        let [x, y, z] = [variable(), variable(), variable()];
        let mut register = || format!("r{}", self.registers.pop().expect("two registers for each fragment"));
        let [p, q] = [register(), register()];
        [("x", x), ("y", y), ("z", z), ("p", p), ("q", q)]
    }
}

/// Puts a fragment at the ends of the threads, in any order of threads, and gives its conditions.
fn append(random: &mut Random, names: &mut Names, fragment: &Fragment, threads: &mut [Vec<String>]) -> Vec<String> {
    let names = names.take();
    let mut order: Vec<usize> = (0..threads.len()).collect();
    random.shuffle(&mut order);
    for (instructions, &thread) in fragment.threads.iter().zip(&order) {
        threads[thread].extend(instructions.iter().map(|instruction| renamed(instruction, &names)));
    }
    let condition = |condition: &&str| match condition.strip_prefix("reg ").and_then(|rest| rest.split_once(' ')) {
        Some((thread, rest)) => {
            let thread: usize = thread.parse().expect("a thread's number follows reg");
            format!("reg {} {}", order[thread], renamed(rest, &names))
        }
        None => renamed(condition, &names),
    };
    fragment.conditions.iter().map(condition).collect()
}

fn renamed(words: &str, names: &[(&str, String)]) -> String {
    let rename = |word| names.iter().find(|(name, _)| *name == word).map_or(word, |(_, new)| new.as_str());
    words.split(' ').map(rename).collect::<Vec<_>>().join(" ")
}

/// Puts instructions in between that change nothing of note, so that one fence can stand at several places.
fn pad(random: &mut Random, instructions: &mut Vec<String>) {
    const NEXT: &str = "next";
    let register = (0..4).find(|r| !instructions.iter().any(|i| i.contains(&format!("r{r}"))));
    for _ in 0..random.below(3) {
        let at = random.below(instructions.len() + 1);
        let filler = match (random.below(5), register) {
            (0, Some(r)) => format!("set r{r} {}", random.below(2)),
            (1, Some(r)) => format!("add r{r} {}", random.below(2)),
            (2, _) => "fence".to_string(),
            (3, _) => format!("jump {NEXT}"),
            _ => continue,
        };
        instructions.insert(at, filler);
    }
    for (index, instruction) in instructions.iter_mut().enumerate() {
        *instruction = instruction.replace(NEXT, &(index + 1).to_string());
    }
}
