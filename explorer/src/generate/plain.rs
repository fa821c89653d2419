//! Plain random programs, small enough for most to fit the console's rows.

use std::collections::HashSet;

use super::layout::lay_out;
use super::Draft;
use crate::answer::CONSOLE_ROWS;
use crate::listing::{self, Condition, MOST_CONDITIONS};
use crate::machine::{buffered_graph, unbuffered_graph, Picture};
use crate::random::Random;

pub fn plain(random: &mut Random) -> Vec<u8> {
    let draft = draft(random);
    lay_out(random, &draft.lines())
}

/// A plain random program with a fault that only waiting writes lead to. By such a fault the fences matter, while most
/// others come up without any waiting or not at all.
pub fn telling(random: &mut Random) -> Vec<u8> {
    loop {
        let mut draft = draft(random);
        if draft.threads.len() < 2 || !draft.threads.iter().any(|thread| stores_before_load(thread)) {
            continue;
        }
        if let Some(fault) = telling_fault(random, &draft) {
            draft.faults = vec![fault];
            return lay_out(random, &draft.lines());
        }
    }
}

/// The few names and values that a program uses, so that its threads meet.
struct Palette {
    variables: Vec<char>,
    registers: Vec<usize>,
    values: Vec<usize>,
}

impl Palette {
    fn new(random: &mut Random) -> Palette {
        let mut variables: Vec<char> = ('a'..='h').collect();
        let mut registers = vec![0, 1, 2, 3];
        let mut values = vec![0, 1, 2];
        random.shuffle(&mut variables);
        random.shuffle(&mut registers);
        variables.truncate(random.between(1, 3));
        registers.truncate(random.between(1, 2));
        if random.percent(30) {
            values.push(random.below(16));
        }
        Palette { variables, registers, values }
    }

    fn variable(&self, random: &mut Random) -> char {
        *random.pick(&self.variables)
    }

    fn register(&self, random: &mut Random) -> usize {
        *random.pick(&self.registers)
    }

    fn value(&self, random: &mut Random) -> usize {
        *random.pick(&self.values)
    }

    fn operand(&self, random: &mut Random) -> String {
        if random.percent(25) {
            format!("r{}", self.register(random))
        } else {
            self.value(random).to_string()
        }
    }
}

pub fn draft(random: &mut Random) -> Draft {
    let palette = Palette::new(random);
    let count = random.between(1, 4);
    let longest = [12, 6, 4, 3][count - 1];
    let threads: Vec<Vec<String>> = (0..count).map(|_| thread(random, &palette, longest)).collect();
    let faults = (0..random.between(1, 3)).map(|_| fault(random, &palette, &threads)).collect();
    Draft { bound: random.between(1, 4), threads, faults }
}

fn thread(random: &mut Random, palette: &Palette, longest: usize) -> Vec<String> {
    let length = random.between(1, longest);
    (0..length).map(|_| instruction(random, palette, length)).collect()
}

fn instruction(random: &mut Random, palette: &Palette, length: usize) -> String {
    let variable = palette.variable(random);
    let register = palette.register(random);
    let operand = palette.operand(random);
    let target = random.between(0, length);
    match random.below(100) {
        0..=29 => format!("store {variable} {operand}"),
        30..=59 => format!("load r{register} {variable}"),
        60..=69 => format!("cas r{register} {variable} {operand} {}", palette.operand(random)),
        70..=75 => format!("set r{register} {operand}"),
        76..=83 => format!("add r{register} {operand}"),
        84..=86 => "fence".to_string(),
        87..=89 => format!("jump {target}"),
        90..=94 => format!("jeq r{register} {operand} {target}"),
        _ => format!("jne r{register} {operand} {target}"),
    }
}

fn fault(random: &mut Random, palette: &Palette, threads: &[Vec<String>]) -> String {
    let most = if random.percent(20) { 6 } else { 3 };
    let count = random.between(1, most);
    let conditions: Vec<String> = (0..count).map(|_| condition(random, palette, threads)).collect();
    conditions.join(" ")
}

fn condition(random: &mut Random, palette: &Palette, threads: &[Vec<String>]) -> String {
    let thread = random.below(threads.len());
    let end = threads[thread].len();
    match random.below(10) {
        0..=2 => format!("at {thread} {end}"),
        3 => format!("at {thread} {}", random.between(0, end)),
        4..=6 => format!("reg {thread} r{} {}", palette.register(random), palette.value(random)),
        _ => format!("mem {} {}", palette.variable(random), palette.value(random)),
    }
}

/// Without a store and a later load of another variable nothing changes places.
fn stores_before_load(thread: &[String]) -> bool {
    let stored = |line: &String| line.strip_prefix("store ").map(|rest| rest[..1].to_string());
    let loaded = |line: &String| line.strip_prefix("load ").map(|rest| rest[rest.len() - 1..].to_string());
    let mut lines = thread.iter();
    let first = lines.find_map(stored);
    first.is_some() && lines.filter_map(loaded).any(|variable| Some(variable) != first)
}

/// A fault line that holds of a picture which only waiting writes lead to, if the program has one.
fn telling_fault(random: &mut Random, draft: &Draft) -> Option<String> {
    let program = listing::read(draft.lines().join("\n").as_bytes()).expect("a draft is a good listing");
    let without_waiting: HashSet<Picture> = unbuffered_graph(&program, CONSOLE_ROWS)?.standings.into_iter().collect();
    let standings = buffered_graph(&program, CONSOLE_ROWS)?.standings;
    let settled = standings.into_iter().filter(|standing| standing.is_settled()).map(|standing| standing.picture);
    let by_waiting: Vec<Picture> = settled.filter(|picture| !without_waiting.contains(picture)).collect();
    if by_waiting.is_empty() {
        return None;
    }
    let picture = random.pick(&by_waiting);
    let mut facts = facts(picture);
    random.shuffle(&mut facts);
    let mut others: Vec<&Picture> = without_waiting.iter().collect();
    let mut chosen = Vec::new();
    for fact in facts {
        let left: Vec<&Picture> = others.iter().copied().filter(|other| other.has(&fact)).collect();
        if left.len() < others.len() && chosen.len() < MOST_CONDITIONS {
            chosen.push(fact.to_string());
            others = left;
        }
    }
    Some(chosen.join(" "))
}

fn facts(picture: &Picture) -> Vec<Condition> {
    let mut facts = Vec::new();
    for (thread, own) in picture.threads.iter().enumerate() {
        facts.push(Condition::At { thread, position: own.position });
        let registers = own.registers.iter().enumerate();
        facts.extend(registers.map(|(register, &value)| Condition::Register { thread, register, value }));
    }
    let memory = picture.memory.iter().enumerate();
    facts.extend(memory.map(|(variable, &value)| Condition::Memory { variable, value }));
    facts
}
