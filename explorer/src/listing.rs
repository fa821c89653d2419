//! Reads a listing: its bytes become a program, or are refused with a reason and a line.

use std::fmt;
use std::ops::RangeInclusive;

pub const MOST_BYTES: usize = 4096;
pub const MOST_THREADS: usize = 4;
pub const MOST_IN_A_THREAD: usize = 16;
pub const MOST_INSTRUCTIONS: usize = 32;
pub const MOST_FAULT_LINES: usize = 8;
pub const MOST_CONDITIONS: usize = 6;

pub const VARIABLES: usize = 8;
pub const REGISTERS: usize = 4;

#[derive(Clone, Copy, Debug, PartialEq, Eq)]
pub enum Operand {
    Value(u8),
    Register(usize),
}

#[derive(Clone, Copy, Debug, PartialEq, Eq)]
pub enum Instruction {
    Store { variable: usize, operand: Operand },
    Load { register: usize, variable: usize },
    Set { register: usize, operand: Operand },
    Add { register: usize, operand: Operand },
    Cas { register: usize, variable: usize, expected: Operand, replacement: Operand },
    Fence,
    Jump { target: usize },
    JumpIfEqual { register: usize, operand: Operand, target: usize },
    JumpUnlessEqual { register: usize, operand: Operand, target: usize },
}

#[derive(Clone, Copy, Debug, PartialEq, Eq)]
pub enum Condition {
    At { thread: usize, position: usize },
    Register { thread: usize, register: usize, value: u8 },
    Memory { variable: usize, value: u8 },
}

impl fmt::Display for Condition {
    fn fmt(&self, out: &mut fmt::Formatter) -> fmt::Result {
        match *self {
            Condition::At { thread, position } => write!(out, "at {thread} {position}"),
            Condition::Register { thread, register, value } => write!(out, "reg {thread} r{register} {value}"),
            Condition::Memory { variable, value } => {
                write!(out, "mem {} {value}", char::from(b"abcdefgh"[variable]))
            }
        }
    }
}

#[derive(Clone, Debug, PartialEq, Eq)]
pub struct Program {
    pub bound: usize,
    pub threads: Vec<Vec<Instruction>>,
    pub faults: Vec<Vec<Condition>>,
}

impl Program {
    /// The number of places: before each instruction there is one.
    pub fn places(&self) -> usize {
        self.threads.iter().map(Vec::len).sum()
    }

    /// The number of a thread's first instruction, counted through the whole listing.
    pub fn first_place(&self, thread: usize) -> usize {
        self.threads[..thread].iter().map(Vec::len).sum()
    }

    /// The place before a thread's instruction, if there is that instruction.
    pub fn place(&self, thread: usize, instruction: usize) -> Option<usize> {
        let is_there = instruction < self.threads.get(thread)?.len();
        is_there.then(|| self.first_place(thread) + instruction)
    }

    /// The thread that a place lies in, and the instruction's number within it.
    pub fn whereabouts(&self, place: usize) -> (usize, usize) {
        let mut instruction = place;
        for (thread, instructions) in self.threads.iter().enumerate() {
            if instruction < instructions.len() {
                return (thread, instruction);
            }
            instruction -= instructions.len();
        }
        panic!("place {place} is not in the program");
    }
}

/// Why a call is refused; the discriminant is the number that is printed.
#[derive(Clone, Copy, Debug, PartialEq, Eq)]
pub enum Reason {
    TooLong = 1,
    Byte = 2,
    Form = 3,
    Number = 4,
    Limit = 5,
    Incomplete = 6,
    OutsideThread = 7,
    NoProgram = 8,
    NoPlace = 9,
    AlreadySo = 10,
    ShortRunList = 11,
    NothingKept = 12,
    NotKept = 13,
    TooFewRows = 14,
    NeverEnough = 15,
}

#[derive(Clone, Copy, Debug, PartialEq, Eq)]
pub struct Refusal {
    pub reason: Reason,
    pub line: usize,
}

impl fmt::Display for Refusal {
    fn fmt(&self, out: &mut fmt::Formatter) -> fmt::Result {
        write!(out, "refused {} line {}", self.reason as u8, self.line)
    }
}

pub fn read(text: &[u8]) -> Result<Program, Refusal> {
    if text.len() > MOST_BYTES {
        return Err(Refusal { reason: Reason::TooLong, line: 0 });
    }
    let mut reader = Reader::default();
    for (index, line) in text.split(|&byte| byte == b'\n').enumerate() {
        let number = index + 1;
        reader.line(number, line).map_err(|reason| Refusal { reason, line: number })?;
    }
    reader.check_complete()?;
    reader.check_references()?;
    Ok(reader.program())
}

/// What has been read so far, each piece with its line.
#[derive(Default)]
struct Reader {
    bound: Option<usize>,
    threads: Vec<Block>,
    faults: Vec<(usize, Vec<Condition>)>,
}

/// A `thread` line and the instructions below it.
struct Block {
    line: usize,
    instructions: Vec<(usize, Instruction)>,
}

impl Reader {
    fn line(&mut self, number: usize, line: &[u8]) -> Result<(), Reason> {
        let code = line.split(|&byte| byte == b'#').next().unwrap_or_default();
        if !code.iter().all(|byte| matches!(byte, b'a'..=b'z' | b'0'..=b'9' | b' ')) {
            return Err(Reason::Byte);
        }
        let words: Vec<&[u8]> = code.split(|&byte| byte == b' ').filter(|word| !word.is_empty()).collect();
        let Some(&first) = words.first() else {
            return Ok(());
        };
        let parts = parts(&words).ok_or(Reason::Form)?;
        if !self.may_stand(first) {
            return Err(Reason::Form);
        }
        let parts = parts.iter().map(Part::checked).collect::<Option<Vec<_>>>().ok_or(Reason::Number)?;
        if !self.has_room(first, &parts) {
            return Err(Reason::Limit);
        }
        self.add(number, first, &parts);
        Ok(())
    }

    fn may_stand(&self, first: &[u8]) -> bool {
        match first {
            b"bound" => self.bound.is_none(),
            _ if self.bound.is_none() => false,
            b"fault" => true,
            b"thread" => self.faults.is_empty(),
            _ => self.faults.is_empty() && !self.threads.is_empty(),
        }
    }

    fn has_room(&self, first: &[u8], parts: &[Checked]) -> bool {
        match first {
            b"bound" => true,
            b"thread" => self.threads.len() < MOST_THREADS,
            b"fault" => self.faults.len() < MOST_FAULT_LINES && parts.len() <= MOST_CONDITIONS,
            _ => {
                let all: usize = self.threads.iter().map(|block| block.instructions.len()).sum();
                let own = self.threads.last().map_or(0, |block| block.instructions.len());
                own < MOST_IN_A_THREAD && all < MOST_INSTRUCTIONS
            }
        }
    }

    fn add(&mut self, line: usize, first: &[u8], parts: &[Checked]) {
        match first {
            b"bound" => self.bound = Some(parts[0].arguments[0].number()),
            b"thread" => self.threads.push(Block { line, instructions: Vec::new() }),
            b"fault" => {
                let conditions = parts.iter().map(|part| condition(part.name, &part.arguments)).collect();
                self.faults.push((line, conditions));
            }
            _ => {
                let block = self.threads.last_mut().expect("an instruction stands below a thread line");
                block.instructions.push((line, instruction(first, &parts[0].arguments)));
            }
        }
    }

    fn check_complete(&self) -> Result<(), Refusal> {
        let refused = |line| Err(Refusal { reason: Reason::Incomplete, line });
        if let Some(empty) = self.threads.iter().find(|block| block.instructions.is_empty()) {
            return refused(empty.line);
        }
        if self.threads.is_empty() || self.faults.is_empty() {
            return refused(0);
        }
        Ok(())
    }

    /// Fault lines come last in the text, so threads before faults is the order of lines.
    fn check_references(&self) -> Result<(), Refusal> {
        let refused = |line| Err(Refusal { reason: Reason::OutsideThread, line });
        for block in &self.threads {
            let passes = |target: usize| target > block.instructions.len();
            if let Some((line, _)) = block.instructions.iter().find(|(_, i)| target(i).is_some_and(passes)) {
                return refused(*line);
            }
        }
        for (line, conditions) in &self.faults {
            if conditions.iter().any(|condition| self.names_nothing(condition)) {
                return refused(*line);
            }
        }
        Ok(())
    }

    fn names_nothing(&self, condition: &Condition) -> bool {
        match *condition {
            Condition::At { thread, position } => {
                self.threads.get(thread).is_none_or(|block| position > block.instructions.len())
            }
            Condition::Register { thread, .. } => thread >= self.threads.len(),
            Condition::Memory { .. } => false,
        }
    }

    fn program(self) -> Program {
        let instructions = |block: Block| block.instructions.into_iter().map(|(_, i)| i).collect();
        Program {
            bound: self.bound.expect("a complete listing has its bound"),
            threads: self.threads.into_iter().map(instructions).collect(),
            faults: self.faults.into_iter().map(|(_, conditions)| conditions).collect(),
        }
    }
}

fn target(instruction: &Instruction) -> Option<usize> {
    match *instruction {
        Instruction::Jump { target }
        | Instruction::JumpIfEqual { target, .. }
        | Instruction::JumpUnlessEqual { target, .. } => Some(target),
        _ => None,
    }
}

/// What a word after the first has to be.
#[derive(Clone, Copy)]
enum Slot {
    Bound,
    Thread,
    Position,
    Value,
    Register,
    Variable,
    ValueOrRegister,
}

impl Slot {
    fn takes(self, word: &[u8]) -> bool {
        match self {
            Slot::Register => register(word).is_some(),
            Slot::Variable => variable(word).is_some(),
            Slot::ValueOrRegister => is_number(word) || register(word).is_some(),
            Slot::Bound | Slot::Thread | Slot::Position | Slot::Value => is_number(word),
        }
    }

    fn range(self) -> RangeInclusive<usize> {
        match self {
            Slot::Bound => 1..=4,
            Slot::Thread => 0..=3,
            Slot::Position => 0..=16,
            Slot::Value | Slot::ValueOrRegister => 0..=15,
            Slot::Register | Slot::Variable => unreachable!("no number stands there"),
        }
    }

    /// The word's meaning; none if it is a number that is too long or out of range.
    fn value(self, word: &[u8]) -> Option<Argument> {
        match self {
            Slot::Variable => variable(word).map(Argument::Variable),
            _ if !is_number(word) => register(word).map(Argument::Register),
            _ if word.len() > 2 => None,
            _ => {
                let number = word.iter().fold(0, |sum, digit| 10 * sum + usize::from(digit - b'0'));
                self.range().contains(&number).then_some(Argument::Number(number))
            }
        }
    }
}

fn is_number(word: &[u8]) -> bool {
    word.iter().all(u8::is_ascii_digit)
}

fn register(word: &[u8]) -> Option<usize> {
    match word {
        [b'r', digit @ b'0'..=b'3'] => Some(usize::from(digit - b'0')),
        _ => None,
    }
}

fn variable(word: &[u8]) -> Option<usize> {
    match word {
        [letter @ b'a'..=b'h'] => Some(usize::from(letter - b'a')),
        _ => None,
    }
}

/// A name and the words that belong to it: a whole line, or one condition of a fault line.
struct Part<'a> {
    name: &'a [u8],
    operands: Vec<(Slot, &'a [u8])>,
}

impl<'a> Part<'a> {
    fn new(name: &'a [u8], slots: &[Slot], words: &[&'a [u8]]) -> Option<Part<'a>> {
        let fits = words.len() == slots.len() && slots.iter().zip(words).all(|(slot, word)| slot.takes(word));
        fits.then(|| Part { name, operands: slots.iter().copied().zip(words.iter().copied()).collect() })
    }

    /// None if one of the numbers is not permitted.
    fn checked(&self) -> Option<Checked<'a>> {
        let arguments: Option<Vec<Argument>> = self.operands.iter().map(|(slot, word)| slot.value(word)).collect();
        arguments.map(|arguments| Checked { name: self.name, arguments })
    }
}

/// A part whose numbers are in range.
struct Checked<'a> {
    name: &'a [u8],
    arguments: Vec<Argument>,
}

/// Takes a line apart, if its words are of a form; numbers are not looked into yet.
fn parts<'a>(words: &[&'a [u8]]) -> Option<Vec<Part<'a>>> {
    let (&first, rest) = words.split_first()?;
    if first == b"fault" {
        return conditions(rest);
    }
    Part::new(first, line_slots(first)?, rest).map(|part| vec![part])
}

fn conditions<'a>(words: &[&'a [u8]]) -> Option<Vec<Part<'a>>> {
    let mut parts = Vec::new();
    let mut left = words;
    while let Some((&name, rest)) = left.split_first() {
        let slots = condition_slots(name)?;
        let own = rest.get(..slots.len())?;
        parts.push(Part::new(name, slots, own)?);
        left = &rest[slots.len()..];
    }
    (!parts.is_empty()).then_some(parts)
}

fn line_slots(first: &[u8]) -> Option<&'static [Slot]> {
    Some(match first {
        b"bound" => &[Slot::Bound],
        b"thread" | b"fence" => &[],
        b"store" => &[Slot::Variable, Slot::ValueOrRegister],
        b"load" => &[Slot::Register, Slot::Variable],
        b"set" | b"add" => &[Slot::Register, Slot::ValueOrRegister],
        b"cas" => &[Slot::Register, Slot::Variable, Slot::ValueOrRegister, Slot::ValueOrRegister],
        b"jump" => &[Slot::Position],
        b"jeq" | b"jne" => &[Slot::Register, Slot::ValueOrRegister, Slot::Position],
        _ => return None,
    })
}

fn condition_slots(name: &[u8]) -> Option<&'static [Slot]> {
    Some(match name {
        b"at" => &[Slot::Thread, Slot::Position],
        b"reg" => &[Slot::Thread, Slot::Register, Slot::Value],
        b"mem" => &[Slot::Variable, Slot::Value],
        _ => return None,
    })
}

/// A word after its checks.
#[derive(Clone, Copy, Debug)]
enum Argument {
    Number(usize),
    Register(usize),
    Variable(usize),
}

impl Argument {
    fn number(self) -> usize {
        match self {
            Argument::Number(number) => number,
            other => unreachable!("{other:?} stands where its form has a number"),
        }
    }

    fn register(self) -> usize {
        match self {
            Argument::Register(register) => register,
            other => unreachable!("{other:?} stands where its form has a register"),
        }
    }

    fn variable(self) -> usize {
        match self {
            Argument::Variable(variable) => variable,
            other => unreachable!("{other:?} stands where its form has a variable"),
        }
    }

    fn value(self) -> u8 {
        u8::try_from(self.number()).expect("a value is at most 15")
    }

    fn operand(self) -> Operand {
        match self {
            Argument::Register(register) => Operand::Register(register),
            number => Operand::Value(number.value()),
        }
    }
}

fn instruction(name: &[u8], arguments: &[Argument]) -> Instruction {
    match (name, arguments) {
        (b"store", [v, e]) => Instruction::Store { variable: v.variable(), operand: e.operand() },
        (b"load", [r, v]) => Instruction::Load { register: r.register(), variable: v.variable() },
        (b"set", [r, e]) => Instruction::Set { register: r.register(), operand: e.operand() },
        (b"add", [r, e]) => Instruction::Add { register: r.register(), operand: e.operand() },
        (b"cas", [r, v, e, f]) => Instruction::Cas {
            register: r.register(),
            variable: v.variable(),
            expected: e.operand(),
            replacement: f.operand(),
        },
        (b"fence", []) => Instruction::Fence,
        (b"jump", [n]) => Instruction::Jump { target: n.number() },
        (b"jeq", [r, e, n]) => {
            Instruction::JumpIfEqual { register: r.register(), operand: e.operand(), target: n.number() }
        }
        (b"jne", [r, e, n]) => {
            Instruction::JumpUnlessEqual { register: r.register(), operand: e.operand(), target: n.number() }
        }
        _ => unreachable!("the line's form was checked"),
    }
}

fn condition(name: &[u8], arguments: &[Argument]) -> Condition {
    match (name, arguments) {
        (b"at", [t, n]) => Condition::At { thread: t.number(), position: n.number() },
        (b"reg", [t, r, d]) => Condition::Register { thread: t.number(), register: r.register(), value: d.value() },
        (b"mem", [v, d]) => Condition::Memory { variable: v.variable(), value: d.value() },
        _ => unreachable!("the condition's form was checked"),
    }
}

#[cfg(test)]
mod tests {
    use super::*;

    #[test]
    fn reads_every_instruction_and_condition() {
        let text = b"bound 3\nthread\nstore h r3\nload r0 a\nset r1 15\nadd r2 r1\ncas r0 b 0 r1\nfence\nthread # 2\n\
                     jump 3\njeq r0 7 0\njne r3 r2 1\nfault at 1 3 reg 0 r2 9 mem h 0\nfault mem a 01";
        let [r1, r2, r3] = [1, 2, 3].map(Operand::Register);
        let first = vec![
            Instruction::Store { variable: 7, operand: r3 },
            Instruction::Load { register: 0, variable: 0 },
            Instruction::Set { register: 1, operand: Operand::Value(15) },
            Instruction::Add { register: 2, operand: r1 },
            Instruction::Cas { register: 0, variable: 1, expected: Operand::Value(0), replacement: r1 },
            Instruction::Fence,
        ];
        let second = vec![
            Instruction::Jump { target: 3 },
            Instruction::JumpIfEqual { register: 0, operand: Operand::Value(7), target: 0 },
            Instruction::JumpUnlessEqual { register: 3, operand: r2, target: 1 },
        ];
        let faults = vec![
            vec![
                Condition::At { thread: 1, position: 3 },
                Condition::Register { thread: 0, register: 2, value: 9 },
                Condition::Memory { variable: 7, value: 0 },
            ],
            vec![Condition::Memory { variable: 0, value: 1 }],
        ];
        assert_eq!(read(text), Ok(Program { bound: 3, threads: vec![first, second], faults }));
    }

    #[test]
    fn refuses_with_the_first_reason_and_its_line() {
        let refusals: [(&[u8], Reason, usize); 16] = [
            (&[b' '; 4097], Reason::TooLong, 0),
            (&[b' '; 4096], Reason::Incomplete, 0),
            (b"", Reason::Incomplete, 0),
            (b"bound 1\nthread\tx", Reason::Byte, 2),
            (b"bound 1 # \xff\n\xff", Reason::Byte, 2),
            (b"bound 5 !", Reason::Byte, 1),
            (b"thread", Reason::Form, 1),
            (b"bound 1\nthread\nstore a 99 x", Reason::Form, 3),
            (b"bound 1\nbound 9", Reason::Form, 2),
            (b"bound 5", Reason::Number, 1),
            (b"bound 001", Reason::Number, 1),
            (b"bound 1\nthread\nstore a 16", Reason::Number, 3),
            (b"bound 1\nfault mem a 1 mem a 1 mem a 1 mem a 1 mem a 1 mem a 1 mem a 1", Reason::Limit, 2),
            (b"bound 1\nthread\nfence\nthread\nfault mem a 1", Reason::Incomplete, 4),
            (b"bound 1\nthread\njump 3\nfence\nfault mem a 1", Reason::OutsideThread, 3),
            (b"bound 1\nthread\nfence\nfault mem a 1\nfault at 1 0", Reason::OutsideThread, 5),
        ];
        for (text, reason, line) in refusals {
            assert_eq!(read(text), Err(Refusal { reason, line }), "{}", text.escape_ascii());
        }
    }

    #[test]
    fn finds_a_place_again() {
        let program = read(b"bound 1\nthread\nfence\nfence\nthread\nfence\nfault mem a 1").expect("a good listing");
        assert_eq!([0, 1].map(|thread| program.first_place(thread)), [0, 2]);
        assert_eq!([0, 1, 2].map(|place| program.whereabouts(place)), [(0, 0), (0, 1), (1, 0)]);
    }
}
