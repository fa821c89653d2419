//! A job: what it holds, what its calls answer, and why they are refused.

use std::collections::BTreeSet;
use std::fmt::Write;
use std::rc::Rc;

use crate::answer::{Answer, Crossings};
use crate::listing::{self, Program, Reason, Refusal};
use crate::machine::{buffered_graph, unbuffered_graph, Graph, Picture, Standing};
use crate::run::FaultRun;

/// A search uses no more rows than these.
pub const MOST_ROWS: usize = 65_536;

/// The kind of machine that a job is for, or that a run is of.
#[derive(Clone, Copy, Debug, PartialEq, Eq)]
pub enum Board {
    Buffered,
    Unbuffered,
}

/// How much memory the searches are handed.
#[derive(Clone, Copy, Debug, PartialEq, Eq)]
pub struct Lent {
    pub rows: usize,
    pub run_list: usize,
}

/// A place as it is written: a thread and an instruction of it, whether or not they are there.
#[derive(Clone, Copy, Debug, PartialEq, Eq)]
pub struct At {
    pub thread: usize,
    pub instruction: usize,
}

/// A program with what each machine reaches of it, or none where that is more than fits any memory.
struct Explored {
    program: Rc<Program>,
    buffered: Option<Graph<Standing>>,
    unbuffered: Option<Graph<Picture>>,
}

impl Explored {
    fn new(program: Program) -> Explored {
        Explored {
            buffered: buffered_graph(&program, MOST_ROWS),
            unbuffered: unbuffered_graph(&program, MOST_ROWS),
            program: Rc::new(program),
        }
    }

    fn place(&self, at: At) -> Result<usize, Reason> {
        self.program.place(at.thread, at.instruction).ok_or(Reason::NoPlace)
    }

    /// All that a machine reaches, if there are as many rows.
    fn crossings(&self, board: Board, rows: usize) -> Result<Crossings<'_>, Reason> {
        match board {
            Board::Buffered => Ok(Crossings::new(&self.program, fitting(&self.buffered, rows)?)),
            Board::Unbuffered => Ok(Crossings::new(&self.program, fitting(&self.unbuffered, rows)?)),
        }
    }

    /// What a fault run that keeps to these places has to be.
    fn fault_run(&self, board: Board, fenced: BTreeSet<usize>, rows: usize) -> FaultRun {
        FaultRun { program: Rc::clone(&self.program), board, fenced, rows }
    }

    fn standings(&self, board: Board) -> Option<usize> {
        match board {
            Board::Buffered => self.buffered.as_ref().map(|graph| graph.standings.len()),
            Board::Unbuffered => self.unbuffered.as_ref().map(|graph| graph.standings.len()),
        }
    }
}

fn fitting<S>(graph: &Option<Graph<S>>, rows: usize) -> Result<&Graph<S>, Reason> {
    graph.as_ref().filter(|graph| graph.standings.len() <= rows).ok_or(Reason::TooFewRows)
}

pub struct Job {
    board: Board,
    explored: Option<Explored>,
    barred: BTreeSet<usize>,
    kept: Option<BTreeSet<usize>>,
}

impl Job {
    pub fn new(board: Board) -> Job {
        Job { board, explored: None, barred: BTreeSet::new(), kept: None }
    }

    pub fn board(&self) -> Board {
        self.board
    }

    pub fn barred(&self) -> &BTreeSet<usize> {
        &self.barred
    }

    pub fn kept(&self) -> Option<&BTreeSet<usize>> {
        self.kept.as_ref()
    }

    pub fn program(&self) -> Option<&Program> {
        self.explored.as_ref().map(|explored| &*explored.program)
    }

    /// How many standings a machine reaches of the program that was read, if they fit any memory.
    pub fn standings(&self, board: Board) -> Option<usize> {
        self.explored.as_ref()?.standings(board)
    }

    /// Answers the number of places.
    pub fn read(&mut self, text: &[u8]) -> Result<usize, Refusal> {
        let program = listing::read(text)?;
        let places = program.places();
        *self = Job { explored: Some(Explored::new(program)), ..Job::new(self.board) };
        Ok(places)
    }

    pub fn bar(&mut self, at: At) -> Result<(), Reason> {
        let place = self.explored()?.place(at)?;
        self.change(|barred| barred.insert(place))
    }

    pub fn free(&mut self, at: At) -> Result<(), Reason> {
        let place = self.explored()?.place(at)?;
        self.change(|barred| barred.remove(&place))
    }

    /// Changes the barred places, if that changes anything, and drops the placement.
    fn change(&mut self, change: impl FnOnce(&mut BTreeSet<usize>) -> bool) -> Result<(), Reason> {
        if !change(&mut self.barred) {
            return Err(Reason::AlreadySo);
        }
        self.kept = None;
        Ok(())
    }

    pub fn solve(&mut self, rows: usize) -> Result<(), Reason> {
        let crossings = self.explored()?.crossings(self.board, rows)?;
        let least = crossings.least(&self.barred).ok_or(Reason::NeverEnough)?;
        self.kept = Some(least.into_iter().collect());
        Ok(())
    }

    pub fn report(&self) -> Result<Answer, Reason> {
        let program = &self.explored()?.program;
        let kept = self.kept.as_ref().ok_or(Reason::NothingKept)?;
        Ok(Answer::Fences(kept.iter().map(|&place| program.whereabouts(place)).collect()))
    }

    /// None if the places are enough.
    pub fn test(&self, places: &[At], lent: Lent) -> Result<Option<FaultRun>, Reason> {
        let explored = self.explored()?;
        let set = places.iter().map(|&at| explored.place(at)).collect::<Result<BTreeSet<usize>, Reason>>()?;
        long_enough(lent)?;
        let is_enough = explored.crossings(self.board, lent.rows)?.is_enough(set.iter().copied());
        Ok((!is_enough).then(|| explored.fault_run(self.board, set, lent.rows)))
    }

    /// A run that the other kept places let through; as fewer places than are kept are never enough, there is one.
    pub fn show(&self, at: At, lent: Lent) -> Result<FaultRun, Reason> {
        let explored = self.explored()?;
        let place = explored.place(at)?;
        long_enough(lent)?;
        let mut others = self.kept.clone().ok_or(Reason::NothingKept)?;
        if !others.remove(&place) {
            return Err(Reason::NotKept);
        }
        explored.crossings(self.board, lent.rows)?;
        Ok(explored.fault_run(self.board, others, lent.rows))
    }

    /// None if the unbuffered machine is free of faults.
    pub fn plain(&self, lent: Lent) -> Result<Option<FaultRun>, Reason> {
        let explored = self.explored()?;
        long_enough(lent)?;
        let is_free = explored.crossings(Board::Unbuffered, lent.rows)?.is_enough([]);
        Ok((!is_free).then(|| explored.fault_run(Board::Unbuffered, BTreeSet::new(), lent.rows)))
    }

    /// A line for each barred place, then the report, or that nothing is kept.
    pub fn look(&self) -> String {
        let mut text = String::new();
        if let Some(program) = self.program() {
            for &place in &self.barred {
                let (thread, instruction) = program.whereabouts(place);
                writeln!(text, "barred {thread} {instruction}").expect("a string takes all that is written");
            }
        }
        match self.report() {
            Ok(report) => text + &report.to_string(),
            Err(_) => text + "kept none\n",
        }
    }

    fn explored(&self) -> Result<&Explored, Reason> {
        self.explored.as_ref().ok_or(Reason::NoProgram)
    }
}

/// A run is shorter than there are rows, so that a list of as many steps always holds it.
fn long_enough(lent: Lent) -> Result<(), Reason> {
    if lent.run_list < lent.rows {
        return Err(Reason::ShortRunList);
    }
    Ok(())
}

#[cfg(test)]
mod tests {
    use super::*;

    /// 34 standings with queues, 13 without; the least set is that of the places 1 and 3.
    const SB: &[u8] = b"bound 1\nthread\nstore a 1\nload r0 b\nthread\nstore b 1\nload r0 a\n\
                        fault at 0 2 at 1 2 reg 0 r0 0 reg 1 r0 0\n";

    fn job(board: Board) -> Job {
        let mut job = Job::new(board);
        assert_eq!(job.read(SB), Ok(4));
        job
    }

    fn lent(rows: usize, run_list: usize) -> Lent {
        Lent { rows, run_list }
    }

    fn at(thread: usize, instruction: usize) -> At {
        At { thread, instruction }
    }

    /// Whether a run is asked for, or the refusal.
    fn is_run(answer: Result<Option<FaultRun>, Reason>) -> Result<bool, Reason> {
        answer.map(|run| run.is_some())
    }

    #[test]
    fn a_kept_placement_lasts_until_a_change() {
        let mut job = job(Board::Buffered);
        assert_eq!(job.solve(34), Ok(()));
        assert_eq!(job.kept(), Some(&BTreeSet::from([1, 3])));
        assert_eq!(job.free(at(0, 0)), Err(Reason::AlreadySo));
        assert_eq!(job.solve(33), Err(Reason::TooFewRows));
        assert_eq!(job.read(b"").map_err(|refusal| refusal.reason), Err(Reason::Incomplete));
        assert_eq!(job.look(), "fences 2\nbefore 0 1\nbefore 1 1\n");
        assert_eq!(job.bar(at(0, 1)), Ok(()));
        assert_eq!(job.look(), "barred 0 1\nkept none\n");
        assert_eq!(job.solve(34), Err(Reason::NeverEnough));
        assert_eq!(job.read(SB), Ok(4));
        assert_eq!(job.look(), "kept none\n");
    }

    #[test]
    fn a_test_asks_for_a_run_that_keeps_to_the_set() {
        let job = job(Board::Buffered);
        assert_eq!(is_run(job.test(&[at(1, 1), at(0, 1), at(1, 1)], lent(34, 34))), Ok(false));
        let run = job.test(&[at(1, 1), at(1, 1)], lent(34, 34)).expect("it is not refused").expect("it is not enough");
        assert_eq!((run.fenced, run.rows), (BTreeSet::from([3]), 34));
    }

    #[test]
    fn a_test_is_refused_in_order() {
        assert_eq!(is_run(Job::new(Board::Buffered).test(&[at(9, 9)], lent(1, 0))), Err(Reason::NoProgram));
        let job = job(Board::Buffered);
        assert_eq!(is_run(job.test(&[at(0, 2)], lent(33, 32))), Err(Reason::NoPlace));
        assert_eq!(is_run(job.test(&[at(0, 1)], lent(33, 32))), Err(Reason::ShortRunList));
        assert_eq!(is_run(job.test(&[at(0, 1)], lent(33, 33))), Err(Reason::TooFewRows));
        assert_eq!(is_run(job.test(&[at(0, 1)], lent(34, 34))), Ok(true));
    }

    #[test]
    fn a_show_is_refused_in_order() {
        let refusal = |job: &Job, place, lent| job.show(place, lent).err();
        assert_eq!(refusal(&Job::new(Board::Buffered), at(9, 9), lent(1, 0)), Some(Reason::NoProgram));
        let mut job = job(Board::Buffered);
        assert_eq!(refusal(&job, at(2, 0), lent(33, 32)), Some(Reason::NoPlace));
        assert_eq!(refusal(&job, at(0, 1), lent(33, 32)), Some(Reason::ShortRunList));
        assert_eq!(refusal(&job, at(0, 1), lent(33, 33)), Some(Reason::NothingKept));
        assert_eq!(job.solve(34), Ok(()));
        assert_eq!(refusal(&job, at(0, 0), lent(33, 33)), Some(Reason::NotKept));
        assert_eq!(refusal(&job, at(0, 1), lent(33, 33)), Some(Reason::TooFewRows));
        assert_eq!(job.show(at(0, 1), lent(34, 34)).map(|run| run.fenced), Ok(BTreeSet::from([3])));
    }

    #[test]
    fn plain_needs_the_rows_of_the_unbuffered_machine() {
        for board in [Board::Buffered, Board::Unbuffered] {
            let job = job(board);
            assert_eq!(is_run(job.plain(lent(13, 13))), Ok(false));
            assert_eq!(is_run(job.plain(lent(12, 12))), Err(Reason::TooFewRows));
            assert_eq!(is_run(job.plain(lent(12, 11))), Err(Reason::ShortRunList));
        }
    }

    #[test]
    fn the_unbuffered_machine_needs_no_fence_here() {
        let mut job = job(Board::Unbuffered);
        assert_eq!(job.solve(12), Err(Reason::TooFewRows));
        assert_eq!(job.solve(13), Ok(()));
        assert_eq!(job.look(), "fences 0\n");
        assert_eq!(is_run(job.test(&[], lent(13, 13))), Ok(false));
    }
}
