//! Fault runs as they are printed, and what is wrong with one that is none.

use std::collections::{BTreeSet, HashSet};
use std::fmt;
use std::hash::Hash;
use std::rc::Rc;

use crate::job::Board;
use crate::listing::Program;
use crate::machine::{buffered_step, unbuffered_step, Picture, Settles, Standing, Step};

/// A step as it is printed: its number and the thread that is said to take it.
#[derive(Clone, Copy, Debug, PartialEq, Eq)]
pub struct PrintedStep {
    pub number: usize,
    pub thread: usize,
}

/// A run as it is printed, with the number of the fault line that is said to hold at its end.
#[derive(Clone, Debug, PartialEq, Eq)]
pub struct PrintedRun {
    pub steps: Vec<PrintedStep>,
    pub fault: usize,
}

/// What is asked for: a run of a program that ends in a fault, crosses none of these places and fits the rows. Which
/// one it is stays free.
#[derive(Clone, Debug)]
pub struct FaultRun {
    pub program: Rc<Program>,
    pub board: Board,
    pub fenced: BTreeSet<usize>,
    pub rows: usize,
}

/// What is wrong with a printed run; steps are counted from 0.
#[derive(Clone, Debug, PartialEq, Eq)]
pub enum Wrong {
    TooLong { steps: usize, rows: usize },
    Thread { step: usize, printed: usize, right: usize },
    Absent { step: usize, number: usize },
    Crosses { step: usize, place: usize },
    Twice { step: usize },
    Unsettled,
    NoFault,
    Fault { printed: usize, first: usize },
}

impl fmt::Display for Wrong {
    fn fmt(&self, out: &mut fmt::Formatter) -> fmt::Result {
        match self {
            Wrong::TooLong { steps, rows } => write!(out, "the run has {steps} steps, not fewer than the {rows} rows"),
            Wrong::Thread { step, printed, right } => {
                write!(out, "step {step} of the run is one of thread {right}, not {printed}")
            }
            Wrong::Absent { step, number } => {
                write!(out, "step {step} of the run has the number {number}: absent there")
            }
            Wrong::Crosses { step, place } => write!(out, "step {step} of the run crosses place {place}: fenced"),
            Wrong::Twice { step } => write!(out, "step {step} of the run leads to a standing that it had before"),
            Wrong::Unsettled => write!(out, "writes still wait at the end of the run"),
            Wrong::NoFault => write!(out, "no fault line holds at the end of the run"),
            Wrong::Fault { printed, first } => write!(out, "fault line {first} is the first that holds, not {printed}"),
        }
    }
}

impl FaultRun {
    pub fn check(&self, run: &PrintedRun) -> Result<(), Wrong> {
        let program = &*self.program;
        match self.board {
            Board::Buffered => {
                self.walk(run, 2, Standing::start(program), |standing, number| buffered_step(program, standing, number))
            }
            Board::Unbuffered => {
                self.walk(run, 1, Picture::start(program), |picture, number| unbuffered_step(program, picture, number))
            }
        }
    }

    /// Goes along a run of a machine on which each thread has so many steps.
    fn walk<S: Settles + Clone + Eq + Hash>(
        &self,
        run: &PrintedRun,
        steps_a_thread: usize,
        start: S,
        step: impl Fn(&S, usize) -> Option<Step<S>>,
    ) -> Result<(), Wrong> {
        if run.steps.len() >= self.rows {
            return Err(Wrong::TooLong { steps: run.steps.len(), rows: self.rows });
        }
        let mut seen = HashSet::from([start.clone()]);
        let mut standing = start;
        for (index, printed) in run.steps.iter().enumerate() {
            let Step { after, crosses } =
                step(&standing, printed.number).ok_or(Wrong::Absent { step: index, number: printed.number })?;
            let thread = printed.number / steps_a_thread;
            if printed.thread != thread {
                return Err(Wrong::Thread { step: index, printed: printed.thread, right: thread });
            }
            if let Some(place) = crosses.filter(|place| self.fenced.contains(place)) {
                return Err(Wrong::Crosses { step: index, place });
            }
            if !seen.insert(after.clone()) {
                return Err(Wrong::Twice { step: index });
            }
            standing = after;
        }
        self.check_end(&standing, run.fault)
    }

    fn check_end(&self, end: &impl Settles, printed: usize) -> Result<(), Wrong> {
        let picture = end.settled().ok_or(Wrong::Unsettled)?;
        let first = picture.first_fault(&self.program).ok_or(Wrong::NoFault)?;
        if printed != first {
            return Err(Wrong::Fault { printed, first });
        }
        Ok(())
    }
}

#[cfg(test)]
mod tests {
    use super::*;
    use crate::listing;

    const SB: &str = "bound 1\nthread\nstore a 1\nload r0 b\nthread\nstore b 1\nload r0 a\n\
                      fault at 0 2 at 1 2 reg 0 r0 0 reg 1 r0 0\n";

    fn asked(text: &str, board: Board, fenced: &[usize], rows: usize) -> FaultRun {
        let program = Rc::new(listing::read(text.as_bytes()).expect("a good listing"));
        FaultRun { program, board, fenced: fenced.iter().copied().collect(), rows }
    }

    /// A run of these steps, each with its thread.
    fn printed(steps: &[(usize, usize)], fault: usize) -> PrintedRun {
        PrintedRun { steps: steps.iter().map(|&(number, thread)| PrintedStep { number, thread }).collect(), fault }
    }

    /// Both threads store and load before either store is drained.
    fn both_loads_first() -> PrintedRun {
        printed(&[(0, 0), (2, 1), (0, 0), (2, 1), (1, 0), (3, 1)], 0)
    }

    #[test]
    fn a_fault_run_is_accepted() {
        assert_eq!(asked(SB, Board::Buffered, &[], 34).check(&both_loads_first()), Ok(()));
        // Thread 0 drains its store before it loads, so that its load crosses nothing.
        let first_in_order = printed(&[(2, 1), (2, 1), (0, 0), (1, 0), (0, 0), (3, 1)], 0);
        assert_eq!(asked(SB, Board::Buffered, &[1], 34).check(&first_in_order), Ok(()));
    }

    #[test]
    fn a_run_of_no_steps_may_end_in_a_fault() {
        let text = "bound 1\nthread\njump 0\nfault mem a 0\n";
        assert_eq!(asked(text, Board::Buffered, &[], 1).check(&printed(&[], 0)), Ok(()));
        assert_eq!(asked(text, Board::Unbuffered, &[], 1).check(&printed(&[], 0)), Ok(()));
    }

    #[test]
    fn a_run_of_the_unbuffered_machine_has_a_step_a_thread() {
        let text = "bound 1\nthread\nload r0 a\nthread\nstore a 1\nfault reg 0 r0 1\n";
        assert_eq!(asked(text, Board::Unbuffered, &[], 4).check(&printed(&[(1, 1), (0, 0)], 0)), Ok(()));
        let as_buffered = printed(&[(2, 1), (3, 1), (0, 0)], 0);
        let wrong = Wrong::Absent { step: 0, number: 2 };
        assert_eq!(asked(text, Board::Unbuffered, &[], 4).check(&as_buffered), Err(wrong));
    }

    #[test]
    fn an_absent_step_is_refused() {
        let nothing_waits = printed(&[(1, 0)], 0);
        let wrong = Wrong::Absent { step: 0, number: 1 };
        assert_eq!(asked(SB, Board::Buffered, &[], 34).check(&nothing_waits), Err(wrong));
        let no_thread = printed(&[(0, 0), (4, 2)], 0);
        let wrong = Wrong::Absent { step: 1, number: 4 };
        assert_eq!(asked(SB, Board::Buffered, &[], 34).check(&no_thread), Err(wrong));
        let past_its_end = printed(&[(0, 0), (0, 0), (0, 0)], 0);
        let wrong = Wrong::Absent { step: 2, number: 0 };
        assert_eq!(asked(SB, Board::Buffered, &[], 34).check(&past_its_end), Err(wrong));
    }

    #[test]
    fn a_step_across_a_fence_is_refused() {
        let wrong = Wrong::Crosses { step: 2, place: 1 };
        assert_eq!(asked(SB, Board::Buffered, &[1], 34).check(&both_loads_first()), Err(wrong));
        let wrong = Wrong::Crosses { step: 3, place: 3 };
        assert_eq!(asked(SB, Board::Buffered, &[3], 34).check(&both_loads_first()), Err(wrong));
    }

    #[test]
    fn a_standing_twice_is_refused() {
        let text = "bound 1\nthread\njump 0\nthread\nstore a 1\nfault mem a 1\n";
        let jumps_on_the_spot = printed(&[(2, 1), (0, 0), (3, 1)], 0);
        assert_eq!(asked(text, Board::Buffered, &[], 9).check(&jumps_on_the_spot), Err(Wrong::Twice { step: 1 }));
        let at_the_start = printed(&[(0, 0), (1, 1)], 0);
        assert_eq!(asked(text, Board::Unbuffered, &[], 9).check(&at_the_start), Err(Wrong::Twice { step: 0 }));
    }

    #[test]
    fn a_run_as_long_as_there_are_rows_is_refused() {
        let wrong = Wrong::TooLong { steps: 6, rows: 6 };
        assert_eq!(asked(SB, Board::Buffered, &[], 6).check(&both_loads_first()), Err(wrong));
        assert_eq!(asked(SB, Board::Buffered, &[], 7).check(&both_loads_first()), Ok(()));
    }

    #[test]
    fn an_end_that_is_not_settled_is_refused() {
        let still_waits = printed(&[(0, 0), (2, 1), (0, 0), (2, 1), (1, 0)], 0);
        assert_eq!(asked(SB, Board::Buffered, &[], 34).check(&still_waits), Err(Wrong::Unsettled));
    }

    #[test]
    fn an_end_without_a_fault_is_refused() {
        let in_order = printed(&[(0, 0), (1, 0), (0, 0), (2, 1), (2, 1), (3, 1)], 0);
        assert_eq!(asked(SB, Board::Buffered, &[], 34).check(&in_order), Err(Wrong::NoFault));
        assert_eq!(asked(SB, Board::Buffered, &[], 34).check(&printed(&[], 0)), Err(Wrong::NoFault));
    }

    #[test]
    fn another_fault_line_than_the_first_is_refused() {
        let text = "bound 1\nthread\nstore a 1\nfault mem a 2\nfault mem a 1\nfault at 0 1\n";
        let run = |fault| asked(text, Board::Buffered, &[], 3).check(&printed(&[(0, 0), (1, 0)], fault));
        assert_eq!(run(1), Ok(()));
        assert_eq!(run(0), Err(Wrong::Fault { printed: 0, first: 1 }));
        assert_eq!(run(2), Err(Wrong::Fault { printed: 2, first: 1 }));
    }

    #[test]
    fn a_step_of_another_thread_is_refused() {
        let drain_by_number = printed(&[(0, 0), (2, 1), (0, 0), (2, 1), (1, 0), (3, 3)], 0);
        let wrong = Wrong::Thread { step: 5, printed: 3, right: 1 };
        assert_eq!(asked(SB, Board::Buffered, &[], 34).check(&drain_by_number), Err(wrong));
        let text = "bound 1\nthread\nfence\nthread\nstore a 1\nfault mem a 1\n";
        let wrong = Wrong::Thread { step: 0, printed: 0, right: 1 };
        assert_eq!(asked(text, Board::Unbuffered, &[], 4).check(&printed(&[(1, 0)], 0)), Err(wrong));
    }
}
