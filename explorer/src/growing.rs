//! Store buffering with more and more stores and loads, so that each listing reaches about twice as many standings as the
//! one before it. No fault comes up, so that a search explores each of them once.

pub struct Growing {
    pub threads: usize,
    pub bound: usize,
    /// How often each thread stores to its own variable, and then how often it loads the next thread's.
    pub stores: usize,
    pub loads: usize,
    pub standings: usize,
}

pub const GROWING: [Growing; 13] = [
    Growing { threads: 2, bound: 1, stores: 1, loads: 1, standings: 34 },
    Growing { threads: 2, bound: 1, stores: 2, loads: 1, standings: 82 },
    Growing { threads: 2, bound: 2, stores: 2, loads: 1, standings: 132 },
    Growing { threads: 2, bound: 1, stores: 2, loads: 2, standings: 264 },
    Growing { threads: 2, bound: 1, stores: 3, loads: 2, standings: 506 },
    Growing { threads: 2, bound: 2, stores: 3, loads: 2, standings: 1_039 },
    Growing { threads: 3, bound: 1, stores: 3, loads: 1, standings: 1_966 },
    Growing { threads: 2, bound: 2, stores: 6, loads: 2, standings: 4_126 },
    Growing { threads: 2, bound: 1, stores: 4, loads: 4, standings: 8_209 },
    Growing { threads: 2, bound: 3, stores: 3, loads: 4, standings: 16_301 },
    Growing { threads: 3, bound: 2, stores: 6, loads: 1, standings: 30_672 },
    Growing { threads: 2, bound: 4, stores: 4, loads: 4, standings: 65_151 },
    Growing { threads: 4, bound: 1, stores: 4, loads: 1, standings: 65_426 },
];

impl Growing {
    pub fn name(&self) -> String {
        let Growing { threads, bound, stores, loads, .. } = self;
        format!("{threads} threads, {stores} stores, {loads} loads, bound {bound}")
    }

    pub fn listing(&self) -> String {
        let threads: String = (0..self.threads).map(|thread| self.thread(thread)).collect();
        format!("bound {}\n{threads}fault mem h 15\n", self.bound)
    }

    fn thread(&self, thread: usize) -> String {
        let variable = |thread: usize| char::from(b"abcd"[thread % self.threads]);
        let (own, next) = (variable(thread), variable(thread + 1));
        let stores: String = (1..=self.stores).map(|value| format!("store {own} {value}\n")).collect();
        let loads: String = (0..self.loads).map(|register| format!("load r{register} {next}\n")).collect();
        format!("thread\n{stores}{loads}")
    }
}

#[cfg(test)]
mod tests {
    use super::*;
    use crate::answer::{answer, Answer};
    use crate::listing;
    use crate::machine::buffered_graph;
    use crate::scan::MOST_ROWS;

    #[test]
    fn they_reach_as_many_standings_as_they_say() {
        for growing in &GROWING {
            let program = listing::read(growing.listing().as_bytes()).expect("a good listing");
            let graph = buffered_graph(&program, MOST_ROWS).expect("the standings fit");
            assert_eq!(graph.standings.len(), growing.standings, "{}", growing.name());
        }
    }

    #[test]
    fn no_fault_comes_up() {
        for growing in &GROWING {
            assert_eq!(
                answer(growing.listing().as_bytes(), MOST_ROWS),
                Answer::Fences(Vec::new()),
                "{}",
                growing.name()
            );
        }
    }
}
