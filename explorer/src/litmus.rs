//! Small programs, most of them from the literature on weak memory, with the answer that it gives for machines whose
//! writes wait in one queue for each thread (TSO): of a thread's instructions only a store and a later load can change
//! places. Dekker's and Peterson's entry and the fast mutex are cut down to fit the console's rows; their answers are
//! argued in their listings.

use std::ops::RangeInclusive;

pub struct Litmus {
    pub name: &'static str,
    pub listing: &'static str,
    /// What the console prints, whole.
    pub answer: &'static str,
    /// The bounds at which that is the answer.
    pub bounds: RangeInclusive<usize>,
    pub reason: &'static str,
}

impl Litmus {
    /// The listing with another bound.
    pub fn at_bound(&self, bound: usize) -> String {
        let line =
            |line: &str| if line.starts_with("bound ") { format!("bound {bound}\n") } else { format!("{line}\n") };
        self.listing.lines().map(line).collect()
    }
}

pub const LITMUS: &[Litmus] = &[
    Litmus {
        name: "SB",
        listing: include_str!("../../examples/store_buffering.lst"),
        answer: "fences 2\nbefore 0 1\nbefore 1 1\n",
        bounds: 1..=4,
        reason: "either store can wait past its load, so each pair needs its fence",
    },
    Litmus {
        name: "SB in three threads",
        listing: include_str!("../../examples/store_buffering_3.lst"),
        answer: "fences 3\nbefore 0 1\nbefore 1 1\nbefore 2 1\n",
        bounds: 1..=4,
        reason: "one store that waits past its load closes the ring",
    },
    Litmus {
        name: "SB in four threads",
        listing: include_str!("../../examples/store_buffering_4.lst"),
        answer: "refused 14 line 0\n",
        bounds: 1..=4,
        reason: "the ring needs four fences, but reaches more than 512 standings",
    },
    Litmus {
        name: "SB with a fence in one thread",
        listing: "bound 1\nthread\nstore a 1\nfence\nload r0 b\nthread\nstore b 1\nload r0 a\n\
                  fault at 0 3 at 1 2 reg 0 r0 0 reg 1 r0 0\n",
        answer: "fences 1\nbefore 1 1\n",
        bounds: 1..=4,
        reason: "the other thread still needs its fence",
    },
    Litmus {
        name: "SB with a fence in both threads",
        listing: "bound 1\nthread\nstore a 1\nfence\nload r0 b\nthread\nstore b 1\nfence\nload r0 a\n\
                  fault at 0 3 at 1 3 reg 0 r0 0 reg 1 r0 0\n",
        answer: "fences 0\n",
        bounds: 1..=4,
        reason: "the fences are there already",
    },
    Litmus {
        name: "SB by locked instructions",
        listing: "bound 1\nthread\ncas r1 a 0 1\nload r0 b\nthread\ncas r1 b 0 1\nload r0 a\n\
                  fault at 0 2 at 1 2 reg 0 r0 0 reg 1 r0 0\n",
        answer: "fences 0\n",
        bounds: 1..=4,
        reason: "a locked instruction writes to memory at once",
    },
    Litmus {
        name: "SB with forwarded stores",
        listing: "bound 1\nthread\nstore a 1\nload r0 a\nload r1 b\nthread\nstore b 1\nload r0 b\nload r1 a\n\
                  fault at 0 3 at 1 3 reg 0 r0 1 reg 0 r1 0 reg 1 r0 1 reg 1 r1 0\n",
        answer: "fences 2\nbefore 0 1\nbefore 1 1\n",
        bounds: 1..=4,
        reason: "each thread reads its own store early; a fence before either load stops it, and the lower place wins",
    },
    Litmus {
        name: "MP",
        listing: include_str!("../../examples/message_passing.lst"),
        answer: "fences 0\n",
        bounds: 1..=4,
        reason: "stores stay in order, and so do loads",
    },
    Litmus {
        name: "LB",
        listing: include_str!("../../examples/load_buffering.lst"),
        answer: "fences 0\n",
        bounds: 1..=4,
        reason: "a store never goes before an earlier load",
    },
    Litmus {
        name: "S",
        listing: include_str!("../../examples/s.lst"),
        answer: "fences 0\n",
        bounds: 1..=4,
        reason: "stores stay in order, and a store never goes before an earlier load",
    },
    Litmus {
        name: "R",
        listing: include_str!("../../examples/r.lst"),
        answer: "fences 1\nbefore 1 1\n",
        bounds: 1..=4,
        reason: "only the second thread has a store before a load",
    },
    Litmus {
        name: "2+2W",
        listing: include_str!("../../examples/two_plus_two_writes.lst"),
        answer: "fences 0\n",
        bounds: 1..=4,
        reason: "stores stay in order",
    },
    Litmus {
        name: "WRC",
        listing: include_str!("../../examples/wrc.lst"),
        answer: "fences 0\n",
        bounds: 1..=4,
        reason: "a store reaches all other threads at one moment",
    },
    Litmus {
        name: "RWC",
        listing: include_str!("../../examples/rwc.lst"),
        answer: "fences 1\nbefore 2 1\n",
        bounds: 1..=4,
        reason: "only the third thread has a store before a load",
    },
    Litmus {
        name: "W+RWC",
        listing: "bound 1\nthread\nstore a 1\nstore b 1\nthread\nload r0 b\nload r1 c\nthread\nstore c 1\nload r0 a\n\
                  fault at 1 2 reg 1 r0 1 reg 1 r1 0 at 2 2 reg 2 r0 0\n",
        answer: "fences 1\nbefore 2 1\n",
        bounds: 1..=4,
        reason: "as RWC, with a store more that stays in order",
    },
    Litmus {
        name: "ISA2",
        listing: "bound 1\nthread\nstore a 1\nstore b 1\nthread\nload r0 b\nstore c 1\nthread\nload r0 c\nload r1 a\n\
                  fault reg 1 r0 1 at 2 2 reg 2 r0 1 reg 2 r1 0\n",
        answer: "fences 0\n",
        bounds: 1..=4,
        reason: "message passing through a third thread has no store before a load",
    },
    Litmus {
        name: "Z6.3",
        listing: "bound 1\nthread\nstore a 1\nstore b 1\nthread\nstore b 2\nstore c 1\nthread\nload r0 c\nload r1 a\n\
                  fault at 0 2 at 1 2 at 2 2 mem b 2 reg 2 r0 1 reg 2 r1 0\n",
        answer: "fences 0\n",
        bounds: 1..=4,
        reason: "no thread has a store before a load",
    },
    Litmus {
        name: "Z6.4",
        listing: "bound 1\nthread\nstore a 1\nstore b 1\nthread\nstore b 2\nload r0 c\nthread\nstore c 1\nload r0 a\n\
                  fault at 0 2 at 1 2 at 2 2 mem b 2 reg 1 r0 0 reg 2 r0 0\n",
        answer: "fences 2\nbefore 1 1\nbefore 2 1\n",
        bounds: 1..=4,
        reason: "the second and the third thread have a store before a load, and either alone is enough to go wrong",
    },
    Litmus {
        name: "IRIW",
        listing: include_str!("../../examples/iriw.lst"),
        answer: "fences 0\n",
        bounds: 1..=4,
        reason: "a store reaches all other threads at one moment, so all see one order",
    },
    Litmus {
        name: "CoRR",
        listing: "bound 2\nthread\nstore a 1\nstore a 2\nthread\nload r0 a\nload r1 a\n\
                  fault at 1 2 reg 1 r0 2 reg 1 r1 1\n",
        answer: "fences 0\n",
        bounds: 1..=4,
        reason: "stores to one variable are seen in order",
    },
    Litmus {
        name: "n6",
        listing: include_str!("../../examples/n6.lst"),
        answer: "fences 1\nbefore 0 1\n",
        bounds: 1..=4,
        reason:
            "the first thread reads its own store early; a fence before either load stops it, and the lower place wins",
    },
    Litmus {
        name: "Dekker's entry",
        listing: include_str!("../../examples/dekker.lst"),
        answer: "fences 2\nbefore 0 1\nbefore 1 1\n",
        bounds: 1..=4,
        reason: "one fence in each entry, between a thread's own flag and the other's",
    },
    Litmus {
        name: "Peterson's entry",
        listing: include_str!("../../examples/peterson.lst"),
        answer: "fences 2\nbefore 0 2\nbefore 1 2\n",
        bounds: 1..=4,
        reason: "one fence in each entry, between its two stores and its loads",
    },
    Litmus {
        name: "Lamport's fast mutex",
        listing: include_str!("../../examples/fast_mutex.lst"),
        answer: "fences 4\nbefore 0 2\nbefore 0 5\nbefore 1 2\nbefore 1 5\n",
        bounds: 1..=1,
        reason: "in each entry one fence between x and y, and one between y and x",
    },
    Litmus {
        name: "lock by cas",
        listing: include_str!("../../examples/cas_lock.lst"),
        answer: "fences 0\n",
        bounds: 1..=4,
        reason: "taking the lock empties the queue, and it is given back after the stores before it",
    },
    Litmus {
        name: "work queue",
        listing: include_str!("../../examples/work_queue.lst"),
        answer: "fences 1\nbefore 0 2\n",
        bounds: 1..=4,
        reason: "as in the queue of Chase and Lev, only the owner's take has a store before a load",
    },
    Litmus {
        name: "wheel count",
        listing: include_str!("../../examples/wheel_count.lst"),
        answer: "fences 2\nbefore 0 3\nbefore 1 1\n",
        bounds: 1..=4,
        reason: "SB; in the first thread a fence can stand before either of two instructions, and the lower place wins",
    },
    Litmus {
        name: "camera fix",
        listing: include_str!("../../examples/camera_fix.lst"),
        answer: "fences 0\n",
        bounds: 1..=4,
        reason: "MP with two words of message",
    },
    Litmus {
        name: "lost update",
        listing: include_str!("../../examples/lost_update.lst"),
        answer: "refused 15 line 0\n",
        bounds: 1..=4,
        reason: "both threads can read before either writes even if no write waits",
    },
];

#[cfg(test)]
mod tests {
    use super::*;
    use std::fs;

    #[test]
    fn every_example_has_its_answer_here() {
        let folder = concat!(env!("CARGO_MANIFEST_DIR"), "/../examples");
        for entry in fs::read_dir(folder).expect("there are examples") {
            let path = entry.expect("an example").path();
            let text = fs::read_to_string(&path).expect("an example in plain text");
            assert!(LITMUS.iter().any(|litmus| litmus.listing == text), "{}", path.display());
        }
    }
}
