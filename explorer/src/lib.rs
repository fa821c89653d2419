//! Answers listings by plain exploration: every standing is kept in a hash map, and sets of places are tried in order.
//! It answers sessions with a job as well. It is written from the rules of the format, the machines and the job alone,
//! so that the console and the bench can be compared with it.

pub mod answer;
pub mod generate;
pub mod growing;
pub mod hard;
pub mod job;
pub mod listing;
pub mod litmus;
pub mod machine;
pub mod process;
pub mod random;
pub mod run;
pub mod scan;
pub mod session;
pub mod transcript;
