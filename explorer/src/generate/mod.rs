//! Random listings: plain programs, damaged ones, and ones built to need fences. And random sessions with a job.

mod built;
pub mod commands;
mod damaged;
mod layout;
mod plain;

pub use built::built;
pub use damaged::damaged;
pub use plain::{plain, telling};

/// A program in words, before it is laid out as the bytes of a listing.
#[derive(Clone)]
struct Draft {
    bound: usize,
    threads: Vec<Vec<String>>,
    faults: Vec<String>,
}

impl Draft {
    fn lines(&self) -> Vec<String> {
        let mut lines = vec![format!("bound {}", self.bound)];
        for instructions in &self.threads {
            lines.push("thread".to_string());
            lines.extend(instructions.iter().cloned());
        }
        lines.extend(self.faults.iter().map(|conditions| format!("fault {conditions}")));
        lines
    }
}
