//! Measures the console and the explorer side by side, and then one exploration by the console's search, by a plain loop and
//! by the explorer on growing listings, and prints a table of each. The first argument is the console's path, if it is not
//! the one that the repository builds; the program `effort` stands beside a console that is given.

mod console;
mod growth;
mod parts;
mod shown;

use std::env;
use std::io;
use std::process::ExitCode;

use explorer::process;

/// With one of these arguments the program is one of those that it runs, since `cargo run` builds it and no other.
const AS_EXPLORER: &str = "explorer";
const AS_LOOP: &str = "loop";
const AS_GRAPH: &str = "graph";

fn main() -> ExitCode {
    match env::args().nth(1).as_deref() {
        Some(AS_EXPLORER) => return parts::answer(),
        Some(AS_LOOP) => return parts::plain_loop(),
        Some(AS_GRAPH) => return parts::graph(),
        _ => {}
    }
    if cfg!(debug_assertions) {
        eprintln!("build with --release to measure");
        return ExitCode::from(2);
    }
    process::exit_code(bench())
}

/// False if something takes longer, or is explored more often, than it may.
fn bench() -> io::Result<bool> {
    let console = process::console(env::args().nth(1))?;
    let effort = process::effort(&console)?;
    let explorer = env::current_exe()?;
    let is_fast = console::bench(&console, &effort, &explorer)?;
    println!();
    Ok(growth::bench(&effort, &explorer)? && is_fast)
}
