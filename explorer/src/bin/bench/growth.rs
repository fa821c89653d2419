//! One exploration of growing listings: by the console's search in 65,536 lent rows, by the same scan as a plain loop, and by
//! the explorer.

use std::io;
use std::path::Path;
use std::time::Duration;

use explorer::growing::{Growing, GROWING};
use explorer::process;

use crate::shown::{median, milliseconds};
use crate::{AS_GRAPH, AS_LOOP};

/// Each program's runs, where they take less than a second, and where they may take more.
const RUNS: usize = 9;
const LONG_RUNS: usize = 3;
const LONG: usize = 10_000;

/// The search may take so many times as long as the plain loop, where there are most rows.
const LIMIT: f64 = 2.0;
const MOST: usize = 60_000;

/// One program's exploration of one listing: medians of its runs.
struct Times {
    exploration: Duration,
    /// The same steps alone.
    steps: Duration,
}

impl Times {
    fn seconds(&self) -> f64 {
        self.exploration.as_secs_f64()
    }

    /// What the exploration takes beyond its steps, in a hundred.
    fn look_ups(&self) -> f64 {
        100.0 * (1.0 - self.steps.as_secs_f64() / self.seconds()).max(0.0)
    }
}

/// False if the search takes too long beside the plain loop.
pub fn bench(effort: &Path, explorer: &Path) -> io::Result<bool> {
    println!(
        "| listing | standings | compared | search ms | look-ups | growth | loop ms | look-ups | search / loop | explorer ms |\n\
         |---|---:|---:|---:|---:|---:|---:|---:|---:|---:|"
    );
    let mut before: Option<(usize, f64)> = None;
    let mut is_fast = true;
    for growing in &GROWING {
        let compared = compared(effort, explorer, growing)?;
        let [search, plain, graph] = measure(effort, explorer, growing)?;
        let growth = before.map_or(String::new(), |before| growth(before, (growing.standings, search.seconds())));
        let ratio = search.seconds() / plain.seconds();
        println!(
            "| {} | {} | {compared} | {} | {:.0} % | {growth} | {} | {:.0} % | {ratio:.2} | {} |",
            growing.name(),
            growing.standings,
            milliseconds(search.exploration),
            search.look_ups(),
            milliseconds(plain.exploration),
            plain.look_ups(),
            milliseconds(graph.exploration),
        );
        is_fast &= growing.standings < MOST || ratio <= LIMIT;
        before = Some((growing.standings, search.seconds()));
    }
    Ok(is_fast)
}

/// How many times as long as the listing before it, for how many times its standings.
fn growth(before: (usize, f64), now: (usize, f64)) -> String {
    format!("{:.1} for {:.1}", now.1 / before.1, now.0 as f64 / before.0 as f64)
}

/// How many standings the look-ups compare; the search and the loop must agree.
fn compared(effort: &Path, explorer: &Path, growing: &Growing) -> io::Result<u64> {
    let text = growing.listing();
    let search = process::report(effort, &["compared"], text.as_bytes())?.number("compared")?;
    let plain = process::report(explorer, &[AS_LOOP], text.as_bytes())?.number("compared")?;
    if search == plain {
        return Ok(search);
    }
    let why = format!("{}: the search compares {search}, and the loop {plain}", growing.name());
    Err(io::Error::new(io::ErrorKind::InvalidData, why))
}

/// The medians of the search's, the loop's and the explorer's times, which run by turns.
fn measure(effort: &Path, explorer: &Path, growing: &Growing) -> io::Result<[Times; 3]> {
    let text = growing.listing();
    let programs = [(effort, "time"), (explorer, AS_LOOP), (explorer, AS_GRAPH)];
    let mut times = programs.map(|_| (Vec::new(), Vec::new()));
    for _ in 0..if growing.standings < LONG { RUNS } else { LONG_RUNS } {
        for ((program, argument), times) in programs.iter().zip(&mut times) {
            let report = process::report(program, &[argument], text.as_bytes())?;
            times.0.push(Duration::from_nanos(report.number("exploration")?));
            times.1.push(Duration::from_nanos(report.number("steps").unwrap_or(0)));
        }
    }
    Ok(times.map(|(exploration, steps)| Times { exploration: median(exploration), steps: median(steps) }))
}
