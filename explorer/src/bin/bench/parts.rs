//! What this program does where it is one of those that it measures: each answers the listing on its standard input.

use std::io::{self, Read};
use std::process::ExitCode;
use std::time::Instant;

use explorer::answer::{answer as answer_in, answer_standard_input, CONSOLE_ROWS};
use explorer::listing;
use explorer::scan::{Scan, MOST_ROWS};

/// The explorer, with the console's rows.
pub fn answer() -> ExitCode {
    match answer_standard_input(CONSOLE_ROWS) {
        Ok(answer) => {
            print!("{answer}");
            ExitCode::from(answer.exit_status())
        }
        Err(error) => failed(&error.to_string()),
    }
}

/// One exploration as a plain loop. It prints what `effort` prints of one by the console's search.
pub fn plain_loop() -> ExitCode {
    let program = match text().map(|text| listing::read(&text)) {
        Ok(Ok(program)) => program,
        Ok(Err(refusal)) => return failed(&refusal.to_string()),
        Err(error) => return failed(&error.to_string()),
    };
    let mut scan = Scan::new(&program);
    let begun = Instant::now();
    scan.explore();
    let exploration = begun.elapsed();
    let begun = Instant::now();
    scan.walk();
    let steps = begun.elapsed();
    println!("standings {}", scan.standings.len());
    println!("exploration {}", exploration.as_nanos());
    println!("steps {}", steps.as_nanos());
    println!("compared {}", scan.compared);
    ExitCode::SUCCESS
}

/// The explorer's answer, with the most rows that a search uses.
pub fn graph() -> ExitCode {
    let text = match text() {
        Ok(text) => text,
        Err(error) => return failed(&error.to_string()),
    };
    let begun = Instant::now();
    let answer = answer_in(&text, MOST_ROWS);
    println!("exploration {}", begun.elapsed().as_nanos());
    ExitCode::from(answer.exit_status())
}

fn text() -> io::Result<Vec<u8>> {
    let mut text = Vec::new();
    io::stdin().read_to_end(&mut text)?;
    Ok(text)
}

fn failed(why: &str) -> ExitCode {
    eprintln!("{why}");
    ExitCode::from(2)
}
