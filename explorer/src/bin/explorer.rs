//! Reads a listing on standard input and prints what the console has to print, with the same exit status.

use std::env;
use std::process::ExitCode;

use explorer::answer::{answer_standard_input, CONSOLE_ROWS};

fn main() -> ExitCode {
    let arguments: Vec<String> = env::args().skip(1).collect();
    let Some(rows) = rows(&arguments) else {
        eprintln!("usage: explorer [--rows N]");
        return ExitCode::from(2);
    };
    match answer_standard_input(rows) {
        Ok(answer) => {
            print!("{answer}");
            ExitCode::from(answer.exit_status())
        }
        Err(error) => {
            eprintln!("standard input cannot be read: {error}");
            ExitCode::from(2)
        }
    }
}

fn rows(arguments: &[String]) -> Option<usize> {
    match arguments {
        [] => Some(CONSOLE_ROWS),
        [option, rows] if option == "--rows" => rows.parse().ok(),
        _ => None,
    }
}
