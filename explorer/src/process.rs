//! Runs a program on an input and takes what it prints.

use std::env;
use std::fs;
use std::io::{self, Read, Write};
use std::path::{Path, PathBuf};
use std::process::{Child, Command, ExitCode, ExitStatus, Stdio};
use std::sync::mpsc;
use std::thread;
use std::time::Duration;

/// A program that has printed nothing more for so long hangs.
const TIME_LIMIT: Duration = Duration::from_secs(20);

/// How the input reaches the program.
#[derive(Clone, Copy, Debug, PartialEq, Eq)]
pub enum Feed {
    Whole,
    /// A byte at a time, so that the program cannot have it all by its first read.
    ByteByByte,
    /// The input never ends: the program has to answer from what is there.
    HeldOpen,
}

pub struct Outcome {
    pub output: Vec<u8>,
    pub status: ExitStatus,
}

/// What a program that checks something ends with: 0 if all is well, 1 if not, and 2 if it could not be told.
pub fn exit_code(is_well: io::Result<bool>) -> ExitCode {
    match is_well {
        Ok(true) => ExitCode::SUCCESS,
        Ok(false) => ExitCode::FAILURE,
        Err(error) => {
            eprintln!("{error}");
            ExitCode::from(2)
        }
    }
}

/// The program, with its standard input and output piped.
pub fn started(program: &Path, arguments: &[&str]) -> io::Result<Child> {
    Command::new(program)
        .args(arguments)
        .stdin(Stdio::piped())
        .stdout(Stdio::piped())
        .spawn()
        .map_err(|error| io::Error::new(error.kind(), format!("{}: {error}", program.display())))
}

pub fn run(program: &Path, arguments: &[&str], input: &[u8], feed: Feed) -> io::Result<Outcome> {
    let mut child = started(program, arguments)?;
    let mut stdin = child.stdin.take().expect("standard input is piped");
    let mut stdout = child.stdout.take().expect("standard output is piped");
    thread::scope(|scope| {
        let (release, released) = mpsc::channel::<()>();
        scope.spawn(move || {
            // The program may stop reading when it has seen enough, and that is no failure.
            let _ = write_input(&mut stdin, input, feed);
            if feed == Feed::HeldOpen {
                let _ = released.recv();
            }
        });
        let (sender, receiver) = mpsc::channel();
        scope.spawn(move || {
            let mut output = Vec::new();
            let result = stdout.read_to_end(&mut output).map(|_| output);
            let _ = sender.send(result);
        });
        let output = receiver.recv_timeout(TIME_LIMIT);
        if output.is_err() {
            child.kill()?;
        }
        let status = child.wait()?;
        drop(release);
        let output = output.map_err(|_| io::Error::new(io::ErrorKind::TimedOut, "no answer in time"))??;
        Ok(Outcome { output, status })
    })
}

/// Lines of a name and a number, as a program prints them that measures.
pub struct Report {
    lines: String,
}

impl Report {
    pub fn number(&self, name: &str) -> io::Result<u64> {
        let value = |line: &str| line.strip_prefix(name)?.strip_prefix(' ')?.parse().ok();
        let no_number = || io::Error::new(io::ErrorKind::InvalidData, format!("no {name} in {:?}", self.lines));
        self.lines.lines().find_map(value).ok_or_else(no_number)
    }
}

/// What a program reports of an input; it may take as long as it wants.
pub fn report(program: &Path, arguments: &[&str], input: &[u8]) -> io::Result<Report> {
    let mut child = started(program, arguments)?;
    child.stdin.take().expect("standard input is piped").write_all(input)?;
    let output = child.wait_with_output()?;
    Ok(Report { lines: String::from_utf8_lossy(&output.stdout).into_owned() })
}

fn write_input(stdin: &mut impl Write, input: &[u8], feed: Feed) -> io::Result<()> {
    match feed {
        Feed::Whole | Feed::HeldOpen => stdin.write_all(input),
        Feed::ByteByByte => input.iter().try_for_each(|byte| {
            stdin.write_all(&[*byte])?;
            thread::yield_now();
            Ok(())
        }),
    }
}

/// The folder above the current one, or itself, that this package lies in.
pub fn repository_root() -> io::Result<PathBuf> {
    let here = env::current_dir()?;
    let root = here.ancestors().find(|folder| folder.join("explorer/Cargo.toml").is_file());
    root.map(Path::to_path_buf).ok_or_else(|| {
        io::Error::new(io::ErrorKind::NotFound, format!("{} is not inside the repository", here.display()))
    })
}

/// The listings of the examples' folder, by name.
pub fn examples() -> io::Result<Vec<PathBuf>> {
    let folder = repository_root()?.join("examples");
    let mut paths = Vec::new();
    for entry in fs::read_dir(&folder)? {
        let path = entry?.path();
        if path.extension().is_some_and(|extension| extension == "lst") {
            paths.push(path);
        }
    }
    if paths.is_empty() {
        return Err(io::Error::new(io::ErrorKind::NotFound, format!("no listings in {}", folder.display())));
    }
    paths.sort();
    Ok(paths)
}

/// Where `rt` leaves a program of the repository.
fn built(program: &str) -> io::Result<PathBuf> {
    Ok(repository_root()?.join("crates").join(program).join("out").join(program))
}

/// The console that the repository builds, unless a path is given.
pub fn console(path: Option<String>) -> io::Result<PathBuf> {
    let console = match path {
        Some(path) => env::current_dir()?.join(path),
        None => built("console")?,
    };
    if !console.is_file() {
        return Err(io::Error::new(io::ErrorKind::NotFound, format!("there is no console at {}", console.display())));
    }
    Ok(console)
}

/// The program `effort`, which measures.
pub fn effort(console: &Path) -> io::Result<PathBuf> {
    beside(console, "effort")
}

/// The program `bench`, a session with a job.
pub fn bench(console: &Path) -> io::Result<PathBuf> {
    beside(console, "bench")
}

/// Another program of the repository: beside the console if that is not the one that the repository builds.
fn beside(console: &Path, program: &str) -> io::Result<PathBuf> {
    if console == built("console")? {
        built(program)
    } else {
        Ok(console.with_file_name(program))
    }
}
