//! What a session printed, held against what it has to print.

use crate::run::{PrintedRun, PrintedStep};
use crate::session::{Printed, Reply};

/// What is wrong with an output, if anything; the help is the one text that is known beforehand.
pub fn complaint(replies: &[Reply], help: &[u8], output: &[u8]) -> Option<String> {
    let mut left = Output { left: output };
    for (index, reply) in replies.iter().enumerate() {
        if let Err(wrong) = left.take(&reply.printed, help) {
            return Some(format!("answer {index}, to {}: {wrong}", excerpt(&reply.line, 80)));
        }
    }
    (!left.left.is_empty()).then(|| format!("after the last answer there is {}", left.shown()))
}

/// Bytes in one line, as far as they are worth printing.
pub fn excerpt(text: &[u8], longest: usize) -> String {
    let shown = &text[..text.len().min(longest)];
    let dots = if shown.len() < text.len() { ".." } else { "" };
    format!("\"{}\"{dots}", shown.escape_ascii())
}

/// The rest of what was printed.
struct Output<'a> {
    left: &'a [u8],
}

impl<'a> Output<'a> {
    fn take(&mut self, printed: &Printed, help: &[u8]) -> Result<(), String> {
        match printed {
            Printed::Exactly(text) => self.exactly(text),
            Printed::Help => self.exactly(help),
            Printed::Unreadable(name) => {
                let begin = [b"cannot read ", name.as_slice(), b": "].concat();
                let has_begun = self.left.starts_with(&begin);
                let line = self.line().filter(|_| has_begun);
                line.map(|_| ()).ok_or_else(|| format!("no line begins with {}", excerpt(&begin, 80)))
            }
            Printed::Run(asked) => {
                let run = self.run()?;
                asked.check(&run).map_err(|wrong| wrong.to_string())
            }
        }
    }

    fn exactly(&mut self, text: &[u8]) -> Result<(), String> {
        self.left = self.left.strip_prefix(text).ok_or_else(|| {
            format!("not {}, but {}", excerpt(text, 200), excerpt(self.left, text.len().clamp(40, 200)))
        })?;
        Ok(())
    }

    /// A line without its end, which it must have.
    fn line(&mut self) -> Option<&'a [u8]> {
        let end = self.left.iter().position(|&byte| byte == b'\n')?;
        let line = &self.left[..end];
        self.left = &self.left[end + 1..];
        Some(line)
    }

    /// The next line, as its form takes it apart.
    fn formed<T>(&mut self, form: &str, parse: impl FnOnce(&'a [u8]) -> Option<T>) -> Result<T, String> {
        let shown = self.shown();
        self.line().and_then(parse).ok_or_else(|| format!("no line of the form `{form}`, but {shown}"))
    }

    fn run(&mut self) -> Result<PrintedRun, String> {
        let length = self.formed("run N", |line| whole(line.strip_prefix(b"run ")?))?;
        let steps =
            (0..length).map(|_| self.formed("step S thread T: ..", step)).collect::<Result<Vec<_>, String>>()?;
        let fault = self.formed("fault F", |line| whole(line.strip_prefix(b"fault ")?))?;
        Ok(PrintedRun { steps, fault })
    }

    fn shown(&self) -> String {
        if self.left.is_empty() {
            return "nothing".to_string();
        }
        excerpt(self.left.split(|&byte| byte == b'\n').next().unwrap_or_default(), 200)
    }
}

/// A line of a run: its numbers, and at least a word about what the step does.
fn step(line: &[u8]) -> Option<PrintedStep> {
    let (number, rest) = number(line.strip_prefix(b"step ")?)?;
    let (thread, rest) = self::number(rest.strip_prefix(b" thread ")?)?;
    let words = rest.strip_prefix(b": ")?;
    words.iter().any(|&byte| byte != b' ').then_some(PrintedStep { number, thread })
}

/// The number at the beginning, without leading zeros, and what follows it.
fn number(text: &[u8]) -> Option<(usize, &[u8])> {
    let length = text.iter().take_while(|byte| byte.is_ascii_digit()).count();
    let (digits, rest) = text.split_at(length);
    let number: usize = std::str::from_utf8(digits).ok()?.parse().ok()?;
    (number.to_string().len() == length).then_some((number, rest))
}

fn whole(text: &[u8]) -> Option<usize> {
    number(text).filter(|(_, rest)| rest.is_empty()).map(|(number, _)| number)
}

#[cfg(test)]
mod tests {
    use super::*;
    use crate::session::Session;

    /// A run of this program is `step 0`, `step 1`, and then its second fault line holds.
    const INPUT: &str = "listing\nbound 1\nthread\nstore a 1\nfault mem a 2\nfault mem a 1\nend\ntest\nlook\n";
    const HELP: &[u8] = b"help\n";

    fn complaint_of(input: &str, output: &str) -> Option<String> {
        complaint(&Session::default().replies(input.as_bytes()), HELP, output.as_bytes())
    }

    /// The output of the input above with this text for its run.
    fn complaint_of_run(run: &str) -> Option<String> {
        complaint_of(INPUT, &format!("places 1\n{run}kept none\n"))
    }

    #[test]
    fn a_right_output_is_accepted() {
        assert_eq!(complaint_of("help\nlook\nread missing\n", "help\nkept none\ncannot read missing: gone\n"), None);
        assert_eq!(complaint_of("read missing\nlook\n", "cannot read missing: not there\nkept none\n"), None);
        assert_eq!(complaint_of("", ""), None);
    }

    #[test]
    fn a_wrong_output_is_refused() {
        for output in ["", "kept", "kept none", "kept none\n\n", "kept none\nkept none\n", " kept none\n", "kept one\n"]
        {
            assert!(complaint_of("look\n", output).is_some(), "{output:?}");
        }
        for output in [
            "",
            "cannot read\n",
            "cannot read other: gone\n",
            "cannot read missing\n",
            "cannot read missingX: gone\n",
            "cannot read missing: gone",
            "missing: cannot read missing\n",
        ] {
            assert!(complaint_of("read missing\n", output).is_some(), "{output:?}");
        }
    }

    #[test]
    fn a_step_is_told_in_any_words() {
        let runs = [
            "run 2\nstep 0 thread 0: store a 1\nstep 1 thread 0: a becomes 1\nfault 1\n",
            "run 2\nstep 0 thread 0: stores\nstep 1 thread 0: drains\nfault 1\n",
        ];
        for run in runs {
            assert_eq!(complaint_of_run(run), None, "{run:?}");
        }
    }

    #[test]
    fn a_run_of_another_form_is_refused() {
        let runs = [
            "",
            "enough\n",
            "run\nstep 0 thread 0: stores\nstep 1 thread 0: drains\nfault 1\n",
            "run 02\nstep 0 thread 0: stores\nstep 1 thread 0: drains\nfault 1\n",
            "run 1\nstep 0 thread 0: stores\nstep 1 thread 0: drains\nfault 1\n",
            "run 3\nstep 0 thread 0: stores\nstep 1 thread 0: drains\nfault 1\n",
            "run 2\nstep 0 thread 0\nstep 1 thread 0: drains\nfault 1\n",
            "run 2\nstep 0 thread 0:\nstep 1 thread 0: drains\nfault 1\n",
            "run 2\nstep 0 thread 0 \nstep 1 thread 0: drains\nfault 1\n",
            "run 2\nstep 0 thread 0; stores\nstep 1 thread 0: drains\nfault 1\n",
            "run 2\nstep 0 thread 0 stores\nstep 1 thread 0: drains\nfault 1\n",
            "run 2\nstep 00 thread 0: stores\nstep 1 thread 0: drains\nfault 1\n",
            "run 2\nstep 0 of thread 0: stores\nstep 1 thread 0: drains\nfault 1\n",
            "run 2\nstep 0 thread 0: stores\nstep 1 thread 0: drains\n",
            "run 2\nstep 0 thread 0: stores\nstep 1 thread 0: drains\nfault\n",
            "run 2\nstep 0 thread 0: stores\nstep 1 thread 0: drains\nfault 1 1\n",
        ];
        for run in runs {
            assert!(complaint_of_run(run).is_some(), "{run:?}");
        }
    }

    #[test]
    fn a_wrong_run_is_told_by_what_is_wrong() {
        let wrong = complaint_of_run("run 2\nstep 0 thread 0: stores\nstep 1 thread 1: drains\nfault 1\n");
        assert_eq!(wrong.as_deref(), Some("answer 1, to \"test\": step 1 of the run is one of thread 0, not 1"));
        let wrong = complaint_of_run("run 2\nstep 0 thread 0: stores\nstep 1 thread 0: drains\nfault 0\n");
        assert_eq!(wrong.as_deref(), Some("answer 1, to \"test\": fault line 1 is the first that holds, not 0"));
        let wrong = complaint_of_run("run 1\nstep 0 thread 0: stores\nfault 1\n");
        assert_eq!(wrong.as_deref(), Some("answer 1, to \"test\": writes still wait at the end of the run"));
    }
}
