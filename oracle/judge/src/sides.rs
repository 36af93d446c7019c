//! The two sides: a judge, most often the program `answers` over the original Rust, and the program `calls` over the Rattle.

use crate::answer::UNJUDGED;
use crate::scratch::Scratch;
use std::collections::HashMap;
use std::fs::File;
use std::io;
use std::path::{Path, PathBuf};
use std::process::{Command, Stdio};
use std::time::{Duration, Instant};

pub struct Sides {
    answers: PathBuf,
    judge: String,
    calls: PathBuf,
    scratch: Scratch,
}

/// A side may take this long over one input.
const PATIENCE: Duration = Duration::from_secs(600);

/// How one case's lines stand to each other.
#[derive(Clone, Copy, Debug, PartialEq, Eq)]
pub enum Verdict {
    Same,
    /// Equal up to where the originals can't speak, with some lines before that.
    SameInPart,
    Unjudged,
    Differs,
}

/// Stands for a case that a side never came to. Two of these are no agreement: one malformed record silences both sides.
pub const NO_ANSWER: &str = "(no answer)";

pub fn verdict(judged: &[String], given: &[String]) -> Verdict {
    let free = judged.iter().position(|line| line.starts_with(UNJUDGED));
    let silent = |lines: &[String]| lines.iter().any(|line| line == NO_ANSWER);
    if silent(judged) || silent(given) || given.iter().any(|line| line == "differs") {
        return Verdict::Differs;
    }
    let Some(free) = free else {
        return if judged == given { Verdict::Same } else { Verdict::Differs };
    };
    let ends_alike = (judged.last().map(String::as_str) == Some("bad"))
        == (given.last().map(String::as_str) == Some("bad"));
    if !given.starts_with(&judged[..free]) || !ends_alike {
        Verdict::Differs
    } else if free == 0 {
        Verdict::Unjudged
    } else {
        Verdict::SameInPart
    }
}

/// The lines behind each label, in order; those before the first label come under none.
pub fn segments(lines: Vec<String>, labels: &HashMap<String, u64>) -> Vec<(Option<u64>, Vec<String>)> {
    let mut made = vec![(None, Vec::new())];
    for line in lines {
        match labels.get(&line) {
            Some(index) => made.push((Some(*index), Vec::new())),
            None => made.last_mut().expect("a segment").1.push(line),
        }
    }
    made
}

/// A program's name without its folder.
pub fn name_of(program: &Path) -> String {
    program.file_name().unwrap_or_default().to_string_lossy().into_owned()
}

impl Sides {
    pub fn new(answers: PathBuf, judge: String, calls: PathBuf) -> io::Result<Self> {
        let scratch = Scratch::new()?;
        Ok(Self { answers, judge, calls, scratch })
    }

    /// What the side that judges is called.
    pub fn judge(&self) -> &str {
        &self.judge
    }

    /// What the side that is judged is called.
    pub fn judged(&self) -> String {
        format!("the program {}", name_of(&self.calls))
    }

    fn run(&self, program: &Path, input: &Path) -> io::Result<Vec<String>> {
        let out = self.scratch.file("out", b"");
        let mut child = Command::new(program)
            .stdin(File::open(input)?)
            .stdout(File::create(&out)?)
            .stderr(Stdio::inherit())
            .spawn()
            .map_err(|e| io::Error::new(e.kind(), format!("{}: {e}", program.display())))?;
        let start = Instant::now();
        let status = loop {
            if let Some(status) = child.try_wait()? {
                break Some(status);
            }
            if start.elapsed() > PATIENCE {
                child.kill()?;
                child.wait()?;
                break None;
            }
            std::thread::sleep(Duration::from_micros(500));
        };
        let bytes = std::fs::read(&out)?;
        let text = String::from_utf8_lossy(&bytes);
        let mut lines: Vec<String> = text.lines().map(str::to_owned).collect();
        // An early death shows as a line of its own, so that it can't pass for a short answer.
        match status {
            Some(status) if status.success() || lines.last().is_some_and(|l| l == "bad") => {}
            Some(status) => lines.push(format!("({status})")),
            None => lines.push("(no end)".into()),
        }
        Ok(lines)
    }

    /// The judge's lines and the Rattle's.
    pub fn both(&self, input: &[u8]) -> io::Result<(Vec<String>, Vec<String>)> {
        let input = self.scratch.file("in", input);
        Ok((self.run(&self.answers, &input)?, self.run(&self.calls, &input)?))
    }
}
