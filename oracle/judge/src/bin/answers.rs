//! answers < CALLS > LINES: the original Rust's answers, with `unjudged` where it can't speak.

use judge::answer::Judge;
use std::io::{self, Read, Write};

fn main() -> io::Result<()> {
    original::door::panic_quietly();
    let mut input = Vec::new();
    io::stdin().lock().read_to_end(&mut input)?;
    let mut out = io::BufWriter::new(io::stdout().lock());
    let mut judge = Judge::new();
    let mut written = Ok(());
    judge.input(&input, |judge| {
        for line in judge.lines.drain(..) {
            if written.is_ok() {
                written = writeln!(out, "{line}");
            }
        }
    });
    written?;
    out.flush()
}
