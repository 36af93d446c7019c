//! fixed-list OUTDIR [SEED]: writes `stdin` and `stdout`, records and their lines, from the original Rust's answers alone.
//! Only records that it judges whole are taken, so many of each letter, and none that is long. ../../../fixed-list puts the edges behind them.

use judge::answer::{Judge, UNJUDGED};
use judge::cases::{batches, case};
use std::collections::HashMap;
use std::io;
use std::path::PathBuf;

/// The seed of the list that crates/calls has; another seed makes another list.
const SEED: u64 = 2_026;

/// So many records of each letter.
const WANTED: [(char, usize); 12] = [
    ('H', 450),
    ('h', 250),
    ('W', 600),
    ('S', 900),
    ('P', 800),
    ('M', 450),
    ('D', 450),
    ('V', 250),
    ('v', 250),
    ('I', 150),
    ('i', 150),
    ('G', 800),
];

/// A record and its lines together have at most so many bytes; one in `LONG_ONE_IN` may have `LONG` of them.
const SHORT: usize = 700;
const LONG: usize = 6_000;
const LONG_ONE_IN: usize = 60;

/// All bytes of both files.
const ALL: usize = 2_000_000;

fn main() -> io::Result<()> {
    original::door::panic_quietly();
    let words: Vec<String> = std::env::args().skip(1).collect();
    let seed = words.get(1).map_or(Ok(SEED), |word| word.parse());
    let (Some(folder), Ok(seed), 1..=2) = (words.first().map(PathBuf::from), seed, words.len()) else {
        eprintln!("usage: fixed-list OUTDIR [SEED]");
        std::process::exit(2);
    };
    let mut left: HashMap<char, usize> = WANTED.into_iter().collect();
    let mut judge = Judge::new();
    let (mut taken, mut lines) = (Vec::new(), Vec::new());
    for index in 0.. {
        if left.values().all(|&left| left == 0) {
            break;
        }
        let record = case(seed, index);
        let wanted = left.get_mut(&record.letter()).expect("a letter of the table");
        if *wanted == 0 {
            continue;
        }
        let bytes = record.bytes();
        judge.lines.clear();
        judge.input(&batches([bytes.clone()]), |_| {});
        if judge.lines.iter().any(|line| line.starts_with(UNJUDGED)) {
            continue;
        }
        let size = bytes.len() + judge.lines.iter().map(|line| line.len() + 1).sum::<usize>();
        let most = if *wanted % LONG_ONE_IN == 0 { LONG } else { SHORT };
        if size > most {
            continue;
        }
        *wanted -= 1;
        taken.push(bytes);
        lines.append(&mut judge.lines);
    }
    let (records, answers) = (taken.len(), lines.len());
    let stdin = batches(taken);
    let stdout: String = lines.into_iter().map(|line| line + "\n").collect();
    let all = stdin.len() + stdout.len();
    assert!(records >= 5_000 && all < ALL, "{records} records, {all} bytes");
    std::fs::create_dir_all(&folder)?;
    std::fs::write(folder.join("stdin"), stdin)?;
    std::fs::write(folder.join("stdout"), stdout)?;
    println!("{records} records, {answers} answer lines, {all} bytes");
    Ok(())
}
