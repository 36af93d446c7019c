//! compare SEED COUNT: cases from the seed, answered by both sides; the count compared, or the smallest difference.
//! compare --list CALLS: the same for the records of a file in the calls format.
//! compare --damage SEED COUNT: whole inputs of a few cases each, damaged as bytes.
//! The program `calls` is taken from the environment's CALLS; `answers` stands beside this program, or is ANSWERS.

use judge::cases::{case, damaged, label_line, labelled};
use judge::fields::{hex, Fields};
use judge::record::{read, Record};
use judge::shrink::candidates;
use judge::sides::{name_of, segments, verdict, Sides, Verdict, NO_ANSWER};
use judge::BATCH;
use std::collections::{BTreeMap, HashMap};
use std::io;
use std::process::ExitCode;
use std::time::{Duration, Instant};

/// So many cases go through the two programs at a time.
const CHUNK: u64 = 4_000;

/// So long a difference is made smaller.
const PATIENCE: Duration = Duration::from_secs(60);

type Lines = Vec<String>;

/// Both sides' lines for each of these records.
fn answers(sides: &Sides, records: &[Record]) -> io::Result<Vec<(Lines, Lines)>> {
    let count = records.len() as u64;
    let labels: HashMap<String, u64> = (0..count).map(|i| (label_line(i), i)).collect();
    let (judged, given) = sides.both(&labelled((0..count).zip(records)))?;
    let by_index = |lines| segments(lines, &labels).into_iter().filter_map(|(i, l)| Some((i?, l)));
    let mut judged: HashMap<u64, Lines> = by_index(judged).collect();
    let mut given: HashMap<u64, Lines> = by_index(given).collect();
    let lines = |side: &mut HashMap<u64, Lines>, i| side.remove(&i).unwrap_or(vec![NO_ANSWER.into()]);
    Ok((0..count).map(|i| (lines(&mut judged, i), lines(&mut given, i))).collect())
}

/// The smallest of these records that shows a difference by itself.
fn smallest(sides: &Sides, mut records: Vec<Record>) -> io::Result<Option<(Record, Lines, Lines)>> {
    records.sort_by_key(|record| record.bytes().len());
    let mut shown = None;
    for record in records.into_iter().take(200) {
        let (judged, given) = answers(sides, std::slice::from_ref(&record))?.remove(0);
        if verdict(&judged, &given) == Verdict::Differs {
            shown = Some((record, judged, given));
            break;
        }
    }
    let start = Instant::now();
    while let Some((record, ..)) = &shown {
        if start.elapsed() > PATIENCE {
            break;
        }
        let less = candidates(record);
        let answered = answers(sides, &less)?.into_iter().zip(less);
        let next = answered
            .filter(|((judged, given), _)| verdict(judged, given) == Verdict::Differs)
            .map(|((judged, given), record)| (record, judged, given))
            .min_by_key(|(record, ..)| record.bytes().len());
        match next {
            Some(next) => shown = Some(next),
            None => break,
        }
    }
    Ok(shown)
}

fn print_sides(sides: &Sides, judged: &[String], given: &[String]) {
    println!("{} answers:", sides.judge());
    judged.iter().for_each(|line| println!("  {line}"));
    println!("{} answers:", sides.judged());
    given.iter().for_each(|line| println!("  {line}"));
}

/// The records of a file in the calls format, each of them whole.
fn listed(path: &str) -> io::Result<Vec<Record>> {
    let malformed =
        || io::Error::new(io::ErrorKind::InvalidData, format!("{path}: no records of the calls format"));
    let bytes = std::fs::read(path)?;
    let mut batches = Fields(&bytes);
    let mut records = Vec::new();
    while !batches.0.is_empty() {
        let batch = batches.most(BATCH as u64).and_then(|len| batches.take(len as usize));
        let mut batch = Fields(batch.map_err(|_| malformed())?);
        while !batch.0.is_empty() {
            let read = read(&mut batch);
            records.push(read.record.filter(|_| read.whole).ok_or_else(malformed)?);
        }
    }
    Ok(records)
}

fn compare(sides: &Sides, from: &str, count: u64, record: impl Fn(u64) -> Record) -> io::Result<bool> {
    let mut tally: BTreeMap<char, [u64; 3]> = BTreeMap::new();
    let mut first = 0;
    let mut labels = 0;
    while first < count {
        let past = count.min(first + CHUNK);
        let records: Vec<Record> = (first..past).map(&record).collect();
        let mut differing = Vec::new();
        for (k, (judged, given)) in answers(sides, &records)?.into_iter().enumerate() {
            let seen = |lines: &Lines| lines.iter().all(|line| line != NO_ANSWER);
            labels += u64::from(seen(&judged) && seen(&given));
            let row = tally.entry(records[k].letter()).or_default();
            match verdict(&judged, &given) {
                Verdict::Same => row[0] += 1,
                Verdict::SameInPart => row[1] += 1,
                Verdict::Unjudged => row[2] += 1,
                Verdict::Differs => differing.push(k),
            }
        }
        if let Some(&k) = differing.first() {
            println!(
                "case {} of {from} differs, and {} more of these {}",
                first + k as u64,
                differing.len() - 1,
                past - first
            );
            let records = differing.iter().map(|&k| records[k].clone()).collect();
            match smallest(sides, records)? {
                Some((record, judged, given)) => {
                    println!("made small, letter {}: {}", record.letter(), hex(&record.bytes()));
                    print_sides(sides, &judged, &given);
                }
                None => println!("no case differs by itself: the run as a whole does"),
            }
            return Ok(false);
        }
        first = past;
    }
    let [whole, part, none] = tally.values().fold([0; 3], |a, b| [a[0] + b[0], a[1] + b[1], a[2] + b[2]]);
    assert_eq!((labels, whole + part + none), (count, count), "cases that one side never came to");
    println!(
        "compared {count} cases of {from}, each answered by both: {} and {}: {whole} equal, {part} equal as far as the first can judge, {none} that it can't",
        sides.judge(),
        sides.judged()
    );
    for (letter, [whole, part, none]) in tally {
        println!("  {letter}: {whole}, {part}, {none}");
    }
    Ok(true)
}

fn damage(sides: &Sides, seed: u64, count: u64) -> io::Result<bool> {
    let labels: HashMap<String, u64> = (0..6).map(|i| (label_line(i), i)).collect();
    let (mut same, mut malformed) = (0, 0);
    for index in 0..count {
        let input = damaged(seed, index);
        let (judged, given) = sides.both(&input)?;
        malformed += u64::from(judged.last().is_some_and(|line| line == "bad"));
        let (left, right) = (segments(judged, &labels), segments(given, &labels));
        let differs =
            |((i, a), (j, b)): (&(_, Lines), &(_, Lines))| i != j || verdict(a, b) == Verdict::Differs;
        let place = left.iter().zip(&right).position(differs);
        let place = place.or((left.len() != right.len()).then_some(left.len().min(right.len())));
        if let Some(k) = place {
            println!("damaged input {index} of seed {seed} differs behind label {k}: {}", hex(&input));
            let none = (None, vec!["(nothing)".into()]);
            print_sides(sides, &left.get(k).unwrap_or(&none).1, &right.get(k).unwrap_or(&none).1);
            return Ok(false);
        }
        same += left.len() as u64;
    }
    println!(
        "compared {count} damaged inputs of seed {seed} with {}: {same} stretches equal as far as it can judge, {malformed} inputs malformed to both",
        sides.judge()
    );
    Ok(true)
}

enum Task {
    Cases(u64, u64),
    Damage(u64, u64),
    List(String),
}

fn task(words: &[String]) -> Option<Task> {
    let numbers = |words: &[String]| match words {
        [seed, count] => Some((seed.parse().ok()?, count.parse().ok().filter(|&count: &u64| count > 0)?)),
        _ => None,
    };
    match words {
        [word, path] if word == "--list" => Some(Task::List(path.clone())),
        [word, rest @ ..] if word == "--damage" => {
            numbers(rest).map(|(seed, count)| Task::Damage(seed, count))
        }
        words => numbers(words).map(|(seed, count)| Task::Cases(seed, count)),
    }
}

fn main() -> io::Result<ExitCode> {
    let words: Vec<String> = std::env::args().skip(1).collect();
    let (Some(task), Ok(calls)) = (task(&words), std::env::var("CALLS")) else {
        eprintln!(
            "usage: CALLS=PROGRAM compare [--damage] SEED COUNT, COUNT above 0; or compare --list CALLS"
        );
        return Ok(ExitCode::from(2));
    };
    let sides = match std::env::var("ANSWERS") {
        Ok(program) => {
            let name = format!("the program {}", name_of(program.as_ref()));
            Sides::new(program.into(), name, calls.into())?
        }
        Err(_) => {
            let answers = std::env::current_exe()?.with_file_name("answers");
            Sides::new(answers, "the original Rust".into(), calls.into())?
        }
    };
    let fine = match task {
        Task::Cases(seed, count) => compare(&sides, &format!("seed {seed}"), count, |i| case(seed, i))?,
        Task::Damage(seed, count) => damage(&sides, seed, count)?,
        Task::List(path) => {
            let records = listed(&path)?;
            compare(&sides, "the list", records.len() as u64, |i| records[i as usize].clone())?
        }
    };
    Ok(if fine { ExitCode::SUCCESS } else { ExitCode::FAILURE })
}
