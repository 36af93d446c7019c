//! peer check [KIND]           all makers of a case give the same: every result whole, and the sum that a timed pass makes
//! peer time [KIND]            processor time per entry, makers in turn, least and middle of the rounds
//! peer list                   KIND SIZE MAKER, a line each
//! peer run KIND SIZE MAKER K  K passes, to be counted from outside; prints the entries of a pass

mod boundary;
mod frames;
mod garbage;
mod hashes;
mod merges;

/// One result, whole.
#[derive(PartialEq)]
pub struct Given {
    pub numbers: Vec<u64>,
    pub bytes: Vec<Vec<u8>>,
}

pub fn given(numbers: &[u64], bytes: &[&[u8]]) -> Given {
    Given { numbers: numbers.to_vec(), bytes: bytes.iter().map(|b| b.to_vec()).collect() }
}

pub struct Maker {
    pub name: &'static str,
    /// One pass over a case's entries, to be timed; its sum must be the same for all makers.
    pub pass: Box<dyn FnMut() -> u64>,
    /// The same calls with every result kept, which must be the same for all makers.
    pub whole: Box<dyn FnMut() -> Vec<Given>>,
}

pub fn maker(
    name: &'static str,
    pass: impl FnMut() -> u64 + 'static,
    whole: impl FnMut() -> Vec<Given> + 'static,
) -> Maker {
    Maker { name, pass: Box::new(pass), whole: Box::new(whole) }
}

pub struct Case {
    pub kind: &'static str,
    pub size: String,
    pub entries: usize,
    /// How many results a maker gives: fewer are a difference too.
    pub results: usize,
    /// The first is the archive.
    pub makers: Vec<Maker>,
}

/// A case is made only once it is asked for.
pub struct Plan {
    pub kind: &'static str,
    pub size: String,
    pub make: Box<dyn Fn() -> Case>,
}

fn plans() -> Vec<Plan> {
    let mut all = hashes::plans();
    all.extend(frames::plans());
    all.extend(merges::plans());
    all.extend(garbage::plans());
    all
}

/// Bytes that no maker can foresee.
pub fn noise(n: usize, seed: u64) -> Vec<u8> {
    let mut x = 0x9E37_79B9_7F4A_7C15 ^ seed.wrapping_mul(0xD134_2543_DE82_EF95) | 1;
    let mut next = || {
        x ^= x << 13;
        x ^= x >> 7;
        x ^= x << 17;
        (x >> 24) as u8
    };
    (0..n).map(|_| next()).collect()
}

pub fn fold(sum: u64, x: u64) -> u64 {
    (sum.rotate_left(7) ^ x).wrapping_mul(0x9E37_79B9_7F4A_7C15)
}

/// A folder in memory for the files that the original's types ask for.
pub fn folder() -> std::path::PathBuf {
    let path = std::path::Path::new("/dev/shm").join(format!("peer-{}", std::process::id()));
    std::fs::create_dir_all(&path).expect("a folder in /dev/shm");
    path
}

fn processor() -> f64 {
    #[repr(C)]
    struct Time {
        seconds: i64,
        nanoseconds: i64,
    }
    extern "C" {
        fn clock_gettime(clock: i32, time: *mut Time) -> i32;
    }
    let mut t = Time { seconds: 0, nanoseconds: 0 };
    const THREAD: i32 = 3;
    unsafe { clock_gettime(THREAD, &mut t) };
    t.seconds as f64 * 1e9 + t.nanoseconds as f64
}

const ROUNDS: usize = 11;

fn time(case: &mut Case) {
    let n = case.makers.len();
    let mut passes = vec![1usize; n];
    let mut took = vec![vec![0.0; ROUNDS]; n];
    let run = |case: &mut Case, m: usize, k: usize| {
        let began = processor();
        for _ in 0..k {
            std::hint::black_box((case.makers[m].pass)());
        }
        processor() - began
    };
    for m in 0..n {
        while run(case, m, passes[m]) < 4e6 {
            passes[m] *= 2;
        }
    }
    for round in 0..ROUNDS {
        for i in 0..n {
            let m = (i + round) % n;
            took[m][round] = run(case, m, passes[m]) / (passes[m] * case.entries) as f64;
        }
    }
    for t in &mut took {
        t.sort_by(f64::total_cmp);
    }
    for m in 0..n {
        let (least, middle) = (took[m][0], took[m][ROUNDS / 2]);
        let (kind, size, maker) = (case.kind, &case.size, case.makers[m].name);
        let (by_least, by_middle) = (took[0][0] / least, took[0][ROUNDS / 2] / middle);
        println!("{kind:<8} {size:<14} {maker:<12} {least:>12.1} {middle:>12.1} {by_least:>8.2} {by_middle:>8.2}");
    }
}

/// Where two results part.
fn parting(ours: &Given, its: &Given) -> String {
    if ours.numbers != its.numbers {
        return format!("numbers {:?} and {:?}", ours.numbers, its.numbers);
    }
    let parted = ours.bytes.iter().zip(&its.bytes).enumerate().find(|(_, (a, b))| a != b);
    parted.map_or("more bytes".to_string(), |(i, (a, b))| {
        let at = a.iter().zip(b).take_while(|(x, y)| x == y).count();
        format!("bytes {i} of {} and {} part at {at}", a.len(), b.len())
    })
}

/// Whether all makers give the same; a line for each that does not.
fn agree(case: &mut Case) -> bool {
    let ours = (case.makers[0].whole)();
    let sum = (case.makers[0].pass)();
    let mut agreed = true;
    for maker in &mut case.makers {
        let its = (maker.whole)();
        let said = if its.len() != case.results {
            format!("{} results, {} wanted", its.len(), case.results)
        } else if let Some(i) = (0..its.len()).find(|&i| ours.get(i) != Some(&its[i])) {
            let parting = ours.get(i).map_or("none of ours".to_string(), |o| parting(o, &its[i]));
            format!("result {i}: {parting}")
        } else if (maker.pass)() != sum {
            "another sum".to_string()
        } else {
            continue;
        };
        println!("{} {}: {} differs: {said}", case.kind, case.size, maker.name);
        agreed = false;
    }
    agreed
}

fn main() {
    let words: Vec<String> = std::env::args().collect();
    let word = |i: usize| words.get(i).map_or("", |w| w.as_str());
    let wanted = |p: &Plan| word(2).is_empty() || p.kind == word(2);
    let mut failed = false;
    match word(1) {
        "list" => {
            for plan in plans() {
                for maker in (plan.make)().makers {
                    println!("{} {} {}", plan.kind, plan.size, maker.name);
                }
            }
        }
        "check" => {
            let agreed: Vec<bool> = plans().into_iter().filter(wanted).map(|plan| agree(&mut (plan.make)())).collect();
            let (cases, differ) = (agreed.len(), agreed.iter().filter(|&&a| !a).count());
            println!("check: {cases} cases, {differ} differ");
            failed = differ > 0 || cases == 0;
        }
        "time" => {
            println!(
                "{:<8} {:<14} {:<12} {:>12} {:>12} {:>8} {:>8}",
                "kind", "size", "maker", "ns least", "ns middle", "ours/it", "(middle)"
            );
            for plan in plans().into_iter().filter(wanted) {
                time(&mut (plan.make)());
            }
        }
        "run" => {
            let plan = plans().into_iter().find(|p| p.kind == word(2) && p.size == word(3)).expect("a case");
            let mut case = (plan.make)();
            let maker = case.makers.iter().position(|m| m.name == word(4)).expect("a maker");
            for _ in 0..word(5).parse().expect("a number of passes") {
                std::hint::black_box((case.makers[maker].pass)());
            }
            println!("{}", case.entries);
        }
        _ => {
            eprintln!("peer check [KIND] | time [KIND] | list | run KIND SIZE MAKER K");
            std::process::exit(2);
        }
    }
    let _ = std::fs::remove_dir_all(folder());
    if failed {
        std::process::exit(1);
    }
}
