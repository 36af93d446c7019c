//! cases SEED COUNT [FIRST]: batches of labelled cases FIRST up to FIRST + COUNT, on standard output.

use judge::cases::{case, labelled};
use std::io::{self, Write};

fn main() -> io::Result<()> {
    let numbers: Option<Vec<u64>> = std::env::args().skip(1).map(|n| n.parse().ok()).collect();
    let (seed, count, first) = match numbers.as_deref() {
        Some([seed, count]) => (*seed, *count, 0),
        Some([seed, count, first]) => (*seed, *count, *first),
        _ => {
            eprintln!("usage: cases SEED COUNT [FIRST]");
            std::process::exit(2);
        }
    };
    let records: Vec<_> = (first..first + count).map(|i| (i, case(seed, i))).collect();
    let batches = labelled(records.iter().map(|(index, record)| (*index, record)));
    io::stdout().lock().write_all(&batches)
}
