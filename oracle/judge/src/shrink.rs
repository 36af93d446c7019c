//! Makes a record that shows a difference small: fields are shortened and items left out as long as it still does.

use crate::fields::Fields;
use crate::record::{put, read, Field, Record};

/// Fields in place of one field, shorter ones first.
fn shorter(field: &Field) -> Vec<Field> {
    match field {
        Field::N(n) => {
            let mut less = vec![0, n / 2];
            if *n < 100 {
                less.push(n.saturating_sub(1));
            }
            less.dedup();
            less.retain(|m| m < n);
            less.into_iter().map(Field::N).collect()
        }
        Field::B(bytes) if bytes.is_empty() => Vec::new(),
        Field::B(bytes) => {
            let len = bytes.len();
            let gone = [len, len / 2, len / 8, 1];
            let fronts = gone.iter().map(|gone| &bytes[..len - gone]);
            let backs = gone.iter().map(|gone| &bytes[*gone..]);
            fronts.chain(backs).map(|cut| Field::B(cut.to_vec())).collect()
        }
        Field::List(items) => {
            let mut made = Vec::new();
            for k in 0..items.len() {
                let mut fewer = items.clone();
                fewer.remove(k);
                made.push(Field::List(fewer));
            }
            for (k, item) in items.iter().enumerate() {
                for changed in each_shorter(item) {
                    let mut others = items.clone();
                    others[k] = changed;
                    made.push(Field::List(others));
                }
            }
            made
        }
    }
}

fn each_shorter(fields: &[Field]) -> Vec<Vec<Field>> {
    let mut made = Vec::new();
    for (k, field) in fields.iter().enumerate() {
        for less in shorter(field) {
            let mut changed = fields.to_vec();
            changed[k] = less;
            made.push(changed);
        }
    }
    made
}

/// Well-formed records that are a little less than this one.
pub fn candidates(record: &Record) -> Vec<Record> {
    let well_formed = |fields: Vec<Field>| {
        let mut bytes = vec![record.letter() as u8];
        put(&mut bytes, &fields);
        let mut rest = Fields(&bytes);
        let read = read(&mut rest);
        read.record.filter(|_| read.whole && rest.0.is_empty())
    };
    each_shorter(&record.fields()).into_iter().filter_map(well_formed).collect()
}
