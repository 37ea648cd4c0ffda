//! The check byte (ECC) and header repair, over a thousand headers in turn.

use super::measurement::Measurement;
use crate::bench::fast::ecc;
use crate::compare::proved;
use crate::generate::rng::Rng;
use crate::model::header::header;

const HEADERS: usize = 1024;

pub fn measurements() -> Vec<Measurement> {
    let mut rng = Rng::new(965);
    let right: Vec<u32> = (0..HEADERS)
        .map(|_| u32::from_le_bytes(header(rng.byte(), rng.word())))
        .collect();
    let one_wrong: Vec<u32> = right.iter().map(|word| word ^ 1 << rng.below(32)).collect();
    let random: Vec<u32> = (0..HEADERS).map(|_| rng.draw() as u32).collect();
    vec![
        check_byte(&random),
        repair("header repair, right headers", &right),
        repair("header repair, one bit wrong", &one_wrong),
        repair("header repair, random words", &random),
    ]
}

fn check_byte(words: &[u32]) -> Measurement {
    let by_columns = in_turn(words, ecc::check_byte_by_columns);
    let by_table = in_turn(words, ecc::check_byte_by_table);
    Measurement::new("check byte of a header")
        .form("proved", in_turn(words, proved::check_byte))
        .form("columns of the ones, bit by bit", by_columns)
        .form("ones counted under masks", in_turn(words, ecc::check_byte))
        .form("looked up byte by byte", by_table)
}

fn repair(name: &'static str, words: &[u32]) -> Measurement {
    let by_search = in_turn(words, ecc::correct_by_search);
    let by_table = in_turn(words, ecc::correct_by_table);
    Measurement::new(name)
        .form("proved", in_turn(words, proved::correct_header))
        .form("syndrome searched in 32 columns", by_search)
        .form("syndrome looked up in a table", by_table)
}

/// A call on the next word, from the start again after the last.
fn in_turn<R>(words: &[u32], call: impl Fn(u32) -> R + 'static) -> impl FnMut() -> R + 'static {
    let words = words.to_vec();
    let mut next = 0;
    move || {
        next = (next + 1) % HEADERS;
        call(words[next])
    }
}
