//! The library's chronicle beside the independent implementation's, on made cases: step lists and
//! plans, with damage, losses and wrong files. `./compare` asks for more cases than the test by itself.

use planner::evening::Evening;
use planner::library;
use reference::chronicle::compare_chronicles;
use std::env;

const SEED: u64 = 2_020;
const CASES: u64 = 120;

/// What the environment asks for, or the usual number.
fn asked(variable: &str, usual: u64) -> u64 {
    match env::var(variable) {
        Ok(number) => number.parse().unwrap_or_else(|_| panic!("{variable}: no number: {number}")),
        Err(_) => usual,
    }
}

fn library_chronicle(file: &[u8], list: &[u8], plan: bool) -> Vec<u8> {
    library::chronicle(&Evening { group: file.to_vec(), records: list.to_vec(), plan })
}

#[test]
fn chronicles_agree() {
    let (seed, cases) = (asked("KIRSODZA_SEED", SEED), asked("KIRSODZA_CASES", CASES));
    match compare_chronicles(seed, cases, &library_chronicle) {
        Ok(counts) => println!("{}", counts.report()),
        Err(difference) => panic!("{difference}"),
    }
}
