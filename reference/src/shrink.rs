//! Makes a case short: takes away records, halves first and single ones last, for as long as
//! the difference that the case shows stays.

use crate::cases::Case;

/// After so many trials the case is taken as it is; one with more records than are read may
/// need every one of them.
const TRIALS: usize = 3000;

/// The shortest case found for which `differs` still holds; the group file stays as it is.
pub fn shrink(case: &Case, record_length: usize, mut differs: impl FnMut(&Case) -> bool) -> Case {
    let mut records: Vec<Vec<u8>> = case.steps.chunks(record_length).map(<[u8]>::to_vec).collect();
    let mut trials = 0;
    let mut still_differs = |records: &[Vec<u8>]| {
        trials += 1;
        trials <= TRIALS && differs(&with_records(case, records))
    };
    if still_differs(&[]) {
        return with_records(case, &[]);
    }
    let mut size = records.len().div_ceil(2);
    while size > 0 {
        let removed = remove_chunks(&mut records, size, &mut still_differs);
        if !(size == 1 && removed) {
            size /= 2;
        }
    }
    with_records(case, &records)
}

/// One pass from the end to the start; answers whether anything could be taken away.
fn remove_chunks(
    records: &mut Vec<Vec<u8>>,
    size: usize,
    still_differs: &mut impl FnMut(&[Vec<u8>]) -> bool,
) -> bool {
    let mut removed = false;
    let mut end = records.len();
    while end > 0 {
        let start = end.saturating_sub(size);
        let mut fewer = records.clone();
        fewer.drain(start..end);
        if still_differs(&fewer) {
            *records = fewer;
            removed = true;
        }
        end = start;
    }
    removed
}

fn with_records(case: &Case, records: &[Vec<u8>]) -> Case {
    Case { group: case.group.clone(), steps: records.concat() }
}

#[cfg(test)]
mod tests {
    use super::*;

    fn case_of(kinds: &[u8]) -> Case {
        let steps = kinds.iter().flat_map(|&kind| [kind, 0, 0, 0, 0, 0]).collect();
        Case { group: vec![1, 2, 3], steps }
    }

    #[test]
    fn keeps_only_what_the_difference_needs() {
        let needed = |case: &Case| {
            let kinds: Vec<u8> = case.steps.chunks(6).map(|record| record[0]).collect();
            kinds.contains(&3) && kinds.contains(&8)
        };
        let long = case_of(&[1, 2, 3, 4, 5, 6, 7, 8, 9, 3, 8]);
        assert!(needed(&long));
        let short = shrink(&long, 6, needed);
        assert_eq!(short.steps.len(), 12);
        assert!(needed(&short));
    }

    #[test]
    fn empties_the_steps_when_the_group_alone_differs() {
        let short = shrink(&case_of(&[1, 2, 3]), 6, |_| true);
        assert_eq!(short, case_of(&[]));
    }
}
