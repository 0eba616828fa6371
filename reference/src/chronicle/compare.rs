//! A library's chronicles of made cases beside the model's.

use super::counts::Counts;
use super::reading::part_at;
use super::{chronicle, counted_chronicle};
use crate::cases::{case_seed, droppings::make_dropping_case, Case, Wishes};
use crate::compare::hex;
use crate::form::Form;
use crate::model::KINDS;
use crate::shrink::shrink;

/// A function that gives the octets for a group file, a list, and whether it is a plan.
type Library<'a> = &'a dyn Fn(&[u8], &[u8], bool) -> Vec<u8>;

const WISHES: Wishes = Wishes { damage: true, highest_kind: KINDS, cabinets: None };

/// So many made cases with step lists and as many with plans, damage in both, and where it can be
/// had one more by the same seed in which a hurt fail-safe packet is dropped. Answers what they
/// reach, or tells the first difference, shrunk.
pub fn compare_chronicles(seed: u64, cases: u64, library: Library) -> Result<Counts, String> {
    let mut counts = Counts::default();
    for index in 0..cases {
        for (form, case) in cases_of_seed(case_seed(seed, index)) {
            let plan = form == Form::Plan;
            let (expected, counts_of_case) = counted_chronicle(&case.group, &case.steps, plan);
            if of_library(library, form, &case) != expected {
                return Err(format!("seed {seed}, case {index}, {}", told(library, form, &case)));
            }
            counts.add(&counts_of_case);
        }
    }
    Ok(counts)
}

pub(super) fn cases_of_seed(seed: u64) -> Vec<(Form, Case)> {
    let made = [Form::Steps, Form::Plan].map(|form| (form, form.make_case(seed, WISHES)));
    let dropping = make_dropping_case(seed, WISHES).map(|case| (Form::Steps, case));
    made.into_iter().chain(dropping).collect()
}

fn of_library(library: Library, form: Form, case: &Case) -> Vec<u8> {
    library(&case.group, &case.steps, form == Form::Plan)
}

fn of_model(form: Form, case: &Case) -> Vec<u8> {
    chronicle(&case.group, &case.steps, form == Form::Plan)
}

/// The shortest case found that still differs, in words.
fn told(library: Library, form: Form, case: &Case) -> String {
    let short = shrink(case, form.record_length(), |case| {
        of_library(library, form, case) != of_model(form, case)
    });
    let records: Vec<String> = short.steps.chunks(form.record_length()).map(hex).collect();
    format!(
        "{} records left\ngroup.dat: {}\n{}: {}\n{}",
        records.len(),
        hex(&short.group),
        form.records_file(),
        records.join(" "),
        first_difference(&of_model(form, &short), &of_library(library, form, &short)),
    )
}

fn first_difference(reference: &[u8], library: &[u8]) -> String {
    let differ = reference.iter().zip(library).position(|(one, other)| one != other);
    let place = differ.unwrap_or(reference.len().min(library.len()));
    let part = part_at(reference, place);
    let [reference, library] = [reference, library].map(|octets| shown(octets.get(place)));
    format!("octet {place} from 0: {part}\nreference: {reference}\nlibrary:   {library}")
}

fn shown(octet: Option<&u8>) -> String {
    octet.map_or("(no more octets)".to_string(), u8::to_string)
}

#[cfg(test)]
mod tests {
    use super::*;
    use crate::chronicle::reading::rows;

    #[test]
    fn the_model_agrees_with_itself() {
        let counts = compare_chronicles(3, 10, &chronicle).expect("the same function");
        assert!(counts.step_lists > 10 && counts.plans == 10);
    }

    /// The library says of every recovery that it did not end.
    #[test]
    fn a_difference_is_shrunk_and_told() {
        let wrong = |file: &[u8], list: &[u8], plan: bool| {
            let mut octets = chronicle(file, list, plan);
            let ends = places_of_ends(&octets);
            ends.into_iter().for_each(|place| octets[place] = 0);
            octets
        };
        let told = compare_chronicles(3, 40, &wrong).expect_err("some recovery ends");
        assert!(told.starts_with("seed 3, case "));
        assert!(told.contains(", recovery ended\nreference: 1\nlibrary:   0"));
        let records = told.split_whitespace().nth(4).and_then(|number| number.parse().ok());
        assert!(records.is_some_and(|records: u64| (6..60).contains(&records)));
        assert!(told.contains(&format!("row {}, recovery ended", records.unwrap_or_default())));
    }

    fn places_of_ends(octets: &[u8]) -> Vec<usize> {
        rows(octets).unwrap_or_default().iter().map(|row| row.start + 4).collect()
    }

    #[test]
    fn missing_octets_are_told() {
        let lines = |part: &str, reference: &str, library: &str| {
            format!("{part}\nreference: {reference}\nlibrary:   {library}")
        };
        let told = first_difference(&[5], &[]);
        assert_eq!(told, lines("octet 0 from 0: what load answers", "5", "(no more octets)"));
        let told = first_difference(&[0, 2, 1], &[0, 2, 1, 0]);
        assert_eq!(told, lines("octet 3 from 0: behind the end", "(no more octets)", "0"));
    }
}
