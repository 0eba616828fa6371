//! The forms of a case: a group file with steps, for the listing or for the program `word`, or
//! with a plan, for the program `evening`.

use crate::cases::plans::make_plan_case;
use crate::cases::words::make_word_case;
use crate::cases::{make_case, Case, Record, Wishes};
use crate::evening::{counted_evening, operation, Operation, PLAN_RECORD_LENGTH};
use crate::listing::{counted_listing, Tally, RECORDS_READ};
use crate::model::RECORD_LENGTH;
use crate::word::counted_word;
use std::path::Path;
use std::{fs, io};

#[derive(Clone, Copy, PartialEq, Eq, Debug)]
pub enum Form {
    Steps,
    Plan,
    Word,
}

impl Form {
    /// The file beside group.dat.
    pub fn records_file(self) -> &'static str {
        match self {
            Form::Steps | Form::Word => "steps.dat",
            Form::Plan => "plan.dat",
        }
    }

    /// The file with the expected text in a case folder.
    pub fn text_file(self) -> &'static str {
        match self {
            Form::Steps => "expected",
            Form::Plan => "evening",
            Form::Word => "word",
        }
    }

    pub fn record_length(self) -> usize {
        match self {
            Form::Steps | Form::Word => RECORD_LENGTH,
            Form::Plan => PLAN_RECORD_LENGTH,
        }
    }

    /// The operation of a record, if it is one.
    pub fn operation(self, record: &[u8]) -> Option<Operation> {
        match self {
            Form::Steps | Form::Word => record.try_into().ok().map(Operation::Step),
            Form::Plan => operation(record),
        }
    }

    /// The record of a step.
    pub fn record_of_step(self, step: Record) -> Vec<u8> {
        match self {
            Form::Steps | Form::Word => step.to_vec(),
            Form::Plan => [&[0], &step[..], &[0, 0]].concat(),
        }
    }

    /// For each record that is read its operation, or none if it is none.
    pub fn operations(self, case: &Case) -> Vec<Option<Operation>> {
        let records = case.steps.chunks(self.record_length()).take(RECORDS_READ);
        records.map(|record| self.operation(record)).collect()
    }

    /// For each record that is read its step, or none if it is no step.
    pub fn steps(self, case: &Case) -> Vec<Option<Record>> {
        let step = |operation: Option<Operation>| match operation {
            Some(Operation::Step(step)) => Some(step),
            _ => None,
        };
        self.operations(case).into_iter().map(step).collect()
    }

    pub fn make_case(self, seed: u64, wishes: Wishes) -> Case {
        match self {
            Form::Steps => make_case(seed, wishes),
            Form::Plan => make_plan_case(seed, wishes),
            Form::Word => make_word_case(seed, wishes),
        }
    }

    /// The model's text and its counts.
    pub fn counted_text(self, case: &Case, highest_kind: u8) -> (String, Tally) {
        match self {
            Form::Steps => counted_listing(&case.group, &case.steps, highest_kind),
            Form::Plan => counted_evening(&case.group, &case.steps, highest_kind),
            Form::Word => counted_word(&case.group, &case.steps, highest_kind),
        }
    }

    pub fn text(self, case: &Case, highest_kind: u8) -> String {
        self.counted_text(case, highest_kind).0
    }

    pub fn report(self, tally: &Tally) -> String {
        match self {
            Form::Steps => tally.report(),
            Form::Plan => tally.report() + &tally.plan_report(),
            Form::Word => tally.report() + &tally.words.report(),
        }
    }

    /// A file that cannot be read counts as empty.
    pub fn case_in_folder(self, folder: &Path) -> Case {
        let octets = |name: &str| fs::read(folder.join(name)).unwrap_or_default();
        Case { group: octets("group.dat"), steps: octets(self.records_file()) }
    }

    pub fn expected_text(self, folder: &Path) -> io::Result<Vec<u8>> {
        fs::read(folder.join(self.text_file()))
    }

    /// The forms of the cases that a folder holds: a plan, or steps with one text or both.
    pub fn of_folder(folder: &Path) -> Vec<Form> {
        let holds = |name: &str| folder.join(name).is_file();
        if holds("plan.dat") && holds("evening") {
            return vec![Form::Plan];
        }
        let mut forms = vec![Form::Steps, Form::Word];
        forms.retain(|form| holds(form.text_file()));
        forms
    }
}
