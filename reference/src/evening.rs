//! The program `evening`: the text printed for a group file and a plan file, whose records are
//! steps, points taken and returns, and counts of what happened on the way.

use crate::listing::{count, list_cabinets, Counter, Tally, RECORDS_READ};
use crate::model::{self, booking_in, Account, Event, Group, Number, TAKEN};
use crate::points::{Name, Points};
use std::collections::{BTreeMap, BTreeSet};
use std::fmt::Write;

pub const PLAN_RECORD_LENGTH: usize = 9;
const MALFORMED: u8 = 8;

// ---------------------------------------------------------------- plan records

#[derive(Clone, Copy, PartialEq, Eq, Debug)]
pub enum Operation {
    Step([u8; 6]),
    Point(Name),
    Return(Name),
}

/// The operation of a plan record, if it is one.
pub fn operation(record: &[u8]) -> Option<Operation> {
    let &[first, a, b, c, d, e, f, g, h] = record else {
        return None;
    };
    match first {
        0 if [g, h] == [0, 0] => Some(Operation::Step([a, b, c, d, e, f])),
        1 => Some(Operation::Point([a, b, c, d, e, f, g, h])),
        2 => Some(Operation::Return([a, b, c, d, e, f, g, h])),
        _ => None,
    }
}

/// The word that a record's line begins with, whatever its answer.
fn word(record: &[u8]) -> &'static str {
    match record.first() {
        Some(1) => "point",
        Some(2) => "return",
        _ => "step",
    }
}

// ---------------------------------------------------------------- an evening

/// A group with its points, and what is counted of the operations.
pub struct Evening {
    pub group: Group,
    pub points: Points,
    highest_kind: u8,
    watch: Watch,
    counter: Counter,
}

impl Evening {
    pub fn new(group: Group, highest_kind: u8) -> Evening {
        let (points, watch, counter) = (Points::default(), Watch::default(), Counter::new(&group));
        Evening { group, points, highest_kind, watch, counter }
    }

    /// What is counted so far.
    pub fn tally(&self) -> &Tally {
        &self.counter.tally
    }

    /// The answer to one record of the plan.
    pub fn take_record(&mut self, record: &[u8]) -> u8 {
        match operation(record) {
            Some(operation) => self.take(operation),
            None => {
                self.count_sights(vec![Sight::MalformedRecord]);
                MALFORMED
            }
        }
    }

    pub fn take(&mut self, operation: Operation) -> u8 {
        match operation {
            Operation::Step(record) => self.step(&record),
            Operation::Point(name) => self.take_point(name),
            Operation::Return(name) => self.return_to(name),
        }
    }

    fn step(&mut self, record: &[u8]) -> u8 {
        self.watch.before_step(&self.group);
        let after_trip = self.counter.trip_watch.trip_is_open();
        let outcome = self.counter.step(&mut self.group, record, self.highest_kind);
        let sights = self.watch.after_step(&self.group, outcome.event);
        let to_return = sights.contains(&Sight::RecoveryToReturn);
        let third_trip = record[0] == 13 && outcome.answer == TAKEN;
        let third_over_return = third_trip && self.watch.failed_over_return(&self.group, record[1]);
        if [10, 13].contains(&record[0]) && outcome.answer == TAKEN {
            self.watch.note_store_left(&self.group, record[1]);
        }
        let left = &self.watch.stores_left_since_return;
        let both_left = left.iter().any(|&store| {
            let partner = self.group.cabinet(store).partner();
            partner.is_some_and(|partner| left.contains(&partner))
        });
        let one_left = !left.is_empty();
        self.count_sights(sights);
        self.count_sights(seen(&[
            (Sight::RecoveryFromTripToReturn, to_return && after_trip),
            (Sight::ThirdTripOverReturn, third_over_return),
            (Sight::RecoveryToReturnAtOneStore, to_return && one_left),
            (Sight::RecoveryToReturnAtEither, to_return && both_left),
        ]));
        outcome.answer
    }

    fn take_point(&mut self, name: Name) -> u8 {
        let replaces = self.points.images(name).is_some();
        let answer = self.points.take(&self.group, name);
        count(&mut self.counter.tally.point_answers, answer);
        if answer == TAKEN {
            let sights = self.watch.after_point(&self.group, name, replaces);
            self.count_sights(sights);
            self.count_sights(seen(&[
                (Sight::PointWithB, self.keeps(name, Account::B)),
                (Sight::PointWithWorkshop, self.keeps(name, Account::Workshop)),
            ]));
        }
        answer
    }

    fn return_to(&mut self, name: Name) -> u8 {
        let before = bookings(&self.group);
        let answer = self.points.return_to(&mut self.group, name);
        count(&mut self.counter.tally.return_answers, answer);
        if answer == TAKEN {
            let after = bookings(&self.group);
            let sights = self.watch.after_return(&self.group, name, after != before);
            self.count_sights(sights);
            let mut both = before.iter().zip(&after);
            let changes_b = both.clone().any(|(old, new)| old[1] != new[1]);
            let changes_workshop = both.any(|(old, new)| old[2] != new[2]);
            self.count_sights(seen(&[
                (Sight::ReturnWithB, self.keeps(name, Account::B)),
                (Sight::ReturnChangesB, changes_b),
                (Sight::ReturnWithWorkshop, self.keeps(name, Account::Workshop)),
                (Sight::ReturnChangesWorkshop, changes_workshop),
            ]));
        }
        answer
    }

    /// Whether the point of this name has something booked there.
    fn keeps(&self, name: Name, account: Account) -> bool {
        let images = self.points.images(name).unwrap_or_default();
        images.iter().any(|image| booking_in(image, account) != 0)
    }

    fn count_sights(&mut self, sights: Vec<Sight>) {
        self.counter.tally.count_sights(sights);
    }
}

fn bookings(group: &Group) -> Vec<[u16; 3]> {
    group.numbers().map(|number| group.cabinet(number).bookings()).collect()
}

/// What `evening` prints, and its counts; kinds above `highest_kind` are unknown.
pub fn counted_evening(group_file: &[u8], plan_file: &[u8], highest_kind: u8) -> (String, Tally) {
    let mut evening = match model::load(group_file) {
        Ok(group) => Evening::new(group, highest_kind),
        Err(refusal) => {
            let tally = Tally::of_refused_load(group_file, refusal);
            return (format!("load {refusal}\n"), tally);
        }
    };
    let mut text = String::new();
    let records = plan_file.chunks(PLAN_RECORD_LENGTH).take(RECORDS_READ);
    for (index, record) in records.enumerate() {
        let answer = evening.take_record(record);
        let _ = writeln!(text, "{} {} {answer}", word(record), index + 1);
    }
    list_cabinets(&mut text, &evening.group);
    (text, evening.counter.tally)
}

pub fn evening(group_file: &[u8], plan_file: &[u8], highest_kind: u8) -> String {
    counted_evening(group_file, plan_file, highest_kind).0
}

// ---------------------------------------------------------------- counts

/// What points and returns bring that is worth a count.
#[derive(Clone, Copy, PartialEq, Eq, PartialOrd, Ord, Debug)]
pub enum Sight {
    MalformedRecord,
    PointReplaced,
    /// Before any commit.
    PointOfTheStart,
    PointWithFailed,
    /// A failed cabinet has its image from a return, and a commit came since.
    PointWithSetImageAfterCommit,
    /// Something is booked at B in an image of the point.
    PointWithB,
    ReturnWithB,
    ReturnChangesB,
    /// The workshop has something booked in an image of the point.
    PointWithWorkshop,
    ReturnWithWorkshop,
    ReturnChangesWorkshop,
    ReturnChangesBookings,
    ReturnWithFailed,
    /// A cabinet failed between the point and the return.
    ReturnOverFail,
    /// A packet was hurt that no save has found yet.
    ReturnWithHurtLine,
    /// A recovery ended after a return with no commit between.
    RecoveryToReturn,
    /// The same, and the recovery changed a booking.
    RecoveryToReturnChangesBookings,
    /// The same, a booking of the workshop.
    RecoveryToReturnChangesWorkshop,
    /// The only commit since the last return was passed over.
    PassedOverToReturn,
    /// A return set a failed cabinet's image, a commit came, and then a recovery ended.
    RecoveryWithSetImageAfterCommit,
    /// A recovery from a trip ended after a return with no commit between.
    RecoveryFromTripToReturn,
    /// Taken as a fail, with a return since the first or the second.
    ThirdTripOverReturn,
    /// A store of a pair has failed.
    PointWithStoreFailed,
    ReturnWithStoreFailed,
    /// A store of a pair left after a return, with no commit between, and the recovery ended.
    RecoveryToReturnAtOneStore,
    /// The same, both stores having left after the return.
    RecoveryToReturnAtEither,
}

impl Sight {
    pub const ALL: [Sight; 26] = [
        Sight::MalformedRecord,
        Sight::PointReplaced,
        Sight::PointOfTheStart,
        Sight::PointWithFailed,
        Sight::PointWithSetImageAfterCommit,
        Sight::PointWithB,
        Sight::ReturnWithB,
        Sight::ReturnChangesB,
        Sight::PointWithWorkshop,
        Sight::ReturnWithWorkshop,
        Sight::ReturnChangesWorkshop,
        Sight::ReturnChangesBookings,
        Sight::ReturnWithFailed,
        Sight::ReturnOverFail,
        Sight::ReturnWithHurtLine,
        Sight::RecoveryToReturn,
        Sight::RecoveryToReturnChangesBookings,
        Sight::RecoveryToReturnChangesWorkshop,
        Sight::PassedOverToReturn,
        Sight::RecoveryWithSetImageAfterCommit,
        Sight::RecoveryFromTripToReturn,
        Sight::ThirdTripOverReturn,
        Sight::PointWithStoreFailed,
        Sight::ReturnWithStoreFailed,
        Sight::RecoveryToReturnAtOneStore,
        Sight::RecoveryToReturnAtEither,
    ];
}

/// For the counts only: what became of commits, fails and returns so far.
#[derive(Default)]
struct Watch {
    /// Commits that were not passed over.
    commits: u64,
    /// The commits when the last return was taken.
    commits_at_return: Option<u64>,
    /// The cabinets whose images the last return set as those of failed ones.
    failed_at_return: BTreeSet<Number>,
    /// The cabinets that had tripped since the last commit when the last return was taken.
    tripped_at_return: BTreeSet<Number>,
    /// The failed cabinets when each point was taken.
    failed_at_point: BTreeMap<Name, BTreeSet<Number>>,
    /// The bookings of working cabinets before the recovery under way.
    bookings_in_operation: Vec<[u16; 3]>,
    /// Of pairs.
    stores_left_since_return: BTreeSet<Number>,
}

fn failed_cabinets(group: &Group) -> BTreeSet<Number> {
    group.numbers().filter(|&number| !group.cabinet(number).working()).collect()
}

/// One of a pair.
fn has_store_failed(group: &Group) -> bool {
    group
        .numbers()
        .map(|number| group.cabinet(number))
        .any(|c| c.partner().is_some() && !c.working())
}

fn has_hurt_line(group: &Group) -> bool {
    group.numbers().any(|from| group.numbers().any(|to| group.line(from, to).hurt))
}

impl Watch {
    fn before_step(&mut self, group: &Group) {
        if !group.recovery_under_way() {
            self.bookings_in_operation = bookings(group);
        }
    }

    /// Whether a failed cabinet has its image from a return that a commit followed.
    fn set_image_after_commit(&self) -> bool {
        let commit_since = self.commits_at_return.is_some_and(|then| self.commits > then);
        commit_since && !self.failed_at_return.is_empty()
    }

    /// Of a cabinet that just failed or tripped.
    fn note_store_left(&mut self, group: &Group, cabinet: u8) {
        let number = usize::from(cabinet);
        if group.cabinet(number).partner().is_some() {
            self.stores_left_since_return.insert(number);
        }
    }

    /// Of a cabinet that just tripped.
    fn failed_over_return(&self, group: &Group, cabinet: u8) -> bool {
        let number = usize::from(cabinet);
        self.tripped_at_return.contains(&number) && !group.cabinet(number).working()
    }

    fn after_step(&mut self, group: &Group, event: Event) -> Vec<Sight> {
        match event {
            Event::Commit => {
                self.commits += 1;
                self.tripped_at_return.clear();
            }
            Event::RecoveryEnd { save_passed_over } => {
                return self.after_recovery(group, save_passed_over);
            }
            _ => {}
        }
        Vec::new()
    }

    fn after_recovery(&mut self, group: &Group, save_passed_over: bool) -> Vec<Sight> {
        self.commits -= u64::from(save_passed_over);
        let to_return = self.commits_at_return == Some(self.commits);
        let (changes, changes_workshop) = self.changes_since_operation(group);
        seen(&[
            (Sight::RecoveryToReturn, to_return && !save_passed_over),
            (Sight::RecoveryToReturnChangesBookings, to_return && changes),
            (Sight::RecoveryToReturnChangesWorkshop, to_return && changes_workshop),
            (Sight::PassedOverToReturn, to_return && save_passed_over),
            (Sight::RecoveryWithSetImageAfterCommit, self.set_image_after_commit()),
        ])
    }

    /// Whether a working cabinet has another booking than before the recovery, and whether it is
    /// one of the workshop.
    fn changes_since_operation(&self, group: &Group) -> (bool, bool) {
        let (mut any, mut of_workshop) = (false, false);
        for number in group.working_cabinets() {
            let (now, before) =
                (group.cabinet(number).bookings(), self.bookings_in_operation[number - 1]);
            any |= now != before;
            of_workshop |= now[2] != before[2];
        }
        (any, of_workshop)
    }

    fn after_point(&mut self, group: &Group, name: Name, replaced: bool) -> Vec<Sight> {
        let failed = failed_cabinets(group);
        let sights = seen(&[
            (Sight::PointReplaced, replaced),
            (Sight::PointOfTheStart, self.commits == 0 && self.commits_at_return.is_none()),
            (Sight::PointWithFailed, !failed.is_empty()),
            (Sight::PointWithSetImageAfterCommit, self.set_image_after_commit()),
            (Sight::PointWithStoreFailed, has_store_failed(group)),
        ]);
        self.failed_at_point.insert(name, failed);
        sights
    }

    fn after_return(&mut self, group: &Group, name: Name, changes: bool) -> Vec<Sight> {
        let failed = failed_cabinets(group);
        let since_point = self.failed_at_point.get(&name).is_some_and(|then| *then != failed);
        let sights = seen(&[
            (Sight::ReturnChangesBookings, changes),
            (Sight::ReturnWithFailed, !failed.is_empty()),
            (Sight::ReturnOverFail, since_point),
            (Sight::ReturnWithHurtLine, has_hurt_line(group)),
            (Sight::ReturnWithStoreFailed, has_store_failed(group)),
        ]);
        self.stores_left_since_return.clear();
        let tripped = |number: &Number| group.cabinet(*number).trips() > 0;
        self.tripped_at_return = group.numbers().filter(tripped).collect();
        self.commits_at_return = Some(self.commits);
        self.failed_at_return = failed;
        sights
    }
}

fn seen(sights: &[(Sight, bool)]) -> Vec<Sight> {
    sights.iter().filter(|(_, there)| *there).map(|&(sight, _)| sight).collect()
}

#[cfg(test)]
mod tests {
    use super::*;
    use crate::model::KINDS;

    const GROUP: [u8; 30] = [
        0, 2, 0, 1, 0, 10, 0, 28, 0, 30, 1, 1, 0, 100, 0, 10, 0, 20, 0, 1, 0, 0, 50, 0, 5, 0, 2, 0,
        1, 2,
    ];
    const CABINETS: &str = "cab 1 normal 0 100 10 20\ncab 2 normal 0 50 5 2\n";

    fn step(record: [u8; 6]) -> Vec<u8> {
        [&[0], &record[..], &[0, 0]].concat()
    }

    fn named(first: u8, name: u8) -> Vec<u8> {
        vec![first, 0, 0, 0, 0, 0, 0, 0, name]
    }

    fn printed(records: &[Vec<u8>]) -> String {
        evening(&GROUP, &records.concat(), KINDS)
    }

    #[test]
    fn a_return_brings_the_start_back() {
        let send = step([1, 1, 2, 0, 0, 30]);
        let deliver = step([4, 1, 2, 0, 0, 0]);
        let plan = [named(1, 7), send, named(2, 7), named(2, 8), deliver, named(2, 7)];
        let answers = "point 1 0\nstep 2 0\nreturn 3 22\nreturn 4 21\nstep 5 0\nreturn 6 0\n";
        assert_eq!(printed(&plan), format!("{answers}{CABINETS}"));
    }

    #[test]
    fn a_return_brings_all_bookings_back() {
        let sends = [0, 1, 2, 3, 4].map(|p| step([1, 1, 2, p, 0, 3]));
        let delivers = vec![step([4, 1, 2, 0, 0, 0]); 5];
        let traded = [&[named(1, 7)], &sends[..], &delivers].concat();
        let traded_text = printed(&traded);
        assert!(traded_text.ends_with("cab 1 normal 0 94 4 17\ncab 2 normal 0 56 11 5\n"));
        let returned_text = printed(&[&traded[..], &[named(2, 7)]].concat());
        assert!(returned_text.ends_with(CABINETS));
    }

    #[test]
    fn a_fifth_name_is_refused_and_an_old_one_is_not() {
        let plan = [1, 2, 3, 4, 5, 2].map(|name| named(1, name));
        let answers = "point 1 0\npoint 2 0\npoint 3 0\npoint 4 0\npoint 5 23\npoint 6 0\n";
        assert_eq!(printed(&plan), format!("{answers}{CABINETS}"));
    }

    #[test]
    fn a_crashed_group_refuses_both() {
        let plan = [named(1, 1), step([10, 1, 0, 0, 0, 0]), named(1, 2), named(2, 9)];
        let cabinets = CABINETS.replace("normal", "crashed");
        let answers = "point 1 0\nstep 2 50\npoint 3 10\nreturn 4 10\n";
        assert_eq!(printed(&plan), format!("{answers}{cabinets}"));
    }

    #[test]
    fn malformed_records_are_named_by_their_first_octet() {
        let odd = vec![0, 3, 1, 0, 0, 0, 0, 0, 1];
        let plan = [odd, vec![3; 9], step([15, 0, 0, 0, 0, 0]), vec![1, 0]];
        let answers = "step 1 8\nstep 2 8\nstep 3 8\npoint 4 8\n";
        assert_eq!(printed(&plan), format!("{answers}{CABINETS}"));
        assert_eq!(printed(&[vec![2; 8]]), format!("return 1 8\n{CABINETS}"));
        assert_eq!(printed(&[vec![0; 8]]), format!("step 1 8\n{CABINETS}"));
    }

    #[test]
    fn files_that_are_empty_or_long() {
        assert_eq!(evening(&[], &[], KINDS), "load 1\n");
        assert_eq!(printed(&[]), CABINETS);
        assert_eq!(printed(&vec![named(1, 1); 10_001]).lines().count(), 10_002);
    }
}
