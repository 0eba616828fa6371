//! What a trip does, who leads after it, what comes back, and what is counted of it.

use super::*;
use crate::listing::Counter;
use crate::model::{Packet, Place, Version, KINDS};
use crate::points::Points;
use crate::testing::*;

fn crash_of(group: &mut Group, record: Record) -> Event {
    let outcome = group.step(&record, KINDS);
    assert_eq!(outcome.answer, 50);
    outcome.event
}

fn trip_and_settle(group: &mut Group, a: u8) -> Vec<Event> {
    assert_eq!(answers(group, &[trip(a)]), [0]);
    settle(group)
}

// ------------------------------------------------------------ the step

#[test]
fn a_trip_takes_image_and_version_and_alarms_the_neighbours() {
    let mut group = three();
    let note = [2, 2, 0, 31, 0, 9];
    assert_eq!(answers(&mut group, &[note, send(1, 2, 5), send(2, 3, 6), send(1, 3, 7)]), [0; 4]);
    assert_eq!(answers(&mut group, &[trip(2)]), [0]);
    let place = Packet::Fault(Place::Tripped(2));
    let tripped = group.cabinet(2);
    assert_eq!((tripped.state, tripped.version), (State::Error, Version::Lost));
    assert_eq!(tripped.image, [0; 32]);
    assert_eq!(tripped.place(), Some(Place::Tripped(2)));
    assert_eq!([line(&group, 2, 1), line(&group, 2, 3)], [[place]; 2]);
    for other in [1, 3] {
        assert_eq!(group.cabinet(other).state, State::Recovering);
        assert!(group.cabinet(other).neighbours().contains(&2));
        assert_eq!(line(&group, other, 2), [place, Packet::Recover(0)]);
    }
    assert_eq!(line(&group, 1, 3), [place, Packet::Recover(0)]);
    assert_eq!(leads(&group), [1; 3]);
}

#[test]
fn a_tripped_cabinet_fetches_its_image_like_the_rest() {
    let mut group = three();
    answers(&mut group, &[send(1, 2, 30), deliver(1, 2)]);
    save(&mut group, 1);
    answers(&mut group, &[send(2, 3, 70), deliver(2, 3)]);
    let events = trip_and_settle(&mut group, 2);
    assert_eq!(ends(&events), [false]);
    assert_eq!(states(&group), [State::Normal; 3]);
    assert_eq!(bookings(&group), [70, 80, 25]);
    assert!(group.numbers().all(|a| group.cabinet(a).version == Version::Known(1)));
    answers(&mut group, &[send(2, 1, 80), deliver(2, 1)]);
    assert_eq!(bookings(&group), [150, 0, 25]);
}

#[test]
fn registers_restart_when_the_tripped_one_is_recovered() {
    let mut group = three();
    answers(&mut group, &[send(1, 2, 5), send(2, 1, 6), deliver(1, 2), deliver(2, 1), trip(2)]);
    let counts = |group: &Group| {
        let [sent, _] = group.checks(2, 1);
        let [_, taken] = group.checks(1, 2);
        [sent.count, taken.count]
    };
    assert_eq!(counts(&group), [1, 1]);
    settle(&mut group);
    assert_eq!(counts(&group), [0, 0]);
    save(&mut group, 1);
    assert_eq!(states(&group), [State::Normal; 3]);
}

#[test]
fn lines_that_are_struck_are_emptied_and_stay_without_fault() {
    let mut group = three();
    let found = [send(1, 2, 5), [11, 1, 2, 0, 0, 1], deliver(1, 2), one(3, 1), deliver(1, 2)];
    assert_eq!(answers(&mut group, &found), [0; 5]);
    settle(&mut group);
    assert_eq!(answers(&mut group, &[trip(2)]), [0]);
    assert!(line(&group, 2, 1).is_empty() && line(&group, 1, 2).is_empty());
    assert_eq!(states(&group), [State::Normal, State::Error, State::Recovering]);
    assert_eq!(ends(&settle(&mut group)), [false]);
}

// ------------------------------------------------------------ who leads

#[test]
fn the_lead_passes_on_and_does_not_come_back() {
    let mut group = four();
    trip_and_settle(&mut group, 1);
    assert_eq!(leads(&group), [2; 4]);
    assert_eq!(answers(&mut group, &[one(3, 1), one(3, 3)]), [14, 14]);
    save(&mut group, 2);
    trip_and_settle(&mut group, 1);
    assert_eq!(leads(&group), [2; 4]);
    assert_eq!(answers(&mut group, &[one(10, 2)]), [0]);
    settle(&mut group);
    assert_eq!([1, 3, 4].map(|a| group.cabinet(a).coordinator()), [3; 3]);
    trip_and_settle(&mut group, 3);
    assert_eq!([1, 3, 4].map(|a| group.cabinet(a).coordinator()), [4; 3]);
    assert_eq!(answers(&mut group, &[one(3, 1), one(3, 3)]), [14, 14]);
    save(&mut group, 4);
    assert_eq!(group.cabinet(1).version, Version::Known(0));
}

#[test]
fn another_cabinets_trip_or_fail_leaves_the_lead() {
    let mut group = four();
    trip_and_settle(&mut group, 1);
    trip_and_settle(&mut group, 3);
    assert_eq!(leads(&group), [2; 4]);
    answers(&mut group, &[one(10, 1)]);
    settle(&mut group);
    assert_eq!([2, 3, 4].map(|a| group.cabinet(a).coordinator()), [2; 3]);
}

#[test]
fn the_tripped_coordinator_names_the_next_one_too() {
    let mut group = three();
    assert_eq!(answers(&mut group, &[trip(1)]), [0]);
    assert_eq!(leads(&group), [2; 3]);
}

/// The fault reaches the last cabinet of a row later; until then it names the old one.
#[test]
fn each_table_changes_when_its_cabinet_enters_error() {
    let mut group = group(&[100, 50, 25, 12], 4, ROW_OF_FOUR);
    answers(&mut group, &[trip(1)]);
    assert_eq!(leads(&group), [2, 2, 1, 1]);
    answers(&mut group, &[deliver(2, 3)]);
    assert_eq!(leads(&group), [2, 2, 2, 1]);
}

// ------------------------------------------------------------ what comes back

#[test]
fn a_save_that_nobody_else_knows_is_passed_over() {
    let mut group = three();
    answers(&mut group, &[send(1, 2, 30), deliver(1, 2)]);
    save_up_to_commit(&mut group, 1);
    assert_eq!(answers(&mut group, &[trip(1)]), [0]);
    assert!(group.all_wait());
    assert_eq!(ends(&settle(&mut group)), [true]);
    assert_eq!(bookings(&group), [100, 50, 25]);
    assert!(group.numbers().all(|a| group.cabinet(a).version == Version::Known(0)));
}

#[test]
fn a_save_whose_resume_was_taken_comes_back() {
    let mut group = three();
    answers(&mut group, &[send(1, 2, 30), deliver(1, 2)]);
    save_up_to_commit(&mut group, 1);
    assert_eq!(answers(&mut group, &[deliver(1, 3), trip(1)]), [0, 0]);
    assert_eq!(answers(&mut group, &[unsure(1), unsure(2), unsure(3)]), [0, 0, 14]);
    assert_eq!(ends(&settle(&mut group)), [false]);
    assert_eq!(bookings(&group), [70, 80, 25]);
    assert_eq!(group.cabinet(1).version, Version::Known(1));
}

/// The report on it is still owed when the last cabinet of a row trips out of the coordinator's
/// sight.
#[test]
fn the_others_may_commit_with_a_tripped_cabinets_report() {
    let mut group = group(&[100, 50, 25, 12], 2, ROW_OF_FOUR);
    answers(&mut group, &[send(4, 3, 5), deliver(4, 3), one(3, 1)]);
    let checkps = ROW_OF_FOUR.iter().flat_map(|&(a, b)| [deliver(a, b), deliver(b, a)]);
    let pieces = (1..=4).flat_map(|a| [one(5, a); 4]);
    answers(&mut group, &checkps.chain(pieces).collect::<Vec<Record>>());
    assert_eq!(states(&group), [State::Checkpointed; 4]);
    assert_eq!(answers(&mut group, &[one(6, 1), one(6, 2), one(6, 3), trip(4)]), [0; 4]);
    assert_eq!(group.step(&one(6, 4), KINDS).event, Event::Commit);
    assert_eq!(ends(&settle(&mut group)), [false]);
    assert_eq!(bookings(&group), [100, 50, 30, 7]);
}

// ------------------------------------------------------------ the third trip

#[test]
fn a_third_trip_with_no_commit_between_is_a_fail() {
    let mut group = three();
    trip_and_settle(&mut group, 2);
    trip_and_settle(&mut group, 2);
    let mut points = Points::default();
    assert_eq!(points.take(&group, [7; 8]), TAKEN);
    assert_eq!(points.return_to(&mut group, [7; 8]), TAKEN);
    trip_and_settle(&mut group, 1);
    assert_eq!(states(&group), [State::Normal; 3]);
    assert_eq!(answers(&mut group, &[trip(2)]), [0]);
    assert_eq!(group.cabinet(2).state, State::Failed);
    assert_eq!(group.cabinet(1).place(), Some(Place::Failed(2)));
    assert_eq!(group.cabinet(1).neighbours(), [3]);
    assert!(line(&group, 2, 1).is_empty());
    assert_eq!(answers(&mut group, &[trip(2)]), [12]);
    assert_eq!(ends(&settle(&mut group)), [false]);
}

#[test]
fn a_commit_forgets_the_trips_of_all() {
    let mut group = four();
    for a in [2, 3, 2, 3] {
        trip_and_settle(&mut group, a);
    }
    save(&mut group, 1);
    for a in [2, 3, 2, 3] {
        trip_and_settle(&mut group, a);
        assert_eq!(states(&group), [State::Normal; 4]);
    }
    trip_and_settle(&mut group, 2);
    assert_eq!(group.cabinet(2).state, State::Failed);
}

#[test]
fn a_commit_passed_over_counts_for_the_trips() {
    let mut group = four();
    trip_and_settle(&mut group, 3);
    trip_and_settle(&mut group, 3);
    save_up_to_commit(&mut group, 1);
    assert_eq!(ends(&trip_and_settle(&mut group, 1)), [true]);
    assert_eq!(ends(&trip_and_settle(&mut group, 3)), [false]);
    assert_eq!(states(&group), [State::Normal; 4]);
    assert_eq!([1, 3].map(|a| group.cabinet(a).trips()), [1, 1]);
}

// ------------------------------------------------------------ crashes and refusals

#[test]
fn a_stores_trip_and_one_in_a_recovery_crash_the_group() {
    let mut group = three();
    assert_eq!(crash_of(&mut group, trip(3)), Event::Crash(Crash::StoreTripped));
    assert_eq!(states(&group), [State::Crashed; 3]);
    assert_eq!(bookings(&group), [100, 50, 25]);
    for first in [trip(1), one(10, 1)] {
        let mut group = three();
        assert_eq!(answers(&mut group, &[first]), [0]);
        assert_eq!(crash_of(&mut group, trip(2)), Event::Crash(Crash::TripInRecovery));
    }
    let mut group = three();
    answers(&mut group, &[trip(2)]);
    assert_eq!(crash_of(&mut group, trip(2)), Event::Crash(Crash::TripInRecovery));
    assert_eq!(group.cabinet(2).trips(), 1);
    let mut group = three();
    answers(&mut group, &[trip(2)]);
    assert_eq!(crash_of(&mut group, one(10, 2)), Event::Crash(Crash::FailInRecovery));
}

#[test]
fn a_coordinator_that_joins_others_crashes_the_group() {
    let mut group = group(&[100, 50, 25], 3, &[(1, 2), (1, 3)]);
    assert_eq!(crash_of(&mut group, trip(1)), Event::Crash(Crash::CutOffByTrip));
}

#[test]
fn another_cabinet_that_joins_others_passes_fault_and_recover_on() {
    let mut group = group(&[100, 50, 25], 3, ROW_OF_THREE);
    for _ in 0..2 {
        assert_eq!(ends(&trip_and_settle(&mut group, 2)), [false]);
        assert_eq!(states(&group), [State::Normal; 3]);
    }
    assert_eq!(crash_of(&mut group, trip(2)), Event::Crash(Crash::CutOffByFail));
}

#[test]
fn a_trip_is_refused_as_a_fail_is() {
    let mut group = three();
    assert_eq!(group.step(&trip(1), 12).answer, 8);
    let records = [[13, 1, 1, 0, 0, 0], [13, 9, 0, 1, 0, 0], [13, 1, 0, 0, 0, 1], trip(0), trip(4)];
    assert_eq!(answers(&mut group, &records), [9, 9, 9, 11, 11]);
    answers(&mut group, &[one(10, 2)]);
    assert_eq!(
        answers(&mut group, &[trip(2), trip(3), trip(1), [13, 1, 1, 0, 0, 0]]),
        [12, 50, 10, 9]
    );
}

// ------------------------------------------------------------ the counts

fn counted(group: &mut Group, records: &[Record]) -> TripCounts {
    let mut counter = Counter::new(group);
    for record in records {
        counter.step(group, record, KINDS);
    }
    counter.tally.trips
}

/// Two cabinets commit, the first trips with its resume packet in the line, and the second, a
/// store, decides, leads, begins and trips.
#[test]
fn a_coordinators_trip_is_counted() {
    let save = [&[one(3, 1), deliver(1, 2), deliver(2, 1)], &[one(5, 1); 4][..], &[one(5, 2); 4]];
    let commit = [one(6, 1), one(6, 2)];
    let reports = [trip(1), unsure(1), unsure(2)];
    let heard = [deliver(2, 1), deliver(2, 1), deliver(1, 2), deliver(1, 2)];
    let fetch = [[one(7, 1); 4], [one(7, 2); 4]].concat();
    let end = [one(8, 1), one(8, 2), one(3, 1), one(3, 2), trip(2), trip(1)];
    let records = [&save.concat()[..], &commit, &reports, &heard, &fetch, &end].concat();
    let counts = counted(&mut group(&[100, 50], 2, &[(1, 2)]), &records);
    assert_eq!((counts.taken, counts.of_coordinators, counts.of_joining_cabinets), (1, 1, 0));
    assert_eq!((counts.recoveries_ended, counts.saves_passed_over), (1, 1));
    assert_eq!((counts.begins_by_moved_lead, counts.commits_by_moved_lead), (1, 0));
    assert_eq!(counts.crashes, BTreeMap::from([(Crash::StoreTripped, 1)]));
    assert_eq!(counts.refused, BTreeMap::from([(10, 1)]));
}
