//! What a report unsure does, who decides, what comes back, and what is counted of it.

use super::*;
use crate::listing::Counter;
use crate::model::{Crash, Packet, Version, KINDS};
use crate::testing::*;

/// 2 is no neighbour of 1, and 4 none of either but 2: 1, 3, 2, 4 in a row.
const SECOND_AFAR: &[(u8, u8)] = &[(1, 3), (2, 3), (2, 4)];

/// A ring: 1, 3, 4, 2, 5.
const RING_OF_FIVE: &[(u8, u8)] = &[(1, 3), (1, 5), (2, 4), (2, 5), (3, 4)];

fn marks(group: &Group) -> Vec<Vec<Number>> {
    let marks = |number| group.cabinet(number).reported_unsure().iter().copied().collect();
    group.numbers().map(marks).collect()
}

fn versions(group: &Group) -> Vec<Version> {
    group.numbers().map(|number| group.cabinet(number).version).collect()
}

fn event(group: &mut Group, record: Record) -> Event {
    let outcome = group.step(&record, KINDS);
    assert_eq!(outcome.answer, TAKEN);
    outcome.event
}

fn all_orders(numbers: &[u8]) -> Vec<Vec<u8>> {
    let Some((&first, rest)) = numbers.split_first() else {
        return vec![Vec::new()];
    };
    let put = |order: &Vec<u8>, place: usize| [&order[..place], &[first], &order[place..]].concat();
    let orders = all_orders(rest);
    orders.iter().flat_map(|order| (0..=order.len()).map(move |place| put(order, place))).collect()
}

// ------------------------------------------------------------ the decision

#[test]
fn the_last_report_decides_in_whatever_order_they_come() {
    for (lost, reporters) in [(fail(1), &[2, 3, 4][..]), (trip(1), &[1, 2, 3, 4])] {
        for order in all_orders(reporters) {
            let mut group = four();
            answers(&mut group, &[send(1, 2, 30), deliver(1, 2)]);
            save_up_to_commit(&mut group, 1);
            assert_eq!(answers(&mut group, &[lost]), [0]);
            let (&last, before) = order.split_last().expect("some report");
            for &a in before {
                assert_eq!(event(&mut group, unsure(a)), Event::Nothing);
                assert_eq!(group.cabinet(2).state, State::Error);
            }
            assert_eq!(event(&mut group, unsure(last)), Event::Decision { by: 2 });
            assert_eq!(ends(&settle(&mut group)), [true]);
            let left = reporters.iter().map(|&a| group.cabinet(usize::from(a)));
            assert!(left.clone().all(|cabinet| cabinet.state == State::Normal));
            assert!(left.clone().all(|cabinet| cabinet.version == Version::Known(0)));
            assert_eq!(bookings(&group)[1..], [50, 25, 12]);
        }
    }
}

/// It is not the one whose report came last that goes on, and nobody else does.
#[test]
fn the_coordinator_goes_back_to_its_own_old_version() {
    let mut group = three();
    save(&mut group, 1);
    save_up_to_commit(&mut group, 1);
    assert_eq!(group.cabinet(1).version, Version::Known(0));
    answers(&mut group, &[trip(1), unsure(2), unsure(1)]);
    assert_eq!(states(&group), [State::Error; 3]);
    let unknown = Version::Unknown { old: 1 };
    assert_eq!(versions(&group), [Version::Lost, unknown, unknown]);
    let fault = Packet::Fault(Place::Tripped(1));
    assert_eq!([line(&group, 2, 1), line(&group, 2, 3)], [[fault]; 2]);
    assert_eq!(event(&mut group, unsure(3)), Event::Decision { by: 2 });
    assert_eq!(states(&group), [State::Error, State::Recovering, State::Error]);
    assert_eq!(versions(&group), [Version::Lost, Version::Known(1), unknown]);
    assert_eq!([line(&group, 2, 1), line(&group, 2, 3)], [[fault, Packet::Recover(1)]; 2]);
    assert_eq!([line(&group, 3, 1), line(&group, 3, 2)], [[fault]; 2]);
    assert_eq!(ends(&settle(&mut group)), [true]);
    assert_eq!(versions(&group), [Version::Known(1); 3]);
}

#[test]
fn a_save_that_did_not_commit_is_gone() {
    for lost in [fail(1), trip(1)] {
        let mut group = four();
        answers(&mut group, &[send(2, 3, 30), deliver(2, 3)]);
        save_up_to_reports(&mut group, 1);
        answers(&mut group, &[one(6, 1), one(6, 2), one(6, 3), lost]);
        assert!(group.all_wait());
        assert_eq!(ends(&settle(&mut group)), [false]);
        assert_eq!(bookings(&group)[1..], [50, 25, 12]);
        assert!(versions(&group)[1..].iter().all(|version| *version == Version::Known(0)));
    }
}

/// It passes recover on where the lost one alone joined them before.
#[test]
fn nobody_need_have_been_joined_to_the_lost_one() {
    for lost in [fail(1), trip(1)] {
        let mut group = group(&[100, 50, 25, 12], 4, SECOND_AFAR);
        save_up_to_commit(&mut group, 1);
        answers(&mut group, &[lost, deliver(3, 2), deliver(2, 4)]);
        let reports = if lost == trip(1) { &[4, 1, 2][..] } else { &[4, 2] };
        reports.iter().for_each(|&a| assert_eq!(event(&mut group, unsure(a)), Event::Nothing));
        assert_eq!(event(&mut group, unsure(3)), Event::Decision { by: 2 });
        assert_eq!(ends(&settle(&mut group)), [true]);
    }
}

#[test]
fn a_recover_may_come_before_the_last_report() {
    let mut group = four();
    answers(&mut group, &[send(1, 2, 30), deliver(1, 2)]);
    save_up_to_commit(&mut group, 1);
    let records = [deliver(1, 4), trip(1), unsure(3), unsure(1), unsure(4), unsure(2)];
    assert_eq!(answers(&mut group, &records), [0, 0, 0, 0, 14, 0]);
    assert_eq!(marks(&group)[1], [1, 2, 3]);
    assert_eq!(group.cabinet(2).state, State::Error);
    assert_eq!(answers(&mut group, &[deliver(4, 2), deliver(4, 2)]), [0, 0]);
    assert_eq!(group.cabinet(2).state, State::Recovering);
    assert_eq!(ends(&settle(&mut group)), [false]);
    assert_eq!(versions(&group), [Version::Known(1); 4]);
    assert_eq!(bookings(&group), [70, 80, 25, 12]);
}

// ------------------------------------------------------------ where the marks are

/// Each reports to the one that its own table names, the tripped one too, and so does that one.
#[test]
fn a_report_is_a_mark_at_the_coordinator() {
    let mut group = four();
    answers(&mut group, &[trip(1)]);
    settle(&mut group);
    save_up_to_commit(&mut group, 2);
    answers(&mut group, &[trip(2)]);
    assert_eq!(leads(&group), [3; 4]);
    let none = Vec::new();
    for (a, at_lead) in [(4, vec![4]), (2, vec![2, 4]), (3, vec![2, 3, 4])] {
        assert_eq!(event(&mut group, unsure(a)), Event::Nothing);
        assert_eq!(marks(&group), [none.clone(), none.clone(), at_lead, none.clone()]);
    }
    assert_eq!(event(&mut group, unsure(1)), Event::Decision { by: 3 });
}

#[test]
fn marks_stay_over_the_decision_and_go_on_entering_normal() {
    let mut group = three();
    save_up_to_commit(&mut group, 1);
    answers(&mut group, &[trip(1), unsure(1), unsure(2), unsure(3)]);
    assert_eq!(group.cabinet(2).state, State::Recovering);
    assert_eq!(marks(&group)[1], [1, 2, 3]);
    assert_eq!(answers(&mut group, &[unsure(1), unsure(2), unsure(3)]), [19, 14, 19]);
    settle_until(&mut group, |event| event != Event::Nothing);
    assert_eq!(group.cabinet(2).state, State::Normal);
    assert_eq!(marks(&group), [[]; 3]);
    settle(&mut group);
    save_up_to_commit(&mut group, 2);
    answers(&mut group, &[trip(2)]);
    assert_eq!(leads(&group), [3; 3]);
    assert_eq!(answers(&mut group, &[unsure(1), unsure(1), unsure(3)]), [0, 19, 0]);
    assert_eq!(event(&mut group, unsure(2)), Event::Decision { by: 3 });
}

#[test]
fn marks_that_decided_nothing_go_too() {
    let mut group = three();
    save_up_to_commit(&mut group, 1);
    assert_eq!(answers(&mut group, &[deliver(1, 3), trip(1), unsure(1), unsure(2)]), [0; 4]);
    assert_eq!(marks(&group)[1], [1, 2]);
    assert_eq!(ends(&settle(&mut group)), [false]);
    assert_eq!(marks(&group), [[]; 3]);
}

/// 2 finds a link fault by a hurt resume packet before it hears of the trip of 1.
#[test]
fn a_coordinator_in_error_for_another_place_takes_marks_but_not_its_own() {
    let mut group = group(&[100, 50, 25, 12, 6], 5, RING_OF_FIVE);
    save_up_to_commit(&mut group, 1);
    let hurt = [11, 4, 2, 0, 0, 1];
    let records = [deliver(1, 3), deliver(3, 4), hurt, trip(1), deliver(4, 2)];
    assert_eq!(answers(&mut group, &records), [0; 5]);
    assert_eq!(group.cabinet(2).place(), Some(Place::Link(2, 4)));
    assert_eq!(leads(&group), [2, 1, 2, 1, 2]);
    assert_eq!(answers(&mut group, &[5, 1, 2, 3, 4].map(unsure)), [0, 0, 14, 14, 14]);
    assert_eq!(marks(&group)[1], [1, 5]);
    assert_eq!(group.cabinet(2).state, State::Error);
    let met = group.step(&deliver(5, 2), KINDS);
    assert_eq!((met.answer, met.event), (50, Event::Crash(Crash::PlacesMet)));
}

// ------------------------------------------------------------ refusals

#[test]
fn who_is_not_in_error_may_not_report() {
    let mut group = three();
    assert_eq!(answers(&mut group, &[1, 2, 3].map(unsure)), [14; 3]);
    answers(&mut group, &[one(3, 1)]);
    assert_eq!(group.cabinet(1).state, State::CheckpBegin);
    assert_eq!(answers(&mut group, &[unsure(1)]), [14]);
    answers(&mut group, &[deliver(1, 2), deliver(1, 3), deliver(2, 3), deliver(3, 2)]);
    answers(&mut group, &[one(5, 2); 4]);
    let [_, second, third] = states(&group)[..] else { unreachable!() };
    assert_eq!([second, third], [State::Checkpointed, State::Checkpointing]);
    assert_eq!(answers(&mut group, &[unsure(2), unsure(3)]), [14; 2]);
}

#[test]
fn who_knows_its_version_may_not_report() {
    let mut group = three();
    answers(&mut group, &[fail(1)]);
    assert_eq!(states(&group)[1..], [State::Recovering; 2]);
    assert_eq!(answers(&mut group, &[unsure(2), unsure(3)]), [14; 2]);
    answers(&mut group, &[one(7, 2); 4]);
    assert_eq!(group.cabinet(2).state, State::Recovered);
    assert_eq!(answers(&mut group, &[unsure(2)]), [14]);
}

/// In error with unknown version, but for a link.
#[test]
fn nobody_reports_for_a_link() {
    let mut group = three();
    save_up_to_commit(&mut group, 1);
    let hurt = [11, 2, 3, 0, 0, 1];
    assert_eq!(answers(&mut group, &[deliver(1, 2), hurt, deliver(2, 3)]), [0; 3]);
    assert!(group.cabinet(3).waits());
    assert_eq!(group.cabinet(3).place(), Some(Place::Link(2, 3)));
    assert_eq!(answers(&mut group, &[unsure(3)]), [14]);
}

#[test]
fn nobody_reports_for_one_that_did_not_lead() {
    for lost in [fail(3), trip(3)] {
        let mut group = four();
        save_up_to_reports(&mut group, 1);
        assert_eq!(answers(&mut group, &[lost]), [0]);
        assert!([2, 4].iter().all(|&a| group.cabinet(a).waits()));
        let of_lost = if lost == trip(3) { 14 } else { 12 };
        assert_eq!(answers(&mut group, &[1, 2, 3, 4].map(unsure)), [14, 14, of_lost, 14]);
        assert_eq!(ends(&settle(&mut group)), [false]);
    }
}

/// The coordinator is the same, whoever of the two before it is lost.
#[test]
fn nobody_reports_for_the_number_before_the_lead() {
    for lost in [fail(1), trip(1)] {
        let mut group = three();
        answers(&mut group, &[trip(1)]);
        settle(&mut group);
        save_up_to_reports(&mut group, 2);
        assert_eq!(answers(&mut group, &[lost]), [0]);
        assert_eq!(leads(&group)[1..], [2; 2]);
        assert!(group.cabinet(3).waits());
        assert_eq!(answers(&mut group, &[unsure(2), unsure(3)]), [14; 2]);
    }
}

#[test]
fn a_second_report_is_refused() {
    let mut group = four();
    save_up_to_commit(&mut group, 1);
    answers(&mut group, &[fail(1)]);
    let records = [3, 3, 2, 2, 3, 4, 4, 3].map(unsure);
    assert_eq!(answers(&mut group, &records), [0, 19, 0, 19, 19, 0, 19, 19]);
}

#[test]
fn a_report_is_refused_until_the_coordinator_is_in_error() {
    let mut group = group(&[100, 50, 25, 12], 4, SECOND_AFAR);
    save_up_to_commit(&mut group, 1);
    answers(&mut group, &[trip(1)]);
    assert_eq!(leads(&group), [2, 1, 2, 1]);
    assert_eq!(answers(&mut group, &[1, 2, 3, 4].map(unsure)), [19, 14, 19, 14]);
    answers(&mut group, &[deliver(3, 2)]);
    assert_eq!(answers(&mut group, &[1, 2, 3, 4].map(unsure)), [0, 0, 0, 14]);
    assert_eq!(event(&mut group, deliver(2, 4)), Event::Nothing);
    assert_eq!(event(&mut group, unsure(4)), Event::Decision { by: 2 });
}

#[test]
fn a_report_is_refused_when_the_coordinator_knows() {
    let mut group = three();
    save_up_to_commit(&mut group, 1);
    answers(&mut group, &[deliver(1, 2), trip(1)]);
    assert_eq!(states(&group), [State::Error, State::Recovering, State::Error]);
    assert_eq!(answers(&mut group, &[1, 2, 3].map(unsure)), [19, 14, 19]);
    answers(&mut group, &[deliver(3, 2), deliver(1, 2), one(7, 3), one(7, 2)]);
    answers(&mut group, &[one(7, 2); 3]);
    assert_eq!(answers(&mut group, &[1, 2, 3].map(unsure)), [19, 14, 19]);
}

#[test]
fn a_report_is_refused_as_other_steps_of_one_cabinet_are() {
    let mut group = three();
    assert_eq!(group.step(&unsure(1), 13).answer, 8);
    let unused =
        [[14, 1, 1, 0, 0, 0], [14, 9, 0, 1, 0, 0], [14, 1, 0, 0, 1, 0], [14, 1, 0, 0, 0, 1]];
    assert_eq!(answers(&mut group, &unused), [9; 4]);
    assert_eq!(answers(&mut group, &[unsure(0), unsure(4), unsure(255)]), [11; 3]);
    answers(&mut group, &[fail(2)]);
    assert_eq!(answers(&mut group, &[unsure(2), fail(3), unsure(2), unused[0]]), [12, 50, 10, 9]);
}

#[test]
fn wait_over_is_withdrawn() {
    let mut group = three();
    let odd = [9, 9, 1, 1, 1, 1];
    assert_eq!(answers(&mut group, &[one(9, 1), one(9, 0), odd]), [8; 3]);
    save_up_to_commit(&mut group, 1);
    answers(&mut group, &[fail(1)]);
    assert!(group.all_wait());
    assert_eq!(answers(&mut group, &[one(9, 2), one(9, 3), one(9, 1)]), [8; 3]);
    assert!(group.all_wait());
    assert_eq!(answers(&mut group, &[fail(3), one(9, 2), odd]), [50, 8, 8]);
}

// ------------------------------------------------------------ the counts

fn counted(group: &mut Group, records: &[Record]) -> UnsureCounts {
    let mut counter = Counter::new(group);
    for record in records {
        counter.step(group, record, KINDS);
    }
    counter.tally.unsure
}

/// Steps that end the recovery of a group in which the first one's fault was seen by all.
fn settled(group: &Group) -> Vec<Record> {
    let mut group = group.clone();
    let numbers = 1..=group.size() as u8;
    let lines = numbers.clone().flat_map(|a| numbers.clone().map(move |b| deliver(a, b)));
    let singles = [7, 8].into_iter().flat_map(|kind| numbers.clone().map(move |a| one(kind, a)));
    let records: Vec<Record> = lines.chain(singles).collect();
    let mut taken = Vec::new();
    while let Some(record) = records.iter().find(|r| group.step(*r, KINDS).answer == TAKEN) {
        taken.push(*record);
    }
    taken
}

#[test]
fn a_decision_is_counted() {
    let mut group = group(&[100, 50, 25, 12], 4, SECOND_AFAR);
    save_up_to_commit(&mut group, 1);
    let early = [unsure(1), trip(1), unsure(3), deliver(3, 2), unsure(3), unsure(3), one(9, 2)];
    let late = [deliver(2, 4), one(9, 2), unsure(2), unsure(1), unsure(4), unsure(4), unsure(2)];
    let mut after = group.clone();
    answers(&mut after, &[&early[..], &late].concat());
    let records = [&early[..], &late, &settled(&after)].concat();
    let counts = counted(&mut group, &records);
    assert_eq!((counts.taken, counts.of_tripped, counts.before_all_know), (4, 1, 1));
    assert_eq!(counts.at_another_place, 0);
    let refused = [
        (Refusal::InOperation, 1),
        (Refusal::KnowsVersion, 1),
        (Refusal::ReportedAlready, 2),
        (Refusal::CoordinatorUnaware, 1),
    ];
    assert_eq!(counts.refused, BTreeMap::from(refused));
    assert_eq!((counts.refused_with(14), counts.refused_with(19)), (2, 3));
    assert_eq!(counts.decisions, BTreeMap::from([(Lost::Tripped, 1)]));
    assert_eq!((counts.by_anothers_report, counts.by_one_not_joined), (1, 1));
    assert_eq!(counts.recoveries_ended, BTreeMap::from([(Lost::Tripped, 1)]));
    assert_eq!((counts.saves_passed_over, counts.recoveries_by_recover), (1, 0));
    assert_eq!((counts.withdrawn, counts.withdrawn_where_all_wait), (2, 1));
}

#[test]
fn a_recover_before_the_last_report_is_counted() {
    let mut group = three();
    save_up_to_commit(&mut group, 1);
    let reports = [deliver(1, 3), fail(1), unsure(2), unsure(3)];
    let mut after = group.clone();
    answers(&mut after, &reports);
    let counts = counted(&mut group, &[&reports[..], &settled(&after)].concat());
    assert_eq!((counts.taken, counts.recoveries_by_recover), (1, 1));
    assert_eq!(counts.refused, BTreeMap::from([(Refusal::KnowsVersion, 1)]));
    assert!(counts.decisions.is_empty() && counts.recoveries_ended.is_empty());
}
