//! What partners of stores do, and what is counted of them.

use super::*;
use crate::listing::{counted_listing, Counter};
use crate::model::{load, Account, Version, KINDS};
use crate::points::Points;
use crate::testing::*;

/// 1 and 4 are partners, 1 home of 1 and 3, and 4 of 2 and 4.
const ENTRIES_OF_FOUR: [[u8; 3]; 4] = [[1, 1, 4], [4, 0, 0], [1, 0, 0], [4, 1, 1]];

fn paired(links: &[(u8, u8)]) -> Group {
    load(&file_with_stores(&ENTRIES_OF_FOUR, links)).expect("the file is sound")
}

fn row() -> Group {
    paired(ROW_OF_FOUR)
}

fn all() -> Group {
    paired(ALL_OF_FOUR)
}

fn owed(group: &Group, home: Number) -> Vec<Number> {
    group.cabinet(home).reports_owed().iter().copied().collect()
}

fn homes(group: &Group) -> Vec<Number> {
    group.numbers().map(|number| group.home(number)).collect()
}

fn booked_in(image: &Image) -> u16 {
    crate::model::booking_in(image, Account::A)
}

/// The steps of one group, counted.
fn counted(group: &mut Group, records: &[Record]) -> PartnerCounts {
    let mut counter = Counter::new(group);
    for record in records {
        assert_eq!(counter.step(group, record, KINDS).answer, TAKEN);
    }
    counter.tally.partners
}

// ------------------------------------------------------------ load

fn refusal(entries: &[[u8; 3]]) -> Option<u8> {
    let links = &ROW_OF_FOUR[..entries.len() - 1];
    load(&file_with_stores(entries, links)).err()
}

#[test]
fn partners_name_each_other() {
    assert_eq!(refusal(&[[1, 1, 2], [1, 1, 1]]), None);
    assert_eq!(refusal(&[[1, 1, 0], [1, 1, 0]]), None);
    for partner in [1, 3, 9, 128, 255] {
        assert_eq!(refusal(&[[1, 1, partner], [1, 1, 1]]), Some(4));
    }
    assert_eq!(refusal(&[[1, 1, 0], [1, 1, 1]]), Some(4));
    assert_eq!(refusal(&[[1, 1, 2], [1, 0, 1]]), Some(4));
    assert_eq!(refusal(&[[1, 1, 2], [1, 0, 0]]), Some(4));
    assert_eq!(refusal(&[[1, 1, 0], [1, 0, 1]]), Some(4));
    assert_eq!(refusal(&[[1, 1, 0], [1, 0, 2]]), Some(4));
    assert_eq!(refusal(&[[1, 1, 2], [1, 1, 3], [1, 1, 1]]), Some(4));
    assert_eq!(refusal(&[[1, 1, 2], [1, 1, 1], [1, 1, 1]]), Some(4));
    assert_eq!(refusal(&[[3, 1, 2], [3, 1, 1], [3, 1, 0]]), None);
}

#[test]
fn partners_named_wrongly_are_told_apart() {
    let told = |entries: &[[u8; 3]]| {
        let file = file_with_stores(entries, &ROW_OF_FOUR[..entries.len() - 1]);
        counted_listing(&file, &[], KINDS).1.partners.loads_refused.into_keys().collect::<Vec<_>>()
    };
    assert_eq!(told(&[[1, 1, 1], [1, 1, 0]]), [Misnamed::Itself]);
    assert_eq!(told(&[[1, 1, 3], [1, 1, 0]]), [Misnamed::AboveN]);
    assert_eq!(told(&[[1, 1, 2], [1, 0, 0]]), [Misnamed::NoStore]);
    assert_eq!(told(&[[1, 1, 0], [1, 0, 1]]), [Misnamed::ByNoStore]);
    assert_eq!(told(&[[1, 1, 2], [1, 0, 1]]), [Misnamed::ByNoStore, Misnamed::NoStore]);
    assert_eq!(told(&[[1, 1, 2], [1, 1, 0]]), [Misnamed::NamesNobodyBack]);
    assert_eq!(told(&[[1, 1, 2], [1, 1, 1], [1, 1, 1]]), [Misnamed::NamesAnotherBack]);
    assert_eq!(told(&[[2, 1, 1], [2, 0, 0]]), []);
}

#[test]
fn stores_of_a_group_are_counted() {
    let stores = |entries: &[[u8; 3]], links: &[(u8, u8)]| {
        let (_, tally) = counted_listing(&file_with_stores(entries, links), &[], KINDS);
        let counts = tally.partners;
        assert_eq!(counts.with_partners, u64::from(!counts.stores.contains_key(&Stores::NoPair)));
        counts.stores.into_keys().collect::<Vec<_>>()
    };
    let over_both = [Stores::OnePair, Stores::HomesOverBoth, Stores::LeadWithPartner];
    assert_eq!(stores(&ENTRIES_OF_FOUR, ALL_OF_FOUR), over_both);
    assert!(stores(&ENTRIES_OF_FOUR, ROW_OF_FOUR).contains(&Stores::PairNotLinked));
    assert_eq!(stores(&[[1, 1, 0], [1, 1, 0]], &[(1, 2)]), [Stores::NoPair]);
    let outside = [[1, 1, 0], [1, 1, 3], [2, 1, 2]];
    let expected = [Stores::OnePair, Stores::StoreAlone, Stores::HomeOutsideThePair];
    assert_eq!(stores(&outside, ROW_OF_THREE), expected);
    let two_pairs = [[1, 1, 2], [1, 1, 1], [3, 1, 4], [3, 1, 3]];
    let expected = [Stores::SeveralPairs, Stores::LeadWithPartner];
    assert_eq!(stores(&two_pairs, ROW_OF_FOUR), expected);
}

// ------------------------------------------------------------ two copies

#[test]
fn both_stores_start_with_the_starting_images() {
    let group = row();
    assert_eq!(homes(&group), [1, 4, 1, 4]);
    for (store, number) in [1, 4].into_iter().flat_map(|s| group.numbers().map(move |n| (s, n))) {
        assert_eq!(booked_in(group.slot_at(store, number, 0)), 100);
        assert_eq!(*group.slot_at(store, number, 1), [0; 32]);
    }
}

#[test]
fn pieces_go_to_both_and_each_home_owes_its_own() {
    let mut group = row();
    answers(&mut group, &[send(1, 2, 30), deliver(1, 2)]);
    save_up_to_reports(&mut group, 1);
    assert_eq!([owed(&group, 1), owed(&group, 4)], [[1, 3], [2, 4]]);
    for (number, booked) in [(1, 70), (2, 130), (3, 100), (4, 100)] {
        assert_eq!([1, 4].map(|s| booked_in(group.slot_at(s, number, 1))), [booked; 2]);
    }
}

/// The home's state alone is asked, and a partner in error has pieces all the same.
#[test]
fn a_partner_in_recovery_gets_pieces_too() {
    let mut group = paired(&[(1, 2), (1, 3), (2, 3), (3, 4)]);
    let begun = [one(3, 1), deliver(1, 2), deliver(1, 3), deliver(2, 1), deliver(3, 1)];
    assert_eq!(answers(&mut group, &begun), [0; 5]);
    let found = [deliver(3, 4), [11, 2, 3, 0, 0, 1], deliver(2, 3), deliver(3, 4)];
    assert_eq!(answers(&mut group, &found), [0; 4]);
    assert_eq!(group.cabinet(1).state, State::Checkpointing);
    assert!(group.cabinet(4).state.in_recovery());
    let counts = counted(&mut group, &[one(5, 1)]);
    assert_eq!(counts.written, BTreeMap::from([(Written::AtBothOneInRecovery, 1)]));
    assert_eq!([1, 4].map(|store| booked_in(group.slot_at(store, 1, 1))), [100; 2]);
}

#[test]
fn pieces_go_to_the_store_that_is_left() {
    let mut group = all();
    assert_eq!(answers(&mut group, &[fail(4)]), [0]);
    settle(&mut group);
    assert_eq!(homes(&group), [1; 4]);
    answers(&mut group, &[send(2, 1, 60), deliver(2, 1)]);
    save(&mut group, 1);
    assert_eq!(booked_in(group.slot_at(1, 2, 1)), 40);
    assert_eq!(booked_in(group.slot_at(4, 2, 1)), 0);
    assert_eq!(booked_in(group.slot(2, 1)), 40);
}

// ------------------------------------------------------------ reports

#[test]
fn reports_are_passed_on_to_a_partner_that_does_not_see_it() {
    for leaves in [fail(4), trip(4)] {
        let mut group = row();
        answers(&mut group, &[send(1, 2, 30), deliver(1, 2)]);
        save_up_to_reports(&mut group, 1);
        let reports = [1, 2, 3, 4].map(|number| one(6, number));
        let counts = counted(&mut group, &[&[leaves], &reports[..]].concat());
        assert_eq!([counts.passed_on, counts.passed_on_taken], [2, 2]);
        assert_eq!([counts.commits_by_passed_on, counts.forgotten], [1, 0]);
        assert_eq!(counts.commits.values().sum::<u64>(), 1);
        assert_eq!(ends(&settle(&mut group)), [false]);
        let working = group.working_cabinets();
        assert!(working.iter().all(|&a| group.cabinet(a).version == Version::Known(1)));
        assert_eq!(bookings(&group)[..3], [70, 130, 100]);
    }
}

#[test]
fn reports_are_forgotten_by_a_partner_that_enters_error() {
    for leaves in [fail(4), trip(4)] {
        let mut group = all();
        save_up_to_reports(&mut group, 1);
        let counts = counted(&mut group, &[leaves]);
        assert_eq!([counts.passed_on, counts.forgotten], [0, 2]);
        assert!(owed(&group, 1).is_empty() && owed(&group, 4).is_empty());
        assert_eq!(answers(&mut group, &[one(6, 1), one(6, 2)]), [19, 19]);
        assert_eq!(ends(&settle(&mut group)), [false]);
        assert_eq!(group.cabinet(2).version, Version::Known(0));
    }
}

/// Steps of these kinds, and no deliver to one, until nothing more is taken.
fn drive_past(group: &mut Group, deaf: u8, kinds: &[u8]) {
    let numbers = 1..=group.size() as u8;
    let lines = numbers.clone().flat_map(|a| numbers.clone().map(move |b| (a, b)));
    let lines = lines.filter(|&(_, b)| b != deaf).map(|(a, b)| deliver(a, b));
    let singles = kinds.iter().flat_map(|&kind| numbers.clone().map(move |a| one(kind, a)));
    let records: Vec<Record> = lines.chain(singles).collect();
    while records.iter().any(|record| group.step(record, KINDS).answer == TAKEN) {}
}

/// 4 has its home at 3, so it comes back before its partner 5 has heard of anything.
#[test]
fn reports_on_its_cabinets_are_dropped_at_a_come_back() {
    let entries = [[4, 0, 0], [3, 0, 0], [3, 1, 0], [3, 1, 5], [5, 1, 4]];
    let links = [(1, 2), (2, 3), (2, 5), (3, 4)];
    let mut group = load(&file_with_stores(&entries, &links)).expect("the file is sound");
    save_up_to_reports(&mut group, 1);
    assert_eq!([owed(&group, 4), owed(&group, 5)], [[1], [5]]);
    assert_eq!(answers(&mut group, &[trip(4)]), [0]);
    assert_eq!(owed(&group, 5), [1, 5]);
    drive_past(&mut group, 5, &[7]);
    assert_eq!(group.cabinet(5).state, State::Checkpointed);
    let counts = counted(&mut group, &[one(8, 4)]);
    assert_eq!([counts.come_backs, counts.dropped], [1, 1]);
    assert_eq!(counts.come_backs_before_partner_knows, 1);
    assert_eq!(owed(&group, 5), [5]);
    assert!(owed(&group, 4).is_empty() && group.cabinet(4).present());
    assert_eq!(ends(&settle(&mut group)), [false]);
    save(&mut group, 1);
    assert_eq!(group.cabinet(5).version, Version::Known(1));
}

// ------------------------------------------------------------ coming back

#[test]
fn a_tripped_store_serves_nobody_until_it_reports() {
    let mut group = all();
    assert_eq!(answers(&mut group, &[trip(4)]), [0]);
    assert_eq!(homes(&group), [1; 4]);
    assert!(group.cabinet(4).working() && !group.cabinet(4).present());
    drive_past(&mut group, 0, &[7]);
    assert_eq!(states(&group), [State::Recovered; 4]);
    assert_eq!(homes(&group), [1; 4]);
    assert_eq!(answers(&mut group, &[one(8, 4)]), [0]);
    assert_eq!(homes(&group), [1, 4, 1, 4]);
    assert_eq!(ends(&settle(&mut group)), [false]);
}

/// The save that commits while 4 is away stands at 1 alone; 4 has it before 1 fails.
#[test]
fn a_store_that_comes_back_has_what_was_written_meanwhile() {
    let mut group = row();
    answers(&mut group, &[send(1, 2, 30), deliver(1, 2)]);
    let begun = [one(3, 1), deliver(1, 2), deliver(2, 1), deliver(2, 3), deliver(3, 2)];
    assert_eq!(answers(&mut group, &begun), [0; 5]);
    assert_eq!(answers(&mut group, &[deliver(3, 4), deliver(4, 3)]), [0; 2]);
    let writes = [2, 3, 4].map(|number| vec![one(5, number); 4]).concat();
    assert_eq!(answers(&mut group, &writes), [0; 12]);
    assert_eq!(answers(&mut group, &[trip(4)]), [0]);
    let written = counted(&mut group, &[one(5, 1); 4]).written;
    assert_eq!(written, BTreeMap::from([(Written::AtOneTheOtherAway, 4)]));
    assert_eq!([1, 4].map(|store| booked_in(group.slot_at(store, 1, 1))), [70, 0]);
    assert_eq!(answers(&mut group, &[1, 2, 3, 4].map(|number| one(6, number))), [0; 4]);
    assert_eq!(group.cabinet(1).version, Version::Known(1));
    assert_eq!(ends(&settle(&mut group)), [false]);
    assert_eq!([1, 4].map(|store| booked_in(group.slot_at(store, 1, 1))), [70; 2]);
    answers(&mut group, &[send(2, 1, 130), deliver(2, 1), trip(1)]);
    settle(&mut group);
    assert_eq!(bookings(&group), [70, 130, 100, 100]);
    assert_eq!(leads(&group), [2; 4]);
}

#[test]
fn the_last_report_brings_it_back_before_the_end() {
    let mut group = all();
    assert_eq!(answers(&mut group, &[trip(4)]), [0]);
    drive_past(&mut group, 0, &[7]);
    let counts = counted(&mut group, &[1, 2, 3, 4].map(|number| one(8, number)));
    assert_eq!([counts.come_backs, counts.come_backs_at_end], [1, 1]);
    assert_eq!(counts.recoveries_ended.values().sum::<u64>(), 0);
    assert_eq!(homes(&group), [1, 4, 1, 4]);
}

#[test]
fn pieces_of_one_image_may_come_from_both() {
    let mut group = all();
    let mut counter = Counter::new(&group);
    let mut step = |group: &mut Group, record: Record| counter.step(group, &record, KINDS).answer;
    assert_eq!(step(&mut group, trip(4)), TAKEN);
    while (1..=4).any(|a| (1..=4).any(|b| step(&mut group, deliver(a, b)) == TAKEN)) {}
    assert_eq!([2, 4, 4, 4, 4].map(|number| step(&mut group, one(7, number))), [TAKEN; 5]);
    assert_eq!(step(&mut group, one(8, 4)), TAKEN);
    assert_eq!([2, 2, 2].map(|number| step(&mut group, one(7, number))), [TAKEN; 3]);
    assert_eq!(group.cabinet(2).state, State::Recovered);
    let counts = counter.tally.partners;
    assert_eq!(counts.images_from_both, 1);
    assert!(counts.fetched.keys().eq(&[Fetched::AtHomeComeBack, Fetched::AtPartnerOneAway]));
}

// ------------------------------------------------------------ neither is left

fn crash(group: &mut Group, record: Record) -> PartnerCounts {
    let mut counter = Counter::new(group);
    assert_eq!(counter.step(group, &record, KINDS).answer, 50);
    counter.tally.partners
}

#[test]
fn the_group_crashes_when_neither_is_left() {
    for (leaves, how) in [(fail(1), Leaving::Fail), (trip(1), Leaving::Trip)] {
        let mut group = all();
        assert_eq!(answers(&mut group, &[fail(4)]), [0]);
        settle(&mut group);
        let counts = crash(&mut group, leaves);
        assert_eq!(counts.neither_left, BTreeMap::from([((how, Alone::PartnerFailed), 1)]));
        let mut group = all();
        assert_eq!(answers(&mut group, &[trip(4)]), [0]);
        let counts = crash(&mut group, leaves);
        assert_eq!(counts.neither_left, BTreeMap::from([((how, Alone::PartnerAway), 1)]));
        assert_eq!(answers(&mut group, &[leaves]), [10]);
    }
}

#[test]
fn a_store_of_nobody_that_has_no_partner_crashes_the_group() {
    let entries = [[1, 1, 2], [1, 1, 1], [1, 1, 0]];
    let mut group = load(&file_with_stores(&entries, ALL_OF_THREE)).expect("the file is sound");
    assert_eq!(answers(&mut group.clone(), &[fail(2)]), [0]);
    let counts = crash(&mut group, trip(3));
    assert_eq!(counts.neither_left, BTreeMap::from([((Leaving::Trip, Alone::NoPartner), 1)]));
}

#[test]
fn the_other_crash_cases_are_those_of_any_cabinet() {
    let mut group = row();
    assert_eq!(answers(&mut group, &[fail(4)]), [0]);
    let mut ring = paired(&[(1, 2), (1, 4), (2, 3), (3, 4)]);
    assert_eq!(answers(&mut ring, &[trip(4), fail(2)]), [0, 50]);
    let mut star = paired(&[(1, 2), (1, 3), (1, 4)]);
    let outcome = star.step(&trip(1), KINDS);
    assert_eq!(outcome.event, Event::Crash(Crash::CutOffByTrip));
    let mut star = paired(&[(1, 4), (2, 4), (3, 4)]);
    let outcome = star.step(&fail(4), KINDS);
    assert_eq!(outcome.event, Event::Crash(Crash::CutOffByFail));
    let mut star = paired(&[(1, 4), (2, 4), (3, 4)]);
    assert_eq!(answers(&mut star, &[trip(4)]), [0]);
}

#[test]
fn a_third_trip_of_a_store_is_its_fail() {
    let mut group = all();
    for _ in 0..2 {
        assert_eq!(answers(&mut group, &[trip(4)]), [0]);
        settle(&mut group);
        assert_eq!(homes(&group), [1, 4, 1, 4]);
    }
    let counts = counted(&mut group, &[trip(4)]);
    assert_eq!(counts.left, BTreeMap::from([((Leaving::ThirdTrip, true), 1)]));
    settle(&mut group);
    assert_eq!(group.cabinet(4).state, State::Failed);
    assert_eq!(homes(&group), [1; 4]);
    assert_eq!(crash(&mut group, trip(1)).neither_left.len(), 1);
}

// ------------------------------------------------------------ the lead goes round

#[test]
fn after_the_highest_the_lowest_leads() {
    let mut group = load(&file_with_stores(&[[1, 1, 2], [1, 1, 1]], &[(1, 2)])).expect("sound");
    assert_eq!(answers(&mut group, &[trip(1)]), [0]);
    settle(&mut group);
    assert_eq!(leads(&group), [2, 2]);
    let counts = counted(&mut group, &[trip(2)]);
    assert_eq!([counts.leads_gone_round, counts.leads_again], [1, 1]);
    settle(&mut group);
    assert_eq!(leads(&group), [1, 1]);
    assert_eq!(answers(&mut group, &[one(3, 2), one(3, 1)]), [14, 0]);
}

/// The marks that 2 has from its first decision are gone when it decides again.
#[test]
fn who_leads_again_has_no_marks_of_before() {
    let entries = [[1, 1, 2], [1, 1, 1]];
    let mut group = load(&file_with_stores(&entries, &[(1, 2)])).expect("the file is sound");
    let lose_in_save = |group: &mut Group, lead: u8, next: u8| {
        save_up_to_reports(group, lead);
        assert_eq!(answers(group, &[trip(lead)]), [0]);
        assert!(group.cabinet(usize::from(next)).waits());
        assert_eq!(answers(group, &[unsure(lead)]), [0]);
        assert!(group.cabinet(usize::from(next)).waits());
        let outcome = group.step(&unsure(next), KINDS);
        assert_eq!(outcome.event, Event::Decision { by: usize::from(next) });
        assert_eq!(ends(&settle(group)), [false]);
    };
    lose_in_save(&mut group, 1, 2);
    save(&mut group, 2);
    lose_in_save(&mut group, 2, 1);
    lose_in_save(&mut group, 1, 2);
}

// ------------------------------------------------------------ points and returns

#[test]
fn a_return_sets_the_slots_at_both_stores() {
    let mut group = all();
    let mut points = Points::default();
    assert_eq!(points.take(&group, [7; 8]), TAKEN);
    answers(&mut group, &[send(2, 1, 60), deliver(2, 1)]);
    save(&mut group, 1);
    assert_eq!(points.return_to(&mut group, [7; 8]), TAKEN);
    for (store, number) in [1, 4].into_iter().flat_map(|s| group.numbers().map(move |n| (s, n))) {
        assert_eq!([0, 1].map(|v| booked_in(group.slot_at(store, number, v))), [100; 2]);
    }
    assert_eq!(answers(&mut group, &[fail(4)]), [0]);
    settle(&mut group);
    assert_eq!(bookings(&group)[..3], [100; 3]);
}

#[test]
fn a_point_takes_what_the_home_has_then() {
    let mut group = all();
    let mut points = Points::default();
    assert_eq!(answers(&mut group, &[fail(4)]), [0]);
    settle(&mut group);
    answers(&mut group, &[send(2, 1, 60), deliver(2, 1)]);
    save(&mut group, 1);
    assert_eq!(points.take(&group, [7; 8]), TAKEN);
    let kept: Vec<u16> = points.images([7; 8]).unwrap_or_default().iter().map(booked_in).collect();
    assert_eq!(kept, [160, 40, 100, 100]);
}
