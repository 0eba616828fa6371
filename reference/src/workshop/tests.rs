//! What is counted of the workshop.

use super::*;
use crate::listing::{counted_listing, Tally};
use crate::model::KINDS;
use crate::testing::{deliver, fail, one, trip, Record};
use PacketVersion::{One, Two};

/// Three cabinets, each linked to each; 3 is the store.
fn file(version: PacketVersion, bookings: [[u16; 3]; 3]) -> Vec<u8> {
    let [cabinet_table, link_table, length] = version.layout(3, 3);
    let header = [3, 3, cabinet_table, link_table, length, 2].map(|number| number as u16);
    let mut file: Vec<u8> = header.into_iter().flat_map(u16::to_be_bytes).collect();
    file.truncate(cabinet_table);
    for (number, booked) in (1..).zip(bookings) {
        file.extend([3, u8::from(number == 3)]);
        file.extend(booked.into_iter().flat_map(u16::to_be_bytes));
        file.push(0);
    }
    file.extend([1, 2, 1, 3, 2, 3]);
    file
}

const BOOKED: [[u16; 3]; 3] = [[10, 20, 40], [50, 6, 7], [8, 9, 65_000]];

fn tally(version: PacketVersion, records: &[Record]) -> Tally {
    counted_listing(&file(version, BOOKED), &records.concat(), KINDS).1
}

fn counts(version: PacketVersion, records: &[Record]) -> WorkshopCounts {
    tally(version, records).workshop
}

fn send(p: u8, amount: u8) -> Record {
    [1, 1, 2, p, 0, amount]
}

const DAMAGE: Record = [11, 1, 2, 0, 0, 1];
const LOSE: Record = [12, 1, 2, 0, 0, 0];

#[test]
fn totals_are_told_by_party() {
    let totals = |bookings: [[u16; 3]; 3]| {
        let file = file(One, bookings);
        counted_listing(&file, &[], KINDS).1.workshop.totals.into_keys().collect::<Vec<_>>()
    };
    assert_eq!(totals([[1, 2, 0], [3, 4, 0], [5, 6, 0]]), [Totals::NoneOfWorkshop]);
    assert_eq!(totals([[1, 2, 1], [3, 4, 0], [5, 6, 0]]), []);
    let full_of = |party| [Totals::FullOf(party), Totals::TogetherAbove];
    let full = [[65_000, 500, 1], [30, 4, 0], [1, 0, 0]];
    assert_eq!(totals(full), full_of(Party::Buses));
    assert_eq!(totals([[1, 0, 65_534], [0, 0, 0], [0, 0, 1]]), full_of(Party::Workshop));
    let both = [[65_535, 0, 0], [0, 0, 65_535], [0; 3]];
    assert_eq!(totals(both), [Totals::BothFull, Totals::TogetherAbove]);
}

#[test]
fn refused_totals_are_told_by_party() {
    let overbooked = |version, bookings: [[u16; 3]; 3]| {
        let (text, tally) = counted_listing(&file(version, bookings), &[], KINDS);
        assert_eq!(text, "load 7\n");
        tally.workshop.loads_refused.into_keys().collect::<Vec<_>>()
    };
    for version in [One, Two] {
        let by = |bookings| overbooked(version, bookings);
        assert_eq!(by([[65_535, 1, 9], [0; 3], [0; 3]]), [Overbooked::JustBy(Party::Buses)]);
        assert_eq!(by([[9, 9, 65_535], [0, 0, 1], [0; 3]]), [Overbooked::JustBy(Party::Workshop)]);
        assert_eq!(by([[65_535, 2, 0], [0; 3], [0; 3]]), [Overbooked::By(Party::Buses)]);
        assert_eq!(by([[0, 0, 65_535], [0, 0, 9], [0; 3]]), [Overbooked::By(Party::Workshop)]);
        assert_eq!(by([[65_535, 1, 65_535], [0, 0, 1], [0; 3]]), [Overbooked::ByBoth]);
    }
}

#[test]
fn full_lines_are_told_by_party() {
    let fill = |p: u8, count: usize| vec![send(p, 1); count];
    let records = [fill(4, 5), fill(0, 3), fill(3, 3), fill(4, 1)].concat();
    let counts = counts(One, &records);
    assert_eq!(counts.sends_taken, BTreeMap::from([(Party::Buses, 4), (Party::Workshop, 4)]));
    assert_eq!(counts.sends_beyond_four, BTreeMap::from([(Party::Buses, 4)]));
    assert_eq!(counts.lines_filled, 1);
    let full =
        [((Party::Buses, false), 2), ((Party::Workshop, false), 1), ((Party::Workshop, true), 1)];
    assert_eq!(counts.lines_full, BTreeMap::from(full));
}

#[test]
fn what_the_other_party_would_cover_is_told() {
    let counts = counts(One, &[send(0, 40), send(0, 41), send(4, 41), send(4, 30)]);
    assert_eq!(counts.otherwise_covered, BTreeMap::from([(Party::Buses, 1)]));
    let rich = file(One, [[30, 30, 40], [1; 3], [1; 3]]);
    let steps = [send(4, 60), send(4, 61), send(2, 40)].concat();
    let counts = counted_listing(&rich, &steps, KINDS).1.workshop;
    assert_eq!(counts.otherwise_covered, BTreeMap::from([(Party::Buses, 1), (Party::Workshop, 1)]));
}

#[test]
fn notes_about_the_bookings_end_are_told() {
    let note = |octet: u8, high: u8| [2, 1, 0, octet, high, 9];
    let counts = counts(One, &[note(3, 0), note(4, 0), note(5, 0), note(6, 0), note(5, 1)]);
    assert_eq!(counts.notes, BTreeMap::from([((4, 15), 1), ((5, 15), 1), ((6, 0), 1)]));
}

/// A save up to the checkp that tells the hurt.
fn found_by_checkp(hurt: Record) -> Vec<Record> {
    vec![send(4, 9), hurt, deliver(1, 2), one(3, 1), deliver(1, 2), deliver(1, 2)]
}

#[test]
fn hurts_are_told_by_what_finds_them() {
    let hurt = |version, record| counts(version, &found_by_checkp(record));
    let damaged = hurt(One, DAMAGE);
    assert_eq!(damaged.hurt, BTreeMap::from([((One, Hurt::Damaged), 1)]));
    assert_eq!(damaged.found, BTreeMap::from([(Found::ByCheckp(One, Hurt::Damaged), 1)]));
    for version in [One, Two] {
        let lost = hurt(version, LOSE);
        assert_eq!(lost.hurt, BTreeMap::from([((version, Hurt::Lost), 1)]));
        assert_eq!(lost.found, BTreeMap::from([(Found::ByCheckp(version, Hurt::Lost), 1)]));
    }
    let by_its_own = hurt(Two, DAMAGE);
    assert_eq!(by_its_own.found, BTreeMap::from([(Found::ByItsOwnCheck, 1)]));
    let of_buses = counts(Two, &[send(0, 9), DAMAGE, deliver(1, 2)]);
    assert!(of_buses.found.is_empty() && of_buses.hurt.is_empty());
}

#[test]
fn a_second_hurt_beside_the_other_partys_is_told() {
    let second = [12, 1, 2, 1, 0, 0];
    let first_of_workshop = counts(One, &[send(4, 9), send(0, 9), DAMAGE, second]);
    assert_eq!(first_of_workshop.refused_after_the_other, BTreeMap::from([(Party::Buses, 1)]));
    let of_one = counts(One, &[send(4, 9), send(4, 9), DAMAGE, second]);
    assert!(of_one.refused_after_the_other.is_empty());
}

#[test]
fn a_booking_that_wraps_is_told() {
    let hurt = [11, 1, 3, 0, 0xFF, 0];
    let records = [[1, 1, 3, 4, 0, 9], hurt, deliver(1, 3)];
    assert_eq!(counts(One, &records).wraps, 1);
    assert_eq!(counts(One, &[[1, 1, 3, 4, 0, 9], deliver(1, 3)]).wraps, 0);
}

#[test]
fn recoveries_and_trips_are_told() {
    let fetches = |a: u8| vec![one(7, a); 4];
    let ends = [fetches(3), fetches(1), vec![deliver(1, 3), deliver(3, 1), one(8, 3), one(8, 1)]];
    let moved = vec![[1, 3, 1, 4, 0, 9], deliver(3, 1)];
    let all = [moved, vec![fail(2)], ends.concat()].concat();
    let tally_of_all = tally(One, &all);
    assert_eq!(tally_of_all.recoveries_ended, 1);
    assert_eq!(tally_of_all.workshop.recoveries_changing, 1);
    let unmoved = tally(One, &all[2..]);
    assert_eq!((unmoved.recoveries_ended, unmoved.workshop.recoveries_changing), (1, 0));
    assert_eq!(counts(One, &[trip(2)]).trips, 1);
}
