//! What a loss does, what finds it, and what is counted of it.

use super::*;
use crate::listing::{counted_listing, Counter};
use crate::model::{load, Account, Charge, Check, Group, Sign, State, KINDS};
use crate::testing::{answers, bookings, deliver, one, send, settle, settle_until, Record};

/// A damage or a loss on the line from a to b.
type HurtAt = fn(u8, u8, u8) -> Record;

const START: Check = Check { crc: 0xFFFF, count: 0 };

/// All that the CRC does not see of outlet A at a fresh register.
const SILENT: u16 = 25_919;

/// Three cabinets, each linked to each, so that any link may be struck; 3 is the store.
fn file_of_three(bookings: [u16; 3]) -> Vec<u8> {
    let mut file = vec![0, 3, 0, 3, 0, 10, 0, 37, 0, 43];
    for (index, booking) in bookings.into_iter().enumerate() {
        let [high, low] = booking.to_be_bytes();
        file.extend_from_slice(&[3, u8::from(index == 2), high, low, 0, 0, 0, 0, 0]);
    }
    file.extend_from_slice(&[1, 2, 1, 3, 2, 3]);
    file
}

/// Two cabinets with one link, the second the store.
fn file_of_two(bookings: [u16; 2]) -> Vec<u8> {
    let [[a, b], [c, d]] = bookings.map(u16::to_be_bytes);
    let header = [0, 2, 0, 1, 0, 10, 0, 28, 0, 30];
    let entries = [[2, 0, a, b, 0, 0, 0, 0, 0], [2, 1, c, d, 0, 0, 0, 0, 0]];
    [&header[..], &entries.concat(), &[1, 2]].concat()
}

fn three(bookings: [u16; 3]) -> Group {
    load(&file_of_three(bookings)).expect("the file is sound")
}

fn damage(a: u8, b: u8, place: u8) -> Record {
    [11, a, b, place, 0, 1]
}

fn lose(a: u8, b: u8, place: u8) -> Record {
    [12, a, b, place, 0, 0]
}

fn save(group: &mut Group) -> Vec<Event> {
    assert_eq!(answers(group, &[one(3, 1)]), [0]);
    settle(group)
}

fn amounts(group: &Group, from: Number, to: Number) -> Vec<u16> {
    let amount = |packet: &Packet| match packet {
        Packet::Normal(Charge { amount, .. }) => *amount,
        _ => panic!("no normal packet"),
    };
    group.line(from, to).packets.iter().map(amount).collect()
}

// ------------------------------------------------------------ what is found

#[test]
fn the_count_finds_what_the_crc_does_not_see() {
    let mut group = three([30_000, 50, 25]);
    assert_eq!(answers(&mut group, &[send(1, 2, SILENT), lose(1, 2, 0)]), [0, 0]);
    let [sent, taken] = group.checks(1, 2);
    assert_eq!((sent.crc, taken.crc), (START.crc, START.crc));
    assert_eq!((sent.count, taken.count), (1, 0));
    let events = save(&mut group);
    assert!(events.contains(&Event::LinkFault(Sign::CheckValue)));
    assert!(!events.contains(&Event::Commit));
    assert_eq!(bookings(&group), [30_000, 50, 25]);
    assert_eq!(save(&mut group).iter().filter(|&&event| event == Event::Commit).count(), 1);
}

/// The same as a whole listing: the group of two has no other way round.
#[test]
fn a_silent_loss_crashes_a_group_of_two() {
    let steps = [send(1, 2, SILENT), lose(1, 2, 0), one(3, 1), deliver(1, 2)].concat();
    let (text, tally) = counted_listing(&file_of_two([30_000, 50]), &steps, KINDS);
    let cabinets = "cab 1 crashed 0 4081 0 0\ncab 2 crashed 0 50 0 0\n";
    assert_eq!(text, format!("step 1 0\nstep 2 0\nstep 3 0\nstep 4 50\n{cabinets}"));
    assert_eq!(tally.losses.found, BTreeMap::from([(Finding::CountAlone, 1)]));
}

#[test]
fn a_silent_loss_between_others_is_found() {
    for place in 0..3 {
        let mut group = three([65_000, 50, 25]);
        for index in 0..3 {
            let [sent, _] = group.checks(1, 2);
            let silent = crate::cases::losses::silent_amount(sent.crc, Account::A);
            let amount = if index == place { silent } else { 7 };
            assert_eq!(answers(&mut group, &[send(1, 2, amount)]), [0]);
        }
        assert_eq!(answers(&mut group, &[lose(1, 2, place)]), [0]);
        let delivers = [deliver(1, 2), deliver(1, 2), one(3, 1)];
        assert_eq!(answers(&mut group, &delivers), [0; 3]);
        let Packet::Checkp(sent) = group.line(1, 2).packets[0] else {
            panic!("no checkp");
        };
        assert_eq!(sent.crc, group.checks(1, 2)[1].crc);
        assert!(!settle(&mut group).contains(&Event::Commit));
    }
}

#[test]
fn nothing_lost_is_nothing_found() {
    let mut group = three([30_000, 50, 25]);
    assert_eq!(answers(&mut group, &[send(1, 2, SILENT), deliver(1, 2)]), [0, 0]);
    assert!(save(&mut group).contains(&Event::Commit));
    assert_eq!(bookings(&group), [30_000 - SILENT, 50 + SILENT, 25]);
}

// ------------------------------------------------------------ when the count runs

#[test]
fn the_count_runs_and_restarts_with_the_crc() {
    let mut group = three([100, 50, 25]);
    answers(&mut group, &[send(1, 2, 5), send(1, 2, 6), deliver(1, 2)]);
    let counts = |group: &Group, from, to| group.checks(from, to).map(|check| check.count);
    assert_eq!(counts(&group, 1, 2), [2, 1]);
    assert_eq!(counts(&group, 2, 1), [0, 0]);
    answers(&mut group, &[one(3, 1)]);
    assert_eq!(group.checks(1, 2)[0], START);
    answers(&mut group, &[deliver(1, 2)]);
    assert_eq!(counts(&group, 1, 2), [0, 2]);
    answers(&mut group, &[deliver(1, 2)]);
    assert_eq!(group.checks(1, 2), [START; 2]);
}

#[test]
fn a_refused_or_dropped_packet_is_not_counted() {
    let mut group = three([100, 50, 25]);
    assert_eq!(answers(&mut group, &[send(1, 2, 101), send(1, 2, 0)]), [16, 15]);
    assert_eq!(group.checks(1, 2), [START; 2]);
    let records = [send(3, 2, 5), one(3, 1), damage(1, 2, 0), deliver(1, 2), deliver(3, 2)];
    assert_eq!(answers(&mut group, &records), [0; 5]);
    assert_eq!(group.cabinet(2).state, State::Recovering);
    assert_eq!(group.checks(3, 2).map(|check| check.count), [1, 0]);
}

#[test]
fn entering_recovered_restarts_both_ways() {
    let mut group = three([100, 50, 25]);
    let trade = [send(1, 3, 5), send(3, 1, 6), send(3, 1, 7), deliver(3, 1), deliver(1, 3)];
    assert_eq!(answers(&mut group, &trade), [0; 5]);
    answers(&mut group, &[one(10, 2)]);
    assert_eq!(answers(&mut group, &[one(7, 3), one(7, 3), one(7, 3)]), [0; 3]);
    assert_ne!(group.checks(3, 1)[0], START);
    assert_ne!(group.checks(1, 3)[1], START);
    assert_eq!(answers(&mut group, &[one(7, 3)]), [0]);
    assert_eq!(group.cabinet(3).state, State::Recovered);
    assert_eq!((group.checks(3, 1)[0], group.checks(1, 3)[1]), (START, START));
    assert_ne!(group.checks(3, 1)[1], START);
    assert_ne!(group.checks(1, 3)[0], START);
    settle(&mut group);
    assert_eq!([group.checks(1, 3), group.checks(3, 1)], [[START; 2]; 2]);
}

/// Each save with another number of packets, and a recovery between them.
#[test]
fn saves_commit_whatever_was_counted_before() {
    let mut group = three([100, 50, 25]);
    for packets in [3, 0, 1, 2] {
        answers(&mut group, &vec![send(1, 2, 1); packets]);
        assert!(save(&mut group).contains(&Event::Commit));
        answers(&mut group, &[send(2, 1, 1); 5]);
        settle(&mut group);
    }
    assert_eq!(answers(&mut group, &[send(1, 3, 1), lose(1, 3, 0)]), [0, 0]);
    assert!(!save(&mut group).contains(&Event::Commit));
    answers(&mut group, &[send(1, 2, 1), send(2, 3, 1)]);
    assert!(save(&mut group).contains(&Event::Commit));
}

// ------------------------------------------------------------ what a loss does

#[test]
fn packets_behind_a_lost_one_move_up() {
    for (place, left) in [(0, [6, 7]), (1, [5, 7]), (2, [5, 6])] {
        let mut group = three([100, 50, 25]);
        let sends = [5, 6, 7].map(|amount| send(1, 2, amount));
        assert_eq!(answers(&mut group, &sends), [0; 3]);
        assert_eq!(answers(&mut group, &[lose(1, 2, place)]), [0]);
        assert_eq!(amounts(&group, 1, 2), left);
        assert_eq!(answers(&mut group, &[deliver(1, 2); 3]), [0, 0, 18]);
        assert_eq!(bookings(&group), [82, 50 + left[0] + left[1], 25]);
    }
}

#[test]
fn a_lost_packet_leaves_its_place_to_another() {
    let mut group = three([100, 50, 25]);
    assert_eq!(answers(&mut group, &[send(1, 2, 1); 5])[3..], [0, 17]);
    let records = [lose(1, 2, 3), send(1, 2, 2), send(1, 2, 2)];
    assert_eq!(answers(&mut group, &records), [0, 0, 17]);
}

#[test]
fn one_hurt_for_each_line() {
    let pairs: [[HurtAt; 2]; 3] = [[lose, lose], [lose, damage], [damage, lose]];
    for [first, second] in pairs {
        let mut group = three([100, 50, 25]);
        answers(&mut group, &[send(1, 2, 5), send(1, 2, 6), send(1, 2, 7), send(2, 1, 8)]);
        assert_eq!(answers(&mut group, &[first(1, 2, 1)]), [0]);
        let before = amounts(&group, 1, 2);
        assert_eq!(answers(&mut group, &[second(1, 2, 0), second(1, 2, 1)]), [20, 20]);
        assert_eq!(amounts(&group, 1, 2), before);
        assert_eq!(answers(&mut group, &[second(2, 1, 0)]), [0]);
    }
}

#[test]
fn the_mark_of_a_loss_asks_nothing_of_fail_safe_packets_and_ends_with_recovered() {
    let mut group = three([100, 50, 25]);
    let records = [send(1, 2, 5), send(1, 2, 6), lose(1, 2, 0), one(3, 1), damage(1, 2, 1)];
    assert_eq!(answers(&mut group, &records), [0; 5]);
    assert_eq!(group.line(1, 2).packets[1], Packet::Invalid);
    assert!(group.line(1, 2).hurt);
    settle(&mut group);
    assert!(!group.line(1, 2).hurt);
}

#[test]
fn fail_safe_packets_are_not_lost() {
    let mut group = three([100, 50, 25]);
    answers(&mut group, &[one(3, 1)]);
    let kept = |group: &mut Group, line: (u8, u8), packets: usize| {
        let (from, to) = (usize::from(line.0), usize::from(line.1));
        assert_eq!(group.line(from, to).packets.len(), packets);
        for place in 0..packets as u8 {
            assert_eq!(answers(group, &[lose(line.0, line.1, place)]), [18]);
        }
        assert_eq!(group.line(from, to).packets.len(), packets);
        assert!(!group.line(from, to).hurt);
    };
    kept(&mut group, (1, 2), 1); // checkp
    answers(&mut group, &[damage(1, 2, 0)]);
    kept(&mut group, (1, 2), 1); // invalid
    answers(&mut group, &[deliver(1, 2)]);
    assert_eq!(group.cabinet(2).state, State::Recovering);
    kept(&mut group, (2, 3), 2); // fault and recover
    let mut group = three([100, 50, 25]);
    answers(&mut group, &[one(3, 1)]);
    settle_until(&mut group, |event| event == Event::Commit);
    kept(&mut group, (1, 2), 1); // resume
}

// ------------------------------------------------------------ refusals and the crash

#[test]
fn a_loss_is_refused_in_order() {
    let mut group = load(&file_of_two([100, 50])).expect("the file is sound");
    answers(&mut group, &[send(1, 2, 5)]);
    assert_eq!(group.step(&lose(1, 2, 0), 11).answer, 8);
    let records =
        [[12, 9, 9, 9, 0, 1], [12, 1, 2, 0, 1, 0], lose(9, 1, 0), lose(1, 0, 0), lose(1, 1, 0)];
    assert_eq!(answers(&mut group, &records), [9, 9, 11, 11, 13]);
    let records = [lose(1, 2, 1), lose(1, 2, 255), lose(2, 1, 0), lose(1, 2, 0), lose(1, 2, 0)];
    assert_eq!(answers(&mut group, &records), [18, 18, 18, 0, 18]);
    let crashed = [one(10, 2), [12, 1, 2, 0, 0, 1], lose(9, 9, 0)];
    assert_eq!(answers(&mut group, &crashed), [50, 9, 10]);
}

#[test]
fn a_failed_cabinet_loses_nothing() {
    let mut group = three([100, 50, 25]);
    answers(&mut group, &[send(1, 2, 5), one(10, 2)]);
    assert_eq!(answers(&mut group, &[lose(2, 1, 0), lose(2, 2, 0), lose(1, 2, 0)]), [12, 12, 18]);
}

#[test]
fn a_loss_in_a_recovery_crashes_and_leaves_the_packet() {
    let mut group = three([100, 50, 90]);
    let records = [send(3, 1, 5), send(3, 1, 6), send(3, 2, 7), lose(3, 2, 0), send(3, 2, 8)];
    assert_eq!(answers(&mut group, &records), [0; 5]);
    let records = [send(1, 2, 9), one(3, 1), damage(1, 2, 1), deliver(1, 2), deliver(1, 2)];
    assert_eq!(answers(&mut group, &records), [0; 5]);
    assert_eq!(group.cabinet(2).state, State::Recovering);
    let refused = [lose(3, 1, 2), lose(2, 3, 0), lose(3, 2, 0), damage(3, 2, 0)];
    assert_eq!(answers(&mut group, &refused), [18, 18, 20, 20]);
    let outcome = group.step(&lose(3, 1, 0), KINDS);
    assert_eq!(outcome, Outcome { answer: 50, event: Event::Crash(Crash::LossInRecovery) });
    assert_eq!(amounts(&group, 3, 1), [5, 6]);
    assert!(!group.line(3, 1).hurt);
    assert_eq!(group.cabinet(3).state, State::Crashed);
}

// ------------------------------------------------------------ the counts

fn counted(group: &mut Group, records: &[Record]) -> LossCounts {
    let mut counter = Counter::new(group);
    for record in records {
        counter.step(group, record, KINDS);
    }
    counter.tally.losses
}

#[test]
fn losses_are_told_from_damage() {
    let sends = [send(1, 2, 5), send(1, 2, 6), send(2, 1, 7), send(2, 1, 8)];
    let hurts = [lose(1, 2, 0), lose(1, 2, 0), damage(1, 2, 0), damage(2, 1, 0)];
    let more = [lose(2, 1, 1), damage(2, 1, 1), lose(2, 1, 2), one(3, 1), lose(1, 2, 1)];
    let found = [deliver(2, 1), deliver(2, 1), deliver(1, 2), deliver(1, 2)];
    let records = [&sends[..], &hurts, &more, &found].concat();
    let counts = counted(&mut three([100, 50, 25]), &records);
    assert_eq!((counts.taken, counts.taken_before_others), (1, 1));
    let refused = [
        (Refused::NothingThere, 1),
        (Refused::FailSafeThere, 1),
        (Refused::AfterDamage, 1),
        (Refused::AfterLoss, 1),
    ];
    assert_eq!(counts.refused, BTreeMap::from(refused));
    assert_eq!(counts.damage_refused, 1);
    assert_eq!(counts.found, BTreeMap::from([(Finding::Crc, 1)]));
}
