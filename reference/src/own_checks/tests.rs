//! Files of either version, packets with their own check, what damage does to them, what finds it,
//! and what is counted of it.

use super::*;
use crate::listing::Counter;
use crate::model::{crc_octets, load, Account, Charge, Check, Sign, State, KINDS};
use crate::testing::{
    answers, bookings, deliver, ends, fail, group_file, line, one, save, save_up_to_commit, send,
    settle, states, trip, unsure, Record, ALL_OF_THREE, ROW_OF_THREE,
};
use PacketVersion::{One, Two};

const BOTH: [PacketVersion; 2] = [One, Two];

fn file_of_three(version: PacketVersion) -> Vec<u8> {
    group_file(version, &[100, 50, 25], 3, ALL_OF_THREE)
}

/// Three cabinets, each linked to each; 3 is the store.
fn three(version: PacketVersion) -> Group {
    load(&file_of_three(version)).expect("the file is sound")
}

fn row_of_three(version: PacketVersion) -> Group {
    load(&group_file(version, &[100, 50, 25], 3, ROW_OF_THREE)).expect("the file is sound")
}

/// From 1 to 2, with the pattern shifted by octets and by bits.
fn damage(place: u8, octets: u8, bits: u8, pattern: u16) -> Record {
    let [high, low] = pattern.to_be_bytes();
    [11, 1, 2 | octets << 4, place | bits << 5, high, low]
}

fn lose(a: u8, b: u8, place: u8) -> Record {
    [12, a, b, place, 0, 0]
}

fn event(group: &mut Group, record: Record) -> Event {
    group.step(&record, KINDS).event
}

fn only_packet(group: &Group) -> Charge {
    match line(group, 1, 2)[..] {
        [Packet::Normal(charge)] => charge,
        _ => panic!("not one normal packet"),
    }
}

// ------------------------------------------------------------ load

#[test]
fn files_of_both_versions_load() {
    for version in BOTH {
        let group = three(version);
        assert_eq!(group.packet_version(), version);
        assert_eq!(bookings(&group), [100, 50, 25]);
        assert!(group.link_in_file(1, 2) && group.link_in_file(2, 3));
    }
}

fn refusal_with(version: PacketVersion, changes: &[(usize, u16)]) -> Option<u8> {
    let mut file = file_of_three(version);
    for &(offset, number) in changes {
        file[offset..offset + 2].copy_from_slice(&number.to_be_bytes());
    }
    load(&file).err()
}

#[test]
fn the_sixth_number_is_two() {
    for number in [0, 1, 3, 12, 0x0102, 0x0200, 65_535] {
        assert_eq!(refusal_with(Two, &[(10, number)]), Some(3));
    }
    assert_eq!(refusal_with(Two, &[(10, 2)]), None);
}

#[test]
fn a_file_of_one_version_is_not_read_as_the_other() {
    assert_eq!(refusal_with(One, &[(4, 12)]), Some(3));
    assert_eq!(refusal_with(Two, &[(4, 10)]), Some(3));
    for (version, [table, length]) in [(One, [39, 45]), (Two, [37, 43])] {
        assert_eq!(refusal_with(version, &[(6, table)]), Some(3));
        assert_eq!(refusal_with(version, &[(8, length)]), Some(3));
        assert_eq!(refusal_with(version, &[(6, table), (8, length)]), Some(3));
    }
    for other in [0, 2, 11, 13, 14, 0x0C00, 0x0C0C] {
        assert_eq!(refusal_with(One, &[(4, other)]), Some(3));
        assert_eq!(refusal_with(Two, &[(4, other)]), Some(3));
    }
}

#[test]
fn the_true_length_is_that_of_the_version() {
    let mut longer = file_of_three(One);
    longer.extend([0, 2]);
    assert_eq!(load(&longer).err(), Some(3));
    let mut shorter = file_of_three(Two);
    shorter.truncate(shorter.len() - 2);
    assert_eq!(load(&shorter).err(), Some(3));
}

/// The offsets and the length are right, so the octets after the header decide.
#[test]
fn two_octets_too_many_or_too_few_are_read_as_they_stand() {
    let mut file = file_of_three(One);
    file.extend([2, 3]);
    (file[5], file[7], file[9]) = (12, 39, 45);
    assert_eq!(load(&file).err(), Some(3));
    let mut file = file_of_three(Two);
    file.truncate(file.len() - 2);
    (file[5], file[7], file[9]) = (10, 37, 43);
    assert_eq!(load(&file).err(), Some(4));
}

#[test]
fn a_short_header_of_version_2_is_no_short_file() {
    for length in 10..=12 {
        let cut = &file_of_three(Two)[..length];
        assert_eq!(load(cut).err(), Some(3));
        let mut nine_cabinets = cut.to_vec();
        nine_cabinets[1] = 9;
        assert_eq!(load(&nine_cabinets).err(), Some(2));
    }
    assert_eq!(load(&file_of_three(Two)[..9]).err(), Some(1));
}

#[test]
fn entries_of_version_2_stand_two_octets_later() {
    for (version, start) in [(One, 10), (Two, 12)] {
        assert_eq!(refusal_with(version, &[(start, 0)]), Some(4));
        assert_eq!(refusal_with(version, &[(start + 27, 0x0201)]), Some(5));
        assert_eq!(refusal_with(version, &[(start + 2, 65_460)]), None);
        assert_eq!(refusal_with(version, &[(start + 2, 65_461)]), Some(7));
    }
    let cut_off = group_file(Two, &[100, 50, 25], 3, &[(1, 2)]);
    assert_eq!(load(&cut_off).err(), Some(6));
}

// ------------------------------------------------------------ packets and registers

#[test]
fn a_packet_of_version_2_carries_the_crc_of_its_first_three_octets() {
    assert_eq!(Charge::new(Two, Account::A, 7).own_check, Some(0xBC7B));
    assert_eq!(Charge::new(Two, Account::B, 7).own_check, Some(crc_octets(0xFFFF, &[1, 0, 7])));
    assert_eq!(Charge::new(One, Account::A, 7).own_check, None);
    let mut group = three(Two);
    assert_eq!(answers(&mut group, &[send(1, 2, 7)]), [0]);
    assert_eq!(only_packet(&group), Charge::new(Two, Account::A, 7));
}

#[test]
fn the_link_check_runs_over_all_octets_of_a_packet() {
    for (version, octets) in [(One, &[0, 0, 7][..]), (Two, &[0, 0, 7, 0xBC, 0x7B])] {
        let mut group = three(version);
        let sent = Check { crc: crc_octets(0xFFFF, octets), count: 1 };
        assert_eq!(answers(&mut group, &[send(1, 2, 7), one(3, 1)]), [0, 0]);
        assert_eq!(group.line(1, 2).packets[1], Packet::Checkp(sent));
        assert_eq!(answers(&mut group, &[deliver(1, 2)]), [0]);
        assert_eq!(group.checks(1, 2)[1], sent);
    }
}

/// Behind its own check a packet leaves the same in a register, whatever it carries: so only how
/// many there were is told, and no loss goes by the CRC unseen.
#[test]
fn in_version_2_a_register_tells_how_many_packets_ran_through_it() {
    let mut registers = Vec::new();
    let mut crc = 0xFFFF;
    for packets in 0..300 {
        assert!(!registers.contains(&crc), "after {packets} packets");
        registers.push(crc);
        let after = |amount: u16| {
            let [high, low] = amount.to_be_bytes();
            let check = crc_octets(0xFFFF, &[0, high, low]).to_be_bytes();
            crc_octets(crc, &[0, high, low, check[0], check[1]])
        };
        assert!((1..1000).all(|amount| after(amount) == after(0)));
        crc = after(0);
    }
}

#[test]
fn saves_commit_in_both_versions() {
    for version in BOTH {
        let mut group = three(version);
        let trade = [send(1, 2, 30), send(2, 3, 5), deliver(1, 2), send(1, 2, 1)];
        assert_eq!(answers(&mut group, &trade), [0; 4]);
        save(&mut group, 1);
        assert_eq!(bookings(&group), [69, 76, 30]);
    }
}

// ------------------------------------------------------------ what damage hits

#[test]
fn amount_and_check_are_one_number_under_the_pattern() {
    let sent = Charge::new(Two, Account::A, 7);
    let check = sent.own_check.expect("of version 2");
    let hits = [
        ((0, 0, 0x1234), (0, 0x1234)),
        ((2, 0, 0x1234), (0x1234, 0)),
        ((1, 0, 0x1234), (0x12, 0x3400)),
        ((0, 4, 0x1234), (0x1, 0x2340)),
        ((2, 7, 0x01FF), (0xFF80, 0)),
        ((1, 7, 0xFFFF), (0x7FFF, 0x8000)),
        ((0, 1, 0x8000), (1, 0)),
    ];
    for ((octets, bits, pattern), (amount, on_check)) in hits {
        let mut group = three(Two);
        let records = [send(1, 2, 7), damage(0, octets, bits, pattern)];
        assert_eq!(answers(&mut group, &records), [0, 0]);
        let hurt = Charge { amount: 7 ^ amount, own_check: Some(check ^ on_check), ..sent };
        assert_eq!(only_packet(&group), hurt);
    }
}

/// A burst of up to 16 bits never makes another packet that fits.
#[test]
fn no_damage_leaves_a_packet_that_fits() {
    for shift in 0..24 {
        for pattern in (1..=65_535).step_by(5).chain((0..16).map(|bit| 1 << bit)) {
            let burst = Burst { pattern, bits: shift % 8, octets: shift / 8 };
            if burst.on_four_octets().is_some() {
                assert!(!Charge::new(Two, Account::B, 500).hit_by(burst).fits());
            }
        }
    }
}

#[test]
fn in_version_1_only_the_amount_is_hit() {
    let mut group = three(One);
    assert_eq!(answers(&mut group, &[send(1, 2, 7), damage(0, 0, 0, 0x1234)]), [0, 0]);
    assert_eq!(only_packet(&group), Charge::new(One, Account::A, 7 ^ 0x1234));
}

#[test]
fn a_shifted_pattern_makes_a_fail_safe_packet_invalid() {
    let mut group = three(Two);
    assert_eq!(answers(&mut group, &[one(3, 1), damage(0, 2, 7, 1)]), [0, 0]);
    assert_eq!(line(&group, 1, 2), [Packet::Invalid]);
    assert!(!group.line(1, 2).hurt);
}

// ------------------------------------------------------------ refusals

#[test]
fn patterns_outside_the_four_octets_are_refused() {
    for (octets, bits, pattern, answer) in [
        (0, 0, 0, 15),
        (2, 3, 0, 15),
        (3, 0, 1, 15),
        (15, 7, 0xFFFF, 15),
        (2, 1, 0x8000, 15),
        (2, 1, 0x7FFF, 0),
        (2, 7, 0x0200, 15),
        (2, 7, 0x01FF, 0),
        (1, 7, 0xFFFF, 0),
        (2, 0, 0xFFFF, 0),
    ] {
        let mut group = three(Two);
        answers(&mut group, &[send(1, 2, 7)]);
        let before = only_packet(&group);
        assert_eq!(answers(&mut group, &[damage(0, octets, bits, pattern)]), [answer]);
        assert_eq!(only_packet(&group) == before, answer == 15);
        assert_eq!(group.line(1, 2).hurt, answer == 0);
        let mut group = three(Two);
        answers(&mut group, &[one(3, 1)]);
        assert_eq!(answers(&mut group, &[damage(0, octets, bits, pattern)]), [answer]);
    }
}

#[test]
fn version_1_takes_no_shift() {
    let mut group = three(One);
    answers(&mut group, &[send(1, 2, 7), one(3, 1)]);
    for place in [0, 1] {
        let shifted = [damage(place, 0, 1, 1), damage(place, 1, 0, 1), damage(place, 15, 7, 1)];
        assert_eq!(answers(&mut group, &shifted), [15; 3]);
    }
    assert_eq!(answers(&mut group, &[damage(1, 0, 0, 1), damage(0, 0, 0, 1)]), [0, 0]);
}

#[test]
fn damage_is_refused_in_order() {
    for version in BOTH {
        let mut group = row_of_three(version);
        answers(&mut group, &[send(1, 2, 7)]);
        let to = |b: u8, p: u8| [11, 1, b, p, 0, 0];
        for b in [0x00, 0x04, 0x0F, 0x30, 0xF0, 0xFF] {
            assert_eq!(answers(&mut group, &[to(b, 255)]), [11]);
        }
        assert_eq!(answers(&mut group, &[to(0xF3, 255), to(0xF1, 0), to(3, 0)]), [13; 3]);
        assert_eq!(answers(&mut group, &[to(0xF2, 255), to(0xF2, 33), to(2, 12)]), [18; 3]);
        assert_eq!(answers(&mut group, &[to(0xF2, 0), to(2, 224), to(2, 0)]), [15; 3]);
        assert_eq!(answers(&mut group, &[damage(0, 0, 0, 1), damage(0, 0, 0, 1)]), [0, 20]);
        assert_eq!(answers(&mut group, &[to(2, 0), damage(0, 3, 0, 1)]), [15, 15]);
    }
}

#[test]
fn a_damage_of_before_is_read_as_it_was() {
    for version in BOTH {
        let mut group = three(version);
        answers(&mut group, &[send(1, 2, 1); 4]);
        let records = [damage(31, 0, 0, 1), damage(4, 0, 0, 1), damage(3, 0, 0, 1)];
        assert_eq!(answers(&mut group, &records), [18, 18, 0]);
    }
}

#[test]
fn a_loss_reads_b_and_p_as_before() {
    let mut group = three(Two);
    answers(&mut group, &[send(1, 2, 7)]);
    assert_eq!(
        answers(&mut group, &[lose(1, 0x12, 0), lose(1, 2, 32), lose(1, 2, 0)]),
        [11, 18, 0]
    );
}

// ------------------------------------------------------------ what is found on taking

/// Hit in its amount, in its check, in both.
const HITS: [Record; 3] = [[11, 1, 0x22, 0, 0, 1], [11, 1, 2, 0, 0, 1], [11, 1, 0x12, 0, 1, 0x80]];

#[test]
fn a_hurt_packet_is_found_on_taking_and_the_group_recovers() {
    for hurt in HITS {
        let mut group = three(Two);
        save(&mut group, 1);
        answers(&mut group, &[send(2, 1, 3), deliver(2, 1), send(1, 2, 30), hurt]);
        let checks = group.checks(1, 2);
        assert_eq!(event(&mut group, deliver(1, 2)), Event::LinkFault(Sign::OwnCheck));
        assert_eq!(group.checks(1, 2), checks);
        assert_eq!(bookings(&group), [73, 47, 25]);
        assert_eq!(states(&group), [State::Normal, State::Recovering, State::Normal]);
        assert_eq!(ends(&settle(&mut group)), [false]);
        assert_eq!(states(&group), [State::Normal; 3]);
        assert_eq!(bookings(&group), [100, 50, 25]);
        assert!(!group.line(1, 2).hurt);
        assert_eq!(answers(&mut group, &[send(1, 2, 1), send(1, 3, 1)]), [13, 0]);
        save(&mut group, 1);
        assert_eq!(bookings(&group), [99, 50, 26]);
    }
}

#[test]
fn in_version_1_the_checkp_finds_it() {
    let mut group = three(One);
    answers(&mut group, &[send(1, 2, 30), damage(0, 0, 0, 1)]);
    assert_eq!(event(&mut group, deliver(1, 2)), Event::Added(Account::A));
    assert_eq!(bookings(&group), [70, 81, 25]);
    answers(&mut group, &[one(3, 1)]);
    assert_eq!(event(&mut group, deliver(1, 2)), Event::LinkFault(Sign::CheckValue));
    assert_eq!(ends(&settle(&mut group)), [false]);
    assert_eq!(bookings(&group), [100, 50, 25]);
}

#[test]
fn packets_before_a_hurt_one_are_added() {
    let mut group = three(Two);
    answers(&mut group, &[send(1, 2, 5), send(1, 2, 6), send(1, 2, 7), damage(1, 0, 0, 1)]);
    assert_eq!(event(&mut group, deliver(1, 2)), Event::Added(Account::A));
    assert_eq!(event(&mut group, deliver(1, 2)), Event::LinkFault(Sign::OwnCheck));
    assert_eq!(bookings(&group), [82, 55, 25]);
    assert_eq!(event(&mut group, deliver(1, 2)), Event::Nothing);
    assert_eq!(bookings(&group), [82, 55, 25]);
}

#[test]
fn it_is_found_in_checkp_begin() {
    let mut group = three(Two);
    answers(&mut group, &[send(1, 2, 30), damage(0, 0, 0, 1), one(3, 1)]);
    answers(&mut group, &[deliver(1, 3), deliver(3, 2)]);
    assert_eq!(group.cabinet(2).state, State::CheckpBegin);
    assert_eq!(event(&mut group, deliver(1, 2)), Event::LinkFault(Sign::OwnCheck));
    assert_eq!(ends(&settle(&mut group)), [false]);
    assert_eq!(bookings(&group), [100, 50, 25]);
}

#[test]
fn without_another_way_the_group_crashes_and_the_packet_stays() {
    let mut group = row_of_three(Two);
    answers(&mut group, &[send(1, 2, 30), damage(0, 0, 0, 1)]);
    let outcome = group.step(&deliver(1, 2), KINDS);
    let crash = Event::Crash(Crash::CutOffByLinkFault);
    assert_eq!(outcome, Outcome { answer: CRASHED, event: crash });
    assert_eq!(states(&group), [State::Crashed; 3]);
    assert_eq!(line(&group, 1, 2).len(), 1);
    assert_eq!(bookings(&group), [70, 50, 25]);
}

/// 3 trips in sight of 2, and 1 does not know of it yet.
#[test]
fn in_a_recovery_it_is_dropped() {
    let links = &[(1, 2), (1, 4), (2, 3), (3, 4)];
    let file = group_file(Two, &[100, 50, 25, 12], 4, links);
    let mut group = load(&file).expect("the file is sound");
    let records = [send(1, 2, 30), damage(0, 2, 0, 1), trip(3)];
    assert_eq!(answers(&mut group, &records), [0; 3]);
    assert_eq!(states(&group)[..2], [State::Normal, State::Recovering]);
    assert_eq!(event(&mut group, deliver(1, 2)), Event::Nothing);
    assert_eq!(ends(&settle(&mut group)), [false]);
    assert_eq!(bookings(&group), [100, 50, 25, 12]);
    assert!(!group.line(1, 2).hurt && group.cabinet(2).uses_line_to(1));
}

/// An invalid resume packet before it has struck the link.
#[test]
fn over_a_struck_link_it_is_dropped() {
    let mut group = three(Two);
    save_up_to_commit(&mut group, 1);
    let records = [send(1, 2, 30), damage(0, 1, 0, 1), damage(1, 0, 3, 1)];
    assert_eq!(answers(&mut group, &records), [0; 3]);
    assert_eq!(event(&mut group, deliver(1, 2)), Event::LinkFault(Sign::WrongPacket));
    assert_eq!(event(&mut group, deliver(1, 2)), Event::Nothing);
    assert_eq!(ends(&settle(&mut group)), [false]);
    assert_eq!(bookings(&group), [100, 50, 25]);
}

#[test]
fn a_loss_in_version_2_is_found_at_the_checkp() {
    let mut group = three(Two);
    let records = [send(1, 2, 30), send(1, 2, 5), lose(1, 2, 0), one(3, 1), deliver(1, 2)];
    assert_eq!(answers(&mut group, &records), [0; 5]);
    assert_eq!(bookings(&group), [65, 55, 25]);
    let [_, taken] = group.checks(1, 2);
    assert_eq!(taken.count, 1);
    let Packet::Checkp(sent) = group.line(1, 2).packets[0] else {
        panic!("no checkp");
    };
    assert_eq!(sent.count, 2);
    assert_eq!(event(&mut group, deliver(1, 2)), Event::LinkFault(Sign::CheckValue));
    assert_eq!(ends(&settle(&mut group)), [false]);
    assert_eq!(bookings(&group), [100, 50, 25]);
}

// ------------------------------------------------------------ the counts

fn counted(group: &mut Group, records: &[Record]) -> OwnCheckCounts {
    let mut counter = Counter::new(group);
    for record in records {
        counter.step(group, record, KINDS);
    }
    counter.tally.own_checks
}

#[test]
fn what_damage_hit_is_counted() {
    for (hurt, hit) in HITS.into_iter().zip([Hit::Amount, Hit::OwnCheck, Hit::Both]) {
        let records = [send(1, 2, 30), hurt, deliver(1, 2)];
        let counts = counted(&mut three(Two), &records);
        assert_eq!(counts.groups, BTreeMap::from([(Two, 1)]));
        assert_eq!(counts.hit, BTreeMap::from([((Two, hit), 1)]));
        assert_eq!(counts.found, BTreeMap::from([(Found::OnTaking(hit), 1)]));
        assert_eq!(counts.found_on_taking_in, BTreeMap::from([(State::Normal, 1)]));
        assert!(counts.crashes.is_empty() && counts.recoveries_ended.is_empty());
        let counts = counted(&mut row_of_three(Two), &records);
        assert_eq!(counts.crashes, BTreeMap::from([(Found::OnTaking(hit), 1)]));
    }
    let records = [send(1, 2, 30), damage(0, 0, 0, 1), deliver(1, 2), one(3, 1), deliver(1, 2)];
    let counts = counted(&mut three(One), &records);
    assert_eq!(counts.hit, BTreeMap::from([((One, Hit::Amount), 1)]));
    assert_eq!(counts.hurt_amounts_added, 1);
    assert_eq!(counts.found, BTreeMap::from([(Found::DamageAtCheckp(One), 1)]));
}

#[test]
fn only_the_damaged_packet_counts_as_a_hurt_amount() {
    let records = [send(1, 2, 5), send(1, 2, 6), send(1, 2, 7), damage(1, 0, 0, 1)];
    let mut group = three(One);
    let mut counter = Counter::new(&group);
    let delivers = [deliver(2, 1), deliver(1, 2), deliver(1, 2), deliver(1, 2), deliver(1, 2)];
    let mut added = Vec::new();
    for record in records.iter().chain(&delivers) {
        counter.step(&mut group, record, KINDS);
        added.push(counter.tally.own_checks.hurt_amounts_added);
    }
    assert_eq!(added[records.len()..], [0, 0, 1, 1, 1]);
}

#[test]
fn misfits_are_counted_by_their_reason() {
    let put = [send(1, 2, 30), one(3, 1)];
    let misfits =
        [damage(0, 0, 0, 0), damage(0, 3, 0, 1), damage(1, 2, 1, 0x8000), damage(1, 3, 0, 0)];
    let counts = counted(&mut three(Two), &[&put[..], &misfits].concat());
    let expected = [
        (Misfit::NoPattern, 1),
        (Misfit::OctetShiftAboveTwo, 1),
        (Misfit::OutsideTheFourOctets, 1),
        (Misfit::Several, 1),
    ];
    assert_eq!(counts.misfits, BTreeMap::from(expected));
    assert_eq!(counts.misfits_at_fail_safe, 2);
    assert_eq!(counts.refused_with_shift, BTreeMap::from([(15, 3)]));
    let shifted = [damage(0, 0, 1, 1), damage(0, 9, 1, 0), damage(9, 1, 0, 1)];
    let counts = counted(&mut three(One), &[&put[..], &shifted].concat());
    let expected = [(Misfit::ShiftInVersionOne, 1), (Misfit::Several, 1)];
    assert_eq!(counts.misfits, BTreeMap::from(expected));
    assert_eq!(counts.refused_with_shift, BTreeMap::from([(15, 2), (18, 1)]));
}

/// Every step that the group would take then, until it has nothing left to do.
fn settled(group: &Group) -> Vec<Record> {
    let mut group = group.clone();
    let numbers = 1..=group.size() as u8;
    let lines = numbers.clone().flat_map(|a| numbers.clone().map(move |b| deliver(a, b)));
    let singles = [5, 6, 7, 8].into_iter();
    let singles = singles.flat_map(|kind| numbers.clone().map(move |a| one(kind, a)));
    let records: Vec<Record> = lines.chain(singles).collect();
    let mut taken = Vec::new();
    while let Some(record) = records.iter().find(|r| group.step(*r, KINDS).answer == TAKEN) {
        taken.push(*record);
    }
    taken
}

#[test]
fn recoveries_and_commits_after_a_find_are_counted() {
    let mut group = three(Two);
    let mut counter = Counter::new(&group);
    let found = [send(1, 2, 30), HITS[1], deliver(1, 2)];
    for records in [&found[..], &[], &[one(3, 1)], &[], &[one(3, 1)], &[]] {
        let records = if records.is_empty() { settled(&group) } else { records.to_vec() };
        for record in records {
            counter.step(&mut group, &record, KINDS);
        }
    }
    assert_eq!(counter.tally.commits, 2);
    let once = BTreeMap::from([(Found::OnTaking(Hit::OwnCheck), 1)]);
    let counts = counter.tally.own_checks;
    assert_eq!((&counts.recoveries_ended, &counts.commits_after_recovery), (&once, &once));
}

#[test]
fn dropped_packets_are_counted_and_those_of_a_crashed_group_are_not() {
    let hurt = [send(1, 2, 30), HITS[0]];
    let mut group = three(Two);
    save_up_to_commit(&mut group, 1);
    let records = [send(1, 2, 30), damage(0, 1, 0, 1), damage(1, 0, 3, 1)];
    let counts = counted(&mut group, &[&records[..], &[deliver(1, 2); 2]].concat());
    assert_eq!(counts.dropped, BTreeMap::from([(Dropped::OverStruckLink, 1)]));
    assert_eq!(counts.fail_safe_hit, 1);
    let counts = counted(&mut three(Two), &[&hurt[..], &[fail(3), deliver(1, 2)]].concat());
    assert!(counts.dropped.is_empty());
    let links = &[(1, 2), (1, 4), (2, 3), (3, 4)];
    let file = group_file(Two, &[100, 50, 25, 12], 4, links);
    let mut group = load(&file).expect("the file is sound");
    let counts = counted(&mut group, &[&hurt[..], &[fail(3), unsure(2), deliver(1, 2)]].concat());
    assert_eq!(counts.dropped, BTreeMap::from([(Dropped::InRecovery, 1)]));
}

#[test]
fn mixed_files_are_told_apart() {
    let mixed = |version: PacketVersion, changes: &[(usize, u8)], length: isize| {
        let mut file = file_of_three(version);
        changes.iter().for_each(|&(offset, octet)| file[offset] = octet);
        file.resize(file.len().saturating_add_signed(length), 0);
        let refusal = load(&file).err().expect("the file is not sound");
        Mixed::of(&file, refusal)
    };
    assert_eq!(mixed(Two, &[(11, 1)], 0), Some(Mixed::SixthNumber));
    assert_eq!(mixed(Two, &[], -34), Some(Mixed::CutShort));
    assert_eq!(mixed(One, &[(5, 12)], -33), Some(Mixed::CutShort));
    assert_eq!(mixed(One, &[(5, 12)], 0), Some(Mixed::FirstOffset));
    assert_eq!(mixed(Two, &[(5, 10)], 0), Some(Mixed::FirstOffset));
    assert_eq!(mixed(One, &[], 2), Some(Mixed::TrueLength));
    assert_eq!(mixed(Two, &[], -2), Some(Mixed::TrueLength));
    assert_eq!(mixed(One, &[(7, 39)], 0), Some(Mixed::LaterNumbers));
    assert_eq!(mixed(Two, &[(9, 43)], -2), Some(Mixed::LaterNumbers));
    let as_entry = [(5, 10), (7, 37), (9, 43)];
    assert_eq!(mixed(Two, &as_entry, -2), Some(Mixed::SixthNumberAsEntry));
    assert_eq!(mixed(Two, &[(12, 0)], 0), None);
    assert_eq!(mixed(One, &[(5, 11)], 0), None);
    assert_eq!(mixed(One, &[], 1), None);
}
