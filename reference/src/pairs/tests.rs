//! The claim about pairs, and what made pairs reach.

use super::*;
use crate::cases::Wishes;
use crate::model::PacketVersion;
use crate::testing::{group_file, ALL_OF_THREE};

const WISHES: Wishes = Wishes { damage: true, highest_kind: KINDS, cabinets: None };

fn counts_of(form: Form, pairs: u64) -> PairCounts {
    let mut counts = PairCounts::default();
    for index in 0..pairs {
        let pair = make_pair(form, case_seed(17, index), WISHES);
        match check(form, &pair) {
            Ok(reached) => counts.add(&reached),
            Err(breach) => panic!("{}", claim_report(form, &pair, breach)),
        }
    }
    counts
}

#[test]
fn a_seed_makes_the_same_pair_again() {
    assert_eq!(make_pair(Form::Steps, 5, WISHES), make_pair(Form::Steps, 5, WISHES));
}

/// But for points and returns, which a list of steps has none of.
#[test]
fn pairs_of_steps_agree_and_reach_everything() {
    let counts = counts_of(Form::Steps, 400);
    let reached = |mark: &Reached| counts.reached_and_differ.contains_key(mark);
    let missed: Vec<Reached> = Reached::ALL.into_iter().filter(|mark| !reached(mark)).collect();
    assert_eq!(missed, [Reached::Point, Reached::Return]);
    assert_eq!(counts.versions.len(), 2);
}

#[test]
fn pairs_of_plans_agree_and_reach_everything() {
    let counts = counts_of(Form::Plan, 300);
    let reached = |mark: &Reached| counts.reached_and_differ.contains_key(mark);
    let missed: Vec<Reached> = Reached::ALL.into_iter().filter(|mark| !reached(mark)).collect();
    assert_eq!(missed, []);
}

#[test]
fn pairs_for_the_word_agree() {
    assert_eq!(counts_of(Form::Word, 300).pairs, 300);
}

/// Without the count a lost 17,789 would show in one run only: its CRC is that of no packet.
#[test]
fn a_loss_that_one_crc_does_not_see_is_found_in_both() {
    let mut group = group_file(PacketVersion::One, &[9, 9, 9], 3, ALL_OF_THREE);
    group[16..18].copy_from_slice(&20_000_u16.to_be_bytes());
    let rest = [[12, 1, 2, 0, 0, 0], [3, 1, 0, 0, 0, 0], [4, 1, 2, 0, 0, 0]].concat();
    let run = |amount: u16| {
        let [high, low] = amount.to_be_bytes();
        [&[1, 1, 2, WORKSHOP_P, high, low], &rest[..]].concat()
    };
    let counts = check(Form::Steps, &Pair { group, runs: [run(17_789), run(1)] });
    let reached = counts.expect("the runs agree").reached;
    assert!(reached.contains_key(&Reached::LossSilentInOne));
    assert!(reached.contains_key(&Reached::LinkFault));
}

fn breach_of(one: &[[u8; 6]], other: &[[u8; 6]]) -> Option<Breach> {
    let group = group_file(PacketVersion::One, &[9, 9], 2, &[(1, 2)]);
    let pair = Pair { group, runs: [one.concat(), other.concat()] };
    check(Form::Steps, &pair).err()
}

#[test]
fn what_is_no_pair_is_told() {
    let not_a_pair = |record| Some(Breach { record, what: Broken::NotAPair });
    let send = |p: u8, amount: u8| [1, 1, 2, p, 0, amount];
    assert_eq!(breach_of(&[send(0, 1)], &[send(0, 1)]), None);
    assert_eq!(breach_of(&[send(0, 1)], &[send(0, 2)]), not_a_pair(1));
    assert_eq!(breach_of(&[send(0, 1)], &[]), not_a_pair(1));
    assert_eq!(breach_of(&[send(0, 1), send(4, 1)], &[send(0, 1), send(4, 1)]), not_a_pair(2));
}

/// Two cabinets, of which the first has booked so much at A, at B and for the workshop, and has
/// taken a note.
fn evening_with(bookings: [u16; 3], note: u8) -> Evening {
    let mut file = group_file(PacketVersion::Two, &[9, 9], 2, &[(1, 2)]);
    let bookings: Vec<u8> = bookings.into_iter().flat_map(u16::to_be_bytes).collect();
    file[14..20].copy_from_slice(&bookings);
    let mut evening = Evening::new(model::load(&file).expect("the file is sound"), KINDS);
    evening.take(Operation::Step([2, 1, 0, 6, 0, note]));
    evening
}

#[test]
fn only_the_workshops_booking_may_differ() {
    let differ = |bookings, note| {
        let evenings = [evening_with([9, 9, 9], 9), evening_with(bookings, note)];
        Twins { evenings, checkps_differ: false }.agree()
    };
    assert_eq!(differ([9, 9, 8], 9), Ok(()));
    assert_eq!(differ([8, 9, 9], 9), Err(Broken::Groups));
    assert_eq!(differ([9, 8, 9], 9), Err(Broken::Groups));
    assert_eq!(differ([9, 9, 9], 8), Err(Broken::Groups));
}

#[test]
fn packets_may_differ_in_the_workshops_amounts_alone() {
    let sent = |p: u8, amount: u8, damage: Option<u8>| {
        let mut evening = evening_with([9, 9, 9], 9);
        evening.take(Operation::Step([1, 1, 2, p, 0, amount]));
        damage.map(|bits| evening.take(Operation::Step([11, 1, 2, 0, 0, bits])));
        evening.take(Operation::Step([3, 1, 0, 0, 0, 0]));
        evening.group.but_for_amounts()
    };
    assert!(sent(4, 1, None) == sent(4, 2, None));
    assert!(sent(0, 1, None) != sent(0, 2, None));
    assert!(sent(4, 1, None) != sent(4, 1, Some(1)));
    assert!(sent(4, 1, Some(1)) == sent(4, 2, Some(3)));
    assert!(sent(4, 1, None) != sent(0, 1, None));
}

#[test]
fn the_last_booking_of_a_line_is_left_out() {
    let one = "step 1 0\ncab 1 normal 0 1 2 3\ncab 2 failed\n";
    assert!(agree_but_for_workshop(one, &one.replace(" 3\n", " 45\n")));
    assert!(!agree_but_for_workshop(one, &one.replace(" 2 3", " 4 3")));
    assert!(!agree_but_for_workshop(one, &one.replace("step 1 0", "step 1 1")));
    assert!(!agree_but_for_workshop("word 1 2\n", "word 1 3\n"));
}
