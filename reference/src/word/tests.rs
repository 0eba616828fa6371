//! Whose word it is, for which reason, how long it stays, and what is counted of it.

use super::*;
use crate::aim::Aim;
use crate::cases::{case_seed, make_case, plans::make_plan_case, words::make_word_case, Wishes};
use crate::evening::{operation, Evening, Operation, PLAN_RECORD_LENGTH};
use crate::model::{Packet, PacketVersion, KINDS};
use crate::points::Points;
use crate::testing::*;

fn printed(group: &Group) -> String {
    text_of(group.word())
}

/// The lines after each of these records, all of which are taken.
fn lines_after(group: &mut Group, records: &[Record]) -> Vec<String> {
    let each = |record: &Record| {
        assert_eq!(answers(group, &[*record]), [0]);
        printed(group)
    };
    records.iter().map(each).collect()
}

/// Three in a row; 2 has joined the save of 1 and waits for the checkp of 3.
fn row_with_second_in_checkp_begin() -> Group {
    let mut group = group(&[100, 50, 25], 3, ROW_OF_THREE);
    assert_eq!(answers(&mut group, &[one(3, 1), deliver(1, 2)]), [0; 2]);
    assert_eq!(group.cabinet(2).state, State::CheckpBegin);
    group
}

// ------------------------------------------------------------ reasons

#[test]
fn a_coordinator_that_knows_is_1_in_every_state() {
    let mut normal = three();
    assert_eq!(lines_after(&mut normal, &[fail(2)]), ["word 1 1\n"]);
    let mut begun = three();
    answers(&mut begun, &[one(3, 1)]);
    let mut cut = begun.clone();
    answers(&mut cut, &[deliver(1, 2), deliver(1, 3), deliver(2, 1), deliver(3, 1)]);
    let mut written = cut.clone();
    answers(&mut written, &[one(5, 1); 4]);
    let mut committed = three();
    save_up_to_commit(&mut committed, 1);
    let saving = [State::CheckpBegin, State::Checkpointing, State::Checkpointed, State::Normal];
    for (mut group, state) in [begun, cut, written, committed].into_iter().zip(saving) {
        assert_eq!(group.cabinet(1).state, state);
        assert_eq!(lines_after(&mut group, &[trip(2)]), ["word 1 1\n"]);
    }
}

#[test]
fn one_in_a_save_with_pieces_left_is_2() {
    let mut begun = row_with_second_in_checkp_begin();
    let mut cut = begun.clone();
    answers(&mut cut, &[deliver(2, 3), deliver(3, 2)]);
    assert_eq!(cut.cabinet(2).state, State::Checkpointing);
    let mut nearly_written = cut.clone();
    answers(&mut nearly_written, &[one(5, 2); 3]);
    for group in [&mut begun, &mut cut, &mut nearly_written] {
        assert_eq!(lines_after(group, &[fail(1)]), ["word 2 2\n"]);
    }
}

/// With its last piece written 2 does not know any more, and the word is that of 3.
#[test]
fn one_with_all_pieces_written_has_no_word() {
    let mut group = row_with_second_in_checkp_begin();
    answers(&mut group, &[deliver(2, 3), deliver(3, 2)]);
    answers(&mut group, &[one(5, 2); 4]);
    let lines = lines_after(&mut group, &[fail(1), deliver(2, 3), deliver(3, 2), deliver(3, 2)]);
    assert_eq!(lines, ["word 24\n", "word 3 2\n", "word 3 2\n", "word 3 2\n"]);
    assert_eq!(group.cabinet(2).state, State::Recovering);
}

/// It leads once the fault has come, but did not before.
#[test]
fn one_in_normal_is_3() {
    for lost in [fail(1), trip(1)] {
        let mut group = three();
        assert_eq!(lines_after(&mut group, &[lost]), ["word 2 3\n"]);
        assert_eq!(leads(&group)[1..], [2; 2]);
    }
    let mut resumed = three();
    save_up_to_commit(&mut resumed, 1);
    assert_eq!(lines_after(&mut resumed, &[deliver(1, 3), fail(1)]), ["word 24\n", "word 3 3\n"]);
}

#[test]
fn one_that_decided_is_4() {
    for (lost, reporters) in [(fail(1), &[3, 2][..]), (trip(1), &[2, 3, 1])] {
        let mut group = three();
        save_up_to_commit(&mut group, 1);
        assert_eq!(lines_after(&mut group, &[lost]), ["word 24\n"]);
        let (&last, before) = reporters.split_last().expect("some report");
        for &a in before {
            assert_eq!(lines_after(&mut group, &[unsure(a)]), ["word 24\n"]);
        }
        assert_eq!(lines_after(&mut group, &[unsure(last)]), ["word 2 4\n"]);
        assert_eq!(ends(&settle(&mut group)), [true]);
        assert_eq!(printed(&group), "word 2 4\n");
    }
}

/// Reports were made, but recover came first: from one that was in normal.
#[test]
fn reports_that_decide_nothing_are_no_reason() {
    let mut group = three();
    save_up_to_commit(&mut group, 1);
    let records = [deliver(1, 3), trip(1), unsure(1), unsure(2), deliver(3, 2), deliver(3, 2)];
    assert_eq!(lines_after(&mut group, &records)[1..], ["word 3 3\n"; 5]);
    assert_eq!(group.cabinet(2).state, State::Recovering);
}

// ------------------------------------------------------------ who led

#[test]
fn a_tripped_coordinator_is_never_1() {
    let mut normal = three();
    assert_eq!(lines_after(&mut normal, &[trip(1)]), ["word 2 3\n"]);
    settle(&mut normal);
    assert_eq!(printed(&normal), "word 2 3\n");
    let mut begun = row_with_second_in_checkp_begin();
    assert_eq!(lines_after(&mut begun, &[trip(1)]), ["word 2 2\n"]);
    settle(&mut begun);
    assert_eq!(printed(&begun), "word 2 2\n");
}

/// 2 leads since the trip of 1, which is the lowest again and has no more to say than others.
#[test]
fn the_one_that_the_table_names_led() {
    let mut group = four();
    answers(&mut group, &[trip(1)]);
    settle(&mut group);
    assert_eq!(leads(&group), [2; 4]);
    let mut back_at_the_lowest = group.clone();
    assert_eq!(lines_after(&mut back_at_the_lowest, &[fail(3)]), ["word 1 3\n"]);
    let mut lowest_lost = group.clone();
    assert_eq!(lines_after(&mut lowest_lost, &[trip(1)]), ["word 2 1\n"]);
    save_up_to_reports(&mut group, 2);
    assert_eq!(lines_after(&mut group, &[trip(1)]), ["word 2 1\n"]);
}

// ------------------------------------------------------------ the first of them

#[test]
fn of_several_in_one_step_the_lowest_has_the_word() {
    let mut group = four();
    assert_eq!(lines_after(&mut group, &[fail(1)]), ["word 2 3\n"]);
    assert_eq!(group.recovering_cabinets(), BTreeSet::from([2, 3, 4]));
}

/// 2 enters error in the same step as 3, but does not know.
#[test]
fn only_those_that_enter_recovering_count() {
    let mut group = three();
    answers(&mut group, &[one(3, 1), deliver(1, 2), deliver(1, 3), deliver(2, 3), deliver(3, 2)]);
    answers(&mut group, &[one(5, 2); 4]);
    let states_before = states(&group);
    assert_eq!(states_before[1..], [State::Checkpointed, State::Checkpointing]);
    assert_eq!(lines_after(&mut group, &[fail(1)]), ["word 3 2\n"]);
    assert_eq!(states(&group)[1..], [State::Error, State::Recovering]);
}

/// Lower numbers hear of it later, at last the coordinator.
#[test]
fn the_first_stays_over_later_entries() {
    let mut group = group(&[100, 50, 25, 12], 1, ROW_OF_FOUR);
    let lines = lines_after(&mut group, &[fail(4), deliver(3, 2), deliver(2, 1)]);
    assert_eq!(lines, ["word 3 3\n"; 3]);
    assert_eq!(states(&group)[..3], [State::Recovering; 3]);
    settle(&mut group);
    assert_eq!(states(&group)[..3], [State::Normal; 3]);
    assert_eq!(printed(&group), "word 3 3\n");
}

/// Two checkps are hurt; both faults are found before either is heard of.
#[test]
fn a_second_fault_before_the_end_belongs_to_the_first() {
    let mut group = four();
    let hurt = |to: u8| [11, 1, to, 0, 0, 1];
    let records = [one(3, 1), hurt(3), hurt(2), deliver(1, 3), deliver(1, 2)];
    let lines = lines_after(&mut group, &records);
    assert_eq!(lines[2..], ["word 24\n", "word 3 3\n", "word 3 3\n"]);
    let places = [3, 2].map(|a| group.cabinet(a).place());
    assert_eq!(places, [Some(Place::Link(1, 3)), Some(Place::Link(1, 2))]);
    assert_eq!(group.step(&deliver(2, 3), KINDS).answer, 50);
    assert_eq!(printed(&group), "word 10\n");
}

// ------------------------------------------------------------ how long it stays

#[test]
fn none_has_entered_yet() {
    let mut group = three();
    assert_eq!(printed(&group), "word 24\n");
    answers(&mut group, &[send(1, 2, 5), deliver(1, 2)]);
    save(&mut group, 1);
    assert_eq!(printed(&group), "word 24\n");
    save_up_to_commit(&mut group, 1);
    assert_eq!(lines_after(&mut group, &[fail(1)]), ["word 24\n"]);
    assert_eq!(states(&group)[1..], [State::Error; 2]);
}

#[test]
fn a_crash_hides_the_word() {
    let mut group = three();
    assert_eq!(lines_after(&mut group, &[fail(1)]), ["word 2 3\n"]);
    answers(&mut group, &[fail(3)]);
    assert_eq!(printed(&group), "word 10\n");
    let mut at_once = three();
    answers(&mut at_once, &[fail(3)]);
    assert_eq!(printed(&at_once), "word 10\n");
}

#[test]
fn the_word_stays_over_the_end_saves_and_returns() {
    let mut group = four();
    answers(&mut group, &[trip(2)]);
    assert_eq!(ends(&settle(&mut group)), [false]);
    let mut points = Points::default();
    assert_eq!(points.take(&group, [7; 8]), 0);
    save(&mut group, 1);
    assert_eq!(points.return_to(&mut group, [7; 8]), 0);
    assert_eq!(printed(&group), "word 1 1\n");
}

/// And until one has entered in the second, the word is that of the first.
#[test]
fn a_second_recovery_has_its_own_word() {
    let mut group = four();
    answers(&mut group, &[trip(3)]);
    assert_eq!(ends(&settle(&mut group)), [false]);
    assert_eq!(printed(&group), "word 1 1\n");
    save_up_to_commit(&mut group, 1);
    let records = [trip(1), unsure(1), unsure(4), unsure(3), unsure(2)];
    let lines = lines_after(&mut group, &records);
    assert_eq!(lines[..4], ["word 1 1\n"; 4]);
    assert_eq!(lines[4], "word 2 4\n");
    settle(&mut group);
    assert_eq!(lines_after(&mut group, &[fail(2)]), ["word 1 3\n"]);
}

// ------------------------------------------------------------ the line

#[test]
fn one_line_is_printed() {
    let file = group_file(PacketVersion::One, &[100, 50, 25], 3, ALL_OF_THREE);
    let of = |steps: &[u8]| word(&file, steps, KINDS);
    assert_eq!(word(&[], &fail(1), KINDS), "load 1\n");
    assert_eq!(word(&file[..20], &fail(1), KINDS), "load 3\n");
    assert_eq!(of(&[]), "word 24\n");
    assert_eq!(of(&fail(1)), "word 2 3\n");
    assert_eq!(of(&fail(1)[..5]), "word 24\n");
    assert_eq!(of(&[fail(1), fail(3)].concat()), "word 10\n");
    assert_eq!(of(&[&fail(1)[..], &fail(3)[..3]].concat()), "word 2 3\n");
    assert_eq!(word(&file, &trip(1), 12), "word 24\n");
}

#[test]
fn the_line_is_that_of_ten_thousand_records() {
    let file = group_file(PacketVersion::Two, &[100, 50, 25], 3, ALL_OF_THREE);
    let after = |refused: usize| [[0; 6].repeat(refused), fail(1).to_vec()].concat();
    assert_eq!(word(&file, &after(9_999), KINDS), "word 2 3\n");
    assert_eq!(word(&file, &after(10_000), KINDS), "word 24\n");
}

// ------------------------------------------------------------ what the history says

const WISHES: Wishes = Wishes { damage: true, highest_kind: KINDS, cabinets: None };

fn word_from_outside(watch: &WordWatch) -> Option<Word> {
    watch.recoveries.last().map(|recovery| recovery.word)
}

/// The note agrees with what the states tell, and nobody is first by a recover packet.
#[test]
fn the_word_is_what_the_steps_say_from_outside() {
    let mut words = 0;
    for index in 0..600 {
        let case = make_case(case_seed(17, index), WISHES);
        let Ok(mut group) = model::load(&case.group) else {
            continue;
        };
        let mut watch = WordWatch::new(&group);
        for record in case.steps.chunks(RECORD_LENGTH) {
            let aim = Aim::of(&group, record);
            let known = watch.recoveries.len();
            let event = group.step(record, KINDS).event;
            watch.after_step(&group, event);
            if group.crashed() {
                assert_eq!(group.word(), Err(10));
                break;
            }
            assert_eq!(group.word().ok(), word_from_outside(&watch));
            if watch.recoveries.len() > known {
                let packet = aim.and_then(|aim| aim.packet);
                assert!(!matches!(packet, Some(Packet::Recover(_))));
                let decided = matches!(event, Event::Decision { .. });
                let reason = group.word().map(|word| word.reason);
                assert_eq!(reason == Ok(Reason::Decided), decided);
                words += 1;
            }
        }
    }
    assert!(words > 500);
}

#[test]
fn points_and_returns_leave_the_word_as_it_is() {
    for index in 0..300 {
        let case = make_plan_case(case_seed(17, index), WISHES);
        let Ok(group) = model::load(&case.group) else {
            continue;
        };
        let mut evening = Evening::new(group, KINDS);
        for operation in case.steps.chunks(PLAN_RECORD_LENGTH).filter_map(operation) {
            let before = evening.group.word();
            evening.take(operation);
            let stays = evening.group.word() == before;
            assert!(stays || matches!(operation, Operation::Step(_)));
        }
    }
}

// ------------------------------------------------------------ the counts

fn counted(group: &mut Group, records: &[Record]) -> WordCounts {
    let mut watch = WordWatch::new(group);
    for record in records {
        let event = group.step(record, KINDS).event;
        watch.after_step(group, event);
    }
    let mut counts = WordCounts::default();
    counts.count_answer(&watch, group);
    counts
}

fn marks(counts: &BTreeMap<Mark, u64>) -> Vec<Mark> {
    counts.keys().copied().collect()
}

#[test]
fn several_at_once_are_counted() {
    let counts = counted(&mut four(), &[trip(1)]);
    assert_eq!(counts.answers, BTreeMap::from([(Sort::Settled(Reason::InNormal), 1)]));
    assert_eq!(counts.stood, BTreeMap::from([((Reason::InNormal, State::Normal), 1)]));
    let of_recovery =
        [Mark::SeveralAtOnce, Mark::Trip, Mark::TripOfTheLead, Mark::LeadsSinceTheFault];
    assert_eq!(marks(&counts.marks_of_recoveries), of_recovery);
    assert_eq!(marks(&counts.marks), [&of_recovery[..], &[Mark::UnderWay]].concat());
    assert_eq!(counts.recoveries, 1);
}

#[test]
fn later_entries_are_counted() {
    let mut row = group(&[100, 50, 25, 12], 1, ROW_OF_FOUR);
    let counts = counted(&mut row, &[fail(4), deliver(3, 2), deliver(2, 1)]);
    let later = [Mark::LaterEntry, Mark::LowerLater, Mark::OtherReasonLater, Mark::UnderWay];
    assert_eq!(marks(&counts.marks), later);
    let hurt = |to: u8| [11, 1, to, 0, 0, 1];
    let two_places = [one(3, 1), hurt(3), hurt(2), deliver(1, 3), deliver(1, 2)];
    let counts = counted(&mut four(), &two_places);
    let later = [Mark::LaterEntry, Mark::SecondPlace, Mark::LowerLater, Mark::UnderWay];
    assert_eq!(marks(&counts.marks), later);
}

#[test]
fn lines_without_a_word_are_counted() {
    let counts = counted(&mut three(), &[fail(1), fail(3)]);
    assert_eq!(counts.answers, BTreeMap::from([(Sort::Crashed, 1)]));
    assert_eq!(marks(&counts.marks), [Mark::Hidden]);
    assert!(counts.stood.is_empty() && counts.recoveries == 1);
    let mut unsure_of_all = three();
    save_up_to_commit(&mut unsure_of_all, 1);
    let counts = counted(&mut unsure_of_all, &[fail(1)]);
    assert_eq!(counts.answers, BTreeMap::from([(Sort::NoneYet, 1)]));
    assert_eq!(marks(&counts.marks), [Mark::NobodySince]);
}

#[test]
fn the_cases_reach_every_sort_and_mark() {
    let mut tally = Tally::default();
    for index in 0..600 {
        let case = make_word_case(case_seed(7, index), WISHES);
        tally.add(&counted_word(&case.group, &case.steps, KINDS).1);
    }
    let words = &tally.words;
    assert!(words.answers.keys().eq(&Sort::ALL) && words.answers.values().all(|&n| n > 15));
    assert!(words.stood.len() == 8 && words.stood.values().all(|&n| n > 5));
    assert!(words.marks.keys().eq(&Mark::ALL) && words.marks.values().all(|&n| n > 5));
}
