//! Chronicles worked out by hand, what the page says of every row, and what is counted.

use super::reading::{rows, Row, HEADER_LENGTH};
use super::*;
use crate::model::{decode, load, CRASHED, KINDS};
use crate::testing::*;

mod made;

// ------------------------------------------------------------ runs and their rows

/// A group, and the records that it has taken so far.
struct Script {
    file: Vec<u8>,
    group: Group,
    records: Vec<Record>,
}

impl Script {
    fn new(file: Vec<u8>) -> Script {
        let group = load(&file).expect("the file is sound");
        Script { file, group, records: Vec::new() }
    }

    /// Three cabinets, each linked to each; 3 is the store.
    fn of_three() -> Script {
        Script::new(group_file(PacketVersion::One, &[100, 50, 25], 3, ALL_OF_THREE))
    }

    fn of_row(bookings: &[u16], store: u8, links: &[(u8, u8)]) -> Script {
        Script::new(group_file(PacketVersion::One, bookings, store, links))
    }

    /// All of which are taken, the last one maybe with a crash.
    fn take(&mut self, records: &[Record]) {
        for record in records {
            let answer = self.group.step(record, KINDS).answer;
            assert!([TAKEN, CRASHED].contains(&answer), "{record:?} answers {answer}");
            self.records.push(*record);
        }
    }

    /// Delivers, and where nothing is in the lines writes, reports and fetches, until nothing more
    /// is taken or the group is as wished; answers the number of the last record.
    fn settle_until(&mut self, wished: impl Fn(&Group) -> bool) -> usize {
        let numbers = 1..=octet(self.group.size());
        let delivers = numbers.clone().flat_map(|a| numbers.clone().map(move |b| deliver(a, b)));
        let singles = [5, 6, 7, 8, 14].into_iter();
        let singles = singles.flat_map(|kind| numbers.clone().map(move |a| one(kind, a)));
        let records: Vec<Record> = delivers.chain(singles).collect();
        let taken = |group: &Group, record: &Record| {
            decode(record, KINDS).is_ok_and(|step| group.refusal(&step).is_none())
        };
        while !wished(&self.group) {
            let Some(record) = records.iter().find(|record| taken(&self.group, record)) else {
                break;
            };
            self.take(&[*record]);
        }
        self.records.len()
    }

    fn settle(&mut self) {
        self.settle_until(|_| false);
    }

    /// By this coordinator, as far as its commit; answers the number of that record.
    fn commit(&mut self, coordinator: u8) -> usize {
        self.take(&[one(3, coordinator)]);
        self.settle_until(|group| group.cabinet(usize::from(coordinator)).state == State::Normal)
    }

    fn octets(&self) -> Vec<u8> {
        chronicle(&self.file, &self.records.concat(), false)
    }

    /// As a plan, with other records in front and behind.
    fn plan(&self, front: &[Vec<u8>], behind: &[Vec<u8>]) -> Vec<u8> {
        let steps = self.records.iter().map(|&step| Form::Plan.record_of_step(step));
        let steps: Vec<Vec<u8>> = steps.collect();
        chronicle(&self.file, &[front, &steps, behind].concat().concat(), true)
    }
}

fn read(octets: &[u8]) -> Vec<Row<'_>> {
    rows(octets).expect("a whole chronicle")
}

impl Row<'_> {
    fn answer(&self) -> u8 {
        self.head[0]
    }

    fn fate(&self) -> u8 {
        self.head[1]
    }

    fn word(&self) -> [u8; 2] {
        [self.head[2], self.head[3]]
    }

    fn ended(&self) -> bool {
        self.head[4] == 1
    }

    fn save(&self) -> usize {
        usize::from(u16::from_be_bytes([self.head[5], self.head[6]]))
    }

    fn cabinet(&self, number: Number) -> &[u8] {
        self.cabinets[number - 1]
    }

    fn acts(&self) -> Vec<u8> {
        self.cabinets.iter().map(|cabinet| cabinet[1]).collect()
    }

    fn line(&self, from: Number, to: Number) -> &[u8] {
        self.lines[(from - 1) * self.cabinets.len() + to - 1]
    }
}

fn saves(rows: &[Row]) -> Vec<usize> {
    rows.iter().map(Row::save).collect()
}

/// The rows in which a recovery ended, with the save.
fn ends_with_saves(rows: &[Row]) -> Vec<(usize, usize)> {
    let ends = rows.iter().enumerate().filter(|(_, row)| row.ended());
    ends.map(|(number, row)| (number, row.save())).collect()
}

fn point(name: u8) -> Vec<u8> {
    vec![1, 0, 0, 0, 0, 0, 0, 0, name]
}

fn return_to(name: u8) -> Vec<u8> {
    vec![2, 0, 0, 0, 0, 0, 0, 0, name]
}

fn planned(step: Record) -> Vec<u8> {
    Form::Plan.record_of_step(step)
}

// ------------------------------------------------------------ octet for octet

/// Two cabinets, 1 the store and home of both; 1 sends 30 to 2, and 2 fails.
#[test]
fn the_worked_example() {
    let file = group_file(PacketVersion::One, &[100, 50], 1, &[(1, 2)]);
    let mut records = vec![send(1, 2, 30), deliver(1, 2), fail(2)];
    records.extend([one(7, 1), one(7, 1), one(7, 1), one(7, 1), one(8, 1)]);
    let first = |state, acts, place: u8, failed: u8, pieces, booking| {
        [state, acts, 0, 1, place, failed, 0, pieces, 1, 0, booking, 0, 0, 0, 0]
    };
    let second = |booking| [1, 0, 0, 1, 0, 0, 0, 0, 1, 0, booking, 0, 0, 0, 0];
    let in_normal = |booking| first(1, 0, 0, 0, 0, booking);
    let (empty, sent) = ([0; 4], [0, 1, 0, 0, 30, 0, 0, 0]);
    let recovering = |pieces| first(6, 0, 1, 2, pieces, 100);
    let rows: [&[&[u8]]; 9] = [
        &[&[0, 0, 0, 24, 0, 0, 0], &in_normal(100), &second(50), &empty],
        &[&[0, 0, 0, 24, 0, 0, 0], &in_normal(70), &second(50), &sent],
        &[&[0, 1, 0, 24, 0, 0, 0], &in_normal(70), &second(80), &empty],
        &[&[0, 0, 1, 1, 0, 0, 0], &first(6, 1, 1, 2, 0, 70), &[0, 3], &empty],
        &[&[0, 0, 1, 1, 0, 0, 0], &recovering(1), &[0, 0], &empty],
        &[&[0, 0, 1, 1, 0, 0, 0], &recovering(2), &[0, 0], &empty],
        &[&[0, 0, 1, 1, 0, 0, 0], &recovering(3), &[0, 0], &empty],
        &[&[0, 0, 1, 1, 0, 0, 0], &first(7, 0, 1, 2, 4, 100), &[0, 0], &empty],
        &[&[0, 0, 1, 1, 1, 0, 0], &in_normal(100), &[0, 0], &empty],
    ];
    let expected = [&[0, 2, 1][..], &rows.concat().concat()].concat();
    assert_eq!(chronicle(&file, &records.concat(), false), expected);
}

#[test]
fn a_refused_load_is_one_octet() {
    let file = group_file(PacketVersion::Two, &[100, 50], 1, &[(1, 2)]);
    assert_eq!(chronicle(&[], &fail(1), false), [1]);
    assert_eq!(chronicle(&file[..20], &fail(1), true), [3]);
    assert_eq!(chronicle(&file, &[], false)[..HEADER_LENGTH], [0, 2, 2]);
    assert_eq!(read(&chronicle(&file, &[], true)).len(), 1);
}

#[test]
fn ten_thousand_records_are_read_and_a_short_one_counts() {
    let file = group_file(PacketVersion::One, &[100, 50], 1, &[(1, 2)]);
    let answers = |list: &[u8], plan: bool| -> Vec<u8> {
        read(&chronicle(&file, list, plan)).iter().map(Row::answer).collect()
    };
    assert_eq!(answers(&[&send(1, 2, 1)[..], &[3, 1]].concat(), false), [0, 0, 8]);
    let plan = [point(7), planned(one(3, 2)), vec![0; 8]].concat();
    assert_eq!(answers(&plan, true), [0, 0, 14, 8]);
    let long = [deliver(1, 2).repeat(10_000), send(1, 2, 1).to_vec()].concat();
    let long = answers(&long, false);
    assert!(long.len() == 10_001 && long[1..] == [18; 10_000]);
}

// ------------------------------------------------------------ cabinets and lines

#[test]
fn packets_stand_oldest_first() {
    let mut file = group_file(PacketVersion::One, &[300, 50], 2, &[(1, 2)]);
    file[17] = 9;
    let sends = [[1, 1, 2, 1, 1, 2], [1, 1, 2, 4, 0, 3], one(3, 1)];
    let hurts = [[11, 1, 2, 1, 0, 1], [11, 1, 2, 2, 0, 1], [12, 1, 2, 0, 0, 0]];
    let octets = chronicle(&file, &[sends, hurts].concat().concat(), false);
    let rows = read(&octets);
    assert_eq!(rows[3].line(1, 2), [1, 1, 1, 2, 1, 2, 0, 3, 2, 0, 0, 0, 0]);
    assert_eq!(rows[4].line(1, 2), [1, 1, 1, 2, 1, 2, 0, 2, 2, 0, 0, 0, 0]);
    assert_eq!(rows[5].line(1, 2), [1, 1, 1, 2, 1, 2, 0, 2, 6, 0, 0, 0, 0]);
    assert_eq!(rows[6].answer(), 20);
    assert_eq!(rows[6].lines, rows[5].lines);
    assert_eq!(rows[5].cabinet(1)[9..], [0, 42, 0, 0, 0, 6]);
}

/// 1 knows of its commit, 3 is unsure, and 2 has lost its version.
#[test]
fn a_trip_shows_at_all_it_touches() {
    let mut script = Script::of_three();
    let commit = script.commit(1);
    script.take(&[trip(2)]);
    let octets = script.octets();
    let rows = read(&octets);
    assert_eq!(rows[commit].line(1, 2), [3, 0, 0, 0, 0]);
    let tripped = &rows[commit + 1];
    assert_eq!(tripped.acts(), [1, 3, 1]);
    assert_eq!(tripped.cabinet(1)[..9], [6, 1, 1, 1, 2, 2, 0, 0, 3]);
    assert_eq!(tripped.cabinet(2), [5, 3, 4, 1, 2, 2, 0, 0, 3, 0, 0, 0, 0, 0, 0]);
    assert_eq!(tripped.cabinet(3)[..9], [5, 1, 2, 1, 2, 2, 0, 0, 3]);
    for to in [2, 3] {
        assert_eq!(tripped.line(1, to), [5, 2, 2, 0, 4, 1, 0, 0, 0]);
    }
    assert_eq!(tripped.line(2, 1), [5, 2, 2, 0, 0]);
    assert_eq!((tripped.word(), tripped.save()), ([1, 1], commit));
}

/// The lead passes on with the second, in whose place its partner is home.
#[test]
fn coordinators_and_homes_are_those_of_the_moment() {
    let links = [(1, 2), (1, 3), (2, 3)];
    let entries = [[1, 1, 2], [1, 1, 1], [1, 0, 0]];
    let mut script = Script::new(file_with_stores(&entries, &links));
    script.take(&[fail(1)]);
    let octets = script.octets();
    let lost = &read(&octets)[1];
    assert_eq!(lost.cabinet(1), [0, 3]);
    assert_eq!(lost.cabinet(2)[..9], [6, 1, 0, 2, 1, 1, 0, 0, 2]);
    assert_eq!(lost.cabinet(3)[..9], [6, 1, 0, 2, 1, 1, 0, 0, 2]);
    assert_eq!(read(&octets)[0].cabinet(3)[8], 1);
}

/// Each with its own entry: 1 ends the recovery, 3 takes its resume, and at the crash 2 has not.
#[test]
fn a_place_goes_on_entering_normal() {
    let mut script = Script::of_three();
    script.take(&[trip(2)]);
    let end = script.settle_until(|group| group.cabinet(1).state == State::Normal);
    script.take(&[deliver(1, 3), fail(2)]);
    let octets = script.octets();
    let rows = read(&octets);
    let stand = |row: usize| -> Vec<(u8, &[u8])> {
        rows[row].cabinets.iter().map(|cabinet| (cabinet[0], &cabinet[4..7])).collect()
    };
    let (none, tripped) = (&[0; 3][..], &[2, 2, 0][..]);
    assert_eq!(stand(0), [(1, none); 3]);
    assert_eq!(stand(1), [(6, tripped), (5, tripped), (6, tripped)]);
    assert_eq!(stand(end - 1), [(7, tripped); 3]);
    assert_eq!(stand(end), [(1, none), (7, tripped), (7, tripped)]);
    assert_eq!(stand(end + 1), [(1, none), (7, tripped), (1, none)]);
    assert_eq!(stand(end + 2), [(8, none), (8, tripped), (8, none)]);
}

#[test]
fn a_third_trip_is_a_fail() {
    let mut script = Script::of_three();
    for _ in 0..2 {
        script.take(&[trip(2)]);
        script.settle();
    }
    script.take(&[trip(2)]);
    let octets = script.octets();
    let last = &read(&octets)[script.records.len()];
    assert_eq!(last.cabinet(2), [0, 3]);
    assert_eq!(last.cabinet(1)[4..7], [1, 2, 0]);
}

#[test]
fn a_cut_is_where_checkpointing_is_entered() {
    let mut script = Script::of_row(&[100, 50], 1, &[(1, 2)]);
    script.take(&[one(3, 1), deliver(1, 2), deliver(2, 1), one(5, 1)]);
    let octets = script.octets();
    let acts: Vec<Vec<u8>> = read(&octets).iter().map(Row::acts).collect();
    assert_eq!(acts, [[0, 0], [0, 0], [0, 4], [4, 0], [0, 0]]);
    assert_eq!(read(&octets)[4].cabinet(1)[7], 1);
    let mut alone = Script::of_row(&[100, 50], 1, &[(1, 2)]);
    alone.take(&[fail(2)]);
    alone.settle();
    alone.take(&[one(3, 1)]);
    assert_eq!(read(&alone.octets())[alone.records.len()].acts(), [4, 0]);
}

// ------------------------------------------------------------ what became of packets

/// The recover that comes second is dropped.
#[test]
fn taken_packets() {
    let mut script = Script::of_three();
    script.take(&[send(1, 2, 30), deliver(1, 2)]);
    let commit = script.commit(1);
    script.take(&[deliver(1, 3), trip(2), deliver(1, 2), deliver(1, 2)]);
    script.take(&[deliver(3, 2), deliver(3, 2), deliver(2, 1)]);
    let octets = script.octets();
    let rows = read(&octets);
    let fates: Vec<u8> = rows.iter().map(Row::fate).collect();
    assert_eq!(fates[..5], [0, 0, 1, 0, 1]);
    assert_eq!(fates[commit..], [0, 1, 0, 1, 1, 1, 2, 1]);
    let stands = |row: usize| rows[row].cabinet(2)[..3].to_vec();
    assert_eq!((stands(commit + 3), stands(commit + 4)), (vec![5, 0, 4], vec![6, 0, 1]));
}

/// The second resume finds 3 in normal: the packet leaves its line, and nothing else changes.
#[test]
fn a_dropped_packet() {
    let mut script = Script::of_three();
    let commit = script.commit(1);
    script.take(&[deliver(1, 2), deliver(1, 3), deliver(2, 3)]);
    let octets = script.octets();
    let rows = read(&octets);
    let [before, after] = [&rows[commit + 2], &rows[commit + 3]];
    assert_eq!((before.fate(), after.fate()), (1, 2));
    assert_eq!(after.cabinets[..2], before.cabinets[..2]);
    assert_eq!(after.cabinet(3)[..9], [1, 0, 1, 1, 0, 0, 0, 0, 3]);
    assert_eq!((before.line(2, 3), after.line(2, 3)), (&[3, 0, 0, 0, 0][..], &[0][..]));
    let others = |row: &Row| -> Vec<Vec<u8>> {
        (0..9).filter(|&line| line != 5).map(|line| row.lines[line].to_vec()).collect()
    };
    assert_eq!(others(after), others(before));
}

/// Behind the hurt resume stands one that is dropped then, for the link is struck.
#[test]
fn a_link_fault_found() {
    let mut script = Script::of_three();
    let commit = script.commit(1);
    script.take(&[send(1, 2, 5), [11, 1, 2, 0, 0, 1], deliver(1, 2), deliver(1, 2)]);
    let octets = script.octets();
    let rows = read(&octets);
    let found = &rows[commit + 3];
    assert_eq!((found.answer(), found.fate(), found.acts()), (0, 3, vec![0, 1, 0]));
    assert_eq!(found.cabinet(2)[..9], [5, 1, 2, 1, 3, 1, 2, 0, 3]);
    assert_eq!((found.line(1, 2), found.line(2, 1)), (&[1, 0, 0, 5, 0][..], &[0][..]));
    assert_eq!(found.line(2, 3), [5, 3, 1, 2, 0]);
    assert_eq!(found.word(), [0, 24]);
    let struck = &rows[commit + 4];
    assert_eq!((struck.fate(), struck.line(1, 2)), (2, &[0][..]));
    assert_eq!(struck.cabinet(2)[2..], found.cabinet(2)[2..]);
}

/// In each way in which one can be found.
#[test]
fn link_faults_by_an_own_check_and_by_a_checkp() {
    let hurt = [11, 1, 2, 0, 0, 1];
    let file = |version| group_file(version, &[100, 50, 25], 3, ALL_OF_THREE);
    let last_fate = |version, records: &[Record]| {
        let octets = chronicle(&file(version), &records.concat(), false);
        read(&octets)[records.len()].fate()
    };
    let taken = [send(1, 2, 30), hurt, deliver(1, 2), one(3, 1), deliver(1, 2)];
    assert_eq!(last_fate(PacketVersion::Two, &taken[..3]), 3);
    assert_eq!(last_fate(PacketVersion::One, &taken[..3]), 1);
    assert_eq!(last_fate(PacketVersion::One, &taken), 3);
}

/// 2 is in error for 3, which 1 has not heard of.
#[test]
fn a_hurt_signal_that_a_recovery_drops() {
    let mut script = Script::of_row(&[100, 50, 25], 1, ROW_OF_THREE);
    script.take(&[one(3, 1), [11, 1, 2, 0, 0, 1], trip(3), deliver(1, 2)]);
    let octets = script.octets();
    let last = &read(&octets)[4];
    assert_eq!((last.fate(), last.acts(), last.cabinet(2)[0]), (2, vec![0; 3], 6));
}

// ------------------------------------------------------------ crashes

/// The hurt checkp would strike the only way to 2, so that it stays in its line.
#[test]
fn a_crash_changes_states_alone() {
    let mut script = Script::of_row(&[100, 50], 1, &[(1, 2)]);
    let commit = script.commit(1);
    script.take(&[deliver(1, 2), send(1, 2, 5), one(3, 1), deliver(1, 2), [11, 1, 2, 0, 0, 1]]);
    script.take(&[deliver(1, 2)]);
    let octets = script.octets();
    let rows = read(&octets);
    let [before, after] = [&rows[commit + 5], &rows[commit + 6]];
    assert_eq!(after.head[..5], [50, 0, 0, 10, 0]);
    assert_eq!((after.save(), &after.lines), (commit, &before.lines));
    for number in [1, 2] {
        assert_eq!(after.cabinet(number)[..2], [8, 0]);
        assert_eq!(after.cabinet(number)[2..], before.cabinet(number)[2..]);
    }
}

/// It has not failed: the group crashed, and did nothing else.
#[test]
fn a_coordinator_that_crashes_the_group_takes_no_save_along() {
    let mut script = Script::of_row(&[100, 50], 1, &[(1, 2)]);
    let commit = script.commit(1);
    script.take(&[fail(1)]);
    let octets = script.octets();
    let last = &read(&octets)[commit + 1];
    assert_eq!((last.answer(), last.save(), last.acts()), (50, commit, vec![0; 2]));
}

// ------------------------------------------------------------ which save

#[test]
fn a_save_counts_from_the_record_that_commits_it() {
    let mut script = Script::of_three();
    script.take(&[send(1, 2, 30), deliver(1, 2)]);
    let commit = script.commit(1);
    script.settle();
    script.take(&[send(2, 3, 7), trip(2)]);
    script.settle();
    let octets = script.octets();
    let rows = read(&octets);
    assert!(saves(&rows[..commit]).iter().all(|&save| save == 0));
    assert!(saves(&rows[commit..]).iter().all(|&save| save == commit));
    let ends = ends_with_saves(&rows);
    assert!(ends.len() == 1 && ends[0].1 == commit);
    assert_eq!(bookings(&script.group), [70, 80, 25]);
}

/// Nobody took its resume: the start comes back, or the save before it.
#[test]
fn a_save_passed_over() {
    for (lost, saved_before) in [(fail(1), false), (fail(1), true), (trip(1), false)] {
        let mut script = Script::of_three();
        let mut first = 0;
        if saved_before {
            first = script.commit(1);
            script.settle();
        }
        script.take(&[send(1, 2, 30), deliver(1, 2)]);
        let second = script.commit(1);
        script.take(&[lost]);
        script.settle();
        let octets = script.octets();
        let rows = read(&octets);
        assert_eq!(saves(&rows[second - 1..second + 2]), [first, second, first]);
        assert!(saves(&rows[second + 1..]).iter().all(|&save| save == first));
        assert_eq!(ends_with_saves(&rows).iter().map(|end| end.1).collect::<Vec<_>>(), [first]);
        assert_eq!(bookings(&script.group)[1..], [50, 25]);
    }
}

#[test]
fn a_save_whose_resume_was_taken_is_not_passed_over() {
    let mut script = Script::of_three();
    script.take(&[send(1, 2, 30), deliver(1, 2)]);
    let commit = script.commit(1);
    script.take(&[deliver(1, 3), fail(1)]);
    script.settle();
    let octets = script.octets();
    let rows = read(&octets);
    assert!(saves(&rows[commit..]).iter().all(|&save| save == commit));
    assert_eq!(ends_with_saves(&rows).len(), 1);
    assert_eq!(bookings(&script.group)[1..], [80, 25]);
}

/// 2 takes the resume when 3 names it as coordinator already, for 1 has failed.
#[test]
fn a_resume_is_no_commit_whoever_the_others_name() {
    let mut script = Script::of_row(&[100, 50, 25, 12], 4, &[(1, 3), (2, 4), (3, 4)]);
    let commit = script.commit(1);
    script.take(&[deliver(1, 3), deliver(3, 4), fail(1), deliver(4, 2)]);
    assert_eq!(leads(&script.group)[1..], [1, 2, 1]);
    assert_eq!(script.group.cabinet(2).state, State::Normal);
    let octets = script.octets();
    assert_eq!(saves(&read(&octets)[commit..]), [commit; 5]);
}

/// After the fourth record, a return; the bookings are those of the point again.
#[test]
fn a_return_comes_back() {
    let front = [point(7), planned(send(1, 2, 30)), planned(deliver(1, 2)), return_to(7)];
    let mut script = Script::of_three();
    script.take(&[send(2, 3, 5), deliver(2, 3), trip(2)]);
    script.settle();
    let octets = script.plan(&front, &[return_to(8), return_to(7)]);
    let rows = read(&octets);
    let last = rows.len() - 1;
    assert_eq!(saves(&rows[..4]), [0; 4]);
    assert!(saves(&rows[4..last]).iter().all(|&save| save == 4));
    assert_eq!(ends_with_saves(&rows).iter().map(|end| end.1).collect::<Vec<_>>(), [4]);
    let at_a = |row: &Row| [1, 2, 3].map(|number| row.cabinet(number)[10]);
    assert_eq!((at_a(&rows[3]), at_a(&rows[4])), ([70, 80, 25], [100, 50, 25]));
    assert_eq!((at_a(&rows[6]), at_a(&rows[last - 2])), ([100, 45, 30], [100, 50, 25]));
    assert_eq!((rows[last - 1].answer(), rows[last - 1].save()), (21, 4));
    assert_eq!((rows[last].answer(), rows[last].save()), (0, last));
}

#[test]
fn a_save_passed_over_gives_way_to_a_return() {
    let front = [point(7), return_to(7)];
    let mut script = Script::of_three();
    let commit = script.commit(1) + front.len();
    script.take(&[fail(1)]);
    script.settle();
    let octets = script.plan(&front, &[]);
    let rows = read(&octets);
    assert_eq!(saves(&rows[..3]), [0, 0, 2]);
    assert_eq!(saves(&rows[commit - 1..commit + 2]), [2, commit, 2]);
    assert_eq!(ends_with_saves(&rows).iter().map(|end| end.1).collect::<Vec<_>>(), [2]);
}
