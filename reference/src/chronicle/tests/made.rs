//! Chronicles of made cases: they agree with the listing, the evening and the word, each row with
//! what the model tells of its record, and each end with the images of the save that is given.

use super::*;
use crate::cases::{case_seed, Case};
use crate::chronicle::compare::cases_of_seed;
use crate::evening::{evening, Operation};
use crate::listing::listing;
use crate::model::{Account, Event, Image, Outcome, Step};
use crate::word::{word, Sort};
use std::collections::BTreeMap;

const SEED: u64 = 11;

fn made_cases(number: u64) -> impl Iterator<Item = (Form, Case)> {
    (0..number).flat_map(|index| cases_of_seed(case_seed(SEED, index)))
}

fn octets_of(form: Form, case: &Case) -> Vec<u8> {
    chronicle(&case.group, &case.steps, form == Form::Plan)
}

// ------------------------------------------------------------ beside the programs

fn text_of_cabinet(number: usize, cabinet: &[u8]) -> String {
    let states = ["normal", "checkp-begin", "checkpointing", "checkpointed", "error"];
    let states = [&["failed"], &states[..], &["recovering", "recovered", "crashed"]].concat();
    let state = states[usize::from(cabinet[0])];
    if cabinet.len() == 2 {
        return format!("cab {number} {state}\n");
    }
    let version = ["0", "1", "u", "u", "u"][usize::from(cabinet[2])];
    let booked = |at: usize| u16::from_be_bytes([cabinet[at], cabinet[at + 1]]);
    format!("cab {number} {state} {version} {} {} {}\n", booked(9), booked(11), booked(13))
}

/// What the listing or the evening prints, told from the octets.
fn text_of(form: Form, case: &Case, octets: &[u8]) -> String {
    if octets[0] != 0 {
        return format!("load {}\n", octets[0]);
    }
    let rows = read(octets);
    let firsts = case.steps.chunks(form.record_length()).map(|record| record[0]);
    let mut text = String::new();
    for ((number, row), first) in rows.iter().enumerate().skip(1).zip(firsts) {
        let word = match (form, first) {
            (Form::Plan, 1) => "point",
            (Form::Plan, 2) => "return",
            _ => "step",
        };
        text += &format!("{word} {number} {}\n", row.answer());
    }
    let cabinets = (1..).zip(&rows[rows.len() - 1].cabinets);
    text + &cabinets.map(|(number, cabinet)| text_of_cabinet(number, cabinet)).collect::<String>()
}

/// What the program `word` prints.
fn word_of(octets: &[u8]) -> String {
    if octets[0] != 0 {
        return format!("load {}\n", octets[0]);
    }
    match read(octets).last().map(Row::word) {
        Some([0, refusal]) => format!("word {refusal}\n"),
        Some([cabinet, reason]) => format!("word {cabinet} {reason}\n"),
        None => String::new(),
    }
}

#[test]
fn the_programs_print_what_a_chronicle_tells() {
    for (form, case) in made_cases(150) {
        let octets = octets_of(form, &case);
        let Case { group, steps } = &case;
        let printed = match form {
            Form::Plan => evening(group, steps, KINDS),
            _ => listing(group, steps, KINDS),
        };
        assert_eq!(text_of(form, &case, &octets), printed);
        if form == Form::Steps {
            assert_eq!(word_of(&octets), word(group, steps, KINDS));
        }
    }
}

// ------------------------------------------------------------ beside the model's events

/// Runs each case of a loaded group, and shows each record's operation, deed and group after it.
fn each_deed(number: u64, mut look: impl FnMut(Option<Operation>, &Deed, &Run)) {
    for (form, case) in made_cases(number) {
        let Ok(group) = load(&case.group) else {
            continue;
        };
        let mut run = Run::new(group);
        look(None, &run.start(), &run);
        for operation in form.operations(&case) {
            let deed = run.take(operation);
            look(operation, &deed, &run);
        }
    }
}

/// What the model itself tells of the step.
fn outcome(operation: Option<Operation>, deed: &Deed) -> Option<Outcome> {
    match operation {
        Some(Operation::Step(record)) => Some(deed.before.clone().step(&record, KINDS)),
        _ => None,
    }
}

fn commits(deed: &Deed) -> bool {
    matches!(deed.save, Save::Commit(_)) && deed.save.record() > deed.save_before.record()
}

#[test]
fn the_states_tell_what_the_model_tells() {
    let mut fell = false;
    each_deed(150, |operation, deed, run| {
        fell &= !run.is_at_the_start();
        let event = outcome(operation, deed).map_or(Event::Nothing, |outcome| outcome.event);
        assert_eq!(commits(deed), event == Event::Commit);
        assert_eq!(deed.fate == Fate::FaultFound, matches!(event, Event::LinkFault(_)));
        let normal_taken =
            deed.fate == Fate::Taken && matches!(deed.packet, Some(Packet::Normal(_)));
        assert_eq!(normal_taken, matches!(event, Event::Added(_)));
        fell |= deed.save.record() < deed.save_before.record();
        let ended = deed.recovery_ended.then(|| std::mem::take(&mut fell));
        let ended_by_event = match event {
            Event::RecoveryEnd { save_passed_over } => Some(save_passed_over),
            _ => None,
        };
        assert_eq!(ended, ended_by_event);
    });
}

/// A dropped packet leaves its line, and nothing else changes; one that is taken changes more.
#[test]
fn only_a_dropped_packet_changes_nothing_else() {
    each_deed(150, |operation, deed, run| {
        let Some(Operation::Step(record)) = operation else {
            return;
        };
        if let Ok(Step::Deliver { from, to }) = decode(&record, KINDS) {
            if deed.answer == TAKEN {
                let without = deed.before.clone().without_oldest(from, to);
                assert_eq!(run.group == without, deed.fate == Fate::Dropped);
            }
        }
    });
}

// ------------------------------------------------------------ the save that comes back

/// The images of each save by the number of its record, as the cuts and returns leave them.
#[derive(Default)]
struct Images {
    at_cuts: BTreeMap<Number, Image>,
    of_saves: BTreeMap<usize, BTreeMap<Number, Image>>,
}

fn images(group: &Group) -> BTreeMap<Number, Image> {
    let working = group.working_cabinets().into_iter();
    working.map(|number| (number, group.cabinet(number).image)).collect()
}

impl Images {
    fn note(&mut self, operation: Option<Operation>, deed: &Deed, run: &Run) {
        for (number, acts) in (1..).zip(&deed.acts) {
            if acts.cut {
                self.at_cuts.insert(number, run.group.cabinet(number).image);
            }
        }
        let returned = matches!(operation, Some(Operation::Return(_))) && deed.answer == TAKEN;
        if returned {
            self.of_saves.insert(deed.save.record(), images(&run.group));
        } else if commits(deed) {
            self.of_saves.insert(deed.save.record(), self.at_cuts.clone());
        }
    }
}

#[test]
fn a_recovery_ends_in_the_images_of_the_save_given() {
    let (mut known, mut ends) = (Images::default(), 0);
    each_deed(150, |operation, deed, run| {
        if run.is_at_the_start() {
            known = Images::default();
            known.of_saves.insert(0, images(&run.group));
        }
        known.note(operation, deed, run);
        if deed.recovery_ended {
            let save = &known.of_saves[&deed.save.record()];
            for (number, image) in images(&run.group) {
                assert_eq!(save[&number], image);
            }
            ends += 1;
        }
    });
    assert!(ends > 300);
}

// ------------------------------------------------------------ places of faults

/// None in normal and in a save, one and the same in a recovery, and in a crash what was before.
#[test]
fn a_place_stands_until_normal_or_in_a_crash() {
    let (mut crashed_without, mut crashed_with) = (0, 0);
    for (form, case) in made_cases(150) {
        let octets = octets_of(form, &case);
        let rows = rows(&octets).unwrap_or_default();
        for (before, after) in rows.iter().zip(rows.iter().skip(1)) {
            let both = before.cabinets.iter().zip(&after.cabinets);
            for (before, after) in both.filter(|(_, after)| after[0] != 0) {
                let [was, is] = [&before[4..7], &after[4..7]];
                match (before[0], after[0]) {
                    (_, 1..=4) => assert_eq!(is, [0; 3]),
                    (5..=7, 5..=7) | (_, 8) => assert_eq!(is, was),
                    _ => assert_ne!(is, [0; 3]),
                }
                if before[0] != 8 && after[0] == 8 {
                    crashed_without += u64::from(is == [0; 3]);
                    crashed_with += u64::from(is != [0; 3]);
                }
            }
        }
    }
    assert!(crashed_without > 100 && crashed_with > 100);
}

// ------------------------------------------------------------ lines

/// What the record leaves of a line, before anything is put: the page's last words.
fn left_of(line: Vec<Packet>, ends: (Number, Number), step: Step, deed: &Deed) -> Vec<Packet> {
    let mut left = line;
    let (from, to) = ends;
    if deed.acts[from - 1].outgoing_emptied || deed.acts[to - 1].incoming_emptied {
        left.clear();
    } else if step == (Step::Deliver { from, to }) {
        left.remove(0);
    }
    match step {
        Step::Lose { from: a, to: b, place } if (a, b) == ends => {
            left.remove(usize::from(place));
        }
        Step::Damage { from: a, to: b, place, burst } if (a, b) == ends => {
            let hurt = &mut left[usize::from(place)];
            *hurt = match *hurt {
                Packet::Normal(charge) => Packet::Normal(charge.hit_by(burst)),
                _ => Packet::Invalid,
            };
        }
        _ => {}
    }
    left
}

#[test]
fn lines_are_first_in_first_out() {
    each_deed(100, |operation, deed, run| {
        let step = match operation {
            Some(Operation::Step(record)) => decode(&record, KINDS).ok(),
            _ => None,
        };
        let step = step.filter(|_| deed.answer == TAKEN);
        for ends in deed.before.numbers().flat_map(|a| deed.before.numbers().map(move |b| (a, b))) {
            let [before, after] =
                [&deed.before, &run.group].map(|group| line(group, ends.0, ends.1));
            match step {
                Some(step) => assert!(after.starts_with(&left_of(before, ends, step, deed))),
                None => assert_eq!(after, before),
            }
        }
    });
}

// ------------------------------------------------------------ the counts

fn counts_of_made_cases(number: u64) -> Counts {
    let mut counts = Counts::default();
    for (form, case) in made_cases(number) {
        counts.add(&counted_chronicle(&case.group, &case.steps, form == Form::Plan).1);
    }
    counts
}

/// The fates that a packet of each sort can have, those at a crash first.
fn fates_by_sort() -> Vec<(Option<PacketSort>, Fate)> {
    let all = Fate::ALL.to_vec();
    let [at_a_crash, taken, dropped, found] = Fate::ALL;
    let of_sort = |sort: PacketSort| match sort {
        PacketSort::Normal(_) | PacketSort::Checkp => all.clone(),
        PacketSort::Resume | PacketSort::Recover => vec![taken, dropped],
        PacketSort::Fault => vec![at_a_crash, taken, dropped],
        PacketSort::Invalid => vec![at_a_crash, dropped, found],
    };
    let each = |sort: PacketSort| of_sort(sort).into_iter().map(move |fate| (Some(sort), fate));
    let packets = PacketSort::ALL.into_iter().flat_map(each);
    [(None, Fate::NotTakenOff)].into_iter().chain(packets).collect()
}

#[test]
fn the_cases_reach_everything() {
    let counts = counts_of_made_cases(500);
    assert!(counts.step_lists > 500 && counts.plans == 500);
    assert!(counts.long_lists > 0 && counts.short_last_records > 0);
    assert!(counts.loads_refused.keys().eq(&[1, 2, 3, 4, 5, 6, 7]));
    assert!(counts.packet_versions.len() == 2 && counts.sizes.len() == 7);
    let answers = [0, 8, 9, 10, 11, 12, 13, 14, 15, 16, 17, 18, 19, 20, 21, 22, 23, 50];
    assert!(counts.answers.keys().eq(&answers));
    assert!(counts.fates.keys().eq(&fates_by_sort()), "{:?}", counts.fates);
    assert!(counts.words.keys().eq(&Sort::ALL[1..]));
    assert!(counts.commits > 0 && counts.returns > 0);
    assert!(counts.recoveries_ended.keys().eq(&SaveSort::ALL));
    assert!(counts.saves_passed_over.keys().eq(&SaveSort::ALL));
    assert!(counts.emptied.keys().eq(&Emptied::ALL));
    assert!(counts.fails > 0 && counts.trips > 0 && counts.cuts > 0);
    assert!(counts.states.len() == 9 && counts.versions.keys().eq(&VersionSort::ALL));
    assert!(counts.places.keys().eq(&PlaceSort::ALL) && counts.pieces.keys().eq(&[0, 1, 2, 3, 4]));
    assert!(counts.other_coordinators > 0 && counts.other_homes > 0);
    assert!(counts.packets.keys().eq(&PacketSort::ALL));
}

/// One whose only save is passed over.
#[test]
fn counts_of_one_run() {
    let mut script = Script::of_three();
    script.take(&[send(1, 2, 30), deliver(1, 2)]);
    script.commit(1);
    script.take(&[fail(1)]);
    script.settle();
    let counts = counted_chronicle(&script.file, &script.records.concat(), false).1;
    let rows = 1 + script.records.len() as u64;
    assert_eq!((counts.rows, counts.answers), (rows, BTreeMap::from([(0, rows - 1)])));
    let normal = |fate| counts.fates.get(&(Some(PacketSort::Normal(Account::A)), fate)).copied();
    assert_eq!(Fate::ALL.map(normal), [None, Some(1), None, None]);
    assert_eq!((counts.commits, counts.cuts, counts.fails, counts.trips), (1, 3, 1, 0));
    assert_eq!(counts.saves_passed_over, BTreeMap::from([(SaveSort::Start, 1)]));
    assert_eq!(counts.recoveries_ended, BTreeMap::from([(SaveSort::Start, 1)]));
    assert_eq!(counts.emptied, BTreeMap::from([(Emptied::Outgoing, 2)]));
    assert_eq!(counts.loads_refused, BTreeMap::new());
}
