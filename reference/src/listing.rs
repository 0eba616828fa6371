//! The listing: the text a program prints for a group file and a steps file, and counts of
//! what happened on the way.

use crate::aim::Aim;
use crate::evening::Sight;
use crate::losses::{LossCounts, LossWatch};
use crate::model::{self, Crash, Event, Group, Outcome, State, Version, RECORD_LENGTH, TAKEN};
use crate::outlets::{OutletCounts, Watch};
use crate::own_checks::{HurtWatch, OwnCheckCounts};
use crate::partners::{Eve, PartnerCounts, PartnerWatch};
use crate::trips::{Stand, TripCounts, TripWatch};
use crate::unsure::{UnsureCounts, UnsureWatch};
use crate::word::WordCounts;
use crate::workshop::{WorkshopCounts, WorkshopWatch};
use std::collections::BTreeMap;
use std::fmt::{Debug, Write};

pub(crate) const RECORDS_READ: usize = 10_000;

/// Counts over one or many listings.
#[derive(Clone, Default, PartialEq, Eq, Debug)]
pub struct Tally {
    pub cases: u64,
    pub steps: u64,
    pub loads_refused: BTreeMap<u8, u64>,
    pub answers: BTreeMap<u8, u64>,
    pub kinds_taken: BTreeMap<u8, u64>,
    pub commits: u64,
    pub recoveries_ended: u64,
    pub saves_passed_over: u64,
    pub link_faults: u64,
    pub crashes: BTreeMap<Crash, u64>,
    pub outlets: OutletCounts,
    pub losses: LossCounts,
    pub trips: TripCounts,
    pub unsure: UnsureCounts,
    pub own_checks: OwnCheckCounts,
    pub workshop: WorkshopCounts,
    pub partners: PartnerCounts,
    pub point_answers: BTreeMap<u8, u64>,
    pub return_answers: BTreeMap<u8, u64>,
    pub sights: BTreeMap<Sight, u64>,
    pub words: WordCounts,
}

impl Tally {
    pub(crate) fn of_one_case() -> Tally {
        Tally { cases: 1, ..Tally::default() }
    }

    pub(crate) fn of_refused_load(group_file: &[u8], refusal: u8) -> Tally {
        let mut tally = Tally::of_one_case();
        tally.loads_refused.insert(refusal, 1);
        tally.outlets.count_refused_load(group_file, refusal);
        tally.own_checks.count_refused_load(group_file, refusal);
        tally.workshop.count_refused_load(group_file, refusal);
        tally.partners.count_refused_load(group_file, refusal);
        tally
    }

    pub(crate) fn count_sights(&mut self, sights: Vec<Sight>) {
        for sight in sights {
            count(&mut self.sights, sight);
        }
    }

    fn count_step(&mut self, record: &[u8], outcome: Outcome) {
        self.steps += 1;
        count(&mut self.answers, outcome.answer);
        if outcome.answer == TAKEN {
            count(&mut self.kinds_taken, record[0]);
        }
        match outcome.event {
            Event::Nothing | Event::Added(_) | Event::Decision { .. } => {}
            Event::Commit => self.commits += 1,
            Event::LinkFault(_) => self.link_faults += 1,
            Event::Crash(cause) => count(&mut self.crashes, cause),
            Event::RecoveryEnd { save_passed_over } => {
                self.recoveries_ended += 1;
                self.saves_passed_over += u64::from(save_passed_over);
            }
        }
    }

    pub fn add(&mut self, other: &Tally) {
        self.cases += other.cases;
        self.steps += other.steps;
        self.commits += other.commits;
        self.recoveries_ended += other.recoveries_ended;
        self.saves_passed_over += other.saves_passed_over;
        self.link_faults += other.link_faults;
        add_counts(&mut self.loads_refused, &other.loads_refused);
        add_counts(&mut self.answers, &other.answers);
        add_counts(&mut self.kinds_taken, &other.kinds_taken);
        add_counts(&mut self.crashes, &other.crashes);
        self.outlets.add(&other.outlets);
        self.losses.add(&other.losses);
        self.trips.add(&other.trips);
        self.unsure.add(&other.unsure);
        self.own_checks.add(&other.own_checks);
        self.workshop.add(&other.workshop);
        self.partners.add(&other.partners);
        add_counts(&mut self.point_answers, &other.point_answers);
        add_counts(&mut self.return_answers, &other.return_answers);
        add_counts(&mut self.sights, &other.sights);
        self.words.add(&other.words);
    }

    pub fn report(&self) -> String {
        let mut text = format!("{} cases, {} steps\n", self.cases, self.steps);
        let _ = writeln!(text, "loads refused: {}", counts_text(&self.loads_refused));
        let _ = writeln!(text, "answers: {}", counts_text(&self.answers));
        let _ = writeln!(text, "taken by kind: {}", counts_text(&self.kinds_taken));
        let _ = writeln!(text, "commits: {}", self.commits);
        let _ = writeln!(text, "recoveries ended: {}", self.recoveries_ended);
        let _ = writeln!(text, "saves passed over: {}", self.saves_passed_over);
        let _ = writeln!(text, "link faults found: {}", self.link_faults);
        let crashes: u64 = self.crashes.values().sum();
        let _ = writeln!(text, "crashes: {crashes} ({})", counts_text(&self.crashes));
        text += &self.outlets.report();
        text += &self.losses.report();
        text += &self.trips.report();
        text += &self.unsure.report();
        text += &self.own_checks.report();
        text += &self.workshop.report();
        text + &self.partners.report()
    }

    /// What points and returns add to the report.
    pub fn plan_report(&self) -> String {
        let mut text = format!("points by answer: {}\n", counts_text(&self.point_answers));
        let _ = writeln!(text, "returns by answer: {}", counts_text(&self.return_answers));
        for sight in Sight::ALL {
            let count = self.sights.get(&sight).copied().unwrap_or_default();
            let _ = writeln!(text, "{sight:?}: {count}");
        }
        text
    }
}

/// The steps of one case, counted.
pub(crate) struct Counter {
    pub(crate) tally: Tally,
    watch: Watch,
    loss_watch: LossWatch,
    pub(crate) trip_watch: TripWatch,
    unsure_watch: UnsureWatch,
    hurt_watch: HurtWatch,
    workshop_watch: WorkshopWatch,
    partner_watch: PartnerWatch,
}

impl Counter {
    pub(crate) fn new(group: &Group) -> Counter {
        let mut tally = Tally::of_one_case();
        tally.own_checks.count_group(group);
        tally.workshop.count_group(group);
        tally.partners.count_group(group);
        Counter {
            tally,
            watch: Watch::default(),
            loss_watch: LossWatch::default(),
            trip_watch: TripWatch::default(),
            unsure_watch: UnsureWatch::default(),
            hurt_watch: HurtWatch::default(),
            workshop_watch: WorkshopWatch::new(group),
            partner_watch: PartnerWatch::new(group),
        }
    }

    pub(crate) fn step(&mut self, group: &mut Group, record: &[u8], highest_kind: u8) -> Outcome {
        let (aim, stand) = (Aim::of(group, record), Stand::of(group, record));
        let eve = Eve::of(group, &self.partner_watch, record);
        self.watch.before_step(group);
        self.workshop_watch.before_step(group);
        let outcome = group.step(record, highest_kind);
        self.watch.after_step(aim, record, outcome);
        self.tally.count_step(record, outcome);
        self.tally.outlets.count_step(&self.watch, group, record, outcome);
        self.tally.losses.count_step(&mut self.loss_watch, aim, record, outcome);
        self.tally.trips.count_step(&mut self.trip_watch, stand, group, record, outcome);
        self.tally.unsure.count_step(&mut self.unsure_watch, group, record, outcome);
        let version = group.packet_version();
        self.tally.own_checks.count_step(&mut self.hurt_watch, aim, version, record, outcome);
        self.tally.workshop.count_step(&mut self.workshop_watch, aim, group, record, outcome);
        self.tally.partners.count_step(&mut self.partner_watch, eve, group, outcome);
        outcome
    }
}

pub(crate) fn count<K: Ord>(counts: &mut BTreeMap<K, u64>, key: K) {
    *counts.entry(key).or_default() += 1;
}

pub(crate) fn add_counts<K: Copy + Ord>(sum: &mut BTreeMap<K, u64>, more: &BTreeMap<K, u64>) {
    for (&key, count) in more {
        *sum.entry(key).or_default() += count;
    }
}

pub(crate) fn counts_text<K: Debug>(counts: &BTreeMap<K, u64>) -> String {
    let each = |(key, count): (&K, &u64)| format!("{key:?} x {count}");
    counts.iter().map(each).collect::<Vec<_>>().join(", ")
}

/// The listing and its counts; kinds above `highest_kind` are unknown.
pub fn counted_listing(group_file: &[u8], steps_file: &[u8], highest_kind: u8) -> (String, Tally) {
    let mut group = match model::load(group_file) {
        Ok(group) => group,
        Err(refusal) => {
            let tally = Tally::of_refused_load(group_file, refusal);
            return (format!("load {refusal}\n"), tally);
        }
    };
    let mut counter = Counter::new(&group);
    let mut text = String::new();
    let records = steps_file.chunks(RECORD_LENGTH).take(RECORDS_READ);
    for (index, record) in records.enumerate() {
        let outcome = counter.step(&mut group, record, highest_kind);
        let _ = writeln!(text, "step {} {}", index + 1, outcome.answer);
    }
    list_cabinets(&mut text, &group);
    (text, counter.tally)
}

pub fn listing(group_file: &[u8], steps_file: &[u8], highest_kind: u8) -> String {
    counted_listing(group_file, steps_file, highest_kind).0
}

pub(crate) fn list_cabinets(text: &mut String, group: &Group) {
    for number in group.numbers() {
        let cabinet = group.cabinet(number);
        let _ = if cabinet.state == State::Failed {
            writeln!(text, "cab {number} failed")
        } else {
            let state = cabinet.state.name();
            let version = version_text(cabinet.version);
            let [a, b, workshop] = cabinet.bookings();
            writeln!(text, "cab {number} {state} {version} {a} {b} {workshop}")
        };
    }
}

fn version_text(version: Version) -> String {
    match version {
        Version::Known(version) => version.to_string(),
        Version::Unknown { .. } | Version::Lost => "u".to_string(),
    }
}

#[cfg(test)]
mod tests {
    use super::*;
    use crate::model::KINDS;

    const GROUP: [u8; 30] = [
        0, 2, 0, 1, 0, 10, 0, 28, 0, 30, 1, 1, 0, 100, 0, 0, 0, 0, 0, 1, 0, 0, 50, 0, 0, 0, 0, 0,
        1, 2,
    ];

    #[test]
    fn the_worked_example() {
        let steps = [
            [1, 1, 2, 0, 0, 30],
            [4, 1, 2, 0, 0, 0],
            [10, 2, 0, 0, 0, 0],
            [7, 1, 0, 0, 0, 0],
            [7, 1, 0, 0, 0, 0],
            [7, 1, 0, 0, 0, 0],
            [7, 1, 0, 0, 0, 0],
            [8, 1, 0, 0, 0, 0],
        ];
        let expected = "step 1 0\nstep 2 0\nstep 3 0\nstep 4 0\nstep 5 0\nstep 6 0\n\
                        step 7 0\nstep 8 0\ncab 1 normal 0 100 0 0\ncab 2 failed\n";
        let (text, tally) = counted_listing(&GROUP, &steps.concat(), KINDS);
        assert_eq!(text, expected);
        assert_eq!(tally.recoveries_ended, 1);
    }

    #[test]
    fn empty_files_and_short_records() {
        assert_eq!(listing(&[], &[], KINDS), "load 1\n");
        let cabinets = "cab 1 normal 0 100 0 0\ncab 2 normal 0 50 0 0\n";
        assert_eq!(listing(&GROUP, &[], KINDS), cabinets);
        assert_eq!(listing(&GROUP, &[4, 1, 2], KINDS), format!("step 1 8\n{cabinets}"));
    }

    #[test]
    fn a_then_b_then_the_workshop_is_listed() {
        let mut group = GROUP;
        group[15] = 7;
        group[23] = 1;
        group[17] = 9;
        group[25] = 2;
        let deliver = [4, 1, 2, 0, 0, 0];
        let steps = [[1, 1, 2, 1, 0, 30], [1, 1, 2, 4, 0, 3], deliver, deliver];
        let cabinets = "cab 1 normal 0 70 7 6\ncab 2 normal 0 50 286 515\n";
        let expected = format!("step 1 0\nstep 2 0\nstep 3 0\nstep 4 0\n{cabinets}");
        assert_eq!(listing(&group, &steps.concat(), KINDS), expected);
    }

    #[test]
    fn ten_thousand_records_are_read() {
        let steps = [0; 6 * 10_001];
        assert_eq!(listing(&GROUP, &steps, KINDS).lines().count(), 10_002);
    }
}
