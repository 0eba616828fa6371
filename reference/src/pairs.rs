//! Pairs of runs of one group file that differ in nothing but the amounts of the workshop's sends,
//! each of which is taken in both: the claim that all else agrees, asked of the model after every
//! operation and of what a program prints; and counts of what the pairs reach.

use crate::cases::pairs::{make_pair, Pair};
use crate::cases::{case_seed, Case};
use crate::compare::{hex, run_program, search, whole_path, Difference, Row};
use crate::evening::{Evening, Operation};
use crate::form::Form;
use crate::listing::{add_counts, count, counts_text, RECORDS_READ};
use crate::model::{self, Account, Group, Image, Packet, KINDS, TAKEN, WORKSHOP_P};
use crate::shrink::shrink;
use crate::workshop::Hurt;
use std::collections::BTreeMap;
use std::fmt::Write;
use std::io;
use std::path::Path;

#[cfg(test)]
mod tests;

// ---------------------------------------------------------------- the claim

/// Where a pair is none, or where the claim does not hold.
#[derive(Clone, Copy, PartialEq, Eq, Debug)]
pub struct Breach {
    /// The record, from 1.
    pub record: usize,
    pub what: Broken,
}

#[derive(Clone, Copy, PartialEq, Eq, Debug)]
pub enum Broken {
    /// The records differ in more than the amount of the workshop's sends, or one is not taken.
    NotAPair,
    Answers([u8; 2]),
    /// Something of the groups that does not hang on the workshop's amounts.
    Groups,
    Points,
}

impl Broken {
    pub fn is_a_finding(self) -> bool {
        self != Broken::NotAPair
    }
}

/// Both runs in the model, asked after every operation.
struct Twins {
    evenings: [Evening; 2],
    checkps_differ: bool,
}

impl Twins {
    fn new(group: &Group) -> Twins {
        let evenings = [group.clone(), group.clone()].map(|group| Evening::new(group, KINDS));
        Twins { evenings, checkps_differ: false }
    }

    fn take(&mut self, operations: [Option<Operation>; 2]) -> Result<(), Broken> {
        let [Some(one), Some(other)] = operations else {
            let neither = operations == [None, None];
            return if neither { Ok(()) } else { Err(Broken::NotAPair) };
        };
        let of_workshop = workshop_sends(one, other);
        if !of_workshop && one != other {
            return Err(Broken::NotAPair);
        }
        let [first, second] = &mut self.evenings;
        let answers = [first.take(one), second.take(other)];
        if of_workshop && answers != [TAKEN; 2] {
            return Err(Broken::NotAPair);
        }
        if answers[0] != answers[1] {
            return Err(Broken::Answers(answers));
        }
        self.checkps_differ |= checkps_differ(&self.evenings[0].group, &self.evenings[1].group);
        self.agree()
    }

    fn agree(&self) -> Result<(), Broken> {
        let [one, other] = &self.evenings;
        if one.group.but_for_amounts() != other.group.but_for_amounts() {
            Err(Broken::Groups)
        } else if one.points.but_for_amounts() != other.points.but_for_amounts() {
            Err(Broken::Points)
        } else {
            Ok(())
        }
    }
}

/// The same send of the workshop, whatever its amounts.
fn workshop_sends(one: Operation, other: Operation) -> bool {
    let line = |operation: Operation| match operation {
        Operation::Step([1, a, b, WORKSHOP_P, ..]) => Some((a, b)),
        _ => None,
    };
    line(one).is_some() && line(one) == line(other)
}

/// Whether a checkp in a line carries another CRC in the one than in the other.
fn checkps_differ(one: &Group, other: &Group) -> bool {
    let checkps = |group: &Group| -> Vec<Packet> {
        let lines = group.numbers().flat_map(|a| group.numbers().map(move |b| (a, b)));
        let packets = lines.flat_map(|(a, b)| group.line(a, b).packets.iter().copied());
        packets.filter(|packet| matches!(packet, Packet::Checkp(_))).collect()
    };
    checkps(one) != checkps(other)
}

/// What a pair reaches, or the first breach.
pub fn check(form: Form, pair: &Pair) -> Result<PairCounts, Breach> {
    let group = model::load(&pair.group).expect("the group file of a pair loads");
    let mut twins = Twins::new(&group);
    let [one, other] = pair.cases().map(|case| form.operations(&case));
    if one.len() != other.len() {
        return Err(Breach { record: one.len().min(other.len()) + 1, what: Broken::NotAPair });
    }
    for (index, operations) in one.into_iter().zip(other).enumerate() {
        twins.take(operations.into()).map_err(|what| Breach { record: index + 1, what })?;
    }
    Ok(PairCounts::of(&twins))
}

// ---------------------------------------------------------------- counts

/// What is counted of a pair.
#[derive(Clone, Copy, PartialEq, Eq, PartialOrd, Ord, Debug)]
pub enum Reached {
    /// At the end the workshop's bookings differ, in some image.
    BookingsDiffer,
    /// In some slot.
    SlotsDiffer,
    /// A checkp had another CRC in the one run than in the other.
    CheckpsDiffer,
    WorkshopPacketDamaged,
    WorkshopPacketLost,
    /// By a checkp or by its own check.
    WorkshopHurtFound,
    /// The CRC alone would have told a loss in one run, and not in the other.
    LossSilentInOne,
    /// A booking of the workshop wrapped in one run, and not in the other.
    WrapInOne,
    LinkFault,
    Commit,
    RecoveryEnded,
    SavePassedOver,
    Trip,
    Fail,
    Point,
    Return,
    Decision,
    Crash,
    /// A group with partners.
    Partners,
    /// A store with a present partner failed or tripped.
    StoreLeft,
    ReportsPassedOn,
    ComeBack,
    LeadGoneRound,
}

impl Reached {
    pub const ALL: [Reached; 23] = [
        Reached::BookingsDiffer,
        Reached::SlotsDiffer,
        Reached::CheckpsDiffer,
        Reached::WorkshopPacketDamaged,
        Reached::WorkshopPacketLost,
        Reached::WorkshopHurtFound,
        Reached::LossSilentInOne,
        Reached::WrapInOne,
        Reached::LinkFault,
        Reached::Commit,
        Reached::RecoveryEnded,
        Reached::SavePassedOver,
        Reached::Trip,
        Reached::Fail,
        Reached::Point,
        Reached::Return,
        Reached::Decision,
        Reached::Crash,
        Reached::Partners,
        Reached::StoreLeft,
        Reached::ReportsPassedOn,
        Reached::ComeBack,
        Reached::LeadGoneRound,
    ];
}

#[derive(Clone, Default, PartialEq, Eq, Debug)]
pub struct PairCounts {
    pub pairs: u64,
    pub operations: u64,
    pub workshop_sends: u64,
    pub versions: BTreeMap<model::PacketVersion, u64>,
    pub reached: BTreeMap<Reached, u64>,
    /// Of pairs in which the workshop's bookings differ at the end.
    pub reached_and_differ: BTreeMap<Reached, u64>,
}

impl PairCounts {
    fn of(twins: &Twins) -> PairCounts {
        let [one, other] = &twins.evenings;
        let [tally, other_tally] = [one.tally(), other.tally()];
        let of_kind = |kind: u8| tally.kinds_taken.contains_key(&kind);
        let hurt = |how: Hurt| tally.workshop.hurt.keys().any(|(_, hurt)| *hurt == how);
        let taken = |answers: &BTreeMap<u8, u64>| answers.contains_key(&TAKEN);
        let bookings_differ = images_differ(&one.group, &other.group);
        let marks = [
            (Reached::BookingsDiffer, bookings_differ),
            (Reached::SlotsDiffer, slots_differ(&one.group, &other.group)),
            (Reached::CheckpsDiffer, twins.checkps_differ),
            (Reached::WorkshopPacketDamaged, hurt(Hurt::Damaged)),
            (Reached::WorkshopPacketLost, hurt(Hurt::Lost)),
            (Reached::WorkshopHurtFound, !tally.workshop.found.is_empty()),
            (Reached::LossSilentInOne, tally.losses.found != other_tally.losses.found),
            (Reached::WrapInOne, tally.workshop.wraps != other_tally.workshop.wraps),
            (Reached::LinkFault, tally.link_faults > 0),
            (Reached::Commit, tally.commits > 0),
            (Reached::RecoveryEnded, tally.recoveries_ended > 0),
            (Reached::SavePassedOver, tally.saves_passed_over > 0),
            (Reached::Trip, of_kind(13)),
            (Reached::Fail, of_kind(10)),
            (Reached::Point, taken(&tally.point_answers)),
            (Reached::Return, taken(&tally.return_answers)),
            (Reached::Decision, !tally.unsure.decisions.is_empty()),
            (Reached::Crash, !tally.crashes.is_empty()),
            (Reached::Partners, tally.partners.with_partners > 0),
            (Reached::StoreLeft, !tally.partners.left.is_empty()),
            (Reached::ReportsPassedOn, tally.partners.passed_on > 0),
            (Reached::ComeBack, tally.partners.come_backs > 0),
            (Reached::LeadGoneRound, tally.partners.leads_gone_round > 0),
        ];
        let reached: BTreeMap<Reached, u64> =
            marks.into_iter().filter(|(_, there)| *there).map(|(mark, _)| (mark, 1)).collect();
        let workshop_sends = tally.workshop.sends_taken.get(&model::Party::Workshop);
        let mut versions = BTreeMap::new();
        count(&mut versions, one.group.packet_version());
        let reached_and_differ = if bookings_differ { reached.clone() } else { BTreeMap::new() };
        PairCounts {
            pairs: 1,
            operations: tally.steps,
            workshop_sends: workshop_sends.copied().unwrap_or_default(),
            versions,
            reached,
            reached_and_differ,
        }
    }

    pub fn add(&mut self, other: &PairCounts) {
        self.pairs += other.pairs;
        self.operations += other.operations;
        self.workshop_sends += other.workshop_sends;
        add_counts(&mut self.versions, &other.versions);
        add_counts(&mut self.reached, &other.reached);
        add_counts(&mut self.reached_and_differ, &other.reached_and_differ);
    }

    pub fn report(&self) -> String {
        let mut text = format!("{} pairs, {} steps in each run\n", self.pairs, self.operations);
        let _ = writeln!(text, "pairs by packet version: {}", counts_text(&self.versions));
        let _ = writeln!(text, "workshop's sends, taken in both: {}", self.workshop_sends);
        for mark in Reached::ALL {
            let of = |counts: &BTreeMap<Reached, u64>| counts.get(&mark).copied();
            let pairs = of(&self.reached).unwrap_or_default();
            let differ = of(&self.reached_and_differ).unwrap_or_default();
            let _ = writeln!(text, "{mark:?}: {pairs} pairs, bookings differ at the end: {differ}");
        }
        text
    }
}

fn images_differ(one: &Group, other: &Group) -> bool {
    let booked = |group: &Group, number: usize| group.cabinet(number).booking(Account::Workshop);
    one.numbers().any(|number| booked(one, number) != booked(other, number))
}

fn slots_differ(one: &Group, other: &Group) -> bool {
    let slots = |group: &Group| -> Vec<Image> {
        group.numbers().flat_map(|a| [0, 1].map(|version| *group.slot(a, version))).collect()
    };
    slots(one) != slots(other)
}

// ---------------------------------------------------------------- what a program prints

/// Whether two texts agree in all but the workshop's bookings, the last of a cabinet's line. The
/// line of `word` has none.
pub fn agree_but_for_workshop(one: &str, other: &str) -> bool {
    let lines = |text: &str| -> Vec<String> { text.lines().map(without_last_booking).collect() };
    lines(one) == lines(other)
}

fn without_last_booking(line: &str) -> String {
    let has_bookings = line.starts_with("cab ") && !line.ends_with(" failed");
    match line.rsplit_once(' ') {
        Some((rest, _)) if has_bookings => rest.to_string(),
        _ => line.to_string(),
    }
}

/// What was found of a pair.
pub enum PairDifference {
    /// The program prints something else for one run.
    Run(Box<Difference>),
    /// The claim does not hold in the model.
    Claim(Pair, Breach),
    /// It does not hold of what the program prints.
    Printed(Pair),
}

pub struct PairComparison {
    pub difference: Option<(u64, PairDifference)>,
    pub counts: PairCounts,
}

pub fn compare_pairs(program: &Path, row: Row) -> io::Result<PairComparison> {
    let program = whole_path(program);
    let look = |index: u64, counts: &mut PairCounts| {
        let pair = make_pair(row.form, case_seed(row.seed, index), row.wishes);
        match check(row.form, &pair) {
            Ok(reached) => counts.add(&reached),
            Err(breach) => return Ok(Some(PairDifference::Claim(pair, breach))),
        }
        let mut texts = Vec::new();
        for case in pair.cases() {
            let printed = run_program(&program, row.form, &case, false)?;
            if printed != row.form.text(&case, KINDS).as_bytes() {
                return Ok(Some(PairDifference::Run(Box::new(Difference { index, case }))));
            }
            texts.push(String::from_utf8_lossy(&printed).into_owned());
        }
        let agree = agree_but_for_workshop(&texts[0], &texts[1]);
        Ok((!agree).then_some(PairDifference::Printed(pair)))
    };
    let (difference, parts) = search(row.cases, look)?;
    let mut counts = PairCounts::default();
    parts.iter().for_each(|part| counts.add(part));
    Ok(PairComparison { difference, counts })
}

// ---------------------------------------------------------------- telling a difference

/// A pair that breaks the claim, as short as it could be made.
pub fn claim_report(form: Form, pair: &Pair, breach: Breach) -> String {
    let short = shrunk(form, pair);
    let breach = check(form, &short).err().unwrap_or(breach);
    told(form, &short, &format!("record {}: {:?}", breach.record, breach.what))
}

pub fn told(form: Form, pair: &Pair, what: &str) -> String {
    let records = |run: &[u8]| run.chunks(form.record_length()).map(hex).collect::<Vec<_>>();
    let [one, other] = pair.runs.each_ref().map(|run| records(run).join(" "));
    let group = hex(&pair.group);
    format!("the two runs differ, {what}\ngroup.dat: {group}\none:   {one}\nother: {other}")
}

/// The records of both runs are taken away together.
fn shrunk(form: Form, pair: &Pair) -> Pair {
    let length = form.record_length();
    let both = pair.runs[0].chunks(length).zip(pair.runs[1].chunks(length));
    let both = both.take(RECORDS_READ).filter(|(one, other)| one.len() + other.len() == 2 * length);
    let steps = both.flat_map(|(one, other)| [one, other].concat()).collect();
    let whole = Case { group: pair.group.clone(), steps };
    let apart = |case: &Case| -> Pair {
        let records = case.steps.chunks(2 * length);
        let runs = [0, length].map(|start| {
            records.clone().flat_map(|both| both[start..start + length].to_vec()).collect()
        });
        Pair { group: case.group.clone(), runs }
    };
    let breaks =
        |case: &Case| check(form, &apart(case)).is_err_and(|breach| breach.what.is_a_finding());
    apart(&shrink(&whole, 2 * length, breaks))
}
