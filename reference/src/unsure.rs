//! Counts of what reports unsure bring: reports taken and refused, decisions, and how the
//! recoveries with reports ended.

use crate::listing::{add_counts, count, counts_text};
use crate::model::{Cabinet, Event, Group, Number, Outcome, Place, State, TAKEN, WITHDRAWN_KIND};
use std::collections::BTreeMap;
use std::fmt::Write;

#[cfg(test)]
mod tests;

/// How the former coordinator was lost.
#[derive(Clone, Copy, PartialEq, Eq, PartialOrd, Ord, Debug)]
pub enum Lost {
    Failed,
    Tripped,
}

/// Why a report was refused.
#[derive(Clone, Copy, PartialEq, Eq, PartialOrd, Ord, Debug)]
pub enum Refusal {
    /// With 9, and so on.
    UnusedField,
    GroupCrashed,
    StrangeCabinet,
    CabinetFailed,
    /// With 14, as the next four: in normal or a saving state.
    InOperation,
    /// In recovering or recovered.
    KnowsVersion,
    /// In error for a link.
    LinkFault,
    /// In error for a cabinet that did not lead.
    OtherCabinet,
    /// The same, where the coordinator is the one that would have come after it.
    OtherBeforeLead,
    /// With 19, as the next two.
    ReportedAlready,
    /// The coordinator has not entered error.
    CoordinatorUnaware,
    /// It has left error.
    CoordinatorKnows,
}

impl Refusal {
    pub const ALL: [Refusal; 12] = [
        Refusal::UnusedField,
        Refusal::GroupCrashed,
        Refusal::StrangeCabinet,
        Refusal::CabinetFailed,
        Refusal::InOperation,
        Refusal::KnowsVersion,
        Refusal::LinkFault,
        Refusal::OtherCabinet,
        Refusal::OtherBeforeLead,
        Refusal::ReportedAlready,
        Refusal::CoordinatorUnaware,
        Refusal::CoordinatorKnows,
    ];

    pub fn answer(self) -> u8 {
        match self {
            Refusal::UnusedField => 9,
            Refusal::GroupCrashed => 10,
            Refusal::StrangeCabinet => 11,
            Refusal::CabinetFailed => 12,
            Refusal::InOperation
            | Refusal::KnowsVersion
            | Refusal::LinkFault
            | Refusal::OtherCabinet
            | Refusal::OtherBeforeLead => 14,
            Refusal::ReportedAlready | Refusal::CoordinatorUnaware | Refusal::CoordinatorKnows => {
                19
            }
        }
    }
}

#[derive(Clone, Default, PartialEq, Eq, Debug)]
pub struct UnsureCounts {
    /// Reports, and so in the next three.
    pub taken: u64,
    pub of_tripped: u64,
    /// Some working cabinet had not entered error.
    pub before_all_know: u64,
    /// The coordinator was in error for another place.
    pub at_another_place: u64,
    pub refused: BTreeMap<Refusal, u64>,
    pub decisions: BTreeMap<Lost, u64>,
    /// Of these, the last report was not that of the one that decides.
    pub by_anothers_report: u64,
    /// No link of the file joins the one that decides and the lost one.
    pub by_one_not_joined: u64,
    /// Recoveries ended after a decision.
    pub recoveries_ended: BTreeMap<Lost, u64>,
    /// By such recoveries.
    pub saves_passed_over: u64,
    /// Recoveries ended with some reports and no decision: recover came first.
    pub recoveries_by_recover: u64,
    /// Whole records of the kind that is withdrawn.
    pub withdrawn: u64,
    /// Of these, all working cabinets being in error with unknown version.
    pub withdrawn_where_all_wait: u64,
}

impl UnsureCounts {
    /// The group is that of after the step.
    pub(crate) fn count_step(
        &mut self,
        watch: &mut UnsureWatch,
        group: &Group,
        record: &[u8],
        outcome: Outcome,
    ) {
        match (record, outcome.answer) {
            (&[14, a, ..], TAKEN) => self.count_report(group, usize::from(a)),
            (&[14, a, ..], answer) => {
                if let Some(refusal) = refusal(group, usize::from(a), answer) {
                    count(&mut self.refused, refusal);
                }
            }
            (&[WITHDRAWN_KIND, _, _, _, _, _], _) => {
                self.withdrawn += 1;
                self.withdrawn_where_all_wait += u64::from(group.all_wait());
            }
            _ => {}
        }
        self.count_event(watch, group, record, outcome.event);
        watch.after_step(group, record, outcome);
    }

    fn count_report(&mut self, group: &Group, a: Number) {
        let place = group.cabinet(a).place();
        let coordinator = group.cabinet(group.cabinet(a).coordinator());
        let unaware = |number: Number| !group.cabinet(number).state.in_recovery();
        self.taken += 1;
        self.of_tripped += u64::from(place == Some(Place::Tripped(a)));
        self.before_all_know += u64::from(group.working_cabinets().into_iter().any(unaware));
        self.at_another_place += u64::from(coordinator.place() != place);
    }

    fn count_event(&mut self, watch: &UnsureWatch, group: &Group, record: &[u8], event: Event) {
        match (event, watch.decided) {
            (Event::Decision { by }, _) => {
                let Some((lost, number)) = lost_coordinator(group, by) else {
                    return;
                };
                count(&mut self.decisions, lost);
                self.by_anothers_report += u64::from(usize::from(record[1]) != by);
                self.by_one_not_joined += u64::from(!group.link_in_file(by, number));
            }
            (Event::RecoveryEnd { save_passed_over }, Some(lost)) => {
                count(&mut self.recoveries_ended, lost);
                self.saves_passed_over += u64::from(save_passed_over);
            }
            (Event::RecoveryEnd { .. }, None) => {
                self.recoveries_by_recover += u64::from(watch.reported);
            }
            _ => {}
        }
    }

    /// With this answer.
    pub fn refused_with(&self, answer: u8) -> u64 {
        let refused = self.refused.iter().filter(|(refusal, _)| refusal.answer() == answer);
        refused.map(|(_, count)| count).sum()
    }

    pub(crate) fn add(&mut self, other: &UnsureCounts) {
        self.taken += other.taken;
        self.of_tripped += other.of_tripped;
        self.before_all_know += other.before_all_know;
        self.at_another_place += other.at_another_place;
        add_counts(&mut self.refused, &other.refused);
        add_counts(&mut self.decisions, &other.decisions);
        self.by_anothers_report += other.by_anothers_report;
        self.by_one_not_joined += other.by_one_not_joined;
        add_counts(&mut self.recoveries_ended, &other.recoveries_ended);
        self.saves_passed_over += other.saves_passed_over;
        self.recoveries_by_recover += other.recoveries_by_recover;
        self.withdrawn += other.withdrawn;
        self.withdrawn_where_all_wait += other.withdrawn_where_all_wait;
    }

    pub(crate) fn report(&self) -> String {
        let (tripped, before) = (self.of_tripped, self.before_all_know);
        let mut text = format!("reports unsure taken: {}, of a tripped one: {tripped}", self.taken);
        let _ = write!(text, ", before all have entered error: {before}");
        let _ = writeln!(text, ", at one in error for another place: {}", self.at_another_place);
        let (with_14, with_19) = (self.refused_with(14), self.refused_with(19));
        let _ = write!(text, "reports unsure refused with 14: {with_14}, with 19: {with_19} ");
        let _ = writeln!(text, "({})", counts_text(&self.refused));
        let (by_another, not_joined) = (self.by_anothers_report, self.by_one_not_joined);
        let (decisions, by_lost) = summed(&self.decisions);
        let _ = write!(text, "decisions: {decisions} (coordinator {by_lost}), ");
        let _ =
            writeln!(text, "by another's report: {by_another}, by one not joined: {not_joined}");
        let (ended, by_lost) = summed(&self.recoveries_ended);
        let _ =
            write!(text, "recoveries ended after a decision: {ended} (coordinator {by_lost}), ");
        let _ = writeln!(text, "with a save passed over: {}", self.saves_passed_over);
        let by_recover = self.recoveries_by_recover;
        let _ = writeln!(text, "recoveries ended by recover after some reports: {by_recover}");
        let (withdrawn, where_all_wait) = (self.withdrawn, self.withdrawn_where_all_wait);
        let _ = write!(text, "records of kind {WITHDRAWN_KIND}: {withdrawn}, ");
        let _ = writeln!(text, "where all are in error with unknown version: {where_all_wait}");
        text
    }
}

/// How many there are in all, and of each.
fn summed(counts: &BTreeMap<Lost, u64>) -> (u64, String) {
    (counts.values().sum(), counts_text(counts))
}

/// Why a report is refused with this answer, the group being that of before or after it. None
/// where kind 14 is unknown.
pub(crate) fn refusal(group: &Group, a: Number, answer: u8) -> Option<Refusal> {
    Some(match answer {
        9 => Refusal::UnusedField,
        10 => Refusal::GroupCrashed,
        11 => Refusal::StrangeCabinet,
        12 => Refusal::CabinetFailed,
        14 => refusal_of_cabinet(group, group.cabinet(a)),
        19 => {
            let coordinator = group.cabinet(group.cabinet(a).coordinator());
            if coordinator.reported_unsure().contains(&a) {
                Refusal::ReportedAlready
            } else if coordinator.state.in_recovery() {
                Refusal::CoordinatorKnows
            } else {
                Refusal::CoordinatorUnaware
            }
        }
        _ => return None,
    })
}

fn refusal_of_cabinet(group: &Group, cabinet: &Cabinet) -> Refusal {
    match (cabinet.state, cabinet.place()) {
        (State::Error, Some(Place::Failed(_) | Place::Tripped(_))) => {
            if seems_to_have_lost_its_coordinator(group, cabinet) {
                Refusal::OtherBeforeLead
            } else {
                Refusal::OtherCabinet
            }
        }
        (State::Error, _) => Refusal::LinkFault,
        (state, _) if state.in_recovery() => Refusal::KnowsVersion,
        _ => Refusal::InOperation,
    }
}

/// In error for a cabinet that did not lead, the next number after which leads: as if it had.
fn seems_to_have_lost_its_coordinator(group: &Group, cabinet: &Cabinet) -> bool {
    let Some(Place::Failed(lost) | Place::Tripped(lost)) = cabinet.place() else {
        return false;
    };
    let working = group.working_cabinets();
    let next = working.range(lost + 1..).next().or(working.first()).copied();
    cabinet.waits() && !cabinet.lost_its_coordinator() && next == Some(cabinet.coordinator())
}

/// How it was lost and its number, as the place of this cabinet's fault says.
fn lost_coordinator(group: &Group, number: Number) -> Option<(Lost, Number)> {
    match group.cabinet(number).place()? {
        Place::Failed(lost) => Some((Lost::Failed, lost)),
        Place::Tripped(lost) => Some((Lost::Tripped, lost)),
        Place::Link(..) => None,
    }
}

/// For the counts only: what came of reports since the last recovery's end.
#[derive(Default)]
pub(crate) struct UnsureWatch {
    reported: bool,
    decided: Option<Lost>,
}

impl UnsureWatch {
    fn after_step(&mut self, group: &Group, record: &[u8], outcome: Outcome) {
        self.reported |= record.first() == Some(&14) && outcome.answer == TAKEN;
        match outcome.event {
            Event::Decision { by } => {
                self.decided = lost_coordinator(group, by).map(|(lost, _)| lost);
            }
            Event::RecoveryEnd { .. } => *self = UnsureWatch::default(),
            _ => {}
        }
    }
}
