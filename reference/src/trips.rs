//! Counts of what trips bring: trips taken, refused and crashing, what became of the saves, who
//! leads after them, and what the others do while a tripped cabinet is not restored.

use crate::listing::{add_counts, count, counts_text};
use crate::model::{Crash, Event, Group, Number, Outcome, State, CRASHED, TAKEN};
use std::collections::BTreeMap;
use std::fmt::Write;

#[cfg(test)]
mod tests;

/// What lies between a trip that is taken as one and two earlier trips of the same cabinet.
#[derive(Clone, Copy, PartialEq, Eq, PartialOrd, Ord, Debug)]
pub enum Between {
    Commit,
    /// No other one.
    CommitPassedOver,
}

#[derive(Clone, Default, PartialEq, Eq, Debug)]
pub struct TripCounts {
    /// As trips, and so in the next four.
    pub taken: u64,
    /// By the state of the cabinet.
    pub taken_in: BTreeMap<State, u64>,
    pub of_coordinators: u64,
    /// Others are joined only through the cabinet, which is not coordinator.
    pub of_joining_cabinets: u64,
    pub after_two: BTreeMap<Between, u64>,
    /// Third ones, taken as fails.
    pub taken_as_fails: u64,
    pub fails_of_coordinators: u64,
    /// By answer.
    pub refused: BTreeMap<u8, u64>,
    /// Third ones have the causes of a fail.
    pub crashes: BTreeMap<Crash, u64>,
    /// Recoveries ended with a tripped cabinet restored.
    pub recoveries_ended: u64,
    /// By such recoveries, the tripped one having been its coordinator.
    pub saves_passed_over: u64,
    /// By a cabinet that is not the lowest working one.
    pub begins_by_moved_lead: u64,
    pub commits_by_moved_lead: u64,
    /// By kind 10.
    pub fails_of_moved_lead: u64,
    /// While a tripped cabinet is not restored; the same for the rest.
    pub link_faults: u64,
    pub places_met: u64,
    pub commits: u64,
    /// Of the tripped cabinet, taken.
    pub reports: u64,
    /// Of another one, after which only the tripped cabinet's is missing.
    pub reports_before_its: u64,
}

impl TripCounts {
    /// The stand is that of before the step, the group that of after it.
    pub(crate) fn count_step(
        &mut self,
        watch: &mut TripWatch,
        stand: Option<Stand>,
        group: &Group,
        record: &[u8],
        outcome: Outcome,
    ) {
        match (record.first(), stand) {
            (Some(13), _) => self.count_trip(watch, stand, outcome),
            (Some(3), Some(stand)) if outcome.answer == TAKEN => {
                watch.lead_is_moved = !stand.is_lowest;
                self.begins_by_moved_lead += u64::from(watch.lead_is_moved);
            }
            (Some(10), Some(stand)) if outcome.answer == TAKEN => {
                self.fails_of_moved_lead += u64::from(stand.leads && !stand.is_lowest);
            }
            (Some(6), _) if outcome.answer == TAKEN => {
                self.count_report(watch, group, usize::from(record[1]));
            }
            _ => {}
        }
        self.count_event(watch, outcome.event);
        watch.after_step(stand, record, outcome);
    }

    fn count_trip(&mut self, watch: &TripWatch, stand: Option<Stand>, outcome: Outcome) {
        match (outcome.answer, stand, outcome.event) {
            (TAKEN, Some(stand), _) if stand.third => {
                self.taken_as_fails += 1;
                self.fails_of_coordinators += u64::from(stand.leads);
            }
            (TAKEN, Some(stand), _) => {
                self.taken += 1;
                count(&mut self.taken_in, stand.state);
                self.of_coordinators += u64::from(stand.leads);
                self.of_joining_cabinets += u64::from(stand.joins_others);
                if let Some(between) = watch.since_two_trips(stand.cabinet) {
                    count(&mut self.after_two, between);
                }
            }
            (CRASHED, _, Event::Crash(cause)) => count(&mut self.crashes, cause),
            (answer, ..) => count(&mut self.refused, answer),
        }
    }

    fn count_report(&mut self, watch: &TripWatch, group: &Group, cabinet: Number) {
        let Some(open) = watch.open else {
            return;
        };
        let own = cabinet == open.cabinet;
        self.reports += u64::from(own);
        self.reports_before_its += u64::from(!own && misses_only(group, open.cabinet));
    }

    fn count_event(&mut self, watch: &TripWatch, event: Event) {
        if event == Event::Commit {
            self.commits_by_moved_lead += u64::from(watch.lead_is_moved);
        }
        let Some(open) = watch.open else {
            return;
        };
        match event {
            Event::Commit => self.commits += 1,
            Event::LinkFault(_) => self.link_faults += 1,
            Event::Crash(Crash::PlacesMet) => self.places_met += 1,
            Event::RecoveryEnd { save_passed_over } => {
                self.recoveries_ended += 1;
                self.saves_passed_over += u64::from(open.led && save_passed_over);
            }
            _ => {}
        }
    }

    pub(crate) fn add(&mut self, other: &TripCounts) {
        self.taken += other.taken;
        add_counts(&mut self.taken_in, &other.taken_in);
        self.of_coordinators += other.of_coordinators;
        self.of_joining_cabinets += other.of_joining_cabinets;
        add_counts(&mut self.after_two, &other.after_two);
        self.taken_as_fails += other.taken_as_fails;
        self.fails_of_coordinators += other.fails_of_coordinators;
        add_counts(&mut self.refused, &other.refused);
        add_counts(&mut self.crashes, &other.crashes);
        self.recoveries_ended += other.recoveries_ended;
        self.saves_passed_over += other.saves_passed_over;
        self.begins_by_moved_lead += other.begins_by_moved_lead;
        self.commits_by_moved_lead += other.commits_by_moved_lead;
        self.fails_of_moved_lead += other.fails_of_moved_lead;
        self.link_faults += other.link_faults;
        self.places_met += other.places_met;
        self.commits += other.commits;
        self.reports += other.reports;
        self.reports_before_its += other.reports_before_its;
    }

    pub(crate) fn report(&self) -> String {
        let (of_coordinators, joining) = (self.of_coordinators, self.of_joining_cabinets);
        let mut text = format!("trips taken: {}, of coordinators: {of_coordinators}", self.taken);
        let _ = writeln!(text, ", of others that join some: {joining}");
        let _ = writeln!(text, "trips taken in: {}", counts_text(&self.taken_in));
        let _ = writeln!(text, "after two trips and a: {}", counts_text(&self.after_two));
        let (fails, of_coordinators) = (self.taken_as_fails, self.fails_of_coordinators);
        let _ = write!(text, "third trips, taken as fails: {fails}, ");
        let _ = writeln!(text, "of coordinators: {of_coordinators}");
        let _ = writeln!(text, "trips refused: {}", counts_text(&self.refused));
        let _ = writeln!(text, "crashes by a trip: {}", counts_text(&self.crashes));
        let passed_over = self.saves_passed_over;
        let _ = write!(text, "recoveries ended after a trip: {}, ", self.recoveries_ended);
        let _ = writeln!(text, "with the coordinator's save passed over: {passed_over}");
        let (begins, commits) = (self.begins_by_moved_lead, self.commits_by_moved_lead);
        let fails = self.fails_of_moved_lead;
        let _ =
            writeln!(text, "by a moved lead, begins: {begins}, commits: {commits}, fails: {fails}");
        let (faults, met, commits) = (self.link_faults, self.places_met, self.commits);
        let _ = write!(text, "while a tripped one is not restored, link faults found: {faults}, ");
        let _ = write!(text, "places met: {met}, commits: {commits}, ");
        let (own, before) = (self.reports, self.reports_before_its);
        let _ = writeln!(text, "reports on it: {own}, on all others: {before}");
        text
    }
}

/// Whether a coordinator has the reports on all cabinets of its table but this one.
pub(crate) fn misses_only(group: &Group, cabinet: Number) -> bool {
    let misses = |number: Number| {
        let lead = group.cabinet(number);
        let saving = lead.coordinator() == number && lead.takes_reports();
        saving && lead.reports_missing() == [cabinet]
    };
    group.numbers().any(misses)
}

/// How the cabinet of a begin, a fail or a trip stands before the step.
#[derive(Clone, Copy, Debug)]
pub(crate) struct Stand {
    cabinet: Number,
    state: State,
    leads: bool,
    /// Of the working ones.
    is_lowest: bool,
    joins_others: bool,
    /// The next trip would be the third.
    third: bool,
}

impl Stand {
    /// None if the record is of another kind or names no cabinet of the group.
    pub(crate) fn of(group: &Group, record: &[u8]) -> Option<Stand> {
        let &[3 | 10 | 13, a, ..] = record else {
            return None;
        };
        let number = usize::from(a);
        if !group.numbers().contains(&number) {
            return None;
        }
        let cabinet = group.cabinet(number);
        Some(Stand {
            cabinet: number,
            state: cabinet.state,
            leads: cabinet.coordinator() == number,
            is_lowest: group.working_cabinets().first() == Some(&number),
            joins_others: group.joins_others(number),
            third: group.trip_is_a_fail(number),
        })
    }
}

/// A trip whose recovery has not ended.
#[derive(Clone, Copy, Debug)]
struct OpenTrip {
    cabinet: Number,
    /// It was coordinator.
    led: bool,
}

/// For the counts only: what became of trips, commits and recoveries so far.
#[derive(Default)]
pub(crate) struct TripWatch {
    open: Option<OpenTrip>,
    /// The last begin was that of a moved lead.
    lead_is_moved: bool,
    /// Of each cabinet, from the start.
    trips: BTreeMap<Number, u64>,
    /// Since the last commit that was not passed over.
    trips_since_commit: BTreeMap<Number, u64>,
    /// What the last commit ended of those.
    trips_before_commit: BTreeMap<Number, u64>,
}

impl TripWatch {
    pub(crate) fn trip_is_open(&self) -> bool {
        self.open.is_some()
    }

    fn since_two_trips(&self, cabinet: Number) -> Option<Between> {
        let two_in = |trips: &BTreeMap<Number, u64>| trips.get(&cabinet).is_some_and(|&t| t >= 2);
        if two_in(&self.trips_since_commit) {
            Some(Between::CommitPassedOver)
        } else {
            two_in(&self.trips).then_some(Between::Commit)
        }
    }

    fn after_step(&mut self, stand: Option<Stand>, record: &[u8], outcome: Outcome) {
        match (record.first(), outcome.answer, stand) {
            (Some(13), TAKEN, Some(stand)) if !stand.third => {
                self.open = Some(OpenTrip { cabinet: stand.cabinet, led: stand.leads });
                count(&mut self.trips, stand.cabinet);
                count(&mut self.trips_since_commit, stand.cabinet);
            }
            _ => {}
        }
        match outcome.event {
            Event::Commit => {
                self.trips_before_commit = std::mem::take(&mut self.trips_since_commit);
            }
            Event::RecoveryEnd { save_passed_over } => {
                self.open = None;
                if save_passed_over {
                    add_counts(&mut self.trips_since_commit, &self.trips_before_commit);
                }
            }
            _ => {}
        }
    }
}
