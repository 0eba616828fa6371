//! Trips in made cases: of coordinators, of cabinets that join others, of one that stumbles again
//! and again, and beside a link fault that is about to be found; mostly where the group does not
//! crash. And trips that are refused.

use super::{record, Record, Run};
use crate::model::{Crash, Event, Number, Packet, State};
use crate::trips::misses_only;
use std::collections::BTreeMap;

fn trip_of(cabinet: Number) -> Record {
    record(13, cabinet, 0, 0, 0)
}

// ---------------------------------------------------------------- sensible trips

impl Run<'_> {
    pub(super) fn sensible_trip(&mut self) -> Option<Record> {
        let bold = self.boldness_to_trip();
        if self.dice.per_thousand(bold) {
            return self.crashing_trip();
        }
        if self.dice.per_thousand(50) {
            return self.refused_trip();
        }
        self.trip_that_cuts_off().or_else(|| self.safe_trip())
    }

    /// A recovery is long, and a trip asked for again and again.
    fn boldness_to_trip(&self) -> usize {
        if self.group.recovery_under_way() {
            self.temper.bold / 4
        } else {
            self.temper.bold
        }
    }

    /// Mostly of the stumbler, if there is one; else rather of a coordinator, or of a cabinet that
    /// joins others, than of any.
    pub(super) fn safe_trip(&mut self) -> Option<Record> {
        let twice = self.tripped_twice();
        if let Some(trip) = twice.and_then(|cabinet| self.trip_towards_its_third(cabinet)) {
            return Some(trip);
        }
        let safe = self.cabinets_safe_to_trip();
        let stumbler = self.temper.stumbler.filter(|stumbler| safe.contains(stumbler));
        if stumbler.is_some() && self.dice.per_thousand(800) {
            return stumbler.map(trip_of);
        }
        let leads = |a: &Number| self.group.cabinet(*a).coordinator() == *a;
        let joins = |a: &Number| self.group.joins_others(*a);
        let liked: Vec<Number> = match self.dice.below(4) {
            0 | 1 => safe.iter().copied().filter(leads).collect(),
            2 => safe.iter().copied().filter(joins).collect(),
            _ => Vec::new(),
        };
        let chosen = self.dice.pick_any(&liked).or_else(|| self.dice.pick_any(&safe));
        chosen.map(trip_of)
    }

    /// Now and then, of one that is to lead, or that leads after two trips.
    pub(super) fn trip_towards_its_third(&mut self, cabinet: Number) -> Option<Record> {
        let lead = self.lead()?;
        let helps = lead == cabinet || self.next_to_lead() == Some(cabinet);
        let safe = helps && self.group.crash_by_tripping(lead).is_none();
        (safe && self.dice.per_thousand(400)).then(|| trip_of(lead))
    }

    pub(super) fn next_to_lead(&self) -> Option<Number> {
        let lead = self.lead()?;
        let working = self.group.working_cabinets();
        let next = working.range(lead + 1..).next().or(working.first()).copied();
        next.filter(|&next| next != lead)
    }

    pub(super) fn cabinets_safe_to_trip(&self) -> Vec<Number> {
        let working = self.group.working_cabinets().into_iter();
        working.filter(|&a| self.group.crash_by_tripping(a).is_none()).collect()
    }

    /// Each cause that there is as likely as the others, but a store's trip, which is nearly always
    /// there, and a third trip in a recovery, which seldom is.
    pub(super) fn crashing_trip(&mut self) -> Option<Record> {
        let mut by_cause: BTreeMap<Crash, Vec<Number>> = BTreeMap::new();
        for a in self.group.working_cabinets() {
            if let Some(cause) = self.group.crash_by_tripping(a) {
                by_cause.entry(cause).or_default().push(a);
            }
        }
        if by_cause.len() > 1 && self.dice.per_thousand(850) {
            by_cause.remove(&Crash::StoreTripped);
        }
        if by_cause.contains_key(&Crash::FailInRecovery) && self.dice.per_thousand(500) {
            by_cause.retain(|cause, _| *cause == Crash::FailInRecovery);
        }
        let causes: Vec<Crash> = by_cause.keys().copied().collect();
        let cause = self.dice.pick_any(&causes)?;
        self.dice.pick_any(&by_cause[&cause]).map(trip_of)
    }

    /// Now and then the third trip of any cabinet, seldom a coordinator's, which could come any
    /// time.
    pub(super) fn trip_that_cuts_off(&mut self) -> Option<Record> {
        let third = self.some_tripping_with(Crash::CutOffByFail);
        let coordinator = self.some_tripping_with(Crash::CutOffByTrip);
        let third = third.filter(|_| self.dice.per_thousand(250));
        let coordinator = coordinator.filter(|_| self.dice.per_thousand(40));
        third.or(coordinator).map(trip_of)
    }

    fn some_tripping_with(&mut self, cause: Crash) -> Option<Number> {
        let working = self.group.working_cabinets().into_iter();
        let crashes = |a: &Number| self.group.crash_by_tripping(*a) == Some(cause);
        let fitting: Vec<Number> = working.filter(crashes).collect();
        self.dice.pick_any(&fitting)
    }
}

// ---------------------------------------------------------------- trips at chosen moments

impl Run<'_> {
    /// Out of sight of a line whose oldest packet tells a link fault; its deliver is to follow.
    pub(super) fn trip_beside_a_link_fault(&mut self) -> Option<Record> {
        let mut delivers = self.delivers_that_may_tell_a_fault();
        delivers.retain(|deliver| self.finds_a_link_fault(&[*deliver]));
        let deliver = self.dice.pick_any(&delivers)?;
        let mut safe = self.cabinets_safe_to_trip();
        safe.retain(|&a| self.finds_a_link_fault(&[trip_of(a), deliver]));
        let cabinet = self.dice.pick_any(&safe)?;
        self.to_follow.push_back(deliver);
        Some(trip_of(cabinet))
    }

    fn delivers_that_may_tell_a_fault(&self) -> Vec<Record> {
        let mut lines = self.filled_lines();
        lines.retain(|&(from, to)| {
            let line = self.group.line(from, to);
            line.hurt || line.packets.front() == Some(&Packet::Invalid)
        });
        lines.into_iter().map(|(from, to)| record(4, from, to, 0, 0)).collect()
    }

    /// Whether the last of these records finds one, without a crash.
    fn finds_a_link_fault(&self, records: &[Record]) -> bool {
        let mut group = self.group.clone();
        let outcomes = records.iter().map(|record| group.step(record, self.wishes.highest_kind));
        outcomes.last().is_some_and(|outcome| matches!(outcome.event, Event::LinkFault(_)))
    }

    /// Somebody trips out of sight of the coordinator, which may still have the reports on all
    /// others, or even the one on the tripped cabinet; they are to follow.
    pub(super) fn trip_before_the_reports(&mut self, with_its_own: bool) -> Option<Record> {
        let written = |a: &Number| self.group.cabinet(*a).state == State::Checkpointed;
        let working = self.group.working_cabinets();
        if working.iter().filter(|a| !written(a)).count() > 1 {
            return None;
        }
        let mut safe = self.cabinets_safe_to_trip();
        safe.retain(|&a| self.reports_may_come_after_trip_of(a, with_its_own));
        let cabinet = self.dice.pick_any(&safe)?;
        self.to_follow.extend(self.reports_with_the_last_on(cabinet));
        Some(trip_of(cabinet))
    }

    fn reports_with_the_last_on(&self, cabinet: Number) -> Vec<Record> {
        let mut reports: Vec<Number> = self.group.numbers().collect();
        reports.retain(|&a| a != cabinet && self.taken(&record(6, a, 0, 0, 0)));
        reports.push(cabinet);
        reports.into_iter().map(|a| record(6, a, 0, 0, 0)).collect()
    }

    /// Whether they lead to a commit with its own, or else to all but its own.
    fn reports_may_come_after_trip_of(&self, cabinet: Number, with_its_own: bool) -> bool {
        let mut group = self.group.clone();
        group.step(&trip_of(cabinet), self.wishes.highest_kind);
        let mut last = Event::Nothing;
        for report in self.reports_with_the_last_on(cabinet) {
            last = group.step(&report, self.wishes.highest_kind).event;
        }
        if with_its_own {
            last == Event::Commit
        } else {
            misses_only(&group, cabinet)
        }
    }

    /// It is no more the one whose loss leaves the others unsure.
    pub(super) fn trip_of_the_number_before(&mut self, lead: Number) -> Option<Record> {
        let working = self.group.working_cabinets();
        let before = working.range(..lead).next_back().or(working.last()).copied();
        let before = before.filter(|&before| before != lead)?;
        self.group.crash_by_tripping(before).is_none().then(|| trip_of(before))
    }
}

// ---------------------------------------------------------------- after trips

impl Run<'_> {
    fn tripped_twice(&self) -> Option<Number> {
        self.group.numbers().find(|&a| self.group.trip_is_a_fail(a))
    }

    /// The first commit after two trips of a cabinet pardons it, also if that save is passed over:
    /// then it mostly trips soon.
    pub(super) fn note_pardons(&mut self, event: Event) {
        match event {
            Event::RecoveryEnd { save_passed_over } => {
                if let (Some(cabinet), true) = (self.pardoned, save_passed_over) {
                    self.temper.stumbler = Some(cabinet);
                    self.trip_first = self.dice.pick(&[0, 200, 500]);
                }
                if self.tripped_twice().is_some() {
                    self.save_first = self.dice.pick(&[0, 0, 400]);
                }
            }
            Event::Commit => self.pardoned = self.twice_before.take(),
            _ => self.twice_before = self.tripped_twice(),
        }
    }
}

// ---------------------------------------------------------------- refused trips

impl Run<'_> {
    fn refused_trip(&mut self) -> Option<Record> {
        match self.dice.below(3) {
            0 => self.trip_of_a_failed_cabinet(),
            1 => Some(trip_of(self.dice.pick(&[0, self.group.size() + 1, 255]))),
            _ => {
                let mut record = trip_of(self.any_cabinet());
                record[self.dice.between(2, 5)] = self.dice.between(1, 255) as u8;
                Some(record)
            }
        }
    }

    fn trip_of_a_failed_cabinet(&mut self) -> Option<Record> {
        let failed = |a: &Number| !self.group.cabinet(*a).working();
        let failed: Vec<Number> = self.group.numbers().filter(failed).collect();
        self.dice.pick_any(&failed).map(trip_of)
    }
}
