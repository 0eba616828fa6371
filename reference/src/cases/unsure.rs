//! Reports unsure in made cases. A coordinator is lost where all others, or many, don't know their
//! version; then reports come in any order, early or late, again, or without one of them, and
//! a recover may come first. And reports that are refused.

use super::{record, Dice, Record, Run};
use crate::model::{Event, Group, Number, Packet, State, Step, WITHDRAWN_KIND};
use crate::unsure::{refusal, Refusal};
use std::collections::BTreeMap;

fn report_of(cabinet: Number) -> Record {
    record(14, cabinet, 0, 0, 0)
}

/// How reports come in one recovery.
#[derive(Default)]
pub(super) struct Doubt {
    /// Tries left in which reports are asked for first.
    eager: usize,
    /// Who does not report.
    silent: Option<Number>,
    /// Tries left until it does.
    patience: usize,
}

impl Doubt {
    fn drawn(dice: &mut Dice, group: &Group) -> Doubt {
        let working: Vec<Number> = group.working_cabinets().into_iter().collect();
        let silent = dice.pick(&working);
        Doubt {
            eager: dice.pick(&[0, 10, 40]),
            silent: dice.per_thousand(300).then_some(silent),
            patience: dice.pick(&[10, 30, 200]),
        }
    }

    /// Whether this one is not to report yet; asked often, it is.
    pub(super) fn keeps_silent(&mut self, cabinet: Number) -> bool {
        let silent = self.silent == Some(cabinet) && self.patience > 0;
        self.patience -= usize::from(silent);
        silent
    }

    pub(super) fn end_silence(&mut self) {
        self.patience = 0;
    }
}

// ---------------------------------------------------------------- coordinators lost

impl Run<'_> {
    /// Of the working cabinets but the coordinator, how many don't know their version, and how
    /// many there are.
    pub(super) fn doubters(&self) -> (usize, usize) {
        let Some(lead) = self.lead() else {
            return (0, 0);
        };
        let mut others = self.group.working_cabinets();
        others.remove(&lead);
        let unknown = others.iter().filter(|&&a| !self.group.cabinet(a).version.known());
        (unknown.count(), others.len())
    }

    /// In a save, rather where nobody else knows.
    pub(super) fn chance_to_strike_in_save(&self) -> usize {
        if self.group.recovery_under_way() || self.group.crashed() {
            return 0;
        }
        match self.doubters() {
            (0, _) => 0,
            (unknown, others) if unknown == others => self.temper.strike_in_save,
            _ => self.temper.strike_in_save / 10,
        }
    }

    pub(super) fn after_fault(&mut self) {
        self.doubt = Doubt::drawn(self.dice, &self.group);
    }

    /// The next to lead is about to find a link fault by a resume packet that is hurt, now or
    /// before: then the coordinator is lost out of its sight. The deliver is to follow, and the
    /// report of one that knows better.
    pub(super) fn fault_beside_a_hurt_lead(&mut self) -> Option<Record> {
        let next = self.next_to_lead()?;
        let wished = self.wishes.damage && self.wishes.reports();
        let unknown = self.group.cabinet(next).state == State::Checkpointed;
        if !wished || !unknown || self.group.recovery_under_way() {
            return None;
        }
        let fault = self.lead().and_then(|lead| self.safe_fault_of(lead))?;
        let mut lines = self.filled_lines();
        lines.retain(|&(_, to)| to == next);
        let way = lines.into_iter().find_map(|(from, to)| {
            let deliver = record(4, from, to, 0, 0);
            let hurt = match self.group.line(from, to).packets.front() {
                Some(Packet::Invalid) => None,
                _ => Some(record(11, from, to, 0, 1)),
            };
            let way: Vec<Record> = hurt.into_iter().chain([fault, deliver]).collect();
            self.with_a_report_after(way, next)
        })?;
        self.to_follow.extend(&way[1..]);
        way.first().copied()
    }

    /// If the last record finds a link fault and a report to that cabinet is taken then.
    fn with_a_report_after(&self, mut way: Vec<Record>, lead: Number) -> Option<Vec<Record>> {
        let mut group = self.group.clone();
        let outcomes = way.iter().map(|record| group.step(record, self.wishes.highest_kind));
        let found = outcomes.last().is_some_and(|o| matches!(o.event, Event::LinkFault(_)));
        let mut numbers = group.numbers();
        let reports = |a: &Number| {
            let to_lead = group.cabinet(*a).coordinator() == lead;
            to_lead && group.refusal(&Step::Unsure(*a)).is_none()
        };
        let reporter = numbers.find(reports).filter(|_| found)?;
        way.push(report_of(reporter));
        Some(way)
    }
}

// ---------------------------------------------------------------- sensible reports

impl Run<'_> {
    pub(super) fn sensible_report(&mut self) -> Option<Record> {
        let refused = self.temper.refused_reports;
        if self.dice.per_thousand(refused) {
            let refused = self.refused_report();
            return refused.or_else(|| self.report_to_be_taken());
        }
        self.report_to_be_taken()
    }

    fn report_to_be_taken(&mut self) -> Option<Record> {
        let mut ready = Vec::new();
        for a in self.group.numbers() {
            if self.taken(&report_of(a)) && !self.doubt.keeps_silent(a) {
                ready.push(report_of(a));
            }
        }
        self.dice.pick_any(&ready)
    }

    /// While the doubt of this recovery is fresh.
    pub(super) fn eager_report(&mut self) -> Option<Record> {
        if self.doubt.eager == 0 || !self.group.recovery_under_way() {
            return None;
        }
        self.doubt.eager -= 1;
        let now = self.dice.per_thousand(600);
        now.then(|| self.sensible_report()).flatten()
    }
}

// ---------------------------------------------------------------- refused reports

impl Run<'_> {
    /// While somebody is in error: each reason that there is as likely as the others, but those
    /// that are always there; seldom wait over, in its place.
    pub(super) fn refused_report(&mut self) -> Option<Record> {
        if !self.wishes.reports() {
            return None;
        }
        let mut by_reason: BTreeMap<Refusal, Vec<Number>> = BTreeMap::new();
        for a in self.group.numbers() {
            let answer = self.group.refusal(&Step::Unsure(a));
            if let Some(reason) = answer.and_then(|answer| refusal(&self.group, a, answer)) {
                by_reason.entry(reason).or_default().push(a);
            }
        }
        let waiting = |a: &Number| self.group.cabinet(*a).waits();
        let waiting: Vec<Number> = self.group.numbers().filter(waiting).collect();
        let waiting = self.dice.pick_any(&waiting)?;
        if self.dice.per_thousand(30) {
            return Some(record(WITHDRAWN_KIND, waiting, 0, 0, 0));
        }
        if self.dice.per_thousand(900) {
            by_reason.retain(|reason, _| !ALWAYS_THERE.contains(reason));
        }
        let reasons: Vec<Refusal> = by_reason.keys().copied().collect();
        let reason = self.dice.pick_any(&reasons)?;
        self.dice.pick_any(&by_reason[&reason]).map(report_of)
    }
}

const ALWAYS_THERE: [Refusal; 3] =
    [Refusal::CabinetFailed, Refusal::InOperation, Refusal::KnowsVersion];

// ---------------------------------------------------------------- tests

#[cfg(test)]
mod tests {
    use super::*;
    use crate::cases::{case_seed, make_case, Wishes};
    use crate::model::{self, Cabinet, Version, KINDS, TAKEN};
    use crate::testing::settle_until;

    /// The old version, if nobody knows better, all have lost their coordinator and nobody has
    /// reported yet: there wait over would have been taken at its neighbours.
    fn old_version_of_all(group: &Group) -> Option<u8> {
        let working: Vec<&Cabinet> =
            group.working_cabinets().into_iter().map(|a| group.cabinet(a)).collect();
        let unsure = |cabinet: &&Cabinet| {
            cabinet.waits()
                && cabinet.lost_its_coordinator()
                && cabinet.reported_unsure().is_empty()
        };
        let old = |cabinet: &&Cabinet| match cabinet.version {
            Version::Unknown { old } => Some(old),
            _ => None,
        };
        working.iter().all(unsure).then(|| working.iter().find_map(old))?
    }

    fn check_reports(dice: &mut Dice, mut group: Group, old: u8) {
        let mut left: Vec<Number> = group.working_cabinets().into_iter().collect();
        while !left.is_empty() {
            let reporter = left.swap_remove(dice.below(left.len()));
            let outcome = group.step(&report_of(reporter), KINDS);
            assert_eq!(outcome.answer, TAKEN);
            assert_eq!(matches!(outcome.event, Event::Decision { .. }), left.is_empty());
        }
        let ends = |event: Event| matches!(event, Event::RecoveryEnd { .. });
        assert!(settle_until(&mut group, ends).last().is_some_and(|&event| ends(event)));
        for a in group.working_cabinets() {
            assert_eq!(group.cabinet(a).version, Version::Known(old));
        }
    }

    /// The card's sentence: one report of each working cabinet in the wait's place.
    #[test]
    fn one_report_of_each_does_what_the_wait_did() {
        let mut dice = Dice::new(1);
        let mut checked = 0;
        for index in 0..400 {
            let wishes = Wishes { damage: true, highest_kind: KINDS, cabinets: None };
            let case = make_case(case_seed(13, index), wishes);
            let Ok(mut group) = model::load(&case.group) else {
                continue;
            };
            for record in case.steps.chunks(6) {
                let reports = record.first() == Some(&14);
                if let Some(old) = old_version_of_all(&group).filter(|_| reports) {
                    check_reports(&mut dice, group.clone(), old);
                    checked += 1;
                }
                group.step(record, KINDS);
            }
        }
        assert!(checked > 30);
    }
}
