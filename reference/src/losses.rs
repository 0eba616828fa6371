//! Counts of what lost packets bring: losses taken and refused, how comparisons found them, and
//! recoveries and commits after them.

use crate::aim::Aim;
use crate::listing::{add_counts, count, counts_text};
use crate::model::{Crash, Event, Number, Outcome, Packet, CRASHED, TAKEN};
use std::collections::BTreeMap;
use std::fmt::Write;

#[cfg(test)]
mod tests;

/// What differed at the comparison that found a loss.
#[derive(Clone, Copy, PartialEq, Eq, PartialOrd, Ord, Debug)]
pub enum Finding {
    Crc,
    /// The CRC was equal.
    CountAlone,
}

/// Why a loss was refused.
#[derive(Clone, Copy, PartialEq, Eq, PartialOrd, Ord, Debug)]
pub enum Refused {
    /// With 9, and so on.
    UnusedField,
    GroupCrashed,
    StrangeCabinet,
    SenderFailed,
    NoLink,
    /// With 18, as the next two.
    NothingThere,
    FailSafeThere,
    InvalidThere,
    /// With 20, as the next.
    AfterDamage,
    AfterLoss,
}

impl Refused {
    pub const ALL: [Refused; 10] = [
        Refused::UnusedField,
        Refused::GroupCrashed,
        Refused::StrangeCabinet,
        Refused::SenderFailed,
        Refused::NoLink,
        Refused::NothingThere,
        Refused::FailSafeThere,
        Refused::InvalidThere,
        Refused::AfterDamage,
        Refused::AfterLoss,
    ];
}

#[derive(Clone, Default, PartialEq, Eq, Debug)]
pub struct LossCounts {
    pub taken: u64,
    /// Taken, with packets behind that move up.
    pub taken_before_others: u64,
    pub refused: BTreeMap<Refused, u64>,
    /// Comparisons that found a loss, also where that crashes the group.
    pub found: BTreeMap<Finding, u64>,
    /// Damage to a normal packet, with 20, where the mark is from a loss.
    pub damage_refused: u64,
    pub crashes: u64,
    /// Recoveries ended with a loss since the one before.
    pub recoveries_ended: u64,
    /// The first commits after such recoveries.
    pub commits_after_recovery: u64,
}

impl LossCounts {
    /// The aim is that of before the step.
    pub(crate) fn count_step(
        &mut self,
        watch: &mut LossWatch,
        aim: Option<Aim>,
        record: &[u8],
        outcome: Outcome,
    ) {
        match (record.first(), outcome.answer) {
            (Some(12), answer) => self.count_loss(watch, aim, answer),
            (Some(11), 20) => {
                self.damage_refused += u64::from(watch.last_hurt(aim) == Some(Hurt::Lost));
            }
            (Some(4), _) if watch.last_hurt(aim) == Some(Hurt::Lost) => {
                if let Some(finding) = finding(aim, outcome.event) {
                    count(&mut self.found, finding);
                }
            }
            _ => {}
        }
        watch.after_step(aim, record, outcome);
        self.recoveries_ended += u64::from(watch.recovery_just_ended_a_loss(outcome.event));
        self.commits_after_recovery += u64::from(watch.first_commit_since(outcome.event));
    }

    fn count_loss(&mut self, watch: &LossWatch, aim: Option<Aim>, answer: u8) {
        match answer {
            TAKEN => {
                self.taken += 1;
                let before_others = aim.is_some_and(|aim| aim.packets_behind > 0);
                self.taken_before_others += u64::from(before_others);
            }
            CRASHED => self.crashes += 1,
            _ => {
                if let Some(reason) = refused(watch, aim, answer) {
                    count(&mut self.refused, reason);
                }
            }
        }
    }

    pub(crate) fn add(&mut self, other: &LossCounts) {
        self.taken += other.taken;
        self.taken_before_others += other.taken_before_others;
        add_counts(&mut self.refused, &other.refused);
        add_counts(&mut self.found, &other.found);
        self.damage_refused += other.damage_refused;
        self.crashes += other.crashes;
        self.recoveries_ended += other.recoveries_ended;
        self.commits_after_recovery += other.commits_after_recovery;
    }

    pub(crate) fn report(&self) -> String {
        let (taken, before) = (self.taken, self.taken_before_others);
        let mut text = format!("losses taken: {taken}, with packets behind: {before}\n");
        let _ = writeln!(text, "losses refused: {}", counts_text(&self.refused));
        let _ = writeln!(text, "losses found by comparison of: {}", counts_text(&self.found));
        let _ = writeln!(text, "damage refused 20 after a loss: {}", self.damage_refused);
        let _ = writeln!(text, "crashes by a loss: {}", self.crashes);
        let _ = writeln!(text, "recoveries ended after a loss: {}", self.recoveries_ended);
        let commits = self.commits_after_recovery;
        let _ = writeln!(text, "first commits after such a recovery: {commits}");
        text
    }
}

/// None where kind 12 is unknown.
fn refused(watch: &LossWatch, aim: Option<Aim>, answer: u8) -> Option<Refused> {
    Some(match answer {
        9 => Refused::UnusedField,
        10 => Refused::GroupCrashed,
        11 => Refused::StrangeCabinet,
        12 => Refused::SenderFailed,
        13 => Refused::NoLink,
        18 => match aim?.packet {
            None => Refused::NothingThere,
            Some(Packet::Invalid) => Refused::InvalidThere,
            Some(_) => Refused::FailSafeThere,
        },
        20 => match watch.last_hurt(aim)? {
            Hurt::Damaged => Refused::AfterDamage,
            Hurt::Lost => Refused::AfterLoss,
        },
        _ => return None,
    })
}

/// What differed, if the step found a link fault by taking a checkp.
fn finding(aim: Option<Aim>, event: Event) -> Option<Finding> {
    let aim = aim?;
    let found = matches!(event, Event::LinkFault(_) | Event::Crash(Crash::CutOffByLinkFault));
    match aim.packet {
        Some(Packet::Checkp(sent)) if found && sent.crc == aim.taken.crc => {
            Some(Finding::CountAlone)
        }
        Some(Packet::Checkp(_)) if found => Some(Finding::Crc),
        _ => None,
    }
}

#[derive(Clone, Copy, PartialEq, Eq, Debug)]
enum Hurt {
    Damaged,
    Lost,
}

/// For the counts only: how a normal packet of each line was hurt last, and how far the last
/// loss is behind.
#[derive(Default)]
pub(crate) struct LossWatch {
    hurt: BTreeMap<(Number, Number), Hurt>,
    lost_since_recovery: bool,
    no_commit_since_recovery: bool,
}

impl LossWatch {
    fn last_hurt(&self, aim: Option<Aim>) -> Option<Hurt> {
        self.hurt.get(&aim?.line).copied()
    }

    fn after_step(&mut self, aim: Option<Aim>, record: &[u8], outcome: Outcome) {
        let (Some(aim), TAKEN) = (aim, outcome.answer) else {
            return;
        };
        match (record.first(), aim.packet) {
            (Some(11), Some(Packet::Normal(_))) => {
                self.hurt.insert(aim.line, Hurt::Damaged);
            }
            (Some(12), _) => {
                self.hurt.insert(aim.line, Hurt::Lost);
                self.lost_since_recovery = true;
            }
            _ => {}
        }
    }

    fn recovery_just_ended_a_loss(&mut self, event: Event) -> bool {
        if !matches!(event, Event::RecoveryEnd { .. }) {
            return false;
        }
        self.no_commit_since_recovery = self.lost_since_recovery;
        std::mem::take(&mut self.lost_since_recovery)
    }

    fn first_commit_since(&mut self, event: Event) -> bool {
        event == Event::Commit && std::mem::take(&mut self.no_commit_since_recovery)
    }
}
