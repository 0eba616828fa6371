//! Counts of what two outlets bring: where sends and packets go, and what one outlet alone
//! would have answered otherwise.

use crate::aim::Aim;
use crate::listing::{add_counts, count, counts_text};
use crate::model::{
    self, Account, Cabinet, Ends, Event, Group, Number, Outcome, Packet, PacketVersion, Sign,
    CABINET_ENTRY_LENGTH, TAKEN,
};
use std::collections::BTreeMap;
use std::fmt::Write;

/// What would have covered a send that was above its own outlet's booking.
#[derive(Clone, Copy, PartialEq, Eq, PartialOrd, Ord, Debug)]
pub enum Cover {
    OtherOutlet,
    /// Neither alone.
    BothTogether,
}

#[derive(Clone, Default, PartialEq, Eq, Debug)]
pub struct OutletCounts {
    pub sends_taken: BTreeMap<Ends, u64>,
    pub packets_taken: BTreeMap<Account, u64>,
    /// With 15, and not for an amount of 0.
    pub sends_refused_for_p: u64,
    /// With 16.
    pub sends_otherwise_covered: BTreeMap<Cover, u64>,
    /// By octet, with 15, and not for the value.
    pub notes_refused_at: BTreeMap<u8, u64>,
    pub recoveries_changing_b: u64,
    /// Link faults found by comparison, by the booking that the hurt packet was for.
    pub faults_by_comparison: BTreeMap<Account, u64>,
    /// With 7, where A's bookings alone would have passed.
    pub loads_refused_for_b: u64,
}

impl OutletCounts {
    pub(crate) fn count_refused_load(&mut self, group_file: &[u8], refusal: u8) {
        self.loads_refused_for_b += u64::from(refusal == 7 && loads_without_b(group_file));
    }

    /// The group is the one after the step; a refused step has left it as it was.
    pub(crate) fn count_step(
        &mut self,
        watch: &Watch,
        group: &Group,
        record: &[u8],
        outcome: Outcome,
    ) {
        match (record, outcome.answer) {
            (&[1, a, _, p, high, low], answer @ (TAKEN | 15 | 16)) => {
                let amount = u16::from_be_bytes([high, low]);
                self.count_send(group.cabinet(usize::from(a)), Ends::of(p), amount, answer);
            }
            (&[2, _, _, octet @ 2..=3, 0, _], 15) => count(&mut self.notes_refused_at, octet),
            _ => {}
        }
        match outcome.event {
            Event::Added(account) => count(&mut self.packets_taken, account),
            Event::RecoveryEnd { .. } => {
                self.recoveries_changing_b += u64::from(watch.b_has_changed(group));
            }
            Event::LinkFault(Sign::CheckValue) => {
                if let Some(account) = watch.hurt_on_line_of(record) {
                    count(&mut self.faults_by_comparison, account);
                }
            }
            _ => {}
        }
    }

    fn count_send(&mut self, sender: &Cabinet, ends: Option<Ends>, amount: u16, answer: u8) {
        match (answer, ends) {
            (TAKEN, Some(ends)) => count(&mut self.sends_taken, ends),
            (15, None) => self.sends_refused_for_p += u64::from(amount != 0),
            (16, Some(ends)) => {
                if let Some(cover) = cover(sender, ends.sending(), amount) {
                    count(&mut self.sends_otherwise_covered, cover);
                }
            }
            _ => {}
        }
    }

    pub(crate) fn add(&mut self, other: &OutletCounts) {
        add_counts(&mut self.sends_taken, &other.sends_taken);
        add_counts(&mut self.packets_taken, &other.packets_taken);
        self.sends_refused_for_p += other.sends_refused_for_p;
        add_counts(&mut self.sends_otherwise_covered, &other.sends_otherwise_covered);
        add_counts(&mut self.notes_refused_at, &other.notes_refused_at);
        self.recoveries_changing_b += other.recoveries_changing_b;
        add_counts(&mut self.faults_by_comparison, &other.faults_by_comparison);
        self.loads_refused_for_b += other.loads_refused_for_b;
    }

    pub(crate) fn report(&self) -> String {
        let mut text = format!("sends taken by bookings: {}\n", counts_text(&self.sends_taken));
        let _ = writeln!(text, "packets taken by booking: {}", counts_text(&self.packets_taken));
        let _ = writeln!(text, "sends refused 15 for p: {}", self.sends_refused_for_p);
        let covered = counts_text(&self.sends_otherwise_covered);
        let _ = writeln!(text, "sends refused 16, covered by: {covered}");
        let _ = writeln!(text, "notes refused at octet: {}", counts_text(&self.notes_refused_at));
        let _ = writeln!(text, "recoveries that changed B: {}", self.recoveries_changing_b);
        let compared = counts_text(&self.faults_by_comparison);
        let _ = writeln!(text, "link faults by comparison, hurt packet to: {compared}");
        let _ = writeln!(text, "loads refused 7 for B: {}", self.loads_refused_for_b);
        text
    }
}

/// The workshop has no outlet.
fn cover(sender: &Cabinet, account: Account, amount: u16) -> Option<Cover> {
    let other = match account {
        Account::A => sender.booking(Account::B),
        Account::B => sender.booking(Account::A),
        Account::Workshop => return None,
    };
    if amount <= other {
        return Some(Cover::OtherOutlet);
    }
    let missing = amount - sender.booking(account);
    (missing <= other).then_some(Cover::BothTogether)
}

/// Whether a file that is refused for its total would load with nothing booked at B.
fn loads_without_b(group_file: &[u8]) -> bool {
    let mut file = group_file.to_vec();
    let n = usize::from(file[1]);
    let header_length = PacketVersion::named_by(&file).header_length();
    for entry in file[header_length..].chunks_mut(CABINET_ENTRY_LENGTH).take(n) {
        entry[4..6].fill(0);
    }
    model::load(&file).is_ok()
}

/// For the counts only: B's bookings as they were before the recovery under way, and for which
/// booking the packet was that was damaged or lost last on each line.
#[derive(Default)]
pub(crate) struct Watch {
    before_fault: [u16; 8],
    hurt: BTreeMap<(Number, Number), Account>,
}

impl Watch {
    pub(crate) fn before_step(&mut self, group: &Group) {
        if !group.recovery_under_way() {
            for (number, booking) in group.numbers().zip(&mut self.before_fault) {
                *booking = group.cabinet(number).booking(Account::B);
            }
        }
    }

    /// The aim is that of before the step, since a lost packet is gone after it.
    pub(crate) fn after_step(&mut self, aim: Option<Aim>, record: &[u8], outcome: Outcome) {
        let (&[11 | 12, ..], TAKEN, Some(aim)) = (record, outcome.answer, aim) else {
            return;
        };
        if let Some(Packet::Normal(charge)) = aim.packet {
            self.hurt.insert(aim.line, charge.account);
        }
    }

    fn hurt_on_line_of(&self, deliver: &[u8]) -> Option<Account> {
        let line = (usize::from(deliver[1]), usize::from(deliver[2]));
        self.hurt.get(&line).copied()
    }

    /// Whether a cabinet that still works has another booking at B than before the fault.
    fn b_has_changed(&self, group: &Group) -> bool {
        group.numbers().zip(self.before_fault).any(|(number, before)| {
            let cabinet = group.cabinet(number);
            cabinet.working() && cabinet.booking(Account::B) != before
        })
    }
}
