//! Losses in made cases: of normal packets, mostly where a save may find them without a crash;
//! of packets whose loss the CRC does not see; and losses that are refused.

use super::hurts::{damage_at, Spot};
use super::{record, Record, Run};
use crate::model::{crc_octets, Account, Ends, Number, Packet, PacketVersion, State, WORKSHOP_P};

// ---------------------------------------------------------------- what the CRC does not see

/// The one amount whose packet of version 1 leaves a CRC register as it is.
pub fn silent_amount(register: u16, account: Account) -> u16 {
    let before_amount = crc_octets(register, &[account.octet()]);
    before_amount ^ before_two_octets(register)
}

/// The register that two octets of 0 take to this one. The polynomial's lowest bit tells whether
/// a shift carried.
fn before_two_octets(register: u16) -> u16 {
    let unshifted = |value: u16| match value & 1 {
        0 => value >> 1,
        _ => ((value ^ 0x1021) >> 1) | 0x8000,
    };
    (0..16).fold(register, |value, _| unshifted(value))
}

// ---------------------------------------------------------------- sensible losses

pub(super) fn loss_at((from, to, place): Spot) -> Record {
    record(12, from, to, place as u8, 0)
}

impl Run<'_> {
    pub(super) fn sensible_loss(&mut self) -> Option<Record> {
        match self.dice.below(10) {
            0 => self.refused_loss(),
            1 => self.second_hurt(12),
            2..=5 => self.silent_send().or_else(|| self.loss_of_a_normal_packet()),
            _ => self.loss_of_a_normal_packet(),
        }
    }

    fn loss_of_a_normal_packet(&mut self) -> Option<Record> {
        let loss = self.any_loss_taken()?;
        let bold = self.boldness_to_lose();
        let dangerous = self.dangerous_to_hurt(usize::from(loss[1]), usize::from(loss[2]));
        (!dangerous || self.dice.per_thousand(bold)).then_some(loss)
    }

    /// Taken, or taken with a crash.
    pub(super) fn any_loss_taken(&mut self) -> Option<Record> {
        let mut spots = self.spots_with(|packet| matches!(packet, Packet::Normal(_)));
        spots.retain(|&(from, to, _)| !self.group.line(from, to).hurt);
        self.dice.pick_any(&spots).map(loss_at)
    }

    /// Normal packets are rare while a recovery is under way, and so is a loss then.
    fn boldness_to_lose(&self) -> usize {
        if self.group.recovery_under_way() {
            3 * self.temper.bold
        } else {
            self.temper.bold_to_hurt
        }
    }

    pub(super) fn spots_with(&self, fits: impl Fn(&Packet) -> bool) -> Vec<Spot> {
        let mut spots = Vec::new();
        for (from, to) in self.filled_lines() {
            let packets = self.group.line(from, to).packets.iter().enumerate();
            let fitting = packets.filter(|(_, packet)| fits(packet));
            spots.extend(fitting.map(|(place, _)| (from, to, place)));
        }
        spots
    }

    /// A send whose packet leaves the sender's CRC as it is; its loss is to follow. In version 2
    /// there is none: a packet with its own check moves every register that sends come to.
    pub(super) fn silent_send(&mut self) -> Option<Record> {
        let one = self.group.packet_version() == PacketVersion::One;
        if !one || self.group.recovery_under_way() {
            return None;
        }
        let sends = self.silent_sends();
        let send = self.dice.pick_any(&sends)?;
        let (from, to) = (usize::from(send[1]), usize::from(send[2]));
        let place = self.group.line(from, to).packets.len();
        if self.dice.per_thousand(300) {
            let p = self.p_to_send_with(from);
            self.to_follow.push_back(record(1, from, to, p, 1));
        }
        self.to_follow.push_back(loss_at((from, to, place)));
        Some(send)
    }

    /// Those that would be taken, on lines where the loss may be found.
    fn silent_sends(&mut self) -> Vec<Record> {
        let bold = self.boldness_to_hurt();
        let bold = self.dice.per_thousand(bold);
        let mut sends = Vec::new();
        for from in self.group.numbers() {
            for to in self.group.cabinet(from).neighbours() {
                let safe = bold || !self.dangerous_to_hurt(from, to);
                if safe && !self.group.line(from, to).hurt {
                    sends.extend(self.silent_sends_on(from, to));
                }
            }
        }
        sends
    }

    fn silent_sends_on(&self, from: Number, to: Number) -> Vec<Record> {
        let [sent, _] = self.group.checks(from, to);
        let send = |p: u8| {
            let account = Ends::of(p).expect("p is 0 to 4").receiving();
            record(1, from, to, p, silent_amount(sent.crc, account))
        };
        (0..=WORKSHOP_P).map(send).filter(|send| self.taken(send)).collect()
    }

    /// On a line where a normal packet was hurt already: refused if it aims at a normal one,
    /// which it mostly does.
    pub(super) fn second_hurt(&mut self, kind: u8) -> Option<Record> {
        if self.group.recovery_under_way() {
            return None;
        }
        let mut normal = self.spots_with(|packet| matches!(packet, Packet::Normal(_)));
        let mut any = self.spots_with(|_| true);
        normal.retain(|&(from, to, _)| self.group.line(from, to).hurt);
        any.retain(|&(from, to, _)| self.group.line(from, to).hurt);
        let spots = if self.dice.per_thousand(700) && !normal.is_empty() { normal } else { any };
        let spot = self.dice.pick_any(&spots)?;
        Some(if kind == 11 { damage_at(spot, self.any_burst()) } else { loss_at(spot) })
    }
}

// ---------------------------------------------------------------- after a loss

impl Run<'_> {
    /// Now and then a second hurt of that line, which is refused; mostly a save soon.
    pub(super) fn after_loss(&mut self, loss: Record) {
        self.hurt_since_recovery = true;
        self.save_first = self.dice.pick(&[0, 100, 400]);
        if self.dice.per_thousand(200) {
            self.hurt_again(usize::from(loss[1]), usize::from(loss[2]));
        }
    }

    /// At a packet put for it, behind all others.
    fn hurt_again(&mut self, from: Number, to: Number) {
        let spot = (from, to, self.group.line(from, to).packets.len());
        let p = self.p_to_send_with(from);
        let burst = self.burst_to_be_taken();
        let second = self.dice.pick(&[damage_at(spot, burst), loss_at(spot)]);
        self.to_follow.push_back(record(1, from, to, p, 1));
        self.to_follow.push_back(second);
    }

    pub(super) fn after_recovery(&mut self) {
        if std::mem::take(&mut self.hurt_since_recovery) || self.temper.doubtful {
            self.save_first = self.dice.pick(&[0, 400, 1000]);
        }
    }
}

// ---------------------------------------------------------------- refused losses

impl Run<'_> {
    fn refused_loss(&mut self) -> Option<Record> {
        match self.dice.below(8) {
            0 => self.loss_past_the_end(),
            1 | 2 => self.loss_of_a_fail_safe_packet(|_| true),
            3 | 4 => self.loss_of_a_fail_safe_packet(|packet| *packet == Packet::Invalid),
            5 => self.loss_over_no_link(),
            6 => self.loss_beside_a_failed_cabinet(),
            _ => self.loss_with_an_unused_field(),
        }
    }

    fn loss_past_the_end(&mut self) -> Option<Record> {
        let from = self.any_cabinet();
        let to = self.dice.pick_any(&self.group.cabinet(from).neighbours())?;
        let place = self.group.line(from, to).packets.len() + self.dice.below(3);
        Some(loss_at((from, to, self.dice.pick(&[place, place, 255]))))
    }

    fn loss_of_a_fail_safe_packet(&mut self, fits: impl Fn(&Packet) -> bool) -> Option<Record> {
        let fail_safe = |packet: &Packet| !matches!(packet, Packet::Normal(_));
        let spots = self.spots_with(|packet| fail_safe(packet) && fits(packet));
        self.dice.pick_any(&spots).map(loss_at)
    }

    /// A cabinet has none to itself.
    fn loss_over_no_link(&mut self) -> Option<Record> {
        let from = self.any_cabinet();
        let unlinked = |to: &Number| !self.group.link_in_file(from, *to);
        let others: Vec<Number> = self.group.numbers().filter(unlinked).collect();
        self.dice.pick_any(&others).map(|to| loss_at((from, to, 0)))
    }

    /// From it or towards it.
    fn loss_beside_a_failed_cabinet(&mut self) -> Option<Record> {
        let failed = |a: &Number| self.group.cabinet(*a).state == State::Failed;
        let failed: Vec<Number> = self.group.numbers().filter(failed).collect();
        let failed = self.dice.pick_any(&failed)?;
        let other = self.any_cabinet();
        let (from, to) = self.dice.pick(&[(failed, other), (other, failed)]);
        Some(loss_at((from, to, 0)))
    }

    fn loss_with_an_unused_field(&mut self) -> Option<Record> {
        let mut record = self.loss_past_the_end()?;
        record[self.dice.between(4, 5)] = self.dice.between(1, 255) as u8;
        Some(record)
    }
}

// ---------------------------------------------------------------- tests

#[cfg(test)]
mod tests {
    use super::*;

    fn leaves_it(register: u16, account: Account, amount: u16) -> bool {
        let [high, low] = amount.to_be_bytes();
        crc_octets(register, &[account.octet(), high, low]) == register
    }

    #[test]
    fn one_amount_and_no_other_leaves_a_register_as_it_is() {
        assert_eq!(silent_amount(0xFFFF, Account::A), 25_919);
        assert_eq!(silent_amount(0xFFFF, Account::Workshop), 17_789);
        for register in [0, 1, 0x8000, 0x29B1, 0xFFFF] {
            for account in Account::ALL {
                let silent = silent_amount(register, account);
                let leaves = |amount: &u16| leaves_it(register, account, *amount);
                assert!((0..=65_535).filter(leaves).eq([silent]));
            }
        }
    }

    #[test]
    fn each_register_has_its_silent_amounts() {
        for register in 0..=65_535 {
            for account in Account::ALL {
                assert!(leaves_it(register, account, silent_amount(register, account)));
            }
        }
    }
}
