//! What the workshop brings to made cases: its bookings, lines filled by one party while the other
//! still has places, hurt packets beside one of the other party, and bookings that wrap.

use super::hurts::{damage_at, delivers_up_to, Spot};
use super::losses::loss_at;
use super::{record, shares, Dice, Record, Run};
use crate::model::{Burst, Charge, Number, Packet, PacketVersion, Party};
use crate::model::{PLACES_OF_A_PARTY, WORKSHOP_P};

/// Mostly something at each cabinet; now and then nothing anywhere, all that may be booked, or
/// nearly all at one: it can send any amount.
pub(super) fn bookings(dice: &mut Dice, n: usize) -> Vec<u16> {
    let total = match dice.below(10) {
        0 => 0,
        1 => 65_535,
        2 => 65_534,
        3 | 4 => dice.below(500),
        5 | 6 => return nearly_all_at_one(dice, n),
        _ => dice.below(65_536),
    };
    shares(dice, total, n)
}

fn nearly_all_at_one(dice: &mut Dice, n: usize) -> Vec<u16> {
    let rest = dice.below(10_000);
    let mut booked = shares(dice, rest, n);
    booked[dice.below(n)] += dice.between(30_000, 65_535 - rest) as u16;
    booked
}

impl Run<'_> {
    /// As many of one party as find places and mostly one more, then some of the other.
    pub(super) fn sends_that_fill_a_line(&mut self) -> Option<Record> {
        let (from, to) = self.line_to_send_on()?;
        let first = self.dice.pick(&Party::ALL);
        let mut sends = self.sends_of(first, from, to, PLACES_OF_A_PARTY);
        sends.extend(self.sends_of(first.other(), from, to, 0));
        let next = *sends.first().filter(|send| self.taken(send))?;
        self.to_follow.extend(&sends[1..]);
        Some(next)
    }

    /// At least so many, and at most one more than a party has places.
    fn sends_of(&mut self, party: Party, from: Number, to: Number, least: usize) -> Vec<Record> {
        let sends = self.dice.between(least, PLACES_OF_A_PARTY + 1);
        let of_buses = self.dice.below(4) as u8;
        let p = if party == Party::Workshop { WORKSHOP_P } else { of_buses };
        let most = 1 + usize::from(self.booking_behind(from, p)) / 8;
        (0..sends).map(|_| record(1, from, to, p, self.dice.between(1, most) as u16)).collect()
    }
}

// ---------------------------------------------------------------- hurts

impl Run<'_> {
    /// The normal packets of lines on which one may be hurt and found without a crash.
    fn charges_to_hurt(&self) -> Vec<(Spot, Charge)> {
        let mut charges = Vec::new();
        for spot @ (from, to, place) in self.spots_with(|_| true) {
            let free = !self.group.line(from, to).hurt && !self.dangerous_to_hurt(from, to);
            if let (true, Packet::Normal(charge)) = (free, self.group.line(from, to).packets[place])
            {
                charges.push((spot, charge));
            }
        }
        charges
    }

    /// Only the first is taken, whichever party's packet it hits.
    pub(super) fn hurts_of_both_parties(&mut self) -> Option<Record> {
        let charges = self.charges_to_hurt();
        let (first, charge) = self.dice.pick_any(&charges)?;
        let on_that_line = |spot: &Spot| (spot.0, spot.1) == (first.0, first.1);
        let others = charges.iter().filter(|(spot, other)| {
            on_that_line(spot) && other.account.party() != charge.account.party()
        });
        let others: Vec<Spot> = others.map(|(spot, _)| *spot).collect();
        let second = self.dice.pick_any(&others)?;
        let (one, other) = (self.burst_to_be_taken(), self.burst_to_be_taken());
        self.to_follow.push_back(self.dice.pick(&[damage_at(second, other), loss_at(second)]));
        if self.dice.per_thousand(500) {
            self.save_first = 100;
        }
        Some(damage_at(first, one))
    }

    /// In version 1, where a hurt amount is added: with it the receiver's booking is above 65,535.
    pub(super) fn hurt_that_wraps(&mut self) -> Option<Record> {
        if self.group.packet_version() == PacketVersion::Two {
            return None;
        }
        let mut charges = self.charges_to_hurt();
        charges.retain(|(spot, charge)| self.booking_that_wraps(*spot, *charge) > 0);
        let (spot, charge) = self.dice.pick_any(&charges)?;
        let most_left = self.booking_that_wraps(spot, charge) - 1;
        let amount = u16::MAX - self.dice.between(0, usize::from(most_left)) as u16;
        let pattern = charge.amount ^ amount;
        if pattern == 0 {
            return None;
        }
        self.to_follow.extend(delivers_up_to(spot));
        Some(damage_at(spot, Burst { pattern, bits: 0, octets: 0 }))
    }

    fn booking_that_wraps(&self, (_, to, _): Spot, charge: Charge) -> u16 {
        self.group.cabinet(to).booking(charge.account)
    }
}
