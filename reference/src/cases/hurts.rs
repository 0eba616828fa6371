//! Damage in made cases: patterns on a normal packet's amount, its own check or both; hurt packets
//! that are taken at once, dropped in a recovery or dropped over a link struck before; and damage
//! that is refused.

use super::{record, Record, Run};
use crate::model::{Burst, Number, Packet, PacketVersion, State};
use crate::own_checks::Hit;

/// A line and a place in it.
pub(super) type Spot = (Number, Number, usize);

pub(super) fn damage_at((from, to, place): Spot, burst: Burst) -> Record {
    let b = to | usize::from(burst.octets) << 4;
    let p = place as u8 & 0x1F | burst.bits << 5;
    record(11, from, b, p, burst.pattern)
}

pub(super) fn delivers_up_to((from, to, place): Spot) -> Vec<Record> {
    vec![record(4, from, to, 0, 0); place + 1]
}

// ---------------------------------------------------------------- patterns

impl Run<'_> {
    /// Mostly one that is taken.
    pub(super) fn any_burst(&mut self) -> Burst {
        match self.dice.below(20) {
            0 => self.burst_without_a_pattern(),
            1 | 2 => self.misplaced_burst(),
            _ => self.burst_to_be_taken(),
        }
    }

    fn burst_without_a_pattern(&mut self) -> Burst {
        let shifted = self.dice.per_thousand(500);
        let (bits, octets) = if shifted { self.any_shift() } else { (0, 0) };
        Burst { pattern: 0, bits, octets }
    }

    fn any_shift(&mut self) -> (u8, u8) {
        let octets = self.dice.pick(&[0, 0, 1, 2, 3, 15]);
        (self.dice.below(8) as u8, octets)
    }

    /// Refused with 15: shifted in version 1, too far in version 2.
    fn misplaced_burst(&mut self) -> Burst {
        let pattern = self.some_bits();
        let (bits, octets) = match (self.group.packet_version(), self.dice.below(2)) {
            (PacketVersion::One, 0) => (self.dice.between(1, 7), self.dice.below(3)),
            (PacketVersion::One, _) => (0, self.dice.between(1, 3)),
            (PacketVersion::Two, 0) => (self.dice.below(8), self.dice.pick(&[3, 3, 4, 8, 15])),
            (PacketVersion::Two, _) => (self.dice.between(1, 7), 2),
        };
        Burst { pattern: pattern | 1 << 15, bits: bits as u8, octets: octets as u8 }
    }

    /// One bit, or any but none.
    fn some_bits(&mut self) -> u16 {
        if self.dice.per_thousand(400) {
            1 << self.dice.below(16)
        } else {
            self.dice.between(1, 65_535) as u16
        }
    }

    pub(super) fn burst_to_be_taken(&mut self) -> Burst {
        match self.group.packet_version() {
            PacketVersion::One => Burst { pattern: self.some_bits(), bits: 0, octets: 0 },
            PacketVersion::Two => {
                let hit = self.dice.pick(&Hit::ALL);
                self.burst_on(hit)
            }
        }
    }

    /// In version 2. The shifts are those that leave some of what is to be hit in reach.
    fn burst_on(&mut self, hit: Hit) -> Burst {
        let (least, most, wanted, needed) = match hit {
            Hit::Amount => (1, 23, 0xFFFF_0000, 0),
            Hit::OwnCheck => (0, 15, 0x0000_FFFF, 0),
            Hit::Both => (1, 15, 0xFFFF_FFFF, 0x0001_8000),
        };
        let shift = self.dice.between(least, most);
        let in_reach = (0xFFFF_u64 << shift) & wanted;
        let drawn = (u64::from(self.some_bits()) << shift) & in_reach | needed;
        let lowest = in_reach & in_reach.wrapping_neg();
        let pattern = if drawn == 0 { lowest } else { drawn };
        Burst {
            pattern: (pattern >> shift) as u16,
            bits: (shift % 8) as u8,
            octets: (shift / 8) as u8,
        }
    }
}

// ---------------------------------------------------------------- sensible damage

impl Run<'_> {
    pub(super) fn sensible_damage(&mut self) -> Option<Record> {
        match self.dice.below(15) {
            12 => self.hurt_that_wraps(),
            13 | 14 => self.hurts_of_both_parties(),
            0 => self.second_hurt(11),
            1 => self.refused_damage(),
            2 | 3 => self.hurt_to_be_dropped(),
            4 => self.hurt_behind_a_hurt_signal(),
            5..=8 => self.hurt_to_be_found(),
            _ => {
                let from = self.any_cabinet();
                self.damage_on_lines_from(from)
            }
        }
    }

    /// A packet that is taken right after, or sent for it if there is none. In version 1 a save
    /// is to come soon.
    fn hurt_to_be_found(&mut self) -> Option<Record> {
        let (send, spot) = self.spot_to_hurt()?;
        let damage = damage_at(spot, self.burst_to_be_taken());
        match self.group.packet_version() {
            PacketVersion::One => self.save_first = self.dice.pick(&[0, 100, 400]),
            PacketVersion::Two => self.to_follow.extend(delivers_up_to(spot)),
        }
        Some(self.first_of(send, damage))
    }

    /// The second is to follow the first if there is one.
    fn first_of(&mut self, first: Option<Record>, second: Record) -> Record {
        if first.is_some() {
            self.to_follow.push_front(second);
        }
        first.unwrap_or(second)
    }

    /// A normal packet that may be hurt and found without a crash, or a send that puts one.
    fn spot_to_hurt(&mut self) -> Option<(Option<Record>, Spot)> {
        let bold = self.boldness_to_hurt();
        let bold = self.dice.per_thousand(bold);
        let free = |run: &Run, from, to| {
            !run.group.line(from, to).hurt && (bold || !run.dangerous_to_hurt(from, to))
        };
        let mut spots = self.spots_with(|packet| matches!(packet, Packet::Normal(_)));
        spots.retain(|&(from, to, _)| free(self, from, to));
        if let Some(spot) = self.dice.pick_any(&spots) {
            return Some((None, spot));
        }
        let (from, to) = self.line_to_send_on()?;
        let p = self.p_to_send_with(from);
        let amount = self.amount_to_send(from, p);
        let send = record(1, from, to, p, amount);
        let place = self.group.line(from, to).packets.len();
        let safe = !self.group.recovery_under_way() && free(self, from, to);
        (safe && self.taken(&send)).then_some((Some(send), (from, to, place)))
    }

    /// Somebody is lost out of the sender's sight, so that the packet meets a receiver in error.
    fn hurt_to_be_dropped(&mut self) -> Option<Record> {
        (0..6).find_map(|_| self.hurt_to_be_dropped_at_some_spot())
    }

    fn hurt_to_be_dropped_at_some_spot(&mut self) -> Option<Record> {
        let (send, spot) = self.spot_to_hurt()?;
        let damage = damage_at(spot, self.burst_to_be_taken());
        let before: Vec<Record> = send.into_iter().chain([damage]).collect();
        let mut faults: Vec<Record> = Vec::new();
        for cabinet in self.group.working_cabinets() {
            faults.extend(self.safe_fault_of(cabinet));
        }
        faults.retain(|fault| self.leaves_it_for_a_recovery(&before, *fault, spot));
        let fault = self.dice.pick_any(&faults)?;
        let way = [&before[..], &[fault], &delivers_up_to(spot)].concat();
        self.to_follow.extend(&way[1..]);
        way.first().copied()
    }

    fn leaves_it_for_a_recovery(&self, before: &[Record], fault: Record, spot: Spot) -> bool {
        let (from, to, place) = spot;
        let mut group = self.group.clone();
        for record in before.iter().chain([&fault]) {
            group.step(record, self.wishes.highest_kind);
        }
        let receiver = group.cabinet(to);
        let in_place = group.line(from, to).packets.get(place);
        receiver.state.in_recovery()
            && receiver.uses_line_to(from)
            && matches!(in_place, Some(Packet::Normal(_)))
    }

    /// A resume packet that is invalid strikes the link; the hurt packet behind it is dropped.
    pub(super) fn hurt_behind_a_hurt_signal(&mut self) -> Option<Record> {
        let mut signals = self.spots_with(|packet| *packet == Packet::Resume);
        signals.retain(|&(from, to, _)| {
            let free = !self.group.line(from, to).hurt && !self.dangerous_to_hurt(from, to);
            free && self.group.cabinet(from).state == State::Normal
        });
        let signal @ (from, to, _) = self.dice.pick_any(&signals)?;
        let send = record(1, from, to, self.p_to_send_with(from), 1);
        if !self.taken(&send) {
            return None;
        }
        let behind = (from, to, self.group.line(from, to).packets.len());
        let (first, second) = (self.burst_to_be_taken(), self.burst_to_be_taken());
        self.to_follow.push_back(damage_at(signal, first));
        self.to_follow.push_back(damage_at(behind, second));
        self.to_follow.extend(delivers_up_to(behind));
        Some(send)
    }

    /// What ends the recovery comes first for some tries, and mostly a save after it.
    pub(super) fn after_link_fault(&mut self) {
        self.recover_first = self.dice.pick(&[0, 150, 400]);
        self.hurt_since_recovery = true;
    }
}

// ---------------------------------------------------------------- refused and foolish damage

impl Run<'_> {
    /// With 15, at a normal packet as often as at any.
    fn refused_damage(&mut self) -> Option<Record> {
        let any = self.dice.per_thousand(500);
        let spots = self.spots_with(|packet| any || matches!(packet, Packet::Normal(_)));
        let spot = self.dice.pick_any(&spots)?;
        let without = self.dice.per_thousand(300);
        let burst = if without { self.burst_without_a_pattern() } else { self.misplaced_burst() };
        Some(damage_at(spot, burst))
    }

    /// Whatever b's and p's high bits were, now and then they are any.
    pub(super) fn with_any_shift(&mut self, mut damage: Record) -> Record {
        if self.dice.per_thousand(400) {
            let (bits, octets) = self.any_shift();
            damage[2] = damage[2] & 0x0F | octets << 4;
            damage[3] = damage[3] & 0x1F | bits << 5;
        }
        damage
    }
}

// ---------------------------------------------------------------- tests

#[cfg(test)]
mod tests {
    use super::*;
    use crate::cases::{Dice, GroupDraft, Wishes};
    use crate::model::{load, KINDS};

    #[test]
    fn a_burst_hits_what_it_is_to_hit() {
        let mut dice = Dice::new(3);
        let draft =
            GroupDraft { version: PacketVersion::Two, ..GroupDraft::sound(&mut dice, None) };
        let group = load(&draft.octets()).expect("the draft is sound");
        let wishes = Wishes { damage: true, highest_kind: KINDS, cabinets: None };
        let mut run = Run::new(&mut dice, group, wishes);
        for _ in 0..2000 {
            for hit in Hit::ALL {
                let burst = run.burst_on(hit);
                let pattern = burst.on_four_octets().expect("within the octets");
                let hits = [pattern >> 16 != 0, pattern & 0xFFFF != 0];
                assert_eq!(hits, [hit != Hit::OwnCheck, hit != Hit::Amount]);
            }
        }
    }
}
