//! For the counts only: what a deliver, a damage or a loss aims at, as it stands before the step.

use crate::model::{line_end_and_place, Check, Group, Number, Packet, State};

#[derive(Clone, Copy, Debug)]
pub(crate) struct Aim {
    pub(crate) line: (Number, Number),
    /// The place named, for a deliver that of the oldest packet.
    pub(crate) place: usize,
    pub(crate) packet: Option<Packet>,
    /// Behind that packet.
    pub(crate) packets_behind: usize,
    /// The receiver's check.
    pub(crate) taken: Check,
    pub(crate) receiver: State,
    /// At the receiver.
    pub(crate) in_use: bool,
}

impl Aim {
    /// None if the record is of another kind or names no two cabinets of the group.
    pub(crate) fn of(group: &Group, record: &[u8]) -> Option<Aim> {
        let &[kind @ (4 | 11 | 12), a, b, p, ..] = record else {
            return None;
        };
        let from = usize::from(a);
        let (to, place) = match kind {
            4 => (usize::from(b), 0),
            11 => line_end_and_place(b, p),
            _ => (usize::from(b), p),
        };
        let place = usize::from(place);
        if !group.numbers().contains(&from) || !group.numbers().contains(&to) {
            return None;
        }
        let packets = &group.line(from, to).packets;
        let packets_behind = packets.len().saturating_sub(place + 1);
        let [_, taken] = group.checks(from, to);
        let cabinet = group.cabinet(to);
        let (receiver, in_use) = (cabinet.state, cabinet.uses_line_to(from));
        let packet = packets.get(place).copied();
        Some(Aim { line: (from, to), place, packet, packets_behind, taken, receiver, in_use })
    }
}
