//! Made step lists, cut short and gone on with so that a hurt fail-safe packet is dropped: its
//! receiver has just entered error for a cabinet that its sender is not joined to.

use super::{make_case, record, Case, Dice, Record, Wishes};
use crate::model::{self, Group, Number, Packet, RECORD_LENGTH};

/// None if the made case of this seed never comes to it.
pub fn make_dropping_case(seed: u64, wishes: Wishes) -> Option<Case> {
    let Case { group: file, steps } = make_case(seed, wishes);
    let mut group = model::load(&file).ok()?;
    let mut endings: Vec<(usize, [Record; 3])> = Vec::new();
    for (done, step) in steps.chunks(RECORD_LENGTH).enumerate() {
        endings.extend(ending(&group).map(|records| (done, records)));
        group.step(step, wishes.highest_kind);
    }
    let (done, records) = Dice::new(seed).pick_any(&endings)?;
    let kept = &steps[..done * RECORD_LENGTH];
    Some(Case { group: file, steps: [kept, &records.concat()].concat() })
}

/// The packet is hurt, somebody beside its receiver trips, and then it is delivered.
fn ending(group: &Group) -> Option<[Record; 3]> {
    if group.crashed() || group.recovery_under_way() {
        return None;
    }
    let lines = group.numbers().flat_map(|from| group.numbers().map(move |to| (from, to)));
    let mut signals = lines.filter(|&(from, to)| {
        let oldest = group.line(from, to).packets.front();
        oldest.is_some_and(|packet| !matches!(packet, Packet::Normal(_)))
    });
    signals.find_map(|(from, to)| {
        let lost = group.numbers().find(|&lost| may_be_lost(group, from, to, lost))?;
        let hurt = record(11, from, to, 0, 1);
        Some([hurt, record(13, lost, 0, 0, 0), record(4, from, to, 0, 0)])
    })
}

/// Seen by the receiver alone, and without a crash.
fn may_be_lost(group: &Group, from: Number, to: Number, lost: Number) -> bool {
    let uses_line_to = |cabinet: Number, other| group.cabinet(cabinet).uses_line_to(other);
    let seen = uses_line_to(to, lost) && !uses_line_to(from, lost);
    seen && lost != from && group.crash_by_tripping(lost).is_none()
}
