//! Counts of what packets with their own check bring: groups of either version and files that mix
//! the two, what damage hits and why it is refused, and what became of hurt packets.

use crate::aim::Aim;
use crate::listing::{add_counts, count, counts_text};
use crate::model::{
    number_at, Burst, Crash, Event, Group, Number, Outcome, Packet, PacketVersion, State, CRASHED,
    TAKEN,
};
use std::collections::BTreeMap;
use std::fmt::Write;

#[cfg(test)]
mod tests;

/// What of a normal packet damage hit.
#[derive(Clone, Copy, PartialEq, Eq, PartialOrd, Ord, Debug)]
pub enum Hit {
    Amount,
    OwnCheck,
    Both,
}

impl Hit {
    pub const ALL: [Hit; 3] = [Hit::Amount, Hit::OwnCheck, Hit::Both];

    fn of(burst: Burst, version: PacketVersion) -> Hit {
        let pattern = burst.on_four_octets().unwrap_or_default();
        match (version, pattern >> 16, pattern & 0xFFFF) {
            (PacketVersion::One, ..) | (_, _, 0) => Hit::Amount,
            (_, 0, _) => Hit::OwnCheck,
            _ => Hit::Both,
        }
    }
}

/// Why damage was refused with 15.
#[derive(Clone, Copy, PartialEq, Eq, PartialOrd, Ord, Debug)]
pub enum Misfit {
    NoPattern,
    /// In version 2, as the next.
    OctetShiftAboveTwo,
    OutsideTheFourOctets,
    ShiftInVersionOne,
    /// No pattern and one of the others.
    Several,
}

impl Misfit {
    pub const ALL: [Misfit; 5] = [
        Misfit::NoPattern,
        Misfit::OctetShiftAboveTwo,
        Misfit::OutsideTheFourOctets,
        Misfit::ShiftInVersionOne,
        Misfit::Several,
    ];

    fn of(burst: Burst, version: PacketVersion) -> Misfit {
        let shift = match version {
            PacketVersion::One => burst.is_shifted().then_some(Misfit::ShiftInVersionOne),
            PacketVersion::Two if burst.octets > 2 => Some(Misfit::OctetShiftAboveTwo),
            PacketVersion::Two if burst.on_four_octets().is_none() => {
                Some(Misfit::OutsideTheFourOctets)
            }
            PacketVersion::Two => None,
        };
        match (burst.pattern, shift) {
            (0, Some(_)) => Misfit::Several,
            (_, Some(misfit)) => misfit,
            (_, None) => Misfit::NoPattern,
        }
    }
}

/// How a hurt packet told a link fault.
#[derive(Clone, Copy, PartialEq, Eq, PartialOrd, Ord, Debug)]
pub enum Found {
    /// By its own check, and what of the packet was hit.
    OnTaking(Hit),
    DamageAtCheckp(PacketVersion),
    LossAtCheckp(PacketVersion),
}

impl Found {
    /// Damage in version 2 is found before any checkp.
    pub const ALL: [Found; 6] = [
        Found::OnTaking(Hit::Amount),
        Found::OnTaking(Hit::OwnCheck),
        Found::OnTaking(Hit::Both),
        Found::DamageAtCheckp(PacketVersion::One),
        Found::LossAtCheckp(PacketVersion::One),
        Found::LossAtCheckp(PacketVersion::Two),
    ];
}

/// Why a packet whose own check does not fit told nothing.
#[derive(Clone, Copy, PartialEq, Eq, PartialOrd, Ord, Debug)]
pub enum Dropped {
    InRecovery,
    OverStruckLink,
}

/// How a refused file mixes the versions.
#[derive(Clone, Copy, PartialEq, Eq, PartialOrd, Ord, Debug)]
pub enum Mixed {
    /// Of version 2, but for its sixth number.
    SixthNumber,
    /// Names version 2 in 10 or 11 octets.
    CutShort,
    /// Of the other version, but for its first offset.
    FirstOffset,
    /// Of one version, as long as one of the other.
    TrueLength,
    /// The second offset or the stated length is that of the other version.
    LaterNumbers,
    /// Refused with 4: the sixth number stands where an entry is read.
    SixthNumberAsEntry,
}

impl Mixed {
    pub const ALL: [Mixed; 6] = [
        Mixed::SixthNumber,
        Mixed::CutShort,
        Mixed::FirstOffset,
        Mixed::TrueLength,
        Mixed::LaterNumbers,
        Mixed::SixthNumberAsEntry,
    ];

    fn of(file: &[u8], refusal: u8) -> Option<Mixed> {
        match refusal {
            3 => Mixed::of_layout(file),
            4 => Mixed::of_first_entry(file),
            _ => None,
        }
    }

    fn of_first_entry(file: &[u8]) -> Option<Mixed> {
        let one = PacketVersion::named_by(file) == PacketVersion::One;
        (one && file[10..].starts_with(&[0, 2])).then_some(Mixed::SixthNumberAsEntry)
    }

    fn of_layout(file: &[u8]) -> Option<Mixed> {
        let stated = [4, 6, 8].map(|offset| number_at(file, offset));
        let layout =
            |version: PacketVersion| version.layout(number_at(file, 0), number_at(file, 2));
        let (named, other) = match stated[0] {
            10 => (PacketVersion::One, layout(PacketVersion::Two)),
            12 => (PacketVersion::Two, layout(PacketVersion::One)),
            _ => return None,
        };
        let as_named = stated == layout(named);
        if named == PacketVersion::Two && file.len() < 12 {
            Some(Mixed::CutShort)
        } else if as_named && file.len() == stated[2] {
            Some(Mixed::SixthNumber)
        } else if as_named {
            (file.len() == other[2]).then_some(Mixed::TrueLength)
        } else if stated[1..] == other[1..] && file.len() == other[2] {
            Some(Mixed::FirstOffset)
        } else {
            (stated[1] == other[1] || stated[2] == other[2]).then_some(Mixed::LaterNumbers)
        }
    }
}

// ---------------------------------------------------------------- the counts

#[derive(Clone, Default, PartialEq, Eq, Debug)]
pub struct OwnCheckCounts {
    /// Loaded.
    pub groups: BTreeMap<PacketVersion, u64>,
    pub loads_refused: BTreeMap<Mixed, u64>,
    /// Normal packets damaged.
    pub hit: BTreeMap<(PacketVersion, Hit), u64>,
    /// Fail-safe packets damaged by a shifted pattern.
    pub fail_safe_hit: u64,
    /// Damage, with 15.
    pub misfits: BTreeMap<Misfit, u64>,
    /// Of these, at a fail-safe packet.
    pub misfits_at_fail_safe: u64,
    /// Damage with a shift, by the refusal.
    pub refused_with_shift: BTreeMap<u8, u64>,
    /// In version 1, where nothing tells it before the checkp.
    pub hurt_amounts_added: u64,
    /// Where that crashes the group too.
    pub found: BTreeMap<Found, u64>,
    /// Of these, where it crashes the group.
    pub crashes: BTreeMap<Found, u64>,
    /// Of those on taking, by the receiver's state.
    pub found_on_taking_in: BTreeMap<State, u64>,
    pub dropped: BTreeMap<Dropped, u64>,
    /// Recoveries ended after such a find.
    pub recoveries_ended: BTreeMap<Found, u64>,
    /// The first commits after such recoveries.
    pub commits_after_recovery: BTreeMap<Found, u64>,
}

impl OwnCheckCounts {
    pub(crate) fn count_refused_load(&mut self, group_file: &[u8], refusal: u8) {
        if let Some(mixed) = Mixed::of(group_file, refusal) {
            count(&mut self.loads_refused, mixed);
        }
    }

    pub(crate) fn count_group(&mut self, group: &Group) {
        count(&mut self.groups, group.packet_version());
    }

    /// The aim is that of before the step.
    pub(crate) fn count_step(
        &mut self,
        watch: &mut HurtWatch,
        aim: Option<Aim>,
        version: PacketVersion,
        record: &[u8],
        outcome: Outcome,
    ) {
        match (record, aim) {
            (&[11, _, b, p, high, low], _) => {
                let burst = Burst::of_fields(b, p, u16::from_be_bytes([high, low]));
                self.count_damage(aim, version, burst, outcome.answer);
                watch.after_damage(aim, Hit::of(burst, version), outcome.answer);
            }
            (&[12, ..], Some(aim)) if outcome.answer == TAKEN => {
                watch.hurts.insert(aim.line, Hurt::Lost);
            }
            (&[4, ..], Some(aim)) if [TAKEN, CRASHED].contains(&outcome.answer) => {
                self.count_deliver(watch, aim, version, outcome.event);
            }
            _ => {}
        }
        self.count_event(watch, outcome.event);
    }

    fn count_damage(&mut self, aim: Option<Aim>, version: PacketVersion, burst: Burst, answer: u8) {
        let normal = matches!(aim.and_then(|aim| aim.packet), Some(Packet::Normal(_)));
        match answer {
            TAKEN if normal => count(&mut self.hit, (version, Hit::of(burst, version))),
            TAKEN => self.fail_safe_hit += u64::from(burst.is_shifted()),
            15 => {
                count(&mut self.misfits, Misfit::of(burst, version));
                self.misfits_at_fail_safe += u64::from(!normal);
            }
            _ => {}
        }
        if burst.is_shifted() && (9..=20).contains(&answer) {
            count(&mut self.refused_with_shift, answer);
        }
    }

    fn count_deliver(
        &mut self,
        watch: &mut HurtWatch,
        aim: Aim,
        version: PacketVersion,
        event: Event,
    ) {
        let crash = event == Event::Crash(Crash::CutOffByLinkFault);
        let hurt = watch.hurts.get(&aim.line).copied();
        if crash || matches!(event, Event::LinkFault(_)) {
            if let Some(found) = found(aim.packet, version, hurt) {
                count(&mut self.found, found);
                if crash {
                    count(&mut self.crashes, found);
                }
                if matches!(found, Found::OnTaking(_)) {
                    count(&mut self.found_on_taking_in, aim.receiver);
                }
                watch.found = Some(found);
            }
        }
        let is_the_hurt_one = watch.move_up(aim.line);
        let added = matches!(event, Event::Added(_));
        self.hurt_amounts_added += u64::from(is_the_hurt_one && added);
        if event == Event::Nothing && is_unfit(aim.packet) {
            let dropped = if aim.in_use { Dropped::InRecovery } else { Dropped::OverStruckLink };
            count(&mut self.dropped, dropped);
        }
    }

    fn count_event(&mut self, watch: &mut HurtWatch, event: Event) {
        match event {
            Event::RecoveryEnd { .. } => {
                watch.ahead.clear();
                watch.recovered = watch.found.take();
                if let Some(found) = watch.recovered {
                    count(&mut self.recoveries_ended, found);
                }
            }
            Event::Commit => {
                if let Some(found) = watch.recovered.take() {
                    count(&mut self.commits_after_recovery, found);
                }
            }
            _ => {}
        }
    }

    pub(crate) fn add(&mut self, other: &OwnCheckCounts) {
        add_counts(&mut self.groups, &other.groups);
        add_counts(&mut self.loads_refused, &other.loads_refused);
        add_counts(&mut self.hit, &other.hit);
        self.fail_safe_hit += other.fail_safe_hit;
        add_counts(&mut self.misfits, &other.misfits);
        self.misfits_at_fail_safe += other.misfits_at_fail_safe;
        add_counts(&mut self.refused_with_shift, &other.refused_with_shift);
        self.hurt_amounts_added += other.hurt_amounts_added;
        add_counts(&mut self.found, &other.found);
        add_counts(&mut self.crashes, &other.crashes);
        add_counts(&mut self.found_on_taking_in, &other.found_on_taking_in);
        add_counts(&mut self.dropped, &other.dropped);
        add_counts(&mut self.recoveries_ended, &other.recoveries_ended);
        add_counts(&mut self.commits_after_recovery, &other.commits_after_recovery);
    }

    pub(crate) fn report(&self) -> String {
        let mut text = format!("groups by packet version: {}\n", counts_text(&self.groups));
        let mixed = counts_text(&self.loads_refused);
        let _ = writeln!(text, "loads refused for mixed versions: {mixed}");
        let _ = writeln!(text, "normal packets damaged: {}", counts_text(&self.hit));
        let _ = writeln!(text, "fail-safe packets damaged with a shift: {}", self.fail_safe_hit);
        let (misfits, at_fail_safe) = (counts_text(&self.misfits), self.misfits_at_fail_safe);
        let _ =
            writeln!(text, "damage refused 15: {misfits}, at fail-safe packets: {at_fail_safe}");
        let refused = counts_text(&self.refused_with_shift);
        let _ = writeln!(text, "damage with a shift refused: {refused}");
        let _ = writeln!(text, "hurt amounts added in version 1: {}", self.hurt_amounts_added);
        let (found, crashes) = (counts_text(&self.found), counts_text(&self.crashes));
        let _ = writeln!(text, "hurts found: {found}");
        let _ = writeln!(text, "hurts found with a crash: {crashes}");
        let states = counts_text(&self.found_on_taking_in);
        let _ = writeln!(text, "hurts found on taking in: {states}");
        let dropped = counts_text(&self.dropped);
        let _ = writeln!(text, "hurt packets of version 2 dropped: {dropped}");
        let ended = counts_text(&self.recoveries_ended);
        let _ = writeln!(text, "recoveries ended after hurts found: {ended}");
        let commits = counts_text(&self.commits_after_recovery);
        let _ = writeln!(text, "first commits after such a recovery: {commits}");
        text
    }
}

/// What a link fault found by this packet tells of the hurt of its line.
fn found(packet: Option<Packet>, version: PacketVersion, hurt: Option<Hurt>) -> Option<Found> {
    match (packet?, hurt?) {
        (Packet::Normal(charge), Hurt::Damaged(hit)) if !charge.fits() => {
            Some(Found::OnTaking(hit))
        }
        (Packet::Checkp(_), Hurt::Damaged(_)) => Some(Found::DamageAtCheckp(version)),
        (Packet::Checkp(_), Hurt::Lost) => Some(Found::LossAtCheckp(version)),
        _ => None,
    }
}

fn is_unfit(packet: Option<Packet>) -> bool {
    matches!(packet, Some(Packet::Normal(charge)) if !charge.fits())
}

// ---------------------------------------------------------------- what is remembered

#[derive(Clone, Copy, PartialEq, Eq, Debug)]
enum Hurt {
    Damaged(Hit),
    Lost,
}

/// For the counts only: how a normal packet of each line was hurt last, and what was found.
#[derive(Default)]
pub(crate) struct HurtWatch {
    hurts: BTreeMap<(Number, Number), Hurt>,
    /// How many packets are before the damaged one of a line.
    ahead: BTreeMap<(Number, Number), usize>,
    /// Since the last recovery's end.
    found: Option<Found>,
    /// Before the last recovery's end, with no commit since.
    recovered: Option<Found>,
}

impl HurtWatch {
    fn after_damage(&mut self, aim: Option<Aim>, hit: Hit, answer: u8) {
        if let (Some(aim), TAKEN) = (aim, answer) {
            if matches!(aim.packet, Some(Packet::Normal(_))) {
                self.hurts.insert(aim.line, Hurt::Damaged(hit));
                self.ahead.insert(aim.line, aim.place);
            }
        }
    }

    /// The oldest packet leaves a line; answers whether it is the damaged one.
    fn move_up(&mut self, line: (Number, Number)) -> bool {
        match self.ahead.get_mut(&line) {
            Some(0) => self.ahead.remove(&line).is_some(),
            Some(ahead) => {
                *ahead -= 1;
                false
            }
            None => false,
        }
    }
}
