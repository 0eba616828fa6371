//! Counts of what the workshop brings: what either party books and sends, where the other one has
//! places or amperes left, and what became of the workshop's hurt packets.

use crate::aim::Aim;
use crate::listing::{add_counts, count, counts_text};
use crate::model::{
    number_at, Account, Crash, Ends, Event, Group, Number, Outcome, Packet, PacketVersion, Party,
    CABINET_ENTRY_LENGTH, CRASHED, MOST_BOOKED, TAKEN,
};
use std::collections::BTreeMap;
use std::fmt::Write;

#[cfg(test)]
mod tests;

/// What is said of a file's totals.
#[derive(Clone, Copy, PartialEq, Eq, PartialOrd, Ord, Debug)]
pub enum Totals {
    /// The workshop has booked nothing.
    NoneOfWorkshop,
    /// That party has booked all that it may, and the other one has not.
    FullOf(Party),
    BothFull,
    /// More than one party alone may have, and neither has too much.
    TogetherAbove,
}

impl Totals {
    pub const ALL: [Totals; 5] = [
        Totals::NoneOfWorkshop,
        Totals::FullOf(Party::Buses),
        Totals::FullOf(Party::Workshop),
        Totals::BothFull,
        Totals::TogetherAbove,
    ];

    fn of([buses, workshop]: [u32; 2]) -> Vec<Totals> {
        let full = match (buses == MOST_BOOKED, workshop == MOST_BOOKED) {
            (true, true) => Some(Totals::BothFull),
            (true, false) => Some(Totals::FullOf(Party::Buses)),
            (false, true) => Some(Totals::FullOf(Party::Workshop)),
            (false, false) => None,
        };
        let none = (workshop == 0).then_some(Totals::NoneOfWorkshop);
        let together = (buses + workshop > MOST_BOOKED).then_some(Totals::TogetherAbove);
        [full, none, together].into_iter().flatten().collect()
    }
}

/// Who has booked too much.
#[derive(Clone, Copy, PartialEq, Eq, PartialOrd, Ord, Debug)]
pub enum Overbooked {
    /// By one ampere.
    JustBy(Party),
    By(Party),
    ByBoth,
}

impl Overbooked {
    pub const BY_ONE_PARTY: [Overbooked; 4] = [
        Overbooked::JustBy(Party::Buses),
        Overbooked::JustBy(Party::Workshop),
        Overbooked::By(Party::Buses),
        Overbooked::By(Party::Workshop),
    ];

    fn of([buses, workshop]: [u32; 2]) -> Option<Overbooked> {
        let by = |total: u32, party: Party| match total {
            _ if total == MOST_BOOKED + 1 => Overbooked::JustBy(party),
            _ => Overbooked::By(party),
        };
        match (buses > MOST_BOOKED, workshop > MOST_BOOKED) {
            (true, true) => Some(Overbooked::ByBoth),
            (true, false) => Some(by(buses, Party::Buses)),
            (false, true) => Some(by(workshop, Party::Workshop)),
            (false, false) => None,
        }
    }
}

#[derive(Clone, Copy, PartialEq, Eq, PartialOrd, Ord, Debug)]
pub enum Hurt {
    Damaged,
    Lost,
}

/// How a hurt packet of the workshop told a link fault.
#[derive(Clone, Copy, PartialEq, Eq, PartialOrd, Ord, Debug)]
pub enum Found {
    ByItsOwnCheck,
    ByCheckp(PacketVersion, Hurt),
}

impl Found {
    /// Damage in version 2 is found before any checkp.
    pub const ALL: [Found; 4] = [
        Found::ByItsOwnCheck,
        Found::ByCheckp(PacketVersion::One, Hurt::Damaged),
        Found::ByCheckp(PacketVersion::One, Hurt::Lost),
        Found::ByCheckp(PacketVersion::Two, Hurt::Lost),
    ];
}

// ---------------------------------------------------------------- the counts

#[derive(Clone, Default, PartialEq, Eq, Debug)]
pub struct WorkshopCounts {
    /// Of files that load.
    pub totals: BTreeMap<Totals, u64>,
    /// Of files refused with 7.
    pub loads_refused: BTreeMap<Overbooked, u64>,
    /// Sends taken, by party.
    pub sends_taken: BTreeMap<Party, u64>,
    /// Of these, where four or more normal packets of both parties stood in the line.
    pub sends_beyond_four: BTreeMap<Party, u64>,
    /// Of these, where there were seven.
    pub lines_filled: u64,
    /// The workshop's.
    pub packets_taken: u64,
    /// With 17, and whether the other party had a place in that line.
    pub lines_full: BTreeMap<(Party, bool), u64>,
    /// With 16, where what the other party has booked there would have covered it.
    pub otherwise_covered: BTreeMap<Party, u64>,
    /// Of a value that fits, by octet and answer.
    pub notes: BTreeMap<(u8, u8), u64>,
    /// The workshop's packets.
    pub hurt: BTreeMap<(PacketVersion, Hurt), u64>,
    /// Damage or loss, with 20, where the packet hurt before was one of the other party.
    pub refused_after_the_other: BTreeMap<Party, u64>,
    /// Added to the workshop's booking, which wrapped.
    pub wraps: u64,
    /// Where that crashes the group too.
    pub found: BTreeMap<Found, u64>,
    /// Recoveries ended after such a find.
    pub recoveries_after_find: BTreeMap<Found, u64>,
    /// Trips of a cabinet where the workshop had booked something.
    pub trips: u64,
    /// Recoveries that left another booking of the workshop than before the fault.
    pub recoveries_changing: u64,
    /// Commits with another booking of the workshop than the committed one.
    pub commits_changing: u64,
}

impl WorkshopCounts {
    pub(crate) fn count_refused_load(&mut self, group_file: &[u8], refusal: u8) {
        if refusal == 7 {
            let overbooked = Overbooked::of(totals_of_file(group_file));
            overbooked.into_iter().for_each(|by| count(&mut self.loads_refused, by));
        }
    }

    pub(crate) fn count_group(&mut self, group: &Group) {
        for total in Totals::of(totals_of_group(group)) {
            count(&mut self.totals, total);
        }
    }

    /// The aim is that of before the step, the group the one after it; a refused step has left
    /// it as it was.
    pub(crate) fn count_step(
        &mut self,
        watch: &mut WorkshopWatch,
        aim: Option<Aim>,
        group: &Group,
        record: &[u8],
        outcome: Outcome,
    ) {
        match (record, aim) {
            (&[1, ..], _) => self.count_send(group, record, outcome.answer),
            (&[2, _, _, octet @ 4..=6, 0, _], _) if [TAKEN, 15].contains(&outcome.answer) => {
                count(&mut self.notes, (octet, outcome.answer));
            }
            (&[13, a, ..], _) if outcome.answer == TAKEN => {
                self.trips += u64::from(watch.before[usize::from(a) - 1] > 0);
            }
            (&[11 | 12, ..], Some(aim)) => {
                self.count_hurt(watch, aim, group, record[0], outcome.answer);
            }
            (&[4, ..], Some(aim)) => self.count_deliver(watch, aim, group, outcome),
            _ => {}
        }
        self.count_event(watch, group, outcome.event);
    }

    fn count_send(&mut self, group: &Group, send: &[u8], answer: u8) {
        let &[_, a, b, p, high, low] = send else {
            return;
        };
        let (Some(ends), TAKEN | 16 | 17) = (Ends::of(p), answer) else {
            return;
        };
        let party = ends.party();
        let line = group.line(usize::from(a), usize::from(b));
        match answer {
            TAKEN => {
                count(&mut self.sends_taken, party);
                let packets: usize = Party::ALL.map(|party| line.packets_of(party)).iter().sum();
                if packets > 4 {
                    count(&mut self.sends_beyond_four, party);
                }
                self.lines_filled += u64::from(packets == 8);
            }
            17 => count(&mut self.lines_full, (party, line.has_place_for(party.other()))),
            _ => {
                let [at_a, at_b, workshop] = group.cabinet(usize::from(a)).bookings();
                let cover = match party {
                    Party::Buses => u32::from(workshop),
                    Party::Workshop => u32::from(at_a) + u32::from(at_b),
                };
                if u32::from(u16::from_be_bytes([high, low])) <= cover {
                    count(&mut self.otherwise_covered, party);
                }
            }
        }
    }

    fn count_hurt(
        &mut self,
        watch: &mut WorkshopWatch,
        aim: Aim,
        group: &Group,
        kind: u8,
        answer: u8,
    ) {
        let Some(Packet::Normal(charge)) = aim.packet else {
            return;
        };
        let party = charge.account.party();
        let hurt = if kind == 11 { Hurt::Damaged } else { Hurt::Lost };
        let before = watch.hurts.get(&aim.line).copied();
        match answer {
            TAKEN => {
                watch.hurts.insert(aim.line, (party, hurt));
                if party == Party::Workshop {
                    count(&mut self.hurt, (group.packet_version(), hurt));
                }
            }
            20 if before.is_some_and(|(hurt_party, _)| hurt_party != party) => {
                count(&mut self.refused_after_the_other, party);
            }
            _ => {}
        }
    }

    fn count_deliver(
        &mut self,
        watch: &mut WorkshopWatch,
        aim: Aim,
        group: &Group,
        outcome: Outcome,
    ) {
        let crash = outcome.event == Event::Crash(Crash::CutOffByLinkFault);
        if crash || matches!(outcome.event, Event::LinkFault(_)) {
            let hurt = watch.hurts.get(&aim.line).copied();
            if let Some(found) = found(aim.packet, group.packet_version(), hurt) {
                count(&mut self.found, found);
                watch.found = Some(found);
            }
        }
        if outcome.event == Event::Added(Account::Workshop) {
            self.packets_taken += 1;
            let receiver = aim.line.1;
            let after = group.cabinet(receiver).booking(Account::Workshop);
            self.wraps += u64::from(after < watch.before[receiver - 1]);
        }
        if outcome.answer == CRASHED {
            watch.found = None;
        }
    }

    fn count_event(&mut self, watch: &mut WorkshopWatch, group: &Group, event: Event) {
        match event {
            Event::RecoveryEnd { .. } => {
                let found = watch.found.take();
                found.into_iter().for_each(|found| count(&mut self.recoveries_after_find, found));
                let changes = watch.differs(group, &watch.before_fault);
                self.recoveries_changing += u64::from(changes);
                watch.committed = bookings(group);
            }
            Event::Commit => {
                self.commits_changing += u64::from(watch.differs(group, &watch.committed));
                watch.committed = bookings(group);
            }
            _ => {}
        }
    }

    pub(crate) fn add(&mut self, other: &WorkshopCounts) {
        add_counts(&mut self.totals, &other.totals);
        add_counts(&mut self.loads_refused, &other.loads_refused);
        add_counts(&mut self.sends_taken, &other.sends_taken);
        add_counts(&mut self.sends_beyond_four, &other.sends_beyond_four);
        self.lines_filled += other.lines_filled;
        self.packets_taken += other.packets_taken;
        add_counts(&mut self.lines_full, &other.lines_full);
        add_counts(&mut self.otherwise_covered, &other.otherwise_covered);
        add_counts(&mut self.notes, &other.notes);
        add_counts(&mut self.hurt, &other.hurt);
        add_counts(&mut self.refused_after_the_other, &other.refused_after_the_other);
        self.wraps += other.wraps;
        add_counts(&mut self.found, &other.found);
        add_counts(&mut self.recoveries_after_find, &other.recoveries_after_find);
        self.trips += other.trips;
        self.recoveries_changing += other.recoveries_changing;
        self.commits_changing += other.commits_changing;
    }

    pub(crate) fn report(&self) -> String {
        let mut text = format!("totals of groups: {}\n", counts_text(&self.totals));
        let _ = writeln!(text, "loads refused 7: {}", counts_text(&self.loads_refused));
        let _ = writeln!(text, "sends taken by party: {}", counts_text(&self.sends_taken));
        let beyond = counts_text(&self.sends_beyond_four);
        let (filled, taken) = (self.lines_filled, self.packets_taken);
        let _ = writeln!(text, "sends taken as a line's fifth to eighth packet: {beyond}");
        let _ = writeln!(text, "as its eighth: {filled}, workshop packets taken: {taken}");
        let full = counts_text(&self.lines_full);
        let _ = writeln!(text, "sends refused 17, the other party with a place: {full}");
        let covered = counts_text(&self.otherwise_covered);
        let _ = writeln!(text, "sends refused 16, covered by the other party's: {covered}");
        let _ = writeln!(text, "notes by octet and answer: {}", counts_text(&self.notes));
        let _ = writeln!(text, "workshop packets hurt: {}", counts_text(&self.hurt));
        let refused = counts_text(&self.refused_after_the_other);
        let _ = writeln!(text, "hurts refused 20 after the other party's: {refused}");
        let _ = writeln!(text, "workshop bookings wrapped: {}", self.wraps);
        let _ = writeln!(text, "workshop's hurts found: {}", counts_text(&self.found));
        let ended = counts_text(&self.recoveries_after_find);
        let _ = writeln!(text, "recoveries ended after such a find: {ended}");
        let _ = writeln!(text, "trips with a workshop booking: {}", self.trips);
        let (recoveries, commits) = (self.recoveries_changing, self.commits_changing);
        let _ = writeln!(text, "recoveries that changed the workshop's: {recoveries}");
        let _ = writeln!(text, "commits that changed the workshop's: {commits}");
        text
    }
}

/// What a link fault found by this packet tells of the workshop's hurt packet of its line.
fn found(
    packet: Option<Packet>,
    version: PacketVersion,
    hurt: Option<(Party, Hurt)>,
) -> Option<Found> {
    match (packet?, hurt?) {
        (Packet::Normal(charge), _) if charge.account == Account::Workshop && !charge.fits() => {
            Some(Found::ByItsOwnCheck)
        }
        (Packet::Checkp(_), (Party::Workshop, hurt)) => Some(Found::ByCheckp(version, hurt)),
        _ => None,
    }
}

// ---------------------------------------------------------------- totals

/// Of the buses and of the workshop.
fn totals(bookings: impl Iterator<Item = [u16; 3]>) -> [u32; 2] {
    bookings.fold([0; 2], |[buses, workshop], booked| {
        let [a, b, of_workshop] = booked.map(u32::from);
        [buses + a + b, workshop + of_workshop]
    })
}

fn totals_of_group(group: &Group) -> [u32; 2] {
    totals(group.numbers().map(|number| group.cabinet(number).bookings()))
}

/// Of a file whose layout is right.
fn totals_of_file(file: &[u8]) -> [u32; 2] {
    let header_length = PacketVersion::named_by(file).header_length();
    let entries = file[header_length..].chunks(CABINET_ENTRY_LENGTH).take(number_at(file, 0));
    totals(entries.map(|entry| [2, 4, 6].map(|place| number_at(entry, place) as u16)))
}

// ---------------------------------------------------------------- what is remembered

fn bookings(group: &Group) -> Vec<u16> {
    group.numbers().map(|number| group.cabinet(number).booking(Account::Workshop)).collect()
}

/// For the counts only: the workshop's bookings before the last step, before the recovery under
/// way and in the last commit, and whose packet was hurt last on each line.
pub(crate) struct WorkshopWatch {
    before: Vec<u16>,
    before_fault: Vec<u16>,
    committed: Vec<u16>,
    hurts: BTreeMap<(Number, Number), (Party, Hurt)>,
    /// Since the last recovery's end.
    found: Option<Found>,
}

impl WorkshopWatch {
    pub(crate) fn new(group: &Group) -> WorkshopWatch {
        let start = bookings(group);
        WorkshopWatch {
            before: start.clone(),
            before_fault: start.clone(),
            committed: start,
            hurts: BTreeMap::new(),
            found: None,
        }
    }

    pub(crate) fn before_step(&mut self, group: &Group) {
        self.before = bookings(group);
        if !group.recovery_under_way() {
            self.before_fault.clone_from(&self.before);
        }
    }

    /// Whether the workshop has booked something else now at a cabinet that works.
    fn differs(&self, group: &Group, then: &[u16]) -> bool {
        let now = bookings(group);
        group.working_cabinets().into_iter().any(|number| now[number - 1] != then[number - 1])
    }
}
