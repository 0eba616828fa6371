//! Counts of what chronicles show.

use super::deeds::{Deed, Fate, Save};
use crate::form::Form;
use crate::listing::{add_counts, count, counts_text, RECORDS_READ};
use crate::model::{Account, Group, Packet, PacketVersion, Place, State, Version};
use crate::word::Sort;
use std::collections::BTreeMap;
use std::fmt::Write;

#[derive(Clone, Copy, PartialEq, Eq, PartialOrd, Ord, Debug)]
pub enum PacketSort {
    /// By the booking that it is for.
    Normal(Account),
    Checkp,
    Resume,
    Recover,
    Fault,
    Invalid,
}

impl PacketSort {
    pub const ALL: [PacketSort; 8] = [
        PacketSort::Normal(Account::A),
        PacketSort::Normal(Account::B),
        PacketSort::Normal(Account::Workshop),
        PacketSort::Checkp,
        PacketSort::Resume,
        PacketSort::Recover,
        PacketSort::Fault,
        PacketSort::Invalid,
    ];

    fn of(packet: &Packet) -> PacketSort {
        match packet {
            Packet::Normal(charge) => PacketSort::Normal(charge.account),
            Packet::Checkp(_) => PacketSort::Checkp,
            Packet::Resume => PacketSort::Resume,
            Packet::Recover(_) => PacketSort::Recover,
            Packet::Fault(_) => PacketSort::Fault,
            Packet::Invalid => PacketSort::Invalid,
        }
    }
}

#[derive(Clone, Copy, PartialEq, Eq, PartialOrd, Ord, Debug)]
pub enum SaveSort {
    Start,
    Commit,
    Return,
}

impl SaveSort {
    pub const ALL: [SaveSort; 3] = [SaveSort::Start, SaveSort::Commit, SaveSort::Return];

    fn of(save: Save) -> SaveSort {
        match save {
            Save::Start => SaveSort::Start,
            Save::Commit(_) => SaveSort::Commit,
            Save::Return(_) => SaveSort::Return,
        }
    }
}

#[derive(Clone, Copy, PartialEq, Eq, PartialOrd, Ord, Debug)]
pub enum PlaceSort {
    None,
    Failed,
    Tripped,
    Link,
}

impl PlaceSort {
    pub const ALL: [PlaceSort; 4] =
        [PlaceSort::None, PlaceSort::Failed, PlaceSort::Tripped, PlaceSort::Link];

    fn of(place: Option<Place>) -> PlaceSort {
        match place {
            None => PlaceSort::None,
            Some(Place::Failed(_)) => PlaceSort::Failed,
            Some(Place::Tripped(_)) => PlaceSort::Tripped,
            Some(Place::Link(..)) => PlaceSort::Link,
        }
    }
}

#[derive(Clone, Copy, PartialEq, Eq, PartialOrd, Ord, Debug)]
pub enum VersionSort {
    Known(u8),
    Unknown { old: u8 },
    Lost,
}

impl VersionSort {
    pub const ALL: [VersionSort; 5] = [
        VersionSort::Known(0),
        VersionSort::Known(1),
        VersionSort::Unknown { old: 0 },
        VersionSort::Unknown { old: 1 },
        VersionSort::Lost,
    ];

    fn of(version: Version) -> VersionSort {
        match version {
            Version::Known(version) => VersionSort::Known(version),
            Version::Unknown { old } => VersionSort::Unknown { old },
            Version::Lost => VersionSort::Lost,
        }
    }
}

/// A line that was emptied with packets in it.
#[derive(Clone, Copy, PartialEq, Eq, PartialOrd, Ord, Debug)]
pub enum Emptied {
    /// Of its sender, which failed, tripped or entered error.
    Outgoing,
    /// The same, and something was put in that record.
    OutgoingPutSince,
    /// Of its receiver, which failed or tripped.
    Incoming,
    /// The same, and its sender put something in that record.
    IncomingPutSince,
}

impl Emptied {
    pub const ALL: [Emptied; 4] = [
        Emptied::Outgoing,
        Emptied::OutgoingPutSince,
        Emptied::Incoming,
        Emptied::IncomingPutSince,
    ];
}

/// Counts over one or many chronicles.
#[derive(Clone, Default, PartialEq, Eq, Debug)]
pub struct Counts {
    /// Lists of step records, and plans.
    pub step_lists: u64,
    pub plans: u64,
    /// Lists of loaded groups, with more records than are read.
    pub long_lists: u64,
    /// And those with a short last record that is read.
    pub short_last_records: u64,
    pub loads_refused: BTreeMap<u8, u64>,
    pub packet_versions: BTreeMap<PacketVersion, u64>,
    /// By the number of cabinets.
    pub sizes: BTreeMap<usize, u64>,
    /// With those of the groups as loaded.
    pub rows: u64,
    /// Of records, and so down to the cuts.
    pub answers: BTreeMap<u8, u64>,
    /// With the packet that was delivered, if one was.
    pub fates: BTreeMap<(Option<PacketSort>, Fate), u64>,
    pub words: BTreeMap<Sort, u64>,
    pub commits: u64,
    pub returns: u64,
    /// By what they brought back.
    pub recoveries_ended: BTreeMap<SaveSort, u64>,
    /// By the save that is given in its place.
    pub saves_passed_over: BTreeMap<SaveSort, u64>,
    /// Lines with packets in them.
    pub emptied: BTreeMap<Emptied, u64>,
    /// With third trips.
    pub fails: u64,
    pub trips: u64,
    pub cuts: u64,
    /// Of cabinets in each row.
    pub states: BTreeMap<State, u64>,
    /// Of those that have not failed, and so in the next four.
    pub versions: BTreeMap<VersionSort, u64>,
    pub places: BTreeMap<PlaceSort, u64>,
    pub pieces: BTreeMap<usize, u64>,
    /// Another one than cabinet 1.
    pub other_coordinators: u64,
    /// Another one than the file names.
    pub other_homes: u64,
    /// In the lines of each row.
    pub packets: BTreeMap<PacketSort, u64>,
}

impl Counts {
    pub(super) fn of_list(form: Form) -> Counts {
        let plan = form == Form::Plan;
        let (step_lists, plans) = (u64::from(!plan), u64::from(plan));
        Counts { step_lists, plans, ..Counts::default() }
    }

    pub(super) fn count_refused_load(&mut self, refusal: u8) {
        count(&mut self.loads_refused, refusal);
    }

    pub(super) fn count_start(&mut self, group: &Group, list: &[u8], form: Form) {
        let records = list.len().div_ceil(form.record_length());
        let short = !list.len().is_multiple_of(form.record_length());
        self.long_lists += u64::from(records > RECORDS_READ);
        self.short_last_records += u64::from(short && records <= RECORDS_READ);
        count(&mut self.packet_versions, group.packet_version());
        count(&mut self.sizes, group.size());
        self.count_group(group);
    }

    /// The group is that of after the record.
    pub(super) fn count_record(&mut self, deed: &Deed, group: &Group) {
        count(&mut self.answers, deed.answer);
        count(&mut self.fates, (deed.packet.as_ref().map(PacketSort::of), deed.fate));
        count(&mut self.words, Sort::of(group));
        self.count_saves(deed);
        for (number, acts) in group.numbers().zip(&deed.acts) {
            let failed = group.cabinet(number).state == State::Failed;
            self.fails += u64::from(acts.incoming_emptied && failed);
            self.trips += u64::from(acts.incoming_emptied && !failed);
            self.cuts += u64::from(acts.cut);
        }
        self.count_emptied_lines(deed, group);
        self.count_group(group);
    }

    fn count_saves(&mut self, deed: &Deed) {
        let (before, now) = (deed.save_before, deed.save);
        if now.record() < before.record() {
            count(&mut self.saves_passed_over, SaveSort::of(now));
        } else if now != before {
            self.commits += u64::from(matches!(now, Save::Commit(_)));
            self.returns += u64::from(matches!(now, Save::Return(_)));
        }
        if deed.recovery_ended {
            count(&mut self.recoveries_ended, SaveSort::of(now));
        }
    }

    fn count_emptied_lines(&mut self, deed: &Deed, group: &Group) {
        for from in group.numbers() {
            for to in group.numbers() {
                if deed.before.line(from, to).packets.is_empty() {
                    continue;
                }
                let put_since = !group.line(from, to).packets.is_empty();
                if deed.acts[from - 1].outgoing_emptied {
                    let sorts = [Emptied::Outgoing, Emptied::OutgoingPutSince];
                    count(&mut self.emptied, sorts[usize::from(put_since)]);
                }
                if deed.acts[to - 1].incoming_emptied {
                    let sorts = [Emptied::Incoming, Emptied::IncomingPutSince];
                    count(&mut self.emptied, sorts[usize::from(put_since)]);
                }
            }
        }
    }

    fn count_group(&mut self, group: &Group) {
        self.rows += 1;
        for number in group.numbers() {
            let cabinet = group.cabinet(number);
            count(&mut self.states, cabinet.state);
            if cabinet.working() {
                count(&mut self.versions, VersionSort::of(cabinet.version));
                count(&mut self.places, PlaceSort::of(cabinet.fault_place()));
                count(&mut self.pieces, cabinet.pieces_done());
                self.other_coordinators += u64::from(cabinet.coordinator() != 1);
                self.other_homes += u64::from(group.home(number) != cabinet.first_home());
            }
            for packet in group.numbers().flat_map(|to| &group.line(number, to).packets) {
                count(&mut self.packets, PacketSort::of(packet));
            }
        }
    }

    pub fn add(&mut self, other: &Counts) {
        self.step_lists += other.step_lists;
        self.plans += other.plans;
        self.long_lists += other.long_lists;
        self.short_last_records += other.short_last_records;
        self.rows += other.rows;
        self.commits += other.commits;
        self.returns += other.returns;
        self.fails += other.fails;
        self.trips += other.trips;
        self.cuts += other.cuts;
        self.other_coordinators += other.other_coordinators;
        self.other_homes += other.other_homes;
        add_counts(&mut self.loads_refused, &other.loads_refused);
        add_counts(&mut self.packet_versions, &other.packet_versions);
        add_counts(&mut self.sizes, &other.sizes);
        add_counts(&mut self.answers, &other.answers);
        add_counts(&mut self.fates, &other.fates);
        add_counts(&mut self.words, &other.words);
        add_counts(&mut self.recoveries_ended, &other.recoveries_ended);
        add_counts(&mut self.saves_passed_over, &other.saves_passed_over);
        add_counts(&mut self.emptied, &other.emptied);
        add_counts(&mut self.states, &other.states);
        add_counts(&mut self.versions, &other.versions);
        add_counts(&mut self.places, &other.places);
        add_counts(&mut self.pieces, &other.pieces);
        add_counts(&mut self.packets, &other.packets);
    }

    pub fn report(&self) -> String {
        let mut text = format!("{} step lists, {} plans\n", self.step_lists, self.plans);
        let [long, short] = [self.long_lists, self.short_last_records];
        let _ = writeln!(text, "{long} with more than is read, {short} with a short last record");
        let _ = writeln!(text, "loads refused: {}", counts_text(&self.loads_refused));
        let _ = writeln!(text, "packet versions: {}", counts_text(&self.packet_versions));
        let _ = writeln!(text, "numbers of cabinets: {}", counts_text(&self.sizes));
        let _ = writeln!(text, "rows: {}", self.rows);
        let _ = writeln!(text, "answers: {}", counts_text(&self.answers));
        for ((packet, fate), number) in &self.fates {
            let packet = packet.map_or("no packet".to_string(), |packet| format!("{packet:?}"));
            let _ = writeln!(text, "{packet}, {fate:?}: {number}");
        }
        let _ = writeln!(text, "words: {}", counts_text(&self.words));
        let _ = writeln!(text, "commits: {}, returns: {}", self.commits, self.returns);
        let _ = writeln!(text, "recoveries ended: {}", counts_text(&self.recoveries_ended));
        let _ = writeln!(text, "saves passed over: {}", counts_text(&self.saves_passed_over));
        let _ = writeln!(text, "lines emptied of packets: {}", counts_text(&self.emptied));
        let [fails, trips, cuts] = [self.fails, self.trips, self.cuts];
        let _ = writeln!(text, "fails: {fails}, trips: {trips}, cuts: {cuts}");
        text + &self.report_of_cabinets()
    }

    fn report_of_cabinets(&self) -> String {
        let mut text = format!("states: {}\n", counts_text(&self.states));
        let _ = writeln!(text, "versions: {}", counts_text(&self.versions));
        let _ = writeln!(text, "places: {}", counts_text(&self.places));
        let _ = writeln!(text, "pieces: {}", counts_text(&self.pieces));
        let _ = writeln!(text, "coordinators other than 1: {}", self.other_coordinators);
        let _ = writeln!(text, "homes other than in the file: {}", self.other_homes);
        let _ = writeln!(text, "packets in lines: {}", counts_text(&self.packets));
        text
    }
}
