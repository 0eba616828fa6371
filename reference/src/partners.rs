//! Counts of what partners of stores bring: groups with pairs and files that name partners wrongly,
//! stores that fail or trip and come back, what becomes of the reports they owe, where pieces are
//! written and fetched, and leads that go round.

use crate::listing::{add_counts, count, counts_text};
use crate::model::{
    Crash, Event, Group, Image, Number, Outcome, PacketVersion, State, CABINET_ENTRY_LENGTH,
    PLACE_OF_PARTNER, TAKEN,
};
use std::collections::{BTreeMap, BTreeSet};
use std::fmt::Write;

#[cfg(test)]
mod tests;

/// What is said of a group's stores.
#[derive(Clone, Copy, PartialEq, Eq, PartialOrd, Ord, Debug)]
pub enum Stores {
    NoPair,
    OnePair,
    SeveralPairs,
    /// Of some pair both are home of some cabinet.
    HomesOverBoth,
    /// Some pair is not joined by a link.
    PairNotLinked,
    /// Beside a pair.
    StoreAlone,
    /// A store with a partner has its home outside the pair.
    HomeOutsideThePair,
    /// The first coordinator has a partner.
    LeadWithPartner,
}

impl Stores {
    pub const ALL: [Stores; 8] = [
        Stores::NoPair,
        Stores::OnePair,
        Stores::SeveralPairs,
        Stores::HomesOverBoth,
        Stores::PairNotLinked,
        Stores::StoreAlone,
        Stores::HomeOutsideThePair,
        Stores::LeadWithPartner,
    ];

    fn of(group: &Group) -> Vec<Stores> {
        let pairs = pairs(group);
        if pairs.is_empty() {
            return vec![Stores::NoPair];
        }
        let is_home = |store: Number| {
            group.numbers().any(|number| group.cabinet(number).first_home() == store)
        };
        let outside = |store: Number, partner: Number| {
            ![store, partner].contains(&group.cabinet(store).first_home())
        };
        let alone = |number: Number| {
            let cabinet = group.cabinet(number);
            cabinet.is_a_store() && cabinet.partner().is_none()
        };
        let any = |fits: &dyn Fn(Number, Number) -> bool| pairs.iter().any(|&(a, b)| fits(a, b));
        let found = [
            (Stores::OnePair, pairs.len() == 1),
            (Stores::SeveralPairs, pairs.len() > 1),
            (Stores::HomesOverBoth, any(&|a, b| is_home(a) && is_home(b))),
            (Stores::PairNotLinked, any(&|a, b| !group.link_in_file(a, b))),
            (Stores::StoreAlone, group.numbers().any(alone)),
            (Stores::HomeOutsideThePair, any(&|a, b| outside(a, b) || outside(b, a))),
            (Stores::LeadWithPartner, group.cabinet(1).partner().is_some()),
        ];
        found.into_iter().filter(|(_, there)| *there).map(|(stores, _)| stores).collect()
    }
}

/// The lower number first.
fn pairs(group: &Group) -> Vec<(Number, Number)> {
    let named = |number: Number| group.cabinet(number).partner().map(|partner| (number, partner));
    group.numbers().filter_map(named).filter(|(low, high)| low < high).collect()
}

/// How an entry names its partner wrongly.
#[derive(Clone, Copy, PartialEq, Eq, PartialOrd, Ord, Debug)]
pub enum Misnamed {
    /// By a cabinet that is no store.
    ByNoStore,
    AboveN,
    Itself,
    NoStore,
    /// One that names none.
    NamesNobodyBack,
    NamesAnotherBack,
}

impl Misnamed {
    pub const ALL: [Misnamed; 6] = [
        Misnamed::ByNoStore,
        Misnamed::AboveN,
        Misnamed::Itself,
        Misnamed::NoStore,
        Misnamed::NamesNobodyBack,
        Misnamed::NamesAnotherBack,
    ];

    /// The first that fits of each entry, where marks and homes are sound.
    fn of_file(file: &[u8]) -> Vec<Misnamed> {
        let header_length = PacketVersion::named_by(file).header_length();
        let n = usize::from(file[1]);
        let entries: Vec<&[u8]> =
            file[header_length..].chunks(CABINET_ENTRY_LENGTH).take(n).collect();
        let a_store = |number: usize| (1..=n).contains(&number) && entries[number - 1][1] == 1;
        let sound = |entry: &&[u8]| entry[1] <= 1 && a_store(usize::from(entry[0]));
        if !entries.iter().all(sound) {
            return Vec::new();
        }
        let partner = |number: usize| usize::from(entries[number - 1][PLACE_OF_PARTNER]);
        let misnamed = |own: usize| match partner(own) {
            0 => None,
            _ if !a_store(own) => Some(Misnamed::ByNoStore),
            named if named > n => Some(Misnamed::AboveN),
            named if named == own => Some(Misnamed::Itself),
            named if !a_store(named) => Some(Misnamed::NoStore),
            named if partner(named) == 0 => Some(Misnamed::NamesNobodyBack),
            named if partner(named) != own => Some(Misnamed::NamesAnotherBack),
            _ => None,
        };
        (1..=n).filter_map(misnamed).collect()
    }
}

/// How a store leaves.
#[derive(Clone, Copy, PartialEq, Eq, PartialOrd, Ord, Debug)]
pub enum Leaving {
    Fail,
    Trip,
    /// Taken as a fail.
    ThirdTrip,
}

impl Leaving {
    pub const ALL: [Leaving; 3] = [Leaving::Fail, Leaving::Trip, Leaving::ThirdTrip];
}

/// When a store leaves.
#[derive(Clone, Copy, PartialEq, Eq, PartialOrd, Ord, Debug)]
pub enum Moment {
    /// Every working cabinet is in normal.
    AllInNormal,
    InASave,
    /// Somebody whom it serves has written some pieces, and not all.
    PiecesPartlyWritten,
    /// It owes reports.
    ReportsOwed,
    /// Its report came to the coordinator, and others are missing.
    SomeReported,
    /// It leads.
    Leads,
    /// Its partner leads.
    PartnerLeads,
    /// It is home of others, and so is its partner.
    BothServe,
}

impl Moment {
    pub const ALL: [Moment; 8] = [
        Moment::AllInNormal,
        Moment::InASave,
        Moment::PiecesPartlyWritten,
        Moment::ReportsOwed,
        Moment::SomeReported,
        Moment::Leads,
        Moment::PartnerLeads,
        Moment::BothServe,
    ];

    fn of(group: &Group, store: Number, partner: Number) -> Vec<Moment> {
        let working: Vec<Number> = group.working_cabinets().into_iter().collect();
        let state = |number: Number| group.cabinet(number).state;
        let saving = |number: Number| {
            matches!(state(number), State::CheckpBegin | State::Checkpointing | State::Checkpointed)
        };
        let partly = |number: Number| {
            let pieces = group.cabinet(number).pieces_done();
            let served = group.home(number) == store;
            served && state(number) == State::Checkpointing && pieces > 0
        };
        let serves = |home: Number| working.iter().any(|&number| group.home(number) == home);
        let lead = group.cabinet(store).coordinator();
        let missing = group.cabinet(lead).reports_missing();
        let some_reported = group.cabinet(lead).takes_reports()
            && missing.len() < working.len()
            && working.iter().any(|n| group.home(*n) == store && !missing.contains(n));
        let found = [
            (Moment::AllInNormal, working.iter().all(|&number| state(number) == State::Normal)),
            (Moment::InASave, working.iter().any(|&number| saving(number))),
            (Moment::PiecesPartlyWritten, working.iter().any(|&number| partly(number))),
            (Moment::ReportsOwed, !group.cabinet(store).reports_owed().is_empty()),
            (Moment::SomeReported, some_reported),
            (Moment::Leads, lead == store),
            (Moment::PartnerLeads, lead == partner),
            (Moment::BothServe, serves(store) && serves(partner)),
        ];
        found.into_iter().filter(|(_, there)| *there).map(|(moment, _)| moment).collect()
    }
}

/// Where one piece of an image is written.
#[derive(Clone, Copy, PartialEq, Eq, PartialOrd, Ord, Debug)]
pub enum Written {
    AtAStoreAlone,
    AtBoth,
    /// The partner of the home being in error, recovering or recovered.
    AtBothOneInRecovery,
    AtOneTheOtherAway,
    AtOneTheOtherFailed,
}

impl Written {
    pub const ALL: [Written; 5] = [
        Written::AtAStoreAlone,
        Written::AtBoth,
        Written::AtBothOneInRecovery,
        Written::AtOneTheOtherAway,
        Written::AtOneTheOtherFailed,
    ];

    /// Before the step.
    pub(crate) fn of(group: &Group, writer: Number) -> Written {
        let home = group.home(writer);
        let Some(partner) = group.cabinet(home).partner() else {
            return Written::AtAStoreAlone;
        };
        let other = group.cabinet(partner);
        if !other.working() {
            Written::AtOneTheOtherFailed
        } else if other.away() {
            Written::AtOneTheOtherAway
        } else if other.state.in_recovery() {
            Written::AtBothOneInRecovery
        } else {
            Written::AtBoth
        }
    }
}

/// Where a piece of an image is fetched.
#[derive(Clone, Copy, PartialEq, Eq, PartialOrd, Ord, Debug)]
pub enum Fetched {
    AtAStoreAlone,
    AtHome,
    /// The home in the file, which was away before.
    AtHomeComeBack,
    /// The same, and its partner is not present.
    AtHomeComeBackAlone,
    AtPartnerOneAway,
    AtPartnerOneFailed,
    /// The same, and the partner was away before.
    AtPartnerComeBackOneFailed,
}

impl Fetched {
    pub const ALL: [Fetched; 7] = [
        Fetched::AtAStoreAlone,
        Fetched::AtHome,
        Fetched::AtHomeComeBack,
        Fetched::AtHomeComeBackAlone,
        Fetched::AtPartnerOneAway,
        Fetched::AtPartnerOneFailed,
        Fetched::AtPartnerComeBackOneFailed,
    ];

    /// Before the step.
    fn of(group: &Group, fetcher: Number, came_back: &BTreeMap<Number, bool>) -> Fetched {
        let first = group.cabinet(fetcher).first_home();
        let home = group.home(fetcher);
        let back = came_back.contains_key(&home);
        if group.cabinet(first).partner().is_none() {
            Fetched::AtAStoreAlone
        } else if home == first && back && group.present_partner(home).is_none() {
            Fetched::AtHomeComeBackAlone
        } else if home == first && back {
            Fetched::AtHomeComeBack
        } else if home == first {
            Fetched::AtHome
        } else if group.cabinet(first).working() {
            Fetched::AtPartnerOneAway
        } else if back {
            Fetched::AtPartnerComeBackOneFailed
        } else {
            Fetched::AtPartnerOneFailed
        }
    }
}

/// Why no store of a pair is left when one fails or trips.
#[derive(Clone, Copy, PartialEq, Eq, PartialOrd, Ord, Debug)]
pub enum Alone {
    NoPartner,
    PartnerFailed,
    PartnerAway,
}

impl Alone {
    pub const ALL: [Alone; 3] = [Alone::NoPartner, Alone::PartnerFailed, Alone::PartnerAway];

    fn of(group: &Group, store: Number) -> Alone {
        match group.cabinet(store).partner() {
            None => Alone::NoPartner,
            Some(partner) if !group.cabinet(partner).working() => Alone::PartnerFailed,
            Some(_) => Alone::PartnerAway,
        }
    }
}

/// What a store of a pair is while a save commits.
#[derive(Clone, Copy, PartialEq, Eq, PartialOrd, Ord, Debug)]
pub enum Gone {
    Away,
    Failed,
}

impl Gone {
    pub const ALL: [Gone; 2] = [Gone::Away, Gone::Failed];
}

// ---------------------------------------------------------------- the counts

#[derive(Clone, Default, PartialEq, Eq, Debug)]
pub struct PartnerCounts {
    /// Of files that load.
    pub with_partners: u64,
    pub stores: BTreeMap<Stores, u64>,
    /// Of files refused with 4 for nothing else.
    pub loads_refused: BTreeMap<Misnamed, u64>,
    /// Stores with a present partner that failed or tripped, and whether it entered error then.
    pub left: BTreeMap<(Leaving, bool), u64>,
    pub left_while: BTreeMap<Moment, u64>,
    /// Reports that the partner owes from then on.
    pub passed_on: u64,
    /// Of these, taken.
    pub passed_on_taken: u64,
    /// Reports that are gone, since the partner enters error in that step.
    pub forgotten: u64,
    pub come_backs: u64,
    /// Of these, the report was the last one.
    pub come_backs_at_end: u64,
    /// Of these, the store did not have the slots that it takes.
    pub come_backs_with_change: u64,
    /// Of these, the partner had not entered error.
    pub come_backs_before_partner_knows: u64,
    /// Reports that the partner owed on cabinets of the one that comes back.
    pub dropped: u64,
    /// Saves committed since a store came back.
    pub commits_after_come_back: u64,
    /// The other store left since one came back, and whether a save committed between.
    pub left_after_come_back: BTreeMap<bool, u64>,
    pub written: BTreeMap<Written, u64>,
    pub fetched: BTreeMap<Fetched, u64>,
    /// With pieces from two stores.
    pub images_from_both: u64,
    pub commits: BTreeMap<Gone, u64>,
    /// The last report was one passed on.
    pub commits_by_passed_on: u64,
    /// Crashes, since neither store is left.
    pub neither_left: BTreeMap<(Leaving, Alone), u64>,
    /// After the highest number in use the lowest leads.
    pub leads_gone_round: u64,
    /// Of these, one that led before.
    pub leads_again: u64,
    pub begins_by_lead_gone_round: u64,
    pub commits_by_lead_gone_round: u64,
    /// Decided by one that led before.
    pub decisions_by_former_lead: u64,
    /// Recoveries ended after a store with a partner left.
    pub recoveries_ended: BTreeMap<Leaving, u64>,
    /// By such recoveries.
    pub saves_passed_over: u64,
}

impl PartnerCounts {
    pub(crate) fn count_refused_load(&mut self, group_file: &[u8], refusal: u8) {
        if refusal == 4 {
            let misnamed = Misnamed::of_file(group_file).into_iter();
            misnamed.collect::<BTreeSet<_>>().into_iter().for_each(|how| {
                count(&mut self.loads_refused, how);
            });
        }
    }

    pub(crate) fn count_group(&mut self, group: &Group) {
        let stores = Stores::of(group);
        self.with_partners += u64::from(!stores.contains(&Stores::NoPair));
        stores.into_iter().for_each(|stores| count(&mut self.stores, stores));
    }

    /// The eve is that of before the step, the group that of after it.
    pub(crate) fn count_step(
        &mut self,
        watch: &mut PartnerWatch,
        eve: Option<Eve>,
        group: &Group,
        outcome: Outcome,
    ) {
        let taken = outcome.answer == TAKEN;
        match eve {
            Some(Eve::Leaves(leaves)) if taken => self.count_leaving(watch, leaves, group),
            Some(Eve::LeavesNone(leaving, alone)) => {
                let causes = [Crash::StoreFailed, Crash::StoreTripped];
                if causes.iter().any(|&cause| outcome.event == Event::Crash(cause)) {
                    count(&mut self.neither_left, (leaving, alone));
                }
            }
            Some(Eve::ComesBack(comes)) if taken => {
                self.count_come_back(watch, comes, group, outcome.event);
            }
            Some(Eve::Writes(written)) if taken => count(&mut self.written, written),
            Some(Eve::Fetches { by, home, fetched }) if taken => {
                count(&mut self.fetched, fetched);
                self.images_from_both += u64::from(watch.fetches_from_a_second(group, by, home));
            }
            Some(Eve::Reports(cabinet)) if taken => {
                let passed_on = watch.passed_on.remove(&cabinet);
                self.passed_on_taken += u64::from(passed_on);
                let commits = outcome.event == Event::Commit;
                self.commits_by_passed_on += u64::from(passed_on && commits);
            }
            Some(Eve::Begins) if taken => {
                self.begins_by_lead_gone_round += u64::from(watch.lead_came_round);
            }
            _ => {}
        }
        self.count_event(watch, group, outcome.event);
        self.count_leads(watch, group);
    }

    fn count_leaving(&mut self, watch: &mut PartnerWatch, leaves: Leaves, group: &Group) {
        let Leaves { store, partner, how, moments, owed } = leaves;
        let alarmed = group.cabinet(partner).state.in_recovery();
        count(&mut self.left, (how, alarmed));
        moments.into_iter().for_each(|moment| count(&mut self.left_while, moment));
        if alarmed {
            self.forgotten += owed.len() as u64;
        } else {
            self.passed_on += owed.len() as u64;
            watch.passed_on.extend(owed);
        }
        if let Some(&committed) = watch.came_back.get(&partner) {
            count(&mut self.left_after_come_back, committed);
        }
        watch.came_back.remove(&store);
        watch.left = Some(how);
    }

    fn count_come_back(
        &mut self,
        watch: &mut PartnerWatch,
        comes: Comes,
        group: &Group,
        event: Event,
    ) {
        let Comes { store, partner, owed, slots, partner_knows } = comes;
        let owed_now = group.cabinet(partner).reports_owed();
        self.come_backs += 1;
        self.come_backs_at_end += u64::from(matches!(event, Event::RecoveryEnd { .. }));
        self.come_backs_with_change += u64::from(slots != slots_at(group, store));
        self.come_backs_before_partner_knows += u64::from(!partner_knows);
        self.dropped += owed.difference(owed_now).count() as u64;
        owed.difference(owed_now).for_each(|report| {
            watch.passed_on.remove(report);
        });
        watch.came_back.insert(store, false);
    }

    fn count_event(&mut self, watch: &mut PartnerWatch, group: &Group, event: Event) {
        match event {
            Event::Commit => {
                let of_pairs = |fits: &dyn Fn(Number) -> bool| {
                    pairs(group).iter().any(|&(a, b)| fits(a) || fits(b))
                };
                if of_pairs(&|store| group.cabinet(store).working() && group.cabinet(store).away())
                {
                    count(&mut self.commits, Gone::Away);
                }
                if of_pairs(&|store| !group.cabinet(store).working()) {
                    count(&mut self.commits, Gone::Failed);
                }
                self.commits_by_lead_gone_round += u64::from(watch.lead_came_round);
                self.commits_after_come_back += u64::from(!watch.came_back.is_empty());
                watch.came_back.values_mut().for_each(|committed| *committed = true);
            }
            Event::RecoveryEnd { save_passed_over } => {
                if let Some(how) = watch.left.take() {
                    count(&mut self.recoveries_ended, how);
                    self.saves_passed_over += u64::from(save_passed_over);
                }
                watch.passed_on.clear();
            }
            Event::Decision { by } => {
                self.decisions_by_former_lead += u64::from(watch.led_earlier.contains(&by));
            }
            _ => {}
        }
    }

    /// A lead is moved where the next one's own table comes to name it.
    fn count_leads(&mut self, watch: &mut PartnerWatch, group: &Group) {
        for number in group.numbers() {
            let (now, before) = (group.cabinet(number).coordinator(), watch.leads[number - 1]);
            if now != before && now == number {
                watch.lead_came_round = now < before;
                let again = watch.led.contains(&now);
                self.leads_gone_round += u64::from(now < before);
                self.leads_again += u64::from(now < before && again);
                if again {
                    watch.led_earlier.insert(now);
                }
                watch.led.insert(now);
            }
            watch.leads[number - 1] = now;
        }
    }

    pub(crate) fn add(&mut self, other: &PartnerCounts) {
        self.with_partners += other.with_partners;
        add_counts(&mut self.stores, &other.stores);
        add_counts(&mut self.loads_refused, &other.loads_refused);
        add_counts(&mut self.left, &other.left);
        add_counts(&mut self.left_while, &other.left_while);
        self.passed_on += other.passed_on;
        self.passed_on_taken += other.passed_on_taken;
        self.forgotten += other.forgotten;
        self.come_backs += other.come_backs;
        self.come_backs_at_end += other.come_backs_at_end;
        self.come_backs_with_change += other.come_backs_with_change;
        self.come_backs_before_partner_knows += other.come_backs_before_partner_knows;
        self.dropped += other.dropped;
        self.commits_after_come_back += other.commits_after_come_back;
        add_counts(&mut self.left_after_come_back, &other.left_after_come_back);
        add_counts(&mut self.written, &other.written);
        add_counts(&mut self.fetched, &other.fetched);
        self.images_from_both += other.images_from_both;
        add_counts(&mut self.commits, &other.commits);
        self.commits_by_passed_on += other.commits_by_passed_on;
        add_counts(&mut self.neither_left, &other.neither_left);
        self.leads_gone_round += other.leads_gone_round;
        self.leads_again += other.leads_again;
        self.begins_by_lead_gone_round += other.begins_by_lead_gone_round;
        self.commits_by_lead_gone_round += other.commits_by_lead_gone_round;
        self.decisions_by_former_lead += other.decisions_by_former_lead;
        add_counts(&mut self.recoveries_ended, &other.recoveries_ended);
        self.saves_passed_over += other.saves_passed_over;
    }

    /// Each number with its name, those by a key left out.
    pub fn numbers(&self) -> [(&'static str, u64); 18] {
        [
            ("reports passed on to a partner", self.passed_on),
            ("of these taken", self.passed_on_taken),
            ("commits by one of these", self.commits_by_passed_on),
            ("reports forgotten by a partner that enters error", self.forgotten),
            ("come-backs", self.come_backs),
            ("of these with the last report", self.come_backs_at_end),
            ("of these with slots that change", self.come_backs_with_change),
            ("of these before the partner knows", self.come_backs_before_partner_knows),
            ("reports dropped at a come-back", self.dropped),
            ("commits after a come-back", self.commits_after_come_back),
            ("images fetched from both", self.images_from_both),
            ("saves passed over by a store's loss", self.saves_passed_over),
            ("leads gone round", self.leads_gone_round),
            ("of these to one that led before", self.leads_again),
            ("begins by a lead gone round", self.begins_by_lead_gone_round),
            ("commits by a lead gone round", self.commits_by_lead_gone_round),
            ("decisions by one that led before", self.decisions_by_former_lead),
            ("cases with partners", self.with_partners),
        ]
    }

    pub(crate) fn report(&self) -> String {
        let mut text = format!("groups by stores: {}\n", counts_text(&self.stores));
        let _ =
            writeln!(text, "loads refused 4 for partners: {}", counts_text(&self.loads_refused));
        let left = counts_text(&self.left);
        let _ = writeln!(text, "stores that left a present partner, it entering error: {left}");
        let _ = writeln!(text, "such stores left while: {}", counts_text(&self.left_while));
        let after = counts_text(&self.left_after_come_back);
        let _ = writeln!(text, "the other left after a come-back, with a commit between: {after}");
        let _ = writeln!(text, "pieces written: {}", counts_text(&self.written));
        let _ = writeln!(text, "pieces fetched: {}", counts_text(&self.fetched));
        let _ = writeln!(text, "commits with a store: {}", counts_text(&self.commits));
        let _ = writeln!(text, "crashes, no store left: {}", counts_text(&self.neither_left));
        let ended = counts_text(&self.recoveries_ended);
        let _ = writeln!(text, "recoveries ended after a store left: {ended}");
        for (name, number) in self.numbers() {
            let _ = writeln!(text, "{name}: {number}");
        }
        text
    }
}

// ---------------------------------------------------------------- before a step

/// What a step is about to do to a store, or with one.
pub(crate) enum Eve {
    Leaves(Leaves),
    LeavesNone(Leaving, Alone),
    ComesBack(Comes),
    Writes(Written),
    Fetches { by: Number, home: Number, fetched: Fetched },
    Reports(Number),
    Begins,
}

/// A store that fails or trips, and has a present partner.
pub(crate) struct Leaves {
    store: Number,
    partner: Number,
    how: Leaving,
    moments: Vec<Moment>,
    owed: BTreeSet<Number>,
}

/// A store that is away and reports.
pub(crate) struct Comes {
    store: Number,
    partner: Number,
    /// By the partner.
    owed: BTreeSet<Number>,
    slots: Vec<[Image; 2]>,
    partner_knows: bool,
}

impl Eve {
    /// None if the record has nothing to do with a store, or names no cabinet of the group.
    pub(crate) fn of(group: &Group, watch: &PartnerWatch, record: &[u8]) -> Option<Eve> {
        let &[kind @ (3 | 5 | 6 | 7 | 8 | 10 | 13), a, _, _, _, _] = record else {
            return None;
        };
        let number = usize::from(a);
        if !group.numbers().contains(&number) || !group.cabinet(number).working() && kind != 6 {
            return None;
        }
        match kind {
            3 => Some(Eve::Begins),
            5 => Some(Eve::Writes(Written::of(group, number))),
            6 => Some(Eve::Reports(number)),
            7 => {
                let fetched = Fetched::of(group, number, &watch.came_back);
                Some(Eve::Fetches { by: number, home: group.home(number), fetched })
            }
            8 => Eve::of_restored(group, number),
            _ => Eve::of_loss(group, number, kind),
        }
    }

    fn of_restored(group: &Group, store: Number) -> Option<Eve> {
        let partner = group.cabinet(store).partner()?;
        let comes = Comes {
            store,
            partner,
            owed: group.cabinet(partner).reports_owed().clone(),
            slots: slots_at(group, store),
            partner_knows: group.cabinet(partner).state.in_recovery(),
        };
        group.cabinet(store).away().then_some(Eve::ComesBack(comes))
    }

    fn of_loss(group: &Group, store: Number, kind: u8) -> Option<Eve> {
        let how = match kind {
            10 => Leaving::Fail,
            _ if group.trip_is_a_fail(store) => Leaving::ThirdTrip,
            _ => Leaving::Trip,
        };
        if !group.cabinet(store).is_a_store() {
            return None;
        }
        let Some(partner) = group.present_partner(store) else {
            return Some(Eve::LeavesNone(how, Alone::of(group, store)));
        };
        let moments = Moment::of(group, store, partner);
        let owed = group.cabinet(store).reports_owed().clone();
        Some(Eve::Leaves(Leaves { store, partner, how, moments, owed }))
    }
}

/// All that a store keeps.
fn slots_at(group: &Group, store: Number) -> Vec<[Image; 2]> {
    let kept = group.numbers().filter(|&number| group.stores_of(number).contains(&store));
    kept.map(|number| [0, 1].map(|version| *group.slot_at(store, number, version))).collect()
}

// ---------------------------------------------------------------- what is remembered

/// For the counts only: who leads and has led, which stores have come back, and which reports were
/// passed on.
pub(crate) struct PartnerWatch {
    /// The coordinator in each table, as the last step left it.
    leads: Vec<Number>,
    led: BTreeSet<Number>,
    /// Who came to lead a second time.
    led_earlier: BTreeSet<Number>,
    lead_came_round: bool,
    /// With whether a save has committed since.
    came_back: BTreeMap<Number, bool>,
    /// Still owed.
    passed_on: BTreeSet<Number>,
    /// How a store left that the recovery under way is from.
    left: Option<Leaving>,
    /// The stores that each cabinet has pieces from in this recovery.
    sources: BTreeMap<Number, BTreeSet<Number>>,
}

impl PartnerWatch {
    pub(crate) fn new(group: &Group) -> PartnerWatch {
        let leads = group.numbers().map(|number| group.cabinet(number).coordinator()).collect();
        PartnerWatch {
            leads,
            led: BTreeSet::from([1]),
            led_earlier: BTreeSet::new(),
            lead_came_round: false,
            came_back: BTreeMap::new(),
            passed_on: BTreeSet::new(),
            left: None,
            sources: BTreeMap::new(),
        }
    }

    /// Whether this image is complete now, with pieces of more than one store.
    fn fetches_from_a_second(&mut self, group: &Group, by: Number, home: Number) -> bool {
        let sources = self.sources.entry(by).or_default();
        if group.cabinet(by).pieces_done() == 1 {
            sources.clear();
        }
        sources.insert(home);
        group.cabinet(by).state == State::Recovered && sources.len() > 1
    }
}
