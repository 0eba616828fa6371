//! Partners of stores in made cases: pairs of stores, files that name partners wrongly, and stores
//! that fail or trip: with pieces partly written, with reports owed, after a come-back, or as the
//! last of their pair. Who has not heard of it yet may stay deaf for a while, so that a save goes on
//! or a store comes back before its partner knows.

use super::{record, Dice, GroupDraft, Record, Run};
use crate::model::{self, Event, Group, Number, State, KINDS, TAKEN};
use crate::partners::Written;
use std::cell::Cell;
use std::collections::BTreeSet;

// ---------------------------------------------------------------- groups with pairs

/// Which cabinets are stores, the partner of each (0 for none), and the stores that are homes.
pub(super) struct Stores {
    pub(super) marks: Vec<bool>,
    pub(super) partners: Vec<u8>,
    pub(super) homes: Vec<u8>,
}

/// With one pair or more, and now and then stores alone beside them.
pub(super) fn stores_in_pairs(dice: &mut Dice, n: usize) -> Stores {
    let mut left: Vec<u8> = (1..=n as u8).collect();
    let pairs = if n >= 4 && dice.per_thousand(350) { dice.between(2, n / 2) } else { 1 };
    let mut stores = Stores { marks: vec![false; n], partners: vec![0; n], homes: Vec::new() };
    for _ in 0..pairs {
        let [one, other] = [0; 2].map(|_| left.swap_remove(dice.below(left.len())));
        for (store, partner) in [(one, other), (other, one)] {
            let place = usize::from(store) - 1;
            (stores.marks[place], stores.partners[place]) = (true, partner);
            stores.homes.push(store);
        }
    }
    let alone = dice.pick(&[0, 0, 0, 200, 400]);
    for &store in &left {
        if dice.per_thousand(alone) {
            stores.marks[usize::from(store) - 1] = true;
            stores.homes.push(store);
        }
    }
    if dice.per_thousand(250) {
        stores.homes = vec![dice.pick(&stores.homes)];
    }
    stores
}

// ---------------------------------------------------------------- partners named wrongly

/// Now and then no pair is joined by a link, as far as all stay connected.
pub(super) fn part_pairs(dice: &mut Dice, draft: &mut GroupDraft) {
    if !dice.per_thousand(450) {
        return;
    }
    let links = draft.links.clone();
    for link @ (low, high) in links {
        if draft.cabinets[usize::from(low) - 1].partner == high {
            let mut fewer = draft.clone();
            fewer.links.retain(|other| *other != link);
            if model::load(&fewer.octets()).is_ok() {
                *draft = fewer;
            }
        }
    }
}

/// As far as there are stores for it; else a number that is no cabinet's.
pub(super) fn damage_partner(dice: &mut Dice, draft: &mut GroupDraft) {
    let n = draft.cabinets.len();
    let marked = |mark: u8| -> Vec<usize> {
        (0..n).filter(|&index| draft.cabinets[index].mark == mark).collect()
    };
    let (stores, others) = (marked(1), marked(0));
    let Some(store) = dice.pick_any(&stores) else {
        return;
    };
    let other = dice.pick_any(&others);
    let rest: Vec<usize> = stores.iter().copied().filter(|&index| index != store).collect();
    let another = dice.pick_any(&rest);
    let back = dice.per_thousand(500);
    let number = |index: usize| index as u8 + 1;
    let cabinets = &mut draft.cabinets;
    match (dice.below(7), other, another) {
        (0, Some(other), _) => {
            cabinets[other].partner = number(store);
            if back {
                cabinets[store].partner = number(other);
            }
        }
        (1, ..) => cabinets[store].partner = number(store),
        (2, Some(other), _) => {
            cabinets[store].partner = number(other);
            if back {
                cabinets[other].partner = number(store);
            }
        }
        (3, _, Some(another)) => {
            cabinets[store].partner = number(another);
            cabinets[another].partner = 0;
        }
        (4 | 5, _, Some(another)) => {
            let third = rest.iter().copied().find(|&index| index != another);
            cabinets[store].partner = number(another);
            cabinets[another].partner = number(third.unwrap_or(another));
            if let (Some(third), true) = (third, back) {
                cabinets[third].partner = number(store);
            }
        }
        _ => cabinets[store].partner = dice.pick(&[n as u8 + 1, 9, 128, 255]),
    }
}

// ---------------------------------------------------------------- stores that leave

/// What a run means to do with stores; drawn anew for each one. Chances are per thousand.
#[derive(Clone, Copy, Default)]
pub(super) struct Grudge {
    /// That a store leaves while it owes reports, or while pieces are partly written.
    in_save: usize,
    /// At any other step, out of a recovery.
    any_time: usize,
    /// That the last store of a pair leaves, which crashes the group.
    last: usize,
    /// That the lead is lost, out of a recovery.
    of_leads: usize,
    /// That a store leaves where it is known what comes of it: a commit by reports passed on, or a
    /// come-back before the partner knows.
    foreseen: usize,
    /// That a saved report waits while somebody still writes.
    tardy: usize,
}

impl Grudge {
    pub(super) fn drawn(dice: &mut Dice, group: &Group, bold: usize) -> Grudge {
        if group.numbers().all(|number| group.cabinet(number).partner().is_none()) {
            return Grudge::default();
        }
        Grudge {
            in_save: dice.pick(&[0, 20, 60, 150]),
            any_time: dice.pick(&[0, 2, 6, 15]),
            last: dice.pick(&[0, bold.min(30) / 6]),
            of_leads: dice.pick(&[0, 0, 0, 10, 25]),
            foreseen: dice.pick(&[0, 300, 800]),
            tardy: dice.pick(&[0, 900]),
        }
    }
}

/// What is to follow a store's loss.
#[derive(Default)]
pub(super) struct Sequel {
    /// Who hears nothing for so many tries.
    deaf: BTreeSet<Number>,
    deaf_tries: usize,
    /// Tries left in which what is left of a save comes first.
    pub(super) save_on: usize,
    /// The store that came back last, in the recovery under way or before.
    came_back: Option<Number>,
    /// A store to be lost, since its partner came back.
    next_to_leave: Option<Number>,
    /// A store to be lost soon after the recovery under way: a save has committed with pieces that
    /// its partner has only if it took them over, or took them while in a recovery.
    to_leave_at_once: Option<Number>,
    at_once: bool,
}

impl Run<'_> {
    fn may_leave(&self, store: Number) -> bool {
        let cabinet = self.group.cabinet(store);
        cabinet.present() && self.group.present_partner(store).is_some()
    }

    fn stores_with_partner(&self) -> Vec<Number> {
        self.group.numbers().filter(|&store| self.may_leave(store)).collect()
    }

    /// A store that leaves its partner, at a moment that tells something.
    pub(super) fn strike_at_a_store(&mut self) -> Option<Record> {
        if self.group.crashed() {
            return None;
        }
        let grudge = self.grudge;
        if self.dice.per_thousand(grudge.last) {
            return self.fault_of_the_last_store();
        }
        if self.group.recovery_under_way() {
            return None;
        }
        if self.dice.per_thousand(grudge.of_leads) {
            return self.lead().and_then(|lead| self.safe_fault_of(lead));
        }
        if let Some(store) = self.sequel.next_to_leave {
            let chance = if self.sequel.at_once { 250 } else { 15 };
            if self.dice.per_thousand(chance) {
                self.sequel.next_to_leave = None;
                return self.safe_fault_of(store);
            }
        }
        if self.dice.per_thousand(grudge.foreseen) {
            if let Some(record) = self.foreseen_store_fault() {
                return Some(record);
            }
        }
        if self.dice.per_thousand(grudge.in_save) {
            if let Some(record) = self.store_fault_in_save() {
                return Some(record);
            }
        }
        let any_time = self.dice.per_thousand(grudge.any_time);
        any_time.then(|| self.store_fault()).flatten()
    }

    /// Where it does not crash the group; rather of one whose partner does not see it.
    pub(super) fn store_fault(&mut self) -> Option<Record> {
        let stores = self.stores_with_partner();
        let unseen = self.unseen_by_partner(&stores);
        let rather = if self.dice.per_thousand(500) { unseen } else { Vec::new() };
        let store = self.dice.pick_any(&rather).or_else(|| self.dice.pick_any(&stores))?;
        self.safe_fault_of(store)
    }

    fn unseen_by_partner(&self, stores: &[Number]) -> Vec<Number> {
        let seen = |store: Number| {
            let partner = self.group.cabinet(store).partner();
            partner.is_some_and(|partner| self.group.cabinet(partner).uses_line_to(store))
        };
        stores.iter().copied().filter(|&store| !seen(store)).collect()
    }

    /// One that owes reports or has some pieces of an image, if there is one.
    pub(super) fn store_fault_in_save(&mut self) -> Option<Record> {
        let mut stores = self.stores_with_partner();
        let partly = |number: Number, store: Number| {
            let cabinet = self.group.cabinet(number);
            let writes = cabinet.state == State::Checkpointing && cabinet.pieces_done() > 0;
            writes && self.group.home(number) == store
        };
        let has_some = |store: Number| self.group.numbers().any(|number| partly(number, store));
        let owes = |store: Number| !self.group.cabinet(store).reports_owed().is_empty();
        let both = self.dice.per_thousand(300);
        stores.retain(|&store| owes(store) || both && has_some(store));
        let unseen = self.unseen_by_partner(&stores);
        let rather = if self.dice.per_thousand(700) { unseen } else { Vec::new() };
        let store = self.dice.pick_any(&rather).or_else(|| self.dice.pick_any(&stores))?;
        self.safe_fault_of(store)
    }

    /// Of a pair, whose other one failed or is away.
    pub(super) fn fault_of_the_last_store(&mut self) -> Option<Record> {
        let last = |store: &Number| {
            let cabinet = self.group.cabinet(*store);
            cabinet.present() && cabinet.partner().is_some() && !self.may_leave(*store)
        };
        let stores: Vec<Number> = self.group.numbers().filter(last).collect();
        let store = self.dice.pick_any(&stores)?;
        let kind = if self.wishes.trips() { self.dice.pick(&[10, 13]) } else { 10 };
        Some(record(kind, store, 0, 0, 0))
    }
}

// ---------------------------------------------------------------- stores that leave, foreseen

/// So many steps are tried at most until what is wanted comes.
const STEPS_AHEAD: usize = 250;

impl Run<'_> {
    /// The records after the first one are to follow.
    pub(super) fn foreseen_store_fault(&mut self) -> Option<Record> {
        let working = self.group.working_cabinets();
        if !working.iter().all(|&number| self.group.cabinet(number).takes_reports()) {
            return None;
        }
        let mut anybody: Vec<Number> = working.into_iter().collect();
        while !anybody.is_empty() {
            let cabinet = anybody.swap_remove(self.dice.below(anybody.len()));
            if let Some(record) = self.foreseen_commit_with_one_store(cabinet) {
                return Some(record);
            }
        }
        let stores = self.stores_with_partner();
        let mut stores = self.unseen_by_partner(&stores);
        while !stores.is_empty() {
            let store = stores.swap_remove(self.dice.below(stores.len()));
            if let Some(record) = self.foreseen_fault_of(store) {
                return Some(record);
            }
        }
        None
    }

    /// A cabinet is lost, and the save still commits, with pieces that only one store of a pair
    /// has for sure: the other is away, or in a recovery. Then that one is lost too, once the
    /// recovery has ended.
    fn foreseen_commit_with_one_store(&mut self, cabinet: Number) -> Option<Record> {
        let fault = self.safe_fault_of(cabinet)?;
        let mut ahead = self.group.clone();
        let mut way = self.pieces_and_reports_beside(&mut ahead, cabinet);
        let writes = |number: Number| ahead.cabinet(number).state == State::Checkpointing;
        if !ahead.numbers().any(writes) {
            return None;
        }
        let sure: Cell<Option<Number>> = Cell::new(None);
        let commits = |before: &Group, step: &Record, event: Event| {
            let one = [Written::AtOneTheOtherAway, Written::AtBothOneInRecovery];
            let writer = usize::from(step[1]);
            if step[0] == 5 && one.contains(&Written::of(before, writer)) {
                sure.set(Some(before.home(writer)));
            }
            event == Event::Commit && sure.get().is_some()
        };
        let behind = self.way_to(ahead, fault, &[5, 6], None, commits)?;
        way.push(fault);
        way.extend(behind);
        self.to_follow.extend(&way[1..]);
        self.sequel.to_leave_at_once = sure.get();
        way.first().copied()
    }

    /// What a cabinet and its neighbours have to write, and the reports that are owed there; but
    /// for some that may be passed on.
    fn pieces_and_reports_beside(&mut self, ahead: &mut Group, cabinet: Number) -> Vec<Record> {
        let mut beside = self.group.cabinet(cabinet).neighbours();
        beside.push(cabinet);
        let kept_back = self.dice.per_thousand(500);
        let mut way = Vec::new();
        let mut take = |ahead: &mut Group, step: Record| {
            let taken = ahead.step(&step, KINDS).answer == TAKEN;
            taken.then(|| way.push(step)).is_some()
        };
        for &number in &beside {
            while take(ahead, record(5, number, 0, 0, 0)) {}
        }
        for number in self.group.numbers() {
            let home = ahead.home(number);
            if beside.contains(&home) && !(kept_back && home == cabinet) {
                take(ahead, record(6, number, 0, 0, 0));
            }
        }
        way
    }

    fn foreseen_fault_of(&mut self, store: Number) -> Option<Record> {
        let partner = self.group.cabinet(store).partner()?;
        let fault = self.safe_fault_of(store)?;
        let to_commit = |run: &mut Self| {
            let commits = |_: &Group, _: &Record, event: Event| event == Event::Commit;
            run.way_to(run.group.clone(), fault, &[5, 6], None, commits)
        };
        let way = if self.dice.per_thousand(500) {
            to_commit(self).or_else(|| self.way_to_a_drop(fault, store, partner))
        } else {
            self.way_to_a_drop(fault, store, partner).or_else(|| to_commit(self))
        };
        self.to_follow.extend(&way?);
        Some(fault)
    }

    /// To a come-back at which reports passed on are dropped. The store must have its home outside
    /// the pair, since the partner has not heard of the fault then.
    fn way_to_a_drop(
        &mut self,
        fault: Record,
        store: Number,
        partner: Number,
    ) -> Option<Vec<Record>> {
        let outside = ![store, partner].contains(&self.group.cabinet(store).first_home());
        let owes = !self.group.cabinet(store).reports_owed().is_empty();
        if fault[0] != 13 || !outside || !owes {
            return None;
        }
        let drops = |before: &Group, step: &Record, _: Event| {
            let own = |number: &Number| before.cabinet(*number).first_home() == store;
            let owed = before.cabinet(partner).reports_owed();
            *step == record(8, store, 0, 0, 0) && owed.iter().any(own)
        };
        self.way_to(self.group.clone(), fault, &[4, 4, 7, 8, 14], Some(partner), drops)
    }

    /// Behind the first record, steps of these kinds and no deliver to one, up to the first that is
    /// what is wanted.
    fn way_to(
        &mut self,
        mut ahead: Group,
        first: Record,
        kinds: &[u8],
        deaf: Option<Number>,
        wanted: impl Fn(&Group, &Record, Event) -> bool,
    ) -> Option<Vec<Record>> {
        ahead.step(&first, self.wishes.highest_kind);
        let mut way = Vec::new();
        for _ in 0..STEPS_AHEAD {
            let ready = ready_steps(&ahead, kinds, deaf);
            let next = self.dice.pick_any(&ready)?;
            way.push(next);
            let before = ahead.clone();
            let outcome = ahead.step(&next, self.wishes.highest_kind);
            if wanted(&before, &next, outcome.event) {
                return Some(way);
            }
            if ahead.crashed() {
                return None;
            }
        }
        None
    }
}

/// Those that would be taken.
fn ready_steps(group: &Group, kinds: &[u8], deaf: Option<Number>) -> Vec<Record> {
    let mut steps = Vec::new();
    for a in group.numbers() {
        for &kind in kinds {
            if kind == 4 {
                let heard = group.numbers().filter(|&b| Some(b) != deaf);
                steps.extend(heard.map(|b| record(4, a, b, 0, 0)));
            } else {
                steps.push(record(kind, a, 0, 0, 0));
            }
        }
    }
    steps.retain(|step| {
        let step = model::decode(step, KINDS);
        step.is_ok_and(|step| group.refusal(&step).is_none())
    });
    steps
}

// ---------------------------------------------------------------- what follows

impl Run<'_> {
    /// The partner of a store that has left, if it was present then.
    pub(super) fn partner_left_behind(&self, before: &Record) -> Option<Number> {
        let store = usize::from(before[1]);
        let of_group = self.group.numbers().contains(&store);
        (of_group && self.may_leave(store)).then(|| self.group.cabinet(store).partner()).flatten()
    }

    pub(super) fn after_a_store_left(&mut self, partner: Number) {
        let unaware = |number: &Number| {
            let cabinet = self.group.cabinet(*number);
            cabinet.working() && !cabinet.state.in_recovery()
        };
        let unaware: BTreeSet<Number> = self.group.numbers().filter(unaware).collect();
        let lead = self.lead().into_iter().collect();
        let deaf: BTreeSet<Number> = match self.dice.below(5) {
            0 => BTreeSet::new(),
            1 | 2 => BTreeSet::from([partner]),
            3 => lead,
            _ => unaware.clone(),
        };
        self.sequel.deaf = deaf.intersection(&unaware).copied().collect();
        self.sequel.deaf_tries = self.dice.pick(&[30, 100, 400]);
        self.sequel.save_on = self.dice.pick(&[0, 30, 100]);
        self.recover_first = self.dice.pick(&[0, 400, 1500]);
    }

    /// While somebody still writes.
    pub(super) fn report_waits(&mut self) -> bool {
        let writes = |number: Number| {
            let state = self.group.cabinet(number).state;
            matches!(state, State::CheckpBegin | State::Checkpointing)
        };
        let writing = !self.group.recovery_under_way() && self.group.numbers().any(writes);
        let tardy = self.grudge.tardy;
        writing && self.dice.per_thousand(tardy)
    }

    /// Whether it is not to hear yet; asked often, it is.
    pub(super) fn is_deaf(&mut self, cabinet: Number) -> bool {
        let deaf = self.sequel.deaf_tries > 0 && self.sequel.deaf.contains(&cabinet);
        self.sequel.deaf_tries -= usize::from(deaf);
        deaf
    }

    /// If the recovery before has ended.
    pub(super) fn store_to_leave_at_once(&self) -> Option<Number> {
        self.sequel.next_to_leave.filter(|_| self.sequel.at_once)
    }

    pub(super) fn end_deafness(&mut self) {
        self.sequel.deaf_tries = 0;
    }

    /// A store that may trip without a crash, and its partner.
    pub(super) fn pair_to_part(&mut self) -> Option<(Number, Number)> {
        let mut stores = self.stores_with_partner();
        stores.retain(|&store| self.group.crash_by_tripping(store).is_none());
        let store = self.dice.pick_any(&stores)?;
        self.group.cabinet(store).partner().map(|partner| (store, partner))
    }

    pub(super) fn store_that_comes_back(&self, before: &Record) -> Option<Number> {
        let store = usize::from(before[1]);
        let comes = self.group.numbers().contains(&store) && self.group.cabinet(store).away();
        comes.then_some(store)
    }

    pub(super) fn after_a_store_came_back(&mut self, store: Number) {
        self.sequel.came_back = Some(store);
        self.sequel.deaf_tries = 0;
    }

    /// Now and then the other store is the next to leave, mostly after some saves.
    pub(super) fn after_recovery_with_stores(&mut self) {
        self.sequel.deaf_tries = 0;
        self.sequel.at_once = self.sequel.to_leave_at_once.is_some();
        if let Some(store) = self.sequel.to_leave_at_once.take() {
            self.sequel.came_back = None;
            self.sequel.next_to_leave = Some(store);
        } else if let Some(store) = self.sequel.came_back.take() {
            let partner = self.group.cabinet(store).partner();
            self.sequel.next_to_leave = partner.filter(|_| self.dice.per_thousand(600));
            self.save_first = self.dice.pick(&[0, 200, 600]);
        }
    }
}
