//! Random plans: steps with points and returns between them. A plan is made of scenes, such as
//! a save as far as its commit, and mostly the group is brought to rest before a point or a
//! return. Most plans end where the bookings tell which save or point came back.

use super::hurts::damage_at;
use super::{
    damaged_group_file, draft_that_may_lose_its_lead, record, Case, Dice, GroupDraft, Record, Run,
    Wishes, LONG,
};
use crate::evening::PLAN_RECORD_LENGTH;
use crate::model::{self, Event, Group, Number, Outcome, PacketVersion, State, KINDS, TAKEN};
use crate::points::{Name, Points, NAME_LENGTH};

pub fn make_plan_case(seed: u64, wishes: Wishes) -> Case {
    let mut dice = Dice::new(seed);
    let draft = draft_that_can_lose_some(&mut dice, wishes.cabinets);
    let damaged = wishes.cabinets.is_none() && dice.per_thousand(120);
    let group = if damaged { damaged_group_file(&mut dice, draft) } else { draft.octets() };
    let mut plan = match model::load(&group) {
        Ok(group) => Planner::new(&mut dice, group, wishes).make(),
        Err(_) => (0..PLAN_RECORD_LENGTH * dice.below(4)).map(|_| dice.below(4) as u8).collect(),
    };
    if dice.per_thousand(100) {
        add_short_record(&mut dice, &mut plan);
    }
    Case { group, steps: plan }
}

/// Mostly a larger group, some cabinets of which may fail without a crash.
fn draft_that_can_lose_some(dice: &mut Dice, cabinets: Option<usize>) -> GroupDraft {
    let n = cabinets.unwrap_or_else(|| dice.between(2, 8).max(dice.between(2, 8)));
    if dice.per_thousand(400) {
        return draft_that_may_lose_its_lead(dice, Some(n));
    }
    let wanted = dice.below(n - 1);
    let mut draft = GroupDraft::sound(dice, Some(n));
    for _ in 0..4 {
        if cabinets_free_to_fail(&draft) >= wanted {
            break;
        }
        draft = GroupDraft::sound(dice, Some(n));
    }
    draft
}

fn cabinets_free_to_fail(draft: &GroupDraft) -> usize {
    let Ok(group) = model::load(&draft.octets()) else {
        return 0;
    };
    group.numbers().filter(|&a| group.crash_by_failing(a).is_none()).count()
}

/// The start of a record that would be one if it were longer.
fn add_short_record(dice: &mut Dice, plan: &mut Vec<u8>) {
    let whole =
        [dice.below(4) as u8, dice.between(1, usize::from(KINDS)) as u8, 1, 2, 0, 0, 1, 0, 0];
    plan.extend_from_slice(&whole[..dice.between(1, PLAN_RECORD_LENGTH - 1)]);
}

/// Up to seven names, some of them nearly the same.
fn some_names(dice: &mut Dice) -> Vec<Name> {
    let first: Name = std::array::from_fn(|_| dice.octet());
    let mut names = vec![first];
    for _ in 0..dice.between(1, 6) {
        let mut name = dice.pick(&names);
        match dice.below(6) {
            0 => name = [0; NAME_LENGTH],
            1 => name = [0xFF; NAME_LENGTH],
            2 => name = std::array::from_fn(|_| dice.octet()),
            _ => name[dice.below(NAME_LENGTH)] ^= 1 << dice.below(8),
        }
        names.push(name);
    }
    names
}

// ---------------------------------------------------------------- scenes

#[derive(Clone, Copy, PartialEq, Eq, Debug)]
enum Scene {
    Point,
    Return,
    UnguidedPointOrReturn,
    Trade,
    Save,
    HalfSave,
    StrikeAtCommit,
    Fail,
    Trip,
    Stumble,
    SlyFault,
    Doubt,
    StoreLeaves,
    BothStores,
    LeadGoesRound,
    Damage,
    Loss,
    HurtOverReturn,
    Crash,
    Probe,
    Wander,
    Malformed,
}

/// How often each scene comes; drawn anew for each plan.
fn drawn_weights(dice: &mut Dice, group: &Group, wishes: Wishes) -> Vec<(Scene, usize)> {
    let (damage, trips) = (wishes.damage, wishes.trips());
    let pairs = group.numbers().any(|number| group.cabinet(number).partner().is_some());
    vec![
        (Scene::Point, dice.pick(&[4, 6, 10])),
        (Scene::Return, dice.pick(&[4, 6, 10])),
        (Scene::UnguidedPointOrReturn, dice.pick(&[0, 2, 4])),
        (Scene::Trade, dice.pick(&[4, 8])),
        (Scene::Save, dice.pick(&[2, 4, 8])),
        (Scene::HalfSave, dice.pick(&[0, 1, 2])),
        (Scene::StrikeAtCommit, dice.pick(&[0, 1, 3])),
        (Scene::Fail, dice.pick(&[0, 1, 3])),
        (Scene::Trip, if trips { dice.pick(&[0, 2, 4]) } else { 0 }),
        (Scene::Stumble, if trips { dice.pick(&[0, 0, 1, 2]) } else { 0 }),
        (Scene::SlyFault, if trips { dice.pick(&[0, 2, 4]) } else { 0 }),
        (Scene::Doubt, if wishes.reports() { dice.pick(&[2, 6, 10]) } else { 0 }),
        (Scene::StoreLeaves, if pairs { dice.pick(&[2, 6, 10]) } else { 0 }),
        (Scene::BothStores, if pairs && trips { dice.pick(&[0, 3, 8]) } else { 0 }),
        (Scene::LeadGoesRound, if pairs && trips { dice.pick(&[0, 0, 2, 5]) } else { 0 }),
        (Scene::Damage, if damage { dice.pick(&[0, 5, 12]) } else { 0 }),
        (Scene::Loss, if damage { dice.pick(&[0, 2, 4]) } else { 0 }),
        (Scene::HurtOverReturn, if damage { dice.pick(&[0, 1, 2]) } else { 0 }),
        (Scene::Crash, dice.pick(&[0, 0, 0, 1])),
        (Scene::Probe, dice.pick(&[1, 3])),
        (Scene::Wander, dice.pick(&[0, 1, 3])),
        (Scene::Malformed, dice.pick(&[0, 0, 1, 3])),
    ]
}

/// Far more steps than any save or recovery needs.
const ENOUGH_STEPS: usize = 1000;

struct Planner<'a> {
    run: Run<'a>,
    points: Points,
    names: Vec<Name>,
    weights: Vec<(Scene, usize)>,
    /// Chance per thousand of a send or note while a save or recovery goes on.
    chatter: usize,
    plan: Vec<u8>,
}

impl Planner<'_> {
    fn new(dice: &mut Dice, group: Group, wishes: Wishes) -> Planner<'_> {
        let names = some_names(dice);
        let weights = drawn_weights(dice, &group, wishes);
        let chatter = dice.pick(&[0, 50, 150]);
        let run = Run::new(dice, group, wishes);
        Planner { run, points: Points::default(), names, weights, chatter, plan: Vec::new() }
    }

    fn make(mut self) -> Vec<u8> {
        let length = self.drawn_length();
        while self.records() < length && (length >= LONG || self.worth_going_on()) {
            let scene = self.next_scene();
            self.play(scene);
        }
        if self.run.group.crashed() {
            self.after_crash();
        } else if length < LONG {
            self.ending();
        }
        self.plan
    }

    /// Mostly up to 500 records; once in a while more than are read.
    fn drawn_length(&mut self) -> usize {
        if self.run.dice.per_thousand(4) {
            return LONG + self.run.dice.below(5);
        }
        self.run.dice.between(10, 500)
    }

    fn records(&self) -> usize {
        self.plan.len() / PLAN_RECORD_LENGTH
    }

    /// A crashed group does nothing more, and one cabinet alone not much.
    fn worth_going_on(&mut self) -> bool {
        let alone = self.run.group.working_cabinets().len() == 1;
        !self.run.group.crashed() && (!alone || self.run.dice.per_thousand(800))
    }

    fn next_scene(&mut self) -> Scene {
        let sum = self.weights.iter().map(|(_, weight)| weight).sum();
        let mut ticket = self.run.dice.below(sum);
        for &(scene, weight) in &self.weights {
            if ticket < weight {
                return scene;
            }
            ticket -= weight;
        }
        Scene::Wander
    }

    fn play(&mut self, scene: Scene) {
        match scene {
            Scene::Point => self.point_scene(),
            Scene::Return => self.return_scene(),
            Scene::UnguidedPointOrReturn => self.unguided_scene(),
            Scene::Trade => self.trade_scene(),
            Scene::Save => self.save_scene(),
            Scene::HalfSave => self.half_save_scene(),
            Scene::StrikeAtCommit => self.strike_scene(),
            Scene::Fail => self.fail_scene(),
            Scene::Trip => self.trip_scene(),
            Scene::Stumble => self.stumble_scene(),
            Scene::SlyFault => self.sly_fault_scene(),
            Scene::Doubt => self.doubt_scene(),
            Scene::StoreLeaves => self.store_leaves_scene(),
            Scene::BothStores => self.both_stores_scene(),
            Scene::LeadGoesRound => self.lead_goes_round_scene(),
            Scene::Damage => self.damage_scene(),
            Scene::Loss => self.loss_scene(),
            Scene::HurtOverReturn => self.hurt_over_return_scene(),
            Scene::Crash => self.crash_scene(),
            Scene::Probe => self.probe_scene(),
            Scene::Wander => self.wander_scene(),
            Scene::Malformed => self.malformed_record(),
        }
    }
}

// ---------------------------------------------------------------- records of a plan

impl Planner<'_> {
    fn step(&mut self, record: Record) -> Outcome {
        self.plan.push(0);
        self.plan.extend_from_slice(&record);
        self.plan.extend_from_slice(&[0, 0]);
        self.run.take(record)
    }

    fn take_point(&mut self, name: Name) {
        self.plan.push(1);
        self.plan.extend_from_slice(&name);
        self.points.take(&self.run.group, name);
    }

    fn return_to(&mut self, name: Name) {
        self.plan.push(2);
        self.plan.extend_from_slice(&name);
        self.points.return_to(&mut self.run.group, name);
    }

    /// A step with something behind it, or behind a first octet that names nothing.
    fn malformed_record(&mut self) {
        let step = self.run.next_record();
        let dice = &mut self.run.dice;
        let first = dice.pick(&[0, 0, 3, 4, 128, 255]);
        let tail = dice.pick(&[[0, 1], [1, 0], [255, 255]]);
        self.plan.push(first);
        self.plan.extend_from_slice(&step);
        self.plan.extend_from_slice(if first == 0 { &tail } else { &[0, 0] });
    }

    fn chance(&mut self, per_thousand: usize) -> bool {
        self.run.dice.per_thousand(per_thousand)
    }
}

// ---------------------------------------------------------------- bringing a group on

impl Planner<'_> {
    /// A step that brings a packet, a save or a recovery on, if there is one.
    fn driving_record(&mut self) -> Option<Record> {
        let mut lines = self.run.filled_lines();
        lines.retain(|&(_, to)| !self.run.is_deaf(to));
        let mut ready: Vec<Record> =
            lines.into_iter().map(|(a, b)| record(4, a, b, 0, 0)).collect();
        for a in self.run.group.numbers() {
            let state = self.run.group.cabinet(a).state;
            if state != State::Error || !self.run.doubt.keeps_silent(a) {
                ready.extend(kind_for(state).map(|kind| record(kind, a, 0, 0, 0)));
            }
            ready.push(record(6, a, 0, 0, 0));
        }
        let start = self.run.dice.below(ready.len());
        ready.rotate_left(start);
        ready.into_iter().find(|record| self.run.taken(record))
    }

    /// Drives on until nothing is left to do; then the group is quiet or crashed, or now and then
    /// somebody keeps silent.
    fn settle(&mut self) {
        if self.chance(800) {
            self.run.doubt.end_silence();
        }
        if self.chance(600) {
            self.run.end_deafness();
        }
        for _ in 0..ENOUGH_STEPS {
            let Some(record) = self.driving_record() else {
                return;
            };
            self.step(record);
        }
    }

    fn settle_mostly(&mut self) {
        if self.chance(850) {
            self.settle();
        }
    }

    /// Drives on for some steps, with a send or note here and there.
    fn drive(&mut self, steps: usize) {
        for _ in 0..steps {
            self.drive_once();
        }
    }

    fn drive_once(&mut self) -> Option<Outcome> {
        let chatter = self.chatter;
        if self.chance(chatter) {
            let kind = self.run.dice.pick(&[1, 1, 2]);
            if let Some(record) = self.run.sensible_record(kind) {
                return Some(self.step(record));
            }
        }
        let record = self.driving_record()?;
        Some(self.step(record))
    }

    fn begin(&mut self) -> bool {
        let coordinator = self.run.lead();
        coordinator.is_some_and(|a| self.step(record(3, a, 0, 0, 0)).answer == TAKEN)
    }

    /// Begins a save and drives it on; answers whether it committed in the last step.
    fn save_up_to_commit(&mut self) -> bool {
        if !self.begin() {
            return false;
        }
        for _ in 0..ENOUGH_STEPS {
            match self.drive_once() {
                Some(outcome) if outcome.event == Event::Commit => return true,
                Some(_) => {}
                None => return false,
            }
        }
        false
    }
}

/// The kind of step that a cabinet in this state waits for.
fn kind_for(state: State) -> Option<u8> {
    match state {
        State::Checkpointing => Some(5),
        State::Recovering => Some(7),
        State::Recovered => Some(8),
        State::Error => Some(14),
        _ => None,
    }
}

// ---------------------------------------------------------------- points and returns

impl Planner<'_> {
    fn any_name(&mut self) -> Name {
        self.run.dice.pick(&self.names)
    }

    /// Mostly a name that a point has.
    fn name_to_return_to(&mut self) -> Name {
        let held = self.points.names();
        match self.run.dice.pick_any(&held) {
            Some(name) if self.chance(850) => name,
            _ => self.any_name(),
        }
    }

    fn point_scene(&mut self) {
        self.settle_mostly();
        let name = self.any_name();
        self.take_point(name);
    }

    /// A return to nothing shows little, so mostly there is a point before it.
    fn have_a_point(&mut self) {
        if self.points.names().is_empty() && self.chance(800) {
            self.settle();
            let name = self.any_name();
            self.take_point(name);
            self.trade_scene();
        }
    }

    fn return_scene(&mut self) {
        self.have_a_point();
        self.settle_mostly();
        let name = self.name_to_return_to();
        self.return_to(name);
        if self.chance(200) {
            self.probe_scene();
        }
    }

    /// Whatever the group is about.
    fn unguided_scene(&mut self) {
        let known = self.name_to_return_to();
        let any = self.any_name();
        let name = self.run.dice.pick(&[known, any]);
        if self.chance(500) {
            self.take_point(name);
        } else {
            self.return_to(name);
        }
    }

    fn after_crash(&mut self) {
        for _ in 0..self.run.dice.below(5) {
            self.unguided_scene();
            if self.chance(300) {
                let record = self.run.foolish_record();
                self.step(record);
            }
            if self.chance(200) {
                self.malformed_record();
            }
        }
    }
}

// ---------------------------------------------------------------- scenes of steps

impl Planner<'_> {
    /// Sends that change the bookings, mostly delivered.
    fn trade_scene(&mut self) {
        if self.chance(700) {
            self.settle();
        }
        for _ in 0..self.run.dice.between(1, 6) {
            self.send_some();
            if self.chance(200) {
                let note = self.run.sensible_note();
                note.map(|record| self.step(record));
            }
        }
        if self.chance(100) {
            let first = self.run.sends_that_fill_a_line();
            first.map(|record| self.step(record));
            self.take_what_follows();
        }
        if self.chance(700) {
            self.settle();
        }
    }

    /// Answers the line that was sent on, if the send was taken.
    fn send_some(&mut self) -> Option<(Number, Number)> {
        let from = self.run.any_cabinet();
        let neighbours = self.run.group.cabinet(from).neighbours();
        let to = self.run.dice.pick_any(&neighbours)?;
        self.send_on(from, to).then_some((from, to))
    }

    fn send_on(&mut self, from: Number, to: Number) -> bool {
        let p = self.run.p_to_send_with(from);
        let booking = usize::from(self.run.booking_behind(from, p));
        let amount = self.run.dice.between(1, 1 + booking / 2) as u16;
        let record = record(1, from, to, p, amount);
        self.run.taken(&record) && self.step(record).answer == TAKEN
    }

    fn save_scene(&mut self) {
        self.settle_mostly();
        self.save_up_to_commit();
        if self.chance(500) {
            self.settle();
        }
    }

    /// A save that something comes in the way of.
    fn half_save_scene(&mut self) {
        self.settle_mostly();
        if self.begin() {
            let steps = self.run.dice.between(1, 60);
            self.drive(steps);
            if self.run.wishes.trips() && self.chance(500) {
                self.trip_scene();
            } else {
                self.fail_scene();
            }
        }
    }

    /// The coordinator fails or trips right after its commit, or when few have taken the resume.
    fn strike_scene(&mut self) {
        self.settle_mostly();
        if !self.save_up_to_commit() {
            return;
        }
        if self.chance(250) {
            let steps = self.run.dice.between(1, 3);
            self.drive(steps);
        }
        if self.chance(150) {
            self.unguided_scene();
        }
        if let Some(record) = self.run.strike_at_commit() {
            self.step(record);
        }
        self.report_some();
        self.settle_mostly();
    }

    fn fail_scene(&mut self) {
        if let Some(cabinet) = self.run.some_failing_with(|crash| crash.is_none()) {
            self.step(record(10, cabinet, 0, 0, 0));
        }
        self.recover_mostly();
    }

    fn recover_mostly(&mut self) {
        if self.chance(200) {
            let steps = self.run.dice.between(1, 20);
            self.drive(steps);
        } else {
            self.settle();
        }
    }

    fn trip_scene(&mut self) {
        let trip = self.run.trip_that_cuts_off().or_else(|| self.run.safe_trip());
        trip.map(|record| self.step(record));
        self.report_some();
        self.recover_mostly();
    }

    /// The coordinator is lost where nobody else, or only some, know their version: in a save, or
    /// when a few have taken the resume.
    fn doubt_scene(&mut self) {
        self.settle_mostly();
        self.trade_scene();
        let lead = self.run.lead();
        let safe = |a: Number| self.run.group.crash_by_tripping(a).is_none();
        let Some(lead) = lead.filter(|&lead| safe(lead)) else {
            return;
        };
        if self.run.wishes.damage && self.chance(150) {
            return self.hurt_lead_scene();
        }
        if !self.begin() {
            return;
        }
        let all = self.chance(750);
        for _ in 0..ENOUGH_STEPS {
            let (unknown, others) = self.run.doubters();
            let enough = if all { others } else { others.div_ceil(2) };
            if unknown >= enough || self.drive_once().is_none() {
                break;
            }
        }
        if self.chance(500) {
            let more = self.run.dice.between(1, self.run.group.size() + 1);
            self.drive(more);
        }
        let fault = self.run.safe_fault_of(lead);
        fault.map(|record| self.step(record));
        self.report_some();
        self.recover_mostly();
    }

    /// A store leaves its partner, mostly while a save goes on.
    fn store_leaves_scene(&mut self) {
        self.settle_mostly();
        if self.chance(300) || !self.begin() {
            let fault = self.run.store_fault();
            fault.map(|record| self.step(record));
            return self.recover_mostly();
        }
        let foreseen = self.chance(500);
        for _ in 0..ENOUGH_STEPS {
            let fault = match foreseen {
                true => self.run.foreseen_store_fault(),
                false if self.chance(150) => self.run.store_fault_in_save(),
                false => None,
            };
            if let Some(record) = fault {
                self.step(record);
                self.take_what_follows();
                break;
            }
            if self.drive_once().is_none() {
                break;
            }
        }
        if self.chance(300) {
            let steps = self.run.dice.between(1, 30);
            self.drive(steps);
        }
        self.report_some();
        self.recover_mostly();
        if let (Some(store), true) = (self.run.store_to_leave_at_once(), self.chance(800)) {
            self.settle();
            let fault = self.run.safe_fault_of(store);
            fault.map(|record| self.step(record));
            self.recover_mostly();
        }
    }

    /// One trips and comes back, and then the other leaves; between the two there may be a save,
    /// a point or a return.
    fn both_stores_scene(&mut self) {
        self.settle();
        let Some((store, partner)) = self.run.pair_to_part() else {
            return;
        };
        if self.chance(300) {
            self.save_and_settle();
        }
        self.step(record(13, store, 0, 0, 0));
        self.settle();
        match self.run.dice.below(8) {
            0 => self.settled_return(),
            1 => self.point_scene(),
            2..=4 => self.save_and_settle(),
            5 => self.trade_scene(),
            _ => {}
        }
        self.settle();
        if let Some(record) = self.run.safe_fault_of(partner) {
            self.trade_scene();
            self.step(record);
        }
        self.recover_mostly();
        if self.chance(300) {
            let name = self.any_name();
            self.take_point(name);
        }
        if self.chance(200) {
            self.settled_return();
        }
        if self.chance(60) {
            let last = self.run.fault_of_the_last_store();
            last.map(|record| self.step(record));
        }
    }

    /// The lead is lost again and again.
    fn lead_goes_round_scene(&mut self) {
        for _ in 0..self.run.dice.between(1, self.run.group.size() + 1) {
            self.settle();
            if self.chance(400) {
                self.save_and_settle();
            }
            let lead = self.run.lead();
            let safe = |lead: &Number| self.run.group.crash_by_tripping(*lead).is_none();
            let Some(lead) = lead.filter(safe) else {
                return;
            };
            if self.chance(400) && self.begin() {
                let steps = self.run.dice.between(1, 60);
                self.drive(steps);
            }
            let fault = self.run.safe_fault_of(lead);
            fault.map(|record| self.step(record));
            self.report_some();
            self.settle();
        }
    }

    /// The next to lead finds a link fault by a resume packet, and others report to it.
    fn hurt_lead_scene(&mut self) {
        if !self.save_up_to_commit() {
            return;
        }
        for _ in 0..self.run.dice.between(5, 40) {
            if let Some(record) = self.run.fault_beside_a_hurt_lead() {
                self.step(record);
                self.take_what_follows();
                self.report_some();
                break;
            }
            self.drive_once();
        }
        self.settle_mostly();
    }

    /// Reports between other steps; some are refused.
    fn report_some(&mut self) {
        for _ in 0..self.run.dice.below(12) {
            let report = if self.chance(700) {
                self.run.sensible_report()
            } else {
                self.run.refused_report()
            };
            match report {
                Some(record) => drop(self.step(record)),
                None => drop(self.drive_once()),
            }
        }
    }

    /// One cabinet trips again and again, mostly after each recovery.
    fn stumble_scene(&mut self) {
        self.settle();
        let safe = self.run.cabinets_safe_to_trip();
        let any = self.run.dice.pick_any(&safe);
        let next = self.run.next_to_lead().filter(|next| safe.contains(next));
        let next = next.filter(|_| self.chance(500));
        let Some(cabinet) = next.or(any) else {
            return;
        };
        for _ in 0..self.run.dice.between(3, 4) {
            if self.run.group.trip_is_a_fail(cabinet) {
                let towards = self.run.trip_towards_its_third(cabinet);
                towards.map(|record| self.step(record));
                self.settle();
            }
            let safe = self.run.cabinets_safe_to_trip().contains(&cabinet);
            if !safe && !self.chance(150) {
                return;
            }
            self.step(record(13, cabinet, 0, 0, 0));
            if self.chance(950) {
                self.settle();
                self.between_trips();
            }
        }
    }

    /// A return, a commit or a save passed over, or nothing that counts.
    fn between_trips(&mut self) {
        match self.run.dice.below(8) {
            0 => self.settled_return(),
            1 => self.save_and_settle(),
            2 | 3 => self.strike_scene(),
            4 => self.trade_scene(),
            _ => {}
        }
        self.settle();
    }

    /// A fault where others are about to find a link fault or to commit.
    fn sly_fault_scene(&mut self) {
        self.settle();
        if self.run.wishes.damage && self.chance(500) {
            self.hurt_a_line();
        }
        if !self.begin() {
            return;
        }
        for _ in 0..ENOUGH_STEPS {
            if let Some(fault) = self.run.sly_fault() {
                self.step(fault);
                self.take_what_follows();
                break;
            }
            if self.drive_once().is_none() {
                break;
            }
        }
        self.settle_mostly();
    }

    fn hurt_a_line(&mut self) {
        let Some((from, to)) = self.send_some() else {
            return;
        };
        let burst = self.run.burst_to_be_taken();
        let hurts = [damage_at((from, to, 0), burst), record(12, from, to, 0, 0)];
        let hurt = self.run.dice.pick(&hurts);
        if !self.run.dangerous_to_hurt(from, to) {
            self.step(hurt);
        }
    }

    /// A packet is hurt: of the lines as they are, of a save begun for it, or where it is known
    /// what becomes of it.
    fn damage_scene(&mut self) {
        if self.chance(500) {
            return self.aimed_damage_scene();
        }
        if self.chance(400) {
            self.send_some();
        } else if self.chance(800) {
            self.settle();
            self.begin();
            let steps = self.run.dice.below(6);
            self.drive(steps);
        }
        let from = self.run.any_cabinet();
        if let Some(record) = self.run.damage_on_lines_from(from) {
            self.step(record);
        }
        self.settle_mostly();
    }

    /// Mostly until the hurt is found and what it brings has come to its end.
    fn aimed_damage_scene(&mut self) {
        self.crowd_a_line();
        let behind = self.chance(250) && self.save_up_to_commit();
        let behind = behind.then(|| self.run.hurt_behind_a_hurt_signal()).flatten();
        let record = behind.or_else(|| self.run.sensible_damage());
        record.map(|record| self.step(record));
        self.take_what_follows();
        if self.run.group.packet_version() == PacketVersion::One && self.chance(700) {
            self.save_up_to_commit();
        }
        self.settle_mostly();
        if self.chance(300) {
            self.save_and_settle();
        }
    }

    /// A packet is lost, and a save finds it; mostly another one commits after the recovery.
    fn loss_scene(&mut self) {
        if self.chance(700) {
            self.settle();
        }
        for _ in 0..self.run.dice.between(1, 3) {
            self.crowd_a_line();
        }
        let silent = self.chance(500);
        let record = if silent { self.run.silent_send() } else { self.run.sensible_loss() };
        record.map(|record| self.step(record));
        self.take_what_follows();
        if self.chance(800) {
            self.save_up_to_commit();
        }
        self.settle_mostly();
        if self.chance(500) {
            self.save_and_settle();
        }
    }

    fn crowd_a_line(&mut self) {
        if let Some((from, to)) = self.send_some() {
            for _ in 0..self.run.dice.below(4) {
                self.send_on(from, to);
            }
        }
    }

    fn take_what_follows(&mut self) {
        while let Some(record) = self.run.next_to_follow() {
            self.step(record);
        }
    }

    /// A packet hurt before a return is still found after it: by another hurt of the same line,
    /// which is refused, or by the next save.
    fn hurt_over_return_scene(&mut self) {
        self.have_a_point();
        self.settle();
        let Some((from, to)) = self.send_some() else {
            return;
        };
        let burst = self.run.burst_to_be_taken();
        let hurts = [damage_at((from, to, 0), burst), record(12, from, to, 0, 0)];
        let first = self.run.dice.pick(&hurts);
        self.step(first);
        self.settled_return();
        if self.chance(500) && self.send_on(from, to) {
            let second = self.run.dice.pick(&hurts);
            self.step(second);
        }
        if self.chance(500) {
            self.save_up_to_commit();
            self.settle();
        }
    }

    fn crash_scene(&mut self) {
        let by_loss = self.run.wishes.damage && self.chance(300);
        let by_trip = self.run.wishes.trips() && self.chance(600);
        let record = if by_loss {
            self.loss_in_recovery()
        } else if by_trip {
            self.crashing_trip()
        } else {
            self.run.crashing_fail()
        };
        record.map(|record| self.step(record));
    }

    /// Now and then in a recovery begun for it.
    fn crashing_trip(&mut self) -> Option<Record> {
        self.settle();
        if self.chance(400) {
            let trip = self.run.safe_trip();
            trip.map(|record| self.step(record));
            let steps = self.run.dice.below(20);
            self.drive(steps);
        }
        self.run.crashing_trip()
    }

    /// Of a packet put before the recovery, if a line still holds one.
    fn loss_in_recovery(&mut self) -> Option<Record> {
        for _ in 0..8 {
            self.send_some();
        }
        let cabinet = self.run.some_failing_with(|crash| crash.is_none())?;
        self.step(record(10, cabinet, 0, 0, 0));
        self.run.any_loss_taken()
    }

    /// One ampere more than a booking, refused, and then all of it: the answers tell it.
    fn probe_scene(&mut self) {
        let from = self.run.any_cabinet();
        let p = self.run.dice.below(5) as u8;
        let booking = self.run.booking_behind(from, p);
        let neighbours = self.run.group.cabinet(from).neighbours();
        let Some(to) = self.run.dice.pick_any(&neighbours) else {
            return;
        };
        if let Some(more) = booking.checked_add(1) {
            self.step(record(1, from, to, p, more));
        }
        if self.chance(700) {
            self.step(record(1, from, to, p, booking));
        }
    }

    /// Steps as in a case without a plan.
    fn wander_scene(&mut self) {
        for _ in 0..self.run.dice.between(1, 40) {
            let record = self.run.next_record();
            self.step(record);
        }
    }
}

// ---------------------------------------------------------------- endings

impl Planner<'_> {
    /// Mostly a return or a recovery, after which the bookings tell what came back.
    fn ending(&mut self) {
        match self.run.dice.below(10) {
            0 => {}
            1 => self.settled_return(),
            2 => {
                self.save_and_settle();
                self.recovery_after_trade();
            }
            3 | 4 => {
                self.settle();
                self.doubt_scene();
                self.settle();
            }
            5 => {
                self.settled_return();
                self.save_and_settle();
                self.recovery_after_trade();
            }
            6 | 7 => {
                self.settled_return();
                self.trade_scene();
                self.settle();
                self.strike_scene();
                self.settle();
            }
            _ => {
                self.settled_return();
                self.recovery_after_trade();
            }
        }
    }

    fn settled_return(&mut self) {
        self.have_a_point();
        self.settle();
        let name = self.name_to_return_to();
        self.return_to(name);
    }

    fn save_and_settle(&mut self) {
        self.trade_scene();
        self.settle();
        self.save_up_to_commit();
        self.settle();
    }

    fn recovery_after_trade(&mut self) {
        self.trade_scene();
        let fault = if self.run.wishes.trips() && self.chance(500) {
            self.run.safe_trip()
        } else {
            let cabinet = self.run.some_failing_with(|crash| crash.is_none());
            cabinet.map(|cabinet| record(10, cabinet, 0, 0, 0))
        };
        match fault {
            Some(record) => {
                self.step(record);
                self.settle();
            }
            None if self.run.wishes.damage => self.damage_scene(),
            None => {}
        }
    }
}

// ---------------------------------------------------------------- tests

#[cfg(test)]
mod tests {
    use super::*;
    use crate::cases::{case_seed, make_case};
    use crate::evening::{counted_evening, operation, Operation, Sight};
    use crate::listing::Tally;
    use crate::model::{booking_in, Account, Image};
    use crate::own_checks::{Found, Misfit};
    use crate::trips::Between;
    use crate::unsure::{Lost, Refusal};
    use std::collections::BTreeSet;

    fn wishes(damage: bool) -> Wishes {
        Wishes { damage, highest_kind: KINDS, cabinets: None }
    }

    #[test]
    fn a_seed_makes_the_same_case_again() {
        assert_eq!(make_plan_case(5, wishes(true)), make_plan_case(5, wishes(true)));
    }

    #[test]
    fn without_damage_no_step_has_kind_11_or_12() {
        for index in 0..200 {
            let case = make_plan_case(case_seed(3, index), wishes(false));
            let mut operations = case.steps.chunks(PLAN_RECORD_LENGTH).filter_map(operation);
            assert!(!operations.any(|op| matches!(op, Operation::Step([11 | 12, ..]))));
        }
    }

    #[test]
    fn the_plans_reach_every_answer_and_sight() {
        let mut tally = Tally::default();
        for index in 0..1000 {
            let case = make_plan_case(case_seed(7, index), wishes(true));
            tally.add(&counted_evening(&case.group, &case.steps, KINDS).1);
        }
        assert!(tally.point_answers.keys().eq(&[0, 10, 22, 23]));
        assert!(tally.return_answers.keys().eq(&[0, 10, 21, 22]));
        assert!(tally.sights.keys().eq(&Sight::ALL));
        let after_two = [Between::Commit, Between::CommitPassedOver];
        assert!(tally.trips.after_two.keys().eq(&after_two));
        assert!(tally.trips.link_faults > 0 && tally.trips.commits > 0);
        let unsure = &tally.unsure;
        let lost = [Lost::Failed, Lost::Tripped];
        assert!(unsure.refused.keys().eq(&Refusal::ALL) && unsure.at_another_place > 0);
        assert!(unsure.recoveries_ended.keys().eq(&lost) && unsure.recoveries_by_recover > 0);
        assert!(unsure.recoveries_ended.values().all(|&ended| ended > 30));
        let own_checks = &tally.own_checks;
        assert!(own_checks.groups.len() == 2 && own_checks.misfits.keys().eq(&Misfit::ALL));
        assert!(own_checks.recoveries_ended.keys().eq(&Found::ALL));
        assert_eq!(own_checks.dropped.len(), 2);
    }

    /// The saves as the documents tell them: images at the cuts, points returned to, and what
    /// failed cabinets left behind. It never looks at a slot after the start.
    struct Told {
        saves: Vec<Vec<Image>>,
        cuts: Vec<Image>,
        left_behind: Vec<Option<Image>>,
    }

    impl Told {
        fn at_start(group: &Group) -> Told {
            let start: Vec<Image> = group.numbers().map(|c| *group.slot(c, 0)).collect();
            Told { left_behind: vec![None; start.len()], cuts: start.clone(), saves: vec![start] }
        }

        fn note_cuts(&mut self, before: &Group, group: &Group) {
            let state = |group: &Group, c: Number| group.cabinet(c).state;
            for c in group.numbers() {
                let cut = state(group, c) == State::Checkpointing;
                if cut && state(before, c) != State::Checkpointing {
                    self.cuts[c - 1] = group.cabinet(c).image;
                }
            }
        }

        fn note_event(&mut self, event: Event, group: &Group) {
            match event {
                Event::Commit => self.saves.push(self.cuts.clone()),
                Event::RecoveryEnd { save_passed_over } => {
                    if save_passed_over {
                        self.saves.pop();
                    }
                    for c in group.numbers().filter(|&c| !group.cabinet(c).working()) {
                        let image = self.saves[self.saves.len() - 1][c - 1];
                        self.left_behind[c - 1].get_or_insert(image);
                    }
                }
                _ => {}
            }
        }

        fn note_return(&mut self, images: &[Image], group: &Group) {
            self.saves.push(images.to_vec());
            for c in group.numbers().filter(|&c| !group.cabinet(c).working()) {
                self.left_behind[c - 1] = Some(images[c - 1]);
            }
        }

        fn image(&self, group: &Group, c: Number) -> Option<Image> {
            let save = &self.saves[self.saves.len() - 1];
            if group.cabinet(c).working() {
                Some(save[c - 1])
            } else {
                self.left_behind[c - 1]
            }
        }
    }

    /// Takes one operation and tells it. What a recovery leaves is the save told.
    fn take(told: &mut Told, group: &mut Group, points: &mut Points, operation: Operation) {
        match operation {
            Operation::Step(record) => {
                let before = group.clone();
                let event = group.step(&record, KINDS).event;
                told.note_cuts(&before, group);
                told.note_event(event, group);
                if matches!(event, Event::RecoveryEnd { .. }) {
                    assert!(group.numbers().all(|c| group.image(c) == told.image(group, c)));
                    assert_eq!(versions(group).len(), 1);
                }
            }
            Operation::Point(name) => {
                points.take(group, name);
            }
            Operation::Return(name) => {
                if points.return_to(group, name) == TAKEN {
                    told.note_return(points.images(name).unwrap_or_default(), group);
                }
            }
        }
    }

    /// Of the working cabinets, as they are printed.
    fn versions(group: &Group) -> BTreeSet<String> {
        let working = group.working_cabinets().into_iter();
        working.map(|c| format!("{:?}", group.cabinet(c).version)).collect()
    }

    /// Of the buses and of the workshop.
    fn totals(images: impl Iterator<Item = Image>) -> [u32; 2] {
        let mut totals = [0; 2];
        for image in images {
            let [a, b, workshop] =
                Account::ALL.map(|account| u32::from(booking_in(&image, account)));
            totals = [totals[0] + a + b, totals[1] + workshop];
        }
        totals
    }

    fn check_against_told(case: &Case) {
        let Ok(mut group) = model::load(&case.group) else {
            return;
        };
        let mut told = Told::at_start(&group);
        let mut points = Points::default();
        let start = totals(told.saves[0].iter().copied());
        for operation in case.steps.chunks(PLAN_RECORD_LENGTH).filter_map(operation) {
            take(&mut told, &mut group, &mut points, operation);
            if group.quiet() {
                let kept = |c: Number| group.committed_image(c);
                assert!(group.numbers().all(|c| kept(c) == told.image(&group, c)));
                assert_eq!(totals(group.numbers().filter_map(kept)), start);
            }
        }
    }

    /// What a point would keep in each quiet moment is the save that the documents name, with
    /// failed cabinets' images, and adds up to each party's total; damage or not. What each
    /// recovery leaves is that save too, with tripped cabinets' images.
    #[test]
    fn points_keep_the_saves_that_the_documents_name() {
        for index in 0..400 {
            check_against_told(&make_plan_case(case_seed(9, index), wishes(index % 2 == 0)));
        }
    }

    fn as_plan(case: Case) -> Case {
        let records = case.steps.chunks_exact(6);
        let steps = records.flat_map(|record| [&[0], record, &[0, 0]].concat()).collect();
        Case { steps, ..case }
    }

    #[test]
    fn cases_without_a_plan_keep_them_too() {
        for index in 0..200 {
            check_against_told(&as_plan(make_case(case_seed(9, index), wishes(index % 2 == 0))));
        }
    }
}
