//! What a record did, as the group before and after it and the rules tell it: what became of a
//! packet, whether a recovery ended, and which save the rule gives now. Nothing here asks for what
//! the model itself tells of commits, ends and link faults.

use crate::aim::Aim;
use crate::evening::Operation;
use crate::model::{Cabinet, Charge, Group, Number, Packet, State, Version, CRASHED, KINDS, TAKEN};
use crate::points::Points;

const MALFORMED: u8 = 8;
const DELIVER: u8 = 4;

/// What became of the packet that a deliver took off its line.
#[derive(Clone, Copy, PartialEq, Eq, PartialOrd, Ord, Debug)]
pub enum Fate {
    /// Of none, or of one at which the group crashed: it stays in its line.
    NotTakenOff,
    Taken,
    Dropped,
    /// A link fault was found at it.
    FaultFound,
}

impl Fate {
    pub const ALL: [Fate; 4] = [Fate::NotTakenOff, Fate::Taken, Fate::Dropped, Fate::FaultFound];
}

/// What a cabinet did in a record.
#[derive(Clone, Copy, Default, PartialEq, Eq, Debug)]
pub(crate) struct Acts {
    pub(crate) outgoing_emptied: bool,
    pub(crate) incoming_emptied: bool,
    pub(crate) cut: bool,
}

/// What a record did.
pub(crate) struct Deed {
    /// The group that it was done to.
    pub(crate) before: Group,
    pub(crate) answer: u8,
    /// The packet that a deliver took off its line, or at which it crashed the group.
    pub(crate) packet: Option<Packet>,
    pub(crate) fate: Fate,
    pub(crate) recovery_ended: bool,
    /// The saves that the rule gives before the record and after it.
    pub(crate) save_before: Save,
    pub(crate) save: Save,
    /// Of the cabinets from 1 on.
    pub(crate) acts: Vec<Acts>,
}

// ---------------------------------------------------------------- a run

/// A group and its points, and the saves that the records so far leave.
pub(crate) struct Run {
    pub(crate) group: Group,
    points: Points,
    saves: Saves,
    records: usize,
}

impl Run {
    pub(crate) fn new(group: Group) -> Run {
        Run { group, points: Points::default(), saves: Saves::at_the_start(), records: 0 }
    }

    /// Of the group as loaded, to which nothing was done yet.
    pub(crate) fn start(&self) -> Deed {
        Deed {
            before: self.group.clone(),
            answer: TAKEN,
            packet: None,
            fate: Fate::NotTakenOff,
            recovery_ended: false,
            save_before: self.saves.given(),
            save: self.saves.given(),
            acts: vec![Acts::default(); self.group.size()],
        }
    }

    #[cfg(test)]
    pub(crate) fn is_at_the_start(&self) -> bool {
        self.records == 0
    }

    /// One record: its operation, or none if it is none.
    pub(crate) fn take(&mut self, operation: Option<Operation>) -> Deed {
        self.records += 1;
        let before = self.group.clone();
        let save_before = self.saves.given();
        let answer = self.answer(operation);
        let changes = Changes { before: &before, after: &self.group };
        self.saves.note(self.records, &changes);
        if answer == TAKEN && matches!(operation, Some(Operation::Return(_))) {
            self.saves.returned(self.records);
        }
        let delivery = operation.and_then(|operation| Delivery::of(&before, operation));
        let delivery = delivery.filter(|_| [TAKEN, CRASHED].contains(&answer));
        let taken_off = delivery.as_ref().filter(|_| answer == TAKEN);
        Deed {
            answer,
            packet: delivery.as_ref().map(|delivery| delivery.packet),
            fate: taken_off.map_or(Fate::NotTakenOff, Delivery::fate),
            recovery_ended: changes.recovery_ended(),
            save_before,
            save: self.saves.given(),
            acts: self.group.numbers().map(|number| changes.acts(number)).collect(),
            before,
        }
    }

    fn answer(&mut self, operation: Option<Operation>) -> u8 {
        match operation {
            Some(Operation::Step(record)) => self.group.step(&record, KINDS).answer,
            Some(Operation::Point(name)) => self.points.take(&self.group, name),
            Some(Operation::Return(name)) => self.points.return_to(&mut self.group, name),
            None => MALFORMED,
        }
    }
}

// ---------------------------------------------------------------- a packet's fate

/// The packet that a deliver names, and its receiver.
struct Delivery<'a> {
    aim: Aim,
    packet: Packet,
    receiver: &'a Cabinet,
}

impl Delivery<'_> {
    fn of(group: &Group, operation: Operation) -> Option<Delivery<'_>> {
        let Operation::Step(record @ [DELIVER, ..]) = operation else {
            return None;
        };
        let aim = Aim::of(group, &record)?;
        let receiver = group.cabinet(aim.line.1);
        aim.packet.map(|packet| Delivery { aim, packet, receiver })
    }

    /// By the rules, where the deliver is taken and does not crash the group.
    fn fate(&self) -> Fate {
        if !self.aim.in_use {
            Fate::Dropped
        } else if self.receiver.state.in_recovery() {
            self.fate_in_recovery()
        } else {
            self.fate_in_operation()
        }
    }

    /// At a receiver in normal or one of the three saving states.
    fn fate_in_operation(&self) -> Fate {
        let awaits_checkp = !self.receiver.checkp_has_come_from(self.aim.line.0);
        match (self.packet, self.receiver.state) {
            (Packet::Normal(charge), State::Normal) => fate_of_charge(charge),
            (Packet::Normal(charge), State::CheckpBegin) if awaits_checkp => fate_of_charge(charge),
            (Packet::Normal(_) | Packet::Invalid, _) => Fate::FaultFound,
            (Packet::Checkp(sent), State::Normal | State::CheckpBegin) => {
                found_unless(sent == self.aim.taken)
            }
            (Packet::Resume, State::Checkpointed) | (Packet::Fault(_), _) => Fate::Taken,
            (Packet::Checkp(_) | Packet::Resume | Packet::Recover(_), _) => Fate::Dropped,
        }
    }

    /// At a receiver in error, recovering or recovered. A fault that does not crash the group is
    /// for the same place, and noted.
    fn fate_in_recovery(&self) -> Fate {
        let (from, to) = self.aim.line;
        let heard = self.receiver.has_heard_fault_from(from);
        let leads = self.receiver.coordinator() == to;
        match (self.packet, self.receiver.state) {
            (Packet::Fault(_), _) => Fate::Taken,
            (Packet::Recover(_), State::Error) if heard => Fate::Taken,
            (Packet::Resume, State::Recovered) if heard && !leads => Fate::Taken,
            _ => Fate::Dropped,
        }
    }
}

fn fate_of_charge(charge: Charge) -> Fate {
    found_unless(charge.fits())
}

fn found_unless(right: bool) -> Fate {
    if right {
        Fate::Taken
    } else {
        Fate::FaultFound
    }
}

// ---------------------------------------------------------------- what the states tell

/// The group before a record and after it.
struct Changes<'a> {
    before: &'a Group,
    after: &'a Group,
}

impl Changes<'_> {
    fn of(&self, number: Number) -> (State, State) {
        (self.before.cabinet(number).state, self.after.cabinet(number).state)
    }

    fn some(&self, happened: impl Fn(Number) -> bool) -> Option<Number> {
        self.after.numbers().find(|&number| happened(number))
    }

    fn failed(&self, number: Number) -> bool {
        let (before, after) = self.of(number);
        before != State::Failed && after == State::Failed
    }

    fn entered_error(&self, number: Number) -> bool {
        let (before, after) = self.of(number);
        !before.in_recovery() && after.in_recovery()
    }

    /// Nobody else enters error with no version at all.
    fn tripped(&self, number: Number) -> bool {
        self.entered_error(number) && self.after.cabinet(number).version == Version::Lost
    }

    fn lost(&self, number: Number) -> bool {
        self.failed(number) || self.tripped(number)
    }

    fn acts(&self, number: Number) -> Acts {
        let (before, after) = self.of(number);
        Acts {
            outgoing_emptied: self.entered_error(number) || self.failed(number),
            incoming_emptied: self.lost(number),
            cut: before != State::Checkpointing && after == State::Checkpointing,
        }
    }

    /// By its own table: one who heard of a loss before may name the next.
    fn leads(&self, number: Number) -> bool {
        self.after.cabinet(number).coordinator() == number
    }

    /// The coordinator went from the save to normal.
    fn committed(&self, number: Number) -> bool {
        let (before, after) = self.of(number);
        let saving = [State::Checkpointing, State::Checkpointed].contains(&before);
        saving && after == State::Normal && self.leads(number)
    }

    /// Somebody else did.
    fn took_resume(&self, number: Number) -> bool {
        self.of(number) == (State::Checkpointed, State::Normal) && !self.leads(number)
    }

    fn was_restored(&self, number: Number) -> bool {
        self.of(number) == (State::Recovering, State::Recovered)
    }

    /// The coordinator in the table of some working cabinet went from recovered to normal.
    fn recovery_ended(&self) -> bool {
        let named = |number: Number| self.after.cabinet(number).coordinator();
        let ended = |number: Number| self.of(named(number)) == (State::Recovered, State::Normal);
        self.after.working_cabinets().into_iter().any(ended)
    }
}

// ---------------------------------------------------------------- which save

/// What a recovery would bring back; a commit and a return by the number of the record.
#[derive(Clone, Copy, PartialEq, Eq, PartialOrd, Ord, Debug)]
pub(crate) enum Save {
    Start,
    Commit(usize),
    Return(usize),
}

impl Save {
    /// 0 for the start.
    pub(crate) fn record(self) -> usize {
        match self {
            Save::Start => 0,
            Save::Commit(record) | Save::Return(record) => record,
        }
    }
}

#[derive(Clone, Copy)]
struct Kept {
    save: Save,
    /// Its coordinator, while nobody has taken the resume or was restored from it.
    known_only_to: Option<Number>,
}

/// The start and all that was committed or returned to since, without what was passed over.
struct Saves {
    before_the_last: Vec<Kept>,
    last: Kept,
}

impl Saves {
    fn at_the_start() -> Saves {
        let start = Kept { save: Save::Start, known_only_to: None };
        Saves { before_the_last: Vec::new(), last: start }
    }

    fn given(&self) -> Save {
        self.last.save
    }

    fn add(&mut self, save: Save, known_only_to: Option<Number>) {
        let before = std::mem::replace(&mut self.last, Kept { save, known_only_to });
        self.before_the_last.push(before);
    }

    /// Of a record, in which at most one of these things happens.
    fn note(&mut self, record: usize, changes: &Changes) {
        let knows = |number| changes.took_resume(number) || changes.was_restored(number);
        if let Some(coordinator) = changes.some(|number| changes.committed(number)) {
            self.add(Save::Commit(record), Some(coordinator));
        } else if let Some(lost) = changes.some(|number| changes.lost(number)) {
            self.pass_over_what_went_with(lost);
        } else if changes.some(knows).is_some() {
            self.last.known_only_to = None;
        }
    }

    /// A save passed over counts as never committed, so that the one before is asked next.
    fn pass_over_what_went_with(&mut self, lost: Number) {
        while self.last.known_only_to == Some(lost) {
            self.last = self.before_the_last.pop().expect("everybody knows the start");
        }
    }

    /// A save that everybody knows.
    fn returned(&mut self, record: usize) {
        self.add(Save::Return(record), None);
    }
}
