//! Pairs of runs: one group file, and two lists of records that are the same but for the amounts
//! of the workshop's sends, each of which is taken in both. They are made of a made case, with both
//! runs of the model beside it: a send that one of them would refuse is left out of both. Behind
//! some sends the packet is hurt, and most pairs end in a save that finds what is hurt.

use super::losses::silent_amount;
use super::{record, Case, Dice, Record, Wishes, LONG};
use crate::evening::{Evening, Operation};
use crate::form::Form;
use crate::model::{
    self, Account, Cabinet, Group, Number, Packet, PacketVersion, KINDS, WORKSHOP_P,
};

#[derive(Clone, PartialEq, Eq, Debug)]
pub struct Pair {
    pub group: Vec<u8>,
    /// The records of either run.
    pub runs: [Vec<u8>; 2],
}

impl Pair {
    pub fn cases(&self) -> [Case; 2] {
        self.runs.clone().map(|steps| Case { group: self.group.clone(), steps })
    }
}

/// Keeps the dice of the pair apart from those of the case.
const OTHER_DICE: u64 = 0x7A1B_5EED_90C4_2F63;

pub fn make_pair(form: Form, seed: u64, wishes: Wishes) -> Pair {
    let mut dice = Dice::new(seed ^ OTHER_DICE);
    let style = dice.pick(&Style::ALL);
    let (case, group) = case_for(&mut dice, style, form, seed, wishes);
    let mut maker = Maker::new(dice, style, form, wishes, group);
    let records = case.steps.chunks_exact(form.record_length());
    let short = records.remainder().to_vec();
    records.take(LONG).for_each(|record| maker.take_over(record));
    maker.ending();
    maker.runs.iter_mut().for_each(|run| run.extend_from_slice(&short));
    Pair { group: case.group, runs: maker.runs }
}

/// One that loads; rather one in which the amounts may be drawn so.
fn case_for(dice: &mut Dice, style: Style, form: Form, seed: u64, wishes: Wishes) -> (Case, Group) {
    let mut case = form.make_case(seed, wishes);
    let mut tries = 12;
    loop {
        let group = model::load(&case.group).ok();
        if let Some(group) = group.filter(|group| tries == 0 || style.suits(group)) {
            return (case, group);
        }
        case = form.make_case(dice.next(), wishes);
        tries = 1.max(tries) - 1;
    }
}

/// How the amounts of the two runs are drawn.
#[derive(Clone, Copy, PartialEq, Eq, Debug)]
enum Style {
    /// The made one, and any.
    Kept,
    /// Small ones, so that many are taken.
    Small,
    /// 1 or the whole booking.
    Extreme,
    /// One that leaves the CRC of one run as it is; mostly the packet is lost.
    Silent,
    /// Small ones; mostly the packet is damaged so that the booking wraps in one run.
    Wrap,
    Equal,
}

impl Style {
    const ALL: [Style; 8] = [
        Style::Kept,
        Style::Kept,
        Style::Small,
        Style::Extreme,
        Style::Extreme,
        Style::Silent,
        Style::Wrap,
        Style::Equal,
    ];

    fn suits(self, group: &Group) -> bool {
        let one = group.packet_version() == PacketVersion::One;
        let booking = |number: Number| group.cabinet(number).booking(Account::Workshop);
        let most = group.numbers().map(booking).max().unwrap_or_default();
        match self {
            Style::Silent => one && most > 30_000 && !spare_lines(group).is_empty(),
            Style::Wrap => one && most > 0 && !spare_lines(group).is_empty(),
            _ => true,
        }
    }
}

/// The lines of links that may be found faulty without a crash.
fn spare_lines(group: &Group) -> Vec<(Number, Number)> {
    let mut lines = Vec::new();
    for from in group.numbers() {
        let neighbours = group.cabinet(from).neighbours().into_iter();
        let spare = neighbours.filter(|&to| !group.crashes_without_link(from, to));
        lines.extend(spare.map(|to| (from, to)));
    }
    lines
}

struct Maker {
    dice: Dice,
    form: Form,
    wishes: Wishes,
    style: Style,
    /// Chance per thousand that a packet of the workshop is hurt once it is put.
    hurting: usize,
    evenings: [Evening; 2],
    runs: [Vec<u8>; 2],
}

impl Maker {
    fn new(mut dice: Dice, style: Style, form: Form, wishes: Wishes, group: Group) -> Maker {
        let hurting = match style {
            _ if !wishes.damage => 0,
            Style::Silent | Style::Wrap => 300,
            _ => dice.pick(&[0, 30, 100, 300]),
        };
        let evenings = [group.clone(), group].map(|group| Evening::new(group, KINDS));
        Maker { dice, form, wishes, style, hurting, evenings, runs: [Vec::new(), Vec::new()] }
    }

    fn group(&self) -> &Group {
        &self.evenings[0].group
    }

    fn is_full(&self) -> bool {
        self.runs[0].len() >= LONG * self.form.record_length()
    }

    // ------------------------------------------------------------ records

    fn take_over(&mut self, record: &[u8]) {
        match self.form.operation(record) {
            Some(Operation::Step([1, a, b, WORKSHOP_P, high, low])) => {
                let made = u16::from_be_bytes([high, low]);
                self.workshop_send(usize::from(a), usize::from(b), made);
            }
            operation if !self.is_full() => {
                self.runs.iter_mut().for_each(|run| run.extend_from_slice(record));
                for evening in &mut self.evenings {
                    operation.map(|operation| evening.take(operation));
                }
            }
            _ => {}
        }
    }

    fn step(&mut self, records: [Record; 2]) {
        if self.is_full() {
            return;
        }
        for ((run, evening), record) in self.runs.iter_mut().zip(&mut self.evenings).zip(records) {
            run.extend(self.form.record_of_step(record));
            evening.take(Operation::Step(record));
        }
    }

    fn step_of_both(&mut self, record: Record) {
        self.step([record; 2]);
    }

    fn taken(&self, record: &Record) -> bool {
        let step = model::decode(record, self.wishes.highest_kind);
        step.is_ok_and(|step| self.group().refusal(&step).is_none())
    }

    // ------------------------------------------------------------ sends of the workshop

    /// Whether it is taken in both runs; else neither has it.
    fn workshop_send(&mut self, from: Number, to: Number, made: u16) -> bool {
        let Some(amounts) = self.amounts(from, to, made) else {
            return false;
        };
        let sends = amounts.map(|amount| record(1, from, to, WORKSHOP_P, amount));
        let taken = |(evening, send): (&Evening, &Record)| {
            let step = model::decode(send, KINDS);
            step.is_ok_and(|step| evening.group.refusal(&step).is_none())
        };
        if self.is_full() || !self.evenings.iter().zip(&sends).all(taken) {
            return false;
        }
        self.step(sends);
        let hurting = self.hurting;
        if self.dice.per_thousand(hurting) {
            self.hurt_the_last(from, to);
        }
        true
    }

    /// None if one of the runs has nothing to send there.
    fn amounts(&mut self, from: Number, to: Number, made: u16) -> Option<[u16; 2]> {
        let numbers = self.group().numbers();
        if !numbers.contains(&from) || !numbers.contains(&to) {
            return None;
        }
        let booking = |cabinet: &Cabinet| cabinet.booking(Account::Workshop);
        let bookings = [0, 1].map(|run| booking(self.evenings[run].group.cabinet(from)));
        if bookings.contains(&0) {
            return None;
        }
        let any = bookings.map(|booking| self.dice.between(1, usize::from(booking)) as u16);
        let small = bookings.map(|booking| self.dice.between(1, 1 + usize::from(booking) / 8));
        let small = [0, 1].map(|run| (small[run] as u16).min(bookings[run]));
        let kept = if (1..=bookings[0]).contains(&made) { made } else { small[0] };
        Some(match self.style {
            Style::Kept => [kept, self.dice.pick(&[any[1], small[1], small[1]])],
            Style::Small | Style::Wrap => small,
            Style::Extreme => {
                let choices =
                    [[1, bookings[1]], [bookings[0], 1], [1, small[1]], small, small, small];
                self.dice.pick(&choices)
            }
            Style::Silent => self.silent_amounts(from, to, bookings).unwrap_or(small),
            Style::Equal if kept <= bookings[1] => [kept; 2],
            Style::Equal => small,
        })
    }

    /// In version 1, where the booking of one run covers it.
    fn silent_amounts(&mut self, from: Number, to: Number, bookings: [u16; 2]) -> Option<[u16; 2]> {
        if self.group().packet_version() == PacketVersion::Two {
            return None;
        }
        let silent = [0, 1].map(|run| {
            let [sent, _] = self.evenings[run].group.checks(from, to);
            silent_amount(sent.crc, Account::Workshop)
        });
        let covered = |run: usize| (1..=bookings[run]).contains(&silent[run]);
        let others = [1, bookings[0].min(bookings[1])];
        let other = self.dice.pick(&others);
        match (covered(0), covered(1)) {
            (true, true) if self.dice.per_thousand(300) => Some(silent),
            (true, _) => Some([silent[0], other]),
            (false, true) => Some([other, silent[1]]),
            (false, false) => None,
        }
    }

    // ------------------------------------------------------------ hurts

    /// The newest packet of a line is damaged or lost; mostly it is taken soon, or missed.
    fn hurt_the_last(&mut self, from: Number, to: Number) {
        let group = self.group();
        let dangerous = group.recovery_under_way() || group.crashes_without_link(from, to);
        if group.line(from, to).hurt || dangerous && !self.dice.per_thousand(50) {
            return;
        }
        let place = self.group().line(from, to).packets.len() - 1;
        let losing = match self.style {
            Style::Silent => 900,
            Style::Wrap => 0,
            _ => 400,
        };
        if self.dice.per_thousand(losing) {
            self.step_of_both(record(12, from, to, place as u8, 0));
        } else {
            let damage = self.damage_at(from, to, place);
            self.step_of_both(damage);
        }
        if self.style == Style::Wrap || self.dice.per_thousand(500) {
            for _ in 0..=place {
                let deliver = record(4, from, to, 0, 0);
                self.taken(&deliver).then(|| self.step_of_both(deliver));
            }
        }
    }

    /// Now and then such that the amount of one run comes near to 65,535.
    fn damage_at(&mut self, from: Number, to: Number, place: usize) -> Record {
        let two = self.group().packet_version() == PacketVersion::Two;
        let run = self.dice.below(2);
        let amount = match self.evenings[run].group.line(from, to).packets[place] {
            Packet::Normal(charge) => charge.amount,
            _ => 0,
        };
        loop {
            let near = amount ^ (u16::MAX - self.dice.below(9) as u16);
            let any = self.dice.between(1, 65_535) as u16;
            let one_bit = 1 << self.dice.below(16);
            let wraps = self.style == Style::Wrap && near != 0;
            let pattern = if wraps { near } else { self.dice.pick(&[near, any, one_bit]) };
            let (bits, octets) =
                if two { (self.dice.below(8), self.dice.below(3)) } else { (0, 0) };
            let damage = record(11, from, to | octets << 4, (place | bits << 5) as u8, pattern);
            if self.taken(&damage) || self.group().crashed() {
                return damage;
            }
        }
    }

    // ------------------------------------------------------------ the end

    /// Mostly something of the workshop stands in the lines and a save begins; then, now and then,
    /// somebody is lost. Whoever asks for the word may ask before the end.
    fn ending(&mut self) {
        if self.group().crashed() || self.dice.per_thousand(250) {
            return;
        }
        let most = if self.form == Form::Word { self.dice.below(120) } else { 400 };
        self.drive(most);
        if self.wishes.damage && matches!(self.style, Style::Silent | Style::Wrap) {
            self.send_to_be_hurt();
        }
        for _ in 0..self.dice.between(1, 4) {
            self.send_on_any_line();
        }
        self.drive_a_little();
        self.begin();
        self.drive(most);
        if self.dice.per_thousand(500) {
            self.send_on_any_line();
            self.lose_somebody();
            self.drive(most);
        }
    }

    /// From the richest that can, so that the amounts may be as wanted.
    fn send_to_be_hurt(&mut self) {
        let lines = spare_lines(self.group()).into_iter();
        let booking = |cabinet: Number| self.group().cabinet(cabinet).booking(Account::Workshop);
        let receives = |line: &(Number, Number)| self.style == Style::Silent || booking(line.1) > 0;
        let richest = lines.filter(receives).max_by_key(|&(from, _)| booking(from));
        if let Some((from, to)) = richest {
            let hurting = std::mem::take(&mut self.hurting);
            if self.workshop_send(from, to, 0) {
                self.hurt_the_last(from, to);
            }
            self.hurting = hurting;
        }
    }

    /// Rather on one on which the packet may be hurt.
    fn send_on_any_line(&mut self) {
        let spare = spare_lines(self.group());
        if let (Some((from, to)), true) = (self.dice.pick_any(&spare), self.dice.per_thousand(600))
        {
            self.workshop_send(from, to, 0);
            return;
        }
        let size = self.group().size();
        let from = self.dice.between(1, size);
        let neighbours = self.group().cabinet(from).neighbours();
        if let Some(to) = self.dice.pick_any(&neighbours) {
            self.workshop_send(from, to, 0);
        }
    }

    fn begin(&mut self) {
        let begins = self.group().numbers().map(|a| record(3, a, 0, 0, 0));
        let begins: Vec<Record> = begins.filter(|begin| self.taken(begin)).collect();
        if let Some(begin) = self.dice.pick_any(&begins) {
            self.step_of_both(begin);
        }
    }

    /// If that does not crash the group.
    fn lose_somebody(&mut self) {
        let group = self.group();
        let free = |a: &Number| group.crash_by_tripping(*a).is_none();
        let free: Vec<Number> = group.working_cabinets().into_iter().filter(free).collect();
        if let Some(cabinet) = self.dice.pick_any(&free) {
            let trips = self.group().crash_by_failing(cabinet).is_some();
            let kind = if trips { 13 } else { self.dice.pick(&[10, 13]) };
            self.step_of_both(record(kind, cabinet, 0, 0, 0));
        }
    }

    fn drive_a_little(&mut self) {
        let steps = self.dice.below(6);
        self.drive(steps);
    }

    /// Up to so many steps that bring packets, a save or a recovery on.
    fn drive(&mut self, steps: usize) {
        for _ in 0..steps {
            let Some(record) = self.driving_record() else {
                return;
            };
            self.step_of_both(record);
        }
    }

    fn driving_record(&mut self) -> Option<Record> {
        let group = self.group();
        let mut ready = Vec::new();
        for a in group.numbers() {
            let filled = |b: &Number| !group.line(a, *b).packets.is_empty();
            ready.extend(group.numbers().filter(filled).map(|b| record(4, a, b, 0, 0)));
            ready.extend([5, 6, 7, 8, 14].map(|kind| record(kind, a, 0, 0, 0)));
        }
        let start = self.dice.below(ready.len());
        ready.rotate_left(start);
        ready.into_iter().find(|record| self.taken(record))
    }
}
