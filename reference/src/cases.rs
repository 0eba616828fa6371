//! Random cases from a seed: a group file, sound or damaged, and a steps file. The model runs
//! along while steps are made, so that most of them are steps that would be taken.

pub mod droppings;
mod hurts;
pub mod losses;
pub mod pairs;
mod partners;
pub mod plans;
mod trips;
mod unsure;
pub mod words;
mod workshop;

use crate::model::{
    self, Crash, Ends, Event, Group, Number, Outcome, Packet, PacketVersion, State, CRASHED,
    FIRST_NOTE, KINDS, TAKEN, WITHDRAWN_KIND, WORKSHOP_P,
};
use hurts::damage_at;
use partners::{Grudge, Sequel, Stores};
use std::collections::VecDeque;
use std::ops::Range;
use unsure::Doubt;

pub type Record = [u8; 6];

#[derive(Clone, PartialEq, Eq, Debug)]
pub struct Case {
    pub group: Vec<u8>,
    /// The steps file, or the plan file of a case with a plan.
    pub steps: Vec<u8>,
}

/// What kind of cases are wanted.
#[derive(Clone, Copy, Debug)]
pub struct Wishes {
    /// Whether records of kinds 11 and 12, damage and loss, may occur at all.
    pub damage: bool,
    /// Kinds above this one are unknown to the model.
    pub highest_kind: u8,
    /// The number of cabinets of a sound group, any from 2 to 8 if none is named.
    pub cabinets: Option<usize>,
}

impl Wishes {
    fn trips(&self) -> bool {
        self.highest_kind >= 13
    }

    fn reports(&self) -> bool {
        self.highest_kind >= 14
    }
}

// ---------------------------------------------------------------- dice

/// A small generator of random numbers (splitmix64).
pub struct Dice(u64);

impl Dice {
    pub fn new(seed: u64) -> Dice {
        Dice(seed)
    }

    fn next(&mut self) -> u64 {
        self.0 = self.0.wrapping_add(0x9E37_79B9_7F4A_7C15);
        let mut z = self.0;
        z = (z ^ (z >> 30)).wrapping_mul(0xBF58_476D_1CE4_E5B9);
        z = (z ^ (z >> 27)).wrapping_mul(0x94D0_49BB_1331_11EB);
        z ^ (z >> 31)
    }

    /// A number from 0 to `bound` less one.
    fn below(&mut self, bound: usize) -> usize {
        (self.next() % bound as u64) as usize
    }

    /// A number from `low` to `high`, both counted in.
    fn between(&mut self, low: usize, high: usize) -> usize {
        low + self.below(high - low + 1)
    }

    fn per_thousand(&mut self, chance: usize) -> bool {
        self.below(1000) < chance
    }

    fn pick<T: Copy>(&mut self, choices: &[T]) -> T {
        choices[self.below(choices.len())]
    }

    fn pick_any<T: Copy>(&mut self, choices: &[T]) -> Option<T> {
        (!choices.is_empty()).then(|| self.pick(choices))
    }

    fn octet(&mut self) -> u8 {
        self.below(256) as u8
    }
}

/// The seed of one case in a row of cases.
pub fn case_seed(seed: u64, index: u64) -> u64 {
    let mut dice = Dice::new(seed ^ index.wrapping_mul(0xD6E8_FEB8_6659_FD93));
    dice.next() ^ index
}

pub fn make_case(seed: u64, wishes: Wishes) -> Case {
    let mut dice = Dice::new(seed);
    let draft = draft_that_may_lose_its_lead(&mut dice, wishes.cabinets);
    let damaged = wishes.cabinets.is_none() && dice.per_thousand(200);
    let (group, length) = if damaged {
        (damaged_group_file(&mut dice, draft), dice.below(5))
    } else {
        (draft.octets(), steps_length(&mut dice, wishes))
    };
    let steps = make_steps(&mut dice, &group, wishes, length);
    Case { group, steps }
}

/// Mostly any group; else rather one that does not crash where the coordinator is lost, and in
/// which the next one does not see it.
fn draft_that_may_lose_its_lead(dice: &mut Dice, cabinets: Option<usize>) -> GroupDraft {
    let (tries, afar) = dice.pick(&[(0, false), (0, false), (5, false), (10, true)]);
    let mut draft = GroupDraft::sound(dice, cabinets);
    for _ in 0..tries {
        let loses = |group: Group| group.crash_by_failing(1).is_none();
        let seen = draft.links.contains(&(1, 2));
        if model::load(&draft.octets()).is_ok_and(loses) && !(afar && seen) {
            break;
        }
        draft = GroupDraft::sound(dice, cabinets);
    }
    draft
}

/// As many records as a listing reads.
const LONG: usize = 10_000;

/// Mostly up to 600 records; once in a while more than a listing reads.
fn steps_length(dice: &mut Dice, wishes: Wishes) -> usize {
    if wishes.cabinets.is_some() {
        return 600;
    }
    if dice.per_thousand(2) {
        return LONG + dice.below(5);
    }
    dice.below(601).max(dice.below(601))
}

// ---------------------------------------------------------------- group files

#[derive(Clone)]
struct CabinetDraft {
    home: u8,
    mark: u8,
    /// A's, B's and the workshop's.
    bookings: [u16; 3],
    /// Of the store, 0 for none.
    partner: u8,
}

#[derive(Clone)]
struct GroupDraft {
    version: PacketVersion,
    cabinets: Vec<CabinetDraft>,
    links: Vec<(u8, u8)>,
}

impl GroupDraft {
    fn sound(dice: &mut Dice, cabinets: Option<usize>) -> GroupDraft {
        let n = cabinets.unwrap_or_else(|| dice.between(2, 8));
        let stores = stores(dice, n);
        let bookings = bookings(dice, n);
        let cabinet = |index: usize| CabinetDraft {
            home: dice.pick(&stores.homes),
            mark: u8::from(stores.marks[index]),
            bookings: bookings[index],
            partner: stores.partners[index],
        };
        let cabinets = (0..n).map(cabinet).collect();
        let links = connected_links(dice, n as u8);
        let version = dice.pick(&[PacketVersion::One, PacketVersion::Two]);
        let mut draft = GroupDraft { version, cabinets, links };
        partners::part_pairs(dice, &mut draft);
        draft
    }

    fn header(&self) -> Vec<u16> {
        let (n, links) = (self.cabinets.len() as u16, self.links.len() as u16);
        match self.version {
            PacketVersion::One => vec![n, links, 10, 10 + 9 * n, 10 + 9 * n + 2 * links],
            PacketVersion::Two => vec![n, links, 12, 12 + 9 * n, 12 + 9 * n + 2 * links, 2],
        }
    }

    fn octets(&self) -> Vec<u8> {
        let mut file: Vec<u8> = self.header().into_iter().flat_map(u16::to_be_bytes).collect();
        for cabinet in &self.cabinets {
            file.extend_from_slice(&[cabinet.home, cabinet.mark]);
            file.extend(cabinet.bookings.iter().flat_map(|booking| booking.to_be_bytes()));
            file.push(cabinet.partner);
        }
        for &(low, high) in &self.links {
            file.extend_from_slice(&[low, high]);
        }
        file
    }
}

/// Mostly with partners.
fn stores(dice: &mut Dice, n: usize) -> Stores {
    if dice.per_thousand(620) {
        return partners::stores_in_pairs(dice, n);
    }
    let marks = store_marks(dice, n);
    let homes = (1..=n as u8).filter(|&c| marks[usize::from(c) - 1]).collect();
    Stores { marks, partners: vec![0; n], homes }
}

/// At least one store. Cabinet 1 is mostly none, since a store that fails alone crashes the group.
fn store_marks(dice: &mut Dice, n: usize) -> Vec<bool> {
    let chance = dice.pick(&[100, 250, 500]);
    let mut marks: Vec<bool> = (0..n).map(|_| dice.per_thousand(chance)).collect();
    if dice.per_thousand(700) {
        marks[0] = false;
    }
    if !marks.contains(&true) {
        let lowest = usize::from(dice.per_thousand(700));
        let store = dice.between(lowest, n - 1);
        marks[store] = true;
    }
    marks
}

/// Now and then each party has booked all that it may.
fn bookings(dice: &mut Dice, n: usize) -> Vec<[u16; 3]> {
    let (buses, workshop) = if dice.per_thousand(30) {
        (pairs(&shares(dice, 65_535, 2 * n)), shares(dice, 65_535, n))
    } else {
        (bookings_of_buses(dice, n), workshop::bookings(dice, n))
    };
    buses.into_iter().zip(workshop).map(|([a, b], workshop)| [a, b, workshop]).collect()
}

/// Mostly at both outlets; now and then one of them has nothing anywhere, or one outlet of one
/// cabinet has nearly all: it can send any amount.
fn bookings_of_buses(dice: &mut Dice, n: usize) -> Vec<[u16; 2]> {
    let total = match dice.below(8) {
        0 => 65_535,
        1 => 65_534,
        2 | 3 => dice.below(500),
        _ => dice.below(65_536),
    };
    match dice.below(12) {
        0 => shares(dice, total, n).into_iter().map(|share| [share, 0]).collect(),
        1 => shares(dice, total, n).into_iter().map(|share| [0, share]).collect(),
        2 | 3 => nearly_all_at_one(dice, n),
        _ => pairs(&shares(dice, total, 2 * n)),
    }
}

fn pairs(shares: &[u16]) -> Vec<[u16; 2]> {
    shares.chunks(2).map(|pair| [pair[0], pair[1]]).collect()
}

fn nearly_all_at_one(dice: &mut Dice, n: usize) -> Vec<[u16; 2]> {
    let rest = dice.below(10_000);
    let mut booked = pairs(&shares(dice, rest, 2 * n));
    let more = dice.between(30_000, 65_535 - rest) as u16;
    booked[dice.below(n)][dice.below(2)] += more;
    booked
}

fn shares(dice: &mut Dice, total: usize, parts: usize) -> Vec<u16> {
    let even_share = total / parts;
    let mut left = total;
    let mut shares: Vec<u16> = (1..parts)
        .map(|_| {
            let share = dice.below(2 * even_share + 1).min(left);
            left -= share;
            share as u16
        })
        .collect();
    shares.insert(dice.below(parts), left as u16);
    shares
}

/// A random tree, or now and then a ring, and each further link with a chance from none to all.
/// In half of them the numbers are dealt anew: else 1 and 2 are always linked.
fn connected_links(dice: &mut Dice, n: u8) -> Vec<(u8, u8)> {
    let mut links = if dice.per_thousand(150) { ring(n) } else { random_tree(dice, n) };
    if dice.per_thousand(500) {
        links = renumbered(dice, n, &links);
    }
    let chance = dice.pick(&[0, 200, 400, 700, 1000]);
    for low in 1..n {
        for high in low + 1..=n {
            if dice.per_thousand(chance) {
                links.push((low, high));
            }
        }
    }
    links.sort_unstable();
    links.dedup();
    links
}

fn random_tree(dice: &mut Dice, n: u8) -> Vec<(u8, u8)> {
    (2..=n).map(|cabinet| (1 + dice.below(usize::from(cabinet) - 1) as u8, cabinet)).collect()
}

fn renumbered(dice: &mut Dice, n: u8, links: &[(u8, u8)]) -> Vec<(u8, u8)> {
    let mut left: Vec<u8> = (1..=n).collect();
    let dealt: Vec<u8> = (1..=n).map(|_| left.swap_remove(dice.below(left.len()))).collect();
    let number = |old: u8| dealt[usize::from(old) - 1];
    let link = |&(a, b): &(u8, u8)| (number(a).min(number(b)), number(a).max(number(b)));
    links.iter().map(link).collect()
}

fn ring(n: u8) -> Vec<(u8, u8)> {
    let mut links: Vec<(u8, u8)> = (1..n).map(|cabinet| (cabinet, cabinet + 1)).collect();
    links.push((1, n));
    links
}

// ---------------------------------------------------------------- damaged group files

/// Aims at one of the refusals 1 to 7, now and then at two, changes any octet, names a partner
/// wrongly, or mixes the packet versions.
fn damaged_group_file(dice: &mut Dice, mut draft: GroupDraft) -> Vec<u8> {
    let aims = [dice.between(1, 28), dice.between(1, 28)];
    let aims = &aims[..1 + usize::from(dice.per_thousand(250))];
    for &aim in aims {
        match aim {
            4 => damage_cabinet_entry(dice, &mut draft),
            5 | 25 | 26 => damage_link_entry(dice, &mut draft),
            6 | 27 => disconnect(dice, &mut draft),
            7 | 9 => overbook(dice, &mut draft, 0..2),
            10..=12 => overbook(dice, &mut draft, 2..3),
            19..=24 => partners::damage_partner(dice, &mut draft),
            _ => {}
        }
    }
    let mut file = draft.octets();
    for &aim in aims {
        match aim {
            1 | 28 => file.truncate(dice.below(10)),
            2 => damage_n(dice, &mut file),
            3 => damage_layout(dice, &mut file),
            8 => damage_any_octet(dice, &mut file),
            13..=18 => mix_versions(dice, &mut file, draft.version),
            _ => {}
        }
    }
    file
}

fn damage_cabinet_entry(dice: &mut Dice, draft: &mut GroupDraft) {
    let n = draft.cabinets.len();
    let index = dice.below(n);
    let homeless = draft.cabinets.iter().position(|cabinet| cabinet.mark == 0);
    let cabinet = &mut draft.cabinets[index];
    match (dice.below(3), homeless) {
        (0, _) => cabinet.mark = dice.pick(&[2, 3, 128, 255]),
        (1, Some(other)) => cabinet.home = other as u8 + 1,
        _ => cabinet.home = dice.pick(&[0, n as u8 + 1, 9, 255]),
    }
}

fn damage_link_entry(dice: &mut Dice, draft: &mut GroupDraft) {
    let n = draft.cabinets.len() as u8;
    if draft.links.is_empty() {
        draft.links.push((1, 2));
    }
    let index = dice.below(draft.links.len());
    let (low, high) = draft.links[index];
    match dice.below(6) {
        0 => draft.links[index] = (high, low),
        1 => draft.links[index] = (low, low),
        2 => draft.links[index] = (0, high),
        3 => draft.links[index] = (low, n + 1),
        4 => draft.links.insert(index, (low, high)),
        _ => draft.links.rotate_left(1),
    }
}

fn disconnect(dice: &mut Dice, draft: &mut GroupDraft) {
    let lonely = dice.between(1, draft.cabinets.len()) as u8;
    draft.links.retain(|&(low, high)| low != lonely && high != lonely);
}

/// By a party that has these bookings of a cabinet: one ampere too many, or far too many at one
/// of them or all.
fn overbook(dice: &mut Dice, draft: &mut GroupDraft, of_party: Range<usize>) {
    let booked = draft.cabinets.iter().flat_map(|cabinet| &cabinet.bookings[of_party.clone()]);
    let total: u32 = booked.copied().map(u32::from).sum();
    let index = dice.below(draft.cabinets.len());
    let any = of_party.start + dice.below(of_party.len());
    let booking = &mut draft.cabinets[index].bookings[any];
    let others = total - u32::from(*booking);
    if dice.per_thousand(500) && (1..=65_536).contains(&others) {
        *booking = (65_536 - others) as u16;
        return;
    }
    let overbooked = if dice.per_thousand(333) { of_party } else { any..any + 1 };
    for cabinet in &mut draft.cabinets {
        cabinet.bookings[overbooked.clone()].fill(50_000);
    }
}

fn damage_n(dice: &mut Dice, file: &mut [u8]) {
    let n = dice.pick(&[0u16, 1, 9, 10, 256, 258, 65_535]);
    set_number(file, 0, n);
}

fn damage_layout(dice: &mut Dice, file: &mut Vec<u8>) {
    match dice.below(5) {
        0 => file.push(dice.octet()),
        1 => file.truncate(file.len().saturating_sub(1)),
        2 => add_to_number(file, 2, 0x8000), // the length would fit modulo 65,536
        3 => add_to_number(file, dice.pick(&[2, 4, 6, 8]), 1),
        _ => add_to_number(file, dice.pick(&[4, 6, 8]), dice.pick(&[0xFFFF, 256, 2])),
    }
}

fn damage_any_octet(dice: &mut Dice, file: &mut [u8]) {
    if !file.is_empty() {
        let index = dice.below(file.len());
        file[index] ^= dice.between(1, 255) as u8;
    }
}

/// Something of one version is as in the other.
fn mix_versions(dice: &mut Dice, file: &mut Vec<u8>, version: PacketVersion) {
    let (other, more) = match version {
        PacketVersion::One => (12, 2),
        PacketVersion::Two => (10, 0_u16.wrapping_sub(2)),
    };
    match dice.below(7) {
        0 => set_number(file, 4, other),
        1 => with_another_sixth_number(dice, file),
        2 => cut_short(dice, file),
        3 => {
            let offsets = dice.pick(&[&[6][..], &[8], &[6, 8], &[4, 8], &[4, 6]]);
            offsets.iter().for_each(|&offset| add_to_number(file, offset, more));
        }
        4 if dice.per_thousand(500) => with_length_of_the_other(dice, file, version),
        4 => with_or_without_sixth_number(file, version),
        _ => {
            [4, 6, 8].iter().for_each(|&offset| add_to_number(file, offset, more));
            with_length_of_the_other(dice, file, version);
            if dice.per_thousand(300) {
                set_number(file, 10, 2);
            }
        }
    }
}

/// Two octets more at the end, or fewer.
fn with_length_of_the_other(dice: &mut Dice, file: &mut Vec<u8>, version: PacketVersion) {
    match version {
        PacketVersion::One => file.extend([dice.octet(), dice.octet()]),
        PacketVersion::Two => file.truncate(file.len().saturating_sub(2)),
    }
}

/// Of version 1 it becomes part of an entry; then only the offsets tell.
fn with_another_sixth_number(dice: &mut Dice, file: &mut [u8]) {
    let any = dice.below(65_536) as u16;
    let number = dice.pick(&[0, 1, 2, 3, 10, 12, 0x0102, 0x0200, any]);
    set_number(file, 10, number);
}

fn cut_short(dice: &mut Dice, file: &mut Vec<u8>) {
    let length = dice.pick(&[10, 10, 11, 11, 12]);
    file.truncate(length);
    set_number(file, 4, 12);
    if dice.per_thousand(500) {
        set_number(file, 8, length as u16);
    }
}

/// The offsets stay those of the version.
fn with_or_without_sixth_number(file: &mut Vec<u8>, version: PacketVersion) {
    match version {
        PacketVersion::One if file.len() >= 10 => drop(file.splice(10..10, [0, 2])),
        PacketVersion::Two if file.len() >= 12 => drop(file.drain(10..12)),
        _ => {}
    }
}

fn set_number(file: &mut [u8], offset: usize, number: u16) {
    if let Some(place) = file.get_mut(offset..offset + 2) {
        place.copy_from_slice(&number.to_be_bytes());
    }
}

fn add_to_number(file: &mut [u8], offset: usize, more: u16) {
    if let Some(&[high, low]) = file.get(offset..offset + 2) {
        let number = u16::from_be_bytes([high, low]).wrapping_add(more);
        set_number(file, offset, number);
    }
}

// ---------------------------------------------------------------- the temper of a run

/// How a run behaves; drawn anew for each case. Chances are per thousand.
struct Temper {
    /// Weight of each kind among sensible steps; entry 0 is not used.
    weights: [usize; 15],
    foolish: usize,
    /// Chance of a step that comes too soon.
    hasty: usize,
    /// Chance that a fail, a damage, a loss or a trip is not kept from crashing the group.
    bold: usize,
    /// The same for a damage or a loss out of a recovery, which crashes it once it is found.
    bold_to_hurt: usize,
    /// Chance that the step after a commit strikes at it.
    strike_after_commit: usize,
    /// Chance that the coordinator is lost while nobody else knows its version.
    strike_in_save: usize,
    /// Chance of a report that is refused, where one would be taken.
    refused_reports: usize,
    /// Whether saves are brought on until the coordinator is lost.
    doubtful: bool,
    /// A cabinet to which packets other than fault are seldom delivered.
    slow: Option<Number>,
    /// A cabinet that seldom writes and may fail when only its own report is missing.
    laggard: Option<Number>,
    /// A cabinet that sends most of the time, and mostly to its lowest neighbour.
    talker: Option<Number>,
    /// A cabinet that trips more than the others.
    stumbler: Option<Number>,
    /// Chance of a trip where others are about to find a link fault or to commit.
    sly: usize,
    /// Chance that a send is one of the workshop.
    workshop: usize,
}

fn some_cabinet(dice: &mut Dice, group: &Group, chance: usize) -> Option<Number> {
    dice.per_thousand(chance).then(|| dice.between(1, group.size()))
}

/// Rather the one that leads second, or a store with a partner.
fn some_stumbler(dice: &mut Dice, group: &Group) -> Option<Number> {
    let with_partner = |number: &Number| group.cabinet(*number).partner().is_some();
    let stores: Vec<Number> = group.numbers().filter(with_partner).collect();
    if !stores.is_empty() && dice.per_thousand(300) {
        dice.pick_any(&stores)
    } else if dice.per_thousand(200) {
        Some(2)
    } else {
        some_cabinet(dice, group, 400)
    }
}

impl Temper {
    fn drawn(dice: &mut Dice, group: &Group, wishes: Wishes) -> Temper {
        let mut weights = [0, 250, 15, 0, 300, 160, 120, 160, 120, 0, 0, 0, 0, 0, 120];
        for weight in &mut weights {
            *weight = *weight * dice.pick(&[1, 2, 4]) / 2;
        }
        weights[3] = dice.pick(&[3, 8, 20, 60]);
        weights[10] = dice.pick(&[0, 2, 5, 15]);
        weights[11] = if wishes.damage { dice.pick(&[0, 10, 25, 60]) } else { 0 };
        weights[12] = if wishes.damage { dice.pick(&[0, 6, 12, 40]) } else { 0 };
        weights[13] = if wishes.trips() { dice.pick(&[0, 5, 15, 40]) } else { 0 };
        if !wishes.reports() {
            weights[14] = 0;
        }
        Temper {
            weights,
            foolish: dice.pick(&[0, 20, 80, 250]),
            hasty: dice.pick(&[0, 20, 80]),
            bold: dice.pick(&[0, 0, 20, 150]),
            bold_to_hurt: dice.pick(&[0, 20, 150, 400]),
            strike_after_commit: dice.pick(&[0, 200, 700]),
            strike_in_save: dice.pick(&[0, 200, 600]),
            refused_reports: dice.pick(&[0, 50, 200]),
            doubtful: wishes.reports() && dice.per_thousand(400),
            slow: some_cabinet(dice, group, 400),
            laggard: some_cabinet(dice, group, 300),
            talker: some_cabinet(dice, group, 300),
            stumbler: some_stumbler(dice, group),
            sly: if wishes.trips() { dice.pick(&[0, 50, 300]) } else { 0 },
            workshop: dice.pick(&[50, 300, 300, 500, 900]),
        }
    }

    fn kind(&self, dice: &mut Dice) -> u8 {
        let mut ticket = dice.below(self.weights.iter().sum());
        for (kind, &weight) in self.weights.iter().enumerate() {
            if ticket < weight {
                return kind as u8;
            }
            ticket -= weight;
        }
        4
    }
}

// ---------------------------------------------------------------- steps

fn record(kind: u8, a: Number, b: Number, p: u8, q: u16) -> Record {
    let [high, low] = q.to_be_bytes();
    [kind, a as u8, b as u8, p, high, low]
}

fn make_steps(dice: &mut Dice, group_file: &[u8], wishes: Wishes, length: usize) -> Vec<u8> {
    let mut steps = match model::load(group_file) {
        Ok(group) => Run::new(dice, group, wishes).make(length),
        Err(_) => (0..6 * length).map(|_| dice.below(10) as u8).collect(),
    };
    if dice.per_thousand(100) {
        add_short_record(dice, &mut steps);
    }
    steps
}

fn add_short_record(dice: &mut Dice, steps: &mut Vec<u8>) {
    let length = dice.between(1, 5);
    steps.push(dice.between(0, 10) as u8);
    steps.extend((1..length).map(|_| dice.below(9) as u8));
}

/// A run of the model, one record after the other.
struct Run<'a> {
    dice: &'a mut Dice,
    group: Group,
    wishes: Wishes,
    temper: Temper,
    last_event: Event,
    /// Tries left in which saved reports are asked for first.
    reports_first: usize,
    /// Records that the last one was made for.
    to_follow: VecDeque<Record>,
    /// Tries left in which a save is brought on first: it finds a loss, or commits after one.
    save_first: usize,
    /// Tries left in which the recovery under way is brought on first.
    recover_first: usize,
    /// Lost, or found to be damaged.
    hurt_since_recovery: bool,
    /// Tries left in which a trip is asked for between what ends a recovery.
    trip_first: usize,
    /// A cabinet with two trips since the last commit.
    twice_before: Option<Number>,
    /// A cabinet with two trips before the last commit.
    pardoned: Option<Number>,
    doubt: Doubt,
    grudge: Grudge,
    sequel: Sequel,
}

impl Run<'_> {
    fn new(dice: &mut Dice, group: Group, wishes: Wishes) -> Run<'_> {
        let temper = Temper::drawn(dice, &group, wishes);
        let save_first = if temper.doubtful { 400 } else { 0 };
        let grudge = Grudge::drawn(dice, &group, temper.bold);
        Run {
            dice,
            group,
            wishes,
            temper,
            last_event: Event::Nothing,
            reports_first: 0,
            to_follow: VecDeque::new(),
            save_first,
            recover_first: 0,
            hurt_since_recovery: false,
            trip_first: 0,
            twice_before: None,
            pardoned: None,
            doubt: Doubt::default(),
            grudge,
            sequel: Sequel::default(),
        }
    }

    fn make(&mut self, length: usize) -> Vec<u8> {
        let mut steps = Vec::new();
        let mut left = length;
        while left > 0 {
            left -= 1;
            let record = self.next_record();
            let outcome = self.take(record);
            steps.extend_from_slice(&record);
            if length < LONG {
                left = left.min(self.worth_going_on(outcome.answer));
            }
        }
        steps
    }

    fn take(&mut self, record: Record) -> Outcome {
        let (left, back) = (self.partner_left_behind(&record), self.store_that_comes_back(&record));
        let outcome = self.group.step(&record, self.wishes.highest_kind);
        self.last_event = outcome.event;
        self.note_pardons(outcome.event);
        match (record[0], outcome.answer) {
            (12, TAKEN) => self.after_loss(record),
            (10 | 13, TAKEN) => {
                self.after_fault();
                left.into_iter().for_each(|partner| self.after_a_store_left(partner));
            }
            (8, TAKEN) => back.into_iter().for_each(|store| self.after_a_store_came_back(store)),
            _ => {}
        }
        match outcome.event {
            Event::RecoveryEnd { .. } => {
                self.after_recovery();
                self.after_recovery_with_stores();
            }
            Event::LinkFault(_) => self.after_link_fault(),
            _ => {}
        }
        outcome
    }

    /// How many steps more are of any use after this answer.
    fn worth_going_on(&mut self, answer: u8) -> usize {
        if answer == CRASHED {
            self.dice.below(8)
        } else if self.group.working_cabinets().len() == 1 {
            100
        } else {
            LONG
        }
    }

    fn next_record(&mut self) -> Record {
        if let Some(record) = self.next_to_follow() {
            return record;
        }
        let foolish = self.temper.foolish;
        if self.dice.per_thousand(foolish) {
            return self.foolish_record();
        }
        let hasty = self.temper.hasty;
        if self.dice.per_thousand(hasty) {
            if let Some(record) = self.hasty_record() {
                return record;
            }
        }
        if let Some(record) = self.strike().or_else(|| self.strike_at_a_store()) {
            return record;
        }
        if let Some(record) = self.fail_before_its_report().or_else(|| self.eager_report()) {
            return record;
        }
        let sly = self.temper.sly;
        if self.dice.per_thousand(sly) {
            if let Some(record) = self.sly_fault() {
                return record;
            }
        }
        for _ in 0..12 {
            let kind = self.next_kind();
            if let Some(record) = self.sensible_record(kind) {
                return record;
            }
        }
        let rest = [14, 8, 7, 6, 5, 4, 1, 2, 3];
        let found = rest.into_iter().find_map(|kind| self.sensible_record(kind));
        found.unwrap_or_else(|| self.foolish_record())
    }

    /// At a commit, or at the coordinator of a save.
    fn strike(&mut self) -> Option<Record> {
        let chance = self.chance_to_strike();
        if self.last_event == Event::Commit && self.dice.per_thousand(chance) {
            if let Some(record) = self.strike_at_commit() {
                return Some(record);
            }
        }
        let chance = self.chance_to_strike_in_save();
        if self.dice.per_thousand(chance) {
            return self.lead().and_then(|lead| self.safe_fault_of(lead));
        }
        None
    }

    /// Where others are about to find a link fault or to commit.
    fn sly_fault(&mut self) -> Option<Record> {
        let with_its_own = self.dice.per_thousand(600);
        let beside = self.trip_beside_a_link_fault();
        let trip = beside.or_else(|| self.trip_before_the_reports(with_its_own));
        trip.or_else(|| self.fault_beside_a_hurt_lead())
    }

    /// A damage or loss that was meant for another moment would crash the group.
    fn next_to_follow(&mut self) -> Option<Record> {
        if self.group.recovery_under_way() {
            self.to_follow.retain(|record| [4, 5, 6, 7, 8, 14].contains(&record[0]));
        }
        self.to_follow.pop_front()
    }

    /// For some tries after a laggard failed, the reports still owed come first; after a store left,
    /// what is left of its save; after a link fault, what ends the recovery; after a loss, what a
    /// save needs.
    fn next_kind(&mut self) -> u8 {
        if self.reports_first > 0 {
            self.reports_first -= 1;
            return 6;
        }
        if self.sequel.save_on > 0 {
            self.sequel.save_on -= 1;
            return self.dice.pick(&[5, 5, 6]);
        }
        if self.recover_first > 0 && self.group.recovery_under_way() {
            self.recover_first -= 1;
            return self.dice.pick(&[4, 4, 4, 7, 7, 8, 14]);
        }
        if self.save_first > 0 {
            self.save_first -= 1;
            return self.dice.pick(&[1, 3, 4, 4, 5, 6, 7, 8]);
        }
        if self.trip_first > 0 {
            self.trip_first -= 1;
            return self.dice.pick(&[1, 4, 4, 7, 8, 13]);
        }
        self.temper.kind(self.dice)
    }

    fn any_cabinet(&mut self) -> Number {
        self.dice.between(1, self.group.size())
    }

    /// Whether the record would be taken (or taken with a crash).
    fn taken(&self, record: &Record) -> bool {
        let step = model::decode(record, self.wishes.highest_kind);
        step.is_ok_and(|step| self.group.refusal(&step).is_none())
    }

    /// Rather where the commit pardoned a cabinet that tripped twice.
    fn chance_to_strike(&self) -> usize {
        if self.pardoned.is_some() {
            800
        } else {
            self.temper.strike_after_commit
        }
    }

    /// The coordinator, as the lowest working cabinet's table names it.
    fn lead(&self) -> Option<Number> {
        let working = self.group.working_cabinets();
        working.first().map(|&lowest| self.group.cabinet(lowest).coordinator())
    }

    /// Right after a commit: its coordinator fails or trips, or one of its resume packets is hurt;
    /// or one trips that led before it.
    fn strike_at_commit(&mut self) -> Option<Record> {
        let coordinator = self.lead()?;
        if self.wishes.damage && self.dice.per_thousand(400) {
            let behind = self.dice.per_thousand(300);
            let behind = behind.then(|| self.hurt_behind_a_hurt_signal()).flatten();
            return behind.or_else(|| self.damage_on_lines_from(coordinator));
        }
        if self.wishes.trips() && self.dice.per_thousand(200) {
            let before = self.trip_of_the_number_before(coordinator);
            return before.or_else(|| self.safe_fault_of(coordinator));
        }
        self.safe_fault_of(coordinator)
    }

    /// It fails or trips, if that does not crash the group.
    fn safe_fault_of(&mut self, cabinet: Number) -> Option<Record> {
        let trips = self.wishes.trips() && self.dice.per_thousand(600);
        let (kind, crash) = if trips {
            (13, self.group.crash_by_tripping(cabinet))
        } else {
            (10, self.group.crash_by_failing(cabinet))
        };
        crash.is_none().then(|| record(kind, cabinet, 0, 0, 0))
    }
}

// ---------------------------------------------------------------- sensible steps

impl Run<'_> {
    fn sensible_record(&mut self, kind: u8) -> Option<Record> {
        match kind {
            1 => self.sensible_send(),
            2 => self.sensible_note(),
            4 => self.sensible_deliver(),
            10 => self.sensible_fail(),
            11 => self.sensible_damage(),
            12 => self.sensible_loss(),
            13 => self.sensible_trip(),
            14 => self.sensible_report(),
            _ => self.sensible_single(kind),
        }
    }

    /// Kinds that name one cabinet and nothing else.
    fn sensible_single(&mut self, kind: u8) -> Option<Record> {
        if kind == 6 && self.report_waits() {
            return None;
        }
        let all = self.group.numbers().map(|a| record(kind, a, 0, 0, 0));
        let taken: Vec<Record> = all.filter(|record| self.taken(record)).collect();
        let chosen = self.dice.pick_any(&taken)?;
        let lags = kind == 5 && Some(usize::from(chosen[1])) == self.temper.laggard;
        (!lags || self.dice.per_thousand(30)).then_some(chosen)
    }

    /// The laggard fails or trips when all others have written and a report is still owed.
    fn fail_before_its_report(&mut self) -> Option<Record> {
        let laggard = self.temper.laggard?;
        let others_done = self.group.working_cabinets().iter().all(|&a| {
            let state = self.group.cabinet(a).state;
            state == if a == laggard { State::Checkpointing } else { State::Checkpointed }
        });
        if !others_done || !self.dice.per_thousand(300) {
            return None;
        }
        let fault = self.safe_fault_of(laggard)?;
        self.reports_first = 6;
        Some(fault)
    }

    fn sensible_send(&mut self) -> Option<Record> {
        if self.dice.per_thousand(15) {
            return self.sends_that_fill_a_line();
        }
        let (from, to) = self.line_to_send_on()?;
        let p = self.p_to_send_with(from);
        let amount = self.amount_to_send(from, p);
        if self.dice.per_thousand(10) {
            return Some(record(1, from, to, self.p_that_names_nothing(), amount));
        }
        let record = record(1, from, to, p, amount);
        (self.taken(&record) || self.dice.per_thousand(100)).then_some(record)
    }

    /// Any bookings of either party, but seldom from one that has nothing.
    fn p_to_send_with(&mut self, from: Number) -> u8 {
        let of_buses = self.dice.below(4) as u8;
        let workshop = self.temper.workshop;
        let (p, another) = if self.dice.per_thousand(workshop) {
            (WORKSHOP_P, of_buses)
        } else {
            (of_buses, of_buses ^ 2)
        };
        if self.booking_behind(from, p) == 0 && self.dice.per_thousand(900) {
            another
        } else {
            p
        }
    }

    fn p_that_names_nothing(&mut self) -> u8 {
        let any = self.dice.between(5, 255) as u8;
        self.dice.pick(&[5, 5, 6, 7, 128, 255, any, any])
    }

    /// The booking that p sends from.
    fn booking_behind(&self, from: Number, p: u8) -> u16 {
        let ends = Ends::of(p).expect("p is drawn from 0 to 4");
        self.group.cabinet(from).booking(ends.sending())
    }

    /// About the booking now and then; above it also what the others would have covered.
    fn amount_to_send(&mut self, from: Number, p: u8) -> u16 {
        let booking = usize::from(self.booking_behind(from, p));
        let all: usize = self.group.cabinet(from).bookings().map(usize::from).iter().sum();
        let amount = match self.dice.below(30) {
            0 => booking,
            1 => booking + 1,
            2 => self.dice.between(booking + 1, all + 1),
            3..=10 => self.dice.between(0, booking),
            _ => self.dice.between(1, 1 + booking / 8),
        };
        amount.min(65_535) as u16
    }

    fn line_to_send_on(&mut self) -> Option<(Number, Number)> {
        if let Some(talker) = self.temper.talker {
            if self.dice.per_thousand(700) {
                let lowest = self.group.cabinet(talker).neighbours().first().copied();
                return lowest.map(|to| (talker, to));
            }
        }
        let from = self.any_cabinet();
        let to = self.dice.pick_any(&self.group.cabinet(from).neighbours())?;
        Some((from, to))
    }

    fn sensible_note(&mut self) -> Option<Record> {
        let value = u16::from(self.dice.octet());
        if self.dice.per_thousand(70) {
            let octet_of_a_booking = self.dice.between(2, 5) as u8;
            return Some(record(2, self.any_cabinet(), 0, octet_of_a_booking, value));
        }
        let first = self.dice.per_thousand(100);
        let octet = if first { FIRST_NOTE } else { self.dice.between(6, 31) as u8 };
        let record = record(2, self.any_cabinet(), 0, octet, value);
        self.taken(&record).then_some(record)
    }

    fn filled_lines(&self) -> Vec<(Number, Number)> {
        let mut filled = Vec::new();
        for from in self.group.numbers() {
            for to in self.group.numbers() {
                if !self.group.line(from, to).packets.is_empty() {
                    filled.push((from, to));
                }
            }
        }
        filled
    }

    fn sensible_deliver(&mut self) -> Option<Record> {
        let filled = self.filled_lines();
        let mut line = self.dice.pick_any(&filled)?;
        for _ in 0..4 {
            if self.is_deaf(line.1) || self.waits_for_slow(line) && self.dice.per_thousand(950) {
                line = self.dice.pick(&filled);
            }
        }
        Some(record(4, line.0, line.1, 0, 0))
    }

    fn waits_for_slow(&self, (from, to): (Number, Number)) -> bool {
        let oldest = self.group.line(from, to).packets.front();
        Some(to) == self.temper.slow && !matches!(oldest, Some(Packet::Fault(_)))
    }

    fn sensible_fail(&mut self) -> Option<Record> {
        let bold = self.temper.bold;
        if self.dice.per_thousand(bold) {
            return self.crashing_fail();
        }
        let cabinet = self.some_failing_with(|crash| crash.is_none())?;
        Some(record(10, cabinet, 0, 0, 0))
    }

    /// Rather one that cuts off others than one that is a store.
    fn crashing_fail(&mut self) -> Option<Record> {
        let cuts_off = self.some_failing_with(|crash| crash == Some(Crash::CutOffByFail));
        let any = self.some_failing_with(|_| true);
        let cabinet = if self.dice.per_thousand(700) { cuts_off.or(any) } else { any };
        Some(record(10, cabinet?, 0, 0, 0))
    }

    fn some_failing_with(&mut self, allowed: impl Fn(Option<Crash>) -> bool) -> Option<Number> {
        let working = self.group.working_cabinets().into_iter();
        let fits = |a: &Number| allowed(self.group.crash_by_failing(*a));
        let fitting: Vec<Number> = working.filter(fits).collect();
        self.dice.pick_any(&fitting)
    }

    fn damage_on_lines_from(&mut self, from: Number) -> Option<Record> {
        let lines = self.filled_lines();
        let lines: Vec<_> = lines.into_iter().filter(|line| line.0 == from).collect();
        let (from, to) = self.dice.pick_any(&lines)?;
        let bold = self.boldness_to_hurt();
        if self.dangerous_to_hurt(from, to) && !self.dice.per_thousand(bold) {
            return None;
        }
        let place = self.place_to_hurt(from, to);
        let burst = self.any_burst();
        if self.dice.per_thousand(100) {
            self.to_follow.push_back(record(12, from, to, place as u8, 0));
        }
        let record = damage_at((from, to, place), burst);
        (self.taken(&record) || self.dice.per_thousand(300)).then_some(record)
    }

    fn boldness_to_hurt(&self) -> usize {
        if self.group.recovery_under_way() {
            self.temper.bold
        } else {
            self.temper.bold_to_hurt
        }
    }

    /// At once, or once the hurt is found.
    fn dangerous_to_hurt(&self, from: Number, to: Number) -> bool {
        self.group.recovery_under_way() || self.group.crashes_without_link(from, to)
    }

    /// Fail-safe packets are hurt as often as normal ones.
    fn place_to_hurt(&mut self, from: Number, to: Number) -> usize {
        let packets = &self.group.line(from, to).packets;
        let fail_safe = |place: &usize| !matches!(packets[*place], Packet::Normal(_));
        let special: Vec<usize> = (0..packets.len()).filter(fail_safe).collect();
        let any = self.dice.below(packets.len());
        match self.dice.pick_any(&special) {
            Some(place) if self.dice.per_thousand(500) => place,
            _ => any,
        }
    }
}

// ---------------------------------------------------------------- foolish steps

impl Run<'_> {
    /// A cabinet in the state that the kind asks for, whatever the others are in.
    fn hasty_record(&mut self) -> Option<Record> {
        let (kind, state) = self.dice.pick(&[
            (5, State::Checkpointing),
            (6, State::Checkpointing),
            (6, State::Checkpointing),
            (6, State::Checkpointed),
            (7, State::Recovering),
            (8, State::Recovered),
            (14, State::Error),
            (14, State::Error),
        ]);
        let fits = |a: &Number| self.group.cabinet(*a).state == state;
        let fitting: Vec<Number> = self.group.numbers().filter(fits).collect();
        let cabinet = self.dice.pick_any(&fitting)?;
        (kind <= self.wishes.highest_kind).then(|| record(kind, cabinet, 0, 0, 0))
    }

    /// A well-formed step that asks for nothing, or one that is malformed as well.
    fn foolish_record(&mut self) -> Record {
        let record = self.random_record();
        if self.dice.per_thousand(600) {
            return record;
        }
        match self.dice.below(3) {
            0 => self.with_unknown_kind(record),
            1 => self.with_unused_field(record),
            _ => self.with_strange_cabinet(record),
        }
    }

    fn random_record(&mut self) -> Record {
        let mut kind = self.dice.pick(&[1, 2, 3, 4, 5, 6, 7, 8, 10, 14]);
        if self.wishes.damage && self.dice.per_thousand(170) {
            kind = self.dice.pick(&[11, 12]);
        }
        if kind == 14 && !self.wishes.reports() {
            kind = 8;
        }
        if kind == 10 && !self.dice.per_thousand(30) {
            kind = 8; // a fail is nearly always taken, and then it mostly crashes the group
        }
        if kind == 10 && self.wishes.trips() && self.dice.per_thousand(500) {
            kind = 13;
        }
        let (names_b, names_p, names_q) = model::fields_named(kind);
        let b = if names_b { self.any_cabinet() } else { 0 };
        let p = if names_p { self.strange_p(kind) } else { 0 };
        let q = if names_q { self.strange_value() } else { 0 };
        let hurts = kind == 11 || kind == 12;
        let nowhere = hurts && self.group.recovery_under_way() && !self.dice.per_thousand(100);
        let record = record(kind, self.any_cabinet(), b, if nowhere { 12 } else { p }, q);
        if kind == 11 {
            self.with_any_shift(record)
        } else {
            record
        }
    }

    /// The bookings of a send, the octet of a note or the place of a damage or loss.
    fn strange_p(&mut self, kind: u8) -> u8 {
        if kind == 1 && self.dice.per_thousand(700) {
            return self.dice.below(5) as u8;
        }
        let any = self.dice.octet();
        let small = self.dice.below(12) as u8;
        self.dice.pick(&[0, 1, 2, 3, 4, 5, 6, 31, 32, 255, small, small, any])
    }

    fn strange_value(&mut self) -> u16 {
        let any = self.dice.below(65_536) as u16;
        self.dice.pick(&[0, 1, 2, 255, 256, 65_535, any])
    }

    fn with_unknown_kind(&mut self, mut record: Record) -> Record {
        let beyond = KINDS + 1;
        let any = self.dice.between(usize::from(beyond), 255) as u8;
        record[0] = self.dice.pick(&[0, WITHDRAWN_KIND, beyond, 255, any]);
        record
    }

    fn with_unused_field(&mut self, mut record: Record) -> Record {
        let (names_b, names_p, names_q) = model::fields_named(record[0]);
        let named = [names_b, names_p, names_q, names_q];
        let unused: Vec<usize> = (2..6).filter(|&field| !named[field - 2]).collect();
        if let Some(field) = self.dice.pick_any(&unused) {
            record[field] = self.dice.between(1, 255) as u8;
        }
        record
    }

    fn with_strange_cabinet(&mut self, mut record: Record) -> Record {
        let beyond = self.group.size() as u8 + 1;
        let names_b = model::fields_named(record[0]).0;
        let field = if names_b { self.dice.between(1, 2) } else { 1 };
        let beside_a_shift = 16 * self.dice.between(1, 15) as u8;
        record[field] = match (record[0], field) {
            (11, 2) => self.dice.pick(&[0, beyond, 9, 15]) | self.dice.pick(&[0, beside_a_shift]),
            _ => self.dice.pick(&[0, beyond, 9, 16, 255]),
        };
        record
    }
}

// ---------------------------------------------------------------- tests

#[cfg(test)]
mod tests {
    use super::*;
    use crate::listing::{counted_listing, Tally};
    use crate::losses::{Finding, Refused};
    use crate::model::{Account, Party};
    use crate::outlets::Cover;
    use crate::own_checks::{Dropped, Found, Hit, Misfit, Mixed};
    use crate::partners::{Alone, Fetched, Gone, Misnamed, Moment, Stores, Written};
    use crate::trips::Between;
    use crate::unsure::{Lost, Refusal};
    use crate::workshop::{self, Overbooked, Totals};
    use std::collections::BTreeMap;

    fn wishes(damage: bool) -> Wishes {
        Wishes { damage, highest_kind: KINDS, cabinets: None }
    }

    fn tally_of(cases: u64, wishes: Wishes) -> Tally {
        let mut tally = Tally::default();
        for index in 0..cases {
            let case = make_case(case_seed(7, index), wishes);
            tally.add(&counted_listing(&case.group, &case.steps, KINDS).1);
        }
        tally
    }

    #[test]
    fn a_seed_makes_the_same_case_again() {
        assert_eq!(make_case(5, wishes(true)), make_case(5, wishes(true)));
    }

    #[test]
    fn without_damage_no_record_has_kind_11_or_12() {
        for index in 0..200 {
            let case = make_case(case_seed(3, index), wishes(false));
            assert!(case.steps.chunks(6).all(|record| ![11, 12].contains(&record[0])));
        }
    }

    #[test]
    fn the_cases_reach_every_answer() {
        let tally = tally_of(600, wishes(true));
        let answers: Vec<u8> = tally.answers.keys().copied().collect();
        assert_eq!(answers, [0, 8, 9, 10, 11, 12, 13, 14, 15, 16, 17, 18, 19, 20, 50]);
        let refusals: Vec<u8> = tally.loads_refused.keys().copied().collect();
        assert_eq!(refusals, [1, 2, 3, 4, 5, 6, 7]);
        assert_eq!(tally.kinds_taken.len(), 13);
        assert_eq!(tally.crashes.len(), 10);
        assert!(tally.commits > 0 && tally.recoveries_ended > 0);
        assert!(tally.saves_passed_over > 0 && tally.link_faults > 0);
    }

    #[test]
    fn the_cases_reach_what_losses_bring() {
        let counts = tally_of(600, wishes(true)).losses;
        assert!(counts.taken > 0 && counts.taken_before_others > 0 && counts.crashes > 0);
        assert!(counts.refused.keys().eq(&Refused::ALL));
        assert!(counts.found.keys().eq(&[Finding::Crc, Finding::CountAlone]));
        assert!(counts.damage_refused > 0 && counts.recoveries_ended > 0);
        assert!(counts.commits_after_recovery > 0);
    }

    /// Damage in version 2 never comes as far as a checkp.
    #[test]
    fn the_cases_reach_what_packets_own_checks_bring() {
        let counts = tally_of(1000, wishes(true)).own_checks;
        let versions = [PacketVersion::One, PacketVersion::Two];
        assert!(counts.groups.keys().eq(&versions) && counts.groups.values().all(|&n| n > 380));
        assert!(counts.loads_refused.keys().eq(&Mixed::ALL));
        let two = |hit: Hit| (PacketVersion::Two, hit);
        let hits = [(PacketVersion::One, Hit::Amount), two(Hit::Amount), two(Hit::OwnCheck)];
        assert!(counts.hit.keys().eq(&[&hits[..], &[two(Hit::Both)]].concat()));
        assert!(counts.misfits.keys().eq(&Misfit::ALL) && counts.misfits_at_fail_safe > 0);
        assert!(counts.refused_with_shift.keys().eq(&[10, 11, 13, 15, 18, 20]));
        assert!(counts.fail_safe_hit > 0 && counts.hurt_amounts_added > 0);
        assert!(counts.found.keys().eq(&Found::ALL) && counts.crashes.len() > 3);
        assert!(counts.found_on_taking_in.keys().eq(&[State::Normal, State::CheckpBegin]));
        assert!(counts.dropped.keys().eq(&[Dropped::InRecovery, Dropped::OverStruckLink]));
        assert!(counts.recoveries_ended.keys().eq(&Found::ALL));
        assert!(counts.recoveries_ended.values().all(|&ended| ended > 5));
        assert!(counts.commits_after_recovery.keys().eq(&Found::ALL));
    }

    #[test]
    fn where_trips_are_unknown_no_record_has_kind_13() {
        for index in 0..200 {
            let earlier = Wishes { highest_kind: 12, ..wishes(true) };
            let case = make_case(case_seed(3, index), earlier);
            assert!(case.steps.chunks_exact(6).all(|record| record[0] != 13));
        }
    }

    #[test]
    fn the_cases_reach_what_trips_bring() {
        let counts = tally_of(600, wishes(true)).trips;
        assert!(counts.taken > 0 && counts.of_coordinators > 0 && counts.of_joining_cabinets > 0);
        assert!(counts.taken_as_fails > 0 && counts.after_two.contains_key(&Between::Commit));
        assert!(counts.refused.keys().eq(&[9, 10, 11, 12]));
        let causes = [Crash::StoreTripped, Crash::TripInRecovery, Crash::CutOffByTrip];
        assert!(causes.iter().all(|cause| counts.crashes.contains_key(cause)));
        assert!(counts.recoveries_ended > 0 && counts.saves_passed_over > 0);
        assert!(counts.begins_by_moved_lead > 0 && counts.commits_by_moved_lead > 0);
        assert!(counts.taken_in.len() == 4 && counts.fails_of_moved_lead > 0);
        assert!(counts.link_faults > 0 && counts.places_met > 0 && counts.commits > 0);
    }

    #[test]
    fn where_reports_are_unknown_no_record_has_kind_14() {
        for index in 0..200 {
            let earlier = Wishes { highest_kind: 13, ..wishes(true) };
            let case = make_case(case_seed(3, index), earlier);
            assert!(case.steps.chunks_exact(6).all(|record| record[0] != 14));
        }
    }

    #[test]
    fn the_cases_reach_what_reports_bring() {
        let counts = tally_of(600, wishes(true)).unsure;
        assert!(counts.taken > 0 && counts.of_tripped > 0 && counts.before_all_know > 0);
        assert!(counts.refused.keys().eq(&Refusal::ALL));
        let lost = [Lost::Failed, Lost::Tripped];
        assert!(counts.decisions.keys().eq(&lost) && counts.recoveries_ended.keys().eq(&lost));
        assert!(counts.decisions.values().all(|&decisions| decisions > 30));
        assert!(counts.by_anothers_report > 0 && counts.by_one_not_joined > 0);
        assert!(counts.saves_passed_over > 0 && counts.recoveries_by_recover > 0);
        assert!(counts.withdrawn > 0 && counts.withdrawn_where_all_wait > 0);
    }

    fn uses_a_hurt_line(group: &Group) -> bool {
        let mut working = group.working_cabinets().into_iter();
        working.any(|from| {
            let neighbours = group.cabinet(from).neighbours();
            neighbours.into_iter().any(|to| group.line(from, to).hurt)
        })
    }

    /// Whatever was damaged or lost before a save's begin is found before its commit.
    #[test]
    fn no_save_commits_over_a_hurt_line() {
        for index in 0..400 {
            let case = make_case(case_seed(11, index), wishes(true));
            let Ok(mut group) = model::load(&case.group) else {
                continue;
            };
            for record in case.steps.chunks(6) {
                let committed = group.step(record, KINDS).event == Event::Commit;
                assert!(!(committed && uses_a_hurt_line(&group)));
            }
        }
    }

    #[test]
    fn the_cases_reach_what_the_workshop_brings() {
        let counts = tally_of(1000, wishes(true)).workshop;
        let of_each = |counts: &BTreeMap<Party, u64>| counts.keys().eq(&Party::ALL);
        assert!(counts.totals.keys().eq(&Totals::ALL));
        let refused = &counts.loads_refused;
        assert!(Overbooked::BY_ONE_PARTY.iter().all(|by| refused.contains_key(by)));
        assert!(of_each(&counts.sends_taken) && of_each(&counts.sends_beyond_four));
        assert!(counts.lines_filled > 50 && counts.lines_full.len() == 4);
        assert!(counts.lines_full.values().all(|&full| full > 20));
        assert!(of_each(&counts.otherwise_covered) && of_each(&counts.refused_after_the_other));
        assert!(counts.notes.keys().eq(&[(4, 15), (5, 15), (6, 0)]));
        assert!(counts.hurt.len() == 4 && counts.wraps > 0);
        assert!(counts.found.keys().eq(&workshop::Found::ALL));
        assert!(counts.recoveries_after_find.keys().eq(&workshop::Found::ALL));
        assert!(counts.trips > 100 && counts.recoveries_changing > 100);
        assert!(counts.commits_changing > 100);
    }

    #[test]
    fn the_cases_reach_what_partners_bring() {
        let counts = tally_of(1000, wishes(true)).partners;
        assert!(counts.with_partners > 500 && counts.stores.keys().eq(&Stores::ALL));
        assert!(counts.loads_refused.keys().eq(&Misnamed::ALL));
        assert!(counts.left.len() == 6 && counts.left_while.keys().eq(&Moment::ALL));
        assert!(counts.left_while.values().all(|&stores| stores > 50));
        assert!(counts.written.keys().eq(&Written::ALL));
        assert!(counts.fetched.keys().eq(&Fetched::ALL));
        assert!(counts.commits.keys().eq(&Gone::ALL) && counts.recoveries_ended.len() == 3);
        assert!(counts.left_after_come_back.values().all(|&stores| stores > 20));
        let alone = |alone: &Alone| counts.neither_left.keys().any(|(_, why)| why == alone);
        assert!(Alone::ALL.iter().all(alone));
        assert!(counts.numbers().iter().all(|&(_, number)| number > 0));
    }

    #[test]
    fn the_cases_reach_what_two_outlets_bring() {
        let counts = tally_of(600, wishes(true)).outlets;
        assert!(counts.sends_taken.keys().eq(&Ends::ALL));
        assert!(counts.packets_taken.keys().eq(&Account::ALL));
        let covers = [Cover::OtherOutlet, Cover::BothTogether];
        assert!(counts.sends_otherwise_covered.keys().eq(&covers));
        assert!(counts.notes_refused_at.keys().eq(&[2, 3]));
        assert!(counts.sends_refused_for_p > 0 && counts.recoveries_changing_b > 0);
        assert!(counts.faults_by_comparison.keys().eq(&Account::ALL));
        assert!(counts.loads_refused_for_b > 0);
    }
}
