//! The charger group of either packet version: cabinets, lines and stores, the load of a group file,
//! the thirteen kinds of step, numbered 1 to 14 without 9, and the word that settled a recovery.
//! Written from the scope document and the decisions alone; cabinet numbers are 1 to n here, as
//! they are there.

use std::collections::{BTreeMap, BTreeSet, VecDeque};
use std::ops::{Range, RangeInclusive};

pub type Number = usize;
pub type Image = [u8; 32];

pub const TAKEN: u8 = 0;
pub const CRASHED: u8 = 50;
pub const RECORD_LENGTH: usize = 6;

/// Of the places of a line for normal packets: as many for the buses, as many for the workshop.
pub const PLACES_OF_A_PARTY: usize = 4;
const LINE_PLACES: usize = 12;
const PIECES: usize = 4;
const PIECE_LENGTH: usize = 8;
const CRC_START: u16 = 0xFFFF;
const NO_IMAGE: Image = [0; 32];

/// One trip more with no commit between is a fail.
const TRIPS_BEFORE_A_FAIL: u8 = 2;

/// The highest kind of step that the documents name so far.
pub const KINDS: u8 = 14;

/// Wait over, which stood in document 01.
pub const WITHDRAWN_KIND: u8 = 9;

// ---------------------------------------------------------------- the check value

/// One octet more under the CRC: polynomial 0x1021, high bit first.
fn crc_octet(register: u16, octet: u8) -> u16 {
    let mut value = register ^ (u16::from(octet) << 8);
    for _ in 0..8 {
        let carry = value & 0x8000 != 0;
        value <<= 1;
        if carry {
            value ^= 0x1021;
        }
    }
    value
}

pub fn crc_octets(register: u16, octets: &[u8]) -> u16 {
    octets.iter().fold(register, |r, &o| crc_octet(r, o))
}

/// What runs over the normal packets of a line at either end: the CRC of their octets, and how
/// many they are, modulo 65,536.
#[derive(Clone, Copy, PartialEq, Eq, Debug)]
pub struct Check {
    pub crc: u16,
    pub count: u16,
}

impl Check {
    const START: Check = Check { crc: CRC_START, count: 0 };

    /// All octets of a normal packet run through the CRC, those of its own check too.
    fn and(self, charge: Charge) -> Check {
        let crc = crc_octets(self.crc, &charge.octets());
        Check { crc, count: self.count.wrapping_add(1) }
    }
}

// ---------------------------------------------------------------- parties and their bookings

/// Who shares the lines.
#[derive(Clone, Copy, PartialEq, Eq, PartialOrd, Ord, Debug)]
pub enum Party {
    Buses,
    Workshop,
}

impl Party {
    pub const ALL: [Party; 2] = [Party::Buses, Party::Workshop];

    pub fn other(self) -> Party {
        match self {
            Party::Buses => Party::Workshop,
            Party::Workshop => Party::Buses,
        }
    }
}

/// What a cabinet has booked: the buses at its outlets A and B, and the workshop. The bookings
/// stand in front of its image, two octets each.
#[derive(Clone, Copy, PartialEq, Eq, PartialOrd, Ord, Debug)]
pub enum Account {
    A,
    B,
    Workshop,
}

impl Account {
    pub const ALL: [Account; 3] = [Account::A, Account::B, Account::Workshop];

    pub fn party(self) -> Party {
        match self {
            Account::A | Account::B => Party::Buses,
            Account::Workshop => Party::Workshop,
        }
    }

    /// The first octet of a normal packet for this booking.
    pub fn octet(self) -> u8 {
        match self {
            Account::A => 0x00,
            Account::B => 0x01,
            Account::Workshop => 0x02,
        }
    }

    fn place_in_image(self) -> Range<usize> {
        match self {
            Account::A => 0..2,
            Account::B => 2..4,
            Account::Workshop => 4..6,
        }
    }
}

pub const FIRST_NOTE: u8 = 6;
const LAST_NOTE: u8 = 31;

/// The bookings at the two ends of a send, the sender's first.
#[derive(Clone, Copy, PartialEq, Eq, PartialOrd, Ord, Debug)]
pub enum Ends {
    AA,
    AB,
    BA,
    BB,
    /// The workshop's at both.
    Workshop,
}

impl Ends {
    pub const ALL: [Ends; 5] = [Ends::AA, Ends::AB, Ends::BA, Ends::BB, Ends::Workshop];

    /// What a send's p names, if it names anything.
    pub fn of(p: u8) -> Option<Ends> {
        Ends::ALL.get(usize::from(p)).copied()
    }

    pub fn sending(self) -> Account {
        match self {
            Ends::AA | Ends::AB => Account::A,
            Ends::BA | Ends::BB => Account::B,
            Ends::Workshop => Account::Workshop,
        }
    }

    pub fn receiving(self) -> Account {
        match self {
            Ends::AA | Ends::BA => Account::A,
            Ends::AB | Ends::BB => Account::B,
            Ends::Workshop => Account::Workshop,
        }
    }

    pub fn party(self) -> Party {
        self.sending().party()
    }
}

/// The p of a send of the workshop.
pub const WORKSHOP_P: u8 = 4;

// ---------------------------------------------------------------- normal packets

/// How normal packets are made up, in the whole group; its file tells it.
#[derive(Clone, Copy, PartialEq, Eq, PartialOrd, Ord, Debug)]
pub enum PacketVersion {
    One,
    /// With a check of its own behind the amount.
    Two,
}

/// A normal packet: the receiving booking, an amount for it and, in version 2, the CRC of both.
#[derive(Clone, Copy, PartialEq, Eq, Debug)]
pub struct Charge {
    pub account: Account,
    pub amount: u16,
    pub own_check: Option<u16>,
}

impl Charge {
    /// As it is put.
    pub fn new(version: PacketVersion, account: Account, amount: u16) -> Charge {
        let plain = Charge { account, amount, own_check: None };
        match version {
            PacketVersion::One => plain,
            PacketVersion::Two => Charge { own_check: Some(plain.right_check()), ..plain },
        }
    }

    fn first_three_octets(self) -> [u8; 3] {
        let [high, low] = self.amount.to_be_bytes();
        [self.account.octet(), high, low]
    }

    fn octets(self) -> Vec<u8> {
        let check = self.own_check.map(u16::to_be_bytes);
        let check: &[u8] = check.as_ref().map_or(&[], |octets| octets);
        [&self.first_three_octets(), check].concat()
    }

    fn right_check(self) -> u16 {
        crc_octets(CRC_START, &self.first_three_octets())
    }

    /// Whether its own check is that of its first three octets; without one nothing is asked.
    pub fn fits(self) -> bool {
        self.own_check.is_none_or(|check| check == self.right_check())
    }

    /// The first octet is never hit.
    pub(crate) fn hit_by(self, burst: Burst) -> Charge {
        let Some(check) = self.own_check else {
            return Charge { amount: self.amount ^ burst.pattern, ..self };
        };
        let [a, b] = self.amount.to_be_bytes();
        let [c, d] = check.to_be_bytes();
        let pattern = burst.on_four_octets().expect("a pattern outside the octets is refused");
        let [a, b, c, d] = (u32::from_be_bytes([a, b, c, d]) ^ pattern).to_be_bytes();
        let own_check = Some(u16::from_be_bytes([c, d]));
        Charge { amount: u16::from_be_bytes([a, b]), own_check, ..self }
    }
}

const MOST_OCTETS_SHIFTED: u8 = 2;

/// What damage does to a normal packet: a pattern, shifted up by bits and by octets.
#[derive(Clone, Copy, PartialEq, Eq, Debug)]
pub struct Burst {
    pub pattern: u16,
    pub bits: u8,
    pub octets: u8,
}

impl Burst {
    /// The high four bits of a record's b and the high three of its p are the shifts.
    pub fn of_fields(b: u8, p: u8, q: u16) -> Burst {
        Burst { pattern: q, bits: p >> 5, octets: b >> 4 }
    }

    pub fn is_shifted(self) -> bool {
        self.bits != 0 || self.octets != 0
    }

    /// As it falls on the octets behind a packet's first, if it stays within four of them.
    pub fn on_four_octets(self) -> Option<u32> {
        if self.octets > MOST_OCTETS_SHIFTED {
            return None;
        }
        let shift = 8 * self.octets + self.bits;
        u32::try_from(u64::from(self.pattern) << shift).ok()
    }

    /// Refusal 15.
    fn refused_in(self, version: PacketVersion) -> bool {
        let misplaced = match version {
            PacketVersion::One => self.is_shifted(),
            PacketVersion::Two => self.on_four_octets().is_none(),
        };
        self.pattern == 0 || misplaced
    }
}

// ---------------------------------------------------------------- parts of a group

#[derive(Clone, Copy, PartialEq, Eq, PartialOrd, Ord, Debug)]
pub enum State {
    Normal,
    CheckpBegin,
    Checkpointing,
    Checkpointed,
    Error,
    Recovering,
    Recovered,
    Crashed,
    Failed,
}

impl State {
    pub fn name(self) -> &'static str {
        match self {
            State::Normal => "normal",
            State::CheckpBegin => "checkp-begin",
            State::Checkpointing => "checkpointing",
            State::Checkpointed => "checkpointed",
            State::Error => "error",
            State::Recovering => "recovering",
            State::Recovered => "recovered",
            State::Crashed => "crashed",
            State::Failed => "failed",
        }
    }

    pub fn in_recovery(self) -> bool {
        matches!(self, State::Error | State::Recovering | State::Recovered)
    }
}

#[derive(Clone, Copy, PartialEq, Eq, Debug)]
pub enum Version {
    Known(u8),
    Unknown {
        old: u8,
    },
    /// Unknown with no old one: of a tripped cabinet, until recover has come.
    Lost,
}

impl Version {
    /// The version, or the old one while it is unknown.
    fn number(self) -> u8 {
        match self {
            Version::Known(version) => version,
            Version::Unknown { old } => old,
            Version::Lost => panic!("nobody asks a tripped cabinet for its version"),
        }
    }

    pub fn known(self) -> bool {
        matches!(self, Version::Known(_))
    }
}

/// The place of a fault; a link has its lower number first.
#[derive(Clone, Copy, PartialEq, Eq, Debug)]
pub enum Place {
    Failed(Number),
    Tripped(Number),
    Link(Number, Number),
}

impl Place {
    fn cabinet(self) -> Option<Number> {
        match self {
            Place::Failed(cabinet) | Place::Tripped(cabinet) => Some(cabinet),
            Place::Link(..) => None,
        }
    }
}

#[derive(Clone, Copy, PartialEq, Eq, Debug)]
pub enum Packet {
    Normal(Charge),
    Checkp(Check),
    Resume,
    Recover(u8),
    Fault(Place),
    Invalid,
}

#[derive(Clone, Default, PartialEq, Eq)]
pub struct Line {
    pub packets: VecDeque<Packet>,
    /// A normal packet of this line was damaged or lost since the receiver's check restarted.
    pub hurt: bool,
}

impl Line {
    /// How many normal packets of this party stand in it.
    pub fn packets_of(&self, party: Party) -> usize {
        let of_party = |packet: &&Packet| matches!(packet, Packet::Normal(charge) if charge.account.party() == party);
        self.packets.iter().filter(of_party).count()
    }

    pub fn has_place_for(&self, party: Party) -> bool {
        self.packets_of(party) < PLACES_OF_A_PARTY
    }

    fn put(&mut self, packet: Packet) {
        if self.packets.len() < LINE_PLACES {
            self.packets.push_back(packet);
        }
    }
}

/// What a cabinet notes of the last save or recovery.
#[derive(Clone, Default, PartialEq, Eq)]
struct Noted {
    checkps_come: BTreeSet<Number>,
    pieces_done: usize,
    saved: BTreeSet<Number>,
    restored: BTreeSet<Number>,
    /// Who has reported unsure, noted at a coordinator.
    unsure: BTreeSet<Number>,
    faults_heard: BTreeSet<Number>,
}

/// Why a cabinet entered error, and how it stood before: its coordinator and its state, and
/// whether it brought its version along.
#[derive(Clone, Copy, PartialEq, Eq)]
struct Trouble {
    place: Place,
    coordinator_before: Number,
    state_before: State,
    knew: bool,
}

impl Trouble {
    fn is_the_coordinator_before(self) -> bool {
        self.place.cabinet() == Some(self.coordinator_before)
    }

    /// What this cabinet's word rests on, if it is the first of its recovery.
    fn reason(self, own: Number) -> Reason {
        match self.state_before {
            _ if self.knew && self.coordinator_before == own => Reason::Led,
            State::CheckpBegin | State::Checkpointing => Reason::StillSaving,
            State::Normal => Reason::InNormal,
            _ => Reason::Decided,
        }
    }
}

/// How the first cabinet of a recovery could name the version to go back to.
#[derive(Clone, Copy, PartialEq, Eq, PartialOrd, Ord, Debug)]
pub enum Reason {
    /// It was coordinator and knew, in whatever state.
    Led,
    /// Its pieces were not all written, so it knew.
    StillSaving,
    InNormal,
    /// By the last report unsure.
    Decided,
}

impl Reason {
    pub const ALL: [Reason; 4] =
        [Reason::Led, Reason::StillSaving, Reason::InNormal, Reason::Decided];

    /// As it is printed.
    pub fn number(self) -> u8 {
        match self {
            Reason::Led => 1,
            Reason::StillSaving => 2,
            Reason::InNormal => 3,
            Reason::Decided => 4,
        }
    }
}

/// The first cabinet that entered recovering in a recovery.
#[derive(Clone, Copy, PartialEq, Eq, Debug)]
pub struct Word {
    pub cabinet: Number,
    pub reason: Reason,
}

/// The word of the latest recovery that has one, and whether that recovery has not ended yet.
#[derive(Clone, Copy, Default, PartialEq, Eq)]
struct Settling {
    word: Option<Word>,
    open: bool,
}

#[derive(Clone, PartialEq, Eq)]
pub struct Cabinet {
    pub state: State,
    pub version: Version,
    pub image: Image,
    /// As the file names it.
    first_home: Number,
    store: bool,
    partner: Option<Number>,
    /// Of a store: it has tripped, and has not reported restored since.
    away: bool,
    cabinets_in_use: BTreeSet<Number>,
    links_in_use: BTreeSet<Number>,
    coordinator: Number,
    sent_check: Vec<Check>,
    taken_check: Vec<Check>,
    noted: Noted,
    reports_owed: BTreeSet<Number>,
    /// From entering error until entering normal.
    trouble: Option<Trouble>,
    /// Since the last commit, passed over or not.
    trips: u8,
    /// Of a failed cabinet: its image in the save restored after it failed, or the one that
    /// the last return since then set. None until the recovery from its fail has ended.
    left_behind: Option<Image>,
}

impl Cabinet {
    pub fn booking(&self, account: Account) -> u16 {
        booking_in(&self.image, account)
    }

    fn set_booking(&mut self, account: Account, amperes: u16) {
        self.image[account.place_in_image()].copy_from_slice(&amperes.to_be_bytes());
    }

    /// A's booking, B's and the workshop's.
    pub fn bookings(&self) -> [u16; 3] {
        Account::ALL.map(|account| self.booking(account))
    }

    pub fn working(&self) -> bool {
        self.state != State::Failed
    }

    /// As this cabinet's own table names it.
    pub fn coordinator(&self) -> Number {
        self.coordinator
    }

    /// Its home in the file.
    pub fn first_home(&self) -> Number {
        self.first_home
    }

    pub fn is_a_store(&self) -> bool {
        self.store
    }

    /// Of a store, if its entry names one.
    pub fn partner(&self) -> Option<Number> {
        self.partner
    }

    /// A store that is not present serves nobody.
    pub fn present(&self) -> bool {
        self.working() && !self.away
    }

    pub fn away(&self) -> bool {
        self.away
    }

    /// The saved reports that it owes, as a home.
    pub fn reports_owed(&self) -> &BTreeSet<Number> {
        &self.reports_owed
    }

    /// Of its image, written in this save or fetched in this recovery.
    pub fn pieces_done(&self) -> usize {
        self.noted.pieces_done
    }

    /// Since the last commit.
    pub fn trips(&self) -> u8 {
        self.trips
    }

    /// Saved reports, as a coordinator.
    pub fn takes_reports(&self) -> bool {
        matches!(self.state, State::Checkpointing | State::Checkpointed)
    }

    /// The cabinets of its table for which no saved report of this save has come.
    pub fn reports_missing(&self) -> Vec<Number> {
        self.cabinets_in_use.difference(&self.noted.saved).copied().collect()
    }

    /// The place of the fault that this cabinet is recovering from.
    pub fn place(&self) -> Option<Place> {
        let in_recovery = self.state.in_recovery();
        self.trouble.filter(|_| in_recovery).map(|trouble| trouble.place)
    }

    /// The place of the fault that it entered error for. It goes on entering normal; a crash
    /// leaves it.
    pub(crate) fn fault_place(&self) -> Option<Place> {
        self.trouble.map(|trouble| trouble.place)
    }

    /// In this save.
    pub(crate) fn checkp_has_come_from(&self, neighbour: Number) -> bool {
        self.noted.checkps_come.contains(&neighbour)
    }

    /// In this recovery.
    pub(crate) fn has_heard_fault_from(&self, neighbour: Number) -> bool {
        self.noted.faults_heard.contains(&neighbour)
    }

    /// In error with unknown version.
    pub fn waits(&self) -> bool {
        self.state == State::Error && !self.version.known()
    }

    /// The fault that it last entered error for was its coordinator until then.
    pub fn lost_its_coordinator(&self) -> bool {
        self.trouble.is_some_and(Trouble::is_the_coordinator_before)
    }

    /// The cabinets that have reported unsure to this one.
    pub fn reported_unsure(&self) -> &BTreeSet<Number> {
        &self.noted.unsure
    }

    /// After the highest number in use comes the lowest.
    fn next_in_use_after(&self, number: Number) -> Number {
        let higher = self.cabinets_in_use.range(number + 1..).next();
        let next = higher.or_else(|| self.cabinets_in_use.first());
        *next.expect("a cabinet stays in its own table")
    }

    pub(crate) fn uses_line_to(&self, other: Number) -> bool {
        self.links_in_use.contains(&other) && self.cabinets_in_use.contains(&other)
    }

    /// The neighbours over lines in use, in rising order.
    pub fn neighbours(&self) -> Vec<Number> {
        let both = self.links_in_use.intersection(&self.cabinets_in_use);
        both.copied().collect()
    }

    fn has_all_neighbours(&self, came: &BTreeSet<Number>) -> bool {
        self.neighbours().iter().all(|b| came.contains(b))
    }

    fn strike(&mut self, own: Number, place: Place) {
        match place {
            Place::Failed(cabinet) => self.cabinets_in_use.remove(&cabinet),
            Place::Tripped(_) => false,
            Place::Link(low, high) if own == low => self.links_in_use.remove(&high),
            Place::Link(low, high) if own == high => self.links_in_use.remove(&low),
            Place::Link(..) => false,
        };
    }

    fn enter_normal(&mut self) {
        self.state = State::Normal;
        self.noted = Noted::default();
        self.trouble = None;
    }
}

pub fn booking_in(image: &Image, account: Account) -> u16 {
    number_at(image, account.place_in_image().start) as u16
}

/// For the counts only: the last commit whose resume nobody took and from which nobody was
/// restored, and whether the recovery under way passes over a save.
#[derive(Clone, Default, PartialEq, Eq)]
struct History {
    unseen_commit_by: Option<Number>,
    passing_over: bool,
}

#[derive(Clone, PartialEq, Eq)]
pub struct Group {
    cabinets: Vec<Cabinet>,
    file_links: BTreeSet<(Number, Number)>,
    sound_links: BTreeSet<(Number, Number)>,
    lines: Vec<Vec<Line>>,
    /// For each store, the two slots of each cabinet that it keeps.
    kept: Vec<BTreeMap<Number, [Image; 2]>>,
    packet_version: PacketVersion,
    settling: Settling,
    history: History,
}

fn link_between(a: Number, b: Number) -> (Number, Number) {
    (a.min(b), a.max(b))
}

/// Whether all members are reached from the lowest one over links between members.
fn connected(members: &BTreeSet<Number>, links: &BTreeSet<(Number, Number)>) -> bool {
    let mut reached: BTreeSet<Number> = members.first().copied().into_iter().collect();
    let mut ahead: Vec<Number> = reached.iter().copied().collect();
    while let Some(here) = ahead.pop() {
        for &next in members {
            if links.contains(&link_between(here, next)) && reached.insert(next) {
                ahead.push(next);
            }
        }
    }
    reached.len() == members.len()
}

// ---------------------------------------------------------------- load

pub(crate) const CABINET_ENTRY_LENGTH: usize = 9;
pub(crate) const PLACE_OF_PARTNER: usize = 8;
const LINK_ENTRY_LENGTH: usize = 2;

/// Where a header has the offset of the cabinet table, and in version 2 its sixth number.
const PLACE_OF_FIRST_OFFSET: usize = 4;
const PLACE_OF_SIXTH_NUMBER: usize = 10;
const SIXTH_NUMBER: usize = 2;

impl PacketVersion {
    pub(crate) fn header_length(self) -> usize {
        match self {
            PacketVersion::One => 10,
            PacketVersion::Two => 12,
        }
    }

    /// As the offset of the cabinet table tells it, be it right or not.
    pub(crate) fn named_by(file: &[u8]) -> PacketVersion {
        if number_at(file, PLACE_OF_FIRST_OFFSET) == PacketVersion::Two.header_length() {
            PacketVersion::Two
        } else {
            PacketVersion::One
        }
    }

    /// The two offsets and the length of a file with so many cabinets and links.
    pub(crate) fn layout(self, n: usize, links: usize) -> [usize; 3] {
        let link_table = self.header_length() + CABINET_ENTRY_LENGTH * n;
        [self.header_length(), link_table, link_table + LINK_ENTRY_LENGTH * links]
    }
}

/// By each party by itself.
pub(crate) const MOST_BOOKED: u32 = 65_535;

struct CabinetEntry {
    home: Number,
    mark: u8,
    /// A's, B's and the workshop's.
    bookings: [u16; 3],
    /// 0 for none.
    partner: Number,
}

impl CabinetEntry {
    fn booked_by(&self, party: Party) -> u32 {
        let of_party = Account::ALL.into_iter().zip(self.bookings);
        let of_party = of_party.filter(|(account, _)| account.party() == party);
        of_party.map(|(_, booking)| u32::from(booking)).sum()
    }
}

pub(crate) fn number_at(octets: &[u8], offset: usize) -> usize {
    usize::from(u16::from_be_bytes([octets[offset], octets[offset + 1]]))
}

/// Refusals 1 to 3; answers n and the packet version.
fn load_header(file: &[u8]) -> Result<(usize, PacketVersion), u8> {
    if file.len() < PacketVersion::One.header_length() {
        return Err(1);
    }
    let n = number_at(file, 0);
    if !(2..=8).contains(&n) {
        return Err(2);
    }
    let version = PacketVersion::named_by(file);
    let layout = version.layout(n, number_at(file, 2));
    let stated = [PLACE_OF_FIRST_OFFSET, 6, 8].map(|offset| number_at(file, offset));
    if stated != layout || file.len() != layout[2] {
        return Err(3);
    }
    let two = version == PacketVersion::Two;
    if two && number_at(file, PLACE_OF_SIXTH_NUMBER) != SIXTH_NUMBER {
        return Err(3);
    }
    Ok((n, version))
}

fn cabinet_entries(table: &[u8]) -> Vec<CabinetEntry> {
    let entry = |octets: &[u8]| CabinetEntry {
        home: usize::from(octets[0]),
        mark: octets[1],
        bookings: [2, 4, 6].map(|place| number_at(octets, place) as u16),
        partner: usize::from(octets[PLACE_OF_PARTNER]),
    };
    table.chunks(CABINET_ENTRY_LENGTH).map(entry).collect()
}

fn cabinet_entries_sound(entries: &[CabinetEntry]) -> bool {
    let a_store =
        |number: Number| (1..=entries.len()).contains(&number) && entries[number - 1].mark == 1;
    let partner_sound = |own: Number, partner: Number| {
        a_store(own) && a_store(partner) && own != partner && entries[partner - 1].partner == own
    };
    (1..).zip(entries).all(|(own, entry)| {
        entry.mark <= 1
            && a_store(entry.home)
            && (entry.partner == 0 || partner_sound(own, entry.partner))
    })
}

fn link_entries(table: &[u8]) -> Vec<(Number, Number)> {
    let entry = |octets: &[u8]| (usize::from(octets[0]), usize::from(octets[1]));
    table.chunks(LINK_ENTRY_LENGTH).map(entry).collect()
}

fn link_entries_sound(entries: &[(Number, Number)], n: usize) -> bool {
    let each = entries.iter().all(|&(low, high)| 1 <= low && low < high && high <= n);
    each && entries.windows(2).all(|pair| pair[0] < pair[1])
}

/// The group of a group file, or the number of the refusal.
pub fn load(file: &[u8]) -> Result<Group, u8> {
    let (n, version) = load_header(file)?;
    let link_table = version.header_length() + CABINET_ENTRY_LENGTH * n;
    let entries = cabinet_entries(&file[version.header_length()..link_table]);
    if !cabinet_entries_sound(&entries) {
        return Err(4);
    }
    let links = link_entries(&file[link_table..]);
    if !link_entries_sound(&links, n) {
        return Err(5);
    }
    let links: BTreeSet<_> = links.into_iter().collect();
    if !connected(&(1..=n).collect(), &links) {
        return Err(6);
    }
    let total = |party: Party| entries.iter().map(|entry| entry.booked_by(party)).sum::<u32>();
    if Party::ALL.into_iter().any(|party| total(party) > MOST_BOOKED) {
        return Err(7);
    }
    Ok(starting_group(version, &entries, links))
}

fn starting_group(
    packet_version: PacketVersion,
    entries: &[CabinetEntry],
    links: BTreeSet<(Number, Number)>,
) -> Group {
    let n = entries.len();
    let cabinets: Vec<Cabinet> =
        (1..=n).map(|number| starting_cabinet(number, n, &entries[number - 1], &links)).collect();
    Group {
        kept: (1..=n).map(|store| starting_slots(store, &cabinets)).collect(),
        cabinets,
        file_links: links.clone(),
        sound_links: links,
        lines: vec![vec![Line::default(); n]; n],
        packet_version,
        settling: Settling::default(),
        history: History::default(),
    }
}

/// A store keeps the cabinets whose home it is in the file, and those of its partner.
fn starting_slots(store: Number, cabinets: &[Cabinet]) -> BTreeMap<Number, [Image; 2]> {
    let partner = cabinets[store - 1].partner;
    let kept =
        |cabinet: &Cabinet| cabinet.first_home == store || Some(cabinet.first_home) == partner;
    let kept = (1..).zip(cabinets).filter(|(_, cabinet)| kept(cabinet));
    kept.map(|(number, cabinet)| (number, [cabinet.image, NO_IMAGE])).collect()
}

fn starting_cabinet(
    number: Number,
    n: usize,
    entry: &CabinetEntry,
    links: &BTreeSet<(Number, Number)>,
) -> Cabinet {
    let linked = |other: &Number| links.contains(&link_between(number, *other));
    let mut cabinet = Cabinet {
        state: State::Normal,
        version: Version::Known(0),
        image: NO_IMAGE,
        first_home: entry.home,
        store: entry.mark == 1,
        partner: (entry.partner != 0).then_some(entry.partner),
        away: false,
        cabinets_in_use: (1..=n).collect(),
        links_in_use: (1..=n).filter(linked).collect(),
        coordinator: 1,
        sent_check: vec![Check::START; n],
        taken_check: vec![Check::START; n],
        noted: Noted::default(),
        reports_owed: BTreeSet::new(),
        trouble: None,
        trips: 0,
        left_behind: None,
    };
    for (account, booking) in Account::ALL.into_iter().zip(entry.bookings) {
        cabinet.set_booking(account, booking);
    }
    cabinet
}

// ---------------------------------------------------------------- step records

#[derive(Clone, Copy, PartialEq, Eq, Debug)]
pub enum Step {
    Send { from: Number, to: Number, ends: u8, amount: u16 },
    Note { at: Number, octet: u8, value: u16 },
    Begin(Number),
    Deliver { from: Number, to: Number },
    Write(Number),
    Saved(Number),
    Fetch(Number),
    Restored(Number),
    Fail(Number),
    Damage { from: Number, to: Number, place: u8, burst: Burst },
    Lose { from: Number, to: Number, place: u8 },
    Trip(Number),
    Unsure(Number),
}

/// Refusals 8 and 9; kinds above `highest_kind` are unknown.
pub fn decode(record: &[u8], highest_kind: u8) -> Result<Step, u8> {
    let &[kind, a, b, p, q_high, q_low] = record else {
        return Err(8);
    };
    if kind == 0 || kind == WITHDRAWN_KIND || kind > highest_kind {
        return Err(8);
    }
    let q = u16::from_be_bytes([q_high, q_low]);
    let (names_b, names_p, names_q) = fields_named(kind);
    if (!names_b && b != 0) || (!names_p && p != 0) || (!names_q && q != 0) {
        return Err(9);
    }
    step_of_fields(kind, usize::from(a), b, p, q).ok_or(8)
}

/// Whether a kind names b, p and q. All kinds name a.
pub fn fields_named(kind: u8) -> (bool, bool, bool) {
    match kind {
        1 | 11 => (true, true, true),
        2 => (false, true, true),
        4 => (true, false, false),
        12 => (true, true, false),
        _ => (false, false, false),
    }
}

/// The cabinet that a damage's b names, and the place that its p names.
pub(crate) fn line_end_and_place(b: u8, p: u8) -> (Number, u8) {
    (usize::from(b & 0x0F), p & 0x1F)
}

fn step_of_fields(kind: u8, a: Number, b: u8, p: u8, q: u16) -> Option<Step> {
    let to = usize::from(b);
    Some(match kind {
        1 => Step::Send { from: a, to, ends: p, amount: q },
        2 => Step::Note { at: a, octet: p, value: q },
        3 => Step::Begin(a),
        4 => Step::Deliver { from: a, to },
        5 => Step::Write(a),
        6 => Step::Saved(a),
        7 => Step::Fetch(a),
        8 => Step::Restored(a),
        10 => Step::Fail(a),
        11 => {
            let (to, place) = line_end_and_place(b, p);
            Step::Damage { from: a, to, place, burst: Burst::of_fields(b, p, q) }
        }
        12 => Step::Lose { from: a, to, place: p },
        13 => Step::Trip(a),
        14 => Step::Unsure(a),
        _ => return None,
    })
}

impl Step {
    fn cabinets(&self) -> Vec<Number> {
        match *self {
            Step::Send { from, to, .. }
            | Step::Deliver { from, to }
            | Step::Damage { from, to, .. }
            | Step::Lose { from, to, .. } => vec![from, to],
            Step::Note { at: a, .. }
            | Step::Begin(a)
            | Step::Write(a)
            | Step::Saved(a)
            | Step::Fetch(a)
            | Step::Restored(a)
            | Step::Fail(a)
            | Step::Trip(a)
            | Step::Unsure(a) => vec![a],
        }
    }

    /// The cabinet that refusal 12 asks for, if any.
    fn must_not_have_failed(&self) -> Option<Number> {
        match *self {
            Step::Deliver { to, .. } => Some(to),
            Step::Saved(_) | Step::Damage { .. } => None,
            _ => self.cabinets().first().copied(),
        }
    }
}

// ---------------------------------------------------------------- answers

/// What a taken step was, for the counts.
#[derive(Clone, Copy, PartialEq, Eq, Debug)]
pub enum Event {
    Nothing,
    /// An amount was added to this booking.
    Added(Account),
    Commit,
    RecoveryEnd {
        save_passed_over: bool,
    },
    LinkFault(Sign),
    /// The last report came, and the coordinator went back to its old version.
    Decision {
        by: Number,
    },
    Crash(Crash),
}

/// What told a link fault.
#[derive(Clone, Copy, PartialEq, Eq, PartialOrd, Ord, Debug)]
pub enum Sign {
    /// That of a checkp, unequal to the receiver's.
    CheckValue,
    /// That of a normal packet.
    OwnCheck,
    /// An invalid packet, or a normal one in a state that takes none.
    WrongPacket,
}

#[derive(Clone, Copy, PartialEq, Eq, Debug)]
pub struct Outcome {
    pub answer: u8,
    pub event: Event,
}

/// Why the group is to crash; nothing has been changed yet.
#[derive(Clone, Copy, PartialEq, Eq, PartialOrd, Ord, Debug)]
pub enum Crash {
    /// One with no partner, or whose partner is not present.
    StoreFailed,
    FailInRecovery,
    DamageInRecovery,
    LossInRecovery,
    PlacesMet,
    CutOffByFail,
    CutOffByLinkFault,
    StoreTripped,
    TripInRecovery,
    /// The tripping one is coordinator.
    CutOffByTrip,
}

// ---------------------------------------------------------------- looking at a group

impl Group {
    pub fn packet_version(&self) -> PacketVersion {
        self.packet_version
    }

    pub fn size(&self) -> usize {
        self.cabinets.len()
    }

    pub fn numbers(&self) -> RangeInclusive<Number> {
        1..=self.size()
    }

    pub fn cabinet(&self, number: Number) -> &Cabinet {
        &self.cabinets[number - 1]
    }

    pub fn line(&self, from: Number, to: Number) -> &Line {
        &self.lines[from - 1][to - 1]
    }

    pub fn crashed(&self) -> bool {
        self.cabinets.iter().any(|c| c.state == State::Crashed)
    }

    pub fn recovery_under_way(&self) -> bool {
        self.cabinets.iter().any(|c| c.state.in_recovery())
    }

    /// The sender's check on this line, and the receiver's.
    pub fn checks(&self, from: Number, to: Number) -> [Check; 2] {
        [self.cabinet(from).sent_check[to - 1], self.cabinet(to).taken_check[from - 1]]
    }

    pub fn working_cabinets(&self) -> BTreeSet<Number> {
        self.numbers().filter(|&c| self.cabinet(c).working()).collect()
    }

    pub fn link_in_file(&self, a: Number, b: Number) -> bool {
        self.file_links.contains(&link_between(a, b))
    }

    /// Who serves this cabinet: its home in the file if that store is present, else its partner.
    pub fn home(&self, cabinet: Number) -> Number {
        let first = self.cabinet(cabinet).first_home;
        match self.cabinet(first).partner {
            Some(partner) if !self.cabinet(first).present() => partner,
            _ => first,
        }
    }

    /// Those that keep slots of this cabinet.
    pub fn stores_of(&self, cabinet: Number) -> Vec<Number> {
        let first = self.cabinet(cabinet).first_home;
        [Some(first), self.cabinet(first).partner].into_iter().flatten().collect()
    }

    /// The partner of this store, if it is present.
    pub fn present_partner(&self, store: Number) -> Option<Number> {
        self.cabinet(store).partner.filter(|&partner| self.cabinet(partner).present())
    }

    /// Whether without this cabinet some slots would be left at no store.
    pub fn is_the_store_left(&self, cabinet: Number) -> bool {
        self.cabinet(cabinet).store && self.present_partner(cabinet).is_none()
    }

    /// Why the group would crash if this cabinet failed now, if it would.
    pub fn crash_by_failing(&self, cabinet: Number) -> Option<Crash> {
        if self.is_the_store_left(cabinet) {
            Some(Crash::StoreFailed)
        } else if self.recovery_under_way() {
            Some(Crash::FailInRecovery)
        } else {
            self.joins_others(cabinet).then_some(Crash::CutOffByFail)
        }
    }

    /// Why the group would crash if this cabinet tripped now, if it would.
    pub fn crash_by_tripping(&self, cabinet: Number) -> Option<Crash> {
        let leads = self.cabinet(cabinet).coordinator == cabinet;
        if self.trip_is_a_fail(cabinet) {
            self.crash_by_failing(cabinet)
        } else if self.is_the_store_left(cabinet) {
            Some(Crash::StoreTripped)
        } else if self.recovery_under_way() {
            Some(Crash::TripInRecovery)
        } else {
            (leads && self.joins_others(cabinet)).then_some(Crash::CutOffByTrip)
        }
    }

    /// Whether the next trip of this cabinet is the third with no commit between.
    pub fn trip_is_a_fail(&self, cabinet: Number) -> bool {
        self.cabinet(cabinet).trips == TRIPS_BEFORE_A_FAIL
    }

    /// Whether some other working cabinets are joined only through this one.
    pub fn joins_others(&self, cabinet: Number) -> bool {
        let mut others = self.working_cabinets();
        others.remove(&cabinet);
        !connected(&others, &self.sound_links)
    }

    /// Whether the group would crash if this link were found faulty now.
    pub fn crashes_without_link(&self, a: Number, b: Number) -> bool {
        let mut links = self.sound_links.clone();
        links.remove(&link_between(a, b));
        !connected(&self.working_cabinets(), &links)
    }

    fn cabinet_mut(&mut self, number: Number) -> &mut Cabinet {
        &mut self.cabinets[number - 1]
    }

    /// As it is when the oldest packet of this line is taken off, and nothing else is done.
    #[cfg(test)]
    pub(crate) fn without_oldest(mut self, from: Number, to: Number) -> Group {
        self.line_mut(from, to).packets.pop_front();
        self
    }

    fn line_mut(&mut self, from: Number, to: Number) -> &mut Line {
        &mut self.lines[from - 1][to - 1]
    }
}

// ---------------------------------------------------------------- refusals 10 to 20

impl Group {
    /// The first refusal of a decoded step, if any.
    pub fn refusal(&self, step: &Step) -> Option<u8> {
        if self.crashed() {
            return Some(10);
        }
        if !step.cabinets().iter().all(|c| self.numbers().contains(c)) {
            return Some(11);
        }
        if step.must_not_have_failed().is_some_and(|c| !self.cabinet(c).working()) {
            return Some(12);
        }
        self.refusal_of_kind(step)
    }

    fn refusal_of_kind(&self, step: &Step) -> Option<u8> {
        match *step {
            Step::Send { from, to, ends, amount } => self.send_refusal(from, to, ends, amount),
            Step::Note { at, octet, value } => self.note_refusal(at, octet, value),
            Step::Begin(a) => self.begin_refusal(a),
            Step::Deliver { from, to } => self.deliver_refusal(from, to),
            Step::Write(a) => self.write_refusal(a),
            Step::Saved(a) => self.saved_refusal(a),
            Step::Fetch(a) => self.fetch_refusal(a),
            Step::Restored(a) => self.restored_refusal(a),
            Step::Unsure(a) => self.unsure_refusal(a),
            Step::Fail(_) | Step::Trip(_) => None,
            Step::Damage { from, to, place, burst } => self.damage_refusal(from, to, place, burst),
            Step::Lose { from, to, place } => self.loss_refusal(from, to, place),
        }
    }

    fn send_refusal(&self, from: Number, to: Number, ends: u8, amount: u16) -> Option<u8> {
        let sender = self.cabinet(from);
        let line = self.line(from, to);
        let ends = Ends::of(ends);
        first_refusal(&[
            (13, !sender.uses_line_to(to)),
            (14, sender.state != State::Normal),
            (15, amount == 0 || ends.is_none()),
            (16, ends.is_some_and(|ends| amount > sender.booking(ends.sending()))),
            (17, ends.is_some_and(|ends| !line.has_place_for(ends.party()))),
        ])
    }

    fn note_refusal(&self, at: Number, octet: u8, value: u16) -> Option<u8> {
        first_refusal(&[
            (14, self.cabinet(at).state != State::Normal),
            (15, !(FIRST_NOTE..=LAST_NOTE).contains(&octet) || value > 255),
        ])
    }

    fn begin_refusal(&self, a: Number) -> Option<u8> {
        let cabinet = self.cabinet(a);
        first_refusal(&[(14, cabinet.state != State::Normal || cabinet.coordinator() != a)])
    }

    fn deliver_refusal(&self, from: Number, to: Number) -> Option<u8> {
        first_refusal(&[
            (13, !self.link_in_file(from, to)),
            (18, self.line(from, to).packets.is_empty()),
        ])
    }

    fn write_refusal(&self, a: Number) -> Option<u8> {
        let cabinet = self.cabinet(a);
        first_refusal(&[
            (14, cabinet.state != State::Checkpointing),
            (19, self.cabinet(self.home(a)).state.in_recovery()),
        ])
    }

    fn saved_refusal(&self, a: Number) -> Option<u8> {
        let home = self.cabinet(self.home(a));
        let saving = self.cabinet(home.coordinator()).takes_reports();
        first_refusal(&[(19, !home.reports_owed.contains(&a) || !saving)])
    }

    fn fetch_refusal(&self, a: Number) -> Option<u8> {
        let home = self.cabinet(self.home(a)).state;
        first_refusal(&[
            (14, self.cabinet(a).state != State::Recovering),
            (19, !matches!(home, State::Recovering | State::Recovered)),
        ])
    }

    fn restored_refusal(&self, a: Number) -> Option<u8> {
        let cabinet = self.cabinet(a);
        let coordinator = self.cabinet(cabinet.coordinator());
        let listening = matches!(coordinator.state, State::Recovering | State::Recovered);
        first_refusal(&[
            (14, cabinet.state != State::Recovered),
            (19, coordinator.noted.restored.contains(&a)),
            (19, !cabinet.has_all_neighbours(&cabinet.noted.faults_heard)),
            (19, !listening),
        ])
    }

    fn unsure_refusal(&self, a: Number) -> Option<u8> {
        let cabinet = self.cabinet(a);
        let coordinator = self.cabinet(cabinet.coordinator());
        first_refusal(&[
            (14, !cabinet.waits() || !cabinet.lost_its_coordinator()),
            (19, coordinator.noted.unsure.contains(&a) || coordinator.state != State::Error),
        ])
    }

    /// Whether every working cabinet, a tripped one too, is in error with unknown version.
    pub fn all_wait(&self) -> bool {
        self.cabinets.iter().filter(|c| c.working()).all(Cabinet::waits)
    }

    fn damage_refusal(&self, from: Number, to: Number, place: u8, burst: Burst) -> Option<u8> {
        let line = self.line(from, to);
        let packet = line.packets.get(usize::from(place));
        let normal = matches!(packet, Some(Packet::Normal(_)));
        first_refusal(&[
            (13, !self.link_in_file(from, to)),
            (18, packet.is_none()),
            (15, burst.refused_in(self.packet_version)),
            (20, normal && line.hurt),
        ])
    }

    fn loss_refusal(&self, from: Number, to: Number, place: u8) -> Option<u8> {
        let line = self.line(from, to);
        let packet = line.packets.get(usize::from(place));
        first_refusal(&[
            (13, !self.link_in_file(from, to)),
            (18, !matches!(packet, Some(Packet::Normal(_)))),
            (20, line.hurt),
        ])
    }
}

fn first_refusal(checks: &[(u8, bool)]) -> Option<u8> {
    let found = checks.iter().find(|(_, applies)| *applies);
    found.map(|&(answer, _)| answer)
}

// ---------------------------------------------------------------- taking steps

impl Group {
    /// One step from its record; kinds above `highest_kind` are unknown.
    pub fn step(&mut self, record: &[u8], highest_kind: u8) -> Outcome {
        let refused = |answer| Outcome { answer, event: Event::Nothing };
        let step = match decode(record, highest_kind) {
            Ok(step) => step,
            Err(answer) => return refused(answer),
        };
        if let Some(answer) = self.refusal(&step) {
            return refused(answer);
        }
        let recovering = self.recovering_cabinets();
        match self.perform(step) {
            Ok(event) => {
                self.settle(&recovering, event);
                Outcome { answer: TAKEN, event }
            }
            Err(cause) => {
                self.crash();
                Outcome { answer: CRASHED, event: Event::Crash(cause) }
            }
        }
    }

    fn perform(&mut self, step: Step) -> Result<Event, Crash> {
        match step {
            Step::Send { from, to, ends, amount } => {
                let ends = Ends::of(ends).expect("a send that names no bookings is refused");
                self.send(from, to, ends, amount);
            }
            Step::Note { at, octet, value } => {
                self.cabinet_mut(at).image[usize::from(octet)] = value as u8;
            }
            Step::Begin(a) => self.begin_saving(a),
            Step::Deliver { from, to } => return self.deliver(from, to),
            Step::Write(a) => self.write_piece(a),
            Step::Saved(a) => return Ok(self.report_saved(a)),
            Step::Fetch(a) => self.fetch_piece(a),
            Step::Restored(a) => return Ok(self.report_restored(a)),
            Step::Fail(a) => self.fail(a)?,
            Step::Damage { from, to, place, burst } => {
                self.damage(from, to, usize::from(place), burst)?;
            }
            Step::Lose { from, to, place } => self.lose(from, to, usize::from(place))?,
            Step::Trip(a) => self.trip(a)?,
            Step::Unsure(a) => return Ok(self.report_unsure(a)),
        }
        Ok(Event::Nothing)
    }

    fn crash(&mut self) {
        for cabinet in self.cabinets.iter_mut().filter(|c| c.working()) {
            cabinet.state = State::Crashed;
        }
    }

    fn put_on_all_lines(&mut self, from: Number, packet: Packet) {
        for to in self.cabinet(from).neighbours() {
            self.line_mut(from, to).put(packet);
        }
    }

    fn send(&mut self, from: Number, to: Number, ends: Ends, amount: u16) {
        let charge = Charge::new(self.packet_version, ends.receiving(), amount);
        let sender = self.cabinet_mut(from);
        sender.set_booking(ends.sending(), sender.booking(ends.sending()) - amount);
        let check = &mut sender.sent_check[to - 1];
        *check = check.and(charge);
        self.line_mut(from, to).put(Packet::Normal(charge));
    }
}

// ---------------------------------------------------------------- receiving

impl Group {
    /// A packet whose delivery crashes the group stays in its line.
    fn deliver(&mut self, from: Number, to: Number) -> Result<Event, Crash> {
        let oldest = self.line(from, to).packets.front().copied();
        let event = match oldest {
            Some(packet) if self.cabinet(to).uses_line_to(from) => {
                self.receive(from, to, packet)?
            }
            _ => Event::Nothing,
        };
        self.line_mut(from, to).packets.pop_front();
        Ok(event)
    }

    fn receive(&mut self, from: Number, to: Number, packet: Packet) -> Result<Event, Crash> {
        if self.cabinet(to).state.in_recovery() {
            self.receive_in_recovery(from, to, packet)?;
            Ok(Event::Nothing)
        } else {
            self.receive_in_operation(from, to, packet)
        }
    }

    /// In normal and the three saving states.
    fn receive_in_operation(
        &mut self,
        from: Number,
        to: Number,
        packet: Packet,
    ) -> Result<Event, Crash> {
        let state = self.cabinet(to).state;
        match packet {
            Packet::Normal(charge) if self.accepts_normal(from, to) => {
                return self.receive_normal(from, to, charge);
            }
            Packet::Normal(_) | Packet::Invalid => {
                return self.find_link_fault(from, to, Sign::WrongPacket);
            }
            Packet::Checkp(sent) if matches!(state, State::Normal | State::CheckpBegin) => {
                return self.receive_checkp(from, to, sent);
            }
            Packet::Resume if state == State::Checkpointed => self.resume_after_save(from, to),
            Packet::Fault(place) => {
                self.enter_error(to, place);
                self.cabinet_mut(to).noted.faults_heard.insert(from);
            }
            Packet::Checkp(_) | Packet::Resume | Packet::Recover(_) => {}
        }
        Ok(Event::Nothing)
    }

    fn accepts_normal(&self, from: Number, to: Number) -> bool {
        let receiver = self.cabinet(to);
        match receiver.state {
            State::Normal => true,
            State::CheckpBegin => !receiver.noted.checkps_come.contains(&from),
            _ => false,
        }
    }

    fn receive_normal(&mut self, from: Number, to: Number, charge: Charge) -> Result<Event, Crash> {
        if !charge.fits() {
            return self.find_link_fault(from, to, Sign::OwnCheck);
        }
        self.add_amount(from, to, charge);
        Ok(Event::Added(charge.account))
    }

    fn add_amount(&mut self, from: Number, to: Number, charge: Charge) {
        let Charge { account, amount, .. } = charge;
        let receiver = self.cabinet_mut(to);
        receiver.set_booking(account, receiver.booking(account).wrapping_add(amount));
        let check = &mut receiver.taken_check[from - 1];
        *check = check.and(charge);
    }

    fn receive_in_recovery(
        &mut self,
        from: Number,
        to: Number,
        packet: Packet,
    ) -> Result<(), Crash> {
        let receiver = self.cabinet_mut(to);
        let heard = receiver.noted.faults_heard.contains(&from);
        match (packet, receiver.state) {
            (Packet::Fault(place), _) => {
                if receiver.trouble.map(|trouble| trouble.place) != Some(place) {
                    return Err(Crash::PlacesMet);
                }
                receiver.noted.faults_heard.insert(from);
            }
            (Packet::Recover(version), State::Error) if heard => {
                self.start_recovering(to, version);
            }
            (Packet::Resume, State::Recovered) if heard && receiver.coordinator() != to => {
                self.resume_after_recovery(to);
            }
            _ => {}
        }
        Ok(())
    }
}

// ---------------------------------------------------------------- saving

impl Group {
    /// The coordinator begins, or a cabinet in normal joins.
    fn begin_saving(&mut self, a: Number) {
        let cabinet = self.cabinet_mut(a);
        cabinet.state = State::CheckpBegin;
        cabinet.noted = Noted::default();
        for to in cabinet.neighbours() {
            let check = &mut self.cabinet_mut(a).sent_check[to - 1];
            let sent = std::mem::replace(check, Check::START);
            self.line_mut(a, to).put(Packet::Checkp(sent));
        }
        self.cut_when_all_checkps_came(a);
    }

    fn receive_checkp(&mut self, from: Number, to: Number, sent: Check) -> Result<Event, Crash> {
        if self.cabinet(to).taken_check[from - 1] != sent {
            return self.find_link_fault(from, to, Sign::CheckValue);
        }
        self.restart_receiver(from, to);
        if self.cabinet(to).state == State::Normal {
            self.begin_saving(to);
        }
        self.cabinet_mut(to).noted.checkps_come.insert(from);
        self.cut_when_all_checkps_came(to);
        Ok(Event::Nothing)
    }

    fn restart_receiver(&mut self, from: Number, to: Number) {
        self.cabinet_mut(to).taken_check[from - 1] = Check::START;
        self.line_mut(from, to).hurt = false;
    }

    fn cut_when_all_checkps_came(&mut self, a: Number) {
        let cabinet = self.cabinet_mut(a);
        if cabinet.has_all_neighbours(&cabinet.noted.checkps_come) {
            cabinet.state = State::Checkpointing;
        }
    }

    fn write_piece(&mut self, a: Number) {
        let cabinet = self.cabinet_mut(a);
        let slot = usize::from(1 - cabinet.version.number());
        let piece = piece_range(cabinet.noted.pieces_done);
        let image = cabinet.image;
        cabinet.noted.pieces_done += 1;
        let complete = cabinet.noted.pieces_done == PIECES;
        for store in self.stores_of(a) {
            if self.cabinet(store).present() {
                self.slots_at(store, a)[slot][piece.clone()].copy_from_slice(&image[piece.clone()]);
            }
        }
        if complete {
            self.finish_writing(a);
        }
    }

    fn finish_writing(&mut self, a: Number) {
        let cabinet = self.cabinet_mut(a);
        cabinet.state = State::Checkpointed;
        if cabinet.coordinator() != a {
            cabinet.version = Version::Unknown { old: cabinet.version.number() };
        }
        let home = self.home(a);
        self.cabinet_mut(home).reports_owed.insert(a);
    }

    fn report_saved(&mut self, a: Number) -> Event {
        let home_number = self.home(a);
        let home = self.cabinet_mut(home_number);
        home.reports_owed.remove(&a);
        let coordinator_number = home.coordinator();
        let coordinator = self.cabinet_mut(coordinator_number);
        coordinator.noted.saved.insert(a);
        if !coordinator.noted.saved.is_superset(&coordinator.cabinets_in_use) {
            return Event::Nothing;
        }
        self.commit(coordinator_number);
        Event::Commit
    }

    fn commit(&mut self, a: Number) {
        let cabinet = self.cabinet_mut(a);
        cabinet.version = Version::Known(1 - cabinet.version.number());
        cabinet.enter_normal();
        self.put_on_all_lines(a, Packet::Resume);
        self.cabinets.iter_mut().for_each(|cabinet| cabinet.trips = 0);
        self.history.unseen_commit_by = Some(a);
    }

    fn resume_after_save(&mut self, from: Number, to: Number) {
        let cabinet = self.cabinet_mut(to);
        if let Version::Unknown { old } = cabinet.version {
            cabinet.version = Version::Known(1 - old);
        }
        cabinet.enter_normal();
        for other in cabinet.neighbours() {
            if other != from {
                self.line_mut(to, other).put(Packet::Resume);
            }
        }
        self.history.unseen_commit_by = None;
    }
}

fn piece_range(piece: usize) -> Range<usize> {
    piece * PIECE_LENGTH..(piece + 1) * PIECE_LENGTH
}

// ---------------------------------------------------------------- failing and recovering

impl Group {
    fn fail(&mut self, a: Number) -> Result<(), Crash> {
        if let Some(cause) = self.crash_by_failing(a) {
            return Err(cause);
        }
        self.pass_reports_on(a);
        self.cabinet_mut(a).state = State::Failed;
        self.empty_lines_both_ways(a);
        self.alarm_neighbours(a, Place::Failed(a));
        Ok(())
    }

    fn trip(&mut self, a: Number) -> Result<(), Crash> {
        if self.trip_is_a_fail(a) {
            return self.fail(a);
        }
        if let Some(cause) = self.crash_by_tripping(a) {
            return Err(cause);
        }
        self.pass_reports_on(a);
        let cabinet = self.cabinet_mut(a);
        cabinet.trips += 1;
        cabinet.away = cabinet.store;
        cabinet.image = NO_IMAGE;
        cabinet.version = Version::Lost;
        self.empty_lines_both_ways(a);
        self.enter_error(a, Place::Tripped(a));
        self.alarm_neighbours(a, Place::Tripped(a));
        Ok(())
    }

    /// Of a store that leaves; if its partner enters error in this step, it forgets them then.
    fn pass_reports_on(&mut self, a: Number) {
        if let Some(partner) = self.present_partner(a) {
            let owed = std::mem::take(&mut self.cabinet_mut(a).reports_owed);
            self.cabinet_mut(partner).reports_owed.extend(owed);
        }
    }

    fn empty_lines_both_ways(&mut self, a: Number) {
        for other in self.numbers() {
            self.line_mut(a, other).packets.clear();
            self.line_mut(other, a).packets.clear();
        }
    }

    /// The neighbours enter error for a cabinet that failed or tripped.
    fn alarm_neighbours(&mut self, a: Number, place: Place) {
        for other in self.working_cabinets() {
            if self.cabinet(other).uses_line_to(a) {
                self.enter_error(other, place);
            }
        }
        if self.history.unseen_commit_by == Some(a) {
            self.history = History { unseen_commit_by: None, passing_over: true };
        }
    }

    fn find_link_fault(&mut self, from: Number, to: Number, sign: Sign) -> Result<Event, Crash> {
        if self.crashes_without_link(from, to) {
            return Err(Crash::CutOffByLinkFault);
        }
        let (low, high) = link_between(from, to);
        self.sound_links.remove(&(low, high));
        self.enter_error(to, Place::Link(low, high));
        Ok(Event::LinkFault(sign))
    }

    fn enter_error(&mut self, a: Number, place: Place) {
        for other in self.numbers() {
            self.line_mut(a, other).packets.clear();
        }
        let cabinet = self.cabinet_mut(a);
        let coordinator_before = cabinet.coordinator;
        cabinet.trouble = Some(Trouble {
            place,
            coordinator_before,
            state_before: cabinet.state,
            knew: cabinet.version.known(),
        });
        cabinet.strike(a, place);
        if place.cabinet() == Some(coordinator_before) {
            cabinet.coordinator = cabinet.next_in_use_after(coordinator_before);
        }
        cabinet.noted = Noted::default();
        cabinet.reports_owed.clear();
        cabinet.state = State::Error;
        let version = cabinet.version;
        self.put_on_all_lines(a, Packet::Fault(place));
        if let Version::Known(version) = version {
            self.start_recovering(a, version);
        }
    }

    fn start_recovering(&mut self, a: Number, version: u8) {
        let cabinet = self.cabinet_mut(a);
        cabinet.version = Version::Known(version);
        cabinet.state = State::Recovering;
        self.put_on_all_lines(a, Packet::Recover(version));
    }

    fn report_unsure(&mut self, a: Number) -> Event {
        let coordinator_number = self.cabinet(a).coordinator();
        let coordinator = self.cabinet_mut(coordinator_number);
        coordinator.noted.unsure.insert(a);
        if !coordinator.noted.unsure.is_superset(&coordinator.cabinets_in_use) {
            return Event::Nothing;
        }
        let old = coordinator.version.number();
        self.start_recovering(coordinator_number, old);
        Event::Decision { by: coordinator_number }
    }

    fn fetch_piece(&mut self, a: Number) {
        let home = self.cabinet(self.home(a));
        let slot = *self.slot(a, home.version.number());
        let cabinet = self.cabinet_mut(a);
        let piece = piece_range(cabinet.noted.pieces_done);
        cabinet.image[piece.clone()].copy_from_slice(&slot[piece]);
        cabinet.noted.pieces_done += 1;
        if cabinet.noted.pieces_done == PIECES {
            self.enter_recovered(a);
        }
    }

    fn enter_recovered(&mut self, a: Number) {
        let cabinet = self.cabinet_mut(a);
        cabinet.state = State::Recovered;
        cabinet.sent_check.fill(Check::START);
        for other in self.numbers() {
            self.restart_receiver(other, a);
        }
        self.history.unseen_commit_by = None;
    }

    fn report_restored(&mut self, a: Number) -> Event {
        let coordinator_number = self.cabinet(a).coordinator();
        let coordinator = self.cabinet_mut(coordinator_number);
        coordinator.noted.restored.insert(a);
        if self.cabinet(a).away {
            self.come_back(a);
        }
        let coordinator = self.cabinet(coordinator_number);
        let all_in = coordinator.noted.restored.is_superset(&coordinator.cabinets_in_use);
        if coordinator.state != State::Recovered || !all_in {
            return Event::Nothing;
        }
        self.resume_after_recovery(coordinator_number);
        self.keep_images_left_behind(coordinator_number);
        let save_passed_over = std::mem::take(&mut self.history.passing_over);
        Event::RecoveryEnd { save_passed_over }
    }

    /// A store that tripped has all of the pair from its partner, and is home again.
    fn come_back(&mut self, a: Number) {
        let partner = self.cabinet(a).partner.expect("the trip of a store alone is a crash");
        self.kept[a - 1] = self.kept[partner - 1].clone();
        self.cabinet_mut(a).away = false;
        let own: Vec<Number> =
            self.numbers().filter(|&number| self.cabinet(number).first_home == a).collect();
        self.cabinet_mut(partner).reports_owed.retain(|number| !own.contains(number));
    }

    fn resume_after_recovery(&mut self, a: Number) {
        self.cabinet_mut(a).enter_normal();
        self.put_on_all_lines(a, Packet::Resume);
    }

    /// At a recovery's end: whoever failed before it has an image in the save restored.
    fn keep_images_left_behind(&mut self, coordinator: Number) {
        let restored = self.cabinet(coordinator).version.number();
        for number in self.numbers() {
            let image = *self.slot(number, restored);
            let cabinet = self.cabinet_mut(number);
            if !cabinet.working() {
                cabinet.left_behind.get_or_insert(image);
            }
        }
    }

    fn damage(
        &mut self,
        from: Number,
        to: Number,
        place: usize,
        burst: Burst,
    ) -> Result<(), Crash> {
        if self.recovery_under_way() {
            return Err(Crash::DamageInRecovery);
        }
        let line = self.line_mut(from, to);
        if let Packet::Normal(charge) = &mut line.packets[place] {
            *charge = charge.hit_by(burst);
            line.hurt = true;
        } else {
            line.packets[place] = Packet::Invalid;
        }
        Ok(())
    }

    /// The packets behind the lost one move up.
    fn lose(&mut self, from: Number, to: Number, place: usize) -> Result<(), Crash> {
        if self.recovery_under_way() {
            return Err(Crash::LossInRecovery);
        }
        let line = self.line_mut(from, to);
        line.packets.remove(place);
        line.hurt = true;
        Ok(())
    }
}

// ---------------------------------------------------------------- the word that settled it

const GROUP_CRASHED: u8 = 10;
const NO_WORD_YET: u8 = 24;

impl Group {
    /// The word of the latest recovery that has one, or the refusal.
    pub fn word(&self) -> Result<Word, u8> {
        if self.crashed() {
            return Err(GROUP_CRASHED);
        }
        self.settling.word.ok_or(NO_WORD_YET)
    }

    pub(crate) fn recovering_cabinets(&self) -> BTreeSet<Number> {
        self.numbers().filter(|&a| self.cabinet(a).state == State::Recovering).collect()
    }

    /// After a step, before which these were recovering. Looking at it as a whole finds the
    /// lowest, in whatever order its cabinets went on.
    fn settle(&mut self, recovering_before: &BTreeSet<Number>, event: Event) {
        if !self.settling.open {
            let now = self.recovering_cabinets();
            if let Some(&first) = now.difference(recovering_before).next() {
                self.settling = Settling { word: Some(self.word_of(first)), open: true };
            }
        }
        if matches!(event, Event::RecoveryEnd { .. }) {
            self.settling.open = false;
        }
    }

    fn word_of(&self, cabinet: Number) -> Word {
        let trouble = self.cabinet(cabinet).trouble.expect("recovering comes after error");
        Word { cabinet, reason: trouble.reason(cabinet) }
    }
}

// ---------------------------------------------------------------- what points keep and set

impl Group {
    /// Every working cabinet in normal and every line empty.
    pub fn quiet(&self) -> bool {
        let idle = |cabinet: &Cabinet| !cabinet.working() || cabinet.state == State::Normal;
        let empty = |line: &Line| line.packets.is_empty();
        self.cabinets.iter().all(idle) && self.lines.iter().flatten().all(empty)
    }

    /// At the home that serves the cabinet now.
    pub fn slot(&self, number: Number, version: u8) -> &Image {
        self.slot_at(self.home(number), number, version)
    }

    /// At one of the stores that keep slots of this cabinet.
    pub fn slot_at(&self, store: Number, number: Number, version: u8) -> &Image {
        &self.kept[store - 1][&number][usize::from(version)]
    }

    fn slots_at(&mut self, store: Number, number: Number) -> &mut [Image; 2] {
        self.kept[store - 1].get_mut(&number).expect("a store of its pair keeps each cabinet")
    }

    /// The image of a working cabinet, or the one that a failed cabinet left behind.
    pub fn image(&self, number: Number) -> Option<Image> {
        let cabinet = self.cabinet(number);
        if cabinet.working() {
            Some(cabinet.image)
        } else {
            cabinet.left_behind
        }
    }

    /// The image in the committed version, or the one that a failed cabinet left behind.
    pub fn committed_image(&self, number: Number) -> Option<Image> {
        let cabinet = self.cabinet(number);
        if cabinet.working() {
            Some(*self.slot(number, cabinet.version.number()))
        } else {
            cabinet.left_behind
        }
    }

    /// Every image, and both slots of every cabinet at both stores, failed ones too.
    pub(crate) fn set_images(&mut self, images: &[Image]) {
        for (number, &image) in (1..).zip(images) {
            for store in self.stores_of(number) {
                *self.slots_at(store, number) = [image; 2];
            }
            let cabinet = self.cabinet_mut(number);
            if cabinet.working() {
                cabinet.image = image;
            } else {
                cabinet.left_behind = Some(image);
            }
        }
        self.history.unseen_commit_by = None;
    }
}

// ---------------------------------------------------------------- but for the workshop's amounts

/// The image with nothing booked by the workshop.
pub(crate) fn without_workshop(mut image: Image) -> Image {
    image[Account::Workshop.place_in_image()].fill(0);
    image
}

impl Check {
    fn count_alone(self) -> Check {
        Check { count: self.count, ..Check::START }
    }
}

impl Packet {
    /// A packet of the workshop has no amount, and of its own check only whether it fits; a checkp
    /// has its count alone.
    fn but_for_amounts(self) -> Packet {
        match self {
            Packet::Normal(charge) if charge.account == Account::Workshop => {
                let own_check = charge.own_check.map(|_| u16::from(charge.fits()));
                Packet::Normal(Charge { amount: 0, own_check, ..charge })
            }
            Packet::Checkp(check) => Packet::Checkp(check.count_alone()),
            other => other,
        }
    }
}

impl Cabinet {
    fn but_for_amounts(&self) -> Cabinet {
        let counts = |checks: &[Check]| checks.iter().map(|check| check.count_alone()).collect();
        Cabinet {
            image: without_workshop(self.image),
            left_behind: self.left_behind.map(without_workshop),
            sent_check: counts(&self.sent_check),
            taken_check: counts(&self.taken_check),
            ..self.clone()
        }
    }
}

impl Group {
    /// All of the group but the workshop's bookings, the amounts of its packets and what runs
    /// over them.
    pub fn but_for_amounts(&self) -> Group {
        let mut group = self.clone();
        group.cabinets = self.cabinets.iter().map(Cabinet::but_for_amounts).collect();
        for slots in group.kept.iter_mut().flat_map(BTreeMap::values_mut) {
            *slots = slots.map(without_workshop);
        }
        for packet in group.lines.iter_mut().flatten().flat_map(|line| &mut line.packets) {
            *packet = packet.but_for_amounts();
        }
        group
    }
}

// ---------------------------------------------------------------- tests

#[cfg(test)]
mod tests {
    use super::*;

    use Account::{Workshop, A, B};

    /// Cabinets in a row, each linked to the next; the last one is the store of all.
    fn group_file_of_all(bookings: &[[u16; 3]]) -> Vec<u8> {
        let n = bookings.len();
        let link_table = 10 + 9 * n;
        let header = [n, n - 1, 10, link_table, link_table + 2 * (n - 1)];
        let mut file: Vec<u8> =
            header.iter().flat_map(|&number| (number as u16).to_be_bytes()).collect();
        for (index, booked) in bookings.iter().enumerate() {
            file.extend_from_slice(&[n as u8, u8::from(index + 1 == n)]);
            file.extend(booked.iter().flat_map(|booking| booking.to_be_bytes()));
            file.push(0);
        }
        for low in 1..n as u8 {
            file.extend_from_slice(&[low, low + 1]);
        }
        file
    }

    /// With nothing booked by the workshop.
    fn group_file_of_both(bookings: &[[u16; 2]]) -> Vec<u8> {
        let all: Vec<[u16; 3]> = bookings.iter().map(|&[a, b]| [a, b, 0]).collect();
        group_file_of_all(&all)
    }

    /// With nothing booked at any outlet B.
    fn group_file(bookings: &[u16]) -> Vec<u8> {
        let both: Vec<[u16; 2]> = bookings.iter().map(|&booking| [booking, 0]).collect();
        group_file_of_both(&both)
    }

    fn loaded(file: &[u8]) -> Group {
        load(file).unwrap_or_else(|refusal| panic!("load {refusal}"))
    }

    fn group(bookings: &[u16]) -> Group {
        loaded(&group_file(bookings))
    }

    fn group_of_both(bookings: &[[u16; 2]]) -> Group {
        loaded(&group_file_of_both(bookings))
    }

    fn group_of_all(bookings: &[[u16; 3]]) -> Group {
        loaded(&group_file_of_all(bookings))
    }

    fn all_bookings(group: &Group) -> Vec<[u16; 3]> {
        group.numbers().map(|number| group.cabinet(number).bookings()).collect()
    }

    /// Those of the buses.
    fn bookings(group: &Group) -> Vec<[u16; 2]> {
        all_bookings(group).into_iter().map(|[a, b, _]| [a, b]).collect()
    }

    fn answers(group: &mut Group, records: &[Record]) -> Vec<u8> {
        records.iter().map(|record| group.step(record, KINDS).answer).collect()
    }

    type Record = [u8; 6];

    fn one(kind: u8, a: u8) -> Record {
        [kind, a, 0, 0, 0, 0]
    }

    fn send(a: u8, b: u8, amount: u8) -> Record {
        [1, a, b, 0, 0, amount]
    }

    /// A send from 1 to 2 with the outlets that p names.
    fn send_by(p: u8, amount: u16) -> Record {
        let [high, low] = amount.to_be_bytes();
        [1, 1, 2, p, high, low]
    }

    fn note(octet: u8) -> Record {
        [2, 1, 0, octet, 0, 7]
    }

    fn deliver(a: u8, b: u8) -> Record {
        [4, a, b, 0, 0, 0]
    }

    /// Two cabinets save as far as the commit, whose resume stays in the line.
    fn commit_of_two(group: &mut Group) {
        let records = [
            one(3, 1),
            deliver(1, 2),
            deliver(2, 1),
            one(5, 1),
            one(5, 1),
            one(5, 1),
            one(5, 1),
            one(5, 2),
            one(5, 2),
            one(5, 2),
            one(5, 2),
            one(6, 1),
        ];
        assert_eq!(answers(group, &records), [0; 12]);
        assert_eq!(group.step(&one(6, 2), KINDS).event, Event::Commit);
    }

    #[test]
    fn check_values_agree_with_the_published_ones() {
        assert_eq!(crc_octets(CRC_START, b""), 0xFFFF);
        assert_eq!(crc_octets(CRC_START, b"123456789"), 0x29B1);
    }

    #[test]
    fn packets_are_counted_modulo_65536() {
        let charge = Charge::new(PacketVersion::One, A, 1);
        let checks = std::iter::successors(Some(Check::START), |check| Some(check.and(charge)));
        let counts: Vec<u16> = checks.map(|check| check.count).take(65_538).collect();
        assert_eq!(counts[..3], [0, 1, 2]);
        assert_eq!(counts[65_535..], [65_535, 0, 1]);
    }

    #[test]
    fn eight_cabinets_load_and_nine_do_not() {
        assert!(load(&group_file(&[1; 8])).is_ok());
        assert_eq!(load(&group_file(&[1; 9])).err(), Some(2));
    }

    #[test]
    fn the_total_may_reach_65535() {
        assert!(load(&group_file(&[65_000, 535])).is_ok());
        assert_eq!(load(&group_file(&[65_000, 536])).err(), Some(7));
        assert!(load(&group_file_of_both(&[[65_000, 300], [200, 35]])).is_ok());
        assert_eq!(load(&group_file_of_both(&[[65_000, 300], [200, 36]])).err(), Some(7));
        assert!(load(&group_file_of_both(&[[0, 65_535], [0, 0]])).is_ok());
        assert_eq!(load(&group_file_of_both(&[[1, 65_535], [0, 0]])).err(), Some(7));
    }

    #[test]
    fn each_partys_total_may_reach_65535() {
        let load = |bookings: &[[u16; 3]]| load(&group_file_of_all(bookings)).err();
        assert_eq!(load(&[[65_000, 300, 65_534], [200, 35, 1]]), None);
        assert_eq!(load(&[[0, 0, 65_535], [0, 0, 1]]), Some(7));
        assert_eq!(load(&[[0, 65_535, 9], [1, 0, 9]]), Some(7));
        assert_eq!(load(&[[0, 65_535, 65_535], [1, 0, 1]]), Some(7));
    }

    #[test]
    fn a_starting_image_has_all_bookings_in_front() {
        let group = group_of_all(&[[0x0102, 0x0304, 0x0506], [5, 6, 7]]);
        let image = group.cabinet(1).image;
        assert_eq!(image[..7], [1, 2, 3, 4, 5, 6, 0]);
        assert_eq!(*group.slot(1, 0), image);
        assert_eq!(*group.slot(1, 1), [0; 32]);
    }

    #[test]
    fn entries_of_four_six_or_eight_octets_are_refused() {
        let one_outlet = [0, 2, 0, 1, 0, 10, 0, 18, 0, 20, 2, 0, 0, 100, 2, 1, 0, 50, 1, 2];
        assert_eq!(load(&one_outlet).err(), Some(3));
        let two_outlets =
            [0, 2, 0, 1, 0, 10, 0, 22, 0, 24, 2, 0, 0, 100, 0, 0, 2, 1, 0, 50, 0, 0, 1, 2];
        assert_eq!(load(&two_outlets).err(), Some(3));
        let no_partner = [
            0, 2, 0, 1, 0, 10, 0, 26, 0, 28, 2, 0, 0, 100, 0, 0, 0, 0, 2, 1, 0, 50, 0, 0, 0, 0, 1,
            2,
        ];
        assert_eq!(load(&no_partner).err(), Some(3));
    }

    #[test]
    fn a_load_refuses_by_the_lowest_number() {
        assert_eq!(load(&[0; 9]).err(), Some(1));
        let sound = group_file(&[1, 2, 3]);
        let changed = |offset: usize, value: u8| {
            let mut file = sound.clone();
            file[offset] = value;
            load(&file).err()
        };
        assert_eq!(changed(9, 0), Some(3));
        assert_eq!(changed(2, 0x80), Some(3));
        assert_eq!(changed(10, 1), Some(4));
        assert_eq!(changed(11, 2), Some(4));
        assert_eq!(changed(37, 2), Some(5));
        assert_eq!(changed(39, 1), None);
    }

    #[test]
    fn all_of_a_booking_may_be_sent_and_no_more() {
        assert_eq!(answers(&mut group(&[100, 50]), &[send(1, 2, 101), send(1, 2, 100)]), [16, 0]);
    }

    #[test]
    fn each_p_names_an_outlet_at_either_end() {
        let moved = |p: u8| {
            let mut group = group_of_both(&[[100, 200], [10, 20]]);
            assert_eq!(answers(&mut group, &[send_by(p, 7), deliver(1, 2)]), [0, 0]);
            bookings(&group)
        };
        assert_eq!(moved(0), [[93, 200], [17, 20]]);
        assert_eq!(moved(1), [[93, 200], [10, 27]]);
        assert_eq!(moved(2), [[100, 193], [17, 20]]);
        assert_eq!(moved(3), [[100, 193], [10, 27]]);
    }

    #[test]
    fn the_sending_outlet_alone_covers_a_send() {
        for (p, left) in [(0, [0, 200]), (1, [0, 200]), (2, [100, 0]), (3, [100, 0])] {
            let booking = if p < 2 { 100 } else { 200 };
            let mut group = group_of_both(&[[100, 200], [10, 20]]);
            let records = [send_by(p, booking + 1), send_by(p, booking)];
            assert_eq!(answers(&mut group, &records), [16, 0]);
            assert_eq!(bookings(&group), [left, [10, 20]]);
        }
    }

    #[test]
    fn bookings_that_no_p_names_are_refused_before_any_is_asked() {
        let mut group = group_of_all(&[[100, 200, 300], [10, 20, 30]]);
        for p in [5, 6, 7, 128, 255] {
            assert_eq!(answers(&mut group, &[send_by(p, 1), send_by(p, 1000)]), [15, 15]);
        }
        for p in [3, 4] {
            assert_eq!(answers(&mut group, &[send_by(p, 0), send_by(p, 1000)]), [15, 16]);
        }
        assert_eq!(answers(&mut group, &[[1, 1, 9, 5, 0, 1], [1, 1, 1, 5, 0, 1]]), [11, 13]);
        assert_eq!(answers(&mut group, &[[1, 1, 9, 4, 0, 0], [1, 1, 1, 4, 0, 0]]), [11, 13]);
        assert_eq!(answers(&mut group, &[one(3, 1), send_by(4, 0), send_by(5, 1)]), [0, 14, 14]);
    }

    #[test]
    fn the_workshop_sends_from_its_booking_to_its_booking() {
        let mut group = group_of_all(&[[1000, 2000, 300], [10, 20, 30]]);
        assert_eq!(answers(&mut group, &[send_by(4, 301), send_by(4, 300)]), [16, 0]);
        assert_eq!(all_bookings(&group), [[1000, 2000, 0], [10, 20, 30]]);
        let sent = Charge::new(PacketVersion::One, Workshop, 300);
        assert_eq!(sent.octets(), [2, 1, 44]);
        assert_eq!(group.line(1, 2).packets[0], Packet::Normal(sent));
        assert_eq!(group.step(&deliver(1, 2), KINDS).event, Event::Added(Workshop));
        assert_eq!(all_bookings(&group), [[1000, 2000, 0], [10, 20, 330]]);
        assert_eq!(answers(&mut group, &[send_by(4, 1), send_by(3, 2000)]), [16, 0]);
    }

    #[test]
    fn the_workshops_own_check_runs_over_its_octet() {
        let charge = Charge::new(PacketVersion::Two, Workshop, 7);
        assert_eq!(charge.own_check, Some(crc_octets(CRC_START, &[2, 0, 7])));
    }

    #[test]
    fn a_hurt_amount_of_the_workshop_wraps_in_its_own_booking() {
        let mut group = group_of_all(&[[100, 200, 300], [10, 20, 30]]);
        let hurt = [11, 1, 2, 0, 0xFF, 0xFF];
        assert_eq!(answers(&mut group, &[send_by(4, 7), hurt, deliver(1, 2)]), [0; 3]);
        assert_eq!(all_bookings(&group), [[100, 200, 293], [10, 20, 30 - 8]]);
    }

    /// Whichever party's packet was hit.
    #[test]
    fn a_line_has_one_hurt_mark_for_both_parties() {
        for (hit, other) in [(0, 1), (1, 0)] {
            let mut group = group_of_all(&[[100, 200, 300], [10, 20, 30]]);
            let hurt = |place: u8| [11, 1, 2, place, 0, 1];
            let lose = |place: u8| [12, 1, 2, place, 0, 0];
            let records = [send_by(0, 7), send_by(4, 7), hurt(hit), hurt(other), lose(other)];
            assert_eq!(answers(&mut group, &records), [0, 0, 0, 20, 20]);
        }
    }

    #[test]
    fn the_check_value_runs_over_a_packets_first_octet() {
        for (p, first) in [(0, 0x00), (1, 0x01), (2, 0x00), (3, 0x01), (4, 0x02)] {
            let mut group = group_of_all(&[[100, 200, 300], [10, 20, 30]]);
            assert_eq!(answers(&mut group, &[send_by(p, 7), one(3, 1)]), [0, 0]);
            let sent = Check { crc: crc_octets(CRC_START, &[first, 0, 7]), count: 1 };
            assert_eq!(group.line(1, 2).packets[1], Packet::Checkp(sent));
            assert_eq!(answers(&mut group, &[deliver(1, 2), deliver(1, 2)]), [0, 0]);
            assert_eq!(group.cabinet(2).state, State::Checkpointing);
        }
    }

    #[test]
    fn damage_leaves_the_outlet_as_it_is() {
        let mut group = group_of_both(&[[100, 200], [10, 20]]);
        let hurt = [11, 1, 2, 0, 0x01, 0x01];
        assert_eq!(answers(&mut group, &[send_by(1, 7), hurt]), [0, 0]);
        let charge = Charge::new(PacketVersion::One, B, 7 ^ 0x0101);
        assert_eq!(group.line(1, 2).packets[0], Packet::Normal(charge));
        assert_eq!(group.step(&deliver(1, 2), KINDS).event, Event::Added(B));
        assert_eq!(bookings(&group)[1], [10, 20 + (7 ^ 0x0101)]);
    }

    #[test]
    fn a_hurt_amount_wraps_in_its_own_outlet() {
        let mut group = group_of_both(&[[100, 200], [10, 20]]);
        let hurt = [11, 1, 2, 0, 0xFF, 0xFF];
        assert_eq!(answers(&mut group, &[send_by(3, 7), hurt, deliver(1, 2)]), [0; 3]);
        assert_eq!(bookings(&group)[1], [10, 20 - 8]);
    }

    #[test]
    fn notes_begin_after_all_bookings() {
        let mut group = group_of_all(&[[100, 200, 300], [10, 20, 30]]);
        let records = [0, 1, 2, 3, 4, 5, 6, 31, 32].map(note);
        assert_eq!(answers(&mut group, &records), [15, 15, 15, 15, 15, 15, 0, 0, 15]);
        assert_eq!(all_bookings(&group)[0], [100, 200, 300]);
        assert_eq!(group.cabinet(1).image[5..8], [44, 7, 0]);
    }

    #[test]
    fn the_places_of_a_party_are_for_both_outlets_together() {
        let mut records: Vec<Record> = (0..4).map(|p| send_by(p, 1)).collect();
        records.extend([0, 1, 2, 3].map(|p| send_by(p, 1)));
        let expected = [0, 0, 0, 0, 17, 17, 17, 17];
        assert_eq!(answers(&mut group_of_both(&[[9, 9], [9, 9]]), &records), expected);
    }

    #[test]
    fn each_party_has_four_places_whatever_the_other_has() {
        for (one, other) in [(0, 4), (4, 0)] {
            let mut group = group_of_all(&[[90, 90, 90], [9, 9, 9]]);
            let fill = |p: u8| [send_by(p, 1); 5];
            assert_eq!(answers(&mut group, &fill(one)), [0, 0, 0, 0, 17]);
            assert_eq!(answers(&mut group, &fill(other)), [0, 0, 0, 0, 17]);
            assert_eq!(answers(&mut group, &[deliver(1, 2)]), [0]);
            assert_eq!(answers(&mut group, &[send_by(other, 1), send_by(one, 1)]), [17, 0]);
        }
    }

    #[test]
    fn the_fifth_normal_packet_of_a_party_finds_the_line_full() {
        let mut records = vec![send(1, 2, 1); 5];
        records.push(deliver(1, 2));
        records.push(send(1, 2, 1));
        let expected = [0, 0, 0, 0, 17, 0, 0];
        assert_eq!(answers(&mut group(&[100, 50]), &records), expected);
    }

    #[test]
    fn only_the_coordinator_begins() {
        assert_eq!(answers(&mut group(&[100, 50]), &[one(3, 2), one(3, 1)]), [14, 0]);
    }

    #[test]
    fn the_lowest_number_in_use_comes_after_the_highest() {
        let mut cabinet = group(&[1; 5]).cabinet(4).clone();
        cabinet.cabinets_in_use = BTreeSet::from([2, 4]);
        assert_eq!(
            [1, 2, 3, 4, 5].map(|number| cabinet.next_in_use_after(number)),
            [2, 4, 4, 2, 2]
        );
    }

    #[test]
    fn malformed_records_are_refused_in_order() {
        let mut group = group(&[100, 50]);
        assert_eq!(group.step(&[4, 1, 2], KINDS).answer, 8);
        assert_eq!(group.step(&[15, 0, 0, 0, 0, 0], KINDS).answer, 8);
        for (kind, low) in [(11, 1), (12, 0)] {
            let hurt = [kind, 1, 2, 0, 0, low];
            assert_eq!(group.step(&hurt, kind - 1).answer, 8);
            assert_eq!(group.step(&hurt, kind).answer, 18);
        }
        assert_eq!(group.step(&[3, 9, 1, 0, 0, 0], KINDS).answer, 9);
        assert_eq!(group.step(&[3, 9, 0, 0, 0, 0], KINDS).answer, 11);
        assert_eq!(group.step(&[4, 1, 2, 1, 0, 0], KINDS).answer, 9);
        assert_eq!(group.step(&[1, 1, 2, 1, 0, 1], KINDS).answer, 0);
    }

    #[test]
    fn a_failing_store_crashes_the_group() {
        let mut group = group(&[100, 50]);
        assert_eq!(answers(&mut group, &[one(10, 2), one(3, 1), one(3, 9)]), [50, 10, 10]);
        assert_eq!(group.cabinet(1).state, State::Crashed);
    }

    #[test]
    fn a_save_without_resume_taken_is_passed_over() {
        let mut group = group_of_all(&[[100, 10, 20], [50, 5, 2]]);
        answers(&mut group, &[send_by(0, 30), send_by(3, 3), send_by(4, 4)]);
        answers(&mut group, &[deliver(1, 2); 3]);
        commit_of_two(&mut group);
        let records = [one(10, 1), one(14, 2), one(7, 2), one(7, 2), one(7, 2), one(7, 2)];
        assert_eq!(answers(&mut group, &records), [0; 6]);
        let end = group.step(&one(8, 2), KINDS);
        assert_eq!(end.event, Event::RecoveryEnd { save_passed_over: true });
        assert_eq!(group.cabinet(2).version, Version::Known(0));
        assert_eq!(group.cabinet(2).bookings(), [50, 5, 2]);
    }

    #[test]
    fn a_save_with_resume_taken_is_restored() {
        let mut group = group_of_all(&[[100, 10, 20], [50, 5, 2]]);
        answers(&mut group, &[send_by(0, 30), send_by(3, 3), send_by(4, 4)]);
        answers(&mut group, &[deliver(1, 2); 3]);
        commit_of_two(&mut group);
        let records = [deliver(1, 2), send(2, 1, 9), one(10, 1), one(14, 2), one(7, 2)];
        assert_eq!(answers(&mut group, &records), [0, 0, 0, 14, 0]);
        assert_eq!(group.cabinet(2).version, Version::Known(1));
        assert_eq!(group.cabinet(2).bookings(), [80, 8, 6]);
    }

    /// No run comes to an entry into error with marks there: entering normal has forgotten them.
    #[test]
    fn reports_unsure_are_forgotten_on_entering_error_and_normal() {
        let mut group = group(&[100, 50, 25]);
        let marks = BTreeSet::from([1, 2]);
        group.cabinet_mut(2).noted.unsure.clone_from(&marks);
        group.enter_error(2, Place::Tripped(1));
        assert!(group.cabinet(2).reported_unsure().is_empty());
        group.cabinet_mut(2).noted.unsure = marks;
        group.cabinet_mut(2).enter_normal();
        assert!(group.cabinet(2).reported_unsure().is_empty());
    }

    #[test]
    fn a_hurt_packet_is_found_by_the_next_save() {
        let mut group = group(&[100, 50, 25]);
        let hurt = [11, 1, 2, 0, 0, 1];
        let records = [send(1, 2, 30), send(1, 2, 2), hurt, hurt, deliver(1, 2), deliver(1, 2)];
        assert_eq!(answers(&mut group, &records), [0, 0, 0, 20, 0, 0]);
        assert_eq!(group.cabinet(2).booking(A), 50 + 31 + 2);
        assert_eq!(answers(&mut group, &[one(3, 1), deliver(1, 2)]), [0, 50]);
    }
}
