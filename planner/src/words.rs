//! Records and answers in words. What a refusal means is said in the words of documents 01 and 02;
//! nothing here decides one.

use crate::chronicle::{Outlet, Packet, Place, State, Version};
use crate::evening::Evening;
use crate::text;

/// As many records as the library reads.
const RECORDS_READ: usize = 10_000;

// The first octet of a plan's record.
const STEP: u8 = 0;
const POINT: u8 = 1;
const RETURN: u8 = 2;

pub const SEND: u8 = 1;
pub const NOTE: u8 = 2;
pub const BEGIN: u8 = 3;
pub const DELIVER: u8 = 4;
pub const WRITE: u8 = 5;
pub const SAVED: u8 = 6;
pub const FETCH: u8 = 7;
pub const RESTORED: u8 = 8;
pub const WAIT_OVER: u8 = 9;
pub const FAIL: u8 = 10;
pub const DAMAGE: u8 = 11;
pub const LOSE: u8 = 12;
pub const TRIP: u8 = 13;
pub const UNSURE: u8 = 14;

pub const TAKEN: u8 = 0;
pub const CRASHED: u8 = 50;

// ---------------------------------------------------------------- records

#[derive(Clone, Copy, Debug, PartialEq, Eq)]
pub struct Step {
    pub kind: u8,
    pub a: u8,
    pub b: u8,
    pub p: u8,
    pub q: u16,
}

impl Step {
    fn of(octets: [u8; 6]) -> Step {
        let [kind, a, b, p, high, low] = octets;
        Step { kind, a, b, p, q: u16::from_be_bytes([high, low]) }
    }

    /// The receiver that a record of damage names; its high four bits are the octet shift.
    pub fn damaged_receiver(&self) -> u8 {
        self.b & 0x0F
    }

    /// The place that a record of damage names; its high three bits are the bit shift.
    pub fn damaged_place(&self) -> usize {
        usize::from(self.p & 0x1F)
    }

    /// By how many bits a record of damage shifts its pattern.
    fn shift(&self) -> u32 {
        u32::from(self.p >> 5) + 8 * u32::from(self.b >> 4)
    }
}

#[derive(Clone, Debug, PartialEq, Eq)]
pub enum Record {
    Step(Step),
    Point([u8; 8]),
    Return([u8; 8]),
    /// Octets that are none of these.
    Other(Vec<u8>),
}

impl Record {
    fn of_step(octets: &[u8]) -> Record {
        match octets.try_into() {
            Ok(six) => Record::Step(Step::of(six)),
            Err(_) => Record::Other(octets.to_vec()),
        }
    }

    fn of_plan(octets: &[u8]) -> Record {
        match *octets {
            [STEP, a, b, c, d, e, f, 0, 0] => Record::Step(Step::of([a, b, c, d, e, f])),
            [POINT, a, b, c, d, e, f, g, h] => Record::Point([a, b, c, d, e, f, g, h]),
            [RETURN, a, b, c, d, e, f, g, h] => Record::Return([a, b, c, d, e, f, g, h]),
            _ => Record::Other(octets.to_vec()),
        }
    }

    /// The step, if it is one of this kind.
    pub fn step_of(&self, kind: u8) -> Option<&Step> {
        match self {
            Record::Step(step) if step.kind == kind => Some(step),
            _ => None,
        }
    }

    pub fn is_return(&self) -> bool {
        matches!(self, Record::Return(_))
    }
}

/// The records that count, each with its line of text.
pub fn records(evening: &Evening) -> Vec<(Record, String)> {
    let of = if evening.plan { Record::of_plan } else { Record::of_step };
    let read = |octets: &[u8]| (of(octets), text::record_line(octets, evening.plan));
    evening.records.chunks(evening.record_length()).take(RECORDS_READ).map(read).collect()
}

// ---------------------------------------------------------------- short forms

pub fn kind_word(kind: u8) -> &'static str {
    match kind {
        SEND => "send",
        NOTE => "note",
        BEGIN => "begin",
        DELIVER => "deliver",
        WRITE => "write",
        SAVED => "saved",
        FETCH => "fetch",
        RESTORED => "restored",
        WAIT_OVER => "wait over",
        FAIL => "fail",
        DAMAGE => "damage",
        LOSE => "lose",
        TRIP => "trip",
        UNSURE => "unsure",
        _ => "no step",
    }
}

/// The one word for a record.
pub fn record_word(record: &Record) -> &'static str {
    match record {
        Record::Step(step) => kind_word(step.kind),
        Record::Point(_) => "point",
        Record::Return(_) => "return",
        Record::Other(_) => "no step",
    }
}

/// A point's name, as it stands in a text.
pub fn named(name: &[u8; 8]) -> String {
    let line = text::record_line(&[&[POINT][..], name].concat(), true);
    line.strip_prefix("point ").map_or(line.clone(), String::from)
}

// ---------------------------------------------------------------- whole sentences

/// What the record asks for, as a sentence without its full stop.
pub fn sentence(record: &Record) -> String {
    match record {
        Record::Step(step) => step_sentence(step),
        Record::Point(_) => "a point is kept under this name".into(),
        Record::Return(_) => "the group returns to the point of this name".into(),
        Record::Other(octets) => match octets.len() {
            1 => "a record of 1 octet, which is no step".into(),
            count => format!("a record of {count} octets, which is no step"),
        },
    }
}

fn step_sentence(step: &Step) -> String {
    let Step { kind, a, b, p, q } = *step;
    match kind {
        SEND => send_sentence(step),
        NOTE => format!("cabinet {a} notes {q} in octet {p} of its image"),
        BEGIN => format!("cabinet {a} begins a save"),
        DELIVER => format!("the oldest packet from {a} to {b}"),
        WRITE => format!("cabinet {a} writes its next piece to its home"),
        SAVED => format!("the home of cabinet {a} reports it saved"),
        FETCH => format!("cabinet {a} fetches its next piece from its home"),
        RESTORED => format!("cabinet {a} reports restored"),
        WAIT_OVER => format!("wait over at cabinet {a}, a kind that is withdrawn"),
        FAIL => format!("cabinet {a} fails"),
        DAMAGE => damage_sentence(step),
        LOSE => format!("the packet at place {p} from {a} to {b} is lost"),
        TRIP => format!("cabinet {a} trips and restarts"),
        UNSURE => format!("cabinet {a} reports unsure"),
        _ => format!("a record of kind {kind}, which is no step"),
    }
}

fn send_sentence(step: &Step) -> String {
    let Step { a, b, p, q, .. } = *step;
    let (from, to) = match p {
        0 => ("outlet A", "outlet A"),
        1 => ("outlet A", "outlet B"),
        2 => ("outlet B", "outlet A"),
        3 => ("outlet B", "outlet B"),
        4 => ("workshop", "the workshop"),
        _ => return format!("cabinet {a} sends {q} A to cabinet {b}; {p} names no outlets"),
    };
    format!("cabinet {a} sends {q} A from its {from} to {to} of cabinet {b}")
}

fn damage_sentence(step: &Step) -> String {
    let (a, b, place) = (step.a, step.damaged_receiver(), step.damaged_place());
    let pattern = match step.shift() {
        0 => format!("{:#06x}", step.q),
        bits => format!("{:#06x} shifted by {bits} bits", step.q),
    };
    format!("the packet at place {place} from {a} to {b} is damaged by {pattern}")
}

// ---------------------------------------------------------------- answers

/// Why the record was answered so, in the documents' words, without a full stop.
pub fn reason(record: &Record, answer: u8) -> String {
    match answer {
        TAKEN => "taken".into(),
        CRASHED => "taken, and the group crashed".into(),
        8 => no_step(record).into(),
        9 => "a field that this step does not use is not 0".into(),
        10 => "the group has crashed".into(),
        11 => "a cabinet is not one of 1 to n".into(),
        12 => failed_cabinet(record),
        _ => match record {
            Record::Step(step) => step_reason(step, answer),
            Record::Point(_) | Record::Return(_) => point_reason(answer).into(),
            Record::Other(_) => UNNAMED.into(),
        },
    }
}

const UNNAMED: &str = "an answer that the documents do not name";

fn no_step(record: &Record) -> &'static str {
    match record {
        Record::Step(Step { kind: WAIT_OVER, .. }) => "wait over is withdrawn",
        Record::Step(_) => "the kind is outside 1 to 14",
        Record::Other(octets) if octets.len() == 9 => "it is no step, no point and no return",
        _ => "the record has not its full length",
    }
}

fn failed_cabinet(record: &Record) -> String {
    match record {
        Record::Step(Step { kind: DELIVER, b, .. }) => format!("cabinet {b} has failed"),
        Record::Step(Step { a, .. }) => format!("cabinet {a} has failed"),
        _ => "a cabinet has failed".into(),
    }
}

fn point_reason(answer: u8) -> &'static str {
    match answer {
        21 => "there is no such name",
        22 => {
            "the group is not quiet: it needs every working cabinet in normal and every line empty"
        }
        23 => "four names are taken already and this is a fifth",
        _ => UNNAMED,
    }
}

fn step_reason(step: &Step, answer: u8) -> String {
    let Step { kind, a, b, .. } = *step;
    match (kind, answer) {
        (SEND, 13) => format!("no link to cabinet {b} in the table of cabinet {a}"),
        (DELIVER | DAMAGE | LOSE, 13) => "no such link in the group file".into(),
        (SEND | NOTE, 14) => format!("cabinet {a} is not in normal"),
        (BEGIN, 14) => format!("cabinet {a} is not in normal, or not its own coordinator"),
        (WRITE, 14) => format!("cabinet {a} is not in checkpointing"),
        (FETCH, 14) => format!("cabinet {a} is not in recovering"),
        (RESTORED, 14) => format!("cabinet {a} is not in recovered"),
        _ => fixed_reason(kind, answer).into(),
    }
}

/// Reasons that name no cabinet by its number.
fn fixed_reason(kind: u8, answer: u8) -> &'static str {
    match (kind, answer) {
        (UNSURE, 14) => {
            "it is not in error with unknown version, or the fault is not the former coordinator"
        }
        (SEND, 15) => "the amount is 0, or p names no outlets",
        (NOTE, 15) => "the octet is outside 6 to 31, or the value above 255",
        (DAMAGE, 15) => {
            "the pattern is 0, shifted outside the four octets, or shifted at all in version 1"
        }
        (SEND, 16) => "the amount is above the booking",
        (SEND, 17) => "that party's four places in the line are full",
        (DELIVER, 18) => "the line is empty",
        (DAMAGE, 18) => "no packet is there",
        (LOSE, 18) => "no normal packet is there",
        (WRITE, 19) => "its home is in error, recovering or recovered",
        (SAVED, 19) => {
            "no report is owed, or the home's coordinator is not in checkpointing or checkpointed"
        }
        (FETCH, 19) => "its home is not in recovering or recovered",
        (RESTORED, 19) => {
            "it has reported already, a neighbour's fault is not heard, or its coordinator is not in \
             recovering or recovered"
        }
        (UNSURE, 19) => "it has reported already, or its coordinator is not in error",
        (DAMAGE | LOSE, 20) => {
            "a normal packet of that line was hurt since the receiver's register restarted"
        }
        _ => UNNAMED,
    }
}

/// When a step of this kind crashes the group, as the documents list it; the chronicle does not
/// tell which of these it was.
pub fn crash_cases(kind: u8) -> &'static str {
    match kind {
        DELIVER => {
            "two fault places meet, or without the faulty link some working cabinet is not reached"
        }
        FAIL => {
            "a store fails and no partner is left, some working cabinet is in error, recovering or \
             recovered, or without the failing one some working cabinet is not reached"
        }
        TRIP => {
            "a store trips and no partner is left, some working cabinet is in error, recovering or \
             recovered, or the coordinator trips and without it some working cabinet is not reached; \
             a third trip goes by the rules of a fail"
        }
        DAMAGE | LOSE => "some working cabinet is in error, recovering or recovered",
        _ => "the documents name no case for this kind",
    }
}

pub fn load_reason(answer: u8) -> &'static str {
    match answer {
        1 => "it has fewer than 10 octets",
        2 => "its number of cabinets is outside 2 to 8",
        3 => "an offset or length in it is wrong, or not its true length",
        4 => "a cabinet entry is wrong: its store mark, its home or its store partner",
        5 => "a link entry is wrong: the lower number first, entries rising",
        6 => "its cabinets are not connected",
        7 => "the bookings of the buses or of the workshop are above 65,535 in all",
        _ => UNNAMED,
    }
}

// ---------------------------------------------------------------- names

pub fn state(state: State) -> &'static str {
    match state {
        State::Failed => "failed",
        State::Normal => "normal",
        State::CheckpBegin => "checkp-begin",
        State::Checkpointing => "checkpointing",
        State::Checkpointed => "checkpointed",
        State::Error => "error",
        State::Recovering => "recovering",
        State::Recovered => "recovered",
        State::Crashed => "crashed",
    }
}

pub fn outlet(outlet: Outlet) -> &'static str {
    match outlet {
        Outlet::A => "outlet A",
        Outlet::B => "outlet B",
        Outlet::Workshop => "the workshop",
    }
}

/// The place of a fault.
pub fn place(place: Place) -> String {
    match place {
        Place::Failed(cabinet) => format!("cabinet {cabinet} failed"),
        Place::Tripped(cabinet) => format!("cabinet {cabinet} tripped"),
        Place::Link(low, high) => format!("the link between {low} and {high}"),
    }
}

pub fn packet(packet: &Packet) -> String {
    match *packet {
        Packet::Normal { outlet: to, amount } => format!("{amount} A for {}", outlet(to)),
        Packet::Checkp => "checkp".into(),
        Packet::Resume => "resume".into(),
        Packet::Recover(version) => format!("recover (version {version})"),
        Packet::Fault(at) => format!("fault ({})", place(at)),
        Packet::Invalid => "an invalid packet".into(),
    }
}

/// As the listing has it: `u` for unknown.
pub fn version(version: Version) -> String {
    match version {
        Version::Known(known) => known.to_string(),
        Version::Unknown(_) => "u".into(),
    }
}

/// Why a cabinet's word settled a recovery (card 8).
pub fn settling_reason(reason: u8) -> &'static str {
    match reason {
        1 => "it was coordinator before the fault and knew",
        2 => "it was in a save with pieces unfinished",
        3 => "it was in normal",
        4 => "it decided under the unsure rule",
        _ => UNNAMED,
    }
}

/// `1`, `1 and 2`, `1, 2 and 4`.
pub fn listed<T: ToString>(things: &[T]) -> String {
    let words: Vec<String> = things.iter().map(ToString::to_string).collect();
    match words.split_last() {
        None => String::new(),
        Some((only, [])) => only.clone(),
        Some((last, before)) => format!("{} and {last}", before.join(", ")),
    }
}

/// `cabinet 2`, `cabinets 1, 2 and 4`.
pub fn cabinets(numbers: &[usize]) -> String {
    match numbers {
        [only] => format!("cabinet {only}"),
        several => format!("cabinets {}", listed(several)),
    }
}

/// What is said of cabinets, those of whom the same is said together; of whom nothing is said is
/// left out.
pub fn alike(said: impl IntoIterator<Item = (usize, String)>) -> Vec<(Vec<usize>, String)> {
    let mut groups: Vec<(Vec<usize>, String)> = Vec::new();
    for (number, words) in said {
        match groups.iter_mut().find(|(_, known)| *known == words) {
            _ if words.is_empty() => (),
            Some((numbers, _)) => numbers.push(number),
            None => groups.push((vec![number], words)),
        }
    }
    groups
}
