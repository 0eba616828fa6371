//! The chronicle of a run: for a group file and a list of records the answer to each record, the
//! group after it, and what the history tells of saves, as octets for a program to read.

mod compare;
mod counts;
mod deeds;
mod reading;
#[cfg(test)]
mod tests;

pub use compare::compare_chronicles;
pub use counts::{Counts, Emptied, PacketSort, PlaceSort, SaveSort, VersionSort};
pub use deeds::Fate;

use crate::form::Form;
use crate::listing::RECORDS_READ;
use crate::model::{
    self, Group, Line, Number, Packet, PacketVersion, Place, State, Version, TAKEN,
};
use deeds::{Acts, Deed, Run, Save};

/// The octets for a group file and step records or, if it is one, a plan.
pub fn chronicle(file: &[u8], list: &[u8], plan: bool) -> Vec<u8> {
    counted_chronicle(file, list, plan).0
}

/// The same, and what is counted of them.
pub fn counted_chronicle(file: &[u8], list: &[u8], plan: bool) -> (Vec<u8>, Counts) {
    let form = if plan { Form::Plan } else { Form::Steps };
    let mut counts = Counts::of_list(form);
    let group = match model::load(file) {
        Ok(group) => group,
        Err(refusal) => {
            counts.count_refused_load(refusal);
            return (vec![refusal], counts);
        }
    };
    counts.count_start(&group, list, form);
    let mut octets = vec![TAKEN, octet(group.size()), packet_version_octet(group.packet_version())];
    let mut run = Run::new(group);
    write_row(&mut octets, &run.group, &run.start());
    for record in list.chunks(form.record_length()).take(RECORDS_READ) {
        let deed = run.take(form.operation(record));
        write_row(&mut octets, &run.group, &deed);
        counts.count_record(&deed, &run.group);
    }
    (octets, counts)
}

// ---------------------------------------------------------------- rows

fn write_row(octets: &mut Vec<u8>, group: &Group, deed: &Deed) {
    octets.extend([deed.answer, fate_octet(deed.fate)]);
    octets.extend(word_octets(group));
    octets.push(u8::from(deed.recovery_ended));
    octets.extend(save_octets(deed.save));
    for (number, &acts) in group.numbers().zip(&deed.acts) {
        write_cabinet(octets, group, number, acts);
    }
    for from in group.numbers() {
        for to in group.numbers() {
            write_line(octets, group.line(from, to));
        }
    }
}

fn write_cabinet(octets: &mut Vec<u8>, group: &Group, number: Number, acts: Acts) {
    let cabinet = group.cabinet(number);
    octets.extend([state_octet(cabinet.state), acts_octet(acts)]);
    if !cabinet.working() {
        return;
    }
    octets.extend([version_octet(cabinet.version), octet(cabinet.coordinator())]);
    octets.extend(cabinet.fault_place().map_or([0; 3], place_octets));
    octets.extend([octet(cabinet.pieces_done()), octet(group.home(number))]);
    octets.extend(cabinet.bookings().into_iter().flat_map(u16::to_be_bytes));
}

fn write_line(octets: &mut Vec<u8>, line: &Line) {
    octets.extend(line.packets.iter().copied().flat_map(packet_octets));
    octets.push(0);
}

// ---------------------------------------------------------------- octets

/// Of a number that is at most 8.
fn octet(number: usize) -> u8 {
    number as u8
}

fn packet_version_octet(version: PacketVersion) -> u8 {
    match version {
        PacketVersion::One => 1,
        PacketVersion::Two => 2,
    }
}

fn fate_octet(fate: Fate) -> u8 {
    match fate {
        Fate::NotTakenOff => 0,
        Fate::Taken => 1,
        Fate::Dropped => 2,
        Fate::FaultFound => 3,
    }
}

fn word_octets(group: &Group) -> [u8; 2] {
    match group.word() {
        Ok(word) => [octet(word.cabinet), word.reason.number()],
        Err(refusal) => [0, refusal],
    }
}

/// No more records are read than two octets can number.
fn save_octets(save: Save) -> [u8; 2] {
    (save.record() as u16).to_be_bytes()
}

fn state_octet(state: State) -> u8 {
    match state {
        State::Failed => 0,
        State::Normal => 1,
        State::CheckpBegin => 2,
        State::Checkpointing => 3,
        State::Checkpointed => 4,
        State::Error => 5,
        State::Recovering => 6,
        State::Recovered => 7,
        State::Crashed => 8,
    }
}

fn acts_octet(acts: Acts) -> u8 {
    let Acts { outgoing_emptied, incoming_emptied, cut } = acts;
    u8::from(outgoing_emptied) + 2 * u8::from(incoming_emptied) + 4 * u8::from(cut)
}

fn version_octet(version: Version) -> u8 {
    match version {
        Version::Known(version) => version,
        Version::Unknown { old } => 2 + old,
        Version::Lost => 4,
    }
}

fn place_octets(place: Place) -> [u8; 3] {
    match place {
        Place::Failed(cabinet) => [1, octet(cabinet), 0],
        Place::Tripped(cabinet) => [2, octet(cabinet), 0],
        Place::Link(low, high) => [3, octet(low), octet(high)],
    }
}

fn packet_octets(packet: Packet) -> [u8; 4] {
    match packet {
        Packet::Normal(charge) => {
            let [high, low] = charge.amount.to_be_bytes();
            [1, charge.account.octet(), high, low]
        }
        Packet::Checkp(_) => [2, 0, 0, 0],
        Packet::Resume => [3, 0, 0, 0],
        Packet::Recover(version) => [4, version, 0, 0],
        Packet::Fault(place) => {
            let [sort, a, b] = place_octets(place);
            [5, sort, a, b]
        }
        Packet::Invalid => [6, 0, 0, 0],
    }
}
