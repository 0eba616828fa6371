//! Groups, records and ways to bring a group on, for the tests of more than one part.

use crate::model::{
    load, Account, Event, Group, Number, Packet, PacketVersion, State, CABINET_ENTRY_LENGTH, KINDS,
    TAKEN,
};

pub(crate) type Record = [u8; 6];

pub(crate) const ALL_OF_THREE: &[(u8, u8)] = &[(1, 2), (1, 3), (2, 3)];
pub(crate) const ROW_OF_THREE: &[(u8, u8)] = &[(1, 2), (2, 3)];
pub(crate) const ROW_OF_FOUR: &[(u8, u8)] = &[(1, 2), (2, 3), (3, 4)];
pub(crate) const ALL_OF_FOUR: &[(u8, u8)] = &[(1, 2), (1, 3), (1, 4), (2, 3), (2, 4), (3, 4)];

/// As many cabinets as bookings at A; one of them is the store of all.
pub(crate) fn group_file(
    version: PacketVersion,
    bookings: &[u16],
    store: u8,
    links: &[(u8, u8)],
) -> Vec<u8> {
    let header_length = if version == PacketVersion::Two { 12 } else { 10 };
    let link_table = header_length + CABINET_ENTRY_LENGTH * bookings.len();
    let length = link_table + 2 * links.len();
    let header = [bookings.len(), links.len(), header_length, link_table, length, 2];
    let mut file: Vec<u8> =
        header.iter().flat_map(|&number| (number as u16).to_be_bytes()).collect();
    file.truncate(header_length);
    for (number, booking) in (1..).zip(bookings) {
        let [high, low] = booking.to_be_bytes();
        file.extend_from_slice(&[store, u8::from(number == store), high, low, 0, 0, 0, 0, 0]);
    }
    file.extend(links.iter().flat_map(|&(low, high)| [low, high]));
    file
}

/// Homes, store marks and partners as named, of packet version 1; 100 booked at each A.
pub(crate) fn file_with_stores(entries: &[[u8; 3]], links: &[(u8, u8)]) -> Vec<u8> {
    let bookings = vec![100; entries.len()];
    let mut file = group_file(PacketVersion::One, &bookings, 1, links);
    for (&[home, mark, partner], place) in entries.iter().zip((10..).step_by(CABINET_ENTRY_LENGTH))
    {
        (file[place], file[place + 1], file[place + 8]) = (home, mark, partner);
    }
    file
}

/// Of packet version 1.
pub(crate) fn group(bookings: &[u16], store: u8, links: &[(u8, u8)]) -> Group {
    let file = group_file(PacketVersion::One, bookings, store, links);
    load(&file).expect("the file is sound")
}

/// Three cabinets, each linked to each; 3 is the store.
pub(crate) fn three() -> Group {
    group(&[100, 50, 25], 3, ALL_OF_THREE)
}

pub(crate) fn four() -> Group {
    group(&[100, 50, 25, 12], 4, ALL_OF_FOUR)
}

// ------------------------------------------------------------ records

pub(crate) fn one(kind: u8, a: u8) -> Record {
    [kind, a, 0, 0, 0, 0]
}

pub(crate) fn fail(a: u8) -> Record {
    one(10, a)
}

pub(crate) fn trip(a: u8) -> Record {
    one(13, a)
}

pub(crate) fn unsure(a: u8) -> Record {
    one(14, a)
}

pub(crate) fn send(a: u8, b: u8, amount: u16) -> Record {
    let [high, low] = amount.to_be_bytes();
    [1, a, b, 0, high, low]
}

pub(crate) fn deliver(a: u8, b: u8) -> Record {
    [4, a, b, 0, 0, 0]
}

pub(crate) fn answers(group: &mut Group, records: &[Record]) -> Vec<u8> {
    records.iter().map(|record| group.step(record, KINDS).answer).collect()
}

// ------------------------------------------------------------ bringing a group on

/// Delivers, and takes steps of these kinds where no deliver is taken, until nothing more is or
/// one step was what is looked for.
fn drive(group: &mut Group, kinds: &[u8], last: impl Fn(Event) -> bool) -> Vec<Event> {
    let numbers = 1..=group.size() as u8;
    let lines = numbers.clone().flat_map(|a| numbers.clone().map(move |b| deliver(a, b)));
    let singles = kinds.iter().flat_map(|&kind| numbers.clone().map(move |a| one(kind, a)));
    let records: Vec<Record> = lines.chain(singles).collect();
    let mut events = Vec::new();
    while let Some(event) = records.iter().find_map(|record| {
        let outcome = group.step(record, KINDS);
        (outcome.answer == TAKEN).then_some(outcome.event)
    }) {
        events.push(event);
        if last(event) {
            break;
        }
    }
    events
}

/// Delivers, writes, reports and fetches.
pub(crate) fn settle_until(group: &mut Group, last: impl Fn(Event) -> bool) -> Vec<Event> {
    drive(group, &[5, 6, 7, 8, 14], last)
}

pub(crate) fn settle(group: &mut Group) -> Vec<Event> {
    settle_until(group, |_| false)
}

/// Up to the point where all have written and no saved report was made.
pub(crate) fn save_up_to_reports(group: &mut Group, coordinator: u8) {
    assert_eq!(answers(group, &[one(3, coordinator)]), [0]);
    drive(group, &[5], |_| false);
    assert!(states(group).iter().all(|state| [State::Checkpointed, State::Failed].contains(state)));
}

/// Up to the commit, whose resume packets stay in the lines.
pub(crate) fn save_up_to_commit(group: &mut Group, coordinator: u8) {
    assert_eq!(answers(group, &[one(3, coordinator)]), [0]);
    let events = settle_until(group, |event| event == Event::Commit);
    assert_eq!(events.last(), Some(&Event::Commit));
}

pub(crate) fn save(group: &mut Group, coordinator: u8) {
    save_up_to_commit(group, coordinator);
    settle(group);
}

// ------------------------------------------------------------ looking at it

/// For each recovery that ended whether it passed over a save.
pub(crate) fn ends(events: &[Event]) -> Vec<bool> {
    let end = |event: &Event| match event {
        Event::RecoveryEnd { save_passed_over } => Some(*save_passed_over),
        _ => None,
    };
    events.iter().filter_map(end).collect()
}

pub(crate) fn states(group: &Group) -> Vec<State> {
    group.numbers().map(|number| group.cabinet(number).state).collect()
}

/// At A.
pub(crate) fn bookings(group: &Group) -> Vec<u16> {
    group.numbers().map(|number| group.cabinet(number).booking(Account::A)).collect()
}

pub(crate) fn leads(group: &Group) -> Vec<Number> {
    group.numbers().map(|number| group.cabinet(number).coordinator()).collect()
}

pub(crate) fn line(group: &Group, from: Number, to: Number) -> Vec<Packet> {
    group.line(from, to).packets.iter().copied().collect()
}
