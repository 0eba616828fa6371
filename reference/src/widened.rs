//! Cases of earlier cards as cases of now: bookings that have come since stand in each entry of
//! the file and in each line of a cabinet, with nothing booked, and no note is taken where they
//! are now; no store names a partner. And which cases have no counterpart, now that kinds of step have come and one has
//! gone, that damage and the first offset of a file say more, and that buses and workshop have
//! four places each in a line. All by rule; the model is asked for a fifth packet alone.

use crate::cases::{Case, Record};
use crate::evening::{Evening, Operation};
use crate::form::Form;
use crate::model::{
    self, number_at, PacketVersion, CABINET_ENTRY_LENGTH, FIRST_NOTE, KINDS, WITHDRAWN_KIND,
    WORKSHOP_P,
};
use std::ops::Range;

/// Document 01 by itself, and the one whose rules the model has.
pub const NO_CARD: u8 = 1;
pub const LAST_CARD: u8 = 10;

/// Those that brought the second outlet, that withdrew a kind of step, that brought packets with
/// their own check, that brought the workshop, and that brought partners of stores.
const CARD_OF_TWO_OUTLETS: u8 = 2;
const CARD_OF_WITHDRAWAL: u8 = 6;
const CARD_OF_OWN_CHECKS: u8 = 7;
const CARD_OF_WORKSHOP: u8 = 9;
const CARD_OF_PARTNERS: u8 = 10;

/// The highest kind of step once this card has landed.
fn kinds_of_card(card: u8) -> u8 {
    match card {
        0..=2 => 11,
        3 | 4 => 12,
        5 => 13,
        _ => KINDS,
    }
}

/// The bookings of a cabinet once this card has landed.
fn bookings_of_card(card: u8) -> usize {
    match card {
        ..CARD_OF_TWO_OUTLETS => 1,
        CARD_OF_TWO_OUTLETS..CARD_OF_WORKSHOP => 2,
        _ => 3,
    }
}

/// Home and store mark stand in front of an entry's bookings, the partner behind them.
fn entry_length_of_card(card: u8) -> usize {
    let partner = usize::from(card >= CARD_OF_PARTNERS);
    2 + BOOKING_LENGTH * bookings_of_card(card) + partner
}

const BOOKING_LENGTH: usize = 2;

/// Why a case would not mean the same by the later cards.
#[derive(Clone, Copy, PartialEq, Eq, PartialOrd, Ord, Debug)]
pub enum LeftOut {
    /// A file that was refused with 3, and whose offsets and length are right now.
    RightByNewOffsets,
    /// A send whose p was an unused field that is not 0.
    SendNamesOutlets,
    /// A send whose p named nothing, and now names the workshop.
    SendOfTheWorkshop,
    /// A send that was taken as the fifth normal packet of its line.
    FifthPacket,
    /// A record of a kind that was unknown then: it answered 8 and now never does.
    RecordOfNewKind,
    /// A record of a kind that was known then: it answers 8 now and never did.
    RecordOfWithdrawnKind,
    /// A damage whose b or p has bits that are shifts now.
    DamageNamesShifts,
    /// A file whose first offset is that of packet version 2.
    NamesPacketVersionTwo,
}

/// A case from when no card after this one had landed, and its text, as they read now. The text
/// is made of the old one alone. No step of a file that is refused is read, so nothing is asked
/// of those.
pub fn as_it_reads_now(
    form: Form,
    case: &Case,
    text: &str,
    card: u8,
) -> Result<(Case, String), LeftOut> {
    let with_file = |group: Vec<u8>| Case { group, steps: case.steps.clone() };
    if card < CARD_OF_OWN_CHECKS && case.group.get(4..6) == Some(&[0, 12]) {
        return Err(LeftOut::NamesPacketVersionTwo);
    }
    match text.strip_prefix("load ").map(str::trim_end) {
        Some("3") if card < LAST_CARD && has_the_layout_of_now(&case.group) => {
            Err(LeftOut::RightByNewOffsets)
        }
        Some("1" | "2" | "3") => Ok((case.clone(), text.to_string())),
        Some(_) => Ok((with_file(widened_file(&case.group, card)), text.to_string())),
        None => {
            let steps = form.steps(case);
            steps_stand(&steps, card)?;
            let case = with_file(widened_file(&case.group, card));
            if card < CARD_OF_WORKSHOP && has_a_fifth_packet(form, &case) {
                return Err(LeftOut::FifthPacket);
            }
            Ok((case, widened_text(&steps, text, card)))
        }
    }
}

/// A record that is too short is no step.
fn steps_stand(steps: &[Option<Record>], card: u8) -> Result<(), LeftOut> {
    sends_stand(steps, card)?;
    let mut kinds = steps.iter().flatten().map(|record| record[0]);
    let new = |kind: u8| kinds_of_card(card) < kind && kind <= KINDS;
    if kinds.clone().any(new) {
        return Err(LeftOut::RecordOfNewKind);
    }
    if card < CARD_OF_WITHDRAWAL && kinds.any(|kind| kind == WITHDRAWN_KIND) {
        return Err(LeftOut::RecordOfWithdrawnKind);
    }
    let shifts = |&[kind, _, b, p, ..]: &Record| kind == 11 && (b > 15 || p > 31);
    if card < CARD_OF_OWN_CHECKS && steps.iter().flatten().any(shifts) {
        return Err(LeftOut::DamageNamesShifts);
    }
    Ok(())
}

fn sends_stand(steps: &[Option<Record>], card: u8) -> Result<(), LeftOut> {
    let sends = steps.iter().flatten().filter(|record| record[0] == 1);
    let mut ps = sends.map(|record| record[3]);
    if card < CARD_OF_TWO_OUTLETS && ps.clone().any(|p| p != 0) {
        Err(LeftOut::SendNamesOutlets)
    } else if card < CARD_OF_WORKSHOP && ps.any(|p| p == WORKSHOP_P) {
        Err(LeftOut::SendOfTheWorkshop)
    } else {
        Ok(())
    }
}

const LINE_FULL: u8 = 17;

/// Of a widened case, whose packets are all of the buses: the first send that finds four of them
/// in its line was taken then, when there were eight places.
fn has_a_fifth_packet(form: Form, case: &Case) -> bool {
    let group = model::load(&case.group).expect("a file that loaded loads widened");
    let mut evening = Evening::new(group, KINDS);
    form.operations(case)
        .into_iter()
        .flatten()
        .any(|operation| evening.take(operation) == LINE_FULL)
}

/// Of a file that has a header.
fn has_the_layout_of_now(file: &[u8]) -> bool {
    let stated = [4, 6, 8].map(|offset| number_at(file, offset));
    let layout = PacketVersion::named_by(file).layout(number_at(file, 0), number_at(file, 2));
    stated == layout && file.len() == layout[2]
}

/// Of a file whose offsets and length are those of then.
fn widened_file(file: &[u8], card: u8) -> Vec<u8> {
    let version = PacketVersion::named_by(file);
    let entry_length = entry_length_of_card(card);
    let n = number_at(file, 0);
    let (header, tables) = file.split_at(version.header_length());
    let (entries, links) = tables.split_at(entry_length * n);
    let mut widened = header.to_vec();
    for (offset, number) in [4, 6, 8].into_iter().zip(version.layout(n, number_at(file, 2))) {
        widened[offset..offset + 2].copy_from_slice(&(number as u16).to_be_bytes());
    }
    for entry in entries.chunks(entry_length) {
        widened.extend_from_slice(entry);
        widened.resize(widened.len() + CABINET_ENTRY_LENGTH - entry_length, 0);
    }
    widened.extend_from_slice(links);
    widened
}

/// The lines of the records come first, one for each, and then those of the cabinets.
fn widened_text(steps: &[Option<Record>], text: &str, card: u8) -> String {
    let steps = steps.iter().copied().chain(std::iter::repeat(None));
    text.lines().zip(steps).map(|(line, step)| widened_line(line, step, card) + "\n").collect()
}

/// The octets at which a note was taken then, and is not now.
fn octets_since(card: u8) -> Range<u8> {
    (BOOKING_LENGTH * bookings_of_card(card)) as u8..FIRST_NOTE
}

fn note_at_booking(step: Option<Record>, card: u8) -> bool {
    matches!(step, Some([2, _, _, octet, ..]) if octets_since(card).contains(&octet))
}

fn widened_line(line: &str, step: Option<Record>, card: u8) -> String {
    let note_at_booking = note_at_booking(step, card);
    let has_bookings = line.starts_with("cab ") && !line.ends_with(" failed");
    let bookings_since = bookings_of_card(LAST_CARD) - bookings_of_card(card);
    match line.strip_suffix(" 0") {
        Some(taken) if note_at_booking && line.starts_with("step ") => format!("{taken} 15"),
        _ if has_bookings => format!("{line}{}", " 0".repeat(bookings_since)),
        _ => line.to_string(),
    }
}

/// The answers, cabinets, images and slots of operations, as they read now. The answers come
/// first, one for each operation. No image holds what a note did at an octet that is a booking's.
pub fn widened_store(operations: &[Operation], store: &str, card: u8) -> String {
    if store.starts_with("load ") {
        return store.to_string();
    }
    let step = |operation: &Operation| match *operation {
        Operation::Step(step) => Some(step),
        _ => None,
    };
    let steps = operations.iter().map(step).chain(std::iter::repeat(None));
    let line = |(line, step): (&str, Option<Record>)| match line {
        "0" if note_at_booking(step, card) => "15\n".to_string(),
        _ if line.starts_with("image ") || line.starts_with("slot ") => {
            without_notes_at_bookings(line, card) + "\n"
        }
        _ => widened_line(line, step, card) + "\n",
    };
    store.lines().zip(steps).map(line).collect()
}

/// The octets stand at the end, two digits each, or there is a dash.
fn without_notes_at_bookings(line: &str, card: u8) -> String {
    let (before, octets) = line.rsplit_once(' ').unwrap_or_default();
    let mut octets = octets.to_string();
    let digits = octets_since(card).start.into()..usize::from(FIRST_NOTE);
    let digits = 2 * digits.start..2 * digits.end;
    if octets.len() > digits.end {
        octets.replace_range(digits.clone(), &"0".repeat(digits.len()));
    }
    format!("{before} {octets}")
}

#[cfg(test)]
mod tests {
    use super::*;

    const OLD_GROUP: [u8; 20] = [0, 2, 0, 1, 0, 10, 0, 18, 0, 20, 1, 1, 0, 100, 1, 0, 0, 50, 1, 2];
    const GROUP_OF_CARD_2: [u8; 24] =
        [0, 2, 0, 1, 0, 10, 0, 22, 0, 24, 1, 1, 0, 100, 0, 7, 1, 0, 0, 50, 0, 0, 1, 2];
    const GROUP_OF_CARD_9: [u8; 28] =
        [0, 2, 0, 1, 0, 10, 0, 26, 0, 28, 1, 1, 0, 100, 0, 7, 0, 9, 1, 0, 0, 50, 0, 0, 0, 0, 1, 2];
    const GROUP: [u8; 30] = [
        0, 2, 0, 1, 0, 10, 0, 28, 0, 30, 1, 1, 0, 100, 0, 0, 0, 0, 0, 1, 0, 0, 50, 0, 0, 0, 0, 0,
        1, 2,
    ];

    fn converted(records: &[[u8; 6]], text: &str) -> Result<(Case, String), LeftOut> {
        let case = Case { group: OLD_GROUP.to_vec(), steps: records.concat() };
        as_it_reads_now(Form::Steps, &case, text, NO_CARD)
    }

    fn converted_file(group: &[u8], text: &str) -> Result<(Case, String), LeftOut> {
        let case = Case { group: group.to_vec(), steps: vec![1, 1, 2, 1, 0, 5] };
        as_it_reads_now(Form::Steps, &case, text, NO_CARD)
    }

    /// The file of document 01 with one octet changed, and its counterpart with that one changed.
    fn changed_files(old_place: usize, place: usize, octet: u8) -> (Vec<u8>, Vec<u8>) {
        let (mut old, mut new) = (OLD_GROUP.to_vec(), GROUP.to_vec());
        (old[old_place], new[place]) = (octet, octet);
        (old, new)
    }

    #[test]
    fn a_case_gets_bookings_with_nothing_booked() {
        let fail = [10, 2, 0, 0, 0, 0];
        let converted = converted(&[fail], "step 1 0\ncab 1 recovering 0 100\ncab 2 failed\n");
        let text = "step 1 0\ncab 1 recovering 0 100 0 0\ncab 2 failed\n".to_string();
        assert_eq!(converted, Ok((Case { group: GROUP.to_vec(), steps: fail.to_vec() }, text)));
    }

    #[test]
    fn a_note_that_was_taken_at_a_booking_answers_15() {
        let note = |octet: u8, value: [u8; 2]| [2, 1, 0, octet, value[0], value[1]];
        let crash = [10, 1, 0, 0, 0, 0];
        let records = [
            note(2, [0, 5]),
            note(5, [0, 255]),
            note(6, [0, 5]),
            note(3, [1, 0]),
            [2, 9, 0, 2, 0, 5],
            [2, 1, 1, 2, 0, 5],
            crash,
            note(2, [0, 5]),
        ];
        let rest = "step 3 0\nstep 4 15\nstep 5 11\nstep 6 9\nstep 7 50\nstep 8 10\n";
        let old = format!("step 1 0\nstep 2 0\n{rest}cab 1 crashed 0 0\ncab 2 crashed 0 50\n");
        let new =
            format!("step 1 15\nstep 2 15\n{rest}cab 1 crashed 0 0 0 0\ncab 2 crashed 0 50 0 0\n");
        let case = Case { group: GROUP.to_vec(), steps: records.concat() };
        assert_eq!(converted(&records, &old), Ok((case, new)));
    }

    #[test]
    fn a_plans_notes_are_told_from_its_points() {
        let note = [0, 2, 1, 0, 2, 0, 5, 0, 0];
        let point = [1, 2, 1, 0, 2, 0, 5, 0, 0];
        let none = [0, 2, 1, 0, 2, 0, 5, 0, 1];
        let steps = [point, none, note].concat();
        let case = Case { group: OLD_GROUP.to_vec(), steps: steps.clone() };
        let old = "point 1 0\nstep 2 8\nstep 3 0\ncab 1 normal 0 100\ncab 2 normal 0 50\n";
        let cabinets = "cab 1 normal 0 100 0 0\ncab 2 normal 0 50 0 0\n";
        let new = format!("point 1 0\nstep 2 8\nstep 3 15\n{cabinets}");
        let converted = as_it_reads_now(Form::Plan, &case, old, NO_CARD);
        assert_eq!(converted, Ok((Case { group: GROUP.to_vec(), steps }, new)));
    }

    /// Of packet version 2, where the header is longer.
    fn with_sixth_number(file: &[u8]) -> Vec<u8> {
        let mut file = [&file[..10], &[0, 2], &file[10..]].concat();
        [5, 7, 9].into_iter().for_each(|place| file[place] += 2);
        file
    }

    #[test]
    fn a_case_of_card_2_and_later_gets_the_workshop() {
        let note = |octet: u8| [2, 1, 0, octet, 0, 5];
        let steps = [note(3), note(4), note(5), note(6)].concat();
        let old = "step 1 15\nstep 2 0\nstep 3 0\nstep 4 0\ncab 1 normal 0 100 7\ncab 2 failed\n";
        let new =
            "step 1 15\nstep 2 15\nstep 3 15\nstep 4 0\ncab 1 normal 0 100 7 0\ncab 2 failed\n";
        let mut group = GROUP.to_vec();
        group[15] = 7;
        let old_group = GROUP_OF_CARD_2.to_vec();
        let two = (with_sixth_number(&old_group), with_sixth_number(&group));
        for (card, (old_group, group)) in [(2, (old_group, group)), (8, two)] {
            let case = Case { group: old_group, steps: steps.clone() };
            let widened = Case { group, steps: steps.clone() };
            let converted = as_it_reads_now(Form::Steps, &case, old, card);
            assert_eq!(converted, Ok((widened, new.to_string())));
        }
    }

    #[test]
    fn a_store_has_nothing_of_notes_at_bookings() {
        let note = |octet: u8| Operation::Step([2, 1, 0, octet, 0, 5]);
        let operations = [Operation::Point([2, 1, 0, 4, 0, 5, 0, 0]), note(4), note(6), note(5)];
        let store = |octets: &str, answer: u8, bookings: &str| {
            let answers = format!("0\n{answer}\n0\n15\ncab 1 normal 0 {bookings}\ncab 2 failed\n");
            format!("{answers}image 1 {octets}\nslot 1 0 {octets}\nimage 2 -\n")
        };
        let old = store("0064000705050500", 0, "100 7");
        let new = store("0064000700000500", 15, "100 7 0");
        assert_eq!(widened_store(&operations, &old, 8), new);
        assert_eq!(widened_store(&operations, "load 4\n", 8), "load 4\n");
    }

    #[test]
    fn a_line_of_word_stays() {
        let case = Case { group: GROUP_OF_CARD_2.to_vec(), steps: vec![2, 1, 0, 4, 0, 5] };
        let converted = as_it_reads_now(Form::Word, &case, "word 1 3\n", 8);
        assert_eq!(converted.map(|(_, text)| text), Ok("word 1 3\n".to_string()));
    }

    #[test]
    fn a_case_of_card_9_gets_an_octet_for_the_partner() {
        let mut group = GROUP.to_vec();
        (group[15], group[17]) = (7, 9);
        let text = "step 1 15\ncab 1 normal 0 100 7 9\ncab 2 normal 0 50 0 0\n".to_string();
        let steps = vec![2, 1, 0, 5, 0, 5];
        let two = (with_sixth_number(&GROUP_OF_CARD_9), with_sixth_number(&group));
        for (old_group, group) in [(GROUP_OF_CARD_9.to_vec(), group), two] {
            let case = Case { group: old_group, steps: steps.clone() };
            let widened = Case { group, steps: steps.clone() };
            let converted = as_it_reads_now(Form::Steps, &case, &text, 9);
            assert_eq!(converted, Ok((widened, text.clone())));
        }
        let refused = Case { group: GROUP.to_vec(), steps };
        let converted = as_it_reads_now(Form::Steps, &refused, "load 3\n", 9);
        assert_eq!(converted, Err(LeftOut::RightByNewOffsets));
    }

    #[test]
    fn a_case_of_now_stays() {
        let case = Case { group: GROUP.to_vec(), steps: vec![2, 1, 0, 4, 0, 5] };
        let text = "step 1 15\ncab 1 normal 0 100 0 0\ncab 2 normal 0 50 0 0\n".to_string();
        let converted = as_it_reads_now(Form::Steps, &case, &text, LAST_CARD);
        assert_eq!(converted, Ok((case, text)));
    }

    #[test]
    fn a_case_with_a_send_of_the_workshop_is_left_out() {
        let send = [1, 1, 2, WORKSHOP_P, 0, 5];
        let left_out = Err(LeftOut::SendOfTheWorkshop);
        for card in [2, 7, 8] {
            assert_eq!(stands_since(card, Form::Steps, &send, "step 1 15\n"), left_out);
            assert_eq!(stands_since(card, Form::Steps, &send, "load 4\n"), Ok(()));
        }
        assert_eq!(stands_since(LAST_CARD, Form::Steps, &send, "step 1 16\n"), Ok(()));
    }

    #[test]
    fn a_case_with_a_fifth_packet_is_left_out() {
        let sends = |count: usize| [1, 1, 2, 0, 0, 5].repeat(count);
        let fifth = Err(LeftOut::FifthPacket);
        let deliver = [4, 1, 2, 0, 0, 0];
        for card in [2, 7, 8] {
            for form in [Form::Steps, Form::Word] {
                assert_eq!(stands_since(card, form, &sends(4), ""), Ok(()));
                assert_eq!(stands_since(card, form, &sends(5), ""), fifth);
                let between = [&sends(4)[..], &deliver, &sends(1)].concat();
                assert_eq!(stands_since(card, form, &between, ""), Ok(()));
            }
        }
        let plan: Vec<u8> = [0, 1, 1, 2, 0, 0, 5, 0, 0].repeat(5);
        assert_eq!(stands_since(8, Form::Plan, &plan, ""), fifth);
        assert_eq!(stands_since(8, Form::Plan, &plan[..36], ""), Ok(()));
        assert_eq!(stands_since(LAST_CARD, Form::Steps, &sends(5), ""), Ok(()));
        let case = Case { group: OLD_GROUP.to_vec(), steps: sends(5) };
        let converted = as_it_reads_now(Form::Steps, &case, "", NO_CARD);
        assert_eq!(converted.map(|_| ()), fifth);
    }

    #[test]
    fn a_file_refused_for_what_it_holds_is_widened() {
        let no_home = changed_files(10, 10, 3);
        let link_to_itself = changed_files(19, 29, 1);
        let overbooked = changed_files(12, 12, 255);
        for ((old, new), answer) in [(no_home, 4), (link_to_itself, 5), (overbooked, 7)] {
            let text = format!("load {answer}\n");
            let (case, converted_text) = converted_file(&old, &text).expect("it is not left out");
            assert_eq!((case.group, converted_text), (new, text));
        }
        let mut no_link = OLD_GROUP[..18].to_vec();
        (no_link[3], no_link[9]) = (0, 18);
        let mut widened = GROUP[..28].to_vec();
        (widened[3], widened[9]) = (0, 28);
        let (case, text) = converted_file(&no_link, "load 6\n").expect("it is not left out");
        assert_eq!((case.group, text), (widened, "load 6\n".to_string()));
    }

    #[test]
    fn a_file_refused_for_its_layout_stays() {
        let nine_cabinets = changed_files(1, 1, 9).0;
        let wrong_length = changed_files(9, 9, 21).0;
        let files = [(&OLD_GROUP[..9], 1), (&nine_cabinets, 2), (&wrong_length, 3)];
        for (file, answer) in files {
            let text = format!("load {answer}\n");
            let case = Case { group: file.to_vec(), steps: vec![1, 1, 2, 1, 0, 5] };
            assert_eq!(converted_file(file, &text), Ok((case, text)));
        }
    }

    #[test]
    fn a_file_that_has_come_right_is_left_out() {
        let left_out = |file: &[u8]| converted_file(file, "load 3\n").err();
        assert_eq!(left_out(&GROUP), Some(LeftOut::RightByNewOffsets));
        assert_eq!(left_out(&GROUP_OF_CARD_2), None);
        assert_eq!(left_out(&GROUP_OF_CARD_9), None);
        assert_eq!(left_out(&GROUP[..29]), None);
        for number in [3, 5, 7, 9] {
            let mut file = GROUP;
            file[number] += 1;
            assert_eq!(left_out(&file), None);
        }
    }

    #[test]
    fn a_case_whose_send_names_outlets_is_left_out() {
        let left_out = |record: [u8; 6]| converted(&[record], "step 1 9\n").err();
        assert_eq!(left_out([1, 1, 2, 1, 0, 5]), Some(LeftOut::SendNamesOutlets));
        assert_eq!(left_out([1, 9, 2, 255, 0, 0]), Some(LeftOut::SendNamesOutlets));
        assert_eq!(left_out([1, 1, 2, 0, 0, 5]), None);
        assert_eq!(left_out([4, 1, 2, 1, 0, 0]), None);
    }

    const NEW_KIND: Result<(), LeftOut> = Err(LeftOut::RecordOfNewKind);
    const WITHDRAWN: Result<(), LeftOut> = Err(LeftOut::RecordOfWithdrawnKind);
    const SHIFTS: Result<(), LeftOut> = Err(LeftOut::DamageNamesShifts);

    fn stands_since(card: u8, form: Form, steps: &[u8], text: &str) -> Result<(), LeftOut> {
        let of_now = card == LAST_CARD;
        let group = if of_now { GROUP.to_vec() } else { GROUP_OF_CARD_2.to_vec() };
        let case = Case { group, steps: steps.to_vec() };
        as_it_reads_now(form, &case, text, card).map(|_| ())
    }

    #[test]
    fn a_case_with_a_record_of_a_new_kind_is_left_out() {
        for (kind, card) in [(12, 3), (13, 5), (14, 6)] {
            let records = [[4, 1, 2, 0, 0, 0], [kind, 9, 0, 0, 0, 1]];
            let text = "step 1 18\nstep 2 8\n";
            assert_eq!(converted(&records, text).map(|_| ()), NEW_KIND);
            let steps = records.concat();
            assert_eq!(stands_since(card - 1, Form::Steps, &steps, text), NEW_KIND);
            assert_eq!(stands_since(card, Form::Steps, &steps, text), Ok(()));
            assert_eq!(stands_since(card - 1, Form::Steps, &steps, "load 4\n"), Ok(()));
            assert_eq!(stands_since(card - 1, Form::Steps, &steps[6..11], "step 1 8\n"), Ok(()));
        }
        let unknown = [KINDS + 1, 1, 0, 0, 0, 0];
        assert_eq!(stands_since(2, Form::Steps, &unknown, "step 1 8\n"), Ok(()));
    }

    #[test]
    fn a_case_with_a_record_of_the_withdrawn_kind_is_left_out() {
        let records = [[4, 1, 2, 0, 0, 0], [9, 1, 0, 0, 0, 0]];
        let steps = records.concat();
        let text = "step 1 18\nstep 2 14\n";
        assert_eq!(converted(&records, text).map(|_| ()), WITHDRAWN);
        for card in [2, 3, 5] {
            assert_eq!(stands_since(card, Form::Steps, &steps, text), WITHDRAWN);
            assert_eq!(stands_since(card, Form::Steps, &steps[..11], text), Ok(()));
            assert_eq!(stands_since(card, Form::Steps, &steps, "load 4\n"), Ok(()));
        }
        assert_eq!(stands_since(6, Form::Steps, &steps, text), Ok(()));
    }

    #[test]
    fn a_plan_with_a_step_of_either_is_left_out() {
        let plan = |first: u8, kind: u8, last: u8| [first, kind, 1, 2, 0, 0, 0, 0, last];
        for (kind, left_out) in [(12, NEW_KIND), (9, WITHDRAWN)] {
            let stands =
                |first, last| stands_since(2, Form::Plan, &plan(first, kind, last), "step 1 8\n");
            assert_eq!(stands(0, 0), left_out);
            for (first, last) in [(0, 1), (1, 0), (2, 0), (3, 0)] {
                assert_eq!(stands(first, last), Ok(()));
            }
        }
    }

    #[test]
    fn a_case_whose_damage_names_shifts_is_left_out() {
        for (b, p, left_out) in [(16, 0, SHIFTS), (2, 32, SHIFTS), (15, 31, Ok(()))] {
            let record = [11, 1, b, p, 0, 1];
            assert_eq!(converted(&[record], "step 1 18\n").map(|_| ()), left_out);
            for card in [2, 3, 5, 6] {
                assert_eq!(stands_since(card, Form::Steps, &record, "step 1 18\n"), left_out);
                assert_eq!(stands_since(card, Form::Steps, &record, "load 4\n"), Ok(()));
            }
            assert_eq!(stands_since(LAST_CARD, Form::Steps, &record, "step 1 15\n"), Ok(()));
            let loss = [12, 1, b, p, 0, 0];
            assert_eq!(stands_since(6, Form::Steps, &loss, "step 1 18\n"), Ok(()));
        }
    }

    #[test]
    fn a_file_that_names_packet_version_two_is_left_out() {
        let (old, new) = changed_files(5, 5, 12);
        let left_out = Err(LeftOut::NamesPacketVersionTwo);
        assert_eq!(converted_file(&old, "load 3\n").map(|_| ()), left_out);
        let case = Case { group: new, steps: Vec::new() };
        let stands = |card: u8| as_it_reads_now(Form::Steps, &case, "load 3\n", card).map(|_| ());
        assert_eq!(stands(6), left_out);
        assert_eq!([stands(7), stands(LAST_CARD)], [Ok(()), Ok(())]);
    }
}
