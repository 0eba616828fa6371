//! What the row before a refusal or a crash shows of it, to stand beside the documents' reason.

use crate::chronicle::{Cabinet, Row, State, Working};
use crate::packets::Run;
use crate::words::{self, Record, Step, CRASHED};

/// Empty where there is nothing to add.
pub fn beside(run: &Run, k: usize) -> String {
    let (record, before, answer) = (run.record(k), run.row(k - 1), run.row(k).answer);
    match record {
        Record::Step(step) => refused_step(step, before, answer).unwrap_or_default(),
        Record::Point(_) | Record::Return(_) if answer == 22 => not_quiet(before),
        _ => String::new(),
    }
}

fn cabinet(row: &Row, number: u8) -> Option<(&Cabinet, &Working)> {
    let cabinet = row.cabinets.get(usize::from(number).checked_sub(1)?)?;
    Some((cabinet, cabinet.working.as_ref()?))
}

fn refused_step(step: &Step, before: &Row, answer: u8) -> Option<String> {
    let (own, working) = cabinet(before, step.a)?;
    match (step.kind, answer) {
        (words::BEGIN, 14) => {
            Some(format!("it is in {}, its coordinator is {}", state(own), working.coordinator))
        }
        (words::UNSURE, 14) => {
            let place = working.place.map_or("none".into(), words::place);
            Some(format!("it is in {}, the fault: {place}", state(own)))
        }
        (_, 14) => Some(format!("it is in {}", state(own))),
        (words::SEND, 16) => booking(step, working),
        (words::WRITE | words::FETCH, 19) => at(before, "home", working.home),
        (words::SAVED, 19) => {
            let (_, home) = cabinet(before, working.home)?;
            at(before, &format!("home {}, its coordinator", working.home), home.coordinator)
        }
        (words::RESTORED | words::UNSURE, 19) => at(before, "coordinator", working.coordinator),
        _ => None,
    }
}

fn state(cabinet: &Cabinet) -> &'static str {
    words::state(cabinet.state)
}

/// `home 1 is in error`.
fn at(row: &Row, role: &str, number: u8) -> Option<String> {
    let cabinet = row.cabinets.get(usize::from(number).checked_sub(1)?)?;
    Some(format!("{role} {number} is in {}", state(cabinet)))
}

fn booking(step: &Step, working: &Working) -> Option<String> {
    let (name, place) = match step.p {
        0 | 1 => ("outlet A", 0),
        2 | 3 => ("outlet B", 1),
        4 => ("the workshop", 2),
        _ => return None,
    };
    Some(format!("{name} of cabinet {} has {} A", step.a, working.bookings[place]))
}

fn not_quiet(row: &Row) -> String {
    let busy: Vec<String> = (1..)
        .zip(&row.cabinets)
        .filter(|(_, cabinet)| ![State::Normal, State::Failed].contains(&cabinet.state))
        .map(|(number, cabinet)| format!("cabinet {number} is in {}", state(cabinet)))
        .collect();
    let on_the_way: usize = row.lines.iter().map(Vec::len).sum();
    match (busy.is_empty(), on_the_way) {
        (false, _) => words::listed(&busy),
        (true, 1) => "1 packet is on the way".into(),
        (true, count) => format!("{count} packets are on the way"),
    }
}

/// The documents' cases of a crash for this kind of step, and what the row before shows of them.
pub fn crash(run: &Run, k: usize) -> Vec<String> {
    let (record, before) = (run.record(k), run.row(k - 1));
    let (Record::Step(step), CRASHED) = (record, run.row(k).answer) else { return Vec::new() };
    let kind = words::kind_word(step.kind);
    let mut facts = vec![format!("the cases for {kind}: {}", words::crash_cases(step.kind))];
    facts.push(match in_recovery(before).as_slice() {
        [] => "before it no cabinet was in error, recovering or recovered".into(),
        who => format!("before it {}", words::listed(who)),
    });
    facts.extend(delivered(step, before).map(|packet| format!("the packet was {packet}")));
    facts
}

/// Who is in error, recovering or recovered, and for which fault.
fn in_recovery(row: &Row) -> Vec<String> {
    let open = [State::Error, State::Recovering, State::Recovered];
    let said = (1..).zip(&row.cabinets).map(|(number, cabinet)| {
        let place = cabinet.working.and_then(|working| working.place);
        let place = place.map_or(String::new(), |place| format!(" ({})", words::place(place)));
        let there = open.contains(&cabinet.state);
        (number, if there { format!("in {}{place}", state(cabinet)) } else { String::new() })
    });
    let alike = words::alike(said);
    let told = |(who, what): &(Vec<usize>, String)| {
        let were = if who.len() == 1 { "was" } else { "were" };
        format!("{} {were} {what}", words::cabinets(who))
    };
    alike.iter().map(told).collect()
}

/// The packet that a deliver was about, if it names cabinets that are there.
fn delivered(step: &Step, before: &Row) -> Option<String> {
    let known = |number: u8| (1..=before.cabinets.len()).contains(&usize::from(number));
    if step.kind != words::DELIVER || !known(step.a) || !known(step.b) {
        return None;
    }
    before.line(step.a.into(), step.b.into()).first().map(words::packet)
}
