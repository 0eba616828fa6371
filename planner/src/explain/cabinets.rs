//! What changed at the cabinets between two rows, and the table of them.

use super::page::Page;
use crate::chronicle::{Cabinet, Row, State, Version, Working};
use crate::words;

// ---------------------------------------------------------------- changes

/// A line for each change, cabinets that changed alike together.
pub fn changes(before: &Row, after: &Row) -> Vec<String> {
    let cabinets = (1..).zip(before.cabinets.iter().zip(&after.cabinets));
    let changes = words::alike(cabinets.map(|(number, (old, new))| (number, change(old, new))));
    changes.iter().map(|(who, change)| format!("{}: {change}", words::cabinets(who))).collect()
}

fn change(old: &Cabinet, new: &Cabinet) -> String {
    let mut parts = Vec::new();
    if let (Some(was), Some(is)) = (&old.working, &new.working) {
        parts.extend(pieces(old.state, was, is));
    }
    parts.extend(state(old, new));
    if let (Some(was), Some(is)) = (&old.working, &new.working) {
        parts.extend(notes(was, is));
        parts.extend(bookings(was, is));
    }
    parts.join(", ")
}

/// Entering error is told by the lines that are emptied for it; a cabinet that knows its version
/// goes on to recovering in the same record.
fn state(old: &Cabinet, new: &Cabinet) -> Option<String> {
    let (was, is) = (words::state(old.state), words::state(new.state));
    let place = new.working.and_then(|working| working.place);
    match (place, new.state) {
        (_, State::Crashed) if old.state != State::Crashed => Some("crashed".into()),
        (Some(place), State::Error) if new.emptied_out => {
            Some(format!("{was} → error ({})", words::place(place)))
        }
        (Some(place), State::Recovering) if new.emptied_out => {
            Some(format!("{was} → error ({}) → recovering", words::place(place)))
        }
        (_, State::Checkpointing) if new.cut => Some(format!("{was} → {is}, its cut")),
        _ if old.state != new.state => Some(format!("{was} → {is}")),
        _ => None,
    }
}

fn pieces(state: State, was: &Working, is: &Working) -> Option<String> {
    if is.pieces <= was.pieces {
        return None;
    }
    let done = if state == State::Recovering { "fetched" } else { "written" };
    Some(format!("piece {} of 4 {done}", is.pieces))
}

fn notes(was: &Working, is: &Working) -> Vec<String> {
    let mut notes = Vec::new();
    if known(was.version) != known(is.version) {
        notes.push(format!("version {} → {}", known(was.version), known(is.version)));
    }
    if was.coordinator != is.coordinator {
        notes.push(format!("coordinator {} → {}", was.coordinator, is.coordinator));
    }
    if was.home != is.home {
        notes.push(format!("home {} → {}", was.home, is.home));
    }
    notes
}

fn known(version: Version) -> String {
    match version {
        Version::Known(known) => known.to_string(),
        Version::Unknown(_) => "unknown".into(),
    }
}

fn bookings(was: &Working, is: &Working) -> Vec<String> {
    let each = ["A", "B", "W"].iter().zip(was.bookings.iter().zip(&is.bookings));
    each.filter(|(_, (was, is))| was != is)
        .map(|(name, (was, is))| format!("{name} {was} → {is}"))
        .collect()
}

// ---------------------------------------------------------------- the table

const HEADING: [&str; 8] = ["cabinet", "state", "version", "A", "B", "W", "coordinator", "home"];

/// The column of words; all others hold numbers and stand to the right.
const STATE_COLUMN: usize = 1;

pub fn table(page: &mut Page, row: &Row) {
    let mut lines = vec![HEADING.map(String::from).to_vec()];
    lines.extend((1..).zip(&row.cabinets).map(|(number, cabinet)| cells(number, cabinet)));
    let width = |column: usize| {
        lines.iter().filter_map(|cells| cells.get(column)).map(String::len).max().unwrap_or(0)
    };
    let widths: Vec<usize> = (0..HEADING.len()).map(width).collect();
    lines.iter().for_each(|cells| page.as_it_is(&laid_out(cells, &widths)));
}

fn cells(number: usize, cabinet: &Cabinet) -> Vec<String> {
    let mut cells = vec![number.to_string(), words::state(cabinet.state).to_string()];
    if let Some(working) = &cabinet.working {
        cells.push(words::version(working.version));
        cells.extend(working.bookings.iter().map(u16::to_string));
        cells.extend([working.coordinator.to_string(), working.home.to_string()]);
    }
    cells
}

fn laid_out(cells: &[String], widths: &[usize]) -> String {
    let cell = |(column, (cell, &width)): (usize, (&String, &usize))| {
        if column == STATE_COLUMN {
            format!("  {cell:<width$}")
        } else {
            format!("  {cell:>width$}")
        }
    };
    cells.iter().zip(widths).enumerate().map(cell).collect()
}
