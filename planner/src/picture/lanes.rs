//! A lane for each cabinet in each band, coloured by state, with its name and bookings in front.

use super::events::{At, Events};
use super::layout::{Layout, EDGE};
use super::style::{self, FAINT, INK, QUIET_INK};
use super::svg::{self, Element};
use crate::chronicle::{Cabinet, State};
use crate::packets::Run;
use crate::words;

const NAME_SIZE: f64 = 12.0;
const SMALL_SIZE: f64 = 10.0;

// ---------------------------------------------------------------- behind the lanes

/// Faint lines at every tenth step, so that the numbers below can be found.
pub fn guides(layout: &Layout, band: usize) -> Element {
    let stands = &layout.bands[band];
    let every = if layout.step() >= 24.0 { 1 } else { 10 };
    let at = |k: usize| {
        let x = layout.x(band, k as f64);
        svg::line(x, stands.lanes, x, stands.axis)
    };
    let rows = (stands.first..=stands.last).filter(|k| k % every == 0);
    svg::group().set("stroke", FAINT).number("stroke-width", 1.0).children(rows.map(at))
}

// ---------------------------------------------------------------- states

/// The rows in which a cabinet stays in one state, within one band.
struct Stay {
    state: State,
    from: f64,
    to: f64,
    first: usize,
    last: usize,
}

fn stays(run: &Run, layout: &Layout, band: usize, cabinet: usize) -> Vec<Stay> {
    let (start, end) = layout.moments(band);
    let mut stays: Vec<Stay> = Vec::new();
    for k in layout.bands[band].first - 1..=layout.bands[band].last {
        let state = run.row(k).cabinets[cabinet - 1].state;
        let from = (k as f64).max(start);
        match stays.last_mut() {
            Some(stay) if stay.state == state => stay.last = k,
            Some(stay) => {
                stay.to = from;
                stays.push(Stay { state, from, to: end, first: k, last: k });
            }
            None => stays.push(Stay { state, from, to: end, first: k, last: k }),
        }
    }
    stays
}

pub fn lane(run: &Run, layout: &Layout, band: usize, cabinet: usize) -> Element {
    let y = layout.bands[band].lanes + layout.lane(cabinet);
    let bars = stays(run, layout, band, cabinet);
    let draw = |stay: &Stay| {
        let (from, to) = (layout.x(band, stay.from), layout.x(band, stay.to));
        let rows = if stay.first == stay.last {
            format!("after step {}", stay.last)
        } else {
            format!("after steps {} to {}", stay.first, stay.last)
        };
        let tip = format!("cabinet {cabinet}: {}, {rows}", words::state(stay.state));
        svg::group()
            .child(bar(stay.state, from, to, y))
            .children(inscription(stay.state, from, to, y))
            .tip(&tip)
    };
    svg::group().set("class", "lane").children(bars.iter().map(draw))
}

pub fn bar(state: State, from: f64, to: f64, y: f64) -> Element {
    let look = style::bar(state);
    if state == State::Failed {
        return svg::line(from, y, to, y)
            .set("stroke", QUIET_INK)
            .number("stroke-width", 1.5)
            .set("stroke-dasharray", "1.5 4");
    }
    svg::rect(from, y - look.height / 2.0, to - from, look.height)
        .set("fill", &look.paint())
        .set("stroke", INK)
        .number("stroke-width", if state == State::Normal { 0.0 } else { 0.6 })
}

/// The state's word in its bar, where it fits.
fn inscription(state: State, from: f64, to: f64, y: f64) -> Option<Element> {
    let look = style::bar(state);
    let word = words::state(state);
    let width = svg::label_width(word, SMALL_SIZE) + 10.0;
    if look.height < SMALL_SIZE || to - from < width + 14.0 {
        return None;
    }
    let label = svg::label((from + to) / 2.0, y + 3.5, word)
        .set("text-anchor", "middle")
        .set("fill", look.ink)
        .set("stroke", look.fill)
        .number("stroke-width", 3.5)
        .set("paint-order", "stroke")
        .set("stroke-linejoin", "round")
        .number("font-size", SMALL_SIZE);
    Some(label)
}

/// Ticks below the bar for pieces, reports and notes.
pub fn small_steps(run: &Run, events: &Events, layout: &Layout) -> Element {
    let tick = |at: &At| {
        let state = run.row(at.k).cabinets[at.cabinet - 1].state;
        let low = layout.y_of(at.k, at.cabinet) + style::bar(state).height / 2.0;
        small_mark(layout.x_of(at.k), low)
    };
    svg::group().children(events.small.iter().map(tick))
}

/// A tick that hangs from this height.
pub fn small_mark(x: f64, y: f64) -> Element {
    svg::line(x, y, x, y + 4.0).set("stroke", INK).number("stroke-width", 1.4)
}

// ---------------------------------------------------------------- labels

/// The cabinet's name and what it has booked as the band begins.
pub fn name(run: &Run, layout: &Layout, band: usize, cabinet: usize) -> Element {
    let stands = &layout.bands[band];
    let y = stands.lanes + layout.lane(cabinet);
    let x = layout.labels_left();
    let then = &run.row(stands.first - 1).cabinets[cabinet - 1];
    svg::group()
        .child(
            svg::label(x, y - 1.0, &format!("cabinet {cabinet}"))
                .set("fill", INK)
                .set("font-weight", "600")
                .number("font-size", NAME_SIZE),
        )
        .child(
            svg::label(x, y + 11.0, &bookings(then))
                .set("fill", QUIET_INK)
                .number("font-size", SMALL_SIZE),
        )
}

/// What each has booked at the end, behind the last band.
pub fn final_bookings(run: &Run, layout: &Layout) -> Element {
    let band = layout.bands.len() - 1;
    let x = layout.x(band, layout.moments(band).1) + EDGE;
    let cabinets = (1..).zip(&run.last_row().cabinets);
    let at = |(number, cabinet): (usize, &Cabinet)| {
        svg::label(x, layout.bands[band].lanes + layout.lane(number) + 3.5, &bookings(cabinet))
    };
    svg::group().set("fill", QUIET_INK).number("font-size", SMALL_SIZE).children(cabinets.map(at))
}

fn bookings(cabinet: &Cabinet) -> String {
    match &cabinet.working {
        None => "failed".into(),
        Some(working) => {
            let [a, b, w] = working.bookings;
            format!("A {a} B {b} W {w}")
        }
    }
}
