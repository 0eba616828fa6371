//! Packets, as lines from the sender's lane where they are put to where they leave their line.

use super::layout::{Layout, EDGE};
use super::shapes::cross;
use super::style::{self, Stroke, INK, PAPER, VERMILLION};
use super::svg::{self, Element};
use crate::chronicle::{Outlet, Packet};
use crate::packets::{End, Journey, Run};
use crate::words;
use std::collections::HashMap;

/// How far from the receiver's lane a packet stops that does not come there.
const SHORT_STOP: f64 = 9.0;
/// How far from each other those stop that stop at one moment.
const APART: f64 = 4.0;
const MOST_APART: usize = 3;
const LABEL_SIZE: f64 = 10.0;
/// Steps are wide enough from here on for words at the lines.
const STEP_FOR_WORDS: f64 = 30.0;

/// Moments counted in steps, heights below the top of all lanes.
struct Flight {
    put: f64,
    left: f64,
    from_y: f64,
    to_y: f64,
}

impl Flight {
    /// `ahead` packets stop on the same line at the same moment, nearer to the receiver.
    fn new(journey: &Journey, ahead: usize, layout: &Layout) -> Flight {
        let (from, to) = (layout.lane(journey.from), layout.lane(journey.to));
        let way = (to - from).signum();
        let short = match journey.end {
            End::Taken | End::Dropped | End::FoundFaulty => 0.0,
            End::Lost | End::Emptied | End::OnTheWay => {
                SHORT_STOP + ahead.min(MOST_APART) as f64 * APART
            }
        };
        let after = if journey.end == End::OnTheWay { 0.5 } else { 0.0 };
        Flight {
            put: journey.put as f64,
            left: journey.left as f64 + after,
            from_y: from + way * EDGE,
            to_y: to - way * (EDGE + short),
        }
    }

    fn height(&self, moment: f64) -> f64 {
        let part = (moment - self.put) / (self.left - self.put).max(f64::MIN_POSITIVE);
        self.from_y + (self.to_y - self.from_y) * part
    }
}

/// Each journey with its flight, in order.
fn flights<'a>(run: &'a Run, layout: &Layout) -> Vec<(&'a Journey, Flight)> {
    let mut stopped: HashMap<(usize, usize, usize), usize> = HashMap::new();
    let flight = |journey: &'a Journey| {
        let stop = stopped.entry((journey.from, journey.to, journey.left)).or_default();
        let ahead = *stop;
        *stop += 1;
        (journey, Flight::new(journey, ahead, layout))
    };
    run.journeys.iter().map(flight).collect()
}

pub fn packets(run: &Run, layout: &Layout) -> Element {
    let flights = flights(run, layout);
    svg::group()
        .set("class", "packets")
        .children(flights.iter().map(|(journey, flight)| packet(journey, flight, layout)))
}

fn packet(journey: &Journey, flight: &Flight, layout: &Layout) -> Element {
    let mut drawn = svg::group().set("class", "packet");
    if journey.end == End::Dropped {
        drawn = drawn.number("opacity", 0.55);
    }
    let mut since = flight.put;
    let mut stroke = style::stroke(&journey.packet, false);
    for &(row, ref packet) in &journey.damaged {
        drawn = drawn.children(stretches(flight, since, row as f64, stroke, layout));
        since = row as f64;
        stroke = style::stroke(packet, true);
    }
    drawn = drawn.children(stretches(flight, since, flight.left, stroke, layout));
    let bursts = journey.damaged.iter().map(|&(row, _)| {
        let at = layout.bands[layout.band_of(row)].lanes + flight.height(row as f64);
        damage_mark(layout.x_of(row), at)
    });
    drawn.children(bursts).child(end_mark(journey, flight, stroke, layout)).tip(&told(journey))
}

/// A part of a flight, cut where a band ends.
fn stretches(flight: &Flight, from: f64, to: f64, stroke: Stroke, layout: &Layout) -> Vec<Element> {
    let bands = layout.band_of(from.ceil() as usize)..=layout.band_of(to.floor() as usize);
    bands
        .filter_map(|band| {
            let (start, end) = layout.moments(band);
            let (from, to) = (from.max(start), to.min(end));
            let top = layout.bands[band].lanes;
            let (x1, x2) = (layout.x(band, from), layout.x(band, to));
            let (y1, y2) = (top + flight.height(from), top + flight.height(to));
            (from < to).then(|| stroke.on(svg::line(x1, y1, x2, y2)))
        })
        .collect()
}

fn told(journey: &Journey) -> String {
    let Journey { from, to, put, left, .. } = journey;
    let mut words = format!(
        "{} from cabinet {from} to cabinet {to}, put in step {put}",
        words::packet(&journey.packet)
    );
    for (row, packet) in &journey.damaged {
        words.push_str(&format!(", damaged in step {row} ({})", words::packet(packet)));
    }
    words
        + &match journey.end {
            End::Taken => format!(", taken in step {left}"),
            End::Dropped => format!(", dropped in step {left}"),
            End::FoundFaulty => format!(", a link fault found at it in step {left}"),
            End::Lost => format!(", lost in step {left}"),
            End::Emptied => format!(", gone with its line in step {left}"),
            End::OnTheWay => ", still on the way".into(),
        }
}

// ---------------------------------------------------------------- ends

fn end_mark(journey: &Journey, flight: &Flight, stroke: Stroke, layout: &Layout) -> Element {
    let band = layout.band_of(journey.left);
    let x = layout.x(band, flight.left);
    let y = layout.bands[band].lanes + flight.to_y;
    let (dx, dy) = ((flight.left - flight.put) * layout.step(), flight.to_y - flight.from_y);
    end_shape(journey.end, (x, y), (dx, dy), stroke.colour)
}

/// The mark for an end, of a line that came in this direction.
pub fn end_shape(end: End, (x, y): (f64, f64), (dx, dy): (f64, f64), colour: &str) -> Element {
    let length = dx.hypot(dy).max(0.1);
    let (ux, uy) = (dx / length, dy / length);
    match end {
        End::Taken => {
            let corner = |back: f64, side: f64| (-ux * back - uy * side, -uy * back + ux * side);
            svg::polygon(x, y, &[(0.0, 0.0), corner(7.0, 2.8), corner(7.0, -2.8)])
                .set("fill", colour)
        }
        End::Dropped => svg::circle(x, y, 2.8)
            .set("fill", PAPER)
            .set("stroke", colour)
            .number("stroke-width", 1.2),
        End::FoundFaulty => diamond(x, y),
        End::Lost => cross(x, y, 3.5, INK, 1.8),
        End::Emptied => svg::line(x - uy * 4.0, y + ux * 4.0, x + uy * 4.0, y - ux * 4.0)
            .set("stroke", colour)
            .number("stroke-width", 2.0),
        End::OnTheWay => {
            let chevron = format!(
                "M{},{} L{},{} L{},{}",
                svg::rounded(x - 4.0),
                svg::rounded(y - 3.5),
                svg::rounded(x),
                svg::rounded(y),
                svg::rounded(x - 4.0),
                svg::rounded(y + 3.5)
            );
            svg::path(&chevron)
                .set("fill", "none")
                .set("stroke", colour)
                .number("stroke-width", 1.4)
        }
    }
}

fn diamond(x: f64, y: f64) -> Element {
    svg::polygon(x, y, &[(0.0, -5.0), (5.0, 0.0), (0.0, 5.0), (-5.0, 0.0)])
        .set("fill", VERMILLION)
        .set("stroke", INK)
        .number("stroke-width", 1.0)
}

/// A star where a packet was damaged.
pub fn damage_mark(x: f64, y: f64) -> Element {
    const ARMS: usize = 5;
    let corner = |place: usize| {
        let angle = place as f64 * std::f64::consts::PI / ARMS as f64;
        let radius = if place.is_multiple_of(2) { 6.0 } else { 2.4 };
        (radius * angle.sin(), -radius * angle.cos())
    };
    let corners: Vec<(f64, f64)> = (0..2 * ARMS).map(corner).collect();
    svg::polygon(x, y, &corners)
        .set("fill", VERMILLION)
        .set("stroke", INK)
        .number("stroke-width", 0.8)
}

// ---------------------------------------------------------------- words at the lines

/// A box that a label takes up, by its middle.
struct Taken {
    x: f64,
    y: f64,
    width: f64,
}

impl Taken {
    fn meets(&self, other: &Taken) -> bool {
        (self.x - other.x).abs() < (self.width + other.width) / 2.0
            && (self.y - other.y).abs() < LABEL_SIZE + 2.0
    }
}

/// What the packets are, where steps are wide enough and no other label stands there.
pub fn names(run: &Run, layout: &Layout) -> Element {
    let named = svg::group().number("font-size", LABEL_SIZE).set("text-anchor", "middle");
    if layout.step() < STEP_FOR_WORDS {
        return named;
    }
    let flights = flights(run, layout);
    let mut taken: Vec<Taken> =
        flights.iter().flat_map(|(j, f)| hurt_places(j, f, layout)).collect();
    let mut labels = Vec::new();
    for (journey, flight) in &flights {
        let words = short_name(journey);
        let Some(free) = free_place(flight, &words, layout, &taken) else { continue };
        let colour = style::stroke(&journey.packet, false).colour;
        labels.push(name_at(&free, &words, colour));
        taken.push(free);
    }
    named.children(labels)
}

/// What the stars for damage take up.
fn hurt_places(journey: &Journey, flight: &Flight, layout: &Layout) -> Vec<Taken> {
    let star = |&(row, _): &(usize, Packet)| {
        let y = layout.bands[layout.band_of(row)].lanes + flight.height(row as f64);
        Taken { x: layout.x_of(row), y, width: 14.0 }
    };
    journey.damaged.iter().map(star).collect()
}

fn name_at(place: &Taken, words: &str, colour: &str) -> Element {
    svg::label(place.x, place.y + 3.5, words)
        .set("fill", colour)
        .set("stroke", PAPER)
        .number("stroke-width", 4.0)
        .set("paint-order", "stroke")
        .set("stroke-linejoin", "round")
}

fn short_name(journey: &Journey) -> String {
    match journey.packet {
        Packet::Normal { outlet, amount } => {
            let to = match outlet {
                Outlet::A => "A",
                Outlet::B => "B",
                Outlet::Workshop => "W",
            };
            format!("{amount} A to {to}")
        }
        Packet::Recover(version) => format!("recover {version}"),
        Packet::Fault(_) => "fault".into(),
        ref other => words::packet(other),
    }
}

fn free_place(flight: &Flight, words: &str, layout: &Layout, taken: &[Taken]) -> Option<Taken> {
    let width = svg::label_width(words, LABEL_SIZE);
    [0.5, 0.4, 0.6, 0.3, 0.7, 0.2, 0.8].into_iter().find_map(|part| {
        let moment = flight.put + (flight.left - flight.put) * part;
        let band = layout.band_of(moment.round() as usize);
        let y = flight.height(moment);
        let from_lane = (y / layout.pitch).rem_euclid(1.0) - 0.5;
        let clear_of_lanes = from_lane.abs() * layout.pitch > EDGE + LABEL_SIZE / 2.0 + 3.0;
        let place = Taken { x: layout.x(band, moment), y: layout.bands[band].lanes + y, width };
        (clear_of_lanes && !taken.iter().any(|other| other.meets(&place))).then_some(place)
    })
}
