//! What the picture's colours, lines and marks mean: only those that are in it.

use super::events::{Events, Trouble};
use super::lanes::{self, bar};
use super::shapes;
use super::style::{self, GREEN, INK, QUIET_INK, STROKES, VERMILLION};
use super::svg::{self, Element};
use super::traffic;
use crate::chronicle::State;
use crate::packets::{End, Journey, Run};
use crate::words;

const SIZE: f64 = 11.0;
const ROW: f64 = 26.0;
const HEADING: f64 = 78.0;
const SAMPLE: f64 = 34.0;

/// A sample and its name; a sample is drawn around the middle that it is given.
struct Entry {
    sample: Box<dyn Fn(f64, f64) -> Element>,
    name: String,
}

impl Entry {
    fn new(name: &str, sample: impl Fn(f64, f64) -> Element + 'static) -> Entry {
        Entry { sample: Box::new(sample), name: name.into() }
    }
}

/// The legend, below `top`, and its height.
pub fn legend(run: &Run, events: &Events, left: f64, top: f64, right: f64) -> (Element, f64) {
    let parts = [
        ("States", states(run)),
        ("Packets", packets(run)),
        ("Their ends", ends(run)),
        ("Marks", group_marks(events)),
        ("", step_marks(events)),
    ];
    let mut drawn = svg::group().set("class", "legend").number("font-size", SIZE);
    let mut y = top;
    for (heading, entries) in parts.into_iter().filter(|(_, entries)| !entries.is_empty()) {
        let title =
            svg::label(left, y + 4.0, heading).set("fill", QUIET_INK).set("font-weight", "600");
        drawn = drawn.child(title);
        let mut x = left + HEADING;
        for entry in entries {
            let width = SAMPLE + 8.0 + svg::label_width(&entry.name, SIZE) + 18.0;
            if x + width > right && x > left + HEADING {
                x = left + HEADING;
                y += ROW;
            }
            drawn = drawn
                .child((entry.sample)(x + SAMPLE / 2.0, y))
                .child(svg::label(x + SAMPLE + 8.0, y + 4.0, &entry.name).set("fill", INK));
            x += width;
        }
        y += ROW;
    }
    (drawn, y - top)
}

fn states(run: &Run) -> Vec<Entry> {
    let there = |state: &State| {
        run.chronicle.rows.iter().any(|row| row.cabinets.iter().any(|c| c.state == *state))
    };
    State::ALL
        .into_iter()
        .filter(there)
        .map(|state| {
            Entry::new(words::state(state), move |x, y| {
                bar(state, x - SAMPLE / 2.0, x + SAMPLE / 2.0, y)
            })
        })
        .collect()
}

fn packets(run: &Run) -> Vec<Entry> {
    let mut entries = Vec::new();
    let looks = |journey: &Journey| {
        let put = style::stroke(&journey.packet, false);
        let hurt = journey.damaged.iter().map(|(_, packet)| style::stroke(packet, true));
        [put].into_iter().chain(hurt).collect::<Vec<_>>()
    };
    for stroke in STROKES {
        if run.journeys.iter().any(|journey| looks(journey).contains(&stroke)) {
            entries.push(Entry::new(stroke.name, move |x, y| {
                stroke.on(svg::line(x - SAMPLE / 2.0, y, x + SAMPLE / 2.0, y))
            }));
        }
    }
    entries
}

fn ends(run: &Run) -> Vec<Entry> {
    let all = [
        (End::Taken, "taken"),
        (End::Dropped, "dropped"),
        (End::FoundFaulty, "a link fault found"),
        (End::Lost, "lost"),
        (End::Emptied, "gone with its line"),
        (End::OnTheWay, "on the way"),
    ];
    let mut entries = Vec::new();
    for (end, name) in all {
        if run.journeys.iter().any(|journey| journey.end == end) {
            entries.push(Entry::new(name, move |x, y| {
                let line = svg::line(x - SAMPLE / 2.0, y, x + 8.0, y).set("stroke", INK);
                let mark = traffic::end_shape(end, (x + 8.0, y), (1.0, 0.0), INK);
                svg::group().child(line).child(mark)
            }));
        }
    }
    if run.journeys.iter().any(|journey| !journey.damaged.is_empty()) {
        entries.push(Entry::new("damaged here", traffic::damage_mark));
    }
    entries
}

fn group_marks(events: &Events) -> Vec<Entry> {
    let mut entries = Vec::new();
    let mut add = |there: bool, name: &str, sample: fn(f64, f64) -> Element| {
        if there {
            entries.push(Entry::new(name, sample));
        }
    };
    let has = |trouble: Trouble| events.troubles.iter().any(|&(_, other)| other == trouble);
    add(!events.begins.is_empty(), "begin", shapes::begin_mark);
    add(events.cuts.iter().any(|cuts| !cuts.is_empty()), "cut", shapes::cut_mark);
    add(events.cuts.iter().any(|cuts| cuts.len() > 1), "the cuts of one save", |x, y| {
        shapes::cut_line((x - SAMPLE / 2.0, y), (x + SAMPLE / 2.0, y))
    });
    add(!events.commits.is_empty(), "commit", shapes::commit_mark);
    let over = events.commits.iter().any(|commit| commit.passed_over.is_some());
    add(over, "commit passed over later", shapes::passed_over_mark);
    add(has(Trouble::EnteredError), "enters error", shapes::fault_mark);
    add(has(Trouble::Failed), "fails", shapes::fail_mark);
    add(has(Trouble::Tripped), "trips", shapes::trip_mark);
    add(!events.ends.is_empty(), "recovery's end", shapes::end_mark);
    add(!events.ends.is_empty(), "to the save that came back", back_sample);
    entries
}

fn back_sample(x: f64, y: f64) -> Element {
    let line = svg::line(x - 10.0, y, x + SAMPLE / 2.0, y)
        .set("stroke", GREEN)
        .number("stroke-width", 2.0);
    let head = svg::polygon(x - 16.0, y, &[(0.0, 0.0), (8.0, -4.0), (8.0, 4.0)]).set("fill", GREEN);
    svg::group().child(line).child(head)
}

fn step_marks(events: &Events) -> Vec<Entry> {
    let mut entries = Vec::new();
    let mut add = |there: bool, name: &str, sample: fn(f64, f64) -> Element| {
        if there {
            entries.push(Entry::new(name, sample));
        }
    };
    add(!events.small.is_empty(), "a piece, a report or a note", |x, y| {
        lanes::small_mark(x, y - 2.0)
    });
    add(!events.points.is_empty(), "point taken", shapes::point_mark);
    add(!events.returns.is_empty(), "return to a point", shapes::return_mark);
    add(!events.refused.is_empty(), "refused, by its number", |x, y| {
        shapes::cross(x, y, 3.5, VERMILLION, 1.8)
    });
    add(events.crash.is_some(), "the group crashes", shapes::fail_mark);
    entries
}
