//! Marks above the lanes for what concerns the whole group: the start, commits, recoveries' ends,
//! points, returns and a crash. From each a line goes down through all lanes.

use super::events::Events;
use super::layout::Layout;
use super::shapes;
use super::style::{BLUE, GREEN, INK, PURPLE};
use super::svg::{self, Element};
use crate::packets::Run;
use crate::words::{self, Record};

const LABEL_SIZE: f64 = 11.0;
/// From a flag's middle to where its words begin.
const BESIDE: f64 = 11.0;
/// How much of the row a flag without words takes up, to each side.
const HALF: f64 = 10.0;

struct Flag {
    k: usize,
    shape: fn(f64, f64) -> Element,
    colour: &'static str,
    words: String,
    /// In place of the words where they have no room.
    short: String,
    struck: bool,
    tip: String,
}

impl Flag {
    fn new(k: usize, shape: fn(f64, f64) -> Element, colour: &'static str, words: &str) -> Flag {
        let tip = format!("{words}, step {k}");
        Flag { k, shape, colour, words: words.into(), short: k.to_string(), struck: false, tip }
    }
}

pub fn flags(run: &Run, events: &Events, layout: &Layout) -> Element {
    let mut flags = vec![Flag::new(0, shapes::start_mark, INK, "start")];
    for commit in &events.commits {
        let words = format!("save of step {}", commit.k);
        let mut flag = Flag::new(commit.k, shapes::commit_mark, BLUE, &words);
        if let Some(over) = commit.passed_over {
            flag.struck = true;
            flag.shape = shapes::passed_over_mark;
            flag.tip.push_str(&format!(", passed over in step {over}"));
        }
        flags.push(flag);
    }
    let ends = events.ends.iter();
    flags.extend(ends.map(|end| Flag::new(end.k, shapes::end_mark, GREEN, "recovery's end")));
    flags.extend(events.points.iter().chain(&events.returns).filter_map(|&k| point(run, k)));
    flags.extend(events.crash.map(|k| Flag::new(k, shapes::fail_mark, INK, "crash")));
    flags.sort_by_key(|flag| flag.k);
    svg::group().set("class", "flags").children(drawn(&flags, layout))
}

fn point(run: &Run, k: usize) -> Option<Flag> {
    let (shape, words, name): (fn(f64, f64) -> Element, _, _) = match run.record(k) {
        Record::Point(name) => (shapes::point_mark, "point", name),
        Record::Return(name) => (shapes::return_mark, "return", name),
        _ => return None,
    };
    Some(Flag::new(k, shape, PURPLE, &format!("{words} {}", words::named(name))))
}

// ---------------------------------------------------------------- where words have room

/// Words at a flag, and where they stand.
struct Placed<'a> {
    words: &'a str,
    x: f64,
    anchor: &'static str,
}

/// Each flag in turn takes what the one before left and what the next one wants.
fn drawn(flags: &[Flag], layout: &Layout) -> Vec<Element> {
    let mut taken_to = (0, 0.0);
    let mut elements = Vec::new();
    for (place, flag) in flags.iter().enumerate() {
        let band = layout.band_of(flag.k);
        let left = if taken_to.0 == band { taken_to.1 } else { layout.labels_left() };
        let next = flags.get(place + 1).filter(|next| layout.band_of(next.k) == band);
        let right = next.map_or(layout.width, |next| layout.x_of(next.k)) - HALF;
        let placed = flag.placed(layout.x_of(flag.k), left, right);
        taken_to = (band, flag.right_end(layout, placed.as_ref()));
        elements.push(flag.drawn(layout, placed));
    }
    elements
}

impl Flag {
    /// To the right, else to the left, else the same with the short words, else nowhere.
    fn placed(&self, x: f64, left: f64, right: f64) -> Option<Placed<'_>> {
        [&self.words, &self.short].into_iter().find_map(|words| {
            let width = svg::label_width(words, LABEL_SIZE);
            if x + BESIDE + width <= right {
                Some(Placed { words, x: x + BESIDE, anchor: "start" })
            } else if x - BESIDE - width >= left {
                Some(Placed { words, x: x - BESIDE, anchor: "end" })
            } else {
                None
            }
        })
    }

    fn right_end(&self, layout: &Layout, placed: Option<&Placed>) -> f64 {
        match placed {
            Some(Placed { words, x, anchor: "start" }) => {
                x + svg::label_width(words, LABEL_SIZE) + 4.0
            }
            _ => layout.x_of(self.k) + HALF,
        }
    }

    fn drawn(&self, layout: &Layout, placed: Option<Placed>) -> Element {
        let stands = &layout.bands[layout.band_of(self.k)];
        let x = layout.x_of(self.k);
        let guide = svg::line(x, stands.flags + 8.0, x, stands.axis)
            .set("stroke", self.colour)
            .number("stroke-width", 1.0)
            .number("opacity", if self.struck { 0.25 } else { 0.5 });
        let label = placed.map(|Placed { words, x, anchor }| {
            let label = svg::label(x, stands.flags + 4.0, words)
                .set("fill", INK)
                .set("text-anchor", anchor)
                .number("font-size", LABEL_SIZE);
            if self.struck {
                label.set("text-decoration", "line-through")
            } else {
                label
            }
        });
        svg::group()
            .child(guide)
            .child((self.shape)(x, stands.flags))
            .children(label)
            .tip(&self.tip)
    }
}
