//! A run as one picture: a lane for each cabinet, coloured by state, the packets between them, and
//! from each recovery's end a line back to the save that came back. Self-contained SVG.

mod axis;
mod back;
mod events;
mod flags;
mod lanes;
mod layout;
mod legend;
mod marks;
mod shapes;
mod style;
mod svg;
mod traffic;

use crate::chronicle::State;
use crate::evening::Evening;
use crate::packets::{Run, Trouble};
use back::Routes;
use events::Events;
use layout::{Grid, Layout};
use style::{INK, PAPER, QUIET_INK};
use svg::Element;

const FONTS: &str = "'DejaVu Sans', Verdana, 'Segoe UI', Arial, sans-serif";
const LEFT: f64 = 24.0;
const TITLE: f64 = 38.0;
const SUBTITLE: f64 = 58.0;
const LEGEND: f64 = 88.0;

pub fn picture(evening: &Evening, chronicle: &[u8], title: &str) -> String {
    match Run::open(evening, chronicle) {
        Ok(run) => of_run(&run, title),
        Err(trouble) => of_trouble(&trouble, title),
    }
}

fn of_run(run: &Run, title: &str) -> String {
    let events = events::gather(run);
    let grid = Grid::new(run.records.len());
    let routes = Routes::new(run, grid);
    let width = Layout::new(run, grid, &routes, 0.0).width;
    let (legend, height) = legend::legend(run, &events, LEFT, LEGEND, width - LEFT);
    let layout = Layout::new(run, grid, &routes, LEGEND + height + 6.0);
    let about = about(run, &events);
    page(title, &about, width, layout.bottom)
        .child(definitions())
        .child(headline(title, &about))
        .child(legend)
        .child(chart(run, &events, &routes, &layout))
        .written()
}

/// Behind first: what is drawn later lies above.
fn chart(run: &Run, events: &Events, routes: &Routes, layout: &Layout) -> Element {
    let bands = 0..layout.bands.len();
    let lanes = |band: usize| (1..=layout.n).map(move |cabinet| (band, cabinet));
    svg::group()
        .children(bands.clone().map(|band| lanes::guides(layout, band)))
        .child(traffic::packets(run, layout))
        .children(bands.clone().flat_map(lanes).map(|(b, c)| lanes::lane(run, layout, b, c)))
        .children(bands.clone().flat_map(lanes).map(|(b, c)| lanes::name(run, layout, b, c)))
        .child(lanes::final_bookings(run, layout))
        .child(traffic::names(run, layout))
        .child(routes.drawn(layout))
        .child(flags::flags(run, events, layout))
        .child(marks::cut_lines(events, layout))
        .child(lanes::small_steps(run, events, layout))
        .child(marks::at_lanes(events, layout))
        .children(bands.map(|band| axis::axis(run, layout, band)))
}

fn page(title: &str, about: &str, width: f64, height: f64) -> Element {
    let size = format!("0 0 {} {}", svg::rounded(width), svg::rounded(height));
    Element::new("svg")
        .set("xmlns", "http://www.w3.org/2000/svg")
        .set("viewBox", &size)
        .number("width", width)
        .number("height", height)
        .set("role", "img")
        .set("aria-labelledby", "picture-title picture-about")
        .set("font-family", FONTS)
        .child(Element::new("title").set("id", "picture-title").text(title))
        .child(Element::new("desc").set("id", "picture-about").text(about))
        .child(svg::rect(0.0, 0.0, width, height).set("fill", PAPER))
}

fn headline(title: &str, about: &str) -> Element {
    svg::group()
        .child(
            svg::label(LEFT, TITLE, title)
                .set("fill", INK)
                .set("font-weight", "600")
                .number("font-size", 18.0),
        )
        .child(svg::label(LEFT, SUBTITLE, about).set("fill", QUIET_INK).number("font-size", 12.0))
}

fn definitions() -> Element {
    let patterns = State::ALL.into_iter().filter_map(|state| style::bar(state).definition());
    Element::new("defs").children(patterns)
}

/// The run in one line.
fn about(run: &Run, events: &Events) -> String {
    let counted = |count: usize, one: &str, many: &str| match count {
        1 => format!("1 {one}"),
        _ => format!("{count} {many}"),
    };
    let mut parts = vec![
        format!("{} cabinets", run.chronicle.n),
        counted(run.records.len(), "step", "steps"),
        format!("{} refused", events.refused.len()),
        counted(events.commits.len(), "save committed", "saves committed"),
        counted(events.ends.len(), "recovery", "recoveries"),
    ];
    if let Some(k) = events.crash {
        parts.push(format!("crashed in step {k}"));
    }
    parts.join(", ")
}

fn of_trouble(trouble: &Trouble, title: &str) -> String {
    let words = trouble.to_string();
    let width = svg::label_width(&words, 12.0).max(400.0) + 2.0 * LEFT;
    page(title, &words, width, 90.0).child(headline(title, &words)).written()
}
