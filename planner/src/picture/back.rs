//! The lines from each recovery's end back to the save that came back. They run on tracks above
//! the lanes, and from band to band in slots beside the labels, so that no two lie on each other.

use super::layout::{Grid, Layout, TRACK};
use super::style::{GREEN, INK};
use super::svg::{self, Element};
use crate::packets::Run;

const LABEL_SIZE: f64 = 11.0;
/// Between a label and what it stands beside.
const ASIDE: f64 = 4.0;

/// Left of everything in a band.
const FAR_LEFT: f64 = -1000.0;
const CORNER: f64 = 8.0;

/// Where a line's label stands, from the recovery's end.
#[derive(Clone, Copy)]
enum LabelSide {
    /// Over the line.
    Over,
    Right,
    /// Left of the save.
    Left,
}

struct Back {
    end: usize,
    save: usize,
    label: String,
    side: LabelSide,
    end_track: usize,
    save_track: usize,
    /// Where the save stands in an earlier band.
    slot: Option<usize>,
}

pub struct Routes {
    backs: Vec<Back>,
    tracks: Vec<usize>,
    slots: usize,
}

/// A stretch of a track, or the bands that a slot goes along.
#[derive(Clone, Copy)]
struct Stretch {
    from: f64,
    to: f64,
}

impl Stretch {
    fn meets(&self, other: &Stretch) -> bool {
        self.from < other.to && other.from < self.to
    }
}

/// The first place in which nothing meets the stretch; it is put there.
fn first_free(places: &mut Vec<Vec<Stretch>>, stretch: Stretch) -> usize {
    let free = |place: &Vec<Stretch>| !place.iter().any(|other| other.meets(&stretch));
    let found = places.iter().position(free).unwrap_or_else(|| {
        places.push(Vec::new());
        places.len() - 1
    });
    places[found].push(stretch);
    found
}

impl Routes {
    pub fn new(run: &Run, grid: Grid) -> Routes {
        let ends = (1..=run.records.len()).filter(|&k| run.row(k).ended);
        let mut backs: Vec<Back> = ends.map(|k| Back::new(run, k)).collect();
        // short ones first, so that they lie below the long ones
        backs.sort_by_key(|back| back.end - back.save);
        let mut tracks = vec![Vec::new(); grid.bands()];
        let mut slots = Vec::new();
        for back in &mut backs {
            back.settle(&mut tracks, &mut slots, grid);
        }
        Routes { backs, tracks: tracks.iter().map(Vec::len).collect(), slots: slots.len() }
    }

    pub fn tracks_in(&self, band: usize) -> usize {
        self.tracks[band]
    }

    pub fn slots(&self) -> usize {
        self.slots
    }

    pub fn drawn(&self, layout: &Layout) -> Element {
        svg::group().set("class", "back").children(self.backs.iter().map(|back| back.drawn(layout)))
    }
}

impl Back {
    fn new(run: &Run, end: usize) -> Back {
        let save = run.row(end).save;
        let label = match save {
            0 => "back to the start".into(),
            k if run.record(k).is_return() => format!("back to the return in step {k}"),
            k => format!("back to the save of step {k}"),
        };
        let side = LabelSide::Over;
        Back { end, save, label, side, end_track: 0, save_track: 0, slot: None }
    }

    fn settle(
        &mut self,
        tracks: &mut [Vec<Vec<Stretch>>],
        slots: &mut Vec<Vec<Stretch>>,
        grid: Grid,
    ) {
        let (end_band, save_band) = (grid.band_of(self.end), grid.band_of(self.save));
        let save = grid.offset(self.save);
        let from = if end_band == save_band { save } else { FAR_LEFT };
        let stretch = self.with_label(from, grid);
        self.end_track = first_free(&mut tracks[end_band], stretch);
        self.save_track = self.end_track;
        if end_band != save_band {
            let to_save = Stretch { from: FAR_LEFT, to: save + ASIDE };
            self.save_track = first_free(&mut tracks[save_band], to_save);
            let bands = Stretch { from: save_band as f64, to: end_band as f64 + 0.5 };
            self.slot = Some(first_free(slots, bands));
        }
    }

    /// The stretch from there to the end, with the label over it, right of it or left of it.
    fn with_label(&mut self, from: f64, grid: Grid) -> Stretch {
        let end = grid.offset(self.end);
        let words = svg::label_width(&self.label, LABEL_SIZE) + 4.0 * ASIDE;
        let (side, stretch) = if end - from.max(0.0) >= words {
            (LabelSide::Over, Stretch { from, to: end + ASIDE })
        } else if end + words <= grid.right() {
            (LabelSide::Right, Stretch { from, to: end + words })
        } else {
            (LabelSide::Left, Stretch { from: from - words, to: end + ASIDE })
        };
        self.side = side;
        stretch
    }

    fn drawn(&self, layout: &Layout) -> Element {
        let tip = format!("recovery's end in step {}: {}", self.end, self.label);
        let line = svg::path(&self.commands(layout))
            .set("class", "line-back")
            .set("fill", "none")
            .set("stroke", GREEN)
            .number("stroke-width", 2.0);
        let save_flag = layout.bands[layout.band_of(self.save)].flags;
        let tip_corners = [(0.0, 0.0), (-4.0, -8.0), (4.0, -8.0)];
        let head =
            svg::polygon(layout.x_of(self.save), save_flag - 8.0, &tip_corners).set("fill", GREEN);
        svg::group().child(line).child(head).child(self.words(layout)).tip(&tip)
    }

    fn track_y(layout: &Layout, k: usize, track: usize) -> f64 {
        layout.bands[layout.band_of(k)].tracks - track as f64 * TRACK - 2.0
    }

    /// Up from the end, along its track, perhaps along a slot and another track, down to the save.
    fn commands(&self, layout: &Layout) -> String {
        let (end, save) = (layout.x_of(self.end), layout.x_of(self.save));
        let end_flag = layout.bands[layout.band_of(self.end)].flags;
        let save_flag = layout.bands[layout.band_of(self.save)].flags;
        let end_y = Back::track_y(layout, self.end, self.end_track);
        let save_y = Back::track_y(layout, self.save, self.save_track);
        let mut corners = vec![(end, end_flag), (end, end_y)];
        if let Some(slot) = self.slot {
            let gutter = layout.gutter(slot);
            corners.extend([(gutter, end_y), (gutter, save_y)]);
        }
        corners.extend([(save, save_y), (save, save_flag - 12.0)]);
        rounded_path(&corners)
    }

    fn words(&self, layout: &Layout) -> Element {
        let y = Back::track_y(layout, self.end, self.end_track);
        let (end, save) = (layout.x_of(self.end), layout.x_of(self.save));
        let (x, y, anchor) = match self.side {
            LabelSide::Over => (end - 10.0, y - 4.0, "end"),
            LabelSide::Right => (end + 7.0, y + 4.0, "start"),
            LabelSide::Left => (save - 7.0, y + 4.0, "end"),
        };
        svg::label(x, y, &self.label)
            .set("text-anchor", anchor)
            .set("fill", INK)
            .number("font-size", LABEL_SIZE)
    }
}

/// Straight stretches with rounded corners between them.
fn rounded_path(corners: &[(f64, f64)]) -> String {
    let point = |(x, y): (f64, f64)| format!("{},{}", svg::rounded(x), svg::rounded(y));
    let mut commands = format!("M{}", point(corners[0]));
    for three in corners.windows(3) {
        let (before, corner, after) = (three[0], three[1], three[2]);
        let near = towards(corner, before);
        let far = towards(corner, after);
        commands.push_str(&format!(" L{} Q{} {}", point(near), point(corner), point(far)));
    }
    commands + &format!(" L{}", point(corners[corners.len() - 1]))
}

/// The place where a rounded corner starts, on the way to the next one.
fn towards((x, y): (f64, f64), (to_x, to_y): (f64, f64)) -> (f64, f64) {
    let (dx, dy) = (to_x - x, to_y - y);
    let length = dx.hypot(dy);
    let part = if length > 0.0 { (CORNER / length).min(0.5) } else { 0.0 };
    (x + dx * part, y + dy * part)
}
