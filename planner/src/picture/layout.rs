//! Where everything stands. Time runs from left to right; a long run goes on in the next band
//! below, as text does.

use super::axis::Words;
use super::back::Routes;
use crate::packets::Run;

/// A band holds at most so many steps.
const MOST_IN_BAND: usize = 100;
const WIDEST_BAND: f64 = 1440.0;
const WIDEST_STEP: f64 = 92.0;
const NARROWEST_PAGE: f64 = 760.0;

const MARGIN: f64 = 24.0;
const LANE_LABELS: f64 = 134.0;
const FINAL_BOOKINGS: f64 = 122.0;
pub const TRACK: f64 = 17.0;
pub const GUTTER_SLOT: f64 = 9.0;
const FLAGS: f64 = 26.0;
const BETWEEN_BANDS: f64 = 22.0;

/// How far from the middle of a lane packets start and end.
pub const EDGE: f64 = 10.0;

pub struct Band {
    /// The rows whose records stand in it; row 0 stands in front of the first one.
    pub first: usize,
    pub last: usize,
    /// The lowest track of lines back, and the marks below it.
    pub tracks: f64,
    pub flags: f64,
    pub lanes: f64,
    pub axis: f64,
}

pub struct Layout {
    pub n: usize,
    grid: Grid,
    pub pitch: f64,
    pub left: f64,
    pub width: f64,
    pub bottom: f64,
    pub words: Words,
    pub bands: Vec<Band>,
}

/// How the steps of a run are spread over bands, all of them about as long.
#[derive(Clone, Copy)]
pub struct Grid {
    steps: usize,
    in_band: usize,
    pub step: f64,
}

impl Grid {
    pub fn new(steps: usize) -> Grid {
        let bands = steps.div_ceil(MOST_IN_BAND).max(1);
        let in_band = if bands == 1 { steps } else { steps.div_ceil(bands).next_multiple_of(10) };
        let in_band = in_band.max(1);
        let step = (WIDEST_BAND / (in_band as f64 + 0.5)).min(WIDEST_STEP);
        Grid { steps, in_band, step }
    }

    /// Row 0 stands in front of the first band.
    pub fn band_of(&self, k: usize) -> usize {
        k.saturating_sub(1) / self.in_band
    }

    pub fn bands(&self) -> usize {
        self.band_of(self.steps) + 1
    }

    fn rows(&self, band: usize) -> (usize, usize) {
        (band * self.in_band + 1, self.steps.min((band + 1) * self.in_band))
    }

    /// How far a row stands from the left end of the lanes.
    pub fn offset(&self, k: usize) -> f64 {
        (k - self.band_of(k) * self.in_band) as f64 * self.step
    }

    fn length(&self) -> f64 {
        (self.in_band as f64 + 0.5) * self.step
    }

    /// How far from the left end of the lanes there is room.
    pub fn right(&self) -> f64 {
        let on_page = NARROWEST_PAGE - 2.0 * MARGIN - LANE_LABELS;
        (self.length() + FINAL_BOOKINGS).max(on_page)
    }
}

fn lane_pitch(n: usize) -> f64 {
    match n {
        0..=3 => 84.0,
        4..=5 => 62.0,
        _ => 50.0,
    }
}

impl Layout {
    /// Below `top`, with room for the lines back.
    pub fn new(run: &Run, grid: Grid, routes: &Routes, top: f64) -> Layout {
        let n = run.chronicle.n;
        let pitch = lane_pitch(n);
        let words = Words::new(run, grid.step);
        let mut bands = Vec::new();
        let mut y = top;
        for band in 0..grid.bands() {
            let tracks = y + routes.tracks_in(band) as f64 * TRACK;
            let flags = tracks + FLAGS / 2.0;
            let lanes = tracks + FLAGS;
            let axis = lanes + n as f64 * pitch;
            let (first, last) = grid.rows(band);
            bands.push(Band { first, last, tracks, flags, lanes, axis });
            y = axis + words.height(run, first..=last) + BETWEEN_BANDS;
        }
        let left = MARGIN + routes.slots() as f64 * GUTTER_SLOT + LANE_LABELS;
        let width = left + grid.right() + MARGIN;
        Layout { n, grid, pitch, left, width, bottom: y, words, bands }
    }

    pub fn band_of(&self, k: usize) -> usize {
        self.grid.band_of(k)
    }

    pub fn step(&self) -> f64 {
        self.grid.step
    }

    /// The left end of the labels.
    pub fn labels_left(&self) -> f64 {
        self.left - LANE_LABELS
    }

    /// The slots for lines back from one band to another go up beside the labels.
    pub fn gutter(&self, slot: usize) -> f64 {
        self.labels_left() - (slot as f64 + 0.7) * GUTTER_SLOT
    }

    /// Where a moment stands, counted in steps from the start.
    pub fn x(&self, band: usize, moment: f64) -> f64 {
        self.left + (moment - (self.bands[band].first - 1) as f64) * self.step()
    }

    pub fn x_of(&self, k: usize) -> f64 {
        self.x(self.band_of(k), k as f64)
    }

    /// The middle of a cabinet's lane below the top of all lanes.
    pub fn lane(&self, cabinet: usize) -> f64 {
        (cabinet as f64 - 0.5) * self.pitch
    }

    pub fn y_of(&self, k: usize, cabinet: usize) -> f64 {
        self.bands[self.band_of(k)].lanes + self.lane(cabinet)
    }

    /// The moments that a band shows.
    pub fn moments(&self, band: usize) -> (f64, f64) {
        let Band { first, last, .. } = self.bands[band];
        let start = if band == 0 { 0.0 } else { first as f64 - 0.5 };
        (start, last as f64 + 0.5)
    }
}
