//! The steps below the lanes: their numbers, what they are, and which were refused.

use super::layout::Layout;
use super::shapes::cross;
use super::style::{INK, QUIET_INK, VERMILLION};
use super::svg::{self, Element};
use crate::packets::Run;
use crate::words::{self, CRASHED, TAKEN};
use std::ops::RangeInclusive;

const SIZE: f64 = 10.0;
const NUMBERS: f64 = 16.0;
const WORDS: f64 = 29.0;
const ANSWERS: f64 = 42.0;
/// Where words that stand upright end, below the numbers.
const UPRIGHT: f64 = 22.0;
const MOST_UPRIGHT_LETTERS: usize = 20;

/// How the steps' words stand: level below each step where all of them fit, else upright.
pub struct Words {
    level: bool,
}

impl Words {
    pub fn new(run: &Run, step: f64) -> Words {
        let fits = |k: usize| svg::label_width(&level_word(run, k, step), SIZE) <= step - 4.0;
        Words { level: (1..=run.records.len()).all(fits) }
    }

    /// The room that the words of these rows need.
    pub fn height(&self, run: &Run, rows: RangeInclusive<usize>) -> f64 {
        if self.level {
            return ANSWERS + 4.0;
        }
        let lengths = rows.map(|k| svg::label_width(&upright_word(run, k), SIZE));
        UPRIGHT + lengths.fold(0.0, f64::max) + 4.0
    }
}

pub fn axis(run: &Run, layout: &Layout, band: usize) -> Element {
    let stands = &layout.bands[band];
    let (start, end) = layout.moments(band);
    let base = svg::line(layout.x(band, start), stands.axis, layout.x(band, end), stands.axis)
        .set("stroke", QUIET_INK);
    let rows = stands.first..=stands.last;
    svg::group()
        .set("class", "axis")
        .number("font-size", SIZE)
        .child(base)
        .children(rows.map(|k| step(run, layout, k)))
}

fn labelled_every(layout: &Layout) -> usize {
    if layout.step() >= 24.0 {
        1
    } else {
        5
    }
}

fn step(run: &Run, layout: &Layout, k: usize) -> Element {
    let (x, y) = (layout.x_of(k), layout.bands[layout.band_of(k)].axis);
    let labelled = k.is_multiple_of(labelled_every(layout));
    let tick = svg::line(x, y, x, y + if labelled { 5.0 } else { 3.0 }).set("stroke", QUIET_INK);
    // the whole step is something to point at
    let ground =
        svg::rect(x - layout.step() / 2.0, y, layout.step(), NUMBERS).set("fill-opacity", "0");
    let mut drawn = svg::group().child(ground).child(tick).tip(&told(run, k));
    if labelled {
        let number = svg::label(x, y + NUMBERS, &k.to_string());
        drawn = drawn.child(number.set("fill", INK).set("text-anchor", "middle"));
    }
    let colour = match run.row(k).answer {
        TAKEN => QUIET_INK,
        CRASHED => INK,
        _ => VERMILLION,
    };
    if run.row(k).answer != TAKEN {
        drawn = drawn.child(cross(x, y, 3.5, colour, 1.8));
    }
    let words = if layout.words.level { level(run, layout, k) } else { upright(run, layout, k) };
    drawn.child(words.set("fill", colour))
}

pub fn told(run: &Run, k: usize) -> String {
    let (record, answer) = (run.record(k), run.row(k).answer);
    let end = match answer {
        TAKEN => "taken".into(),
        CRASHED => "taken, and the group crashed".into(),
        _ => format!("refused, {answer}: {}", words::reason(record, answer)),
    };
    format!("step {k}, {}: {}; {end}", run.text(k), words::sentence(record))
}

// ---------------------------------------------------------------- words

/// The whole line of text where it fits, else its first word.
fn level_word(run: &Run, k: usize, step: f64) -> String {
    let text = run.text(k);
    if svg::label_width(text, SIZE) <= step - 4.0 {
        text.into()
    } else {
        words::record_word(run.record(k)).into()
    }
}

fn level(run: &Run, layout: &Layout, k: usize) -> Element {
    let (x, y) = (layout.x_of(k), layout.bands[layout.band_of(k)].axis);
    let words = svg::label(x, y + WORDS, &level_word(run, k, layout.step()));
    let answer = match run.row(k).answer {
        TAKEN => None,
        CRASHED => Some("50 crash".to_string()),
        refusal => Some(format!("refused {refusal}")),
    };
    let answer = answer.map(|answer| svg::label(x, y + ANSWERS, &answer).set("font-weight", "600"));
    svg::group().set("text-anchor", "middle").child(words).children(answer)
}

/// With its refusal in front, where it stands next to the lanes.
fn upright_word(run: &Run, k: usize) -> String {
    let text = run.text(k);
    let words = if text.chars().count() > MOST_UPRIGHT_LETTERS {
        let short: String = text.chars().take(MOST_UPRIGHT_LETTERS - 1).collect();
        format!("{}…", short.trim_end())
    } else {
        text.into()
    };
    match run.row(k).answer {
        TAKEN => words,
        answer => format!("{words}: {answer}"),
    }
}

fn upright(run: &Run, layout: &Layout, k: usize) -> Element {
    let (x, y) = (layout.x_of(k), layout.bands[layout.band_of(k)].axis + UPRIGHT);
    let (x, y) = (x + SIZE * 0.36, y);
    let turn = format!("rotate(-90 {} {})", svg::rounded(x), svg::rounded(y));
    let words =
        svg::label(x, y, &upright_word(run, k)).set("transform", &turn).set("text-anchor", "end");
    if run.row(k).answer == TAKEN {
        words
    } else {
        words.set("font-weight", "600")
    }
}
