//! The shapes of marks, each around the place that it is given.

use super::style::{BLUE, GREEN, INK, PAPER, PURPLE, QUIET_INK};
use super::svg::{self, Element};

fn outlined(shape: Element) -> Element {
    shape.set("stroke", PAPER).number("stroke-width", 1.2)
}

pub fn begin_mark(x: f64, y: f64) -> Element {
    outlined(svg::polygon(x, y, &[(-4.5, -7.0), (7.5, 0.0), (-4.5, 7.0)]).set("fill", BLUE))
}

pub fn cut_mark(x: f64, y: f64) -> Element {
    let commands = |reach: f64| {
        format!(
            "M{x0},{top} H{x1} M{mid},{top} V{low} M{x0},{low} H{x1}",
            x0 = svg::rounded(x - 3.5),
            x1 = svg::rounded(x + 3.5),
            mid = svg::rounded(x),
            top = svg::rounded(y - reach),
            low = svg::rounded(y + reach)
        )
    };
    let stroke = |colour: &str, width: f64| {
        svg::path(&commands(12.0))
            .set("fill", "none")
            .set("stroke", colour)
            .number("stroke-width", width)
    };
    svg::group().child(stroke(PAPER, 4.0)).child(stroke(INK, 1.8))
}

fn disc(x: f64, y: f64, colour: &str) -> Element {
    outlined(svg::circle(x, y, 7.5).set("fill", colour))
}

pub fn commit_mark(x: f64, y: f64) -> Element {
    let tick = svg::path(&format!("M{},{} l2.6,3 l4.6,-6", svg::rounded(x - 3.6), svg::rounded(y)))
        .set("fill", "none")
        .set("stroke", PAPER)
        .number("stroke-width", 2.0);
    svg::group().child(disc(x, y, BLUE)).child(tick)
}

pub fn passed_over_mark(x: f64, y: f64) -> Element {
    let strike = svg::line(x - 10.0, y + 7.0, x + 10.0, y - 7.0)
        .set("stroke", QUIET_INK)
        .number("stroke-width", 2.0);
    let commit = svg::group().number("opacity", 0.45).child(commit_mark(x, y));
    svg::group().child(commit).child(strike)
}

/// Back: an arrow head to the left on a disc.
pub fn back_mark(x: f64, y: f64, colour: &str) -> Element {
    let head = svg::polygon(x, y, &[(-5.0, 0.0), (2.5, -4.5), (2.5, 4.5)]).set("fill", PAPER);
    svg::group().child(disc(x, y, colour)).child(head)
}

pub fn end_mark(x: f64, y: f64) -> Element {
    back_mark(x, y, GREEN)
}

pub fn return_mark(x: f64, y: f64) -> Element {
    back_mark(x, y, PURPLE)
}

pub fn point_mark(x: f64, y: f64) -> Element {
    outlined(
        svg::polygon(x, y, &[(0.0, -7.5), (7.5, 0.0), (0.0, 7.5), (-7.5, 0.0)]).set("fill", PURPLE),
    )
}

pub fn fault_mark(x: f64, y: f64) -> Element {
    let bolt = [(2.5, -11.5), (-5.5, 1.8), (-1.0, 1.8), (-2.5, 11.5), (5.5, -2.4), (1.0, -2.4)];
    outlined(svg::polygon(x, y, &bolt).set("fill", INK))
}

pub fn trip_mark(x: f64, y: f64) -> Element {
    let ring =
        svg::circle(x, y, 12.5).set("fill", PAPER).set("stroke", INK).number("stroke-width", 1.6);
    svg::group().child(ring).child(fault_mark(x, y))
}

pub fn fail_mark(x: f64, y: f64) -> Element {
    svg::group().child(cross(x, y, 7.0, PAPER, 6.0)).child(cross(x, y, 6.5, INK, 3.2))
}

pub fn start_mark(x: f64, y: f64) -> Element {
    svg::rect(x - 2.0, y - 7.0, 4.0, 14.0).set("fill", INK)
}

pub fn cross(x: f64, y: f64, arm: f64, colour: &str, width: f64) -> Element {
    let at = |dx: f64, dy: f64| format!("{},{}", svg::rounded(x + dx), svg::rounded(y + dy));
    let commands =
        format!("M{} L{} M{} L{}", at(-arm, -arm), at(arm, arm), at(arm, -arm), at(-arm, arm));
    svg::path(&commands).set("fill", "none").set("stroke", colour).number("stroke-width", width)
}

pub fn cut_line((x1, y1): (f64, f64), (x2, y2): (f64, f64)) -> Element {
    svg::line(x1, y1, x2, y2)
        .set("stroke", INK)
        .number("stroke-width", 1.2)
        .set("stroke-dasharray", "0.1 3")
        .set("stroke-linecap", "round")
}
