//! How states and packets look. The colours are those of Okabe and Ito, which people who see few
//! colours can tell apart; a bar's height and pattern, and a line's dashes, say the same again.

use super::svg::{self, Element};
use crate::chronicle::{Outlet, Packet, State};

pub const INK: &str = "#1F2933";
pub const QUIET_INK: &str = "#5B6770";
pub const PAPER: &str = "#FFFFFF";
pub const FAINT: &str = "#E4E8EB";
pub const BLUE: &str = "#0072B2";
pub const GREEN: &str = "#00795A";
pub const VERMILLION: &str = "#C24E00";
pub const PURPLE: &str = "#93417A";

/// How a state's bar looks.
pub struct Bar {
    pub id: &'static str,
    pub fill: &'static str,
    pub height: f64,
    pub ink: &'static str,
    pattern: Option<Pattern>,
}

/// What is drawn on a tile of the bar.
struct Pattern {
    commands: &'static str,
    stroke: &'static str,
    width: f64,
}

/// The side of a pattern's tile.
const TILE: f64 = 6.0;

/// A failed cabinet has no bar but a dotted line.
pub fn bar(state: State) -> Bar {
    let plain = |id, fill, height, ink| Bar { id, fill, height, ink, pattern: None };
    let drawn = |id, fill, height, commands, stroke, width| {
        let pattern = Some(Pattern { commands, stroke, width });
        Bar { id, fill, height, ink: "#000000", pattern }
    };
    const RISING: &str = "M-1,7 L7,-1 M-1,1 L1,-1 M5,7 L7,5";
    const FALLING: &str = "M-1,-1 L7,7 M5,-1 L7,1 M-1,5 L1,7";
    match state {
        State::Failed => plain("failed", PAPER, 0.0, INK),
        State::Normal => plain("normal", "#CBD3D9", 6.0, INK),
        State::CheckpBegin => drawn("checkp-begin", "#F0E442", 12.0, "M2,3 h2", "#B5AA1E", 2.0),
        State::Checkpointing => drawn("checkpointing", "#7CC4EE", 15.0, RISING, "#B4DFF7", 1.4),
        State::Checkpointed => plain("checkpointed", BLUE, 18.0, "#FFFFFF"),
        State::Error => {
            Bar { ink: "#FFFFFF", ..drawn("error", VERMILLION, 18.0, "M3,0 v6", "#E08F58", 1.4) }
        }
        State::Recovering => drawn("recovering", "#E69F00", 15.0, FALLING, "#F2B94B", 1.5),
        State::Recovered => drawn("recovered", "#12A37B", 12.0, "M0,3 h6", "#74CDB3", 1.4),
        State::Crashed => drawn("crashed", "#000000", 15.0, "M1,1 l4,4 M5,1 l-4,4", "#6B757D", 1.0),
    }
}

impl Bar {
    pub fn paint(&self) -> String {
        match self.pattern {
            None => self.fill.into(),
            Some(_) => format!("url(#{})", self.id),
        }
    }

    /// What `paint` refers to.
    pub fn definition(&self) -> Option<Element> {
        let pattern = self.pattern.as_ref()?;
        let tile = Element::new("pattern")
            .set("id", self.id)
            .set("patternUnits", "userSpaceOnUse")
            .number("width", TILE)
            .number("height", TILE);
        let strokes = svg::path(pattern.commands)
            .set("stroke", pattern.stroke)
            .number("stroke-width", pattern.width)
            .set("fill", "none");
        Some(tile.child(svg::rect(0.0, 0.0, TILE, TILE).set("fill", self.fill)).child(strokes))
    }
}

/// How a packet's line looks.
#[derive(Clone, Copy, PartialEq, Eq)]
pub struct Stroke {
    pub name: &'static str,
    pub colour: &'static str,
    pub dashes: &'static str,
    /// In tenths.
    width: u8,
}

impl Stroke {
    pub fn on(&self, element: Element) -> Element {
        let element = element
            .set("stroke", self.colour)
            .number("stroke-width", f64::from(self.width) / 10.0)
            .set("fill", "none");
        if self.dashes.is_empty() {
            element
        } else {
            element.set("stroke-dasharray", self.dashes)
        }
    }
}

/// In the order of the legend.
pub const STROKES: [Stroke; 8] = [
    Stroke { name: "normal, outlet A or B", colour: INK, dashes: "", width: 14 },
    Stroke { name: "normal, workshop", colour: INK, dashes: "6 2.5", width: 14 },
    Stroke { name: "normal, hurt", colour: INK, dashes: "2 2", width: 24 },
    Stroke { name: "checkp", colour: BLUE, dashes: "9 2", width: 11 },
    Stroke { name: "resume", colour: GREEN, dashes: "2.5 2", width: 12 },
    Stroke { name: "recover", colour: PURPLE, dashes: "8 2 2 2", width: 11 },
    Stroke { name: "fault", colour: VERMILLION, dashes: "", width: 14 },
    Stroke { name: "invalid", colour: INK, dashes: "1 3", width: 24 },
];

/// By kind, and for a normal packet whether it was hurt before.
pub fn stroke(packet: &Packet, hurt: bool) -> Stroke {
    STROKES[match packet {
        Packet::Normal { .. } if hurt => 2,
        Packet::Normal { outlet: Outlet::Workshop, .. } => 1,
        Packet::Normal { .. } => 0,
        Packet::Checkp => 3,
        Packet::Resume => 4,
        Packet::Recover(_) => 5,
        Packet::Fault(_) => 6,
        Packet::Invalid => 7,
    }]
}
