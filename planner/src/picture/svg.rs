//! Elements of a picture. What is written is well formed: an element closes itself, and every text
//! and attribute is escaped.

use std::fmt::Write;

pub struct Element {
    name: &'static str,
    attributes: String,
    content: String,
}

impl Element {
    pub fn new(name: &'static str) -> Element {
        Element { name, attributes: String::new(), content: String::new() }
    }

    pub fn set(mut self, attribute: &str, value: &str) -> Element {
        let _ = write!(self.attributes, " {attribute}=\"{}\"", escaped(value));
        self
    }

    pub fn number(self, attribute: &str, value: f64) -> Element {
        self.set(attribute, &rounded(value))
    }

    pub fn text(mut self, text: &str) -> Element {
        self.content.push_str(&escaped(text));
        self
    }

    pub fn child(mut self, child: Element) -> Element {
        self.content.push_str(&child.written());
        self
    }

    pub fn children(self, children: impl IntoIterator<Item = Element>) -> Element {
        children.into_iter().fold(self, Element::child)
    }

    /// What a browser shows when one points at it. It stands first, as SVG asks.
    pub fn tip(mut self, words: &str) -> Element {
        self.content.insert_str(0, &Element::new("title").text(words).written());
        self
    }

    pub fn written(&self) -> String {
        let Element { name, attributes, content } = self;
        if content.is_empty() {
            format!("<{name}{attributes}/>\n")
        } else {
            format!("<{name}{attributes}>{content}</{name}>\n")
        }
    }
}

/// Characters that XML cannot hold become question marks.
fn escaped(text: &str) -> String {
    let mut out = String::with_capacity(text.len());
    for letter in text.chars() {
        match letter {
            '&' => out.push_str("&amp;"),
            '<' => out.push_str("&lt;"),
            '>' => out.push_str("&gt;"),
            '"' => out.push_str("&quot;"),
            '\'' => out.push_str("&#39;"),
            '\t' | '\n' | '\r' => out.push(' '),
            '\u{0}'..='\u{1F}' | '\u{7F}'..='\u{9F}' | '\u{FFFE}' | '\u{FFFF}' => out.push('?'),
            _ => out.push(letter),
        }
    }
    out
}

/// With one decimal where it is needed.
pub fn rounded(value: f64) -> String {
    let text = format!("{value:.1}");
    let short = text.strip_suffix(".0").unwrap_or(&text);
    if short == "-0" { "0" } else { short }.to_string()
}

// ---------------------------------------------------------------- shapes

pub fn group() -> Element {
    Element::new("g")
}

pub fn rect(x: f64, y: f64, width: f64, height: f64) -> Element {
    Element::new("rect")
        .number("x", x)
        .number("y", y)
        .number("width", width)
        .number("height", height)
}

pub fn line(x1: f64, y1: f64, x2: f64, y2: f64) -> Element {
    Element::new("line").number("x1", x1).number("y1", y1).number("x2", x2).number("y2", y2)
}

pub fn circle(x: f64, y: f64, radius: f64) -> Element {
    Element::new("circle").number("cx", x).number("cy", y).number("r", radius)
}

/// A closed outline around a place; the corners count from there.
pub fn polygon(x: f64, y: f64, corners: &[(f64, f64)]) -> Element {
    let corner = |&(dx, dy): &(f64, f64)| format!("{},{}", rounded(x + dx), rounded(y + dy));
    let points: Vec<String> = corners.iter().map(corner).collect();
    Element::new("polygon").set("points", &points.join(" "))
}

/// A path from its commands.
pub fn path(commands: &str) -> Element {
    Element::new("path").set("d", commands)
}

pub fn label(x: f64, y: f64, text: &str) -> Element {
    Element::new("text").number("x", x).number("y", y).text(text)
}

/// About how wide a label is: browsers choose the font, so there is some room in it.
pub fn label_width(text: &str, size: f64) -> f64 {
    text.chars().count() as f64 * size * 0.56
}
