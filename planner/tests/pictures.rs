//! Pictures of runs: well formed, inside their page, and true to the chronicle.

use planner::chronicle::State;
use planner::evening::Evening;
use planner::library;
use planner::packets::Run;
use planner::picture::picture;
use planner::text;
use planner::words;
use reference::cases::plans::make_plan_case;
use reference::cases::words::make_word_case;
use reference::cases::{case_seed, make_case, Case, Wishes};
use reference::model;
use std::collections::{HashMap, HashSet};
use std::path::Path;

const SEED: u64 = 2718;
const SMALLEST_LETTERS: f64 = 9.0;

// ---------------------------------------------------------------- a small reader of XML

#[derive(Debug, Default)]
struct Node {
    name: String,
    attributes: HashMap<String, String>,
    /// The elements that it stands in, outermost first.
    within: Vec<usize>,
    text: String,
}

impl Node {
    fn number(&self, attribute: &str) -> f64 {
        let value = &self.attributes[attribute];
        value.parse().unwrap_or_else(|_| panic!("{attribute} of {} is {value}", self.name))
    }

    fn has_class(&self, class: &str) -> bool {
        self.attributes.get("class").is_some_and(|own| own == class)
    }
}

/// All elements in the order in which they begin, or why it is no XML.
fn elements(xml: &str) -> Result<Vec<Node>, String> {
    let mut nodes: Vec<Node> = Vec::new();
    let mut open: Vec<usize> = Vec::new();
    let mut rest = xml;
    while let Some(start) = rest.find('<') {
        let words = unescaped(&rest[..start])?;
        match open.last() {
            Some(&inner) => nodes[inner].text.push_str(words.trim()),
            None if words.trim().is_empty() => (),
            None => return Err(format!("words outside of everything: {words}")),
        }
        let end = rest.find('>').ok_or("a tag without an end")?;
        let tag = &rest[start + 1..end];
        rest = &rest[end + 1..];
        if let Some(name) = tag.strip_prefix('/') {
            let inner = open.pop().ok_or(format!("nothing is open at </{name}>"))?;
            if nodes[inner].name != name {
                return Err(format!("</{name}> closes {}", nodes[inner].name));
            }
            continue;
        }
        if open.is_empty() && !nodes.is_empty() {
            return Err(format!("a second outermost element: {tag}"));
        }
        let (tag, closed) = tag.strip_suffix('/').map_or((tag, false), |tag| (tag, true));
        nodes.push(element(tag, &open)?);
        if !closed {
            open.push(nodes.len() - 1);
        }
    }
    match (open.is_empty(), rest.trim().is_empty()) {
        (true, true) => Ok(nodes),
        _ => Err("something stays open at the end".into()),
    }
}

fn element(tag: &str, open: &[usize]) -> Result<Node, String> {
    let (name, mut rest) = tag.split_once(' ').unwrap_or((tag, ""));
    if name.is_empty() || !name.chars().all(|letter| letter.is_ascii_alphabetic()) {
        return Err(format!("no name: <{tag}>"));
    }
    let mut node = Node { name: name.into(), within: open.to_vec(), ..Node::default() };
    while !rest.is_empty() {
        let (attribute, value) = rest.split_once("=\"").ok_or(format!("no value in <{tag}>"))?;
        let (value, after) = value.split_once('"').ok_or(format!("no end in <{tag}>"))?;
        let known = |letter: char| letter.is_ascii_alphanumeric() || letter == '-';
        if attribute.is_empty() || !attribute.chars().all(known) {
            return Err(format!("no attribute's name: {attribute}"));
        }
        if node.attributes.insert(attribute.into(), unescaped(value)?).is_some() {
            return Err(format!("{attribute} twice in <{tag}>"));
        }
        rest = after.strip_prefix(' ').unwrap_or(after);
        if !after.is_empty() && rest.len() == after.len() {
            return Err(format!("no space behind {attribute} in <{tag}>"));
        }
    }
    Ok(node)
}

fn unescaped(text: &str) -> Result<String, String> {
    let mut out = String::new();
    let mut rest = text;
    while let Some(place) = rest.find('&') {
        out.push_str(&rest[..place]);
        let end = rest[place..].find(';').ok_or(format!("& by itself in {text}"))?;
        out.push(match &rest[place..place + end] {
            "&amp" => '&',
            "&lt" => '<',
            "&gt" => '>',
            "&quot" => '"',
            "&#39" => '\'',
            other => return Err(format!("{other} is unknown")),
        });
        rest = &rest[place + end + 1..];
    }
    out.push_str(rest);
    match out.chars().find(|letter| letter.is_control() && *letter != '\n') {
        Some(letter) => Err(format!("{letter:?} in {text:?}")),
        None => Ok(out),
    }
}

#[test]
fn the_reader_refuses_what_is_no_xml() {
    let wrong = [
        "<g><line></g></line>",
        "<g>",
        "</g>",
        "<g x=\"1\" x=\"2\"/>",
        "<g x=1/>",
        "<g x=\"1\"y=\"2\"/>",
        "<g>a & b</g>",
        "<g/><g/>",
        "<g x=\"&nbsp;\"/>",
        "words",
        "<g>\u{1}</g>",
    ];
    for xml in wrong {
        assert!(elements(xml).is_err(), "{xml}");
    }
    let right = elements("<g x=\"a &lt; b\"><title>1 &amp; 2</title><line/></g>\n").expect("XML");
    assert_eq!(right.len(), 3);
    assert_eq!((right[0].attributes["x"].as_str(), right[1].text.as_str()), ("a < b", "1 & 2"));
}

// ---------------------------------------------------------------- a picture

/// A picture taken apart.
struct Drawing {
    nodes: Vec<Node>,
    width: f64,
    height: f64,
}

fn drawing(evening: &Evening, chronicle: &[u8], title: &str) -> Drawing {
    let svg = picture(evening, chronicle, title);
    let nodes = elements(&svg).unwrap_or_else(|wrong| panic!("{wrong}"));
    let (width, height) = (nodes[0].number("width"), nodes[0].number("height"));
    Drawing { nodes, width, height }
}

impl Drawing {
    fn of_class(&self, class: &str) -> Vec<usize> {
        (0..self.nodes.len()).filter(|&place| self.nodes[place].has_class(class)).collect()
    }

    /// What stands in an element, of one name.
    fn inside<'a>(&'a self, outer: usize, name: &'a str) -> impl Iterator<Item = &'a Node> {
        self.nodes[outer..]
            .iter()
            .take_while(move |node| {
                std::ptr::eq(*node, &self.nodes[outer]) || node.within.contains(&outer)
            })
            .filter(move |node| node.name == name)
    }

    /// Where each step stands, as the ticks of the axes tell.
    fn steps(&self) -> HashMap<usize, f64> {
        let ticks = self.of_class("axis").into_iter().flat_map(|axis| {
            let titles = self.inside(axis, "title").map(|title| title.text.clone());
            let lines = self.inside(axis, "line").skip(1).map(|tick| tick.number("x1"));
            titles.zip(lines).collect::<Vec<_>>()
        });
        let number = |title: &str| {
            let after = title.strip_prefix("step ").expect("a step's title");
            after.split(',').next().and_then(|k| k.parse().ok()).expect("a step's number")
        };
        let mut steps: HashMap<usize, f64> = ticks.map(|(title, x)| (number(&title), x)).collect();
        let first_axis = self.of_class("axis")[0];
        let base = self.inside(first_axis, "line").next().expect("a base line");
        steps.insert(0, base.number("x1"));
        steps
    }
}

fn run_of(evening: &Evening) -> Option<Run> {
    Run::open(evening, &library::chronicle(evening)).ok()
}

/// Made cases of steps, of plans and of steps that go for recoveries.
fn made(index: u64) -> Evening {
    let plan = index % 3 == 1;
    let make = [make_case, make_plan_case, make_word_case][index as usize % 3];
    let wishes = Wishes { damage: true, highest_kind: model::KINDS, cabinets: None };
    let Case { group, steps } = make(case_seed(SEED, index), wishes);
    Evening { group, records: steps, plan }
}

fn examples() -> Vec<(String, Evening)> {
    let folder = Path::new(env!("CARGO_MANIFEST_DIR")).join("../examples");
    let files = std::fs::read_dir(folder).expect("there are examples");
    let paths = files.map(|file| file.expect("a file").path());
    let texts = paths.filter(|path| path.extension().is_some_and(|end| end == "txt"));
    texts
        .map(|path| {
            let octets = std::fs::read(&path).expect("it can be read");
            (path.display().to_string(), text::read(&octets).expect("the text is right"))
        })
        .collect()
}

/// The examples and made runs, for what holds of every picture.
fn each(check: impl Fn(&str, &Evening, &Run, &Drawing)) {
    let made = (0..60).map(|index| (format!("made case {index}"), made(index)));
    for (name, evening) in examples().into_iter().chain(made) {
        let Some(run) = run_of(&evening) else { continue };
        let drawing = drawing(&evening, &library::chronicle(&evening), &name);
        check(&name, &evening, &run, &drawing);
    }
}

// ---------------------------------------------------------------- what holds of every picture

const KNOWN: [&str; 12] = [
    "svg", "title", "desc", "defs", "pattern", "g", "rect", "line", "circle", "polygon", "path",
    "text",
];

/// No script, no file from elsewhere; ids are there once, and what refers to one finds it.
#[test]
fn pictures_are_self_contained() {
    each(|name, _, _, drawing| {
        let ids: Vec<&String> =
            drawing.nodes.iter().filter_map(|node| node.attributes.get("id")).collect();
        let there: HashSet<&String> = ids.iter().copied().collect();
        assert_eq!(ids.len(), there.len(), "{name}: an id twice");
        for node in &drawing.nodes {
            assert!(KNOWN.contains(&node.name.as_str()), "{name}: {}", node.name);
            for (attribute, value) in &node.attributes {
                assert!(
                    !attribute.ends_with("href") && !attribute.starts_with("on"),
                    "{attribute}"
                );
                assert!(attribute == "xmlns" || !value.contains("//"), "{name}: {value}");
                let reference = value.strip_prefix("url(#").and_then(|id| id.strip_suffix(')'));
                if let Some(id) = reference {
                    assert!(there.contains(&id.to_string()), "{name}: no {id}");
                }
            }
        }
    });
}

/// The places that a shape names, from its attributes.
fn places(node: &Node) -> Vec<(f64, f64)> {
    let at = |x: &str, y: &str| (node.number(x), node.number(y));
    match node.name.as_str() {
        "line" => vec![at("x1", "y1"), at("x2", "y2")],
        "circle" => vec![at("cx", "cy")],
        "text" => vec![at("x", "y")],
        "rect" => {
            let (x, y) = at("x", "y");
            vec![(x, y), (x + node.number("width"), y + node.number("height"))]
        }
        "polygon" => pairs(&node.attributes["points"]),
        "path" if node.has_class("line-back") => pairs(&node.attributes["d"]),
        _ => Vec::new(),
    }
}

/// `1,2` anywhere in a list of commands or points.
fn pairs(list: &str) -> Vec<(f64, f64)> {
    let pair = |word: &str| {
        let (x, y) = word.split_once(',')?;
        Some((x.trim_start_matches(|c: char| c.is_alphabetic()).parse().ok()?, y.parse().ok()?))
    };
    list.split(' ').filter_map(pair).collect()
}

#[test]
fn everything_is_inside_the_page() {
    each(|name, _, _, drawing| {
        let definitions = drawing.nodes.iter().position(|node| node.name == "defs").expect("defs");
        for node in drawing.nodes.iter().filter(|node| !node.within.contains(&definitions)) {
            for (x, y) in places(node) {
                let inside =
                    (0.0..=drawing.width).contains(&x) && (0.0..=drawing.height).contains(&y);
                assert!(inside, "{name}: {x},{y} of {node:?}");
            }
        }
    });
}

/// The attribute of an element or of what it stands in.
fn inherited<'a>(drawing: &'a Drawing, node: &'a Node, attribute: &str) -> Option<&'a String> {
    let outer = node.within.iter().rev().map(|&place| &drawing.nodes[place]);
    [node].into_iter().chain(outer).find_map(|node| node.attributes.get(attribute))
}

#[test]
fn letters_are_not_small_and_words_not_cut_off() {
    each(|name, _, _, drawing| {
        for node in drawing.nodes.iter().filter(|node| node.name == "text") {
            let size = inherited(drawing, node, "font-size").expect("a size");
            let size: f64 = size.parse().expect("a size is a number");
            assert!(size >= SMALLEST_LETTERS, "{name}: {size} for {}", node.text);
            let width = node.text.chars().count() as f64 * size * 0.56;
            let turned = node.attributes.contains_key("transform");
            let (along, end) = if turned {
                (node.number("y"), drawing.height)
            } else {
                (node.number("x"), drawing.width)
            };
            let (before, after) = match inherited(drawing, node, "text-anchor").map(String::as_str)
            {
                Some("middle") => (width / 2.0, width / 2.0),
                Some("end") if turned => (0.0, width),
                Some("end") => (width, 0.0),
                _ => (0.0, width),
            };
            let title = node.text == name;
            assert!(
                title || (along - before >= -1.0 && along + after <= end + 1.0),
                "{name}: {node:?}"
            );
        }
    });
}

#[test]
fn each_packet_is_a_line_from_its_put_to_its_end() {
    each(|name, _, run, drawing| {
        let packets = drawing.of_class("packet");
        assert_eq!(packets.len(), run.journeys.len(), "{name}");
        let steps = drawing.steps();
        for (packet, journey) in packets.into_iter().zip(&run.journeys) {
            let lines: Vec<&Node> = drawing.inside(packet, "line").collect();
            let first = lines.first().expect("a line").number("x1");
            assert!((first - steps[&journey.put]).abs() < 0.2, "{name}: {journey:?}");
            let says = drawing.inside(packet, "title").next().expect("what it is");
            assert!(says.text.starts_with(&words::packet(&journey.packet)), "{}", says.text);
            if journey.end == planner::packets::End::OnTheWay {
                continue;
            }
            let ends = |line: &&Node| (line.number("x2") - steps[&journey.left]).abs() < 0.2;
            assert!(lines.iter().any(ends), "{name}: {journey:?}");
        }
    });
}

#[test]
fn each_recoverys_end_has_one_line_back() {
    each(|name, _, run, drawing| {
        let steps = drawing.steps();
        let ends = (1..=run.records.len()).filter(|&k| run.row(k).ended);
        let mut wanted: Vec<(String, String)> = ends
            .map(|k| (format!("{:.1}", steps[&k]), format!("{:.1}", steps[&run.row(k).save])))
            .collect();
        let lines = drawing.of_class("line-back").into_iter();
        let mut drawn: Vec<(String, String)> = lines
            .map(|line| {
                let corners = pairs(&drawing.nodes[line].attributes["d"]);
                let x = |corner: Option<&(f64, f64)>| format!("{:.1}", corner.expect("a corner").0);
                (x(corners.first()), x(corners.last()))
            })
            .collect();
        wanted.sort();
        drawn.sort();
        assert_eq!(drawn, wanted, "{name}");
    });
}

/// The title of a bar: `cabinet 2: error, after steps 3 to 5`.
fn bar_rows(title: &str) -> Option<(usize, String, usize, usize)> {
    let (cabinet, rest) = title.strip_prefix("cabinet ")?.split_once(": ")?;
    let (state, rows) = rest.split_once(", after step")?;
    let rows = rows.trim_start_matches('s').trim();
    let (first, last) = rows.split_once(" to ").unwrap_or((rows, rows));
    Some((cabinet.parse().ok()?, state.into(), first.parse().ok()?, last.parse().ok()?))
}

#[test]
fn lanes_show_the_states_of_all_rows() {
    each(|name, _, run, drawing| {
        let mut shown: HashSet<(usize, usize)> = HashSet::new();
        for lane in drawing.of_class("lane") {
            for title in drawing.inside(lane, "title") {
                let (cabinet, state, first, last) = bar_rows(&title.text).expect("a bar's title");
                for k in first..=last {
                    let is = run.row(k).cabinets[cabinet - 1].state;
                    assert_eq!(state, words::state(is), "{name}: {}", title.text);
                    shown.insert((cabinet, k));
                }
            }
        }
        assert_eq!(shown.len(), run.chronicle.n * run.chronicle.rows.len(), "{name}");
    });
}

/// Nine looks: no two states have the same paint, and each that is there is in the legend.
#[test]
fn the_legend_names_what_is_there() {
    each(|name, _, run, drawing| {
        let legend = drawing.of_class("legend")[0];
        let words: Vec<&String> = drawing.inside(legend, "text").map(|text| &text.text).collect();
        for state in State::ALL {
            let there = run.chronicle.rows.iter().flat_map(|row| &row.cabinets);
            let there = there.clone().any(|cabinet| cabinet.state == state);
            let named = words.iter().any(|word| *word == words::state(state));
            assert_eq!(there, named, "{name}: {}", words::state(state));
        }
    });
}

// ---------------------------------------------------------------- one by one

const PAIR: &str = "group
cabinet 1 store home 1 A 100
cabinet 2 home 1 A 50
link 1 2
";

fn of_text(text: &str) -> (Evening, Drawing) {
    let evening = text::read(text.as_bytes()).expect("the text is right");
    let drawing = drawing(&evening, &library::chronicle(&evening), "a pair");
    (evening, drawing)
}

#[test]
fn refusals_and_a_crash_stand_on_the_axis() {
    let (_, drawing) = of_text(&format!("{PAIR}steps\nbegin 2\nsend 1A 2A 5\nfail 1\nfail 2\n"));
    let axis = drawing.of_class("axis")[0];
    let words: Vec<&str> = drawing.inside(axis, "text").map(|text| text.text.as_str()).collect();
    for word in ["refused 14", "50 crash", "refused 10", "send 1A 2A 5"] {
        assert!(words.contains(&word), "no {word} in {words:?}");
    }
    let flags = drawing.of_class("flags")[0];
    assert!(drawing.inside(flags, "text").any(|text| text.text == "crash"));
}

#[test]
fn points_and_returns_stand_above_the_lanes() {
    let plan = "plan\npoint \"a<b>&\\\"'c\"\nsend 1A 2A 5\ndeliver 1 2\nreturn \"a<b>&\\\"'c\"\n";
    let (evening, drawing) = of_text(&format!("{PAIR}{plan}"));
    assert_eq!(run_of(&evening).map(|run| run.last_row().answer), Some(0));
    let flags = drawing.of_class("flags")[0];
    let words: Vec<&str> = drawing.inside(flags, "text").map(|text| text.text.as_str()).collect();
    assert_eq!(words, ["start", r#"point "a<b>&\"'c""#, r#"return "a<b>&\"'c""#]);
}

#[test]
fn a_strange_title_stays_a_title() {
    let evening = text::read(format!("{PAIR}steps\n").as_bytes()).expect("the text is right");
    let title = "</svg><script>alert(\"1 & 2\")</script>\u{0}\u{7}'";
    let drawing = drawing(&evening, &library::chronicle(&evening), title);
    assert_eq!(drawing.nodes[1].text, "</svg><script>alert(\"1 & 2\")</script>??'");
}

#[test]
fn trouble_is_a_picture_too() {
    let refused = Evening { group: vec![0; 10], ..Evening::default() };
    let drawing = drawing(&refused, &library::chronicle(&refused), "no group");
    let words = "The group file is refused, 2: its number of cabinets is outside 2 to 8.";
    assert!(drawing.nodes.iter().any(|node| node.name == "text" && node.text == words));
    assert!(elements(&picture(&refused, &[0, 2], "cut")).is_ok());
}

/// Two cabinets and ten steps fit on a small screen, eight and 500 on a wide one, in bands.
#[test]
fn pages_are_as_wide_as_screens() {
    let few = "send 1A 2A 1\ndeliver 1 2\n".repeat(5);
    let (_, small) = of_text(&format!("{PAIR}steps\n{few}"));
    assert!(small.width <= 1300.0 && small.height <= 600.0, "{} {}", small.width, small.height);
    let many = "send 1A 2A 1\ndeliver 1 2\n".repeat(250);
    let cabinets: String = (2..=8).map(|i| format!("cabinet {i} home 1\n")).collect();
    let links: String = (1..8).map(|i| format!("link {i} {}\n", i + 1)).collect();
    let group = format!("group\ncabinet 1 store home 1 A 1000\n{cabinets}{links}");
    let (_, large) = of_text(&format!("{group}steps\n{many}"));
    assert!(large.width <= 1800.0 && large.height <= 4000.0, "{} {}", large.width, large.height);
    assert_eq!(large.of_class("axis").len(), 5);
    assert_eq!(large.of_class("lane").len(), 40);
}

#[test]
fn mutated_chronicles_end_in_a_picture() {
    let mut state = SEED;
    let mut chance = |bound: usize| {
        state = case_seed(state, 1);
        (state >> 16) as usize % bound
    };
    for index in 0..1500 {
        let mut evening = made(index % 40);
        evening.records.truncate(12 * evening.record_length());
        let mut octets = library::chronicle(&evening);
        for _ in 0..=chance(2) {
            let place = chance(octets.len());
            octets[place] = chance(9) as u8;
        }
        let svg = picture(&evening, &octets, "mutated");
        elements(&svg).unwrap_or_else(|wrong| panic!("case {index}: {wrong}"));
    }
}
