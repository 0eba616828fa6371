//! The group part. The header is what the cabinets and links below it give; where a file's own is
//! another one, it stands there as octets.

use super::forms::{Field, Form, Item};
use super::lines::{octets_line, Words};
use super::wrong::Wrong;

const ENTRY_LENGTH: usize = 9;
const LINK_LENGTH: usize = 2;

/// The longest file that a two-octet number can give the length of.
const LONGEST: usize = 65_535;

/// As many octets of a rest as one line shows.
const OCTETS_A_LINE: usize = 16;

/// Home, store mark, A's booking, B's, the workshop's, partner.
const ENTRY: Form = Form {
    length: ENTRY_LENGTH,
    constant: 0,
    items: &[
        Item::Mark(Field { label: "store", what: "", low: 56, width: 1 }),
        Item::Needed(Field { label: "home", what: CABINET, low: 64, width: 8 }),
        Item::Optional(Field { label: "partner", what: CABINET, low: 0, width: 8 }),
        Item::Optional(Field { label: "A", what: BOOKING, low: 40, width: 16 }),
        Item::Optional(Field { label: "B", what: BOOKING, low: 24, width: 16 }),
        Item::Optional(Field { label: "W", what: BOOKING, low: 8, width: 16 }),
    ],
};

const LINK: Form = Form {
    length: LINK_LENGTH,
    constant: 0,
    items: &[
        Item::Needed(Field { label: "", what: CABINET, low: 8, width: 8 }),
        Item::Needed(Field { label: "", what: CABINET, low: 0, width: 8 }),
    ],
};

const CABINET: &str = "a cabinet";
const BOOKING: &str = "a booking";

/// The two forms of a header.
#[derive(Clone, Copy, Default, PartialEq, Eq)]
enum Packets {
    #[default]
    One,
    Two,
}

impl Packets {
    fn header_length(self) -> usize {
        match self {
            Packets::One => 10,
            Packets::Two => 12,
        }
    }

    /// The header of a file with so many entries and links, if its numbers hold them.
    fn header(self, entries: usize, links: usize) -> Option<Vec<u8>> {
        let first = self.header_length();
        let second = first + ENTRY_LENGTH * entries;
        let length = second + LINK_LENGTH * links;
        let mut numbers = vec![entries, links, first, second, length];
        if self == Packets::Two {
            numbers.push(2);
        }
        let octets = |&number: &usize| u16::try_from(number).ok().map(u16::to_be_bytes);
        let octets: Option<Vec<[u8; 2]>> = numbers.iter().map(octets).collect();
        Some(octets?.concat())
    }
}

// ---------------------------------------------------------------- reading

/// What stands in a group part.
#[derive(Default)]
pub struct GroupPart {
    packets: Packets,
    /// A header of its own, in place of what entries and links give.
    header: Option<Vec<u8>>,
    entries: Vec<u8>,
    /// Cabinets named so far, a wrong one too, so that it does not make those behind it wrong.
    cabinets: usize,
    links: Vec<u8>,
    rest: Vec<u8>,
}

impl GroupPart {
    pub fn headed(words: &mut Words) -> Result<GroupPart, Wrong> {
        words.took("group");
        if words.first().is_none() {
            return Ok(GroupPart::default());
        }
        if !words.took("packets") {
            return Err(words.wrong("`packets` or the end of the line"));
        }
        let version = |word: &str| match word {
            "1" => Some(Packets::One),
            "2" => Some(Packets::Two),
            _ => None,
        };
        let packets = words.take("1 or 2", version)?;
        words.end()?;
        Ok(GroupPart { packets, ..GroupPart::default() })
    }

    pub fn read_line(&mut self, words: &mut Words) -> Result<(), Wrong> {
        if words.took("header") {
            return self.read_header(words);
        }
        if !self.rest.is_empty() && words.first() != Some("rest") {
            return Err(words.wrong("`rest`, `steps` or `plan`"));
        }
        match words.first() {
            Some("cabinet" | "octets") if !self.links.is_empty() => {
                Err(words.wrong("`link`, `rest`, `steps` or `plan` behind the links"))
            }
            Some("cabinet" | "octets") => self.read_entry(words),
            Some("link") => self.read_link(words),
            Some("rest") => self.read_rest(words),
            _ => {
                Err(words.wrong("`cabinet`, `link`, `octets`, `header`, `rest`, `steps` or `plan`"))
            }
        }
    }

    fn read_header(&mut self, words: &mut Words) -> Result<(), Wrong> {
        let begun = self.cabinets > 0 || !self.links.is_empty() || !self.rest.is_empty();
        if begun || self.header.is_some() || self.packets != Packets::One {
            return Err(Wrong::new("`header` right behind a plain `group` alone", "it elsewhere"));
        }
        self.header = Some(octets_behind(words, "octets")?);
        Ok(())
    }

    fn read_entry(&mut self, words: &mut Words) -> Result<(), Wrong> {
        self.cabinets += 1;
        let entry = if words.took("octets") {
            entry_of_octets(words)?
        } else {
            words.took("cabinet");
            words.this_number(self.cabinets as u64, "cabinets being in order from 1")?;
            ENTRY.read(words)?
        };
        self.entries.extend(entry);
        self.asks_for_room()
    }

    fn read_link(&mut self, words: &mut Words) -> Result<(), Wrong> {
        words.took("link");
        self.links.extend(LINK.read(words)?);
        self.asks_for_room()
    }

    fn read_rest(&mut self, words: &mut Words) -> Result<(), Wrong> {
        words.took("rest");
        self.rest.extend(octets_behind(words, "octets")?);
        Ok(())
    }

    fn asks_for_room(&self) -> Result<(), Wrong> {
        let fits = self.header.is_some() || self.given_header().is_some();
        let length = self.packets.header_length() + self.entries.len() + self.links.len();
        let most = format!("at most {LONGEST} octets in a group file");
        fits.then_some(()).ok_or_else(|| Wrong::new(most, length.to_string()))
    }

    fn given_header(&self) -> Option<Vec<u8>> {
        self.packets.header(self.entries.len() / ENTRY_LENGTH, self.links.len() / LINK_LENGTH)
    }

    pub fn octets(self) -> Vec<u8> {
        let header = self.header.clone().or_else(|| self.given_header()).unwrap_or_default();
        [header, self.entries, self.links, self.rest].concat()
    }
}

fn octets_behind(words: &mut Words, word: &str) -> Result<Vec<u8>, Wrong> {
    if !words.took(word) {
        return Err(words.wrong(format!("`{word}`")));
    }
    words.octets()
}

fn entry_of_octets(words: &mut Words) -> Result<Vec<u8>, Wrong> {
    let octets = words.octets()?;
    if octets.len() != ENTRY_LENGTH {
        let expected = format!("{ENTRY_LENGTH} octets, those of a cabinet's entry");
        return Err(Wrong::new(expected, octets.len().to_string()));
    }
    Ok(octets)
}

// ---------------------------------------------------------------- printing

/// The group part of a file that is not empty.
pub fn print(file: &[u8]) -> String {
    let file = Divided::of(file);
    let mut lines = file.heading();
    lines.extend((1..).zip(file.entries.chunks(ENTRY_LENGTH)).map(entry_line));
    let link_line = |link| format!("link {}", LINK.words(link).unwrap_or_default());
    lines.extend(file.links.chunks(LINK_LENGTH).map(link_line));
    let rest_line = |octets| octets_line("rest octets", octets);
    lines.extend(file.rest.chunks(OCTETS_A_LINE).map(rest_line));
    lines.iter().map(|line| format!("{line}\n")).collect()
}

fn entry_line((number, entry): (usize, &[u8])) -> String {
    match ENTRY.words(entry) {
        Some(words) => format!("cabinet {number} {words}"),
        None => octets_line("octets", entry),
    }
}

/// A file divided as its header has it, as far as the file goes.
struct Divided<'a> {
    packets: Packets,
    header: &'a [u8],
    entries: &'a [u8],
    links: &'a [u8],
    rest: &'a [u8],
}

impl Divided<'_> {
    /// A file that names 12 as its first offset is taken for one of packet version 2.
    fn of(file: &[u8]) -> Divided<'_> {
        let packets = if number_at(file, 4) == 12 { Packets::Two } else { Packets::One };
        let (header, body) = file.split_at(packets.header_length().min(file.len()));
        let named = number_at(file, 0);
        let cabinets = named.min(body.len() / ENTRY_LENGTH);
        let (entries, behind) = body.split_at(cabinets * ENTRY_LENGTH);
        // What stands behind the last whole entry of a file cut short is no link.
        let named = if cabinets < named { 0 } else { number_at(file, 2) };
        let links = named.min(behind.len() / LINK_LENGTH);
        let (links, rest) = behind.split_at(links * LINK_LENGTH);
        Divided { packets, header, entries, links, rest }
    }

    fn heading(&self) -> Vec<String> {
        let (cabinets, links) = (self.entries.len() / ENTRY_LENGTH, self.links.len() / LINK_LENGTH);
        if self.packets.header(cabinets, links).as_deref() != Some(self.header) {
            return vec!["group".into(), octets_line("header octets", self.header)];
        }
        match self.packets {
            Packets::One => vec!["group".into()],
            Packets::Two => vec!["group packets 2".into()],
        }
    }
}

/// The two octets at a place; 0 where they are not there.
fn number_at(file: &[u8], place: usize) -> usize {
    match file.get(place..place + 2) {
        Some(octets) => usize::from(octets[0]) << 8 | usize::from(octets[1]),
        None => 0,
    }
}
