//! The steps, and the points and returns of a plan: a line for each record.

use super::forms::{Field, Form, Item};
use super::lines::{octets_line, quoted, Words};
use super::wrong::{one_of, Wrong, WrongLine};
use crate::evening::{record_length, STEP_LENGTH};

// A step record is kind, a, b, p, q; as one number of 48 bits:
const KIND: u32 = 40;
const A: Field = Field { label: "", what: "a cabinet", low: 32, width: 8 };
const B: Field = Field { label: "", what: "a cabinet", low: 24, width: 8 };
const PLACE: Field = Field { label: "place", what: "a place", low: 16, width: 8 };

// Damage packs the shifts of its pattern beside the receiver and the place.
const HURT_B: Field = Field { label: "", what: "a cabinet", low: 24, width: 4 };
const HURT_PLACE: Field = Field { label: "place", what: "a place", low: 16, width: 5 };
const PATTERN: Field = Field { label: "pattern", what: "a pattern", low: 0, width: 16 };
const BITS: Field = Field { label: "bits", what: "a shift", low: 21, width: 3 };
const OCTETS: Field = Field { label: "octets", what: "a shift", low: 28, width: 4 };

// Of a note.
const OCTET: Field = Field { label: "", what: "an octet's number", low: 16, width: 8 };
const VALUE: Field = Field { label: "", what: "a value", low: 0, width: 16 };

const AT_A: &[Item] = &[Item::Needed(A)];

/// The kinds of step but for send, whose words name two fields at once.
const KINDS: [(&str, Form); 12] = [
    ("note", step(2, &[Item::Needed(A), Item::Needed(OCTET), Item::Needed(VALUE)])),
    ("begin", step(3, AT_A)),
    ("deliver", step(4, &[Item::Needed(A), Item::Needed(B)])),
    ("write", step(5, AT_A)),
    ("saved", step(6, AT_A)),
    ("fetch", step(7, AT_A)),
    ("restored", step(8, AT_A)),
    ("fail", step(10, AT_A)),
    ("damage", step(11, DAMAGE)),
    ("lose", step(12, &[Item::Needed(A), Item::Needed(B), Item::Needed(PLACE)])),
    ("trip", step(13, AT_A)),
    ("unsure", step(14, AT_A)),
];

const DAMAGE: &[Item] = &[
    Item::Needed(A),
    Item::Needed(HURT_B),
    Item::Needed(HURT_PLACE),
    Item::Pattern(PATTERN),
    Item::Optional(BITS),
    Item::Optional(OCTETS),
];

const fn step(kind: u8, items: &'static [Item]) -> Form {
    Form { length: STEP_LENGTH, constant: (kind as u128) << KIND, items }
}

// The first octet of a plan's record.
const STEP: u8 = 0;
const POINT: u8 = 1;
const RETURN: u8 = 2;

// ---------------------------------------------------------------- sends

const SEND: u8 = 1;

/// The bookings at both ends, by p.
const ENDS: [(char, char); 5] = [('A', 'A'), ('A', 'B'), ('B', 'A'), ('B', 'B'), ('W', 'W')];

fn send_words(record: &[u8]) -> Option<String> {
    let &[SEND, a, b, p, high, low] = record else {
        return None;
    };
    let (from, to) = ENDS.get(usize::from(p))?;
    Some(format!("send {a}{from} {b}{to} {}", u16::from_be_bytes([high, low])))
}

fn read_send(words: &mut Words) -> Result<Vec<u8>, Wrong> {
    let (a, from) =
        words.take("a cabinet from 0 to 255 and its booking, as 1A, 1B or 1W", end_of)?;
    let ends_there = |word: &str| {
        let (b, to) = end_of(word)?;
        let p = ENDS.iter().position(|&ends| ends == (from, to))?;
        Some((b, p as u8))
    };
    let expected = match from {
        'W' => "a cabinet from 0 to 255 and its workshop, as 2W",
        _ => "a cabinet from 0 to 255 and its outlet, as 2A or 2B",
    };
    let (b, p) = words.take(expected, ends_there)?;
    let [high, low] = (words.number("an amount", u16::MAX.into())? as u16).to_be_bytes();
    words.end()?;
    Ok(vec![SEND, a, b, p, high, low])
}

/// `1A` taken apart.
fn end_of(word: &str) -> Option<(u8, char)> {
    let booking = word.chars().last().filter(|letter| "ABW".contains(*letter))?;
    let number = word.strip_suffix(booking)?;
    let all_digits = number.chars().all(|digit| digit.is_ascii_digit());
    let number = number.parse().ok().filter(|_| all_digits)?;
    Some((number, booking))
}

// ---------------------------------------------------------------- reading

/// What stands in a part of records.
#[derive(Default)]
pub struct RecordsPart {
    plan: bool,
    octets: Vec<u8>,
    /// A record that is too short, if it was the last one read, and its line.
    short: Option<(usize, usize)>,
    /// The first of those that others followed.
    short_before_others: Option<(usize, usize)>,
}

impl RecordsPart {
    pub fn headed(words: &mut Words) -> Result<RecordsPart, Wrong> {
        let plan = words.took("plan");
        if !plan {
            words.took("steps");
        }
        words.end()?;
        Ok(RecordsPart { plan, ..RecordsPart::default() })
    }

    pub fn read_line(&mut self, line: usize, words: &mut Words) -> Result<(), Wrong> {
        let record = self.read_record(words)?;
        self.short_before_others = self.short_before_others.or(self.short.take());
        if record.len() < record_length(self.plan) {
            self.short = Some((line, record.len()));
        }
        self.octets.extend(record);
        Ok(())
    }

    fn read_record(&self, words: &mut Words) -> Result<Vec<u8>, Wrong> {
        if words.took("octets") {
            return self.read_octets(words);
        }
        for (word, first) in [("point", POINT), ("return", RETURN)] {
            if words.first() == Some(word) {
                return self.read_name(words, first);
            }
        }
        let step = read_step(words, self.plan)?;
        Ok(if self.plan { [&[STEP], &step[..], &[0, 0]].concat() } else { step })
    }

    fn read_octets(&self, words: &mut Words) -> Result<Vec<u8>, Wrong> {
        let octets = words.octets()?;
        let most = record_length(self.plan);
        if octets.len() > most {
            return Err(Wrong::new(format!("at most {most} octets"), octets.len().to_string()));
        }
        Ok(octets)
    }

    fn read_name(&self, words: &mut Words, first: u8) -> Result<Vec<u8>, Wrong> {
        if !self.plan {
            return Err(words.wrong("a step (points and returns stand in a `plan`)"));
        }
        words.took(if first == POINT { "point" } else { "return" });
        let name = words.name()?;
        words.end()?;
        Ok([&[first], &name[..]].concat())
    }

    /// A record short of octets would run into the next one: so it can only be the last.
    pub fn wrong_short_record(&self) -> Option<WrongLine> {
        let (line, length) = self.short_before_others?;
        let whole = record_length(self.plan);
        let expected = format!("{whole} octets, as only the last record may have fewer");
        Some(Wrong::new(expected, length.to_string()).at(line))
    }

    pub fn is_plan(&self) -> bool {
        self.plan
    }

    pub fn octets(self) -> Vec<u8> {
        self.octets
    }
}

fn read_step(words: &mut Words, plan: bool) -> Result<Vec<u8>, Wrong> {
    if words.took("send") {
        return read_send(words);
    }
    for (word, form) in &KINDS {
        if words.took(word) {
            return form.read(words);
        }
    }
    let points: &[&str] = if plan { &["point", "return"] } else { &[] };
    let kinds = KINDS.iter().map(|(word, _)| word);
    let words_there = ["send"].iter().chain(kinds).chain(points).chain(&["octets"]);
    let choices: Vec<String> = words_there.map(|word| format!("`{word}`")).collect();
    Err(words.wrong(one_of(&choices)))
}

// ---------------------------------------------------------------- printing

pub fn print(records: &[u8], plan: bool) -> String {
    let heading = if plan { "plan\n" } else { "steps\n" };
    let lines = records.chunks(record_length(plan)).map(|record| record_line(record, plan) + "\n");
    std::iter::once(heading.to_string()).chain(lines).collect()
}

/// One record as it stands in a text.
pub fn record_line(record: &[u8], plan: bool) -> String {
    let words = if plan { operation_words(record) } else { step_words(record) };
    words.unwrap_or_else(|| octets_line("octets", record))
}

fn operation_words(record: &[u8]) -> Option<String> {
    match record {
        [STEP, step @ .., 0, 0] => step_words(step),
        [POINT, name @ ..] if record.len() == record_length(true) => {
            Some(format!("point {}", quoted(name)))
        }
        [RETURN, name @ ..] if record.len() == record_length(true) => {
            Some(format!("return {}", quoted(name)))
        }
        _ => None,
    }
}

fn step_words(record: &[u8]) -> Option<String> {
    let of_kind = |(word, form): &(&str, Form)| Some(format!("{word} {}", form.words(record)?));
    send_words(record).or_else(|| KINDS.iter().find_map(of_kind))
}
