//! Lines whose words stand for the fields of a few octets. One description serves both ways, so
//! that what is printed is what is read.

use super::lines::Words;
use super::wrong::{one_of, Wrong};

/// Some bits of the octets, which are taken as one number, the first octet highest.
#[derive(Clone, Copy)]
pub struct Field {
    /// The word in front of the number; nothing where the place alone tells.
    pub label: &'static str,
    /// What the number is, for whoever reads a message.
    pub what: &'static str,
    /// The place of its lowest bit.
    pub low: u32,
    pub width: u32,
}

#[derive(Clone, Copy)]
pub enum Item {
    /// A number that must be there.
    Needed(Field),
    /// One that may be left out, and is then 0.
    Optional(Field),
    /// One that must be there, printed in hexadecimal.
    Pattern(Field),
    /// A word by itself, for a bit that is 1.
    Mark(Field),
}

/// The octets of a record or an entry, as words.
pub struct Form {
    pub length: usize,
    /// The bits that are no field's: the kind of a step.
    pub constant: u128,
    pub items: &'static [Item],
}

impl Field {
    fn most(&self) -> u128 {
        (1 << self.width) - 1
    }

    fn of(&self, number: u128) -> u128 {
        number >> self.low & self.most()
    }

    fn mask(&self) -> u128 {
        self.most() << self.low
    }

    fn read(&self, words: &mut Words) -> Result<u128, Wrong> {
        Ok(u128::from(words.number(self.what, self.most() as u64)?) << self.low)
    }
}

impl Item {
    fn field(&self) -> &Field {
        match self {
            Item::Needed(field) | Item::Optional(field) => field,
            Item::Pattern(field) | Item::Mark(field) => field,
        }
    }

    fn may_be_left_out(&self) -> bool {
        matches!(self, Item::Optional(_) | Item::Mark(_))
    }

    fn words(&self, number: u128) -> Option<String> {
        let value = self.field().of(number);
        let label = self.field().label;
        match self {
            Item::Mark(_) => (value != 0).then(|| label.into()),
            Item::Optional(_) if value == 0 => None,
            Item::Pattern(_) => Some(format!("{label} 0x{value:04X}")),
            _ => Some(format!("{label} {value}").trim_start().into()),
        }
    }
}

impl Form {
    /// The words for these octets, if they give back the same.
    pub fn words(&self, octets: &[u8]) -> Option<String> {
        if octets.len() != self.length {
            return None;
        }
        let number = octets.iter().fold(0, |number, &octet| number << 8 | u128::from(octet));
        let fields = self.items.iter().fold(0, |fields, item| fields | item.field().mask());
        if number & !fields != self.constant {
            return None;
        }
        let words: Vec<String> = self.items.iter().filter_map(|item| item.words(number)).collect();
        Some(words.join(" "))
    }

    /// The octets that the words up to the line's end stand for.
    pub fn read(&self, words: &mut Words) -> Result<Vec<u8>, Wrong> {
        let mut number = self.constant;
        let mut left_out = Vec::new();
        for item in self.items {
            let field = item.field();
            if field.label.is_empty() || words.took(field.label) {
                left_out.clear();
                number |= match item {
                    Item::Mark(_) => field.mask(),
                    _ => field.read(words)?,
                };
                continue;
            }
            left_out.push(format!("`{}`", field.label));
            if !item.may_be_left_out() {
                return Err(words.wrong(one_of(&left_out)));
            }
        }
        if words.first().is_some() {
            left_out.push("the end of the line".into());
            return Err(words.wrong(one_of(&left_out)));
        }
        let octets = number.to_be_bytes();
        Ok(octets[octets.len() - self.length..].to_vec())
    }
}
