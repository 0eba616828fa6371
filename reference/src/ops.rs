//! Operations as text, a line each (`step HEX`, `point HEX`, `return HEX`), and what a case
//! folder expects of them: the answers, the `cab` lines, and every image and slot.

use crate::evening::{Evening, Operation};
use crate::listing::list_cabinets;
use crate::model::{self, Group, Image};
use std::fmt::Write;

/// The operations, or none if some line is no operation.
pub fn operations(ops: &str) -> Option<Vec<Operation>> {
    ops.lines().map(operation_of_line).collect()
}

pub fn answers_and_store(group_file: &[u8], operations: &[Operation], highest_kind: u8) -> String {
    let mut evening = match model::load(group_file) {
        Ok(group) => Evening::new(group, highest_kind),
        Err(refusal) => return format!("load {refusal}\n"),
    };
    let mut text = String::new();
    for &operation in operations {
        let answer = evening.take(operation);
        let _ = writeln!(text, "{answer}");
    }
    list_cabinets(&mut text, &evening.group);
    list_store(&mut text, &evening.group);
    text
}

fn operation_of_line(line: &str) -> Option<Operation> {
    let (word, digits) = line.split_once(' ')?;
    let octets = octets_of_hex(digits)?;
    match word {
        "step" => octets.try_into().ok().map(Operation::Step),
        "point" => octets.try_into().ok().map(Operation::Point),
        "return" => octets.try_into().ok().map(Operation::Return),
        _ => None,
    }
}

fn octets_of_hex(digits: &str) -> Option<Vec<u8>> {
    let pairs = digits.as_bytes().chunks(2);
    let octet = |pair: &[u8]| u8::from_str_radix(std::str::from_utf8(pair).ok()?, 16).ok();
    pairs.map(octet).collect()
}

fn list_store(text: &mut String, group: &Group) {
    for number in group.numbers() {
        let image = group.image(number).map_or("-".to_string(), |image| hex(&image));
        let _ = writeln!(text, "image {number} {image}");
        for version in 0..2 {
            let _ = writeln!(text, "slot {number} {version} {}", hex(group.slot(number, version)));
        }
    }
}

fn hex(image: &Image) -> String {
    image.iter().map(|octet| format!("{octet:02x}")).collect()
}
