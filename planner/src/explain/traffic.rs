//! Packets in a record: what became of the one it was about, what went with emptied lines, and what
//! was put.

use crate::chronicle::Packet;
use crate::packets::{End, Journey, Run};
use crate::words::{self, Record};

// ---------------------------------------------------------------- one packet

/// What the record did to the one packet that it is about.
pub fn ended(run: &Run, k: usize) -> Vec<String> {
    let mut lines: Vec<String> = run.left_in(k).filter_map(told_end).collect();
    lines.extend(run.damaged_in(k).map(|journey| told_damage(journey, k)));
    lines
}

/// The words for the ends that a record is about. What taking is depends on the packet.
fn ending(end: End, packet: &Packet) -> Option<&'static str> {
    match (end, packet) {
        (End::Taken, Packet::Normal { .. }) => Some("added"),
        (End::Taken, Packet::Checkp) => Some("compared and equal"),
        (End::Taken, _) => Some("taken"),
        (End::Dropped, _) => Some("dropped"),
        (End::FoundFaulty, _) => Some("a link fault found at it"),
        (End::Lost, _) => Some("lost"),
        (End::Emptied | End::OnTheWay, _) => None,
    }
}

fn told_end(journey: &Journey) -> Option<String> {
    let packet = journey.at_last();
    let end = ending(journey.end, packet)?;
    let mut line = format!("from step {}: {}, {end}", journey.put, words::packet(packet));
    if let [.., (row, _)] = journey.damaged[..] {
        line.push_str(&format!("; it was damaged in step {row}"));
        if journey.packet != *packet {
            line.push_str(&format!(", before that it was {}", words::packet(&journey.packet)));
        }
    }
    Some(line)
}

fn told_damage(journey: &Journey, k: usize) -> String {
    let before = journey.damaged.iter().rev().find(|&&(row, _)| row < k);
    let was = before.map_or(&journey.packet, |(_, packet)| packet);
    let now = journey.damaged.iter().find(|&&(row, _)| row == k);
    let is = now.map_or(was, |(_, packet)| packet);
    let what = format!("from step {}: {}", journey.put, words::packet(was));
    match is {
        Packet::Invalid if was == is => format!("{what}, invalid still"),
        _ if was == is => format!("{what} still, its own check hurt"),
        _ => format!("{what} → {}", words::packet(is)),
    }
}

// ---------------------------------------------------------------- emptied lines

pub fn emptied(run: &Run, k: usize) -> Option<String> {
    let gone: Vec<&Journey> = run.left_in(k).filter(|j| j.end == End::Emptied).collect();
    if gone.is_empty() {
        return None;
    }
    let amounts: Vec<u32> = gone.iter().filter_map(|journey| amount(journey)).collect();
    let normal = match amounts.len() {
        0 => "none of them normal".into(),
        count => format!("{count} of them normal, {} A in all", amounts.iter().sum::<u32>()),
    };
    let packets = if gone.len() == 1 { "packet goes" } else { "packets go" };
    Some(format!("{} {packets} with the lines that are emptied, {normal}", gone.len()))
}

fn amount(journey: &Journey) -> Option<u32> {
    match journey.at_last() {
        Packet::Normal { amount, .. } => Some(u32::from(*amount)),
        _ => None,
    }
}

// ---------------------------------------------------------------- what was put

/// What one cabinet put in a record: on these lines, these packets one behind the other.
struct Put {
    from: usize,
    to: Vec<usize>,
    packets: String,
}

/// A send's own packet is told by the send.
pub fn put(run: &Run, k: usize) -> Vec<String> {
    if matches!(run.record(k), Record::Step(step) if step.kind == words::SEND) {
        return Vec::new();
    }
    let puts = by_sender(run, k);
    let mut told: Vec<String> = Vec::new();
    let mut seen: Vec<&str> = Vec::new();
    for put in &puts {
        if seen.contains(&put.packets.as_str()) {
            continue;
        }
        seen.push(&put.packets);
        let alike: Vec<&Put> = puts.iter().filter(|other| other.packets == put.packets).collect();
        told.push(told_put(&alike));
    }
    told
}

fn by_sender(run: &Run, k: usize) -> Vec<Put> {
    let mut puts: Vec<Put> = Vec::new();
    // the packets of one line stand together, since a record's are noted line by line
    for line in run.put_in(k).chunk_by(|one, next| (one.from, one.to) == (next.from, next.to)) {
        let (from, to) = (line[0].from, line[0].to);
        let packets: Vec<String> = line.iter().map(|j| words::packet(&j.packet)).collect();
        let packets = words::listed(&packets);
        match puts.iter_mut().find(|put| put.from == from && put.packets == packets) {
            Some(put) => put.to.push(to),
            None => puts.push(Put { from, to: vec![to], packets }),
        }
    }
    puts
}

fn told_put(alike: &[&Put]) -> String {
    let packets = &alike[0].packets;
    if let [put] = alike {
        let lines = if put.to.len() == 1 { "its line" } else { "its lines" };
        let to = words::listed(&put.to);
        return format!("cabinet {} puts {packets} on {lines} to {to}", put.from);
    }
    let senders: Vec<usize> = alike.iter().map(|put| put.from).collect();
    let lines: usize = alike.iter().map(|put| put.to.len()).sum();
    format!("{} put {packets} on their {lines} lines", words::cabinets(&senders))
}
