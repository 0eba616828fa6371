//! Reads a chronicle again, by its form alone: where its rows, cabinets and lines stand.

pub(super) const HEADER_LENGTH: usize = 3;
const CABINET_LENGTH: usize = 15;
const FAILED_CABINET_LENGTH: usize = 2;
const PACKET_LENGTH: usize = 4;

const HEADER: [&str; HEADER_LENGTH] = ["what load answers", "n", "packet version"];
const HEAD_OF_ROW: [&str; 7] = ["answer", "fate", "word", "word", "recovery ended", "save", "save"];
const CABINET: [&str; CABINET_LENGTH] = [
    "state",
    "acts",
    "version",
    "coordinator",
    "place",
    "place",
    "place",
    "pieces",
    "home",
    "A's booking",
    "A's booking",
    "B's booking",
    "B's booking",
    "workshop's booking",
    "workshop's booking",
];

/// A row and its parts, as they stand in the octets.
pub(super) struct Row<'a> {
    pub(super) start: usize,
    pub(super) head: &'a [u8],
    pub(super) cabinets: Vec<&'a [u8]>,
    /// From 1 to 1, from 1 to 2 and so on, each with its end.
    pub(super) lines: Vec<&'a [u8]>,
}

/// All rows, or none if some octets are missing or left over.
pub(super) fn rows(octets: &[u8]) -> Option<Vec<Row<'_>>> {
    let mut rest = Rest { octets, position: HEADER_LENGTH };
    let n = usize::from(*octets.get(1)?);
    let mut rows = Vec::new();
    while rest.position < octets.len() {
        rows.push(rest.row(n)?);
    }
    (rest.position == octets.len()).then_some(rows)
}

struct Rest<'a> {
    octets: &'a [u8],
    position: usize,
}

impl<'a> Rest<'a> {
    fn take(&mut self, length: usize) -> Option<&'a [u8]> {
        let taken = self.octets.get(self.position..self.position + length)?;
        self.position += length;
        Some(taken)
    }

    fn next(&self) -> Option<u8> {
        self.octets.get(self.position).copied()
    }

    fn row(&mut self, n: usize) -> Option<Row<'a>> {
        Some(Row {
            start: self.position,
            head: self.take(HEAD_OF_ROW.len())?,
            cabinets: (0..n).map(|_| self.cabinet()).collect::<Option<_>>()?,
            lines: (0..n * n).map(|_| self.line()).collect::<Option<_>>()?,
        })
    }

    fn cabinet(&mut self) -> Option<&'a [u8]> {
        let failed = self.next()? == 0;
        self.take(if failed { FAILED_CABINET_LENGTH } else { CABINET_LENGTH })
    }

    fn line(&mut self) -> Option<&'a [u8]> {
        let packets = self.octets.get(self.position..)?.chunks(PACKET_LENGTH);
        let packets = packets.take_while(|packet| packet[0] != 0).count();
        self.take(PACKET_LENGTH * packets + 1)
    }
}

// ---------------------------------------------------------------- names

/// In words, what stands at this place of a chronicle.
pub(super) fn part_at(octets: &[u8], position: usize) -> String {
    if position >= octets.len() {
        return "behind the end".to_string();
    }
    let rows = rows(octets).unwrap_or_default();
    let up_to_it = rows.iter().take_while(|row| row.start <= position).enumerate();
    match up_to_it.last() {
        Some((number, row)) => format!("row {number}, {}", row.part_at(position - row.start)),
        None => HEADER[position].to_string(),
    }
}

impl Row<'_> {
    fn part_at(&self, mut place: usize) -> String {
        if let Some(name) = HEAD_OF_ROW.get(place) {
            return name.to_string();
        }
        place -= self.head.len();
        for (number, cabinet) in (1..).zip(&self.cabinets) {
            if place < cabinet.len() {
                return format!("cabinet {number}, {}", CABINET[place]);
            }
            place -= cabinet.len();
        }
        for (index, line) in self.lines.iter().enumerate() {
            if place < line.len() {
                let (from, to) = (index / self.cabinets.len(), index % self.cabinets.len());
                let (packet, octet) = (place / PACKET_LENGTH, place % PACKET_LENGTH);
                let line = format!("line from {} to {}", from + 1, to + 1);
                return format!("{line}, packet {}, octet {}", packet + 1, octet + 1);
            }
            place -= line.len();
        }
        "behind its end".to_string()
    }
}
