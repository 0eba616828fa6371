//! Every packet followed through a run: the row that put it, the row in which it left its line, and
//! how. Only the lines of rows that follow each other, the emptied marks of the cabinets and the
//! records are read for it, as the last paragraph of docs/CHRONICLE.md lays them out.

use crate::chronicle::{Chronicle, Fate, Packet, Row, Unreadable};
use crate::evening::Evening;
use crate::words::{self, Record};
use std::fmt;

/// How a packet left its line.
#[derive(Clone, Copy, Debug, PartialEq, Eq)]
pub enum End {
    Taken,
    Dropped,
    /// A link fault was found at it.
    FoundFaulty,
    Lost,
    /// Its line was emptied.
    Emptied,
    /// It is on its line still after the last record.
    OnTheWay,
}

/// A packet from where it is put to where it leaves its line.
#[derive(Clone, Debug, PartialEq, Eq)]
pub struct Journey {
    pub from: usize,
    pub to: usize,
    /// As it was put.
    pub packet: Packet,
    pub put: usize,
    /// The rows in which it was damaged, with what it was from then on.
    pub damaged: Vec<(usize, Packet)>,
    pub end: End,
    /// The row in which it left, or the last row for one that is still on the way.
    pub left: usize,
}

impl Journey {
    /// The packet as it is at its end.
    pub fn at_last(&self) -> &Packet {
        self.damaged.last().map_or(&self.packet, |(_, packet)| packet)
    }
}

/// Why there is nothing to tell of a run.
#[derive(Clone, Debug, PartialEq, Eq)]
pub enum Trouble {
    LoadRefused(u8),
    Unreadable(Unreadable),
    /// Rows beside the first one, and records.
    Unequal {
        rows: usize,
        records: usize,
    },
    /// In this row the lines are not what the record and the row before make of them.
    Lines {
        row: usize,
        from: usize,
        to: usize,
    },
}

impl fmt::Display for Trouble {
    fn fmt(&self, f: &mut fmt::Formatter) -> fmt::Result {
        match self {
            Trouble::LoadRefused(answer) => {
                write!(f, "The group file is refused, {answer}: {}.", words::load_reason(*answer))
            }
            Trouble::Unreadable(place) => write!(f, "The chronicle cannot be read: {place}."),
            Trouble::Unequal { rows, records } => {
                write!(f, "The chronicle tells of {rows} records, but there are {records}.")
            }
            Trouble::Lines { row, from, to } => write!(
                f,
                "The chronicle and record {row} disagree about the line from {from} to {to}."
            ),
        }
    }
}

/// A run: what was asked, what the library tells of it, and the packets in it.
pub struct Run {
    pub records: Vec<Record>,
    /// The records as they stand in a text.
    pub texts: Vec<String>,
    pub chronicle: Chronicle,
    /// In the order in which they were put.
    pub journeys: Vec<Journey>,
    /// For each row the journeys that ended in it.
    left: Vec<Vec<usize>>,
    /// For each row the journeys that were damaged in it.
    damaged: Vec<Vec<usize>>,
}

impl Run {
    pub fn open(evening: &Evening, chronicle: &[u8]) -> Result<Run, Trouble> {
        let chronicle = Chronicle::read(chronicle).map_err(Trouble::Unreadable)?;
        if chronicle.load != 0 {
            return Err(Trouble::LoadRefused(chronicle.load));
        }
        let (records, texts): (Vec<Record>, Vec<String>) =
            words::records(evening).into_iter().unzip();
        let rows = chronicle.rows.len() - 1;
        if rows != records.len() {
            return Err(Trouble::Unequal { rows, records: records.len() });
        }
        let journeys = follow(&records, &chronicle.rows)?;
        let (mut left, mut damaged) = (vec![Vec::new(); rows + 1], vec![Vec::new(); rows + 1]);
        for (place, journey) in journeys.iter().enumerate() {
            if journey.end != End::OnTheWay {
                left[journey.left].push(place);
            }
            journey.damaged.iter().for_each(|&(row, _)| damaged[row].push(place));
        }
        Ok(Run { records, texts, chronicle, journeys, left, damaged })
    }

    /// The packets that record k put.
    pub fn put_in(&self, k: usize) -> &[Journey] {
        let first = self.journeys.partition_point(|journey| journey.put < k);
        let end = self.journeys.partition_point(|journey| journey.put <= k);
        &self.journeys[first..end]
    }

    /// The packets that left their lines in record k.
    pub fn left_in(&self, k: usize) -> impl Iterator<Item = &Journey> {
        self.left[k].iter().map(|&place| &self.journeys[place])
    }

    /// The packets that record k damaged.
    pub fn damaged_in(&self, k: usize) -> impl Iterator<Item = &Journey> {
        self.damaged[k].iter().map(|&place| &self.journeys[place])
    }

    pub fn last_row(&self) -> &Row {
        &self.chronicle.rows[self.records.len()]
    }

    /// The record of row k, for k from 1 on.
    pub fn record(&self, k: usize) -> &Record {
        &self.records[k - 1]
    }

    /// The record of row k as it stands in a text.
    pub fn text(&self, k: usize) -> &str {
        &self.texts[k - 1]
    }

    pub fn row(&self, k: usize) -> &Row {
        &self.chronicle.rows[k]
    }
}

/// All packets, in the order in which they were put. Row k belongs to record k - 1 of the slice.
pub fn follow(records: &[Record], rows: &[Row]) -> Result<Vec<Journey>, Trouble> {
    let n = rows[0].cabinets.len();
    let mut journeys = Vec::new();
    let mut lines = vec![Vec::new(); n * n];
    for (place, line) in lines.iter_mut().enumerate() {
        put(&mut journeys, line, (place / n + 1, place % n + 1), &rows[0].lines[place], 0);
    }
    for (k, record) in (1..).zip(records) {
        let turn = Turn { k, record, before: &rows[k - 1], after: &rows[k] };
        for (place, line) in lines.iter_mut().enumerate() {
            turn.move_on(&mut journeys, line, (place / n + 1, place % n + 1))?;
        }
    }
    for &still in lines.iter().flatten() {
        journeys[still].left = rows.len() - 1;
    }
    Ok(journeys)
}

/// Puts packets behind what stands on a line.
fn put(
    journeys: &mut Vec<Journey>,
    line: &mut Vec<usize>,
    (from, to): (usize, usize),
    packets: &[Packet],
    k: usize,
) {
    for &packet in packets {
        line.push(journeys.len());
        let damaged = Vec::new();
        journeys.push(Journey { from, to, packet, put: k, damaged, end: End::OnTheWay, left: k });
    }
}

/// A record with the rows on its two sides.
struct Turn<'a> {
    k: usize,
    record: &'a Record,
    before: &'a Row,
    after: &'a Row,
}

impl Turn<'_> {
    /// Takes off the line what left it, and puts behind the rest what the record put there.
    fn move_on(
        &self,
        journeys: &mut Vec<Journey>,
        line: &mut Vec<usize>,
        (from, to): (usize, usize),
    ) -> Result<(), Trouble> {
        let (old, new) = (self.before.line(from, to), self.after.line(from, to));
        let disagree = Trouble::Lines { row: self.k, from, to };
        if self.after.answer != words::TAKEN {
            return if old == new { Ok(()) } else { Err(disagree) };
        }
        let mut kept = old.to_vec();
        if let Some((place, end)) = self.left_at(from, to) {
            if place >= line.len() {
                return Err(disagree);
            }
            self.ends(journeys, line.remove(place), end);
            kept.remove(place);
        }
        if self.emptied(from, to) {
            line.drain(..).for_each(|gone| self.ends(journeys, gone, End::Emptied));
            kept.clear();
        }
        if let Some((place, packet)) = self.damage(from, to, kept.len(), new) {
            journeys[line[place]].damaged.push((self.k, packet));
            kept[place] = packet;
        }
        if !new.starts_with(&kept) {
            return Err(disagree);
        }
        put(journeys, line, (from, to), &new[kept.len()..], self.k);
        Ok(())
    }

    fn ends(&self, journeys: &mut [Journey], gone: usize, end: End) {
        journeys[gone].end = end;
        journeys[gone].left = self.k;
    }

    /// The one packet that the record itself takes off this line: its place, and how it ends.
    fn left_at(&self, from: usize, to: usize) -> Option<(usize, End)> {
        let Record::Step(step) = self.record else { return None };
        if (usize::from(step.a), usize::from(step.b)) != (from, to) {
            return None;
        }
        match (step.kind, self.after.fate) {
            (words::DELIVER, Fate::Taken) => Some((0, End::Taken)),
            (words::DELIVER, Fate::Dropped) => Some((0, End::Dropped)),
            (words::DELIVER, Fate::LinkFault) => Some((0, End::FoundFaulty)),
            (words::LOSE, _) => Some((usize::from(step.p), End::Lost)),
            _ => None,
        }
    }

    fn emptied(&self, from: usize, to: usize) -> bool {
        let cabinets = &self.after.cabinets;
        cabinets[from - 1].emptied_out || cabinets[to - 1].emptied_in
    }

    /// The place that the record damages on this line of so many packets, and what is there now.
    fn damage(
        &self,
        from: usize,
        to: usize,
        length: usize,
        new: &[Packet],
    ) -> Option<(usize, Packet)> {
        let step = self.record.step_of(words::DAMAGE)?;
        let line = (usize::from(step.a), usize::from(step.damaged_receiver()));
        let place = step.damaged_place();
        if line != (from, to) || place >= length {
            return None;
        }
        new.get(place).map(|&packet| (place, packet))
    }
}
