//! The chronicle of a run, read from the octets that the proved library gives (docs/CHRONICLE.md).
//! Octets that are no chronicle give an error with the place where they stop being one.

use std::fmt;

/// Where octets stop being a chronicle, and what should have stood there.
#[derive(Clone, Debug, PartialEq, Eq)]
pub struct Unreadable {
    pub place: usize,
    pub wanted: &'static str,
}

impl fmt::Display for Unreadable {
    fn fmt(&self, f: &mut fmt::Formatter) -> fmt::Result {
        write!(f, "octet {} of the chronicle: {} should stand there", self.place, self.wanted)
    }
}

#[derive(Clone, Copy, Debug, PartialEq, Eq, PartialOrd, Ord)]
pub enum State {
    Failed,
    Normal,
    CheckpBegin,
    Checkpointing,
    Checkpointed,
    Error,
    Recovering,
    Recovered,
    Crashed,
}

impl State {
    /// In the order of their octets.
    pub const ALL: [State; 9] = [
        State::Failed,
        State::Normal,
        State::CheckpBegin,
        State::Checkpointing,
        State::Checkpointed,
        State::Error,
        State::Recovering,
        State::Recovered,
        State::Crashed,
    ];
}

#[derive(Clone, Copy, Debug, PartialEq, Eq)]
pub enum Version {
    Known(u8),
    /// Unknown, with the version it had before; a cabinet that tripped has none.
    Unknown(Option<u8>),
}

/// The place of a fault.
#[derive(Clone, Copy, Debug, PartialEq, Eq)]
pub enum Place {
    Failed(u8),
    Tripped(u8),
    Link(u8, u8),
}

/// Where an amount is booked.
#[derive(Clone, Copy, Debug, PartialEq, Eq)]
pub enum Outlet {
    A,
    B,
    Workshop,
}

#[derive(Clone, Copy, Debug, PartialEq, Eq)]
pub enum Packet {
    Normal { outlet: Outlet, amount: u16 },
    Checkp,
    Resume,
    Recover(u8),
    Fault(Place),
    Invalid,
}

/// What became of the packet that a deliver took off its line.
#[derive(Clone, Copy, Debug, PartialEq, Eq)]
pub enum Fate {
    NoneTakenOff,
    Taken,
    Dropped,
    LinkFault,
}

/// What card 8's question is answered after a record.
#[derive(Clone, Copy, Debug, PartialEq, Eq)]
pub enum Word {
    Refused(u8),
    Settled { cabinet: u8, reason: u8 },
}

/// What is told of a cabinet that has not failed.
#[derive(Clone, Copy, Debug, PartialEq, Eq)]
pub struct Working {
    pub version: Version,
    pub coordinator: u8,
    pub place: Option<Place>,
    pub pieces: u8,
    pub home: u8,
    /// A's, B's, the workshop's.
    pub bookings: [u16; 3],
}

#[derive(Clone, Copy, Debug, PartialEq, Eq)]
pub struct Cabinet {
    pub state: State,
    /// Its outgoing lines were emptied in the record.
    pub emptied_out: bool,
    /// The lines to it were emptied in the record.
    pub emptied_in: bool,
    /// It had its cut in the record.
    pub cut: bool,
    pub working: Option<Working>,
}

#[derive(Clone, Debug, PartialEq, Eq)]
pub struct Row {
    pub answer: u8,
    pub fate: Fate,
    pub word: Word,
    /// A recovery ended in this record.
    pub ended: bool,
    /// The record that committed, or returned to, the save that the rule gives now; 0 is the start.
    pub save: usize,
    pub cabinets: Vec<Cabinet>,
    /// The line from a to b stands at (a - 1) * n + b - 1.
    pub lines: Vec<Vec<Packet>>,
}

impl Row {
    /// The packets on the way from a to b, oldest first; cabinets are numbered from 1.
    pub fn line(&self, a: usize, b: usize) -> &[Packet] {
        &self.lines[(a - 1) * self.cabinets.len() + b - 1]
    }
}

#[derive(Clone, Debug, PartialEq, Eq)]
pub struct Chronicle {
    /// What load answered; where it is not 0 there is nothing else.
    pub load: u8,
    pub n: usize,
    /// The packet version.
    pub packets: u8,
    pub rows: Vec<Row>,
}

impl Chronicle {
    pub fn read(octets: &[u8]) -> Result<Chronicle, Unreadable> {
        let mut reader = Reader { octets, place: 0 };
        let load = reader.octet("what load answers")?;
        if load != 0 {
            reader.nothing_more()?;
            return Ok(Chronicle { load, n: 0, packets: 0, rows: Vec::new() });
        }
        let n = usize::from(reader.within(2, 8, "a number of cabinets from 2 to 8")?);
        let packets = reader.within(1, 2, "a packet version, 1 or 2")?;
        let mut rows = vec![reader.row(n, 0)?];
        while !reader.at_end() {
            rows.push(reader.row(n, rows.len())?);
        }
        Ok(Chronicle { load, n, packets, rows })
    }
}

struct Reader<'a> {
    octets: &'a [u8],
    place: usize,
}

impl Reader<'_> {
    fn at_end(&self) -> bool {
        self.place == self.octets.len()
    }

    fn nothing_more(&self) -> Result<(), Unreadable> {
        if self.at_end() {
            Ok(())
        } else {
            Err(Unreadable { place: self.place, wanted: "nothing more" })
        }
    }

    fn octet(&mut self, wanted: &'static str) -> Result<u8, Unreadable> {
        let octet = self.octets.get(self.place).copied();
        let octet = octet.ok_or(Unreadable { place: self.place, wanted })?;
        self.place += 1;
        Ok(octet)
    }

    /// Says that the octet just read is not what it should be.
    fn not_this<T>(&self, wanted: &'static str) -> Result<T, Unreadable> {
        Err(Unreadable { place: self.place - 1, wanted })
    }

    fn within(&mut self, low: u8, high: u8, wanted: &'static str) -> Result<u8, Unreadable> {
        let octet = self.octet(wanted)?;
        if (low..=high).contains(&octet) {
            Ok(octet)
        } else {
            self.not_this(wanted)
        }
    }

    fn number(&mut self, wanted: &'static str) -> Result<u16, Unreadable> {
        Ok(u16::from_be_bytes([self.octet(wanted)?, self.octet(wanted)?]))
    }

    /// A cabinet's number, or 0 for none.
    fn cabinet_or_none(&mut self, n: usize, wanted: &'static str) -> Result<u8, Unreadable> {
        self.within(0, n as u8, wanted)
    }

    fn row(&mut self, n: usize, number: usize) -> Result<Row, Unreadable> {
        let answer = self.octet("an answer")?;
        if number == 0 && answer != 0 {
            return self.not_this("the answer 0 of the group as loaded");
        }
        let fate = self.fate()?;
        let word = self.word(n)?;
        let ended = self.within(0, 1, "0 or 1 for a recovery's end")? == 1;
        let save = usize::from(self.number("the save that the rule gives")?);
        if save > number {
            return self.not_this("a save no later than its row");
        }
        let cabinets = (0..n).map(|_| self.cabinet(n)).collect::<Result<_, _>>()?;
        let lines = (0..n * n).map(|_| self.line(n)).collect::<Result<_, _>>()?;
        Ok(Row { answer, fate, word, ended, save, cabinets, lines })
    }

    fn fate(&mut self) -> Result<Fate, Unreadable> {
        const WANTED: &str = "what became of a packet, 0 to 3";
        Ok(match self.within(0, 3, WANTED)? {
            0 => Fate::NoneTakenOff,
            1 => Fate::Taken,
            2 => Fate::Dropped,
            _ => Fate::LinkFault,
        })
    }

    fn word(&mut self, n: usize) -> Result<Word, Unreadable> {
        let cabinet = self.cabinet_or_none(n, "the cabinet whose word settled it")?;
        let reason = self.octet("a reason or a refusal")?;
        match (cabinet, reason) {
            (0, 10 | 24) => Ok(Word::Refused(reason)),
            (0, _) => self.not_this("refusal 10 or 24"),
            (_, 1..=4) => Ok(Word::Settled { cabinet, reason }),
            _ => self.not_this("a reason, 1 to 4"),
        }
    }

    fn cabinet(&mut self, n: usize) -> Result<Cabinet, Unreadable> {
        let state = State::ALL[usize::from(self.within(0, 8, "a state, 0 to 8")?)];
        let did = self.within(0, 7, "what a cabinet did, 0 to 7")?;
        let working = if state == State::Failed { None } else { Some(self.working(n)?) };
        Ok(Cabinet {
            state,
            emptied_out: did & 1 != 0,
            emptied_in: did & 2 != 0,
            cut: did & 4 != 0,
            working,
        })
    }

    fn working(&mut self, n: usize) -> Result<Working, Unreadable> {
        Ok(Working {
            version: self.version()?,
            coordinator: self.cabinet_or_none(n, "a coordinator's number")?,
            place: self.place(n)?,
            pieces: self.within(0, 4, "a number of pieces, 0 to 4")?,
            home: self.cabinet_or_none(n, "a home's number")?,
            bookings: [
                self.number("A's booking")?,
                self.number("B's booking")?,
                self.number("the workshop's booking")?,
            ],
        })
    }

    fn version(&mut self) -> Result<Version, Unreadable> {
        Ok(match self.within(0, 4, "a version, 0 to 4")? {
            known @ (0 | 1) => Version::Known(known),
            4 => Version::Unknown(None),
            unknown => Version::Unknown(Some(unknown - 2)),
        })
    }

    fn place(&mut self, n: usize) -> Result<Option<Place>, Unreadable> {
        const WANTED: &str = "the place of a fault";
        let kind = self.within(0, 3, WANTED)?;
        let first = self.cabinet_or_none(n, WANTED)?;
        let second = self.cabinet_or_none(n, WANTED)?;
        match (kind, first, second) {
            (0, 0, 0) => Ok(None),
            (1, 1.., 0) => Ok(Some(Place::Failed(first))),
            (2, 1.., 0) => Ok(Some(Place::Tripped(first))),
            (3, 1.., _) if first < second => Ok(Some(Place::Link(first, second))),
            _ => self.not_this(WANTED),
        }
    }

    fn line(&mut self, n: usize) -> Result<Vec<Packet>, Unreadable> {
        let mut packets = Vec::new();
        loop {
            match self.within(0, 6, "a packet, or 0 at a line's end")? {
                0 => return Ok(packets),
                kind => packets.push(self.packet(kind, n)?),
            }
        }
    }

    fn packet(&mut self, kind: u8, n: usize) -> Result<Packet, Unreadable> {
        match kind {
            1 => Ok(Packet::Normal { outlet: self.outlet()?, amount: self.number("an amount")? }),
            4 => {
                let version = self.within(0, 1, "a recover packet's version")?;
                self.zeros(2)?;
                Ok(Packet::Recover(version))
            }
            5 => match self.place(n)? {
                Some(place) => Ok(Packet::Fault(place)),
                None => self.not_this("a fault packet's place"),
            },
            _ => {
                self.zeros(3)?;
                Ok(match kind {
                    2 => Packet::Checkp,
                    3 => Packet::Resume,
                    _ => Packet::Invalid,
                })
            }
        }
    }

    fn outlet(&mut self) -> Result<Outlet, Unreadable> {
        Ok(match self.within(0, 2, "the receiving outlet, 0 to 2")? {
            0 => Outlet::A,
            1 => Outlet::B,
            _ => Outlet::Workshop,
        })
    }

    fn zeros(&mut self, count: usize) -> Result<(), Unreadable> {
        (0..count).try_for_each(|_| self.within(0, 0, "0 in an unused octet").map(|_| ()))
    }
}
