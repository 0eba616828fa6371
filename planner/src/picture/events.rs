//! What is marked in a picture, gathered from the rows.

use crate::chronicle::{Place, State};
use crate::packets::Run;
use crate::words::{self, Record, CRASHED, TAKEN};

/// Something that a cabinet did in a row.
#[derive(Clone, Copy)]
pub struct At {
    pub k: usize,
    pub cabinet: usize,
}

pub struct Commit {
    pub k: usize,
    /// Who entered normal with it.
    pub by: Vec<At>,
    pub passed_over: Option<usize>,
}

/// A recovery's end.
pub struct Ended {
    pub k: usize,
    /// Who entered normal with it.
    pub by: Vec<At>,
}

#[derive(Clone, Copy, PartialEq, Eq)]
pub enum Trouble {
    EnteredError,
    Failed,
    Tripped,
}

#[derive(Default)]
pub struct Events {
    pub begins: Vec<At>,
    /// The cuts of each save that was begun.
    pub cuts: Vec<Vec<At>>,
    pub commits: Vec<Commit>,
    pub ends: Vec<Ended>,
    pub troubles: Vec<(At, Trouble)>,
    /// Rows in which a point was taken or returned to.
    pub points: Vec<usize>,
    pub returns: Vec<usize>,
    pub refused: Vec<usize>,
    pub crash: Option<usize>,
    /// Steps at one cabinet alone that change no state: pieces, reports and notes.
    pub small: Vec<At>,
}

pub fn gather(run: &Run) -> Events {
    let mut events = Events::default();
    for k in 1..=run.records.len() {
        match run.row(k).answer {
            TAKEN => events.taken(run, k),
            CRASHED => events.crash = Some(k),
            _ => events.refused.push(k),
        }
    }
    events
}

impl Events {
    fn taken(&mut self, run: &Run, k: usize) {
        match run.record(k) {
            Record::Point(_) => self.points.push(k),
            Record::Return(_) => self.returns.push(k),
            Record::Step(step) => self.step(step.kind, At { k, cabinet: step.a.into() }),
            Record::Other(_) => (),
        }
        self.saves(run, k);
        self.cabinets(run, k);
    }

    fn step(&mut self, kind: u8, at: At) {
        match kind {
            words::BEGIN => {
                self.begins.push(at);
                self.cuts.push(Vec::new());
            }
            words::NOTE
            | words::WRITE
            | words::SAVED
            | words::FETCH
            | words::RESTORED
            | words::UNSURE => self.small.push(at),
            _ => (),
        }
    }

    fn saves(&mut self, run: &Run, k: usize) {
        let (before, row) = (run.row(k - 1), run.row(k));
        if row.save < before.save {
            let over = self.commits.iter_mut().find(|commit| commit.k == before.save);
            over.into_iter().for_each(|commit| commit.passed_over = Some(k));
        }
        if row.save == k && !run.record(k).is_return() {
            let by = entered_normal(run, k);
            self.commits.push(Commit { k, by, passed_over: None });
        }
        if row.ended {
            self.ends.push(Ended { k, by: entered_normal(run, k) });
        }
    }

    fn cabinets(&mut self, run: &Run, k: usize) {
        let states = run.row(k - 1).cabinets.iter().zip(&run.row(k).cabinets);
        for (cabinet, (old, new)) in (1..).zip(states) {
            let at = At { k, cabinet };
            if new.cut {
                match self.cuts.last_mut() {
                    Some(cuts) => cuts.push(at),
                    None => self.cuts.push(vec![at]),
                }
            }
            if new.state == State::Failed && old.state != State::Failed {
                self.troubles.push((at, Trouble::Failed));
            } else if new.emptied_out {
                let place = new.working.and_then(|working| working.place);
                let own = place == Some(Place::Tripped(cabinet as u8));
                let trouble = if own { Trouble::Tripped } else { Trouble::EnteredError };
                self.troubles.push((at, trouble));
            }
        }
    }
}

/// Who went into normal in row k.
fn entered_normal(run: &Run, k: usize) -> Vec<At> {
    let normal = |row: usize, place: usize| run.row(row).cabinets[place].state == State::Normal;
    (0..run.chronicle.n)
        .filter(|&place| normal(k, place) && !normal(k - 1, place))
        .map(|place| At { k, cabinet: place + 1 })
        .collect()
}
