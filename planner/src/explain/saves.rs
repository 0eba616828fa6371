//! Saves, recoveries and points: what was committed, what came back and why.

use crate::chronicle::{State, Word};
use crate::packets::Run;
use crate::words::{self, Record, TAKEN};

/// What is remembered of the last begin taken: its step, and the cuts since then.
#[derive(Default)]
pub struct Saves {
    begun: Option<usize>,
    cuts: Vec<(usize, usize)>,
}

impl Saves {
    /// Remembers row k.
    pub fn note(&mut self, run: &Run, k: usize) {
        if run.record(k).step_of(words::BEGIN).is_some() && run.row(k).answer == TAKEN {
            self.begun = Some(k);
            self.cuts.clear();
        }
        let cabinets = (1..).zip(&run.row(k).cabinets);
        self.cuts
            .extend(cabinets.filter(|(_, cabinet)| cabinet.cut).map(|(number, _)| (number, k)));
    }

    /// What row k tells of saves, recoveries and points.
    pub fn events(&self, run: &Run, k: usize) -> Vec<String> {
        let mut events = Vec::new();
        let (before, row) = (run.row(k - 1), run.row(k));
        if row.save < before.save {
            events.push(format!(
                "{} is passed over; the rule gives {} now.",
                capital(&came_from(run, before.save)),
                came_from(run, row.save)
            ));
        }
        if row.save == k && !run.record(k).is_return() {
            events.push(self.committed());
        }
        if row.ended {
            events.push(ended(run, k));
        }
        events.extend(point(run, k));
        events
    }

    fn committed(&self) -> String {
        let mut cuts = self.cuts.clone();
        cuts.sort_unstable();
        let cuts: Vec<String> =
            cuts.iter().map(|(number, k)| format!("{number} in step {k}")).collect();
        let begun = self.begun.map_or(String::new(), |k| format!(" begun in step {k}"));
        format!("The save{begun} is committed. Its cuts: cabinet {}.", words::listed(&cuts))
    }
}

/// The save that the rule gives, by the record that made it.
fn came_from(run: &Run, save: usize) -> String {
    match save {
        0 => "the start".into(),
        k if run.record(k).is_return() => format!("the return in step {k}"),
        k => format!("the save committed in step {k}"),
    }
}

fn ended(run: &Run, k: usize) -> String {
    let back = came_from(run, run.row(k).save);
    let why = settled(run.row(k).word).map_or(String::new(), |why| format!(" {why}"));
    format!("The recovery ends: all come back to {back}.{why}")
}

fn settled(word: Word) -> Option<String> {
    match word {
        Word::Settled { cabinet, reason } => {
            let why = words::settling_reason(reason);
            Some(format!("The word of cabinet {cabinet} settled it: {why}."))
        }
        Word::Refused(_) => None,
    }
}

fn point(run: &Run, k: usize) -> Option<String> {
    let row = run.row(k);
    match run.record(k) {
        Record::Point(name) if row.answer == TAKEN => Some(format!(
            "The point {} keeps the images of the committed version: {}.",
            words::named(name),
            came_from(run, row.save)
        )),
        Record::Return(name) if row.answer == TAKEN => Some(format!(
            "All images, and both slots of every cabinet, are those of the point {}.",
            words::named(name)
        )),
        _ => None,
    }
}

fn capital(words: &str) -> String {
    let mut letters = words.chars();
    letters.next().map_or(String::new(), |first| first.to_uppercase().chain(letters).collect())
}

/// What stands after the last record.
pub fn outlook(run: &Run) -> Vec<String> {
    let row = run.last_row();
    let states = || row.cabinets.iter().map(|cabinet| cabinet.state);
    let mut lines = Vec::new();
    if states().any(|state| state == State::Crashed) {
        lines.push("The group has crashed.".into());
        return lines;
    }
    let on_the_way: usize = row.lines.iter().map(Vec::len).sum();
    lines.push(match on_the_way {
        0 => "Every line is empty.".into(),
        1 => "1 packet is on the way.".into(),
        count => format!("{count} packets are on the way."),
    });
    let open = [State::Error, State::Recovering, State::Recovered];
    if states().any(|state| open.contains(&state)) {
        let why = settled(row.word).filter(|_| one_has_gone_on(run));
        lines.push(
            why.map_or("A recovery is open.".into(), |why| format!("A recovery is open. {why}")),
        );
    }
    lines.push(format!("The save that the rule gives: {}.", came_from(run, row.save)));
    lines
}

/// Whether a cabinet has entered recovering since the last recovery's end: before that, the answer
/// to card 8's question is still about the one before.
fn one_has_gone_on(run: &Run) -> bool {
    let since_end = (1..=run.records.len()).rev().take_while(|&k| !run.row(k).ended);
    let entered = |k: usize| {
        let states = run.row(k - 1).cabinets.iter().zip(&run.row(k).cabinets);
        states
            .clone()
            .any(|(old, new)| new.state == State::Recovering && old.state != State::Recovering)
    };
    since_end.into_iter().any(entered)
}
