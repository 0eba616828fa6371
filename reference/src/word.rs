//! The program `word`: the line that it prints for a group file and a steps file, and counts of
//! what these lines tell. The counts see the steps from outside, and do not ask for the model's
//! note.

use crate::listing::{add_counts, count, counts_text, Counter, Tally, RECORDS_READ};
use crate::model::{self, Event, Group, Number, Place, Reason, State, Word, RECORD_LENGTH};
use std::collections::{BTreeMap, BTreeSet};
use std::fmt::Write;

#[cfg(test)]
mod tests;

fn text_of(word: Result<Word, u8>) -> String {
    match word {
        Ok(Word { cabinet, reason }) => format!("word {cabinet} {}\n", reason.number()),
        Err(refusal) => format!("word {refusal}\n"),
    }
}

/// What `word` prints, and its counts; kinds above `highest_kind` are unknown.
pub fn counted_word(group_file: &[u8], steps_file: &[u8], highest_kind: u8) -> (String, Tally) {
    let mut group = match model::load(group_file) {
        Ok(group) => group,
        Err(refusal) => {
            let mut tally = Tally::of_refused_load(group_file, refusal);
            count(&mut tally.words.answers, Sort::Load);
            return (format!("load {refusal}\n"), tally);
        }
    };
    let mut counter = Counter::new(&group);
    let mut watch = WordWatch::new(&group);
    for record in steps_file.chunks(RECORD_LENGTH).take(RECORDS_READ) {
        let outcome = counter.step(&mut group, record, highest_kind);
        watch.after_step(&group, outcome.event);
    }
    counter.tally.words.count_answer(&watch, &group);
    (text_of(group.word()), counter.tally)
}

pub fn word(group_file: &[u8], steps_file: &[u8], highest_kind: u8) -> String {
    counted_word(group_file, steps_file, highest_kind).0
}

// ---------------------------------------------------------------- counts

/// What a line says.
#[derive(Clone, Copy, PartialEq, Eq, PartialOrd, Ord, Debug)]
pub enum Sort {
    Load,
    Crashed,
    NoneYet,
    Settled(Reason),
}

impl Sort {
    pub const ALL: [Sort; 7] = [
        Sort::Load,
        Sort::Crashed,
        Sort::NoneYet,
        Sort::Settled(Reason::Led),
        Sort::Settled(Reason::StillSaving),
        Sort::Settled(Reason::InNormal),
        Sort::Settled(Reason::Decided),
    ];

    pub(crate) fn of(group: &Group) -> Sort {
        match group.word() {
            Ok(word) => Sort::Settled(word.reason),
            Err(_) if group.crashed() => Sort::Crashed,
            Err(_) => Sort::NoneYet,
        }
    }

    fn name(self) -> String {
        match self {
            Sort::Load => "load".to_string(),
            Sort::Crashed => "word 10".to_string(),
            Sort::NoneYet => "word 24".to_string(),
            Sort::Settled(reason) => format!("reason {}", reason.number()),
        }
    }
}

/// What is worth a count of a recovery, or of a line that tells of it.
#[derive(Clone, Copy, PartialEq, Eq, PartialOrd, Ord, Debug)]
pub enum Mark {
    /// Not the first of its run.
    LaterRecovery,
    /// More than one entered recovering in the step that settled it.
    SeveralAtOnce,
    /// Somebody else entered error in a step before that one.
    OthersInErrorBefore,
    /// Somebody entered error in a step after that one and before the end, and so in the next
    /// three.
    LaterEntry,
    /// For another place.
    SecondPlace,
    /// One of a lower number than the first entered recovering.
    LowerLater,
    /// One entered recovering that stood otherwise before it entered error.
    OtherReasonLater,
    /// The place of the first one's fault is a tripped cabinet.
    Trip,
    /// That cabinet led.
    TripOfTheLead,
    /// The first had led since an earlier fault, and is not 1.
    MovedLead,
    /// The first is the lowest that works, and did not lead.
    LowestWithoutLead,
    /// The first came to lead by the fault, and knew its version.
    LeadsSinceTheFault,
    /// Of a line: asked before the end of the recovery that it tells of, or after.
    UnderWay,
    AfterEnd,
    /// Of a line: somebody has entered error since the last end, and nobody recovering.
    NobodySince,
    /// Of a line: the crash hides a word.
    Hidden,
}

impl Mark {
    pub const ALL: [Mark; 16] = [
        Mark::LaterRecovery,
        Mark::SeveralAtOnce,
        Mark::OthersInErrorBefore,
        Mark::LaterEntry,
        Mark::SecondPlace,
        Mark::LowerLater,
        Mark::OtherReasonLater,
        Mark::Trip,
        Mark::TripOfTheLead,
        Mark::MovedLead,
        Mark::LowestWithoutLead,
        Mark::LeadsSinceTheFault,
        Mark::UnderWay,
        Mark::AfterEnd,
        Mark::NobodySince,
        Mark::Hidden,
    ];

    /// Whether it is counted of lines alone.
    fn of_lines_alone(self) -> bool {
        matches!(self, Mark::UnderWay | Mark::AfterEnd | Mark::NobodySince | Mark::Hidden)
    }
}

#[derive(Clone, Default, PartialEq, Eq, Debug)]
pub struct WordCounts {
    pub answers: BTreeMap<Sort, u64>,
    /// With the first one's state before it entered error.
    pub stood: BTreeMap<(Reason, State), u64>,
    pub marks: BTreeMap<Mark, u64>,
    /// Recoveries in which one has entered recovering, ended or not.
    pub recoveries: u64,
    pub marks_of_recoveries: BTreeMap<Mark, u64>,
}

impl WordCounts {
    fn count_answer(&mut self, watch: &WordWatch, group: &Group) {
        count(&mut self.answers, Sort::of(group));
        if let (Some(latest), false) = (watch.recoveries.last(), group.crashed()) {
            count(&mut self.stood, (latest.word.reason, latest.state_before));
        }
        watch.marks(group).into_iter().for_each(|mark| count(&mut self.marks, mark));
        for recovery in &watch.recoveries {
            self.recoveries += 1;
            let marks = recovery.marks.iter();
            marks.for_each(|&mark| count(&mut self.marks_of_recoveries, mark));
        }
    }

    pub(crate) fn add(&mut self, other: &WordCounts) {
        add_counts(&mut self.answers, &other.answers);
        add_counts(&mut self.stood, &other.stood);
        add_counts(&mut self.marks, &other.marks);
        self.recoveries += other.recoveries;
        add_counts(&mut self.marks_of_recoveries, &other.marks_of_recoveries);
    }

    pub fn report(&self) -> String {
        let of = |sort: Sort| self.answers.get(&sort).copied().unwrap_or_default();
        let lines = Sort::ALL.map(|sort| format!("{} x {}", sort.name(), of(sort)));
        let mut text = format!("lines: {}\n", lines.join(", "));
        let _ = writeln!(text, "reasons by state before: {}", counts_text(&self.stood));
        let _ = writeln!(text, "recoveries with a word: {}", self.recoveries);
        for mark in Mark::ALL {
            let lines = self.marks.get(&mark).copied().unwrap_or_default();
            let _ = write!(text, "{mark:?}: {lines} lines");
            if !mark.of_lines_alone() {
                let recoveries = self.marks_of_recoveries.get(&mark).copied().unwrap_or_default();
                let _ = write!(text, ", {recoveries} recoveries");
            }
            text.push('\n');
        }
        text
    }
}

// ---------------------------------------------------------------- the steps seen from outside

/// A cabinet before a step.
#[derive(Clone, Copy)]
struct Stand {
    state: State,
    knows: bool,
    coordinator: Number,
}

impl Stand {
    fn of(group: &Group, number: Number) -> Stand {
        let cabinet = group.cabinet(number);
        let knows = cabinet.version.known();
        Stand { state: cabinet.state, knows, coordinator: cabinet.coordinator() }
    }
}

/// A cabinet's entry into error.
#[derive(Clone, Copy)]
struct Entry {
    before: Stand,
    place: Option<Place>,
}

impl Entry {
    /// Whoever trips forgets its version.
    fn knew(&self, own: Number) -> bool {
        self.before.knows && self.place != Some(Place::Tripped(own))
    }

    /// The card's four cases, in order.
    fn reason(&self, own: Number) -> Reason {
        if self.before.coordinator == own && self.knew(own) {
            Reason::Led
        } else if matches!(self.before.state, State::CheckpBegin | State::Checkpointing) {
            Reason::StillSaving
        } else if self.before.state == State::Normal {
            Reason::InNormal
        } else {
            Reason::Decided
        }
    }
}

/// One in which somebody has entered recovering.
struct Recovery {
    word: Word,
    state_before: State,
    marks: BTreeSet<Mark>,
}

/// For the counts only: entries into error and recovering, and ends, as the states tell them.
pub(crate) struct WordWatch {
    /// The cabinets as the last step left them.
    stands: Vec<Stand>,
    /// The entries into error since the start or the last end.
    entries: BTreeMap<Number, Entry>,
    recoveries: Vec<Recovery>,
    /// Whether the last of these has not ended.
    open: bool,
}

impl WordWatch {
    pub(crate) fn new(group: &Group) -> WordWatch {
        let stands = stands(group);
        WordWatch { stands, entries: BTreeMap::new(), recoveries: Vec::new(), open: false }
    }

    /// The group is that of after the step.
    pub(crate) fn after_step(&mut self, group: &Group, event: Event) {
        if !group.crashed() {
            let others_before = !self.entries.is_empty();
            let entered_error = self.note_entries(group);
            let recovering = self.entered_recovering(group);
            if self.open {
                self.note_later(&entered_error, &recovering);
            } else if let Some(&first) = recovering.first() {
                let mut recovery = self.recovery_of(group, first);
                let marks = [
                    (Mark::SeveralAtOnce, recovering.len() > 1),
                    (Mark::OthersInErrorBefore, others_before),
                ];
                recovery.marks.extend(marked(&marks));
                self.recoveries.push(recovery);
                self.open = true;
            }
        }
        if matches!(event, Event::RecoveryEnd { .. }) {
            self.open = false;
            self.entries.clear();
        }
        self.stands = stands(group);
    }

    fn before(&self, number: Number) -> Stand {
        self.stands[number - 1]
    }

    /// Who has entered error in this step.
    fn note_entries(&mut self, group: &Group) -> Vec<Number> {
        let entered = |a: &Number| {
            group.cabinet(*a).state.in_recovery() && !self.before(*a).state.in_recovery()
        };
        let entered: Vec<Number> = group.numbers().filter(entered).collect();
        for &a in &entered {
            let entry = Entry { before: self.before(a), place: group.cabinet(a).place() };
            self.entries.insert(a, entry);
        }
        entered
    }

    fn entered_recovering(&self, group: &Group) -> Vec<Number> {
        let recovering = group.recovering_cabinets().into_iter();
        recovering.filter(|&a| self.before(a).state != State::Recovering).collect()
    }

    fn recovery_of(&self, group: &Group, first: Number) -> Recovery {
        let entry = self.entries[&first];
        let reason = entry.reason(first);
        let lowest = group.working_cabinets().first() == Some(&first);
        let leads_now = group.cabinet(first).coordinator() == first;
        let led = entry.before.coordinator == first;
        let trip = matches!(entry.place, Some(Place::Tripped(_)));
        let of_the_lead = entry.place == Some(Place::Tripped(entry.before.coordinator));
        let marks = [
            (Mark::LaterRecovery, !self.recoveries.is_empty()),
            (Mark::Trip, trip),
            (Mark::TripOfTheLead, of_the_lead),
            (Mark::MovedLead, led && first != 1),
            (Mark::LowestWithoutLead, lowest && !led && !leads_now),
            (Mark::LeadsSinceTheFault, leads_now && !led && reason != Reason::Decided),
        ];
        let word = Word { cabinet: first, reason };
        Recovery { word, state_before: entry.before.state, marks: marked(&marks) }
    }

    /// What comes after the step that settled the recovery and before its end.
    fn note_later(&mut self, entered_error: &[Number], recovering: &[Number]) {
        let Some(recovery) = self.recoveries.last_mut() else {
            return;
        };
        let first = recovery.word.cabinet;
        let place = self.entries[&first].place;
        let elsewhere = |a: &Number| self.entries[a].place != place;
        let otherwise = |a: &Number| self.entries[a].reason(*a) != recovery.word.reason;
        let marks = [
            (Mark::LaterEntry, !entered_error.is_empty()),
            (Mark::SecondPlace, entered_error.iter().any(elsewhere)),
            (Mark::LowerLater, recovering.iter().any(|&a| a < first)),
            (Mark::OtherReasonLater, recovering.iter().any(otherwise)),
        ];
        recovery.marks.extend(marked(&marks));
    }

    /// Of the line that would be printed now.
    pub(crate) fn marks(&self, group: &Group) -> BTreeSet<Mark> {
        let latest = self.recoveries.last();
        if group.crashed() {
            return marked(&[(Mark::Hidden, latest.is_some())]);
        }
        let mut marks = latest.map(|recovery| recovery.marks.clone()).unwrap_or_default();
        marks.extend(marked(&[
            (Mark::UnderWay, self.open),
            (Mark::AfterEnd, latest.is_some() && !self.open),
            (Mark::NobodySince, !self.open && !self.entries.is_empty()),
        ]));
        marks
    }
}

fn stands(group: &Group) -> Vec<Stand> {
    group.numbers().map(|number| Stand::of(group, number)).collect()
}

fn marked(marks: &[(Mark, bool)]) -> BTreeSet<Mark> {
    marks.iter().filter(|(_, there)| *there).map(|&(mark, _)| mark).collect()
}
