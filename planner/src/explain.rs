//! A run told step by step: what was asked, what was answered and why, what changed in the group,
//! and at the end a table of the cabinets.

mod cabinets;
mod facts;
mod page;
mod saves;
mod traffic;

use crate::evening::Evening;
use crate::packets::{Run, Trouble};
use crate::words::{self, Record, CRASHED, TAKEN};
use page::Page;

pub fn explain(evening: &Evening, chronicle: &[u8]) -> String {
    match Run::open(evening, chronicle) {
        Ok(run) => told(&run),
        Err(trouble) => in_trouble(&trouble),
    }
}

fn in_trouble(trouble: &Trouble) -> String {
    let mut page = Page::default();
    page.line(0, &trouble.to_string());
    page.text()
}

fn told(run: &Run) -> String {
    let mut page = Page::default();
    page.line(
        0,
        &format!(
            "A group of {} cabinets, packets of version {}. At the start:",
            run.chronicle.n, run.chronicle.packets
        ),
    );
    page.blank();
    cabinets::table(&mut page, run.row(0));
    page.blank();
    let number_width = run.records.len().to_string().len().max(3);
    let mut saves = saves::Saves::default();
    for k in 1..=run.records.len() {
        saves.note(run, k);
        tell(&mut page, run, &saves, k, number_width);
    }
    ending(&mut page, run);
    page.text()
}

/// One record: two or more lines, or one line where all of it fits.
fn tell(page: &mut Page, run: &Run, saves: &saves::Saves, k: usize, number_width: usize) {
    let record = run.record(k);
    let asked = format!("{k:>number_width$}  {}: {}", run.text(k), words::sentence(record));
    let answer = answered(run, k);
    let changes = changes(run, k);
    let events = saves.events(run, k);
    let indent = number_width + 2;
    let inner = match changes.as_slice() {
        [only] if events.is_empty() => {
            let change = of_own_cabinet(record, only);
            page.short_or_split(indent, &asked, &format!("{answer}; {change}"));
            &[]
        }
        several => {
            page.short_or_split(indent, &asked, &answer);
            several
        }
    };
    inner.iter().for_each(|change| page.line(indent + 2, change));
    events.iter().for_each(|event| page.marked(indent, event));
}

/// The change without the cabinet's name, where that is the one that the step names.
fn of_own_cabinet<'a>(record: &Record, change: &'a str) -> &'a str {
    match record {
        Record::Step(step) => {
            change.strip_prefix(&format!("cabinet {}: ", step.a)).unwrap_or(change)
        }
        _ => change,
    }
}

/// The answer, its reason, and what the row before shows of it.
fn answered(run: &Run, k: usize) -> String {
    let (record, answer) = (run.record(k), run.row(k).answer);
    let reason = words::reason(record, answer);
    let facts = match facts::beside(run, k) {
        fact if fact.is_empty() => String::new(),
        fact => format!(" ({fact})"),
    };
    match answer {
        TAKEN => reason,
        CRASHED => format!("{reason} (50)"),
        _ => format!("refused, {answer}: {reason}{facts}"),
    }
}

/// What the rows on both sides of record k differ in.
fn changes(run: &Run, k: usize) -> Vec<String> {
    if ![TAKEN, CRASHED].contains(&run.row(k).answer) {
        return Vec::new();
    }
    let mut changes = facts::crash(run, k);
    changes.extend(traffic::ended(run, k));
    changes.extend(cabinets::changes(run.row(k - 1), run.row(k)));
    changes.extend(traffic::emptied(run, k));
    changes.extend(traffic::put(run, k));
    changes
}

fn ending(page: &mut Page, run: &Run) {
    let count = run.records.len();
    let refused = (1..=count).filter(|&k| ![TAKEN, CRASHED].contains(&run.row(k).answer)).count();
    page.blank();
    let records = if count == 1 { "1 record".into() } else { format!("{count} records") };
    page.line(0, &format!("The end, after {records}, {refused} of them refused:"));
    page.blank();
    cabinets::table(page, run.last_row());
    page.blank();
    saves::outlook(run).iter().for_each(|line| page.line(0, line));
}
