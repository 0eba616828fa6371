//! The one text form of group files, steps and plans, read and printed. `README.md` of this
//! package is its page. Every file of octets has a text that gives it back as it was: what no word
//! fits stands as octets.

mod forms;
mod group;
mod lines;
mod records;
mod wrong;

pub use records::record_line;
pub use wrong::WrongLine;

use crate::evening::Evening;
use group::GroupPart;
use lines::{numbered_lines, Words};
use records::RecordsPart;
use wrong::Wrong;

/// The text of an evening. An empty group file has no part; the heading of the records is always
/// there, since it tells steps from a plan.
pub fn print(evening: &Evening) -> String {
    let mut text = String::new();
    if !evening.group.is_empty() {
        text += &group::print(&evening.group);
        text.push('\n');
    }
    text + &records::print(&evening.records, evening.plan)
}

/// As many wrong lines as are told. The lines behind them are not looked at: a text may be long.
pub const WRONG_LINES_TOLD: usize = 10;

/// The evening that a text stands for, or those of its lines that are wrong.
pub fn read(text: &[u8]) -> Result<Evening, Vec<WrongLine>> {
    let mut reader = Reader::default();
    for (number, line) in numbered_lines(text) {
        reader.lines = number;
        // What follows a line that is no text is hardly text either.
        let is_text = line.is_ok();
        let read = line.and_then(|line| reader.read_line(line));
        reader.wrong.extend(read.err().map(|wrong| wrong.at(number)));
        if !is_text || reader.wrong.len() == WRONG_LINES_TOLD {
            break;
        }
    }
    reader.evening()
}

const HEADINGS: &str = "`group`, `steps` or `plan`";

/// The part that a line stands in.
#[derive(Clone, Copy, Default, PartialEq, Eq)]
enum Part {
    #[default]
    BeforeAny,
    Group,
    Records,
    /// Behind a heading that is wrong: only that one is told, and not each line below it.
    Unknown,
}

#[derive(Default)]
struct Reader {
    /// Lines so far: the number of the one that is read.
    lines: usize,
    part: Part,
    group: Option<GroupPart>,
    records: Option<RecordsPart>,
    wrong: Vec<WrongLine>,
}

impl Reader {
    fn read_line(&mut self, line: &str) -> Result<(), Wrong> {
        let mut words = Words::of(line)?;
        let Some(first) = words.first() else {
            return Ok(());
        };
        if let "group" | "steps" | "plan" = first {
            return self.read_heading(&mut words);
        }
        match (self.part, &mut self.group, &mut self.records) {
            (Part::Group, Some(group), _) => group.read_line(&mut words),
            (Part::Records, _, Some(records)) => records.read_line(self.lines, &mut words),
            (Part::Unknown, _, _) => Ok(()),
            _ => {
                self.part = Part::Unknown;
                Err(words.wrong(HEADINGS))
            }
        }
    }

    fn read_heading(&mut self, words: &mut Words) -> Result<(), Wrong> {
        self.part = Part::Unknown;
        let heading = words.first().unwrap_or_default();
        if heading == "group" {
            if self.group.is_some() {
                return Err(Wrong::new("one group part", "a second `group`"));
            }
            self.group = Some(GroupPart::headed(words)?);
            self.part = Part::Group;
        } else {
            if self.records.is_some() {
                let found = format!("`{heading}` behind another one");
                return Err(Wrong::new("one part with `steps` or `plan`", found));
            }
            self.records = Some(RecordsPart::headed(words)?);
            self.part = Part::Records;
        }
        Ok(())
    }

    fn evening(mut self) -> Result<Evening, Vec<WrongLine>> {
        if self.part == Part::BeforeAny && self.wrong.is_empty() {
            self.wrong.push(Wrong::new(HEADINGS, "the end of the text").at(self.lines));
        }
        let records = self.records.unwrap_or_default();
        self.wrong.extend(records.wrong_short_record());
        self.wrong.sort_by_key(|wrong| wrong.line);
        if !self.wrong.is_empty() {
            return Err(self.wrong);
        }
        Ok(Evening {
            group: self.group.map(GroupPart::octets).unwrap_or_default(),
            plan: records.is_plan(),
            records: records.octets(),
        })
    }
}

#[cfg(test)]
mod tests;
