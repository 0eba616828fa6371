//! Evenings from texts and from folders.

use super::arguments::Wanted;
use super::{tell, Failure};
use crate::evening::{Evening, OPERATION_LENGTH};
use crate::text::{self, WrongLine};
use std::fs::File;
use std::io::{self, Read};
use std::path::Path;

/// The name of standard input.
pub const STANDARD: &str = "-";

/// As many records as are run.
const RECORDS_RUN: usize = 10_000;

/// As much of a group file as matters: no header can name so great a length, so that it is refused
/// however it goes on.
const GROUP_RUN: usize = 65_536;

/// As much of a file as tells whether there is more than is run, in either of a folder's files.
const FILE_RUN: usize = RECORDS_RUN * OPERATION_LENGTH + 1;

/// The longest files that are turned into text: seventy times the steps that are run.
const FILE_MOST: usize = 1 << 22;

/// The longest text that is read: longer than that of any such file.
const TEXT_MOST: usize = 1 << 26;

/// The evening that is to be run, as much of it as counts.
pub fn evening_to_run(wanted: &Wanted) -> Result<Evening, Failure> {
    let is_folder = wanted.input.is_dir();
    let mut evening = if is_folder { read_folder(wanted, FILE_RUN)? } else { read_text(wanted)? };
    if evening.group.len() > GROUP_RUN {
        tell(&format!("desk: only the first {GROUP_RUN} octets of the group file are read"));
        evening.group.truncate(GROUP_RUN);
    }
    let most = RECORDS_RUN * evening.record_length();
    if evening.records.len() > most {
        tell(&format!("desk: only the first {RECORDS_RUN} records are run; there are more"));
        evening.records.truncate(most);
    }
    Ok(evening)
}

/// The evening of a folder, with every octet.
pub fn evening_as_it_is(wanted: &Wanted) -> Result<Evening, Failure> {
    let path = wanted.input.display();
    if wanted.input.exists() && !wanted.input.is_dir() {
        return Err(Failure::wrong_use(format!("{path} is no folder, and text wants one")));
    }
    let evening = read_folder(wanted, FILE_MOST + 1)?;
    if evening.group.len().max(evening.records.len()) > FILE_MOST {
        let why = format!("{path}: a file of more than {FILE_MOST} octets is too long for a text");
        return Err(Failure::refused(why));
    }
    Ok(evening)
}

// ---------------------------------------------------------------- texts

fn read_text(wanted: &Wanted) -> Result<Evening, Failure> {
    if wanted.plan.is_some() {
        let why = "--steps and --plan choose among a folder's files; a text says it by itself";
        return Err(Failure::wrong_use(why));
    }
    evening_of_text(&wanted.input)
}

/// The evening of a text. A wrong line is told with the name of its file.
pub fn evening_of_text(input: &Path) -> Result<Evening, Failure> {
    let (name, octets) = if input == Path::new(STANDARD) {
        ("standard input".into(), read_some(io::stdin().lock(), TEXT_MOST + 1))
    } else {
        let octets = File::open(input).and_then(|file| read_some(file, TEXT_MOST + 1));
        (input.display().to_string(), octets)
    };
    let octets = octets.map_err(|error| Failure::refused(format!("{name}: {error}")))?;
    if octets.len() > TEXT_MOST {
        return Err(Failure::refused(format!("{name}: more than {TEXT_MOST} octets of text")));
    }
    text::read(&octets).map_err(|wrong| Failure::Refused(wrong_lines(&name, &wrong)))
}

fn wrong_lines(name: &str, wrong: &[WrongLine]) -> String {
    let mut lines: Vec<String> = wrong.iter().map(|wrong| format!("{name}:{wrong}")).collect();
    if wrong.len() >= text::WRONG_LINES_TOLD {
        lines.push(format!("{name}: further lines are not looked at"));
    }
    lines.join("\n")
}

// ---------------------------------------------------------------- folders

/// A folder's evening, of each file no more octets than `most`.
fn read_folder(wanted: &Wanted, most: usize) -> Result<Evening, Failure> {
    let folder = &wanted.input;
    if !folder.is_dir() {
        return Err(Failure::refused(format!("{}: no such folder", folder.display())));
    }
    let plan = is_plan(wanted)?;
    let read = |name: &str| {
        let path = folder.join(name);
        let why = |error| Failure::refused(format!("{}: {error}", path.display()));
        read_file(&path, most).map_err(why)
    };
    let records = if plan { "plan.dat" } else { "steps.dat" };
    Ok(Evening { group: read("group.dat")?, records: read(records)?, plan })
}

fn is_plan(wanted: &Wanted) -> Result<bool, Failure> {
    let is_there = |name: &str| wanted.input.join(name).exists();
    match (wanted.plan, is_there("steps.dat"), is_there("plan.dat")) {
        (Some(plan), _, _) => Ok(plan),
        (None, true, true) => {
            let folder = wanted.input.display();
            let why = format!("{folder} has steps.dat and plan.dat: --steps or --plan says which");
            Err(Failure::wrong_use(why))
        }
        (None, _, plan) => Ok(plan),
    }
}

/// A missing file counts as empty.
fn read_file(path: &Path, most: usize) -> io::Result<Vec<u8>> {
    match File::open(path) {
        Ok(file) => read_some(file, most),
        Err(error) if error.kind() == io::ErrorKind::NotFound => {
            tell(&format!("desk: {} is not there, and counts as empty", path.display()));
            Ok(Vec::new())
        }
        Err(error) => Err(error),
    }
}

/// The first octets, so that a file without an end is no harm.
fn read_some(from: impl Read, most: usize) -> io::Result<Vec<u8>> {
    let mut octets = Vec::new();
    from.take(most as u64).read_to_end(&mut octets)?;
    Ok(octets)
}

#[cfg(test)]
mod tests {
    use super::*;
    use crate::commands::arguments::Command;
    use std::path::PathBuf;

    /// As much as is run, and a note; `text` takes all of it.
    #[test]
    fn of_long_files_only_what_counts_is_run() {
        let folder = std::env::temp_dir().join(format!("desk-long-files-{}", std::process::id()));
        std::fs::create_dir(&folder).expect("a folder");
        std::fs::write(folder.join("group.dat"), vec![1; 70_000]).expect("a file");
        std::fs::write(folder.join("plan.dat"), vec![2; 90_005]).expect("a file");
        let (output, force, plan) = (None, false, None);
        let wanted = |command| {
            let input = folder.clone();
            Wanted { command, input, folder: PathBuf::new(), output: output.clone(), force, plan }
        };
        let run = evening_to_run(&wanted(Command::Explain)).expect("it is read");
        let whole = evening_as_it_is(&wanted(Command::Text)).expect("it is read");
        std::fs::remove_dir_all(&folder).expect("the folder");
        assert_eq!((run.group.len(), run.records.len(), run.plan), (65_536, 90_000, true));
        assert_eq!((whole.group.len(), whole.records.len(), whole.plan), (70_000, 90_005, true));
    }
}
