//! The commands of `desk`: what is asked for, read, answered and written.

mod arguments;
mod help;
mod input;
mod output;

use crate::evening::Evening;
use crate::{explain, library, picture, text, words};
use arguments::{Asked, Command, Wanted};
use std::ffi::OsString;
use std::io::Write;
use std::path::Path;
use std::process::ExitCode;

/// Why a command does not do what is asked, in whole lines.
#[derive(Debug, PartialEq, Eq)]
pub enum Failure {
    /// What was given is not taken.
    Refused(String),
    /// The command was not used as it is meant.
    WrongUse(String),
}

impl Failure {
    fn refused(what: impl std::fmt::Display) -> Failure {
        Failure::Refused(format!("desk: {what}"))
    }

    fn wrong_use(what: impl std::fmt::Display) -> Failure {
        Failure::WrongUse(format!("desk: {what}"))
    }
}

/// Runs the command that the arguments ask for.
pub fn run(arguments: impl Iterator<Item = OsString>) -> ExitCode {
    match arguments::asked(arguments).and_then(answer) {
        Ok(()) => ExitCode::SUCCESS,
        Err(Failure::Refused(why)) => {
            tell(&why);
            ExitCode::from(1)
        }
        Err(Failure::WrongUse(why)) => {
            tell(&why);
            ExitCode::from(2)
        }
    }
}

/// A line for the reader beside the result. Where nobody reads it, that is no failure.
fn tell(line: &str) {
    let _ = writeln!(std::io::stderr(), "{line}");
}

fn answer(asked: Asked) -> Result<(), Failure> {
    match asked {
        Asked::Help(command) => output::give(help::page(command).as_bytes(), None, false),
        Asked::For(wanted) => match wanted.command {
            Command::List => list(&wanted),
            Command::Word => word(&wanted),
            Command::Explain => explained(&wanted),
            Command::Draw => drawn(&wanted),
            Command::Text => as_text(&wanted),
            Command::Files => as_files(&wanted),
        },
    }
}

// ---------------------------------------------------------------- runs

fn list(wanted: &Wanted) -> Result<(), Failure> {
    let evening = input::evening_to_run(wanted)?;
    let listing = library::listing(&evening);
    output::give(&listing, None, false)?;
    refusal_in(&listing)
}

fn word(wanted: &Wanted) -> Result<(), Failure> {
    let evening = input::evening_to_run(wanted)?;
    if evening.plan {
        let why = "which word settled it is asked of steps; this is a plan";
        return Err(Failure::wrong_use(why));
    }
    let line = library::word(&evening);
    output::give(&line, None, false)?;
    refusal_in(&line)
}

fn explained(wanted: &Wanted) -> Result<(), Failure> {
    let evening = input::evening_to_run(wanted)?;
    let chronicle = library::chronicle(&evening);
    let mut explanation = explain::explain(&evening, &chronicle);
    let load = first_of(&chronicle);
    if load != 0 {
        explanation = format!("load {load}\n{explanation}");
    }
    output::give(explanation.as_bytes(), wanted.output.as_deref(), wanted.force)?;
    refusal_of(load)
}

/// Of a group that does not load there is no picture.
fn drawn(wanted: &Wanted) -> Result<(), Failure> {
    let evening = input::evening_to_run(wanted)?;
    let chronicle = library::chronicle(&evening);
    refusal_of(first_of(&chronicle))?;
    let picture = picture::picture(&evening, &chronicle, &title(&wanted.input));
    output::give(picture.as_bytes(), wanted.output.as_deref(), wanted.force)
}

fn title(input: &Path) -> String {
    if input == Path::new(input::STANDARD) {
        return "evening".into();
    }
    // A folder may be named by dots alone.
    let whole = input.canonicalize().unwrap_or_else(|_| input.into());
    let stem = if whole.is_dir() { whole.file_name() } else { whole.file_stem() };
    stem.map_or_else(|| "evening".into(), |stem| stem.to_string_lossy().into_owned())
}

fn first_of(chronicle: &[u8]) -> u8 {
    chronicle.first().copied().unwrap_or_default()
}

/// A text that says `load N` says that the group file was refused.
fn refusal_in(text: &[u8]) -> Result<(), Failure> {
    let text = String::from_utf8_lossy(text);
    let answer = text.strip_prefix("load ").and_then(|number| number.trim_end().parse().ok());
    refusal_of(answer.unwrap_or_default())
}

fn refusal_of(load: u8) -> Result<(), Failure> {
    match load {
        0 => Ok(()),
        _ => {
            let why = words::load_reason(load);
            Err(Failure::refused(format!("the group file is refused, load {load}: {why}")))
        }
    }
}

// ---------------------------------------------------------------- text both ways

fn as_text(wanted: &Wanted) -> Result<(), Failure> {
    let evening = input::evening_as_it_is(wanted)?;
    output::give(text::print(&evening).as_bytes(), wanted.output.as_deref(), wanted.force)
}

fn as_files(wanted: &Wanted) -> Result<(), Failure> {
    let Evening { group, records, plan } = input::evening_of_text(&wanted.input)?;
    let (name, other) = if plan { ("plan.dat", "steps.dat") } else { ("steps.dat", "plan.dat") };
    let folder = &wanted.folder;
    output::write_files(folder, &[("group.dat", &group), (name, &records)], wanted.force)?;
    if folder.join(other).exists() {
        tell(&format!("desk: {} is there as well, and stays", folder.join(other).display()));
    }
    Ok(())
}
