//! What the arguments ask for.

use super::Failure;
use std::ffi::{OsStr, OsString};
use std::path::PathBuf;

#[derive(Clone, Copy, Debug, PartialEq, Eq)]
pub enum Command {
    List,
    Word,
    Explain,
    Draw,
    Text,
    Files,
}

impl Command {
    const ALL: [Command; 6] = [
        Command::List,
        Command::Word,
        Command::Explain,
        Command::Draw,
        Command::Text,
        Command::Files,
    ];

    pub fn name(self) -> &'static str {
        match self {
            Command::List => "list",
            Command::Word => "word",
            Command::Explain => "explain",
            Command::Draw => "draw",
            Command::Text => "text",
            Command::Files => "files",
        }
    }

    fn named(name: &OsStr) -> Option<Command> {
        Command::ALL.into_iter().find(|command| name == command.name())
    }

    /// What it wants besides options, in this order.
    fn operands(self) -> &'static [&'static str] {
        match self {
            Command::Text => &["FOLDER"],
            Command::Files => &["TEXT", "FOLDER"],
            _ => &["INPUT"],
        }
    }

    fn options(self) -> &'static [&'static str] {
        match self {
            Command::List => &["--steps", "--plan"],
            Command::Word => &["--steps"],
            Command::Explain | Command::Draw | Command::Text => {
                &["--steps", "--plan", "--force", "-o"]
            }
            Command::Files => &["--force"],
        }
    }
}

/// A command with all that was said about it.
#[derive(Debug, PartialEq, Eq)]
pub struct Wanted {
    pub command: Command,
    pub input: PathBuf,
    /// Where `files` writes; of no other command.
    pub folder: PathBuf,
    /// A file for the result, in place of standard output.
    pub output: Option<PathBuf>,
    pub force: bool,
    /// Which of a folder's two files is meant, if that was said: a plan or steps.
    pub plan: Option<bool>,
}

#[derive(Debug, PartialEq, Eq)]
pub enum Asked {
    Help(Option<Command>),
    For(Wanted),
}

pub fn asked(mut arguments: impl Iterator<Item = OsString>) -> Result<Asked, Failure> {
    let Some(first) = arguments.next() else {
        return Err(Failure::wrong_use("a command is wanted; desk --help lists them"));
    };
    if is_help(&first) {
        return Ok(Asked::Help(None));
    }
    let Some(command) = Command::named(&first) else {
        let name = first.to_string_lossy();
        return Err(Failure::wrong_use(format!("no command {name}; desk --help lists them")));
    };
    let mut gathered = Gathered::default();
    while let Some(argument) = arguments.next() {
        if !gathered.only_operands && is_help(&argument) {
            return Ok(Asked::Help(Some(command)));
        }
        gathered.add(argument, &mut arguments, command).map_err(|why| wrong_use(command, &why))?;
    }
    gathered.wanted(command).map(Asked::For).map_err(|why| wrong_use(command, &why))
}

fn is_help(argument: &OsStr) -> bool {
    argument == "--help" || argument == "-h"
}

fn wrong_use(command: Command, why: &str) -> Failure {
    let name = command.name();
    Failure::WrongUse(format!("desk {name}: {why}; desk {name} --help says more"))
}

/// Arguments as they come.
#[derive(Default)]
struct Gathered {
    operands: Vec<OsString>,
    output: Option<PathBuf>,
    force: bool,
    plan: Option<bool>,
    /// Behind `--`, where nothing is an option.
    only_operands: bool,
}

impl Gathered {
    fn add(
        &mut self,
        argument: OsString,
        more: &mut impl Iterator<Item = OsString>,
        command: Command,
    ) -> Result<(), String> {
        let is_option = argument.to_string_lossy().starts_with('-') && argument != "-";
        if self.only_operands || !is_option {
            self.operands.push(argument);
            return Ok(());
        }
        let name = argument.to_string_lossy();
        if name != "--" && !command.options().contains(&name.as_ref()) {
            return Err(format!("no option {name}"));
        }
        match name.as_ref() {
            "--" => self.only_operands = true,
            "--force" => self.force = true,
            "-o" => {
                let file = more.next().ok_or("-o wants a file")?;
                if self.output.replace(file.into()).is_some() {
                    return Err("-o is there twice".into());
                }
            }
            choice => {
                let plan = choice == "--plan";
                if self.plan.replace(plan) == Some(!plan) {
                    return Err("either --steps or --plan, not both".into());
                }
            }
        }
        Ok(())
    }

    fn wanted(self, command: Command) -> Result<Wanted, String> {
        let names = command.operands();
        if let Some(missing) = names.get(self.operands.len()) {
            return Err(format!("{missing} is missing"));
        }
        if let Some(beyond) = self.operands.get(names.len()) {
            return Err(format!("one argument too many, {}", beyond.to_string_lossy()));
        }
        let mut operands = self.operands.into_iter().map(PathBuf::from);
        Ok(Wanted {
            command,
            input: operands.next().unwrap_or_default(),
            folder: operands.next().unwrap_or_default(),
            output: self.output,
            force: self.force,
            plan: self.plan,
        })
    }
}

#[cfg(test)]
mod tests {
    use super::*;

    fn asked_for(line: &str) -> Result<Asked, Failure> {
        asked(line.split_whitespace().map(OsString::from))
    }

    fn plain(command: Command, input: &str) -> Wanted {
        let (folder, output, force, plan) = (PathBuf::new(), None, false, None);
        Wanted { command, input: input.into(), folder, output, force, plan }
    }

    #[test]
    fn what_is_asked_for() {
        let cases = [
            ("list a", plain(Command::List, "a")),
            ("word -", plain(Command::Word, "-")),
            ("list -- --plan", plain(Command::List, "--plan")),
            ("list --plan a", Wanted { plan: Some(true), ..plain(Command::List, "a") }),
            ("draw a --steps", Wanted { plan: Some(false), ..plain(Command::Draw, "a") }),
            ("draw a -o b", Wanted { output: Some("b".into()), ..plain(Command::Draw, "a") }),
            ("explain -o - a", Wanted { output: Some("-".into()), ..plain(Command::Explain, "a") }),
            ("text --force a", Wanted { force: true, ..plain(Command::Text, "a") }),
            ("files a b", Wanted { folder: "b".into(), ..plain(Command::Files, "a") }),
        ];
        for (line, wanted) in cases {
            assert_eq!(asked_for(line), Ok(Asked::For(wanted)), "{line}");
        }
    }

    #[test]
    fn help_wherever_it_is_asked_for() {
        assert_eq!(asked_for("--help"), Ok(Asked::Help(None)));
        assert_eq!(asked_for("-h list"), Ok(Asked::Help(None)));
        assert_eq!(asked_for("list a b c --help"), Ok(Asked::Help(Some(Command::List))));
    }

    #[test]
    fn wrong_use_is_told() {
        let cases = [
            ("", "desk: a command is wanted; desk --help lists them"),
            ("lits", "desk: no command lits; desk --help lists them"),
            ("list", "desk list: INPUT is missing; desk list --help says more"),
            ("files a", "desk files: FOLDER is missing; desk files --help says more"),
            ("list a b", "desk list: one argument too many, b; desk list --help says more"),
            ("list a -o b", "desk list: no option -o; desk list --help says more"),
            ("draw a -o", "desk draw: -o wants a file; desk draw --help says more"),
            ("draw a -o b -o c", "desk draw: -o is there twice; desk draw --help says more"),
            ("files a b --plan", "desk files: no option --plan; desk files --help says more"),
            ("list --steps --plan a", EITHER),
        ];
        for (line, why) in cases {
            assert_eq!(asked_for(line), Err(Failure::WrongUse(why.into())), "{line}");
        }
    }

    const EITHER: &str =
        "desk list: either --steps or --plan, not both; desk list --help says more";
}
