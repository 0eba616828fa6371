//! What is said of a line that is not as the text form has it.

use std::fmt;

/// A wrong line, by its number from 1.
#[derive(Clone, Debug, PartialEq, Eq)]
pub struct WrongLine {
    pub line: usize,
    pub expected: String,
    pub found: String,
}

impl fmt::Display for WrongLine {
    fn fmt(&self, out: &mut fmt::Formatter) -> fmt::Result {
        write!(out, "{}: expected {}, found {}", self.line, self.expected, self.found)
    }
}

/// The same before the line's number is known.
#[derive(Debug)]
pub struct Wrong {
    expected: String,
    found: String,
}

impl Wrong {
    pub fn new(expected: impl Into<String>, found: impl Into<String>) -> Wrong {
        Wrong { expected: expected.into(), found: found.into() }
    }

    pub fn at(self, line: usize) -> WrongLine {
        WrongLine { line, expected: self.expected, found: self.found }
    }
}

/// As much of a word as a message takes.
const SHOWN: usize = 40;

/// A word as a message shows it: on one line, and not longer than that takes.
pub fn shown(word: &str) -> String {
    let mut text = String::from("`");
    for character in word.chars().take(SHOWN) {
        match character {
            '\\' | '"' | '\'' => text.push(character),
            _ => text.extend(character.escape_debug()),
        }
    }
    text += if word.chars().count() > SHOWN { "..`" } else { "`" };
    text
}

/// `x`, `y` or z.
pub fn one_of(choices: &[String]) -> String {
    match choices {
        [] => String::new(),
        [only] => only.clone(),
        [before @ .., last] => format!("{} or {last}", before.join(", ")),
    }
}
