//! Lines and the words on them.

use super::wrong::{shown, Wrong};

const BYTE_ORDER_MARK: &[u8] = b"\xEF\xBB\xBF";

/// As many octets as a point's name has.
pub const NAME_LENGTH: usize = 8;

/// The lines of a text, each with its number from 1, or what is wrong about its characters.
pub fn numbered_lines(text: &[u8]) -> impl Iterator<Item = (usize, Result<&str, Wrong>)> {
    let text = text.strip_prefix(BYTE_ORDER_MARK).unwrap_or(text);
    (1..).zip(text.split(|&octet| octet == b'\n').map(line_of))
}

fn line_of(octets: &[u8]) -> Result<&str, Wrong> {
    let octets = octets.strip_suffix(b"\r").unwrap_or(octets);
    let line = std::str::from_utf8(octets).map_err(|error| {
        let octet = octets.get(error.valid_up_to()).copied().unwrap_or_default();
        Wrong::new("text in UTF-8", format!("the octet 0x{octet:02X}"))
    })?;
    if line.contains('\0') {
        // Nobody types it: this is a file of octets, or a text in UTF-16.
        return Err(Wrong::new("text (of files of octets, the folder is named)", "the octet 0x00"));
    }
    if line.contains('\r') {
        // Read as a space, it would let a comment swallow what was meant as the next line.
        return Err(Wrong::new("lines that end in LF or CRLF", "a CR by itself"));
    }
    Ok(line)
}

/// A word, or a name in quotes with its octets.
enum Token<'a> {
    Word(&'a str),
    Name { octets: Vec<u8>, written: &'a str },
}

/// The words of a line, taken from the left.
pub struct Words<'a> {
    tokens: std::iter::Peekable<std::vec::IntoIter<Token<'a>>>,
}

fn is_space(character: char) -> bool {
    character == ' ' || character == '\t'
}

impl<'a> Words<'a> {
    pub fn of(line: &'a str) -> Result<Words<'a>, Wrong> {
        let mut tokens = Vec::new();
        let mut left = line.trim_start_matches(is_space);
        while !left.is_empty() && !left.starts_with('#') {
            let (token, behind) =
                if left.starts_with('"') { name_of(left)? } else { word_of(left) };
            tokens.push(token);
            left = behind.trim_start_matches(is_space);
        }
        Ok(Words { tokens: tokens.into_iter().peekable() })
    }

    /// The next word, which stays the next one.
    pub fn first(&mut self) -> Option<&'a str> {
        match self.tokens.peek()? {
            Token::Word(word) => Some(word),
            Token::Name { written, .. } => Some(written),
        }
    }

    /// That the next word is not what was expected.
    pub fn wrong(&mut self, expected: impl Into<String>) -> Wrong {
        let found = self.first().map_or_else(|| "the end of the line".into(), shown);
        Wrong::new(expected, found)
    }

    /// Takes the next word if it is this one.
    pub fn took(&mut self, word: &str) -> bool {
        let is_it = matches!(self.tokens.peek(), Some(Token::Word(next)) if *next == word);
        if is_it {
            self.tokens.next();
        }
        is_it
    }

    /// Takes the next word if `meaning` makes something of it.
    pub fn take<T>(
        &mut self,
        expected: &str,
        meaning: impl Fn(&str) -> Option<T>,
    ) -> Result<T, Wrong> {
        let meant = match self.tokens.peek() {
            Some(Token::Word(word)) => meaning(word),
            _ => None,
        };
        let Some(meant) = meant else {
            return Err(self.wrong(expected));
        };
        self.tokens.next();
        Ok(meant)
    }

    pub fn number(&mut self, what: &str, most: u64) -> Result<u64, Wrong> {
        let fits = |word: &str| number_of(word).filter(|&number| number <= most);
        self.take(&format!("{what} from 0 to {most}"), fits)
    }

    /// A number that can only be this one, and why.
    pub fn this_number(&mut self, number: u64, why: &str) -> Result<(), Wrong> {
        let same = |word: &str| number_of(word).filter(|&other| other == number);
        self.take(&format!("{number}, {why}"), same).map(|_| ())
    }

    /// All that is left of the line, as octets in hexadecimal; at least one.
    pub fn octets(&mut self) -> Result<Vec<u8>, Wrong> {
        let mut octets = Vec::new();
        while octets.is_empty() || self.tokens.peek().is_some() {
            octets.push(self.take("an octet of two digits from 00 to FF", octet_of)?);
        }
        Ok(octets)
    }

    pub fn name(&mut self) -> Result<[u8; NAME_LENGTH], Wrong> {
        let expected = "a name of 8 octets in quotes";
        let Some(Token::Name { octets, .. }) = self.tokens.peek() else {
            return Err(self.wrong(expected));
        };
        let Ok(name) = octets.as_slice().try_into() else {
            return Err(Wrong::new(expected, format!("one of {}", octets.len())));
        };
        self.tokens.next();
        Ok(name)
    }

    pub fn end(&mut self) -> Result<(), Wrong> {
        match self.first() {
            None => Ok(()),
            Some(_) => Err(self.wrong("the end of the line")),
        }
    }
}

fn word_of(left: &str) -> (Token<'_>, &str) {
    let (word, behind) = left.split_at(left.find(is_space).unwrap_or(left.len()));
    (Token::Word(word), behind)
}

/// Decimal, or hexadecimal where it is marked 0x.
fn number_of(word: &str) -> Option<u64> {
    let (digits, radix) = word.strip_prefix("0x").map_or((word, 10), |digits| (digits, 16));
    // The library would let a sign stand in front.
    let all_digits = digits.chars().all(|character| character.is_digit(radix));
    u64::from_str_radix(digits, radix).ok().filter(|_| all_digits)
}

fn octet_of(word: &str) -> Option<u8> {
    let two_digits = word.len() == 2 && word.chars().all(|digit| digit.is_ascii_hexdigit());
    u8::from_str_radix(word, 16).ok().filter(|_| two_digits)
}

// ---------------------------------------------------------------- names in quotes

/// A name and what stands behind it; `left` begins with a quote.
fn name_of(left: &str) -> Result<(Token<'_>, &str), Wrong> {
    let mut octets = Vec::new();
    let mut inside = &left[1..];
    loop {
        let mut characters = inside.chars();
        let Some(first) = characters.next() else {
            return Err(Wrong::new("a quote at the name's end", "the end of the line"));
        };
        inside = characters.as_str();
        match first {
            '"' => break,
            '\\' => {
                let (octet, behind) = escaped(inside)?;
                octets.push(octet);
                inside = behind;
            }
            _ => octets.extend_from_slice(first.encode_utf8(&mut [0; 4]).as_bytes()),
        }
    }
    if !inside.is_empty() && !inside.starts_with(is_space) {
        return Err(Wrong::new("a space behind the name", shown(inside)));
    }
    let written = &left[..left.len() - inside.len()];
    Ok((Token::Name { octets, written }, inside))
}

/// The octet that stands behind a backslash, and what follows it.
fn escaped(behind: &str) -> Result<(u8, &str), Wrong> {
    let wrong = || Wrong::new(r#"\\, \" or \x and two digits"#, shown(&format!("\\{behind}")));
    if behind.starts_with(['\\', '"']) {
        return Ok((behind.as_bytes()[0], &behind[1..]));
    }
    let digits = behind.strip_prefix('x').and_then(|digits| digits.get(..2)).ok_or_else(wrong)?;
    let octet = octet_of(digits).ok_or_else(wrong)?;
    Ok((octet, &behind[3..]))
}

/// A name as it is written: printable ASCII as itself, any other octet by its digits.
pub fn quoted(name: &[u8]) -> String {
    let written = |&octet: &u8| match octet {
        b'\\' | b'"' => format!("\\{}", char::from(octet)),
        b' '..=b'~' => char::from(octet).to_string(),
        _ => format!("\\x{octet:02X}"),
    };
    format!("\"{}\"", name.iter().map(written).collect::<String>())
}

/// `word` and octets behind it.
pub fn octets_line(word: &str, octets: &[u8]) -> String {
    let digits = octets.iter().map(|octet| format!(" {octet:02X}"));
    format!("{word}{}", digits.collect::<String>())
}
