//! Octets to text and back, and text to octets and back, over thousands of random cases.

use planner::evening::Evening;
use planner::text::{print, read, WrongLine};
use reference::cases::plans::make_plan_case;
use reference::cases::{case_seed, make_case, Case, Wishes};
use reference::model;

const SEED: u64 = 2112;

// ---------------------------------------------------------------- chance

/// A small generator of random numbers (xorshift64*).
struct Chance(u64);

impl Chance {
    fn new(seed: u64) -> Chance {
        Chance(case_seed(SEED, seed) | 1)
    }

    fn below(&mut self, bound: usize) -> usize {
        self.0 ^= self.0 >> 12;
        self.0 ^= self.0 << 25;
        self.0 ^= self.0 >> 27;
        (self.0.wrapping_mul(0x2545_F491_4F6C_DD1D) >> 33) as usize % bound
    }

    fn once_in(&mut self, times: usize) -> bool {
        self.below(times) == 0
    }

    fn pick<T: Copy>(&mut self, choices: &[T]) -> T {
        choices[self.below(choices.len())]
    }

    /// Mostly small ones, which words fit more often.
    fn octet(&mut self) -> u8 {
        let most = self.pick(&[1, 2, 4, 16, 256]);
        self.below(most) as u8
    }

    fn octets(&mut self, most: usize) -> Vec<u8> {
        (0..self.below(most + 1)).map(|_| self.octet()).collect()
    }
}

// ---------------------------------------------------------------- evenings

/// The octets of an evening come back as they were, and its text too.
fn comes_back(evening: &Evening) {
    let text = print(evening);
    assert_eq!(read(text.as_bytes()).as_ref(), Ok(evening), "{text}");
}

fn wishes() -> Wishes {
    Wishes { damage: true, highest_kind: model::KINDS, cabinets: None }
}

/// A made case, of steps or a plan by turns. Few have more than some hundred records.
fn made(index: u64) -> Evening {
    let plan = index % 2 == 1;
    let seed = case_seed(SEED, index);
    let make = if plan { make_plan_case } else { make_case };
    let Case { group, steps } = make(seed, wishes());
    Evening { group, records: steps, plan }
}

/// Changed, cut, lengthened, or with a piece put in or taken out.
fn changed(chance: &mut Chance, mut octets: Vec<u8>) -> Vec<u8> {
    for _ in 0..chance.below(4) {
        let place = chance.below(octets.len() + 1);
        match chance.below(5) {
            0 if place < octets.len() => octets[place] = chance.octet(),
            1 if place < octets.len() => octets[place] ^= 1 << chance.below(8),
            2 => octets.truncate(place),
            3 => {
                let piece = chance.octets(12);
                octets.splice(place..place, piece);
            }
            _ => {
                let end = octets.len().min(place + chance.below(12));
                octets.drain(place..end);
            }
        }
    }
    octets
}

#[test]
fn random_octets_come_back() {
    for index in 0..20_000 {
        let chance = &mut Chance::new(index);
        let most = chance.pick(&[0, 3, 12, 40, 200]);
        let (group, records) = (chance.octets(most), chance.octets(most));
        comes_back(&Evening { group, records, plan: chance.once_in(2) });
    }
}

#[test]
fn made_cases_come_back() {
    (0..1000).for_each(|index| comes_back(&made(index)));
}

#[test]
fn changed_cases_come_back() {
    for index in 0..1000 {
        let chance = &mut Chance::new(index);
        let Evening { group, records, plan } = made(index);
        // The first records are enough, so that each case is changed in many ways.
        let records = records[..records.len().min(90)].to_vec();
        for _ in 0..20 {
            let group = changed(chance, group.clone());
            let records = changed(chance, records.clone());
            let plan = plan != chance.once_in(8);
            comes_back(&Evening { group, records, plan });
        }
    }
}

#[test]
fn long_files_come_back() {
    for (length, octet) in [(65_535, 0), (65_536, 1), (90_000, 255), (200_000, 1)] {
        let group = vec![octet; length];
        let records = vec![octet; length];
        comes_back(&Evening { group: group.clone(), records: records.clone(), plan: false });
        comes_back(&Evening { group, records, plan: true });
    }
}

/// Words are there wherever they can be: a group that loads has nothing but words, and so has
/// every record of a kind that there is, with 0 where the kind has no field.
#[test]
fn what_words_fit_stands_in_words() {
    let (mut loaded, mut worded) = (0, 0);
    for index in 0..400 {
        let Evening { group, records, .. } = made(2 * index);
        if model::load(&group).is_err() {
            continue;
        }
        loaded += 1;
        let text = print(&Evening { group, ..Evening::default() });
        assert!(!text.contains("octets"), "{text}");
        for record in records.chunks_exact(6) {
            let line = planner::text::record_line(record, false);
            assert_eq!(line.starts_with("octets"), !has_words(record), "{line}");
            worded += usize::from(has_words(record));
        }
    }
    assert!(loaded > 200 && worded > 10_000, "{loaded} {worded}");
}

fn has_words(record: &[u8]) -> bool {
    if !(1..=model::KINDS).contains(&record[0]) || record[0] == model::WITHDRAWN_KIND {
        return false;
    }
    let (b, p, q) = model::fields_named(record[0]);
    let unused = |named: bool, octet: u8| named || octet == 0;
    unused(b, record[2])
        && unused(p, record[3])
        && unused(q, record[4] | record[5])
        && (record[0] != 1 || record[3] <= 4)
}

// ---------------------------------------------------------------- texts

/// The same text as a hand might type it: other spaces, comments, blank lines, line ends.
fn typed(chance: &mut Chance, text: &str) -> String {
    let line_end = chance.pick(&["\n", "\r\n"]);
    let mut typed = String::from(chance.pick(&["", "\u{FEFF}", "# evening\n"]));
    for line in text.lines() {
        if chance.once_in(6) {
            typed += chance.pick(&["  # a remark", "#", "\t", "#point \"x"]);
            typed += line_end;
        }
        typed += chance.pick(&["", "  ", "\t"]);
        let is_named = line.contains('"');
        typed += &if is_named {
            line.into()
        } else {
            line.replace(' ', chance.pick(&[" ", "  ", "\t"]))
        };
        typed += chance.pick(&["", " ", " # why", "\t#"]);
        typed += line_end;
    }
    typed
}

#[test]
fn typed_texts_have_the_same_octets() {
    for index in 0..600 {
        let chance = &mut Chance::new(index);
        let mut evening = made(index);
        evening.records.truncate(300);
        let text = typed(chance, &print(&evening));
        assert_eq!(read(text.as_bytes()), Ok(evening), "{text}");
    }
}

const WORDS: &str = "group|steps|plan|packets|cabinet|store|home|partner|A|B|W|link|header|rest|\
    octets|send|note|begin|deliver|write|saved|fetch|restored|fail|damage|lose|trip|unsure|point|\
    return|place|pattern|bits|1A|2B|3W|\"evening \"|\"\\x00|0x10|1|2|300|00|#";

/// A line of random words, many of them right.
fn random_line(chance: &mut Chance) -> String {
    let all: Vec<&str> = WORDS.split('|').collect();
    let words: Vec<&str> = (0..chance.below(9)).map(|_| chance.pick(&all)).collect();
    words.join(chance.pick(&[" ", " ", "\t", ""]))
}

/// A text is either right, and then its octets come back from their own text, or wrong in lines
/// that it has.
fn right_or_told(text: &[u8]) -> bool {
    let lines = text.split(|&octet| octet == b'\n').count();
    match read(text) {
        Ok(evening) => {
            comes_back(&evening);
            true
        }
        Err(wrong) => {
            let told = |wrong: &WrongLine| {
                (1..=lines).contains(&wrong.line)
                    && !wrong.expected.is_empty()
                    && !wrong.found.is_empty()
                    && !wrong.to_string().contains('\n')
            };
            assert!(!wrong.is_empty() && wrong.iter().all(told), "{wrong:?}");
            assert!(wrong.windows(2).all(|pair| pair[0].line < pair[1].line), "{wrong:?}");
            false
        }
    }
}

#[test]
fn random_texts_are_right_or_told() {
    let mut right = 0;
    for index in 0..20_000 {
        let chance = &mut Chance::new(index);
        let heading = chance.pick(&["", "group\n", "steps\n", "plan\n"]);
        let lines = (0..chance.below(4)).map(|_| random_line(chance) + "\n");
        let text: String = std::iter::once(heading.to_string()).chain(lines).collect();
        right += usize::from(right_or_told(text.as_bytes()));
    }
    assert!(right > 1000, "{right}");
}

#[test]
fn damaged_texts_are_right_or_told() {
    let (mut right, mut wrong) = (0, 0);
    for index in 0..400 {
        let chance = &mut Chance::new(index);
        let mut evening = made(index);
        evening.records.truncate(120);
        let text = print(&evening).into_bytes();
        for _ in 0..20 {
            let mut damaged = text.clone();
            for _ in 0..=chance.below(3) {
                let place = chance.below(damaged.len());
                damaged[place] = chance.pick(b" 0129ABWx#\"\\\n\r\t\0\xFF\xC3gsp");
            }
            if right_or_told(&damaged) {
                right += 1;
            } else {
                wrong += 1;
            }
        }
    }
    assert!(right > 200 && wrong > 2000, "{right} {wrong}");
}

/// One line that is wrong by itself is the one that is told.
#[test]
fn the_wrong_line_is_named() {
    const WRONG: [&str; 8] = [
        "sned 1A 2B 3",
        "send 1A 2B",
        "begin 256",
        "begin 1 1",
        "octets 1",
        "point \"evening\"",
        "cabinet 300 home 1",
        "link 1",
    ];
    for index in 0..1000 {
        let chance = &mut Chance::new(index);
        let mut evening = made(index);
        evening.records.truncate(90);
        let text = print(&evening);
        let mut lines: Vec<&str> = text.lines().collect();
        let place = chance.below(lines.len()) + 1;
        lines.insert(place, chance.pick(&WRONG));
        let wrong = read(lines.join("\n").as_bytes()).expect_err("a wrong line");
        assert_eq!(wrong[0].line, place + 1, "{}", lines.join("\n"));
    }
}

#[test]
fn a_text_comes_back_as_it_was_printed() {
    for index in 0..1000 {
        let chance = &mut Chance::new(index);
        let Evening { group, records, plan } = made(index);
        let (group, records) = (changed(chance, group), changed(chance, records));
        let text = print(&Evening { group, records, plan });
        assert_eq!(read(text.as_bytes()).map(|evening| print(&evening)), Ok(text));
    }
}
