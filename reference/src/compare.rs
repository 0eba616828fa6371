//! Runs a program over made cases of one form and compares what it prints with the model's
//! text. Each case stands in a fresh temporary folder, the program's working directory.

use crate::cases::{case_seed, Case, Wishes};
use crate::form::Form;
use crate::listing::Tally;
use crate::shrink::shrink;
use std::path::{Path, PathBuf};
use std::process::{Command, Stdio};
use std::sync::atomic::{AtomicU64, Ordering};
use std::{fs, io};

const WORKERS: usize = 2;

static FOLDERS_MADE: AtomicU64 = AtomicU64::new(0);

pub struct Difference {
    pub index: u64,
    pub case: Case,
}

/// The first difference of a row of cases, and the counts over the cases compared.
pub struct Comparison {
    pub difference: Option<Difference>,
    pub tally: Tally,
}

/// Which cases are made: their form, their seed and what is wished of them.
#[derive(Clone, Copy)]
pub struct Row {
    pub form: Form,
    pub seed: u64,
    pub cases: u64,
    pub wishes: Wishes,
}

impl Row {
    pub fn case(&self, index: u64) -> Case {
        self.form.make_case(case_seed(self.seed, index), self.wishes)
    }

    pub fn counted_text(&self, case: &Case) -> (String, Tally) {
        self.form.counted_text(case, self.wishes.highest_kind)
    }
}

pub fn compare(program: &Path, row: Row) -> io::Result<Comparison> {
    let program = whole_path(program);
    let look = |index: u64, tally: &mut Tally| {
        let case = row.case(index);
        let (expected, counts) = row.counted_text(&case);
        tally.add(&counts);
        let printed = run_program(&program, row.form, &case, index % 2 == 1)?;
        Ok((printed != expected.as_bytes()).then_some(Difference { index, case }))
    };
    let (difference, tallies) = search(row.cases, look)?;
    let mut tally = Tally::default();
    tallies.iter().for_each(|part| tally.add(part));
    Ok(Comparison { difference: difference.map(|(_, found)| found), tally })
}

/// The program is started from another folder, so its path must not hang on this one.
pub(crate) fn whole_path(program: &Path) -> PathBuf {
    program.canonicalize().unwrap_or_else(|_| program.to_path_buf())
}

/// What was found, with its index, and what each worker has counted.
pub(crate) type Searched<Found, Counts> = (Option<(u64, Found)>, Vec<Counts>);

/// Looks at each index of a row, with some workers, until none is left below the lowest at which
/// something is found. Answers that, and what each worker has counted.
pub(crate) fn search<Found: Send, Counts: Default + Send>(
    length: u64,
    look: impl Fn(u64, &mut Counts) -> io::Result<Option<Found>> + Sync,
) -> io::Result<Searched<Found, Counts>> {
    let (next, lowest) = (AtomicU64::new(0), AtomicU64::new(length));
    let work = || -> io::Result<(Option<(u64, Found)>, Counts)> {
        let mut counts = Counts::default();
        loop {
            let index = next.fetch_add(1, Ordering::SeqCst);
            if index >= lowest.load(Ordering::SeqCst) {
                return Ok((None, counts));
            }
            if let Some(found) = look(index, &mut counts)? {
                lowest.fetch_min(index, Ordering::SeqCst);
                return Ok((Some((index, found)), counts));
            }
        }
    };
    let parts: io::Result<Vec<_>> = std::thread::scope(|scope| {
        let workers: Vec<_> = (0..WORKERS).map(|_| scope.spawn(work)).collect();
        workers.into_iter().map(|worker| worker.join().expect("no worker panics")).collect()
    });
    let (found, counts): (Vec<_>, Vec<_>) = parts?.into_iter().unzip();
    Ok((found.into_iter().flatten().min_by_key(|(index, _)| *index), counts))
}

/// What the program prints for a case. An empty file may be left out of the folder.
pub fn run_program(
    program: &Path,
    form: Form,
    case: &Case,
    leave_out_empty: bool,
) -> io::Result<Vec<u8>> {
    let number = FOLDERS_MADE.fetch_add(1, Ordering::SeqCst);
    let name = format!("reference-{}-{number}", std::process::id());
    let folder = std::env::temp_dir().join(name);
    fs::create_dir(&folder)?;
    for (file, octets) in [("group.dat", &case.group), (form.records_file(), &case.steps)] {
        if !(octets.is_empty() && leave_out_empty) {
            fs::write(folder.join(file), octets)?;
        }
    }
    let output = Command::new(program)
        .current_dir(&folder)
        .stdin(Stdio::null())
        .stderr(Stdio::null())
        .output();
    fs::remove_dir_all(&folder)?;
    Ok(output?.stdout)
}

/// The shortest case that still differs, told in words.
pub fn shrunk_report(program: &Path, difference: &Difference, row: Row) -> io::Result<String> {
    let program = whole_path(program);
    let form = row.form;
    let model = |case: &Case| form.text(case, row.wishes.highest_kind).into_bytes();
    let short = shrink(&difference.case, form.record_length(), |case| {
        run_program(&program, form, case, false).is_ok_and(|printed| printed != model(case))
    });
    let printed = run_program(&program, form, &short, false)?;
    Ok(format!(
        "case {} differs\ngroup.dat: {}\n{}: {}\n{}",
        difference.index,
        hex(&short.group),
        form.records_file(),
        short.steps.chunks(form.record_length()).map(hex).collect::<Vec<_>>().join(" "),
        first_difference(&model(&short), &printed),
    ))
}

pub(crate) fn hex(octets: &[u8]) -> String {
    octets.iter().map(|octet| format!("{octet:02x}")).collect()
}

fn first_difference(expected: &[u8], printed: &[u8]) -> String {
    let expected = String::from_utf8_lossy(expected);
    let printed = String::from_utf8_lossy(printed);
    let mut expected_lines = expected.lines();
    let mut printed_lines = printed.lines();
    for number in 1.. {
        let (left, right) = (expected_lines.next(), printed_lines.next());
        if left != right {
            return format!(
                "line {number}\nreference: {}\nprogram:   {}",
                shown(left),
                shown(right)
            );
        }
        if left.is_none() {
            break;
        }
    }
    "the lines agree; line ends differ".to_string()
}

fn shown(line: Option<&str>) -> &str {
    line.unwrap_or("(no more lines)")
}

#[cfg(test)]
mod tests {
    use super::*;

    #[test]
    fn names_the_first_differing_line() {
        let told = first_difference(b"step 1 0\nstep 2 0\n", b"step 1 0\nstep 2 9\n");
        assert_eq!(told, "line 2\nreference: step 2 0\nprogram:   step 2 9");
        let told = first_difference(b"load 1\n", b"");
        assert_eq!(told, "line 1\nreference: load 1\nprogram:   (no more lines)");
    }

    #[test]
    fn tells_a_missing_line_end() {
        let told = first_difference(b"load 1\n", b"load 1");
        assert_eq!(told, "the lines agree; line ends differ");
    }
}
