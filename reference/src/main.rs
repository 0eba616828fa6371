//! The commands: list, evening, word, compare, make, pack, vectors and bench.

use reference::cases::{case_seed, make_case, Case, Wishes};
use reference::choice::{chosen_of_row, most_telling};
use reference::compare::{self, Row};
use reference::form::Form;
use reference::listing::{listing, Tally};
use reference::model::KINDS;
use reference::ops;
use reference::pairs::{self, PairDifference};
use reference::widened::{as_it_reads_now, widened_store, LeftOut, LAST_CARD, NO_CARD};
use std::collections::BTreeMap;
use std::io::{self, Write};
use std::path::{Path, PathBuf};
use std::process::ExitCode;
use std::time::{Duration, Instant};
use std::{env, fs};

const USAGE: &str = "usage:
  reference list DIR [--kinds K]
  reference evening DIR [--kinds K]
  reference word DIR [--kinds K]
  reference compare PROGRAM [--plans | --word] [--seed S] [--cases N] [--damage] [--kinds K]
  reference compare PROGRAM --pairs [--plans | --word] [--seed S] [--cases N] [--damage]
  reference make OUT [--plans | --word] [--seed S] [--cases N] [--damage] [--kinds K] [--most N]
  reference pack DIR OUT [--plans | --word] [--from-01 | --from-card C] [--most N]
  reference vectors DIR [--from-01 | --from-card C]
  reference bench [--seed S]
K is from 10 to 14, C from 2 to 10";

// ---------------------------------------------------------------- arguments

struct Options {
    words: Vec<String>,
    seed: u64,
    cases: u64,
    form: Form,
    damage: bool,
    pairs: bool,
    from_card: u8,
    most: usize,
    highest_kind: u8,
}

impl Options {
    fn read(mut arguments: impl Iterator<Item = String>) -> Option<Options> {
        let mut options = Options::default();
        while let Some(argument) = arguments.next() {
            match argument.as_str() {
                "--seed" => options.seed = arguments.next()?.parse().ok()?,
                "--cases" => options.cases = arguments.next()?.parse().ok()?,
                "--plans" => options.form = Form::Plan,
                "--word" => options.form = Form::Word,
                "--damage" => options.damage = true,
                "--pairs" => options.pairs = true,
                "--from-01" => options.from_card = NO_CARD,
                "--from-card" => options.from_card = card(&arguments.next()?)?,
                "--most" => options.most = arguments.next()?.parse().ok()?,
                "--kinds" => options.highest_kind = kinds(&arguments.next()?)?,
                other if other.starts_with("--") => return None,
                _ => options.words.push(argument),
            }
        }
        Some(options)
    }

    fn row(&self) -> Row {
        let wishes =
            Wishes { damage: self.damage, highest_kind: self.highest_kind, cabinets: None };
        Row { form: self.form, seed: self.seed, cases: self.cases, wishes }
    }
}

impl Default for Options {
    fn default() -> Options {
        Options {
            words: Vec::new(),
            seed: 1,
            cases: 1000,
            form: Form::Steps,
            damage: false,
            pairs: false,
            from_card: LAST_CARD,
            most: usize::MAX,
            highest_kind: KINDS,
        }
    }
}

fn kinds(word: &str) -> Option<u8> {
    let number = word.parse().ok()?;
    (10..=KINDS).contains(&number).then_some(number)
}

fn card(word: &str) -> Option<u8> {
    let number = word.parse().ok()?;
    (2..=LAST_CARD).contains(&number).then_some(number)
}

fn main() -> ExitCode {
    let Some(options) = Options::read(env::args().skip(1)) else {
        return usage();
    };
    let words: Vec<&str> = options.words.iter().map(String::as_str).collect();
    let done = match words[..] {
        ["list", folder] => print_text(Form::Steps, Path::new(folder), &options),
        ["evening", folder] => print_text(Form::Plan, Path::new(folder), &options),
        ["word", folder] => print_text(Form::Word, Path::new(folder), &options),
        ["compare", program] if options.pairs => compare_pairs(Path::new(program), &options),
        ["compare", program] => compare(Path::new(program), &options),
        ["make", file] => make(Path::new(file), &options),
        ["pack", folder, file] => pack(Path::new(folder), Path::new(file), &options),
        ["vectors", folder] => vectors(Path::new(folder), &options),
        ["bench"] => bench(&options),
        _ => return usage(),
    };
    done.unwrap_or_else(|error| {
        eprintln!("{error}");
        ExitCode::from(2)
    })
}

fn usage() -> ExitCode {
    eprintln!("{USAGE}");
    ExitCode::from(2)
}

// ---------------------------------------------------------------- list, evening and word

fn print_text(form: Form, folder: &Path, options: &Options) -> io::Result<ExitCode> {
    let text = form.text(&form.case_in_folder(folder), options.highest_kind);
    io::stdout().write_all(text.as_bytes())?;
    Ok(ExitCode::SUCCESS)
}

// ---------------------------------------------------------------- compare

fn compare(program: &Path, options: &Options) -> io::Result<ExitCode> {
    let start = Instant::now();
    let compared = compare::compare(program, options.row())?;
    if let Some(difference) = &compared.difference {
        println!("{}", compare::shrunk_report(program, difference, options.row())?);
        return Ok(ExitCode::FAILURE);
    }
    print!("{}", options.form.report(&compared.tally));
    println!("no difference, {:.1} seconds", start.elapsed().as_secs_f64());
    Ok(ExitCode::SUCCESS)
}

fn compare_pairs(program: &Path, options: &Options) -> io::Result<ExitCode> {
    let start = Instant::now();
    let row = options.row();
    let compared = pairs::compare_pairs(program, row)?;
    if let Some((index, difference)) = &compared.difference {
        let told = match difference {
            PairDifference::Run(difference) => compare::shrunk_report(program, difference, row)?,
            PairDifference::Claim(pair, breach) => pairs::claim_report(row.form, pair, *breach),
            PairDifference::Printed(pair) => pairs::told(row.form, pair, "as printed"),
        };
        println!("pair {index}\n{told}");
        return Ok(ExitCode::FAILURE);
    }
    print!("{}", compared.counts.report());
    println!("no difference, {:.1} seconds", start.elapsed().as_secs_f64());
    Ok(ExitCode::SUCCESS)
}

// ---------------------------------------------------------------- make and pack

/// One case of a container: three lengths of four octets, then group file, records and text.
fn write_case(out: &mut impl Write, case: &Case, text: &[u8]) -> io::Result<()> {
    let parts = [&case.group[..], &case.steps[..], text];
    for part in parts {
        out.write_all(&(part.len() as u32).to_be_bytes())?;
    }
    parts.into_iter().try_for_each(|part| out.write_all(part))
}

fn make(file: &Path, options: &Options) -> io::Result<ExitCode> {
    let mut out = io::BufWriter::new(fs::File::create(file)?);
    let mut tally = Tally::default();
    let row = options.row();
    let mut write = |case: &Case, text: &str, counts: &Tally| {
        tally.add(counts);
        write_case(&mut out, case, text.as_bytes())
    };
    if options.most < usize::MAX {
        for (case, text, counts) in chosen_of_row(row, options.most) {
            write(&case, &text, &counts)?;
        }
    } else {
        for index in 0..row.cases {
            let case = row.case(index);
            let (text, counts) = row.counted_text(&case);
            write(&case, &text, &counts)?;
        }
    }
    out.flush()?;
    print!("{}", options.form.report(&tally));
    Ok(ExitCode::SUCCESS)
}

/// The case folders of one form as a container. The texts come from theirs and not from the
/// model, which is asked beside them.
fn pack(folder: &Path, file: &Path, options: &Options) -> io::Result<ExitCode> {
    let form = options.form;
    let mut folders = case_folders(folder)?;
    folders.retain(|(found, _)| *found == form);
    if folders.is_empty() {
        eprintln!("no case folder with {} below {}", form.text_file(), folder.display());
        return Ok(ExitCode::from(2));
    }
    let mut left_out: BTreeMap<LeftOut, u64> = BTreeMap::new();
    let (mut standing, mut tallies, mut differ) = (Vec::new(), Vec::new(), Vec::new());
    for (_, folder) in &folders {
        match case_as_it_reads_now(form, folder, options)? {
            Ok((case, text)) => {
                let (model_text, tally) = form.counted_text(&case, options.highest_kind);
                if model_text != text {
                    differ.push(folder);
                }
                standing.push((case, text));
                tallies.push(tally);
            }
            Err(reason) => *left_out.entry(reason).or_default() += 1,
        }
    }
    let chosen = most_telling(&tallies, options.most);
    let mut out = io::BufWriter::new(fs::File::create(file)?);
    for &place in &chosen {
        let (case, text) = &standing[place];
        write_case(&mut out, case, text.as_bytes())?;
    }
    out.flush()?;
    println!("{} stand, {} of them differ from the model", standing.len(), differ.len());
    differ.iter().for_each(|folder| println!("{}", folder.display()));
    println!("{} left out {left_out:?}", left_out.values().sum::<u64>());
    println!("{} packed", chosen.len());
    let mut reached = Tally::default();
    chosen.iter().for_each(|&place| reached.add(&tallies[place]));
    print!("{}", form.report(&reached));
    Ok(if differ.is_empty() { ExitCode::SUCCESS } else { ExitCode::FAILURE })
}

/// The case of a folder with its text, by the cards so far.
fn case_as_it_reads_now(
    form: Form,
    folder: &Path,
    options: &Options,
) -> io::Result<Result<(Case, String), LeftOut>> {
    let case = form.case_in_folder(folder);
    let text = String::from_utf8_lossy(&form.expected_text(folder)?).into_owned();
    Ok(as_it_reads_now(form, &case, &text, options.from_card))
}

// ---------------------------------------------------------------- vectors

/// The folders at or below `folder` that hold a case, in order, once for each of its texts.
fn case_folders(folder: &Path) -> io::Result<Vec<(Form, PathBuf)>> {
    let forms = Form::of_folder(folder).into_iter();
    let mut found: Vec<_> = forms.map(|form| (form, folder.to_path_buf())).collect();
    let mut below = Vec::new();
    for entry in fs::read_dir(folder)? {
        below.push(entry?.path());
    }
    below.sort();
    for path in below.iter().filter(|path| path.is_dir()) {
        found.extend(case_folders(path)?);
    }
    Ok(found)
}

/// Where a plan case has its operations as text: answers, images and slots, as expected there.
fn store_agrees(folder: &Path, case: &Case, card: u8) -> bool {
    let (Ok(ops), Ok(expected)) =
        (fs::read_to_string(folder.join("ops")), fs::read_to_string(folder.join("expected")))
    else {
        return true;
    };
    ops::operations(&ops).is_some_and(|operations| {
        let expected = widened_store(&operations, &expected, card);
        ops::answers_and_store(&case.group, &operations, KINDS) == expected
    })
}

fn vectors(folder: &Path, options: &Options) -> io::Result<ExitCode> {
    let (mut agree, mut left_out) = (0, 0);
    let mut differ = Vec::new();
    for (form, case_folder) in case_folders(folder)? {
        let Ok((case, text)) = case_as_it_reads_now(form, &case_folder, options)? else {
            left_out += 1;
            continue;
        };
        let agrees = form.text(&case, KINDS) == text;
        let has_store = form == Form::Plan;
        if agrees && (!has_store || store_agrees(&case_folder, &case, options.from_card)) {
            agree += 1;
        } else {
            differ.push(case_folder.join(form.text_file()));
        }
    }
    println!("{agree} agree, {} differ, {left_out} left out", differ.len());
    for text in &differ {
        println!("{}", text.strip_prefix(folder).unwrap_or(text).display());
    }
    Ok(if differ.is_empty() { ExitCode::SUCCESS } else { ExitCode::FAILURE })
}

// ---------------------------------------------------------------- bench

const BENCH_CASES: u64 = 50;
const BENCH_TIME: Duration = Duration::from_millis(400);

fn bench(options: &Options) -> io::Result<ExitCode> {
    println!("n  cases   steps  steps per second");
    for n in 2..=8 {
        let cases = bench_cases(options.seed, n);
        let steps: usize = cases.iter().map(|case| case.steps.len().div_ceil(6)).sum();
        let speed = listing_speed(&cases, steps);
        println!("{n}  {:5}  {steps:6}  {speed:16.0}", cases.len());
    }
    Ok(ExitCode::SUCCESS)
}

fn bench_cases(seed: u64, n: usize) -> Vec<Case> {
    let wishes = Wishes { damage: true, highest_kind: KINDS, cabinets: Some(n) };
    (0..BENCH_CASES).map(|index| make_case(case_seed(seed, index), wishes)).collect()
}

/// Steps per second over the cases, gone through again and again.
fn listing_speed(cases: &[Case], steps: usize) -> f64 {
    let start = Instant::now();
    let mut listed = 0;
    while start.elapsed() < BENCH_TIME {
        for case in cases {
            std::hint::black_box(listing(&case.group, &case.steps, KINDS));
        }
        listed += steps;
    }
    listed as f64 / start.elapsed().as_secs_f64()
}
