//! The command itself: what it prints, writes and leaves alone, and its exit codes.

use planner::evening::Evening;
use planner::{text, words};
use reference::cases::plans::make_plan_case;
use reference::cases::{case_seed, make_case, Case, Wishes};
use reference::model::KINDS;
use std::fs;
use std::io::{Read, Write};
use std::path::{Path, PathBuf};
use std::process::{Command, Output, Stdio};

// ---------------------------------------------------------------- running it

/// An empty folder of the test's own.
fn folder(name: &str) -> PathBuf {
    let folder = Path::new(env!("CARGO_TARGET_TMPDIR")).join(name);
    let _ = fs::remove_dir_all(&folder);
    fs::create_dir_all(&folder).expect("a folder for the test");
    folder
}

fn desk(folder: &Path, line: &str) -> Command {
    let mut command = Command::new(env!("CARGO_BIN_EXE_desk"));
    command.current_dir(folder).args(line.split_whitespace());
    command
}

fn output(folder: &Path, line: &str) -> Output {
    desk(folder, line).stdin(Stdio::null()).output().expect("the desk runs")
}

/// Its exit code, standard output and standard error.
fn said(folder: &Path, line: &str) -> (i32, String, String) {
    told(output(folder, line))
}

fn told(output: Output) -> (i32, String, String) {
    let text = |octets: Vec<u8>| String::from_utf8(octets).expect("text");
    (output.status.code().expect("an exit code"), text(output.stdout), text(output.stderr))
}

fn said_of(folder: &Path, line: &str, input: &str) -> (i32, String, String) {
    let mut child = desk(folder, line)
        .stdin(Stdio::piped())
        .stdout(Stdio::piped())
        .stderr(Stdio::piped())
        .spawn()
        .expect("the desk runs");
    child.stdin.take().expect("an input").write_all(input.as_bytes()).expect("it reads");
    told(child.wait_with_output().expect("it ends"))
}

fn names(folder: &Path) -> Vec<String> {
    let entries = fs::read_dir(folder).expect("a folder");
    let name = |entry: fs::DirEntry| entry.file_name().to_string_lossy().into_owned();
    let mut names: Vec<String> = entries.map(|entry| name(entry.expect("an entry"))).collect();
    names.sort();
    names
}

fn octets(folder: &Path, name: &str) -> Vec<u8> {
    fs::read(folder.join(name)).expect(name)
}

fn write(folder: &Path, name: &str, contents: impl AsRef<[u8]>) {
    fs::write(folder.join(name), contents).expect(name);
}

const PAPER: &str = "\
group
cabinet 1 store home 1 A 100
cabinet 2 home 1 A 50
link 1 2

steps
send 1A 2A 30
deliver 1 2
fail 2
fetch 1
fetch 1
fetch 1
fetch 1
restored 1
";

const PAPER_LISTING: &str = "\
step 1 0
step 2 0
step 3 0
step 4 0
step 5 0
step 6 0
step 7 0
step 8 0
cab 1 normal 0 100 0 0
cab 2 failed
";

const POINT_PLAN: &str = "\
group
cabinet 1 store home 1 A 100
cabinet 2 home 1 A 50
link 1 2

plan
point \"evening \"
send 1A 2A 30
deliver 1 2
return \"evening \"
return \"morning \"
";

const POINT_EVENING: &str = "\
point 1 0
step 2 0
step 3 0
return 4 0
return 5 21
cab 1 normal 0 100 0 0
cab 2 normal 0 50 0 0
";

fn done(text: &str) -> (i32, String, String) {
    (0, text.into(), String::new())
}

// ---------------------------------------------------------------- use

#[test]
fn help_is_a_result() {
    let folder = folder("help");
    for line in ["--help", "-h", "list --help", "word -h", "explain --help", "draw --help"] {
        let (code, page, errors) = said(&folder, line);
        assert_eq!((code, errors.as_str()), (0, ""), "{line}");
        assert!(page.contains("INPUT"), "{line}");
    }
    assert!(said(&folder, "text --help").1.starts_with("desk text FOLDER"));
    assert!(said(&folder, "files --help").1.starts_with("desk files TEXT FOLDER"));
}

#[test]
fn wrong_use_is_an_error_of_its_own() {
    let folder = folder("wrong-use");
    write(&folder, "a.txt", PAPER);
    let lines = [
        "",
        "lits a.txt",
        "list",
        "list a.txt a.txt",
        "list --froce a.txt",
        "list a.txt -o b.txt",
        "draw a.txt -o",
        "list a.txt --plan",
        "files a.txt",
        "text a.txt",
        "word --plan a.txt",
    ];
    for line in lines {
        let (code, result, errors) = said(&folder, line);
        assert_eq!((code, result.as_str()), (2, ""), "{line}");
        assert!(errors.starts_with("desk") && errors.lines().count() == 1, "{line}: {errors}");
    }
    assert_eq!(names(&folder), ["a.txt"]);
}

// ---------------------------------------------------------------- runs

#[test]
fn a_text_is_listed_from_a_file_from_standard_input_and_from_a_folder() {
    let folder = folder("listed");
    write(&folder, "paper.txt", PAPER);
    assert_eq!(said(&folder, "list paper.txt"), done(PAPER_LISTING));
    assert_eq!(said_of(&folder, "list -", PAPER), done(PAPER_LISTING));
    assert_eq!(said(&folder, "files paper.txt paper"), done(""));
    assert_eq!(said(&folder, "list paper"), done(PAPER_LISTING));
    assert_eq!(said(&folder, "word paper"), done("word 1 1\n"));
}

#[test]
fn a_plan_is_listed_and_has_no_word() {
    let folder = folder("planned");
    write(&folder, "plan.txt", POINT_PLAN);
    assert_eq!(said(&folder, "list plan.txt"), done(POINT_EVENING));
    assert_eq!(said(&folder, "files plan.txt planned"), done(""));
    assert_eq!(names(&folder.join("planned")), ["group.dat", "plan.dat"]);
    assert_eq!(said(&folder, "list planned"), done(POINT_EVENING));
    let (code, result, errors) = said(&folder, "word planned");
    assert_eq!((code, result.as_str()), (2, ""));
    assert!(errors.contains("plan"), "{errors}");
}

#[test]
fn of_two_lists_one_is_chosen() {
    let folder = folder("both");
    write(&folder, "paper.txt", PAPER);
    write(&folder, "plan.txt", POINT_PLAN);
    assert_eq!(said(&folder, "files plan.txt both"), done(""));
    fs::remove_file(folder.join("both/group.dat")).expect("it was written");
    let (code, _, errors) = said(&folder, "files paper.txt both");
    assert_eq!((code, errors.as_str()), (0, "desk: both/plan.dat is there as well, and stays\n"));
    for line in ["list both", "word both", "explain both", "draw both", "text both"] {
        let (code, result, errors) = said(&folder, line);
        assert_eq!((code, result.as_str()), (2, ""), "{line}");
        assert!(errors.contains("--steps or --plan"), "{errors}");
    }
    assert_eq!(said(&folder, "list both --steps"), done(PAPER_LISTING));
    assert_eq!(said(&folder, "list --plan both"), done(POINT_EVENING));
    assert_eq!(said(&folder, "word --steps both"), done("word 1 1\n"));
    assert_eq!(said(&folder, "text --steps both"), done(PAPER));
    assert_eq!(said(&folder, "text --plan both"), done(POINT_PLAN));
}

#[test]
fn a_group_that_load_refuses_is_answered_and_refused() {
    let folder = folder("refused");
    let cases = [
        ("steps\n", 1),
        ("group\ncabinet 1 store home 1\n", 2),
        ("group\nheader octets 00 02 00 00 00 0A 00 1C 00 1D\n", 3),
        ("group\ncabinet 1 home 1\ncabinet 2 home 1\nlink 1 2\n", 4),
        ("group\ncabinet 1 store home 1\ncabinet 2 home 1\nlink 2 1\n", 5),
        ("group\ncabinet 1 store home 1\ncabinet 2 home 1\n", 6),
        ("group\ncabinet 1 store home 1 A 65535\ncabinet 2 home 1 B 1\nlink 1 2\n", 7),
    ];
    for (text, number) in cases {
        let answer = format!("load {number}\n");
        let why = format!("load {number}: {}\n", words::load_reason(number));
        for line in ["list -", "word -"] {
            let (code, result, errors) = said_of(&folder, line, text);
            assert_eq!((code, &result), (1, &answer), "{text}");
            assert!(errors.ends_with(&why), "{errors}");
        }
        let (code, result, errors) = said_of(&folder, "explain -", text);
        assert!(code == 1 && result.starts_with(&answer) && errors.ends_with(&why), "{result}");
        let (code, result, errors) = said_of(&folder, "draw -", text);
        assert!(code == 1 && result.is_empty() && errors.ends_with(&why), "{errors}");
    }
}

#[test]
fn an_evening_is_told_and_drawn() {
    let folder = folder("told");
    write(&folder, "paper.txt", PAPER);
    let (code, told, errors) = said(&folder, "explain paper.txt");
    assert!(code == 0 && errors.is_empty() && told.contains("fail 2"), "{told}{errors}");
    let (code, picture, errors) = said(&folder, "draw paper.txt");
    assert!(code == 0 && errors.is_empty() && picture.contains("<svg"), "{errors}");
    assert_eq!(said(&folder, "explain paper.txt -o told"), done(""));
    assert_eq!(said(&folder, "draw -o drawn.svg paper.txt"), done(""));
    assert_eq!(octets(&folder, "told"), told.as_bytes());
    assert_eq!(octets(&folder, "drawn.svg"), picture.as_bytes());
}

#[test]
fn a_closed_pipe_ends_it_quietly() {
    let folder = folder("pipe");
    let steps = "begin 1\n".repeat(10_000);
    write(&folder, "long.txt", format!("{PAPER}{steps}"));
    let mut command = desk(&folder, "list long.txt");
    let mut child =
        command.stdout(Stdio::piped()).stderr(Stdio::piped()).spawn().expect("the desk runs");
    let mut first = [0; 8];
    child.stdout.take().expect("its output").read_exact(&mut first).expect("it prints");
    let (code, _, errors) = told(child.wait_with_output().expect("it ends"));
    assert_eq!((code, &first), (0, b"step 1 0"));
    assert_eq!(errors, "desk: only the first 10000 records are run; there are more\n");
}

// ---------------------------------------------------------------- sizes

#[test]
fn files_of_unreasonable_size() {
    let folder = folder("large");
    write(&folder, "paper.txt", PAPER);
    assert_eq!(said(&folder, "files paper.txt a"), done(""));
    let steps = octets(&folder, "a/steps.dat").repeat(100_000);
    write(&folder, "a/steps.dat", &steps);
    let (code, listing, errors) = said(&folder, "list a");
    assert_eq!((code, listing.lines().count()), (0, 10_002));
    assert_eq!(errors, "desk: only the first 10000 records are run; there are more\n");
    let (code, _, errors) = said(&folder, "text a");
    assert!(code == 1 && errors.contains("too long for a text"), "{errors}");
    let mut group = octets(&folder, "a/group.dat");
    group.resize(5_000_000, 0);
    write(&folder, "a/group.dat", &group);
    let (code, answer, errors) = said(&folder, "list a");
    assert_eq!((code, answer.as_str()), (1, "load 3\n"));
    assert!(errors.contains("only the first 65536 octets"), "{errors}");
}

// ---------------------------------------------------------------- text and files

fn made(index: u64) -> Evening {
    let plan = index % 2 == 1;
    let wishes = Wishes { damage: true, highest_kind: KINDS, cabinets: None };
    let make = if plan { make_plan_case } else { make_case };
    let Case { group, steps } = make(case_seed(5, index), wishes);
    Evening { group, records: steps, plan }
}

#[test]
fn files_come_back_through_text() {
    let folder = folder("there-and-back");
    for index in 0..40 {
        let evening = made(index);
        let name = if evening.plan { "plan.dat" } else { "steps.dat" };
        let (from, to) = (format!("from{index}"), format!("to{index}"));
        fs::create_dir(folder.join(&from)).expect("a folder");
        write(&folder.join(&from), "group.dat", &evening.group);
        write(&folder.join(&from), name, &evening.records);
        assert_eq!(said(&folder, &format!("text {from} -o {from}.txt")), done(""));
        assert_eq!(octets(&folder, &format!("{from}.txt")), text::print(&evening).as_bytes());
        assert_eq!(said(&folder, &format!("files {from}.txt {to}")), done(""));
        assert_eq!(names(&folder.join(&to)), ["group.dat", name]);
        assert_eq!(octets(&folder.join(&to), "group.dat"), evening.group);
        assert_eq!(octets(&folder.join(&to), name), evening.records);
    }
}

#[test]
fn a_missing_file_counts_as_empty() {
    let folder = folder("missing");
    fs::create_dir(folder.join("a")).expect("a folder");
    let (code, text, errors) = said(&folder, "text a");
    assert_eq!((code, text.as_str()), (0, "steps\n"));
    assert!(errors.contains("a/group.dat is not there"), "{errors}");
    let (code, _, errors) = said(&folder, "text b");
    assert_eq!((code, errors.as_str()), (1, "desk: b: no such folder\n"));
    fs::create_dir(folder.join("a/group.dat")).expect("a folder");
    let (code, _, errors) = said(&folder, "list a");
    assert!(code == 1 && errors.starts_with("desk: a/group.dat: "), "{errors}");
}

#[test]
fn a_wrong_text_is_told_and_nothing_is_written() {
    let folder = folder("wrong-text");
    write(&folder, "bad.txt", PAPER.replace("fail 2", "fail two"));
    let (code, result, errors) = said(&folder, "files bad.txt a");
    assert_eq!((code, result.as_str()), (1, ""));
    assert_eq!(errors, "bad.txt:9: expected a cabinet from 0 to 255, found `two`\n");
    write(&folder, "worse.txt", "steps\n".to_string() + &"x\n".repeat(30));
    let (code, _, errors) = said(&folder, "list worse.txt");
    assert_eq!((code, errors.lines().count()), (1, 11));
    assert!(errors.ends_with("worse.txt: further lines are not looked at\n"), "{errors}");
    assert_eq!(names(&folder), ["bad.txt", "worse.txt"]);
}

#[test]
fn nothing_is_overwritten_unasked() {
    let folder = folder("overwritten");
    write(&folder, "paper.txt", PAPER);
    fs::create_dir(folder.join("a")).expect("a folder");
    write(&folder, "a/steps.dat", "mine");
    let (code, _, errors) = said(&folder, "files paper.txt a");
    assert_eq!(code, 1);
    assert!(errors.starts_with("desk: a/steps.dat: there already"), "{errors}");
    assert_eq!(
        (names(&folder.join("a")), octets(&folder, "a/steps.dat")),
        (vec!["steps.dat".into()], b"mine".to_vec())
    );
    assert_eq!(said(&folder, "files --force paper.txt a"), done(""));
    assert_eq!(names(&folder.join("a")), ["group.dat", "steps.dat"]);
    assert_eq!(said(&folder, "list a"), done(PAPER_LISTING));
    let (code, _, errors) = said(&folder, "text a -o paper.txt");
    assert!(code == 1 && errors.starts_with("desk: paper.txt: there already"), "{errors}");
    write(&folder, "old.txt", "old");
    assert_eq!(said(&folder, "text a -o old.txt --force"), done(""));
    assert_eq!(octets(&folder, "old.txt"), PAPER.as_bytes());
    assert_eq!(names(&folder), ["a", "old.txt", "paper.txt"]);
}

#[test]
fn where_nothing_can_be_written() {
    let folder = folder("unwritable");
    write(&folder, "paper.txt", PAPER);
    write(&folder, "file", "");
    fs::create_dir_all(folder.join("a/steps.dat")).expect("a folder");
    write(&folder, "a/group.dat", "mine");
    let lines = [
        "files paper.txt file",
        "files paper.txt b/c",
        "files --force paper.txt a",
        "explain paper.txt -o a",
        "explain paper.txt -o b/c",
        "explain --force paper.txt -o a",
        "list nowhere.txt",
        "files nowhere.txt d",
        "explain paper.txt -o file",
    ];
    for line in lines {
        let (code, result, errors) = said(&folder, line);
        assert_eq!((code, result.as_str()), (1, ""), "{line}");
        assert!(errors.starts_with("desk: ") && errors.lines().count() == 1, "{line}: {errors}");
    }
    assert_eq!(names(&folder), ["a", "file", "paper.txt"]);
    assert_eq!(names(&folder.join("a")), ["group.dat", "steps.dat"]);
    assert_eq!(octets(&folder, "a/group.dat"), b"mine");
}

#[cfg(unix)]
#[test]
fn links_and_devices_stay_what_they_are() {
    let folder = folder("links");
    write(&folder, "paper.txt", PAPER);
    write(&folder, "old.txt", "old");
    std::os::unix::fs::symlink("old.txt", folder.join("link.txt")).expect("a link");
    assert_eq!(said(&folder, "files paper.txt a"), done(""));
    assert_eq!(said(&folder, "text a --force -o link.txt"), done(""));
    let kind = fs::symlink_metadata(folder.join("link.txt")).expect("a link").file_type();
    assert!(kind.is_symlink());
    assert_eq!(octets(&folder, "old.txt"), PAPER.as_bytes());
    assert_eq!(said(&folder, "text a --force -o /dev/null"), done(""));
    assert_eq!(said(&folder, "text a --force -o /dev/stdout").1, PAPER);
}

// ---------------------------------------------------------------- examples

fn examples() -> Vec<PathBuf> {
    let folder = Path::new(env!("CARGO_MANIFEST_DIR")).join("../examples");
    let mut examples: Vec<PathBuf> = fs::read_dir(folder)
        .expect("the examples")
        .map(|entry| entry.expect("an example").path())
        .filter(|path| path.extension().is_some_and(|ending| ending == "txt"))
        .collect();
    examples.sort();
    examples
}

/// Each says first what it shows, runs without a refusal or a crash, and is written as it would be
/// printed.
#[test]
fn the_examples_run_well() {
    let folder = folder("examples");
    assert!(examples().len() >= 9);
    for path in examples() {
        let text = fs::read_to_string(&path).expect("an example");
        assert!(text.starts_with("# ") && text.contains("\n# Look at: "), "{}", path.display());
        let (code, listing, errors) = said(&folder, &format!("list {}", path.display()));
        assert_eq!((code, errors.as_str()), (0, ""), "{}", path.display());
        let (answers, cabinets): (Vec<&str>, Vec<&str>) =
            listing.lines().partition(|line| !line.starts_with("cab"));
        assert!(answers.iter().all(|line| line.ends_with(" 0")), "{}", path.display());
        let well = |line: &&str| line.contains(" normal ") || line.ends_with(" failed");
        assert!(cabinets.iter().all(well), "{cabinets:?}");
        let evening = text::read(text.as_bytes()).expect("an example");
        let plain = |text: &str| -> Vec<String> {
            let is_line = |line: &&str| !line.is_empty() && !line.starts_with('#');
            text.lines().filter(is_line).map(String::from).collect()
        };
        assert_eq!(plain(&text), plain(&text::print(&evening)), "{}", path.display());
    }
}
