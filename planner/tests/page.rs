//! The examples' page: each example stands on it, with the picture that the desk draws of it.

use planner::library;
use planner::picture::picture;
use planner::text;
use std::fs;
use std::path::{Path, PathBuf};

fn folder() -> PathBuf {
    Path::new(env!("CARGO_MANIFEST_DIR")).join("../examples")
}

/// The examples' names: those of the texts, without their ends.
fn examples() -> Vec<String> {
    let files = fs::read_dir(folder()).expect("there are examples");
    let paths = files.map(|file| file.expect("a file").path());
    let texts = paths.filter(|path| path.extension().is_some_and(|end| end == "txt"));
    let stems = texts.map(|path| path.file_stem().expect("a name").to_string_lossy().into_owned());
    stems.collect()
}

fn read(name: &str) -> String {
    fs::read_to_string(folder().join(name)).unwrap_or_else(|error| panic!("{name}: {error}"))
}

#[test]
fn the_pictures_are_those_that_the_desk_draws() {
    assert!(examples().len() >= 9);
    for name in examples() {
        let evening =
            text::read(read(&format!("{name}.txt")).as_bytes()).expect("the text is right");
        let drawn = picture(&evening, &library::chronicle(&evening), &name);
        assert!(
            read(&format!("{name}.svg")) == drawn,
            "desk draw examples/{name}.txt gives another picture"
        );
    }
}

#[test]
fn each_example_stands_on_the_page() {
    let page = read("README.md");
    for name in examples() {
        for link in [format!("({name}.txt)"), format!("({name}.svg)")] {
            assert!(page.contains(&link), "no {link} on the page");
        }
    }
}
