//! Marks at the lanes for begin, cut, commit, fault and recovery's end.

use super::events::{At, Commit, Events, Trouble};
use super::layout::Layout;
use super::shapes;
use super::svg::{self, Element};

/// The cuts of one save are joined: what is saved is the group along that line.
pub fn cut_lines(events: &Events, layout: &Layout) -> Element {
    let mut joined = svg::group();
    for cuts in &events.cuts {
        let mut cuts = cuts.clone();
        cuts.sort_by_key(|at| at.cabinet);
        for pair in cuts.windows(2) {
            if layout.band_of(pair[0].k) == layout.band_of(pair[1].k) {
                let [one, next] =
                    [pair[0], pair[1]].map(|at| (layout.x_of(at.k), layout.y_of(at.k, at.cabinet)));
                joined = joined.child(shapes::cut_line(one, next));
            }
        }
    }
    joined
}

/// A mark at a lane: where it stands, its shape, and what it says.
struct Mark {
    at: At,
    shape: fn(f64, f64) -> Element,
    words: &'static str,
}

pub fn at_lanes(events: &Events, layout: &Layout) -> Element {
    let cuts = events.cuts.iter().flatten();
    let cuts = cuts.map(|&at| Mark { at, shape: shapes::cut_mark, words: "has its cut" });
    let begins = events.begins.iter();
    let begins = begins.map(|&at| Mark { at, shape: shapes::begin_mark, words: "begins a save" });
    let troubles = events.troubles.iter().map(trouble);
    let commits = events.commits.iter().flat_map(commit);
    let ends = events.ends.iter().flat_map(|end| &end.by);
    let ends = ends.map(|&at| Mark { at, shape: shapes::end_mark, words: "ends the recovery" });
    let marks = cuts.chain(begins).chain(troubles).chain(commits).chain(ends);
    svg::group().set("class", "marks").children(marks.map(|mark| mark.drawn(layout)))
}

fn trouble(&(at, trouble): &(At, Trouble)) -> Mark {
    match trouble {
        Trouble::EnteredError => Mark { at, shape: shapes::fault_mark, words: "enters error" },
        Trouble::Failed => Mark { at, shape: shapes::fail_mark, words: "fails" },
        Trouble::Tripped => Mark { at, shape: shapes::trip_mark, words: "trips" },
    }
}

fn commit(commit: &Commit) -> impl Iterator<Item = Mark> + '_ {
    commit.by.iter().map(|&at| match commit.passed_over {
        None => Mark { at, shape: shapes::commit_mark, words: "commits the save" },
        Some(_) => Mark {
            at,
            shape: shapes::passed_over_mark,
            words: "commits the save that is passed over later",
        },
    })
}

impl Mark {
    fn drawn(&self, layout: &Layout) -> Element {
        let At { k, cabinet } = self.at;
        let mark = (self.shape)(layout.x_of(k), layout.y_of(k, cabinet));
        svg::group().child(mark).tip(&format!("cabinet {cabinet} {} in step {k}", self.words))
    }
}
