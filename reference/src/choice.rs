//! A choice among cases: few that reach as much of what is counted as all of them do.

use crate::cases::Case;
use crate::compare::Row;
use crate::form::Form;
use crate::listing::{Tally, RECORDS_READ};
use crate::own_checks::OwnCheckCounts;
use crate::partners::PartnerCounts;
use crate::workshop::WorkshopCounts;
use std::collections::{BTreeMap, BTreeSet};
use std::fmt::Debug;

/// The places of at most `most` of the cases, rising. One after the other is chosen by what it
/// reaches; that counts the less, the more of those chosen before reach it.
pub fn most_telling(tallies: &[Tally], most: usize) -> Vec<usize> {
    choose(tallies, &vec![1; tallies.len()], Vec::new(), most)
}

/// Of the made cases of a row, `most`, chosen in the same way, but by what they reach for their size;
/// among them is one with more records than are read, which does not crash, if there is one.
pub fn chosen_of_row(row: Row, most: usize) -> Vec<(Case, String, Tally)> {
    let made = (0..row.cases).map(|index| {
        let case = row.case(index);
        let (text, tally) = row.counted_text(&case);
        (case, text, tally)
    });
    let made: Vec<(Case, String, Tally)> = made.collect();
    let records = |case: &Case| case.steps.len().div_ceil(row.form.record_length());
    let is_long = |(case, ..): &(Case, String, Tally)| records(case) > RECORDS_READ;
    let long = made.iter().position(|case| is_long(case) && case.2.crashes.is_empty());
    let mut short: Vec<usize> = (0..made.len()).filter(|&place| !is_long(&made[place])).collect();
    if row.form == Form::Word {
        let mut refused: BTreeMap<u8, usize> = BTreeMap::new();
        short.retain(|&place| {
            let times =
                made[place].2.loads_refused.keys().next().map(|&n| refused.entry(n).or_default());
            times.is_none_or(|times| {
                *times += 1;
                *times <= REFUSED_LOADS
            })
        });
    }
    let places: Vec<usize> = long.into_iter().chain(short).collect();
    let tallies: Vec<Tally> =
        places.iter().map(|&place| what_shows(row.form, &made[place].2)).collect();
    let size = |(case, text, _): &(Case, String, Tally)| {
        (SIZE_OF_ANY + case.group.len() + case.steps.len() + text.len()) as u64
    };
    let sizes: Vec<u64> = places.iter().map(|&place| size(&made[place])).collect();
    let given = if long.is_some() { vec![0] } else { Vec::new() };
    let chosen: BTreeSet<usize> =
        choose(&tallies, &sizes, given, most).into_iter().map(|index| places[index]).collect();
    let kept = made.into_iter().enumerate().filter(|(place, _)| chosen.contains(place));
    kept.map(|(_, case)| case).collect()
}

/// The line of `word` shows little of the steps before it.
fn what_shows(form: Form, tally: &Tally) -> Tally {
    if form != Form::Word {
        return tally.clone();
    }
    let Tally { loads_refused, partners, words, .. } = tally.clone();
    let PartnerCounts { left, left_while, come_backs, leads_gone_round, .. } = partners;
    let partners =
        PartnerCounts { left, left_while, come_backs, leads_gone_round, ..Default::default() };
    Tally { loads_refused, partners, words, ..Tally::default() }
}

/// Of each refusal, among cases for `word`, which are not there for them.
const REFUSED_LOADS: usize = 2;

/// Added to each size, so that not the shortest alone are chosen.
const SIZE_OF_ANY: usize = 9000;

/// Beside those given, by what they reach for their costs.
fn choose(tallies: &[Tally], costs: &[u64], given: Vec<usize>, most: usize) -> Vec<usize> {
    let mut numbers: BTreeMap<String, usize> = BTreeMap::new();
    let mut numbered = |mark: String| {
        let next = numbers.len();
        *numbers.entry(mark).or_insert(next)
    };
    let marks: Vec<Vec<usize>> =
        tallies.iter().map(|tally| marks(tally).into_iter().map(&mut numbered).collect()).collect();
    let mut reached = vec![0; numbers.len()];
    let mut left: BTreeSet<usize> = (0..tallies.len()).collect();
    let mut chosen = BTreeSet::new();
    let mut given = given.into_iter();
    while chosen.len() < most {
        let worth = |place: &usize| -> u64 {
            let worth: u64 = marks[*place].iter().map(|&mark| worth(reached[mark])).sum();
            (worth << 20) / costs[*place]
        };
        let best = given.next().or_else(|| left.iter().rev().copied().max_by_key(worth));
        let Some(best) = best else {
            break;
        };
        left.remove(&best);
        chosen.insert(best);
        marks[best].iter().for_each(|&mark| reached[mark] += 1);
    }
    chosen.into_iter().collect()
}

/// A quarter for each case chosen before that reaches it too.
fn worth(times: u32) -> u64 {
    1 << (20 - 2 * times.min(10))
}

/// The names of the counts of a case at which something is counted.
fn marks(tally: &Tally) -> BTreeSet<String> {
    let (outlets, losses, trips) = (&tally.outlets, &tally.losses, &tally.trips);
    let unsure = &tally.unsure;
    let numbers = [
        ("commits", tally.commits),
        ("recoveries", tally.recoveries_ended),
        ("passed over", tally.saves_passed_over),
        ("link faults", tally.link_faults),
        ("refused for p", outlets.sends_refused_for_p),
        ("refused for B", outlets.loads_refused_for_b),
        ("recoveries changing B", outlets.recoveries_changing_b),
        ("loss", losses.taken),
        ("loss before others", losses.taken_before_others),
        ("damage after a loss", losses.damage_refused),
        ("crash by a loss", losses.crashes),
        ("recoveries after a loss", losses.recoveries_ended),
        ("commits after that", losses.commits_after_recovery),
        ("trip", trips.taken),
        ("trip of a coordinator", trips.of_coordinators),
        ("trip of one that joins", trips.of_joining_cabinets),
        ("third trip", trips.taken_as_fails),
        ("third trip of a coordinator", trips.fails_of_coordinators),
        ("recoveries after a trip", trips.recoveries_ended),
        ("passed over by a trip", trips.saves_passed_over),
        ("begin by a moved lead", trips.begins_by_moved_lead),
        ("commit by a moved lead", trips.commits_by_moved_lead),
        ("fail of a moved lead", trips.fails_of_moved_lead),
        ("link fault after a trip", trips.link_faults),
        ("places met after a trip", trips.places_met),
        ("commit after a trip", trips.commits),
        ("report on a tripped one", trips.reports),
        ("reports on all others", trips.reports_before_its),
        ("unsure", unsure.taken),
        ("unsure after a trip", unsure.of_tripped),
        ("unsure before all know", unsure.before_all_know),
        ("unsure at another place", unsure.at_another_place),
        ("decision by another's report", unsure.by_anothers_report),
        ("decision by one not joined", unsure.by_one_not_joined),
        ("passed over by a decision", unsure.saves_passed_over),
        ("recover after some reports", unsure.recoveries_by_recover),
        ("kind withdrawn", unsure.withdrawn),
        ("kind withdrawn where all wait", unsure.withdrawn_where_all_wait),
    ];
    let reached = numbers.iter().filter(|(_, count)| *count > 0);
    let mut marks: BTreeSet<String> = reached.map(|(name, _)| name.to_string()).collect();
    add_keys(&mut marks, "load", &tally.loads_refused);
    add_keys(&mut marks, "answer", &tally.answers);
    add_keys(&mut marks, "kind", &tally.kinds_taken);
    add_keys(&mut marks, "crash", &tally.crashes);
    add_keys(&mut marks, "covered", &outlets.sends_otherwise_covered);
    add_keys(&mut marks, "note refused", &outlets.notes_refused_at);
    add_keys(&mut marks, "compared", &outlets.faults_by_comparison);
    add_keys(&mut marks, "loss refused", &losses.refused);
    add_keys(&mut marks, "loss found", &losses.found);
    add_keys(&mut marks, "trip in", &trips.taken_in);
    add_keys(&mut marks, "after two trips", &trips.after_two);
    add_keys(&mut marks, "trip refused", &trips.refused);
    add_keys(&mut marks, "crash by trip", &trips.crashes);
    add_keys(&mut marks, "unsure refused", &unsure.refused);
    add_keys(&mut marks, "decision", &unsure.decisions);
    add_keys(&mut marks, "recovery decided", &unsure.recoveries_ended);
    add_own_check_marks(&mut marks, &tally.own_checks);
    add_workshop_marks(&mut marks, &tally.workshop);
    add_partner_marks(&mut marks, &tally.partners);
    add_keys(&mut marks, "point", &tally.point_answers);
    add_keys(&mut marks, "return", &tally.return_answers);
    add_keys(&mut marks, "sight", &tally.sights);
    add_keys(&mut marks, "line", &tally.words.answers);
    add_keys(&mut marks, "word", &tally.words.stood);
    add_keys(&mut marks, "word of", &tally.words.marks);
    marks
}

fn add_own_check_marks(marks: &mut BTreeSet<String>, counts: &OwnCheckCounts) {
    let numbers = [
        ("fail-safe packet hit", counts.fail_safe_hit),
        ("misfit at a fail-safe packet", counts.misfits_at_fail_safe),
        ("hurt amount added", counts.hurt_amounts_added),
    ];
    let reached = numbers.iter().filter(|(_, count)| *count > 0);
    marks.extend(reached.map(|(name, _)| name.to_string()));
    add_keys(marks, "packet version", &counts.groups);
    add_keys(marks, "mixed file", &counts.loads_refused);
    add_keys(marks, "damaged", &counts.hit);
    add_keys(marks, "damage misfit", &counts.misfits);
    add_keys(marks, "shift refused", &counts.refused_with_shift);
    add_keys(marks, "hurt found", &counts.found);
    add_keys(marks, "hurt found in", &counts.found_on_taking_in);
    add_keys(marks, "hurt found with a crash", &counts.crashes);
    add_keys(marks, "hurt dropped", &counts.dropped);
    add_keys(marks, "recovery after a hurt", &counts.recoveries_ended);
    add_keys(marks, "commit after a hurt", &counts.commits_after_recovery);
}

fn add_workshop_marks(marks: &mut BTreeSet<String>, counts: &WorkshopCounts) {
    let numbers = [
        ("line filled", counts.lines_filled),
        ("workshop's wrap", counts.wraps),
        ("workshop's trip", counts.trips),
        ("recovery changing the workshop's", counts.recoveries_changing),
        ("commit changing the workshop's", counts.commits_changing),
    ];
    let reached = numbers.iter().filter(|(_, count)| *count > 0);
    marks.extend(reached.map(|(name, _)| name.to_string()));
    add_keys(marks, "totals", &counts.totals);
    add_keys(marks, "overbooked", &counts.loads_refused);
    add_keys(marks, "send of", &counts.sends_taken);
    add_keys(marks, "beyond four", &counts.sends_beyond_four);
    add_keys(marks, "line full for", &counts.lines_full);
    add_keys(marks, "covered by the other's", &counts.otherwise_covered);
    add_keys(marks, "note at", &counts.notes);
    add_keys(marks, "workshop's hurt", &counts.hurt);
    add_keys(marks, "hurt after the other's", &counts.refused_after_the_other);
    add_keys(marks, "workshop's hurt found", &counts.found);
    add_keys(marks, "recovery after the workshop's", &counts.recoveries_after_find);
}

fn add_partner_marks(marks: &mut BTreeSet<String>, counts: &PartnerCounts) {
    let numbers = counts.numbers();
    let reached = numbers.iter().filter(|(_, count)| *count > 0);
    marks.extend(reached.map(|(name, _)| name.to_string()));
    add_keys(marks, "stores", &counts.stores);
    add_keys(marks, "partner misnamed", &counts.loads_refused);
    add_keys(marks, "store left", &counts.left);
    add_keys(marks, "store left while", &counts.left_while);
    add_keys(marks, "the other left after a come-back", &counts.left_after_come_back);
    add_keys(marks, "written", &counts.written);
    add_keys(marks, "fetched", &counts.fetched);
    add_keys(marks, "commit with a store", &counts.commits);
    add_keys(marks, "no store left", &counts.neither_left);
    add_keys(marks, "recovery after a store left", &counts.recoveries_ended);
}

fn add_keys<K: Debug>(marks: &mut BTreeSet<String>, name: &str, counts: &BTreeMap<K, u64>) {
    marks.extend(counts.keys().map(|key| format!("{name} {key:?}")));
}

#[cfg(test)]
mod tests {
    use super::*;

    fn with_answers(answers: &[u8]) -> Tally {
        let answers = answers.iter().map(|&answer| (answer, 1)).collect();
        Tally { answers, ..Tally::default() }
    }

    #[test]
    fn what_is_not_reached_yet_counts_most() {
        let tallies = [&[0][..], &[0, 8], &[0, 8], &[9], &[0]].map(with_answers);
        assert_eq!(most_telling(&tallies, 1), [1]);
        assert_eq!(most_telling(&tallies, 2), [1, 3]);
        assert_eq!(most_telling(&tallies, 3), [1, 2, 3]);
        assert_eq!(most_telling(&tallies, 4), [0, 1, 2, 3]);
        assert_eq!(most_telling(&tallies, 9), [0, 1, 2, 3, 4]);
    }
}
