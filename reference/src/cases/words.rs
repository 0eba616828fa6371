//! Cases for the program `word`: those of the listing, and most of them cut short. The line is
//! asked for once, at the end, and most of the whole runs end in a crash, which hides it. Some
//! end with a second fault instead, found before the recovery from the first has ended.

use super::hurts::damage_at;
use super::{add_short_record, make_case, record, Case, Dice, Record, Wishes, LONG};
use crate::model::{self, Burst, Event, Group, Number, Word, RECORD_LENGTH};
use crate::word::{Mark, Sort, WordWatch};
use std::collections::{BTreeMap, BTreeSet};

/// Keeps the dice of the cut apart from those of the run.
const OTHER_DICE: u64 = 0x5EED_0F0A_3C17_08D1;

/// Its kind is none, so it is refused.
const NO_STEP: Record = [0; RECORD_LENGTH];

pub fn make_word_case(seed: u64, wishes: Wishes) -> Case {
    let case = make_case(seed, wishes);
    let Ok(group) = model::load(&case.group) else {
        return case;
    };
    let mut dice = Dice::new(seed ^ OTHER_DICE);
    if dice.per_thousand(130) {
        return case;
    }
    if wishes.damage && dice.per_thousand(150) {
        if let Some(steps) = ending_in_two_faults(&mut dice, group.clone(), &case.steps, wishes) {
            return Case { steps, ..case };
        }
    }
    let views = views(group, &case.steps, wishes.highest_kind);
    if dice.per_thousand(8) {
        if let Some(steps) = last_read_before_a_change(&mut dice, &views, &case.steps) {
            return Case { steps, ..case };
        }
    }
    let end = RECORD_LENGTH * place_to_end(&mut dice, &views);
    let mut steps = case.steps;
    steps.truncate(end);
    if dice.per_thousand(50) {
        add_short_record(&mut dice, &mut steps);
    }
    Case { steps, ..case }
}

/// What the line would say after so many records, and what would be counted of it.
struct View {
    line: Result<Word, u8>,
    sort: Sort,
    marks: BTreeSet<Mark>,
}

/// Before the first record and after each one that is read.
fn views(mut group: Group, steps: &[u8], highest_kind: u8) -> Vec<View> {
    let mut watch = WordWatch::new(&group);
    let view = |group: &Group, watch: &WordWatch| View {
        line: group.word(),
        sort: Sort::of(group),
        marks: watch.marks(group),
    };
    let mut views = vec![view(&group, &watch)];
    for record in steps.chunks_exact(RECORD_LENGTH).take(LONG) {
        let outcome = group.step(record, highest_kind);
        watch.after_step(&group, outcome.event);
        views.push(view(&group, &watch));
    }
    views
}

/// Now and then anywhere. Else each view is as likely as the others, however many records it
/// lasts, but those without a word less so; and rather right after the record that brought it.
fn place_to_end(dice: &mut Dice, views: &[View]) -> usize {
    if dice.per_thousand(100) {
        return dice.below(views.len());
    }
    let settled = !dice.per_thousand(200);
    let mut places: BTreeMap<(Sort, &BTreeSet<Mark>), Vec<usize>> = BTreeMap::new();
    for (place, view) in views.iter().enumerate() {
        if matches!(view.sort, Sort::Settled(_)) == settled {
            places.entry((view.sort, &view.marks)).or_default().push(place);
        }
    }
    let places: Vec<Vec<usize>> = places.into_values().collect();
    if places.is_empty() {
        return dice.below(views.len());
    }
    let of_view = &places[dice.below(places.len())];
    if dice.per_thousand(300) {
        of_view[0]
    } else {
        dice.pick(of_view)
    }
}

/// With so many refused records in front that the last one read is just before one that
/// changes the line.
fn last_read_before_a_change(dice: &mut Dice, views: &[View], steps: &[u8]) -> Option<Vec<u8>> {
    let changes = |place: &usize| views[*place].line != views[place + 1].line;
    let places: Vec<usize> = (0..views.len() - 1).filter(changes).collect();
    let place = dice.pick_any(&places)?;
    let end = (place + dice.between(1, 4)).min(views.len() - 1);
    let front = NO_STEP.repeat(LONG - place);
    Some([&front, &steps[..RECORD_LENGTH * end]].concat())
}

// ---------------------------------------------------------------- two faults

/// So many places of a run are tried, one after the other.
const PLACES_TRIED: usize = 300;

/// The run up to some place, and behind it records that bring a second fault where the first
/// has its word already.
fn ending_in_two_faults(
    dice: &mut Dice,
    mut group: Group,
    steps: &[u8],
    wishes: Wishes,
) -> Option<Vec<u8>> {
    let first = dice.below(steps.len() / RECORD_LENGTH + 1);
    let last = LONG.min(first + PLACES_TRIED);
    for (place, record) in steps.chunks_exact(RECORD_LENGTH).take(last).enumerate() {
        if place >= first && !group.recovery_under_way() {
            if let Some(faults) = two_faults(dice, &group, wishes) {
                return Some([&steps[..RECORD_LENGTH * place], &faults.concat()].concat());
            }
        }
        group.step(record, wishes.highest_kind);
    }
    None
}

/// Two hurt packets found one after the other, or one found after a cabinet was lost.
fn two_faults(dice: &mut Dice, group: &Group, wishes: Wishes) -> Option<Vec<Record>> {
    let lines = filled_lines(group);
    let [one, other] = [dice.pick_any(&lines)?, dice.pick_any(&lines)?];
    let lost = dice.between(1, group.size());
    let trips = wishes.trips() && dice.per_thousand(600);
    let way = if dice.per_thousand(500) {
        vec![hurt(one), hurt(other), found(one), found(other)]
    } else {
        vec![hurt(one), record(if trips { 13 } else { 10 }, lost, 0, 0, 0), found(one)]
    };
    brings_a_second_place(group, &way, wishes.highest_kind).then_some(way)
}

fn filled_lines(group: &Group) -> Vec<(Number, Number)> {
    let lines = group.numbers().flat_map(|from| group.numbers().map(move |to| (from, to)));
    lines.filter(|&(from, to)| !group.line(from, to).packets.is_empty()).collect()
}

fn hurt((from, to): (Number, Number)) -> Record {
    damage_at((from, to, 0), Burst { pattern: 1, bits: 0, octets: 0 })
}

fn found((from, to): (Number, Number)) -> Record {
    record(4, from, to, 0, 0)
}

/// Whether its last record finds a link fault in a recovery that has a word.
fn brings_a_second_place(group: &Group, way: &[Record], highest_kind: u8) -> bool {
    let mut group = group.clone();
    let mut watch = WordWatch::new(&group);
    let mut last = Event::Nothing;
    for record in way {
        last = group.step(record, highest_kind).event;
        watch.after_step(&group, last);
    }
    matches!(last, Event::LinkFault(_)) && watch.marks(&group).contains(&Mark::SecondPlace)
}

// ---------------------------------------------------------------- tests

#[cfg(test)]
mod tests {
    use super::*;
    use crate::cases::case_seed;
    use crate::model::KINDS;
    use crate::word::word;

    fn wishes(damage: bool) -> Wishes {
        Wishes { damage, highest_kind: KINDS, cabinets: None }
    }

    fn cases(damage: bool, count: u64) -> impl Iterator<Item = (Case, Case)> {
        (0..count).map(move |index| {
            let seed = case_seed(19, index);
            (make_case(seed, wishes(damage)), make_word_case(seed, wishes(damage)))
        })
    }

    fn same_records_in_front(one: &[u8], other: &[u8]) -> usize {
        let pairs = one.chunks(RECORD_LENGTH).zip(other.chunks(RECORD_LENGTH));
        pairs.take_while(|(one, other)| one == other).count()
    }

    #[test]
    fn a_seed_makes_the_same_case_again() {
        assert_eq!(make_word_case(5, wishes(true)), make_word_case(5, wishes(true)));
    }

    /// Or, at their ends, at a short record and at the four that bring two faults.
    #[test]
    fn the_records_are_those_of_the_listing() {
        for (listed, case) in cases(true, 300) {
            let records = case.steps.len() / RECORD_LENGTH;
            assert_eq!(case.group, listed.group);
            let same = same_records_in_front(&listed.steps, &case.steps);
            assert!(records > LONG || same + 4 >= records);
        }
    }

    #[test]
    fn without_damage_no_record_has_kind_11_or_12() {
        for (_, case) in cases(false, 200) {
            assert!(case.steps.chunks(6).all(|record| ![11, 12].contains(&record[0])));
        }
    }

    /// Read one record later, the line is another one.
    #[test]
    fn records_that_are_not_read_would_change_the_line() {
        let mut long = 0;
        for (listed, case) in cases(true, 1500) {
            if case.steps.len() > RECORD_LENGTH * LONG && listed.steps != case.steps {
                let of = |steps: &[u8]| word(&case.group, steps, KINDS);
                assert_eq!(case.steps[..RECORD_LENGTH], NO_STEP);
                assert_ne!(of(&case.steps), of(&case.steps[RECORD_LENGTH..]));
                long += 1;
            }
        }
        assert!(long > 3);
    }
}
