//! What the made files reach, as the README names their seeds: sizes that the gate has room for,
//! and everything that is counted. The cases are made and chosen again; no file is opened.

use reference::cases::{Case, Wishes};
use reference::choice::chosen_of_row;
use reference::compare::Row;
use reference::evening::Sight;
use reference::form::Form;
use reference::listing::Tally;
use reference::losses::{Finding, Refused};
use reference::model::{Crash, PacketVersion, State, KINDS};
use reference::own_checks::{Dropped, Found, Hit, Misfit, Mixed};
use reference::partners::{Alone, Fetched, Gone, Leaving, Misnamed, Moment, Stores, Written};
use reference::trips::Between;
use reference::unsure::{Lost, Refusal};
use reference::word::{word, Mark, Sort, WordCounts};
use reference::workshop::{self, Overbooked, Totals};

const WISHES: Wishes = Wishes { damage: true, highest_kind: KINDS, cabinets: None };
const MADE: Row = Row { form: Form::Steps, seed: 2112, cases: 1500, wishes: WISHES };
const PLANNED: Row = Row { form: Form::Plan, seed: 2112, cases: 1000, wishes: WISHES };
const WORDED: Row = Row { form: Form::Word, seed: 2112, cases: 1500, wishes: WISHES };

const MADE_MOST: usize = 210;
const PLANNED_MOST: usize = 100;
const WORDED_MOST: usize = 100;

const GROUP_MOST: usize = 4_096;
const RECORDS_MOST: usize = 90_180;
const TEXT_MOST: usize = 200_200;
const RECORDS_READ: usize = 10_000;

fn has_room(case: &Case, text: &str) -> bool {
    case.group.len() <= GROUP_MOST && case.steps.len() <= RECORDS_MOST && text.len() <= TEXT_MOST
}

fn has_more_records_than_are_read(form: Form, case: &Case) -> bool {
    case.steps.len().div_ceil(form.record_length()) > RECORDS_READ
}

/// The counts of those chosen of a row, of which one case is long and does not crash.
fn counted(row: Row, most: usize) -> Tally {
    let mut tally = Tally::default();
    let mut long = 0;
    let chosen = chosen_of_row(row, most);
    assert_eq!(chosen.len(), most);
    for (case, text, counts) in chosen {
        assert!(has_room(&case, &text));
        if has_more_records_than_are_read(row.form, &case) {
            long += 1;
            assert!(counts.crashes.is_empty());
        }
        tally.add(&counts);
    }
    assert_eq!(long, 1);
    tally
}

/// A name, and whether something is counted there.
type Reached = (&'static str, bool);

fn of_steps(tally: &Tally) -> Vec<Reached> {
    let answers = [0, 8, 9, 10, 11, 12, 13, 14, 15, 16, 17, 18, 19, 20, 50];
    vec![
        ("loads refused", tally.loads_refused.keys().eq(&[1, 2, 3, 4, 5, 6, 7])),
        ("answers", tally.answers.keys().eq(&answers)),
        ("kinds taken", tally.kinds_taken.len() == usize::from(KINDS) - 1),
        ("commits", tally.commits > 0),
        ("recoveries", tally.recoveries_ended > 0),
        ("saves passed over", tally.saves_passed_over > 0),
        ("link faults", tally.link_faults > 0),
        ("crashes", tally.crashes.len() == 10),
        ("points", tally.point_answers.keys().eq(&[0, 10, 22, 23])),
        ("returns", tally.return_answers.keys().eq(&[0, 10, 21, 22])),
        ("sights", tally.sights.keys().eq(&Sight::ALL)),
    ]
}

fn of_outlets(tally: &Tally) -> Vec<Reached> {
    let outlets = &tally.outlets;
    vec![
        ("sends by bookings", outlets.sends_taken.len() == 5),
        ("packets by booking", outlets.packets_taken.len() == 3),
        ("sends refused for p", outlets.sends_refused_for_p > 0),
        ("sends otherwise covered", outlets.sends_otherwise_covered.len() == 2),
        ("notes refused", outlets.notes_refused_at.keys().eq(&[2, 3])),
        ("recoveries changing B", outlets.recoveries_changing_b > 0),
        ("comparisons by booking", outlets.faults_by_comparison.len() == 3),
        ("loads refused for B", outlets.loads_refused_for_b > 0),
    ]
}

fn of_losses(tally: &Tally) -> Vec<Reached> {
    let losses = &tally.losses;
    let findings = [Finding::Crc, Finding::CountAlone];
    vec![
        ("losses", losses.taken > 0 && losses.taken_before_others > 0),
        ("losses refused", losses.refused.keys().eq(&Refused::ALL)),
        ("losses found", losses.found.keys().eq(&findings)),
        ("damage after a loss", losses.damage_refused > 0),
        ("crashes by a loss", losses.crashes > 0),
        ("recoveries after a loss", losses.recoveries_ended > 0),
        ("commits after that", losses.commits_after_recovery > 0),
    ]
}

fn of_trips(tally: &Tally) -> Vec<Reached> {
    let trips = &tally.trips;
    let crashes = [
        Crash::FailInRecovery,
        Crash::CutOffByFail,
        Crash::StoreTripped,
        Crash::TripInRecovery,
        Crash::CutOffByTrip,
    ];
    let between = [Between::Commit, Between::CommitPassedOver];
    vec![
        ("trips", trips.taken > 0 && trips.taken_in.len() == 4),
        ("trips of coordinators", trips.of_coordinators > 0),
        ("trips of others that join some", trips.of_joining_cabinets > 0),
        ("trips after two", trips.after_two.keys().eq(&between)),
        ("third trips", trips.taken_as_fails > 0 && trips.fails_of_coordinators > 0),
        ("trips refused", trips.refused.keys().eq(&[9, 10, 11, 12])),
        ("crashes by trips", crashes.iter().all(|cause| trips.crashes.contains_key(cause))),
        ("recoveries after a trip", trips.recoveries_ended > 0),
        ("passed over by a trip", trips.saves_passed_over > 0),
        ("begins by a moved lead", trips.begins_by_moved_lead > 0),
        ("commits by a moved lead", trips.commits_by_moved_lead > 0),
        ("fails of a moved lead", trips.fails_of_moved_lead > 0),
        ("link faults after a trip", trips.link_faults > 0),
        ("places met after a trip", trips.places_met > 0),
        ("commits after a trip", trips.commits > 0),
        ("reports after a trip", trips.reports > 0 && trips.reports_before_its > 0),
    ]
}

fn of_reports_unsure(tally: &Tally) -> Vec<Reached> {
    let unsure = &tally.unsure;
    let lost = [Lost::Failed, Lost::Tripped];
    vec![
        ("reports unsure", unsure.taken > 0 && unsure.of_tripped > 0),
        ("reports before all know", unsure.before_all_know > 0),
        ("reports at another place", unsure.at_another_place > 0),
        ("reports refused", unsure.refused.keys().eq(&Refusal::ALL)),
        ("decisions", unsure.decisions.keys().eq(&lost)),
        ("decisions by another's report", unsure.by_anothers_report > 0),
        ("decisions by one not joined", unsure.by_one_not_joined > 0),
        ("recoveries after a decision", unsure.recoveries_ended.keys().eq(&lost)),
        ("passed over by a decision", unsure.saves_passed_over > 0),
        ("recoveries by recover", unsure.recoveries_by_recover > 0),
        ("withdrawn kind", unsure.withdrawn > 0 && unsure.withdrawn_where_all_wait > 0),
    ]
}

fn of_own_checks(tally: &Tally) -> Vec<Reached> {
    let counts = &tally.own_checks;
    let hits = [
        (PacketVersion::One, Hit::Amount),
        (PacketVersion::Two, Hit::Amount),
        (PacketVersion::Two, Hit::OwnCheck),
        (PacketVersion::Two, Hit::Both),
    ];
    let states = [State::Normal, State::CheckpBegin];
    let dropped = [Dropped::InRecovery, Dropped::OverStruckLink];
    vec![
        ("packet versions", counts.groups.len() == 2),
        ("mixed files", counts.loads_refused.keys().eq(&Mixed::ALL)),
        ("packets damaged", counts.hit.keys().eq(&hits)),
        ("fail-safe packets damaged with a shift", counts.fail_safe_hit > 0),
        ("damage refused 15", counts.misfits.keys().eq(&Misfit::ALL)),
        ("at fail-safe packets", counts.misfits_at_fail_safe > 0),
        ("shifts refused", counts.refused_with_shift.keys().eq(&[10, 11, 13, 15, 18, 20])),
        ("hurt amounts added", counts.hurt_amounts_added > 0),
        ("hurts found", counts.found.keys().eq(&Found::ALL)),
        ("hurts found with a crash", counts.crashes.keys().eq(&Found::ALL)),
        ("hurts found on taking in", counts.found_on_taking_in.keys().eq(&states)),
        ("hurt packets dropped", counts.dropped.keys().eq(&dropped)),
        ("recoveries after hurts", several_of_each(tally)),
        ("commits after that", counts.commits_after_recovery.keys().eq(&Found::ALL)),
    ]
}

fn of_workshop(tally: &Tally) -> Vec<Reached> {
    let counts = &tally.workshop;
    let refused = &counts.loads_refused;
    let found = &counts.recoveries_after_find;
    vec![
        ("totals", counts.totals.keys().eq(&Totals::ALL)),
        ("overbooked", Overbooked::BY_ONE_PARTY.iter().all(|by| refused.contains_key(by))),
        ("sends beyond four", counts.sends_beyond_four.len() == 2 && counts.lines_filled > 0),
        ("lines full", counts.lines_full.len() == 4),
        ("covered by the other party's", counts.otherwise_covered.len() == 2),
        ("notes", counts.notes.keys().eq(&[(4, 15), (5, 15), (6, 0)])),
        ("workshop packets hurt", counts.hurt.len() == 4),
        ("refused after the other party's", counts.refused_after_the_other.len() == 2),
        ("wraps of the workshop's", counts.wraps > 0),
        ("workshop's hurts found", counts.found.keys().eq(&workshop::Found::ALL)),
        ("recoveries after those", found.keys().eq(&workshop::Found::ALL)),
        ("trips with a workshop booking", counts.trips > 0),
        ("recoveries changing the workshop's", counts.recoveries_changing > 0),
        ("commits changing the workshop's", counts.commits_changing > 0),
    ]
}

fn of_partners(tally: &Tally) -> Vec<Reached> {
    let counts = &tally.partners;
    let alone = |why: &Alone| counts.neither_left.keys().any(|(_, alone)| alone == why);
    let numbers = counts.numbers().into_iter().map(|(name, number)| (name, number > 0));
    let by_key = [
        ("stores", counts.stores.keys().eq(&Stores::ALL)),
        ("partners misnamed", counts.loads_refused.keys().eq(&Misnamed::ALL)),
        ("stores that left", counts.left.len() == 2 * Leaving::ALL.len()),
        ("stores that left while", counts.left_while.keys().eq(&Moment::ALL)),
        ("the other left after a come-back", counts.left_after_come_back.len() == 2),
        ("pieces written", counts.written.keys().eq(&Written::ALL)),
        ("pieces fetched", counts.fetched.keys().eq(&Fetched::ALL)),
        ("commits with a store gone", counts.commits.keys().eq(&Gone::ALL)),
        ("no store left", Alone::ALL.iter().all(alone)),
        ("recoveries after a store left", counts.recoveries_ended.keys().eq(&Leaving::ALL)),
    ];
    by_key.into_iter().chain(numbers).collect()
}

fn several_of_each(tally: &Tally) -> bool {
    let ended = &tally.own_checks.recoveries_ended;
    ended.keys().eq(&Found::ALL) && ended.values().all(|&recoveries| recoveries > 2)
}

/// The names of the counts at which nothing is counted.
fn not_reached(tally: &Tally) -> Vec<&'static str> {
    let early = [of_steps, of_outlets, of_losses, of_trips, of_reports_unsure];
    let late = [of_own_checks, of_workshop, of_partners];
    let reached = early.into_iter().chain(late).flat_map(|part| part(tally));
    reached.filter(|(_, there)| !there).map(|(name, _)| name).collect()
}

#[test]
fn the_two_made_files_reach_everything() {
    let made = counted(MADE, MADE_MOST);
    assert!(several_of_each(&made));
    let mut tally = made;
    tally.add(&counted(PLANNED, PLANNED_MOST));
    assert_eq!(not_reached(&tally), [""; 0]);
}

/// The counts at which less than three are counted, or nothing at all.
fn reached_too_seldom(words: &WordCounts) -> Vec<String> {
    let few = |count: Option<&u64>| count.copied().unwrap_or_default() < 3;
    let sorts = Sort::ALL.iter().filter(|sort| few(words.answers.get(sort)));
    let marks = Mark::ALL.iter().filter(|mark| few(words.marks.get(mark)));
    let stood = words.stood.iter().filter(|(_, &count)| few(Some(&count)));
    let sorts = sorts.map(|sort| format!("{sort:?}"));
    let marks = marks.map(|mark| format!("{mark:?}"));
    sorts.chain(marks).chain(stood.map(|(stood, _)| format!("{stood:?}"))).collect()
}

#[test]
fn the_made_file_of_words_reaches_each_several_times() {
    let tally = counted(WORDED, WORDED_MOST);
    assert_eq!(reached_too_seldom(&tally.words), [""; 0]);
    assert_eq!(tally.words.stood.len(), 8);
    assert!(tally.loads_refused.keys().eq(&[1, 2, 3, 4, 5, 6, 7]));
}

/// Without as many in front as are too many, the records behind are read.
#[test]
fn the_long_case_of_words_tells_how_many_records_are_read() {
    let mut cases = chosen_of_row(WORDED, WORDED_MOST).into_iter().map(|(case, ..)| case);
    let long = cases.find(|case| has_more_records_than_are_read(Form::Word, case));
    let Case { group, steps } = long.expect("one case is long");
    let all_read = &steps[steps.len() - 6 * RECORDS_READ..];
    assert_ne!(word(&group, &steps, KINDS), word(&group, all_read, KINDS));
}
