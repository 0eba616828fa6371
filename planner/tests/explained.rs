//! The chronicle read, packets followed, and runs told in words.

use planner::chronicle::{
    Chronicle, Fate, Outlet, Packet, Place, State, Unreadable, Version, Word,
};
use planner::evening::Evening;
use planner::explain::explain;
use planner::library;
use planner::packets::{End, Journey, Run, Trouble};
use planner::text;
use planner::words;
use reference::cases::plans::make_plan_case;
use reference::cases::words::make_word_case;
use reference::cases::{case_seed, make_case, Case, Wishes};
use reference::model;

const SEED: u64 = 1984;
const WIDTH: usize = 100;

fn evening(text: &str) -> Evening {
    text::read(text.as_bytes()).expect("the text is right")
}

fn told(text: &str) -> String {
    let evening = evening(text);
    explain(&evening, &library::chronicle(&evening))
}

fn opened(text: &str) -> Run {
    let evening = evening(text);
    Run::open(&evening, &library::chronicle(&evening)).unwrap_or_else(|t| panic!("{t}"))
}

/// Made cases of steps, of plans and of steps that go for recoveries.
fn made(index: u64) -> Evening {
    let plan = index % 3 == 1;
    let make = [make_case, make_plan_case, make_word_case][index as usize % 3];
    let wishes = Wishes { damage: true, highest_kind: model::KINDS, cabinets: None };
    let Case { group, steps } = make(case_seed(SEED, index), wishes);
    Evening { group, records: steps, plan }
}

/// Whether a text says this, wherever its lines end.
#[track_caller]
fn has(text: &str, part: &str) {
    let flat = text.split_whitespace().collect::<Vec<_>>().join(" ");
    assert!(flat.contains(part), "no `{part}` in\n{text}");
}

const PAIR: &str = "group
cabinet 1 store home 1 A 100
cabinet 2 home 1 A 50
link 1 2
";

// ---------------------------------------------------------------- whole texts

#[test]
fn the_papers_own_case() {
    let fetches = "fetch 1\n".repeat(4);
    let steps = format!("steps\nsend 1A 2A 30\ndeliver 1 2\nfail 2\n{fetches}restored 1\n");
    let expected = "\
A group of 2 cabinets, packets of version 1. At the start:

  cabinet  state   version    A  B  W  coordinator  home
        1  normal        0  100  0  0            1     1
        2  normal        0   50  0  0            1     1

  1  send 1A 2A 30: cabinet 1 sends 30 A from its outlet A to outlet A of cabinet 2
     taken; A 100 → 70
  2  deliver 1 2: the oldest packet from 1 to 2 - taken
       from step 1: 30 A for outlet A, added
       cabinet 2: A 50 → 80
  3  fail 2: cabinet 2 fails - taken
       cabinet 1: normal → error (cabinet 2 failed) → recovering
       cabinet 2: normal → failed
  4  fetch 1: cabinet 1 fetches its next piece from its home
     taken; piece 1 of 4 fetched, A 70 → 100
  5  fetch 1: cabinet 1 fetches its next piece from its home - taken; piece 2 of 4 fetched
  6  fetch 1: cabinet 1 fetches its next piece from its home - taken; piece 3 of 4 fetched
  7  fetch 1: cabinet 1 fetches its next piece from its home
     taken; piece 4 of 4 fetched, recovering → recovered
  8  restored 1: cabinet 1 reports restored - taken
       cabinet 1: recovered → normal
     * The recovery ends: all come back to the start. The word of cabinet 1 settled it: it was
       coordinator before the fault and knew.

The end, after 8 records, 0 of them refused:

  cabinet  state   version    A  B  W  coordinator  home
        1  normal        0  100  0  0            1     1
        2  failed

Every line is empty.
The save that the rule gives: the start.
";
    assert_eq!(told(&format!("{PAIR}{steps}")), expected);
}

/// Cabinet 1 is coordinator and cabinet 2 the store, so that 1 may fail behind its commit.
const SAVE: &str = "group
cabinet 1 home 2 A 100
cabinet 2 store home 2 A 50
link 1 2
steps
begin 1
deliver 1 2
deliver 2 1
write 1
write 1
write 1
write 1
write 2
write 2
write 2
write 2
saved 1
saved 2
";

#[test]
fn a_save_is_committed_and_passed_over() {
    let text =
        told(&format!("{SAVE}fail 1\nunsure 2\nfetch 2\nfetch 2\nfetch 2\nfetch 2\nrestored 2\n"));
    has(
        &text,
        "* The save begun in step 1 is committed. Its cuts: cabinet 1 in step 3 and 2 in step 2.",
    );
    has(&text, "cabinet 2: normal → checkpointing, its cut");
    has(&text, "cabinet 1: checkpointed → normal, version 0 → 1");
    has(&text, "cabinet 2: checkpointed → error (cabinet 1 failed), coordinator 1 → 2");
    has(&text, "1 packet goes with the lines that are emptied, none of them normal");
    has(&text, "* The save committed in step 13 is passed over; the rule gives the start now.");
    has(&text, "* The recovery ends: all come back to the start.");
    has(&text, "The word of cabinet 2 settled it: it decided under the unsure rule.");
}

/// While nobody has gone on, the answer to card 8's question is about the recovery before.
#[test]
fn a_recovery_is_open() {
    let open = "A recovery is open. The save that the rule gives: the start.";
    has(&told(&format!("{SAVE}fail 1\n")), open);
    let settled = "A recovery is open. The word of cabinet 2 settled it: it decided under";
    has(&told(&format!("{SAVE}fail 1\nunsure 2\n")), settled);
}

#[test]
fn a_save_comes_back() {
    let end = "deliver 1 2\nfail 1\nfetch 2\nfetch 2\nfetch 2\nfetch 2\nrestored 2\n";
    let text = told(&format!("{SAVE}{end}"));
    has(&text, "* The recovery ends: all come back to the save committed in step 13.");
    has(&text, "The word of cabinet 2 settled it: it was in normal.");
    has(&text, "The save that the rule gives: the save committed in step 13.");
}

#[test]
fn points_and_returns() {
    let plan = "plan
point \"evening \"
send 1A 2B 30
return \"evening \"
deliver 1 2
return \"nobody's\"
return \"evening \"
fail 2
fetch 1
fetch 1
fetch 1
fetch 1
restored 1
";
    let text = told(&format!("{PAIR}{plan}"));
    has(&text, "* The point \"evening \" keeps the images of the committed version: the start.");
    has(&text, "refused, 22: the group is not quiet: it needs every working cabinet in normal");
    has(&text, "and every line empty (1 packet is on the way)");
    has(&text, "refused, 21: there is no such name");
    has(&text, "cabinet 1: A 70 → 100 cabinet 2: B 30 → 0");
    has(
        &text,
        "* All images, and both slots of every cabinet, are those of the point \"evening \".",
    );
    has(&text, "all come back to the return in step 6.");
}

#[test]
fn a_crash() {
    let text = told(&format!("{PAIR}steps\nfail 1\nsend 1A 2A 3\n"));
    has(&text, "1 fail 1: cabinet 1 fails - taken, and the group crashed (50)");
    has(&text, "the cases for fail: a store fails and no partner is left,");
    has(
        &text,
        "before it no cabinet was in error, recovering or recovered cabinets 1 and 2: crashed",
    );
    has(&text, "refused, 10: the group has crashed");
    has(&text, "The group has crashed.");
}

#[test]
fn hurt_and_lost_packets() {
    let steps = "steps
send 1A 2A 30
send 1A 2B 7
damage 1 2 place 0 pattern 0x0001
lose 1 2 place 1
deliver 1 2
deliver 1 2
begin 1
damage 1 2 place 0 pattern 0x0001
deliver 1 2
";
    let text = told(&format!("{PAIR}{steps}"));
    has(&text, "from step 1: 30 A for outlet A → 31 A for outlet A");
    has(&text, "refused, 20: a normal packet of that line was hurt since the receiver's register");
    has(
        &text,
        "from step 1: 31 A for outlet A, added; it was damaged in step 3, before that it was 30 A",
    );
    has(&text, "from step 7: checkp → an invalid packet");
    has(&text, "the packet was an invalid packet");
}

#[test]
fn nothing_to_tell() {
    let refused = Evening { group: vec![0; 9], ..Evening::default() };
    assert_eq!(
        explain(&refused, &library::chronicle(&refused)),
        "The group file is refused, 1: it has fewer than 10 octets.\n"
    );
    has(&explain(&refused, &[]), "The chronicle cannot be read: octet 0 of the chronicle");
    let pair = evening(&format!("{PAIR}steps\nbegin 1\n"));
    let none = Evening { records: Vec::new(), ..pair.clone() };
    let chronicle = library::chronicle(&pair);
    has(&explain(&none, &chronicle), "The chronicle tells of 1 records, but there are 0.");
    has(&explain(&none, &library::chronicle(&none)), "The end, after 0 records");
}

// ---------------------------------------------------------------- reasons

/// Steps for the pair of cabinets, and what is said of the last one.
const REASONS: [(&str, &str); 18] = [
    ("send 2A 9A 1", "refused, 11: a cabinet is not one of 1 to n"),
    ("send 1A 1A 1", "refused, 13: no link to cabinet 1 in the table of cabinet 1"),
    ("send 1A 2A 0", "refused, 15: the amount is 0, or p names no outlets"),
    (
        "send 1A 2A 101",
        "refused, 16: the amount is above the booking (outlet A of cabinet 1 has 100 A)",
    ),
    (
        "send 1B 2A 1",
        "refused, 16: the amount is above the booking (outlet B of cabinet 1 has 0 A)",
    ),
    (
        "send 1A 2A 1\nsend 1A 2A 1\nsend 1A 2A 1\nsend 1A 2A 1\nsend 1A 2A 1",
        "refused, 17: that party's four places in the line are full",
    ),
    ("note 1 5 1", "refused, 15: the octet is outside 6 to 31, or the value above 255"),
    (
        "begin 2",
        "refused, 14: cabinet 2 is not in normal, or not its own coordinator (it is in normal, its",
    ),
    ("deliver 1 2", "refused, 18: the line is empty"),
    ("deliver 1 1", "refused, 13: no such link in the group file"),
    ("write 1", "refused, 14: cabinet 1 is not in checkpointing (it is in normal)"),
    (
        "saved 2",
        "refused, 19: no report is owed, or the home's coordinator is not in checkpointing or",
    ),
    ("fetch 2", "refused, 14: cabinet 2 is not in recovering (it is in normal)"),
    ("restored 1", "refused, 14: cabinet 1 is not in recovered (it is in normal)"),
    (
        "unsure 1",
        "refused, 14: it is not in error with unknown version, or the fault is not the former",
    ),
    ("lose 1 2 place 0", "refused, 18: no normal packet is there"),
    ("fail 2\nsend 2A 1A 1", "refused, 12: cabinet 2 has failed"),
    ("octets 09 01 00 00 00 00", "refused, 8: wait over is withdrawn"),
];

#[test]
fn reasons_in_the_documents_words() {
    for (steps, reason) in REASONS {
        has(&told(&format!("{PAIR}steps\n{steps}\n")), reason);
    }
}

#[test]
fn every_answer_has_a_reason() {
    for index in 0..1000 {
        let evening = made(index);
        let Ok(run) = Run::open(&evening, &library::chronicle(&evening)) else { continue };
        for k in 1..=run.records.len() {
            let reason = words::reason(run.record(k), run.row(k).answer);
            assert!(!reason.contains("do not name"), "case {index}, record {k}: {reason}");
        }
    }
}

// ---------------------------------------------------------------- every run

/// The cabinets of a listing's last lines, as words.
fn listed_cabinets(listing: &str) -> Vec<Vec<String>> {
    let lines = listing.lines().filter_map(|line| line.strip_prefix("cab "));
    lines.map(|line| line.split(' ').map(String::from).collect()).collect()
}

/// The table at the end of a text, without its last two columns, which a listing has not.
fn told_cabinets(text: &str) -> Vec<Vec<String>> {
    let (_, end) = text.split_once("\nThe end").expect("an end");
    let table = end.lines().skip_while(|line| !line.contains("cabinet  state")).skip(1);
    let rows = table.take_while(|line| !line.is_empty());
    rows.map(|row| row.split_whitespace().take(6).map(String::from).collect()).collect()
}

#[test]
fn made_runs_are_told_as_they_are_listed() {
    for index in 0..600 {
        let evening = made(index);
        let text = explain(&evening, &library::chronicle(&evening));
        let listing = String::from_utf8(library::listing(&evening)).expect("a listing is text");
        if let Some(refusal) = listing.strip_prefix("load ") {
            has(&text, &format!("The group file is refused, {}:", refusal.trim_end()));
            continue;
        }
        assert_eq!(told_cabinets(&text), listed_cabinets(&listing), "case {index}");
        for line in text.lines() {
            assert!(line.chars().count() <= WIDTH, "case {index}: {line}");
        }
    }
}

/// Each packet is put once and leaves once; what is on the way at the end stands on the last lines.
#[test]
fn packets_of_made_runs_are_followed() {
    let mut ends = [0; 6];
    for index in 0..1000 {
        let evening = made(index);
        let run = match Run::open(&evening, &library::chronicle(&evening)) {
            Ok(run) => run,
            Err(Trouble::LoadRefused(_)) => continue,
            Err(trouble) => panic!("case {index}: {trouble}"),
        };
        let on_the_way = run.journeys.iter().filter(|journey| journey.end == End::OnTheWay);
        let standing: usize = run.last_row().lines.iter().map(Vec::len).sum();
        assert_eq!(on_the_way.count(), standing, "case {index}");
        for journey in &run.journeys {
            assert!(journey.put < journey.left || journey.end == End::OnTheWay, "case {index}");
            assert!(journey.damaged.iter().all(|&(k, _)| journey.put < k && k <= journey.left));
            ends[journey.end as usize] += 1;
        }
    }
    assert!(ends.iter().all(|&count| count > 50), "some end is hardly there: {ends:?}");
}

#[test]
fn one_packet_from_end_to_end() {
    let steps = "steps\nsend 1A 2W 4\n";
    assert!(text::read(format!("{PAIR}{steps}").as_bytes()).is_err(), "no p crosses the parties");
    let run =
        opened(&format!("{PAIR}steps\nsend 1A 2B 4\nsend 1A 2A 5\nbegin 1\ndeliver 1 2\nfail 2\n"));
    let journey = |packet, put, end, left| Journey {
        from: 1,
        to: 2,
        packet,
        put,
        damaged: Vec::new(),
        end,
        left,
    };
    let normal = |outlet, amount| Packet::Normal { outlet, amount };
    let expected = [
        journey(normal(Outlet::B, 4), 1, End::Taken, 4),
        journey(normal(Outlet::A, 5), 2, End::Emptied, 5),
        journey(Packet::Checkp, 3, End::Emptied, 5),
    ];
    assert_eq!(run.journeys, expected);
}

// ---------------------------------------------------------------- reading

/// Of a working cabinet in normal that knows version 0, with A's booking.
fn cabinet(a: u8) -> Vec<u8> {
    vec![1, 0, 0, 1, 0, 0, 0, 0, 1, 0, a, 0, 0, 0, 0]
}

/// Two cabinets; one send from 1 to 2; then 2 fails.
fn by_hand() -> Vec<u8> {
    let mut octets = vec![0, 2, 1];
    octets.extend([0, 0, 0, 24, 0, 0, 0]);
    octets.extend([cabinet(100), cabinet(50), vec![0; 4]].concat());
    octets.extend([0, 0, 0, 24, 0, 0, 0]);
    octets.extend([cabinet(70), cabinet(50)].concat());
    octets.extend([0, 1, 1, 0, 30, 0, 0, 0]);
    octets.extend([0, 0, 1, 1, 0, 0, 0]);
    octets.extend([6, 1, 0, 1, 1, 2, 0, 0, 1, 0, 70, 0, 0, 0, 0, 0, 3, 0, 0, 0, 0]);
    octets
}

#[test]
fn a_chronicle_by_hand() {
    let chronicle = Chronicle::read(&by_hand()).expect("it is one");
    assert_eq!((chronicle.load, chronicle.n, chronicle.packets), (0, 2, 1));
    let [start, sent, failed] = chronicle.rows.as_slice() else { panic!("three rows") };
    assert!(start.lines.iter().all(Vec::is_empty));
    assert_eq!(sent.line(1, 2), [Packet::Normal { outlet: Outlet::B, amount: 30 }]);
    assert_eq!((sent.fate, sent.word), (Fate::NoneTakenOff, Word::Refused(24)));
    assert_eq!(failed.word, Word::Settled { cabinet: 1, reason: 1 });
    let one = failed.cabinets[0];
    assert_eq!((one.state, one.emptied_out, one.emptied_in), (State::Recovering, true, false));
    let working = one.working.expect("1 works");
    assert_eq!((working.version, working.place), (Version::Known(0), Some(Place::Failed(2))));
    assert_eq!((failed.cabinets[1].state, failed.cabinets[1].working), (State::Failed, None));
}

/// Either mark alone says that a line was emptied; with neither, its packet would have to be there.
#[test]
fn lines_are_emptied_from_both_ends() {
    let evening = evening(&format!("{PAIR}steps\nsend 1A 2B 30\nfail 2\n"));
    let (one_did, two_did) = (row_ends()[1] + 8, row_ends()[2] - 5);
    for (marks, emptied) in [((1, 0), true), ((0, 2), true), ((0, 1), false)] {
        let mut octets = by_hand();
        (octets[one_did], octets[two_did]) = marks;
        let journeys = Run::open(&evening, &octets).map(|run| run.journeys[0].end);
        let expected = Err(Trouble::Lines { row: 2, from: 1, to: 2 });
        assert_eq!(journeys, if emptied { Ok(End::Emptied) } else { expected });
    }
}

/// Where each row of the one above ends.
fn row_ends() -> [usize; 3] {
    let first = 3 + 7 + 30 + 4;
    [first, first + 7 + 30 + 8, by_hand().len()]
}

#[test]
fn a_cut_chronicle_is_refused_where_it_ends() {
    let whole = by_hand();
    for length in 0..whole.len() {
        match Chronicle::read(&whole[..length]) {
            Err(Unreadable { place, .. }) => assert_eq!(place, length),
            Ok(_) => assert!(row_ends().contains(&length), "{length} octets were read"),
        }
    }
}

#[test]
fn wrong_octets_are_refused_where_they_stand() {
    let wrong = [
        (1, 1),
        (1, 9),
        (2, 0),
        (2, 3),
        (3, 1),
        (4, 4),
        (5, 3),
        (6, 5),
        (7, 2),
        (9, 1),
        (10, 9),
        (11, 8),
    ];
    for (place, octet) in wrong {
        let mut octets = by_hand();
        octets[place] = octet;
        assert_eq!(Chronicle::read(&octets).map_err(|at| at.place), Err(place), "{octet}");
    }
    let refused = Chronicle::read(&[3, 0]).map_err(|at| at.place);
    assert_eq!(refused, Err(1), "nothing follows a refused load");
}

/// A chronicle with some octets changed, cut out or put in.
fn mutated(chance: &mut impl FnMut(usize) -> usize, mut octets: Vec<u8>) -> Vec<u8> {
    for _ in 0..=chance(3) {
        let place = chance(octets.len().max(1));
        match chance(5) {
            0 => octets.truncate(place),
            1 => octets.insert(place.min(octets.len()), chance(7) as u8),
            2 if place < octets.len() => drop(octets.remove(place)),
            3 if place < octets.len() => octets[place] = chance(256) as u8,
            _ if place < octets.len() => octets[place] = chance(9) as u8,
            _ => (),
        }
    }
    octets
}

/// Whatever the octets are, something is told; what can still be read may be strange.
#[test]
fn mutated_chronicles_end_in_a_text() {
    let mut state = SEED;
    let mut chance = |bound: usize| {
        state = case_seed(state, 1);
        (state >> 16) as usize % bound
    };
    let (mut read, mut refused) = (0, 0);
    for index in 0..4000 {
        let mut evening = made(index % 40);
        evening.records.truncate(12 * evening.record_length());
        let octets = mutated(&mut chance, library::chronicle(&evening));
        match Run::open(&evening, &octets) {
            Ok(_) => read += 1,
            Err(_) => refused += 1,
        }
        assert!(explain(&evening, &octets).ends_with('\n'));
    }
    assert!(read > 100 && refused > 1000, "{read} read, {refused} refused");
}
