//! The form itself, line by line: what each line's octets are, and what is said of a wrong one.

use super::*;

fn evening(group: &[u8], records: &[u8], plan: bool) -> Evening {
    Evening { group: group.to_vec(), records: records.to_vec(), plan }
}

/// What is said of a text that is wrong, a line each.
fn told(text: &str) -> Vec<String> {
    let wrong = read(text.as_bytes()).expect_err(text);
    wrong.iter().map(WrongLine::to_string).collect()
}

fn same_both_ways(text: &str, expected: &Evening) {
    assert_eq!(read(text.as_bytes()).as_ref(), Ok(expected), "{text}");
    assert_eq!(print(expected), text);
}

// ---------------------------------------------------------------- octets

#[test]
fn steps_have_the_octets_of_the_documents() {
    let lines: [(&str, [u8; 6]); 21] = [
        ("send 1A 2A 30", [1, 1, 2, 0, 0, 30]),
        ("send 1A 2B 300", [1, 1, 2, 1, 1, 44]),
        ("send 1B 2A 65535", [1, 1, 2, 2, 255, 255]),
        ("send 9B 255B 0", [1, 9, 255, 3, 0, 0]),
        ("send 3W 0W 5", [1, 3, 0, 4, 0, 5]),
        ("note 1 6 255", [2, 1, 0, 6, 0, 255]),
        ("note 8 31 256", [2, 8, 0, 31, 1, 0]),
        ("begin 1", [3, 1, 0, 0, 0, 0]),
        ("deliver 1 2", [4, 1, 2, 0, 0, 0]),
        ("write 1", [5, 1, 0, 0, 0, 0]),
        ("saved 1", [6, 1, 0, 0, 0, 0]),
        ("fetch 1", [7, 1, 0, 0, 0, 0]),
        ("restored 1", [8, 1, 0, 0, 0, 0]),
        ("fail 3", [10, 3, 0, 0, 0, 0]),
        ("damage 1 2 place 0 pattern 0x0010", [11, 1, 2, 0, 0, 16]),
        ("damage 1 2 place 7 pattern 0xBEEF bits 3 octets 1", [11, 1, 0x12, 0x67, 0xBE, 0xEF]),
        ("damage 1 15 place 31 pattern 0x0000 octets 15", [11, 1, 0xFF, 31, 0, 0]),
        ("lose 1 2 place 0", [12, 1, 2, 0, 0, 0]),
        ("lose 1 255 place 255", [12, 1, 255, 255, 0, 0]),
        ("trip 2", [13, 2, 0, 0, 0, 0]),
        ("unsure 3", [14, 3, 0, 0, 0, 0]),
    ];
    for (line, octets) in lines {
        same_both_ways(&format!("steps\n{line}\n"), &evening(&[], &octets, false));
        let in_a_plan = [&[0], &octets[..], &[0, 0]].concat();
        same_both_ways(&format!("plan\n{line}\n"), &evening(&[], &in_a_plan, true));
    }
}

#[test]
fn steps_that_no_word_fits_stand_as_octets() {
    let lines: [(&str, [u8; 6]); 7] = [
        ("octets 09 01 00 00 00 00", [9, 1, 0, 0, 0, 0]),
        ("octets 00 01 00 00 00 00", [0, 1, 0, 0, 0, 0]),
        ("octets 0F 01 00 00 00 00", [15, 1, 0, 0, 0, 0]),
        ("octets 01 01 02 05 00 01", [1, 1, 2, 5, 0, 1]),
        ("octets 02 01 01 06 00 01", [2, 1, 1, 6, 0, 1]),
        ("octets 03 01 00 00 00 01", [3, 1, 0, 0, 0, 1]),
        ("octets 0C 01 02 00 01 00", [12, 1, 2, 0, 1, 0]),
    ];
    for (line, octets) in lines {
        same_both_ways(&format!("steps\n{line}\n"), &evening(&[], &octets, false));
    }
    same_both_ways(
        "steps\nbegin 1\noctets 03 01\n",
        &evening(&[], &[3, 1, 0, 0, 0, 0, 3, 1], false),
    );
}

#[test]
fn points_and_returns_have_names_of_eight_octets() {
    let lines: [(&str, [u8; 9]); 6] = [
        (r#"point "evening ""#, *b"\x01evening "),
        (r#"return "evening ""#, *b"\x02evening "),
        (r##"point " # \"\\\"  ""##, *b"\x01 # \"\\\"  "),
        (r#"return "\x00\x1F~\x7F\x80\xFF\x0A\x0D""#, *b"\x02\x00\x1F~\x7F\x80\xFF\n\r"),
        ("octets 03 65 76 65 6E 69 6E 67 20", *b"\x03evening "),
        ("octets 00 03 01 00 00 00 00 00 01", [0, 3, 1, 0, 0, 0, 0, 0, 1]),
    ];
    for (line, octets) in lines {
        same_both_ways(&format!("plan\n{line}\n"), &evening(&[], &octets, true));
    }
    same_both_ways("plan\noctets 01 65 76\n", &evening(&[], b"\x01ev", true));
    let typed = "plan\npoint \"Büro 12\"\n";
    assert_eq!(read(typed.as_bytes()), Ok(evening(&[], b"\x01B\xC3\xBCro 12", true)));
}

const TWO_CABINETS: &str = "\
group
cabinet 1 store home 1 partner 3 A 100 B 50 W 20
cabinet 2 home 1 W 65535
link 1 2

steps
";

const TWO_CABINETS_FILE: [u8; 30] = [
    0, 2, 0, 1, 0, 10, 0, 28, 0, 30, //
    1, 1, 0, 100, 0, 50, 0, 20, 3, //
    1, 0, 0, 0, 0, 0, 255, 255, 0, //
    1, 2,
];

#[test]
fn a_group_has_the_octets_of_the_documents() {
    same_both_ways(TWO_CABINETS, &evening(&TWO_CABINETS_FILE, &[], false));
    let of_version_two = TWO_CABINETS.replace("group\n", "group packets 2\n");
    let header = [0, 2, 0, 1, 0, 12, 0, 30, 0, 32, 0, 2];
    let file = [&header[..], &TWO_CABINETS_FILE[10..]].concat();
    same_both_ways(&of_version_two, &evening(&file, &[], false));
    same_both_ways("group\n\nsteps\n", &evening(&[0, 0, 0, 0, 0, 10, 0, 10, 0, 10], &[], false));
}

#[test]
fn an_entry_that_no_word_fits_stands_as_octets_in_its_place() {
    let mut file = TWO_CABINETS_FILE;
    file[11] = 7;
    let text = TWO_CABINETS.replace(
        "cabinet 1 store home 1 partner 3 A 100 B 50 W 20",
        "octets 01 07 00 64 00 32 00 14 03",
    );
    same_both_ways(&text, &evening(&file, &[], false));
}

#[test]
fn a_header_of_its_own_stands_as_octets() {
    let mut file = TWO_CABINETS_FILE;
    file[9] = 31;
    let own = "group\nheader octets 00 02 00 01 00 0A 00 1C 00 1F\n";
    let text = TWO_CABINETS.replace("group\n", own);
    same_both_ways(&text, &evening(&file, &[], false));
    same_both_ways("group\nheader octets 00 02 00\n\nsteps\n", &evening(&[0, 2, 0], &[], false));
}

#[test]
fn what_stands_behind_the_links_is_a_rest() {
    let longer = [&TWO_CABINETS_FILE[..], &[7; 18]].concat();
    let rest = format!("link 1 2\nrest octets{}\nrest octets 07 07\n", " 07".repeat(16));
    let text = TWO_CABINETS.replace("link 1 2\n", &rest);
    same_both_ways(&text, &evening(&longer, &[], false));
}

#[test]
fn a_file_cut_short_keeps_its_whole_entries() {
    let text = "\
group
header octets 00 02 00 01 00 0A 00 1C 00 1E
cabinet 1 store home 1 partner 3 A 100 B 50 W 20
rest octets 01 00 00 00

steps
";
    same_both_ways(text, &evening(&TWO_CABINETS_FILE[..23], &[], false));
}

#[test]
fn empty_files() {
    same_both_ways("steps\n", &evening(&[], &[], false));
    same_both_ways("plan\n", &evening(&[], &[], true));
    let without_records = TWO_CABINETS.replace("\nsteps\n", "");
    let expected = evening(&TWO_CABINETS_FILE, &[], false);
    assert_eq!(read(without_records.as_bytes()), Ok(expected));
}

// ---------------------------------------------------------------- typing

#[test]
fn what_a_hand_may_type() {
    let typed = "\u{FEFF}# heading\r\n\r\n  steps\t# of today\r\n\tsend  1A\t2B 0x1E # thirty\r\n\
                 \t\r\nnote 01 0x6 007\r\noctets 0a 01 00 00 00 00\r\nfail 3#\r\n";
    assert_eq!(told(typed), ["8: expected a cabinet from 0 to 255, found `3#`"]);
    let records = [1, 1, 2, 1, 0, 30, 2, 1, 0, 6, 0, 7, 10, 1, 0, 0, 0, 0];
    let right = typed.replace("fail 3#\r\n", "#fail 3\r");
    assert_eq!(read(right.as_bytes()), Ok(evening(&[], &records, false)));
}

#[test]
fn the_parts_may_come_in_either_order() {
    let turned = format!("plan\nbegin 1\n{}", TWO_CABINETS.replace("\nsteps\n", ""));
    let plan = [0, 3, 1, 0, 0, 0, 0, 0, 0];
    assert_eq!(read(turned.as_bytes()), Ok(evening(&TWO_CABINETS_FILE, &plan, true)));
}

#[test]
fn octets_that_are_no_text() {
    let wrong = |text: &[u8]| read(text).expect_err("octets")[0].to_string();
    assert_eq!(wrong(b"steps\n# \xFF\n"), "2: expected text in UTF-8, found the octet 0xFF");
    assert_eq!(wrong(b"steps\n#\xC3"), "2: expected text in UTF-8, found the octet 0xC3");
    let expected =
        "1: expected text (of files of octets, the folder is named), found the octet 0x00";
    assert_eq!(wrong(&TWO_CABINETS_FILE), expected);
    let lone = "1: expected lines that end in LF or CRLF, found a CR by itself";
    assert_eq!(wrong(b"# old\rsteps\rbegin 1\r"), lone);
}

// ---------------------------------------------------------------- wrong lines

#[test]
fn wrong_numbers_among_records() {
    wrong_in_steps(&[
        ("begin", "a cabinet from 0 to 255, found the end of the line"),
        ("begin 256", "a cabinet from 0 to 255, found `256`"),
        ("begin -1", "a cabinet from 0 to 255, found `-1`"),
        ("begin +1", "a cabinet from 0 to 255, found `+1`"),
        ("begin 99999999999999999999", "a cabinet from 0 to 255, found `99999999999999999999`"),
        ("send 1 2 30", "a cabinet from 0 to 255 and its booking, as 1A, 1B or 1W, found `1`"),
        ("send A 2B 3", "a cabinet from 0 to 255 and its booking, as 1A, 1B or 1W, found `A`"),
        ("send 1A 2W 3", "a cabinet from 0 to 255 and its outlet, as 2A or 2B, found `2W`"),
        ("send 1W 2A 3", "a cabinet from 0 to 255 and its workshop, as 2W, found `2A`"),
        ("send 1A 256B 3", "a cabinet from 0 to 255 and its outlet, as 2A or 2B, found `256B`"),
        ("send 1A 2B 65536", "an amount from 0 to 65535, found `65536`"),
        ("note 1 256 0", "an octet's number from 0 to 255, found `256`"),
        ("note 1 6 0x10000", "a value from 0 to 65535, found `0x10000`"),
        ("damage 1 16 place 0 pattern 1", "a cabinet from 0 to 15, found `16`"),
        ("damage 1 2 place 32 pattern 1", "a place from 0 to 31, found `32`"),
        ("damage 1 2 place 0 pattern 1 bits 8", "a shift from 0 to 7, found `8`"),
        ("damage 1 2 place 0 pattern 1 octets 16", "a shift from 0 to 15, found `16`"),
        ("begin \"1\"", "a cabinet from 0 to 255, found `\"1\"`"),
    ]);
}

#[test]
fn wrong_words_among_records() {
    wrong_in_steps(&[
        ("begin 1 2", "the end of the line, found `2`"),
        ("send 1A 2B 3 4", "the end of the line, found `4`"),
        ("damage 1 2 pattern 1", "`place`, found `pattern`"),
        ("damage 1 2 place 0", "`pattern`, found the end of the line"),
        (
            "damage 1 2 place 0 pattern 1 bit 1",
            "`bits`, `octets` or the end of the line, found `bit`",
        ),
        ("damage 1 2 place 0 pattern 1 octets 1 bits 1", "the end of the line, found `bits`"),
        ("lose 1 2", "`place`, found the end of the line"),
        ("octets", "an octet of two digits from 00 to FF, found the end of the line"),
        ("octets 1", "an octet of two digits from 00 to FF, found `1`"),
        ("octets 0x01", "an octet of two digits from 00 to FF, found `0x01`"),
        ("octets +1", "an octet of two digits from 00 to FF, found `+1`"),
        ("octets 01 02 03 04 05 06 07", "at most 6 octets, found 7"),
        ("point \"evening \"", "a step (points and returns stand in a `plan`), found `point`"),
        ("return \"evening \"", "a step (points and returns stand in a `plan`), found `return`"),
        ("begin\u{A0}1", KINDS_EXPECTED),
    ]);
}

fn wrong_in_steps(cases: &[(&str, &str)]) {
    for (line, expected) in cases {
        let told = told(&format!("steps\nbegin 1\n{line}\nbegin 1\n"));
        assert_eq!(told, [format!("3: expected {expected}")], "{line}");
    }
}

const KINDS_EXPECTED: &str = "`send`, `note`, `begin`, `deliver`, `write`, `saved`, `fetch`, \
    `restored`, `fail`, `damage`, `lose`, `trip`, `unsure` or `octets`, found `begin\\u{a0}1`";

#[test]
fn wrong_lines_in_a_plan() {
    let cases = [
        ("point", "a name of 8 octets in quotes, found the end of the line"),
        ("point evening", "a name of 8 octets in quotes, found `evening`"),
        ("point \"evening\"", "a name of 8 octets in quotes, found one of 7"),
        ("point \"evening ü\"", "a name of 8 octets in quotes, found one of 10"),
        ("point \"evening ", "a quote at the name's end, found the end of the line"),
        ("point \"evening \" x", "the end of the line, found `x`"),
        ("point \"evening \"x", "a space behind the name, found `x`"),
        ("point \"evening\\n\"", "\\\\, \\\" or \\x and two digits, found `\\n\"`"),
        ("point \"evenin\\x2\"", "\\\\, \\\" or \\x and two digits, found `\\x2\"`"),
        ("octets 00 01 02 03 04 05 06 07 08 09", "at most 9 octets, found 10"),
        ("\"evening \"", PLAN_EXPECTED),
    ];
    for (line, expected) in cases {
        let told = told(&format!("plan\nbegin 1\n{line}\nbegin 1\n"));
        assert_eq!(told, [format!("3: expected {expected}")], "{line}");
    }
}

const PLAN_EXPECTED: &str = "`send`, `note`, `begin`, `deliver`, `write`, `saved`, `fetch`, \
    `restored`, `fail`, `damage`, `lose`, `trip`, `unsure`, `point`, `return` or `octets`, \
    found `\"evening \"`";

#[test]
fn a_short_record_can_only_be_the_last() {
    let text = "steps\noctets 01\n# a comment\n\noctets 02 03\nbegin 1\n";
    let expected = "2: expected 6 octets, as only the last record may have fewer, found 1";
    assert_eq!(told(text)[0], expected);
    let text = "plan\nbegin 1\noctets 00 01 02 03 04 05\nbegin 1\n";
    let expected = "3: expected 9 octets, as only the last record may have fewer, found 6";
    assert_eq!(told(text), [expected]);
}

#[test]
fn wrong_lines_in_a_group() {
    let cases = [
        ("cabinet", "2, cabinets being in order from 1, found the end of the line"),
        ("cabinet 3 home 1", "2, cabinets being in order from 1, found `3`"),
        ("cabinet 1 home 1", "2, cabinets being in order from 1, found `1`"),
        ("cabinet 2", "`store` or `home`, found the end of the line"),
        ("cabinet 2 shop home 1", "`store` or `home`, found `shop`"),
        ("cabinet 2 store", "`home`, found the end of the line"),
        ("cabinet 2 home", "a cabinet from 0 to 255, found the end of the line"),
        ("cabinet 2 home 256", "a cabinet from 0 to 255, found `256`"),
        ("cabinet 2 home 1 partner 256", "a cabinet from 0 to 255, found `256`"),
        ("cabinet 2 home 1 A 65536", "a booking from 0 to 65535, found `65536`"),
        ("cabinet 2 home 1 A -1", "a booking from 0 to 65535, found `-1`"),
        ("cabinet 2 home 1 a 1", "`partner`, `A`, `B`, `W` or the end of the line, found `a`"),
        ("cabinet 2 home 1 B 1 A 1", "`W` or the end of the line, found `A`"),
        ("cabinet 2 home 1 B 1 B 1", "`W` or the end of the line, found `B`"),
        ("octets 01 02", "9 octets, those of a cabinet's entry, found 2"),
        ("header octets 01", "`header` right behind a plain `group` alone, found it elsewhere"),
        ("begin 1", GROUP_EXPECTED),
    ];
    for (line, expected) in cases {
        let told = told(&format!("group\ncabinet 1 home 1\n{line}\nlink 1 2\n"));
        assert_eq!(told, [format!("3: expected {expected}")], "{line}");
    }
}

const GROUP_EXPECTED: &str =
    "`cabinet`, `link`, `octets`, `header`, `rest`, `steps` or `plan`, found `begin`";

#[test]
fn wrong_order_in_a_group() {
    let behind_links = "`link`, `rest`, `steps` or `plan` behind the links";
    let cases = [
        ("link 1", "a cabinet from 0 to 255, found the end of the line".into()),
        ("link 1 2 3", "the end of the line, found `3`".into()),
        ("cabinet 2 home 1", format!("{behind_links}, found `cabinet`")),
        ("octets 01 01 00 00 00 00 00 00 00", format!("{behind_links}, found `octets`")),
        ("rest", "`octets`, found the end of the line".into()),
    ];
    for (line, expected) in cases {
        let told = told(&format!("group\ncabinet 1 home 1\nlink 1 2\n{line}\n"));
        assert_eq!(told, [format!("4: expected {expected}")], "{line}");
    }
    let text = "group\nheader octets 00\nrest octets 01\nlink 1 2\n";
    assert_eq!(told(text), ["4: expected `rest`, `steps` or `plan`, found `link`"]);
    let header = "`header` right behind a plain `group` alone, found it elsewhere";
    assert_eq!(told("group packets 2\nheader octets 00\n"), [format!("2: expected {header}")]);
}

#[test]
fn wrong_headings() {
    let first = "`group`, `steps` or `plan`";
    let cases = [
        ("", format!("1: expected {first}, found the end of the text")),
        ("# nothing\n\n", format!("3: expected {first}, found the end of the text")),
        ("cabinet 1 home 1\nlink 1 2\n", format!("1: expected {first}, found `cabinet`")),
        ("grup\ncabinet 1 home 1\n", format!("1: expected {first}, found `grup`")),
        ("group 2\n", "1: expected `packets` or the end of the line, found `2`".into()),
        ("plan 2\nbegin 1\n", "1: expected the end of the line, found `2`".into()),
        ("group packets 3\n", "1: expected 1 or 2, found `3`".into()),
        ("group packets\n", "1: expected 1 or 2, found the end of the line".into()),
        ("steps 1\n", "1: expected the end of the line, found `1`".into()),
        ("group\n\ngroup\n", "3: expected one group part, found a second `group`".into()),
        ("steps\nplan\nreturn \"evening \"\n", TWO_LISTS.into()),
    ];
    for (text, expected) in cases {
        assert_eq!(told(text), [expected], "{text}");
    }
}

const TWO_LISTS: &str =
    "2: expected one part with `steps` or `plan`, found `plan` behind another one";

#[test]
fn every_wrong_line_is_told() {
    let text = "group\ncabinet 1 hme 1\ncabinet 2 home 1\nlink 1\n\nsteps\nbegn 1\nbegin 1\nfail\n";
    let wrong = read(text.as_bytes()).expect_err(text);
    let lines: Vec<usize> = wrong.iter().map(|wrong| wrong.line).collect();
    assert_eq!(lines, [2, 4, 7, 9]);
}

#[test]
fn not_more_than_ten_wrong_lines_are_told() {
    let wrong = read("x\n".repeat(3).as_bytes()).expect_err("one heading that is none");
    assert_eq!(wrong.len(), 1);
    let wrong = read(format!("steps\n{}", "x\n".repeat(100)).as_bytes()).expect_err("steps");
    assert_eq!((wrong.len(), wrong[9].line), (10, 11));
}

#[test]
fn a_group_too_long_for_its_header() {
    let cabinets: String = (1..=7281).map(|i| format!("cabinet {i} home 1\n")).collect();
    let expected = "7282: expected at most 65535 octets in a group file, found 65539";
    assert_eq!(told(&format!("group\n{cabinets}")), [expected]);
    let fewer = cabinets.replace("cabinet 7281 home 1\n", "");
    assert_eq!(read(format!("group\n{fewer}").as_bytes()).map(|e| e.group.len()), Ok(65530));
}
