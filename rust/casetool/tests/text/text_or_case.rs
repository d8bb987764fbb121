//! `check`, `settle`, `working` and `line` of a text: what is one and what is a case file, `--as`, and the line and the column
//! of a refusal. A text gives what the case file gives that `write` makes of it.

use cases::Random;
use cases::generator::any_case_in;

use crate::support::{
    Ran, casetool, casetool_in_both, casetool_where, file_with, in_turn, repository, written,
};

const WORKING: [&str; 5] = ["working", "--event", "0", "--hour", "0"];
const MONEY: [&str; 3] = ["working", "--event", "0"];
const EXPLAINED: [&str; 2] = ["settle", "--explain"];

fn example(name: &str) -> Vec<u8> {
    std::fs::read(repository(&format!("examples/{name}"))).expect("an example")
}

/// What a command says, on either output.
fn said(ran: &Ran) -> String {
    [ran.text(), ran.errors.as_str()].concat()
}

#[test]
fn a_text_and_the_file_of_it_give_the_same() {
    let text = example("two-plants.txt");
    let case = casetool_in_both(&["write"], &text).output;
    for arguments in [
        &["settle"][..],
        &["check"],
        &WORKING,
        &MONEY,
        &EXPLAINED,
        &["line"],
    ] {
        let of_text = casetool_in_both(arguments, &text);
        assert_eq!((of_text.status, of_text.errors.as_str()), (0, ""));
        assert_eq!(of_text, casetool_in_both(arguments, &case));
        let as_text = [arguments, &["--as", "text"]].concat();
        assert_eq!(of_text, casetool_in_both(&as_text, &text));
        let as_case = [arguments, &["--as", "case"]].concat();
        assert_eq!(of_text, casetool_in_both(&as_case, &case));
    }
}

#[test]
fn generated_cases_as_text() {
    let mut random = Random::new(731);
    let (mut settled, mut copies) = (0, 0);
    for place in 0..150 {
        let input = any_case_in(in_turn(place), &mut random).input();
        let has_copy = input.version_2_copy().is_some();
        let shown = casetool_where(has_copy, &["show"], &input.file);
        let case = casetool_where(has_copy, &["settle"], &input.file);
        let text = casetool_where(has_copy, &["settle", "--allow-empty"], &shown.output);
        assert_eq!((text.status, &text.output), (case.status, &case.output));
        settled += usize::from(text.status == 0);
        copies += usize::from(has_copy);
    }
    println!("{settled} cases as text, {copies} copies");
    assert!(settled == 150 && copies > 50);
}

#[test]
fn what_a_text_is() {
    let good = written("unit 12 group 7 capability 1 MW");
    for (bytes, is_text) in [
        (&b"unit 12 group 7 capability 1 MW"[..], true),
        (b"\n", true),
        (b"\x01\x02", true),
        ("\u{feff}# caf\u{e9}\n".as_bytes(), true),
        (b"", false),
        (b"unit 12\0", false),
        (b"unit 12 \xE9", false),
        (&good, false),
    ] {
        let ran = casetool(&["check"], bytes);
        let as_text = casetool(&["check", "--as", "text"], bytes);
        let as_case = casetool(&["check", "--as", "case"], bytes);
        assert_eq!(ran, if is_text { as_text } else { as_case }, "{bytes:?}");
    }
    // What has a zero byte, or is no UTF-8, is no text, where it is said to be one.
    for (bytes, column, byte) in [
        (&b"unit 12\0"[..], 8, 0),
        (b"unit 12 \xE9", 9, 233),
        (&good, 2, 0),
    ] {
        let ran = casetool(&["check", "--as", "text"], bytes);
        let message = format!(
            "casetool: standard input: line 1, column {column}: byte {byte} is no text: a case as text is UTF-8 (is this a case file?)\n"
        );
        assert_eq!((ran.status, ran.errors), (1, message));
    }
}

const CASE_HINT: &str = "this file looks like text: casetool write makes a case file of it\n";
const CORRECTION_HINT: &str =
    "the correction looks like text: casetool write --correction makes a correction of it\n";

#[test]
fn a_text_given_as_a_case_file() {
    let example = example("two-plants.txt");
    for text in [
        b"unit 12".to_vec(),
        b"# caf\xC3\xA9\n".repeat(9),
        "\u{feff}unit 12 group 7 capability 500.0 MW\r\n"
            .as_bytes()
            .to_vec(),
        example.repeat(40),
        example,
    ] {
        for arguments in [
            &["check", "--as", "case"][..],
            &["settle", "--as", "case"],
            &["show"],
        ] {
            let ran = casetool(arguments, &text);
            let said = said(&ran);
            assert_eq!((ran.status, said.ends_with(CASE_HINT)), (1, true), "{said}");
        }
    }
    let reference = "reference unit 12 component energy value $1.00\n";
    let ran = casetool(&["show", "--correction"], reference.as_bytes());
    assert_eq!(
        (ran.status, ran.errors),
        (
            1,
            format!(
                "casetool: standard input: no correction: it has 47 bytes; expected a multiple of 8, at most 2,048, or a multiple of 12, at most 3,072, in version 2\n{CORRECTION_HINT}"
            )
        )
    );
    // Bytes that are no text get no hint.
    let case = written("unit 12 group 7 capability 1 MW");
    let path = file_with("text-or-case.no-text", &[0; 7]);
    for file in [&[][..], &[0xC3; 40], &case] {
        let ran = casetool(&["check", "--correction", &path], file);
        assert_eq!((ran.status, ran.text().contains("looks like")), (1, false));
    }
}

#[test]
fn a_text_in_another_code_is_named() {
    // As Windows-1252 and the like have it.
    let text = b"unit 12 group 7 capability 500.0 MW\n# caf\xE9\n";
    for command in ["check", "settle", "show"] {
        let ran = casetool(&[command], text);
        let hint = "this file looks like text, but line 2, column 6 is no UTF-8\n";
        assert_eq!((ran.status, said(&ran).ends_with(hint)), (1, true));
    }
    let case = file_with("text-or-case.code", b"unit 12 group 7 capability 1");
    let arguments = ["check", &case, "--allow-empty", "--correction", "-"];
    let ran = casetool(
        &arguments,
        b"reference unit 12 component energy value $1 # \xE9",
    );
    let hint = "the correction looks like text, but line 1, column 47 is no UTF-8\n";
    assert_eq!((ran.status, ran.text().ends_with(hint)), (1, true));
}

/// A text in UTF-16, with its byte order mark or without.
fn utf_16(text: &str, mark: bool, bytes: fn(u16) -> [u8; 2]) -> Vec<u8> {
    let mark = mark.then_some(0xFEFF);
    mark.into_iter()
        .chain(text.encode_utf16())
        .flat_map(bytes)
        .collect()
}

#[test]
fn utf_16_is_named() {
    let text = "unit 12 group 7 capability 500.0 MW\r\n";
    for mark in [true, false] {
        for (bytes, name) in [
            (
                utf_16(text, mark, u16::to_le_bytes),
                "UTF-16, little-endian",
            ),
            (utf_16(text, mark, u16::to_be_bytes), "UTF-16, big-endian"),
        ] {
            let message = format!(
                "casetool: standard input: line 1, column 1: this is {name}: a case as text is UTF-8\n"
            );
            for arguments in [&["write"][..], &["check", "--as", "text"]] {
                let ran = casetool(arguments, &bytes);
                assert_eq!((ran.status, ran.errors.as_str()), (1, message.as_str()));
            }
            for command in ["check", "settle", "show"] {
                let ran = casetool(&[command], &bytes);
                let hint = format!("this file looks like text in {name}: it has to be UTF-8\n");
                assert!(said(&ran).contains("refused 2: ") && said(&ran).ends_with(&hint));
                assert_eq!(ran.status, 1);
            }
        }
    }
    let case = file_with("text-or-case.utf-16", text.as_bytes());
    let correction = utf_16(
        "reference unit 12 component energy value $1\n",
        true,
        u16::to_le_bytes,
    );
    let ran = casetool(
        &["check", &case, "--allow-empty", "--correction", "-"],
        &correction,
    );
    let hint = "the correction looks like text in UTF-16, little-endian: it has to be UTF-8\n";
    assert_eq!((ran.status, ran.text().ends_with(hint)), (1, true));
}

/// That a text is refused with this number, and where: the line after the number's. The file is the test's own, since tests
/// run side by side.
fn refused(file: &str, number: u8, text: &str, place: &str) {
    let path = file_with(&format!("text-or-case.{file}"), text.as_bytes());
    for arguments in [
        &["check"][..],
        &["settle"],
        &WORKING,
        &MONEY,
        &EXPLAINED,
        &["line"],
    ] {
        let ran = casetool_in_both(&[arguments, &[&path]].concat(), b"");
        let said = said(&ran).replace(&path, "FILE");
        let said = said.trim_start_matches("casetool: ");
        assert_eq!(ran.status, 1, "{said}");
        assert!(said.starts_with(&format!("refused {number}: ")), "{said}");
        assert_eq!(said.lines().nth(1), Some(place));
        assert_eq!(said.lines().count(), 2);
    }
}

const UNITS: &str = "# the plants\nunit 13 group 7 area no capability 1,500.0 MW\nunit 12 group 7 area no capability 500MW # late\n";
const WITHHELD: &str = "event day 8000 kind withheld market DAM period 44 impact yes unit";

#[test]
fn a_refusal_of_a_record_has_its_line_and_column() {
    for (number, text, place) in [
        (
            6,
            format!("{UNITS}unit 9 group 7 area 2 capability 1\n{WITHHELD} 12\n"),
            "FILE: line 4, column 21: units, record 0 (unit 9): area is 2; expected 0 or 1",
        ),
        (
            7,
            format!("{UNITS}  reference component energy unit 99 value 3\n{WITHHELD} 12\n"),
            "FILE: line 4, column 35: references, record 0 (unit 99, energy): unit is 99; no unit of this number is listed",
        ),
        (
            9,
            format!(
                "{UNITS}past group 7 kind dispatch market RTM period 44 day 8000\n{WITHHELD} 12"
            ),
            "FILE: line 4, column 19: past, record 0 (group 7, dispatch, Real-Time): kind is 2 (dispatch); expected 1 (withheld) or 3 (fuel)",
        ),
    ] {
        refused("record", number, &text, place);
    }
}

#[test]
fn a_refusal_of_an_event_has_its_line_and_column() {
    for (number, text, place) in [
        (
            10,
            format!("{UNITS}{WITHHELD} 12\nhours 3, 4 withheld 1 price $-10,000.01"),
            "FILE: line 5, column 29: event 0 (day 8000, withheld, Day-Ahead, unit 12), hour 3: b (price) is -1,000,001 (-$10,000.01); expected -1,000,000 (-$10,000.00) to 1,000,000 ($10,000.00)",
        ),
        (
            6,
            format!("order as-written\n{WITHHELD} 12\n{UNITS}"),
            "FILE: line 5, column 6: units, record 1 (unit 12): unit number is 12, after 13; unit numbers have to rise strictly",
        ),
        (
            12,
            format!("{UNITS}{WITHHELD} 99"),
            "FILE: line 4, column 67: event 0 (day 8000, withheld, Day-Ahead, unit 99): unit is 99; no unit of this number is listed",
        ),
        (
            13,
            format!("{UNITS}{WITHHELD} 13\nhour 8 price 0 withheld 1,500.1MW\n{WITHHELD} 12"),
            "FILE: line 5, column 25: event 1 (day 8000, withheld, Day-Ahead, unit 13), hour 8: a (withheld) is 15,001 (1,500.1 MW); expected at most the capability, 15,000 (1,500.0 MW)",
        ),
        (
            14,
            format!(
                "{UNITS}event component energy day 8000 kind bids market DAM unit 12 period 44 impact-hours none"
            ),
            "FILE: line 4, column 17: event 0 (day 8000, bids, Day-Ahead, unit 12, energy): the references have none for unit 12, component energy",
        ),
    ] {
        refused("event", number, &text, place);
    }
}

#[test]
fn a_field_that_was_left_out_has_the_line_of_its_record() {
    // Two equal events are told apart by no field: the last that they have in common is the component, which is not there.
    let events = format!("{WITHHELD} 12\n  {WITHHELD} 12\n");
    refused(
        "left-out",
        11,
        &format!("order as-written\nunit 12 group 7 area no capability 1\n{events}"),
        "FILE: line 4, column 3: event 1 (day 8000, withheld, Day-Ahead, unit 12): the same as event 0; events have to rise strictly by day, kind, market, unit, component",
    );
}

#[test]
fn a_refusal_of_a_day_or_a_period_has_its_line_and_column() {
    let past = |day: u32, period: u16| {
        format!("past group 7 kind fuel market RTM day {day} period {period}\n")
    };
    for (number, text, place) in [
        (
            19,
            format!("{UNITS}{} 12\n", WITHHELD.replace("44", "43")),
            "FILE: line 4, column 48: event 0 (day 8000, withheld, Day-Ahead, unit 12): period is 43; expected 44, that of day 8000 (26 November 2021)",
        ),
        (
            19,
            format!("{UNITS}{}{}{WITHHELD} 12\n", past(7974, 43), past(7975, 43)),
            "FILE: line 5, column 51: past, record 1 (group 7, fuel, Real-Time): period is 43; expected 44, that of day 7975 (1 November 2021)",
        ),
        (
            18,
            format!("{UNITS}{}{WITHHELD} 12\n", past(36_525, 200)),
            "FILE: line 4, column 39: past, record 0 (group 7, fuel, Real-Time): day is 36,525 (1 January 2100); expected 0 to 36,524 (31 December 2099)",
        ),
        (
            18,
            format!("{UNITS}{} 12\n", WITHHELD.replace("8000", "2100-01-01")),
            "FILE: line 4, column 11: event 0 (day 36525, withheld, Day-Ahead, unit 12): day is 36,525 (1 January 2100); expected 0 to 36,524 (31 December 2099)",
        ),
    ] {
        refused("day", number, &text, place);
    }
}

#[test]
fn a_correction_as_text() {
    let case = file_with("text-or-case.case", &example("two-plants.txt"));
    let text = file_with(
        "text-or-case.correction",
        &example("two-plants-correction.txt"),
    );
    let bytes = casetool_in_both(&["write", "--correction", &text], b"").output;
    let of_text = casetool_in_both(&["settle", &case, "--correction", &text], b"");
    let of_file = casetool_in_both(&["settle", &case, "--correction", "-"], &bytes);
    assert_eq!((of_text.status, of_text.errors.as_str()), (0, ""));
    assert_eq!(
        of_text.text().replace(&text, "standard input"),
        of_file.text()
    );
    assert!(
        of_text
            .text()
            .starts_with(&format!("Correction: {text}, 3 references\n"))
    );
    // Its mistakes, and what it lacks, have its own lines.
    let ran = casetool_in_both(
        &["settle", &case, "--correction", "-"],
        b"\nreference unit 12 component energy value $30.00\nreference unit 13 component energy value x",
    );
    let message = "casetool: standard input: line 3, column 42, 'x': expected dollars with at most two decimals, such as $40.00\n";
    assert_eq!((ran.status, ran.errors.as_str()), (1, message));
    let ran = casetool(
        &["check", &case, "--correction", "-"],
        b"# one\nreference unit 13 component energy value 10000.01\nreference unit 12 component energy value 3",
    );
    let place = "standard input: line 2, column 42: correction, record 1 (unit 13, energy): value is 1,000,001 ($10,000.01); expected 0 ($0.00) to 1,000,000 ($10,000.00)";
    assert_eq!((ran.status, ran.text().lines().nth(1)), (1, Some(place)));
    // A text without a reference corrects nothing.
    let ran = casetool_in_both(&["settle", &case, "--correction", "-"], b"# none\n");
    let message = "casetool: --correction standard input: it is empty, and corrects nothing; see casetool settle --help\n";
    assert_eq!((ran.status, ran.errors.as_str()), (2, message));
}

#[test]
fn write_still_writes_what_is_refused() {
    let text = format!("{UNITS}unit 9 group 7 area 2 capability 1\n{WITHHELD} 12\n");
    let ran = casetool_in_both(&["write"], text.as_bytes());
    assert_eq!((ran.status, ran.errors.as_str()), (0, ""));
    let checked = casetool_in_both(&["check"], &ran.output);
    assert_eq!(
        checked.text().lines().nth(1),
        Some("units, record 0 (unit 9): area is 2; expected 0 or 1")
    );
}
