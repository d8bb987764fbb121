//! Capability periods of a text: one that is left out is its day's, and one that is not its day's is warned of with both
//! numbers, and written.

mod support;

use attachment_h::layout::{Section, Sections, Version, u16_at, u32_at};
use attachment_h::period_of;
use cases::Random;
use cases::generator::any_case_in;
use casetool::text::show::case_text;
use casetool::text::write::case_file;
use support::{casetool, casetool_in_both, file_with, in_turn, written, written_and_warned_of};

const UNIT: &str = "unit 12 group 7 area no capability 500.0 MW response-rate 10.0 MW/min\n";

/// A past entry of a day, with more words on its line.
fn past(day: &str, more: &str) -> String {
    format!("past group 7 kind fuel market day-ahead day {day}{more}\n")
}

/// An event of a day, with more words on its line.
fn event(day: &str, more: &str) -> String {
    format!("event day {day} kind withheld market day-ahead unit 12 impact 0{more}\n")
}

/// The days and the periods of the past entries and the events of a file.
fn days_and_periods(file: &[u8]) -> Vec<(u32, u16)> {
    let sections = Sections::of(file).expect("sections");
    let of = |section| sections.records(section).collect::<Vec<&[u8]>>();
    let records = [of(Section::Past), of(Section::Events)].concat();
    let both = |record: &&[u8]| (u32_at(record, 8), u16_at(record, 4));
    records.iter().map(both).collect()
}

/// Days next to the first days of periods, each with its period.
const DAYS: [(&str, u32, u16); 8] = [
    ("2000-01-01", 0, 0),
    ("2000-04-30", 120, 0),
    ("2000-05-01", 121, 1),
    ("2000-10-31", 304, 1),
    ("2000-11-01", 305, 2),
    ("2021-10-31", 7974, 43),
    ("2021-11-01", 7975, 44),
    ("2099-12-31", 36_524, 200),
];

#[test]
fn a_period_that_is_left_out_is_its_days() {
    for (date, day, period) in DAYS {
        for word in [date, &day.to_string()] {
            let left_out = [UNIT, &past(word, ""), &event(word, "")].concat();
            let more = format!(" period {period}");
            let with_it = [UNIT, &past(word, &more), &event(word, &more)].concat();
            let file = written(&left_out);
            assert_eq!(file, written(&with_it), "{word}");
            assert_eq!(days_and_periods(&file), [(day, period); 2]);
            // It is shown, and what is shown gives the same file.
            let shown = casetool_in_both(&["show"], &file);
            assert_eq!(shown.text().matches(&more).count(), 2);
            assert_eq!(written(shown.text()), file);
        }
    }
}

#[test]
fn on_every_day() {
    let days: Vec<u32> = (0..36_525).collect();
    for (place, days) in days.chunks(256).enumerate() {
        let version = in_turn(place).number();
        let lines = days.iter().map(|day| past(&day.to_string(), ""));
        let text = format!("version {version}\n{}", lines.collect::<String>());
        let expected: Vec<_> = days.iter().map(|&day| (day, period_of(day))).collect();
        let found = days_and_periods(&written(&text));
        let found: Vec<_> = found.iter().map(|&(day, own)| (day, Ok(own))).collect();
        assert_eq!(found, expected);
    }
}

/// A line without its key period, if it has one.
fn without_period(line: &str) -> String {
    let Some((before, after)) = line.split_once(" period ") else {
        return line.to_string();
    };
    let rest = after.find(' ').map_or("", |end| &after[end..]);
    format!("{before}{rest}")
}

#[test]
fn generated_cases_without_their_periods() {
    let mut random = Random::new(791);
    let (mut cases, mut left_out) = (0, 0);
    for place in 0..100 {
        for input in any_case_in(in_turn(place), &mut random).input().with_copy() {
            let text = case_text(&Sections::of(&input.file).expect("an accepted case"));
            let lines: Vec<String> = text.lines().map(without_period).collect();
            let again = case_file(lines.join("\n").as_bytes()).expect("a text");
            assert!(again.bytes == input.file, "another file of\n{text}");
            left_out += text.matches(" period ").count();
            cases += 1;
        }
    }
    println!("{cases} cases, {left_out} periods left out");
    assert!(cases > 130 && left_out > 3_000);
}

#[test]
fn of_every_kind() {
    for kind in [
        "past group 7 kind withheld market real-time",
        "past group 7 kind fuel market day-ahead",
        "event unit 12 kind withheld market day-ahead impact 0",
        "event unit 12 kind dispatch market real-time impact 0",
        "event unit 12 kind fuel market real-time inaccurate-hours none guarantee-change 0",
        "event unit 12 kind bids market day-ahead component start-up-cost impact-hours none",
        "event unit 12 kind 0 market 255",
    ] {
        let file = written(&format!("{UNIT}{kind} day 2021-11-26"));
        assert_eq!(days_and_periods(&file), [(8000, 44)], "{kind}");
    }
}

#[test]
fn the_help_has_a_text_without_them() {
    let short = casetool(&["--help"], b"");
    let sentence = "and so does a capability period that a text leaves out";
    assert!(short.text().replace('\n', " ").contains(sentence));
    let long = casetool(&["write", "--help"], b"");
    let sentence = "The key period may be left out: the capability period is then that of the day";
    assert!(long.text().replace('\n', " ").contains(sentence));
    let (_, rest) = long.text().split_once("comment:\n\n").expect("a text");
    let (text, _) = rest.split_once("\n\n").expect("its end");
    assert_eq!(text.lines().count(), 5);
    assert_eq!(days_and_periods(&written(text)), [(7800, 43), (8000, 44)]);
}

/// That a text is turned away with these messages, in words and as JSON.
fn wrong(text: &str, messages: &[&str]) {
    let line = |message: &&str| format!("casetool: standard input: {message}\n");
    let said: String = messages.iter().map(line).collect();
    for command in ["write", "check", "settle"] {
        let ran = casetool_in_both(&[command], text.as_bytes());
        assert_eq!((ran.status, ran.output.len()), (1, 0), "{text}");
        assert_eq!(ran.errors, said, "{text}");
    }
    let ran = casetool_in_both(&["check", "--format", "json"], text.as_bytes());
    assert!(ran.text().contains("\"answer\": \"mistakes\""));
    assert_eq!(ran.text().matches("\"problem\"").count(), messages.len());
}

#[test]
fn a_day_in_no_period_needs_one_that_is_written() {
    let last = "is after day 36524 (31 December 2099), the last in a capability period: expected an earlier day, or the key period";
    for (day, spoken) in [
        ("36525", "day 36525 (1 January 2100)"),
        ("2100-01-01", "day 36525 (1 January 2100)"),
        ("1000001", "day 1000001 (29 November 4737)"),
        ("4294967295", "day 4294967295 (19 January 11761221)"),
    ] {
        let problem = format!("'{day}': {spoken} {last}");
        wrong(
            &[UNIT, &event(day, "")].concat(),
            &[&format!("line 2, column 11, {problem}")],
        );
        wrong(
            &[UNIT, &past(day, ""), &event("8000", "")].concat(),
            &[&format!("line 2, column 45, {problem}")],
        );
    }
    // Beside another mistake of the line, and in an event whose kind is none.
    wrong(
        &[UNIT, &event("36525", " impact 1")].concat(),
        &[
            &format!("line 2, column 11, '36525': day 36525 (1 January 2100) {last}"),
            "line 2, column 65, 'impact': this key is there twice",
        ],
    );
    wrong(
        &[UNIT, "event day 36525 market day-ahead unit 12"].concat(),
        &[
            &format!("line 2, column 11, '36525': day 36525 (1 January 2100) {last}"),
            "line 2, column 41: expected the key kind",
        ],
    );
}

#[test]
fn without_a_day_there_is_no_period() {
    let day = "expected a day number, from 0 on 1 January 2000, or a date such as 2021-11-26";
    for (text, message) in [
        (
            "event kind withheld market day-ahead unit 12 impact 0",
            "line 2, column 54: expected the key day".to_string(),
        ),
        (
            "past group 7 kind fuel market day-ahead",
            "line 2, column 40: expected the key day".to_string(),
        ),
        (
            "past group 7 kind fuel market day-ahead day x",
            format!("line 2, column 45, 'x': {day}"),
        ),
        (
            "past group 7 kind fuel market day-ahead day 4294967296",
            "line 2, column 45, '4294967296': too large: expected 0 to 1,000,000".to_string(),
        ),
        (
            "past group 7 kind fuel market day-ahead date 40000",
            "line 2, column 41, 'date': did you mean day?".to_string(),
        ),
    ] {
        wrong(&[UNIT, text].concat(), &[&message]);
    }
}

#[test]
fn a_period_that_was_meant_is_not_left_out() {
    for (text, message) in [
        (
            "past group 7 kind fuel market day-ahead day 40000 season 266",
            "line 2, column 51, 'season': did you mean period?",
        ),
        (
            "past group 7 kind fuel market day-ahead day 40000 period",
            "line 2, column 57: expected a value for period",
        ),
        (
            "past group 7 kind fuel market day-ahead day 40000 period x",
            "line 2, column 58, 'x': expected a whole number",
        ),
    ] {
        wrong(&[UNIT, text].concat(), &[message]);
    }
}

#[test]
fn a_period_that_is_not_its_days_is_warned_of_and_written() {
    let good = written(&[UNIT, &event("8000", " period 44")].concat());
    let wrong = [UNIT, &event("2021-11-26", " period 43")].concat();
    let ran = casetool_in_both(&["write"], wrong.as_bytes());
    assert_eq!(
        (ran.status, ran.errors.as_str()),
        (
            0,
            "casetool: warning: standard input: line 2, column 77, '43': day 8000 (26 November 2021) is in capability period 44; 43 is written, and a case with it is refused\n"
        )
    );
    let mut expected = good;
    let at = expected.len() - Section::Events.width(Version::One) + 4;
    assert_eq!(expected[at..at + 2], [44, 0]);
    expected[at] = 43;
    assert_eq!(ran.output, expected);
}

#[test]
fn past_entries_and_events_each_with_their_line() {
    let text = [
        UNIT.to_string(),
        past("2021-04-30", " period 43"),
        past("2021-04-30", " period 42"),
        past("2021-10-31", " period 44"),
        event("2021-10-31", " period 43"),
        event("2021-11-01", " period 43"),
        event("36524", " period 200"),
        event("36525", " period 200"),
        past("1000000", " period 5476"),
    ]
    .concat();
    let path = file_with("periods.txt", text.as_bytes());
    let case = file_with("periods.case", b"");
    let to_file = casetool(&["write", &path, "-o", &case], b"");
    let ran = casetool_in_both(&["write", &path], b"");
    let expected: String = [
        "line 2, column 63, '43': day 7790 (30 April 2021) is in capability period 42; 43 is written",
        "line 4, column 63, '44': day 7974 (31 October 2021) is in capability period 43; 44 is written",
        "line 6, column 77, '43': day 7975 (1 November 2021) is in capability period 44; 43 is written",
        "line 8, column 11, '36525': day 36525 (1 January 2100) is after day 36524 (31 December 2099), the last in a capability period; it is written",
        "line 9, column 45, '1000000': day 1000000 (28 November 4737) is after day 36524 (31 December 2099), the last in a capability period; it is written",
    ]
    .iter()
    .map(|warning| format!("casetool: warning: {path}: {warning}, and a case with it is refused\n"))
    .collect();
    assert_eq!((to_file.status, &to_file.errors), (0, &expected));
    assert_eq!((ran.status, &ran.errors), (0, &expected));
    let file = std::fs::read(&case).expect("the case");
    assert_eq!(file.len(), 36 + 24 + 4 * 12 + 4 * 312);
    assert_eq!(ran.output, file);
    // Nothing but write warns: the text is refused, as its file is.
    for command in ["show", "check"] {
        assert_eq!(casetool_in_both(&[command, &case], b"").errors, "");
    }
    assert_eq!(casetool_in_both(&["check", &path], b"").errors, "");
}

#[test]
fn a_text_that_is_not_written_is_not_warned_of() {
    let text = [UNIT, &event("8000", " period 43")].concat();
    let (_, warnings) = written_and_warned_of(&text);
    assert_eq!(warnings.lines().count(), 1);
    let ran = casetool_in_both(&["write"], format!("{text}hour").as_bytes());
    assert_eq!(
        (ran.status, ran.errors.as_str()),
        (
            1,
            "casetool: standard input: line 3, column 5: expected hours, such as 0,5-7\n"
        )
    );
}
