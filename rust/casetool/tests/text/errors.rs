//! Texts with something wrong, by hand: the line, the column, the word and what was expected.

use casetool::text::write::{case_file, correction};

use crate::support::{casetool, casetool_where};

const UNIT: &str = "unit 12 group 7 area no capability 500.0 MW";
const EVENT: &str = "event day 8000 kind bids market day-ahead unit 12 period 44 component energy impact-hours none";

/// That a text is turned away with these messages.
fn wrong_all(text: &str, messages: &[&str]) {
    // Of a unit's number out of its range and of a file that is too long version 2 says other figures: version/lines.rs.
    let is_of_version_1 = text.starts_with("unit -1 ")
        || text.starts_with("unit 4294967296 ")
        || messages[0].ends_with("over 65,000 bytes");
    let ran = casetool_where(!is_of_version_1, &["write"], text.as_bytes());
    assert_eq!((ran.status, ran.output.len()), (1, 0), "{text}");
    let said = |message: &&str| format!("casetool: standard input: {message}\n");
    assert_eq!(ran.errors, messages.iter().map(said).collect::<String>());
}

/// That a text is turned away with this message alone.
fn wrong(text: &str, message: &str) {
    wrong_all(text, &[message]);
}

/// Texts with a record or a key that is wrong, and what is said of them.
const RECORDS_AND_KEYS: [(&str, &str); 12] = [
    (
        "# nothing\n\n  powerhouse 12",
        "line 3, column 3, 'powerhouse': expected unit, reference, past, event, hour or hours",
    ),
    (
        "unit 12 group 7 capability 1 color 3",
        "line 1, column 30, 'color': unknown key; expected unit, group, area, capability, response-rate, average-price, constrained-hours",
    ),
    (
        "unit 12 capability 1 group 7 group 7",
        "line 1, column 30, 'group': this key is there twice",
    ),
    (
        "unit 12 group 7",
        "line 1, column 16: expected the key capability",
    ),
    (
        "unit 12 capability 5 MW",
        "line 1, column 24: expected the key group",
    ),
    (
        "unit 12 capability 5 MW group # 7",
        "line 1, column 30: expected a value for group",
    ),
    (
        "reference unit 12 value 3",
        "line 1, column 26: expected the key component",
    ),
    (
        "past group 7 kind fuel",
        "line 1, column 23: expected the keys market, day",
    ),
    (
        "event day 3",
        "line 1, column 12: expected the keys kind, market, unit",
    ),
    (
        "event day 3 kind bids market 0 unit 1 period 0 impact-hours none",
        "line 1, column 65: expected the key component",
    ),
    (
        "event day 3 kind fuel market 1 unit 1 period 0 inaccurate-hours none guarantee-change 0 shadow-price-hours 3",
        "line 1, column 89, 'shadow-price-hours': unknown key; expected day, kind, market, unit, period, component, impact, inaccurate-hours, guarantee-change, tcc-change",
    ),
    (
        "hour 3 bid 4",
        "line 1, column 1, 'hour': hours follow the line of their event",
    ),
];

#[test]
fn records_and_keys() {
    for (text, message) in RECORDS_AND_KEYS {
        wrong(text, message);
    }
    wrong_all(
        "unit",
        &[
            "line 1, column 5: expected a value for unit",
            "line 1, column 5: expected the keys group, capability",
        ],
    );
}

/// A unit with one more key, a reference, a past entry and an event without one, as the words before and after it.
const UNIT_AND: (&str, &str) = ("unit 1 group 7 capability 5 ", "");
const REFERENCE: (&str, &str) = ("reference unit 1 component ", " value 1");
const PAST: (&str, &str) = ("past group 1 period 0 kind ", "");

const COMPONENTS: &str = "expected energy, minimum-generation, reserve-or-regulation, start-up-cost, start-up-time, minimum-run-time, minimum-down-time, minimum-parameter, maximum-parameter, or its number, 0 to 8";

const UNIT_NUMBER: (&str, &str) = ("unit ", " group 7 capability 5");
const CAPABILITY: (&str, &str) = ("unit 1 group 7 capability ", "");
const DOLLARS: &str = "expected dollars with at most two decimals, such as $40.00";
const POWER: &str = "expected MW with at most one decimal, such as 50.1 MW";
const DAY: &str = "expected a day number, from 0 on 1 January 2000, or a date such as 2021-11-26";

/// Words before and after a value, the value, the word of it that is wrong, and what is said of that.
const VALUES: [((&str, &str), &str, &str, &str); 38] = [
    (
        UNIT_NUMBER,
        "4294967296",
        "4294967296",
        "too large: expected 0 to 999,999",
    ),
    (UNIT_NUMBER, "-1", "-1", "too small: expected 0 to 65,535"),
    (UNIT_NUMBER, "1.0", "1.0", "expected a whole number"),
    (UNIT_NUMBER, "$1", "$1", "expected a whole number"),
    (
        UNIT_NUMBER,
        "99999999999999999999",
        "99999999999999999999",
        "too large: expected 0 to 999,999",
    ),
    (UNIT_NUMBER, "1 MW", "MW", "unit has no such word after it"),
    (UNIT_NUMBER, "1MW", "MW", "unit has no such word after it"),
    (CAPABILITY, "5 MWh", "MWh", "capability is in MW"),
    (CAPABILITY, "5MWh", "MWh", "capability is in MW"),
    (
        CAPABILITY,
        "5MW MW",
        "MW",
        "the value has this word already",
    ),
    (CAPABILITY, "5 mw", "mw", "capability is in MW"),
    (CAPABILITY, "5 min", "min", "capability is in MW"),
    (CAPABILITY, "5mw", "5mw", POWER),
    (CAPABILITY, "5.05 MW", "5.05", POWER),
    (CAPABILITY, "5.05MW", "5.05MW", POWER),
    (CAPABILITY, "5. MW", "5.", POWER),
    // The limit is that of the rules, though the field has room for more.
    (
        CAPABILITY,
        "429496729.6",
        "429496729.6",
        "too large: expected 0.1 MW to 5,000.0 MW",
    ),
    (
        CAPABILITY,
        "99999999999999999999.9 MW",
        "99999999999999999999.9",
        "too large: expected 0.1 MW to 5,000.0 MW",
    ),
    (
        UNIT_AND,
        "average-price -$99999999999999999999",
        "-$99999999999999999999",
        "too small: expected $0.00 to $10,000.00",
    ),
    (
        UNIT_AND,
        "constrained-hours 65536",
        "65536",
        "too large: expected 0 to 8,784",
    ),
    // What may be meant as decimals, or as nothing, is not taken.
    (UNIT_AND, "average-price 1,00", "1,00", DOLLARS),
    (UNIT_AND, "average-price 0,500", "0,500", DOLLARS),
    (UNIT_AND, "average-price ,500", ",500", DOLLARS),
    (UNIT_AND, "average-price 1,5000", "1,5000", DOLLARS),
    (UNIT_AND, "average-price 1,500,", "1,500,", DOLLARS),
    (UNIT_AND, "average-price 1, 500", "1, 500", DOLLARS),
    (UNIT_AND, "average-price 1.500,00", "1.500,00", DOLLARS),
    (UNIT_AND, "average-price -$-5", "-$-5", DOLLARS),
    (UNIT_AND, "average-price $$5", "$$5", DOLLARS),
    (UNIT_AND, "average-price --5", "--5", DOLLARS),
    (
        UNIT_AND,
        "area maybe",
        "maybe",
        "expected 0 or 1, or no or yes",
    ),
    (REFERENCE, "power", "power", COMPONENTS),
    (
        PAST,
        "-1 market 0 day 0",
        "-1",
        "too small: expected withheld, fuel, or its number, 1 or 3",
    ),
    (
        PAST,
        "fuel day 0 market 300",
        "300",
        "too large: expected day-ahead, real-time, or its number, 0 or 1",
    ),
    (PAST, "fuel market 0 day 2021-02-29", "2021-02-29", DAY),
    (
        PAST,
        "fuel market 0 day 4294967296",
        "4294967296",
        "too large: expected 0 to 1,000,000",
    ),
    (
        PAST,
        "fuel day 0 market dayahead",
        "dayahead",
        "did you mean day-ahead?",
    ),
    (
        ("reference unit 1 component start-up-time value ", ""),
        "1.5 minutes",
        "1.5",
        "expected whole minutes, such as 180 minutes",
    ),
];

#[test]
fn values() {
    for ((before, after), value, word, problem) in VALUES {
        let at = value.rfind(word).expect("the word");
        let column = before.chars().count() + value[..at].chars().count() + 1;
        let message = format!("line 1, column {column}, '{word}': {problem}");
        wrong(&format!("{before}{value}{after}"), &message);
    }
}

#[test]
fn numbers_of_a_kind_and_a_component() {
    wrong(
        "reference unit 1 component 256 value 1",
        &format!("line 1, column 28, '256': too large: {COMPONENTS}"),
    );
    let problem = "too small: expected withheld, dispatch, fuel, bids, or its number, 1 to 4";
    wrong(
        "event day 3 kind -1 market 0 unit 1 period 0",
        &format!("line 1, column 18, '-1': {problem}"),
    );
    wrong(
        "event day 3 kind dispatch market 256 unit 1 period 0 impact 0",
        "line 1, column 34, '256': too large: expected real-time, or its number, 1",
    );
}

#[test]
fn hours() {
    let hours = "expected hours from 0 to 23, as in 0,5-7";
    let rise = "expected hours that rise, such as 0,5-7";
    for (list, problem) in [
        ("24", hours),
        ("x", hours),
        ("3,", hours),
        ("-3", hours),
        ("+3", hours),
        ("none", hours),
        ("5 - 24", hours),
        ("5, , 6", hours),
        ("7-5", rise),
        ("7, 5", rise),
        ("5,5", rise),
        ("5–7, 6", rise),
    ] {
        wrong(
            &format!("{UNIT}\n{EVENT}\nhours {list} bid 1 price 1 quantity 1"),
            &format!("line 3, column 7, '{list}': {problem}"),
        );
    }
    let masks = format!("{hours}, or none for no hours");
    let event = EVENT.replace("none", "32");
    wrong(
        &event,
        &format!("line 1, column {}, '32': {masks}", event.len() - 1),
    );
}

#[test]
fn cells_of_hours() {
    let bid = "expected -$10,000.00 to $10,000.00";
    for (text, message) in [
        (
            "hour",
            "column 5: expected hours, such as 0,5-7".to_string(),
        ),
        (
            "hour 3 bid 1 price 1 quantity 1 withheld 1",
            "column 33, 'withheld': unknown key; expected bid, price, quantity".to_string(),
        ),
        (
            "hour 3 price 1 quantity 1 bid 21474836.48",
            format!("column 31, '21474836.48': too large: {bid}"),
        ),
        (
            "hour 3 price 1 quantity 1 bid -21474836.49",
            format!("column 31, '-21474836.49': too small: {bid}"),
        ),
    ] {
        wrong(
            &format!("{UNIT}\n{EVENT}\n{text}"),
            &format!("line 3, {message}"),
        );
    }
    wrong(
        &format!("{EVENT}\nhours 0-5 bid 1 price 1 quantity 1\nhours 4-6 bid 1 price 1 quantity 1"),
        "line 3, column 7, '4-6': this event has hours 4–5 already",
    );
    wrong(
        &format!("{EVENT}\n{UNIT}\nhour 5 bid 1"),
        "line 3, column 1, 'hour': hours follow the line of their event",
    );
    wrong(
        &format!(
            "{UNIT}\nevent day 1 kind withheld market 0 unit 12 period 0 impact 0\nhour 0 price 0 withheld 429496729.6"
        ),
        "line 3, column 25, '429496729.6': too large: expected at most the capability of its unit",
    );
}

#[test]
fn too_many_records() {
    let units: Vec<String> = (0..65)
        .map(|number| format!("unit {number} group 7 capability 500.0 MW\n"))
        .collect();
    wrong(
        &units.concat(),
        "line 65, column 1, 'unit': at most 64 units fit",
    );
    let as_written = |lines: &str| format!("order as-written\n{lines}");
    wrong(
        &as_written(&format!("{EVENT}\n").repeat(201)),
        "line 202, column 1, 'event': at most 200 events fit",
    );
    let past = "past group 1 kind fuel market 0 period 0 day 0\n";
    wrong(
        &past.repeat(257),
        "line 257, column 1, 'past': at most 256 past entries fit",
    );
    let over = format!("{}{}", format!("{EVENT}\n").repeat(200), past.repeat(214));
    wrong(
        &as_written(&over),
        "line 415, column 1, 'past': with this record the file is over 65,000 bytes",
    );
    let reference = "reference unit 1 component energy value 1\n";
    let references = as_written(&reference.repeat(257));
    let error = correction(references.as_bytes()).expect_err("one too many");
    assert_eq!(
        error.to_string(),
        "line 258, column 1, 'reference': at most 256 references fit"
    );
    let error = correction(UNIT.as_bytes()).expect_err("a unit");
    assert_eq!(
        error.to_string(),
        "line 1, column 1, 'unit': expected reference: a correction has nothing else"
    );
}

#[test]
fn no_text() {
    let ran = casetool(
        &["write"],
        b"unit 12 group 7 capability 5\n# \xC3\xA9t\xE9\n",
    );
    let message = "casetool: standard input: line 2, column 5: byte 233 is no text: a case as text is UTF-8 (is this a case file?)\n";
    assert_eq!((ran.status, ran.errors.as_str()), (1, message));
    let error = case_file("unit 12 \u{1}é\u{a0}x 7".as_bytes()).expect_err("no key");
    let first = &error.shown()[0];
    assert_eq!(
        (first.column, first.word.as_deref()),
        (9, Some("\\u{1}é\\u{a0}x"))
    );
    let error = case_file("unit 12 é 5 é 6".as_bytes()).expect_err("a key twice");
    let places: Vec<usize> = error.shown().iter().map(|error| error.column).collect();
    assert_eq!(places, [9, 13, 16]);
    let long = "x".repeat(100_000);
    let error = case_file(long.as_bytes()).expect_err("no record");
    let word = error.shown()[0].word.as_ref();
    assert_eq!(word.map(|word| word.chars().count()), Some(41));
}

#[test]
fn a_line_of_many_keys() {
    // Keys that are compared each with each would take minutes here.
    let keys: Vec<String> = (0..400_000)
        .map(|place| format!(" key-{place} 1"))
        .collect();
    let text = format!("unit 12{}", keys.concat());
    let error = case_file(text.as_bytes()).expect_err("no such key");
    let first = &error.shown()[0];
    assert_eq!((first.column, first.word.as_deref()), (9, Some("key-0")));
    // And that group and capability are missing.
    assert_eq!((error.count(), error.shown().len()), (400_001, 20));
    let twice = format!("{text} key-7 2");
    let error = case_file(twice.as_bytes()).expect_err("a key twice");
    assert_eq!(error.count(), 400_002);
}
