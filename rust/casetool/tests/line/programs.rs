//! Both forms as JSON, held to the schema of docs/; tables and JSON of generated cases beside the library's figures and
//! the second implementation's flags.

use attachment_h::layout::{Section, Sections, u16_at, u32_at};
use attachment_h::{BidHour, Component, Kind, Market, line, working};
use cases::case::Input;
use cases::generator::any_case_in;
use cases::{Random, Row};
use casetool::text::hours;

use crate::asked;
use crate::support::json::{Value, answer, broken, parse, schema};
use crate::support::{casetool_in_both, casetool_with, copies_of, in_turn, repository};

#[test]
fn one_event_whole() {
    let text = std::fs::read(repository("examples/two-plants.txt")).expect("the example");
    let ran = casetool_in_both(&["line", "--event", "5", "--format", "json"], &text);
    let (free, free_dollars) = ("0, ".repeat(19), "\"0.00\", ".repeat(19));
    let (line, line_dollars) = ("8000, ".repeat(19), "\"80.00\", ".repeat(19));
    let expected = format!(
        "{{
  \"answer\": \"lines\",
  \"events\": [
    {{
      \"event\": 5,
      \"day\": 8000,
      \"date\": \"2021-11-26\",
      \"kind\": \"bids\",
      \"market\": \"real-time\",
      \"unit\": 13,
      \"component\": \"energy\",
      \"measure\": \"cents\",
      \"passes\": \"highest\",
      \"sum_of_times\": false,
      \"reference\": 2000,
      \"reference_dollars\": \"20.00\",
      \"tight_line\": 2876,
      \"tight_line_dollars\": \"28.76\",
      \"other_line\": 8000,
      \"other_line_dollars\": \"80.00\",
      \"tight_hours\": [19],
      \"flagged_hours\": [19],
      \"bids\": [{free}2877, 0, 0, 0, 0],
      \"bids_dollars\": [{free_dollars}\"28.77\", \"0.00\", \"0.00\", \"0.00\", \"0.00\"],
      \"lines\": [{line}2876, 8000, 8000, 8000, 8000],
      \"lines_dollars\": [{line_dollars}\"28.76\", \"80.00\", \"80.00\", \"80.00\", \"80.00\"]
    }}
  ]
}}
"
    );
    assert_eq!((ran.status, ran.text()), (0, expected.as_str()));
    answer(&ran, &schema());
    // A case with no event of bids has an empty list.
    let empty = crate::support::written("unit 12 group 7 capability 1 MW");
    let ran = casetool_in_both(&["line", "--format", "json"], &empty);
    let expected = "{\n  \"answer\": \"lines\",\n  \"events\": []\n}\n";
    assert_eq!((ran.status, ran.text()), (0, expected));
    answer(&ran, &schema());
}

#[test]
fn one_line_of_every_component() {
    let schema = schema();
    for (component, line, dollars, measure, passes, sum) in [
        ("energy", 15_000, Some("150.00"), "cents", "highest", false),
        (
            "minimum-generation",
            15_000,
            Some("150.00"),
            "cents",
            "highest",
            false,
        ),
        (
            "reserve-or-regulation",
            10_000,
            Some("100.00"),
            "cents",
            "highest",
            false,
        ),
        (
            "start-up-cost",
            15_000,
            Some("150.00"),
            "cents",
            "highest",
            false,
        ),
        ("start-up-time", 230, None, "minutes", "highest", true),
        ("minimum-run-time", 230, None, "minutes", "highest", true),
        ("minimum-down-time", 230, None, "minutes", "highest", true),
        ("minimum-parameter", 100, None, "number", "highest", false),
        ("maximum-parameter", 25, None, "number", "lowest", false),
    ] {
        let arguments = format!("--component {component} --reference 50 --market DAM");
        let ran = asked(&format!("{arguments} --format json"));
        let dollars = match dollars {
            Some(dollars) => format!("\"{dollars}\""),
            None => "null".to_string(),
        };
        let (reference, in_dollars) = match measure {
            "cents" => (5_000, "\"50.00\""),
            _ => (50, "null"),
        };
        let expected = format!(
            "{{
  \"answer\": \"line\",
  \"component\": \"{component}\",
  \"measure\": \"{measure}\",
  \"passes\": \"{passes}\",
  \"sum_of_times\": {sum},
  \"reference\": {reference},
  \"reference_dollars\": {in_dollars},
  \"line\": {line},
  \"line_dollars\": {dollars}
}}
"
        );
        assert_eq!((ran.status, ran.text()), (0, expected.as_str()));
        answer(&ran, &schema);
        assert_eq!(
            asked(&format!("{arguments} --format text")),
            asked(&arguments)
        );
    }
}

#[test]
fn the_schema_would_notice() {
    let schema = schema();
    let text = std::fs::read(repository("examples/two-plants.txt")).expect("the example");
    let table = casetool_in_both(&["line", "--format", "json"], &text);
    let one = asked("--component energy --reference 50 --market DAM --format json");
    for (ran, good, bad) in [
        (&table, "\"tight_line\": null", "\"tight_line\": \"80.00\""),
        (
            &table,
            "\"other_line_dollars\": \"80.00\"",
            "\"other_line_dollars\": \"80.0\"",
        ),
        (&table, "\"reference\": 2000,", ""),
        (&table, "\"kind\": \"bids\"", "\"kind\": \"fuel\""),
        (&table, "\"lines\": [8000, ", "\"lines\": ["),
        (&table, "\"lines\": [8000, ", "\"lines\": [-1, "),
        (&table, "\"flagged_hours\": [14", "\"flagged_hours\": [24"),
        (&table, "\"measure\": \"cents\"", "\"measure\": \"dollars\""),
        (&table, "\"lines\"", "\"line\""),
        (&one, "\"line\": 15000", "\"line\": 15000, \"more\": 1"),
        (&one, "\"line\": 15000", "\"line\": 1000000001"),
        (&one, "\"passes\": \"highest\"", "\"passes\": \"higher\""),
        (
            &one,
            "\"line_dollars\": \"150.00\"",
            "\"line_dollars\": 150",
        ),
        (&one, "\"sum_of_times\": false", "\"sum_of_times\": null"),
    ] {
        assert_eq!(broken(&parse(ran.text()), &schema, &schema), None);
        assert!(ran.text().contains(good), "{good}");
        let changed = parse(&ran.text().replacen(good, bad, 1));
        assert!(broken(&changed, &schema, &schema).is_some(), "{bad}");
    }
}

/// An hour of bids as the library has it.
#[derive(Clone, Copy, Debug, PartialEq, Eq)]
struct Hour {
    bid: i128,
    line: i128,
    tight: bool,
    flagged: bool,
}

/// An event of bids as the library has it.
struct Expected {
    event: usize,
    component: Component,
    reference: u32,
    hours: Vec<Hour>,
}

/// The events of bids of a case.
fn by_the_library(input: &Input) -> Vec<Expected> {
    let sections = Sections::of(&input.file).expect("sections");
    let events = sections.records(Section::Events).enumerate();
    let mut found = Vec::new();
    for (event, record) in events.filter(|(_, record)| Kind(record[0]) == Kind::BIDS) {
        let number = Section::Events.unit_number(sections.version(), record);
        let unit = sections.unit(number).expect("its unit");
        let component = Component(record[6]);
        let mut reference = 0;
        let hours = (0..24).map(|hour| {
            let worked = working(&input.file, &input.correction, event, hour).expect("an hour");
            reference = worked.reference;
            let circumstances = BidHour {
                market: Market(record[1]),
                tight: worked.tight,
                average_price: u32_at(unit, 16),
                constrained_hours: u16_at(unit, 20),
            };
            Hour {
                bid: worked.a.cast_signed().into(),
                line: line(component, worked.reference, circumstances)
                    .expect("a line")
                    .into(),
                tight: worked.tight,
                flagged: worked.flagged,
            }
        });
        let hours = hours.collect();
        found.push(Expected {
            event,
            component,
            reference,
            hours,
        });
    }
    found
}

/// The hours for which something holds.
fn hours_where(hours: &[Hour], holds: impl Fn(&Hour) -> bool) -> Vec<i128> {
    let places = (0_i128..).zip(hours);
    places
        .filter(|(_, hour)| holds(hour))
        .map(|(place, _)| place)
        .collect()
}

fn integers(list: &Value) -> Vec<i128> {
    list.list().iter().map(Value::integer).collect()
}

/// That an event of the JSON is the library's.
fn same_event(value: &Value, expected: &Expected) {
    let hours = &expected.hours;
    assert_eq!(value.at("event").integer(), expected.event as i128);
    assert_eq!(value.at("reference").integer(), expected.reference.into());
    assert_eq!(
        integers(value.at("bids")),
        hours.iter().map(|hour| hour.bid).collect::<Vec<_>>()
    );
    assert_eq!(
        integers(value.at("lines")),
        hours.iter().map(|hour| hour.line).collect::<Vec<_>>()
    );
    assert_eq!(
        integers(value.at("tight_hours")),
        hours_where(hours, |hour| hour.tight)
    );
    assert_eq!(
        integers(value.at("flagged_hours")),
        hours_where(hours, |hour| hour.flagged)
    );
    for (name, tight) in [("tight_line", true), ("other_line", false)] {
        let of_one = hours.iter().find(|hour| hour.tight == tight);
        let line = of_one.map_or(Value::Null, |hour| Value::Integer(hour.line));
        assert_eq!(*value.at(name), line, "{name}");
    }
    let in_cents = expected.component <= Component::START_UP_COST;
    for (name, of) in [("bids_dollars", "bids"), ("lines_dollars", "lines")] {
        match in_cents {
            true => {
                let dollars = value.at(name).list().iter();
                let cents: Vec<i128> = dollars.map(|dollars| figure(dollars.text())).collect();
                assert_eq!(cents, integers(value.at(of)), "{name}");
            }
            false => assert_eq!(*value.at(name), Value::Null),
        }
    }
}

/// The number of an amount, without its signs: cents of dollars.
fn figure(amount: &str) -> i128 {
    let digits = amount
        .chars()
        .filter(|letter| *letter == '-' || letter.is_ascii_digit());
    digits.collect::<String>().parse().expect("a number")
}

/// The hours of a table, row by row; no row is like the one before it.
fn rows_of(table: &str) -> Vec<Hour> {
    let rows = table.lines().skip_while(|row| !row.starts_with("  hours "));
    let mut found = Vec::new();
    let mut last = None;
    for row in rows.skip(1) {
        let columns: Vec<&str> = row
            .split("  ")
            .map(str::trim)
            .filter(|word| !word.is_empty())
            .collect();
        let [which, bid, line, tight, flagged] = columns[..] else {
            panic!("{row}")
        };
        let hour = Hour {
            bid: figure(bid),
            line: figure(line),
            tight: tight == "yes",
            flagged: flagged == "yes",
        };
        assert_ne!(last.replace(hour), Some(hour), "{table}");
        let mask = hours::read(which, 23).expect("hours");
        assert_eq!(mask.trailing_zeros() as usize, found.len(), "{table}");
        found.extend((0..mask.count_ones()).map(|_| hour));
    }
    found
}

/// Whether a bid is on the side of its line on which bids fail.
fn fails(component: Component, hour: &Hour) -> bool {
    match component {
        Component::MAXIMUM_PARAMETER => hour.bid < hour.line,
        _ => hour.bid > hour.line,
    }
}

#[test]
fn generated_cases() {
    let schema = schema();
    let mut random = Random::new(761);
    let (mut events, mut flagged, mut tight, mut by_sum, mut copies) = (0, 0, 0, 0, 0);
    for place in 0..40 {
        let input = any_case_in(in_turn(place), &mut random).input();
        let expected = by_the_library(&input);
        let ran = casetool_with("line.generated", &["line", "--format", "json"], &input);
        let value = answer(&ran, &schema);
        let text = casetool_with("line.generated", &["line"], &input);
        let tables = text.text().split("\n\n");
        let tables = tables.filter(|table| table.starts_with("Event "));
        let tables: Vec<&str> = tables.collect();
        let mut rows = vec![0; input.rows_len];
        second::settle(&input.file, &input.correction, &mut rows);
        let counts = [value.at("events").list().len(), tables.len()];
        assert_eq!(counts, [expected.len(); 2]);
        for (place, expected) in expected.iter().enumerate() {
            same_event(&value.at("events").list()[place], expected);
            assert!(tables[place].starts_with(&format!("Event {}: ", expected.event)));
            assert_eq!(rows_of(tables[place]), expected.hours);
            let flags = Row::of(&rows, expected.event).flags.0;
            for (number, hour) in expected.hours.iter().enumerate() {
                assert_eq!(hour.flagged, flags >> number & 1 == 1);
                let fails = fails(expected.component, hour);
                assert!(hour.flagged == fails || expected.component.is_time() && hour.flagged);
                flagged += usize::from(hour.flagged);
                tight += usize::from(hour.tight);
                by_sum += usize::from(hour.flagged && !fails);
            }
        }
        events += expected.len();
        copies += copies_of(&input);
    }
    println!(
        "{events} events of bids, {flagged} hours flagged, {by_sum} of them by the sum alone, {tight} tight, {copies} copies"
    );
    assert!(events > 200 && flagged > 500 && tight > 100 && by_sum > 10 && copies > 15);
}
