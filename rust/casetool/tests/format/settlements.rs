//! Settlements as JSON and CSV, beside the library's rows, and held to the schema of docs/.

use attachment_h::{ROWS_LENGTH, Row, Settled, settle};
use cases::case::Input;
use cases::generator::{Generated, any_case_in};
use cases::{Event, Kind, Random};
use casetool::format::json::Json;
use casetool::text::calendar::day_of;

use crate::support::json::{Value, answer, parse, schema};
use crate::support::{casetool, casetool_with, copies_of, file_with, in_turn, repository};

fn settled_by_the_library(input: &Input) -> (Settled, Vec<Row>) {
    let mut rows = vec![0; ROWS_LENGTH];
    let settled = settle(&input.file, &input.correction, &mut rows).expect("an accepted case");
    (settled, Row::first(&rows, settled.rows))
}

/// Dollars of cents, worked out by their digits.
fn dollars(cents: i128) -> String {
    let digits = format!("{:03}", cents.abs());
    let (whole, part) = digits.split_at(digits.len() - 2);
    format!("{}{whole}.{part}", if cents < 0 { "-" } else { "" })
}

fn hours(mask: u32) -> Vec<i128> {
    (0..32)
        .filter(|hour| mask >> hour & 1 == 1)
        .map(i128::from)
        .collect()
}

fn integers(list: &Value) -> Vec<i128> {
    list.list().iter().map(Value::integer).collect()
}

/// That the row of an event is the library's, field by field.
fn same_row(value: &Value, place: usize, row: &Row, generated: &Generated) {
    let event = &generated.case.events[place];
    let mut units = generated.case.units.iter();
    let unit = units.find(|unit| unit.unit == event.unit);
    for (name, expected) in [
        ("event", place as i128),
        ("day", event.day.into()),
        ("unit", event.unit.into()),
        ("group", unit.expect("its unit").group.into()),
        ("flag_mask", row.flags.0.into()),
        ("mitigated_mask", row.mitigated.0.into()),
        ("penalty_cents", row.penalty.0.into()),
        ("make_up_cents", row.make_up.0.into()),
        ("multiplier_halves", row.multiplier.0.into()),
        ("n3", row.n3.into()),
        ("n2", row.n2.into()),
    ] {
        assert_eq!(
            value.at(name).integer(),
            expected,
            "{name} of event {place}"
        );
    }
    same_words(value, row, event);
    same_bids(value, row, event);
}

/// That what stands in words and in lists is the library's.
fn same_words(value: &Value, row: &Row, event: &Event) {
    assert_eq!(day_of(value.at("date").text()), Some(event.day));
    let multipliers = ["0", "", "1", "1.5", "2", "", "3"];
    for (name, expected) in [
        (
            "kind",
            ["", "withheld", "dispatch", "fuel", "bids"][usize::from(event.kind().0)],
        ),
        (
            "market",
            ["day-ahead", "real-time"][usize::from(event.market.0)],
        ),
        ("penalty_dollars", &dollars(row.penalty.0.into())),
        ("make_up_dollars", &dollars(row.make_up.0.into())),
        ("multiplier", multipliers[usize::from(row.multiplier.0)]),
    ] {
        assert_eq!(value.at(name).text(), expected, "{name}");
    }
    assert_eq!(integers(value.at("flagged_hours")), hours(row.flags.0));
    assert_eq!(
        integers(value.at("mitigated_hours")),
        hours(row.mitigated.0)
    );
}

/// That the bids in force are the library's.
fn same_bids(value: &Value, row: &Row, event: &Event) {
    let bids = row.bids.map(i128::from);
    assert_eq!(integers(value.at("bids_in_force")), bids);
    let component = (event.kind() == Kind::BIDS).then(|| event.component().0);
    let in_dollars = value.at("bids_in_force_dollars");
    let (measure, in_cents) = match component {
        None => (Value::Null, false),
        Some(0..=3) => (Value::Text("cents".to_string()), true),
        Some(4..=6) => (Value::Text("minutes".to_string()), false),
        Some(_) => (Value::Text("number".to_string()), false),
    };
    assert_eq!(*value.at("bids_in_force_measure"), measure);
    if in_cents {
        let texts: Vec<&str> = in_dollars.list().iter().map(Value::text).collect();
        assert_eq!(texts, bids.map(dollars));
    } else {
        assert_eq!(*in_dollars, Value::Null);
    }
    assert_eq!(*value.at("component") == Value::Null, component.is_none());
}

/// That the totals are the library's.
fn same_totals(totals: &Value, settled: &Settled) {
    assert_eq!(totals.at("rows").integer(), settled.rows as i128);
    for (name, cents) in [
        ("penalties", settled.penalties),
        ("make_ups", settled.make_ups),
    ] {
        let cents = i128::from(cents.0);
        assert_eq!(totals.at(&format!("{name}_cents")).integer(), cents);
        assert_eq!(totals.at(&format!("{name}_dollars")).text(), dollars(cents));
    }
}

#[test]
fn settlements_as_json() {
    let schema = schema();
    let mut random = Random::new(751);
    let (mut rows, mut corrected, mut restored, mut copies) = (0, 0, 0, 0);
    for place in 0..120 {
        let generated = any_case_in(in_turn(place), &mut random);
        let input = generated.input();
        let ran = casetool_with("formats.json", &["settle", "--format", "json"], &input);
        assert_eq!((ran.status, ran.errors.as_str()), (0, ""));
        let value = answer(&ran, &schema);
        let (settled, expected) = settled_by_the_library(&input);
        assert_eq!(value.at("answer").text(), "settled");
        same_totals(value.at("totals"), &settled);
        let found = value.at("rows").list();
        assert_eq!(found.len(), expected.len());
        for (place, (value, row)) in found.iter().zip(&expected).enumerate() {
            same_row(value, place, row, &generated);
            restored += value.at("restored_hours").list().len();
        }
        rows += found.len();
        copies += copies_of(&input);
        match (value.at("correction"), generated.correction.len()) {
            (Value::Null, 0) => {}
            (correction, count) => {
                assert_eq!(correction.at("references").integer(), count as i128);
                corrected += 1;
            }
        }
    }
    println!(
        "{rows} rows, {corrected} settlements with a correction, {restored} restored hours, {copies} copies"
    );
    assert!(rows > 1_000 && corrected > 40 && restored > 5 && copies > 50);
}

/// The values of a text of CSV, line by line.
fn csv(text: &str) -> Vec<Vec<String>> {
    let (mut lines, mut line, mut value) = (Vec::new(), Vec::new(), String::new());
    let mut quoted = false;
    let mut letters = text.chars().peekable();
    while let Some(letter) = letters.next() {
        match letter {
            '"' if quoted && letters.next_if_eq(&'"').is_some() => value.push('"'),
            '"' => quoted = !quoted,
            ',' if !quoted => line.push(std::mem::take(&mut value)),
            '\n' if !quoted => {
                line.push(std::mem::take(&mut value));
                lines.push(std::mem::take(&mut line));
            }
            letter => value.push(letter),
        }
    }
    assert!(!quoted && line.is_empty() && value.is_empty());
    lines
}

/// What a value of the JSON is in a column of the CSV.
fn in_a_column(value: &Value) -> String {
    match value {
        Value::Null => String::new(),
        Value::Integer(number) => number.to_string(),
        Value::Text(text) => text.clone(),
        Value::List(values) => {
            let values: Vec<String> = values.iter().map(in_a_column).collect();
            values.join(" ")
        }
        other => panic!("{other:?}"),
    }
}

/// The columns that a row of the JSON has in the CSV.
fn columns_of(row: &Value) -> Vec<(String, String)> {
    let Value::Object(fields) = row else {
        panic!("{row:?}")
    };
    let mut found = Vec::new();
    for (name, value) in fields {
        match (name.as_str(), value) {
            ("bids_in_force" | "bids_in_force_dollars", value) => {
                found.extend((0..24).map(|hour| {
                    let bid = match value {
                        Value::Null => String::new(),
                        values => in_a_column(&values.list()[hour]),
                    };
                    (format!("{name}_{hour}"), bid)
                }));
            }
            (name, value) => found.push((name.to_string(), in_a_column(value))),
        }
    }
    found
}

#[test]
fn csv_has_what_json_has() {
    let schema = schema();
    let mut random = Random::new(752);
    for place in 0..60 {
        let input = any_case_in(in_turn(place), &mut random).input();
        let ran = casetool_with("formats.csv", &["settle", "--format", "json"], &input);
        let value = answer(&ran, &schema);
        let ran = casetool_with("formats.csv", &["settle", "--format", "csv"], &input);
        assert_eq!((ran.status, ran.errors.as_str()), (0, ""));
        let lines = csv(ran.text());
        let rows = value.at("rows").list();
        assert_eq!(lines.len(), rows.len() + 2);
        // The four columns in front, the 22 of a row and its 48 bids.
        assert!(lines.iter().all(|line| line.len() == 4 + 22 + 48));
        let column = |line: &[String], name: &str| {
            let place = lines[0].iter().position(|column| column == name);
            line[place.unwrap_or_else(|| panic!("no column {name}"))].clone()
        };
        for (line, row) in lines[1..].iter().zip(rows) {
            assert_eq!((line[0].as_str(), line[3].as_str()), ("row", ""));
            for (name, value) in columns_of(row) {
                assert_eq!(column(line, &name), value, "{name}");
            }
        }
        let (last, totals) = (lines.last().expect("the totals"), value.at("totals"));
        assert_eq!(
            (last[0].as_str(), column(last, "event").as_str()),
            ("total", "")
        );
        for (name, total) in [
            ("rows", "rows"),
            ("penalty_cents", "penalties_cents"),
            ("penalty_dollars", "penalties_dollars"),
            ("make_up_cents", "make_ups_cents"),
            ("make_up_dollars", "make_ups_dollars"),
        ] {
            assert_eq!(column(last, name), in_a_column(totals.at(total)), "{name}");
        }
    }
}

#[test]
fn names_with_signs_in_them() {
    let schema = schema();
    let case = std::fs::read(repository("examples/two-plants.txt")).expect("the example");
    let text =
        std::fs::read(repository("examples/two-plants-correction.txt")).expect("the example");
    let path = file_with("formats, \"a\\b\".\t é", &text);
    let ran = casetool(
        &["settle", "--format", "json", "--correction", &path],
        &case,
    );
    let correction = answer(&ran, &schema).at("correction").clone();
    assert_eq!(correction.at("source").text(), path);
    let ran = casetool(&["settle", "--format", "csv", "--correction", &path], &case);
    let lines = csv(ran.text());
    assert_eq!(
        lines[0][..3],
        ["record", "correction", "correction_references"]
    );
    assert!(
        lines[1..]
            .iter()
            .all(|line| line[1] == path && line[2] == "3")
    );
    let every: String = (0..0x180).filter_map(char::from_u32).collect();
    for text in [every.as_str(), "", "\u{2028}\u{10FFFF}", "\\u0041\"\\\\"] {
        let json = Json::Object(vec![
            ("text", text.into()),
            ("none", Json::List(Vec::new())),
        ]);
        assert_eq!(parse(&json.to_string()).at("text").text(), text);
    }
}
