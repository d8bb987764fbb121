//! Both commands as JSON: whole answers by hand, the settlement beside its workings, and what the schema would notice.

use crate::example;
use crate::support::json::{Value, answer, broken, parse, schema};
use crate::support::{casetool_in_both, file_with};

/// The working of an event of the example, with its correction or without.
fn worked(event: usize, corrected: bool) -> String {
    let path = file_with(
        &format!("money.programs-{event}"),
        example("two-plants-correction.txt").as_bytes(),
    );
    let event = event.to_string();
    let mut arguments = vec!["working", "--event", &event, "--format", "json"];
    if corrected {
        arguments.extend(["--correction", &path]);
    }
    let ran = casetool_in_both(&arguments, example("two-plants.txt").as_bytes());
    assert_eq!((ran.status, ran.errors.as_str()), (0, ""));
    answer(&ran, &schema());
    ran.text().to_string()
}

#[test]
fn one_event_of_each_kind_whole() {
    assert_eq!(worked(0, false), include_str!("withheld.json"));
    assert_eq!(worked(1, false), include_str!("dispatch.json"));
    assert_eq!(worked(2, false), include_str!("fuel.json"));
    assert_eq!(worked(3, true), include_str!("bids.json"));
}

#[test]
fn figures_that_a_kind_lacks_are_null() {
    let kinds = ["withheld", "dispatch", "fuel", "bids", "bids", "bids"];
    for (event, kind) in kinds.into_iter().enumerate() {
        let value = parse(&worked(event, false));
        let working = value.at("working");
        assert_eq!(working.at("kind").text(), kind);
        for name in ["withheld", "dispatch", "fuel", "bids"] {
            assert_eq!(*working.at(name) == Value::Null, name != kind, "{name}");
        }
    }
    // c is null where the component does not read it, and dollars where the measure is not cents.
    let text = "unit 12 group 7 area no capability 1 MW\n\
                reference unit 12 component start-up-time value 60 minutes\n\
                event day 8000 kind bids market DAM unit 12 period 44 component start-up-time impact-hours none\n";
    let arguments = ["working", "--event", "0", "--format", "json"];
    let ran = casetool_in_both(&arguments, text.as_bytes());
    let value = answer(&ran, &schema());
    let bids = value.at("working").at("bids");
    assert_eq!(bids.at("reference").integer(), 60);
    for name in ["reference_dollars", "correct", "correct_dollars"] {
        assert_eq!(*bids.at(name), Value::Null, "{name}");
    }
    assert_eq!(*bids.at("terms"), Value::List(Vec::new()));
}

#[test]
fn steps_are_those_of_the_text() {
    let text = example("two-plants.txt");
    for event in ["0", "1", "2", "3", "4", "5"] {
        let words = casetool_in_both(&["working", "--event", event], text.as_bytes());
        let sentences: Vec<&str> = words
            .text()
            .lines()
            .filter(|line| line.starts_with("  ") && !line.starts_with("   "))
            .collect();
        let value = parse(&worked(event.parse().expect("a number"), false));
        let steps = value.at("working").at("steps").list();
        let spoken: Vec<String> = steps
            .iter()
            .map(|step| {
                let [name, tariff, words] =
                    ["name", "tariff", "words"].map(|part| step.at(part).text());
                let number = step.at("step").integer();
                format!("  {number}. {name} ({tariff}): {words}")
            })
            .collect();
        assert_eq!(spoken, sentences);
    }
}

#[test]
fn a_settlement_with_its_workings() {
    let text = example("two-plants.txt");
    let arguments = ["settle", "--explain", "--format", "json"];
    let ran = casetool_in_both(&arguments, text.as_bytes());
    let value = answer(&ran, &schema());
    let plain = casetool_in_both(&["settle", "--format", "json"], text.as_bytes());
    let plain = answer(&plain, &schema());
    for name in ["answer", "correction", "rows", "totals"] {
        assert_eq!(value.at(name), plain.at(name), "{name}");
    }
    let workings = value.at("workings").list();
    assert_eq!(workings.len(), 6);
    for (event, working) in workings.iter().enumerate() {
        assert_eq!(working, parse(&worked(event, false)).at("working"));
    }
    // Without the option there are none.
    let Value::Object(fields) = plain else {
        panic!("no object")
    };
    assert!(!fields.contains_key("workings"));
}

/// The example settled with its workings, and what is good and bad in it.
const CHANGES: [(&str, &str); 23] = [
    ("\"workings\": [", "\"workings\": [null, "),
    ("\"period\": 44,", ""),
    ("\"step\": 7,", "\"step\": 8,"),
    ("\"tariff\": \"23.4.3.4\"", "\"tariff\": 23"),
    ("\"period\": 44", "\"period\": 201"),
    ("\"instance\": true", "\"instance\": 1"),
    ("\"n3_counted\": {", "\"n3_counted\": {\"more\": [],"),
    ("\"past\": [0]", "\"past\": [256]"),
    ("\"sum\": 21984000", "\"sum\": -1"),
    (
        "\"sum_dollars\": \"21984.000\"",
        "\"sum_dollars\": \"21984.00\"",
    ),
    (
        "\"term_dollars\": \"2004.000\"",
        "\"term_dollars\": \"$2004.000\"",
    ),
    ("\"dispatch\": null", "\"dispatch\": []"),
    ("\"impact\": 1", "\"impact\": 2"),
    ("\"term_cents\": 150000", "\"term_cents\": \"1500.00\""),
    ("\"e\": 7000000", "\"e\": \"7000.000\""),
    (
        "\"x_dollars\": \"10700.0000\"",
        "\"x_dollars\": \"10700.000\"",
    ),
    ("\"below\": false", "\"below\": 0"),
    ("\"row\": 2", "\"row\": 200"),
    ("\"q_cents\": 400000,", ""),
    ("\"correct\": 2000", "\"correct\": \"20.00\""),
    ("\"measure\": \"cents\"", "\"measure\": \"dollars\""),
    ("\"m\": 1000,", ""),
    (
        "\"restored_hours\": [],\n        \"terms\"",
        "\"restored_hours\": null,\n        \"terms\"",
    ),
];

#[test]
fn the_schema_would_notice() {
    let schema = schema();
    let arguments = ["settle", "--explain", "--format", "json"];
    let ran = casetool_in_both(&arguments, example("two-plants.txt").as_bytes());
    let text = ran.text();
    assert_eq!(broken(&parse(text), &schema, &schema), None);
    for (good, bad) in CHANGES {
        assert!(text.contains(good), "{good}");
        let changed = parse(&text.replacen(good, bad, 1));
        assert!(broken(&changed, &schema, &schema).is_some(), "{bad}");
    }
    // One event alone is named by its answer.
    let one = worked(0, false);
    let changed = parse(&one.replacen("\"money\"", "\"working\"", 1));
    assert!(broken(&changed, &schema, &schema).is_some());
}
