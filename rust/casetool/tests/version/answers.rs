//! Answers about units of six digits: the example whole, and the same case under other numbers.

use attachment_h::layout::Version;
use cases::Random;
use cases::generator::any_case_in;

use crate::support::json::{answer, schema};
use crate::support::{casetool, casetool_with, file_with, written};
use crate::{event, example, unit};

const SETTLED: &str = "\
Correction: none

Unit 12, group 7
  event 0: day 8000 (26 November 2021), withheld, Day-Ahead
    flagged hours    0
    multiplier       1 (N3 1, N2 1)
    penalty          $2,004.00

Unit 323456, group 7
  event 1: day 8000 (26 November 2021), withheld, Day-Ahead
    flagged hours    0
    multiplier       1 (N3 2, N2 2)
    penalty          $3,200.00
  event 2: day 8000 (26 November 2021), bids, Day-Ahead, energy
    flagged hours    14
    mitigated hours  14
    bids in force    $20.00 in hour 14
    make-up          $0.00

Totals of 3 events
    penalties        $5,204.00
    make-ups         $0.00
";

#[test]
fn the_example() {
    let text = example("new-plant.txt");
    let file = written(&text);
    assert_eq!(file[..2], [2, 0]);
    for input in [text.as_bytes(), &file] {
        let ran = casetool(&["settle"], input);
        assert_eq!(
            (ran.status, ran.errors.as_str(), ran.text()),
            (0, "", SETTLED)
        );
        let ran = casetool(&["check"], input);
        assert_eq!((ran.status, ran.text()), (0, "accepted, 3 events\n"));
    }
    // The same with a number of two bytes is a case of version 1, with the same figures.
    let small = text.replace("323456", "32345");
    assert_eq!(written(&small)[..2], [1, 0]);
    let ran = casetool(&["settle"], small.as_bytes());
    assert_eq!(ran.text(), SETTLED.replace("323456", "32345"));
}

#[test]
fn the_example_in_every_other_answer() {
    let text = example("new-plant.txt");
    let of_event = "Event 1: day 8000 (26 November 2021), withheld, Day-Ahead, unit 323456\n";
    for (arguments, expected) in [
        (&["working", "--event", "1", "--hour", "0"][..], of_event),
        (&["working", "--event", "1"], of_event),
        (
            &["line"],
            "Event 2: day 8000 (26 November 2021), bids, Day-Ahead, unit 323456, energy\n",
        ),
        (
            &["working", "--event", "1", "--format", "json"],
            "\"unit\": 323456,\n",
        ),
        (&["line", "--format", "json"], "\"unit\": 323456,\n"),
        (&["settle", "--format", "json"], "\"unit\": 323456,\n"),
        (
            &["settle", "--format", "csv"],
            ",withheld,day-ahead,323456,",
        ),
        (
            &["working", "--event", "1"],
            "event 1, this one: day 8000 (26 November 2021), unit 323456, group 7, period 44\n",
        ),
    ] {
        let ran = casetool(arguments, text.as_bytes());
        assert_eq!((ran.status, ran.errors.as_str()), (0, ""), "{arguments:?}");
        assert!(ran.text().contains(expected), "{}", ran.text());
        if arguments.contains(&"json") {
            answer(&ran, &schema());
        }
    }
}

#[test]
fn fuel_days_of_units_of_six_digits() {
    // By their low bytes 65,548 is 12: of one day, the lowest unit by its whole number bears the penalty.
    let fuel = |number: u64, cents: &str| {
        format!(
            "event day 1 kind fuel market real-time unit {number} period 0 inaccurate-hours none guarantee-change {cents}\n"
        )
    };
    let text = [
        unit(40_000),
        unit(65_548),
        fuel(40_000, "$0.00"),
        fuel(65_548, "$6000.00"),
    ]
    .concat();
    let ran = casetool(&["settle"], text.as_bytes());
    let note = "0 (this fuel day's penalty stands on event 0, unit 40000)\n";
    assert!(ran.text().contains(note), "{}", ran.text());
    let ran = casetool(
        &["working", "--event", "1", "--format", "json"],
        text.as_bytes(),
    );
    let value = answer(&ran, &schema());
    let events = value.at("working").at("fuel").at("events").list();
    let units: Vec<i128> = events
        .iter()
        .map(|event| event.at("unit").integer())
        .collect();
    assert_eq!(units, [40_000, 65_548]);
    let ran = casetool(&["working", "--event", "1"], text.as_bytes());
    assert!(ran.text().contains("event 0, unit 40000"), "{}", ran.text());
}

#[test]
fn generated_cases_beside_the_same_with_small_numbers() {
    let mut random = Random::new(785);
    let (mut cases, mut above) = (0, 0);
    for _ in 0..60 {
        let generated = any_case_in(Version::Two, &mut random);
        let (large, small) = (generated.input(), generated.numbered_through().input());
        above += usize::from(generated.case.units.iter().any(|unit| unit.unit > 65_535));
        for format in ["json", "csv"] {
            let arguments = ["settle", "--format", format];
            let settled = casetool_with("version.large", &arguments, &large);
            let expected = casetool_with("version.large", &arguments, &small);
            assert_eq!((settled.status, settled.errors.as_str()), (0, ""));
            let without_units = |text: &str| match format {
                "json" => {
                    let lines = text.lines().filter(|line| !line.contains("\"unit\": "));
                    lines.collect::<Vec<_>>().join("\n")
                }
                _ => {
                    let line = |line: &str| {
                        let mut columns: Vec<&str> = line.split(',').collect();
                        assert!(columns[0] != "record" || columns[9] == "unit", "{line}");
                        columns.remove(9);
                        columns.join(",")
                    };
                    text.lines().map(line).collect::<Vec<_>>().join("\n")
                }
            };
            assert_eq!(
                without_units(settled.text()),
                without_units(expected.text())
            );
        }
        cases += 1;
    }
    println!("{cases} cases, {above} with a number above 65,535");
    assert!(above > 20);
}

#[test]
fn the_schema_would_notice() {
    let schema = schema();
    let text = example("new-plant.txt");
    let path = file_with("version.schema", text.as_bytes());
    for (arguments, good, bad) in [
        (&["settle"][..], "\"unit\": 323456", "\"unit\": 1000000"),
        (&["settle"], "\"unit\": 323456", "\"unit\": -1"),
        (&["settle"], "\"group\": 7", "\"group\": 65536"),
        (&["check"], "\"version\": 2", "\"version\": 3"),
        (&["check"], "\"version\": 2", "\"version\": null"),
        (&["check"], "\"version\": 2,", ""),
    ] {
        let arguments = [arguments, &[&path, "--format", "json"]].concat();
        let ran = casetool(&arguments, b"");
        assert!(ran.text().contains(good), "{good}");
        answer(&ran, &schema);
        let changed = crate::support::json::parse(&ran.text().replacen(good, bad, 1));
        assert!(
            crate::support::json::broken(&changed, &schema, &schema).is_some(),
            "{bad}"
        );
    }
    let refused = [unit(1_000_000), event(12)].concat();
    let ran = casetool(&["check", "--format", "json"], refused.as_bytes());
    let value = answer(&ran, &schema);
    assert_eq!(value.at("number").integer(), 17);
    assert_eq!(value.at("version").integer(), 2);
    for (good, bad) in [
        ("\"number\": 17", "\"number\": 16"),
        ("\"number\": 17", "\"number\": 20"),
    ] {
        let changed = crate::support::json::parse(&ran.text().replacen(good, bad, 1));
        assert!(
            crate::support::json::broken(&changed, &schema, &schema).is_some(),
            "{bad}"
        );
    }
}
