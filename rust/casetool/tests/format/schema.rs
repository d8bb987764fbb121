//! Checks and workings as JSON, what the schema of docs/ would notice, and what python3 reads.

use std::collections::BTreeSet;
use std::io::Write;
use std::process::{Command, Stdio};

use attachment_h::layout::Version;
use attachment_h::{ROWS_LENGTH, Row, Working, settle, working};
use cases::Random;
use cases::faults::{CHECKED, faults_in};
use cases::generator::{Size, Wanted, any_case_in, case};

use crate::support::json::{Value, answer, broken, parse, schema};
use crate::support::{casetool, casetool_in_both, casetool_with, copies_of, in_turn, repository};

#[test]
fn refusals_as_json() {
    let schema = schema();
    let mut random = Random::new(753);
    let mut numbers = BTreeSet::new();
    let faults = Version::ALL.into_iter().flat_map(|version| {
        let faults = faults_in(version).map(move |fault| (version, fault));
        faults.filter(|(_, fault)| fault.number != 15)
    });
    for (version, fault) in faults {
        for _ in 0..4 {
            let wanted = Wanted::every_kind().in_version(version);
            let good = case(&mut random, wanted).input();
            let Some(input) = fault.put_into(&good, &mut random) else {
                continue;
            };
            let arguments = ["check", "--as", "case", "--format", "json"];
            let ran = casetool_with("schema.check", &arguments, &input);
            let value = answer(&ran, &schema);
            assert_eq!((ran.status, value.at("answer").text()), (1, "refused"));
            let number = value.at("number").integer();
            assert_eq!(number, i128::from(fault.number), "{}", fault.name);
            let words = casetool_with("schema.check", &arguments[..3], &input);
            let sentence = value.at("place").at("sentence").text();
            assert_eq!(words.text().lines().nth(1), Some(sentence));
            let version = match input.file.get(..2) {
                Some([number @ (1 | 2), 0]) => Value::Integer(i128::from(*number)),
                _ => Value::Null,
            };
            assert_eq!(*value.at("version"), version, "{}", fault.name);
            numbers.insert(fault.number);
        }
    }
    let every = CHECKED.into_iter().filter(|number| *number != 15);
    assert_eq!(numbers, every.collect::<BTreeSet<u8>>());
}

#[test]
fn checks_of_a_text_as_json() {
    let schema = schema();
    let example =
        std::fs::read_to_string(repository("examples/two-plants.txt")).expect("the example");
    let checked = |text: &str, status: u8| {
        let ran = casetool(&["check", "--format", "json"], text.as_bytes());
        assert_eq!((ran.status, ran.errors.as_str()), (status, ""));
        answer(&ran, &schema)
    };
    let value = checked(&example, 0);
    assert_eq!(value.at("answer").text(), "accepted");
    assert_eq!(value.at("events").integer(), 6);
    assert_eq!(value.at("version").integer(), 1);
    let value = checked(&format!("version 2\n{example}"), 0);
    assert_eq!(value.at("version").integer(), 2);
    let value = checked(&example.replace("area 1", "area 2"), 1);
    assert_eq!(value.at("line").integer(), 4);
    assert_eq!(value.at("column").integer(), 22);
    assert_eq!(value.at("source").text(), "standard input");
    let value = checked(&example.replace("kind", "type"), 1);
    assert_eq!(value.at("answer").text(), "mistakes");
    assert_eq!(value.at("mistakes").list().len(), 8);
    assert_eq!(value.at("more").integer(), 0);
    let first = value.at("mistakes").at("0");
    assert_eq!(
        (first.at("line").integer(), first.at("word").text()),
        (10, "type")
    );
    assert_eq!(first.at("problem").text(), "did you mean kind?");
    let value = checked(&"unit x\n".repeat(30), 1);
    assert_eq!(value.at("mistakes").list().len(), 20);
    assert_eq!(value.at("more").integer(), 40);
}

/// That a working is the library's, figure by figure.
fn same_working(value: &Value, expected: &Working) {
    let is_bid = value.at("kind").text() == "bids";
    let a = match is_bid {
        true => i128::from(expected.a.cast_signed()),
        false => expected.a.into(),
    };
    for (name, figure) in [
        ("a", a),
        ("r", expected.reference.into()),
        ("d", increase(expected)),
        ("s", expected.s.into()),
        ("g", expected.g.into()),
        ("time_sum", expected.total.into()),
        ("n3", expected.n3.into()),
        ("n2", expected.n2.into()),
    ] {
        assert_eq!(value.at(name).integer(), figure, "{name}");
    }
    assert_eq!(*value.at("flagged"), Value::Bool(expected.flagged));
    assert_eq!(*value.at("tight"), Value::Bool(expected.tight));
    match expected.failed {
        0 => assert_eq!(*value.at("failed_step"), Value::Null),
        step => assert_eq!(value.at("failed_step").integer(), step.into()),
    }
    let steps = value.at("comparisons").list();
    for (place, comparison) in expected.comparisons.iter().enumerate() {
        let Some(step) = steps.get(place) else {
            assert_eq!((comparison.left, comparison.right), (0, 0));
            continue;
        };
        assert_eq!(step.at("step").integer(), place as i128 + 1);
        assert_eq!(*step.at("taken"), Value::Bool(comparison.taken));
        assert_eq!(step.at("left").integer(), comparison.left.into());
        assert_eq!(step.at("right").integer(), comparison.right.into());
    }
}

/// d, from its two parts.
fn increase(working: &Working) -> i128 {
    i128::from(working.increase) - i128::from(working.decrease)
}

#[test]
fn workings_as_json() {
    let schema = schema();
    let mut random = Random::new(754);
    let (mut hours, mut flagged, mut negative, mut copies) = (0, 0, 0, 0);
    for place in 0..60 {
        let generated = any_case_in(in_turn(place), &mut random);
        let input = generated.input();
        copies += copies_of(&input);
        for event in (0..generated.case.events.len()).step_by(7) {
            let hour = random.below(24);
            let [number, of_day] = [event, hour].map(|number| number.to_string());
            let arguments = [
                "working", "--format", "json", "--event", &number, "--hour", &of_day,
            ];
            let ran = casetool_with("schema.working", &arguments, &input);
            let value = answer(&ran, &schema);
            let expected = working(&input.file, &input.correction, event, hour).expect("an hour");
            same_working(&value, &expected);
            assert_eq!(value.at("event").integer(), event as i128);
            assert_eq!(value.at("hour").integer(), hour as i128);
            let unit = generated.case.events[event].unit;
            assert_eq!(value.at("unit").integer(), i128::from(unit));
            hours += 1;
            flagged += usize::from(expected.flagged);
            negative += usize::from(increase(&expected) < 0);
        }
    }
    println!("{hours} hours, {flagged} flagged, {negative} with a negative d, {copies} copies");
    assert!(hours > 150 && flagged > 20 && negative > 20 && copies > 20);
}

#[test]
fn the_schema_would_notice() {
    let schema = schema();
    let example = std::fs::read(repository("examples/two-plants.txt")).expect("the example");
    let text = casetool_in_both(&["settle", "--format", "json"], &example)
        .text()
        .to_string();
    assert_eq!(broken(&parse(&text), &schema, &schema), None);
    for (good, bad) in [
        ("\"n3\": 2,", ""),
        ("\"n3\": 2", "\"n3\": 2, \"n4\": 2"),
        ("\"n3\": 2", "\"n3\": \"2\""),
        ("\"n3\": 2", "\"n3\": 457"),
        ("\"settled\"", "\"accepted\""),
        ("\"21984.00\"", "\"21984.0\""),
        ("\"21984.00\"", "\"$21984.00\""),
        ("\"21984.00\"", "\"\""),
        ("\"2021-11-26\"", "\"26 November 2021\""),
        ("\"2021-11-26\"", "\"2100-01-01\""),
        ("\"day\": 8000", "\"day\": 36525"),
        ("\"withheld\"", "\"withhold\""),
        ("[0, 5, 6, 7]", "[0, 5, 6, 24]"),
        ("[0, 5, 6, 7]", "[0, 5, 6, \"7\"]"),
        ("\"bids_in_force\": [0, ", "\"bids_in_force\": ["),
        ("\"restored_hours\": []", "\"restored_hours\": null"),
        (
            "\"correction\": null",
            "\"correction\": {\"source\": \"x\"}",
        ),
    ] {
        assert!(text.contains(good), "{good}");
        let changed = parse(&text.replacen(good, bad, 1));
        assert!(broken(&changed, &schema, &schema).is_some(), "{bad}");
    }
}

#[test]
fn everything_that_the_schema_names_has_to_be_there() {
    let schema = schema();
    let Value::Object(definitions) = schema.at("$defs") else {
        panic!("no definitions")
    };
    for (name, definition) in definitions {
        let Value::Object(rules) = definition else {
            panic!("{name}")
        };
        if let Some(Value::Object(properties)) = rules.get("properties") {
            let required = definition.at("required").list().iter().map(Value::text);
            let mut required: Vec<&str> = required.collect();
            required.sort_unstable();
            assert_eq!(required, properties.keys().collect::<Vec<_>>(), "{name}");
        }
    }
}

/// What python3 prints with this program and this input; nothing where there is no python3.
fn python(program: &str, input: &[u8]) -> Option<String> {
    let mut child = Command::new("python3")
        .args(["-c", program])
        .stdin(Stdio::piped())
        .stdout(Stdio::piped())
        .spawn()
        .ok()?;
    child
        .stdin
        .take()
        .expect("piped")
        .write_all(input)
        .expect("its input");
    let output = child.wait_with_output().expect("its output");
    assert!(output.status.success());
    Some(
        String::from_utf8(output.stdout)
            .expect("text")
            .replace('\r', ""),
    )
}

#[test]
fn python_reads_the_same() {
    let mut random = Random::new(755);
    let wanted = Wanted::of(Size::Full).in_version(Version::Two);
    let input = case(&mut random, wanted).input();
    let mut rows = vec![0; ROWS_LENGTH];
    let settled = settle(&input.file, &input.correction, &mut rows).expect("an accepted case");
    let rows = Row::first(&rows, settled.rows);
    let expected: Vec<String> = rows
        .iter()
        .map(|row| format!("{} {} {}\n", row.penalty.0, row.make_up.0, row.bids[23]))
        .collect();
    let expected = format!(
        "{}{} {}\n",
        expected.concat(),
        settled.penalties.0,
        settled.make_ups.0
    );
    let of_json = "import json, sys\n\
        got = json.load(sys.stdin)\n\
        for row in got['rows']: print(row['penalty_cents'], row['make_up_cents'], row['bids_in_force'][23])\n\
        print(got['totals']['penalties_cents'], got['totals']['make_ups_cents'])\n";
    let of_csv = "import csv, sys\n\
        for row in csv.DictReader(sys.stdin):\n    \
            bid = [row['bids_in_force_23']] if row['record'] == 'row' else []\n    \
            print(row['penalty_cents'], row['make_up_cents'], *bid)\n";
    for (format, program) in [("json", of_json), ("csv", of_csv)] {
        let ran = casetool_with("schema.python", &["settle", "--format", format], &input);
        match python(program, &ran.output) {
            Some(printed) => assert_eq!(printed, expected, "{format}"),
            None => println!("no python3 here: not read by it"),
        }
    }
    assert_eq!(rows.len(), 200);
}
