//! `settle --explain`: the settlement as it is, with the working of each event under its row.

use cases::Random;
use cases::generator::any_case_in;

use crate::example;
use crate::support::{casetool_in_both, casetool_with, copies_of, file_with, in_turn, written};

#[test]
fn the_example() {
    let text = example("two-plants.txt");
    let ran = casetool_in_both(&["settle", "--explain"], text.as_bytes());
    assert_eq!((ran.status, ran.errors.as_str()), (0, ""));
    assert_eq!(ran.text(), include_str!("../two-plants.explained"));
    assert_eq!(
        casetool_in_both(&["settle", "--explain"], &written(&text)),
        ran
    );
}

#[test]
fn the_example_with_its_correction() {
    let path = file_with(
        "money.explained",
        example("two-plants-correction.txt").as_bytes(),
    );
    let text = example("two-plants.txt");
    let arguments = ["settle", "--explain", "--correction", &path];
    let ran = casetool_in_both(&arguments, text.as_bytes());
    assert_eq!((ran.status, ran.errors.as_str()), (0, ""));
    assert!(ran.text().contains(
        "    make-up          $1,500.00\n      1. r (23.3.1.4): the reference level of the unit and component\n"
    ));
    assert!(
        ran.text().contains(
            "\n           $1,500.000, to the nearest cent: $1,500.00\n\nUnit 13, group 7\n"
        )
    );
}

#[test]
fn nothing_to_explain() {
    let text = "unit 12 group 7 capability 1 MW\n";
    let ran = casetool_in_both(&["settle", "--explain", "--allow-empty"], text.as_bytes());
    assert_eq!(
        ran,
        casetool_in_both(&["settle", "--allow-empty"], text.as_bytes())
    );
    assert!(ran.text().contains("\nUnit 12, group 7\n  no events\n"));
}

/// The lines of a settlement that are of a working, by event, and the others.
pub fn parted(text: &str) -> (Vec<(usize, String)>, String) {
    let (mut workings, mut others) = (Vec::<(usize, String)>::new(), String::new());
    let mut event = None;
    for line in text.lines() {
        if let Some(line) = line
            .strip_prefix("    ")
            .filter(|rest| rest.starts_with("  "))
        {
            let line = format!("{line}\n");
            match workings.last_mut() {
                Some((number, steps)) if Some(*number) == event => *steps += &line,
                _ => workings.push((event.expect("an event"), line)),
            }
            continue;
        }
        if let Some(rest) = line.strip_prefix("  event ") {
            let (number, _) = rest.split_once(':').expect("a number");
            event = Some(number.parse().expect("a number"));
        }
        others += &format!("{line}\n");
    }
    (workings, others)
}

#[test]
fn generated_cases_have_the_workings_of_their_events() {
    let mut random = Random::new(772);
    let (mut cases, mut copies, mut events) = (0, 0, 0);
    for place in 0..40 {
        let generated = any_case_in(in_turn(place), &mut random);
        let input = generated.input();
        let ran = casetool_with("money.settled", &["settle", "--explain"], &input);
        assert_eq!((ran.status, ran.errors.as_str()), (0, ""));
        let (workings, others) = parted(ran.text());
        let settled = casetool_with("money.settled", &["settle"], &input);
        assert_eq!(others, settled.text());
        assert_eq!(workings.len(), generated.case.events.len());
        for (number, steps) in workings.iter().step_by(5) {
            let number = number.to_string();
            let arguments = ["working", "--event", &number];
            let alone = casetool_with("money.settled", &arguments, &input);
            let (heading, rest) = alone.text().split_once('\n').expect("a heading");
            assert!(heading.starts_with(&format!("Event {number}: ")));
            assert_eq!(rest, steps);
            events += 1;
        }
        cases += 1;
        copies += copies_of(&input);
    }
    println!("{cases} settlements, {copies} copies, {events} events of them worked alone");
    assert!(events > 100 && copies > 15);
}
