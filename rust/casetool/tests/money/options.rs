//! The options of both commands, cases that are refused, and where the answer goes.

use std::path::Path;

use crate::support::{casetool, casetool_in_both, casetool_where, file_with, written};
use crate::{example, works_with};

#[test]
fn with_an_hour_it_is_the_working_of_the_hour() {
    works_with(
        &["--hour", "18"],
        &example("two-plants.txt"),
        1,
        "\
Event 1: day 8000 (26 November 2021), dispatch, Real-Time, unit 13
Hour 18
    a      3,010 (301.0 MW), undelivered
    S      3,010 (301.0 MW), the group's a of this hour, added
    tight  no
  1. a > 15 × rate: 3,010 > 3,000, exceeded
  2. a > 1,000: 3,010 > 1,000, exceeded
  3. S > 2,000: 3,010 > 2,000, exceeded
Step 1 failed: hour 18 is flagged
",
    );
}

#[test]
fn options_that_do_not_go_together() {
    let text = example("two-plants.txt");
    let csv = "--explain and --format csv can't both be given: a table of rows has no place for a working";
    for (arguments, message) in [
        (&["working", "--hour", "3"][..], "--event is missing"),
        (
            &["working", "--event", "6"],
            "--event 6: this case has 6 events, 0 to 5",
        ),
        (
            &["working", "--event", "0", "--format", "csv"],
            "--format 'csv': expected text or json",
        ),
        (&["settle", "--explain", "--format", "csv"], csv),
        (&["settle", "--format", "csv", "--explain"], csv),
        (&["settle", "--event", "0"], "there is no option '--event'"),
        (
            &["settle", "--explain", "--explain"],
            "--explain is there twice",
        ),
        (
            &["working", "--event", "0", "--explain"],
            "there is no option '--explain'",
        ),
        (&["check", "--explain"], "there is no option '--explain'"),
        (&["line", "--explain"], "there is no option '--explain'"),
        (&["show", "--explain"], "there is no option '--explain'"),
    ] {
        let ran = casetool(arguments, text.as_bytes());
        assert_eq!((ran.status, ran.output.len()), (2, 0), "{arguments:?}");
        let help = format!("see casetool {} --help", arguments[0]);
        assert_eq!(ran.errors, format!("casetool: {message}; {help}\n"));
    }
}

/// Bytes of a case file that is cut in its first unit, and has no copy.
const CUT: usize = 40;

/// That an input is refused as the working of an hour is, by both commands in both formats, with this in the second line.
fn refused(input: &[u8], correction: &[&str], said: &str) {
    let hour = ["working", "--event", "0", "--hour", "0"];
    let has_copy = input.len() != CUT;
    let expected = casetool_where(has_copy, &[&hour, correction].concat(), input);
    assert_eq!((expected.status, expected.output.len()), (1, 0));
    assert_eq!(expected.errors.lines().nth(1), Some(said));
    for arguments in [&hour[..3], &["settle", "--explain"]] {
        for format in ["text", "json"] {
            let arguments = [arguments, correction, &["--format", format]].concat();
            assert_eq!(casetool_where(has_copy, &arguments, input), expected);
        }
    }
}

#[test]
fn a_refused_case_is_refused_as_the_working_of_an_hour_is() {
    let good = example("two-plants.txt");
    let broken = good.replace("area 1", "area 2");
    refused(
        broken.as_bytes(),
        &[],
        "standard input: line 4, column 22: units, record 1 (unit 13): area is 2; expected 0 or 1",
    );
    refused(
        &written(&broken),
        &[],
        "units, record 1 (unit 13): area is 2; expected 0 or 1",
    );
    let reference = b"reference unit 12 component energy value 3\n";
    let path = file_with("money.refused", reference);
    refused(
        good.as_bytes(),
        &["--correction", &path],
        "standard input: line 29, column 71: event 4 (day 8000, bids, Day-Ahead, unit 13, minimum generation): the correction has no reference for unit 13, component minimum generation",
    );
    refused(
        good.replace("kind", "type").as_bytes(),
        &[],
        "casetool: standard input: line 11, column 14, 'type': did you mean kind?",
    );
    refused(
        &written(&good)[..CUT],
        &[],
        "the header: the last section, events, ends at 2,004; the file at 40",
    );
}

#[test]
fn an_event_that_a_refused_case_lacks() {
    // The case is looked at first.
    let broken = example("two-plants.txt").replace("area 1", "area 2");
    let ran = casetool_in_both(&["working", "--event", "99"], broken.as_bytes());
    assert_eq!(ran.status, 1);
    assert!(ran.errors.starts_with("casetool: refused 6: "));
}

#[test]
fn an_answer_goes_to_its_file_and_an_old_one_is_renamed() {
    let text = example("two-plants.txt");
    for command in [&["working", "--event", "2"][..], &["settle", "--explain"]] {
        let path = file_with("money.answer", b"old");
        let arguments = [command, &["-o", &path]].concat();
        let ran = casetool(&arguments, text.as_bytes());
        assert_eq!((ran.status, ran.output.len()), (0, 0));
        let answer = std::fs::read(&path).expect("the answer");
        assert_eq!(answer, casetool_in_both(command, text.as_bytes()).output);
        let broken = text.replace("area 1", "area 2");
        let ran = casetool(&arguments, broken.as_bytes());
        assert_eq!((ran.status, Path::new(&path).exists()), (1, false));
        let said =
            format!("casetool: nothing is written; the {path} that was there is now {path}.old\n");
        assert!(ran.errors.ends_with(&said), "{}", ran.errors);
    }
}

#[test]
fn help() {
    let help = casetool(&["working", "--help"], b"");
    assert!(
        help.text()
            .starts_with("casetool working [TEXT or CASE] --event N [--hour H] ")
    );
    for words in [
        "Without --hour the working of the event's money",
        "casetool settle --explain",
    ] {
        assert!(help.text().contains(words), "{words}");
    }
    let help = casetool(&["settle", "--help"], b"");
    assert!(help.text().contains("[--explain]"));
    assert!(
        help.text()
            .contains("  --explain          under each event the working of its money")
    );
}
