//! A correction that is named and empty, and a text that has no event: what a failed export or a failed
//! `write` leaves behind must not settle as a good month.

mod support;

use support::{casetool_in_both, casetool_where, file_with, repository, written};

const UNIT: &str = "unit 12 group 7 area no capability 500.0 MW\n";

#[test]
fn a_named_correction_that_is_empty() {
    let text = std::fs::read_to_string(repository("examples/two-plants.txt")).expect("the example");
    let case = file_with("given-nothing.case", &written(&text));
    let empty = file_with("given-nothing.correction", b"");
    for (command, more) in [
        ("settle", &[][..]),
        ("settle", &["--explain"]),
        ("check", &[]),
        ("working", &["--event", "0", "--hour", "0"]),
        ("working", &["--event", "0"]),
        ("line", &[]),
    ] {
        for (correction, name) in [(empty.as_str(), empty.as_str()), ("-", "standard input")] {
            let arguments = [&[command, &case, "--correction", correction], more].concat();
            let ran = casetool_in_both(&arguments, b"");
            assert_eq!((ran.status, ran.output.len()), (2, 0), "{command}");
            assert_eq!(
                ran.errors,
                format!(
                    "casetool: --correction {name}: it is empty, and corrects nothing; see casetool {command} --help\n"
                )
            );
        }
        // Without the option there is none, and that is right.
        let arguments = [&[command, case.as_str()], more].concat();
        assert_eq!(casetool_in_both(&arguments, b"").status, 0);
    }
}

/// A correction of the first references of the example, or of one more.
fn correction(count: usize) -> Vec<u8> {
    let lines = [
        "reference unit 12 component energy value $30.00\n",
        "reference unit 13 component energy value $20.00\n",
        "reference unit 13 component minimum-generation value $30.00\n",
        "reference unit 13 component maximum-parameter value 1\n",
    ];
    let text = lines[..count].concat();
    let ran = casetool_in_both(&["write", "--correction"], text.as_bytes());
    assert_eq!((ran.status, ran.output.len()), (0, 8 * count));
    ran.output
}

#[test]
fn the_settlement_says_which_correction_it_used() {
    let text = std::fs::read_to_string(repository("examples/two-plants.txt")).expect("the example");
    let case = file_with("given-nothing.settled", &written(&text));
    let first_line = |arguments: &[&str], input: &[u8]| {
        let ran = casetool_in_both(&[&["settle", &case], arguments].concat(), input);
        assert_eq!(ran.status, 0, "{}", ran.errors);
        ran.text().lines().next().expect("a line").to_string()
    };
    assert_eq!(first_line(&[], b""), "Correction: none");
    let path = file_with("given-nothing.corrected", &correction(3));
    let named = format!("Correction: {path}, 3 references");
    assert_eq!(first_line(&["--correction", &path], b""), named);
    let from_input = first_line(&["--correction", "-"], &correction(4));
    assert_eq!(from_input, "Correction: standard input, 4 references");
    let one = written(&format!(
        "{UNIT}reference unit 12 component energy value $1.00\n\
         event day 1 kind bids market day-ahead unit 12 period 0 component energy impact-hours none\n"
    ));
    let path = file_with("given-nothing.one", &correction(1));
    let ran = casetool_in_both(&["settle", "--correction", &path], &one);
    let start = format!("Correction: {path}, 1 reference\n\nUnit 12, group 7\n");
    assert!(ran.text().starts_with(&start), "{}", ran.text());
}

#[test]
fn a_text_with_no_event() {
    let past = "past group 7 kind fuel market day-ahead period 44 day 8000\n";
    let message = "casetool: standard input: this text has no event; with --allow-empty it is written all the same\n";
    for text in [
        String::new(),
        "\n".to_string(),
        "# export of November\r\n\r\n".to_string(),
        UNIT.to_string(),
        format!("{UNIT}{past}reference unit 12 component energy value $1.00\n"),
    ] {
        let ran = casetool_in_both(&["write"], text.as_bytes());
        assert_eq!((ran.status, ran.output.len()), (1, 0), "{text}");
        assert_eq!(ran.errors, message);
        let has_copy = !text.is_empty();
        for command in ["settle", "check"] {
            let ran = casetool_where(has_copy, &[command], text.as_bytes());
            assert_eq!(ran.status, 1, "{command}: {text}");
            let said = [ran.text(), ran.errors.as_str()].concat();
            // No bytes are no text, and as a case file too short.
            let expected = match text.as_str() {
                "" => "refused 1: ",
                _ => {
                    "standard input: this text has no event; with --allow-empty it is taken all the same\n"
                }
            };
            assert!(said.contains(expected), "{said}");
        }
        if has_copy {
            let ran = casetool_in_both(&["check", "--allow-empty"], text.as_bytes());
            assert_eq!((ran.status, ran.text()), (0, "accepted, 0 events\n"));
        }
        let ran = casetool_in_both(&["write", "--allow-empty"], text.as_bytes());
        assert_eq!((ran.status, ran.errors.as_str()), (0, ""));
        is_accepted_without_events(&ran.output);
    }
}

fn is_accepted_without_events(case: &[u8]) {
    let checked = casetool_in_both(&["check"], case);
    assert_eq!(
        (checked.status, checked.text()),
        (0, "accepted, 0 events\n")
    );
}

#[test]
fn a_text_with_no_event_where_nothing_can_be_asked_of_it() {
    let message = "casetool: standard input: this text has no event\n";
    for arguments in [
        &["working", "--event", "0", "--hour", "0"][..],
        &["working", "--event", "0"],
        &["line"],
    ] {
        let ran = casetool_in_both(arguments, UNIT.as_bytes());
        assert_eq!((ran.status, ran.output.len()), (1, 0));
        assert_eq!(ran.errors, message);
    }
}

#[test]
fn what_else_is_wrong_in_a_text_with_no_event() {
    // What is wrong in a line is said first.
    let ran = casetool_in_both(&["write"], b"unit 12");
    let message =
        "casetool: standard input: line 1, column 8: expected the keys group, capability\n";
    assert_eq!((ran.status, ran.errors.as_str()), (1, message));
    // A file has its name in the message.
    let path = file_with("given-nothing.text", UNIT.as_bytes());
    let ran = casetool_in_both(&["write", &path], b"");
    let start = format!("casetool: {path}: this text has no event;");
    assert!(ran.errors.starts_with(&start));
}

#[test]
fn a_correction_with_no_reference() {
    for text in ["", "# none this month\n"] {
        let ran = casetool_in_both(&["write", "--correction"], text.as_bytes());
        let message = "casetool: standard input: this text has no reference; with --allow-empty it is written all the same\n";
        assert_eq!((ran.status, ran.errors.as_str()), (1, message));
        let ran = casetool_in_both(&["write", "--correction", "--allow-empty"], text.as_bytes());
        assert_eq!((ran.status, ran.output.len()), (0, 0));
    }
    // Six references whose bytes could be those of a case with a past entry and no event.
    let bytes = written("past group 7 kind fuel market day-ahead period 0 day 1");
    assert_eq!(bytes.len(), 48);
    let shown = casetool_in_both(&["show", "--correction", "--version", "1"], &bytes);
    let start = "order as-written\nversion 1\n# correction: 6 references\n";
    assert!(shown.text().starts_with(start));
    let ran = casetool_in_both(&["write", "--correction"], &shown.output);
    assert_eq!((ran.status, ran.output), (0, bytes));
}

#[test]
fn a_case_file_of_36_bytes_is_accepted() {
    let case = written("");
    assert_eq!(case.len(), 36);
    is_accepted_without_events(&case);
    let settled = casetool_in_both(&["settle"], &case);
    let expected = "Correction: none\n\nTotals of 0 events\n    penalties        $0.00\n    make-ups         $0.00\n";
    assert_eq!((settled.status, settled.text()), (0, expected));
}
