//! One line from arguments: its figure for every component, what is needed for it and why, and how values are written.

use std::path::Path;

use crate::support::{casetool, file_with};
use crate::{SUM_OF_TIMES, asked};

/// That these arguments give this answer, a line of its own above what was read.
fn gives(arguments: &str, answer: &str) {
    let ran = asked(arguments);
    assert_eq!(
        (ran.status, ran.errors.as_str()),
        (0, ""),
        "line {arguments}"
    );
    let (read, rest): (Vec<&str>, Vec<&str>) =
        ran.text().lines().partition(|line| line.starts_with("of "));
    assert_eq!(rest.join("\n"), answer, "line {arguments}");
    assert_eq!(read.len(), 1, "line {arguments}");
    assert_eq!(ran.text().lines().nth(1), Some(read[0]), "line {arguments}");
}

/// That these arguments are read so.
fn reads(arguments: &str, read: &str) {
    let ran = asked(arguments);
    assert_eq!(ran.status, 0, "line {arguments}");
    assert_eq!(ran.text().lines().nth(1), Some(read), "line {arguments}");
}

/// That these arguments are a misuse with this message.
fn misused(arguments: &str, message: &str) {
    let ran = asked(arguments);
    assert_eq!((ran.status, ran.output.len()), (2, 0), "line {arguments}");
    assert_eq!(
        ran.errors,
        format!("casetool: {message}; see casetool line --help\n")
    );
}

const TIGHT: &str = "--market real-time --tight yes";

#[test]
fn energy_and_minimum_generation() {
    for component in ["energy", "minimum-generation"] {
        for (reference, line) in [
            ("6.25", "$25.00"),
            ("6.24", "$24.99"),
            ("0", "$24.99"),
            ("33.33", "$133.32"),
            ("33.34", "$133.34"),
            ("50.00", "$150.00"),
            ("9,900.00", "$10,000.00"),
            ("10,000.00", "$10,000.00"),
        ] {
            let answer = format!("{line}, the highest bid that passes");
            let of = format!("--component {component} --reference {reference}");
            gives(&format!("{of} --market day-ahead"), &answer);
            gives(&format!("{of} --market real-time --tight no"), &answer);
        }
        for (reference, price, hours, line) in [
            ("20.00", "50.00", "1000", "$28.76"),
            ("50.00", "50.00", "1000", "$58.76"),
            ("20.00", "50.00", "0", "$80.00"),
            ("20.00", "50.00", "1", "$80.00"),
            ("20.00", "50.00", "8784", "$20.99"),
            ("20.00", "0", "1", "$20.00"),
            ("0", "50.00", "1000", "$8.76"),
        ] {
            let of = format!("--component {component} --reference {reference} {TIGHT}");
            gives(
                &format!("{of} --average-price {price} --constrained-hours {hours}"),
                &format!("{line}, the highest bid that passes"),
            );
        }
    }
}

#[test]
fn the_other_components() {
    for (component, reference, line) in [
        ("reserve-or-regulation", "0", "$4.99, the highest"),
        ("reserve-or-regulation", "1.24", "$4.99, the highest"),
        ("reserve-or-regulation", "1.25", "$5.00, the highest"),
        ("reserve-or-regulation", "100.00", "$150.00, the highest"),
        ("reserve-or-regulation", "10000", "$10,000.00, the highest"),
        ("start-up-cost", "0", "$0.00, the highest"),
        ("start-up-cost", "1,000.00", "$3,000.00, the highest"),
        (
            "start-up-cost",
            "10,000,000.00",
            "$10,000,000.00, the highest",
        ),
        ("minimum-parameter", "1000", "2,000, the highest"),
        (
            "minimum-parameter",
            "1,000,000,000",
            "1,000,000,000, the highest",
        ),
        ("maximum-parameter", "100", "50, the lowest"),
        ("maximum-parameter", "101", "51, the lowest"),
        ("maximum-parameter", "0", "0, the lowest"),
        ("maximum-parameter", "2001", "1,001, the lowest"),
    ] {
        let arguments = format!("--component {component} --reference {reference}");
        let answer = format!("{line} bid that passes");
        gives(&arguments, &answer);
        // The line does not depend on the rest, which may be there.
        let rest = "--average-price 50.00 --constrained-hours 1000";
        gives(&format!("{arguments} {TIGHT} {rest}"), &answer);
    }
}

#[test]
fn the_three_times_and_their_sum() {
    for component in ["start-up-time", "minimum-run-time", "minimum-down-time"] {
        for (reference, line) in [
            ("60", "240 minutes"),
            ("0", "180 minutes"),
            ("1,000,000,000", "1,000,000,000 minutes"),
        ] {
            let [first, second] = SUM_OF_TIMES;
            gives(
                &format!("--component {component} --reference {reference}"),
                &format!("{line}, the highest bid that passes\n{first}\n{second}"),
            );
        }
    }
}

#[test]
fn what_a_line_depends_on_is_needed() {
    let energy = "--component energy --reference 50.00";
    let of_market =
        "--market is missing: for energy and minimum generation the line depends on the market";
    let of_tight = "--tight is missing: for energy and minimum generation in Real-Time the line depends on whether the hour is tight";
    let of_it =
        "for energy and minimum generation in a tight hour of Real-Time the line depends on it";
    for (arguments, message) in [
        (
            "--reference 50.00",
            "--component is missing: a line is that of one component",
        ),
        (
            "--market real-time --tight yes",
            "--component is missing: a line is that of one component",
        ),
        (
            "--component energy",
            "--reference is missing: every line depends on the reference",
        ),
        (
            "--component maximum-parameter --market day-ahead",
            "--reference is missing: every line depends on the reference",
        ),
        (energy, of_market),
        (
            "--component 1 --reference 50.00 --tight yes --average-price 50 --constrained-hours 1",
            of_market,
        ),
        (&format!("{energy} --market real-time"), of_tight),
        (
            &format!("{energy} --market RTM --average-price 50 --constrained-hours 1"),
            of_tight,
        ),
        (
            &format!("{energy} {TIGHT}"),
            &format!("--average-price is missing: {of_it}"),
        ),
        (
            &format!("{energy} {TIGHT} --constrained-hours 1000"),
            &format!("--average-price is missing: {of_it}"),
        ),
        (
            &format!("{energy} {TIGHT} --average-price 50.00"),
            &format!("--constrained-hours is missing: {of_it}"),
        ),
    ] {
        misused(arguments, message);
    }
}

#[test]
fn what_was_read_is_repeated() {
    reads(
        "--component energy --reference 0.00 --market DAM",
        "of component energy, reference $0.00, market day-ahead",
    );
    reads(
        "--constrained-hours 1,000 --average-price 50 --tight yes --market 1 --reference 50 --component 0",
        "of component energy, reference $50.00, market real-time, tight yes, average-price $50.00, constrained-hours 1,000",
    );
    reads(
        "--component start-up-time --reference 60 --tight no",
        "of component start-up-time, reference 60 minutes, tight no",
    );
    reads(
        "--component maximum-parameter --reference 1,001",
        "of component maximum-parameter, reference 1,001",
    );
}

#[test]
fn values_are_written_as_in_a_text() {
    let line = "$58.76, the highest bid that passes";
    for arguments in [
        "--component 0 --reference $50.00 --market 1 --tight 1 --average-price $50.00 --constrained-hours 1000",
        "--component Energy --reference 50 --market RTM --tight YES --average-price 50 --constrained-hours 1,000",
        "--constrained-hours 1000 --average-price 50.0 --tight yes --market rtm --reference $50 --component ENERGY",
    ] {
        gives(arguments, line);
    }
    gives(
        "--component 1 --reference $1,050 --market DAM",
        "$1,150.00, the highest bid that passes",
    );
    for reference in ["1,060 minutes", "1060minutes", "1060  minutes", " 1060 "] {
        let arguments = [
            "line",
            "--component",
            "start-up-time",
            "--reference",
            reference,
        ];
        let ran = casetool(&arguments, b"");
        let first = ran.text().lines().next();
        assert_eq!(first, Some("1,240 minutes, the highest bid that passes"));
    }
}

#[test]
fn values_that_cannot_be_read() {
    let market = "--component energy --reference 50 --market";
    for (arguments, message) in [
        (
            "--component enrgy --reference 50",
            "--component 'enrgy': did you mean energy?",
        ),
        (
            "--component fuel --reference 50",
            "--component 'fuel': expected energy, minimum-generation, reserve-or-regulation, start-up-cost, start-up-time, minimum-run-time, minimum-down-time, minimum-parameter, maximum-parameter, or its number, 0 to 8",
        ),
        (
            "--component energy --reference 1,50",
            "--reference '1,50': expected dollars with at most two decimals, such as $40.00",
        ),
        (
            "--component 4 --reference 1.5",
            "--reference '1.5': expected whole minutes, such as 180 minutes",
        ),
        (
            "--component 4 --reference 5MW",
            "--reference '5MW': reference is in minutes",
        ),
        (
            "--component 3 --reference 5minutes",
            "--reference '5minutes': reference has no such word after it",
        ),
        (
            "--component 7 --reference $5",
            "--reference '$5': expected a whole number",
        ),
        (
            &format!("{market} realtime"),
            "--market 'realtime': did you mean real-time?",
        ),
        (
            &format!("{market} RTM --tight maybe"),
            "--tight 'maybe': expected 0 or 1, or no or yes",
        ),
        (
            &format!("{market} RTM --tight 2"),
            "--tight '2': expected 0 or 1",
        ),
        (
            &format!("{market} DAM --average-price x"),
            "--average-price 'x': expected dollars with at most two decimals, such as $40.00",
        ),
        (
            &format!("{market} DAM --constrained-hours 8.5"),
            "--constrained-hours '8.5': expected a whole number",
        ),
    ] {
        misused(arguments, message);
    }
    for (component, word, problem) in [
        (
            "minimum generation",
            "50",
            "--component 'minimum generation': did you mean minimum-generation?",
        ),
        (
            "4",
            "180 minutes more",
            "--reference '180 minutes more': reference is in minutes",
        ),
        ("8", "", "--reference '': expected a whole number"),
    ] {
        let arguments = ["line", "--component", component, "--reference", word];
        let ran = casetool(&arguments, b"");
        let message = format!("casetool: {problem}; see casetool line --help\n");
        assert_eq!((ran.status, ran.errors), (2, message));
    }
}

#[test]
fn a_case_or_arguments() {
    let both = |what: &str, option: &str| {
        format!("{what} and {option} can't both be given: a line is that of a case or of arguments")
    };
    let energy = "--component energy --reference 50 --market DAM";
    for (arguments, message) in [
        (format!("case.txt {energy}"), both("a case", "--component")),
        (format!("{energy} -"), both("a case", "--component")),
        ("case.txt --tight no".to_string(), both("a case", "--tight")),
        (
            format!("{energy} --event 0"),
            both("--event", "--component"),
        ),
        (format!("--as text {energy}"), both("--as", "--component")),
        (
            format!("{energy} --correction c"),
            both("--correction", "--component"),
        ),
        (
            format!("{energy} --market RTM"),
            "--market is there twice".to_string(),
        ),
        (
            "--component".to_string(),
            "--component needs a value after it".to_string(),
        ),
        (
            format!("{energy} --hour 0"),
            "there is no option '--hour'".to_string(),
        ),
        (
            format!("{energy} --format csv"),
            "--format 'csv': expected text or json".to_string(),
        ),
    ] {
        misused(&arguments, &message);
    }
}

#[test]
fn an_answer_goes_to_its_file_and_an_old_one_is_renamed() {
    let path = file_with("line.answer", b"old");
    let old = format!("{path}.old");
    let energy = "--component energy --reference 50.00";
    gives(
        &format!("{energy} --market DAM"),
        "$150.00, the highest bid that passes",
    );
    let ran = asked(&format!("{energy} --market DAM -o {path}"));
    assert_eq!((ran.status, ran.output.len()), (0, 0));
    let answer = "$150.00, the highest bid that passes
of component energy, reference $50.00, market day-ahead
";
    assert_eq!(std::fs::read_to_string(&path).expect("the answer"), answer);
    for (market, status) in [("2", 1), ("RTM", 2), ("reel-time", 2)] {
        std::fs::write(&path, "old").expect("a file of the test");
        let ran = asked(&format!("{energy} --market {market} -o {path}"));
        assert_eq!((ran.status, ran.output.len()), (status, 0));
        let said =
            format!("casetool: nothing is written; the {path} that was there is now {old}\n");
        assert!(ran.errors.ends_with(&said), "{}", ran.errors);
        assert!(!Path::new(&path).exists());
        assert_eq!(std::fs::read_to_string(&old).expect("the old one"), "old");
    }
}
