//! scripts/example and scripts/test beside an `rt`, a `cargo` and a `cc` of the test.
#![cfg(unix)]

mod support;

use std::fs;
use std::io::{BufRead, BufReader};

use support::fake::{calls, folder, mark, run, says_what_is_missing, start, without_times};

#[test]
fn the_example_says_what_it_proves_and_what_was_proved() {
    let folder = folder("script-example", true);
    let (status, output, errors) = run(&folder, "example");
    assert_eq!((status, output.as_str()), (Some(0), "8000 1 12\n"));
    assert_eq!(
        without_times(&errors),
        [
            "example: proves the programs listing and pencil and the crates under them; what is proved already takes a second",
            "example: binary proved",
            "example: listing proved and compiled",
            "example: pencil proved and compiled",
            "example: proved: listing, pencil and the crates under them, in this call binary, listing, pencil",
            "example: so these lines, and those of every other case file, are what the definitions in crates/*/specs say; README.md has what that rests on",
        ]
    );
    assert_eq!(
        fs::read_to_string(folder.join("calls")).expect("calls"),
        "rt run\nrt run\n"
    );
    for name in ["listing", "pencil"] {
        assert!(folder.join("target/bin").join(name).exists(), "{name}");
    }
}

#[test]
fn an_example_that_is_not_proved() {
    let folder = folder("script-example-broken", true);
    mark(&folder, "broken");
    let (status, output, errors) = run(&folder, "example");
    assert_eq!((status, output.as_str()), (Some(1), ""));
    assert!(without_times(&errors).contains(&"example: tariff NOT PROVED".to_string()));
    assert!(
        errors
            .ends_with("\nrt: the library tariff did not build, so nothing above it was checked\n")
    );
    assert!(!errors.contains("example: proved"));
}

#[test]
fn crates_are_said_as_they_are_done() {
    for (name, with_errors, line) in [
        ("example", true, "example: binary proved ("),
        ("test", false, "rt: binary proved (after "),
    ] {
        let folder = folder(&format!("script-lines-{name}"), true);
        mark(&folder, "unseen");
        let mut child = start(&folder, &folder.join("scripts").join(name));
        let output = child.stdout.take().expect("piped");
        let errors = child.stderr.take().expect("piped");
        let lines: Box<dyn BufRead> = match with_errors {
            true => Box::new(BufReader::new(errors)),
            false => Box::new(BufReader::new(output)),
        };
        let mut lines = lines.lines().map(|line| line.expect("text"));
        assert!(lines.any(|said| said.starts_with(line)), "{name}");
        // rt waits for this, and notes where it comes too late.
        fs::remove_file(folder.join("unseen")).expect("a file of the test");
        assert!(lines.count() >= 2);
        child.wait().expect("its end");
        assert!(!calls(&folder).contains(&"rt unseen".to_string()), "{name}");
    }
}

#[test]
fn what_is_missing_is_said() {
    for name in ["example", "library"] {
        says_what_is_missing(name, &["rt"], "");
    }
    for programs in [&["rt"][..], &["cargo"], &["cc"], &["rt", "cargo", "cc"]] {
        says_what_is_missing("test", programs, "0 passed, 1 failed\n");
    }
    // The example needs no more than rt.
    let folder = folder("script-example-rt", true);
    for program in ["cargo", "cc"] {
        fs::remove_file(folder.join("bin").join(program)).expect("a program of the test");
    }
    assert_eq!(run(&folder, "example").0, Some(0));
}

#[test]
fn the_library_is_put_where_it_is_looked_for() {
    let folder = folder("script-library", true);
    let (status, output, errors) = run(&folder, "library");
    assert_eq!((status, output.as_str()), (Some(0), ""));
    assert_eq!(
        without_times(&errors),
        ["library: binary proved", "library: api proved and compiled"]
    );
    assert_eq!(calls(&folder), ["rt lib"]);
    assert!(folder.join("target/staticlib/libapi.a").exists());
}

/// What scripts/test calls, in order.
const STEPS: [&str; 7] = [
    "rt ci",
    "cargo fmt",
    "cargo fmt",
    "rt lib",
    "cargo test",
    "cc -std=c11",
    "cc -shared",
];

#[test]
fn the_last_line_of_the_gate_is_its_verdict() {
    let folder = folder("script-test", true);
    let (status, output, errors) = run(&folder, "test");
    let verdict = output.lines().last();
    assert_eq!(
        (status, verdict),
        (Some(0), Some("3 passed, 0 failed")),
        "{errors}"
    );
    let said = "test: proves all that this machine has not passed yet, from nothing; each crate is said as it is done, with the time so far\n";
    assert_eq!(errors, said);
    assert_eq!(calls(&folder), STEPS);
    for name in ["bin/listing", "bin/pencil", "staticlib/libapi.a"] {
        assert!(folder.join("target").join(name).exists(), "{name}");
    }
}

#[test]
fn a_gate_that_fails_says_so_in_its_last_line() {
    for (mark_name, verdict, steps) in [
        ("broken", "1 passed, 1 failed", &STEPS[..1]),
        // An edit that cannot be tried is no edit that was refused.
        ("bad-edits", "3 passed, 1 failed", &STEPS[..1]),
        // Without cargo's fmt the step of its own is left out, as before.
        (
            "broken-cargo",
            "3 passed, 1 failed",
            &["rt ci", "cargo fmt", "rt lib", "cargo test"],
        ),
    ] {
        let folder = folder(&format!("script-test-{mark_name}"), true);
        mark(&folder, mark_name);
        let (status, output, _) = run(&folder, "test");
        assert_eq!((status, output.lines().last()), (Some(1), Some(verdict)));
        assert_eq!(calls(&folder), steps);
    }
}
