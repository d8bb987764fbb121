//! scripts/casetool beside an `rt`, a `cargo` and a `cc` of the test.
#![cfg(unix)]

mod support;

use std::fs;
use std::io::{BufRead, BufReader};
use std::os::unix::fs::symlink;
use std::path::Path;
use std::thread::sleep;
use std::time::Duration;

use support::fake::{calls, ended, folder, mark, run, says_what_is_missing, start, without_times};

/// What the tool of the fake cargo prints.
const ARGUMENTS: &str = "check|a case|";
const LIBRARY_FIRST: &str = "casetool: the library is proved and built first, which takes long where nothing is proved yet\n";
const TOOL: &str = "casetool: the tool is built, which takes some seconds\n";
const BOTH: [&str; 2] = ["rt lib", "cargo build"];

#[test]
fn two_calls_at_once_build_once() {
    for (name, with_flock) in [("script-flock", true), ("script-mkdir", false)] {
        let folder = folder(name, with_flock);
        mark(&folder, "slow");
        let script = folder.join("scripts/casetool");
        let both = [start(&folder, &script), start(&folder, &script)].map(ended);
        for (status, output, errors) in &both {
            assert_eq!((*status, output.as_str()), (Some(0), ARGUMENTS), "{errors}");
        }
        let mut said = both.map(|(_, _, errors)| errors);
        said.sort_by_key(String::len);
        assert!(
            said[0].starts_with("casetool: waits for another call, which "),
            "{said:?}"
        );
        assert_eq!(said[0].lines().count(), 1);
        assert!(
            said[1].starts_with(LIBRARY_FIRST) && said[1].ends_with(TOOL),
            "{said:?}"
        );
        assert_eq!(calls(&folder), BOTH);
        assert!(!folder.join("target/casetool.lock.held").exists());
        let log = fs::read_to_string(folder.join("target/casetool.log")).expect("the log");
        assert!(log.starts_with("fn binary::one: proved\ncrate binary: modules "));
    }
}

#[test]
fn a_fresh_tool_is_run_without_cargo() {
    let folder = folder("script-fresh", true);
    assert_eq!(run(&folder, "casetool").0, Some(0));
    assert_eq!(calls(&folder), BOTH);
    let direct = (Some(0), ARGUMENTS.to_string(), String::new());
    assert_eq!(run(&folder, "casetool"), direct);
    assert_eq!(calls(&folder), BOTH);
    // It needs none of the programs then.
    for program in ["rt", "cargo", "cc", "id", "mkdir", "touch"] {
        fs::remove_file(folder.join("bin").join(program)).expect("a program of the test");
    }
    assert_eq!(run(&folder, "casetool"), direct);
}

#[test]
fn what_is_younger_than_the_tool_is_built_again() {
    let folder = folder("script-stale", true);
    assert_eq!(run(&folder, "casetool").0, Some(0));
    for (name, expected) in [
        ("rust/casetool/src/main.rs", &BOTH[1..]),
        ("rust/casetool/src/new.rs", &BOTH[1..]),
        ("rust/Cargo.toml", &BOTH[1..]),
        ("rust/Cargo.lock", &BOTH[1..]),
        ("target/staticlib/libapi.a", &BOTH[1..]),
        ("crates/listing/stdin", &BOTH),
        ("crates.txt", &BOTH),
    ] {
        let _ = fs::remove_file(folder.join("calls"));
        sleep(Duration::from_millis(20));
        mark(&folder, name);
        let (status, output, _) = run(&folder, "casetool");
        assert_eq!((status, output.as_str()), (Some(0), ARGUMENTS));
        assert_eq!(calls(&folder), expected, "{name}");
        assert_eq!(run(&folder, "casetool").2, "", "{name}");
        assert_eq!(calls(&folder), expected, "{name}");
    }
    // What cargo and rt leave in their own folders is no source; a tool that is gone is built.
    let _ = fs::remove_file(folder.join("calls"));
    sleep(Duration::from_millis(20));
    fs::create_dir(folder.join("crates/listing/out")).expect("a folder of the test");
    mark(&folder, "crates/listing/out/listing");
    mark(&folder, "rust/target/release/other");
    assert_eq!(run(&folder, "casetool").2, "");
    fs::remove_file(folder.join("rust/target/release/casetool")).expect("the tool");
    assert_eq!(run(&folder, "casetool").2, TOOL);
    assert_eq!(calls(&folder), &BOTH[1..]);
}

#[test]
fn what_changes_during_a_build_is_built_again() {
    let folder = folder("script-meanwhile", true);
    mark(&folder, "meanwhile");
    assert_eq!(run(&folder, "casetool").1, ARGUMENTS);
    fs::remove_file(folder.join("meanwhile")).expect("a file of the test");
    assert_eq!(run(&folder, "casetool").2, TOOL);
    assert_eq!(run(&folder, "casetool").2, "");
    assert_eq!(calls(&folder), ["rt lib", "cargo build", "cargo build"]);
}

#[test]
fn a_library_that_cannot_be_built() {
    for (name, with_flock) in [("script-broken", true), ("script-broken-mkdir", false)] {
        let folder = folder(name, with_flock);
        mark(&folder, "broken");
        for times in 1..=2 {
            let (status, output, errors) = run(&folder, "casetool");
            assert_eq!((status, output.as_str()), (Some(1), ""));
            let said = without_times(&errors).join("\n");
            assert!(
                said.contains("casetool: tariff NOT PROVED\nfn binary::one: proved\n"),
                "{errors}"
            );
            let last = "\nrt: the library tariff did not build, so nothing above it was checked\n";
            assert!(errors.ends_with(last), "{errors}");
            assert_eq!(calls(&folder), ["rt lib"].repeat(times));
        }
    }
}

#[test]
fn a_tool_that_cannot_be_built() {
    let folder = folder("script-broken-cargo", true);
    mark(&folder, "broken-cargo");
    for times in 1..=2 {
        let (status, output, errors) = run(&folder, "casetool");
        assert_eq!((status, output.as_str()), (Some(101), ""));
        assert!(errors.ends_with("error: no such thing\n"), "{errors}");
        assert_eq!(calls(&folder).len(), 1 + times);
    }
    fs::remove_file(folder.join("broken-cargo")).expect("a file of the test");
    assert_eq!(run(&folder, "casetool").1, ARGUMENTS);
}

#[test]
fn through_a_link() {
    let folder = folder("script-link", true);
    fs::create_dir(folder.join("links")).expect("a folder of the test");
    let (near, far) = (folder.join("links/near"), folder.join("far"));
    symlink("../scripts/casetool", &near).expect("a link");
    symlink(&near, &far).expect("a link");
    for script in [&near, &far] {
        let (status, output, errors) = ended(start(&folder, script));
        assert_eq!((status, output.as_str()), (Some(0), ARGUMENTS), "{errors}");
    }
    assert_eq!(calls(&folder), BOTH);
}

#[test]
fn what_is_missing_is_said_before_anything_is_proved() {
    for programs in [&["rt"][..], &["cargo"], &["cc"], &["rt", "cargo", "cc"]] {
        says_what_is_missing("casetool", programs, "");
    }
    // With a fresh library rt is not needed.
    let folder = folder("script-no-rt", true);
    fs::create_dir_all(folder.join("target/staticlib")).expect("a folder of the test");
    mark(&folder, "target/staticlib/libapi.a");
    fs::remove_file(folder.join("bin/rt")).expect("a program of the test");
    assert_eq!(
        run(&folder, "casetool"),
        (Some(0), ARGUMENTS.to_string(), TOOL.to_string())
    );
}

/// The lines of standard error, the second of which is awaited before rt goes on.
fn lines_as_they_come(folder: &Path, name: &str) -> Vec<String> {
    mark(folder, "unseen");
    let mut child = start(folder, &folder.join("scripts").join(name));
    let errors = child.stderr.take().expect("piped");
    let mut said = Vec::new();
    for line in BufReader::new(errors).lines() {
        said.push(line.expect("text"));
        if said.len() == 2 {
            // rt waits for this, and notes where it comes too late.
            fs::remove_file(folder.join("unseen")).expect("a file of the test");
        }
    }
    assert_eq!(child.wait().expect("its end").code(), Some(0));
    said
}

#[test]
fn each_crate_is_said_as_it_is_done() {
    let folder = folder("script-lines", true);
    let said = lines_as_they_come(&folder, "casetool");
    assert_eq!(calls(&folder), BOTH);
    assert_eq!(
        without_times(&said.join("\n")),
        [
            LIBRARY_FIRST.trim_end(),
            "casetool: binary proved",
            "casetool: api proved and compiled",
            TOOL.trim_end(),
        ]
    );
    for line in &said[1..3] {
        assert!(line.ends_with(" s)"), "{line}");
    }
}
