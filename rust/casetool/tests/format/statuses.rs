//! Exit statuses: 0 done, 1 refused or unreadable, 2 misuse, of every command in every format.

use crate::support::{casetool, casetool_in_both, casetool_where, file_with, repository, written};

const EVENT_AND_HOUR: [&str; 4] = ["--event", "0", "--hour", "0"];

/// Every command that reads a case, in every format that it has.
fn commands() -> Vec<Vec<&'static str>> {
    let mut found = Vec::new();
    for (name, formats, more) in [
        ("check", &["text", "json"][..], &[][..]),
        ("settle", &["text", "json", "csv"], &[]),
        ("settle", &["text", "json"], &["--explain"]),
        ("working", &["text", "json"], &EVENT_AND_HOUR),
        ("working", &["text", "json"], &EVENT_AND_HOUR[..2]),
        ("line", &["text", "json"], &[]),
    ] {
        found.push([&[name], more].concat());
        found.extend(
            formats
                .iter()
                .map(|format| [&[name, "--format", format], more].concat()),
        );
    }
    assert_eq!(found.len(), 19);
    found
}

fn example() -> String {
    std::fs::read_to_string(repository("examples/two-plants.txt")).expect("the example")
}

#[test]
fn done_or_refused() {
    let good = example();
    let case = written(&good);
    let cut_in_its_first_unit = &case[..40];
    let refused = good.replace("area 1", "area 2");
    let mistaken = good.replace("kind", "type");
    for command in commands() {
        for (input, status, has_copy) in [
            (good.as_bytes(), 0, true),
            (&case, 0, true),
            (refused.as_bytes(), 1, true),
            (&written(&refused), 1, true),
            (mistaken.as_bytes(), 1, true),
            (cut_in_its_first_unit, 1, false),
            (b"", 1, false),
            (b"# nothing\n", 1, true),
        ] {
            let ran = casetool_where(has_copy, &command, input);
            assert_eq!(ran.status, status, "{command:?}: {}", ran.errors);
            // There is an answer or a message, and with status 1 only a check has an answer.
            let answered = status == 0 || command[0] == "check" && ran.errors.is_empty();
            assert_eq!(ran.output.is_empty(), !answered, "{command:?}");
            assert_eq!(ran.errors.is_empty(), answered, "{command:?}");
        }
    }
}

#[test]
fn misused() {
    let good = example();
    let old = file_with("statuses.old", b"old");
    for command in commands() {
        for misuse in [
            &["--fast"][..],
            &["--format", "xml"],
            &["--correction", &old, "--correction", &old],
            &["--correction", "/dev/null"],
            &["a", "b"],
        ] {
            let ran = casetool(&[command.as_slice(), misuse].concat(), good.as_bytes());
            assert_eq!(
                (ran.status, ran.output.len()),
                (2, 0),
                "{command:?} {misuse:?}"
            );
            let help = format!("; see casetool {} --help\n", command[0]);
            assert!(ran.errors.ends_with(&help), "{}", ran.errors);
        }
    }
}

#[test]
fn an_answer_in_every_format_goes_to_its_file() {
    let good = example().into_bytes();
    for (place, command) in commands().into_iter().enumerate() {
        let path = file_with(&format!("statuses.{place}"), b"old");
        let ran = casetool(&[command.as_slice(), &["-o", &path]].concat(), &good);
        assert_eq!((ran.status, ran.output.len()), (0, 0));
        let answer = std::fs::read(&path).expect("the answer");
        assert_eq!(answer, casetool_in_both(&command, &good).output);
        // A text with mistakes leaves no old answer, but that of a check in JSON, which is an answer.
        let ran = casetool(&[command.as_slice(), &["-o", &path]].concat(), b"unit 12");
        let answered = command[..] == ["check", "--format", "json"];
        assert_eq!(
            (ran.status, std::path::Path::new(&path).exists()),
            (1, answered)
        );
        if answered {
            let answer = std::fs::read_to_string(&path).expect("the answer");
            assert!(answer.contains("\"answer\": \"mistakes\""));
        } else {
            assert!(
                ran.errors
                    .ends_with(&format!("{path} that was there is now {path}.old\n"))
            );
        }
    }
}
