//! Arguments, exit statuses, messages and help, in this process and by the program itself.

mod support;

use std::io::{self, ErrorKind, Read, Write};
use std::process::{Command, Stdio};

use casetool::command::help::Topic;
use support::{casetool, file_with, repository, written};

#[test]
fn help_of_every_command() {
    let whole = casetool(&["--help"], b"");
    assert_eq!((whole.status, whole.errors.as_str()), (0, ""));
    assert_eq!(casetool(&["-h"], b""), whole);
    assert_eq!(casetool(&["help"], b""), whole);
    for topic in Topic::COMMANDS {
        let name = topic.name();
        assert!(whole.text().contains(&format!("casetool {name} ")));
        let help = casetool(&[name, "--help"], b"");
        assert_eq!((help.status, help.errors.as_str()), (0, ""));
        assert!(help.text().starts_with(&format!("casetool {name} ")));
        assert!(help.text().contains("-o, --output FILE"));
        for arguments in [&[name, "-h"], &["help", name]] {
            assert_eq!(casetool(arguments, b""), help);
        }
        assert_eq!(casetool(&[name, "file", "-o", "out", "--help"], b""), help);
    }
    let version = casetool(&["--version"], b"");
    assert_eq!((version.status, version.text()), (0, "casetool 0.1.0\n"));
}

#[test]
fn misuse() {
    for (arguments, message) in [
        (&[][..], "a command is missing; see casetool --help"),
        (
            &["setle"],
            "there is no command 'setle'; see casetool --help",
        ),
        (
            &["help", "x"],
            "there is no command 'x'; see casetool --help",
        ),
        (
            &["--version", "junk"],
            "one argument too many, 'junk'; see casetool --help",
        ),
        (
            &["--help", "write"],
            "one argument too many, 'write'; see casetool --help",
        ),
        (
            &["help", "write", "extra"],
            "one argument too many, 'extra'; see casetool --help",
        ),
        (
            &["--color"],
            "there is no command '--color'; see casetool --help",
        ),
        (
            &["check", "--fast"],
            "there is no option '--fast'; see casetool check --help",
        ),
        (
            &["write", "--event", "1"],
            "there is no option '--event'; see casetool write --help",
        ),
        (
            &["show", "a", "b"],
            "one file too many, 'b'; see casetool show --help",
        ),
        (
            &["show", "--", "-a", "-b"],
            "one file too many, '-b'; see casetool show --help",
        ),
        (
            &["write", "-o"],
            "-o needs a value after it; see casetool write --help",
        ),
        (
            &["write", "-o", "a", "--output", "b"],
            "--output is there twice; see casetool write --help",
        ),
        (
            &["show", "--correction", "--correction"],
            "--correction is there twice; see casetool show --help",
        ),
        (
            &["settle", "a", "--correction"],
            "--correction needs a value after it; see casetool settle --help",
        ),
        (
            &["settle", "--as", "words"],
            "--as 'words': expected text or case; see casetool settle --help",
        ),
        (
            &["check", "--as"],
            "--as needs a value after it; see casetool check --help",
        ),
        (
            &["show", "--as", "text"],
            "there is no option '--as'; see casetool show --help",
        ),
        (
            &["settle", "--format", "xml"],
            "--format 'xml': expected text, json or csv; see casetool settle --help",
        ),
        (
            &["check", "--format", "csv"],
            "--format 'csv': expected text or json; see casetool check --help",
        ),
        (
            &["write", "--format", "json"],
            "there is no option '--format'; see casetool write --help",
        ),
        (
            &["settle", "--format", "json", "--format", "csv"],
            "--format is there twice; see casetool settle --help",
        ),
        (
            &["working", "--allow-empty"],
            "there is no option '--allow-empty'; see casetool working --help",
        ),
        (
            &["line", "--allow-empty"],
            "there is no option '--allow-empty'; see casetool line --help",
        ),
        (
            &["working", "--component", "energy"],
            "there is no option '--component'; see casetool working --help",
        ),
        (
            &["settle", "--correction", "-"],
            "the case and the correction can't both be standard input; see casetool settle --help",
        ),
    ] {
        let ran = casetool(arguments, b"");
        assert_eq!((ran.status, ran.output.len()), (2, 0), "{arguments:?}");
        assert_eq!(ran.errors, format!("casetool: {message}\n"));
    }
}

#[test]
fn misuse_of_working() {
    let case = written(
        "unit 12 group 7 capability 1 MW\n\
         event day 1 kind fuel market real-time unit 12 period 0 inaccurate-hours none guarantee-change $0",
    );
    for (arguments, message) in [
        (&[][..], "--event is missing"),
        (&["--hour", "0"], "--event is missing"),
        (&["--event", "0", "--hour"], "--hour needs a value after it"),
        (
            &["--event", "0", "--hour", "24"],
            "--hour '24': expected 0 to 23",
        ),
        (
            &["--event", "0", "--hour", "-1"],
            "--hour '-1': expected 0 to 23",
        ),
        (
            &["--event", "x", "--hour", "0"],
            "--event 'x': expected a number from 0",
        ),
        (
            &["--event", "", "--hour", "0"],
            "--event '': expected a number from 0",
        ),
        (&["--event", "0", "--event", "0"], "--event is there twice"),
        (
            &["--event", "0", "--hour", "0", "--hour", "0"],
            "--hour is there twice",
        ),
        (&["--event", "1"], "--event 1: this case has one event, 0"),
        (
            &["--event", "1", "--hour", "0"],
            "--event 1: this case has one event, 0",
        ),
    ] {
        let ran = casetool(&[&["working"], arguments].concat(), &case);
        assert_eq!((ran.status, ran.output.len()), (2, 0), "{arguments:?}");
        assert_eq!(
            ran.errors,
            format!("casetool: {message}; see casetool working --help\n")
        );
    }
    let unit = "unit 12 group 7 area no capability 1 MW\n";
    let event =
        |day| format!("event day {day} kind withheld market day-ahead unit 12 period 0 impact 0\n");
    for (text, events) in [
        (unit.to_string(), "no events"),
        (
            [unit.to_string(), event(1), event(2), event(3)].concat(),
            "3 events, 0 to 2",
        ),
    ] {
        for hour in [&["--hour", "0"][..], &[]] {
            let arguments = [&["working", "--event", "3"], hour].concat();
            let ran = casetool(&arguments, &written(&text));
            assert_eq!((ran.status, ran.output.len()), (2, 0));
            let message = format!("--event 3: this case has {events}; see casetool working --help");
            assert_eq!(ran.errors, format!("casetool: {message}\n"));
        }
    }
    for hour in [&["--hour", "0"][..], &[]] {
        let refused = casetool(&[&["working", "--event", "0"], hour].concat(), &case[..40]);
        assert_eq!((refused.status, refused.output.len()), (1, 0));
        assert!(refused.errors.starts_with("casetool: refused 4: "));
    }
}

#[test]
fn files_that_cannot_be_read_or_written() {
    for name in ["write", "show", "check", "settle"] {
        let ran = casetool(&[name, "/no/such/file"], b"");
        assert_eq!((ran.status, ran.output.len()), (1, 0));
        assert!(
            ran.errors
                .starts_with("casetool: can't read /no/such/file: ")
        );
        let folder = repository("examples");
        let ran = casetool(&[name, folder.to_str().expect("text")], b"");
        assert_eq!(ran.status, 1);
    }
    let arguments = ["write", "--allow-empty", "-o", "/no/such/folder/case"];
    let ran = casetool(&arguments, b"");
    assert_eq!(ran.status, 1);
    assert!(
        ran.errors
            .starts_with("casetool: can't write /no/such/folder/case: ")
    );
    let ran = casetool(&["check"], &vec![b' '; (16 << 20) + 1]);
    assert_eq!(
        ran.errors,
        "casetool: standard input has more than 16,777,216 bytes: that is no case\n"
    );
}

#[test]
fn files_and_standard_input_give_the_same() {
    let text = std::fs::read(repository("examples/two-plants.txt")).expect("the example");
    let case = casetool(&["write"], &text).output;
    let path = file_with("command-line.case", b"");
    let to_file = casetool(&["write", "-", "-o", &path], &text);
    assert_eq!((to_file.status, to_file.output.len()), (0, 0));
    assert_eq!(std::fs::read(&path).expect("the case"), case);
    for name in ["show", "check", "settle"] {
        let from_input = casetool(&[name], &case);
        assert_eq!(from_input.status, 0);
        assert_eq!(casetool(&[name, "-"], &case), from_input);
        assert_eq!(casetool(&[name, &path], b""), from_input);
        assert_eq!(casetool(&[name, "--", &path], b""), from_input);
        let answer = file_with("command-line.answer", b"");
        assert_eq!(casetool(&[name, "--output", &answer, &path], b"").status, 0);
        assert_eq!(
            std::fs::read(&answer).expect("the answer"),
            from_input.output
        );
    }
}

#[test]
fn a_correction_from_standard_input() {
    let case = written("unit 12 group 7 capability 1 MW");
    let path = file_with("command-line.corrected", &case);
    let text = "reference unit 12 component energy value $1.00 # the correct one\n";
    let correction = casetool(&["write", "--correction"], text.as_bytes());
    assert_eq!((correction.status, correction.output.len()), (0, 8));
    let shown = casetool(&["show", "--correction"], &correction.output);
    let expected =
        "version 1\n# correction: 1 reference\n\nreference unit 12 component energy value $1.00\n";
    assert_eq!((shown.status, shown.text()), (0, expected));
    let ran = casetool(&["check", &path, "--correction", "-"], &correction.output);
    assert_eq!((ran.status, ran.text()), (0, "accepted, 0 events\n"));
    let ran = casetool(&["show", "--correction"], &[0; 9]);
    let message = "casetool: standard input: no correction: it has 9 bytes; expected a multiple of 8, at most 2,048, or a multiple of 12, at most 3,072, in version 2\n";
    assert_eq!((ran.status, ran.errors.as_str()), (1, message));
}

#[test]
fn a_refused_case_is_described_by_every_command() {
    let case = written("unit 12 group 7 area 2 capability 1 MW");
    let checked = casetool(&["check"], &case);
    assert_eq!((checked.status, checked.errors.as_str()), (1, ""));
    let settled = casetool(&["settle"], &case);
    assert_eq!((settled.status, settled.output.len()), (1, 0));
    assert_eq!(settled.errors, format!("casetool: {}", checked.text()));
    let shown = casetool(&["show"], b"unit 12 group 7 capability 500.0 MW\n");
    assert_eq!((shown.status, shown.output.len()), (1, 0));
    assert_eq!(
        shown.errors,
        "casetool: standard input: this file has no sections to show\n\
         refused 2: the version is neither 1 nor 2\n\
         the header: version is 28,277; expected 1 or 2\n\
         this file looks like text: casetool write makes a case file of it\n"
    );
}

/// An output that takes some bytes and then fails.
struct Failing(usize, ErrorKind);

impl Write for Failing {
    fn write(&mut self, bytes: &[u8]) -> io::Result<usize> {
        let taken = bytes.len().min(self.0);
        self.0 -= taken;
        match taken {
            0 => Err(io::Error::from(self.1)),
            taken => Ok(taken),
        }
    }

    fn flush(&mut self) -> io::Result<()> {
        Ok(())
    }
}

#[test]
fn an_output_that_fails() {
    let case = written("unit 12 group 7 capability 1 MW");
    for (kind, status) in [(ErrorKind::BrokenPipe, 0), (ErrorKind::StorageFull, 1)] {
        let mut errors = Vec::new();
        let arguments = ["show".into()];
        let mut output = Failing(5, kind);
        let got = casetool::run(&arguments, &mut case.as_slice(), &mut output, &mut errors);
        assert_eq!(got, status);
        assert_eq!(errors.is_empty(), status == 0);
    }
}

/// Runs the program itself; the status, standard output and standard error.
fn program(arguments: &[&str], input: &[u8]) -> (i32, Vec<u8>, String) {
    let mut child = Command::new(env!("CARGO_BIN_EXE_casetool"))
        .args(arguments)
        .stdin(Stdio::piped())
        .stdout(Stdio::piped())
        .stderr(Stdio::piped())
        .spawn()
        .expect("the program casetool");
    let mut stdin = child.stdin.take().expect("piped");
    // A misused program reads nothing, so the write may fail.
    let _ = stdin.write_all(input);
    drop(stdin);
    let output = child.wait_with_output().expect("its output");
    (
        output.status.code().expect("a status"),
        output.stdout,
        String::from_utf8(output.stderr).expect("text"),
    )
}

#[test]
fn the_program_itself() {
    let text = b"unit 12 group 7 capability 500.0 MW\n";
    let (status, case, errors) = program(&["write", "--allow-empty"], text);
    assert_eq!((status, case.len(), errors.as_str()), (0, 60, ""));
    let (status, answer, errors) = program(&["check", "-"], &case);
    assert_eq!(
        (status, answer.as_slice(), errors.as_str()),
        (0, &b"accepted, 0 events\n"[..], "")
    );
    let (status, answer, _) = program(&["check"], &case[..59]);
    assert_eq!((status, answer.starts_with(b"refused 4: ")), (1, true));
    let (status, _, errors) = program(&["write"], b"unit 12 capability 1 group\n");
    assert_eq!(
        (status, errors.as_str()),
        (
            1,
            "casetool: standard input: line 1, column 27: expected a value for group\n"
        )
    );
    assert_eq!(program(&["--help"], b"").0, 0);
    assert_eq!(program(&["writ"], b"").0, 2);
    assert_eq!(program(&[], b"").0, 2);
}

#[test]
fn a_reader_that_goes_away() {
    let full = std::fs::read(repository("examples/two-plants.txt")).expect("the example");
    let path = file_with("command-line.pipe", &casetool(&["write"], &full).output);
    for name in ["show", "settle", "check"] {
        let mut child = Command::new(env!("CARGO_BIN_EXE_casetool"))
            .args([name, &path])
            .stdout(Stdio::piped())
            .stderr(Stdio::piped())
            .spawn()
            .expect("the program casetool");
        drop(child.stdout.take());
        let mut errors = String::new();
        let mut stderr = child.stderr.take().expect("piped");
        stderr.read_to_string(&mut errors).expect("text");
        let status = child.wait().expect("its end");
        assert_eq!((status.code(), errors.as_str()), (Some(0), ""));
    }
}
