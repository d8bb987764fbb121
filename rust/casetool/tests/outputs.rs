//! The file of `-o`: replaced whole by a good answer, and renamed where there is none, so that the next
//! command finds no old file under its name.
#![cfg(unix)]

mod support;

use std::fs;
use std::os::unix::fs::{MetadataExt, PermissionsExt, symlink};
use std::path::{Path, PathBuf};
use std::process::{Command, Stdio};

use support::{Ran, casetool, written};

const GOOD: &str = "unit 12 group 7 area no capability 500.0 MW\n\
                    event day 8000 kind withheld market day-ahead unit 12 period 44 impact 0\n";
const BAD: &str = "unit 12 group 7\n";
const OLD: &[u8] = b"the old one";

/// An empty folder of a test.
fn folder(name: &str) -> PathBuf {
    let folder = Path::new(env!("CARGO_TARGET_TMPDIR")).join(name);
    let _ = fs::remove_dir_all(&folder);
    fs::create_dir_all(&folder).expect("a folder of the test");
    folder
}

fn name_in(folder: &Path, name: &str) -> String {
    folder.join(name).to_str().expect("text").to_string()
}

/// The names in a folder, in order.
fn names(folder: &Path) -> Vec<String> {
    let mut names: Vec<String> = fs::read_dir(folder)
        .expect("the folder")
        .map(|entry| {
            entry
                .expect("an entry")
                .file_name()
                .into_string()
                .expect("text")
        })
        .collect();
    names.sort();
    names
}

/// What a failed command says after its message.
fn set_aside(path: &str) -> String {
    format!("casetool: nothing is written; the {path} that was there is now {path}.old\n")
}

/// That a command failed with this status, and set aside the old file at the path.
fn fails(ran: &Ran, status: u8, path: &str) {
    assert_eq!((ran.status, ran.output.len()), (status, 0));
    let said = set_aside(path);
    assert!(
        ran.errors.ends_with(&said) && ran.errors.len() > said.len(),
        "{}",
        ran.errors
    );
    assert!(!Path::new(path).exists());
    assert_eq!(fs::read(format!("{path}.old")).expect("the old one"), OLD);
}

#[test]
fn a_failed_write_leaves_no_old_file() {
    let folder = folder("outputs-failed");
    let case = name_in(&folder, "F");
    let missing = name_in(&folder, "no-such-text");
    let joined = format!("--output={case}");
    for (arguments, text, status) in [
        (vec!["write", "-o", &case], BAD, 1),
        (vec!["write", "-o", &case], "", 1),
        (vec!["write", &missing, "-o", &case], "", 1),
        (
            vec!["write", "--correction", "--output", &case],
            "unit 12",
            1,
        ),
        (vec!["write", "-o", &case, "--fast"], GOOD, 2),
        (vec!["write", "--fast", "-o", &case], GOOD, 2),
        (vec!["write", "one", "two", "-o", &case], GOOD, 2),
        (vec!["write", "-o", &case, "-o"], GOOD, 2),
        (vec!["write", &joined], GOOD, 2),
        (vec!["settle", "-o", &case], BAD, 1),
        (vec!["settle", "--as", "case", "-o", &case], GOOD, 1),
        (vec!["show", &missing, "-o", &case], "", 1),
        (vec!["working", "-o", &case, "--hour", "0"], "", 2),
    ] {
        fs::write(&case, OLD).expect("a file of the test");
        fails(&casetool(&arguments, text.as_bytes()), status, &case);
        assert_eq!(names(&folder), ["F.old"], "{arguments:?}");
        // Again, with nothing to rename: the last old one stays.
        let again = casetool(&arguments, text.as_bytes());
        assert_eq!(
            (again.status, again.errors.contains("F.old")),
            (status, false)
        );
        assert_eq!(names(&folder), ["F.old"]);
    }
}

#[test]
fn the_next_command_finds_nothing_to_settle() {
    let folder = folder("outputs-next");
    let case = name_in(&folder, "F");
    assert_eq!(casetool(&["write", "-o", &case], GOOD.as_bytes()).status, 0);
    assert_eq!(casetool(&["settle", &case], b"").status, 0);
    assert_eq!(casetool(&["write", "-o", &case], BAD.as_bytes()).status, 1);
    assert_eq!(casetool(&["settle", &case], b"").status, 1);
    // A named correction that is empty keeps no old settlement either.
    fs::write(&case, OLD).expect("a file of the test");
    let arguments = ["settle", "--correction", "/dev/null", "-o", &case];
    fails(&casetool(&arguments, &written(GOOD)), 2, &case);
}

#[test]
fn two_outputs_and_other_names() {
    let folder = folder("outputs-two");
    let (one, two) = (name_in(&folder, "one"), name_in(&folder, "two"));
    for path in [&one, &two] {
        fs::write(path, OLD).expect("a file of the test");
    }
    let ran = casetool(&["write", "-o", &one, "--output", &two], GOOD.as_bytes());
    assert_eq!(ran.status, 2);
    assert!(
        ran.errors
            .ends_with(&[set_aside(&one), set_aside(&two)].concat())
    );
    assert_eq!(names(&folder), ["one.old", "two.old"]);
    // What is no output is left alone: a word after --, and words of what is no command.
    fs::write(&one, OLD).expect("a file of the test");
    for arguments in [
        vec!["write", "x", "--", "-o", &one],
        vec!["wirte", "-o", &one],
    ] {
        assert_eq!(casetool(&arguments, b"").status, 2);
        assert_eq!(fs::read(&one).expect("the file"), OLD);
    }
}

#[test]
fn a_good_write_replaces_the_file_whole() {
    let folder = folder("outputs-good");
    let case = name_in(&folder, "F");
    let ran = casetool(&["write", "-o", &case], GOOD.as_bytes());
    assert_eq!((ran.status, ran.errors.as_str()), (0, ""));
    assert_eq!(fs::read(&case).expect("the case"), written(GOOD));
    assert_eq!(names(&folder), ["F"]);
    // Another file takes its place, so that who has the old one open has it whole.
    fs::write(&case, OLD).expect("a file of the test");
    fs::set_permissions(&case, fs::Permissions::from_mode(0o640)).expect("permissions");
    let reader = fs::File::open(&case).expect("the old one");
    let before = fs::metadata(&case).expect("the old one").ino();
    let ran = casetool(&["write", "-o", &case], GOOD.as_bytes());
    assert_eq!((ran.status, ran.errors.as_str()), (0, ""));
    assert_eq!(fs::read(&case).expect("the case"), written(GOOD));
    let after = fs::metadata(&case).expect("the case");
    assert_ne!(after.ino(), before);
    assert_eq!(after.permissions().mode() & 0o777, 0o640);
    assert_eq!(
        std::io::read_to_string(reader).expect("text").as_bytes(),
        OLD
    );
    assert_eq!(names(&folder), ["F"]);
    // A refused check is an answer, and takes the place of the old one too.
    fs::write(&case, OLD).expect("a file of the test");
    let ran = casetool(&["check", "-o", &case], b"");
    assert_eq!((ran.status, ran.errors.as_str()), (1, ""));
    assert!(
        fs::read(&case)
            .expect("the answer")
            .starts_with(b"refused 1: ")
    );
    assert_eq!(names(&folder), ["F"]);
}

#[test]
fn what_is_read_is_neither_overwritten_nor_renamed() {
    let folder = folder("outputs-read");
    let path = name_in(&folder, "F");
    let around = name_in(&folder, "../outputs-read/./F");
    fs::write(&path, BAD).expect("a file of the test");
    for (source, output) in [(&path, &path), (&path, &around), (&around, &path)] {
        let ran = casetool(&["write", source, "-o", output], b"");
        assert_eq!((ran.status, ran.output.len()), (2, 0));
        let problem = format!("-o {output}: that file is read, and would be overwritten");
        let message = format!("casetool: {problem}; see casetool write --help\n");
        assert_eq!(ran.errors, message);
    }
    for arguments in [
        ["write", &around, "-o", &path, "--fast"],
        ["settle", "--correction", &path, "-o", &path],
    ] {
        assert_eq!(casetool(&arguments, b"").status, 2, "{arguments:?}");
    }
    let ran = Command::new(env!("CARGO_BIN_EXE_casetool"))
        .args(["write", "-o", &path])
        .stdin(fs::File::open(&path).expect("the text"))
        .output()
        .expect("the program casetool");
    assert_eq!(ran.status.code(), Some(2));
    assert_eq!(fs::read(&path).expect("the text"), BAD.as_bytes());
    assert_eq!(names(&folder), ["F"]);
    // What is no file can be both.
    let arguments = ["write", "--allow-empty", "/dev/null", "-o", "/dev/null"];
    let ran = casetool(&arguments, b"");
    assert_eq!((ran.status, ran.errors.as_str()), (0, ""));
}

#[test]
fn links() {
    let folder = folder("outputs-links");
    let (link, target) = (name_in(&folder, "link"), name_in(&folder, "target"));
    fs::write(&target, OLD).expect("a file of the test");
    symlink("target", &link).expect("a link");
    // A good answer goes to the file that the link names.
    assert_eq!(casetool(&["write", "-o", &link], GOOD.as_bytes()).status, 0);
    assert_eq!(fs::read(&target).expect("the case"), written(GOOD));
    assert!(fs::symlink_metadata(&link).expect("the link").is_symlink());
    // Where there is none, the link is renamed, and what it names stays.
    fs::write(&target, OLD).expect("a file of the test");
    fails(&casetool(&["write", "-o", &link], BAD.as_bytes()), 1, &link);
    assert_eq!(names(&folder), ["link.old", "target"]);
    // A link to nothing gives way to the answer.
    fs::remove_file(&target).expect("the target");
    fs::rename(name_in(&folder, "link.old"), &link).expect("the link");
    assert_eq!(casetool(&["write", "-o", &link], BAD.as_bytes()).status, 1);
    assert_eq!(names(&folder), ["link"]);
    assert_eq!(casetool(&["write", "-o", &link], GOOD.as_bytes()).status, 0);
    assert_eq!(fs::read(&link).expect("the case"), written(GOOD));
    assert_eq!(names(&folder), ["link"]);
}

#[test]
fn what_is_no_file() {
    let folder = folder("outputs-no-file");
    let path = name_in(&folder, "F");
    // A folder can't be written, and is not renamed.
    fs::create_dir(&path).expect("a folder of the test");
    for text in [GOOD, BAD] {
        let ran = casetool(&["write", "-o", &path], text.as_bytes());
        assert_eq!((ran.status, ran.errors.contains(".old")), (1, false));
        assert!(Path::new(&path).is_dir());
    }
    assert_eq!(names(&folder), ["F"]);
    // /dev/stdout is what is open already, a file too: it is written to and not replaced.
    let case = name_in(&folder, "case");
    for (text, length) in [(GOOD, written(GOOD).len()), (BAD, 0)] {
        let file = fs::File::create(&case).expect("a file of the test");
        let opened = file.metadata().expect("the file").ino();
        let text_path = name_in(&folder, "text");
        fs::write(&text_path, text).expect("a file of the test");
        let ran = Command::new(env!("CARGO_BIN_EXE_casetool"))
            .args(["write", &text_path, "-o", "/dev/stdout"])
            .stdout(Stdio::from(file))
            .output()
            .expect("the program casetool");
        assert_eq!(ran.status.success(), text == GOOD);
        let found = fs::metadata(&case).expect("the file");
        assert_eq!((found.ino(), found.len()), (opened, length as u64));
    }
    assert_eq!(names(&folder), ["F", "case", "text"]);
}

#[test]
fn what_cannot_be_renamed_is_said() {
    let folder = folder("outputs-stuck");
    let path = name_in(&folder, "F");
    fs::write(&path, OLD).expect("a file of the test");
    fs::create_dir(format!("{path}.old")).expect("a folder of the test");
    let ran = casetool(&["write", "-o", &path], BAD.as_bytes());
    assert_eq!(ran.status, 1);
    let said = format!(
        "casetool: nothing is written; the {path} that was there is an old one: it can't be renamed {path}.old: "
    );
    assert!(ran.errors.contains(&said), "{}", ran.errors);
    // Bytes that can't be written leave nothing beside the file: here the name itself is too long.
    let long = name_in(&folder, &"x".repeat(300));
    let ran = casetool(&["write", "-o", &long], GOOD.as_bytes());
    assert_eq!(ran.status, 1);
    assert!(
        ran.errors
            .starts_with(&format!("casetool: can't write {long}: "))
    );
    assert_eq!(names(&folder), ["F", "F.old"]);
}
