//! A folder that looks like the repository, with an `rt`, a `cargo` and a `cc` of the test, which note
//! that they were called.

use std::fs;
use std::os::unix::fs::{PermissionsExt, symlink};
use std::path::{Path, PathBuf};
use std::process::{Child, Command, Stdio};

use super::repository;

/// Says that it proves a crate, as `rt ci` says it or as the others do; slowly, or waiting until that was seen, or
/// badly, where a file says so. Leaves a static library, or programs that list what they read.
const RT: &str = r#"#!/bin/sh
root=$(dirname "$0")/..
word=$1
echo "rt $*" >>"$root/calls"
said() { # CRATE ENDED TARGET
    case $word:$2 in
    ci:*) echo "rt: $1 $2" ;;
    *:proved) echo "crate $1: modules loaded=0 checked=40" && echo "logic=proved functions=1$3 sum=0" ;;
    *) echo "crate $1: modules loaded=30 checked=10" && echo "logic=not-proved" ;;
    esac
}
program() {
    mkdir -p out
    printf '#!/bin/sh\ncat\n' >"out/${PWD##*/}"
    chmod +x "out/${PWD##*/}"
}
if [ "$word:${PWD##*/}" != run:pencil ]; then
    echo "fn binary::one: proved"
    said binary proved
fi
[ ! -f "$root/slow" ] || sleep 2
tries=0
while [ -f "$root/unseen" ] && [ $tries -lt 100 ]; do sleep 0.1; tries=$((tries + 1)); done
[ $tries -lt 100 ] || echo "rt unseen" >>"$root/calls"
if [ -f "$root/broken" ]; then
    said tariff "NOT PROVED"
    case $word in
    ci) echo "1 passed, 1 failed" ;;
    *) echo "rt: the library tariff did not build, so nothing above it was checked" >&2 ;;
    esac
    exit 1
fi
case $word in
lib)
    said api proved " target=x86_64"
    mkdir -p out
    touch out/libapi.a
    ;;
run)
    said "${PWD##*/}" proved " target=x86_64"
    program
    ;;
ci)
    for crate in listing pencil; do (cd "$root/crates/$crate" && program); done
    bad=
    [ ! -f "$root/bad-edits" ] || bad=", 2 bad"
    echo "rt: ok; handles allowed: none; must-fail edits: 5 refused$bad; every proof and must-fail edit was done in this run"
    echo "3 passed, 0 failed"
    ;;
esac
"#;

/// Leaves a tool that prints its arguments where it is to build; or fails, or has a source changed
/// meanwhile, where a file says so.
const CARGO: &str = r#"#!/bin/sh
root=$(dirname "$0")/..
echo "cargo $*" >>"$root/calls"
[ ! -f "$root/broken-cargo" ] || { echo "error: no such thing" >&2; exit 101; }
[ "$1" = build ] || exit 0
[ ! -f "$root/meanwhile" ] || { sleep 0.1; touch "$root/rust/casetool/src/main.rs"; }
while [ "$1" != --target-dir ]; do shift; done
printf '#!/bin/sh\nprintf "%%s|" "$@"\n' >"$2/release/casetool"
chmod +x "$2/release/casetool"
"#;

/// Leaves a program that does nothing.
const CC: &str = r#"#!/bin/sh
echo "cc $*" >>"$(dirname "$0")/../calls"
while [ "$1" != -o ]; do shift; done
printf '#!/bin/sh\n' >"$2"
chmod +x "$2"
"#;

/// What the scripts take from the system.
const TOOLS: [&str; 21] = [
    "sh", "dirname", "readlink", "id", "find", "mkdir", "rmdir", "sleep", "touch", "cat", "tee",
    "date", "cp", "mv", "rm", "sed", "tr", "tail", "mktemp", "chmod", "env",
];

/// A folder with the scripts and their programs in `bin`, and `flock` where wanted.
pub fn folder(name: &str, with_flock: bool) -> PathBuf {
    let folder = Path::new(env!("CARGO_TARGET_TMPDIR")).join(name);
    let _ = fs::remove_dir_all(&folder);
    for name in [
        "scripts",
        "crates/api",
        "crates/listing",
        "crates/pencil",
        "bin",
        "rust/casetool/src",
    ] {
        fs::create_dir_all(folder.join(name)).expect("a folder of the test");
    }
    for name in [
        "crates.txt",
        "rust/Cargo.toml",
        "rust/Cargo.lock",
        "rust/casetool/src/main.rs",
    ] {
        fs::write(folder.join(name), "").expect("a file of the test");
    }
    fs::write(folder.join("crates/listing/stdin"), "8000 1 12\n").expect("a file of the test");
    for name in ["casetool", "example", "library", "test", "common.sh"] {
        let name = format!("scripts/{name}");
        fs::copy(repository(&name), folder.join(&name)).expect("the script");
    }
    for (name, text) in [("rt", RT), ("cargo", CARGO), ("cc", CC)] {
        let path = folder.join("bin").join(name);
        fs::write(&path, text).expect("a program of the test");
        fs::set_permissions(&path, fs::Permissions::from_mode(0o755)).expect("a program");
    }
    for tool in TOOLS.into_iter().chain(with_flock.then_some("flock")) {
        let found = ["/usr/bin", "/bin"]
            .map(|folder| Path::new(folder).join(tool))
            .into_iter()
            .find(|path| path.exists());
        if let Some(path) = found {
            symlink(path, folder.join("bin").join(tool)).expect("a link");
        }
    }
    folder
}

/// Makes a file that one of the programs looks for.
pub fn mark(folder: &Path, name: &str) {
    fs::write(folder.join(name), "").expect("a file of the test");
}

/// Starts a script, by this path, with nothing but the folder's programs.
pub fn start(folder: &Path, script: &Path) -> Child {
    Command::new("/bin/sh")
        .arg(script)
        .args(["check", "a case"])
        .env_clear()
        .env("PATH", folder.join("bin"))
        .env("HOME", folder)
        .current_dir("/")
        .stdin(Stdio::null())
        .stdout(Stdio::piped())
        .stderr(Stdio::piped())
        .spawn()
        .expect("a shell")
}

/// Status, standard output and standard error.
pub fn ended(child: Child) -> (Option<i32>, String, String) {
    let output = child.wait_with_output().expect("its output");
    (
        output.status.code(),
        String::from_utf8(output.stdout).expect("text"),
        String::from_utf8(output.stderr).expect("text"),
    )
}

/// Runs a script of the folder.
pub fn run(folder: &Path, name: &str) -> (Option<i32>, String, String) {
    ended(start(folder, &folder.join("scripts").join(name)))
}

/// The lines that a script says, without the times of crates.
pub fn without_times(said: &str) -> Vec<String> {
    let timeless = |line: &str| match line.rsplit_once(" (") {
        Some((start, time)) if time.ends_with(" s)") => {
            let digits = time.trim_start_matches("after ").trim_end_matches(" s)");
            assert!(digits.parse::<u32>().is_ok(), "{line}");
            start.to_string()
        }
        _ => line.to_string(),
    };
    said.lines().map(timeless).collect()
}

/// The calls that the programs noted, each by its first two words.
pub fn calls(folder: &Path) -> Vec<String> {
    let noted = fs::read_to_string(folder.join("calls")).unwrap_or_default();
    let first = |line: &str| line.split(' ').take(2).collect::<Vec<_>>().join(" ");
    noted.lines().map(first).collect()
}

/// That a script says what is missing of these programs, with one line for each on standard error and a
/// status that is not 0, and calls nothing.
pub fn says_what_is_missing(name: &str, programs: &[&str], output: &str) {
    let folder = folder(
        &format!("script-missing-{name}-{}", programs.join("-")),
        true,
    );
    for program in programs {
        fs::remove_file(folder.join("bin").join(program)).expect("a program of the test");
    }
    let sentence = |program: &&str| match *program {
        "rt" => format!("{name}: rt is missing: the Rattle toolchain has to be on the PATH\n"),
        "cargo" => format!(
            "{name}: cargo is missing: Rust's build tool has to be on the PATH or in ~/.cargo/bin\n"
        ),
        _ => format!("{name}: cc is missing: a C compiler has to be on the PATH\n"),
    };
    let said: String = programs.iter().map(sentence).collect();
    assert_eq!(run(&folder, name), (Some(1), output.to_string(), said));
    assert_eq!(calls(&folder), Vec::<String>::new());
}
