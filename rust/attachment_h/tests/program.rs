//! The program `listing` on many inputs of both versions, short and too long. scripts/test and scripts/example put it into
//! target/bin; the gate names it in `ATTACHMENT_H_LISTING`, and elsewhere it may be missing.

use std::env;
use std::io::Write;
use std::path::{Path, PathBuf};
use std::process::{Command, Stdio};
use std::thread;

use cases::generator::{any_case_in, random_bytes_in};
use cases::{Random, Version};

fn listed(program: &Path, input: Vec<u8>) -> String {
    let mut child = Command::new(program)
        .stdin(Stdio::piped())
        .stdout(Stdio::piped())
        .spawn()
        .expect("the program listing");
    let mut stdin = child.stdin.take().expect("piped");
    // The program stops reading an input that is too long, so the write may fail.
    let writer = thread::spawn(move || {
        let _ = stdin.write_all(&input);
    });
    let output = child.wait_with_output().expect("its output");
    writer.join().expect("the writer");
    assert!(output.status.success());
    String::from_utf8(output.stdout).expect("text")
}

#[test]
fn many_inputs() {
    let default = Path::new(env!("CARGO_MANIFEST_DIR")).join("../../target/bin/listing");
    let named = env::var_os("ATTACHMENT_H_LISTING").map(PathBuf::from);
    if named.is_none() && !default.exists() {
        println!("target/bin/listing is not built: not run");
        return;
    }
    let program = named.unwrap_or(default);
    for version in Version::ALL {
        let mut random = Random::new(601);
        for place in 0..300 {
            let input = match place % 3 {
                0 => random_bytes_in(version, &mut random),
                _ => any_case_in(version, &mut random).input(),
            };
            let expected = second::listing(&input.file);
            if let Some(copy) = input.version_2_copy() {
                let text = listed(&program, copy.file);
                assert_eq!(text, expected, "input {place}, copied");
            }
            let file = input.file;
            assert_eq!(
                listed(&program, file),
                expected,
                "{version:?}, input {place}"
            );
        }
    }
    for length in [
        0, 1, 35, 36, 64_999, 65_000, 65_001, 65_002, 70_000, 200_000,
    ] {
        let file = vec![0; length];
        let expected = second::listing(&file);
        assert_eq!(listed(&program, file), expected, "{length} bytes");
    }
}
