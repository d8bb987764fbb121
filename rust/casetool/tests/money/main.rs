//! The working of an event's money: `casetool working` without an hour, and `casetool settle --explain`.

mod bids;
mod explain;
mod fuel;
mod generated;
mod options;
mod penalties;
mod pencil;
mod programs;
#[path = "../support/mod.rs"]
mod support;

use support::{casetool, casetool_in_both, repository, written};

/// The example, or its correction.
fn example(name: &str) -> String {
    std::fs::read_to_string(repository(&format!("examples/{name}"))).expect("an example")
}

/// That the working of an event of a text is this one, by its case file too.
fn works_with(options: &[&str], text: &str, event: usize, expected: &str) {
    let event = event.to_string();
    let arguments = [&["working", "--event", &event], options].concat();
    let ran = casetool_in_both(&arguments, text.as_bytes());
    assert_eq!((ran.status, ran.errors.as_str()), (0, ""));
    assert_eq!(ran.text(), expected);
    assert_eq!(casetool_in_both(&arguments, &written(text)), ran);
}

fn works(text: &str, event: usize, expected: &str) {
    works_with(&[], text, event, expected);
}

/// A working: its heading, and its steps, each a sentence with the lines under it.
fn sheet(heading: &str, steps: &[(&str, &[&str])]) -> String {
    let mut text = format!("{heading}\n");
    for (place, (sentence, lines)) in steps.iter().enumerate() {
        text += &format!("  {}. {sentence}\n", place + 1);
        for line in *lines {
            text += &format!("       {line}\n");
        }
    }
    text
}
