//! Good texts with changes, case files and noise as texts, noise as cases: never a panic, and what is written comes back.

use std::collections::BTreeMap;

use attachment_h::layout::Sections;
use cases::Random;
use cases::case::Input;
use cases::generator::{Size, Wanted, case, random_bytes_in};
use casetool::text::bytes::text_of;
use casetool::text::show::case_text;
use casetool::text::write::{Written, case_file};

use crate::support::json::{answer, schema};
use crate::support::{casetool, in_turn};

/// A good text with bytes, words or lines changed.
fn changed(random: &mut Random, text: &str) -> Vec<u8> {
    let mut bytes = text.as_bytes().to_vec();
    for _ in 0..1 + random.below(4) {
        let at = random.below(bytes.len());
        let length = random.below(12).min(bytes.len() - at);
        match random.below(4) {
            0 => bytes[at] = random.bits() as u8,
            1 => drop(bytes.drain(at..at + length)),
            2 => {
                let copy = bytes[at..at + length].to_vec();
                let place = random.below(bytes.len());
                bytes.splice(place..place, copy);
            }
            _ => {
                let letter = random.pick(b"0123456789-,.$# \n\r\tMWhabmPQR");
                bytes.insert(at, letter);
            }
        }
        if bytes.is_empty() {
            bytes.push(b'#');
        }
    }
    bytes
}

#[test]
fn noise_never_panics() {
    let mut random = Random::new(721);
    let (mut good, mut bad) = (0, 0);
    let mut seen = |text: &[u8]| match case_file(text) {
        Ok(Written { bytes: file, .. }) => {
            let sections = Sections::of(&file).expect("a file of sections");
            let again = case_file(case_text(&sections).as_bytes());
            assert_eq!(again.map(|again| again.bytes).as_ref(), Ok(&file));
            good += 1;
        }
        Err(mistakes) => {
            let places: Vec<(usize, usize)> = mistakes
                .shown()
                .iter()
                .map(|error| (error.line, error.column))
                .collect();
            assert!(places.is_sorted() && places[0] >= (1, 1));
            assert_eq!(places.len(), mistakes.count().min(20));
            for error in mistakes.shown() {
                assert!(!error.to_string().contains('\n'));
            }
            bad += 1;
        }
    };
    for place in 0..3_000 {
        let version = in_turn(place);
        let wanted = Wanted::of(Size::Small).in_version(version);
        for Input { file, .. } in case(&mut random, wanted).input().with_copy() {
            let text = case_text(&Sections::of(&file).expect("an accepted case"));
            seen(&changed(&mut random, &text));
        }
        seen(&random_bytes_in(version, &mut random).file);
        let noise: Vec<u8> = (0..random.below(200))
            .map(|_| random.bits() as u8)
            .collect();
        seen(&noise);
    }
    println!("{good} texts written, {bad} turned away");
}

#[test]
fn noise_as_a_case_never_panics() {
    let mut random = Random::new(722);
    for place in 0..1_000 {
        let input = random_bytes_in(in_turn(place), &mut random);
        let refused = attachment_h::check(&input.file, &[], attachment_h::ROWS_LENGTH).is_err();
        for name in ["show", "check", "settle"] {
            let ran = casetool(&[name], &input.file);
            assert!(ran.status <= 1);
            assert!(name == "show" || (ran.status == 1) == refused);
        }
        for version in ["1", "2"] {
            let arguments = ["show", "--correction", "--version", version];
            let ran = casetool(&arguments, &input.correction);
            assert!(ran.status <= 1);
        }
    }
}

#[test]
fn changed_texts_are_always_answered() {
    let schema = schema();
    let mut random = Random::new(723);
    let mut answers: BTreeMap<String, usize> = BTreeMap::new();
    for place in 0..600 {
        let wanted = Wanted::of(Size::Small).in_version(in_turn(place));
        let file = case(&mut random, wanted).input().file;
        let text = case_text(&Sections::of(&file).expect("an accepted case"));
        let bytes = match place % 3 {
            0 => changed(&mut random, &text),
            _ => with_other_digits(&mut random, &text),
        };
        let arguments = ["check", "--format", "json", "--allow-empty", "--as", "text"];
        let ran = casetool(&arguments, &bytes);
        let value = answer(&ran, &schema);
        let kind = value.at("answer").text();
        assert_eq!(ran.status, u8::from(kind != "accepted"));
        // Every refusal of a text has its place there.
        if kind == "refused" {
            assert!(matches!(value.at("number").integer(), 6..=14 | 17..=19));
            let lines = text_of(&bytes).expect("a text").lines().count();
            assert!((1..=lines as i128).contains(&value.at("line").integer()));
            assert!(value.at("column").integer() >= 1);
        }
        *answers.entry(kind.to_string()).or_default() += 1;
    }
    println!("{answers:?}");
    assert!(answers.len() == 3 && answers.values().all(|&count| count > 30));
}

/// A text with some of its digits changed, so that it can often be read.
fn with_other_digits(random: &mut Random, text: &str) -> Vec<u8> {
    let mut bytes = text.as_bytes().to_vec();
    let digits: Vec<usize> = (0..bytes.len())
        .filter(|&at| bytes[at].is_ascii_digit())
        .collect();
    for _ in 0..random.below(4) {
        if !digits.is_empty() {
            bytes[random.pick(&digits)] = random.pick(b"0123456789");
        }
    }
    bytes
}
