//! Units, references and events of a text in any order: they are sorted, events are numbered as the rows are, and two
//! equal ones are a mistake. `order as-written` keeps every file as it is.

use attachment_h::layout::{Section, Sections};
use attachment_h::{ROWS_LENGTH, check};
use cases::Random;
use cases::case::{Input, file_in};
use cases::generator::any_case_in;
use casetool::text::show::case_text;
use casetool::text::write::{case_file, correction};

use crate::support::{casetool_in_both, in_turn, repository, written};

/// The records of a text, each with its hours.
fn blocks(text: &str) -> Vec<String> {
    let mut found: Vec<String> = Vec::new();
    for line in text
        .lines()
        .filter(|line| !line.is_empty() && !line.starts_with(['#', 'v']))
    {
        match found.last_mut() {
            Some(last) if line.starts_with("  ") => *last += line,
            _ => found.push(line.to_string()),
        }
        *found.last_mut().expect("a record") += "\n";
    }
    found
}

/// So many generated cases of the versions in turn, and the copies of those of version 1.
fn generated(count: usize, random: &mut Random) -> Vec<Input> {
    let inputs = (0..count).flat_map(|place| {
        let input = any_case_in(in_turn(place), random).input();
        input.with_copy()
    });
    let inputs: Vec<Input> = inputs.collect();
    println!("{count} cases, {} copies", inputs.len() - count);
    assert!(inputs.len() > count + count / 3);
    inputs
}

#[test]
fn generated_cases_in_another_order() {
    let mut random = Random::new(741);
    let mut moved = 0;
    let inputs = generated(200, &mut random);
    for Input { file, .. } in &inputs {
        let sections = Sections::of(file).expect("an accepted case");
        let text = case_text(&sections);
        let mut records = blocks(&text);
        // Past entries stay in their order: it is theirs.
        for place in (1..records.len()).rev() {
            let other = random.below(place + 1);
            let past = |place: usize| records[place].starts_with("past");
            if !past(place) && !past(other) {
                records.swap(place, other);
            }
        }
        let version = sections.version().number();
        let shuffled = format!("version {version}\n{}", records.concat());
        moved += usize::from(blocks(&text) != records);
        let again = case_file(shuffled.as_bytes()).unwrap_or_else(|error| panic!("{error}"));
        assert!(again.bytes == *file, "another file of\n{shuffled}");
    }
    println!("{moved} in another order");
    assert!(moved > 150, "{moved}");
}

#[test]
fn events_are_numbered_as_the_rows_are() {
    let text = std::fs::read_to_string(repository("examples/two-plants.txt")).expect("the example");
    let mut records = blocks(&text);
    records.reverse();
    let reversed = records.concat();
    for arguments in [
        &["settle"][..],
        &["working", "--event", "0", "--hour", "0"],
        &["working", "--event", "5", "--hour", "19"],
        &["working", "--event", "2"],
        &["working", "--event", "3"],
    ] {
        let as_it_is = casetool_in_both(arguments, text.as_bytes());
        assert_eq!((as_it_is.status, as_it_is.errors.as_str()), (0, ""));
        assert_eq!(casetool_in_both(arguments, reversed.as_bytes()), as_it_is);
    }
}

#[test]
fn two_equal_ones_have_both_lines() {
    let unit = "unit 12 group 7 area no capability 1\n";
    let reference = "reference unit 12 component energy value 1\n";
    let event = "event day 8000 kind withheld market DAM unit 12 period 44 impact 0\n";
    for (text, message) in [
        (
            format!("{unit}{event}  hour 3 withheld 1 price 1\n{event}"),
            "line 4, column 1, 'event': the event of day 8000, withheld, Day-Ahead, unit 12 is there twice, in line 2 and here",
        ),
        (
            format!(
                "{unit}{event}\nunit 11 group 7 capability 1\n  unit 12 group 8 area no capability 2\n"
            ),
            "line 5, column 3, 'unit': unit 12 is there twice, in line 1 and here",
        ),
        (
            format!(
                "{reference}{unit}{event}reference unit 11 component energy value 1\n{reference}"
            ),
            "line 5, column 1, 'reference': the reference of unit 12, energy is there twice, in line 1 and here",
        ),
    ] {
        for command in ["write", "check", "settle"] {
            let ran = casetool_in_both(&[command], text.as_bytes());
            assert_eq!((ran.status, ran.output.len()), (1, 0));
            assert_eq!(ran.errors, format!("casetool: standard input: {message}\n"));
        }
    }
    // Past entries may be there twice, and count twice.
    let past = "past group 7 kind fuel market DAM period 44 day 8000\n";
    let case = written(&format!("{unit}{past}{past}"));
    let sections = Sections::of(&case).expect("a case");
    assert_eq!(sections.count(Section::Past), 2);
    let error = correction([reference, reference].concat().as_bytes()).expect_err("twice");
    assert_eq!(
        error.to_string(),
        "line 2, column 1, 'reference': the reference of unit 12, energy is there twice, in line 1 and here"
    );
}

const AS_WRITTEN: &str = "order as-written\n";

#[test]
fn a_file_out_of_order_begins_with_order_as_written() {
    let mut random = Random::new(742);
    let (mut kept, mut plain) = (0, 0);
    for Input { file, .. } in generated(300, &mut random) {
        let sections = Sections::of(&file).expect("an accepted case");
        let version = sections.version();
        let mut parts = Section::ALL.map(|section| sections.bytes(section).to_vec());
        let section = random.pick(&[Section::Units, Section::References, Section::Events]);
        let (part, bytes) = (&mut parts[section as usize], section.width(version));
        if part.len() >= 2 * bytes {
            // The last record before the others, or the first one again at the end.
            let again = random.chance(1, 2) && part.len() < bytes * section.most();
            if again {
                part.extend_from_within(..bytes);
            } else {
                part.rotate_right(bytes);
            }
        }
        let changed = file_in(version, &parts);
        let Some(sections) = Sections::of(&changed) else {
            continue;
        };
        let text = case_text(&sections);
        let out_of_order = changed != file;
        assert_eq!(text.starts_with(AS_WRITTEN), out_of_order, "{text}");
        assert_eq!(check(&changed, &[], ROWS_LENGTH).is_err(), out_of_order);
        let again = case_file(text.as_bytes()).unwrap_or_else(|error| panic!("{error}"));
        assert!(again.bytes == changed, "another file of\n{text}");
        *(if out_of_order { &mut kept } else { &mut plain }) += 1;
    }
    println!("{kept} files out of order, {plain} in order");
    assert!(kept > 150 && plain > 20);
}

#[test]
fn a_correction_out_of_order() {
    let lines = [
        "reference unit 13 component energy value $1.00\n",
        "reference unit 12 component energy value $1.00\n",
    ];
    let sorted = casetool_in_both(&["write", "--correction"], lines.concat().as_bytes());
    let text = format!("{AS_WRITTEN}{}", lines.concat());
    let kept = casetool_in_both(&["write", "--correction"], text.as_bytes());
    assert_eq!((sorted.status, kept.status), (0, 0));
    assert_eq!(
        [&kept.output[8..], &kept.output[..8]].concat(),
        sorted.output
    );
    let shown = casetool_in_both(&["show", "--correction"], &kept.output);
    assert_eq!(
        shown.text(),
        format!(
            "{AS_WRITTEN}version 1\n# correction: 2 references\n\n{}",
            lines.concat()
        )
    );
    let shown = casetool_in_both(&["show", "--correction"], &sorted.output);
    let start = "version 1\n# correction: 2 references\n";
    assert!(shown.text().starts_with(start));
}

#[test]
fn the_line_of_the_order() {
    let unit = "unit 12 group 7 capability 1\n";
    for (text, message) in [
        (
            format!("{unit}{AS_WRITTEN}"),
            "line 2, column 1, 'order': order stands once, before the first record",
        ),
        (
            format!("{AS_WRITTEN}{AS_WRITTEN}"),
            "line 2, column 1, 'order': order stands once, before the first record",
        ),
        (
            "order\n".to_string(),
            "line 1, column 6: expected as-written after order, and nothing else",
        ),
        (
            "order sorted\n".to_string(),
            "line 1, column 7, 'sorted': expected as-written after order, and nothing else",
        ),
        (
            "order as-written unit 12\n".to_string(),
            "line 1, column 18, 'unit': expected as-written after order, and nothing else",
        ),
    ] {
        let ran = casetool_in_both(&["write", "--allow-empty"], text.as_bytes());
        assert_eq!(
            (ran.status, ran.errors),
            (1, format!("casetool: standard input: {message}\n"))
        );
    }
    // Comments may stand before it.
    let text = format!("# kept\n\n{AS_WRITTEN}unit 13 group 7 capability 1\n{unit}");
    let sections = written(&text);
    let units = Sections::of(&sections).expect("a case");
    let numbers: Vec<u8> = units.records(Section::Units).map(|unit| unit[0]).collect();
    assert_eq!(numbers, [13, 12]);
}
