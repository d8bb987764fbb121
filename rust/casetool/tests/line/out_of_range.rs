//! Arguments out of their ranges: the library refuses them with 16, and the message names each with its range.

use crate::asked;

/// That these arguments are refused, those of the message being out of their ranges.
fn refused(arguments: &str, named: &[&str]) {
    let ran = asked(arguments);
    assert_eq!((ran.status, ran.output.len()), (1, 0), "line {arguments}");
    let expected = format!(
        "casetool: refused 16: an argument of the line is out of its range\n{}\n",
        named.join("\n")
    );
    assert_eq!(ran.errors, expected);
}

/// That these arguments have a line.
fn taken(arguments: &str) {
    let ran = asked(arguments);
    assert_eq!(
        (ran.status, ran.errors.as_str()),
        (0, ""),
        "line {arguments}"
    );
}

/// The least or the greatest reference of every component, and one that is beyond it.
const REFERENCES: [(&str, &str, &str); 9] = [
    ("10000.00", "10000.01", "$0.00 to $10,000.00"),
    ("10000.00", "10000.01", "$0.00 to $10,000.00"),
    ("10000.00", "10000.01", "$0.00 to $10,000.00"),
    ("10000000.00", "10000000.01", "$0.00 to $10,000,000.00"),
    (
        "1000000000",
        "1000000001",
        "0 minutes to 1,000,000,000 minutes",
    ),
    (
        "1000000000",
        "1000000001",
        "0 minutes to 1,000,000,000 minutes",
    ),
    (
        "1000000000",
        "1000000001",
        "0 minutes to 1,000,000,000 minutes",
    ),
    ("1000000000", "1000000001", "0 to 1,000,000,000"),
    ("1000000000", "1000000001", "0 to 1,000,000,000"),
];

#[test]
fn references() {
    for (component, (most, more, range)) in REFERENCES.into_iter().enumerate() {
        let of = |reference: &str| {
            format!("--component {component} --reference {reference} --market day-ahead")
        };
        taken(&of(most));
        taken(&of("0"));
        // The last three have no room in the library's argument.
        for reference in [more, "-1", "50000000000", "99999999999999999999999"] {
            let named = format!("--reference '{reference}': expected {range}");
            refused(&of(reference), &[&named]);
        }
    }
}

#[test]
fn components() {
    let names = "expected energy, minimum-generation, reserve-or-regulation, start-up-cost, start-up-time, minimum-run-time, minimum-down-time, minimum-parameter, maximum-parameter, or its number, 0 to 8";
    for component in ["9", "255", "256", "-1"] {
        let named = format!("--component '{component}': {names}");
        // Nothing is known of its reference, in whatever measure that is.
        for reference in ["5", "$50.00", "180minutes", "99999999999"] {
            let arguments = format!("--component {component} --reference {reference}");
            refused(&arguments, &[&named]);
        }
    }
}

#[test]
fn the_circumstances_of_an_hour_also_where_the_line_does_not_depend_on_them() {
    let market = "expected day-ahead, real-time, or its number, 0 or 1";
    for component in 0..9 {
        let of = |rest: &str| format!("--component {component} --reference 5 {rest}");
        for number in ["2", "255", "256", "-1"] {
            let named = format!("--market '{number}': {market}");
            refused(&of(&format!("--market {number}")), &[&named]);
        }
        for hour in [
            "--market day-ahead",
            "--market real-time --tight no",
            "--market real-time --tight yes",
        ] {
            let with = |price: &str, hours: &str| {
                of(&format!(
                    "{hour} --average-price {price} --constrained-hours {hours}"
                ))
            };
            taken(&with("10,000.00", "8784"));
            for price in ["10,000.01", "-0.01", "50000000000"] {
                let named = format!("--average-price '{price}': expected $0.00 to $10,000.00");
                refused(&with(price, "0"), &[&named]);
            }
            for hours in ["8785", "65536", "-1"] {
                let named = format!("--constrained-hours '{hours}': expected 0 to 8,784");
                refused(&with("0", hours), &[&named]);
            }
        }
    }
}

#[test]
fn all_that_are_out_of_range_are_named() {
    refused(
        "--constrained-hours 9,000 --average-price $10,001 --market 7 --reference $20,000.00 --component energy",
        &[
            "--reference '$20,000.00': expected $0.00 to $10,000.00",
            "--market '7': expected day-ahead, real-time, or its number, 0 or 1",
            "--average-price '$10,001': expected $0.00 to $10,000.00",
            "--constrained-hours '9,000': expected 0 to 8,784",
        ],
    );
}
