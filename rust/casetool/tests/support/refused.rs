//! Cases that are refused with a number, at a place.

use super::{Ran, casetool_in_both, written_and_warned_of};

/// Two units of one group.
pub const UNITS: &str = "unit 12 group 7 area no capability 500.0 MW response-rate 10.0 MW/min\n\
                     unit 13 group 7 area no capability 1500.0 MW\n";

/// What a refused check says.
pub fn text_of(ran: &Ran) -> &str {
    assert_eq!((ran.status, ran.errors.as_str()), (1, ""));
    ran.text()
}

/// That a text beside two units, in the order in which it stands, is refused with this number at this place.
pub fn refused(number: u8, text: &str, place: &str) {
    let (file, _) = written_and_warned_of(&format!("order as-written\n{UNITS}{text}"));
    let ran = casetool_in_both(&["check"], &file);
    let (first, rest) = text_of(&ran).split_once('\n').expect("two lines");
    assert!(first.starts_with(&format!("refused {number}: ")), "{first}");
    assert_eq!(rest, format!("{place}\n"));
}
