//! The listing, a case with no event, and the rows of a refused case.

use cases::Case;
use cases::case::ROW_BYTES;
use second::{Outcome, listing, refusal, settle};

use crate::common::version_2::copy_of;
use crate::{example, full};

#[test]
fn listing_example() {
    let file = example().to_bytes();
    for file in [copy_of(&file), file] {
        assert_eq!(
            listing(&file),
            "8000 1 12 0 0 1 0 2 200400 0\ntotal 200400 0\n"
        );
    }
}

#[test]
fn empty_case() {
    let file = Case::default().to_bytes();
    for file in [copy_of(&file), file] {
        assert_eq!(file.len(), 36);
        assert_eq!(refusal(&file, &[], 0), 0);
        assert_eq!(listing(&file), "total 0 0\n");
        let mut rows = [0xA5; 5];
        assert_eq!(
            settle(&file, &[], &mut rows),
            Outcome::Settled {
                rows: 0,
                penalties: 0,
                make_ups: 0
            }
        );
        assert_eq!(rows, [0xA5; 5]);
    }
}

#[test]
fn a_refusal_leaves_the_rows() {
    let mut file = full().to_bytes();
    file[0] = 9;
    let mut rows = vec![0xA5; 2 * ROW_BYTES];
    assert_eq!(settle(&file, &[], &mut rows), Outcome::Refused(2));
    assert!(rows.iter().all(|&byte| byte == 0xA5));
    let file = full().to_bytes();
    for file in [copy_of(&file), file] {
        let mut rows = vec![0xA5; 2 * ROW_BYTES - 1];
        assert_eq!(settle(&file, &[], &mut rows), Outcome::Refused(15));
        assert!(rows.iter().all(|&byte| byte == 0xA5));
    }
}
