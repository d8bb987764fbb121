//! Demand 3, run on the archive in both versions: after a list of worsening changes no flag is cleared, and no
//! multiplier, penalty or total of penalties falls. It is proved of the definitions; this is for what
//! lies between them and the compiled code. The same list makes of the version 2 copy the copy of what it makes of
//! version 1.

use attachment_h::{Cents, Refused, settle};
use cases::case::ROW_BYTES;
use cases::generator::case;
use cases::worse::{Change, apply_all, random_changes};
use cases::{Input, Random, Row, Size, Version, Wanted};
use second::fuel_party_days;

/// The rows and the total of penalties.
type After = (Vec<Row>, Cents);

fn settled(file: &[u8], correction: &[u8], held: u8) -> Result<After, Refused> {
    let mut buffer = vec![held; 200 * ROW_BYTES];
    let settled = settle(file, correction, &mut buffer)?;
    Ok((Row::first(&buffer, settled.rows), settled.penalties))
}

/// Lists that were compared, their changes, those with a higher total, those made in a copy too, and of the lists that
/// make a refused case those made in a copy.
#[derive(Debug, Default)]
struct Lists {
    compared: usize,
    changes: usize,
    risen: usize,
    copied: usize,
    refused_copies: usize,
}

impl Lists {
    fn compare(&mut self, before: &After, after: &After, list: &[Change], what: &str) {
        assert_eq!(before.0.len(), after.0.len(), "{what}");
        assert!(before.1 <= after.1, "{what}: {list:?}");
        for (before, after) in before.0.iter().zip(&after.0) {
            assert_eq!(before.flags.0 & !after.flags.0, 0, "{what}: {list:?}");
            assert!(before.multiplier <= after.multiplier, "{what}: {list:?}");
            assert!(before.penalty <= after.penalty, "{what}: {list:?}");
        }
        self.compared += 1;
        self.changes += list.len();
        self.risen += usize::from(before.1 < after.1);
    }

    /// The list on the version 2 copy: what comes out is the copy of the changed file, with its rows or its number.
    fn copy(
        &mut self,
        copy: &Input,
        changed: &Input,
        list: &[Change],
        after: &Result<After, Refused>,
        what: &str,
    ) {
        let Some(changed_copy) = changed.version_2_copy() else {
            return;
        };
        let file = apply_all(&copy.file, list).expect("worsening changes");
        assert!(file == changed_copy.file, "{what}: {list:?}");
        let of_the_copy = settled(&file, &copy.correction, 0x5A);
        assert_eq!(of_the_copy, *after, "{what}: {list:?}");
        match after {
            Ok(_) => self.copied += 1,
            Err(_) => self.refused_copies += 1,
        }
    }
}

#[test]
fn lists_of_changes() {
    for version in Version::ALL {
        let mut random = Random::new(401);
        let mut lists = Lists::default();
        for place in 0..3_000 {
            let size = match place % 30 {
                0 => Size::Full,
                1..=9 => Size::Medium,
                _ => Size::Small,
            };
            let wanted = Wanted {
                version,
                fuel_not_negative: true,
                ..Wanted::of(size)
            };
            let input = case(&mut random, wanted).input();
            let what = format!("{version:?}, case {place}");
            lists_of_a_case(&input, &mut random, &mut lists, &what);
        }
        println!("{version:?}: {lists:?}");
        assert!(lists.compared > 3_000 && lists.risen > 500);
        let of_copies = [lists.copied > 3_000, lists.refused_copies > 100];
        assert_eq!(of_copies, [version == Version::One; 2]);
    }
}

/// Some lists of changes of a case under the premise.
fn lists_of_a_case(input: &Input, random: &mut Random, lists: &mut Lists, what: &str) {
    let days = fuel_party_days(&input.file, &input.correction).expect("accepted");
    assert!(days.iter().all(|day| day.e >= 0), "{what}");
    let before = settled(&input.file, &input.correction, 0x00).expect("accepted");
    let copy = input.version_2_copy();
    if let Some(copy) = &copy {
        let of_the_copy = settled(&copy.file, &copy.correction, 0xA5);
        assert_eq!(of_the_copy.as_ref(), Ok(&before), "{what}, copied");
    }
    for most in [1, 4, 40] {
        let (list, file) = random_changes(&input.file, most, random);
        let changed = Input {
            file,
            ..input.clone()
        };
        let after = settled(&changed.file, &changed.correction, 0xFF);
        if let Some(copy) = &copy {
            lists.copy(copy, &changed, &list, &after, what);
        }
        // A change may make a case that is refused: nothing more is said of it.
        if let Ok(after) = after {
            lists.compare(&before, &after, &list, what);
        }
    }
}
