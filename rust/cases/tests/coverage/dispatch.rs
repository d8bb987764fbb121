//! Dispatch events: the lines of their test, their multipliers and penalties.

use cases::case::DispatchHour;

use crate::settled::SettledEvent;
use crate::{Reached, at_and_over};

pub fn reach(reached: &mut Reached, event: &SettledEvent, hours: &[DispatchHour; 24]) {
    let rate = i64::from(event.unit.response_rate);
    let (_, sum) = event.together();
    for hour in 0..24 {
        let a = i64::from(hours[hour].undelivered);
        reached.line(a, 15 * rate, "dispatch, 15 × rate");
        if event.tight(hour) {
            reached.line(a, 500, "dispatch, tight a");
            reached.line(sum[hour], 1_000, "dispatch, tight S");
        } else {
            reached.line(a, 1_000, "dispatch, a");
            reached.line(sum[hour], 2_000, "dispatch, S");
        }
        reached.add_if(
            event.flagged(hour) && a == 0,
            "dispatch: flagged with a = 0",
        );
    }
    reached.add(format!("dispatch: multiplier {}", event.row.multiplier.0));
    reached.add_if(event.row.penalty.0 > 0, "dispatch: penalty");
}

pub fn edges() -> Vec<String> {
    let mut expected = at_and_over(&[
        "dispatch, 15 × rate",
        "dispatch, a",
        "dispatch, S",
        "dispatch, tight a",
        "dispatch, tight S",
    ]);
    expected.extend(
        [
            "dispatch: flagged with a = 0",
            "dispatch: multiplier 0",
            "dispatch: multiplier 3",
            "dispatch: penalty",
        ]
        .map(String::from),
    );
    expected
}
