//! Mitigated hours of bids: the test with c, spans, and make-up payments.

use cases::Market;

use crate::Reached;
use crate::bids::Bids;

pub fn reach(reached: &mut Reached, bids: &Bids, impact: u32, minimum_run_hours: u32) {
    let event = bids.event;
    for hour in 0..24 {
        if matches!(bids.component, 1 | 3) && event.mitigated(hour) && bids.c != bids.r {
            reach_corrected(reached, bids, hour);
        }
        reached.add_if(
            event.flagged(hour) && impact >> hour & 1 == 0 && !event.mitigated(hour),
            "bids: flagged without impact",
        );
    }
    let day_ahead = event.record.market == Market::DAY_AHEAD;
    if bids.component == 1 && day_ahead && event.row.mitigated.0 != 0 {
        reach_span(reached, bids, impact, minimum_run_hours);
    }
    if bids.component == 0 {
        reach_make_up(reached, bids);
    }
}

/// A mitigated hour of component 1 or 3 with c other than r.
fn reach_corrected(reached: &mut Reached, bids: &Bids, hour: usize) {
    let Bids { event, name, c, .. } = bids;
    let (a, in_force) = (bids.a(hour), i64::from(event.row.bids[hour]));
    reached.add_if(in_force == a && a > *c, &format!("{name}: passes with c"));
    reached.add_if(in_force < a, &format!("{name}: fails with c"));
    reached.add_if(
        bids.component == 1 && !event.flagged(hour),
        "component 1: c ≠ r in an unflagged hour of a span",
    );
}

fn reach_span(reached: &mut Reached, bids: &Bids, impact: u32, minimum_run_hours: u32) {
    let row = bids.event.row;
    let first = row.mitigated.0.trailing_zeros();
    let last_hit = 31 - (row.flags.0 & impact).leading_zeros();
    let last = 31 - row.mitigated.0.leading_zeros();
    reached.add_if(
        row.mitigated.0 & !row.flags.0 != 0,
        "span: unflagged hours inside",
    );
    reached.add_if(last > last_hit && last < 23, "span: ends by R");
    reached.add_if(
        last == last_hit && first + minimum_run_hours < last_hit,
        "span: ends by the last hour",
    );
    reached.add_if(first + minimum_run_hours > 24, "span: ends at 23");
    reached.add_if(first == 0 && minimum_run_hours == 0, "span: hour 0 and R 0");
}

fn reach_make_up(reached: &mut Reached, bids: &Bids) {
    let Bids { event, r, c, .. } = bids;
    let make_up = event.row.make_up.0;
    reached.add_if(make_up > 0, "make-up");
    reached.add_if(make_up > 0 && c < r, "make-up with c below r");
    reached.add_if(
        c != r && event.row.mitigated.0 != 0 && make_up == 0,
        "make-up of 0",
    );
}

pub fn edges() -> Vec<String> {
    [
        "component 1: passes with c",
        "component 1: fails with c",
        "component 1: c ≠ r in an unflagged hour of a span",
        "component 3: passes with c",
        "component 3: fails with c",
        "bids: flagged without impact",
        "span: unflagged hours inside",
        "span: ends by R",
        "span: ends by the last hour",
        "span: ends at 23",
        "span: hour 0 and R 0",
        "make-up",
        "make-up with c below r",
        "make-up of 0",
    ]
    .map(String::from)
    .to_vec()
}
