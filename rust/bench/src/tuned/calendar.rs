//! The days of 2000 to 2099: capability periods, and the window that begins six months back.

const MONTHS: usize = 1_200;
const PERIODS: usize = 201;

/// The days of the calendar, counted from 1 January 2000.
pub const CALENDAR_DAYS: u32 = 36_525;

/// The first day of each month, counted from January 2000, and behind the last the day after the calendar.
static MONTH_STARTS: [u32; MONTHS + 1] = month_starts();
/// The first day of each capability period, and behind the last the day after the calendar.
static PERIOD_STARTS: [u32; PERIODS + 1] = period_starts();

const fn month_starts() -> [u32; MONTHS + 1] {
    let mut starts = [0; MONTHS + 1];
    let mut month = 0;
    while month < MONTHS {
        starts[month + 1] = starts[month] + month_length(month);
        month += 1;
    }
    assert!(starts[MONTHS] == CALENDAR_DAYS);
    starts
}

const fn month_length(month: usize) -> u32 {
    match month % 12 {
        // In these hundred years every fourth one is a leap year, 2000 too.
        1 if (month / 12).is_multiple_of(4) => 29,
        1 => 28,
        3 | 5 | 8 | 10 => 30,
        _ => 31,
    }
}

/// Periods begin in May and November; period 0 began before the calendar.
const fn period_starts() -> [u32; PERIODS + 1] {
    let months = month_starts();
    let mut starts = [0; PERIODS + 1];
    let mut period = 1;
    while period < PERIODS {
        starts[period] = months[6 * period - 2];
        period += 1;
    }
    starts[PERIODS] = CALENDAR_DAYS;
    starts
}

/// Whether a capability period is a day's.
#[inline(always)]
pub fn is_period_of(period: u32, day: u32) -> bool {
    let place = (period as usize).min(PERIODS - 1);
    (place == period as usize) & (PERIOD_STARTS[place] <= day) & (day < PERIOD_STARTS[place + 1])
}

/// The first day whose fuel penalty counts on a day of the calendar: the same day of the month six months before, or
/// that month's last day where it has no such day, or day 0.
pub fn window_start(day: u32) -> u32 {
    // Four years have 48 months and 1,461 days; the guess is off by one at most.
    let guess = (48 * day / 1_461) as usize;
    let month = if day < MONTH_STARTS[guess] {
        guess - 1
    } else if day >= MONTH_STARTS[guess + 1] {
        guess + 1
    } else {
        guess
    };
    match month.checked_sub(6) {
        Some(before) => {
            let same_day = MONTH_STARTS[before] + (day - MONTH_STARTS[month]);
            same_day.min(MONTH_STARTS[before + 1] - 1)
        }
        None => 0,
    }
}
