//! Six months and capability periods by the calendar, on the smaller calls and in small cases.

use cases::{Case, Event, Market, Past};
use second::calls::{fuel_day_window, period_of};
use second::penalty_working;

use crate::common::{past_fuel, past_withheld, rows_of, unit};

/// A year, a month and a day of the month, the last two from 1.
type Date = (u32, u32, u32);

fn day_after((year, month, day): Date) -> Date {
    let leap = year % 4 == 0 && (year % 100 != 0 || year % 400 == 0);
    let february = if leap { 29 } else { 28 };
    let last = [31, february, 31, 30, 31, 30, 31, 31, 30, 31, 30, 31][month as usize - 1];
    if day < last {
        (year, month, day + 1)
    } else if month < 12 {
        (year, month + 1, 1)
    } else {
        (year + 1, 1, 1)
    }
}

/// Every date from 1 January 2000 to 31 December 2099, one after the other.
fn dates() -> Vec<Date> {
    let dates: Vec<Date> = std::iter::successors(Some((2000, 1, 1)), |&date| Some(day_after(date)))
        .take_while(|&(year, _, _)| year < 2100)
        .collect();
    assert_eq!((dates.len(), dates[60]), (36_525, (2000, 3, 1)));
    dates
}

#[test]
fn every_day_of_the_century_has_its_period() {
    let mut period = 0;
    for (day, (_, month, day_of_month)) in (0..).zip(dates()) {
        if day_of_month == 1 && (month == 5 || month == 11) {
            period += 1;
        }
        assert_eq!(period_of(day), Ok(period), "day {day}");
    }
    assert_eq!(period, 200);
}

#[test]
fn every_window_of_the_century() {
    let dates = dates();
    let firsts: Vec<u32> = (0..36_525)
        .filter(|&day| dates[day as usize].2 == 1)
        .collect();
    assert_eq!(firsts.len(), 1_200);
    for (day, &(year, month, day_of_month)) in (0_u32..).zip(&dates) {
        let months = ((year - 2000) * 12 + month - 1) as usize;
        let start = if months < 6 {
            0
        } else {
            (firsts[months - 6]..firsts[months - 5])
                .rfind(|&earlier| dates[earlier as usize].2 <= day_of_month)
                .expect("every month has a first day")
        };
        for earlier in day.saturating_sub(190)..=(day + 1).min(36_524) {
            let counts = start <= earlier && earlier < day;
            assert_eq!(
                fuel_day_window(day, earlier),
                Ok(counts),
                "{earlier} on day {day}"
            );
        }
        assert_eq!(fuel_day_window(day, 0), Ok(start == 0 && day > 0), "{day}");
    }
}

/// Days and the first days of their windows.
const WINDOWS: [(u32, u32); 20] = [
    // 1 September and 1 March 2021, 184 days.
    (7_914, 7_730),
    // 27 August 2001 reaches 27 February.
    (604, 423),
    // 28 to 31 August 2001 all reach 28 February, 181 to 184 days.
    (605, 424),
    (606, 424),
    (607, 424),
    (608, 424),
    // 1 September 2001 reaches 1 March.
    (609, 425),
    // 28 to 31 August 2004 reach 28 and 29 February.
    (1_701, 1_519),
    (1_702, 1_520),
    (1_703, 1_520),
    (1_704, 1_520),
    // 29 February 2004 reaches 29 August 2003.
    (1_520, 1_336),
    // 31 March and 31 May 2001 reach 30 September and 30 November 2000.
    (455, 273),
    (516, 334),
    // 26 November and 26 May 2021.
    (8_000, 7_816),
    // 2 January, 30 June and 1 July 2000 reach 1 January, 2 July the day after.
    (1, 0),
    (181, 0),
    (182, 0),
    (183, 1),
    // 31 December and 30 June 2099.
    (36_524, 36_340),
];

/// A fuel event of unit 12, with a penalty of 600,000 cents where M is 2.
fn fuel(day: u32, market: Market) -> Event {
    Event::fuel(day, market, 12, (0, 600_000, 0), &[])
}

/// M of the last of these fuel events after these past entries, by its row and its working.
fn m_of_the_last(past: Vec<Past>, events: Vec<Event>) -> u8 {
    let case = Case {
        units: vec![unit(12, 7)],
        past,
        events,
        ..Case::default()
    };
    let last = case.events.len() - 1;
    let row = &rows_of(&case, &[])[last];
    let working = penalty_working(&case.to_bytes(), &[], last).unwrap();
    assert_eq!(
        (working.multiplier, working.penalty),
        (row.multiplier.0, row.penalty.0)
    );
    assert_eq!(row.penalty.0, u64::from(row.multiplier.0) * 300_000);
    row.multiplier.0
}

/// M of a day after a past entry and after a penalty of an earlier day, each in either market.
#[track_caller]
fn m_after(day: u32, earlier: u32) -> u8 {
    let own = fuel(day, Market::DAY_AHEAD);
    let of_each = [Market::DAY_AHEAD, Market::REAL_TIME].map(|market| {
        [
            m_of_the_last(vec![past_fuel(7, market, earlier)], vec![own]),
            m_of_the_last(vec![], vec![fuel(earlier, market), own]),
        ]
    });
    let m = of_each[0][0];
    assert_eq!(of_each, [[m; 2]; 2], "{earlier} on day {day}");
    m
}

#[test]
fn windows_of_dates() {
    for (day, start) in WINDOWS {
        assert_eq!(fuel_day_window(day, start), Ok(true), "day {day}");
        assert_eq!(fuel_day_window(day, day - 1), Ok(true), "day {day}");
        assert_eq!(fuel_day_window(day, day), Ok(false), "day {day}");
        assert_eq!((m_after(day, start), m_after(day, day - 1)), (3, 3));
        if let Some(before) = start.checked_sub(1) {
            assert_eq!(fuel_day_window(day, before), Ok(false), "day {day}");
            assert_eq!(m_after(day, before), 2, "day {day}");
        }
    }
    // 28 August 2001 does not reach 26 February.
    assert_eq!(fuel_day_window(605, 422), Ok(false));
    assert_eq!(m_after(605, 422), 2);
}

#[test]
fn the_day_itself_and_later_days_do_not_count() {
    for day in [0, 1, 424, 608, 1_520, 8_000, 36_523] {
        for later in [day, day + 1, 36_524] {
            assert_eq!(fuel_day_window(day, later), Ok(false), "{later} on {day}");
            let past = vec![past_fuel(7, Market::DAY_AHEAD, later)];
            let own = vec![fuel(day, Market::DAY_AHEAD)];
            assert_eq!(m_of_the_last(past, own), 2, "{later} on {day}");
        }
        let both = vec![fuel(day, Market::DAY_AHEAD), fuel(day, Market::REAL_TIME)];
        assert_eq!(m_of_the_last(vec![], both), 2, "day {day}");
    }
}

#[test]
fn a_withheld_entry_and_another_group_do_not_raise_m() {
    let own = vec![fuel(8_000, Market::DAY_AHEAD)];
    let fuel_entry = past_fuel(7, Market::DAY_AHEAD, 7_999);
    let withheld_entry = Past {
        day: 7_999,
        ..past_withheld(7, Market::DAY_AHEAD, 44)
    };
    let of_another_group = Past {
        group: 8,
        ..fuel_entry
    };
    assert_eq!(m_of_the_last(vec![fuel_entry], own.clone()), 3);
    assert_eq!(
        m_of_the_last(vec![withheld_entry, of_another_group], own),
        2
    );
}

#[test]
fn instances_count_by_the_periods_of_their_days() {
    // Period 3 begins on 1 May 2001; 0 ends on 30 April 2000, 1 on 31 October and 2 on 30 April 2001.
    let days = [(120, 0), (121, 1), (304, 1), (305, 2), (485, 2), (486, 3)];
    for (day, period) in days {
        assert_eq!(period_of(day), Ok(period), "day {day}");
    }
    let withheld = |day| Event::withheld(day, Market::DAY_AHEAD, 12, &[(0, 501, 20)]);
    let counts = |past: &[(u32, u16)], day| {
        let entry = |&(day, period): &(u32, u16)| Past {
            day,
            ..past_withheld(7, Market::DAY_AHEAD, period)
        };
        let case = Case {
            units: vec![unit(12, 7)],
            past: past.iter().map(entry).collect(),
            events: vec![withheld(day)],
            ..Case::default()
        };
        let row = &rows_of(&case, &[])[0];
        (row.n3, row.n2, row.multiplier.0)
    };
    // On 1 May 2001 all but the first count, those of periods 2 and 3 for N2 too; on 30 April all but the last.
    assert_eq!(counts(&days, 486), (6, 4, 6));
    assert_eq!(counts(&days[..5], 486), (5, 3, 4));
    assert_eq!(counts(&days, 485), (6, 5, 6));
}
