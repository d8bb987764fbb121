//! The calendar of the cases: known dates, and every day of the century walked month by month.

use cases::calendar::{
    FIRST_DAY_BEYOND, day_of, first_of_month, first_of_period, month_and_day, period_of,
    window_start,
};
use cases::{Event, Kind, Market, Past};

#[test]
fn known_dates() {
    for (date, day) in [
        ((2000, 1, 1), 0),
        ((2000, 2, 29), 59),
        ((2000, 3, 1), 60),
        ((2001, 2, 28), 424),
        ((2001, 8, 31), 608),
        ((2004, 2, 29), 1_520),
        ((2021, 3, 1), 7_730),
        ((2021, 11, 26), 8_000),
        ((2099, 12, 31), FIRST_DAY_BEYOND - 1),
    ] {
        let (year, month, of_the_month) = date;
        assert_eq!(day_of(year, month, of_the_month), day);
        let months = 12 * (year - 2000) + month - 1;
        assert_eq!(month_and_day(day), (months, of_the_month));
    }
}

#[test]
fn every_day_walked_month_by_month() {
    let (mut day, mut month) = (0, 0);
    for year in 2000..2100 {
        let february = if year % 4 == 0 { 29 } else { 28 };
        for length in [31, february, 31, 30, 31, 30, 31, 31, 30, 31, 30, 31] {
            assert_eq!(first_of_month(month), day);
            for of_the_month in 1..=length {
                assert_eq!(month_and_day(day), (month, of_the_month));
                day += 1;
            }
            month += 1;
        }
    }
    assert_eq!((day, month), (FIRST_DAY_BEYOND, 1_200));
    assert_eq!(first_of_month(1_200), FIRST_DAY_BEYOND);
}

#[test]
fn windows_of_known_days() {
    for (day, first) in [
        ((2021, 9, 1), (2021, 3, 1)),
        ((2001, 8, 31), (2001, 2, 28)),
        ((2001, 8, 28), (2001, 2, 28)),
        ((2004, 8, 31), (2004, 2, 29)),
        ((2004, 8, 28), (2004, 2, 28)),
        ((2005, 10, 31), (2005, 4, 30)),
        ((2005, 3, 31), (2004, 9, 30)),
        ((2004, 2, 29), (2003, 8, 29)),
        ((2000, 7, 1), (2000, 1, 1)),
        ((2000, 7, 2), (2000, 1, 2)),
        ((2000, 6, 30), (2000, 1, 1)),
        ((2000, 1, 1), (2000, 1, 1)),
        ((2099, 12, 31), (2099, 6, 30)),
    ] {
        let [day, first] = [day, first].map(|(year, month, day)| day_of(year, month, day));
        assert_eq!(window_start(day), first, "{day}");
    }
}

#[test]
fn periods_of_summer_and_winter() {
    let mut period = 0;
    assert_eq!(first_of_period(0), 0);
    for year in 2000..2100 {
        for month in [5, 11] {
            let first = day_of(year, month, 1);
            assert_eq!(period_of(first - 1), period);
            period += 1;
            assert_eq!(period_of(first), period);
            assert_eq!(first_of_period(period), first);
        }
    }
    assert_eq!(period_of(FIRST_DAY_BEYOND - 1), 200);
    assert_eq!(period_of(FIRST_DAY_BEYOND), 0);
    assert_eq!(period_of(u32::MAX), 0);
}

#[test]
fn built_records_have_the_period_of_their_day() {
    let day_ahead = Market::DAY_AHEAD;
    for (day, period) in [(120, 0), (121, 1), (8_000, 44), (36_524, 200), (36_525, 0)] {
        for event in [
            Event::withheld(day, day_ahead, 12, &[]),
            Event::dispatch(day, 12, &[]),
            Event::fuel(day, day_ahead, 12, (0, 0, 0), &[]),
            Event::bids(day, day_ahead, 12, 0, 0, &[]),
        ] {
            assert_eq!(event.period, period, "{event:?}");
            assert_eq!(event.in_period(7).period, 7);
        }
        assert_eq!(
            Past::of_day(7, Kind::FUEL, day_ahead, day),
            Past {
                group: 7,
                kind: Kind::FUEL,
                market: day_ahead,
                period,
                day
            }
        );
    }
}
