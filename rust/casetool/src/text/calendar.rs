//! Days as dates: day 0 is 1 January 2000.

const MONTHS: [(&str, u32); 12] = [
    ("January", 31),
    ("February", 28),
    ("March", 31),
    ("April", 30),
    ("May", 31),
    ("June", 30),
    ("July", 31),
    ("August", 31),
    ("September", 30),
    ("October", 31),
    ("November", 30),
    ("December", 31),
];

/// Days of 400 years.
const CYCLE: u32 = 146_097;

fn is_leap(year: u32) -> bool {
    year.is_multiple_of(4) && (!year.is_multiple_of(100) || year.is_multiple_of(400))
}

fn days_of_year(year: u32) -> u32 {
    if is_leap(year) { 366 } else { 365 }
}

fn days_of_month(year: u32, month: usize) -> u32 {
    MONTHS[month].1 + u32::from(month == 1 && is_leap(year))
}

/// Year, month from 0 and day from 1 of a day number.
fn parts(day: u32) -> (u32, usize, u32) {
    let mut year = 2000 + 400 * (day / CYCLE);
    let mut left = day % CYCLE;
    while left >= days_of_year(year) {
        left -= days_of_year(year);
        year += 1;
    }
    let mut month = 0;
    while left >= days_of_month(year, month) {
        left -= days_of_month(year, month);
        month += 1;
    }
    (year, month, left + 1)
}

/// The date of a day number, such as `26 November 2021`.
pub fn date(day: u32) -> String {
    let (year, month, day) = parts(day);
    format!("{day} {} {year}", MONTHS[month].0)
}

/// The date of a day number as [`day_of`] reads it, such as `2021-11-26`.
pub fn numeric_date(day: u32) -> String {
    let (year, month, day) = parts(day);
    format!("{year:04}-{:02}-{day:02}", month + 1)
}

/// The day number of a date from 2000 to 9999 such as `2021-11-26`.
pub fn day_of(date: &str) -> Option<u32> {
    let digits = |text: &str, count: usize| -> Option<u32> {
        let right = text.len() == count && text.bytes().all(|byte| byte.is_ascii_digit());
        text.parse().ok().filter(|_| right)
    };
    let (year, rest) = date.split_once('-')?;
    let (month, day) = rest.split_once('-')?;
    let (year, month, day) = (digits(year, 4)?, digits(month, 2)?, digits(day, 2)?);
    let month = usize::try_from(month).ok()?.checked_sub(1)?;
    if year < 2000 || month > 11 || day < 1 || day > days_of_month(year, month) {
        return None;
    }
    let years: u32 = (2000..year).map(days_of_year).sum();
    let months: u32 = (0..month).map(|month| days_of_month(year, month)).sum();
    Some(years + months + day - 1)
}
