//! Amounts of the file and of the library as people write them: tenths of MW as MW, cents and their tenths and twentieths as
//! dollars, exactly.

use std::borrow::Cow;

use attachment_h::{Cents, Multiplier};

use crate::format::json::Json;

/// What an amount is counted in.
#[derive(Clone, Copy, Debug, PartialEq, Eq)]
pub enum Measure {
    /// A plain number.
    Plain,
    /// Dollars, in the file cents.
    Dollars,
    /// Dollars, of the library tenths of a cent: no text has them.
    TenthsOfACent,
    /// MW, in the file tenths.
    Power,
    /// MW a minute, in the file tenths.
    Rate,
    /// MWh, in the file tenths.
    Energy,
    /// Minutes.
    Minutes,
}

/// The words that may stand after an amount.
pub const MEASURE_WORDS: [&str; 4] = ["MW", "MW/min", "MWh", "minutes"];

impl Measure {
    /// The decimals that an amount may have.
    pub fn decimals(self) -> usize {
        match self {
            Measure::Plain | Measure::Minutes => 0,
            Measure::Dollars => 2,
            Measure::TenthsOfACent => 3,
            Measure::Power | Measure::Rate | Measure::Energy => 1,
        }
    }

    /// The word after the amount, if it has one.
    pub fn word(self) -> Option<&'static str> {
        match self {
            Measure::Plain | Measure::Dollars | Measure::TenthsOfACent => None,
            Measure::Power => Some("MW"),
            Measure::Rate => Some("MW/min"),
            Measure::Energy => Some("MWh"),
            Measure::Minutes => Some("minutes"),
        }
    }

    /// What an amount looks like, for a message.
    fn expected(self) -> &'static str {
        match self {
            Measure::Plain => "a whole number",
            Measure::Dollars => "dollars with at most two decimals, such as $40.00",
            Measure::TenthsOfACent => "dollars with at most three decimals, such as $40.000",
            Measure::Power => "MW with at most one decimal, such as 50.1 MW",
            Measure::Rate => "MW a minute with at most one decimal, such as 10.0 MW/min",
            Measure::Energy => "MWh with at most one decimal, such as 50.1 MWh",
            Measure::Minutes => "whole minutes, such as 180 minutes",
        }
    }

    /// The value of the file in the text form: `$40.00`, `50.1 MW`.
    pub fn text(self, value: i64) -> String {
        self.with_digits(Signed::from(value), |digits| digits)
    }

    /// The value of the file for people, with a comma before every three digits: `$2,004.00`.
    pub fn spoken(self, value: impl Into<Signed>) -> String {
        self.with_digits(value.into(), |digits| grouped(&digits))
    }

    /// The value of the file for programs, without a sign of its measure: `-2004.00`.
    pub fn decimal(self, value: impl Into<Signed>) -> String {
        let (sign, whole, part) = self.parts(value.into());
        format!("{sign}{whole}{part}")
    }

    /// The sign, the whole part and the decimals after their point.
    fn parts(self, value: Signed) -> (&'static str, String, String) {
        let decimals = self.decimals();
        let digits = format!("{:0width$}", value.size, width = decimals + 1);
        let (whole, part) = digits.split_at(digits.len() - decimals);
        let sign = if value.negative { "-" } else { "" };
        let point = if decimals == 0 { "" } else { "." };
        (sign, whole.to_string(), format!("{point}{part}"))
    }

    fn with_digits(self, value: Signed, shape: impl Fn(String) -> String) -> String {
        let (sign, whole, part) = self.parts(value);
        let dollar = match self {
            Measure::Dollars | Measure::TenthsOfACent => "$",
            _ => "",
        };
        let word = self.word().map_or(String::new(), |word| format!(" {word}"));
        format!("{sign}{dollar}{}{part}{word}", shape(whole))
    }

    /// Reads an amount without its word: the value of the file, or what was expected.
    pub fn read(self, text: &str) -> Result<i64, String> {
        self.value(text)
            .ok_or_else(|| format!("expected {}", self.expected()))
    }

    fn value(self, text: &str) -> Option<i64> {
        let (mut negative, mut text) = without_minus(text);
        if let Some(rest) = text.strip_prefix('$').filter(|_| self == Measure::Dollars) {
            // `-$40.00` or `$-40.00`, and not both.
            let (minus, rest) = without_minus(rest);
            if minus && negative {
                return None;
            }
            (negative, text) = (negative || minus, rest);
        }
        let (whole, part) = match text.split_once('.') {
            Some((_, "")) => return None,
            Some(parts) => parts,
            None => (text, ""),
        };
        let whole = without_commas(whole)?;
        let all_digits = whole
            .bytes()
            .chain(part.bytes())
            .all(|byte| byte.is_ascii_digit());
        if whole.is_empty() || !all_digits || part.len() > self.decimals() {
            return None;
        }
        let zeros = "0".repeat(self.decimals() - part.len());
        // Digits alone fail to parse only where they are too many: then no field has room for them.
        let value = format!("{whole}{part}{zeros}").parse().unwrap_or(i64::MAX);
        Some(if negative { -value } else { value })
    }
}

/// Whether a text begins with a minus, and what is after it.
fn without_minus(text: &str) -> (bool, &str) {
    match text.strip_prefix(['-', '−']) {
        Some(rest) => (true, rest),
        None => (false, text),
    }
}

/// Digits without the commas before every three of them. Commas that stand elsewhere are nothing: 1,50 and 0,500 may
/// be meant as decimals.
fn without_commas(digits: &str) -> Option<Cow<'_, str>> {
    let mut groups = digits.split(',');
    let first = groups.next()?;
    if first.len() == digits.len() {
        return Some(digits.into());
    }
    let good = (1..=3).contains(&first.len())
        && !first.starts_with('0')
        && groups.all(|group| group.len() == 3);
    good.then(|| digits.replace(',', "").into())
}

/// A value as its sign and its size.
#[derive(Clone, Copy, Debug, PartialEq, Eq)]
pub struct Signed {
    /// It stands below 0.
    pub negative: bool,
    /// The value without its sign.
    pub size: u64,
}

impl Signed {
    /// The value as JSON.
    pub fn json(self) -> Json {
        let size = i128::from(self.size);
        Json::Integer(if self.negative { -size } else { size })
    }
}

impl From<i64> for Signed {
    fn from(value: i64) -> Signed {
        Signed {
            negative: value < 0,
            size: value.unsigned_abs(),
        }
    }
}

impl From<u64> for Signed {
    fn from(size: u64) -> Signed {
        let negative = false;
        Signed { negative, size }
    }
}

/// Digits with a comma before every three.
fn grouped(digits: &str) -> String {
    let mut text = String::new();
    for (place, digit) in digits.chars().enumerate() {
        if place > 0 && (digits.len() - place).is_multiple_of(3) {
            text.push(',');
        }
        text.push(digit);
    }
    text
}

/// A number with a comma before every three digits.
pub fn number(value: u64) -> String {
    grouped(&value.to_string())
}

/// So many bytes, in words.
pub fn bytes(count: usize) -> String {
    let word = if count == 1 { "byte" } else { "bytes" };
    format!("{} {word}", number(count as u64))
}

/// Cents as dollars, such as `$2,004.00`.
pub fn dollars(cents: Cents) -> String {
    Measure::Dollars.spoken(cents.0)
}

/// Tenths of a cent as dollars, such as `$2,004.000`.
pub fn tenths(count: impl Into<Signed>) -> String {
    Measure::TenthsOfACent.spoken(count)
}

/// Twentieths of a cent as dollars, such as `$10,700.0005`: halves of a tenth.
pub fn twentieths(count: u64) -> String {
    tenths(count / 2) + half_of_a_tenth(count)
}

/// The same for programs, such as `10700.0005`.
pub fn twentieths_decimal(count: u64) -> String {
    Measure::TenthsOfACent.decimal(count / 2) + half_of_a_tenth(count)
}

fn half_of_a_tenth(twentieths: u64) -> &'static str {
    if twentieths % 2 == 1 { "5" } else { "0" }
}

/// A multiplier from its halves, such as `1.5`.
pub fn halves(multiplier: Multiplier) -> String {
    let half = if multiplier.0 % 2 == 1 { ".5" } else { "" };
    format!("{}{half}", multiplier.0 / 2)
}
