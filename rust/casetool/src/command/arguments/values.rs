//! The value of an option: that there is one, once, and what it may be.

use std::ffi::{OsStr, OsString};

use super::shown;

/// Keeps the value of an option that may be there once.
pub fn once<T>(place: &mut Option<T>, option: &str, value: T) -> Result<(), String> {
    match place.replace(value) {
        None => Ok(()),
        Some(_) => Err(format!("{option} is there twice")),
    }
}

/// Keeps that an option without a value is there.
pub fn flag(place: &mut bool, option: &str) -> Result<(), String> {
    if *place {
        return Err(format!("{option} is there twice"));
    }
    *place = true;
    Ok(())
}

/// The argument after an option.
pub fn value<'a>(
    option: &str,
    rest: &mut impl Iterator<Item = &'a OsString>,
) -> Result<&'a OsStr, String> {
    rest.next()
        .map(OsString::as_os_str)
        .ok_or_else(|| format!("{option} needs a value after it"))
}

/// One of the words that an option takes.
pub fn one_of<T: Copy>(option: &str, argument: &OsStr, words: &[(&str, T)]) -> Result<T, String> {
    let found = words
        .iter()
        .find(|(word, _)| argument.to_str() == Some(*word));
    found.map(|(_, form)| *form).ok_or_else(|| {
        let words: Vec<&str> = words.iter().map(|(word, _)| *word).collect();
        let words = match words.as_slice() {
            [first, second] => format!("{first} or {second}"),
            [others @ .., last] => format!("{} or {last}", others.join(", ")),
            [] => String::new(),
        };
        format!("{option} {}: expected {words}", shown(argument))
    })
}

/// A number from 0 to the most that an option takes.
pub fn number(option: &str, argument: &OsStr, most: usize) -> Result<usize, String> {
    let expected = match most {
        usize::MAX => "a number from 0".to_string(),
        most => format!("0 to {most}"),
    };
    argument
        .to_str()
        .filter(|digits| digits.bytes().all(|byte| byte.is_ascii_digit()))
        .and_then(|digits| digits.parse().ok())
        .filter(|&number| number <= most)
        .ok_or_else(|| format!("{option} {}: expected {expected}", shown(argument)))
}
