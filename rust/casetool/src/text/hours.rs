//! Masks of hours as ranges: bit h is hour h.

use attachment_h::layout::HOURS;

/// The stretches of neighbouring hours in a mask, each with its first and last.
pub fn stretches(mask: u32) -> Vec<(u32, u32)> {
    let mut found: Vec<(u32, u32)> = Vec::new();
    for hour in (0..32).filter(|hour| mask >> hour & 1 == 1) {
        match found.last_mut() {
            Some((_, last)) if *last + 1 == hour => *last = hour,
            _ => found.push((hour, hour)),
        }
    }
    found
}

fn joined(mask: u32, dash: &str, comma: &str) -> String {
    let parts: Vec<String> = stretches(mask)
        .into_iter()
        .map(|(first, last)| {
            if first == last {
                first.to_string()
            } else {
                format!("{first}{dash}{last}")
            }
        })
        .collect();
    parts.join(comma)
}

/// A mask in the text form: `0,5-7`. A mask of no hours is `none`.
pub fn text(mask: u32) -> String {
    match mask {
        0 => "none".to_string(),
        _ => joined(mask, "-", ","),
    }
}

/// A mask in an answer for people: `0, 5–7`.
pub fn spoken(mask: u32) -> String {
    match mask {
        0 => "none".to_string(),
        _ => joined(mask, "–", ", "),
    }
}

/// A mask with the word before it: `hour 0`, `hours 5–7`.
pub fn named(mask: u32) -> String {
    let word = if mask.count_ones() == 1 {
        "hour"
    } else {
        "hours"
    };
    format!("{word} {}", spoken(mask))
}

/// Reads a mask in the text form, `none` for no hours.
pub fn read_mask(word: &str) -> Result<u32, String> {
    match word {
        "none" => Ok(0),
        // A mask of a file has room for 32.
        _ => read(word, 31).map_err(|problem| format!("{problem}, or none for no hours")),
    }
}

/// Reads hours and stretches that rise, each hour at most `highest`: `0,5-7`, or as people write it, `0, 5–7`.
pub fn read(word: &str, highest: u32) -> Result<u32, String> {
    let mut mask = 0;
    let mut next = 0;
    for part in word.split(',') {
        let (first, last) = part.split_once(['-', '–']).unwrap_or((part, part));
        let (first, last) = (hour(first, highest)?, hour(last, highest)?);
        if first < next || last < first {
            return Err("expected hours that rise, such as 0,5-7".to_string());
        }
        for hour in first..=last {
            mask |= 1 << hour;
        }
        next = last + 1;
    }
    Ok(mask)
}

fn hour(digits: &str, highest: u32) -> Result<u32, String> {
    let digits = digits.trim_ascii();
    let all_digits = !digits.is_empty() && digits.bytes().all(|byte| byte.is_ascii_digit());
    digits
        .parse()
        .ok()
        .filter(|&hour| all_digits && hour <= highest)
        .ok_or_else(|| format!("expected hours from 0 to {}, as in 0,5-7", HOURS - 1))
}
