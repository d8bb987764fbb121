//! Whether bytes are a text: valid UTF-8, not empty, with no zero byte. A case file has zero bytes always.

use super::line::TextError;

/// Whether bytes are a text.
pub fn is_text(bytes: &[u8]) -> bool {
    !bytes.is_empty() && !bytes.contains(&0) && std::str::from_utf8(bytes).is_ok()
}

/// Whether bytes look like a text, though it may be in another code: no zero byte, and mostly letters, digits and signs.
pub fn is_like_text(bytes: &[u8]) -> bool {
    let plain = |byte: &&u8| byte.is_ascii_graphic() || byte.is_ascii_whitespace();
    let count = bytes.iter().filter(plain).count();
    !bytes.contains(&0) && 4 * count > 3 * bytes.len()
}

/// The text of bytes that came from outside, which may begin with a byte order mark; it may be empty.
pub fn text_of(bytes: &[u8]) -> Result<&str, TextError> {
    if let Some(name) = utf_16(bytes) {
        return Err(TextError {
            line: 1,
            column: 1,
            word: None,
            problem: format!("this is {name}: a case as text is UTF-8"),
        });
    }
    let good = match std::str::from_utf8(bytes) {
        Ok(text) => text,
        Err(error) => return Err(no_text(bytes, error.valid_up_to())),
    };
    match bytes.iter().position(|&byte| byte == 0) {
        Some(at) => Err(no_text(bytes, at)),
        None => Ok(good.strip_prefix('\u{feff}').unwrap_or(good)),
    }
}

/// That the byte at a place, after good text, is none.
fn no_text(bytes: &[u8], at: usize) -> TextError {
    let good = String::from_utf8_lossy(&bytes[..at]);
    let line = good.rsplit('\n').next().unwrap_or_default();
    TextError {
        line: 1 + good.matches('\n').count(),
        column: 1 + line.chars().count(),
        word: None,
        problem: format!(
            "byte {} is no text: a case as text is UTF-8 (is this a case file?)",
            bytes[at]
        ),
    }
}

/// Which UTF-16 bytes are, told by their byte order mark, or by letters with a zero byte on the same side of each.
pub fn utf_16(bytes: &[u8]) -> Option<&'static str> {
    /// How many letters are looked at.
    const LETTERS: usize = 32;
    let (little, big) = ("UTF-16, little-endian", "UTF-16, big-endian");
    match bytes {
        [0xFF, 0xFE, ..] => return Some(little),
        [0xFE, 0xFF, ..] => return Some(big),
        _ => {}
    }
    let letter = |byte: u8| byte.is_ascii_graphic() || byte.is_ascii_whitespace();
    let pairs = bytes.chunks_exact(2).take(LETTERS);
    let all = |test: fn(&[u8]) -> (u8, u8)| {
        pairs.len() > 0
            && pairs.clone().all(|pair| {
                let (zero, other) = test(pair);
                zero == 0 && letter(other)
            })
    };
    if all(|pair| (pair[1], pair[0])) {
        Some(little)
    } else if all(|pair| (pair[0], pair[1])) {
        Some(big)
    } else {
        None
    }
}
