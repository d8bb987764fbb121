//! Near misses: the name that a word was meant to be. It is only ever asked about, never taken for the name.

/// The longest word that is compared with names.
const LONGEST: usize = 40;

/// Words that people use for a name of the text.
const OTHER_WORDS: [(&str, &str); 12] = [
    ("type", "kind"),
    ("date", "day"),
    ("plant", "unit"),
    ("generator", "unit"),
    ("party", "group"),
    ("owner", "group"),
    ("zone", "area"),
    ("ramp-rate", "response-rate"),
    ("season", "period"),
    ("offer", "bid"),
    ("level", "value"),
    ("history", "past"),
];

/// The one of these names that a word is near to: another word for it, the same letters with other capitals or
/// dashes, one or two letters off, or one of its parts. Nothing where two are as near.
pub fn meant<'n>(word: &str, names: &[&'n str]) -> Option<&'n str> {
    if word.chars().count() > LONGEST {
        return None;
    }
    let plain = plain(word);
    let other = OTHER_WORDS.iter().find(|(other, _)| *other == plain);
    if let Some((_, name)) = other
        && let Some(name) = names.iter().find(|known| *known == name)
    {
        return Some(name);
    }
    let letters = |word: &str| word.replace('-', "");
    only(names, |name| {
        letters(&name.to_lowercase()) == letters(&plain)
    })
    .or_else(|| nearest(&plain, names))
    .or_else(|| only(names, |name| name.split('-').any(|part| part == plain)))
}

/// A word in small letters, with dashes.
fn plain(word: &str) -> String {
    word.to_lowercase().replace(['_', ' '], "-")
}

/// The name for which something holds, where there is one alone.
fn only<'n>(names: &[&'n str], holds: impl Fn(&str) -> bool) -> Option<&'n str> {
    let mut found = names.iter().filter(|name| holds(name));
    let first = found.next()?;
    found.next().is_none().then_some(*first)
}

/// The nearest name by letters that are wrong, missing, too many or exchanged: one of them in a short word, two in a
/// longer one.
fn nearest<'n>(word: &str, names: &[&'n str]) -> Option<&'n str> {
    let most = match word.chars().count() {
        0..=2 => return None,
        3 | 4 => 1,
        _ => 2,
    };
    let distances: Vec<usize> = names.iter().map(|name| distance(word, name)).collect();
    let least = distances
        .iter()
        .copied()
        .min()
        .filter(|&least| least <= most)?;
    let mut found = names.iter().zip(&distances);
    let (name, _) = found.find(|(_, distance)| **distance == least)?;
    let alone = !found.any(|(_, distance)| *distance == least);
    alone.then_some(*name)
}

/// How many letters have to be changed, added, left out or exchanged with a neighbour to make one word of the other.
fn distance(one: &str, other: &str) -> usize {
    let (one, other): (Vec<char>, Vec<char>) = (one.chars().collect(), other.chars().collect());
    let mut before: Vec<usize> = Vec::new();
    let mut last: Vec<usize> = (0..=other.len()).collect();
    for row in 1..=one.len() {
        let mut next = vec![row];
        for column in 1..=other.len() {
            let (letter, beside) = (one[row - 1], other[column - 1]);
            let changed = last[column - 1] + usize::from(letter != beside);
            let mut least = changed.min(last[column] + 1).min(next[column - 1] + 1);
            let exchanged =
                row > 1 && column > 1 && letter == other[column - 2] && beside == one[row - 2];
            if exchanged {
                least = least.min(before[column - 2] + 1);
            }
            next.push(least);
        }
        before = std::mem::replace(&mut last, next);
    }
    last[other.len()]
}

/// What a message asks about a near miss.
pub fn question(name: &str) -> String {
    format!("did you mean {name}?")
}
