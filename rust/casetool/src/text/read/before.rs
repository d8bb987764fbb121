//! The lines before the first record: `order as-written`, and `version` with its number.

use super::Reader;
use crate::text::line::Word;
use crate::text::order::AS_WRITTEN;
use crate::text::version::named;

impl<'a> Reader<'a> {
    /// The line `order as-written`.
    pub(super) fn order(&mut self, first: Word<'a>, rest: &[Word<'a>]) {
        self.once_before_records(first, self.as_written);
        self.as_written = true;
        let expected = format!("expected {AS_WRITTEN} after order, and nothing else");
        self.one_word(first, rest, &expected, |word| word == AS_WRITTEN);
    }

    /// The line `version 1` or `version 2`. What it says was taken before.
    pub(super) fn version(&mut self, first: Word<'a>, rest: &[Word<'a>]) {
        self.once_before_records(first, self.says_version);
        self.says_version = true;
        let expected = "expected 1 or 2 after version, and nothing else";
        self.one_word(first, rest, expected, |word| named(word).is_some());
        let other = rest.first().filter(|word| {
            let named = named(word.text);
            named.is_some_and(|version| version != self.version)
        });
        if let (Some(word), Some(told)) = (other, self.told) {
            self.mistakes.add(word.wrong(told.contradicted()));
        }
    }

    /// That a line is there already, or stands below a record.
    fn once_before_records(&mut self, first: Word<'a>, is_there: bool) {
        if is_there || self.lines.iter().any(|&lines| lines > 0) {
            let problem = format!("{} stands once, before the first record", first.text);
            self.mistakes.add(first.wrong(problem));
        }
    }

    /// That a line has anything but one good word.
    fn one_word(
        &mut self,
        first: Word<'a>,
        rest: &[Word<'a>],
        expected: &str,
        is_good: impl Fn(&str) -> bool,
    ) {
        let mut others = rest.iter().enumerate();
        let other = others.find(|(place, word)| *place > 0 || !is_good(word.text));
        match other {
            Some((_, word)) => self.mistakes.add(word.wrong(expected)),
            None if rest.is_empty() => self.mistakes.add(first.missing(expected)),
            None => {}
        }
    }
}
