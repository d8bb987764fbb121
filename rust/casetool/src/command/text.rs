//! `write` and `show`: from text to file and back.

use attachment_h::layout::Sections;
use attachment_h::{ROWS_LENGTH, check};

use super::arguments::Given;
use super::{Answer, Done, Failure, alone, input, mistake};
use crate::place::refusal::Refusal;
use crate::text::version::Told;
use crate::text::{show as text_show, write as text_write};

/// The case file or the correction of a text.
pub fn write(text: &[u8], given: &Given) -> Result<Answer, Failure> {
    let name = given.source.to_string();
    let written = if given.is_correction {
        text_write::correction_in(text, given.version.map(Told::Option))
    } else {
        text_write::case_file(text)
    };
    let written = written.map_err(|mistakes| Failure::Mistakes(name.clone(), mistakes))?;
    if !given.allow_empty {
        if given.is_correction && written.bytes.is_empty() {
            let message = input::has_no("reference", &name, Some("written"));
            return Err(Failure::Message(message));
        }
        if !given.is_correction && input::is_empty_case(&written.bytes) {
            let message = input::has_no("event", &name, Some("written"));
            return Err(Failure::Message(message));
        }
    }
    let warnings = written.warnings.iter();
    Ok(Answer {
        bytes: written.bytes,
        done: Done {
            warnings: warnings
                .map(|warning| format!("{name}: {warning}"))
                .collect(),
            ..Done::default()
        },
    })
}

/// The text of a case file or of a correction.
pub fn show(file: &[u8], given: &Given) -> Result<Answer, Failure> {
    let text = if given.is_correction {
        text_show::correction_text(alone::version(file, given)?, file)
    } else {
        text_show::case_text(&sections(file, given, "show")?)
    };
    Ok(Answer::done(text))
}

/// The sections of a case file, which breaks none of the numbers 1 to 5; otherwise that there is nothing to show or to
/// convert.
pub fn sections<'a>(file: &'a [u8], given: &Given, verb: &str) -> Result<Sections<'a>, String> {
    let name = &given.source;
    Sections::of(file).ok_or_else(|| match check(file, &[], ROWS_LENGTH) {
        Err(refused) => {
            let refusal = Refusal::of(refused, file, &[], ROWS_LENGTH);
            format!("{name}: this file has no sections to {verb}\n{refusal}")
        }
        Ok(()) => {
            let mistake = mistake("sections in this accepted case");
            format!("{name}: {mistake}")
        }
    })
}
