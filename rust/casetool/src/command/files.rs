//! Reading what a command is given.

use std::fs::{self, File};
use std::io::{self, Read};
use std::path::Path;

use crate::command::arguments::Source;
use crate::text::amounts;

/// The most bytes that are read: far more than a case or its text can have.
const MOST_BYTES: u64 = 16 << 20;

/// All bytes of a source, or what went wrong.
pub fn read(source: &Source, input: &mut dyn Read) -> Result<Vec<u8>, String> {
    let name = source.to_string();
    let bytes = match source {
        Source::Input => all(input),
        Source::File(path) => File::open(path).and_then(|mut file| all(&mut file)),
    };
    let bytes = bytes.map_err(|error| format!("can't read {name}: {error}"))?;
    if bytes.len() as u64 > MOST_BYTES {
        let most = amounts::number(MOST_BYTES);
        return Err(format!(
            "{name} has more than {most} bytes: that is no case"
        ));
    }
    Ok(bytes)
}

fn all(from: &mut dyn Read) -> io::Result<Vec<u8>> {
    let mut bytes = Vec::new();
    from.take(MOST_BYTES + 1).read_to_end(&mut bytes)?;
    Ok(bytes)
}

/// Whether a source is this very file, by whatever path. Terminals and the like are no files.
pub fn is(source: &Source, path: &Path) -> bool {
    let source = match source {
        Source::Input => Path::new("/dev/stdin"),
        Source::File(source) => source,
    };
    match (fs::canonicalize(source), fs::canonicalize(path)) {
        (Ok(source), Ok(path)) => source == path && source.is_file(),
        _ => false,
    }
}
