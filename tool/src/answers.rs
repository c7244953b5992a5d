//! What the library says of texts and verdict lines.

use crate::console::Status;
use crate::files::Input;
use gambozuri::{Fields, Refused, Source, Verdict, LINE_LENGTH, MAX_FRAMES, SAY_LENGTH};
use std::ffi::OsStr;
use std::os::unix::ffi::OsStrExt;

/// What a function of the library says, whole.
pub fn said(say: impl Fn(&mut [u8]) -> usize) -> Vec<u8> {
    let mut out = vec![0; SAY_LENGTH];
    let length = say(&mut out);
    out.truncate(length);
    out
}

/// The words of a recording's text.
pub fn words_of(text: &[u8]) -> Result<Vec<u32>, Refused> {
    let mut words = vec![0; MAX_FRAMES];
    let count = gambozuri::read(text, &mut words)?;
    words.truncate(count);
    Ok(words)
}

/// `FILE:LINE: ` of a place, or `FILE: `.
pub fn heading(name: &OsStr, place: Option<u64>) -> Vec<u8> {
    let line = match place {
        Some(place) => format!(":{}: ", place + 1),
        None => ": ".to_owned(),
    };
    [name.as_bytes(), line.as_bytes()].concat()
}

/// A refusal of a file in words.
pub fn refusal(input: &Input, source: Source, words: &[u32], refused: Refused) -> Vec<u8> {
    said(|out| gambozuri::say_refusal(refused, source, &input.text, words, out))
}

/// The same with the file and the line before it.
pub fn placed_refusal(input: &Input, source: Source, words: &[u32], refused: Refused) -> Vec<u8> {
    let mut text = heading(input.name, Some(refused.place.into()));
    text.extend(refusal(input, source, words, refused));
    text
}

/// What a verdict line tells.
pub struct Told {
    pub status: Status,
    /// The place that goes wrong or is refused.
    pub place: Option<u64>,
    pub refused: Option<Refused>,
}

/// What a verdict line tells; a line that is none tells its refusal.
pub fn told(line: &[u8]) -> Told {
    let (status, place, refused) = match Fields::read(line).and_then(Fields::verdict) {
        Ok(Verdict::Reducible { .. }) => (Status::Good, None, None),
        Ok(Verdict::Violated(violation)) => (Status::Wrong, Some(violation.frame.into()), None),
        Err(refused) => (Status::Refused, Some(refused.place.into()), Some(refused)),
    };
    Told {
        status,
        place,
        refused,
    }
}

/// The answer of a verdict line in words: what it says of a file of these words.
pub fn explained(
    input: &Input,
    source: Source,
    words: &[u32],
    line: &[u8; LINE_LENGTH],
) -> Vec<u8> {
    match told(line).refused {
        Some(refused) => refusal(input, source, words, refused),
        None => said(|out| gambozuri::say_verdict(line, words, out)),
    }
}
