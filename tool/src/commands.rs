//! The commands.

use crate::answers::{explained, heading, placed_refusal, said, told, words_of};
use crate::arguments::Call;
use crate::console::{Console, Status, Stop};
use crate::files::{self, Input};
use crate::help::Command;
use crate::picture;
use gambozuri::{Judgement, Refused, Side, Source, LINE_LENGTH, TEXT_LINE_LENGTH};
use std::ffi::OsStr;
use std::io::{ErrorKind, Read};
use std::os::unix::ffi::OsStrExt;

/// Answers a call.
pub fn run(console: &mut Console, call: &Call) -> Result<(), Stop> {
    match (call.command, call.files.as_slice()) {
        (Command::Verdict | Command::Explain, _) => verdicts(console, call),
        (Command::Serial, &[name]) => serial(console, call, name),
        (Command::Moves, &[name]) => moves(console, call, name),
        (Command::Draw, &[name]) => draw(console, call, name),
        (Command::Equal, &[left, right]) => equal(console, left, right),
        (Command::Line, &[line]) if line == files::STANDARD_INPUT => log(console, line),
        (Command::Line, &[line]) => kept_line(console, line),
        _ => Err(console.error(format!("{}\n", call.command.bad_use()).as_bytes())),
    }
}

fn read<'a>(console: &mut Console, name: &'a OsStr) -> Result<Input<'a>, Stop> {
    files::read(name).map_err(|error| console.error(&error))
}

/// Reads the list, if there is one.
fn read_list<'a>(console: &mut Console, call: &Call<'a>) -> Result<Option<Input<'a>>, Stop> {
    call.list.map(|name| read(console, name)).transpose()
}

/// Reads a recording and its list, in the order of the words.
fn read_both<'a>(
    console: &mut Console,
    call: &Call<'a>,
    name: &'a OsStr,
) -> Result<(Input<'a>, Option<Input<'a>>), Stop> {
    if call.list_first {
        let list = read_list(console, call)?;
        Ok((read(console, name)?, list))
    } else {
        Ok((read(console, name)?, read_list(console, call)?))
    }
}

fn judgement<'a>(list: Option<&'a Input>) -> Judgement<'a> {
    match list {
        Some(list) => Judgement::Declared(&list.text),
        None => Judgement::Inferred,
    }
}

/// verdict and explain.
fn verdicts(console: &mut Console, call: &Call) -> Result<(), Stop> {
    let (mut first, list) = match call.files.as_slice() {
        &[name] => {
            let (recording, list) = read_both(console, call, name)?;
            (Some(recording), list)
        }
        _ => (None, read_list(console, call)?),
    };
    let judgement = judgement(list.as_ref());
    if let Some(list) = &list {
        if gambozuri::check_guards(&list.text).is_err() {
            let line = gambozuri::verdict_line(judgement, &[]);
            return verdict(console, call, list, Source::GuardList, &[], &line);
        }
    }
    for name in &call.files {
        let Ok(recording) = first.take().map_or_else(|| read(console, name), Ok) else {
            continue;
        };
        let (words, line) = match words_of(&recording.text) {
            Ok(words) => {
                let line = gambozuri::verdict_line(judgement, &words);
                (words, line)
            }
            Err(_) => (Vec::new(), gambozuri::check(&recording.text)),
        };
        verdict(console, call, &recording, Source::Recording, &words, &line)?;
    }
    Ok(())
}

/// Prints a verdict line, or explains it.
fn verdict(
    console: &mut Console,
    call: &Call,
    input: &Input,
    source: Source,
    words: &[u32],
    line: &[u8; LINE_LENGTH],
) -> Result<(), Stop> {
    let explain = call.command == Command::Explain;
    let told = told(line);
    let mut text = Vec::new();
    if call.files.len() > 1 {
        text.extend(heading(input.name, told.place.filter(|_| explain)));
    }
    if explain {
        text.extend(explained(input, source, words, line));
    } else {
        text.extend(line);
    }
    console.answer(told.status, &text)
}

/// A recording and its judgement, for a command whose refusals go to standard error.
struct Asked<'a> {
    recording: &'a Input<'a>,
    judgement: Judgement<'a>,
    words: Vec<u32>,
}

impl<'a> Asked<'a> {
    fn new(
        console: &mut Console,
        recording: &'a Input<'a>,
        list: Option<&'a Input<'a>>,
    ) -> Result<Asked<'a>, Stop> {
        if let Some(list) = list {
            if let Err(refused) = gambozuri::check_guards(&list.text) {
                let text = placed_refusal(list, Source::GuardList, &[], refused);
                return Err(console.refuse(&text));
            }
        }
        let words = words_of(&recording.text).map_err(|refused| {
            console.refuse(&placed_refusal(recording, Source::Recording, &[], refused))
        })?;
        Ok(Asked {
            recording,
            judgement: judgement(list),
            words,
        })
    }

    /// An answer of the library, or its refusal printed.
    fn or_refuse<T>(&self, console: &mut Console, answer: Result<T, Refused>) -> Result<T, Stop> {
        answer.map_err(|refused| {
            let source = Source::Recording;
            console.refuse(&placed_refusal(
                self.recording,
                source,
                &self.words,
                refused,
            ))
        })
    }
}

fn serial(console: &mut Console, call: &Call, name: &OsStr) -> Result<(), Stop> {
    let (recording, list) = read_both(console, call, name)?;
    let asked = Asked::new(console, &recording, list.as_ref())?;
    let mut order = vec![0; asked.words.len()];
    let answer = gambozuri::serial(asked.judgement, &asked.words, &mut order);
    asked.or_refuse(console, answer)?;
    let mut text = vec![0; TEXT_LINE_LENGTH * order.len()];
    let answer = gambozuri::write(&order, &mut text, 0);
    asked.or_refuse(console, answer)?;
    console.answer(Status::Good, &text)
}

fn moves(console: &mut Console, call: &Call, name: &OsStr) -> Result<(), Stop> {
    let (recording, list) = read_both(console, call, name)?;
    let asked = Asked::new(console, &recording, list.as_ref())?;
    let mut moves = vec![0; asked.words.len()];
    let answer = gambozuri::moves(asked.judgement, &asked.words, &mut moves);
    asked.or_refuse(console, answer)?;
    let mut text = Vec::new();
    for (&displacement, line) in moves.iter().zip(recording.text.chunks(TEXT_LINE_LENGTH)) {
        text.extend(format!("{} ", picture::signed(displacement)).as_bytes());
        text.extend(line);
    }
    console.answer(Status::Good, &text)
}

fn draw(console: &mut Console, call: &Call, name: &OsStr) -> Result<(), Stop> {
    let (recording, list) = read_both(console, call, name)?;
    let asked = Asked::new(console, &recording, list.as_ref())?;
    let answer = picture::Answers::new(asked.judgement, &asked.words);
    let answers = asked.or_refuse(console, answer)?;
    let count = asked.words.len();
    if let Some(from) = call.from.filter(|&from| from > count) {
        let error = format!("line {from} is behind the last line of the recording, {count}\n");
        return Err(console.error(error.as_bytes()));
    }
    let text = picture::drawn(&asked.words, &answers, call.from, call.to);
    console.answer(Status::Good, text.as_bytes())
}

fn equal(console: &mut Console, left: &OsStr, right: &OsStr) -> Result<(), Stop> {
    let left = read(console, left)?;
    let right = read(console, right)?;
    match compared(&left, &right) {
        Ok(true) => console.answer(Status::Good, b"equal\n"),
        Ok(false) => console.answer(Status::Wrong, b"not equal\n"),
        Err(refusal) => console.answer(Status::Refused, &refusal),
    }
}

/// Whether two recordings are equal, or a refusal's text. The left is checked whole, its lines and
/// its frames, before the right.
fn compared(left: &Input, right: &Input) -> Result<bool, Vec<u8>> {
    let of_left = |words: &[u32], refused| placed_refusal(left, Source::Left, words, refused);
    let of_right = |words: &[u32], refused| placed_refusal(right, Source::Right, words, refused);
    let lefts = words_of(&left.text).map_err(|refused| of_left(&[], refused))?;
    gambozuri::equal(&lefts, &[]).map_err(|(_, refused)| of_left(&lefts, refused))?;
    let rights = words_of(&right.text).map_err(|refused| of_right(&[], refused))?;
    gambozuri::equal(&lefts, &rights).map_err(|(side, refused)| match side {
        Side::Left => of_left(&lefts, refused),
        Side::Right => of_right(&rights, refused),
    })
}

/// A kept verdict line, given as a word, with or without its LF.
fn kept_line(console: &mut Console, word: &OsStr) -> Result<(), Stop> {
    let mut line = word.as_bytes().to_vec();
    if !line.ends_with(b"\n") {
        line.push(b'\n');
    }
    let text = said(|out| gambozuri::say_line(&line, out));
    console.answer(told(&line).status, &text)
}

/// A log of verdict lines on standard input: each line is answered as it comes. Of a line that is
/// too long no more is kept than shows that it is.
fn log(console: &mut Console, name: &OsStr) -> Result<(), Stop> {
    let mut input =
        files::standard_input().map_err(|error| console.error(&files::unreadable(name, &error)))?;
    let mut part = vec![0; 8192];
    let mut line = Vec::new();
    let mut place = 0;
    loop {
        let length = match input.read(&mut part) {
            Ok(length) => length,
            Err(error) if error.kind() == ErrorKind::Interrupted => continue,
            Err(error) => return Err(console.error(&files::unreadable(name, &error))),
        };
        let read = part.get(..length).unwrap_or_default();
        let mut status = Status::Good;
        let mut text = Vec::new();
        for piece in read.split_inclusive(|&byte| byte == b'\n') {
            let room = (LINE_LENGTH + 1).saturating_sub(line.len());
            line.extend(piece.iter().take(room));
            if piece.ends_with(b"\n") {
                status = status.max(answer_log(&mut text, name, place, &line));
                line.clear();
                place += 1;
            }
        }
        if length == 0 && !line.is_empty() {
            line.push(b'\n');
            status = answer_log(&mut text, name, place, &line);
        }
        console.answer(status, &text)?;
        if length == 0 {
            return Ok(());
        }
    }
}

/// Adds the answer to a line of a log, and gives its status.
fn answer_log(text: &mut Vec<u8>, name: &OsStr, place: u64, line: &[u8]) -> Status {
    text.extend(heading(name, Some(place)));
    text.extend(said(|out| gambozuri::say_line(line, out)));
    told(line).status
}
