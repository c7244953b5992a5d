//! What the words of a call ask for.

use crate::files::STANDARD_INPUT;
use crate::help::{self, Command};
use std::ffi::{OsStr, OsString};
use std::os::unix::ffi::OsStrExt;

/// What the tool is asked for.
pub enum Request<'a> {
    Help,
    HelpOf(Command),
    Version,
    Call(Call<'a>),
}

/// A command with its files and options.
pub struct Call<'a> {
    pub command: Command,
    /// The recordings; of `line` the line.
    pub files: Vec<&'a OsStr>,
    pub list: Option<&'a OsStr>,
    /// Whether the list is named before the first of the files.
    pub list_first: bool,
    /// The first and the last line to be drawn, from 1 on.
    pub from: Option<usize>,
    pub to: Option<usize>,
}

/// The request that the words make, or the error's text.
pub fn request(words: &[OsString]) -> Result<Request<'_>, Vec<u8>> {
    let Some((first, others)) = words.split_first() else {
        return Ok(Request::Help);
    };
    match first.as_bytes() {
        b"help" | b"--help" | b"-h" => Ok(Request::Help),
        b"--version" | b"-V" => Ok(Request::Version),
        name => match Command::of_name(name) {
            Some(command) => call(command, others),
            None => Err(no_command(name)),
        },
    }
}

fn no_command(name: &[u8]) -> Vec<u8> {
    let near = match help::near(name) {
        Some(near) => format!("; did you mean {near}?"),
        None => String::new(),
    };
    let commands = help::commands();
    [
        b"no such command: ",
        name,
        near.as_bytes(),
        b"\n",
        commands.as_bytes(),
    ]
    .concat()
}

/// An error's text that ends with a word as it was given.
fn naming(what: &str, word: &OsStr) -> Vec<u8> {
    [what.as_bytes(), word.as_bytes(), b"\n"].concat()
}

/// The options, each with its word.
#[derive(Default)]
struct Options<'a> {
    guards: Option<&'a OsStr>,
    from: Option<&'a OsStr>,
    to: Option<&'a OsStr>,
}

impl<'a> Options<'a> {
    /// Where the word of an option of the command goes, and what stands behind the option's name.
    fn of_word<'w>(
        &mut self,
        command: Command,
        word: &'w [u8],
    ) -> Option<(&mut Option<&'a OsStr>, &'w [u8])> {
        let guarded = !matches!(command, Command::Equal | Command::Line);
        let drawn = command == Command::Draw;
        let options = [
            (guarded, "--guards", &mut self.guards),
            (drawn, "--from", &mut self.from),
            (drawn, "--to", &mut self.to),
        ];
        options.into_iter().find_map(|(has, name, place)| {
            let rest = word.strip_prefix(name.as_bytes()).filter(|_| has)?;
            (rest.is_empty() || rest.starts_with(b"=")).then_some((place, rest))
        })
    }
}

/// The call of a command. The first error is kept while the words are looked through for `--help`.
fn call(command: Command, words: &[OsString]) -> Result<Request<'_>, Vec<u8>> {
    let bad_use = || format!("{}\n", command.bad_use()).into_bytes();
    let mut options = Options::default();
    let mut files: Vec<&OsStr> = Vec::new();
    let mut list_first = false;
    let mut error = None;
    let mut words = words.iter().map(OsString::as_os_str);
    while let Some(word) = words.next() {
        let bytes = word.as_bytes();
        match bytes {
            b"--" => {
                files.extend(words.by_ref());
            }
            b"--help" | b"-h" => return Ok(Request::HelpOf(command)),
            [b'-', _, ..] => match options.of_word(command, bytes) {
                Some((place, rest)) => {
                    let given = match rest.get(1..) {
                        Some(given) => Some(OsStr::from_bytes(given)),
                        None => words.next(),
                    };
                    if place.is_some() || given.is_none() {
                        error.get_or_insert_with(bad_use);
                    }
                    *place = given;
                    if bytes.starts_with(b"--guards") {
                        list_first = files.is_empty();
                    }
                }
                None => {
                    error.get_or_insert_with(|| naming("no such option: ", word));
                }
            },
            _ => files.push(word),
        }
    }
    let enough = match command {
        Command::Verdict | Command::Explain => !files.is_empty(),
        Command::Equal => files.len() == 2,
        _ => files.len() == 1,
    };
    if let Some(error) = error.or_else(|| (!enough).then(bad_use)) {
        return Err(error);
    }
    let is_file = command != Command::Line;
    let named = || files.iter().copied().chain(options.guards);
    if is_file && named().any(OsStr::is_empty) {
        return Err(b"a file name is empty\n".to_vec());
    }
    if named().filter(|&name| name == STANDARD_INPUT).count() > 1 {
        return Err(b"standard input is named twice\n".to_vec());
    }
    let from = options.from.map(line_number).transpose()?;
    let to = options.to.map(line_number).transpose()?;
    if let (Some(from), Some(to)) = (from, to) {
        if from > to {
            return Err(format!("line {from} is behind line {to}\n").into_bytes());
        }
    }
    let list = options.guards;
    Ok(Request::Call(Call {
        command,
        files,
        list,
        list_first,
        from,
        to,
    }))
}

/// A line's number: 1 to 9 digits, 1 or more.
fn line_number(word: &OsStr) -> Result<usize, Vec<u8>> {
    let number = word.to_str().filter(|word| {
        (1..=9).contains(&word.len()) && word.bytes().all(|byte| byte.is_ascii_digit())
    });
    number
        .and_then(|number| number.parse().ok())
        .filter(|&number| number > 0)
        .ok_or_else(|| naming("no line number from 1 on: ", word))
}
