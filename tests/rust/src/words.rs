//! What `tracetool` answers, by docs/TOOL.md and docs/FORMAT.md alone: what stands on standard
//! output, what on standard error, and the exit status. Also what the library's functions say.

#[path = "drawing.rs"]
mod drawing;

use crate::{
    check_recording, commits, displacements, equal, read_guards, read_text, serial_places,
    verdict_line, Declared, Fields, Frame, Refusal, Verdict, Violation, ABSENT,
};

pub const RECORDING: &str = "the recording";
pub const GUARD_LIST: &str = "the guard list";
pub const LEFT: &str = "the left recording";
pub const RIGHT: &str = "the right recording";
/// Of a kept line: a recording or a guard list.
pub const TEXT: &str = "the text";

/// The content of the file of a name, of `-` standard input's, or the number of the system's error.
pub type Files<'a> = &'a dyn Fn(&[u8]) -> Result<Vec<u8>, i32>;

/// What a call leaves behind.
#[derive(Clone, Debug, Default, PartialEq, Eq)]
pub struct Answer {
    pub out: Vec<u8>,
    pub err: Vec<u8>,
    pub status: i32,
}

impl Answer {
    /// Of several answers the highest status counts. Nothing that is said ends the call.
    fn say(&mut self, (text, status): (impl AsRef<[u8]>, i32)) -> Called {
        self.out.extend_from_slice(text.as_ref());
        self.status = self.status.max(status);
        Ok(())
    }

    fn complain(&mut self, (text, status): (Vec<u8>, i32)) -> Called {
        self.err.extend_from_slice(&text);
        self.status = self.status.max(status);
        Ok(())
    }

    fn error(&mut self, error: &[u8]) -> Called {
        self.complain(([b"error: ", error, b"\n"].concat(), ERROR))
    }
}

const WRONG: i32 = 1;
const REFUSED: i32 = 2;
const ERROR: i32 = 3;

// Help.

/// A command: its name, its operands, what its help says of it and of the exit status.
const USES: [[&str; 4]; 7] = [
    [
        "verdict",
        "RECORDING.. [--guards LIST]",
        "The verdict line: 32 digits, of which the first two are the kind. Of several recordings each has its file's name before it.",
        "0 reducible; 1 a violation; 2 refused; 3 error; of several recordings the highest.",
    ],
    [
        "serial",
        "RECORDING [--guards LIST]",
        "The serial order as a recording: each block's frames together, the blocks by the place of their commit.",
        "0 written; 2 refused, as where the recording is not reducible or a block is open at the end; 3 error.",
    ],
    [
        "moves",
        "RECORDING [--guards LIST]",
        "For each frame, in recorded order, its place in the serial order less its place in the recording, and the frame.",
        "0 written; 2 refused, as where the recording is not reducible or a block is open at the end; 3 error.",
    ],
    [
        "draw",
        "RECORDING [--guards LIST] [--from N] [--to M]",
        "The recording, or its lines N to M, as a picture (SVG): lanes, blocks, commits, locks held, a violation, the serial order.",
        "0 written; 2 refused; 3 error.",
    ],
    [
        "equal",
        "LEFT RIGHT",
        "Whether exchanges of independent neighbours turn one recording into the other.",
        "0 equal; 1 not equal; 2 refused; 3 error.",
    ],
    [
        "explain",
        "RECORDING.. [--guards LIST]",
        "The verdict in words: the block, its commit, the line that goes wrong, why, and what to mend.",
        "0 reducible; 1 a violation; 2 refused; 3 error; of several recordings the highest.",
    ],
    [
        "line",
        "LINE",
        "A kept verdict line in words, given as a word; - reads a log of them from standard input.",
        "0 reducible; 1 a violation; 2 refused, or no verdict line; 3 error; of several lines the highest.",
    ],
];
/// What the help of all commands says of each.
const LIST: [(&str, &str); 9] = [
    ("verdict RECORDING.. [--guards LIST]", "the verdict line"),
    (
        "serial RECORDING [--guards LIST]",
        "the serial order as lines",
    ),
    (
        "moves RECORDING [--guards LIST]",
        "how far each frame moves to its place in the serial order",
    ),
    (
        "draw RECORDING [--guards LIST] [--from N] [--to M]",
        "the recording, or its lines N to M, as a picture (SVG)",
    ),
    ("equal LEFT RIGHT", "equal, or not equal"),
    ("explain RECORDING.. [--guards LIST]", "the answer in words"),
    ("line LINE", "a kept verdict line in words"),
    ("help", "this list"),
    ("--version", "the version"),
];
const COMMANDS: [&str; 8] = [
    "verdict", "serial", "moves", "draw", "equal", "explain", "line", "help",
];

fn help() -> String {
    let line = |(number, (used, what)): (usize, &(&str, &str))| {
        let start = if number == 0 { "usage:" } else { "      " };
        format!("{start} tracetool {used:<52} {what}\n")
    };
    let lines: String = LIST.iter().enumerate().map(line).collect();
    lines
        + "Guards are inferred without --guards, and declared with it. A file - is standard input. \
           COMMAND --help says more of a command.\n\
           Exit status: 0 reducible, equal or written; 1 a violation, or not equal; 2 refused; 3 \
           error.\n"
}

fn version() -> String {
    let version = include_str!("../../../VERSION").trim_end();
    format!("tracetool {version}\n")
}

// Command lines.

/// The answer to these words.
pub fn answer(words: &[&[u8]], files: Files) -> Answer {
    let mut answer = Answer::default();
    let called = call(words, files, &mut answer);
    let said = called.or_else(|error| answer.error(&error));
    said.expect("an answer");
    answer
}

/// An error ends the call.
type Called = Result<(), Vec<u8>>;

fn call(words: &[&[u8]], files: Files, answer: &mut Answer) -> Called {
    let (&command, behind) = match words {
        [] | [b"help" | b"--help" | b"-h", ..] => return answer.say((help(), 0)),
        [b"--version" | b"-V", ..] => return answer.say((version(), 0)),
        [command, behind @ ..] => (command, behind),
    };
    let Some([command, operands, what, status]) =
        USES.iter().find(|[name, ..]| name.as_bytes() == command)
    else {
        return Err(no_such_command(command));
    };
    let usage = format!("tracetool {command} {operands}");
    let given = match Given::read(command, behind) {
        Asked::Help => {
            let text = format!("usage: {usage}\n{what}\nExit status: {status}\n");
            return answer.say((text, 0));
        }
        Asked::Misused => return Err(format!("use: {usage}").into_bytes()),
        Asked::NoOption(name) => return Err([b"no such option: ", name].concat()),
        Asked::Given(given) => given,
    };
    if *command == "line" {
        return lines_in_words(given.files[0], files, answer);
    }
    if given.names.contains(&&b""[..]) {
        return Err(b"a file name is empty".to_vec());
    }
    if given.names.iter().filter(|&&name| name == b"-").count() > 1 {
        return Err(b"standard input is named twice".to_vec());
    }
    let window = given.window()?;
    if given.files.len() > 1 && *command != "equal" {
        return several(command, &given, files, answer);
    }
    // All files are read before any is checked, in the order of the words.
    for name in &given.names {
        content(name, files)?;
    }
    let recording = &content(given.files[0], files)?;
    let list = given.list.map(|list| content(list, files)).transpose()?;
    // The sentence about a file, with its name.
    let named = |refused: &Refused| {
        let name = match refused.source {
            GUARD_LIST => given.list.expect("a list"),
            RIGHT => given.files[1],
            _ => given.files[0],
        };
        [
            &start(name, Some(refused.refusal.place)),
            &refusal_text(refused).into_bytes()[..],
        ]
        .concat()
    };
    let judged = || judge(recording, list.as_deref());
    let told = match *command {
        "verdict" => return answer.say(verdict(judged())),
        "explain" => return answer.say(explain(&judged())),
        "equal" => match compare(recording, &content(given.files[1], files)?) {
            Ok(said) => return answer.say(said),
            Err(refused) => return answer.say((named(&refused), REFUSED)),
        },
        "serial" => judged().and_then(|judged| serial(&judged)),
        "moves" => judged().and_then(|judged| moves(&judged)),
        _ => match judged() {
            Ok(judged) => Ok(draw(&judged, window)?),
            Err(refused) => Err(refused),
        },
    };
    match told {
        Ok(text) => answer.say((text, 0)),
        Err(refused) => answer.complain((named(&refused), REFUSED)),
    }
}

fn no_such_command(name: &[u8]) -> Vec<u8> {
    let far = |command: &&str| distance(name, command.as_bytes());
    let nearest = COMMANDS.into_iter().min_by_key(far).expect("commands");
    let near = match far(&nearest) {
        far if far <= 2 && far < name.len() => format!("; did you mean {nearest}?"),
        _ => String::new(),
    };
    let commands = format!("{near}\ncommands: {}", COMMANDS.join(", "));
    [b"no such command: ", name, commands.as_bytes()].concat()
}

/// The fewest bytes inserted, left out or replaced that make one of the other.
fn distance(left: &[u8], right: &[u8]) -> usize {
    let mut row: Vec<usize> = (0..=right.len()).collect();
    for (count, from) in left.iter().enumerate() {
        let mut next = vec![count + 1];
        for (place, to) in right.iter().enumerate() {
            let replaced = row[place] + usize::from(from != to);
            next.push(replaced.min(row[place + 1] + 1).min(next[place] + 1));
        }
        row = next;
    }
    row[right.len()]
}

/// What stands behind a command.
#[derive(Default)]
struct Given<'a> {
    files: Vec<&'a [u8]>,
    list: Option<&'a [u8]>,
    from: Option<&'a [u8]>,
    to: Option<&'a [u8]>,
    /// The files and the list in the order of the words.
    names: Vec<&'a [u8]>,
}

enum Asked<'a> {
    Help,
    Misused,
    NoOption(&'a [u8]),
    Given(Given<'a>),
}

/// Of several faults the first counts; a help that is asked for comes before any.
fn first<'a>(fault: &mut Option<Asked<'a>>, asked: Asked<'a>) {
    fault.get_or_insert(asked);
}

impl<'a> Given<'a> {
    fn read(command: &str, words: &[&'a [u8]]) -> Asked<'a> {
        let options: &[&[u8]] = match command {
            "equal" | "line" => &[],
            "draw" => &[b"--guards", b"--from", b"--to"],
            _ => &[b"--guards"],
        };
        let mut given = Given::default();
        let mut fault = None;
        let mut words = words.iter();
        while let Some(&word) = words.next() {
            let (name, value) = match word.iter().position(|&byte| byte == b'=') {
                Some(place) => (&word[..place], Some(&word[place + 1..])),
                None => (word, None),
            };
            match word {
                b"--" => words.by_ref().for_each(|word| given.file(word)),
                b"--help" | b"-h" => return Asked::Help,
                _ if !word.starts_with(b"-") || word == b"-" => given.file(word),
                _ if !options.contains(&name) => first(&mut fault, Asked::NoOption(word)),
                _ => {
                    let value = value.or_else(|| words.next().copied());
                    let slot = match name {
                        b"--guards" => {
                            given.names.extend(value);
                            &mut given.list
                        }
                        b"--from" => &mut given.from,
                        _ => &mut given.to,
                    };
                    if slot.is_some() || value.is_none() {
                        first(&mut fault, Asked::Misused);
                    }
                    *slot = value;
                }
            }
        }
        if let Some(fault) = fault {
            return fault;
        }
        let takes = match command {
            "equal" => 2..=2,
            "verdict" | "explain" => 1..=usize::MAX,
            _ => 1..=1,
        };
        match takes.contains(&given.files.len()) {
            true => Asked::Given(given),
            false => Asked::Misused,
        }
    }

    fn file(&mut self, name: &'a [u8]) {
        self.files.push(name);
        self.names.push(name);
    }

    /// The lines that `--from` and `--to` name.
    fn window(&self) -> Result<[Option<usize>; 2], Vec<u8>> {
        let number = |word: &[u8]| {
            let digits = (1..=9).contains(&word.len()) && word.iter().all(u8::is_ascii_digit);
            let number = digits.then(|| String::from_utf8_lossy(word).parse().expect("digits"));
            let number: Option<usize> = number.filter(|&number| number >= 1);
            number.ok_or_else(|| [b"no line number from 1 on: ", word].concat())
        };
        let from = self.from.map(number).transpose()?;
        let to = self.to.map(number).transpose()?;
        match (from, to) {
            (Some(from), Some(to)) if from > to => {
                Err(format!("line {from} is behind line {to}").into_bytes())
            }
            _ => Ok([from, to]),
        }
    }
}

/// `FILE:LINE: `, or `FILE: ` without a place.
fn start(name: &[u8], place: Option<usize>) -> Vec<u8> {
    let line = place.map_or(String::new(), |place| format!(":{}", place + 1));
    [name, line.as_bytes(), b": "].concat()
}

/// The list is read and checked first; then each recording in its turn.
fn several(command: &str, given: &Given, files: Files, answer: &mut Answer) -> Called {
    let list = given.list.map(|name| content(name, files)).transpose()?;
    let told = |name: &[u8], judged: Result<Judged, Refused>| {
        let (place, (text, status)) = match command {
            "verdict" => (None, verdict(judged)),
            _ => (place_of(&judged), explain(&judged)),
        };
        ([&start(name, place), text.as_bytes()].concat(), status)
    };
    if let Some(Err(refused)) = list.as_deref().map(guards) {
        return answer.say(told(given.list.expect("a list"), Err(refused)));
    }
    for name in &given.files {
        match content(name, files) {
            Ok(recording) => answer.say(told(name, judge(&recording, list.as_deref()))),
            Err(error) => answer.error(&error),
        }?;
    }
    Ok(())
}

fn content(name: &[u8], files: Files) -> Result<Vec<u8>, Vec<u8>> {
    files(name).map_err(|error| [b"cannot read ", name, b": ", why(error).as_bytes()].concat())
}

fn why(error: i32) -> String {
    match error {
        // No entry, or a part of the path is no directory.
        2 | 20 => "no such file".into(),
        1 | 13 => "no permission".into(),
        9 => "it is closed".into(),
        21 => "it is a directory".into(),
        36 => "the name is too long".into(),
        _ => format!("error number {error} of the system"),
    }
}

/// A kept line, or a log of them on standard input.
fn lines_in_words(word: &[u8], files: Files, answer: &mut Answer) -> Called {
    if word != b"-" {
        return answer.say(line_in_words(word));
    }
    let log = content(word, files)?;
    for (place, line) in log.split_inclusive(|&byte| byte == b'\n').enumerate() {
        let (text, status) = line_in_words(line);
        answer.say((
            [&start(word, Some(place)), text.as_bytes()].concat(),
            status,
        ))?;
    }
    Ok(())
}

/// With or without its LF.
fn line_in_words(line: &[u8]) -> (String, i32) {
    let line = [line.strip_suffix(b"\n").unwrap_or(line), b"\n"].concat();
    let status = match Fields::of_line(&line).map(|fields| fields.kind) {
        Some(0) => 0,
        Some(1..=4) => WRONG,
        _ => REFUSED,
    };
    (line_text(&line, &[]), status)
}

// Answers.

struct Refused {
    refusal: Refusal,
    source: &'static str,
    /// The word of the frame, where there is one and it is at hand.
    word: Option<u32>,
    /// What is wrong in a line, where it is not eight digits and an LF and is at hand.
    fault: Option<String>,
}

fn refused(refusal: Refusal, source: &'static str, words: &[u32]) -> Refused {
    let word = words.get(refusal.place).copied();
    Refused {
        refusal,
        source,
        word,
        fault: None,
    }
}

/// Of a text that is not read.
fn unread(refusal: Refusal, source: &'static str, text: &[u8]) -> Refused {
    let fault = (refusal.number == 1).then(|| line_fault(text, refusal.place));
    Refused {
        fault,
        ..refused(refusal, source, &[])
    }
}

fn guards(list: &[u8]) -> Result<Declared, Refused> {
    let guards = read_guards(list).map_err(|refusal| unread(refusal, GUARD_LIST, list))?;
    Ok(Some(guards))
}

fn sound(text: &[u8], source: &'static str) -> Result<(Vec<u32>, Vec<Frame>), Refused> {
    let words = read_text(text).map_err(|refusal| unread(refusal, source, text))?;
    match check_recording(&words) {
        Ok(frames) => Ok((words, frames)),
        Err(refusal) => Err(refused(refusal, source, &words)),
    }
}

struct Judged {
    words: Vec<u32>,
    frames: Vec<Frame>,
    guards: Declared,
    verdict: Verdict,
}

fn judge(recording: &[u8], list: Option<&[u8]>) -> Result<Judged, Refused> {
    let guards = list.map_or(Ok(None), guards)?;
    let (words, frames) = sound(recording, RECORDING)?;
    let verdict = crate::verdict(&frames, &guards);
    Ok(Judged {
        words,
        frames,
        guards,
        verdict,
    })
}

/// The place of the line that a sentence names.
fn place_of(judged: &Result<Judged, Refused>) -> Option<usize> {
    match judged.as_ref().map(|judged| judged.verdict) {
        Ok(Verdict::Reducible { .. }) => None,
        Ok(Verdict::Violation(violation)) => Some(violation.frame),
        Err(refused) => Some(refused.refusal.place),
    }
}

fn status_of(judged: &Result<Judged, Refused>) -> i32 {
    match judged.as_ref().map(|judged| judged.verdict) {
        Ok(Verdict::Reducible { .. }) => 0,
        Ok(Verdict::Violation(_)) => WRONG,
        Err(_) => REFUSED,
    }
}

fn verdict(judged: Result<Judged, Refused>) -> (String, i32) {
    let status = status_of(&judged);
    let verdict = judged.map(|judged| judged.verdict);
    (
        verdict_line(verdict.map_err(|refused| refused.refusal)).1,
        status,
    )
}

/// The places in serial order.
fn ordered(judged: &Judged) -> Result<Vec<usize>, Refused> {
    let places = serial_places(&judged.frames, &judged.guards);
    places.map_err(|refusal| refused(refusal, RECORDING, &judged.words))
}

fn serial(judged: &Judged) -> Result<String, Refused> {
    let line = |place: usize| format!("{:08X}\n", judged.words[place]);
    Ok(ordered(judged)?.into_iter().map(line).collect())
}

fn moves(judged: &Judged) -> Result<String, Refused> {
    let line = |(word, by): (&u32, i32)| match by {
        0 => format!("0 {word:08X}\n"),
        _ => format!("{by:+} {word:08X}\n"),
    };
    let moves = displacements(&ordered(judged)?);
    Ok(judged.words.iter().zip(moves).map(line).collect())
}

fn compare(left: &[u8], right: &[u8]) -> Result<(Vec<u8>, i32), Refused> {
    let (left, _) = sound(left, LEFT)?;
    let (right, _) = sound(right, RIGHT)?;
    Ok(match equal(&left, &right) {
        1 => (b"equal\n".to_vec(), 0),
        _ => (b"not equal\n".to_vec(), WRONG),
    })
}

fn explain(judged: &Result<Judged, Refused>) -> (String, i32) {
    let text = match judged {
        Ok(judged) => judged_text(judged),
        Err(refused) => refusal_text(refused),
    };
    (text, status_of(judged))
}

fn judged_text(judged: &Judged) -> String {
    match &judged.verdict {
        Verdict::Reducible { frames } => reducible_text(*frames),
        Verdict::Violation(violation) => violation_text(violation, Some(&judged.words)),
    }
}

/// So many lines are drawn whole, violation or not.
const WHOLE: usize = 400;

/// The lines from and to which is drawn; an error if there are none.
fn draw(judged: &Judged, [from, to]: [Option<usize>; 2]) -> Result<String, Vec<u8>> {
    let count = judged.frames.len();
    let violation = match judged.verdict {
        Verdict::Violation(violation) => Some(violation),
        Verdict::Reducible { .. } => None,
    };
    let rows = match (from, to, violation) {
        (Some(from), _, _) if from > count => {
            let error = format!("line {from} is behind the last line of the recording, {count}");
            return Err(error.into_bytes());
        }
        (None, None, Some(violation)) if count > WHOLE => {
            let wrong = violation.frame;
            wrong.saturating_sub(199)..count.min(wrong + 201)
        }
        _ => from.unwrap_or(1) - 1..count.min(to.unwrap_or(count)),
    };
    let places = serial_places(&judged.frames, &judged.guards);
    let picture = drawing::Picture {
        explained: &judged_text(judged),
        frames: &judged.frames,
        rows,
        commits: commits(&judged.frames, &judged.guards),
        violation,
        open: places.as_ref().err().map(|refusal| refusal.place),
        moves: places.ok().map(|places| displacements(&places)),
    };
    Ok(picture.svg())
}

// What the library's functions say.

/// What a verdict line says of a recording; without its words, as far as the line alone tells it.
pub fn line_text(line: &[u8], words: &[u32]) -> String {
    let refused_by = |number, place| {
        let source = match number {
            1 => TEXT,
            11 | 12 => GUARD_LIST,
            _ => RECORDING,
        };
        refusal_text(&refused(Refusal { number, place }, source, words))
    };
    let Some(fields) = Fields::of_line(line) else {
        return refused_by(18, 0);
    };
    let place = |place: u16| (place != ABSENT).then_some(place.into());
    match fields.kind {
        0 => reducible_text(fields.frame.into()),
        kind @ 1..=4 => {
            let violation = Violation {
                kind,
                frame: fields.frame.into(),
                thread: fields.thread,
                begin: place(fields.begin),
                commit: place(fields.commit),
                locks: fields.locks,
            };
            violation_text(&violation, (!words.is_empty()).then_some(words))
        }
        kind => refused_by(kind - 0x80, fields.frame.into()),
    }
}

/// What a reply says, of a source by its number; nothing if it is no refusal.
pub fn reply_text(reply: u64, source: u32, text: &[u8], words: &[u32]) -> String {
    let (number, place) = ((reply >> 32) as u8, reply as u32 as usize);
    if number == 0 {
        return String::new();
    }
    let sources = [RECORDING, GUARD_LIST, LEFT, RIGHT];
    let source = sources.get(source as usize).copied().unwrap_or(TEXT);
    let begins = number == 1 && 9 * place < text.len();
    refusal_text(&Refused {
        fault: begins.then(|| line_fault(text, place)),
        ..refused(Refusal { number, place }, source, words)
    })
}

/// The name of an enumerator of the header with this start and number.
fn enumerator(start: &str, number: u8) -> Option<String> {
    let header = include_str!("../../../include/trace_check.h");
    header.lines().find_map(|line| {
        let (name, value) = line.trim().strip_prefix(start)?.split_once(" = ")?;
        let value = value.trim_end_matches(',');
        let value = match value.strip_prefix("0x") {
            Some(digits) => u8::from_str_radix(digits, 16),
            None => value.parse(),
        };
        (value == Ok(number)).then(|| name.to_lowercase().replace('_', " "))
    })
}

pub fn refusal_name(number: u8) -> String {
    enumerator("TRACE_REFUSAL_", number).unwrap_or_default()
}

pub fn kind_name(kind: u8) -> String {
    match kind {
        0x80.. => refusal_name(kind - 0x80),
        _ => enumerator("TRACE_KIND_", kind).unwrap_or_default(),
    }
}

// Texts.

fn reducible_text(frames: usize) -> String {
    match frames {
        0 => "reducible: there is nothing in the recording; frames: 0.\n".into(),
        _ => format!("reducible: no frame goes wrong; frames: {frames}.\n"),
    }
}

fn line_at(place: usize) -> String {
    format!("line {} [{place}]", place + 1)
}

fn action(word: u32) -> String {
    let object = word & 0xFFFF;
    match word >> 24 {
        1 => format!("acquire of lock {object}"),
        2 => format!("release of lock {object}"),
        3 => format!("read of variable {object}"),
        4 => format!("write of variable {object}"),
        5 => "begin".into(),
        6 => "end".into(),
        _ => "no frame".into(),
    }
}

fn locks_text(locks: u64) -> String {
    let numbers = (0..64).filter(|lock| locks >> lock & 1 == 1);
    let numbers: Vec<String> = numbers.map(|lock| lock.to_string()).collect();
    match numbers.len() {
        0 => "none".into(),
        64 => "all 64".into(),
        _ => numbers.join(", "),
    }
}

/// Of a kept line there are no words, and so no actions and no variables.
fn violation_text(violation: &Violation, words: Option<&[u32]>) -> String {
    let (thread, place) = (violation.thread, violation.frame);
    let acted = |place: usize| {
        let word = words.and_then(|words| words.get(place));
        let action = word.map_or(String::new(), |&word| format!(": {}", action(word)));
        format!("{}{action}", line_at(place))
    };
    let kind = match violation.kind {
        1 => "kind 1, guard not held",
        2 => "kind 2, unprotected access after commit",
        3 => "kind 3, acquire after commit",
        _ => "kind 4, candidate set emptied",
    };
    let block = match (violation.begin, violation.commit) {
        (None, _) => "  The thread is in no block.\n".into(),
        (Some(begin), None) => {
            format!(
                "  The block begins at {} and has not committed.\n",
                line_at(begin)
            )
        }
        (Some(begin), Some(commit)) => format!(
            "  The block begins at {}.\n  It commits at {}.\n",
            line_at(begin),
            acted(commit)
        ),
    };
    let wrong = acted(place);
    let reason = match words.and_then(|words| words.get(place)) {
        Some(word) => reason(violation, word & 0xFFFF),
        None => line_reason(violation),
    };
    let remedy = remedy(violation);
    format!(
        "violation: {kind}, by thread {thread}.\n{block}  It goes wrong at {wrong}.\n  {reason}\n  \
         To mend it, {remedy}\n"
    )
}

fn remedy(violation: &Violation) -> String {
    match violation.kind {
        1 => format!(
            "hold lock {} at this line; in a block, take it before the commit.",
            locks_text(violation.locks)
        ),
        2 => "end the block before this line, or name a guard of the variable and hold it at each \
              access."
            .into(),
        3 => "take the lock before the commit and hold each lock until the block ends, or end the \
              block before this line."
            .into(),
        _ => "hold one lock at every access of the variable.".into(),
    }
}

fn reason(violation: &Violation, variable: u32) -> String {
    let (thread, locks) = (violation.thread, locks_text(violation.locks));
    match violation.kind {
        1 => format!(
            "The guard of variable {variable} is lock {locks}, and thread {thread} does not hold it: \
             another thread may access the variable at the same time."
        ),
        2 => format!(
            "Variable {variable} has no guard: another thread may change it, or what the block \
             accessed before, between these lines."
        ),
        3 => "A block takes no new lock after its commit: between these lines another thread may \
              change what the block has read or written."
            .into(),
        _ => format!(
            "Locks left that may guard variable {variable}: {locks}. Thread {thread} holds none of \
             them, so no one lock guards every access of the variable."
        ),
    }
}

/// As far as a kept line tells it.
fn line_reason(violation: &Violation) -> String {
    let (thread, locks) = (violation.thread, locks_text(violation.locks));
    match violation.kind {
        1 => format!(
            "The guard of the variable is lock {locks}, and thread {thread} does not hold it: \
             another thread may access the variable at the same time."
        ),
        2 => "The variable has no guard: another thread may change it, or what the block accessed \
              before, between these lines."
            .into(),
        3 => format!(
            "A block takes no new lock after its commit, here lock {locks}: between these lines \
             another thread may change what the block has read or written."
        ),
        _ => format!(
            "Locks left that may guard the variable: {locks}. Thread {thread} holds none of them, so \
             no one lock guards every access of the variable."
        ),
    }
}

/// The first wrong byte of the line at a place, its column, and what to do.
fn line_fault(text: &[u8], place: usize) -> String {
    let line = &text[9 * place..];
    let digit = |byte: &&u8| matches!(byte, b'0'..=b'9' | b'A'..=b'F');
    let column = 1 + line.iter().take(8).take_while(digit).count();
    let Some(&byte) = line.get(column - 1) else {
        let what = match column {
            9 => "so the last line has no LF; add it.",
            _ => "so there are too few digits and no LF; write eight and an LF.",
        };
        return format!("column {column} is behind the end of the file, {what}");
    };
    let marks: [&[u8]; 3] = [b"\xEF\xBB\xBF", b"\xFF\xFE", b"\xFE\xFF"];
    let marked = text.len() >= 3 && marks.iter().any(|mark| text.starts_with(mark));
    let what = match (column, byte) {
        _ if marked => "a byte-order mark; save the file without it.",
        (1, b'\n') => "an LF, so the line is blank; drop it.",
        (_, b'\n') => "an LF, so there are too few digits; write eight.",
        (_, b'\r') => "a CR; end each line with LF alone.",
        (_, b' ' | b'\t') => "a blank or a tab; write none.",
        (9, b'0'..=b'9' | b'A'..=b'F' | b'a'..=b'f') => "a digit too many; write eight.",
        (9, _) => "not the LF; end the line behind eight digits.",
        (_, b'a'..=b'f') => "a lower-case letter; write A-F.",
        _ => "not a digit; write 0-9 A-F.",
    };
    format!("column {column} has byte {byte:02X}, {what}")
}

fn refusal_text(refused: &Refused) -> String {
    let Refusal { number, place } = refused.refusal;
    let source = refused.source;
    let line = format!("{} of {source}", line_at(place));
    // The frame, the thread of whose lock it is, and the thread of whose block.
    let (frame, holder, thread) = match refused.word {
        Some(word) => {
            let thread = word >> 16 & 255;
            let frame = format!("{line}, {} by thread {thread},", action(word));
            (frame, "this thread", format!("thread {thread}"))
        }
        None => (line.clone(), "its thread", "its thread".into()),
    };
    let reason = match number {
        1 => match &refused.fault {
            Some(fault) => format!("{line} is not eight digits 0-9 A-F and one LF: {fault}"),
            None => format!(
                "{line} is not eight digits 0-9 A-F and one LF; write it so, without blanks, lower \
                 case or CR, and end the last line."
            ),
        },
        2 => format!("{source} has more than {place} lines; cut it down to {place}."),
        3 => format!("the word buffer has fewer than {place} words; lend one for each line."),
        4 => format!("{line} has an operation other than 01 to 06; mend its digits 1 and 2."),
        5 => format!("{line} has a thread above 1F; mend its digits 3 and 4."),
        6 => format!(
            "{line} has an object out of range; locks go up to 003F, variables up to 03FF, and a \
             begin or an end has 0000."
        ),
        7 => format!(
            "{frame} takes a lock that another thread holds; it has to be released before this line."
        ),
        8 => format!(
            "{frame} lets go a lock that {holder} does not hold; acquire it first or drop the line."
        ),
        9 => format!("{line} is a begin inside 15 open blocks of {thread}; nest at most 15."),
        10 => format!(
            "{line} is an end where {thread} has no open block; add its begin or drop the line."
        ),
        11 => format!(
            "{line} names a variable above 03FF or a lock above 003F; mend the number."
        ),
        12 => format!("{line} names a variable that an earlier line names; keep one of the two."),
        13 => format!(
            "{source} is not reducible, so there is no serial order; {} goes wrong, and explain says \
             why.",
            line_at(place)
        ),
        14 => format!("the block that begins at {line} is open at the end; add its end."),
        15 => format!("the output has fewer than {place} words; lend one for each frame."),
        16 => format!(
            "the table of candidate sets has fewer than {place} entries; lend {place}."
        ),
        17 => format!("the line buffer has fewer than {place} bytes; lend {place}."),
        18 => "this is no verdict line: that has 32 digits 0-9 A-F, the first two 00 to 04 or 81 to \
               FF, and one LF; hand it on as it was written."
            .into(),
        19 => format!("the text has fewer than {place} bytes from the given place on; lend them."),
        20 => format!(
            "{frame} takes a lock that {holder} holds 15 times already; hold it at most 15 times."
        ),
        21 => format!(
            "the list of displacements has fewer than {place} numbers; lend one for each frame."
        ),
        _ => format!("which this check does not give; its place is {place}."),
    };
    format!("refused: number {number}, {reason}\n")
}
