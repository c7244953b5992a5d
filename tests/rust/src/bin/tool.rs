//! Runs the program `tracetool` and compares what it prints on standard output and on standard error,
//! and its exit status, with the reference. Its lines must also be those of docs/TOOL.md, each
//! picture must show what its recording has, and no file may change.
//! Arguments: the path of the program, then an optional seed; or `draw` and words of the tool behind
//! it, of which the reference's picture is printed.

use std::collections::{BTreeMap, BTreeSet};
use std::ffi::{OsStr, OsString};
use std::fs::{self, File, Permissions};
use std::io::Write;
use std::ops::Range;
use std::os::unix::ffi::OsStrExt;
use std::os::unix::fs::{symlink, PermissionsExt};
use std::path::PathBuf;
use std::process::{ChildStdin, Command, ExitCode, Stdio};
use std::time::{Duration, Instant, SystemTime};
use trace_tests::adversarial::{
    all_deep, all_locks, alternation, furthest, guard_lines, hold_walk, lock_walk, near_lines,
    nesting_walk, pairs, random_fields, random_line, word, ACQUIRE, BEGIN, EDGE_KINDS, EDGE_LOCKS,
    EDGE_PLACES, END, READ, RELEASE,
};
use trace_tests::case::{text, Call};
use trace_tests::random::{damage_text, interleaved, text_of_words, Random};
use trace_tests::random_case::{exact_list, random_case, random_list, random_recording};
use trace_tests::words::{answer, Answer, GUARD_LIST, LEFT, RECORDING, RIGHT, TEXT};
use trace_tests::{Fields, MOST_FRAMES, VARIABLES};

#[path = "../document.rs"]
mod document;
use document::{fits, templates, uses, SOURCES};

const DEFAULT_SEED: u64 = 1;
const RANDOM_RECORDINGS: usize = 200;
const RANDOM_PAIRS: usize = 400;
const RANDOM_LONG: usize = 30;
const RANDOM_LINES: usize = 600;
const RANDOM_FAULTS: usize = 300;
const RANDOM_PICTURES: usize = 60;
const RANDOM_WINDOWS: usize = 150;
const RANDOM_SEVERAL: usize = 100;
const RANDOM_LOGS: usize = 40;
const FUZZED: usize = 3000;
/// These runs are counted under no command.
const FUZZ: &str = "random words and files";
/// The length of the longest recording's text.
const MOST_BYTES: usize = 9 * MOST_FRAMES;
const COMMANDS: [&str; 8] = [
    "verdict", "serial", "moves", "draw", "explain", "equal", "line", "help",
];
/// The commands on one recording.
const JUDGING: [&str; 5] = ["verdict", "serial", "moves", "draw", "explain"];
/// Those of them that answer in words, or in a picture.
const TELLING: [&str; 4] = ["explain", "serial", "moves", "draw"];

/// Done, or what went wrong.
type Done = Result<(), String>;

fn context<T>(result: std::io::Result<T>, what: &str) -> Result<T, String> {
    result.map_err(|error| format!("{what}: {error}"))
}

// Files.

/// The working folder, removed at the end.
struct Folder(PathBuf);

impl Folder {
    fn enter() -> Result<Folder, String> {
        let name = format!("tracetool-{}", std::process::id());
        let path = std::env::temp_dir().join(name);
        context(fs::create_dir(&path), "creating a folder")?;
        let folder = Folder(path);
        context(std::env::set_current_dir(&folder.0), "entering a folder")?;
        Ok(folder)
    }
}

impl Drop for Folder {
    fn drop(&mut self) {
        if let Err(error) = fs::remove_dir_all(&self.0) {
            println!("{} is left: {error}", self.0.display());
        }
    }
}

/// The content of a file, or the number of the error.
fn read(name: &[u8]) -> Result<Vec<u8>, i32> {
    let content = fs::read(OsStr::from_bytes(name));
    content.map_err(|error| error.raw_os_error().expect("an error of the system"))
}

/// Writes a file and makes it old, so that any later write shows.
fn write(name: impl AsRef<[u8]>, content: &[u8]) -> Done {
    let name = OsStr::from_bytes(name.as_ref());
    context(fs::write(name, content), "writing a file")?;
    let file = context(File::options().append(true).open(name), "opening a file")?;
    let old = SystemTime::UNIX_EPOCH + Duration::from_secs(1_000_000_000);
    context(file.set_modified(old), "setting a file's time")
}

/// Name, length, time of the last write and content.
type Entry = (OsString, u64, SystemTime, Option<Vec<u8>>);

/// All that is in the working folder.
fn entries() -> Result<Vec<Entry>, String> {
    let mut entries = Vec::new();
    for entry in context(fs::read_dir("."), "listing the folder")? {
        let entry = context(entry, "listing the folder")?;
        let metadata = context(entry.metadata(), "looking at a file")?;
        let modified = context(metadata.modified(), "looking at a file")?;
        let content = fs::read(entry.path()).ok();
        entries.push((entry.file_name(), metadata.len(), modified, content));
    }
    entries.sort();
    Ok(entries)
}

// The page.

const PAGE: &str = include_str!("../../../../docs/TOOL.md");

/// A section without its heading.
fn section(heading: &str) -> &'static str {
    let start = format!("{heading}\n");
    let mut sections = PAGE.split("\n## ");
    let found = sections.find_map(|section| section.strip_prefix(&start[..]));
    found.expect("a section of the page")
}

/// The help, the version and the help of each command.
fn help_texts() -> (String, String, Vec<String>) {
    let mut texts = vec![String::new()];
    for line in section("help and version").lines() {
        match line.strip_prefix("    ") {
            Some(line) => *texts.last_mut().expect("a text") += &format!("{line}\n"),
            None => texts.push(String::new()),
        }
    }
    let mut texts = texts.into_iter().filter(|text| !text.is_empty());
    let mut next = || texts.next().expect("a text");
    (next(), next(), texts.collect())
}

/// The lines of the page's table of bytes: whether the file ends, and WHAT.
fn table_of_bytes() -> Vec<(bool, &'static str)> {
    let row = |line: &'static str| {
        let (byte, what) = line.strip_prefix("| ")?.split_once(" | `")?;
        Some((byte.starts_with("the file ends"), what.strip_suffix("` |")?))
    };
    section("Refusals").lines().filter_map(row).collect()
}

/// The lines that answers have: WHAT is each of its table, and pictures are looked at otherwise.
fn answer_lines() -> Vec<String> {
    let pictures = section("draw");
    let mut lines = Vec::new();
    for line in templates() {
        if pictures.contains(&format!("\n    {line}\n")) {
            continue;
        }
        match line.strip_suffix("WHAT") {
            Some(start) => {
                let ends = !start.contains("BYTE");
                let whats = table_of_bytes().into_iter().filter(|row| row.0 == ends);
                lines.extend(whats.map(|(_, what)| format!("{start}{what}")));
            }
            None => lines.push(line.into()),
        }
    }
    // A line is of the longest that it fits.
    lines.sort_by_key(|line: &String| std::cmp::Reverse(line.len()));
    lines
}

/// Whether a line is of this template of the page.
fn is_of(template: &str, line: &str) -> bool {
    const COLUMN: &str = "column COLUMN ";
    let Some((start, rest)) = template.split_once(COLUMN) else {
        return fits(template, line);
    };
    let Some((before, byte)) = line.split_once("column ") else {
        return false;
    };
    let Some((column, byte)) = byte.split_once(' ') else {
        return false;
    };
    let same = match (
        rest.strip_prefix("has byte BYTE"),
        byte.strip_prefix("has byte "),
    ) {
        (Some(what), Some(byte)) => {
            let digit = |byte: &u8| matches!(byte, b'0'..=b'9' | b'A'..=b'F');
            byte.len() > 2 && byte.as_bytes()[..2].iter().all(digit) && byte.get(2..) == Some(what)
        }
        _ => rest == byte,
    };
    same && matches!(column.as_bytes(), [b'1'..=b'9']) && fits(start, before)
}

// Counts.

/// Of a number that no refusal has.
const NOT_GIVEN: &str = ", which this check does not give; ";

/// What a run is counted as, by what it says first.
fn label(said: &str) -> String {
    if let Some((comment, picture)) = parted(said) {
        let order = match picture.contains(">serial order<") {
            true => ", serial order",
            false => "",
        };
        let part = match picture.contains(" are drawn.</text>") {
            true => ", in part",
            false => "",
        };
        return format!("picture, {}{order}{part}", label(comment));
    }
    let words: Vec<&str> = said.split_whitespace().take(3).collect();
    match words[..] {
        ["refused:", ..] if said.contains(NOT_GIVEN) => "refusal above 21".into(),
        ["refused:", _, number] => {
            let source = SOURCES.iter().find(|source| said.contains(*source));
            refusal_label(number.trim_end_matches(','), source.unwrap_or(&""))
        }
        ["violation:", _, kind] => format!("kind {}", kind.trim_end_matches(',')),
        [first @ ("reducible:" | "error:"), ..] => first.trim_end_matches(':').into(),
        ["equal"] => "equal".into(),
        ["not", "equal"] => "not equal".into(),
        ["usage:", ..] => "help".into(),
        ["tracetool", ..] => "version".into(),
        [line, ..] if line.len() == 32 => format!("kind {}", &line[..2]),
        _ => "written".into(),
    }
}

/// Some refusals name no source.
fn refusal_label(number: &str, source: &str) -> String {
    match source {
        "" => format!("refusal {number}"),
        _ => format!("refusal {number}, {source}"),
    }
}

/// What must be seen of each command.
fn required(command: &str) -> Vec<String> {
    let refusals = |source: &str, numbers: &[usize]| -> Vec<String> {
        let label = |number: &usize| refusal_label(&number.to_string(), source);
        numbers.iter().map(label).collect()
    };
    let sound: &[usize] = &[1, 2, 4, 5, 6, 7, 8, 9, 10, 20];
    let of_files = [
        refusals(GUARD_LIST, &[1, 11, 12]),
        refusals(RECORDING, sound),
    ]
    .concat();
    let (answers, refused): (&[&str], Vec<String>) = match command {
        "verdict" => {
            let numbers = sound.iter().chain(&[11, 12]);
            let kinds = numbers.map(|number| format!("kind {:02X}", 0x80 + number));
            (
                &["kind 00", "kind 01", "kind 02", "kind 03", "kind 04"],
                kinds.collect(),
            )
        }
        "serial" | "moves" => (
            &["written"],
            [of_files, refusals(RECORDING, &[13, 14])].concat(),
        ),
        "draw" => (
            &[
                "picture, reducible, serial order",
                "picture, reducible",
                "picture, kind 1",
                "picture, kind 2",
                "picture, kind 3",
                "picture, kind 4",
                "picture, reducible, serial order, in part",
                "picture, reducible, in part",
                "picture, kind 2, in part",
                "picture, kind 3, in part",
                "picture, kind 4, in part",
            ],
            of_files,
        ),
        "help" => return vec!["help".into()],
        "explain" => (
            &["reducible", "kind 1", "kind 2", "kind 3", "kind 4"],
            of_files,
        ),
        "line" => (
            &[
                "reducible",
                "kind 1",
                "kind 2",
                "kind 3",
                "kind 4",
                "refusal above 21",
            ],
            [
                refusals(TEXT, &[1, 19]),
                refusals(GUARD_LIST, &[11, 12]),
                refusals(RECORDING, &[2, 4, 5, 6, 7, 8, 9, 10, 13, 14, 20]),
                refusals("", &[3, 15, 16, 17, 18, 21]),
            ]
            .concat(),
        ),
        _ => (
            &["equal", "not equal"],
            [refusals(LEFT, sound), refusals(RIGHT, sound)].concat(),
        ),
    };
    let answers = answers
        .iter()
        .chain(&["error"])
        .map(|answer| answer.to_string());
    answers.chain(refused).collect()
}

// Pictures, looked at without the reference's drawing.

/// The comment that a picture begins with, and the rest.
fn parted(printed: &str) -> Option<(&str, &str)> {
    printed.strip_prefix("<!-- ")?.split_once(" -->\n")
}

struct Element<'a> {
    name: &'a str,
    attributes: BTreeMap<&'a str, &'a str>,
    /// What stands between the start tag and the next one.
    text: &'a str,
}

impl Element<'_> {
    fn get(&self, attribute: &str) -> &str {
        self.attributes.get(attribute).copied().unwrap_or("")
    }

    fn class(&self) -> &str {
        self.get("class")
    }

    fn number(&self, attribute: &str) -> Result<usize, String> {
        let value = self.get(attribute);
        let number = value.parse();
        number.map_err(|_| format!("{attribute}=\"{value}\" of {} is no number", self.name))
    }

    fn is(&self, name: &str, class: &str) -> bool {
        self.name == name && self.class() == class
    }
}

/// The attributes of a tag: each once, quoted, a blank between two.
fn attributes(mut text: &str) -> Option<BTreeMap<&str, &str>> {
    let mut found = BTreeMap::new();
    while !text.is_empty() {
        let (name, rest) = text.split_once("=\"")?;
        let (value, rest) = rest.split_once('"')?;
        let letter = |letter: char| letter.is_ascii_alphabetic() || letter == '-';
        let named = !name.is_empty() && name.chars().all(letter);
        if !named || value.contains(['<', '&']) || found.insert(name, value).is_some() {
            return None;
        }
        text = rest;
        if !text.is_empty() {
            text = text.strip_prefix(' ').filter(|rest| !rest.is_empty())?;
        }
    }
    Some(found)
}

/// The elements of a document in order, if it is well-formed XML with one root.
fn elements(document: &str) -> Result<Vec<Element<'_>>, String> {
    let mut elements = Vec::new();
    let mut open = Vec::new();
    let mut rest = document;
    while let Some(start) = rest.find('<') {
        let (text, tag) = rest.split_at(start);
        if text.contains(['&', '>']) || open.is_empty() && !text.trim().is_empty() {
            return Err(format!("a text \"{text}\""));
        }
        if let Some(comment) = tag.strip_prefix("<!--") {
            let ended = comment.split_once("-->");
            let (comment, after) = ended.ok_or("a comment without an end")?;
            if comment.contains("--") || comment.ends_with('-') {
                return Err(format!("a comment \"{comment}\""));
            }
            rest = after;
            continue;
        }
        let (tag, after) = tag[1..].split_once('>').ok_or("a tag without an end")?;
        rest = after;
        if open.is_empty() && !elements.is_empty() {
            return Err(format!("a tag \"{tag}\" behind the root"));
        }
        if let Some(name) = tag.strip_prefix('/') {
            if open.pop() != Some(name) {
                return Err(format!("an end tag \"{tag}\" without its start"));
            }
            continue;
        }
        let (start, closed) = match tag.strip_suffix('/') {
            Some(start) => (start, true),
            None => (tag, false),
        };
        let (name, given) = start.split_once(' ').unwrap_or((start, ""));
        let attributes = attributes(given).filter(|_| !given.is_empty() || !start.ends_with(' '));
        let (Some(attributes), true) = (attributes, name.chars().all(char::is_alphabetic)) else {
            return Err(format!("a tag \"{tag}\""));
        };
        if !closed {
            open.push(name);
        }
        let text = if closed {
            ""
        } else {
            &after[..after.find('<').unwrap_or(0)]
        };
        elements.push(Element {
            name,
            attributes,
            text,
        });
    }
    match open.pop() {
        Some(name) => Err(format!("{name} has no end tag")),
        None if elements.is_empty() || rest != "\n" => Err("no root, or text behind it".into()),
        None => Ok(elements),
    }
}

fn same<T: PartialEq + std::fmt::Debug>(what: &str, shown: T, expected: T) -> Done {
    match shown == expected {
        true => Ok(()),
        false => Err(format!("{what}: {shown:?}, not {expected:?}")),
    }
}

/// A bar's lane, its column there, its colour, whether it is dashed, and where it begins and ends
/// below the first row's top.
type Bar = (u32, usize, u32, bool, usize, usize);

/// The bars, diamonds and lines of a picture, in rising order.
#[derive(Default, Debug, PartialEq)]
struct Shapes {
    /// Of blocks, nested ones too; the columns are depths.
    blocks: Vec<Bar>,
    /// Of locks held; the columns are numbers of locks.
    holds: Vec<Bar>,
    /// Of blocks in the serial order, without a column.
    units: Vec<Bar>,
    /// The lane and the row of each commit.
    commits: Vec<(u32, usize)>,
    /// The row of the violation.
    marks: Vec<usize>,
    /// Where the line from its commit begins and ends below the first row's top.
    joins: Vec<(usize, usize)>,
}

impl Shapes {
    fn sorted(mut self) -> Shapes {
        self.blocks.sort_unstable();
        self.holds.sort_unstable();
        self.units.sort_unstable();
        self.commits.sort_unstable();
        self
    }
}

/// From 2 below the top of the row of its begin to 2 above the bottom of that of its last frame.
fn block_bar(thread: u32, depth: usize, begin: usize, last: usize) -> Bar {
    let (from, to) = (18 * begin + 2, 18 * last + 16);
    (thread, depth, thread % 8, false, from, to)
}

/// The variables that a list names are guarded; without a list no access commits. The shapes are
/// those of the whole recording, cut to the rows that are drawn.
fn shapes_of(asked: &Asked) -> Shapes {
    let named = |list: &Vec<u8>| -> BTreeSet<u32> {
        let words = words_of(&String::from_utf8_lossy(list));
        words.iter().map(|word| word >> 16).collect()
    };
    let named = asked.list.as_ref().map(named);
    let count = asked.words.len();
    let mut shapes = Shapes::default();
    // The places where each lock was acquired and each thread's open blocks began.
    let mut acquires = vec![Vec::new(); 64];
    let mut begins = vec![Vec::new(); 32];
    let mut committed = [false; 32];
    for (place, &word) in asked.words.iter().enumerate() {
        let (thread, object) = (thread_of(word), word & 0xFFFF);
        let (own, lock) = (thread as usize, object as usize % 64);
        let inside = !begins[own].is_empty();
        let commits = match word >> 24 {
            1 => {
                acquires[lock].push((thread, place));
                false
            }
            2 if acquires[lock].len() > 1 => {
                acquires[lock].pop();
                false
            }
            2 => {
                let (_, from) = acquires[lock].pop().expect("held");
                let (from, to) = (18 * from + 9, 18 * place + 9);
                let bar = (thread, lock, object % 8, false, from, to);
                shapes.holds.push(bar);
                true
            }
            5 => {
                committed[own] &= inside;
                begins[own].push(place);
                false
            }
            6 => {
                let begin = begins[own].pop().expect("open");
                let bar = block_bar(thread, begins[own].len(), begin, place);
                shapes.blocks.push(bar);
                begins[own].is_empty()
            }
            _ => named.as_ref().is_some_and(|named| !named.contains(&object)),
        };
        let judged = asked.violation.is_none_or(|wrong| place < wrong);
        if inside && commits && judged && !committed[own] {
            committed[own] = true;
            shapes.commits.push((thread, place));
        }
    }
    for (lock, acquires) in acquires.iter().enumerate() {
        if let Some(&(thread, from)) = acquires.first() {
            let (from, to) = (18 * from + 9, 18 * count);
            shapes
                .holds
                .push((thread, lock, lock as u32 % 8, false, from, to));
        }
    }
    for (thread, begins) in (0..).zip(&begins) {
        for (depth, &begin) in begins.iter().enumerate() {
            let (from, to) = (18 * begin + 2, 18 * count);
            shapes
                .blocks
                .push((thread, depth, thread % 8, true, from, to));
        }
    }
    let (order, _) = asked.order.clone().unwrap_or_default();
    let mut depth = 0;
    let mut begin = 0;
    for (place, &word) in order.iter().enumerate() {
        match word >> 24 {
            5 => {
                begin = if depth == 0 { place } else { begin };
                depth += 1;
            }
            6 => depth -= 1,
            _ => {}
        }
        if word >> 24 == 6 && depth == 0 {
            let (_, _, colour, _, from, to) = block_bar(thread_of(word), 0, begin, place);
            shapes.units.push((0, 0, colour, false, from, to));
        }
    }
    cut(shapes, asked)
}

/// What is left of shapes in the rows that are drawn, and in the lanes that there are.
fn cut(mut shapes: Shapes, asked: &Asked) -> Shapes {
    let rows = &asked.rows;
    let lanes = asked.threads();
    let within = |&(lane, column, colour, open, from, to): &Bar| {
        let (from, to) = (asked.cut(from), asked.cut(to));
        (from < to).then_some((lane, column, colour, open, from, to))
    };
    let cut = |bars: &[Bar]| -> Vec<Bar> {
        let bars = bars.iter().filter_map(within);
        bars.filter(|bar| lanes.contains(&bar.0)).collect()
    };
    (shapes.blocks, shapes.holds) = (cut(&shapes.blocks), cut(&shapes.holds));
    shapes.units = shapes.units.iter().filter_map(within).collect();
    shapes.commits.retain(|(_, place)| rows.contains(place));
    for (_, place) in &mut shapes.commits {
        *place -= rows.start;
    }
    if let Some(wrong) = asked.violation.filter(|wrong| rows.contains(wrong)) {
        shapes.marks.push(wrong - rows.start);
        let join = |commit| (asked.cut(18 * commit + 9), asked.cut(18 * wrong + 9));
        shapes.joins.extend(asked.commit.map(join));
    }
    shapes.sorted()
}

/// The lanes' starts and threads, from left to right.
fn lanes_of(elements: &[Element]) -> Result<Vec<(usize, u32)>, String> {
    let mut lanes = Vec::new();
    for head in elements.iter().filter(|text| text.is("text", "head")) {
        if let Some(thread) = head.text.strip_prefix("thread ") {
            let thread = thread.parse().map_err(|_| "a lane without a thread")?;
            lanes.push((head.number("x")?, thread));
        }
    }
    Ok(lanes)
}

/// The shapes that the elements show, given the first row's top.
fn shapes_shown(elements: &[Element], top: usize) -> Result<Shapes, String> {
    let lanes = lanes_of(elements)?;
    let lane_at = |x: usize| {
        let lane = lanes.iter().rev().find(|lane| lane.0 <= x);
        lane.copied().ok_or("a shape outside lanes")
    };
    let row_at = |y: usize, below: usize| {
        let below = y.checked_sub(top + below);
        let row = below.filter(|below| below % 18 == 0);
        row.map(|below| below / 18).ok_or("a shape off its row")
    };
    // The locks' numbers by where they stand.
    let mut numbers = BTreeMap::new();
    for number in elements.iter().filter(|text| text.is("text", "number")) {
        let lock: usize = number
            .text
            .parse()
            .map_err(|_| "a lock without its number")?;
        numbers.insert(number.number("x")?, lock);
    }
    let mut shapes = Shapes::default();
    for element in elements {
        let class = element.class();
        if element.is("path", "commit") {
            let shape = element.get("d").strip_suffix("l5 5l-5 5l-5-5z");
            let (x, y) = point(shape.unwrap_or(""), "M")?;
            shapes.commits.push((lane_at(x)?.1, row_at(y, 4)?));
        }
        if element.is("path", "join") {
            let ((x, from), (_, to)) = way(element)?;
            lane_at(x)?;
            let below = |y: usize| y.checked_sub(top).ok_or("a line above its rows");
            shapes.joins.push((below(from)?, below(to)?));
        }
        if element.name != "rect" || class.is_empty() {
            continue;
        }
        let (x, y) = (element.number("x")?, element.number("y")?);
        if class == "mark" {
            shapes.marks.push(row_at(y, 1)?);
            continue;
        }
        let from = y.checked_sub(top).ok_or("a bar above its rows")?;
        let to = from + element.number("height")?;
        let colour = |start| {
            class
                .strip_prefix(start)
                .and_then(|colour| colour.parse().ok())
        };
        let open = class.contains("open");
        let block = colour("block t").or(colour("block open t"));
        match (colour("k"), block, element.get("width")) {
            (Some(colour), None, "6") => {
                let lock = numbers.get(&(x + 3)).ok_or("a bar under no number")?;
                let bar = (lane_at(x)?.1, *lock, colour, open, from, to);
                shapes.holds.push(bar);
            }
            (None, Some(colour), "8") => {
                let (start, thread) = lane_at(x)?;
                let left = start + 16 * numbers.range(start..x).count();
                let right = x.checked_sub(left).filter(|right| right % 12 == 0);
                let depth = right.ok_or("a block's bar off its column")? / 12;
                shapes.blocks.push((thread, depth, colour, open, from, to));
            }
            (None, Some(colour), "6") => shapes.units.push((0, 0, colour, open, from, to)),
            _ => return Err(format!("a bar of class {class}")),
        }
    }
    Ok(shapes.sorted())
}

fn label_of(word: u32) -> String {
    let object = word & 0xFFFF;
    match word >> 24 {
        1 => format!("acquire lock {object}"),
        2 => format!("release lock {object}"),
        3 => format!("read variable {object}"),
        4 => format!("write variable {object}"),
        5 => "begin".into(),
        _ => "end".into(),
    }
}

fn thread_of(word: u32) -> u32 {
    word >> 16 & 255
}

fn words_of(text: &str) -> Vec<u32> {
    let word = |line| u32::from_str_radix(line, 16).expect("a line");
    text.lines().map(word).collect()
}

/// What the tool is asked for by the same files with another command.
struct Asked {
    words: Vec<u32>,
    list: Option<Vec<u8>>,
    explained: String,
    violation: Option<usize>,
    /// That of the violation's block.
    commit: Option<usize>,
    /// The serial order and the displacements, where there are any.
    order: Option<(Vec<u32>, Vec<i32>)>,
    /// Why there is no order.
    unordered: String,
    /// The places that are drawn.
    rows: Range<usize>,
}

impl Asked {
    /// The threads that have a lane.
    fn threads(&self) -> BTreeSet<u32> {
        let rows = &self.words[self.rows.clone()];
        rows.iter().map(|&word| thread_of(word)).collect()
    }

    /// A height below the whole recording's top, as one below the top of the rows that are drawn.
    fn cut(&self, below: usize) -> usize {
        let below = below.saturating_sub(18 * self.rows.start);
        below.min(18 * self.rows.len())
    }
}

/// Whether the words of a picture are a recording, and then options each with its word.
fn plainly_said<W: AsRef<[u8]>>(words: &[W]) -> bool {
    let named = |word: &W| !word.as_ref().starts_with(b"-");
    let option = |pair: &[W]| {
        let options: [&[u8]; 3] = [b"--guards", b"--from", b"--to"];
        options.contains(&pair[0].as_ref()) && pair.get(1).is_some_and(named)
    };
    words.get(1).is_some_and(named) && words[2..].chunks(2).all(option)
}

/// Of words that are plainly said.
fn asked<W: AsRef<[u8]>>(words: &[W]) -> Asked {
    let options = || {
        words[2..]
            .chunks(2)
            .map(|pair| (pair[0].as_ref(), pair[1].as_ref()))
    };
    let option = |name: &[u8]| options().find(|pair| pair.0 == name).map(|pair| pair.1);
    let recording = words[1].as_ref();
    let list = option(b"--guards");
    let of = |command: &str| {
        let guards = list.map_or(vec![], |list| vec![&b"--guards"[..], list]);
        let words = [&[command.as_bytes(), recording][..], &guards].concat();
        let answer = reference(&words, &Input::Nothing);
        [answer.out, answer.err].map(|text| String::from_utf8_lossy(&text).into_owned())
    };
    let content = |name: &[u8]| read(name).expect("a file");
    let [verdict, _] = of("verdict");
    let field = |digits| {
        let field = &verdict[digits];
        usize::from_str_radix(field, 16).expect("a place")
    };
    let violation = (&verdict[..2] != "00").then(|| field(2..6));
    let ([serial, unordered], [moves, _]) = (of("serial"), of("moves"));
    let displacement = |line: &str| {
        let (by, _) = line.split_once(' ').expect("two words");
        by.parse().expect("a displacement")
    };
    let order = || (words_of(&serial), moves.lines().map(displacement).collect());
    let words = words_of(&String::from_utf8_lossy(&content(recording)));
    let number = |name| {
        let number = option(name).map(|word| String::from_utf8_lossy(word).parse());
        number.map(|number| number.expect("a number"))
    };
    let (from, to): (Option<usize>, Option<usize>) = (number(b"--from"), number(b"--to"));
    let rows = match violation {
        Some(wrong) if from.or(to).is_none() && words.len() > 400 => {
            (wrong.max(199) - 199)..words.len().min(wrong + 201)
        }
        _ => from.map_or(0, |from| from - 1)..to.map_or(words.len(), |to| to.min(words.len())),
    };
    Asked {
        list: list.map(content),
        explained: of("explain")[0].clone(),
        violation,
        commit: violation.and(Some(field(12..16)).filter(|&commit| commit != 0xFFFF)),
        order: unordered.is_empty().then(order),
        unordered,
        words,
        rows,
    }
}

/// The lines at the top of a picture, each with its class.
fn head_of(asked: &Asked) -> Vec<String> {
    let classes = match asked.violation {
        Some(_) => ["wrong", "why"],
        None => ["head", "head"],
    };
    let lines = asked.explained.lines().enumerate();
    let mut head: Vec<String> = lines
        .map(|(line, text)| format!("{} {text}", classes[line.min(1)]))
        .collect();
    let mut note = |text: String| head.push(format!("note {text}"));
    if asked.violation.is_some() {
        note("No serial order: the recording is not reducible.".into());
    } else if let Some((_, block)) = asked.unordered.split_once("number 14, ") {
        let block = block.replace(" of the recording", "");
        let block = block.replace("; add its end.\n", ".");
        note(format!("No serial order: {block}"));
    }
    let (from, to, count) = (asked.rows.start + 1, asked.rows.end, asked.words.len());
    if asked.rows.len() != count {
        note(format!("Lines {from} to {to} of {count} are drawn."));
    }
    head
}

/// The parts of the key, by the shapes and arrows that there are.
fn key_of(asked: &Asked, shapes: &Shapes) -> String {
    let (rows, place) = (&asked.rows, 0..);
    let (_, moves) = asked.order.clone().unwrap_or_default();
    let mut moves = place.zip(moves);
    let drawn = |&place: &i32| (rows.start as i32..rows.end as i32).contains(&place);
    let arrow = moves.any(|(place, by)| by != 0 && (drawn(&place) || drawn(&(place + by))));
    let late = |wrong: usize| rows.end > rows.start && rows.end - 1 > wrong;
    let parts = [
        (!shapes.blocks.is_empty(), "wide bar: atomic block"),
        (
            shapes.blocks.iter().any(|bar| bar.3),
            "dashed bar: open at the end",
        ),
        (!shapes.commits.is_empty(), "diamond: its commit"),
        (!shapes.holds.is_empty(), "thin bar: lock held"),
        (!shapes.marks.is_empty(), "red box: the violation"),
        (!shapes.joins.is_empty(), "dashed line: from its commit"),
        (
            asked.violation.is_some_and(late),
            "grey: behind the violation",
        ),
        (arrow, "arrow: to its place in the serial order"),
    ];
    let parts = parts.iter().filter(|part| part.0).map(|part| part.1);
    parts.collect::<Vec<_>>().join("; ")
}

/// Looks at a picture's elements: they are those that the recording, its verdict and its serial
/// order ask for, each in the row of its frame.
fn check_picture<W: AsRef<[u8]>>(words: &[W], printed: &str) -> Done {
    let asked = asked(words);
    let (comment, _) = parted(printed).ok_or("no picture")?;
    same(
        "the comment",
        format!("{comment}\n"),
        asked.explained.clone(),
    )?;
    let elements = elements(printed)?;
    within(&elements)?;
    let title = elements.iter().filter(|element| element.name == "title");
    let title: Vec<&str> = title.map(|title| title.text).collect();
    same(
        "the title",
        title,
        asked.explained.lines().take(1).collect(),
    )?;
    let sentences = elements
        .iter()
        .filter(|text| text.name == "text" && text.get("x") == "8" && text.class() != "key");
    let sentences = sentences.map(|text| format!("{} {}", text.class(), text.text));
    same::<Vec<String>>("the sentences", sentences.collect(), head_of(&asked))?;

    let rows = rows(&elements, &asked.rows)?;
    let top = rows.first().map_or(0, |row| row - 13);
    let shapes = shapes_of(&asked);
    let key = elements.iter().filter(|text| text.is("text", "key"));
    let key: Vec<&str> = key.map(|key| key.text).collect();
    same("the key", key.concat(), key_of(&asked, &shapes))?;
    same("the shapes", shapes_shown(&elements, top)?, shapes)?;
    check_labels(&elements, &asked, &rows)?;
    check_order(&elements, &asked, top)
}

/// Nothing stands outside the picture.
fn within(elements: &[Element]) -> Done {
    let root = &elements[0];
    let (width, height) = (root.number("width")?, root.number("height")?);
    same(
        "the box",
        root.get("viewBox"),
        &format!("0 0 {width} {height}"),
    )?;
    let inside = |x: usize, y: usize| x <= width && y <= height;
    for element in &elements[1..] {
        let fits = match (element.name, element.class()) {
            // The background, and the head of an arrow.
            ("rect", "") => {
                element.number("width")? == width && element.number("height")? == height
            }
            ("title" | "style" | "defs" | "marker", "") | ("path", "") => true,
            ("rect", _) => inside(
                element.number("x")? + element.number("width")?,
                element.number("y")? + element.number("height")?,
            ),
            ("text", _) => inside(element.number("x")?, element.number("y")?),
            ("path", "commit") => {
                let shape = element.get("d").strip_suffix("l5 5l-5 5l-5-5z");
                let (x, y) = point(shape.unwrap_or(""), "M")?;
                x >= 5 && inside(x + 5, y + 10)
            }
            ("path", _) => {
                let ((x1, y1), (x2, y2)) = way(element)?;
                inside(x1, y1) && inside(x2, y2)
            }
            _ => false,
        };
        if !fits {
            return Err(format!("{} {:?}", element.name, element.attributes));
        }
    }
    Ok(())
}

/// Two numbers behind a letter.
fn point(text: &str, letter: &str) -> Result<(usize, usize), String> {
    let numbers = || {
        let (x, y) = text.strip_prefix(letter)?.split_once(' ')?;
        Some((x.parse().ok()?, y.parse().ok()?))
    };
    numbers().ok_or_else(|| format!("\"{text}\" is no point"))
}

type Point = (usize, usize);

/// The ends of an arrow.
fn way(element: &Element) -> Result<(Point, Point), String> {
    let path = element.get("d");
    let (from, to) = path.split_at(path.find('L').unwrap_or(0));
    Ok((point(from, "M")?, point(to, "L")?))
}

/// The baselines of the rows: one for each frame that is drawn, from top to bottom.
fn rows(elements: &[Element], drawn: &Range<usize>) -> Result<Vec<usize>, String> {
    let lines = elements.iter().filter(|text| text.is("text", "line"));
    let (mut rows, mut numbers) = (Vec::new(), Vec::new());
    for line in lines {
        rows.push(line.number("y")?);
        numbers.push(line.text.to_string());
    }
    let expected = drawn
        .clone()
        .map(|place| format!("{} [{place}]", place + 1));
    same("the numbers of lines", numbers, expected.collect())?;
    match rows.windows(2).all(|pair| pair[1] == pair[0] + 18) {
        true => Ok(rows),
        false => Err("rows that are not 18 high".into()),
    }
}

/// Each frame has its label in its row and in its thread's lane.
fn check_labels(elements: &[Element], asked: &Asked, rows: &[usize]) -> Done {
    let texts = || elements.iter().filter(|element| element.name == "text");
    let lanes = lanes_of(elements)?;
    let threads = asked.threads();
    let shown: Vec<u32> = lanes.iter().map(|lane| lane.1).collect();
    same("the lanes", shown, threads.into_iter().collect())?;
    let mut labels = Vec::new();
    for label in texts() {
        let x = label.number("x")?;
        let of_frame = matches!(label.class(), "frame" | "late" | "wrong") && x >= 88;
        if of_frame && !label.text.starts_with("thread ") {
            let lane = lanes.iter().rev().find(|lane| lane.0 < x);
            let thread = lane.map(|lane| lane.1);
            labels.push((
                label.number("y")?,
                label.class(),
                thread,
                label.text.to_string(),
            ));
        }
    }
    labels.sort_unstable();
    let expected = |(&row, place): (&usize, usize)| {
        let word = asked.words[place];
        let class = match asked.violation {
            Some(wrong) if place == wrong => "wrong",
            Some(wrong) if place > wrong => "late",
            _ => "frame",
        };
        (row, class, Some(thread_of(word)), label_of(word))
    };
    let expected = rows.iter().zip(asked.rows.clone()).map(expected);
    same("the labels", labels, expected.collect())
}

/// The arrows go as far as the displacements say, or to the edge of the rows, and what they lead to
/// is the serial order.
fn check_order(elements: &[Element], asked: &Asked, top: usize) -> Done {
    let (order, moves) = asked.order.clone().unwrap_or_default();
    let (mut arrows, mut labels) = (Vec::new(), Vec::new());
    for (place, (&word, by)) in asked.words.iter().zip(moves).enumerate() {
        let to = (place as i32 + by) as usize;
        same("the word in the order", order.get(to), Some(&word))?;
        let lands = asked.rows.contains(&to);
        let ends = [place, to].map(|place| top + asked.cut(18 * place + 9));
        let thread = thread_of(word);
        let (class, moved) = match by {
            0 => ("stay".into(), String::new()),
            _ => (format!("move t{}", thread % 8), format!(" ({by:+})")),
        };
        if lands || asked.rows.contains(&place) {
            arrows.push((ends, class, lands && by != 0));
        }
        if lands {
            let y = top + 18 * (to - asked.rows.start) + 13;
            labels.push((y, format!("thread {thread}: {}{moved}", label_of(word))));
        }
    }
    let (mut arrows_shown, mut labels_shown) = (Vec::new(), Vec::new());
    for element in elements {
        let class = element.class();
        if element.name == "path" && (class == "stay" || class.starts_with("move ")) {
            let ((_, from), (_, to)) = way(element)?;
            let headed = element.get("marker-end") == "url(#to)";
            arrows_shown.push(([from, to], class.to_string(), headed));
        }
        if element.is("text", "frame") && element.text.starts_with("thread ") {
            labels_shown.push((element.number("y")?, element.text.to_string()));
        }
    }
    same("the arrows", arrows_shown, arrows)?;
    same("the order's labels", labels_shown, labels)?;
    let titles = elements.iter().filter(|text| text.is("text", "head"));
    let titles = titles.filter(|text| text.text == "serial order").count();
    same(
        "the order's title",
        titles,
        usize::from(asked.order.is_some()),
    )
}

// Runs.

struct Tool {
    program: PathBuf,
    /// By command and label.
    counts: BTreeMap<(String, String), usize>,
    /// The lines of docs/TOOL.md, and how often each was printed.
    lines: Vec<(String, usize)>,
    /// A text that this machine gives no reason for.
    exempt: Option<String>,
}

/// What stands on standard input.
enum Input {
    Nothing,
    Pipe(Vec<u8>),
    File(Vec<u8>),
    /// A folder is opened in its place.
    Folder,
    Closed,
    /// A pipe that gives these bytes over and over.
    Endless(Vec<u8>),
}

impl Input {
    /// All of it, or as much as may be looked at; else the number of the error.
    fn content(&self) -> Result<Vec<u8>, i32> {
        match self {
            Input::Nothing => Ok(Vec::new()),
            Input::Pipe(bytes) | Input::File(bytes) => Ok(bytes.clone()),
            Input::Folder => Err(21),
            Input::Closed => Err(9),
            Input::Endless(bytes) => Ok(bytes.repeat(2 * MOST_BYTES / bytes.len())),
        }
    }

    /// The bytes that go through a pipe, and whether they do so without an end.
    fn piped(&self) -> Option<(Vec<u8>, bool)> {
        match self {
            Input::Pipe(bytes) => Some((bytes.clone(), false)),
            Input::Endless(bytes) => Some((bytes.repeat(1000), true)),
            _ => None,
        }
    }
}

/// So many bytes may be taken from a pipe without an end: those that are read, and what the pipe
/// itself holds.
const MOST_TAKEN: usize = 1 << 20;

/// The number of bytes that were taken.
fn feed(mut pipe: ChildStdin, bytes: &[u8], endless: bool) -> usize {
    let mut taken = 0;
    while pipe.write_all(bytes).is_ok() {
        taken += bytes.len();
        if !endless || taken > MOST_TAKEN {
            break;
        }
    }
    taken
}

fn shown<W: AsRef<[u8]>>(words: &[W]) -> String {
    let quoted = words
        .iter()
        .map(|word| format!(" \"{}\"", word.as_ref().escape_ascii()));
    format!("tracetool{}", quoted.collect::<String>())
}

fn shown_answer(answer: &Answer) -> String {
    let (out, err) = (answer.out.escape_ascii(), answer.err.escape_ascii());
    format!("status {}, \"{out}\", \"{err}\"", answer.status)
}

fn reference<W: AsRef<[u8]>>(words: &[W], input: &Input) -> Answer {
    let words: Vec<&[u8]> = words.iter().map(|word| word.as_ref()).collect();
    answer(&words, &|name| match name {
        b"-" => input.content(),
        _ => read(name),
    })
}

/// Commands whose refusals stand on standard error.
fn writes(command: &str) -> bool {
    matches!(command, "serial" | "moves" | "draw")
}

/// The answer with this text, by the rule of docs/TOOL.md: where it stands, and the status.
fn literal(command: &str, text: &str) -> Answer {
    let bare = text.split_once("refused: ").map_or(text, |_| "refused: ");
    let kind = text.get(..2).filter(|_| text.trim_end().len() == 32);
    let status = match (bare, kind) {
        _ if text.starts_with("error: ") => 3,
        ("refused: ", _) => 2,
        (_, Some("00")) => 0,
        (_, Some("01" | "02" | "03" | "04")) => 1,
        (_, Some(_)) if command == "verdict" => 2,
        _ if text.starts_with("violation: ") || text == "not equal\n" => 1,
        _ => 0,
    };
    let (text, nothing) = (text.as_bytes().to_vec(), Vec::new());
    let (out, err) = match status == 3 || status == 2 && writes(command) {
        true => (nothing, text),
        false => (text, nothing),
    };
    Answer { out, err, status }
}

/// A refusal about a file, as this command tells it.
fn told(command: &str, file: &str, place: usize, text: &str) -> String {
    match command {
        "explain" => text.into(),
        _ => format!("{file}:{}: {text}", place + 1),
    }
}

/// A line without the `FILE:LINE: ` or `FILE: ` that names one of the words.
fn bare<'a, W: AsRef<[u8]>>(words: &[W], line: &'a str) -> &'a str {
    let behind = |name: &str| {
        let rest = line.strip_prefix(name)?;
        let number = rest.strip_prefix(':').unwrap_or(rest);
        let number = number.trim_start_matches(|digit: char| digit.is_ascii_digit());
        number.strip_prefix(": ").or(rest.strip_prefix(": "))
    };
    let rest = |word: &W| {
        let word = String::from_utf8_lossy(word.as_ref()).into_owned();
        behind(&word).or_else(|| behind(word.strip_prefix("--guards=")?))
    };
    words.iter().skip(1).find_map(rest).unwrap_or(line)
}

impl Tool {
    /// What the program answers. It ends by itself, changes no file, and says an error exactly where
    /// the status is that of one.
    fn run<W: AsRef<[u8]>>(&self, words: &[W], input: &Input) -> Result<Answer, String> {
        if let Input::File(bytes) = input {
            write("input", bytes)?;
        }
        let before = entries()?;
        let arguments = words.iter().map(|word| OsStr::from_bytes(word.as_ref()));
        let mut command = Command::new("sh");
        match input {
            Input::Closed => command
                .args(["-c", "exec \"$0\" \"$@\" <&-"])
                .arg(&self.program),
            _ => {
                command = Command::new(&self.program);
                &mut command
            }
        };
        command.args(arguments).stdin(match input {
            Input::Pipe(_) | Input::Endless(_) => Stdio::piped(),
            Input::File(_) => context(File::open("input"), "opening the input")?.into(),
            Input::Folder => context(File::open("."), "opening a folder")?.into(),
            Input::Nothing | Input::Closed => Stdio::null(),
        });
        command.stdout(Stdio::piped()).stderr(Stdio::piped());
        let mut child = context(command.spawn(), "running the program")?;
        let pipe = child.stdin.take().zip(input.piped());
        let fed = pipe.map(|(pipe, (bytes, endless))| {
            std::thread::spawn(move || feed(pipe, &bytes, endless))
        });
        let output = context(child.wait_with_output(), "running the program")?;
        let wrong = |what: &str| {
            let (status, error) = (output.status, output.stderr.escape_ascii());
            format!("{}: {what}; {status}, \"{error}\"", shown(words))
        };
        if let (Some(fed), Input::Endless(_)) = (fed, input) {
            if fed.join().expect("a writer") > MOST_TAKEN {
                return Err(wrong("it read on and on"));
            }
        }
        let Some(status @ 0..=3) = output.status.code() else {
            return Err(wrong("no status from 0 to 3"));
        };
        if String::from_utf8_lossy(&output.stderr).contains("panicked") {
            return Err(wrong("a panic"));
        }
        let mut lines = output.stderr.split(|&byte| byte == b'\n');
        if lines.any(|line| line.starts_with(b"error:")) != (status == 3) {
            return Err(wrong("status 3 without an error, or an error without it"));
        }
        if entries()? != before {
            return Err(wrong("a file changed"));
        }
        Ok(Answer {
            out: output.stdout,
            err: output.stderr,
            status,
        })
    }

    fn expect_answer<W: AsRef<[u8]>>(
        &mut self,
        words: &[W],
        input: &Input,
        expected: &Answer,
    ) -> Done {
        let answer = self.run(words, input)?;
        if answer != *expected {
            return Err(format!(
                "{}\n  expected {}\n  answered {}",
                shown(words),
                shown_answer(expected),
                shown_answer(&answer)
            ));
        }
        let printed = String::from_utf8_lossy(&answer.out);
        if parted(&printed).is_some() && plainly_said(words) {
            let wrong = |reason| format!("{}: {reason}\n{printed}", shown(words));
            check_picture(words, &printed).map_err(wrong)?;
        }
        self.count(words, &answer)
    }

    /// The reference's answer.
    fn expect<W: AsRef<[u8]>>(&mut self, words: &[W]) -> Done {
        self.expect_input(words, &Input::Nothing)
    }

    fn expect_input<W: AsRef<[u8]>>(&mut self, words: &[W], input: &Input) -> Done {
        self.expect_answer(words, input, &reference(words, input))
    }

    /// This answer, which must be the reference's too.
    fn expect_text<W: AsRef<[u8]>>(&mut self, words: &[W], text: &str) -> Done {
        let command = words.first().map_or(&b"help"[..], |word| word.as_ref());
        let answer = literal(&String::from_utf8_lossy(command), text);
        self.expect_both(words, &Input::Nothing, &answer)
    }

    fn expect_both<W: AsRef<[u8]>>(&mut self, words: &[W], input: &Input, answer: &Answer) -> Done {
        let reference = reference(words, input);
        if reference != *answer {
            return Err(format!(
                "{}\n  expected {}\n  the reference has {}",
                shown(words),
                shown_answer(answer),
                shown_answer(&reference)
            ));
        }
        self.expect_answer(words, input, answer)
    }

    /// Out, err and status.
    fn expect_all<W: AsRef<[u8]>>(
        &mut self,
        words: &[W],
        input: &Input,
        (out, err, status): (&str, &str, i32),
    ) -> Done {
        let (out, err) = (out.as_bytes().to_vec(), err.as_bytes().to_vec());
        self.expect_both(words, input, &Answer { out, err, status })
    }

    fn count<W: AsRef<[u8]>>(&mut self, words: &[W], answer: &Answer) -> Done {
        let command = words.first().map_or(&b"help"[..], |word| word.as_ref());
        let command = String::from_utf8_lossy(command).into_owned();
        let printed = String::from_utf8_lossy(&answer.out);
        let complained = String::from_utf8_lossy(&answer.err);
        let first = if printed.is_empty() {
            &complained
        } else {
            &printed
        };
        let label = label(bare(words, first));
        *self.counts.entry((command, label)).or_default() += 1;
        let printed = parted(&printed).map_or(&printed[..], |(comment, _)| comment);
        for line in printed.lines().chain(complained.lines()) {
            let line = bare(words, line);
            // Verdict lines, serial orders and displacements, of which the document has an example.
            let listed = line.trim_start_matches(['+', '-']);
            let listed = listed.starts_with(|first: char| first.is_ascii_digit());
            let mut known = self.lines.iter_mut();
            match known.find(|(template, _)| template == line || !listed && is_of(template, line)) {
                Some((_, count)) => *count += 1,
                None if listed => {}
                None => return Err(format!("docs/TOOL.md has no line \"{line}\"")),
            }
        }
        Ok(())
    }
}

/// Each command on one recording, with inferred guards and with each of these lists.
fn judge(tool: &mut Tool, recording: &[u8], lists: &[&[u8]]) -> Done {
    write("recording", recording)?;
    for command in JUDGING {
        tool.expect(&[command, "recording"])?;
    }
    for list in lists {
        write("list", list)?;
        for command in JUDGING {
            tool.expect(&[command, "recording", "--guards", "list"])?;
        }
    }
    Ok(())
}

fn compare(tool: &mut Tool, left: &[u8], right: &[u8]) -> Done {
    write("left", left)?;
    write("right", right)?;
    tool.expect(&["equal", "left", "right"])
}

// Recordings of docs/FORMAT.md.

const A: &str = "05010000 01010000 03010000 02010000 01010000 03010001 02010000 06010000";
const C: &str = "05000000 05010000 01000000 04000000 02000000 01010000 04010000 06000000 \
                 02010000 06010000";
const D: &str = "03000005";
const E: &str = "05000000 03000005 03000005";
const F: &str = "05000000 03000005 06000000";
const J: [&str; 2] = ["01000003 01010003", "01000003 02010003"];
/// Thread 1's block comes first.
const UNITS: &str = "05000000 05010000 03010000 06010000 03000000 06000000";
/// Variable 5 under locks {1,2}, then {2,3}, then {3}.
const SHARED: &str = "01000001 01000002 03000005 02000001 01000003 04000005 02000002 03000005";

/// A lock that its holder takes again, in a block.
const AGAIN: &str = "05000000 01000000 01000000 03000005 02000000 02000000 06000000";
/// The outer release commits, behind thread 1's block.
const AGAIN_UNITS: &str = "05000000 01000000 01000000 02000000 05010000 06010000 02000000 06000000";
const FIFTEEN: &str = "01000003 01000003 01000003 01000003 01000003 01000003 01000003 01000003 \
                       01000003 01000003 01000003 01000003 01000003 01000003 01000003";
const SIXTEEN: &str = "01000003 01000003 01000003 01000003 01000003 01000003 01000003 01000003 \
                       01000003 01000003 01000003 01000003 01000003 01000003 01000003 01000003";

const NOTHING: &str = "reducible: there is nothing in the recording; frames: 0.\n";

/// What is printed, given a recording and, for declared guards, a list.
const LITERALS: [(&str, &str, Option<&str>, &str); 40] = [
    ("verdict", A, None, "03000401000000030000000000000001\n"),
    ("verdict", "", None, "00000000FFFFFFFF0000000000000000\n"),
    ("verdict", C, None, "00000A00FFFFFFFF0000000000000000\n"),
    ("verdict", D, None, "04000000FFFFFFFFFFFFFFFFFFFFFFFF\n"),
    ("verdict", D, Some(""), "00000100FFFFFFFF0000000000000000\n"),
    ("verdict", E, Some(""), "02000200000000010000000000000000\n"),
    ("verdict", F, Some(""), "00000300FFFFFFFF0000000000000000\n"),
    (
        "verdict",
        D,
        Some("00050002"),
        "01000000FFFFFFFF0000000000000004\n",
    ),
    ("verdict", J[0], None, "87000100FFFFFFFF0000000000000000\n"),
    ("verdict", J[1], None, "88000100FFFFFFFF0000000000000000\n"),
    ("verdict", AGAIN, None, "00000700FFFFFFFF0000000000000000\n"),
    (
        "verdict",
        FIFTEEN,
        None,
        "00000F00FFFFFFFF0000000000000000\n",
    ),
    (
        "verdict",
        SIXTEEN,
        None,
        "94000F00FFFFFFFF0000000000000000\n",
    ),
    (
        "verdict",
        SHARED,
        None,
        "04000700FFFFFFFF0000000000000004\n",
    ),
    (
        "verdict",
        D,
        Some("04000000"),
        "8B000000FFFFFFFF0000000000000000\n",
    ),
    ("serial", "", None, ""),
    (
        "serial",
        C,
        None,
        "05000000\n01000000\n04000000\n02000000\n06000000\n\
         05010000\n01010000\n04010000\n02010000\n06010000\n",
    ),
    (
        "serial",
        UNITS,
        Some(""),
        "05010000\n03010000\n06010000\n05000000\n03000000\n06000000\n",
    ),
    (
        "serial",
        AGAIN_UNITS,
        None,
        "05010000\n06010000\n05000000\n01000000\n01000000\n02000000\n02000000\n06000000\n",
    ),
    (
        "serial",
        "05000000",
        None,
        "recording:1: refused: number 14, the block that begins at line 1 [0] of the recording is open at the \
         end; add its end.\n",
    ),
    (
        "serial",
        A,
        None,
        "recording:5: refused: number 13, the recording is not reducible, so there is no serial order; \
         line 5 [4] goes wrong, and explain says why.\n",
    ),
    ("moves", "", None, ""),
    (
        "moves",
        C,
        None,
        "0 05000000\n+4 05010000\n-1 01000000\n-1 04000000\n-1 02000000\n\
         +1 01010000\n+1 04010000\n-3 06000000\n0 02010000\n0 06010000\n",
    ),
    (
        "moves",
        UNITS,
        Some(""),
        "+3 05000000\n-1 05010000\n-1 03010000\n-1 06010000\n0 03000000\n0 06000000\n",
    ),
    (
        "moves",
        "05000000",
        None,
        "recording:1: refused: number 14, the block that begins at line 1 [0] of the recording is open at the \
         end; add its end.\n",
    ),
    (
        "moves",
        E,
        Some(""),
        "recording:3: refused: number 13, the recording is not reducible, so there is no serial order; \
         line 3 [2] goes wrong, and explain says why.\n",
    ),
    (
        "explain",
        F,
        Some(""),
        "reducible: no frame goes wrong; frames: 3.\n",
    ),
    ("explain", "", None, NOTHING),
    ("explain", "", Some(""), NOTHING),
    ("explain", "", Some("00050002"), NOTHING),
    (
        "explain",
        AGAIN,
        Some("00050000"),
        "reducible: no frame goes wrong; frames: 7.\n",
    ),
    (
        "explain",
        A,
        None,
        "violation: kind 3, acquire after commit, by thread 1.\n  \
         The block begins at line 1 [0].\n  \
         It commits at line 4 [3]: release of lock 0.\n  \
         It goes wrong at line 5 [4]: acquire of lock 0.\n  \
         A block takes no new lock after its commit: between these lines another thread may \
         change what the block has read or written.\n  \
         To mend it, take the lock before the commit and hold each lock until the block ends, \
         or end the block before this line.\n",
    ),
    (
        "explain",
        "05000000 01000003 01000003 02000003 02000003 01000003",
        None,
        "violation: kind 3, acquire after commit, by thread 0.\n  \
         The block begins at line 1 [0].\n  \
         It commits at line 5 [4]: release of lock 3.\n  \
         It goes wrong at line 6 [5]: acquire of lock 3.\n  \
         A block takes no new lock after its commit: between these lines another thread may \
         change what the block has read or written.\n  \
         To mend it, take the lock before the commit and hold each lock until the block ends, \
         or end the block before this line.\n",
    ),
    (
        "explain",
        E,
        Some(""),
        "violation: kind 2, unprotected access after commit, by thread 0.\n  \
         The block begins at line 1 [0].\n  \
         It commits at line 2 [1]: read of variable 5.\n  \
         It goes wrong at line 3 [2]: read of variable 5.\n  \
         Variable 5 has no guard: another thread may change it, or what the block accessed \
         before, between these lines.\n  \
         To mend it, end the block before this line, or name a guard of the variable and hold \
         it at each access.\n",
    ),
    (
        "explain",
        "05000000 04000005",
        Some("00050002"),
        "violation: kind 1, guard not held, by thread 0.\n  \
         The block begins at line 1 [0] and has not committed.\n  \
         It goes wrong at line 2 [1]: write of variable 5.\n  \
         The guard of variable 5 is lock 2, and thread 0 does not hold it: another thread may \
         access the variable at the same time.\n  \
         To mend it, hold lock 2 at this line; in a block, take it before the commit.\n",
    ),
    (
        "explain",
        D,
        None,
        "violation: kind 4, candidate set emptied, by thread 0.\n  \
         The thread is in no block.\n  \
         It goes wrong at line 1 [0]: read of variable 5.\n  \
         Locks left that may guard variable 5: all 64. Thread 0 holds none of them, so no one \
         lock guards every access of the variable.\n  \
         To mend it, hold one lock at every access of the variable.\n",
    ),
    (
        "explain",
        "01000001 01000002 03000005 03010005",
        None,
        "violation: kind 4, candidate set emptied, by thread 1.\n  \
         The thread is in no block.\n  \
         It goes wrong at line 4 [3]: read of variable 5.\n  \
         Locks left that may guard variable 5: 1, 2. Thread 1 holds none of them, so no one \
         lock guards every access of the variable.\n  \
         To mend it, hold one lock at every access of the variable.\n",
    ),
    (
        "explain",
        J[0],
        None,
        "refused: number 7, line 2 [1] of the recording, acquire of lock 3 by thread 1, takes a \
         lock that another thread holds; it has to be released before this line.\n",
    ),
    (
        "explain",
        SIXTEEN,
        Some("00050002"),
        "refused: number 20, line 16 [15] of the recording, acquire of lock 3 by thread 0, takes a \
         lock that this thread holds 15 times already; hold it at most 15 times.\n",
    ),
    (
        "explain",
        "x",
        Some("00050002 04000000"),
        "refused: number 11, line 2 [1] of the guard list names a variable above 03FF or a lock \
         above 003F; mend the number.\n",
    ),
];

const O: &str = "03000000 03010000 04020000";

/// H, I, O, a left frame that is refused before a right line, and a lock taken too often.
const LITERAL_PAIRS: [(&str, &str, &str); 10] = [
    ("03000000 03010001", "03010001 03000000", "equal\n"),
    ("03000000 03010000", "03010000 03000000", "equal\n"),
    (O, "03010000 03000000 04020000", "equal\n"),
    (O, "03000000 04020000 03010000", "not equal\n"),
    (O, "03010000 04020000 03000000", "not equal\n"),
    ("03000000 04010000", "04010000 03000000", "not equal\n"),
    ("04000000 04010000", "04010000 04000000", "not equal\n"),
    ("03000000 03000001", "03000001 03000000", "not equal\n"),
    (
        "05000000 07000000",
        "x",
        "left:2: refused: number 4, line 2 [1] of the left recording has an operation other than 01 to \
         06; mend its digits 1 and 2.\n",
    ),
    (
        FIFTEEN,
        SIXTEEN,
        "right:16: refused: number 20, line 16 [15] of the right recording, acquire of lock 3 by thread 0, \
         takes a lock that this thread holds 15 times already; hold it at most 15 times.\n",
    ),
];

fn literals(tool: &mut Tool) -> Done {
    for (command, recording, list, printed) in LITERALS {
        write("recording", &text(recording))?;
        match list {
            None => tool.expect_text(&[command, "recording"], printed)?,
            Some(list) => {
                write("list", &text(list))?;
                tool.expect_text(&[command, "recording", "--guards", "list"], printed)?;
            }
        }
    }
    for (left, right, printed) in LITERAL_PAIRS {
        write("left", &text(left))?;
        write("right", &text(right))?;
        tool.expect_text(&["equal", "left", "right"], printed)?;
    }
    Ok(())
}

/// The lines of recordings A, E, G and D, of others, and of each refusal; the texts of
/// docs/TOOL.md.
const LITERAL_LINES: [(&str, &str); 38] = [
    ("00000000FFFFFFFF0000000000000000", NOTHING),
    ("00000001000000010000000000000001", NOTHING),
    (
        "00000100FFFFFFFF0000000000000000",
        "reducible: no frame goes wrong; frames: 1.\n",
    ),
    (
        "00000300FFFFFFFF0000000000000000",
        "reducible: no frame goes wrong; frames: 3.\n",
    ),
    (
        "00FFFFFF00000001FFFFFFFFFFFFFFFF",
        "reducible: no frame goes wrong; frames: 65535.\n",
    ),
    (
        "03000401000000030000000000000001",
        "violation: kind 3, acquire after commit, by thread 1.\n  \
         The block begins at line 1 [0].\n  \
         It commits at line 4 [3].\n  \
         It goes wrong at line 5 [4].\n  \
         A block takes no new lock after its commit, here lock 0: between these lines another \
         thread may change what the block has read or written.\n  \
         To mend it, take the lock before the commit and hold each lock until the block ends, \
         or end the block before this line.\n",
    ),
    (
        "03000401000000030000000000000000",
        "violation: kind 3, acquire after commit, by thread 1.\n  \
         The block begins at line 1 [0].\n  \
         It commits at line 4 [3].\n  \
         It goes wrong at line 5 [4].\n  \
         A block takes no new lock after its commit, here lock none: between these lines another \
         thread may change what the block has read or written.\n  \
         To mend it, take the lock before the commit and hold each lock until the block ends, \
         or end the block before this line.\n",
    ),
    (
        "02000200000000010000000000000000",
        "violation: kind 2, unprotected access after commit, by thread 0.\n  \
         The block begins at line 1 [0].\n  \
         It commits at line 2 [1].\n  \
         It goes wrong at line 3 [2].\n  \
         The variable has no guard: another thread may change it, or what the block accessed \
         before, between these lines.\n  \
         To mend it, end the block before this line, or name a guard of the variable and hold \
         it at each access.\n",
    ),
    (
        "01000000FFFFFFFF0000000000000004",
        "violation: kind 1, guard not held, by thread 0.\n  \
         The thread is in no block.\n  \
         It goes wrong at line 1 [0].\n  \
         The guard of the variable is lock 2, and thread 0 does not hold it: another thread may \
         access the variable at the same time.\n  \
         To mend it, hold lock 2 at this line; in a block, take it before the commit.\n",
    ),
    (
        "01000000FFFF00000000000000000000",
        "violation: kind 1, guard not held, by thread 0.\n  \
         The thread is in no block.\n  \
         It goes wrong at line 1 [0].\n  \
         The guard of the variable is lock none, and thread 0 does not hold it: another thread may \
         access the variable at the same time.\n  \
         To mend it, hold lock none at this line; in a block, take it before the commit.\n",
    ),
    (
        "010001FF0000FFFF8000000000000001",
        "violation: kind 1, guard not held, by thread 255.\n  \
         The block begins at line 1 [0] and has not committed.\n  \
         It goes wrong at line 2 [1].\n  \
         The guard of the variable is lock 0, 63, and thread 255 does not hold it: another thread \
         may access the variable at the same time.\n  \
         To mend it, hold lock 0, 63 at this line; in a block, take it before the commit.\n",
    ),
    (
        "04000000FFFFFFFFFFFFFFFFFFFFFFFF",
        "violation: kind 4, candidate set emptied, by thread 0.\n  \
         The thread is in no block.\n  \
         It goes wrong at line 1 [0].\n  \
         Locks left that may guard the variable: all 64. Thread 0 holds none of them, so no one \
         lock guards every access of the variable.\n  \
         To mend it, hold one lock at every access of the variable.\n",
    ),
    (
        "04FFFF1FFFFEFFFE0000000000000000",
        "violation: kind 4, candidate set emptied, by thread 31.\n  \
         The block begins at line 65535 [65534].\n  \
         It commits at line 65535 [65534].\n  \
         It goes wrong at line 65536 [65535].\n  \
         Locks left that may guard the variable: none. Thread 31 holds none of them, so no one \
         lock guards every access of the variable.\n  \
         To mend it, hold one lock at every access of the variable.\n",
    ),
    (
        "81006400FFFFFFFF0000000000000000",
        "refused: number 1, line 101 [100] of the text is not eight digits 0-9 A-F and one LF; \
         write it so, without blanks, lower case or CR, and end the last line.\n",
    ),
    (
        "82100000FFFFFFFF0000000000000000",
        "refused: number 2, the recording has more than 4096 lines; cut it down to 4096.\n",
    ),
    (
        "83000200FFFFFFFF0000000000000000",
        "refused: number 3, the word buffer has fewer than 2 words; lend one for each line.\n",
    ),
    (
        "84000100FFFFFFFF0000000000000000",
        "refused: number 4, line 2 [1] of the recording has an operation other than 01 to 06; \
         mend its digits 1 and 2.\n",
    ),
    (
        "85000000FFFFFFFF0000000000000000",
        "refused: number 5, line 1 [0] of the recording has a thread above 1F; mend its digits 3 \
         and 4.\n",
    ),
    (
        "86000000FFFFFFFF0000000000000000",
        "refused: number 6, line 1 [0] of the recording has an object out of range; locks go up \
         to 003F, variables up to 03FF, and a begin or an end has 0000.\n",
    ),
    (
        "87000100FFFFFFFF0000000000000000",
        "refused: number 7, line 2 [1] of the recording takes a lock that another thread holds; it \
         has to be released before this line.\n",
    ),
    (
        "88000100FFFFFFFF0000000000000000",
        "refused: number 8, line 2 [1] of the recording lets go a lock that its thread does not \
         hold; acquire it first or drop the line.\n",
    ),
    (
        "89000F00FFFFFFFF0000000000000000",
        "refused: number 9, line 16 [15] of the recording is a begin inside 15 open blocks of its \
         thread; nest at most 15.\n",
    ),
    (
        "8A000000FFFFFFFF0000000000000000",
        "refused: number 10, line 1 [0] of the recording is an end where its thread has no open \
         block; add its begin or drop the line.\n",
    ),
    (
        "8B000100FFFFFFFF0000000000000000",
        "refused: number 11, line 2 [1] of the guard list names a variable above 03FF or a lock \
         above 003F; mend the number.\n",
    ),
    (
        "8C000200FFFFFFFF0000000000000000",
        "refused: number 12, line 3 [2] of the guard list names a variable that an earlier line \
         names; keep one of the two.\n",
    ),
    (
        "8D000400FFFFFFFF0000000000000000",
        "refused: number 13, the recording is not reducible, so there is no serial order; line 5 \
         [4] goes wrong, and explain says why.\n",
    ),
    (
        "8E000000FFFFFFFF0000000000000000",
        "refused: number 14, the block that begins at line 1 [0] of the recording is open at the \
         end; add its end.\n",
    ),
    (
        "8F100000FFFFFFFF0000000000000000",
        "refused: number 15, the output has fewer than 4096 words; lend one for each frame.\n",
    ),
    (
        "90040000FFFFFFFF0000000000000000",
        "refused: number 16, the table of candidate sets has fewer than 1024 entries; lend 1024.\n",
    ),
    (
        "91002100FFFFFFFF0000000000000000",
        "refused: number 17, the line buffer has fewer than 33 bytes; lend 33.\n",
    ),
    ("92000000FFFFFFFF0000000000000000", NO_LINE),
    (
        "93900000FFFFFFFF0000000000000000",
        "refused: number 19, the text has fewer than 36864 bytes from the given place on; lend \
         them.\n",
    ),
    (
        "94000F00FFFFFFFF0000000000000000",
        "refused: number 20, line 16 [15] of the recording takes a lock that its thread holds 15 \
         times already; hold it at most 15 times.\n",
    ),
    (
        "95100000FFFFFFFF0000000000000000",
        "refused: number 21, the list of displacements has fewer than 4096 numbers; lend one for \
         each frame.\n",
    ),
    (
        "96000000FFFFFFFF0000000000000000",
        "refused: number 22, which this check does not give; its place is 0.\n",
    ),
    (
        "FFFFFFFFFFFFFFFFFFFFFFFFFFFFFFFF",
        "refused: number 127, which this check does not give; its place is 65535.\n",
    ),
    ("05000000FFFFFFFF0000000000000000", NO_LINE),
    ("80000000FFFFFFFF0000000000000000", NO_LINE),
];

const NO_LINE: &str = "refused: number 18, this is no verdict line: that has 32 digits 0-9 A-F, \
                       the first two 00 to 04 or 81 to FF, and one LF; hand it on as it was \
                       written.\n";

/// Words that are no verdict line. One of them is the name of a file.
const NO_LINES: [&str; 18] = [
    "",
    " ",
    "0",
    "recording",
    "line",
    "\n",
    "0000000000000000000000000000000",
    "000000000000000000000000000000000",
    "00000000FFFFFFFF0000000000000000\n\n",
    "00000000FFFFFFFF0000000000000000\r\n",
    "\n00000000FFFFFFFF0000000000000000",
    "00000000FFFFFFFF0000000000000000\r",
    "00000000FFFFFFFF000000000000000\n",
    " 0000000FFFFFFFF0000000000000000",
    "00000000ffffffff0000000000000000",
    "00000000FFFFFFFF000000000000000g",
    "8a000000FFFFFFFF0000000000000000",
    "0x000000FFFFFFFF0000000000000000",
];

fn kept_literals(tool: &mut Tool) -> Done {
    write("recording", &text(A))?;
    for (line, printed) in LITERAL_LINES {
        tool.expect_text(&["line", line], printed)?;
        tool.expect_text(&["line", &format!("{line}\n")], printed)?;
    }
    for word in NO_LINES {
        tool.expect_text(&["line", word], NO_LINE)?;
    }
    for long in [64, 4095, 5000, 40_000] {
        tool.expect_text(&["line", &"0".repeat(long)], NO_LINE)?;
    }
    tool.expect_text(&[&b"line"[..], &[0xFF; 32]], NO_LINE)
}

/// The digits of a line as a word, unless a word cannot hold them.
fn kept(tool: &mut Tool, line: &[u8]) -> Done {
    let word = line.strip_suffix(b"\n").unwrap_or(line);
    if word.contains(&0) {
        return Ok(());
    }
    // Some words begin as options do.
    tool.expect(&[b"line", &b"--"[..], word])?;
    tool.expect(&[b"line", word])
}

/// Every kind, and the other fields at their edges.
fn kept_lines(tool: &mut Tool, random: &mut Random) -> Done {
    kept_literals(tool)?;
    for kind in 0..=255 {
        for _ in 0..2 {
            let mut fields = random_fields(random);
            fields.kind = kind;
            kept(tool, fields.line().as_bytes())?;
        }
    }
    for kind in EDGE_KINDS {
        for begin in [0, 0xFFFE, 0xFFFF] {
            for commit in [1, 0xFFFE, 0xFFFF] {
                let fields = Fields {
                    kind,
                    frame: random.pick(&EDGE_PLACES),
                    thread: random.pick(&[0, 1, 31, 32, 255]),
                    begin,
                    commit,
                    locks: random.pick(&EDGE_LOCKS),
                };
                kept(tool, fields.line().as_bytes())?;
            }
        }
    }
    for kind in 0x01..=0x04 {
        for lock in 0..64 {
            let mut fields = random_fields(random);
            (fields.kind, fields.locks) = (kind, 1 << lock);
            kept(tool, fields.line().as_bytes())?;
        }
    }
    for line in near_lines(b"03000401000000030000000000000001\n") {
        kept(tool, &line)?;
    }
    for _ in 0..RANDOM_LINES {
        kept(tool, &random_line(random))?;
    }
    Ok(())
}

fn worked_recordings(tool: &mut Tool) -> Done {
    let fifteen = "05000000 ".repeat(15);
    let sixteen = "05000000 ".repeat(16);
    let recordings = [
        "",
        A,
        C,
        D,
        E,
        F,
        J[0],
        J[1],
        UNITS,
        SHARED,
        &fifteen,
        &sixteen,
        AGAIN,
        AGAIN_UNITS,
        FIFTEEN,
        SIXTEEN,
        "01000003 01000003 02000003 01010003",
        "05000000",
        "0100003F 030003FF",
        "01000040",
        "02000040",
        "03000400",
        "04000400",
        "05000001",
    ];
    let lists = ["", "00050002", "00000000 00010000", "00050002 00050002"].map(text);
    let lists: Vec<&[u8]> = lists.iter().map(|list| &list[..]).collect();
    for left in recordings {
        judge(tool, &text(left), &lists)?;
        for right in [left, C, "", J[1]] {
            compare(tool, &text(left), &text(right))?;
        }
    }
    Ok(())
}

/// Displacements with one digit to four, on both sides of each boundary.
fn furthest_moves(tool: &mut Tool) -> Done {
    for count in [3, 11, 12, 101, 102, 1001, 1002, MOST_FRAMES] {
        for words in furthest(count) {
            judge(tool, &text_of_words(&words), &[b""])?;
        }
    }
    Ok(())
}

/// Two blocks of 2,048 frames each, of which the second commits first. Each displacement has a sign
/// and four digits, so no list of them is longer.
fn longest_answer(tool: &mut Tool) -> Done {
    let inner = |thread, pairs| [word(BEGIN, thread, 0), word(END, thread, 0)].repeat(pairs);
    let committed = [ACQUIRE, RELEASE].map(|operation| word(operation, 1, 0));
    let parts = [
        ([&[word(BEGIN, 0, 0)], &inner(0, 1023)[..]].concat(), 2048),
        ([&[word(BEGIN, 1, 0)], &committed[..]].concat(), -2047),
        (vec![word(END, 0, 0)], 2045),
        ([&inner(1, 1022)[..], &[word(END, 1, 0)]].concat(), -2048),
    ];
    let mut words = Vec::new();
    let mut answer = String::new();
    for (part, by) in &parts {
        words.extend_from_slice(part);
        answer.extend(part.iter().map(|word| format!("{by:+} {word:08X}\n")));
    }
    if answer.len() != 15 * MOST_FRAMES {
        return Err(format!("the longest answer has {} bytes", answer.len()));
    }
    write("recording", &text_of_words(&words))?;
    write("list", b"")?;
    tool.expect_text(&["moves", "recording"], &answer)?;
    tool.expect_text(&["moves", "recording", "--guards", "list"], &answer)?;
    tool.expect(&["draw", "recording"])
}

// Refusals.

/// A text refused by each number.
fn refused_texts() -> Vec<Vec<u8>> {
    let mut texts = vec![b"05000000\n0600000a\n".to_vec()];
    for words in [
        "05000000 00000000",
        "05000000 05200000",
        "05000000 01000040",
        J[0],
        J[1],
        &"051F0000 ".repeat(16),
        "05000000 06000000 06000000",
        SIXTEEN,
    ] {
        texts.push(text(words));
    }
    texts
}

/// The list is checked before the recording, and the left recording whole before the right.
fn refusals(tool: &mut Tool) -> Done {
    let lists = [
        b"00050002\n0006".to_vec(),
        text("00050002 04000000"),
        text("00050002 00050002"),
    ];
    let lists: Vec<&[u8]> = lists.iter().map(|list| &list[..]).collect();
    let good = text("05000000 06000000");
    judge(tool, &good, &lists)?;
    for left in refused_texts() {
        judge(tool, &left, &lists)?;
        compare(tool, &good, &left)?;
        compare(tool, &left, &good)?;
        for right in refused_texts() {
            compare(tool, &left, &right)?;
        }
    }
    Ok(())
}

// Pictures.

/// Thread 0's block ends behind thread 1's acquire, which comes first in the serial order.
const MOVED: &str = "05000000 01010000 06000000";
const MOVED_START: &str = r##"<!-- reducible: no frame goes wrong; frames: 3. -->
<svg xmlns="http://www.w3.org/2000/svg" width="836" height="162" viewBox="0 0 836 162" font-family="sans-serif" font-size="12">
<title>reducible: no frame goes wrong; frames: 3.</title>
"##;
const MOVED_REST: &str = r##"<rect width="836" height="162" fill="#fff"/>
<text class="head" x="8" y="20">reducible: no frame goes wrong; frames: 3.</text>
<text class="key" x="8" y="38">wide bar: atomic block; diamond: its commit; thin bar: lock held; arrow: to its place in the serial order</text>
<text class="line" x="72" y="109" text-anchor="end">1 [0]</text>
<text class="line" x="72" y="127" text-anchor="end">2 [1]</text>
<text class="line" x="72" y="145" text-anchor="end">3 [2]</text>
<text class="head" x="88" y="72">thread 0</text>
<rect class="block t0" x="88" y="98" width="8" height="50"/>
<path class="commit" d="M92 136l5 5l-5 5l-5-5z"/>
<text class="frame" x="104" y="109">begin</text>
<text class="frame" x="104" y="145">end</text>
<text class="head" x="240" y="72">thread 1</text>
<text class="number" x="243" y="88" text-anchor="middle">0</text>
<rect class="k0" x="240" y="123" width="6" height="27"/>
<text class="frame" x="260" y="127">acquire lock 0</text>
<text class="head" x="582" y="72">serial order</text>
<path class="move t0" d="M396 105L556 123" marker-end="url(#to)"/>
<rect class="block t0" x="564" y="116" width="6" height="32"/>
<text class="frame" x="582" y="127">thread 0: begin (+1)</text>
<path class="move t1" d="M396 123L556 105" marker-end="url(#to)"/>
<text class="frame" x="582" y="109">thread 1: acquire lock 0 (-1)</text>
<path class="stay" d="M396 141L556 141"/>
<text class="frame" x="582" y="145">thread 0: end</text>
</svg>
"##;

/// Thread 8 reads without a lock; a frame behind that is not looked at, and its block is open.
const GONE_WRONG: &str = "0109000B 03080005 05080000";
const GONE_WRONG_START: &str = r##"<!-- violation: kind 4, candidate set emptied, by thread 8.
  The thread is in no block.
  It goes wrong at line 2 [1]: read of variable 5.
  Locks left that may guard variable 5: all 64. Thread 8 holds none of them, so no one lock guards every access of the variable.
  To mend it, hold one lock at every access of the variable. -->
<svg xmlns="http://www.w3.org/2000/svg" width="920" height="252" viewBox="0 0 920 252" font-family="sans-serif" font-size="12">
<title>violation: kind 4, candidate set emptied, by thread 8.</title>
"##;
const GONE_WRONG_REST: &str = r##"<rect width="920" height="252" fill="#fff"/>
<text class="wrong" x="8" y="20">violation: kind 4, candidate set emptied, by thread 8.</text>
<text class="why" x="8" y="38">  The thread is in no block.</text>
<text class="why" x="8" y="56">  It goes wrong at line 2 [1]: read of variable 5.</text>
<text class="why" x="8" y="74">  Locks left that may guard variable 5: all 64. Thread 8 holds none of them, so no one lock guards every access of the variable.</text>
<text class="why" x="8" y="92">  To mend it, hold one lock at every access of the variable.</text>
<text class="note" x="8" y="110">No serial order: the recording is not reducible.</text>
<text class="key" x="8" y="128">wide bar: atomic block; dashed bar: open at the end; thin bar: lock held; red box: the violation; grey: behind the violation</text>
<text class="line" x="72" y="199" text-anchor="end">1 [0]</text>
<text class="line" x="72" y="217" text-anchor="end">2 [1]</text>
<text class="line" x="72" y="235" text-anchor="end">3 [2]</text>
<text class="head" x="88" y="162">thread 8</text>
<rect class="block open t0" x="88" y="224" width="8" height="16"/>
<rect class="mark" x="100" y="205" width="136" height="16"/>
<text class="wrong" x="104" y="217">read variable 5</text>
<text class="late" x="104" y="235">begin</text>
<text class="head" x="240" y="162">thread 9</text>
<text class="number" x="243" y="178" text-anchor="middle">11</text>
<rect class="k3" x="240" y="195" width="6" height="45"/>
<text class="frame" x="260" y="199">acquire lock 11</text>
</svg>
"##;

/// Lines 2 to 6 of eight: a lock held and a block open before them, a commit before them, and a
/// violation in them.
const WINDOW: &str = "05000000 01000003 02000003 05010000 04000005 01000004 06010000 05000000";
const WINDOW_START: &str = r##"<!-- violation: kind 4, candidate set emptied, by thread 0.
  The block begins at line 1 [0].
  It commits at line 3 [2]: release of lock 3.
  It goes wrong at line 5 [4]: write of variable 5.
  Locks left that may guard variable 5: all 64. Thread 0 holds none of them, so no one lock guards every access of the variable.
  To mend it, hold one lock at every access of the variable. -->
<svg xmlns="http://www.w3.org/2000/svg" width="1102" height="288" viewBox="0 0 1102 288" font-family="sans-serif" font-size="12">
<title>violation: kind 4, candidate set emptied, by thread 0.</title>
"##;
const WINDOW_REST: &str = r##"<rect width="1102" height="288" fill="#fff"/>
<text class="wrong" x="8" y="20">violation: kind 4, candidate set emptied, by thread 0.</text>
<text class="why" x="8" y="38">  The block begins at line 1 [0].</text>
<text class="why" x="8" y="56">  It commits at line 3 [2]: release of lock 3.</text>
<text class="why" x="8" y="74">  It goes wrong at line 5 [4]: write of variable 5.</text>
<text class="why" x="8" y="92">  Locks left that may guard variable 5: all 64. Thread 0 holds none of them, so no one lock guards every access of the variable.</text>
<text class="why" x="8" y="110">  To mend it, hold one lock at every access of the variable.</text>
<text class="note" x="8" y="128">No serial order: the recording is not reducible.</text>
<text class="note" x="8" y="146">Lines 4 to 6 of 8 are drawn.</text>
<text class="key" x="8" y="164">wide bar: atomic block; dashed bar: open at the end; thin bar: lock held; red box: the violation; dashed line: from its commit; grey: behind the violation</text>
<text class="line" x="72" y="235" text-anchor="end">4 [3]</text>
<text class="line" x="72" y="253" text-anchor="end">5 [4]</text>
<text class="line" x="72" y="271" text-anchor="end">6 [5]</text>
<text class="head" x="88" y="198">thread 0</text>
<text class="number" x="91" y="214" text-anchor="middle">4</text>
<rect class="k4" x="88" y="267" width="6" height="9"/>
<rect class="block open t0" x="104" y="222" width="8" height="54"/>
<rect class="mark" x="116" y="241" width="136" height="16"/>
<path class="join" d="M108 222L116 249"/>
<text class="wrong" x="120" y="253">write variable 5</text>
<text class="late" x="120" y="271">acquire lock 4</text>
<text class="head" x="256" y="198">thread 1</text>
<rect class="block t1" x="256" y="224" width="8" height="52"/>
<text class="frame" x="272" y="235">begin</text>
</svg>
"##;

/// Lines 2 and 3 of four: a block that begins before them, and moves through them.
const CROSSED: &str = "05000000 01010000 02010000 06000000";
const CROSSED_START: &str = r##"<!-- reducible: no frame goes wrong; frames: 4. -->
<svg xmlns="http://www.w3.org/2000/svg" width="768" height="162" viewBox="0 0 768 162" font-family="sans-serif" font-size="12">
<title>reducible: no frame goes wrong; frames: 4.</title>
"##;
const CROSSED_REST: &str = r##"<rect width="768" height="162" fill="#fff"/>
<text class="head" x="8" y="20">reducible: no frame goes wrong; frames: 4.</text>
<text class="note" x="8" y="38">Lines 2 to 3 of 4 are drawn.</text>
<text class="key" x="8" y="56">thin bar: lock held; arrow: to its place in the serial order</text>
<text class="line" x="72" y="127" text-anchor="end">2 [1]</text>
<text class="line" x="72" y="145" text-anchor="end">3 [2]</text>
<text class="head" x="88" y="90">thread 1</text>
<text class="number" x="91" y="106" text-anchor="middle">0</text>
<rect class="k0" x="88" y="123" width="6" height="18"/>
<text class="frame" x="108" y="127">acquire lock 0</text>
<text class="frame" x="108" y="145">release lock 0</text>
<text class="head" x="430" y="90">serial order</text>
<path class="move t0" d="M244 114L404 141" marker-end="url(#to)"/>
<rect class="block t0" x="412" y="134" width="6" height="16"/>
<text class="frame" x="430" y="145">thread 0: begin (+2)</text>
<path class="move t1" d="M244 123L404 114"/>
<path class="move t1" d="M244 141L404 123" marker-end="url(#to)"/>
<text class="frame" x="430" y="127">thread 1: release lock 0 (-1)</text>
</svg>
"##;

/// Pictures, but for the style, which stands on the page as it is printed.
fn pictures(tool: &mut Tool) -> Done {
    let style = section("draw")
        .lines()
        .filter_map(|line| line.strip_prefix("       "));
    let style: String = style.map(|line| format!("{line}\n")).collect();
    for (words, start, rest, window) in [
        (MOVED, MOVED_START, MOVED_REST, &[][..]),
        (GONE_WRONG, GONE_WRONG_START, GONE_WRONG_REST, &[]),
        (
            WINDOW,
            WINDOW_START,
            WINDOW_REST,
            &["--from", "4", "--to", "6"],
        ),
        (
            CROSSED,
            CROSSED_START,
            CROSSED_REST,
            &["--to", "3", "--from", "2"],
        ),
    ] {
        write("recording", &text(words))?;
        let printed = [start, &style, rest].concat();
        tool.expect_text(&[&["draw", "recording"], window].concat(), &printed)?;
    }
    Ok(())
}

/// The recordings in examples/, with and without their guards.
fn examples(tool: &mut Tool) -> Done {
    let folder = concat!(env!("CARGO_MANIFEST_DIR"), "/../../examples");
    let mut files = 0;
    for entry in context(fs::read_dir(folder), "listing the examples")? {
        let path = context(entry, "listing the examples")?.path();
        if path.extension() != Some(OsStr::new("txt")) {
            continue;
        }
        files += 1;
        write(
            "recording",
            &context(fs::read(&path), "reading an example")?,
        )?;
        tool.expect(&["draw", "recording"])?;
        if let Ok(list) = fs::read(path.with_extension("guards")) {
            write("list", &list)?;
            tool.expect(&["draw", "recording", "--guards", "list"])?;
        }
    }
    match files {
        0 => Err("no example found".into()),
        _ => Ok(()),
    }
}

/// Most threads, locks, blocks, holds and frames.
fn greatest_pictures(tool: &mut Tool, random: &mut Random) -> Done {
    let begins = all_deep(random, BEGIN);
    let ends = all_deep(random, END);
    let deep = [&begins[..], &ends].concat();
    let locks = all_locks(random, 31);
    let freed: Vec<u32> = locks
        .iter()
        .map(|lock| lock + ((RELEASE - ACQUIRE) << 24))
        .collect();
    let held = [&locks[..], &freed].concat();
    let nested = [&pairs(1)[..], &deep[..480], &locks].concat();
    let mut again = [word(ACQUIRE, 0, 63)].repeat(15);
    again.extend([word(RELEASE, 0, 63)].repeat(15));
    let again = again.repeat(3);
    for words in [begins, deep, locks.clone(), held, nested, again] {
        judge(tool, &text_of_words(&words), &[b""])?;
    }
    for (blocks, steps) in [(4, 32), (1, 128), (16, 8)] {
        let made = alternation(random, blocks, steps);
        let list = exact_list(random, &made.guards);
        judge(tool, &text_of_words(&made.words), &[&list, b""])?;
    }
    Ok(())
}

fn random_pictures(tool: &mut Tool, random: &mut Random) -> Done {
    for number in 0..RANDOM_PICTURES {
        let made = match number % 3 {
            0 => lock_walk(random),
            1 => hold_walk(random),
            _ => {
                let words = nesting_walk(random);
                trace_tests::random::Recording {
                    words,
                    guards: Vec::new(),
                }
            }
        };
        write("recording", &text_of_words(&made.words))?;
        write("list", &exact_list(random, &made.guards))?;
        tool.expect(&["draw", "recording"])?;
        tool.expect(&["draw", "recording", "--guards", "list"])?;
    }
    Ok(())
}

// Lines that are not eight digits and an LF.

fn refused_by_byte(place: usize, file: &str, fault: &str) -> String {
    let line = place + 1;
    format!(
        "refused: number 1, line {line} [{place}] of {file} is not eight digits 0-9 A-F and one \
         LF: {fault}\n"
    )
}

const MARK: &str = "a byte-order mark; save the file without it.";
const NO_LF: &str = "so the last line has no LF; add it.";
const ENDED: &str = "so there are too few digits and no LF; write eight and an LF.";
const BLANK_LINE: &str = "an LF, so the line is blank; drop it.";
const FEW: &str = "an LF, so there are too few digits; write eight.";
const CR: &str = "a CR; end each line with LF alone.";
const BLANK: &str = "a blank or a tab; write none.";
const MANY: &str = "a digit too many; write eight.";
const NOT_LF: &str = "not the LF; end the line behind eight digits.";
const LOWER: &str = "a lower-case letter; write A-F.";
const NO_DIGIT: &str = "not a digit; write 0-9 A-F.";

/// The rest of a text, from the start of a faulty line on: its column, its byte and WHAT.
const FAULTS: [(&[u8], usize, u8, &str); 84] = [
    (b"\n", 1, 0x0A, BLANK_LINE),
    (b"\n\n", 1, 0x0A, BLANK_LINE),
    (b"\n05000000\n", 1, 0x0A, BLANK_LINE),
    (b"\r", 1, 0x0D, CR),
    (b"\r\n", 1, 0x0D, CR),
    (b" ", 1, 0x20, BLANK),
    (b" 05000000\n", 1, 0x20, BLANK),
    (b"\t05000000\n", 1, 0x09, BLANK),
    (b"a5000000\n", 1, 0x61, LOWER),
    (b"f", 1, 0x66, LOWER),
    (b"`5000000\n", 1, 0x60, NO_DIGIT),
    (b"g5000000\n", 1, 0x67, NO_DIGIT),
    (b"G5000000\n", 1, 0x47, NO_DIGIT),
    (b"@5000000\n", 1, 0x40, NO_DIGIT),
    (b"/5000000\n", 1, 0x2F, NO_DIGIT),
    (b":5000000\n", 1, 0x3A, NO_DIGIT),
    (b"#5000000\n", 1, 0x23, NO_DIGIT),
    (b"\x0B5000000\n", 1, 0x0B, NO_DIGIT),
    (b"\x7F5000000\n", 1, 0x7F, NO_DIGIT),
    (b"\x805000000\n", 1, 0x80, NO_DIGIT),
    (b"\0", 1, 0x00, NO_DIGIT),
    (&[0; 40], 1, 0x00, NO_DIGIT),
    (&[0xFF; 40], 1, 0xFF, NO_DIGIT),
    // The starts of byte-order marks, and digits of full width.
    (b"\xEF", 1, 0xEF, NO_DIGIT),
    (b"\xEF\xBB", 1, 0xEF, NO_DIGIT),
    (b"\xEF\xBB05000000\n", 1, 0xEF, NO_DIGIT),
    (b"\xEF\xBF\xBB05000000\n", 1, 0xEF, NO_DIGIT),
    (b"\xEF\xBC\x91\xEF\xBC\x91\n", 1, 0xEF, NO_DIGIT),
    (b"\xFF", 1, 0xFF, NO_DIGIT),
    (b"\xFF\xFF\xFE", 1, 0xFF, NO_DIGIT),
    (b"\xFE", 1, 0xFE, NO_DIGIT),
    (b"\xFE\xFE\xFF", 1, 0xFE, NO_DIGIT),
    (b"\xBB\xBF05000000\n", 1, 0xBB, NO_DIGIT),
    // UTF-16 without a mark.
    (b"\x000\x005\x000\x000", 1, 0x00, NO_DIGIT),
    (b"0\x005\x000\x000\x00", 2, 0x00, NO_DIGIT),
    (b"0\n", 2, 0x0A, FEW),
    (b"5\n5000000\n", 2, 0x0A, FEW),
    (b"0\r\n", 2, 0x0D, CR),
    (b"0 000000\n", 2, 0x20, BLANK),
    (b"0\t000000\n", 2, 0x09, BLANK),
    (b"0a000000\n", 2, 0x61, LOWER),
    (b"0f000000\n", 2, 0x66, LOWER),
    (b"0x05000000\n", 2, 0x78, NO_DIGIT),
    (b"0g000000\n", 2, 0x67, NO_DIGIT),
    (b"0\xEF\xBB\xBF0000\n", 2, 0xEF, NO_DIGIT),
    (b"0\xFF000000\n", 2, 0xFF, NO_DIGIT),
    (b"05,000000\n", 3, 0x2C, NO_DIGIT),
    (b"050 0000\n", 4, 0x20, BLANK),
    (b"0500\n0000\n", 5, 0x0A, FEW),
    (b"05000\r\n", 6, 0x0D, CR),
    (b"050000b0\n", 7, 0x62, LOWER),
    (b"0500000\n", 8, 0x0A, FEW),
    (b"0500000\n0\n", 8, 0x0A, FEW),
    (b"0500000\r\n", 8, 0x0D, CR),
    (b"0500000 \n", 8, 0x20, BLANK),
    (b"0500000\t\n", 8, 0x09, BLANK),
    (b"0500000a\n", 8, 0x61, LOWER),
    (b"0500000f\n", 8, 0x66, LOWER),
    (b"0500000g\n", 8, 0x67, NO_DIGIT),
    (b"0500000G\n", 8, 0x47, NO_DIGIT),
    (b"0500000\0\n", 8, 0x00, NO_DIGIT),
    (b"0500000\xFF\n", 8, 0xFF, NO_DIGIT),
    (b"05000000\r", 9, 0x0D, CR),
    (b"05000000\r\n", 9, 0x0D, CR),
    (b"05000000\r\n06000000\r\n", 9, 0x0D, CR),
    (b"05000000 \n", 9, 0x20, BLANK),
    (b"05000000\t\n", 9, 0x09, BLANK),
    (b"05000000 begin\n", 9, 0x20, BLANK),
    (b"050000000", 9, 0x30, MANY),
    (b"050000009\n", 9, 0x39, MANY),
    (b"05000000A\n", 9, 0x41, MANY),
    (b"05000000F\n", 9, 0x46, MANY),
    (b"05000000a\n", 9, 0x61, MANY),
    (b"05000000f\n", 9, 0x66, MANY),
    (b"05000000`\n", 9, 0x60, NOT_LF),
    (b"05000000g\n", 9, 0x67, NOT_LF),
    (b"05000000G\n", 9, 0x47, NOT_LF),
    (b"05000000@\n", 9, 0x40, NOT_LF),
    (b"05000000/\n", 9, 0x2F, NOT_LF),
    (b"05000000:\n", 9, 0x3A, NOT_LF),
    (b"05000000;\n", 9, 0x3B, NOT_LF),
    (b"05000000\0", 9, 0x00, NOT_LF),
    (b"05000000\xEF\xBB\xBF\n", 9, 0xEF, NOT_LF),
    (b"05000000\xFF\n", 9, 0xFF, NOT_LF),
];

/// Texts with a byte-order mark at the start, which is no mark on a later line.
const MARKED: [(&[u8], u8); 11] = [
    (b"\xEF\xBB\xBF", 0xEF),
    (b"\xEF\xBB\xBF\n", 0xEF),
    (b"\xEF\xBB\xBF05000000\n06000000\n", 0xEF),
    (b"\xEF\xBB\xBF05000000\r\n06000000\r\n", 0xEF),
    (b"\xFF\xFE\n", 0xFF),
    (b"\xFF\xFE\xFF", 0xFF),
    (
        b"\xFF\xFE0\x005\x000\x000\x000\x000\x000\x000\x00\n\x00",
        0xFF,
    ),
    (b"\xFF\xFE05000000\n", 0xFF),
    (b"\xFE\xFF\0", 0xFE),
    (
        b"\xFE\xFF\x000\x005\x000\x000\x000\x000\x000\x000\x00\n",
        0xFE,
    ),
    (b"\xFE\xFF05000000\n", 0xFE),
];

/// Texts of two bytes that would be a mark with a third.
const UNMARKED: [(&[u8], u8); 2] = [(b"\xFF\xFE", 0xFF), (b"\xFE\xFF", 0xFE)];

/// Lines that are sound as frames and as guard lines.
const SOUND_LINES: &[u8] = b"01000000\n02000000\n";

/// A text that is refused by 1 at a place, as a recording, as a list, as the left and as the right
/// recording.
fn faulty(tool: &mut Tool, text: &[u8], place: usize, fault: &str) -> Done {
    write("faulty", text)?;
    write("good", SOUND_LINES)?;
    // Each fault with all commands would be many runs.
    let turn = text.len() + place;
    let [of_recording, of_list] = [turn, turn / 4].map(|turn| TELLING[turn % 4]);
    let printed = |command, source| {
        let text = refused_by_byte(place, source, fault);
        told(command, "faulty", place, &text)
    };
    tool.expect_text(&[of_recording, "faulty"], &printed(of_recording, RECORDING))?;
    tool.expect_text(
        &[of_list, "good", "--guards", "faulty"],
        &printed(of_list, GUARD_LIST),
    )?;
    tool.expect_text(&["equal", "faulty", "good"], &printed("equal", LEFT))?;
    tool.expect_text(&["equal", "good", "faulty"], &printed("equal", RIGHT))
}

fn faults(tool: &mut Tool) -> Done {
    // On the first line and on a later one.
    let lines = |count: usize| &SOUND_LINES[..9 * count];
    for (rest, column, byte, what) in FAULTS {
        let fault = format!("column {column} has byte {byte:02X}, {what}");
        for place in [0, 2] {
            faulty(tool, &[lines(place), rest].concat(), place, &fault)?;
        }
    }
    for (rest, byte) in MARKED {
        let fault = format!("column 1 has byte {byte:02X}, {MARK}");
        faulty(tool, rest, 0, &fault)?;
        let fault = format!("column 1 has byte {byte:02X}, {NO_DIGIT}");
        faulty(tool, &[lines(1), rest].concat(), 1, &fault)?;
    }
    for (rest, byte) in UNMARKED {
        let fault = format!("column 1 has byte {byte:02X}, {NO_DIGIT}");
        faulty(tool, rest, 0, &fault)?;
        faulty(tool, &[lines(1), rest].concat(), 1, &fault)?;
    }
    for column in 2..=9 {
        let what = if column == 9 { NO_LF } else { ENDED };
        let fault = format!("column {column} is behind the end of the file, {what}");
        for place in [0, 1, 2] {
            let rest = &b"05000000"[..column - 1];
            faulty(tool, &[lines(place), rest].concat(), place, &fault)?;
        }
    }
    // The list is told before the recording, and the left recording before the right.
    write("faulty", b"\n")?;
    write("list", b"0")?;
    let printed = refused_by_byte(
        0,
        GUARD_LIST,
        &format!("column 2 is behind the end of the file, {ENDED}"),
    );
    for command in TELLING {
        let printed = told(command, "list", 0, &printed);
        tool.expect_text(&[command, "faulty", "--guards", "list"], &printed)?;
    }
    let printed = refused_by_byte(0, LEFT, &format!("column 1 has byte 0A, {BLANK_LINE}"));
    tool.expect_text(
        &["equal", "faulty", "list"],
        &told("equal", "faulty", 0, &printed),
    )
}

/// Recordings and lists with a byte changed, put in or taken away, or with the end cut off.
fn random_faults(tool: &mut Tool, random: &mut Random) -> Done {
    const BYTES: &[u8] = b"09AFafgG@/:` \t\r\n\0\x7F\x80\xEF\xBB\xBF\xFE\xFF";
    for _ in 0..RANDOM_FAULTS {
        let count = random.between(1, 20);
        let words = match random.chance(500) {
            true => interleaved(random, count, true).words,
            false => guard_lines(random, count),
        };
        let mut text = [SOUND_LINES, &text_of_words(&words)].concat();
        let byte = match random.chance(700) {
            true => random.pick(BYTES),
            false => random.draw() as u8,
        };
        // Every column is as likely, and the first lines more than others.
        let lines = text.len() / 9;
        let most = random.pick(&[1, 3, MOST_FRAMES]);
        let line = random.below(lines.min(most));
        let place = 9 * line + random.below(9);
        match random.below(5) {
            0 => text.insert(place, byte),
            1 => drop(text.remove(place)),
            2 => text.truncate(place),
            _ => text[place] = byte,
        }
        write("recording", &text)?;
        write("good", SOUND_LINES)?;
        let command = random.pick(&TELLING);
        match random.below(4) {
            0 => tool.expect(&[command, "recording"])?,
            1 => tool.expect(&[command, "good", "--guards", "recording"])?,
            2 => tool.expect(&["equal", "recording", "good"])?,
            _ => tool.expect(&["equal", "good", "recording"])?,
        }
    }
    Ok(())
}

// Random recordings.

fn random_recordings(tool: &mut Tool, random: &mut Random) -> Done {
    for _ in 0..RANDOM_RECORDINGS {
        let made = match random.below(3) {
            0 => interleaved(random, 6, true),
            1 => random_recording(random, Call::Check, false),
            _ => random_recording(random, Call::Declared, false),
        };
        let mut recording = text_of_words(&made.words);
        match random.below(20) {
            0 => recording = (0..random.below(40)).map(|_| random.draw() as u8).collect(),
            1..3 => damage_text(random, &mut recording),
            _ => {}
        }
        let list = match random.below(3) {
            0 => random_list(random, &made.guards),
            _ => exact_list(random, &made.guards),
        };
        judge(tool, &recording, &[&list, b""])?;
    }
    Ok(())
}

fn random_pairs(tool: &mut Tool, random: &mut Random) -> Done {
    for _ in 0..RANDOM_PAIRS {
        let case = random_case(random, Call::Equal, false);
        let mut texts = [text_of_words(&case.frames), text_of_words(&case.right)];
        for text in &mut texts {
            if random.chance(50) {
                damage_text(random, text);
            }
        }
        compare(tool, &texts[0], &texts[1])?;
    }
    Ok(())
}

/// Some 4,096 lines, damaged or not.
fn random_long(tool: &mut Tool, random: &mut Random) -> Done {
    for _ in 0..RANDOM_LONG {
        let mut made = text_of_words(&pairs(MOST_FRAMES - 2 + random.below(6)));
        if random.chance(700) {
            damage_text(random, &mut made);
        }
        write("recording", &made)?;
        in_each_place(tool, "recording")?;
    }
    Ok(())
}

// Files and their names.

/// A file as a recording, as a list, as the left and as the right recording; the others are good.
fn in_each_place<N: AsRef<[u8]>>(tool: &mut Tool, name: N) -> Done {
    let name = name.as_ref();
    write("good", &text(A))?;
    write("list", &text("00000000 00010000"))?;
    for command in JUDGING {
        tool.expect(&[command.as_bytes(), name])?;
        tool.expect(&[command.as_bytes(), name, b"--guards", b"list"])?;
        tool.expect(&[command.as_bytes(), b"good", b"--guards", name])?;
    }
    for (left, right) in [(name, &b"good"[..]), (b"good", name), (name, name)] {
        tool.expect(&[b"equal", left, right])?;
    }
    Ok(())
}

/// Files as long as can be.
fn lengths(tool: &mut Tool) -> Done {
    for content in [
        text_of_words(&pairs(MOST_FRAMES)),
        text_of_words(&guard_lines(&mut Random::new(0), VARIABLES)),
        vec![b'\n'; MOST_BYTES],
        vec![b'0'; MOST_BYTES],
    ] {
        write("recording", &content)?;
        in_each_place(tool, "recording")?;
    }
    Ok(())
}

/// Some ten million bytes.
const MANY_LINES: usize = 1_100_000;

/// A long text with one byte of a line changed.
fn long_with(place: usize, byte: u8) -> Vec<u8> {
    let mut content = text_of_words(&pairs(5000));
    content[9 * place + 7] = byte;
    content
}

/// Files with more than 4,096 lines, or with lines that are too long.
fn long_texts() -> Vec<Vec<u8>> {
    let most = text_of_words(&pairs(MOST_FRAMES));
    let after = |rest: &[u8]| [&most, rest].concat();
    let mut texts = vec![
        text_of_words(&pairs(MOST_FRAMES + 1)),
        text_of_words(&[0xFFFF_FFFF; MOST_FRAMES + 1]),
        after(b"05000000"),
        // The last of 4,096 lines has a digit too many, or no LF.
        [&most[..MOST_BYTES - 1], b"0\n"].concat(),
        [&most[..MOST_BYTES - 1], b"00"].concat(),
        vec![b'\n'; MOST_BYTES + 1],
        vec![b'0'; MOST_BYTES + 1],
        text_of_words(&pairs(MANY_LINES)),
        vec![b'0'; 9 * MANY_LINES],
    ];
    texts.extend(b"0x\n\r \0\xFF".iter().map(|&byte| after(&[byte])));
    for place in [0, 1, 100, MOST_FRAMES - 1, MOST_FRAMES, MOST_FRAMES + 1] {
        texts.push(long_with(place, b'a'));
        texts.push(long_with(place, b'1'));
    }
    texts
}

/// Lists that name every variable, and a line more or many.
fn long_lists() -> Vec<Vec<u8>> {
    let names = text_of_words(&guard_lines(&mut Random::new(0), VARIABLES));
    let more = |rest: &[u8]| [&names, rest].concat();
    vec![
        more(&names[..9]),
        more(&text("04000000")),
        more(&text("00000040")),
        more(b"0000000a\n"),
        more(b"00000000"),
        more(b"\n"),
        names.repeat(5),
        names.repeat(MANY_LINES / VARIABLES),
        [&names[..900], &text("04000000")[..], &names.repeat(5)].concat(),
        [&names[..900], &names[..9], &names.repeat(5)].concat(),
        [&names[..900], b"x\n", &names.repeat(5)].concat(),
    ]
}

const TOO_LONG: &str = "82100000FFFFFFFF0000000000000000\n";

/// A file that is too long, and a line that decides earlier.
fn long_literals(tool: &mut Tool) -> Done {
    let too_long = |file| {
        format!("refused: number 2, {file} has more than 4096 lines; cut it down to 4096.\n")
    };
    write("long", &text_of_words(&pairs(MOST_FRAMES + 1)))?;
    write("good", &text(A))?;
    write("list", &text("00000000"))?;
    for guards in [&[][..], &["--guards", "list"]] {
        let words = |command| [&[command, "long"], guards].concat();
        tool.expect_text(&words("verdict"), TOO_LONG)?;
        for command in TELLING {
            let printed = told(command, "long", MOST_FRAMES, &too_long(RECORDING));
            tool.expect_text(&words(command), &printed)?;
        }
    }
    let of_equal = |source| told("equal", "long", MOST_FRAMES, &too_long(source));
    tool.expect_text(&["equal", "long", "good"], &of_equal(LEFT))?;
    tool.expect_text(&["equal", "good", "long"], &of_equal(RIGHT))?;
    tool.expect_text(&["equal", "long", "long"], &of_equal(LEFT))?;
    // A list is never too long.
    let named =
        "refused: number 12, line 3 [2] of the guard list names a variable that an earlier \
                 line names; keep one of the two.\n";
    tool.expect_text(
        &["verdict", "long", "--guards", "long"],
        "8B000000FFFFFFFF0000000000000000\n",
    )?;
    write("list", &text(&"00000000 00010000 ".repeat(5000)))?;
    tool.expect_text(&["explain", "long", "--guards", "list"], named)?;
    // A faulty line decides before the length, and the left recording before the right.
    let faulty = |file| {
        refused_by_byte(
            100,
            file,
            "column 8 has byte 61, a lower-case letter; write A-F.",
        )
    };
    write("faulty", &long_with(100, b'a'))?;
    tool.expect_text(&["verdict", "faulty"], "81006400FFFFFFFF0000000000000000\n")?;
    tool.expect_text(&["explain", "faulty"], &faulty(RECORDING))?;
    let printed = told("equal", "faulty", 100, &faulty(LEFT));
    tool.expect_text(&["equal", "faulty", "long"], &printed)?;
    tool.expect_text(&["equal", "long", "faulty"], &of_equal(LEFT))?;
    // A file without an end is read no further.
    let zero = "column 1 has byte 00, not a digit; write 0-9 A-F.";
    let zero = refused_by_byte(0, RECORDING, zero);
    let answer = literal("explain", &zero);
    tool.expect_answer(&["explain", "/dev/zero"], &Input::Nothing, &answer)?;
    for name in ["long", "faulty"] {
        context(fs::remove_file(name), "removing a file")?;
    }
    Ok(())
}

/// Files longer than any recording.
fn long(tool: &mut Tool) -> Done {
    for content in long_texts().iter().chain(&long_lists()) {
        write("recording", content)?;
        in_each_place(tool, "recording")?;
    }
    for left in refused_texts() {
        compare(tool, &left, &text_of_words(&pairs(MOST_FRAMES + 1)))?;
        compare(tool, &text_of_words(&pairs(MOST_FRAMES + 1)), &left)?;
    }
    long_literals(tool)
}

/// Names that a shell would change, that are no UTF-8, and that are as long as can be.
fn names(tool: &mut Tool) -> Done {
    let long = format!("{}recording", "./".repeat(2043));
    assert_eq!(long.len(), 4095);
    write("recording", &text(A))?;
    tool.expect_text(&["verdict", &long], "03000401000000030000000000000001\n")?;
    in_each_place(tool, &long)?;
    for name in [
        &b"a recording"[..],
        b" ",
        b"-",
        b"--guard",
        b"*",
        b"$HOME",
        b"'\"",
        b"\xFF",
        b"\xFF\xFE:1: \x80",
        b"--",
        b"--help",
        b"-h",
        b"--guards",
        b"--guards=list",
        b"a=b",
    ] {
        write(name, &text(A))?;
        in_each_place(tool, name)?;
        tool.expect(&[&b"verdict"[..], b"--", name])?;
        tool.expect(&[&b"explain"[..], b"good", b"--", name])?;
        tool.expect(&[&b"draw"[..], b"--guards", b"list", b"--", name])?;
        tool.expect(&[&b"equal"[..], b"--", name, b"good"])?;
        context(fs::remove_file(OsStr::from_bytes(name)), "removing a file")?;
    }
    Ok(())
}

/// A name that cannot be read, and why.
fn cannot_read(tool: &mut Tool, name: &str, why: &str) -> Done {
    let printed = format!("error: cannot read {name}: {why}\n");
    for words in [
        &["verdict", name][..],
        &["draw", name],
        &["explain", "good", "--guards", name],
        &["draw", "good", "--guards", name],
        &["equal", name, "good"],
        &["equal", "good", name],
    ] {
        tool.expect_text(words, &printed)?;
    }
    Ok(())
}

fn unreadable(tool: &mut Tool) -> Done {
    const MISSING: &str = "no such file";
    const FOLDER: &str = "it is a directory";
    const TOO_LONG: &str = "the name is too long";
    context(fs::create_dir("folder"), "creating a folder")?;
    context(symlink("loop", "loop"), "linking")?;
    context(symlink("missing", "astray"), "linking")?;
    context(symlink("folder", "link"), "linking")?;
    write("recording", &text(A))?;
    write("good", &text(A))?;
    let long = ["m".repeat(255), "/m".repeat(1920)].concat();
    assert_eq!(long.len(), 4095);
    let longer = format!("{}/recording", "./".repeat(2043));
    assert_eq!(longer.len(), 4096);
    for (name, why) in [
        ("missing", MISSING),
        ("missing/", MISSING),
        ("missing/recording", MISSING),
        ("recording/", MISSING),
        ("recording/recording", MISSING),
        ("folder/missing", MISSING),
        ("astray", MISSING),
        (&"m".repeat(255), MISSING),
        (&long, MISSING),
        (&format!("missing/{}", "m".repeat(256)), MISSING),
        ("folder", FOLDER),
        ("folder/", FOLDER),
        ("link", FOLDER),
        (".", FOLDER),
        ("/", FOLDER),
        (&"m".repeat(256), TOO_LONG),
        (&format!("folder/{}", "m".repeat(256)), TOO_LONG),
        (&longer, TOO_LONG),
        (&"m".repeat(4096), TOO_LONG),
        (&"m".repeat(5000), TOO_LONG),
        (&"./".repeat(20_000), TOO_LONG),
        ("loop", "error number 40 of the system"),
        ("loop/recording", "error number 40 of the system"),
    ] {
        cannot_read(tool, name, why)?;
    }
    for name in ["missing", "folder", "loop"] {
        in_each_place(tool, name)?;
    }
    for link in ["loop", "astray", "link"] {
        context(fs::remove_file(link), "removing a link")?;
    }
    no_permission(tool)
}

/// A process with all rights may read a file without permission, but not one that the system's own
/// file system says may only be written.
fn no_permission(tool: &mut Tool) -> Done {
    const WHY: &str = "no permission";
    const NO_PERMISSION: i32 = 13;
    write("closed", &text(A))?;
    context(
        fs::set_permissions("closed", Permissions::from_mode(0o000)),
        "closing a file",
    )?;
    let names = [
        "closed",
        "/proc/sys/vm/compact_memory",
        "/proc/sys/vm/drop_caches",
    ];
    let refuses = |name: &&str| read(name.as_bytes()) == Err(NO_PERMISSION);
    match names.into_iter().find(refuses) {
        Some(name) => cannot_read(tool, name, WHY)?,
        None => {
            println!("skipped: a file without permission, which this process may read");
            tool.exempt = Some(format!("error: cannot read NAME: {WHY}"));
        }
    }
    // A file that may only be read.
    context(
        fs::set_permissions("closed", Permissions::from_mode(0o444)),
        "opening a file",
    )?;
    in_each_place(tool, "closed")
}

/// Two faults: all files are read before any is checked, in the order of the words.
fn two_faults(tool: &mut Tool) -> Done {
    write("refused", &text(J[0]))?;
    write("list", b"x")?;
    let error = |name: &str| format!("error: cannot read {name}: no such file\n");
    let empty = "error: a file name is empty\n";
    tool.expect_text(&["equal", "missing", "absent"], &error("missing"))?;
    tool.expect_text(&["equal", "refused", "absent"], &error("absent"))?;
    tool.expect_text(&["equal", "absent", "refused"], &error("absent"))?;
    tool.expect_text(&["equal", "missing", ""], empty)?;
    tool.expect_text(&["equal", "", "missing"], empty)?;
    for command in JUDGING {
        for (recording, list, first, second) in [
            (
                "missing",
                "absent",
                &error("missing")[..],
                &error("absent")[..],
            ),
            ("absent", "list", &error("absent"), &error("absent")),
            ("refused", "absent", &error("absent"), &error("absent")),
            ("missing", "", empty, empty),
            ("", "missing", empty, empty),
            ("", "", empty, empty),
            ("refused", "", empty, empty),
        ] {
            tool.expect_text(&[command, recording, "--guards", list], first)?;
            tool.expect_text(&[command, "--guards", list, recording], second)?;
            tool.expect_text(&[command, &format!("--guards={list}"), recording], second)?;
        }
    }
    Ok(())
}

// Bad use.

/// Words that are no command, and the command that is near.
const NO_COMMANDS: [(&str, &str); 62] = [
    ("judge", ""),
    ("", ""),
    (" ", ""),
    ("Verdict", "verdict"),
    ("verdicts", "verdict"),
    ("verdic", "verdict"),
    ("verdi", "verdict"),
    ("verd", ""),
    ("erdic", "verdict"),
    ("equal ", "equal"),
    ("equals", "equal"),
    ("qual", "equal"),
    ("serail", "serial"),
    ("series", "serial"),
    ("Line", "line"),
    ("lines", "line"),
    ("lin", "line"),
    ("lne", "line"),
    ("li", ""),
    ("l", ""),
    ("Moves", "moves"),
    ("move", "moves"),
    ("mvoes", "moves"),
    ("Draw", "draw"),
    ("draws", "draw"),
    ("dra", "draw"),
    ("deal", "draw"),
    ("drawing", ""),
    ("explian", "explain"),
    ("expl", ""),
    ("explains", "explain"),
    ("Help", "help"),
    ("helps", "help"),
    ("hel", "help"),
    ("he", ""),
    ("hlep", "help"),
    ("help ", "help"),
    (" help", "help"),
    ("-help", "help"),
    ("heal", "help"),
    // As near to line as to help.
    ("hene", "line"),
    ("h\u{e9}lp", "help"),
    ("--hel", ""),
    ("--helps", ""),
    ("--Help", ""),
    ("h", ""),
    ("-H", ""),
    ("-hh", ""),
    ("--h", ""),
    ("version", ""),
    ("-version", ""),
    ("--Version", ""),
    ("--versio", ""),
    ("--versions", ""),
    ("-v", ""),
    ("-VV", ""),
    ("-", ""),
    ("--", ""),
    ("--guards", ""),
    ("--guards=list", ""),
    ("-x", ""),
    ("recording", ""),
];

fn no_such_command(tool: &mut Tool) -> Done {
    for (name, near) in NO_COMMANDS {
        let near = match near {
            "" => String::new(),
            _ => format!("; did you mean {near}?"),
        };
        let printed = format!(
            "error: no such command: {name}{near}\n\
             commands: verdict, serial, moves, draw, equal, explain, line, help\n"
        );
        tool.expect_text(&[name], &printed)?;
        tool.expect_text(&[name, "recording"], &printed)?;
        tool.expect_text(&[name, "recording", "--guards", "list"], &printed)?;
        tool.expect_text(&[name, "--help"], &printed)?;
    }
    tool.expect(&["m".repeat(5000)])?;
    tool.expect(&[b"\xFF\xFE"])?;
    tool.expect(&[b"l\xFFine"])
}

/// Words behind a command on one recording that are none of its uses.
const MISUSED: [&str; 9] = [
    "",
    "recording --guards",
    "--guards",
    "--guards list",
    "--guards=list",
    "recording list --guards",
    "recording --guards list --guards list",
    "recording --guards=list --guards=list",
    "--guards list recording --guards",
];
/// Those of a command that takes one recording alone.
const TOO_MANY: [&str; 6] = [
    "recording list",
    "recording recording list",
    "recording --guards list list",
    "recording -- list",
    "recording -- --help",
    "- -",
];
/// Words behind a command, and the first of them that is no option.
const NO_OPTIONS: [(&str, &str); 18] = [
    ("recording --guard list", "--guard"),
    ("recording -guards list", "-guards"),
    ("recording --Guards list", "--Guards"),
    ("recording --guardss list", "--guardss"),
    ("recording --guard=list", "--guard=list"),
    ("recording -g list", "-g"),
    ("recording -x", "-x"),
    ("-x recording", "-x"),
    ("--version", "--version"),
    ("recording -V", "-V"),
    ("recording --helps", "--helps"),
    ("recording -hh", "-hh"),
    ("recording --help=all", "--help=all"),
    ("recording ---", "---"),
    ("missing --guard missing", "--guard"),
    ("--x --y", "--x"),
    ("--x --guards", "--x"),
    ("recording list more - - -x", "-x"),
];

fn words_behind<'a>(command: &'a str, words: &'a str) -> Vec<&'a str> {
    let words = words.split_whitespace();
    [command].into_iter().chain(words).collect()
}

/// The use of a command, by the page's first lines.
fn use_of(command: &str) -> String {
    let start = format!("tracetool {command} ");
    let found = uses().into_iter().find(|line| line.starts_with(&start));
    let (used, _) = found.expect("a use").split_once("   ").expect("a meaning");
    format!("error: use: {}\n", used.trim_end())
}

fn wrong_use(tool: &mut Tool) -> Done {
    for command in JUDGING {
        let misused = use_of(command);
        for words in MISUSED {
            tool.expect_text(&words_behind(command, words), &misused)?;
        }
        let several = matches!(command, "verdict" | "explain");
        if !several {
            for words in TOO_MANY {
                tool.expect_text(&words_behind(command, words), &misused)?;
            }
            tool.expect_text(&[command, "recording", "", "list"], &misused)?;
        }
        for option in ["--from", "--to"] {
            let printed = match command {
                "draw" => misused.clone(),
                _ => format!("error: no such option: {option}\n"),
            };
            tool.expect_text(&[command, "recording", option], &printed)?;
            tool.expect(&[command, "recording", option, "1"])?;
            tool.expect(&[command, option, "1", "recording"])?;
            tool.expect(&[command, "recording", &format!("{option}=1")])?;
            let twice = [command, option, "1", "recording", option, "1"];
            tool.expect_text(&twice, &printed)?;
        }
    }
    for command in [
        "verdict", "serial", "moves", "draw", "explain", "equal", "line",
    ] {
        for (words, name) in NO_OPTIONS {
            let printed = format!("error: no such option: {name}\n");
            tool.expect_text(&words_behind(command, words), &printed)?;
        }
    }
    let of_equal = use_of("equal");
    for words in [
        "",
        "recording",
        "recording recording recording",
        "-- recording",
        "-",
    ] {
        tool.expect_text(&words_behind("equal", words), &of_equal)?;
    }
    let (of_line, line) = (use_of("line"), LITERAL_LINES[5].0);
    for words in [
        &["line"][..],
        &["line", "--"],
        &["line", line, line],
        &["line", line, ""],
        &["line", "", ""],
        &["line", "-", "-"],
        &["line", line, "-"],
        &["line", line, line, line, line],
    ] {
        tool.expect_text(words, &of_line)?;
    }
    // These take no list.
    tool.expect(&["equal", "recording", "recording", "--guards", "list"])?;
    tool.expect(&["line", line, "--guards", "list"])
}

/// Options where they may stand: the answers are those without, or with the list behind.
fn options(tool: &mut Tool) -> Done {
    for command in JUDGING {
        for words in [
            &["recording", "--guards", "list"][..],
            &["--guards", "list", "recording"],
            &["recording", "--guards=list"],
            &["--guards=list", "recording"],
            &["--guards", "list", "--", "recording"],
            &["--guards=list", "--", "recording"],
            &["--guards", "--", "recording"],
            &["--guards", "--help", "recording"],
            &["--guards", "--guards", "recording"],
            &["recording", "--guards", "-h"],
            &["recording", "--guards=--help"],
            &["recording", "--guards=a=b"],
            &["recording", "--guards=="],
            &["--", "recording"],
            &["--", "--guards"],
            &["recording", "--"],
            &["--", "--"],
        ] {
            tool.expect(&[&[command], words].concat())?;
        }
    }
    let guarded = tool.run(
        &["verdict", "recording", "--guards", "list"],
        &Input::Nothing,
    )?;
    for words in [
        &["verdict", "--guards", "list", "recording"][..],
        &["verdict", "--guards=list", "recording"],
        &["verdict", "--guards=list", "--", "recording"],
    ] {
        let answer = tool.run(words, &Input::Nothing)?;
        same(
            "the answer with the option elsewhere",
            answer,
            guarded.clone(),
        )?;
    }
    tool.expect(&["equal", "--", "recording", "recording"])?;
    tool.expect(&["equal", "recording", "--", "recording"])?;
    let (line, printed) = LITERAL_LINES[5];
    tool.expect_text(&["line", "--", line], printed)?;
    tool.expect_text(&["line", "--", "--help"], NO_LINE)?;
    tool.expect_text(&["line", "--", "-x"], NO_LINE)?;
    tool.expect_text(&["line", "--", "--"], NO_LINE)
}

fn empty_names(tool: &mut Tool) -> Done {
    let printed = "error: a file name is empty\n";
    for command in JUDGING {
        tool.expect_text(&[command, ""], printed)?;
        tool.expect_text(&[command, "--", ""], printed)?;
        tool.expect_text(&[command, "", "--guards", "list"], printed)?;
        tool.expect_text(&[command, "recording", "--guards", ""], printed)?;
        tool.expect_text(&[command, "recording", "--guards="], printed)?;
        // Before standard input that is named twice, and before numbers.
        tool.expect_text(&[command, "-", "--guards="], printed)?;
    }
    for command in ["verdict", "explain"] {
        tool.expect_text(&[command, "recording", "", "missing"], printed)?;
        tool.expect_text(&[command, "-", "", "-"], printed)?;
    }
    tool.expect_text(&["draw", "", "--from", "x"], printed)?;
    tool.expect_text(&["equal", "", "recording"], printed)?;
    tool.expect_text(&["equal", "recording", ""], printed)
}

fn bad_use(tool: &mut Tool) -> Done {
    write("recording", &text(A))?;
    write("list", &text("00000000 00010000"))?;
    no_such_command(tool)?;
    wrong_use(tool)?;
    options(tool)?;
    empty_names(tool)
}

/// The help has the uses that the page begins with. What stands behind the words that ask for it,
/// or for the version, is not looked at; before and behind that of one command neither.
fn help(tool: &mut Tool) -> Done {
    let (help, version, of_commands) = help_texts();
    if !help.starts_with(&format!("usage: {}\n", uses().join("\n       "))) {
        return Err(format!("the help lacks a use: \"{help}\""));
    }
    if let Some(command) = COMMANDS.iter().find(|command| !help.contains(*command)) {
        return Err(format!("the help lacks {command}"));
    }
    tool.expect_text::<&str>(&[], &help)?;
    let behind: [&[&str]; 8] = [
        &[],
        &[""],
        &["help"],
        &["--version"],
        &["missing"],
        &["verdict", "missing"],
        &["verdict", "recording", "--guards"],
        &["equal", "a", "b", "c", "d", "e"],
    ];
    for words in behind {
        for name in ["help", "--help", "-h"] {
            tool.expect_text(&[&[name], words].concat(), &help)?;
        }
        for name in ["--version", "-V"] {
            tool.expect_text(&[&[name], words].concat(), &version)?;
        }
    }
    let number = include_str!("../../../../VERSION").trim_end();
    tool.expect_text(&["--version"], &format!("tracetool {number}\n"))?;
    let commands = [
        "verdict", "serial", "moves", "draw", "equal", "explain", "line",
    ];
    same("the helps of commands", of_commands.len(), commands.len())?;
    for (command, help) in commands.into_iter().zip(&of_commands) {
        let used = use_of(command).replace("error: use: ", "usage: ");
        same(
            "the help's use",
            help.split_inclusive('\n').next(),
            Some(&used[..]),
        )?;
        for asked in ["--help", "-h"] {
            tool.expect_text(&[command, asked], help)?;
            for words in [
                &["missing"][..],
                &["", ""],
                &["-x"],
                &["a", "b", "c", "-", "-"],
            ] {
                tool.expect_text(&[&[command], words, &[asked]].concat(), help)?;
                tool.expect_text(&[&[command, asked], words].concat(), help)?;
            }
            tool.expect_text(&[command, "-", asked, "--"], help)?;
        }
        tool.expect(&[command, "--", "--help"])?;
        tool.expect(&[command, "help"])?;
        tool.expect(&[command, "help", "help"])?;
    }
    Ok(())
}

// Several recordings in a call.

fn several(tool: &mut Tool, random: &mut Random) -> Done {
    write("a", &text(A))?;
    write("c", &text(C))?;
    write("d", &text(D))?;
    write("j", &text(J[1]))?;
    write("none", b"")?;
    write("list", &text("00050002"))?;
    write("refused", &text("00050002 00050002"))?;
    let nothing = &Input::Nothing;
    let missing = "error: cannot read missing: no such file\n";
    let absent = "error: cannot read absent: no such file\n";
    let [a, c, none] = [
        "a: 03000401000000030000000000000001\n",
        "c: 00000A00FFFFFFFF0000000000000000\n",
        "none: 00000000FFFFFFFF0000000000000000\n",
    ];
    let j = "j: 88000100FFFFFFFF0000000000000000\n";
    for (words, out, err, status) in [
        (&["a", "c"][..], [a, c].concat(), String::new(), 1),
        (&["c", "none"], [c, none].concat(), String::new(), 0),
        (&["c", "c", "c"], [c, c, c].concat(), String::new(), 0),
        (&["j", "a", "c"], [j, a, c].concat(), String::new(), 2),
        (&["c", "missing"], c.into(), missing.into(), 3),
        (&["missing", "c"], c.into(), missing.into(), 3),
        (
            &["missing", "a", "absent", "j"],
            [a, j].concat(),
            [missing, absent].concat(),
            3,
        ),
        (
            &["missing", "absent"],
            String::new(),
            [missing, absent].concat(),
            3,
        ),
        (
            &["missing", "missing"],
            String::new(),
            [missing, missing].concat(),
            3,
        ),
        (
            &["a", "d", "--guards", "refused"],
            "refused: 8C000100FFFFFFFF0000000000000000\n".into(),
            String::new(),
            2,
        ),
        (
            &["missing", "absent", "--guards", "refused"],
            "refused: 8C000100FFFFFFFF0000000000000000\n".into(),
            String::new(),
            2,
        ),
        (
            &["a", "absent", "--guards", "missing"],
            String::new(),
            missing.into(),
            3,
        ),
        (
            &["a", "d", "--guards", "list"],
            "a: 03000401000000020000000000000001\nd: 01000000FFFFFFFF0000000000000004\n".into(),
            String::new(),
            1,
        ),
    ] {
        let words = [&["verdict"], words].concat();
        tool.expect_all(&words, nothing, (&out, &err, status))?;
    }
    let explained = |of: &str, recording: &str| {
        let found = LITERALS.iter().find(|(command, words, list, _)| {
            *command == of && *words == recording && list.is_none()
        });
        found.expect("a literal").3
    };
    let (of_a, of_d) = (explained("explain", A), explained("explain", D));
    let reducible = "reducible: no frame goes wrong; frames: 10.\n";
    let out = format!("a:5: {of_a}c: {reducible}d:1: {of_d}none: {NOTHING}");
    tool.expect_all(
        &["explain", "a", "c", "missing", "d", "none"],
        nothing,
        (&out, missing, 3),
    )?;
    let refused =
        "refused:2: refused: number 12, line 2 [1] of the guard list names a variable that \
                   an earlier line names; keep one of the two.\n";
    tool.expect_all(
        &["explain", "missing", "c", "--guards", "refused"],
        nothing,
        (refused, "", 2),
    )?;
    let too_long = "long:4097: refused: number 2, the recording has more than 4096 lines; cut it \
                    down to 4096.\n";
    write("long", &text_of_words(&pairs(MOST_FRAMES + 1)))?;
    let out = format!("{too_long}{too_long}c: {reducible}");
    tool.expect_all(&["explain", "long", "long", "c"], nothing, (&out, "", 2))?;
    context(fs::remove_file("long"), "removing a file")?;
    // Standard input among them, and as the list.
    let piped = Input::Pipe(text(D));
    let out = format!("a:5: {of_a}-:1: {of_d}c: {reducible}");
    tool.expect_all(&["explain", "a", "-", "c"], &piped, (&out, "", 1))?;
    tool.expect_input(&["explain", "a", "c", "--guards", "-"], &piped)?;
    tool.expect_input(
        &["verdict", "a", "d", "--guards=-"],
        &Input::Pipe(b"x".to_vec()),
    )?;
    tool.expect_input(&["verdict", "a", "-"], &Input::Folder)?;
    tool.expect_input(&["verdict", "-", "a"], &Input::Closed)?;
    for command in ["serial", "moves", "draw", "equal"] {
        tool.expect(&[command, "a", "c", "d"])?;
    }
    let names = [
        "a",
        "c",
        "d",
        "j",
        "none",
        "missing",
        "folder",
        "recording",
        "left",
        "right",
        "-",
    ];
    for _ in 0..RANDOM_SEVERAL {
        let made = random_recording(random, Call::Declared, false);
        write("recording", &text_of_words(&made.words))?;
        let command = random.pick(&["verdict", "explain"]);
        let mut words = vec![command];
        for _ in 0..random.between(2, 7) {
            words.push(random.pick(&names));
        }
        if random.chance(500) {
            let place = random.between(1, words.len());
            let list = random.pick(&["list", "list", "refused", "missing", "made", "made"]);
            write("made", &exact_list(random, &made.guards))?;
            words.splice(place..place, ["--guards", list]);
        }
        tool.expect_input(&words, &piped)?;
    }
    for name in ["a", "c", "d", "j", "none", "refused"] {
        context(fs::remove_file(name), "removing a file")?;
    }
    Ok(())
}

// Standard input.

/// As each file of each command, through a pipe and as a file.
fn inputs(tool: &mut Tool) -> Done {
    write("good", &text(A))?;
    write("list", &text("00000000 00010000"))?;
    let long = text_of_words(&pairs(MOST_FRAMES + 1));
    for content in [
        text(A),
        text(C),
        text("00000000 00010000"),
        Vec::new(),
        b"\xEF\xBB\xBF\n".to_vec(),
        text(J[0]),
        long.clone(),
        long.repeat(4),
    ] {
        for input in [Input::Pipe(content.clone()), Input::File(content.clone())] {
            for command in JUDGING {
                tool.expect_input(&[command, "-"], &input)?;
                tool.expect_input(&[command, "-", "--guards", "list"], &input)?;
                tool.expect_input(&[command, "good", "--guards", "-"], &input)?;
                tool.expect_input(&[command, "--guards=-", "good"], &input)?;
                tool.expect_input(&[command, "--", "-"], &input)?;
            }
            tool.expect_input(&["equal", "-", "good"], &input)?;
            tool.expect_input(&["equal", "good", "-"], &input)?;
        }
    }
    let refused = told(
        "equal",
        "-",
        0,
        &refused_by_byte(
            0,
            RIGHT,
            "column 1 has byte 78, not a digit; write 0-9 A-F.",
        ),
    );
    let piped = Input::Pipe(b"x".to_vec());
    tool.expect_all(&["equal", "good", "-"], &piped, (&refused, "", 2))?;
    let refused = refused.replace(RIGHT, GUARD_LIST);
    tool.expect_all(
        &["serial", "good", "--guards", "-"],
        &piped,
        ("", &refused, 2),
    )?;
    let twice = "error: standard input is named twice\n";
    for words in [
        &["verdict", "-", "-"][..],
        &["explain", "-", "good", "-"],
        &["verdict", "-", "--guards", "-"],
        &["serial", "--guards=-", "-"],
        &["moves", "--guards=-", "--", "-"],
        &["draw", "-", "--guards", "-", "--from", "x"],
        &["equal", "-", "-"],
        &["equal", "-", "--", "-"],
        &["explain", "missing", "-", "--guards", "-"],
    ] {
        tool.expect_text(words, twice)?;
    }
    // Nothing is left for a second file by another name, and a file that is missing ends the call.
    tool.expect_input(&["equal", "-", "missing"], &Input::Pipe(text(A)))?;
    tool.expect_input(&["equal", "missing", "-"], &Input::Pipe(text(A)))?;
    for (input, why) in [
        (Input::Folder, "it is a directory"),
        (Input::Closed, "it is closed"),
    ] {
        let error = format!("error: cannot read -: {why}\n");
        for words in [
            &["verdict", "-"][..],
            &["serial", "-"],
            &["explain", "good", "--guards", "-"],
            &["equal", "good", "-"],
            &["equal", "-", "good"],
            &["line", "-"],
        ] {
            tool.expect_all(words, &input, ("", &error, 3))?;
        }
    }
    // A closed standard input that is not named.
    tool.expect_input(&["verdict", "good"], &Input::Closed)?;
    for line in [
        &b"05000000\n06000000\n"[..],
        b"x",
        b"\n",
        b"00000000\n",
        b"00000001\n00010001\n",
    ] {
        let endless = Input::Endless(line.to_vec());
        for command in JUDGING {
            tool.expect_input(&[command, "-"], &endless)?;
            tool.expect_input(&[command, "good", "--guards", "-"], &endless)?;
        }
        tool.expect_input(&["equal", "-", "good"], &endless)?;
        tool.expect_input(&["equal", "good", "-"], &endless)?;
    }
    context(fs::remove_file("input"), "removing a file")
}

/// Logs of kept lines.
fn logs(tool: &mut Tool, random: &mut Random) -> Done {
    let (line, printed) = LITERAL_LINES[5];
    let (kept, reducible) = LITERAL_LINES[3];
    let (refused, sentence) = LITERAL_LINES[19];
    for (log, out, status) in [
        (String::new(), String::new(), 0),
        (format!("{kept}\n"), format!("-:1: {reducible}"), 0),
        (kept.into(), format!("-:1: {reducible}"), 0),
        (
            format!("{kept}\n{line}\n{kept}"),
            format!("-:1: {reducible}-:2: {printed}-:3: {reducible}"),
            1,
        ),
        (
            format!("{line}\n{refused}\n"),
            format!("-:1: {printed}-:2: {sentence}"),
            2,
        ),
        ("\n".into(), format!("-:1: {NO_LINE}"), 2),
        (
            format!("{kept}\n\n{kept}\r\n{kept}"),
            format!("-:1: {reducible}-:2: {NO_LINE}-:3: {NO_LINE}-:4: {reducible}"),
            2,
        ),
        (
            format!("{kept}{kept}\n {kept}\n{kept} \n"),
            format!("-:1: {NO_LINE}-:2: {NO_LINE}-:3: {NO_LINE}"),
            2,
        ),
        (
            format!("{}\n{kept}\n", "0".repeat(100_000)),
            format!("-:1: {NO_LINE}-:2: {reducible}"),
            2,
        ),
        ("0".repeat(100_000), format!("-:1: {NO_LINE}"), 2),
    ] {
        let log = log.into_bytes();
        tool.expect_all(
            &["line", "-"],
            &Input::Pipe(log.clone()),
            (&out, "", status),
        )?;
        tool.expect_all(&["line", "--", "-"], &Input::File(log), (&out, "", status))?;
    }
    tool.expect(&["line", "-"])?;
    for lines in [1000, 5000] {
        let log = format!("{line}\n").repeat(lines);
        tool.expect_input(&["line", "-"], &Input::Pipe(log.into_bytes()))?;
    }
    for _ in 0..RANDOM_LOGS {
        let mut log = Vec::new();
        for _ in 0..random.below(40) {
            match random.below(10) {
                0 => log.push(b'\n'),
                1 => log.extend((0..random.below(60)).map(|_| random.draw() as u8)),
                2..5 => log.extend(random_line(random)),
                _ => log.extend(random_fields(random).line().into_bytes()),
            }
        }
        if random.chance(300) {
            log.truncate(random.below(log.len() + 1));
        }
        tool.expect_input(&["line", "-"], &Input::Pipe(log))?;
    }
    context(fs::remove_file("input"), "removing a file")
}

// Pictures in part.

/// Every window of small recordings, and numbers that are none.
fn windows(tool: &mut Tool, random: &mut Random) -> Done {
    write("list", &text("00050002"))?;
    for words in [
        A,
        C,
        E,
        AGAIN,
        AGAIN_UNITS,
        SHARED,
        WINDOW,
        "05000000 05000000 05000000",
        "",
    ] {
        write("recording", &text(words))?;
        let count = words.split_whitespace().count();
        for from in 0..=count + 1 {
            for to in from.max(1)..=count + 2 {
                let (from_word, to_word) = (from.to_string(), format!("{to:03}"));
                let mut words = vec!["draw", "recording"];
                if from > 0 {
                    words.extend(["--from", &from_word]);
                }
                if to <= count + 1 {
                    words.extend(["--to", &to_word]);
                }
                tool.expect(&words)?;
            }
        }
        tool.expect(&["draw", "recording", "--guards", "list", "--from", "2"])?;
        tool.expect(&["draw", "--to=2", "--guards=list", "--from=2", "recording"])?;
        tool.expect(&["draw", "--to", "2", "recording"])?;
    }
    wrong_windows(tool)?;
    default_windows(tool)?;
    for _ in 0..RANDOM_WINDOWS {
        let made = match random.below(4) {
            0 => interleaved(random, 12, true),
            1 => lock_walk(random),
            2 => hold_walk(random),
            _ => random_recording(random, Call::Declared, false),
        };
        write("recording", &text_of_words(&made.words))?;
        write("list", &exact_list(random, &made.guards))?;
        let most = made.words.len() + 3;
        let mut bounds = [random.between(1, most), random.between(1, most)];
        if random.chance(950) {
            bounds.sort_unstable();
        }
        let [from, to] = bounds.map(|bound| bound.to_string());
        let mut words = vec!["draw", "recording"];
        if random.chance(600) {
            words.extend(["--guards", "list"]);
        }
        if random.chance(800) {
            words.extend(["--from", &from]);
        }
        if random.chance(800) {
            words.extend(["--to", &to]);
        }
        tool.expect(&words)?;
    }
    Ok(())
}

fn wrong_windows(tool: &mut Tool) -> Done {
    write("recording", &text(A))?;
    write("faulty", b"x")?;
    for word in [
        "",
        "0",
        "00",
        "000000000",
        "-1",
        "+1",
        " 1",
        "1 ",
        "1.0",
        "x",
        "0x1",
        "1x",
        "1000000000",
        "0000000001",
        "99999999999999999999",
        "one",
        "\u{663}",
        "--to",
        "-",
    ] {
        let error = format!("error: no line number from 1 on: {word}\n");
        for (recording, before) in [("recording", ""), ("missing", "1"), ("faulty", "1")] {
            tool.expect_text(&["draw", recording, "--from", word], &error)?;
            tool.expect_text(&["draw", recording, "--to", word], &error)?;
            tool.expect_text(&["draw", &format!("--to={word}"), recording], &error)?;
            if !before.is_empty() {
                tool.expect_text(&["draw", recording, "--from", "1", "--to", word], &error)?;
                tool.expect_text(&["draw", recording, "--to", word, "--from", before], &error)?;
                tool.expect_text(&["draw", recording, "--to", "y", "--from", word], &error)?;
            }
        }
    }
    tool.expect(&[&b"draw"[..], b"recording", b"--from", b"\xFF1"])?;
    for (from, to, error) in [
        ("2", "1", "error: line 2 is behind line 1\n"),
        ("007", "3", "error: line 7 is behind line 3\n"),
        (
            "999999999",
            "999999998",
            "error: line 999999999 is behind line 999999998\n",
        ),
        ("100", "9", "error: line 100 is behind line 9\n"),
        (
            "9",
            "9",
            "error: line 9 is behind the last line of the recording, 8\n",
        ),
        (
            "0000009",
            "100",
            "error: line 9 is behind the last line of the recording, 8\n",
        ),
        (
            "999999999",
            "999999999",
            "error: line 999999999 is behind the last line of the recording, 8\n",
        ),
    ] {
        tool.expect_text(&["draw", "recording", "--from", from, "--to", to], error)?;
        tool.expect_text(&["draw", "--to", to, "recording", "--from", from], error)?;
        // A file that cannot be read, and a refusal, come between the two errors.
        tool.expect(&["draw", "missing", "--from", from, "--to", to])?;
        tool.expect(&["draw", "faulty", "--from", from, "--to", to])?;
        tool.expect(&["draw", "recording", "--guards", "faulty", "--from", from])?;
    }
    write("recording", b"")?;
    let error = "error: line 1 is behind the last line of the recording, 0\n";
    tool.expect_text(&["draw", "recording", "--from", "1"], error)?;
    tool.expect(&["draw", "recording", "--to", "1"])?;
    context(fs::remove_file("faulty"), "removing a file")
}

/// About 400 frames, with a violation near each edge, and long recordings.
fn default_windows(tool: &mut Tool) -> Done {
    for count in [399, 400, 401, 402, 620, MOST_FRAMES] {
        let edges = [
            0,
            1,
            198,
            199,
            200,
            201,
            count - 202,
            count - 201,
            count - 200,
            count - 1,
        ];
        for wrong in edges {
            let mut words = pairs(count - 1);
            words.insert(wrong, word(READ, 1, 5));
            write("recording", &text_of_words(&words))?;
            tool.expect(&["draw", "recording"])?;
        }
    }
    let mut words = pairs(MOST_FRAMES - 1);
    words.insert(2000, word(READ, 1, 5));
    write("recording", &text_of_words(&words))?;
    write("list", b"")?;
    tool.expect(&["draw", "recording", "--from", "1"])?;
    tool.expect(&["draw", "recording", "--to", "4096"])?;
    tool.expect(&["draw", "recording", "--from", "4096"])?;
    tool.expect(&["draw", "recording", "--from", "4000", "--to", "5000"])?;
    // Reducible with this list, and so drawn whole.
    tool.expect(&["draw", "recording", "--guards", "list"])
}

// Output that cannot be written.

fn unwritable(tool: &mut Tool) -> Done {
    write("recording", &text(A))?;
    let line = LITERAL_LINES[5].0;
    for words in [
        &["verdict", "recording"][..],
        &["explain", "recording", "recording"],
        &["draw", "recording"],
        &["equal", "recording", "recording"],
        &["line", line],
        &["help"],
        &["--version"],
    ] {
        for (script, why) in [
            ("exec \"$0\" \"$@\" >/dev/full", "the disk is full"),
            (
                "ulimit -f 0; trap '' XFSZ; exec \"$0\" \"$@\" >written",
                "error number 27 of the system",
            ),
        ] {
            let mut command = Command::new("sh");
            command.args(["-c", script]).arg(&tool.program).args(words);
            let output = context(command.stdin(Stdio::null()).output(), "running a shell")?;
            let err = String::from_utf8_lossy(&output.stderr).into_owned();
            let said = (output.status.code(), &err[..]);
            let error = format!("error: cannot write the answer: {why}\n");
            same(
                &format!("{} {script}", shown(words)),
                said,
                (Some(3), &error),
            )?;
            let answer = Answer {
                out: Vec::new(),
                err: output.stderr,
                status: 3,
            };
            tool.count(words, &answer)?;
        }
    }
    context(fs::remove_file("written"), "removing a file")
}

// Anything at all.

/// A text of a recording, of a list or of nothing, damaged or not.
fn fuzzed_text(random: &mut Random) -> Vec<u8> {
    let made = match random.below(3) {
        0 => interleaved(random, 5, true),
        _ => random_recording(random, Call::Declared, false),
    };
    let mut text = match random.below(3) {
        0 => random_list(random, &made.guards),
        _ => text_of_words(&made.words),
    };
    match random.below(8) {
        0 => text = (0..random.below(60)).map(|_| random.draw() as u8).collect(),
        1 => text.truncate(random.below(text.len() + 1)),
        2 => damage_text(random, &mut text),
        3 if !text.is_empty() => {
            for _ in 0..random.between(1, 4) {
                let place = random.below(text.len());
                text[place] = random.draw() as u8;
            }
        }
        _ => {}
    }
    text
}

/// A word with a byte changed, put in or taken away.
fn mutated(random: &mut Random, word: &[u8]) -> Vec<u8> {
    let mut word = word.to_vec();
    // A word of a command line has no byte 0, and an LF would end a line of an answer.
    let byte = match random.below(3) {
        0 => random.between(11, 255) as u8,
        _ => random.pick(b"abcdelrv-=01:. "),
    };
    let place = random.below(word.len() + 1);
    match random.below(3) {
        0 => word.insert(place, byte),
        1 if place < word.len() => drop(word.remove(place)),
        _ if place < word.len() => word[place] = byte,
        _ => {}
    }
    word
}

fn fuzzed_words(random: &mut Random) -> Vec<Vec<u8>> {
    const FILES: [&[u8]; 12] = [
        b"one",
        b"two",
        b"one",
        b"two",
        b"three",
        b"list",
        b"missing",
        b"folder",
        b"",
        b"-",
        b"one/two",
        b"\xFF\xFE",
    ];
    const OPTIONS: [&[u8]; 16] = [
        b"--guards",
        b"--guards",
        b"--guards",
        b"--guards=list",
        b"--guards=one",
        b"--guards=",
        b"--guards=-",
        b"--from",
        b"--to",
        b"--from=2",
        b"--to=9",
        b"--help",
        b"-h",
        b"--",
        b"-x",
        b"--version",
    ];
    const NUMBERS: [&[u8]; 6] = [b"1", b"3", b"12", b"0", b"400", b"1000000000"];
    let command = random.pick(&COMMANDS).as_bytes();
    let mut words = vec![match random.below(12) {
        0 => mutated(random, command),
        1 => random.pick(&OPTIONS).to_vec(),
        _ => command.to_vec(),
    }];
    if command == b"line" && random.chance(700) {
        let line = random_line(random);
        let word = line.strip_suffix(b"\n").unwrap_or(&line);
        words.push(word.iter().copied().filter(|byte| *byte > 10).collect());
    }
    let most = random.pick(&[1, 2, 2, 3, 4, 6]);
    for _ in 0..random.below(most + 1) {
        let word = match random.below(20) {
            0..11 => random.pick(&FILES),
            11..18 => random.pick(&OPTIONS),
            _ => random.pick(&NUMBERS),
        };
        words.push(match random.below(25) {
            0 => mutated(random, word),
            _ => word.to_vec(),
        });
        if [&b"--guards"[..], b"--from", b"--to"].contains(&word) && random.chance(800) {
            let behind = match word {
                b"--guards" => random.pick(&FILES),
                _ => random.pick(&NUMBERS),
            };
            words.push(behind.to_vec());
        }
    }
    words
}

/// Random words, files and lists.
fn fuzz(tool: &mut Tool, random: &mut Random) -> Done {
    for entry in context(fs::read_dir("."), "listing the folder")? {
        let path = context(entry, "listing the folder")?.path();
        if path.is_file() {
            context(fs::remove_file(path), "removing a file")?;
        }
    }
    write("three", &text(C))?;
    for _ in 0..FUZZED {
        for name in ["one", "two", "list"] {
            if random.chance(400) {
                write(name, &fuzzed_text(random))?;
            }
        }
        let words = fuzzed_words(random);
        let mut log = fuzzed_text(random);
        if words[0] == b"line" {
            log = (0..random.below(5))
                .flat_map(|_| random_line(random))
                .collect();
        }
        let input = match random.below(8) {
            0 => Input::Closed,
            1 => Input::Folder,
            2 => Input::File(log),
            _ => Input::Pipe(log),
        };
        let expected = reference(&words, &input);
        let answer = tool.run(&words, &input)?;
        let several = matches!(&words[0][..], b"verdict" | b"explain") && words.len() > 2;
        if answer.status == 3 && !several && !answer.out.is_empty() {
            let answer = shown_answer(&answer);
            return Err(format!(
                "{}: an answer and an error: {answer}",
                shown(&words)
            ));
        }
        same(
            &shown(&words),
            shown_answer(&answer),
            shown_answer(&expected),
        )?;
        *tool.counts.entry((FUZZ.into(), String::new())).or_default() += 1;
    }
    Ok(())
}

// All of it.

/// Prints the counts; an answer that the program can give and did not is a failure.
fn report(tool: &Tool) -> Done {
    let mut absent = Vec::new();
    for command in COMMANDS {
        let of_command = tool.counts.iter().filter(|((name, _), _)| name == command);
        let runs: usize = of_command.map(|(_, count)| count).sum();
        let mut counts = Vec::new();
        for label in required(command) {
            let count = tool.counts.get(&(command.into(), label.clone()));
            counts.push(format!("{label}: {}", count.unwrap_or(&0)));
            if count.is_none() {
                absent.push(format!("{command}: {label}"));
            }
        }
        println!("{command}: {runs} runs; {}", counts.join("; "));
    }
    let runs_of = |others: &dyn Fn(&str) -> bool| -> usize {
        let counts = tool.counts.iter().filter(|((name, _), _)| others(name));
        counts.map(|(_, count)| count).sum()
    };
    let others = runs_of(&|name| !COMMANDS.contains(&name) && name != FUZZ);
    println!("other words: {others} runs");
    println!("{FUZZ}: {} runs", runs_of(&|name| name == FUZZ));
    for (line, count) in &tool.lines {
        if *count == 0 && tool.exempt.as_ref() != Some(line) {
            absent.push(line.to_string());
        }
    }
    if !absent.is_empty() {
        return Err(format!("never printed:\n  {}", absent.join("\n  ")));
    }
    Ok(())
}

fn test(program: &OsStr, seed: u64) -> Result<usize, String> {
    let program = context(fs::canonicalize(program), "finding the program")?;
    let _folder = Folder::enter()?;
    let start = Instant::now();
    let mut tool = Tool {
        program,
        counts: BTreeMap::new(),
        lines: answer_lines().into_iter().map(|line| (line, 0)).collect(),
        exempt: None,
    };
    let random = &mut Random::new(seed);
    help(&mut tool)?;
    literals(&mut tool)?;
    pictures(&mut tool)?;
    faults(&mut tool)?;
    worked_recordings(&mut tool)?;
    furthest_moves(&mut tool)?;
    longest_answer(&mut tool)?;
    refusals(&mut tool)?;
    bad_use(&mut tool)?;
    kept_lines(&mut tool, random)?;
    lengths(&mut tool)?;
    long(&mut tool)?;
    names(&mut tool)?;
    unreadable(&mut tool)?;
    two_faults(&mut tool)?;
    examples(&mut tool)?;
    greatest_pictures(&mut tool, random)?;
    random_pictures(&mut tool, random)?;
    random_faults(&mut tool, random)?;
    random_recordings(&mut tool, random)?;
    random_pairs(&mut tool, random)?;
    random_long(&mut tool, random)?;
    several(&mut tool, random)?;
    inputs(&mut tool)?;
    logs(&mut tool, random)?;
    windows(&mut tool, random)?;
    unwritable(&mut tool)?;
    let compared: usize = tool.counts.values().sum();
    println!(
        "tool: {compared} runs in {:.1} s",
        start.elapsed().as_secs_f64()
    );
    let start = Instant::now();
    fuzz(&mut tool, random)?;
    println!("tool: fuzz in {:.1} s", start.elapsed().as_secs_f64());
    report(&tool)?;
    Ok(tool.counts.values().sum())
}

/// Prints the reference's picture; the words are those of the tool.
fn draw(words: &[OsString]) -> ExitCode {
    let words: Vec<&[u8]> = words.iter().map(|word| word.as_bytes()).collect();
    let answer = reference(&words, &Input::Nothing);
    let printed = std::io::stdout().write_all(&answer.out);
    eprint!("{}", String::from_utf8_lossy(&answer.err));
    match printed.is_ok() && answer.status == 0 {
        true => ExitCode::SUCCESS,
        false => ExitCode::FAILURE,
    }
}

fn main() -> ExitCode {
    let arguments: Vec<OsString> = std::env::args_os().skip(1).collect();
    let program = arguments.first().expect("the path of the program");
    if program == "draw" {
        return draw(&arguments);
    }
    let seed = arguments.get(1).map_or(DEFAULT_SEED, |seed| {
        let seed = seed.to_str().and_then(|seed| seed.parse().ok());
        seed.expect("the seed is a number")
    });
    println!("tool: seed {seed}");
    match test(program, seed) {
        Ok(runs) => {
            println!("tool: {runs} runs, all as the reference");
            ExitCode::SUCCESS
        }
        Err(reason) => {
            println!("FAILED: {reason}");
            ExitCode::FAILURE
        }
    }
}
