//! The lines that docs/TOOL.md says `tracetool` prints. Some words in capitals stand for others.

use trace_tests::words::{GUARD_LIST, LEFT, RECORDING, RIGHT, TEXT};

pub const SOURCES: [&str; 5] = [RECORDING, GUARD_LIST, LEFT, RIGHT, TEXT];
const HOLES: [&str; 12] = [
    "LINE", "PLACE", "T", "V", "N", "M", "SOURCE", "ACTION", "LOCKS", "NAME", "NEAR", "NUMBER",
];

/// What stands before the sections, and the sections.
fn parts() -> (&'static str, &'static str) {
    let document = include_str!("../../../docs/TOOL.md");
    document.split_once("\n## ").expect("sections")
}

/// The indented lines of a part, each once.
fn indented(part: &'static str) -> Vec<&'static str> {
    let mut lines = Vec::new();
    for line in part.lines().filter_map(|line| line.strip_prefix("    ")) {
        if !lines.contains(&line) {
            lines.push(line);
        }
    }
    lines
}

/// All lines of the sections, without those on the program's use before them.
pub fn templates() -> Vec<&'static str> {
    indented(parts().1)
}

/// How each command is used, and what it prints.
pub fn uses() -> Vec<&'static str> {
    indented(parts().0)
}

fn is_number(text: &str) -> bool {
    !text.is_empty() && text.bytes().all(|byte| byte.is_ascii_digit())
}

fn is_action(text: &str) -> bool {
    let touching = [
        "acquire of lock ",
        "release of lock ",
        "read of variable ",
        "write of variable ",
    ];
    let object = touching.iter().find_map(|start| text.strip_prefix(start));
    object.is_some_and(is_number) || matches!(text, "begin" | "end")
}

/// Whether a word in capitals stands for this text.
fn stands_for(hole: &str, text: &str) -> bool {
    match hole {
        "SOURCE" => SOURCES.contains(&text),
        "ACTION" => is_action(text),
        "LOCKS" => matches!(text, "none" | "all 64") || text.split(", ").all(is_number),
        "NAME" | "NEAR" => true,
        _ => is_number(text),
    }
}

/// What stands before, in and after the first hole.
fn first_hole(template: &str) -> Option<(&str, &str, &str)> {
    let mut start = 0;
    for word in template.split_inclusive(|letter: char| !letter.is_alphanumeric()) {
        let name = word.trim_end_matches(|letter: char| !letter.is_alphanumeric());
        if HOLES.contains(&name) {
            let after = &template[start + name.len()..];
            return Some((&template[..start], name, after));
        }
        start += word.len();
    }
    None
}

/// A line also fits where it is the template itself: a use names its words in capitals.
pub fn fits(template: &str, line: &str) -> bool {
    if template == line {
        return true;
    }
    let Some((before, hole, after)) = first_hole(template) else {
        return false;
    };
    let literal = first_hole(after).map_or(after, |(literal, ..)| literal);
    line.strip_prefix(before).is_some_and(|rest| {
        let mut ends = (0..=rest.len()).filter(|&end| rest.is_char_boundary(end));
        ends.any(|end| {
            let (held, left) = rest.split_at(end);
            left.starts_with(literal) && stands_for(hole, held) && fits(after, left)
        })
    })
}
