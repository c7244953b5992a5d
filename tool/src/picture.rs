//! A recording as a picture (SVG), drawn from the library's answers.

use crate::answers::said;
use crate::lanes::{Block, Lane, Recording};
use crate::rows::{window, Rows, BASELINE, MARK, MIDDLE, ROW, START, STOP};
use gambozuri::{Fields, Frame, Judgement, Operation, Refusal, Refused, Verdict, Violation};
use std::cmp::Ordering;
use std::fmt::{Arguments, Write};

const STYLE: &str = r##"<style>text{fill:#222}.wrong{fill:#c00;font-weight:bold}.why{fill:#c00}.late{fill:#999}.key,.line,.number,.note{fill:#666}
.number{font-size:9px}.head{font-weight:bold}.block{fill-opacity:.45}.open{fill-opacity:.12;stroke-dasharray:4 3}.commit{fill:#000}
.mark{fill:#fdd;stroke:#c00}.join{fill:none;stroke:#c00;stroke-dasharray:2 2}
.move{fill:none;stroke-opacity:.8}.stay{fill:none;stroke:#ccc}.t0{fill:#1f77b4;stroke:#1f77b4}.t1{fill:#d9730d;stroke:#d9730d}
.t2{fill:#2ca02c;stroke:#2ca02c}.t3{fill:#9467bd;stroke:#9467bd}.t4{fill:#8c564b;stroke:#8c564b}.t5{fill:#17a2b8;stroke:#17a2b8}
.t6{fill:#b5a200;stroke:#b5a200}.t7{fill:#e377c2;stroke:#e377c2}.k0{fill:#222}.k1{fill:#888}.k2{fill:#555}.k3{fill:#aaa}
.k4{fill:#333}.k5{fill:#999}.k6{fill:#666}.k7{fill:#bbb}
.move.t0,.move.t1,.move.t2,.move.t3,.move.t4,.move.t5,.move.t6,.move.t7{fill:none}</style>
<defs><marker id="to" viewBox="0 0 8 8" refX="8" refY="4" markerWidth="7" markerHeight="7" orient="auto"><path d="M0 0L8 4L0 8z" fill="#444"/></marker></defs>"##;

/// What the library answers of a recording.
pub struct Answers {
    explained: String,
    violation: Option<Violation>,
    /// The displacements, or the note that says why there are none.
    order: Result<Vec<i32>, String>,
    /// One more than the place of the commit of the unit that starts at each place, or 0.
    commits: Vec<u32>,
}

impl Answers {
    pub fn new(judgement: Judgement, words: &[u32]) -> Result<Answers, Refused> {
        let line = gambozuri::verdict_line(judgement, words);
        let violation = match Fields::read(&line)?.verdict()? {
            Verdict::Reducible { .. } => None,
            Verdict::Violated(violation) => Some(violation),
        };
        let explained = said(|out| gambozuri::say_verdict(&line, words, out));
        let mut moves = vec![0; words.len()];
        let order = match gambozuri::moves(judgement, words, &mut moves) {
            Ok(_) => Ok(moves),
            Err(refused) => Err(no_order(refused)?),
        };
        let mut commits = vec![0; words.len()];
        gambozuri::commits(judgement, words, &mut commits)?;
        Ok(Answers {
            explained: String::from_utf8_lossy(&explained).into_owned(),
            violation,
            order,
            commits,
        })
    }
}

/// The note that says why there is no serial order.
fn no_order(refused: Refused) -> Result<String, Refused> {
    let place = refused.place;
    match refused.refusal {
        Refusal::NotReducible => Ok("No serial order: the recording is not reducible.".to_owned()),
        Refusal::BlockStillOpen => Ok(format!(
            "No serial order: the block that begins at line {} [{place}] is open at the end.",
            place + 1
        )),
        _ => Err(refused),
    }
}

/// Which marks are drawn, in the order of the key.
#[derive(Default)]
struct Marks {
    block: bool,
    open: bool,
    commit: bool,
    lock: bool,
    violation: bool,
    join: bool,
    late: bool,
    arrow: bool,
}

impl Marks {
    fn key(&self) -> String {
        let parts = [
            (self.block, "wide bar: atomic block"),
            (self.open, "dashed bar: open at the end"),
            (self.commit, "diamond: its commit"),
            (self.lock, "thin bar: lock held"),
            (self.violation, "red box: the violation"),
            (self.join, "dashed line: from its commit"),
            (self.late, "grey: behind the violation"),
            (self.arrow, "arrow: to its place in the serial order"),
        ];
        let drawn = parts.iter().filter(|part| part.0).map(|part| part.1);
        drawn.collect::<Vec<&str>>().join("; ")
    }
}

/// The picture of a recording, or of its lines from `from` to `to`.
pub fn drawn(words: &[u32], answers: &Answers, from: Option<usize>, to: Option<usize>) -> String {
    let (first, end) = window(words.len(), answers.violation.as_ref(), from, to);
    let head = head(words.len(), answers, first, end);
    let mut picture = Picture {
        answers,
        recording: Recording::new(words),
        rows: Rows {
            first,
            end,
            top: 78 + ROW * head.len(),
        },
        marks: Marks::default(),
        lines: String::new(),
    };
    let right = picture.draw_body();

    let key = picture.marks.key();
    let longest = head.iter().map(|(_, line)| line.len()).max().unwrap_or(0);
    let width = right.max(24 + 7 * longest.max(key.len())).max(768);
    let height = picture.rows.bottom() + 12;
    let body = std::mem::take(&mut picture.lines);
    let explained = answers.explained.trim_end_matches('\n');
    picture.add(format_args!("<!-- {explained} -->"));
    picture.add(format_args!(
        r#"<svg xmlns="http://www.w3.org/2000/svg" width="{width}" height="{height}" viewBox="0 0 {width} {height}" font-family="sans-serif" font-size="12">"#
    ));
    let sentence = explained.lines().next().unwrap_or_default();
    picture.add(format_args!("<title>{sentence}</title>"));
    picture.add(format_args!("{STYLE}"));
    picture.add(format_args!(
        r##"<rect width="{width}" height="{height}" fill="#fff"/>"##
    ));
    for (number, (class, line)) in head.iter().enumerate() {
        picture.text(class, 8, 20 + ROW * number, line);
    }
    if !key.is_empty() {
        picture.text("key", 8, picture.rows.top - 58, &key);
    }
    picture.lines += &body;
    picture.add(format_args!("</svg>"));
    picture.lines
}

/// The lines at the top with their classes: what explain prints, and notes.
fn head(count: usize, answers: &Answers, first: usize, end: usize) -> Vec<(&'static str, String)> {
    let mut head = Vec::new();
    for line in answers.explained.lines() {
        let class = match (&answers.violation, head.is_empty()) {
            (None, _) => "head",
            (Some(_), true) => "wrong",
            (Some(_), false) => "why",
        };
        head.push((class, line.to_owned()));
    }
    if let Err(note) = &answers.order {
        head.push(("note", note.clone()));
    }
    if end - first < count {
        let from = first + 1;
        let note = format!("Lines {from} to {end} of {count} are drawn.");
        head.push(("note", note));
    }
    head
}

/// A picture that is being drawn.
struct Picture<'a> {
    answers: &'a Answers,
    recording: Recording,
    rows: Rows,
    marks: Marks,
    lines: String,
}

impl Picture<'_> {
    fn add(&mut self, line: Arguments) {
        // Writing into a string does not fail.
        let _ = self.lines.write_fmt(line);
        self.lines.push('\n');
    }

    fn text(&mut self, class: &str, x: usize, y: usize, text: &str) {
        self.add(format_args!(
            r#"<text class="{class}" x="{x}" y="{y}">{text}</text>"#
        ));
    }

    /// A bar between two heights.
    fn bar(&mut self, class: &str, x: usize, width: usize, (y, end): (usize, usize)) {
        let height = end.saturating_sub(y);
        self.add(format_args!(
            r#"<rect class="{class}" x="{x}" y="{y}" width="{width}" height="{height}"/>"#
        ));
    }

    /// Draws the numbers of lines, the lanes and the serial order, and gives the right end.
    fn draw_body(&mut self) -> usize {
        let (first, end) = (self.rows.first, self.rows.end);
        let label = |place: usize| format!("{} [{place}]", place + 1);
        let widest = (first..end).last().map_or(0, |last| label(last).len());
        let margin = (8 + 7 * widest).max(72);
        for place in first..end {
            let (y, text) = (self.rows.below(place, BASELINE), label(place));
            self.add(format_args!(
                r#"<text class="line" x="{margin}" y="{y}" text-anchor="end">{text}</text>"#
            ));
        }
        let mut right = margin + 16;
        for (thread, lane) in self.recording.lanes(&self.rows) {
            right = self.draw_lane(thread, &lane, right);
        }
        match &self.answers.order {
            Ok(moves) => {
                self.draw_order(moves, right);
                right + 440
            }
            Err(_) => right + 8,
        }
    }

    /// Draws the lane of a thread and gives its right end.
    fn draw_lane(&mut self, thread: usize, lane: &Lane, left: usize) -> usize {
        self.text(
            "head",
            left,
            self.rows.top - 24,
            &format!("thread {thread}"),
        );
        self.draw_locks(lane, left);
        let bars = left + 16 * lane.holds.len();
        self.draw_blocks(thread, lane, bars);
        let labels = bars + 12 * lane.depth + 4;
        self.draw_frames(lane, bars, labels);
        labels + 136
    }

    fn draw_locks(&mut self, lane: &Lane, left: usize) {
        for (column, (lock, holds)) in lane.holds.iter().enumerate() {
            let x = left + 16 * column;
            let (middle, y) = (x + 3, self.rows.top - 8);
            self.add(format_args!(
                r#"<text class="number" x="{middle}" y="{y}" text-anchor="middle">{lock}</text>"#
            ));
            for hold in holds {
                self.marks.lock = true;
                let end = self.rows.below_end(hold.to, MIDDLE);
                let heights = (self.rows.below(hold.from, MIDDLE), end);
                self.bar(&format!("k{}", lock % 8), x, 6, heights);
            }
        }
    }

    fn draw_blocks(&mut self, thread: usize, lane: &Lane, bars: usize) {
        for block in &lane.blocks {
            let open = block.end.is_none();
            self.marks.block = true;
            self.marks.open |= open;
            let class = format!("block {}t{}", if open { "open " } else { "" }, thread % 8);
            let end = self.rows.below_end(block.end, STOP);
            let heights = (self.rows.below(block.begin, START), end);
            self.bar(&class, bars + 12 * block.depth, 8, heights);
            if let Some(commit) = self.commit(block) {
                self.marks.commit = true;
                let (x, y) = (bars + 4, self.rows.below(commit, MIDDLE) - 5);
                self.add(format_args!(
                    r#"<path class="commit" d="M{x} {y}l5 5l-5 5l-5-5z"/>"#
                ));
            }
        }
    }

    /// The commit of a block, where it is drawn: that of an outermost block before any violation.
    fn commit(&self, block: &Block) -> Option<usize> {
        let counted = *self.answers.commits.get(block.begin)?;
        let commit = usize::try_from(counted).ok()?.checked_sub(1)?;
        let before = match &self.answers.violation {
            Some(violation) => commit < usize::from(violation.frame),
            None => true,
        };
        (block.depth == 0 && self.rows.has(commit) && before).then_some(commit)
    }

    fn draw_frames(&mut self, lane: &Lane, bars: usize, labels: usize) {
        for &place in &lane.frames {
            let class = match &self.answers.violation {
                Some(violation) => match place.cmp(&usize::from(violation.frame)) {
                    Ordering::Less => "frame",
                    Ordering::Equal => {
                        self.draw_violation(violation, place, bars, labels);
                        "wrong"
                    }
                    Ordering::Greater => {
                        self.marks.late = true;
                        "late"
                    }
                },
                None => "frame",
            };
            let label = self.recording.frame(place).map(label).unwrap_or_default();
            self.text(class, labels, self.rows.below(place, BASELINE), &label);
        }
    }

    fn draw_violation(&mut self, violation: &Violation, place: usize, bars: usize, labels: usize) {
        self.marks.violation = true;
        let x = labels - 4;
        let y = self.rows.below(place, MARK);
        self.bar("mark", x, 136, (y, y + 16));
        if let Some(commit) = violation.commit {
            self.marks.join = true;
            let (start, from) = (bars + 4, self.rows.below(commit.into(), MIDDLE));
            let to = self.rows.below(place, MIDDLE);
            self.add(format_args!(
                r#"<path class="join" d="M{start} {from}L{x} {to}"/>"#
            ));
        }
    }

    /// Draws the serial order, to the right of the lanes.
    fn draw_order(&mut self, moves: &[i32], right: usize) {
        let x = right + 186;
        self.text("head", x, self.rows.top - 24, "serial order");
        for (place, &displacement) in moves.iter().enumerate() {
            let Some(frame) = self.recording.frame(place) else {
                continue;
            };
            let to = moved(moves, place);
            let colour = frame.thread % 8;
            if self.rows.has(place) || self.rows.has(to) {
                self.draw_move(colour, place, to, right);
            }
            let last = self.recording.end_of(place).map(|end| moved(moves, end));
            if let Some(last) = last.filter(|&last| self.rows.has_part(to, Some(last))) {
                let heights = (self.rows.below(to, START), self.rows.below(last, STOP));
                self.bar(&format!("block t{colour}"), right + 168, 6, heights);
            }
            if self.rows.has(to) {
                let mut text = format!("thread {}: {}", frame.thread, label(frame));
                if displacement != 0 {
                    text += &format!(" ({})", signed(displacement));
                }
                self.text("frame", x, self.rows.below(to, BASELINE), &text);
            }
        }
    }

    fn draw_move(&mut self, colour: u8, place: usize, to: usize, right: usize) {
        let from = self.rows.below(place, MIDDLE);
        let path = format!(
            "M{right} {from}L{} {}",
            right + 160,
            self.rows.below(to, MIDDLE)
        );
        if place == to {
            self.add(format_args!(r#"<path class="stay" d="{path}"/>"#));
            return;
        }
        self.marks.arrow = true;
        let tip = match self.rows.has(to) {
            true => r#" marker-end="url(#to)""#,
            false => "",
        };
        self.add(format_args!(
            r#"<path class="move t{colour}" d="{path}"{tip}/>"#
        ));
    }
}

/// The place in the serial order of the frame at a place.
fn moved(moves: &[i32], place: usize) -> usize {
    let displacement = moves.get(place).copied().unwrap_or(0);
    place.saturating_add_signed(isize::try_from(displacement).unwrap_or(0))
}

/// A displacement: its sign before it unless it is 0.
pub fn signed(displacement: i32) -> String {
    match displacement {
        0 => "0".to_owned(),
        _ => format!("{displacement:+}"),
    }
}

fn label(frame: Frame) -> String {
    match frame.operation {
        Operation::Acquire(lock) => format!("acquire lock {lock}"),
        Operation::Release(lock) => format!("release lock {lock}"),
        Operation::Read(variable) => format!("read variable {variable}"),
        Operation::Write(variable) => format!("write variable {variable}"),
        Operation::Begin => "begin".to_owned(),
        Operation::End => "end".to_owned(),
    }
}
