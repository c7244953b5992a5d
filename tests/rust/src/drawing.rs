//! The picture that `tracetool draw` prints, by docs/TOOL.md and docs/FORMAT.md alone.

use crate::{Action, Frame, Violation};
use std::collections::BTreeSet;
use std::ops::Range;

const STYLE: &str = r##"<style>text{fill:#222}.wrong{fill:#c00;font-weight:bold}.why{fill:#c00}.late{fill:#999}.key,.line,.number,.note{fill:#666}
.number{font-size:9px}.head{font-weight:bold}.block{fill-opacity:.45}.open{fill-opacity:.12;stroke-dasharray:4 3}.commit{fill:#000}
.mark{fill:#fdd;stroke:#c00}.join{fill:none;stroke:#c00;stroke-dasharray:2 2}
.move{fill:none;stroke-opacity:.8}.stay{fill:none;stroke:#ccc}.t0{fill:#1f77b4;stroke:#1f77b4}.t1{fill:#d9730d;stroke:#d9730d}
.t2{fill:#2ca02c;stroke:#2ca02c}.t3{fill:#9467bd;stroke:#9467bd}.t4{fill:#8c564b;stroke:#8c564b}.t5{fill:#17a2b8;stroke:#17a2b8}
.t6{fill:#b5a200;stroke:#b5a200}.t7{fill:#e377c2;stroke:#e377c2}.k0{fill:#222}.k1{fill:#888}.k2{fill:#555}.k3{fill:#aaa}
.k4{fill:#333}.k5{fill:#999}.k6{fill:#666}.k7{fill:#bbb}
.move.t0,.move.t1,.move.t2,.move.t3,.move.t4,.move.t5,.move.t6,.move.t7{fill:none}</style>
<defs><marker id="to" viewBox="0 0 8 8" refX="8" refY="4" markerWidth="7" markerHeight="7" orient="auto"><path d="M0 0L8 4L0 8z" fill="#444"/></marker></defs>
"##;
/// The parts of the key, each with the start of what it explains.
const KEY: [(&str, &str); 8] = [
    ("wide bar: atomic block", "<rect class=\"block "),
    ("dashed bar: open at the end", "<rect class=\"block open "),
    ("diamond: its commit", "<path class=\"commit\""),
    ("thin bar: lock held", "<rect class=\"k"),
    ("red box: the violation", "<rect class=\"mark\""),
    ("dashed line: from its commit", "<path class=\"join\""),
    ("grey: behind the violation", "<text class=\"late\""),
    (
        "arrow: to its place in the serial order",
        "<path class=\"move ",
    ),
];

/// What is drawn, of a sound recording.
pub struct Picture<'a> {
    /// What explain prints.
    pub explained: &'a str,
    pub frames: &'a [Frame],
    /// The places that are drawn.
    pub rows: Range<usize>,
    /// The commit of each unit, by the place of its start.
    pub commits: Vec<Option<usize>>,
    pub violation: Option<Violation>,
    /// Where a block begins that is open at the end, if that is why there is no serial order.
    pub open: Option<usize>,
    /// The displacements, where there is a serial order.
    pub moves: Option<Vec<i32>>,
}

struct Lane {
    thread: u8,
    x: usize,
    /// Those that the thread holds in the rows drawn, in rising order.
    locks: Vec<u16>,
    /// How many nested blocks are drawn.
    depth: usize,
}

impl Lane {
    /// Where the bars of blocks begin.
    fn blocks(&self) -> usize {
        self.x + 16 * self.locks.len()
    }

    fn labels(&self) -> usize {
        self.blocks() + 12 * self.depth + 4
    }

    fn end(&self) -> usize {
        self.blocks() + 12 * self.depth + 140
    }
}

/// A time that a thread holds a lock, or a block of it: its first place, and its last one if there
/// is one.
struct Span {
    thread: u8,
    /// The lock, or the depth before the block.
    number: u16,
    from: usize,
    to: Option<usize>,
}

fn label(action: Action) -> String {
    match action {
        Action::Acquire(lock) | Action::InnerAcquire(lock) => format!("acquire lock {lock}"),
        Action::Release(lock) | Action::InnerRelease(lock) => format!("release lock {lock}"),
        Action::Read(variable) => format!("read variable {variable}"),
        Action::Write(variable) => format!("write variable {variable}"),
        Action::Begin => "begin".into(),
        Action::End => "end".into(),
    }
}

impl Picture<'_> {
    /// The times that locks are held, in the order of their acquires.
    fn holds(&self) -> Vec<Span> {
        let mut holds: Vec<Span> = Vec::new();
        for (place, frame) in self.frames.iter().enumerate() {
            match frame.action {
                Action::Acquire(lock) => holds.push(Span {
                    thread: frame.thread,
                    number: lock,
                    from: place,
                    to: None,
                }),
                Action::Release(lock) => {
                    let mut held = holds.iter_mut().rev();
                    let held = held.find(|held| held.number == lock);
                    held.expect("held").to = Some(place);
                }
                _ => {}
            }
        }
        holds
    }

    /// The blocks, in the order of their begins.
    fn blocks(&self) -> Vec<Span> {
        let mut blocks: Vec<Span> = Vec::new();
        for (place, frame) in self.frames.iter().enumerate() {
            let open = |block: &&mut Span| block.thread == frame.thread && block.to.is_none();
            match frame.action {
                Action::Begin => {
                    let depth = blocks.iter_mut().filter(open).count() as u16;
                    blocks.push(Span {
                        thread: frame.thread,
                        number: depth,
                        from: place,
                        to: None,
                    });
                }
                Action::End => {
                    let mut blocks = blocks.iter_mut().rev();
                    blocks.find(open).expect("open").to = Some(place);
                }
                _ => {}
            }
        }
        blocks
    }

    /// Whether any of it is drawn.
    fn shows(&self, from: usize, to: Option<usize>) -> bool {
        from < self.rows.end && to.is_none_or(|to| to >= self.rows.start)
    }

    /// Those of a thread that are drawn.
    fn drawn<'s>(&'s self, spans: &'s [Span], thread: u8) -> impl Iterator<Item = &'s Span> {
        let drawn = move |span: &&Span| span.thread == thread && self.shows(span.from, span.to);
        spans.iter().filter(drawn)
    }

    /// So far below the top of a row, or the edge of the rows that is nearer to it.
    fn at(&self, top: usize, place: usize, below: usize) -> usize {
        if place < self.rows.start {
            top
        } else if place >= self.rows.end {
            self.bottom(top)
        } else {
            top + 18 * (place - self.rows.start) + below
        }
    }

    fn bottom(&self, top: usize) -> usize {
        top + 18 * self.rows.len()
    }

    /// The rows of a thread.
    fn rows_of(&self, thread: u8) -> impl Iterator<Item = usize> + '_ {
        let of = move |&place: &usize| self.frames[place].thread == thread;
        self.rows.clone().filter(of)
    }

    fn lanes(&self, gutter: usize, holds: &[Span], blocks: &[Span]) -> Vec<Lane> {
        let rows = &self.frames[self.rows.clone()];
        let threads: BTreeSet<u8> = rows.iter().map(|frame| frame.thread).collect();
        let mut x = gutter + 16;
        let mut lanes = Vec::new();
        for thread in threads {
            let locks: BTreeSet<u16> = self.drawn(holds, thread).map(|hold| hold.number).collect();
            let depths = self.drawn(blocks, thread);
            let depth = depths.map(|block| usize::from(block.number) + 1).max();
            let lane = Lane {
                thread,
                x,
                locks: locks.into_iter().collect(),
                depth: depth.unwrap_or(0),
            };
            x = lane.end();
            lanes.push(lane);
        }
        lanes
    }

    /// The lines above the rows, each with its class.
    fn head(&self) -> Vec<(&'static str, String)> {
        let class = |line| match (self.violation, line) {
            (None, _) => "head",
            (Some(_), 0) => "wrong",
            (Some(_), _) => "why",
        };
        let explained = self.explained.lines().enumerate();
        let mut head: Vec<_> = explained
            .map(|(line, text)| (class(line), text.to_string()))
            .collect();
        let mut note = |text: String| head.push(("note", text));
        match (self.violation, self.open) {
            (Some(_), _) => note("No serial order: the recording is not reducible.".into()),
            (None, Some(begin)) => note(format!(
                "No serial order: the block that begins at line {} [{begin}] is open at the end.",
                begin + 1
            )),
            (None, None) => {}
        }
        let (rows, count) = (&self.rows, self.frames.len());
        if rows.len() < count {
            let (from, to) = (rows.start + 1, rows.end);
            note(format!("Lines {from} to {to} of {count} are drawn."));
        }
        head
    }

    pub fn svg(&self) -> String {
        let head = self.head();
        let top = 78 + 18 * head.len();
        let height = self.bottom(top) + 12;
        let number = |place: usize| format!("{} [{place}]", place + 1);
        let last = self.rows.clone().last().map(number);
        let gutter = last.map_or(72, |text| 72.max(8 + 7 * text.len()));
        let (holds, blocks) = (self.holds(), self.blocks());
        let lanes = self.lanes(gutter, &holds, &blocks);
        let right = lanes.last().map_or(gutter + 16, Lane::end);

        let mut drawn = String::new();
        for place in self.rows.clone() {
            let (y, number) = (self.at(top, place, 13), number(place));
            drawn += &format!(
                "<text class=\"line\" x=\"{gutter}\" y=\"{y}\" text-anchor=\"end\">{number}</text>\n"
            );
        }
        for lane in &lanes {
            let (x, y, thread) = (lane.x, top - 24, lane.thread);
            drawn += &format!("<text class=\"head\" x=\"{x}\" y=\"{y}\">thread {thread}</text>\n");
            drawn += &self.lock_bars(lane, top, &holds);
            drawn += &self.block_bars(lane, top, &blocks);
            drawn += &self.labels(lane, top);
        }
        // A bar in the serial order is no bar of a lane.
        let mut key = self.key(&drawn);
        if let Some(moves) = &self.moves {
            let order = self.order(moves, right, top, &blocks);
            key.extend(
                self.key(&order)
                    .iter()
                    .filter(|part| part.starts_with("arrow")),
            );
            drawn += &order;
        }
        let key = key.join("; ");

        let longest = head.iter().map(|(_, text)| text.len()).max();
        let longest = longest.unwrap_or(0).max(key.len());
        let edge = right + if self.moves.is_some() { 440 } else { 8 };
        let width = edge.max(24 + 7 * longest).max(768);
        let explained = self.explained.trim_end_matches('\n');
        let sentence = explained.lines().next().expect("a sentence");
        let mut svg = format!(
            "<!-- {explained} -->\n\
             <svg xmlns=\"http://www.w3.org/2000/svg\" width=\"{width}\" height=\"{height}\" \
             viewBox=\"0 0 {width} {height}\" font-family=\"sans-serif\" font-size=\"12\">\n\
             <title>{sentence}</title>\n"
        );
        svg += STYLE;
        svg += &format!("<rect width=\"{width}\" height=\"{height}\" fill=\"#fff\"/>\n");
        for (line, (class, text)) in head.iter().enumerate() {
            let y = 20 + 18 * line;
            svg += &format!("<text class=\"{class}\" x=\"8\" y=\"{y}\">{text}</text>\n");
        }
        if !key.is_empty() {
            let y = top - 58;
            svg += &format!("<text class=\"key\" x=\"8\" y=\"{y}\">{key}</text>\n");
        }
        svg + &drawn + "</svg>\n"
    }

    /// The parts of the key whose marks stand here.
    fn key(&self, drawn: &str) -> Vec<&'static str> {
        let stands = |part: &&(&str, &str)| drawn.contains(part.1);
        KEY.iter().filter(stands).map(|part| part.0).collect()
    }

    /// The bars of a lane's locks.
    fn lock_bars(&self, lane: &Lane, top: usize, holds: &[Span]) -> String {
        let mut svg = String::new();
        for (column, &lock) in lane.locks.iter().enumerate() {
            let x = lane.x + 16 * column;
            let (middle, y) = (x + 3, top - 8);
            svg += &format!(
                "<text class=\"number\" x=\"{middle}\" y=\"{y}\" text-anchor=\"middle\">{lock}</text>\n"
            );
            for hold in self.drawn(holds, lane.thread) {
                if hold.number != lock {
                    continue;
                }
                let from = self.at(top, hold.from, 9);
                let to = hold.to.map_or(self.bottom(top), |to| self.at(top, to, 9));
                svg += &format!(
                    "<rect class=\"k{}\" x=\"{x}\" y=\"{from}\" width=\"6\" height=\"{}\"/>\n",
                    lock % 8,
                    to - from
                );
            }
        }
        svg
    }

    /// The bars of a lane's blocks, and their commits.
    fn block_bars(&self, lane: &Lane, top: usize, blocks: &[Span]) -> String {
        let mut svg = String::new();
        for block in self.drawn(blocks, lane.thread) {
            let x = lane.blocks() + 12 * usize::from(block.number);
            let from = self.at(top, block.from, 2);
            let (open, to) = match block.to {
                Some(end) => ("", self.at(top, end, 16)),
                None => ("open ", self.bottom(top)),
            };
            svg += &format!(
                "<rect class=\"block {open}t{}\" x=\"{x}\" y=\"{from}\" width=\"8\" height=\"{}\"/>\n",
                lane.thread % 8,
                to - from
            );
            if block.number > 0 {
                continue;
            }
            let judged = |commit: usize| self.violation.is_none_or(|wrong| commit < wrong.frame);
            let shown = |&commit: &usize| self.rows.contains(&commit) && judged(commit);
            if let Some(commit) = self.commits[block.from].filter(shown) {
                let (x, y) = (lane.blocks() + 4, self.at(top, commit, 9) - 5);
                svg += &format!("<path class=\"commit\" d=\"M{x} {y}l5 5l-5 5l-5-5z\"/>\n");
            }
        }
        svg
    }

    /// What each frame of a lane does.
    fn labels(&self, lane: &Lane, top: usize) -> String {
        let mut svg = String::new();
        let x = lane.labels();
        for place in self.rows_of(lane.thread) {
            let class = match self.violation {
                Some(wrong) if place == wrong.frame => {
                    svg += &self.mark(wrong, lane, top);
                    "wrong"
                }
                Some(wrong) if place > wrong.frame => "late",
                _ => "frame",
            };
            let (y, label) = (self.at(top, place, 13), label(self.frames[place].action));
            svg += &format!("<text class=\"{class}\" x=\"{x}\" y=\"{y}\">{label}</text>\n");
        }
        svg
    }

    /// The violation's box, and the line from its block's commit.
    fn mark(&self, wrong: Violation, lane: &Lane, top: usize) -> String {
        let (x, y) = (lane.labels() - 4, self.at(top, wrong.frame, 1));
        let mut svg =
            format!("<rect class=\"mark\" x=\"{x}\" y=\"{y}\" width=\"136\" height=\"16\"/>\n");
        if let Some(commit) = wrong.commit {
            let (from, y1) = (lane.blocks() + 4, self.at(top, commit, 9));
            let y2 = self.at(top, wrong.frame, 9);
            svg += &format!("<path class=\"join\" d=\"M{from} {y1}L{x} {y2}\"/>\n");
        }
        svg
    }

    /// The serial order, and the way of each frame to it.
    fn order(&self, moves: &[i32], right: usize, top: usize, blocks: &[Span]) -> String {
        let (x, y) = (right + 186, top - 24);
        let mut svg = format!("<text class=\"head\" x=\"{x}\" y=\"{y}\">serial order</text>\n");
        let moved = |place: usize| (place as i32 + moves[place]) as usize;
        for (place, frame) in self.frames.iter().enumerate() {
            let (by, to, class) = (moves[place], moved(place), frame.thread % 8);
            let lands = self.rows.contains(&to);
            let (y1, x2, y2) = (self.at(top, place, 9), right + 160, self.at(top, to, 9));
            let way = format!("M{right} {y1}L{x2} {y2}");
            let head = if lands {
                " marker-end=\"url(#to)\""
            } else {
                ""
            };
            if self.rows.contains(&place) || lands {
                svg += &match by {
                    0 => format!("<path class=\"stay\" d=\"{way}\"/>\n"),
                    _ => format!("<path class=\"move t{class}\" d=\"{way}\"{head}/>\n"),
                };
            }
            let outermost = |block: &&Span| block.from == place && block.number == 0;
            if let Some(block) = blocks.iter().find(outermost) {
                let end = moved(block.to.expect("closed"));
                if self.shows(to, Some(end)) {
                    let (from, to) = (self.at(top, to, 2), self.at(top, end, 16));
                    svg += &format!(
                        "<rect class=\"block t{class}\" x=\"{}\" y=\"{from}\" width=\"6\" height=\"{}\"/>\n",
                        right + 168,
                        to - from
                    );
                }
            }
            if lands {
                let (y, thread, label) = (self.at(top, to, 13), frame.thread, label(frame.action));
                let by = match by {
                    0 => String::new(),
                    _ => format!(" ({by:+})"),
                };
                svg += &format!(
                    "<text class=\"frame\" x=\"{x}\" y=\"{y}\">thread {thread}: {label}{by}</text>\n"
                );
            }
        }
        svg
    }
}
