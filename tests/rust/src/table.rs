//! Counts of answers by call, as a table.

use crate::case::{Call, Tally, CALLS, EDGES};
use crate::holds::SHOWN;
use crate::{reads, MOST_REFUSAL};

/// A tally for each call.
pub type Tallies = [Tally; CALLS.len()];

/// What an answer is counted as. Lines and lists are accepted; serial orders, displacements, commits,
/// texts, verdict lines and words written.
#[derive(Clone, Copy, Debug)]
pub enum Answer {
    Kind(usize),
    Accepted,
    Written,
    Equal,
    Different,
    Refusal(usize),
}

/// The answers of a call; those on the right recording stand apart.
struct Column {
    name: &'static str,
    call: Call,
    right: bool,
}

fn columns() -> Vec<Column> {
    let mut columns = Vec::new();
    for call in CALLS {
        let (name, right) = (call.name(), false);
        columns.push(Column { name, call, right });
        if call == Call::Equal {
            let (name, right) = ("equal, right", true);
            columns.push(Column { name, call, right });
        }
    }
    columns
}

impl Column {
    /// How often this was the answer; none if it cannot be.
    fn count(&self, answer: Answer, tallies: &Tallies) -> Option<usize> {
        let (call, tally) = (self.call, &tallies[self.call as usize]);
        let kind = |of_call: bool, kind: usize| {
            let possible = of_call && !self.right && call.possible_kinds().contains(&kind);
            possible.then(|| tally.kinds[kind])
        };
        match answer {
            Answer::Kind(number) => kind(call.replies_kind(), number),
            Answer::Accepted => {
                let accepts = matches!(call, Call::Read | Call::Guards | Call::LineRead);
                kind(accepts, 0)
            }
            Answer::Written => {
                let writes = matches!(call, Call::Write | Call::LineWrite);
                kind(call.orders() || call.commits() || call.says() || writes, 0)
            }
            Answer::Equal => kind(call == Call::Equal, 1),
            Answer::Different => kind(call == Call::Equal, 0),
            Answer::Refusal(number) => {
                let counts = match self.right {
                    true => &tally.right_refusals,
                    false => &tally.refusals,
                };
                let possible = call.possible_refusals().contains(&number);
                possible.then(|| counts[number])
            }
        }
    }
}

/// Prints a row of the table; false if a column that can have the answer lacks it, or if none can.
fn print_row(name: &str, answer: Answer, tallies: &Tallies) -> bool {
    print!("{name:10}");
    let mut absent = Vec::new();
    let mut possible = false;
    for column in columns() {
        let count = column.count(answer, tallies);
        let shown = count.map_or("-".into(), |count| count.to_string());
        print!("{shown:>width$}", width = width(&column));
        possible |= count.is_some();
        if count == Some(0) {
            absent.push(column.name);
        }
    }
    println!();
    if !possible || !absent.is_empty() {
        println!("FAILED: {name} did not occur: {}", absent.join(", "));
    }
    possible && absent.is_empty()
}

fn width(column: &Column) -> usize {
    column.name.len().max(8) + 2
}

/// Prints the table; false if something that can occur did not.
pub fn print_table(tallies: &Tallies) -> bool {
    print!("{:10}", "");
    for column in columns() {
        print!("{:>width$}", column.name, width = width(&column));
    }
    println!();
    let mut complete = true;
    let mut row = |name: &str, answer| complete &= print_row(name, answer, tallies);
    for kind in 0..5 {
        row(&format!("kind {kind:02}"), Answer::Kind(kind));
    }
    row("accepted", Answer::Accepted);
    row("written", Answer::Written);
    row("equal", Answer::Equal);
    row("different", Answer::Different);
    for number in 1..=MOST_REFUSAL {
        row(&format!("refusal {number}"), Answer::Refusal(number));
    }
    complete
}

/// Answers in which frames have moved; false if there are none.
pub fn print_moved(tallies: &Tallies) -> bool {
    let mut complete = true;
    let moving = |call: &Call| *call == Call::Equal || call.orders();
    for call in CALLS.into_iter().filter(moving) {
        let tally = &tallies[call as usize];
        let [equal, _, ordered] = tally.moved;
        let (moved, long) = (equal + ordered, tally.long_moved);
        println!(
            "{}: {moved} in another order, {long} of these long",
            call.name()
        );
        complete &= moved > 0 && long > 0;
    }
    complete
}

/// Recordings with an inner acquire and its release, by call and answer; false if an answer lacks
/// them.
pub fn print_inner(tallies: &Tallies) -> bool {
    let mut complete = true;
    for call in CALLS.into_iter().filter(|call| call.checks_recording()) {
        let inner = tallies[call as usize].inner;
        let answer = |kind: &usize| format!("{} {}", call.answer(*kind), inner[*kind]);
        let answers: Vec<String> = call.possible_kinds().iter().map(answer).collect();
        println!("{} with inner pairs: {}", call.name(), answers.join(", "));
        let absent = call.possible_kinds().iter().any(|&kind| inner[kind] == 0);
        if absent {
            println!("FAILED: an answer of {} has no inner pairs", call.name());
        }
        complete &= !absent;
    }
    complete
}

/// The boundaries of texts and verdict lines, of locks taken again, and of exchanged reads; false
/// if one was not met.
pub fn print_edges<'a>(tallies: impl IntoIterator<Item = &'a Tally>) -> bool {
    let mut all = Tally::default();
    tallies.into_iter().for_each(|tally| all.add(tally));
    let edges = EDGES.iter().zip(all.edges);
    let shown = SHOWN.iter().zip(all.shown);
    let reads = reads::SHOWN.iter().zip(all.reads);
    let mut complete = true;
    for (name, count) in edges.chain(shown).chain(reads) {
        println!("{name}: {count}");
        complete &= count > 0;
    }
    if !complete {
        println!("FAILED: a boundary of texts, verdict lines, locks or reads was not met");
    }
    complete
}

/// Whether some call gave this answer.
pub fn occurs(answer: Answer, tallies: &Tallies) -> bool {
    let counts = |column: &Column| column.count(answer, tallies);
    columns().iter().filter_map(counts).any(|count| count > 0)
}
