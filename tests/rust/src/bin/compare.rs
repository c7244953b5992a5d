//! Compares the archive with the reference checker: literal cases of docs/FORMAT.md, then many
//! seeded random cases. Every reply and every lent buffer is compared whole.
//! Arguments: an optional seed.

use std::process::exit;
use trace_tests::adversarial::{
    furthest, near_lines, random_fields, readers, rooms, word, ACQUIRE, BEGIN, EDGE_KINDS,
    EDGE_PLACES, END, READ, RELEASE, THREADS, WRITE,
};
use trace_tests::case::{
    frames, text, Call, Case, Implementation, Outcome, Tally, CALLS, MARGIN, REFERENCE,
};
use trace_tests::holds::has_inner_pair;
use trace_tests::library::LIBRARY;
use trace_tests::random::{self, text_of_words, Random};
use trace_tests::random_case::{random_case, random_recording, random_right};
use trace_tests::table::print_edges;
use trace_tests::{
    brute_equal, check_recording, equal, moves_declared, moves_inferred, plain, reads, say_line,
    Fields, LINE_BYTES, MOST_FRAMES, VARIABLES,
};

const DEFAULT_SEED: u64 = 1;
const CHECK_CASES: usize = 200_000;
const EQUAL_CASES: usize = 120_000;
const OTHER_CASES: usize = 60_000;
/// Pairs for the search that equality is defined by.
const BRUTE_PAIRS: usize = 6_000;
const BRUTE_FRAMES: usize = 8;
/// All recordings of up to so many frames, for the furthest displacements.
const FURTHEST_FRAMES: usize = 6;
/// Lines and replies with words that are not theirs.
const FOREIGN: usize = 60_000;
/// One case of so many is about the limit of 4,096 frames.
const LONG_EVERY: usize = 400;

/// The other calls are those of the reference.
const PLAIN: Implementation = Implementation {
    name: "plain Rust",
    check: plain::check,
    equal: plain::equal,
    serial_declared: plain::serial_declared,
    serial_inferred: plain::serial_inferred,
    moves_declared: plain::moves_declared,
    moves_inferred: plain::moves_inferred,
    write: plain::write,
    line_read: plain::line_read,
    ..REFERENCE
};

const PLAIN_CALLS: [Call; 8] = [
    Call::Check,
    Call::Equal,
    Call::SerialDeclared,
    Call::SerialInferred,
    Call::MovesDeclared,
    Call::MovesInferred,
    Call::Write,
    Call::LineRead,
];

/// No call at all: the buffers as they were lent.
const NOTHING: Implementation = Implementation {
    name: "untouched",
    check: |_, _| 0,
    read: |_, _| 0,
    guards: |_| 0,
    declared: |_, _, _| 0,
    inferred: |_, _, _| 0,
    equal: |_, _| 0,
    serial_declared: |_, _, _| 0,
    serial_inferred: |_, _| 0,
    moves_declared: |_, _, _| 0,
    moves_inferred: |_, _| 0,
    commits_declared: |_, _, _| 0,
    commits_inferred: |_, _| 0,
    write: |_, _, _| 0,
    line_read: |_, _| 0,
    line_write: |_, _| 0,
    say_verdict: |_, _, _| 0,
    say_refusal: |_, _, _, _, _| 0,
    say_line: |_, _| 0,
    say_kind: |_, _| 0,
    say_refusal_name: |_, _| 0,
};

/// The outcome of the reference, which the library and the plain checker must share.
fn compare(case: &Case) -> Outcome {
    let others: &[&Implementation] = if PLAIN_CALLS.contains(&case.call) {
        &[&LIBRARY, &PLAIN]
    } else {
        &[&LIBRARY]
    };
    case.compare(others).unwrap_or_else(|difference| {
        println!("{difference}");
        exit(1)
    })
}

// Literal cases.

/// The first of these calls, or with a list the second.
fn order_case(calls: [Call; 2], list: Option<&[u8]>, frames: &[u32], out_len: usize) -> Case {
    let mut case = Case::new(calls[usize::from(list.is_some())]);
    case.text = list.unwrap_or_default().to_vec();
    (case.frames, case.words_len) = (frames.to_vec(), out_len);
    case
}

#[derive(Default)]
struct Literals {
    checked: usize,
}

impl Literals {
    /// Each implementation must give this reply and hold for `sound`.
    fn expect(&mut self, case: Case, reply: u64, sound: &dyn Fn(&Outcome, &Outcome) -> bool) {
        self.checked += 1;
        let untouched = case.run(&NOTHING);
        for implementation in [&REFERENCE, &PLAIN, &LIBRARY] {
            let outcome = case.run(implementation);
            if outcome.reply != reply || !outcome.input_kept || !sound(&outcome, &untouched) {
                println!(
                    "LITERAL CASE {}: {} differs, expected reply {reply:X}\n{case}\n{}\n{}",
                    self.checked,
                    implementation.name,
                    case.run(&REFERENCE).describe(REFERENCE.name),
                    outcome.describe(implementation.name)
                );
                exit(1);
            }
        }
    }

    /// A verdict line of 32 digits; sets are as given, or untouched.
    fn expect_line(&mut self, case: Case, line: &str, sets: Option<&[u64; VARIABLES]>) {
        let kind = u64::from_str_radix(&line[..2], 16).expect("two digits");
        self.expect(case, kind, &|outcome, before| {
            let mut line_after = before.line.clone();
            line_after[MARGIN..][..LINE_BYTES].copy_from_slice(format!("{line}\n").as_bytes());
            let mut sets_after = before.sets.clone();
            if let Some(sets) = sets {
                sets_after[MARGIN..][..VARIABLES].copy_from_slice(sets);
            }
            outcome.line == line_after && outcome.sets == sets_after
        });
    }

    fn check(&mut self, text: &[u8], line: &str) {
        for line_len in [33, 34, 64] {
            let mut case = Case::new(Call::Check);
            (case.text, case.line_len) = (text.to_vec(), line_len);
            self.expect_line(case, line, None);
        }
    }

    fn declared(&mut self, list: &str, words: &str, line: &str) {
        self.declared_raw(&text(list), &frames(words), line);
    }

    fn declared_raw(&mut self, list: &[u8], frames: &[u32], line: &str) {
        let mut case = Case::new(Call::Declared);
        (case.text, case.frames) = (list.to_vec(), frames.to_vec());
        self.expect_line(case, line, None);
    }

    /// The same recording through `trace_check` and `trace_inferred`; `sets` names the final
    /// candidate sets that are not all locks.
    fn inferred(&mut self, words: &str, line: &str, sets: &[(usize, u64)]) {
        self.inferred_raw(&frames(words), line, sets);
    }

    fn inferred_raw(&mut self, frames: &[u32], line: &str, sets: &[(usize, u64)]) {
        self.check(&text_of_words(frames), line);
        let mut table = [u64::MAX; VARIABLES];
        for &(variable, set) in sets {
            table[variable] = set;
        }
        for sets_len in [1024, 1030] {
            let mut case = Case::new(Call::Inferred);
            (case.frames, case.sets_len) = (frames.to_vec(), sets_len);
            let refused = line.as_bytes()[0] == b'8' || line.as_bytes()[0] == b'9';
            self.expect_line(case, line, (!refused).then_some(&table));
        }
    }

    /// The recording's soundness is the same with declared guards.
    fn refused(&mut self, words: &str, line: &str) {
        self.inferred(words, line, &[]);
        self.declared("", words, line);
        self.declared("00050002", words, line);
    }

    fn read(&mut self, text: &[u8], words_len: usize, reply: u64, words: &[u32]) {
        let mut case = Case::new(Call::Read);
        (case.text, case.words_len) = (text.to_vec(), words_len);
        self.expect(case, reply, &|outcome, before| {
            let mut words_after = before.words.clone();
            words_after[MARGIN..][..words.len()].copy_from_slice(words);
            outcome.words == words_after
        });
    }

    fn guards(&mut self, list: &[u8], reply: u64) {
        let mut case = Case::new(Call::Guards);
        case.text = list.to_vec();
        self.expect(case, reply, &|_, _| true);
    }

    /// Both ways round, for pairs that are not refused.
    fn equal(&mut self, left: &str, right: &str, reply: u64) {
        self.equal_raw(&frames(left), &frames(right), reply);
        self.equal_raw(&frames(right), &frames(left), reply);
    }

    /// Each right recording with its reply.
    fn equal_each(&mut self, left: &str, rights: &[(&str, u64)]) {
        for &(right, reply) in rights {
            self.equal(left, right, reply);
        }
    }

    fn equal_raw(&mut self, left: &[u32], right: &[u32], reply: u64) {
        let mut case = Case::new(Call::Equal);
        (case.frames, case.right) = (left.to_vec(), right.to_vec());
        self.expect(case, reply, &|_, _| true);
    }

    /// The serial order by place, and the displacements, in outputs of exact and of greater length;
    /// a shorter one is refused by 15 or 21. Without a list the guards are inferred.
    fn serial(&mut self, list: Option<&str>, words: &str, places: &[usize]) {
        let frames = frames(words);
        let order: Vec<u32> = places.iter().map(|&place| frames[place]).collect();
        let count = frames.len();
        let moves = (0..count).map(|place| {
            let to = places.iter().position(|&from| from == place);
            to.expect("each place") as i32 - place as i32
        });
        let moves: Vec<i32> = moves.collect();
        let list = list.map(text);
        for out_len in [0, count.saturating_sub(1), count, count + 1, count + 20] {
            self.order_raw(list.as_deref(), &frames, out_len, &order, &moves);
        }
    }

    /// Both are written where there is room.
    fn order_raw(
        &mut self,
        list: Option<&[u8]>,
        frames: &[u32],
        out_len: usize,
        order: &[u32],
        moves: &[i32],
    ) {
        let count = frames.len();
        if out_len < count {
            self.serial_raw(list, frames, out_len, 15 << 32 | count as u64, &[]);
            self.moves_raw(list, frames, out_len, 21 << 32 | count as u64, &[]);
        } else {
            self.serial_raw(list, frames, out_len, count as u64, order);
            self.moves_raw(list, frames, out_len, count as u64, moves);
        }
    }

    fn serial_raw(
        &mut self,
        list: Option<&[u8]>,
        frames: &[u32],
        out_len: usize,
        reply: u64,
        order: &[u32],
    ) {
        let calls = [Call::SerialInferred, Call::SerialDeclared];
        let case = order_case(calls, list, frames, out_len);
        self.expect(case, reply, &|outcome, before| {
            let mut words_after = before.words.clone();
            words_after[MARGIN..][..order.len()].copy_from_slice(order);
            outcome.words == words_after
        });
    }

    fn moves_raw(
        &mut self,
        list: Option<&[u8]>,
        frames: &[u32],
        out_len: usize,
        reply: u64,
        moves: &[i32],
    ) {
        let calls = [Call::MovesInferred, Call::MovesDeclared];
        let case = order_case(calls, list, frames, out_len);
        self.expect(case, reply, &|outcome, before| {
            let mut moves_after = before.moves.clone();
            moves_after[MARGIN..][..moves.len()].copy_from_slice(moves);
            outcome.moves == moves_after
        });
    }

    /// Both are refused whatever the length of the output, which stays as it was.
    fn serial_refused(&mut self, list: Option<&str>, words: &str, number: u64, place: u64) {
        let (list, frames) = (list.map(text), frames(words));
        for out_len in [0, frames.len(), frames.len() + 5] {
            self.refused_raw(list.as_deref(), &frames, out_len, number << 32 | place);
        }
    }

    fn refused_raw(&mut self, list: Option<&[u8]>, frames: &[u32], out_len: usize, refusal: u64) {
        self.serial_raw(list, frames, out_len, refusal, &[]);
        self.moves_raw(list, frames, out_len, refusal, &[]);
    }

    /// These words are written from a place on into a text of this length.
    fn write(&mut self, words: &[u32], text_len: usize, place: usize) {
        let text = text_of_words(words);
        self.write_raw(words, (text_len, place), text.len() as u64, &text);
    }

    /// Nothing is written.
    fn write_refused(&mut self, words: &[u32], room: (usize, usize), number: u64, at: u64) {
        self.write_raw(words, room, number << 32 | at, b"");
    }

    fn write_raw(&mut self, words: &[u32], room: (usize, usize), reply: u64, text: &[u8]) {
        let mut case = Case::new(Call::Write);
        case.frames = words.to_vec();
        (case.text_len, case.place) = room;
        self.expect(case, reply, &|outcome, before| {
            let mut text_after = before.text.clone();
            if !text.is_empty() {
                text_after[MARGIN + room.1..][..text.len()].copy_from_slice(text);
            }
            outcome.text == text_after
        });
    }

    /// No fields: refused by 18, and the numbers stay.
    fn line_read(&mut self, line: &[u8], fields: Option<Fields>) {
        let mut case = Case::new(Call::LineRead);
        (case.text, case.fill) = (line.to_vec(), self.checked as u64);
        let reply = if fields.is_some() { 0 } else { 18 << 32 };
        self.expect(case, reply, &|outcome, before| {
            let mut numbers_after = before.numbers.clone();
            if let Some(fields) = fields {
                numbers_after.set(fields);
            }
            outcome.numbers == numbers_after
        });
    }

    /// Refused by 17, by 18, or written as this line.
    fn line_write(&mut self, fields: Fields, line: Option<&[u8]>) {
        for line_len in [0, 1, 32, 33, 34, 40] {
            let mut case = Case::new(Call::LineWrite);
            (case.fields, case.line_len) = (fields, line_len);
            let (reply, written) = match line {
                _ if line_len < LINE_BYTES => (17 << 32 | 33, None),
                None => (18 << 32, None),
                Some(_) => (33, line),
            };
            self.expect(case, reply, &|outcome, before| {
                let mut line_after = before.line.clone();
                if let Some(line) = written {
                    line_after[MARGIN..][..LINE_BYTES].copy_from_slice(line);
                }
                outcome.line == line_after
            });
        }
    }

    /// The commit of the unit that starts at each place, or none, in lists of several lengths.
    fn commits(&mut self, list: Option<&str>, words: &str, commits: &[Option<u32>]) {
        let (list, frames) = (list.map(text), frames(words));
        let count = frames.len();
        for len in [0, 1, count.saturating_sub(1), count, count + 1, count + 20] {
            let calls = [Call::CommitsInferred, Call::CommitsDeclared];
            let case = order_case(calls, list.as_deref(), &frames, len);
            self.expect(case, count as u64, &|outcome, before| {
                let mut after = before.words.clone();
                for (entry, commit) in after[MARGIN..][..len].iter_mut().zip(commits) {
                    *entry = commit.map_or(*entry, |commit| commit + 1);
                }
                outcome.words == after
            });
        }
    }

    fn commits_refused(&mut self, list: Option<&str>, words: &str, number: u64, place: u64) {
        let (list, frames) = (list.map(text), frames(words));
        for len in [0, frames.len(), frames.len() + 5] {
            let calls = [Call::CommitsInferred, Call::CommitsDeclared];
            let case = order_case(calls, list.as_deref(), &frames, len);
            self.expect(case, number << 32 | place, &|outcome, before| {
                outcome.words == before.words
            });
        }
    }

    /// The words said, into outputs of several lengths.
    fn said(&mut self, mut case: Case, said: &str) {
        let whole = said.len();
        for len in [
            0,
            1,
            whole / 2,
            whole.saturating_sub(1),
            whole,
            whole + 1,
            whole + 50,
        ] {
            case.text_len = len;
            self.expect(case.clone(), whole as u64, &|outcome, before| {
                let mut after = before.text.clone();
                let count = len.min(whole);
                after[MARGIN..][..count].copy_from_slice(&said.as_bytes()[..count]);
                outcome.text == after
            });
        }
    }

    fn said_verdict(&mut self, line: &str, words: &str, said: &str) {
        let mut case = Case::new(Call::SayVerdict);
        (case.text, case.frames) = (text(line), frames(words));
        self.said(case, said);
    }

    /// The refusal of a text or of words, which may be at hand or not.
    fn said_refusal(&mut self, reply: (u64, u64), source: u32, at: (&[u8], &str), said: &str) {
        for side in [0, 256] {
            let mut case = Case::new(Call::SayRefusal);
            (case.reply, case.source) = ((reply.0 | side) << 32 | reply.1, source);
            (case.text, case.frames) = (at.0.to_vec(), frames(at.1));
            self.said(case, said);
        }
    }

    fn said_of(&mut self, call: Call, kind: u8, said: &str) {
        let mut case = Case::new(call);
        case.fields.kind = kind;
        self.said(case, said);
    }

    /// Refusal 17 comes first, whatever the input; nothing is written.
    fn short_line(&mut self, mut case: Case) {
        for line_len in [0, 1, 32] {
            case.line_len = line_len;
            self.expect(case.clone(), 0x91, &|outcome, before| {
                outcome.line == before.line && outcome.sets == before.sets
            });
        }
    }
}

fn worked_recordings(to: &mut Literals) {
    // A
    let a = "05010000 01010000 03010000 02010000 01010000 03010001 02010000 06010000";
    to.inferred(a, "03000401000000030000000000000001", &[(0, 1)]);
    to.declared("00000000 00010000", a, "03000401000000030000000000000001");
    // B
    to.inferred("", "00000000FFFFFFFF0000000000000000", &[]);
    to.declared("", "", "00000000FFFFFFFF0000000000000000");
    // C
    let c = "05000000 05010000 01000000 04000000 02000000 01010000 04010000 06000000 \
             02010000 06010000";
    to.inferred(c, "00000A00FFFFFFFF0000000000000000", &[(0, 1)]);
    // D
    to.inferred("03000005", "04000000FFFFFFFFFFFFFFFFFFFFFFFF", &[]);
    to.declared("", "03000005", "00000100FFFFFFFF0000000000000000");
    // E, F, G
    to.declared(
        "",
        "05000000 03000005 03000005",
        "02000200000000010000000000000000",
    );
    to.declared(
        "",
        "05000000 03000005 06000000",
        "00000300FFFFFFFF0000000000000000",
    );
    to.declared("00050002", "03000005", "01000000FFFFFFFF0000000000000004");
    // J; H, I and O concern equality alone, as below
    to.refused("01000003 01010003", "87000100FFFFFFFF0000000000000000");
    to.refused("01000003 02010003", "88000100FFFFFFFF0000000000000000");
    // Variable 5 under locks {1,2}, then {2,3}, then {3}
    let shared = "01000001 01000002 03000005 02000001 01000003 04000005";
    to.inferred(shared, "00000600FFFFFFFF0000000000000000", &[(5, 4)]);
    let emptied = format!("{shared} 02000002 03000005");
    to.inferred(&emptied, "04000700FFFFFFFF0000000000000004", &[(5, 4)]);
    // Begin alone
    to.inferred("05000000", "00000100FFFFFFFF0000000000000000", &[]);
    to.declared("", "05000000", "00000100FFFFFFFF0000000000000000");
}

/// Locks that their holder takes again.
fn locks_taken_again(to: &mut Literals) {
    // In a block: the outer release commits. A lock counts once among those held.
    let again = "05000000 01000000 01000000 03000005 02000000 02000000 06000000";
    to.inferred(again, "00000700FFFFFFFF0000000000000000", &[(5, 1)]);
    to.declared("00050000", again, "00000700FFFFFFFF0000000000000000");
    to.declared("", again, "00000700FFFFFFFF0000000000000000");
    let held = "01000000 01000000 03000005 02000000 03000005";
    to.inferred(held, "00000500FFFFFFFF0000000000000000", &[(5, 1)]);
    to.declared("00050000", held, "00000500FFFFFFFF0000000000000000");
    let freed = format!("{held} 02000000 03000005");
    to.inferred(&freed, "04000600FFFFFFFF0000000000000001", &[(5, 1)]);
    to.declared("00050000", &freed, "01000600FFFFFFFF0000000000000001");
    // After commit: lock 1, held all the time, may be taken again; a free lock may not.
    let after = "05000000 01000000 01000001 02000000 01000001";
    let closed = format!("{after} 02000001 02000001 06000000");
    to.inferred(&closed, "00000800FFFFFFFF0000000000000000", &[]);
    to.declared("", &closed, "00000800FFFFFFFF0000000000000000");
    for (rest, line) in [
        ("01000002", "03000500000000030000000000000004"),
        ("01000000", "03000500000000030000000000000001"),
        ("02000001 01000000", "03000600000000030000000000000001"),
        (
            "02000001 02000001 01000001",
            "03000700000000030000000000000002",
        ),
    ] {
        to.inferred(&format!("{after} {rest}"), line, &[]);
        to.declared("", &format!("{after} {rest}"), line);
    }
    let outer = "05000000 01000000 01000000 02000000 02000000 01000000";
    to.inferred(outer, "03000500000000040000000000000001", &[]);
    // Held before the block: the inner release commits nothing, so a free lock may be taken.
    let before = "01000000 05000000 01000000 02000000";
    for (rest, line) in [
        ("06000000 02000000", "00000600FFFFFFFF0000000000000000"),
        (
            "01000001 02000001 06000000",
            "00000700FFFFFFFF0000000000000000",
        ),
        ("02000000 01000001", "03000500000100040000000000000002"),
    ] {
        to.inferred(&format!("{before} {rest}"), line, &[]);
        to.declared("", &format!("{before} {rest}"), line);
    }
    to.declared(
        "00050002",
        &format!("{before} 03000005"),
        "010004000001FFFF0000000000000004",
    );
    // An unprotected access commits all the same.
    let unprotected = "01000000 05000000 03000005 01000000 02000000";
    to.declared(
        "",
        &format!("{unprotected} 06000000"),
        "00000600FFFFFFFF0000000000000000",
    );
    to.declared(
        "",
        &format!("{unprotected} 03000006"),
        "02000500000100020000000000000000",
    );
    to.declared(
        "",
        &format!("{unprotected} 01000001"),
        "03000500000100020000000000000002",
    );
    // The inner releases of one thread and the block of another.
    let two = "01000000 01000000 05010000 02000000 01010001 02010001 02000000 06010000";
    to.inferred(two, "00000800FFFFFFFF0000000000000000", &[]);
}

/// Refusal 20 and its neighbours.
fn most_holds(to: &mut Literals) {
    let fifteen = "01000003 ".repeat(15);
    let sixteen = "01000003 ".repeat(16);
    let freed = format!("{fifteen}{}", "02000003 ".repeat(15));
    to.inferred(&fifteen, "00000F00FFFFFFFF0000000000000000", &[]);
    to.declared("", &fifteen, "00000F00FFFFFFFF0000000000000000");
    to.inferred(&freed, "00001E00FFFFFFFF0000000000000000", &[]);
    to.refused(&sixteen, "94000F00FFFFFFFF0000000000000000");
    for (before, rest, line) in [
        (&freed, "02000003", "88001E00FFFFFFFF0000000000000000"),
        (&fifteen, "01010003", "87000F00FFFFFFFF0000000000000000"),
        (&fifteen, "02010003", "88000F00FFFFFFFF0000000000000000"),
        // 4 to 6 of the same frame come first.
        (&fifteen, "09000003", "84000F00FFFFFFFF0000000000000000"),
        (&fifteen, "01200003", "85000F00FFFFFFFF0000000000000000"),
        (&fifteen, "01000043", "86000F00FFFFFFFF0000000000000000"),
        (&fifteen, "01200043", "85000F00FFFFFFFF0000000000000000"),
        (
            &fifteen,
            "02000003 01000003 01000003",
            "94001100FFFFFFFF0000000000000000",
        ),
        (&sixteen, "FFFFFFFF", "94000F00FFFFFFFF0000000000000000"),
    ] {
        to.refused(&format!("{before}{rest}"), line);
    }
    for (before, rest, line) in [
        (&freed, "01010003", "00001F00FFFFFFFF0000000000000000"),
        (&freed, "01000003", "00001F00FFFFFFFF0000000000000000"),
        (&fifteen, "01000004", "00001000FFFFFFFF0000000000000000"),
        (&fifteen, "01010004", "00001000FFFFFFFF0000000000000000"),
        (
            &fifteen,
            "02000003 01000003",
            "00001100FFFFFFFF0000000000000000",
        ),
    ] {
        to.inferred(&format!("{before}{rest}"), line, &[]);
    }
    // Each lock and each thread has its own count.
    let each: String = (0..15)
        .map(|_| "01000003 01000004 0101003F 011F0000 ")
        .collect();
    to.inferred(&each, "00003C00FFFFFFFF0000000000000000", &[]);
    for last in ["01000003", "01000004", "0101003F", "011F0000"] {
        let line = "94003C00FFFFFFFF0000000000000000";
        to.refused(&format!("{each}{last}"), line);
    }
    // A violation before it is not told.
    to.inferred(
        &format!("03000005 {sixteen}"),
        "94001000FFFFFFFF0000000000000000",
        &[],
    );
    // 20 comes before 16, as every refusal of the recording.
    let mut case = Case::new(Call::Inferred);
    (case.frames, case.sets_len) = (frames(&sixteen), 0);
    to.expect_line(case, "94000F00FFFFFFFF0000000000000000", None);
}

fn hidden_faults(to: &mut Literals) {
    // An access of a guarded variable commits nothing.
    let guarded = "05000000 01000000 03000005 01000001 02000000 02000001 06000000";
    to.inferred(guarded, "00000700FFFFFFFF0000000000000000", &[(5, 1)]);
    to.declared("00050000", guarded, "00000700FFFFFFFF0000000000000000");
    to.declared("", guarded, "03000300000000020000000000000002");
    // Begin is the outermost one, and the inner end leaves the block open.
    let nested = "01020007 05020000 05020000 02020007 06020000 0102003F";
    to.inferred(nested, "03000502000100038000000000000000", &[]);
    let closed = "05020000 05020000 06020000 06020000 01020007 02020007 0102003F";
    to.inferred(closed, "00000700FFFFFFFF0000000000000000", &[]);
    // A second release keeps the first commit; the next block starts anew.
    let releases = "01000000 01000001 05000000 02000000 02000001 01000002";
    to.inferred(releases, "03000500000200030000000000000004", &[]);
    let again = "01000000 05000000 02000000 06000000 05000000 01000000";
    to.inferred(again, "00000600FFFFFFFF0000000000000000", &[]);
    let units = "05000000 05010000 03010000 06010000 03000000 06000000";
    to.declared("", units, "00000600FFFFFFFF0000000000000000");
    // Outside a block an unprotected access is free and commits nothing.
    let free = "03000005 03000005 01000000 05000000 01000001";
    to.declared("", free, "00000500FFFFFFFF0000000000000000");
    // Begin absent, begin alone, begin and commit: kinds 4 and 1.
    to.inferred("05000000 03000005", "040001000000FFFFFFFFFFFFFFFFFFFF", &[]);
    let after = "01000000 05000000 02000000 03000005";
    to.inferred(after, "0400030000010002FFFFFFFFFFFFFFFF", &[]);
    to.declared(
        "0005003F",
        "05000000 03000005",
        "010001000000FFFF8000000000000000",
    );
    to.declared("0005003F", after, "01000300000100028000000000000000");
    // Another thread's lock does not guard.
    to.declared(
        "00050000",
        "01010000 03000005",
        "01000100FFFFFFFF0000000000000001",
    );
    to.inferred("01010000 03000005", "04000100FFFFFFFFFFFFFFFFFFFFFFFF", &[]);
}

fn equal_recordings(to: &mut Literals) {
    // B, H, I
    to.equal("", "", 1);
    to.equal("03000000 03010001", "03010001 03000000", 1);
    to.equal("03000000 03010000", "03010000 03000000", 1);
    // C and its serial order
    let c = "05000000 05010000 01000000 04000000 02000000 01010000 04010000 06000000 \
             02010000 06010000";
    let serial = "05000000 01000000 04000000 02000000 06000000 05010000 01010000 04010000 \
                  02010000 06010000";
    to.equal(c, serial, 1);
    // Lock 0 against variable 0, and thread 1 against lock 1 and variable 1.
    to.equal("01000000 03010000", "03010000 01000000", 1);
    to.equal("01000001 04010000", "04010000 01000001", 1);
    to.equal(
        "05010000 01000001 03000001",
        "01000001 03000001 05010000",
        1,
    );
    // One thread keeps its order; begin and end touch nothing.
    to.equal("05000000 03000000", "03000000 05000000", 0);
    to.equal("05000000 05010000", "05010000 05000000", 1);
    // One lock: the other thread's pair does not pass.
    let pairs = "01000003 02000003 01010003 02010003";
    to.equal(pairs, "01010003 02010003 01000003 02000003", 0);
    to.equal(pairs, "01000003 02000003 01010003 02010003", 1);
    // A lock taken again: its thread keeps its order; frames of other items pass.
    let again = "01000003 01000003 03000005 02000003 02000003";
    to.equal(again, "01000003 03000005 01000003 02000003 02000003", 0);
    to.equal(again, "01000003 01000003 02000003 03000005 02000003", 0);
    to.equal(again, "01000003 02000003 01000003 03000005 02000003", 0);
    let other = "01000003 01000003 03010003 02000003 01010004 02000003";
    to.equal(
        other,
        "03010003 01010004 01000003 01000003 02000003 02000003",
        1,
    );
    to.equal(
        other,
        "01010004 01000003 01000003 02000003 02000003 03010003",
        0,
    );
    let twice = "01000003 01000003 02000003 02000003 01010003 02010003";
    to.equal(
        twice,
        "01010003 02010003 01000003 01000003 02000003 02000003",
        0,
    );
    to.equal(
        twice,
        "01000003 02000003 01000003 02000003 01010003 02010003",
        0,
    );
    // The frames between must pass as well.
    to.equal(
        "04000000 04010000 04010001 04020001",
        "04020001 04000000 04010000 04010001",
        0,
    );
    to.equal(
        "03000000 03010000 03010001 03020001",
        "03020001 03000000 03010000 03010001",
        1,
    );
    to.equal(
        "03000000 03010001 03020002",
        "03020002 03010001 03000000",
        1,
    );
    // The same places, another operation, another object, other counts, other lengths.
    to.equal("03000000", "04000000", 0);
    to.equal("03000000", "03000001", 0);
    to.equal("03000000", "03010000", 0);
    to.equal(
        "03000000 03000000 03010001",
        "03000000 03010001 03010001",
        0,
    );
    to.equal("03000000", "", 0);
    to.equal("03000000 03010001", "03000000 03010001 03020002", 0);
    let most = [0x0500_0000, 0x0600_0000].repeat(2048);
    let more = [most.as_slice(), &[0x0500_0000]].concat();
    to.equal_raw(&most, &most, 1);
    to.equal_raw(&most, &most[..4094], 0);
    // The left is checked whole before the right; both are checked whatever their lengths.
    let left = |number: u64, place: u64| number << 32 | place;
    let right = |number: u64, place: u64| (number + 256) << 32 | place;
    to.equal_raw(&more, &most, left(2, 4096));
    to.equal_raw(&most, &more, right(2, 4096));
    to.equal_raw(&more, &[0xFFFF_FFFF], left(2, 4096));
    to.equal_raw(&[0xFFFF_FFFF], &more, left(4, 0));
    for (words, number, place) in [
        ("05000000 00000000", 4, 1),
        ("05200000", 5, 0),
        ("01000040", 6, 0),
        ("01000003 01010003", 7, 1),
        ("01000003 02010003", 8, 1),
        (&"05000000 ".repeat(16), 9, 15),
        ("05000000 06000000 06000000", 10, 2),
        (&"01000003 ".repeat(16), 20, 15),
        ("01000003 01000003 01010003", 7, 2),
        ("01000003 01000003 02000003 02000003 02000003", 8, 4),
    ] {
        let words = frames(words);
        for other in ["", "03000000", "05000000 06000000 03000001"] {
            let other = frames(other);
            to.equal_raw(&words, &other, left(number, place));
            to.equal_raw(&other, &words, right(number, place));
        }
        to.equal_raw(&words, &words, left(number, place));
        to.equal_raw(&words, &[0xFFFF_FFFF], left(number, place));
        to.equal_raw(&words, &more, left(number, place));
    }
}

/// Reads of one variable by different threads pass each other; a write of it passes no access.
fn exchanged_reads(to: &mut Literals) {
    // O
    to.equal_each(
        "03000000 03010000 04020000",
        &[
            ("03010000 03000000 04020000", 1),
            ("03000000 04020000 03010000", 0),
            ("03010000 04020000 03000000", 0),
        ],
    );
    to.equal("03000000 04010000", "04010000 03000000", 0);
    to.equal("04000000 04010000", "04010000 04000000", 0);
    to.equal("03000000 03000001", "03000001 03000000", 0);
    // The places of reads fall, rise or are mixed, before a write that stands behind all of them or
    // before the last.
    to.equal_each(
        "03000000 03010000 03020000 04030000",
        &[
            ("03020000 03010000 03000000 04030000", 1),
            ("03010000 03020000 03000000 04030000", 1),
            ("03000000 03020000 03010000 04030000", 1),
        ],
    );
    to.equal_each(
        "03000000 03010000 04030000 03020000",
        &[
            ("03020000 03010000 03000000 04030000", 0),
            ("03000000 03010000 03020000 04030000", 0),
            ("03000000 03020000 03010000 04030000", 0),
            ("03010000 03000000 04030000 03020000", 1),
            // Reads on the two sides of the write.
            ("03000000 03020000 04030000 03010000", 0),
        ],
    );
    // The reads of one thread keep their sequence, with another's between too; those of one
    // variable are the same frame, and are counted.
    to.equal_each(
        "03000000 03010000 03000001 03010001",
        &[
            ("03010000 03010001 03000000 03000001", 1),
            ("03000001 03010000 03000000 03010001", 0),
        ],
    );
    to.equal_each(
        "03000000 03000000 04010000 03000000 03020000",
        &[
            ("03000000 03000000 04010000 03020000 03000000", 1),
            ("03000000 04010000 03000000 03020000 03000000", 0),
            ("03000000 03000000 04010000 03020000 03020000", 0),
        ],
    );
    // Variables that differ.
    to.equal_each(
        "03000000 03010001 03020000 04030001",
        &[
            ("03020000 03010001 03000000 04030001", 1),
            ("03010001 04030001 03020000 03000000", 1),
            ("04030001 03020000 03010001 03000000", 0),
        ],
    );
    // One thread reads and writes, others read between.
    to.equal_each(
        "03000000 03010000 03020000 04000000",
        &[
            ("03020000 03010000 03000000 04000000", 1),
            ("03010000 03000000 04000000 03020000", 0),
            ("03010000 03020000 04000000 03000000", 0),
        ],
    );
    to.equal_each(
        "04000000 03010000 03000000 03020000",
        &[
            ("04000000 03020000 03000000 03010000", 1),
            ("03010000 04000000 03000000 03020000", 0),
        ],
    );
    to.equal_each(
        "03000000 03010000 04000000 03010000 03000000",
        &[
            ("03010000 03000000 04000000 03000000 03010000", 1),
            ("03010000 03010000 03000000 04000000 03000000", 0),
            ("03000000 04000000 03010000 03010000 03000000", 0),
        ],
    );
    // Before the first write, between the two, and behind the last.
    to.equal_each(
        "03000000 03010000 04020000 04030000 03000000 03010000",
        &[
            ("03010000 03000000 04020000 04030000 03010000 03000000", 1),
            ("03000000 04020000 03010000 04030000 03000000 03010000", 0),
            ("03000000 03010000 04020000 03010000 04030000 03000000", 0),
            ("03000000 04020000 04030000 03010000 03000000 03010000", 0),
            ("03010000 03000000 04030000 04020000 03010000 03000000", 0),
        ],
    );
    // The first and the last variable, the first and the last thread.
    to.equal_each(
        "030003FF 031F03FF 040203FF",
        &[
            ("031F03FF 030003FF 040203FF", 1),
            ("030003FF 040203FF 031F03FF", 0),
            ("031F03FF 040203FF 030003FF", 0),
        ],
    );
    to.equal("031F03FF 040003FF", "040003FF 031F03FF", 0);
    to.equal("041F03FF 040003FF", "040003FF 041F03FF", 0);
    to.equal("03000000 041F03FF", "041F03FF 03000000", 1);
    to.equal("030003FF 041F0000", "041F0000 030003FF", 1);
    // A lock and a variable of one number.
    to.equal_each(
        "01000005 03010005 02000005 03020005",
        &[
            ("03020005 03010005 01000005 02000005", 1),
            ("01000005 02000005 03020005 03010005", 1),
        ],
    );
    to.equal_each(
        "01000005 04010005 03020005 02000005",
        &[
            ("04010005 01000005 02000005 03020005", 1),
            ("03020005 01000005 02000005 04010005", 0),
        ],
    );
    to.equal(
        "01000005 02000005 03020005 01010005 02010005",
        "01010005 02010005 03020005 01000005 02000005",
        0,
    );
    every_order(to);
    many_reads(to);
}

/// All orders of these words.
fn orders(words: &[u32]) -> Vec<Vec<u32>> {
    let Some((first, rest)) = words.split_first() else {
        return vec![Vec::new()];
    };
    let mut all = Vec::new();
    for order in orders(rest) {
        for place in 0..words.len() {
            all.push([&order[..place], &[*first], &order[place..]].concat());
        }
    }
    all
}

/// Any two orders of accesses of one variable by five threads, three reads and two writes.
fn every_order(to: &mut Literals) {
    // Each write in turn, with the reads before it.
    let writes = |words: &[u32]| -> Vec<Vec<u32>> {
        let is_write = |&place: &usize| words[place] >> 24 == WRITE;
        let with_reads = |place: usize| {
            let mut reads = words[..place].to_vec();
            reads.retain(|word| word >> 24 == READ);
            reads.sort_unstable();
            [&reads[..], &[words[place]]].concat()
        };
        (0..words.len()).filter(is_write).map(with_reads).collect()
    };
    let all = orders(&frames("03000005 03010005 03020005 04030005 04040005"));
    for left in &all {
        for right in &all {
            to.equal_raw(left, right, u64::from(writes(left) == writes(right)));
        }
    }
}

/// Reads by all threads, and the longest recordings.
fn many_reads(to: &mut Literals) {
    let mut both = |left: &[u32], right: &[u32], reply| {
        to.equal_raw(left, right, reply);
        to.equal_raw(right, left, reply);
    };
    // Each thread once, in reverse; a write by one of them behind all, before all or between.
    for variable in [0, 1, 1023] {
        let all: Vec<u32> = (0..THREADS)
            .map(|thread| word(READ, thread, variable))
            .collect();
        let reversed: Vec<u32> = all.iter().rev().copied().collect();
        let write = [word(WRITE, 7, variable)];
        both(&all, &reversed, 1);
        both(
            &[&all[..], &write].concat(),
            &[&reversed[..], &write].concat(),
            1,
        );
        both(
            &[&write[..], &all].concat(),
            &[&write[..], &reversed].concat(),
            1,
        );
        for place in [1, 16, 31] {
            let between = |words: &[u32]| [&words[..place], &write, &words[place..]].concat();
            both(&between(&all), &between(&reversed), 0);
        }
    }
    // A write, reads of the 31 other threads, a write and so on: the reads between two writes in
    // reverse; then a read exchanged with the write before it or behind it, or with a read beyond.
    let stretch = THREADS as usize;
    let writes: Vec<usize> = (0..MOST_FRAMES).step_by(stretch).collect();
    let words = readers(5, MOST_FRAMES, &writes);
    let mut reversed = words.clone();
    for reads in reversed.chunks_mut(stretch) {
        reads[1..].reverse();
    }
    both(&words, &reversed, 1);
    for write in [stretch, MOST_FRAMES / 2, MOST_FRAMES - stretch] {
        for (one, other) in [
            (write - 1, write),
            (write, write + 1),
            (write - 2, write + 3),
        ] {
            let mut exchanged = reversed.clone();
            assert_ne!(exchanged[one], exchanged[other]);
            exchanged.swap(one, other);
            both(&words, &exchanged, 0);
            both(&reversed, &exchanged, 0);
        }
    }
    let mut first = reversed.clone();
    first.swap(0, 1);
    both(&words, &first, 0);
    // One write, and a read moved across it from either side, from its neighbour and from far; and
    // two writes exchanged.
    for write in [1, 40, MOST_FRAMES / 2, MOST_FRAMES - 2] {
        let words = readers(1023, MOST_FRAMES, &[write]);
        for from in [0, write / 2, write - 1] {
            let mut moved = words.clone();
            moved[from..=write].rotate_left(1);
            both(&words, &moved, 0);
        }
        for from in [write + 1, (write + MOST_FRAMES) / 2, MOST_FRAMES - 1] {
            let mut moved = words.clone();
            moved[write..=from].rotate_right(1);
            both(&words, &moved, 0);
        }
        let mut two = words.clone();
        two[write - 1] = word(WRITE, 5, 1023);
        let mut exchanged = two.clone();
        exchanged.swap(write - 1, write);
        both(&two, &exchanged, 0);
    }
}

fn serial_orders(to: &mut Literals) {
    // B, C
    to.serial(None, "", &[]);
    to.serial(Some(""), "", &[]);
    let c = "05000000 05010000 01000000 04000000 02000000 01010000 04010000 06000000 \
             02010000 06010000";
    to.serial(None, c, &[0, 2, 3, 4, 7, 1, 5, 6, 8, 9]);
    to.serial(Some("00000000"), c, &[0, 2, 3, 4, 7, 1, 5, 6, 8, 9]);
    // Units are not ordered by their begin.
    let units = "05000000 05010000 03010000 06010000 03000000 06000000";
    to.serial(Some(""), units, &[1, 2, 3, 0, 4, 5]);
    // Without a commit before it, the end commits; an access of a guarded variable does not.
    to.serial(None, "05000000 05010000 06010000 06000000", &[1, 2, 0, 3]);
    let guarded = "01000000 05000000 03000005 05010000 06010000 06000000";
    to.serial(None, guarded, &[0, 3, 4, 1, 2, 5]);
    to.serial(Some("00050000"), guarded, &[0, 3, 4, 1, 2, 5]);
    to.serial(Some(""), guarded, &[0, 1, 2, 5, 3, 4]);
    // Single frames stand between units; the inner end closes nothing.
    let nested = "05000000 03010005 05000000 03020005 03000006 06000000 03010005 06000000";
    to.serial(Some(""), nested, &[1, 3, 0, 2, 4, 5, 7, 6]);
    // The first release commits, not a later one.
    let releases = "01000000 01000001 05000000 02000000 05010000 06010000 02000001 06000000";
    to.serial(None, releases, &[0, 1, 2, 3, 6, 7, 4, 5]);
    // Of a lock taken again the outer release commits, wherever the inner one stands.
    let again = "05000000 01000000 03000005 01000000 02000000 05010000 06010000 02000000 06000000";
    to.serial(None, again, &[5, 6, 0, 1, 2, 3, 4, 7, 8]);
    to.serial(Some("00050000"), again, &[5, 6, 0, 1, 2, 3, 4, 7, 8]);
    to.serial(Some(""), again, &[0, 1, 2, 3, 4, 7, 8, 5, 6]);
    // Held before the block, it commits at the end, or at the release of another lock.
    let before = "01000000 05000000 01000000 02000000 05010000 06010000 06000000 02000000";
    to.serial(None, before, &[0, 4, 5, 1, 2, 3, 6, 7]);
    let other = "01000000 05000000 01000000 02000000 01000001 05010000 06010000 02000001 06000000";
    to.serial(None, other, &[0, 5, 6, 1, 2, 3, 4, 7, 8]);
    // Taken again after the commit.
    let after = "05000000 01000000 01000001 02000000 05010000 06010000 01000001 02000001 \
                 02000001 06000000";
    to.serial(None, after, &[0, 1, 2, 3, 6, 7, 8, 9, 4, 5]);
    to.serial(Some(""), after, &[0, 1, 2, 3, 6, 7, 8, 9, 4, 5]);
    // Outside, each taking and letting go is a unit of its own.
    let outside = "05010000 01000000 01000000 02000000 02000000 06010000";
    to.serial(None, outside, &[1, 2, 3, 4, 0, 5]);
    // Unguarded F, and D declared.
    to.serial(Some(""), "05000000 03000005 06000000", &[0, 1, 2]);
    to.serial(Some(""), "03000005", &[0]);
    // 13: A, D, E, G
    let a = "05010000 01010000 03010000 02010000 01010000 03010001 02010000 06010000";
    to.serial_refused(None, a, 13, 4);
    to.serial_refused(Some("00000000 00010000"), a, 13, 4);
    to.serial_refused(None, "03000005", 13, 0);
    to.serial_refused(Some(""), "05000000 03000005 03000005", 13, 2);
    to.serial_refused(Some("00050002"), "03000005", 13, 0);
    // 14: begin alone; the smallest outermost begin that stays open.
    to.serial_refused(None, "05000000", 14, 0);
    to.serial_refused(Some(""), "05000000", 14, 0);
    to.serial_refused(None, "05010000 06010000 05010000 05000000 05010000", 14, 2);
    to.serial_refused(None, "05000000 05010000 05010000 06010000 06000000", 14, 1);
    to.serial_refused(None, "051F0000 05000000 06000000", 14, 0);
    // J, and every refusal before the next: list, recording, 13, 14, 15 or 21.
    to.serial_refused(None, "01000003 01010003", 7, 1);
    to.serial_refused(None, "01000003 02010003", 8, 1);
    to.serial_refused(None, &"01000003 ".repeat(16), 20, 15);
    let after = "03000005 05000000 ".to_string() + &"01000003 ".repeat(16);
    to.serial_refused(Some(""), &after, 20, 17);
    let outer = "05000000 01000000 01000000 02000000 02000000 01000000";
    to.serial_refused(None, outer, 13, 5);
    to.serial_refused(Some("04000000"), "FFFFFFFF", 11, 0);
    to.serial_refused(Some("00050002 00050002"), "03000005", 12, 1);
    to.serial_refused(Some("0005000"), "05000000", 1, 0);
    to.serial_refused(Some("00050002"), "03000005 FFFFFFFF", 4, 1);
    to.serial_refused(None, "05000000 03000005", 13, 1);
    to.serial_refused(None, "03000005 06000000", 10, 1);
    // 2 and the limits of the length.
    let most = [0x0500_0000, 0x0600_0000].repeat(2048);
    let more = [most.as_slice(), &[0xFFFF_FFFF]].concat();
    for list in [None, Some(&b""[..])] {
        to.order_raw(list, &most, 4096, &most, &[0; 4096]);
        to.order_raw(list, &most, 4095, &[], &[]);
        to.refused_raw(list, &more, 4097, 2 << 32 | 4096);
        to.refused_raw(list, &more, 0, 2 << 32 | 4096);
        to.refused_raw(list, &most[..4095], 4095, 14 << 32 | 4094);
    }
    to.refused_raw(Some(b"x"), &more, 0, 1 << 32);
}

/// In numbers: case C, and the furthest displacements of the longest recordings.
fn furthest_displacements(to: &mut Literals) {
    let c = frames(
        "05000000 05010000 01000000 04000000 02000000 01010000 04010000 06000000 02010000 06010000",
    );
    let moves = [0, 4, -1, -1, -1, 1, 1, -3, 0, 0];
    to.moves_raw(None, &c, 10, 10, &moves);
    to.moves_raw(Some(b"00000000\n"), &c, 11, 10, &moves);
    let [later, earlier] = furthest(MOST_FRAMES);
    let (mut latest, mut earliest) = ([-1; MOST_FRAMES], [1; MOST_FRAMES]);
    (latest[0], latest[4095]) = (4094, 0);
    (earliest[4094], earliest[4095]) = (-4094, 0);
    for (words, moves) in [(&later, &latest), (&earlier, &earliest)] {
        for list in [None, Some(&b""[..])] {
            to.moves_raw(list, words, 4097, 4096, moves);
            to.moves_raw(list, words, 4096, 4096, moves);
            to.moves_raw(list, words, 4095, 21 << 32 | 4096, &[]);
        }
    }
}

fn frame_boundaries(to: &mut Literals) {
    // 4
    to.refused("00000000", "84000000FFFFFFFF0000000000000000");
    to.refused("07000000", "84000000FFFFFFFF0000000000000000");
    to.refused("FFFFFFFF", "84000000FFFFFFFF0000000000000000");
    to.inferred("01000000 02000000", "00000200FFFFFFFF0000000000000000", &[]);
    to.inferred("05000000 06000000", "00000200FFFFFFFF0000000000000000", &[]);
    // 5
    to.inferred("051F0000", "00000100FFFFFFFF0000000000000000", &[]);
    to.inferred("031F0000", "0400001FFFFFFFFFFFFFFFFFFFFFFFFF", &[]);
    to.refused("05200000", "85000000FFFFFFFF0000000000000000");
    to.refused("01FFFFFF", "85000000FFFFFFFF0000000000000000");
    // 6
    to.inferred("0100003F 0200003F", "00000200FFFFFFFF0000000000000000", &[]);
    to.refused("01000040", "86000000FFFFFFFF0000000000000000");
    to.refused("02000040", "86000000FFFFFFFF0000000000000000");
    let last = "0100003F 030003FF 040003FF";
    to.inferred(last, "00000300FFFFFFFF0000000000000000", &[(1023, 1 << 63)]);
    to.refused("03000400", "86000000FFFFFFFF0000000000000000");
    to.refused("04000400", "86000000FFFFFFFF0000000000000000");
    to.refused("05000001", "86000000FFFFFFFF0000000000000000");
    to.refused("06000001", "86000000FFFFFFFF0000000000000000");
    to.refused("0100FFFF", "86000000FFFFFFFF0000000000000000");
    // 7; by its holder a lock is taken again
    to.refused("0100003F 011F003F", "87000100FFFFFFFF0000000000000000");
    to.inferred("01000003 01000003", "00000200FFFFFFFF0000000000000000", &[]);
    for (rest, line) in [
        ("01010003", "87000200FFFFFFFF0000000000000000"),
        ("02000003 01010003", "87000300FFFFFFFF0000000000000000"),
    ] {
        to.refused(&format!("01000003 01000003 {rest}"), line);
    }
    to.inferred(
        "01000003 01000003 02000003 02000003 01010003",
        "00000500FFFFFFFF0000000000000000",
        &[],
    );
    to.inferred(
        "01000003 02000003 01010003",
        "00000300FFFFFFFF0000000000000000",
        &[],
    );
    to.inferred("01000003 01010004", "00000200FFFFFFFF0000000000000000", &[]);
    // 8
    to.refused("02000003", "88000000FFFFFFFF0000000000000000");
    to.refused(
        "01000003 02000003 02000003",
        "88000200FFFFFFFF0000000000000000",
    );
    to.inferred("01000003 02000003", "00000200FFFFFFFF0000000000000000", &[]);
    // 9
    let fifteen = "05000000 ".repeat(15);
    to.inferred(&fifteen, "00000F00FFFFFFFF0000000000000000", &[]);
    to.refused(
        &format!("{fifteen} 05000000"),
        "89000F00FFFFFFFF0000000000000000",
    );
    let other = format!("{fifteen} 05010000 06000000 05000000");
    to.inferred(&other, "00001200FFFFFFFF0000000000000000", &[]);
    // 10
    to.refused("06000000", "8A000000FFFFFFFF0000000000000000");
    to.refused("05000000 06010000", "8A000100FFFFFFFF0000000000000000");
    let one_more = "05000000 05000000 06000000 06000000 06000000";
    to.refused(one_more, "8A000400FFFFFFFF0000000000000000");
    // 2
    let most = [0x0500_0000, 0x0600_0000].repeat(2048);
    to.inferred_raw(&most, "00100000FFFFFFFF0000000000000000", &[]);
    to.declared_raw(b"", &most, "00100000FFFFFFFF0000000000000000");
    let more = [most.as_slice(), &[0x0500_0000]].concat();
    to.inferred_raw(&more, "82100000FFFFFFFF0000000000000000", &[]);
    to.declared_raw(b"", &more, "82100000FFFFFFFF0000000000000000");
}

fn order_of_refusals(to: &mut Literals) {
    // The first frame that fails decides; in one frame the lowest number.
    to.refused("02000000 FFFFFFFF", "88000000FFFFFFFF0000000000000000");
    to.refused("05000000 06200001", "85000100FFFFFFFF0000000000000000");
    to.refused(
        "05000000 06000000 06000001",
        "86000200FFFFFFFF0000000000000000",
    );
    // A refusal wins over an earlier violation.
    to.inferred("03000005 06000000", "8A000100FFFFFFFF0000000000000000", &[]);
    to.declared(
        "00050002",
        "03000005 FFFFFFFF",
        "84000100FFFFFFFF0000000000000000",
    );
    // All lines come before any frame.
    to.check(b"FFFFFFFF\nx", "81000100FFFFFFFF0000000000000000");
    to.check(b"FFFFFFFF\n0000000\n", "81000100FFFFFFFF0000000000000000");
    // More than 4,096 words come before their frames.
    let more = [0xFFFF_FFFF; 4097];
    to.inferred_raw(&more, "82100000FFFFFFFF0000000000000000", &[]);
    // The guard list comes before the recording.
    to.declared("04000000", "FFFFFFFF", "8B000000FFFFFFFF0000000000000000");
    to.declared_raw(b"00050002", &more, "81000000FFFFFFFF0000000000000000");
    to.declared(
        "00050002 00050002",
        "FFFFFFFF",
        "8C000100FFFFFFFF0000000000000000",
    );
    // 16 comes after the recording and before the verdict.
    for (words, sets_len, line) in [
        ("", 0, "90040000FFFFFFFF0000000000000000"),
        ("", 1023, "90040000FFFFFFFF0000000000000000"),
        ("03000005", 1023, "90040000FFFFFFFF0000000000000000"),
        (
            "03000005 FFFFFFFF",
            1023,
            "84000100FFFFFFFF0000000000000000",
        ),
        ("02000005", 0, "88000000FFFFFFFF0000000000000000"),
    ] {
        let mut case = Case::new(Call::Inferred);
        (case.frames, case.sets_len) = (frames(words), sets_len);
        to.expect_line(case, line, None);
    }
    let mut case = Case::new(Call::Inferred);
    (case.frames, case.sets_len) = (more.to_vec(), 0);
    to.expect_line(case, "82100000FFFFFFFF0000000000000000", None);
    // 17 comes first of all.
    for input in ["", "05000000\n", "FFFFFFFF\n", "x"] {
        for call in [Call::Check, Call::Declared, Call::Inferred] {
            let mut case = Case::new(call);
            case.text = input.into();
            case.sets_len = 1023;
            case.frames = more.to_vec();
            to.short_line(case.clone());
            case.sets_len = 1024;
            case.frames = frames("03000005");
            to.short_line(case);
        }
    }
}

fn lines_and_lists(to: &mut Literals) {
    // 1: each byte of a line at the edges of the digits.
    let refused_0 = "81000000FFFFFFFF0000000000000000";
    for place in 0..8 {
        for byte in *b"/:@G`afg\n\r \0\xFF" {
            let mut line = *b"05000000\n";
            line[place] = byte;
            to.check(&line, refused_0);
            to.read(&line, 1, 1 << 32, &[]);
            to.guards(&line, 1 << 32);
            to.declared_raw(&line, &[], refused_0);
        }
    }
    to.read(b"09AF90FA\n", 1, 1, &[0x09AF_90FA]);
    to.read(b"12345678\n9ABCDEF0\n", 2, 2, &[0x1234_5678, 0x9ABC_DEF0]);
    to.read(b"FFFFFFFF\n", 3, 1, &[0xFFFF_FFFF]);
    for line in [
        &b"05000000"[..],
        b"05000000\r",
        b"05000000\r\n",
        b"05000000x",
        b"0",
        b"\n",
    ] {
        to.check(line, refused_0);
        to.read(line, 9, 1 << 32, &[]);
        to.guards(line, 1 << 32);
        let second = [b"05000000\n", line].concat();
        to.check(&second, "81000100FFFFFFFF0000000000000000");
        to.read(&second, 9, 1 << 32 | 1, &[]);
        to.guards(&second, 11 << 32);
    }
    to.check(
        b"05000000\n\n06000000\n",
        "81000100FFFFFFFF0000000000000000",
    );
    // 2
    let most = text_of_words(&[0x0500_0000, 0x0600_0000].repeat(2048));
    for extra in [&b"x"[..], b"\n", b"05000000\n", b"05000000"] {
        let more = [&most, extra].concat();
        to.check(&more, "82100000FFFFFFFF0000000000000000");
        to.read(&more, 0, 2 << 32 | 4096, &[]);
        let mut faulty = more.clone();
        faulty[4095 * 9] = b'a';
        to.check(&faulty, "810FFF00FFFFFFFF0000000000000000");
        to.read(&faulty, 4096, 1 << 32 | 4095, &[]);
    }
    // 3 comes after all lines.
    to.read(b"", 0, 0, &[]);
    to.read(b"05000000\n06000000\n", 1, 3 << 32 | 2, &[]);
    to.read(b"05000000\n06000000\n", 0, 3 << 32 | 2, &[]);
    to.read(b"05000000\n06000000\n", 2, 2, &[0x0500_0000, 0x0600_0000]);
    to.read(b"05000000\n06000000\nx", 0, 1 << 32 | 2, &[]);
    to.read(&most, 4095, 3 << 32 | 4096, &[]);
    to.read(&most, 4096, 4096, &[0x0500_0000, 0x0600_0000].repeat(2048));
    // 11 and 12
    to.guards(b"", 0);
    to.guards(&text("03FF003F"), 1);
    to.guards(&text("04000000"), 11 << 32);
    to.guards(&text("00000040"), 11 << 32);
    to.guards(b"04000000\nx", 11 << 32);
    to.guards(b"0400000a\n", 1 << 32);
    to.guards(&text("00050001 00060001"), 2);
    to.guards(&text("00050001 00050001"), 12 << 32 | 1);
    to.guards(&text("00050001 00060001 00050002"), 12 << 32 | 2);
    to.guards(&text("00050001 00050040"), 11 << 32 | 1);
    to.guards(b"00050001\n00050001\nx", 12 << 32 | 1);
    to.guards(b"00050001\n00050001", 1 << 32 | 1);
    let whole: Vec<u32> = (0..1024)
        .rev()
        .map(|variable| variable << 16 | 63)
        .collect();
    let whole = text_of_words(&whole);
    to.guards(&whole, 1024);
    to.guards(&[&whole, &b"00000000\n"[..]].concat(), 12 << 32 | 1024);
    to.guards(&[&whole, &b"04000000\n"[..]].concat(), 11 << 32 | 1024);
    to.guards(&[&whole, &b"\n"[..]].concat(), 1 << 32 | 1024);
}

fn written_texts(to: &mut Literals) {
    // Two frames from place 3 into 21 bytes; from place 4, or into 20.
    let two = frames("05000000 06000000");
    to.write(&two, 21, 3);
    to.write_refused(&two, (21, 4), 19, 18);
    to.write_refused(&two, (20, 3), 19, 18);
    // No frame from place 5 into 5 bytes; from place 6.
    to.write(&[], 5, 5);
    to.write_refused(&[], (5, 6), 19, 0);
    // Both sides of each boundary, and places that no text has.
    for words in [
        "",
        "03000005",
        "05000000 06000000",
        "0100003F 030003FF 051F0000",
    ] {
        let words = frames(words);
        let bytes = 9 * words.len();
        for (text_len, place) in rooms(bytes) {
            if place <= text_len && bytes <= text_len - place {
                to.write(&words, text_len, place);
            } else {
                to.write_refused(&words, (text_len, place), 19, bytes as u64);
            }
        }
    }
    // Digits; not reducible; not closed.
    let words = frames("041F03FF 0119003B 0219003B");
    to.write_raw(&words, (27, 0), 27, b"041F03FF\n0119003B\n0219003B\n");
    to.write(&frames("05000000 03000005 03000005"), 40, 13);
    to.write(&frames("05000000"), 9, 0);
    // Unsound recordings come before the room.
    for (words, number, place) in [
        ("05000000 00000000", 4, 1),
        ("07000000", 4, 0),
        ("05200000", 5, 0),
        ("01000040", 6, 0),
        ("03000400", 6, 0),
        ("05000001", 6, 0),
        ("01000003 01010003", 7, 1),
        ("01000003 02010003", 8, 1),
        (&"05000000 ".repeat(16), 9, 15),
        ("05000000 06000000 06000000", 10, 2),
        (&"01000003 ".repeat(16), 20, 15),
        ("01000003 01000003 01010003", 7, 2),
        ("01000003 01000003 02000003 02000003 02000003", 8, 4),
    ] {
        let words = frames(words);
        for room in [
            (0, 0),
            (0, usize::MAX),
            (5, 6),
            (9 * words.len(), 0),
            (200, 3),
        ] {
            to.write_refused(&words, room, number, place);
        }
    }
    // 2 and the limits of the length.
    let most = [0x0500_0000, 0x0600_0000].repeat(2048);
    let more = [most.as_slice(), &[0xFFFF_FFFF]].concat();
    let bytes = 9 * 4096;
    to.write(&most, bytes, 0);
    to.write(&most, bytes + 20, 7);
    to.write(&most[..4095], bytes - 9, 0);
    for room in [
        (bytes - 1, 0),
        (bytes, 1),
        (bytes + 7, 8),
        (0, 0),
        (0, usize::MAX),
    ] {
        to.write_refused(&most, room, 19, 36_864);
    }
    let wraps = usize::MAX - bytes + 1;
    to.write_refused(&most, (bytes, wraps), 19, 36_864);
    for room in [(0, 0), (bytes, 0), (bytes + 9, 0), (0, usize::MAX)] {
        to.write_refused(&more, room, 2, 4096);
    }
}

fn verdict_lines(to: &mut Literals) {
    let example = Fields {
        kind: 3,
        frame: 4,
        thread: 1,
        begin: 0,
        commit: 3,
        locks: 1,
    };
    let line = b"03000401000000030000000000000001\n";
    to.line_read(line, Some(example));
    to.line_write(example, Some(line));
    // Each digit of a field at its place; absent begin and commit; all at their greatest.
    for (digits, [frame, thread, begin, commit], locks) in [
        (
            "8112345678ABCDEF0123456789ABCDEF",
            [0x1234, 0x56, 0x78AB, 0xCDEF],
            0x0123_4567_89AB_CDEF,
        ),
        ("810000000000FFFF0000000000000000", [0, 0, 0, 0xFFFF], 0),
        ("81000000FFFF00000000000000000000", [0, 0, 0xFFFF, 0], 0),
        (
            "81000000FFFEFFFE8000000000000000",
            [0, 0, 0xFFFE, 0xFFFE],
            1 << 63,
        ),
        (
            "81FFFFFFFFFFFFFFFFFFFFFFFFFFFFFF",
            [0xFFFF, 0xFF, 0xFFFF, 0xFFFF],
            u64::MAX,
        ),
    ] {
        for kind in 0..=255 {
            let fields = Fields {
                kind,
                frame,
                thread: thread as u8,
                begin,
                commit,
                locks,
            };
            // Kinds 00 to 04 and 81 to FF, whatever the other fields.
            let line = format!("{kind:02X}{}\n", &digits[2..]).into_bytes();
            let fits = kind <= 4 || kind >= 0x81;
            to.line_read(&line, fits.then_some(fields));
            to.line_write(fields, fits.then_some(&line));
        }
    }
    // The kinds of the table, the lengths and a lower-case digit.
    let rest = "000100FFFFFFFF0000000000000000";
    for kind in ["05", "80", "0a", "8a", "fF", "Ff", "G0", " 0", "0 ", "+1"] {
        to.line_read(format!("{kind}{rest}\n").as_bytes(), None);
    }
    for text in [
        &b""[..],
        b"\n",
        &line[..32],
        &line[1..],
        b"03000401000000030000000000000001\n\n",
        b"03000401000000030000000000000001\r",
        b"03000401000000030000000000000001\r\n",
        b"030004010000000300000000000000010",
        b"030004010000000300000000000000010\n",
        b"0300040100000003\n000000000000001\n",
        b"0300040100000003000000000000000a\n",
    ] {
        to.line_read(text, None);
    }
    for near in near_lines(line) {
        to.line_read(&near, (near == line).then_some(example));
    }
}

// Random cases.

/// Units and where they commit.
fn commit_places(to: &mut Literals) {
    to.commits(None, "", &[]);
    let (none, at) = (None, Some::<u32>);
    // C: thread 0 commits at 4, thread 1 at 8.
    let c = "05000000 05010000 01000000 04000000 02000000 01010000 04010000 06000000 \
             02010000 06010000";
    let mut of_c = [none; 10];
    (of_c[0], of_c[1]) = (at(4), at(8));
    to.commits(None, c, &of_c);
    // Single frames, a block that commits at its end, and one inside another.
    to.commits(None, "03000005 04010005", &[at(0), at(1)]);
    to.commits(None, "05000000 06000000", &[at(1), none]);
    to.commits(
        None,
        "05000000 05000000 06000000 06000000",
        &[at(3), none, none, none],
    );
    // An access of a variable without a guard commits with a list alone.
    let f = "05000000 03000005 06000000";
    to.commits(Some(""), f, &[at(1), none, none]);
    to.commits(Some("00050002"), f, &[at(2), none, none]);
    to.commits(None, f, &[at(2), none, none]);
    // A violation stops nothing: A goes wrong at 4, and E at 2.
    let a = "05010000 01010000 03010000 02010000 01010000 03010001 02010000 06010000 05010000 \
             06010000";
    let mut of_a = [none; 10];
    (of_a[0], of_a[8]) = (at(3), at(9));
    to.commits(None, a, &of_a);
    to.commits(Some("00000000 00010000"), a, &of_a);
    to.commits(Some(""), "05000000 03000005 03000005", &[at(1), none, none]);
    // Open at the end: with a commit and without.
    to.commits(None, "05000000 01000000 02000000", &[at(2), none, none]);
    to.commits(None, "05000000 01000000", &[none, none]);
    to.commits(None, "05000000 03000005", &[none, none]);
    // An inner release does not commit.
    let again = "05000000 01000000 01000000 02000000 02000000 06000000";
    to.commits(None, again, &[at(4), none, none, none, none, none]);
    to.commits_refused(None, "01000003 01010003", 7, 1);
    to.commits_refused(None, "03000005 07000000", 4, 1);
    to.commits_refused(Some("04000000"), "07000000", 11, 0);
    to.commits_refused(Some("00050002 00050002"), "07000000", 12, 1);
    to.commits_refused(Some("0005000"), "", 1, 0);
    let long = "05000000 06000000 ".repeat(2048) + "05000000";
    to.commits_refused(None, &long, 2, 4096);
    to.commits_refused(Some(""), &long, 2, 4096);
}

/// What is said of verdicts, refusals, kept lines, kinds and numbers; docs/TOOL.md has the texts.
fn words_said(to: &mut Literals) {
    const MENDED: &str = "  To mend it, hold one lock at every access of the variable.\n";
    let wrong = "violation: kind 4, candidate set emptied, by thread 0.\n  \
                 The thread is in no block.\n  It goes wrong at line 1 [0]";
    let with = format!(
        "{wrong}: read of variable 5.\n  Locks left that may guard variable 5: all 64. Thread 0 \
         holds none of them, so no one lock guards every access of the variable.\n{MENDED}"
    );
    let without = format!(
        "{wrong}.\n  Locks left that may guard the variable: all 64. Thread 0 holds none of them, so \
         no one lock guards every access of the variable.\n{MENDED}"
    );
    let line = "04000000FFFFFFFFFFFFFFFFFFFFFFFF";
    to.said_verdict(line, "03000005", &with);
    to.said_verdict(line, "", &without);
    let mut kept = Case::new(Call::SayLine);
    kept.text = text(line);
    to.said(kept.clone(), &without);
    let no_line =
        "refused: number 18, this is no verdict line: that has 32 digits 0-9 A-F, the first \
                   two 00 to 04 or 81 to FF, and one LF; hand it on as it was written.\n";
    for text in [&b""[..], b"\n", line.as_bytes(), &text(line).repeat(2)] {
        kept.text = text.to_vec();
        to.said(kept.clone(), no_line);
        let mut case = Case::new(Call::SayVerdict);
        (case.text, case.frames) = (text.to_vec(), frames("03000005"));
        to.said(case, no_line);
    }
    to.said_verdict(
        "00000000FFFFFFFF0000000000000000",
        "",
        "reducible: there is nothing in the recording; frames: 0.\n",
    );
    to.said_verdict(
        "00000100FFFFFFFF0000000000000000",
        "05000000",
        "reducible: no frame goes wrong; frames: 1.\n",
    );
    let held = |frame: &str| {
        format!("refused: number 7, line 2 [1] of {frame} takes a lock that another thread holds; it has to be released before this line.\n")
    };
    let j = "01000003 01010003";
    let named = "the recording, acquire of lock 3 by thread 1,";
    to.said_verdict("87000100FFFFFFFF0000000000000000", j, &held(named));
    to.said_verdict(
        "87000100FFFFFFFF0000000000000000",
        "",
        &held("the recording"),
    );
    to.said_refusal((7, 1), 0, (b"", j), &held(named));
    to.said_refusal(
        (7, 1),
        3,
        (b"x", j),
        &held("the right recording, acquire of lock 3 by thread 1,"),
    );
    to.said_refusal((7, 1), 2, (b"", ""), &held("the left recording"));
    to.said_refusal((7, 1), 2, (b"", "01000003"), &held("the left recording"));
    let faulty = |source: &str, fault: &str| {
        format!("refused: number 1, line 1 [0] of {source} is not eight digits 0-9 A-F and one LF{fault}\n")
    };
    let byte = ": column 8 has byte 61, a lower-case letter; write A-F.";
    let any = "; write it so, without blanks, lower case or CR, and end the last line.";
    let (guards, text) = ("the guard list", "the text");
    to.said_refusal((1, 0), 1, (b"0000000a\n", ""), &faulty(guards, byte));
    to.said_refusal((1, 0), 1, (b"", ""), &faulty(guards, any));
    for source in [4, 5, 256, u32::MAX] {
        to.said_refusal((1, 0), source, (b"0000000a\n", ""), &faulty(text, byte));
    }
    to.said_verdict("81000000FFFFFFFF0000000000000000", "", &faulty(text, any));
    // A line that does not begin in the text.
    let second = faulty(text, any).replace("line 1 [0]", "line 2 [1]");
    to.said_refusal((1, 1), 4, (b"0000000a\n", ""), &second);
    to.said_refusal(
        (22, 7),
        0,
        (b"", ""),
        "refused: number 22, which this check does not give; its place is 7.\n",
    );
    to.said_refusal(
        (255, u32::MAX.into()),
        0,
        (b"", ""),
        "refused: number 255, which this check does not give; its place is 4294967295.\n",
    );
    // No refusal.
    for reply in [0, 1, 33, u32::MAX.into()] {
        let mut case = Case::new(Call::SayRefusal);
        (case.reply, case.text) = (reply, b"x".to_vec());
        to.said(case, "");
    }
    for (kind, name) in [
        (0x00, "reducible"),
        (0x01, "guard not held"),
        (0x02, "unprotected access after commit"),
        (0x03, "acquire after commit"),
        (0x04, "candidate set emptied"),
        (0x81, "malformed line"),
        (0x95, "moves too short"),
    ] {
        to.said_of(Call::SayKind, kind, name);
    }
    for kind in [0x05, 0x7F, 0x80, 0x96, 0xFF] {
        to.said_of(Call::SayKind, kind, "");
    }
    for (number, name) in [
        (1, "malformed line"),
        (8, "lock not held"),
        (18, "not a verdict line"),
        (21, "moves too short"),
    ] {
        to.said_of(Call::SayRefusalName, number, name);
    }
    for number in [0, 22, 128, 129, 255] {
        to.said_of(Call::SayRefusalName, number, "");
    }
}

/// Verdict lines read and written, with begin and commit at each of their edges.
fn compare_edges() -> Tally {
    let mut tally = Tally::default();
    for kind in EDGE_KINDS {
        for begin in EDGE_PLACES {
            for commit in EDGE_PLACES {
                let fields = Fields {
                    kind,
                    frame: commit,
                    thread: kind,
                    begin,
                    commit,
                    locks: u64::from(begin) << 48,
                };
                let mut read = Case::new(Call::LineRead);
                read.text = fields.line().into_bytes();
                tally.count(&read, &compare(&read));
                let mut write = Case::new(Call::LineWrite);
                write.fields = fields;
                tally.count(&write, &compare(&write));
            }
        }
    }
    tally
}

/// The search over exchanges and the projections agree on short sound recordings.
fn compare_search(random: &mut Random) -> bool {
    // Not equal and equal: all, those with the same frames in another order, those of these with an
    // inner acquire and its release, and those that reads decide.
    let (mut counts, mut rearranged, mut inner) = ([0; 2], [0; 2], [0; 2]);
    let mut decided = [0; 2];
    while counts[0] + counts[1] < BRUTE_PAIRS {
        let mut left = match random.below(6) {
            0 => random_recording(random, Call::Equal, false).words,
            1 => random::taken_again(random),
            2..4 => {
                let threads = random.between(2, 4);
                random::shared_reads(random, threads, BRUTE_FRAMES)
            }
            _ => random::interleaved(random, 8, true).words,
        };
        left.truncate(random.between(2, BRUTE_FRAMES));
        let inner_pair = has_inner_pair(&left, left.len());
        let right = random_right(random, &left);
        let reply = equal(&left, &right);
        if reply >> 32 != 0 {
            continue;
        }
        if brute_equal(&left, &right) != (reply == 1) {
            println!("SEARCH AND PROJECTIONS differ: {left:08X?} {right:08X?}");
            exit(1);
        }
        let sorted = |words: &[u32]| {
            let mut words = words.to_vec();
            words.sort_unstable();
            words
        };
        let same_frames = left != right && sorted(&left) == sorted(&right);
        counts[reply as usize] += 1;
        rearranged[reply as usize] += usize::from(same_frames);
        inner[reply as usize] += usize::from(same_frames && inner_pair);
        let by_reads = reads::shown(&left, &right, reply == 1).contains(&true);
        decided[reply as usize] += usize::from(by_reads);
    }
    let ([unequal, equal], [unequal_order, equal_order]) = (counts, rearranged);
    let [unequal_inner, equal_inner] = inner;
    println!("equality by search: {equal} equal, {equal_order} of these in another order");
    println!("  {unequal} not equal, {unequal_order} of these with the same frames");
    println!("  with inner pairs: {equal_inner} and {unequal_inner} of these");
    println!("  equal only by exchanging reads: {}", decided[1]);
    println!(
        "  not equal, as one read has passed a write: {}",
        decided[0]
    );
    let complete = ![rearranged, inner, decided].concat().contains(&0);
    if !complete {
        println!("  FAILED: something that can occur did not");
    }
    complete
}

/// All recordings of a few frames of two threads, by the reference: a displacement is 0, or at most
/// the length less 2 in either direction, and that is reached in both.
fn compare_furthest() -> bool {
    let mut reached = [[false; 2]; FURTHEST_FRAMES + 1];
    let mut open = vec![Vec::new()];
    let mut written = 0;
    while let Some(words) = open.pop() {
        let count = words.len();
        for list in [None, Some(&b""[..]), Some(b"00000000\n")] {
            let mut moves = [0; FURTHEST_FRAMES];
            let reply = match list {
                Some(list) => moves_declared(list, &words, &mut moves),
                None => moves_inferred(&words, &mut moves),
            };
            written += u32::from(reply == count as u64);
            for by in moves.into_iter().filter(|&by| by != 0) {
                let distance = by.unsigned_abs() as usize;
                if distance + 2 > count {
                    println!("TOO FAR: {by} in {words:08X?}");
                    exit(1);
                }
                reached[count][usize::from(by < 0)] |= distance + 2 == count;
            }
        }
        for operation in [ACQUIRE, RELEASE, WRITE, BEGIN, END] {
            for thread in 0..2 {
                let longer = [&words[..], &[word(operation, thread, 0)]].concat();
                if longer.len() <= FURTHEST_FRAMES && check_recording(&longer).is_ok() {
                    open.push(longer);
                }
            }
        }
    }
    println!("displacements of all recordings of up to {FURTHEST_FRAMES} frames: {written} lists");
    let complete = !reached[3..].concat().contains(&false);
    if !complete {
        println!("  FAILED: not as far as can be");
    }
    complete
}

/// Lines and replies that are not of the words and texts handed on. What is said of these is not
/// promised, but it is one text for every length of the output, and begins as the line says.
fn compare_foreign(random: &mut Random) -> bool {
    for _ in 0..FOREIGN {
        let call = random.pick(&[Call::SayVerdict, Call::SayRefusal]);
        let mut case = Case::new(call);
        case.fill = random.draw();
        case.frames = (0..random.below(9))
            .map(|_| random::edge_word(random))
            .collect();
        let mut fields = random_fields(random);
        if random.chance(700) {
            (fields.kind, fields.frame) = (random.below(5) as u8, random.below(10) as u16);
            (fields.begin, fields.commit) = (random.below(10) as u16, random.below(10) as u16);
        }
        case.text = match call {
            Call::SayVerdict => fields.line().into_bytes(),
            _ => (0..random.below(40))
                .map(|_| random.pick(b"09AFg\n"))
                .collect(),
        };
        case.reply = random.draw() & 0xFF_0000_000F;
        case.source = random.below(6) as u32;
        case.text_len = 4096;
        let longest = case.run(&LIBRARY);
        let whole = longest.reply as usize;
        let said = &longest.text[MARGIN..][..whole.min(4096)];
        let first = |said: &[u8]| said.split(|&byte| byte == b'\n').next().map(<[u8]>::to_vec);
        let mut start = vec![0; whole];
        say_line(&case.text, &mut start);
        let told = call == Call::SayRefusal || fields.kind > 4 || first(said) == first(&start);
        let sound = whole < 4096 && (whole == 0 || said.ends_with(b"\n")) && told;
        case.text_len = random.below(whole + 2);
        let mut expected = case.run(&NOTHING);
        let count = whole.min(case.text_len);
        expected.text[MARGIN..][..count].copy_from_slice(&said[..count]);
        expected.reply = whole as u64;
        let outcome = case.run(&LIBRARY);
        if !sound || outcome != expected {
            println!(
                "NOT ONE TEXT for every length\n{case}\n{}\n{}",
                longest.describe("library, 4,096 bytes"),
                outcome.describe("library")
            );
            return false;
        }
    }
    println!("words of other recordings: {FOREIGN} cases");
    true
}

/// Prints the counts; false if something that can occur is absent.
fn report(tally: &Tally, call: Call) -> bool {
    let (kinds, refusals) = (call.possible_kinds(), call.possible_refusals());
    let shown = |label: &str, of: &[usize], counts: &[usize]| {
        let each: Vec<String> = of.iter().map(|&n| format!("{n}: {}", counts[n])).collect();
        println!("  {label} {}", each.join(", "));
        of.iter().all(|&n| counts[n] > 0)
    };
    println!("{}: {} cases", call.name(), tally.cases);
    let mut complete = true;
    let [equal_moved, unequal_same_length, order_moved] = tally.moved;
    let long = tally.long_moved;
    if call == Call::Equal {
        let [unequal, equal, ..] = tally.kinds;
        println!("  equal: {equal}, {equal_moved} of these in another order, {long} long");
        println!("  not equal: {unequal}, {unequal_same_length} of these of one length");
        complete &= unequal_same_length > 0 && unequal > unequal_same_length && long > 0;
        complete &= shown("refusals, left ", refusals, &tally.refusals);
        complete &= shown("refusals, right", refusals, &tally.right_refusals);
    } else if call.orders() {
        let written = tally.kinds[0];
        println!("  written: {written}, {order_moved} of these not as recorded, {long} long");
        complete &= written > order_moved && long > 0;
        complete &= shown("refusals", refusals, &tally.refusals);
    } else if matches!(call, Call::Write | Call::LineRead | Call::LineWrite) {
        let (written, back) = (tally.kinds[0], tally.came_back);
        println!("  read or written: {written}, {back} of these come back");
        complete &= written > 0 && back == written;
        complete &= shown("refusals", refusals, &tally.refusals);
    } else if call.says() {
        println!("  said: {}", tally.kinds[0]);
    } else {
        complete &= shown("kinds   ", kinds, &tally.kinds);
        complete &= shown("refusals", refusals, &tally.refusals);
        if kinds.contains(&1) || kinds.contains(&4) {
            let [absent, alone, both] = tally.shapes;
            println!("  kind 1 or 4 outside: {absent}, before commit: {alone}, after: {both}");
            complete &= !tally.shapes.contains(&0);
        }
    }
    if call.checks_recording() {
        let answer = |&kind: &usize| format!("{} {}", call.answer(kind), tally.inner[kind]);
        let answers: Vec<String> = kinds.iter().map(answer).collect();
        println!("  with inner pairs: {}", answers.join(", "));
        complete &= kinds.iter().all(|&kind| tally.inner[kind] > 0);
    }
    if !complete {
        println!("  FAILED: something that can occur did not");
    }
    complete
}

fn main() {
    let seed = match std::env::args().nth(1) {
        Some(argument) => argument.parse().expect("the seed is a number"),
        None => DEFAULT_SEED,
    };
    let mut literals = Literals::default();
    worked_recordings(&mut literals);
    locks_taken_again(&mut literals);
    most_holds(&mut literals);
    hidden_faults(&mut literals);
    frame_boundaries(&mut literals);
    order_of_refusals(&mut literals);
    lines_and_lists(&mut literals);
    equal_recordings(&mut literals);
    exchanged_reads(&mut literals);
    serial_orders(&mut literals);
    furthest_displacements(&mut literals);
    written_texts(&mut literals);
    verdict_lines(&mut literals);
    commit_places(&mut literals);
    words_said(&mut literals);
    println!("literal cases: {}", literals.checked);

    println!("seed {seed}");
    let random = &mut Random::new(seed);
    let mut complete = true;
    let mut edges = compare_edges();
    for call in CALLS {
        let cases = match call {
            Call::Check => CHECK_CASES,
            Call::Equal => EQUAL_CASES,
            _ => OTHER_CASES,
        };
        let mut tally = Tally::default();
        for number in 0..cases {
            let case = random_case(random, call, number % LONG_EVERY == 0);
            tally.count(&case, &compare(&case));
        }
        complete &= report(&tally, call);
        edges.add(&tally);
    }
    complete &= print_edges([&edges]);
    complete &= compare_search(random);
    complete &= compare_furthest();
    complete &= compare_foreign(random);
    if !complete {
        exit(1);
    }
    println!("compare: all replies and buffers agree");
}
