//! Calls every function of the library with each input and each lent buffer in memory of its own, of
//! just its length, for a run under a memory checker. Replies and buffers are those of the reference.
//! Arguments: an optional seed.

use std::process::exit;
use trace_tests::case::{Call, Case, Implementation, CALLS, REFERENCE};
use trace_tests::library::LIBRARY;
use trace_tests::random::Random;
use trace_tests::random_case::random_case;
use trace_tests::FieldsOut;

const DEFAULT_SEED: u64 = 1;
const CASES: usize = 300;
/// One case of so many is about the limit of 4,096 frames.
const LONG_EVERY: usize = 30;

/// The numbers of a verdict line.
type Numbers = (Box<u8>, Box<u16>, Box<u8>, Box<u16>, Box<u16>, Box<u64>);

/// The reply, and all that was lent.
#[derive(Debug, PartialEq)]
struct Lent {
    reply: u64,
    line: Box<[u8]>,
    words: Box<[u32]>,
    moves: Box<[i32]>,
    sets: Box<[u64]>,
    text: Box<[u8]>,
    numbers: Numbers,
}

fn run(case: &Case, of: &Implementation) -> Lent {
    let text: Box<[u8]> = case.text.clone().into();
    let frames: Box<[u32]> = case.frames.clone().into();
    let right: Box<[u32]> = case.right.clone().into();
    let mut lent = Lent {
        reply: 0,
        line: vec![0xA5; case.line_len].into(),
        words: vec![0xA5A5_A5A5; case.words_len].into(),
        moves: vec![0x5A5A_5A5A; case.words_len].into(),
        sets: vec![0xA5A5; case.sets_len].into(),
        text: vec![0xA5; case.text_len].into(),
        numbers: Default::default(),
    };
    let (line, words, moves) = (&mut lent.line[..], &mut lent.words[..], &mut lent.moves[..]);
    let (sets, out) = (&mut lent.sets[..], &mut lent.text[..]);
    let (kind, frame, thread, begin, commit, locks) = &mut lent.numbers;
    let fields = FieldsOut {
        kind,
        frame,
        thread,
        begin,
        commit,
        locks,
    };
    let number = case.fields.kind;
    lent.reply = match case.call {
        Call::Check => (of.check)(&text, line).into(),
        Call::Read => (of.read)(&text, words),
        Call::Guards => (of.guards)(&text),
        Call::Declared => (of.declared)(&text, &frames, line).into(),
        Call::Inferred => (of.inferred)(&frames, sets, line).into(),
        Call::Equal => (of.equal)(&frames, &right),
        Call::SerialDeclared => (of.serial_declared)(&text, &frames, words),
        Call::SerialInferred => (of.serial_inferred)(&frames, words),
        Call::MovesDeclared => (of.moves_declared)(&text, &frames, moves),
        Call::MovesInferred => (of.moves_inferred)(&frames, moves),
        Call::CommitsDeclared => (of.commits_declared)(&text, &frames, words),
        Call::CommitsInferred => (of.commits_inferred)(&frames, words),
        Call::Write => (of.write)(&frames, out, case.place),
        Call::LineRead => (of.line_read)(&text, fields),
        Call::LineWrite => (of.line_write)(case.fields, line),
        Call::SayVerdict => (of.say_verdict)(&text, &frames, out) as u64,
        Call::SayRefusal => (of.say_refusal)(case.reply, case.source, &text, &frames, out) as u64,
        Call::SayLine => (of.say_line)(&text, out) as u64,
        Call::SayKind => (of.say_kind)(number, out) as u64,
        Call::SayRefusalName => (of.say_refusal_name)(number, out) as u64,
    };
    lent
}

fn main() {
    let seed = match std::env::args().nth(1) {
        Some(argument) => argument.parse().expect("the seed is a number"),
        None => DEFAULT_SEED,
    };
    let random = &mut Random::new(seed);
    let mut cases = 0;
    for call in CALLS {
        for number in 0..CASES {
            let case = random_case(random, call, number % LONG_EVERY == 0);
            let (expected, lent) = (run(&case, &REFERENCE), run(&case, &LIBRARY));
            if lent != expected {
                println!("MISMATCH\n{case}\n{expected:X?}\n{lent:X?}");
                exit(1);
            }
            cases += 1;
        }
    }
    println!("checked: {cases} cases, each in memory of just its length");
}
