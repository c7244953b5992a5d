//! Each function once or twice against the library that is linked.

use super::*;

/// Case A of the format: an acquire after the commit.
const TEXT: &[u8] =
    b"05010000\n01010000\n03010000\n02010000\n01010000\n03010001\n02010000\n06010000\n";
const LINE: &[u8; LINE_LENGTH] = b"03000401000000030000000000000001\n";

/// Case C: reducible, commits at 4 and 8.
const CROSSED: [u32; 10] = [
    0x0500_0000,
    0x0501_0000,
    0x0100_0000,
    0x0400_0000,
    0x0200_0000,
    0x0101_0000,
    0x0401_0000,
    0x0600_0000,
    0x0201_0000,
    0x0601_0000,
];

fn words(text: &[u8]) -> Vec<u32> {
    let mut words = vec![0; MAX_FRAMES];
    let count = read(text, &mut words).unwrap();
    words.truncate(count);
    words
}

fn said(say: impl Fn(&mut [u8]) -> usize) -> String {
    let mut out = vec![0; 2048];
    let length = say(&mut out);
    out.truncate(length);
    String::from_utf8(out).unwrap()
}

fn refused(refusal: Refusal, place: u32) -> Refused {
    Refused { refusal, place }
}

#[test]
fn verdicts() {
    let violation = Violation {
        kind: Kind::AcquireAfterCommit,
        frame: 4,
        thread: 1,
        begin: Some(0),
        commit: Some(3),
        locks: 1,
    };
    let words = words(TEXT);
    assert_eq!(&check(TEXT), LINE);
    assert_eq!(&verdict_line(Judgement::Inferred, &words), LINE);
    let mut sets = [0; VARIABLES];
    let answer = Ok(Verdict::Violated(violation));
    assert_eq!(verdict(Judgement::Inferred, &words), answer);
    assert_eq!(candidate_sets(&words, &mut sets), answer);
    assert_eq!((sets[0], sets[1]), (1, u64::MAX));
    assert_eq!(
        verdict(Judgement::Declared(b""), &[0x0300_0005]),
        Ok(Verdict::Reducible { frames: 1 })
    );
    assert_eq!(
        verdict(Judgement::Declared(b"04000000\n"), &[]),
        Err(refused(Refusal::GuardOutOfRange, 0))
    );
}

#[test]
fn texts() {
    assert_eq!(
        read(b"0500000\n", &mut [0; 1]),
        Err(refused(Refusal::MalformedLine, 0))
    );
    assert_eq!(
        read(TEXT, &mut [0; 1]),
        Err(refused(Refusal::WordsTooShort, 8))
    );
    assert_eq!(check_guards(b"00000001\n00010001\n"), Ok(2));
    assert_eq!(
        check_guards(b"00000001\n00000002\n"),
        Err(refused(Refusal::VariableAlreadyNamed, 1))
    );
    let mut text = [b'.'; 11];
    assert_eq!(write(&[0x0500_0000], &mut text, 1), Ok(9));
    assert_eq!(&text, b".05000000\n.");
    assert_eq!(
        write(&[0x0500_0000], &mut text, 3),
        Err(refused(Refusal::TextTooShort, 9))
    );
}

#[test]
fn orders() {
    let mut order = [0; 10];
    assert_eq!(serial(Judgement::Inferred, &CROSSED, &mut order), Ok(10));
    assert_eq!(equal(&CROSSED, &order), Ok(true));
    assert_eq!(equal(&CROSSED, &[]), Ok(false));
    let mut displacements = [0; 10];
    assert_eq!(
        moves(Judgement::Inferred, &CROSSED, &mut displacements),
        Ok(10)
    );
    assert_eq!(displacements, [0, 4, -1, -1, -1, 1, 1, -3, 0, 0]);
    let mut places = [0; 10];
    assert_eq!(commits(Judgement::Inferred, &CROSSED, &mut places), Ok(10));
    assert_eq!(places, [5, 9, 0, 0, 0, 0, 0, 0, 0, 0]);
    assert_eq!(
        serial(Judgement::Inferred, &words(TEXT), &mut order),
        Err(refused(Refusal::NotReducible, 4))
    );
    assert_eq!(
        moves(Judgement::Declared(b""), &[0x0500_0000], &mut displacements),
        Err(refused(Refusal::BlockStillOpen, 0))
    );
    let late = Err((Side::Right, refused(Refusal::NoOpenBlock, 0)));
    assert_eq!(equal(&[], &[0x0600_0000]), late);
    let early = Err((Side::Left, refused(Refusal::OperationOutOfRange, 0)));
    assert_eq!(equal(&[0], &[0x0600_0000]), early);
}

#[test]
fn lines() {
    let fields = Fields::read(LINE).unwrap();
    assert_eq!(fields.write().as_ref(), Ok(LINE));
    let none = refused(Refusal::NotAVerdictLine, 0);
    assert_eq!(Fields::read(&LINE[..32]), Err(none));
    let kind = Kind::Other(5);
    assert_eq!(Fields { kind, ..fields }.write(), Err(none));
    for number in 0..=255 {
        assert_eq!(Kind::of_number(number).number(), number);
        assert_eq!(Refusal::of_number(number).number(), number);
    }
}

#[test]
fn sentences() {
    let first = "violation: kind 3, acquire after commit, by thread 1.\n";
    let whole = said(|out| say_verdict(LINE, &words(TEXT), out));
    assert!(
        whole.starts_with(first)
            && whole.contains("It commits at line 4 [3]: release of lock 0.\n")
    );
    assert!(said(|out| say_line(LINE, out)).starts_with(first));
    let short = refused(Refusal::MalformedLine, 0);
    assert_eq!(
        said(|out| say_refusal(short, Source::GuardList, b"05000000", &[], out)),
        "refused: number 1, line 1 [0] of the guard list is not eight digits 0-9 A-F and one LF: \
         column 9 is behind the end of the file, so the last line has no LF; add it.\n"
    );
    assert_eq!(
        said(|out| say_kind(Kind::GuardNotHeld, out)),
        "guard not held"
    );
    assert_eq!(said(|out| say_kind(Kind::Other(9), out)), "");
    assert_eq!(short.to_string(), "malformed line [0]");
    assert_eq!(Refusal::Other(90).to_string(), "refusal 90");
}

#[test]
fn frames() {
    let operation = Operation::Write(0x3FF);
    let frame = Frame {
        thread: 31,
        operation,
    };
    assert_eq!(frame.word(), 0x041F_03FF);
    assert_eq!(Frame::of_word(0x041F_03FF), Some(frame));
    for word in [
        0,
        0x0100_0040,
        0x0300_0400,
        0x0500_0001,
        0x0520_0000,
        0x0700_0000,
    ] {
        assert_eq!(Frame::of_word(word), None);
    }
}
