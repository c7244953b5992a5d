//! Random cases of each call: recordings, their texts and guard lists, most of them sound, and
//! verdict lines, with lent buffers of fitting and of other lengths.

use crate::adversarial::{random_fields, random_line, random_room};
use crate::case::{Call, Case, REFERENCE};
use crate::random::{self, text_of_words, Plan, Random};
use crate::{
    declared, equal, guards, inferred, read, serial_inferred, LINE_BYTES, MOST_FRAMES, VARIABLES,
};

fn small_plan(random: &mut Random, unprotected: usize) -> Plan {
    Plan {
        threads: random.between(1, 4),
        locks: random.between(1, 5),
        variables: random.between(1, 5),
        frames: random.pick(&[10, 60, 60, 200]) * random.below(1001) / 1000,
        nesting: random.pick(&[1, 2, 2, 3, 30]),
        inner: random.pick(&[0, 1, 2, 2, 4]),
        unprotected,
        careless: random.pick(&[0, 0, 10, 50, 300]),
        wild: random.pick(&[0, 0, 20, 100]),
    }
}

fn long_plan(random: &mut Random, unprotected: usize) -> Plan {
    Plan {
        threads: random.between(1, 32),
        locks: random.between(1, 64),
        variables: random.between(1, 1024),
        frames: random.between(4090, 4100),
        nesting: random.between(1, 3),
        inner: random.pick(&[0, 1, 1, 2]),
        unprotected,
        careless: random.pick(&[0, 0, 0, 1]),
        wild: random.pick(&[0, 0, 0, 1]),
    }
}

pub fn random_recording(random: &mut Random, call: Call, long: bool) -> random::Recording {
    // Unprotected variables belong to declared guards; elsewhere they are soon a violation.
    let unprotected = match call.takes_list() {
        true => random.pick(&[0, 100, 300, 1000]),
        false => random.pick(&[0, 0, 0, 0, 0, 100]),
    };
    let plan = if long {
        long_plan(random, unprotected)
    } else {
        small_plan(random, unprotected)
    };
    let mut made = random::recording(random, &plan);
    if !long && random.chance(100) {
        made.words = (0..random.below(12))
            .map(|_| random::edge_word(random))
            .collect();
    } else if !long && random.chance(20) {
        made.words = (0..random.below(12))
            .map(|_| random.draw() as u32)
            .collect();
    } else if long && random.chance(200) {
        *made.words.last_mut().expect("long") = random::edge_word(random);
    }
    made
}

fn random_text(random: &mut Random, call: Call, long: bool) -> Vec<u8> {
    let mut text = text_of_words(&random_recording(random, call, long).words);
    if random.chance(300) {
        random::damage_text(random, &mut text);
    } else if random.chance(20) {
        text = (0..random.below(40))
            .map(|_| random.pick(b"0123ABCF\n\n\n\rf"))
            .collect();
    } else if long && random.chance(300) {
        text.truncate(9 * 4096);
        let extra: [&[u8]; 5] = [b"", b"x", b"\n", b"05000000\n", b"05000000"];
        text.extend(random.pick(&extra));
    }
    text
}

pub fn random_list(random: &mut Random, guards: &[(u32, Option<u32>)]) -> Vec<u8> {
    let mut words = random::guard_words(random, guards);
    if random.chance(150) {
        random::damage_guards(random, &mut words);
    }
    let mut list = text_of_words(&words);
    if random.chance(80) {
        random::damage_text(random, &mut list);
    }
    list
}

/// A guard list of just these guards in random order.
pub fn exact_list(random: &mut Random, guards: &[(u32, Option<u32>)]) -> Vec<u8> {
    let named = |&(variable, guard): &(u32, Option<u32>)| Some(variable << 16 | guard?);
    let mut words: Vec<u32> = guards.iter().filter_map(named).collect();
    random.shuffle(&mut words);
    text_of_words(&words)
}

/// A recording for equality, serial orders and displacements: most are closed and sound.
fn random_units(random: &mut Random, call: Call, long: bool) -> random::Recording {
    if !long && random.chance(500) {
        let unprotected = call.takes_list() && random.chance(700);
        let mut units = random.pick(&[3, 10, 30]);
        units = random.between(0, units);
        let mut made = random::interleaved(random, units, unprotected);
        if random.chance(60) {
            random::forbidden_exchange(random, &mut made.words);
        } else if random.chance(60) {
            made.words.truncate(random.between(0, made.words.len()));
        } else if random.chance(60) {
            random::damage_frames(random, &mut made.words);
        }
        return made;
    }
    let mut made = random_recording(random, call, long);
    if random.chance(if long { 800 } else { 600 }) {
        let most = if long { 4096 } else { made.words.len() };
        random::close_blocks(random, &mut made.words, most);
    }
    made
}

/// A recording that is equal to this one, or nearly.
pub fn random_right(random: &mut Random, left: &[u32]) -> Vec<u32> {
    let mut right = left.to_vec();
    let sweeps = random.pick(&[0, 1, 3, 20]);
    if random.chance(200) {
        serial_inferred(left, &mut right);
    }
    random::exchange(random, &mut right, sweeps);
    let place = random.below(right.len().max(1));
    match random.below(14) {
        0..5 => {}
        5..8 => {
            random::forbidden_exchange(random, &mut right);
            random::exchange(random, &mut right, sweeps);
        }
        8..10 => {
            for _ in 0..random.pick(&[1, 1, 2]) {
                random::pass_writes(random, &mut right);
            }
            random::exchange(random, &mut right, sweeps);
        }
        10..12 => right = random::reschedule(random, left),
        // Another operation or object, or another length: sound in some cases.
        12 if !right.is_empty() => right[place] ^= random.pick(&[1, 2, 7 << 24, 1 << 16]),
        _ => match random.below(4) {
            0 => right.insert(place, 0x0300_0000 | random.below(4) as u32),
            1 => right.truncate(place),
            2 if !right.is_empty() => drop(right.remove(place)),
            _ => right.extend([0x0505_0000, 0x0605_0000]),
        },
    }
    right
}

fn random_pair(random: &mut Random, long: bool) -> (Vec<u32>, Vec<u32>) {
    let mut left = random_units(random, Call::Equal, long);
    if !long && random.chance(300) {
        // Unguarded accesses are as good as others here.
        left.words = random::interleaved(random, 6, true).words;
    }
    let mut left = left.words;
    if random.chance(if long { 400 } else { 300 }) {
        let (threads, frames) = match long {
            true => (random.between(2, 32), random.between(4090, 4096)),
            false => (random.between(2, 6), random.between(0, 60)),
        };
        left = random::shared_reads(random, threads, frames);
    }
    let mut right = match random.below(20) {
        0 => random_units(random, Call::Equal, long).words,
        _ => random_right(random, &left),
    };
    match random.below(20) {
        0 => random::damage_frames(random, &mut left),
        1..3 => random::damage_frames(random, &mut right),
        3 => {
            random::damage_frames(random, &mut left);
            random::damage_frames(random, &mut right);
        }
        _ => {}
    }
    (left, right)
}

pub fn random_case(random: &mut Random, call: Call, long: bool) -> Case {
    let mut case = Case::new(call);
    case.fill = random.draw();
    case.line_len = match random.chance(60) {
        true => random.between(0, 32),
        false => random.between(33, 64),
    };
    case.sets_len = match random.below(10) {
        0 => random.pick(&[0, 1, 1022, 1023]),
        1 => random.between(1025, 1100),
        _ => 1024,
    };
    match call {
        Call::Check => case.text = random_text(random, call, long),
        Call::Read => {
            case.text = random_text(random, call, long);
            let lines = case.text.len() / 9;
            case.words_len = match random.below(4) {
                0 => random.between(0, lines),
                1 => lines,
                2 => lines.saturating_sub(1),
                _ => lines + random.below(20),
            };
        }
        Call::Guards => {
            let made = random_recording(random, call, long);
            case.text = random_list(random, &made.guards);
        }
        Call::Declared => {
            let made = random_recording(random, call, long);
            case.text = random_list(random, &made.guards);
            case.frames = made.words;
        }
        Call::Inferred => case.frames = random_recording(random, call, long).words,
        Call::Equal => (case.frames, case.right) = random_pair(random, long),
        Call::SerialDeclared
        | Call::SerialInferred
        | Call::MovesDeclared
        | Call::MovesInferred
        | Call::CommitsDeclared
        | Call::CommitsInferred => {
            let made = random_units(random, call, long);
            if call.takes_list() {
                case.text = match random.below(10) {
                    0 => Vec::new(),
                    1..4 => random_list(random, &made.guards),
                    _ => exact_list(random, &made.guards),
                };
            }
            case.frames = made.words;
            let count = case.frames.len();
            case.words_len = match random.below(10) {
                0 => random.between(0, count),
                1 => count.saturating_sub(1),
                2..6 => count,
                _ => count + random.below(20),
            };
        }
        Call::Write => {
            case.frames = match random.below(10) {
                0 => Vec::new(),
                1..4 => random_recording(random, call, long).words,
                _ => random_units(random, call, long).words,
            };
            (case.text_len, case.place) = random_room(random, 9 * case.frames.len());
        }
        Call::LineRead => case.text = random_line(random),
        Call::LineWrite => case.fields = random_fields(random),
        Call::SayVerdict => (case.text, case.frames) = random_verdict(random, long),
        Call::SayRefusal => random_refusal(random, &mut case, long),
        Call::SayLine => case.text = random_line(random),
        Call::SayKind | Call::SayRefusalName => case.fields.kind = random.draw() as u8,
    }
    if call.says() {
        case.text_len = random_said_len(random, case.run(&REFERENCE).reply as usize);
    }
    case
}

/// A length of the output about as long as need be.
pub fn random_said_len(random: &mut Random, whole: usize) -> usize {
    match random.below(10) {
        0 => random.below(whole + 1),
        1..3 => whole.saturating_sub(1),
        3..6 => whole,
        6 => 0,
        _ => whole + random.below(40),
    }
}

/// A verdict line with the words that it is of, or with none.
fn random_verdict(random: &mut Random, long: bool) -> (Vec<u8>, Vec<u32>) {
    if random.chance(100) {
        return (random_line(random), Vec::new());
    }
    let call = random.pick(&[Call::Declared, Call::Inferred]);
    let made = random_recording(random, call, long);
    let list = match random.chance(800) {
        true => exact_list(random, &made.guards),
        false => random_list(random, &made.guards),
    };
    let mut line = vec![0; LINE_BYTES];
    match call {
        Call::Declared => declared(&list, &made.words, &mut line),
        _ => inferred(&made.words, &mut [0; VARIABLES], &mut line),
    };
    match random.chance(100) {
        true => (line, Vec::new()),
        false => (line, made.words),
    }
}

/// The refusal of a text, of a list or of words that are at hand, or any number and place.
fn random_refusal(random: &mut Random, case: &mut Case, long: bool) {
    case.source = random.pick(&[0, 0, 1, 2, 3, 4, 5, 256, u32::MAX]);
    case.reply = match random.below(5) {
        0 => {
            case.text = random_text(random, Call::Read, long);
            read(&case.text, &mut [0; MOST_FRAMES])
        }
        1 => {
            let made = random_recording(random, Call::Guards, long);
            case.text = random_list(random, &made.guards);
            guards(&case.text)
        }
        2 | 3 => {
            case.frames = random_recording(random, Call::Write, long).words;
            if random.chance(700) {
                random::damage_frames(random, &mut case.frames);
            }
            equal(&case.frames, &[])
        }
        _ => {
            let number = match random.chance(800) {
                true => random.between(1, 24) as u64,
                false => random.between(1, 255) as u64,
            };
            let place = random.draw() as u32 >> random.below(32);
            number << 32 | u64::from(place)
        }
    };
    // The side of a comparison says nothing here.
    if case.reply >> 32 != 0 && random.chance(300) {
        case.reply |= 256 << 32;
    }
    if random.chance(100) {
        (case.text, case.frames) = (Vec::new(), Vec::new());
    }
}
