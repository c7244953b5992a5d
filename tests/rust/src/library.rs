//! The library under test, through its binding.

use crate::case::Implementation;
use crate::{Fields, FieldsOut};
use gambozuri::raw;

pub const LIBRARY: Implementation = Implementation {
    name: "library",
    check: raw::trace_check,
    read: raw::trace_read,
    guards: raw::trace_guards,
    declared: raw::trace_declared,
    inferred: raw::trace_inferred,
    equal: raw::trace_equal,
    serial_declared: raw::trace_serial_declared,
    serial_inferred: raw::trace_serial_inferred,
    moves_declared: raw::trace_moves_declared,
    moves_inferred: raw::trace_moves_inferred,
    commits_declared: raw::trace_commits_declared,
    commits_inferred: raw::trace_commits_inferred,
    write: raw::trace_write,
    line_read,
    line_write,
    say_verdict: raw::trace_say_verdict,
    say_refusal: raw::trace_say_refusal,
    say_line: raw::trace_say_line,
    say_kind: raw::trace_say_kind,
    say_refusal_name: raw::trace_say_refusal_name,
};

pub fn line_read(line: &[u8], out: FieldsOut) -> u64 {
    let FieldsOut {
        kind,
        frame,
        thread,
        begin,
        commit,
        locks,
    } = out;
    raw::trace_line_read(line, kind, frame, thread, begin, commit, locks)
}

pub fn line_write(fields: Fields, line: &mut [u8]) -> u64 {
    let Fields {
        kind,
        frame,
        thread,
        begin,
        commit,
        locks,
    } = fields;
    raw::trace_line_write(kind, frame, thread, begin, commit, locks, line)
}
