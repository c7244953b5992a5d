//! The C functions as they are: one function for each, with the C name, slices for pointers with
//! lengths, and replies not yet taken apart. The headers say what each does.

/// Declares a C function and wraps it. A slice is handed on as its pointer and its length in
/// elements, a `&mut` number as a pointer to it, and a number as itself.
macro_rules! functions {
    ($($(#[$doc:meta])* fn $name:ident($($argument:tt)*) -> $reply:ty;)*) => {
        $(functions!(@ [$(#[$doc])* $name $reply] [] [] [] $($argument)*,);)*
    };
    (@ $of:tt [$($ours:tt)*] [$($theirs:tt)*] [$($passed:tt)*]
        $name:ident: &mut [$element:ty], $($rest:tt)*) => {
        functions!(@ $of [$($ours)* $name: &mut [$element],]
            [$($theirs)* $name: *mut $element, _: usize,]
            [$($passed)* $name.as_mut_ptr(), $name.len(),] $($rest)*);
    };
    (@ $of:tt [$($ours:tt)*] [$($theirs:tt)*] [$($passed:tt)*]
        $name:ident: &[$element:ty], $($rest:tt)*) => {
        functions!(@ $of [$($ours)* $name: &[$element],]
            [$($theirs)* $name: *const $element, _: usize,]
            [$($passed)* $name.as_ptr(), $name.len(),] $($rest)*);
    };
    (@ $of:tt [$($ours:tt)*] [$($theirs:tt)*] [$($passed:tt)*]
        $name:ident: &mut $number:ty, $($rest:tt)*) => {
        functions!(@ $of [$($ours)* $name: &mut $number,]
            [$($theirs)* $name: *mut $number,] [$($passed)* $name,] $($rest)*);
    };
    (@ $of:tt [$($ours:tt)*] [$($theirs:tt)*] [$($passed:tt)*]
        $name:ident: $number:ty, $($rest:tt)*) => {
        functions!(@ $of [$($ours)* $name: $number,]
            [$($theirs)* $name: $number,] [$($passed)* $name,] $($rest)*);
    };
    (@ [$(#[$doc:meta])* $name:ident $reply:ty]
        [$($ours:tt)*] [$($theirs:tt)*] [$($passed:tt)*]) => {
        $(#[$doc])*
        #[allow(clippy::too_many_arguments)]
        pub fn $name($($ours)*) -> $reply {
            extern "C" {
                fn $name($($theirs)*) -> $reply;
            }
            // SAFETY: the headers ask this alone of a caller: "Every pointer must be valid for its
            // length (counted in elements), aligned for its element type and not null even if the
            // length is 0. A buffer that is written must not overlap another." Pointers and lengths
            // are those of slices and references, and what is written is borrowed alone.
            unsafe { $name($($passed)*) }
        }
    };
}

functions! {
    /// The verdict line of a recording's text, guards inferred. Replies the kind.
    fn trace_check(text: &[u8], line: &mut [u8]) -> u8;
    /// A recording's text read into words.
    fn trace_read(text: &[u8], words: &mut [u32]) -> u64;
    /// A guard list checked.
    fn trace_guards(list: &[u8]) -> u64;
    /// The verdict line with declared guards. Replies the kind.
    fn trace_declared(list: &[u8], words: &[u32], line: &mut [u8]) -> u8;
    /// The verdict line with inferred guards, and the candidate sets. Replies the kind.
    fn trace_inferred(words: &[u32], sets: &mut [u64], line: &mut [u8]) -> u8;
    /// Whether two recordings are equal.
    fn trace_equal(left: &[u32], right: &[u32]) -> u64;
    /// The serial order with declared guards.
    fn trace_serial_declared(list: &[u8], words: &[u32], out: &mut [u32]) -> u64;
    /// The serial order with inferred guards.
    fn trace_serial_inferred(words: &[u32], out: &mut [u32]) -> u64;
    /// How far each frame moves, with declared guards.
    fn trace_moves_declared(list: &[u8], words: &[u32], moves: &mut [i32]) -> u64;
    /// How far each frame moves, with inferred guards.
    fn trace_moves_inferred(words: &[u32], moves: &mut [i32]) -> u64;
    /// Where each unit commits, with declared guards.
    fn trace_commits_declared(list: &[u8], words: &[u32], commits: &mut [u32]) -> u64;
    /// Where each unit commits, with inferred guards.
    fn trace_commits_inferred(words: &[u32], commits: &mut [u32]) -> u64;
    /// A recording written as text, from a place on.
    fn trace_write(words: &[u32], text: &mut [u8], place: usize) -> u64;
    /// The fields of a verdict line.
    fn trace_line_read(line: &[u8], kind: &mut u8, frame: &mut u16, thread: &mut u8,
        begin: &mut u16, commit: &mut u16, locks: &mut u64) -> u64;
    /// A verdict line of these fields.
    fn trace_line_write(kind: u8, frame: u16, thread: u8, begin: u16, commit: u16, locks: u64,
        line: &mut [u8]) -> u64;
    /// The answer of a verdict line in words.
    fn trace_say_verdict(line: &[u8], words: &[u32], out: &mut [u8]) -> usize;
    /// A refusal in words.
    fn trace_say_refusal(reply: u64, source: u32, text: &[u8], words: &[u32],
        out: &mut [u8]) -> usize;
    /// A kept verdict line in words.
    fn trace_say_line(line: &[u8], out: &mut [u8]) -> usize;
    /// The name of a kind.
    fn trace_say_kind(kind: u8, out: &mut [u8]) -> usize;
    /// The name of a refusal.
    fn trace_say_refusal_name(number: u8, out: &mut [u8]) -> usize;
}
