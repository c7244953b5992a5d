//! Files and standard input.

use crate::console::error_number;
use gambozuri::{MAX_FRAMES, TEXT_LINE_LENGTH};
use std::ffi::OsStr;
use std::fs::{self, File};
use std::io::{self, Read, Write};
use std::os::fd::AsFd;
use std::os::unix::ffi::OsStrExt;
use std::os::unix::fs::{FileTypeExt, MetadataExt};

/// As many bytes of a file as can change the answer: all lines that a recording may have, and one
/// byte.
const MOST: u64 = (TEXT_LINE_LENGTH * MAX_FRAMES) as u64 + 1;

/// The name of standard input.
pub const STANDARD_INPUT: &str = "-";

// Numbers of errors of the system (Linux).
const EPERM: i32 = 1;
const ENOENT: i32 = 2;
const EBADF: i32 = 9;
const EACCES: i32 = 13;
const ENOTDIR: i32 = 20;
const EISDIR: i32 = 21;
const ENAMETOOLONG: i32 = 36;

/// A file that was read.
pub struct Input<'a> {
    pub name: &'a OsStr,
    pub text: Vec<u8>,
}

/// Reads a file, or gives the error's text.
pub fn read(name: &OsStr) -> Result<Input<'_>, Vec<u8>> {
    let mut text = Vec::new();
    open(name)
        .and_then(|file| file.take(MOST).read_to_end(&mut text))
        .map_err(|error| unreadable(name, &error))?;
    Ok(Input { name, text })
}

fn open(name: &OsStr) -> io::Result<File> {
    if name == STANDARD_INPUT {
        standard_input()
    } else {
        File::open(name)
    }
}

/// Standard input, without a buffer.
pub fn standard_input() -> io::Result<File> {
    let file = File::from(io::stdin().as_fd().try_clone_to_owned()?);
    if stands_for_closed(&file) {
        return Err(io::Error::from_raw_os_error(EBADF));
    }
    Ok(file)
}

/// Before `main` the runtime puts /dev/null, open for reading and writing, in the place of a
/// standard input that is closed. A shell opens /dev/null for reading alone, and then even a write
/// of nothing fails.
fn stands_for_closed(mut file: &File) -> bool {
    let (Ok(input), Ok(null)) = (file.metadata(), fs::metadata("/dev/null")) else {
        return false;
    };
    input.file_type().is_char_device() && input.rdev() == null.rdev() && file.write(b"").is_ok()
}

/// The text of the error that a file cannot be read.
pub fn unreadable(name: &OsStr, error: &io::Error) -> Vec<u8> {
    let why = match error.raw_os_error() {
        Some(ENOENT | ENOTDIR) => "no such file".to_owned(),
        Some(EISDIR) => "it is a directory".to_owned(),
        Some(EACCES | EPERM) => "no permission".to_owned(),
        Some(ENAMETOOLONG) => "the name is too long".to_owned(),
        Some(EBADF) if name == STANDARD_INPUT => "it is closed".to_owned(),
        _ => error_number(error),
    };
    [
        b"cannot read ",
        name.as_bytes(),
        b": ",
        why.as_bytes(),
        b"\n",
    ]
    .concat()
}
