//! Standard output and standard error, and the exit status.

use std::fs::File;
use std::io::{self, ErrorKind, Write};
use std::os::fd::AsFd;

/// The exit status.
#[derive(Clone, Copy, Debug, PartialEq, Eq, PartialOrd, Ord)]
pub enum Status {
    Good = 0,
    Wrong = 1,
    Refused = 2,
    Error = 3,
}

/// The call ends here, with the status that the console keeps.
#[derive(Debug)]
pub struct Stop;

/// Where answers and errors go. The status is the highest of them all.
pub struct Console {
    output: Option<File>,
    /// Whether a part of the answer was taken.
    taken: bool,
    status: Status,
}

impl Console {
    pub fn new() -> Console {
        Console {
            output: None,
            taken: false,
            status: Status::Good,
        }
    }

    pub fn status(&self) -> Status {
        self.status
    }

    /// Prints an answer of a status.
    pub fn answer(&mut self, status: Status, text: &[u8]) -> Result<(), Stop> {
        self.status = self.status.max(status);
        let Err(error) = self.write(text) else {
            return Ok(());
        };
        if error.kind() != ErrorKind::BrokenPipe {
            let why = match error.kind() {
                ErrorKind::StorageFull => "the disk is full".to_owned(),
                _ => error_number(&error),
            };
            return Err(self.error(format!("cannot write the answer: {why}\n").as_bytes()));
        }
        if !self.taken {
            self.status = Status::Error;
        }
        Err(Stop)
    }

    /// Prints a refusal that goes to standard error.
    pub fn refuse(&mut self, text: &[u8]) -> Stop {
        self.status = self.status.max(Status::Refused);
        complain(text);
        Stop
    }

    /// Prints an error.
    pub fn error(&mut self, text: &[u8]) -> Stop {
        self.status = Status::Error;
        complain(&[b"error: ", text].concat());
        Stop
    }

    /// Writes without a buffer, so that answers and errors keep their order.
    fn write(&mut self, mut text: &[u8]) -> io::Result<()> {
        let mut output = match self.output.take() {
            Some(output) => output,
            None => File::from(io::stdout().as_fd().try_clone_to_owned()?),
        };
        while !text.is_empty() {
            match output.write(text) {
                Ok(0) => return Err(ErrorKind::WriteZero.into()),
                Ok(length) => {
                    self.taken = true;
                    text = text.get(length..).unwrap_or_default();
                }
                Err(error) if error.kind() == ErrorKind::Interrupted => {}
                Err(error) => return Err(error),
            }
        }
        self.output = Some(output);
        Ok(())
    }
}

/// Prints on standard error. Where that fails there is nowhere left to say so.
fn complain(text: &[u8]) {
    let _ = io::stderr().write_all(text);
}

/// An error of the system that has no words here; `EIO` where it has no number.
pub fn error_number(error: &io::Error) -> String {
    format!(
        "error number {} of the system",
        error.raw_os_error().unwrap_or(5)
    )
}
