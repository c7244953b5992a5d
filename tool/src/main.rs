//! The tool: reads files, asks the library and prints the answer. docs/TOOL.md has every answer.

#![forbid(unsafe_code)]

mod answers;
mod arguments;
mod commands;
mod console;
mod files;
mod help;
mod lanes;
mod picture;
mod rows;

use arguments::Request;
use console::{Console, Status};
use std::ffi::OsString;
use std::process::ExitCode;

fn main() -> ExitCode {
    let words: Vec<OsString> = std::env::args_os().skip(1).collect();
    let mut console = Console::new();
    // A stop is told by the status that the console keeps.
    let _ = match arguments::request(&words) {
        Ok(Request::Help) => console.answer(Status::Good, help::all().as_bytes()),
        Ok(Request::HelpOf(command)) => console.answer(Status::Good, command.help().as_bytes()),
        Ok(Request::Version) => console.answer(Status::Good, help::version().as_bytes()),
        Ok(Request::Call(call)) => commands::run(&mut console, &call),
        Err(error) => Err(console.error(&error)),
    };
    ExitCode::from(console.status() as u8)
}
