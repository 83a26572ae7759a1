//! A keeper's file compiled from Rust: the file (docs/FORMATS.md) on standard input, its signature list on standard output. A file that is
//! refused is told on standard error by its line and column, both from 1, nothing is written, and the status is 1; so it is if a stream
//! fails.
//!
//! usage: compile <FILE >LIST, as examples/compile.c. Built and run by tools/link_examples:
//!     rustc --edition 2021 -O -o compile examples/compile.rs -C link-arg=target/staticlib/libgateway.a

// One function of it is called here.
#[allow(dead_code)]
mod termread;

use std::fs::File;
use std::io::{Read, Write};
use std::mem::ManuallyDrop;
use std::os::fd::FromRawFd;
use std::process::ExitCode;
use termread::{compile_list, FileRefused};

/// A standard stream as a file: `io::stdout` takes a descriptor that is not open for writing for one that takes everything.
fn stream(descriptor: i32) -> ManuallyDrop<File> {
    // Safety: nothing else in this program reads or writes the descriptor, and it stays open.
    ManuallyDrop::new(unsafe { File::from_raw_fd(descriptor) })
}

/// A column is an offset in its line, counted from 1.
fn refused_text(refused: FileRefused) -> String {
    match refused {
        FileRefused::BadLine { line, offset } => format!("line {line}, column {}: no signature goes on here", u64::from(offset) + 1),
        FileRefused::TooManySignatures { line } => format!("line {line}: more than 65535 signatures"),
        FileRefused::TooManyEntries { line } => format!("line {line}: more than 32763 options in the layouts up to here"),
    }
}

fn failed(message: &str) -> ExitCode {
    eprintln!("{message}");
    ExitCode::FAILURE
}

fn main() -> ExitCode {
    let mut file = Vec::new();
    if stream(0).read_to_end(&mut file).is_err() {
        return failed("compile: standard input could not be read");
    }
    let list = match compile_list(&file) {
        Ok(list) => list,
        Err(refused) => return failed(&refused_text(refused)),
    };
    match stream(1).write_all(&list) {
        Ok(()) => ExitCode::SUCCESS,
        Err(_) => failed("compile: standard output could not be written, and ends early"),
    }
}
