mod model;

// The merging program of document 02, (vi): merges the two files that its arguments name, the first camera's first, to standard output. A
// refusal, another count of arguments, an argument that is not in UTF-8, a file that can't be read and a failed write are told on standard
// error, and the exit status is then 1.
use std::fs::File;
use std::io::{Read, Write};
use std::process::ExitCode;

const MAX_FILE: usize = 65_536;

/// Reads a file, one byte more than is allowed at most.
fn read_bytes(name: &str) -> std::io::Result<Vec<u8>> {
    let mut bytes = Vec::new();
    File::open(name)?.take(MAX_FILE as u64 + 1).read_to_end(&mut bytes)?;
    Ok(bytes)
}

/// Reads a file, or gives the line that tells which one can't be read.
fn read_named(name: &str) -> Result<Vec<u8>, Vec<u8>> {
    read_bytes(name).map_err(|_| format!("reading {name} failed\n").into_bytes())
}

/// Gives the arguments, or the line that tells that one is not in UTF-8.
fn arguments() -> Result<Vec<String>, Vec<u8>> {
    let arguments: Result<Vec<String>, _> = std::env::args_os().skip(1).map(|argument| argument.into_string()).collect();
    arguments.map_err(|_| b"reading the arguments failed\n".to_vec())
}

/// Merges two files, with the program's own limit first.
fn merged(first: &[u8], second: &[u8]) -> Result<Vec<u8>, model::Refusal> {
    if first.len() > MAX_FILE || second.len() > MAX_FILE {
        return model::refuse(11, 0);
    }
    model::merge(first, second, usize::MAX)
}

/// Gives what goes to standard output, or the line that goes to standard error.
fn output_for(arguments: &[String]) -> Result<Vec<u8>, Vec<u8>> {
    let [first, second] = arguments else { return Err(b"usage: merge FIRST SECOND\n".to_vec()) };
    let first = read_named(first)?;
    let second = read_named(second)?;
    merged(&first, &second).map_err(model::refusal_line)
}

/// Writes the merged file, or gives the line that tells that it can't be written.
fn write_output(bytes: &[u8]) -> Result<(), Vec<u8>> {
    let mut output = std::io::stdout();
    output.write_all(bytes).and_then(|()| output.flush()).map_err(|_| b"writing standard output failed\n".to_vec())
}

/// Merges and writes.
fn main() -> ExitCode {
    match arguments().and_then(|arguments| output_for(&arguments)).and_then(|bytes| write_output(&bytes)) {
        Ok(()) => ExitCode::SUCCESS,
        Err(line) => {
            let _ = std::io::stderr().write_all(&line);
            ExitCode::FAILURE
        }
    }
}
