mod model;

// The entering program: its arguments are the images of the columns, a text of lines from standard input goes as a record file to standard
// output. A text of more than four times the longest file and 64 bytes, which is the longest listing, is refused first. A refusal, an
// argument that is not in UTF-8, a failed read and a failed write are told on standard error, and the exit status is then 1.
use model::Entered;
use std::io::{Read, Write};
use std::process::ExitCode;

const MAX_FILE: usize = 65_536;
const MAX_REPORT: usize = 4 * MAX_FILE + 64;

/// Gives the arguments, or the line that tells that one is not in UTF-8.
fn arguments() -> Result<Vec<String>, Vec<u8>> {
    let arguments: Result<Vec<String>, _> = std::env::args_os().skip(1).map(|argument| argument.into_string()).collect();
    arguments.map_err(|_| b"reading the arguments failed\n".to_vec())
}

/// Reads standard input, one byte more than is allowed at most, or gives the line that tells that it can't be read.
fn read_input() -> Result<Vec<u8>, Vec<u8>> {
    let mut text = Vec::new();
    let read = std::io::stdin().take(MAX_REPORT as u64 + 1).read_to_end(&mut text);
    read.map(|_| text).map_err(|_| b"reading standard input failed\n".to_vec())
}

/// Makes a contents of images: refused with 10 for their count, with 1 or 2 and the column for one that no contents can have.
fn contents_of(images: &[String]) -> Result<Vec<u8>, model::Refusal> {
    if images.is_empty() || images.len() > model::MAX_COLUMNS {
        return model::refuse(10, 0);
    }
    let mut contents = vec![images.len() as u8];
    for (column, image) in images.iter().enumerate() {
        // An image that is not refused has at most 19 bytes, so that its length is one byte.
        model::read_image(image.as_bytes(), column)?;
        contents.push(image.len() as u8);
        contents.extend(image.bytes());
    }
    Ok(contents)
}

/// Enters a text under images, with the program's own limits.
fn entered(images: &[String], text: &[u8]) -> Entered {
    if text.len() > MAX_REPORT {
        return Entered::Refused(model::Refusal { number: 11, place: 0 });
    }
    match contents_of(images) {
        Ok(contents) => model::enter(&contents, text, MAX_FILE),
        Err(refusal) => Entered::Refused(refusal),
    }
}

/// Gives what goes to standard output, or the line that goes to standard error.
fn output_for(images: &[String], text: &[u8]) -> Result<Vec<u8>, Vec<u8>> {
    match entered(images, text) {
        Entered::File(file) => Ok(file),
        Entered::Refused(refusal) => Err(model::refusal_line(refusal)),
        Entered::Line(line, refusal) => Err([format!("line {line} ").into_bytes(), model::refusal_line(refusal)].concat()),
    }
}

/// Writes the record file, or gives the line that tells that it can't be written.
fn write_output(bytes: &[u8]) -> Result<(), Vec<u8>> {
    let mut output = std::io::stdout();
    output.write_all(bytes).and_then(|()| output.flush()).map_err(|_| b"writing standard output failed\n".to_vec())
}

/// Reads, enters and writes.
fn run() -> Result<(), Vec<u8>> {
    let images = arguments()?;
    let text = read_input()?;
    write_output(&output_for(&images, &text)?)
}

/// Tells what went wrong.
fn main() -> ExitCode {
    match run() {
        Ok(()) => ExitCode::SUCCESS,
        Err(line) => {
            let _ = std::io::stderr().write_all(&line);
            ExitCode::FAILURE
        }
    }
}
