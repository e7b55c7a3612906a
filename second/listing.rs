mod model;

// The listing program of document 01: a record file from standard input, its listing or its refusal to standard output.
use std::io::{Read, Write};

const MAX_FILE: usize = 65_536;

/// Reads standard input, one byte more than is allowed at most.
fn read_input() -> std::io::Result<Vec<u8>> {
    let mut file = Vec::new();
    std::io::stdin().take(MAX_FILE as u64 + 1).read_to_end(&mut file)?;
    Ok(file)
}

/// Gives the output, with the program's own limit first.
fn output_for(file: &[u8]) -> Vec<u8> {
    if file.len() > MAX_FILE {
        return model::refusal_line(model::Refusal { number: 11, place: 0 });
    }
    model::listing_output(file)
}

/// Reads, lists and writes.
fn main() -> std::io::Result<()> {
    let file = read_input()?;
    std::io::stdout().write_all(&output_for(&file))
}
