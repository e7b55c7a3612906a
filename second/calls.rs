mod answers;
mod model;

// Reads calls from standard input, one to a line, and writes the model's answer to each.
use std::io::{Read, Write};

// An input of so many bytes is too long: it has one answer, ?.
const TOO_LONG: usize = 1 << 18;

fn main() -> std::io::Result<()> {
    let mut input = Vec::new();
    std::io::stdin().read_to_end(&mut input)?;
    if input.len() >= TOO_LONG {
        return std::io::stdout().write_all(b"?\n");
    }
    let lines = String::from_utf8_lossy(&input);
    let answers: String = lines.split_terminator('\n').map(|line| answers::answer_line(line) + "\n").collect();
    std::io::stdout().write_all(answers.as_bytes())
}
