//! What the generated calls of `generate` and those of the Rust comparison both draw: bytes of a set, texts that begin as numbers, lines.
use crate::files::{self, Random, one_of};

/// Gives some bytes of a set.
pub fn bytes_of(random: &mut Random, set: &[u8], most: usize) -> Vec<u8> {
    (0..random.below(most + 1)).map(|_| one_of(random, set)).collect()
}

/// Gives a text that mostly begins as a text number, at times with blanks behind the sign or in another place.
pub fn number_text(random: &mut Random) -> Vec<u8> {
    let mut text = bytes_of(random, b" ", 2);
    text.extend(one_of(random, &[&b""[..], b"", b"", b"+", b"-", b"-", b"+ ", b"- ", b"-   "]));
    let digits = if random.below(8) == 0 { 12 + random.below(4) } else { 1 + random.below(7) };
    let set: &[u8] = if random.below(8) == 0 { b"0" } else { b"0123456789" };
    let mut row: Vec<u8> = (0..digits).map(|_| one_of(random, set)).collect();
    if random.below(2) == 0 {
        row.insert(random.below(digits + 1), b'.');
    }
    text.extend(row);
    if random.below(3) == 0 {
        text.extend(one_of(random, &[&b"E"[..], b"E+", b"E-", b"E9", b"E99", b"E-99", b"E-100", b"E ", b"E- "]));
        text.extend(bytes_of(random, b"0123456789", 2));
    }
    text.extend(bytes_of(random, b" ", 2));
    if random.below(4) == 0 {
        text.extend(bytes_of(random, b" torn.+-E5", 4));
    }
    if random.below(10) == 0 {
        text.insert(random.below(text.len() + 1), b' ');
    }
    text
}

/// Puts a comma or a blank into a text, at times.
pub fn with_comma(random: &mut Random, mut text: Vec<u8>) -> Vec<u8> {
    if random.below(2) == 0 {
        text.insert(random.below(text.len() + 1), one_of(random, b", "));
    }
    text
}

/// Gives a line image of a few fields, with bytes between them.
pub fn line_of_fields(random: &mut Random) -> Vec<u8> {
    let mut line = Vec::new();
    for _ in 0..random.below(5) {
        line.extend(bytes_of(random, b" ab=,.", 3));
        match random.below(8) {
            0 => line.extend(files::bad_image(random)),
            1 => line.extend(bytes_of(random, b"#####,.^+-", 9)),
            2 | 3 => line.extend(one_of(random, &[&b"#,###"[..], b"#,###.#", b"-##,##", b"#,#,#", b"+#,###^^^^", b"#,,#", b"##^^^^^", b"#.#,#"])),
            _ => line.extend(files::image(random)),
        }
    }
    line.extend(bytes_of(random, b" ab", 2));
    line
}
