//! Texts of lines to be entered as record files, from the seeded generator: listings as they are, listings with lines changed, and lines
//! of any other bytes.
//! Each program that includes this file uses only some of the functions.
#![allow(dead_code)]
use crate::{files, model};
use files::{Random, one_of};
use model::Number;

/// A line without its end.
type Line = Vec<u8>;

/// Gives so many blanks, one to three.
fn blanks(random: &mut Random) -> Vec<u8> {
    vec![b' '; one_of(random, &[1, 1, 1, 2, 3])]
}

/// Gives a word that a record mostly does not have: a text number that is outside limits or written in another way, or no text number.
fn odd_word(random: &mut Random) -> Vec<u8> {
    let outside = [&b"99E99"[..], b"12E98", b"-99E99", b".1E-99", b"- .01E-98", b"99E99x", b"99E990", b".1E-99-1"];
    let exceeding = [&b"9E50"[..], b"-9E50", b"1E99", b"9999999999999", b"1E14", b"5E-99", b"-1E-98"];
    let other = [
        &b"- 5"[..], b"+   7", b".5", b"5.", b"-0", b"0", b"+0.0", b"12E3", b"12E+07", b"1E-9", b"0000000000005", b"5 12 99", b"- 1 -2", b"1 - 2",
    ];
    let bad = [
        &b"1-2"[..], b"12x", b"1.5.5", b"1E999", b"99999999999999", b"00000000000005", b"-", b"- -1", b"+-1", b".", b"- .", b"1E", b"1E+", b"1E-",
        b"1E- 5", b"1E 5", b"1. 5", b"1 .", b"1e5", b"1,5", b"5\t6", b"5\r", b"\x00", b"\x805", b"5\xff", b"\xe2\x88\x92", b"columns", b"records 1",
    ];
    match random.below(6) {
        0 => one_of(random, &outside),
        1 => one_of(random, &exceeding),
        2 | 3 => one_of(random, &other),
        _ => one_of(random, &bad),
    }
    .to_vec()
}

/// Writes a number as a text number with all of its digits: plain where it has a whole part or little before it, else with an exponent.
fn number_text(random: &mut Random, number: &Number) -> Vec<u8> {
    let sign = if number.negative { one_of(random, &["-", "-", "- ", "-   "]) } else { one_of(random, &["", "", "+", "+ "]) };
    let all = number.m.to_string();
    let digits = all.trim_end_matches('0').max("0");
    let places = number.e as usize + 1;
    let text = match number.e {
        0..=12 if digits.len() <= places => format!("{digits:0<places$}"),
        0..=12 => format!("{}.{}", &digits[..places], &digits[places..]),
        -2..=-1 if digits.len() < 10 => format!(".{:0>width$}", digits, width = digits.len() + (-1 - number.e) as usize),
        e => format!("{}.{}E{e}", &digits[..1], &digits[1..]),
    };
    format!("{sign}{text}").into_bytes()
}

/// Gives a line of words with blanks between them, at times also around them.
fn spaced(random: &mut Random, words: &[Vec<u8>]) -> Line {
    let mut line = if random.below(4) == 0 { blanks(random) } else { Vec::new() };
    for (index, word) in words.iter().enumerate() {
        if index > 0 {
            line.extend(blanks(random));
        }
        line.extend(word);
    }
    if random.below(4) == 0 {
        line.extend(blanks(random));
    }
    line
}

/// Parts a line at its blanks.
fn words_of(line: &[u8]) -> Vec<Vec<u8>> {
    line.split(|&byte| byte == b' ').filter(|word| !word.is_empty()).map(<[u8]>::to_vec).collect()
}

/// Gives a line of 15 to 18 numbers, at times with other bytes behind them.
fn many_numbers(random: &mut Random) -> Line {
    let count = one_of(random, &[15, 16, 16, 16, 17, 18]);
    let mut line: Line = (0..count).flat_map(|_| format!("{} ", random.below(10)).into_bytes()).collect();
    match random.below(4) {
        0 => line.extend(one_of(random, &[&b"x"[..], b"-", b"\xff", b"  "])),
        1 => drop(line.pop()),
        _ => {}
    }
    line
}

/// Gives a line whose words are those of another one but for one or two.
fn other_words(random: &mut Random, line: &[u8]) -> Line {
    let mut words = words_of(line);
    let place = random.below(words.len() + 1);
    match random.below(9) {
        0 => words.insert(place, b"5".to_vec()),
        1 => drop(words.pop()),
        2 if place + 1 < words.len() => {
            let next = words.remove(place + 1);
            words[place].extend(next);
        }
        3 => words.insert(place, odd_word(random)),
        _ if place < words.len() => words[place] = odd_word(random),
        _ => {}
    }
    if random.below(2) == 0 { words.join(&b' ') } else { spaced(random, &words) }
}

/// Changes a line in one of several ways.
fn change_line(random: &mut Random, line: &mut Line) {
    match random.below(24) {
        0 => line.clear(),
        1 => *line = blanks(random),
        2 => *line = many_numbers(random),
        3 | 4 => *line = spaced(random, &words_of(line)),
        5 | 6 => files::change(random, line, 0),
        7 | 8 => {
            let place = random.below(line.len() + 1);
            line.insert(place, one_of(random, b"  \x00\t\r+-.E0x,#\x80\xff"));
        }
        9 => line.truncate(random.below(line.len() + 1)),
        10 => line.push(b'\r'),
        _ => *line = other_words(random, line),
    }
}

/// Gives a line that begins as a listing's first or last one does, with this count or another, in its form or another.
fn counting_line(random: &mut Random, word: &str, count: usize) -> Line {
    let any = random.below(20);
    let other = one_of(random, &[count + 1, count.saturating_sub(1), count * 10, 0, any]);
    match random.below(12) {
        0 => format!("{word} 0{count}"),
        1 => format!("{word} +{count}"),
        2 => format!("{word} {count} "),
        3 => format!("{word}  {count}"),
        4 => format!("{word} "),
        5 => one_of(random, &[word.to_string(), format!("{word}{count}"), format!(" {word} {count}"), word.to_uppercase() + " 1"]),
        6 => format!("{word} {count}\r"),
        7 => format!("{word} {count}x"),
        8 => format!("{word} {count}"),
        _ => format!("{word} {other}"),
    }
    .into_bytes()
}

/// Changes the first or the last line of a listing, or where they stand.
fn change_counts(random: &mut Random, lines: &mut Vec<Line>, columns: usize) {
    let records = lines.len().saturating_sub(2);
    let place = random.below(lines.len() + 1);
    match random.below(9) {
        0 if !lines.is_empty() => drop(lines.remove(0)),
        1 => drop(lines.pop()),
        2 if !lines.is_empty() => {
            lines.pop();
            lines.drain(..1.min(lines.len()));
        }
        3 if !lines.is_empty() => lines[0] = counting_line(random, "columns", columns),
        4 if !lines.is_empty() => *lines.last_mut().expect("a line") = counting_line(random, "records", records),
        5 => lines.insert(place, counting_line(random, "columns", columns)),
        6 => lines.insert(place, counting_line(random, "records", records)),
        7 if place < lines.len() => drop(lines.remove(place)),
        8 if place < lines.len() => {
            let other = random.below(lines.len());
            lines.swap(place, other);
        }
        _ => lines.reverse(),
    }
}

/// Gives the lines of a listing of a file with these images and so many records, or the same numbers as other text numbers.
fn good_lines(random: &mut Random, images: &[Vec<u8>], records: usize) -> Vec<Line> {
    let file = files::file(random, images, records);
    let listing = model::listing(&file).unwrap_or_default();
    let mut lines: Vec<Line> = listing.split_inclusive(|&byte| byte == b'\n').map(|line| line[..line.len() - 1].to_vec()).collect();
    if random.below(3) == 0 {
        let Ok(read) = model::read_contents(&files::contents_of(images)) else { return lines };
        let last = lines.len() - 1;
        for line in &mut lines[1..last] {
            let numbers: Vec<Number> = read.iter().map(|image| files::number(random, image)).collect();
            let words: Vec<Vec<u8>> = numbers.iter().map(|number| number_text(random, number)).collect();
            *line = spaced(random, &words);
        }
    }
    lines
}

/// Joins lines: each ends with 0A, but at times the last one lacks it, more follow, or 0D stands before it.
fn joined(random: &mut Random, lines: &[Line]) -> Vec<u8> {
    let end: &[u8] = if random.below(40) == 0 { b"\r\n" } else { b"\n" };
    let mut text: Vec<u8> = lines.iter().flat_map(|line| [line, end].concat()).collect();
    match random.below(10) {
        0 | 1 => drop(text.pop()),
        2 if random.below(2) == 0 => text.push(b'\n'),
        _ => {}
    }
    text
}

/// Gives the next text for a contents with these images: three of seven as a listing is, or with other text numbers in its lines, the
/// others changed in one place or two.
pub fn next_text(random: &mut Random, images: &[Vec<u8>], records: usize) -> Vec<u8> {
    if random.below(24) == 0 {
        return (0..random.below(40)).map(|_| one_of(random, b"  +-.0123456789E\n\n,x")).collect();
    }
    let mut lines = good_lines(random, images, records);
    for _ in 0..one_of(random, &[0, 0, 0, 1, 1, 1, 2]) {
        if random.below(4) == 0 {
            change_counts(random, &mut lines, images.len());
        } else if lines.len() > 2 {
            let place = 1 + random.below(lines.len() - 2);
            change_line(random, &mut lines[place]);
        }
    }
    joined(random, &lines)
}
