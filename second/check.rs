mod model;

// Reads calls in the format of vectors/base.txt and vectors/changes-i-vii.txt from standard input; beside these enter CONTENTS TEXT ROOM,
// where the refusal of a line is line L refused N P, and whole FILE, which is answered with ok LENGTH BEHIND. Prints each line whose answer
// differs, followed by the answer found here, and last the counts. A line that cannot be read as a call counts as differing.
use model::{Element, Entered, Number, Refusal};
use std::io::{Read, Write};

/// Reads bytes in hexadecimal; a dot is no bytes.
fn bytes(word: &str) -> Option<Vec<u8>> {
    if word == "." {
        return Some(Vec::new());
    }
    let halves: Option<Vec<u8>> = word.chars().map(|c| c.to_digit(16).map(|half| half as u8)).collect();
    let halves = halves.filter(|halves| halves.len() % 2 == 0)?;
    Some(halves.chunks(2).map(|pair| pair[0] * 16 + pair[1]).collect())
}

/// Reads a size; one past the largest size becomes the largest, which no call can tell apart.
fn size(word: &str) -> Option<usize> {
    word.parse::<u128>().ok().map(|whole| usize::try_from(whole).unwrap_or(usize::MAX))
}

/// Reads a number: sign, mantissa, e, exponent.
fn number(word: &str) -> Option<Number> {
    let negative = word.starts_with('-');
    let (m, e) = word.strip_prefix(['+', '-'])?.split_once('e')?;
    Some(Number { negative, m: m.parse().ok()?, e: e.parse().ok()? })
}

/// Reads an element: n and a number, or t, start, colon, length.
fn element(word: &str) -> Option<Element> {
    if let Some(rest) = word.strip_prefix('n') {
        return number(rest).map(Element::Number);
    }
    let (start, length) = word.strip_prefix('t')?.split_once(':')?;
    Some(Element::Text { start: start.parse().ok()?, length: length.parse().ok()? })
}

/// Reads a list parted by commas; a dot is an empty list.
fn list<T>(word: &str, read: fn(&str) -> Option<T>) -> Option<Vec<T>> {
    if word == "." { Some(Vec::new()) } else { word.split(',').map(read).collect() }
}

/// Writes bytes in hexadecimal; a dot if there are none.
fn hexadecimal(bytes: &[u8]) -> String {
    let digits: String = bytes.iter().map(|byte| format!("{byte:02x}")).collect();
    if digits.is_empty() { ".".to_string() } else { digits }
}

/// Writes a number.
fn number_words(number: &Number) -> String {
    format!("{}{}e{}", if number.negative { '-' } else { '+' }, number.m, number.e)
}

/// Writes an answer: ok and its words, or the refusal.
fn answer<T>(result: Result<T, Refusal>, words: impl Fn(T) -> String) -> String {
    match result {
        Ok(value) => format!("ok {}", words(value)),
        Err(refusal) => format!("refused {} {}", refusal.number, refusal.place),
    }
}

/// Writes an answer that is bytes.
fn bytes_answer(result: Result<Vec<u8>, Refusal>) -> String {
    answer(result, |found| hexadecimal(&found))
}

/// Writes an answer that is one number.
fn number_answer(result: Result<Number, Refusal>) -> String {
    answer(result, |found| number_words(&found))
}

/// Writes an answer that is a list of numbers.
fn numbers_answer(result: Result<Vec<Number>, Refusal>) -> String {
    answer(result, |found| found.iter().map(number_words).collect::<Vec<_>>().join(","))
}

/// Makes a print call.
fn print_answer(line: &str, elements: &str, texts: &str, room: &str) -> Option<String> {
    let (line, elements, texts) = (bytes(line)?, list(elements, element)?, bytes(texts)?);
    let result = model::print(&line, &elements, &texts, size(room)?);
    Some(answer(result, |found| format!("{} {}", hexadecimal(&found.bytes), found.spilled)))
}

/// Makes a call that packs and gives remainders.
fn remainders_answer(contents: &str, numbers: &str, room: &str) -> Option<String> {
    let result = model::pack_with_remainders(&bytes(contents)?, &list(numbers, number)?, size(room)?);
    Some(answer(result, |(body, remainders)| {
        let words = remainders.iter().map(|remainder| format!("{}e{}", remainder.r, remainder.power));
        format!("{} {}", hexadecimal(&body), words.collect::<Vec<_>>().join(","))
    }))
}

/// Writes the answer of a call that puts a record behind the used length.
fn added_answer(result: Result<(usize, Vec<u8>), Refusal>) -> String {
    answer(result, |(used, buffer)| format!("{used} {}", hexadecimal(&buffer)))
}

/// Makes a call that adds a record.
fn add_answer(buffer: &str, used: &str, numbers: &str) -> Option<String> {
    Some(added_answer(model::add(&bytes(buffer)?, size(used)?, &list(numbers, number)?)))
}

/// Makes a call that reserves.
fn reserve_answer(buffer: &str, used: &str) -> Option<String> {
    let result = model::reserve(&bytes(buffer)?, size(used)?);
    Some(answer(result, |(place, length)| format!("{place} {length}")))
}

/// Makes a call that writes what was reserved.
fn write_answer(buffer: &str, used: &str, place: &str, length: &str, numbers: &str) -> Option<String> {
    let (place, length) = (size(place)?, size(length)?);
    Some(added_answer(model::write(&bytes(buffer)?, size(used)?, place, length, &list(numbers, number)?)))
}

/// Makes a call that shows a record.
fn show_answer(file: &str, r: &str) -> Option<String> {
    let result = model::show(&bytes(file)?, size(r)?);
    Some(answer(result, |(start, length)| format!("{start} {length}")))
}

/// Makes a call that finds positions.
fn find_answer(file: &str, positions: &str) -> Option<String> {
    let result = model::find(&bytes(file)?, &list(positions, number)?);
    Some(answer(result, |found| {
        let records: Vec<String> = found.records.iter().map(usize::to_string).collect();
        format!("{} {}", if records.is_empty() { ".".to_string() } else { records.join(",") }, found.comparisons)
    }))
}

/// Makes a call that enters a text.
fn enter_answer(contents: &str, text: &str, room: &str) -> Option<String> {
    Some(match model::enter(&bytes(contents)?, &bytes(text)?, size(room)?) {
        Entered::File(file) => bytes_answer(Ok(file)),
        Entered::Refused(refusal) => bytes_answer(Err(refusal)),
        Entered::Line(line, refusal) => format!("line {line} {}", bytes_answer(Err(refusal))),
    })
}

/// Makes a call that gives the whole length of a file.
fn whole_answer(file: &str) -> Option<String> {
    Some(answer(model::whole_length(&bytes(file)?), |whole| format!("{} {}", whole.length, whole.behind)))
}

/// Makes the call that the words before the arrow stand for; nothing if they cannot be read.
fn make_call(words: &[&str]) -> Option<String> {
    Some(match *words {
        ["pack", contents, numbers, room] => {
            bytes_answer(model::pack(&bytes(contents)?, &list(numbers, number)?, size(room)?))
        }
        ["remainders", contents, numbers, room] => remainders_answer(contents, numbers, room)?,
        ["unpack", contents, body] => numbers_answer(model::unpack(&bytes(contents)?, &bytes(body)?)),
        ["alpha", image, value, room] => {
            bytes_answer(model::alpha(&bytes(image)?, &number(value)?, size(room)?))
        }
        ["legal", text] => format!("ok {}", model::legal_length(&bytes(text)?)),
        ["read", text] => {
            answer(model::read_text_number(&bytes(text)?), |(found, used)| format!("{} {used}", number_words(&found)))
        }
        ["convert", text] => number_answer(model::convert(&bytes(text)?)),
        ["field", field] => number_answer(model::read_field(&bytes(field)?)),
        ["print", line, elements, texts, room] => print_answer(line, elements, texts, room)?,
        ["add", buffer, used, numbers] => add_answer(buffer, used, numbers)?,
        ["reserve", buffer, used] => reserve_answer(buffer, used)?,
        ["write", buffer, used, place, length, numbers] => write_answer(buffer, used, place, length, numbers)?,
        ["show", file, r] => show_answer(file, r)?,
        ["find", file, positions] => find_answer(file, positions)?,
        ["merge", first, second, room] => bytes_answer(model::merge(&bytes(first)?, &bytes(second)?, size(room)?)),
        ["enter", contents, text, room] => enter_answer(contents, text, room)?,
        ["whole", file] => whole_answer(file)?,
        ["contents", contents, room] => bytes_answer(model::write_contents(&bytes(contents)?, size(room)?)),
        ["listing", file] => format!("ok {}", hexadecimal(&model::listing_output(&bytes(file)?))),
        _ => return None,
    })
}

/// Gives the answer found here if it differs from the line's.
fn difference(line: &str) -> Option<String> {
    let (call, expected) = line.split_once(" -> ").unwrap_or((line, ""));
    let words: Vec<&str> = call.split(' ').collect();
    let found = make_call(&words).unwrap_or_else(|| "cannot be read".to_string());
    (found != expected).then_some(found)
}

/// Checks all lines but comments and empty ones.
fn main() -> std::io::Result<()> {
    let mut input = String::new();
    std::io::stdin().read_to_string(&mut input)?;
    let mut output = std::io::stdout().lock();
    let (mut calls, mut differ) = (0, 0);
    for line in input.lines().filter(|line| !line.is_empty() && !line.starts_with('#')) {
        calls += 1;
        if let Some(found) = difference(line) {
            differ += 1;
            writeln!(output, "{line} here: {found}")?;
        }
    }
    writeln!(output, "{calls} calls, {differ} differ")
}
