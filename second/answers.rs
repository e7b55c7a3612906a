//! The answers of the model to the calls that the program `calls` reads, in the form that it writes them.
//! A line is words parted by one blank: a name, then bytes in hexadecimal, a dot for none.
#![allow(dead_code)]
use crate::model;
use model::{Element, Entered, Image, Number, Refusal, Remainder, Stop};

/// The most bytes of a line.
const LONGEST_CALL: usize = 16_384;

/// The bytes of a number or an element: a kind, then two whole numbers of eight bytes.
const ITEM: usize = 17;

/// Reads bytes in hexadecimal; a dot is no bytes.
fn bytes(word: &str) -> Option<Vec<u8>> {
    let word = if word == "." { "" } else { word };
    if word.len() % 2 != 0 || !word.bytes().all(|byte| b"0123456789abcdef".contains(&byte)) {
        return None;
    }
    (0..word.len()).step_by(2).map(|at| u8::from_str_radix(&word[at..at + 2], 16).ok()).collect()
}

/// Reads a whole number, the first byte highest; of more than eight bytes the last eight count.
fn whole(bytes: &[u8]) -> u64 {
    bytes.iter().fold(0, |value: u64, &byte| (value << 8) | u64::from(byte))
}

/// Reads an element.
fn element(item: &[u8]) -> Element {
    let (first, second) = (whole(&item[1..9]), whole(&item[9..17]));
    match item[0] {
        2 => Element::Text { start: first.into(), length: second.into() },
        kind => Element::Number(Number { negative: kind == 1, m: first.into(), e: i128::from(second) - 99 }),
    }
}

/// Reads a list of elements; bytes behind the last whole one are left out.
fn elements(bytes: &[u8]) -> Vec<Element> {
    bytes.chunks_exact(ITEM).map(element).collect()
}

/// Reads a list of numbers; a text is zero.
fn numbers(bytes: &[u8]) -> Vec<Number> {
    let number = |element| match element {
        Element::Number(number) => number,
        Element::Text { .. } => Number::ZERO,
    };
    elements(bytes).into_iter().map(number).collect()
}

/// Reads the first number; zero if there is none.
fn number(bytes: &[u8]) -> Number {
    numbers(bytes).first().copied().unwrap_or(Number::ZERO)
}

/// Writes bytes in hexadecimal; a dot if there are none.
pub fn hexadecimal(bytes: &[u8]) -> String {
    let digits: String = bytes.iter().map(|byte| format!("{byte:02x}")).collect();
    if digits.is_empty() { ".".to_string() } else { digits }
}

/// Writes a number.
fn number_words(number: &Number) -> String {
    format!("{}{}e{}", if number.negative { '-' } else { '+' }, number.m, number.e)
}

/// Writes a list of numbers: its count, and 16 values, zero behind the last.
fn numbers_words(numbers: &[Number]) -> String {
    let values = (0..model::MAX_COLUMNS).map(|column| number_words(numbers.get(column).unwrap_or(&Number::ZERO)));
    format!("{} {}", numbers.len(), values.collect::<Vec<_>>().join(" "))
}

/// Writes a remainder.
fn remainder_words(remainder: &Remainder) -> String {
    format!("{}e{}", remainder.r, remainder.power)
}

/// Writes a list of remainders: its count, and 16 values, those of zero behind the last.
fn remainders_words(remainders: &[Remainder]) -> String {
    let zero = Remainder { r: 0, power: 0 };
    let values = (0..model::MAX_COLUMNS).map(|column| remainder_words(remainders.get(column).unwrap_or(&zero)));
    format!("{} {}", remainders.len(), values.collect::<Vec<_>>().join(" "))
}

/// Writes a refusal.
fn refusal_words(refusal: Refusal) -> String {
    format!("refused {} {}", refusal.number, refusal.place)
}

/// Writes an answer: ok and its words, or the refusal.
fn answer<T>(result: Result<T, Refusal>, words: impl Fn(T) -> String) -> String {
    result.map_or_else(refusal_words, |found| format!("ok {}", words(found)))
}

/// Writes the answer of a call that writes at the front of a buffer, and the whole buffer afterwards.
fn written(result: Result<Vec<u8>, Refusal>, buffer: &[u8]) -> String {
    let found = result.clone().unwrap_or_default();
    let after = [&found, &buffer[found.len()..]].concat();
    format!("{} buffer {}", answer(result, |found| hexadecimal(&found)), hexadecimal(&after))
}

/// Answers the call that packs and gives remainders.
fn cutoff(buffer: &[u8], contents: &[u8], items: &[u8]) -> String {
    let result = model::pack_with_remainders(contents, &numbers(items), buffer.len());
    let remainders = result.clone().map(|(_, remainders)| remainders).unwrap_or_default();
    format!("{} {}", written(result.map(|(body, _)| body), buffer), remainders_words(&remainders))
}

/// Answers the print call.
fn print(buffer: &[u8], line: &[u8], items: &[u8], texts: &[u8]) -> String {
    let result = model::print(line, &elements(items), texts, buffer.len());
    let found = result.clone().map(|printed| printed.bytes).unwrap_or_default();
    let after = [&found, &buffer[found.len()..]].concat();
    let words = answer(result, |printed| format!("{} {}", hexadecimal(&printed.bytes), printed.spilled));
    format!("{words} buffer {}", hexadecimal(&after))
}

/// Writes the answer of a call that puts a record behind the used length, and the whole buffer afterwards.
fn added(result: Result<(usize, Vec<u8>), Refusal>, buffer: &[u8]) -> String {
    let after = result.clone().map_or(buffer.to_vec(), |(_, after)| after);
    format!("{} buffer {}", answer(result, |(used, _)| used.to_string()), hexadecimal(&after))
}

/// Answers the call that adds a record.
fn add(buffer: &[u8], used: &[u8], items: &[u8]) -> String {
    added(model::add(buffer, whole(used) as usize, &numbers(items)), buffer)
}

/// Answers the call that reserves.
fn reserve(buffer: &[u8], used: &[u8]) -> String {
    answer(model::reserve(buffer, whole(used) as usize), |(place, size)| format!("{place} {size}"))
}

/// Answers the call that writes what was reserved: a word's first eight bytes are the place, the bytes behind them the size.
fn write(buffer: &[u8], used: &[u8], reserved: &[u8], items: &[u8]) -> String {
    let (place, size) = reserved.split_at(reserved.len().min(8));
    added(model::write(buffer, whole(used) as usize, whole(place) as usize, whole(size) as usize, &numbers(items)), buffer)
}

/// Answers the call that shows a record: where its body stands, and the body.
fn show(file: &[u8], index: &[u8]) -> String {
    let result = model::show(file, whole(index) as usize);
    let body = result.map_or(&[][..], |(start, length)| &file[start..start + length]);
    format!("{} {}", answer(result, |(start, length)| format!("{start} {length}")), hexadecimal(body))
}

/// Answers the call that finds positions: the count of comparisons, and 64 record numbers, 0 behind the last position.
fn find(file: &[u8], items: &[u8]) -> String {
    let result = model::find(file, &numbers(items));
    let mut records = result.clone().map(|found| found.records).unwrap_or_default();
    records.resize(model::MAX_POSITIONS, 0);
    let words: String = records.iter().map(|record| format!(" {record}")).collect();
    answer(result, |found| found.comparisons.to_string()) + &words
}

/// Answers the call that unpacks a body.
fn unpack(contents: &[u8], body: &[u8]) -> String {
    let result = model::unpack(contents, body);
    let found = result.clone().unwrap_or_default();
    format!("{} {}", result.map_or_else(refusal_words, |_| "ok".to_string()), numbers_words(&found))
}

/// Answers the call that reads the numbers of a text.
fn text_numbers(text: &[u8], from: &[u8]) -> String {
    let walked = model::read_text_numbers(text, whole(from) as usize);
    let stop = match walked.stop {
        Stop::End => "end".to_string(),
        Stop::NoNumber => "none".to_string(),
        Stop::TooMany => "many".to_string(),
        Stop::Refused(refusal) => refusal_words(refusal),
    };
    format!("{stop} {} {}", walked.place, numbers_words(&walked.numbers))
}

/// Answers the scan for a field.
fn scan(line: &[u8], at: &[u8]) -> String {
    let at = whole(at) as usize;
    let field = if at < line.len() { model::longest_field(line, at) } else { None };
    format!("ok {}", field.map_or(0, |field| field.length))
}

/// Answers the report call, whose output has a refusal's line too.
fn report(buffer: &[u8], file: &[u8]) -> String {
    let output = model::listing_output(file);
    let result = if output.len() > buffer.len() { model::refuse(6, 0) } else { Ok(output) };
    written(result, buffer)
}

/// Answers the listing call.
fn list(buffer: &[u8], file: &[u8]) -> String {
    let fit = |output: Vec<u8>| if output.len() > buffer.len() { model::refuse(6, 0) } else { Ok(output) };
    written(model::listing(file).and_then(fit), buffer)
}

/// Answers the call that enters a text: as a call that writes, but for a line that is refused.
fn enter(buffer: &[u8], contents: &[u8], text: &[u8]) -> String {
    match model::enter(contents, text, buffer.len()) {
        Entered::File(file) => written(Ok(file), buffer),
        Entered::Refused(refusal) => written(Err(refusal), buffer),
        Entered::Line(line, refusal) => format!("line {line} {}", written(Err(refusal), buffer)),
    }
}

/// Answers the call that gives the whole length of a file: this length, and the count of bytes behind it.
fn whole_length(file: &[u8]) -> String {
    answer(model::whole_length(file), |whole| format!("{} {}", whole.length, whole.behind))
}

/// Answers the call that reads an image.
fn image(bytes: &[u8], place: &[u8]) -> String {
    answer(model::read_image(bytes, whole(place) as usize), |image| {
        let sign = match image.sign {
            None => "unsigned",
            Some(b'+') => "plus",
            Some(_) => "minus",
        };
        let exponential = if image.exponential { " exponential" } else { "" };
        format!("{sign} {} {}{exponential}", image.whole, image.fraction)
    })
}

/// Answers the truncation calls under an image: the number, its parts with the digits as half bytes, whether it packs, and what is cut off.
fn truncation(image: &Image, number: &Number, place: usize) -> String {
    let checked = if number.is_normal() { model::truncate(image, number, place) } else { model::refuse(3, place) };
    let parts = checked.clone().map_or("+0e0".to_string(), |parts| {
        let halves = parts.digits.iter().fold(0u64, |halves, &digit| halves * 16 + u64::from(digit));
        format!("{}{halves}e{}", if parts.negative { '-' } else { '+' }, parts.x)
    });
    let cut = answer(checked.clone(), |parts| remainder_words(&model::remainder(image, number, &parts)));
    let found = answer(checked, |parts| model::number_of(image, &parts).map_or("?".to_string(), |found| number_words(&found)));
    let packs = model::pack_column(image, number, place).map_or_else(refusal_words, |_| "ok".to_string());
    format!("{found} {parts} packing {packs} cut off {cut}")
}

/// Answers the truncation calls.
fn truncate(bytes: &[u8], item: &[u8], place: &[u8]) -> String {
    let place = whole(place) as usize;
    match model::read_image(bytes, place) {
        Err(refusal) => refusal_words(refusal),
        Ok(image) => truncation(&image, &number(item), place),
    }
}

/// Answers the comparison.
fn compare(first: &[u8], second: &[u8]) -> String {
    answer(model::compare(&number(first), &number(second)), |order| format!("{order:?}").to_lowercase())
}

/// Answers a line; nothing if it is no call.
fn call(line: &str) -> Option<String> {
    if line.len() > LONGEST_CALL {
        return None;
    }
    let words: Vec<&str> = line.split(' ').collect();
    let word = |index: usize| bytes(words.get(index).unwrap_or(&""));
    let (a, b, c, d) = (word(1)?, word(2)?, word(3)?, word(4)?);
    Some(match words[0] {
        "compare" => compare(&a, &b),
        "image" => image(&a, &b),
        "truncate" => truncate(&a, &b, &c),
        "pack" => written(model::pack(&b, &numbers(&c), a.len()), &a),
        "cutoff" => cutoff(&a, &b, &c),
        "unpack" => unpack(&a, &b),
        "alpha" => written(model::alpha(&b, &number(&c), a.len()), &a),
        "legal" => format!("ok {}", model::legal_length(&a)),
        "read" => answer(model::read_text_number(&a), |(found, used)| format!("{} {used}", number_words(&found))),
        "convert" => answer(model::convert(&a), |found| number_words(&found)),
        "place" => format!("ok {}", model::next_number_place(&a, whole(&b) as usize)),
        "numbers" => text_numbers(&a, &b),
        "scan" => scan(&a, &b),
        "print" => print(&a, &b, &c, &d),
        "forecast" => answer(model::forecast(whole(&a) as usize, whole(&b) as usize), |bytes| bytes.to_string()),
        "field" => answer(model::read_field(&a), |found| number_words(&found)),
        "contents" => written(model::write_contents(&b, a.len()), &a),
        "add" => add(&a, &b, &c),
        "both" => add(&a, &b, &c),
        "reserve" => reserve(&a, &b),
        "write" => write(&a, &b, &c, &d),
        "show" => show(&a, &b),
        "list" => list(&a, &b),
        "report" => report(&a, &b),
        "find" => find(&a, &b),
        "merge" => written(model::merge(&b, &c, a.len()), &a),
        "enter" => enter(&a, &b, &c),
        "whole" => whole_length(&a),
        _ => return None,
    })
}

/// Answers a line.
pub fn answer_line(line: &str) -> String {
    call(line).unwrap_or_else(|| "?".to_string())
}
