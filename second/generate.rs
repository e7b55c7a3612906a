mod answers;
mod draws;
mod files;
mod model;
mod pairs;
mod texts;

// Writes generated calls for the programs `calls`, one to a line: valid and damaged ones, so that every refusal comes up.
// Arguments: the seed, the count.
use answers::hexadecimal;
use draws::bytes_of;
use files::{Random, one_of};
use model::{Element, Number};
use pairs::ordered;
use std::io::Write;

/// Gives an image, at times one that no contents can have.
fn image(random: &mut Random) -> Vec<u8> {
    if random.below(8) == 0 { files::bad_image(random) } else { files::image(random) }
}

/// Gives a contents, at times a damaged one.
fn contents(random: &mut Random) -> Vec<u8> {
    let mut images = files::images(random);
    let damage = random.below(16);
    if damage == 0 {
        let place = random.below(images.len());
        images[place] = files::bad_image(random);
    }
    let mut bytes = files::contents_of(&images);
    match damage {
        1 => bytes[0] = one_of(random, &[0, 17, 255, 2]),
        2 => bytes.truncate(random.below(bytes.len() + 1)),
        3 => bytes.push(random.below(256) as u8),
        4 => files::change(random, &mut bytes, 0),
        _ => {}
    }
    bytes
}

/// Gives a number of any size, at times not in normal form.
fn any_number(random: &mut Random) -> Number {
    let m = one_of(random, &[1_000_000_000_000, 9_999_999_999_999, 1_219_500_000_000, 5_000_000_000_000, 2_439_000_000_000]);
    let m = if random.below(3) == 0 { m } else { 1_000_000_000_000 + u128::from(random.next()) % 9_000_000_000_000 };
    let e = if random.below(3) == 0 { random.from_to(-99, 99) } else { random.from_to(-4, 13) };
    let number = Number { negative: random.below(2) == 0, m, e };
    match random.below(24) {
        0 => Number { m: 0, ..number },
        1 => Number { m: m / 10, ..number },
        2 => Number { m: m * 10, ..number },
        3 => Number { e: one_of(random, &[100, 101, 1000, i128::from(u64::MAX) - 99]), ..number },
        4 => Number { negative: true, ..Number::ZERO },
        5..=7 => Number::ZERO,
        _ => number,
    }
}

/// Gives a number for an image: mostly one that packs under it.
fn number_for(random: &mut Random, image: &model::Image) -> Number {
    if random.below(16) == 0 { any_number(random) } else { files::number(random, image) }
}

/// Gives a list for a contents, at times one that does not pack under it.
fn list_for(random: &mut Random, contents: &[u8]) -> Vec<Number> {
    let images = model::read_contents_front(contents).map(|(images, _)| images).unwrap_or_default();
    let mut numbers: Vec<Number> = images.iter().map(|image| number_for(random, image)).collect();
    match random.below(20) {
        0 => numbers.push(Number::ZERO),
        1 => drop(numbers.pop()),
        2 => numbers = (0..random.below(19)).map(|_| any_number(random)).collect(),
        _ => {}
    }
    numbers
}

/// Writes an element as bytes.
fn item(element: &Element) -> Vec<u8> {
    let (kind, first, second) = match *element {
        Element::Number(number) => (u8::from(number.negative), number.m as u64, (number.e + 99) as u64),
        Element::Text { start, length } => (2, start as u64, length as u64),
    };
    [&[kind][..], &first.to_be_bytes(), &second.to_be_bytes()].concat()
}

/// Writes numbers as bytes.
fn items(numbers: &[Number]) -> Vec<u8> {
    numbers.iter().flat_map(|&number| item(&Element::Number(number))).collect()
}

/// Writes a size as bytes.
fn size(value: usize) -> Vec<u8> {
    if value < 65_536 { (value as u16).to_be_bytes().to_vec() } else { (value as u64).to_be_bytes().to_vec() }
}

/// Gives so many bytes of any value.
fn any_bytes(random: &mut Random, count: usize) -> Vec<u8> {
    (0..count).map(|_| random.below(256) as u8).collect()
}

/// Gives a buffer for an answer of some length: too short, just long enough, or longer, with any bytes in it.
fn buffer_for(random: &mut Random, length: usize) -> Vec<u8> {
    let room = match random.below(8) {
        0 => random.below(length + 1),
        1 => length.saturating_sub(1),
        2..=4 => length,
        _ => length + random.below(6),
    };
    any_bytes(random, room.min(3_000))
}

/// Gives a text: mostly one that begins as a text number, at times with blanks behind the sign or in another place.
fn text(random: &mut Random) -> Vec<u8> {
    if random.below(4) == 0 {
        return bytes_of(random, b" +-.0123456789E,e\t", 20);
    }
    draws::number_text(random)
}

/// Gives a text with many numbers.
fn long_text(random: &mut Random) -> Vec<u8> {
    let count = one_of(random, &[1, 3, 5, 15, 16, 17, 18]);
    let clean = random.below(2) == 0;
    let mark: &str = if clean { one_of(random, &["", "", "-", "- "]) } else { "" };
    let part = |_| if clean { format!("{mark}{} ", random.below(100_000)).into_bytes() } else { text(random) };
    (0..count).flat_map(part).collect()
}

/// Gives a line image, at times one that is too long.
fn line(random: &mut Random) -> Vec<u8> {
    if random.below(60) == 0 {
        return vec![one_of(random, b"# "); 4_095 + random.below(4)];
    }
    draws::line_of_fields(random)
}

/// Gives an element: a number, or a text, which at times runs past the lent bytes.
fn element(random: &mut Random, texts: usize) -> Element {
    if random.below(4) > 0 {
        return Element::Number(any_number(random));
    }
    let start = random.below(texts + 1);
    let length = random.below(texts - start + 1);
    match random.below(10) {
        0 => Element::Text { start: start as u128, length: u128::from(u64::MAX) },
        1 => Element::Text { start: texts as u128 + 1, length: 0 },
        _ => Element::Text { start: start as u128, length: length as u128 },
    }
}

/// Gives elements that mostly can be printed.
fn elements(random: &mut Random, texts: usize) -> Vec<Element> {
    let count = if random.below(12) == 0 { 63 + random.below(4) } else { random.below(7) };
    let mut elements: Vec<Element> = (0..count).map(|_| element(random, texts)).collect();
    if random.below(3) > 0 {
        elements.retain(|element| !matches!(element, Element::Number(number) if !number.is_normal()));
    }
    elements
}

/// Gives a file of at most some hundred bytes, at times a damaged one.
fn file(random: &mut Random) -> Vec<u8> {
    let images = files::images(random);
    let records = random.below(6);
    let mut bytes = files::file(random, &images, records);
    let front = files::contents_of(&images).len();
    match random.below(16) {
        0 => bytes = contents(random),
        1 => bytes.truncate(random.below(bytes.len() + 1)),
        2 | 3 => files::change(random, &mut bytes, front),
        4 => files::change(random, &mut bytes, 0),
        5 => bytes.push(0),
        _ => {}
    }
    bytes
}

/// Gives the length of a body under the contents in front of a file; 3 if there is none.
fn body_size(file: &[u8]) -> usize {
    model::read_contents_front(file).map_or(3, |(images, _)| model::body_length(&images))
}

/// Gives a buffer with a file in front and any bytes behind it, and a used length: mostly the file's, at times one above the buffer's
/// length, or another.
fn buffer_and_used(random: &mut Random, file: Vec<u8>) -> (Vec<u8>, usize) {
    let behind = buffer_for(random, body_size(&file));
    let used = match random.below(16) {
        0 => file.len() + random.below(behind.len() + 2),
        1 => file.len() + behind.len() + 1,
        2 => random.below(file.len() + 1),
        3 => usize::MAX,
        _ => file.len(),
    };
    ([file, behind].concat(), used)
}

/// Gives the words of a call that adds a record.
fn add(random: &mut Random) -> Vec<Vec<u8>> {
    let file = file(random);
    let numbers = list_for(random, &file);
    let (buffer, used) = buffer_and_used(random, file);
    vec![buffer, size(used), items(&numbers)]
}

/// Gives some images, mostly few, at times 16.
fn few_images(random: &mut Random) -> Vec<Vec<u8>> {
    let count = if random.below(16) == 0 { 16 } else { 1 + random.below(3) };
    (0..count).map(|_| files::image(random)).collect()
}

/// Gives a short file: mostly a whole one; at times a damaged contents, bytes of no whole body at the end, or a changed half.
fn short_file(random: &mut Random) -> Vec<u8> {
    let mut images = few_images(random);
    let damage = random.below(20);
    if damage == 0 {
        let place = random.below(images.len());
        images[place] = files::bad_image(random);
    }
    let records = random.below(4);
    let mut bytes = files::file(random, &images, records);
    let front = files::contents_of(&images).len();
    match damage {
        1 => bytes[0] = one_of(random, &[0, 17, 255, images.len() as u8 + 1]),
        2 => bytes.truncate(random.below(front + 1)),
        3..=6 => {
            let torn = 1 + random.below(5);
            bytes.extend(any_bytes(random, torn));
        }
        7 => files::change(random, &mut bytes, front),
        _ => {}
    }
    bytes
}

/// Gives a list for a record: mostly one that packs, at times of another count, with any number in it, or with very large and small ones.
fn list_for_record(random: &mut Random, file: &[u8]) -> Vec<Number> {
    let mut numbers = list_for(random, file);
    match random.below(12) {
        0 | 1 if !numbers.is_empty() => {
            let column = random.below(numbers.len());
            numbers[column] = any_number(random);
        }
        2 => numbers.iter_mut().filter(|number| number.m > 0).for_each(|number| number.e = one_of(random, &[-99, -99, -98, -97, 98, 99])),
        _ => {}
    }
    numbers
}

/// Gives the place and the size that reserving answers where the contents can be read, bodies that are not whole set aside.
fn place_and_size(buffer: &[u8], used: usize) -> (usize, usize) {
    (used, body_size(&buffer[..used.min(buffer.len())]))
}

/// Gives a place and a size that mostly are not this answer: those before the last record was added, those under another contents, a place
/// or a size that is greater or less by one or differs in one bit of 64, the two exchanged, or very large ones.
fn other_answer(random: &mut Random, (place, size): (usize, usize)) -> (usize, usize) {
    let bit = 1 << random.below(64);
    let huge = one_of(random, &[usize::MAX, usize::MAX - 1, usize::MAX - place.wrapping_add(size), 1 << 63, (1 << 63) - 1]);
    match random.below(11) {
        0 | 1 => (place.saturating_sub(size), size),
        2 | 3 => (place, body_size(&files::contents_of(&few_images(random)))),
        4 => (place.wrapping_add(1), size),
        5 => (place, one_of(random, &[size - 1, size + 1])),
        6 => (place ^ bit, size),
        7 => (place, size ^ bit),
        8 => (size, place),
        9 => (place, huge),
        _ => (huge, one_of(random, &[size, huge])),
    }
}

/// Writes a place and a size as bytes: at times with fewer or more than eight bytes of the size, or cut off anywhere.
fn reserved(random: &mut Random, (place, length): (usize, usize)) -> Vec<u8> {
    let (place, whole) = ((place as u64).to_be_bytes(), (length as u64).to_be_bytes());
    let more = random.below(4);
    match random.below(12) {
        0 => [&place[..], &size(length)].concat(),
        1 => [&place[..], &any_bytes(random, more), &whole].concat(),
        2 => [place, whole].concat()[..random.below(16)].to_vec(),
        _ => [place, whole].concat(),
    }
}

/// Gives the words of a call that reserves.
fn reserve(random: &mut Random) -> Vec<Vec<u8>> {
    let file = short_file(random);
    let (buffer, used) = buffer_and_used(random, file);
    vec![buffer, size(used)]
}

/// Gives the words of a call that writes: as often with a place and a size that are right as with others, whatever else is wrong.
fn write(random: &mut Random) -> Vec<Vec<u8>> {
    let file = short_file(random);
    let numbers = list_for_record(random, &file);
    let (buffer, used) = buffer_and_used(random, file);
    let right = place_and_size(&buffer, used);
    let answer = if random.below(2) == 0 { right } else { other_answer(random, right) };
    vec![buffer, size(used), reserved(random, answer), items(&numbers)]
}

/// Gives the lines of a call that reserves and of one that writes with what it answers: mostly on the same buffer, at times after a record
/// was added to it.
fn reserve_then_write(random: &mut Random) -> Vec<String> {
    let file = short_file(random);
    let numbers = list_for_record(random, &file);
    let (buffer, used) = buffer_and_used(random, file);
    let answer = model::reserve(&buffer, used).unwrap_or(place_and_size(&buffer, used));
    let first = call_line("reserve", &[buffer.clone(), size(used)]);
    let (used, buffer) = match model::add(&buffer, used, &numbers) {
        Ok(added) if random.below(6) == 0 => added,
        _ => (used, buffer),
    };
    vec![first, call_line("write", &[buffer, size(used), reserved(random, answer), items(&numbers)])]
}

/// Gives the words of a print call.
fn print(random: &mut Random) -> Vec<Vec<u8>> {
    let (line, texts) = (line(random), bytes_of(random, b"torn leaf", 12));
    let elements = elements(random, texts.len());
    let length = model::print(&line, &elements, &texts, usize::MAX).map_or(4, |printed| printed.bytes.len());
    let list = elements.iter().flat_map(item).collect();
    vec![buffer_for(random, length), line, list, texts]
}

/// Gives an image, and a number that mostly can be truncated under it.
fn image_and_number(random: &mut Random) -> (Vec<u8>, Vec<u8>) {
    let image = image(random);
    let number = match model::read_image(&image, 0) {
        Ok(image) if random.below(3) > 0 => number_for(random, &image),
        _ => any_number(random),
    };
    (image, items(&[number]))
}

/// Gives two numbers, at times the same but for the sign.
fn two_numbers(random: &mut Random) -> Vec<Vec<u8>> {
    let first = any_number(random);
    let second = if random.below(3) == 0 { Number { negative: random.below(2) == 0, ..first } } else { any_number(random) };
    vec![items(&[first]), items(&[second])]
}

/// Gives the words of a call that packs.
fn pack(random: &mut Random) -> Vec<Vec<u8>> {
    let contents = contents(random);
    let numbers = list_for(random, &contents);
    let length = model::read_contents(&contents).map_or(2, |images| model::body_length(&images));
    vec![buffer_for(random, length), contents, items(&numbers)]
}

/// Gives a contents and a body, at times a damaged one.
fn unpack(random: &mut Random) -> Vec<Vec<u8>> {
    let contents = contents(random);
    let numbers = list_for(random, &contents);
    let mut body = model::pack(&contents, &numbers, usize::MAX).unwrap_or_default();
    match random.below(8) {
        0..=2 => files::change(random, &mut body, 0),
        3 => body.push(0),
        _ => {}
    }
    vec![contents, body]
}

/// Gives a text with a comma or a blank put in at times.
fn field(random: &mut Random) -> Vec<u8> {
    let text = text(random);
    draws::with_comma(random, text)
}

/// Gives a place in bytes: mostly inside them, at times far outside.
fn place_in(random: &mut Random, bytes: &[u8]) -> Vec<u8> {
    let place = random.below(bytes.len() + 3);
    size(one_of(random, &[0, 0, 0, 0, place, place, place, place, place, usize::MAX]))
}

/// Gives the words of a call that lists a file.
fn listing(random: &mut Random, name: &str) -> Vec<Vec<u8>> {
    let file = file(random);
    let whole = if name == "list" { model::listing(&file).unwrap_or_default() } else { model::listing_output(&file) };
    vec![buffer_for(random, whole.len()), file]
}

/// Gives how many records a short file has.
fn few_records(random: &mut Random) -> usize {
    if random.below(6) == 0 { 0 } else { random.below(9) }
}

/// Gives a file to find positions in: mostly with an unsigned fixed-point first column that does not fall, and equal ones in it; at times
/// one with a bad half, which may stand behind all positions, or damaged otherwise.
fn file_in_order(random: &mut Random) -> Vec<u8> {
    if random.below(12) == 0 {
        return file(random);
    }
    let images = pairs::images_in_order(random);
    let mut bytes = files::contents_of(&images);
    let read = model::read_contents(&bytes).unwrap_or_default();
    let Some(first) = read.first() else { return bytes };
    let count = few_records(random);
    let mut keys: Vec<Number> = (0..count).map(|_| pairs::key(random, first)).collect();
    if random.below(8) > 0 {
        keys = ordered(keys);
    }
    for index in 1..count {
        if random.below(4) == 0 {
            keys[index] = keys[index - 1];
        }
    }
    let front = bytes.len();
    for key in keys {
        bytes.extend(pairs::body(random, &read, key));
    }
    let behind = bytes.len() - model::body_length(&read).min(bytes.len() - front);
    match random.below(24) {
        0 | 1 => files::change(random, &mut bytes, front),
        2 => files::change(random, &mut bytes, behind),
        3 => bytes.truncate(random.below(bytes.len() + 1)),
        _ => {}
    }
    bytes
}

/// Gives a position for a file: a record's first column, one a little below or above it, or any number, at times not in normal form.
fn position(random: &mut Random, columns: &[Number]) -> Number {
    if columns.is_empty() || random.below(4) == 0 {
        let number = any_number(random);
        return if number.is_normal() || random.below(8) == 0 { number } else { Number::ZERO };
    }
    let column = one_of(random, columns);
    let near = match random.below(6) {
        0 => Number { m: column.m + 1, ..column },
        1 => Number { m: column.m.saturating_sub(1), ..column },
        2 => Number { negative: true, ..column },
        _ => column,
    };
    if near.is_normal() { near } else { column }
}

/// Gives the words of a call that finds positions: mostly positions that do not fall, before, between, at and behind the records.
fn find(random: &mut Random) -> Vec<Vec<u8>> {
    let file = file_in_order(random);
    let columns: Vec<Number> = match model::read_file(&file) {
        Ok((images, bodies)) => bodies.iter().filter_map(|body| model::unpack_body(&images, body).ok()).map(|record| record[0]).collect(),
        Err(_) => Vec::new(),
    };
    let count = if random.below(16) == 0 { 62 + random.below(5) } else { random.below(8) };
    let positions: Vec<Number> = (0..count).map(|_| position(random, &columns)).collect();
    let keep = random.below(8) == 0 || !positions.iter().all(Number::is_normal);
    vec![file, items(&if keep { positions } else { ordered(positions) })]
}

/// Gives a buffer for a merged file: mostly long enough, at times one byte short, empty or far longer.
fn buffer_for_merged(random: &mut Random, length: usize) -> Vec<u8> {
    let room = match random.below(12) {
        0 => 0,
        1 => length.saturating_sub(1),
        2 => length + 300,
        3..=6 => length,
        _ => length + random.below(6),
    };
    any_bytes(random, room)
}

/// Gives the words of a call that merges two files.
fn merge(random: &mut Random) -> Vec<Vec<u8>> {
    let (first, second) = pairs::next_pair(random, |random, _| random.below(8));
    let length = model::merge(&first, &second, usize::MAX).map_or(first.len().max(second.len()), |merged| merged.len());
    vec![buffer_for_merged(random, length), first, second]
}

/// Gives the words of a call that enters a text: mostly under a contents that the text was made for, at times under another or a damaged
/// one; the buffer mostly with room for the file.
fn enter(random: &mut Random) -> Vec<Vec<u8>> {
    let images = few_images(random);
    let records = random.below(6);
    let text = texts::next_text(random, &images, records);
    let contents = match random.below(16) {
        0 => contents(random),
        1 => files::contents_of(&few_images(random)),
        _ => files::contents_of(&images),
    };
    let length = match model::enter(&contents, &text, usize::MAX) {
        model::Entered::File(file) => file.len(),
        _ => contents.len(),
    };
    vec![buffer_for(random, length), contents, text]
}

/// Gives a short file: mostly cut off in its bodies, at times anywhere.
fn cut_file(random: &mut Random) -> Vec<u8> {
    let mut bytes = short_file(random);
    let front = bytes.len() - model::read_contents_front(&bytes).map_or(bytes.len(), |(_, bodies)| bodies.len());
    match random.below(8) {
        0 => bytes.truncate(random.below(bytes.len() + 1)),
        1..=4 => bytes.truncate(front + random.below(bytes.len() - front + 1)),
        _ => {}
    }
    bytes
}

/// Gives the words of a call by its name.
fn words(random: &mut Random, name: &str) -> Vec<Vec<u8>> {
    match name {
        "compare" => two_numbers(random),
        "image" => vec![image(random), size(random.below(20))],
        "truncate" => {
            let (image, number) = image_and_number(random);
            vec![image, number, size(random.below(16))]
        }
        "pack" | "cutoff" => pack(random),
        "unpack" => unpack(random),
        "alpha" => {
            let (image, number) = image_and_number(random);
            vec![buffer_for(random, image.len()), image, number]
        }
        "legal" | "read" | "convert" => vec![text(random)],
        "field" => vec![field(random)],
        "place" | "numbers" | "scan" => {
            let bytes = if name == "scan" { line(random) } else { long_text(random) };
            let place = place_in(random, &bytes);
            vec![bytes, place]
        }
        "print" => print(random),
        "forecast" => {
            let length = one_of(random, &[0, 1, 80, 4_095, 4_096, 4_097, usize::MAX]);
            vec![size(length), size(one_of(random, &[0, 1, 9, 63, 64, 65, usize::MAX]))]
        }
        "contents" => {
            let contents = contents(random);
            vec![buffer_for(random, contents.len()), contents]
        }
        "add" | "both" => add(random),
        "reserve" => reserve(random),
        "write" => write(random),
        "find" => find(random),
        "merge" => merge(random),
        "enter" => enter(random),
        "whole" => vec![cut_file(random)],
        "show" => vec![file(random), size(one_of(random, &[0, 0, 1, 1, 2, 3, 4, 5, 6, usize::MAX]))],
        _ => listing(random, name),
    }
}

/// Gives the line of a call.
fn call_line(name: &str, words: &[Vec<u8>]) -> String {
    words.iter().fold(name.to_string(), |line, word| line + " " + &hexadecimal(word))
}

/// The name of two calls, one behind the other.
const TWO: &str = "reserve, then write";

/// The names of the calls; those that have most to get wrong stand there more than once.
const NAMES: [&str; 47] = [
    "compare", "image", "truncate", "pack", "pack", "cutoff", "cutoff", "unpack", "unpack", "alpha", "legal", "read", "convert", "place",
    "numbers", "scan", "print", "print", "print", "forecast", "field", "contents", "add", "add", "show", "list", "report", "find", "find",
    "find", "merge", "merge", "merge", "merge", "both", "reserve", "write", "write", "write", TWO, TWO,
    "enter", "enter", "enter", "enter", "enter", "whole",
];

/// Gives the lines of the next call, or of two.
fn next_lines(random: &mut Random) -> Vec<String> {
    match one_of(random, &NAMES) {
        TWO => reserve_then_write(random),
        name => vec![call_line(name, &words(random, name))],
    }
}

/// Damages a line so that it is no call, for most lines.
fn damage(random: &mut Random, line: &str) -> String {
    match random.below(5) {
        0 => line[..random.below(line.len() + 1)].to_string(),
        1 => line.to_uppercase(),
        2 => format!("x{line}"),
        3 => format!("{line}0"),
        _ => line.replacen('0', "g", 1),
    }
}

fn main() -> std::io::Result<()> {
    let arguments: Vec<u64> = std::env::args().skip(1).filter_map(|word| word.parse().ok()).collect();
    let [seed, count] = arguments[..] else { panic!("usage: generate SEED COUNT") };
    let mut random = Random::new(seed);
    let mut output = std::io::BufWriter::new(std::io::stdout().lock());
    let mut lines = Vec::new();
    while lines.len() < count as usize {
        lines.extend(next_lines(&mut random));
    }
    for line in lines.into_iter().take(count as usize) {
        let line = if random.below(40) == 0 { damage(&mut random, &line) } else { line };
        writeln!(output, "{line}")?;
    }
    output.flush()
}
