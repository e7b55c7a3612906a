//! Calls of every kind from the seeded generator of `second/`: valid and damaged ones, short and long.

use crate::call::{Call, Kind, EXPECTED};
use crate::draws::{self, bytes_of};
use crate::expected::word;
use crate::files::{self, one_of, Random};
use crate::{expected, model, pairs};
use hulgyevan::{Element, Number};

/// The kinds from which the next call is drawn: all of them, and those that have most to get wrong more often.
fn next_kind(random: &mut Random) -> Kind {
    use Kind::*;
    let more = [
        Pack,
        PackWithRemainders,
        Unpack,
        Alpha,
        Print,
        Print,
        Print,
        Add,
        Reserve,
        WriteReserved,
        WriteReserved,
        List,
        Enter,
        Enter,
        Enter,
        Enter,
        WholeLength,
        Find,
        Find,
        Merge,
        Merge,
    ];
    let index = random.below(EXPECTED.len() + more.len());
    EXPECTED.get(index).map_or_else(|| more[index - EXPECTED.len()], |(kind, _)| *kind)
}

/// Gives so many bytes in a pattern that begins anywhere.
fn pattern(random: &mut Random, count: usize) -> Vec<u8> {
    let from = random.below(256);
    (from..from + count).map(|index| (index * 37 % 251) as u8).collect()
}

/// Gives how much room there is for an answer of some length: none, one too few, just enough, a little more, or much more.
fn room_for(random: &mut Random, length: usize) -> usize {
    match random.below(10) {
        0 => 0,
        1 => random.below(length + 1),
        2 => length.saturating_sub(1),
        3..=5 => length,
        6 => length + 300,
        _ => length + 1 + random.below(6),
    }
}

/// Gives a buffer for an answer of some length.
fn buffer_for(random: &mut Random, length: usize) -> Vec<u8> {
    let room = room_for(random, length);
    pattern(random, room)
}

/// Gives so many words of any value.
fn words_for(random: &mut Random, length: usize) -> Vec<u64> {
    (0..room_for(random, length)).map(|_| random.next()).collect()
}

// ---- Numbers ----

/// Gives a number of any size: at times not in normal form, at times any word.
fn any_number(random: &mut Random) -> Number {
    let m = one_of(random, &[1_000_000_000_000, 9_999_999_999_999, 1_219_500_000_000, 5_000_000_000_000, 2_439_000_000_000]);
    let m = if random.below(3) == 0 { m } else { 1_000_000_000_000 + u128::from(random.next()) % 9_000_000_000_000 };
    let e = if random.below(3) == 0 { random.from_to(-99, 99) } else { random.from_to(-4, 13) };
    let number = model::Number { negative: random.below(2) == 0, m, e };
    let number = match random.below(24) {
        0 => model::Number { m: 0, ..number },
        1 => model::Number { m: m / 10, ..number },
        2 => model::Number { m: m * 10, ..number },
        3 => model::Number { e: one_of(random, &[100, 101, 1000, 1948]), ..number },
        4 => model::Number { negative: true, ..model::Number::ZERO },
        5 => return Number::from_word(random.next()),
        6..=8 => model::Number::ZERO,
        _ => number,
    };
    Number::from_word(word(&number))
}

/// Gives a number for an image: mostly one that packs under it.
fn number_for(random: &mut Random, image: &model::Image) -> Number {
    if random.below(16) == 0 {
        any_number(random)
    } else {
        Number::from_word(word(&files::number(random, image)))
    }
}

/// Gives a list for the contents at the front of a file: at times one that does not pack under it, as one of 15 to 18 numbers.
fn list_for(random: &mut Random, file: &[u8]) -> Vec<Number> {
    let images = model::read_contents_front(file).map(|(images, _)| images).unwrap_or_default();
    let mut numbers: Vec<Number> = images.iter().map(|image| number_for(random, image)).collect();
    match random.below(20) {
        0 => numbers.push(Number::ZERO),
        1 => drop(numbers.pop()),
        2 => numbers = (0..one_of(random, &[15, 16, 17, 17, 18, 64, 300])).map(|_| any_number(random)).collect(),
        3 if !numbers.is_empty() => {
            let column = random.below(numbers.len());
            numbers[column] = any_number(random);
        }
        4..=7 => numbers.iter_mut().for_each(|number| *number = small_or_large(random, *number)),
        _ => {}
    }
    numbers
}

/// Gives a number with a very small or a very large exponent; zero stays.
fn small_or_large(random: &mut Random, number: Number) -> Number {
    let number = expected::number(number);
    let e = one_of(random, &[-99, -99, -98, 98, 99]);
    Number::from_word(word(&if number.m > 0 { model::Number { e, ..number } } else { number }))
}

/// Makes a number of parts: mostly of one in normal form, at times with any values.
fn from_parts(random: &mut Random, call: &mut Call) {
    let number = any_number(random);
    let exponent = i64::from(number.exponent());
    let far = random.next() as i64;
    let exponent = one_of(random, &[exponent, exponent, exponent, -100, -99, 99, 100, i64::MIN, i64::MAX, far]);
    let mantissa = if random.below(8) == 0 { random.next() >> random.below(64) } else { number.mantissa() };
    call.values = vec![u64::from(number.is_negative()), mantissa, exponent as u64];
}

/// Makes a number of steps: around the limit, around 2^24, or any.
fn from_steps(random: &mut Random, call: &mut Call) {
    let limits = [0, 1, 16_777_215, 16_777_216, 16_777_217, 9_999_999_999_999, 10_000_000_000_000, u64::MAX];
    let steps = if random.below(2) == 0 { one_of(random, &limits) } else { random.next() >> random.below(64) };
    call.values = vec![random.below(2) as u64, steps];
}

/// Compares two numbers, at times the same but for the sign.
fn compare(random: &mut Random, call: &mut Call) {
    let first = any_number(random);
    let second = if random.below(3) == 0 { Number::from_word(first.word() ^ (random.below(2) as u64) << 63) } else { any_number(random) };
    call.values = vec![first.word(), second.word()];
}

// ---- Contents and bodies ----

/// Gives an image, at times one that no contents can have.
fn image(random: &mut Random) -> Vec<u8> {
    if random.below(8) == 0 {
        files::bad_image(random)
    } else {
        files::image(random)
    }
}

/// Gives some images: mostly few, at times 16.
fn few_images(random: &mut Random) -> Vec<Vec<u8>> {
    let count = if random.below(8) == 0 { 16 } else { 1 + random.below(3) };
    (0..count).map(|_| files::image(random)).collect()
}

/// The ways in which a contents is damaged.
const DAMAGES: usize = 6;

/// Damages a contents with these images in one of several ways, or leaves it: a bad image, one with too many #, another count, 17 images, cut
/// off, or changed.
fn contents_of(random: &mut Random, mut images: Vec<Vec<u8>>, damage: usize) -> Vec<u8> {
    let place = random.below(images.len());
    match damage {
        0 => images[place] = files::bad_image(random),
        1 => images.resize(17, b"#".to_vec()),
        5 => images[place] = one_of(random, &[&b"##############"[..], b"+########.######^^^^", b".###############"]).to_vec(),
        _ => {}
    }
    let mut bytes = files::contents_of(&images);
    match damage {
        2 => bytes[0] = one_of(random, &[0, 17, 255, images.len() as u8 + 1]),
        3 => bytes.truncate(random.below(bytes.len() + 1)),
        4 => files::change(random, &mut bytes, 0),
        _ => {}
    }
    bytes
}

/// Gives a contents that is lent alone, at times a damaged one or one with a byte behind it.
fn contents(random: &mut Random) -> Vec<u8> {
    let images = files::images(random);
    let damage = random.below(24);
    let mut bytes = contents_of(random, images, damage);
    if damage == DAMAGES {
        bytes.push(random.below(256) as u8);
    }
    bytes
}

/// Gives the size of a body under the contents in front of a file; 3 if there is none.
fn body_size(file: &[u8]) -> usize {
    model::read_contents_front(file).map_or(3, |(images, _)| model::body_length(&images))
}

/// Packs a list under a contents.
fn pack(random: &mut Random, call: &mut Call) {
    call.first = contents(random);
    call.numbers = list_for(random, &call.first);
    call.buffer = buffer_for(random, body_size(&call.first));
    if call.kind == Kind::PackWithRemainders {
        call.words = words_for(random, call.numbers.len().min(20));
    }
}

/// Unpacks a body, at times a damaged one.
fn unpack(random: &mut Random, call: &mut Call) {
    call.first = contents(random);
    let list: Vec<Number> = list_for(random, &call.first);
    call.second = model::pack(&call.first, &expected::numbers(&list), usize::MAX).unwrap_or_default();
    match random.below(8) {
        0..=2 => files::change(random, &mut call.second, 0),
        3 => call.second.push(0),
        4 => drop(call.second.pop()),
        _ => {}
    }
    call.words = words_for(random, list.len());
}

// ---- Texts ----

/// Gives a text: mostly one that begins as a text number, at times with blanks in other places, at times of 4,096 bytes.
fn text(random: &mut Random) -> Vec<u8> {
    if random.below(400) == 0 {
        return long_blanks(random);
    }
    if random.below(4) == 0 {
        return bytes_of(random, b" +-.0123456789E,e\t\xff", 20);
    }
    if random.below(6) == 0 {
        return one_of(
            random,
            &[&b"12E99"[..], b"- 12E99  ", b"0.1E-99", b".012E-98", b"9999999999999E88", b"99.5 E99", b"0E99", b"1E99", b"9.9E-99"],
        )
        .to_vec();
    }
    draws::number_text(random)
}

/// Gives a number with blanks around it, of some thousand bytes in all.
fn long_blanks(random: &mut Random) -> Vec<u8> {
    let front = random.below(2_000);
    let mut text = vec![b' '; front];
    text.extend(one_of(random, &[&b"5"[..], b"- 5", b"-", b"1E99", b"1E999"]));
    text.resize(one_of(random, &[4_095, 4_096, 4_097]), b' ');
    text
}

/// Gives a text with many numbers, around 16 of them.
fn many_numbers(random: &mut Random) -> Vec<u8> {
    let count = one_of(random, &[0, 1, 3, 5, 16, 16, 17, 18]);
    let clean = random.below(2) == 0;
    let mark: &str = if clean { one_of(random, &["", "", "-", "- "]) } else { "" };
    let part = |_| if clean { format!("{mark}{} ", random.below(100_000)).into_bytes() } else { text(random) };
    (0..count).flat_map(part).take(3_000).collect()
}

/// Reads the numbers of a text from a place on: mostly inside it, at times far outside.
fn text_numbers(random: &mut Random, call: &mut Call) {
    call.first = many_numbers(random);
    call.values = vec![place_in(random, call.first.len())];
    let read = model::read_text_numbers(&call.first, call.size(0)).numbers.len();
    call.words = words_for(random, read);
}

/// Gives a place in so many bytes: at times far outside.
fn place_in(random: &mut Random, length: usize) -> u64 {
    let place = random.below(length + 3) as u64;
    one_of(random, &[0, 0, 0, 0, place, place, place, place, place, u64::MAX])
}

/// Gives a text with a comma or a blank put in at times.
fn field(random: &mut Random) -> Vec<u8> {
    let text = text(random);
    draws::with_comma(random, text)
}

/// Writes alpha text: mostly of a number that can be truncated under the image.
fn alpha(random: &mut Random, call: &mut Call) {
    call.first = image(random);
    let number = match model::read_image(&call.first, 0) {
        Ok(image) if random.below(3) > 0 => number_for(random, &image),
        _ => any_number(random),
    };
    let number = if random.below(4) == 0 { small_or_large(random, number) } else { number };
    call.values = vec![number.word()];
    call.buffer = buffer_for(random, call.first.len());
}

// ---- Lines ----

/// Gives a line of 4,095 to 4,097 bytes: of one byte, of fields with a byte between each two, at times one with too many # at their end, or
/// of one field behind literal bytes.
fn long_line(random: &mut Random) -> Vec<u8> {
    let length = one_of(random, &[4_095, 4_096, 4_096, 4_097, 4_097]);
    match random.below(5) {
        0 => vec![one_of(random, b"# ,"); length],
        1 => b"##.# ".iter().copied().cycle().take(length).collect(),
        2 => b"-#,###^".iter().copied().cycle().take(length).collect(),
        3 => b"# ".iter().copied().cycle().take(length - 16).chain(*b" .############## ").take(length).collect(),
        _ => [vec![b'a'; length - 4], b"-#.#".to_vec()].concat(),
    }
}

/// Gives a line image.
fn line(random: &mut Random) -> Vec<u8> {
    if random.below(30) == 0 {
        return long_line(random);
    }
    draws::line_of_fields(random)
}

/// Gives an element: a number, or a text, which at times is not inside the lent bytes.
fn element(random: &mut Random, texts: usize) -> Element {
    if random.below(4) > 0 {
        return any_number(random).into();
    }
    let start = random.below(texts + 1);
    let length = random.below(texts - start + 1);
    match random.below(12) {
        0 => Element::text(start, usize::MAX),
        1 => Element::text(texts + 1, 0),
        2 => Element::text(usize::MAX, 1),
        _ => Element::text(start, length),
    }
}

/// Prints elements, mostly some that can be printed, at times around 64 of them.
fn print(random: &mut Random, call: &mut Call) {
    call.first = line(random);
    call.second = bytes_of(random, b"torn leaf", 12);
    let texts = call.second.len();
    let count = if random.below(10) == 0 { 63 + random.below(4) } else { random.below(7) };
    let checks = random.below(3) == 0;
    let fits = |element: &Element| checks || element.as_number().is_none_or(Number::is_normal);
    while call.elements.len() < count {
        call.elements.extend(Some(element(random, texts)).filter(fits));
    }
    if random.below(3) > 0 {
        call.elements.retain(|element| element.as_text().is_none_or(|(start, length)| start.saturating_add(length) <= texts));
        let last = Element::from(Number::ZERO);
        call.elements.resize(count, last);
    }
    // What is printed at most is known without printing, but the room is to be near what is printed.
    let mut whole = call.clone();
    whole.buffer = vec![0; model::forecast(whole.first.len(), whole.elements.len()).unwrap_or(0)];
    let size = Some(expected::answer(&whole)).filter(|answer| answer.word == 0).map_or(4, |answer| answer.outs[0] as usize);
    call.buffer = buffer_for(random, size);
}

// ---- Files ----

/// Gives a count of records: mostly below a small number, at times some hundred.
fn record_count(random: &mut Random, most: usize) -> usize {
    if random.below(40) == 0 {
        256 + random.below(40)
    } else {
        random.below(most)
    }
}

/// Gives a file, mostly of at most some hundred bytes, at times a damaged one.
fn file(random: &mut Random) -> Vec<u8> {
    let images = few_images(random);
    let records = record_count(random, 6);
    let mut bytes = files::file(random, &images, records);
    let front = files::contents_of(&images).len();
    match random.below(20) {
        damage @ 0..DAMAGES => {
            bytes.splice(..front, contents_of(random, images, damage));
        }
        6 => bytes.truncate(random.below(bytes.len() + 1)),
        7 | 8 => files::change(random, &mut bytes, front),
        9 => bytes.push(0),
        10 => bytes = bytes_of(random, b"\x01\x02\x03#+-.,^\x00\x12\x99", 40),
        _ => {}
    }
    bytes
}

/// Gives a buffer with a file in front and a pattern behind it, and a used length: mostly the file's, at times another.
fn buffer_and_used(random: &mut Random) -> (Vec<u8>, usize, usize) {
    let file = file(random);
    let behind = buffer_for(random, body_size(&file));
    let used = match random.below(16) {
        0 => file.len() + random.below(behind.len() + 2),
        1 => file.len() + behind.len() + 1,
        2 => random.below(file.len() + 1),
        3 => usize::MAX,
        _ => file.len(),
    };
    let filled = if used > file.len() { file.len() + behind.len() } else { file.len() };
    ([file, behind].concat(), used, filled)
}

/// Adds a record.
fn add(random: &mut Random, call: &mut Call) {
    let (buffer, used, filled) = buffer_and_used(random);
    call.numbers = list_for(random, &buffer[..used.min(buffer.len())]);
    (call.values, call.buffer, call.filled) = (vec![used as u64], buffer, filled);
}

/// Reserves.
fn reserve(random: &mut Random, call: &mut Call) {
    let (buffer, used, _) = buffer_and_used(random);
    (call.first, call.values) = (buffer, vec![used as u64]);
}

/// Gives a place and a size that mostly are not what reserving gives: greater or less by a little, with one bit changed, exchanged, or very
/// large ones.
fn other_place(random: &mut Random, (place, size): (u64, u64)) -> (u64, u64) {
    let bit = 1 << random.below(64);
    let huge = one_of(random, &[u64::MAX, u64::MAX - place.wrapping_add(size), 1 << 63]);
    match random.below(8) {
        0 => (place.saturating_sub(size), size),
        1 => (place, one_of(random, &[size - 1, size + 1])),
        2 => (place.wrapping_add(1), size),
        3 => (place ^ bit, size),
        4 => (place, size ^ bit),
        5 => (size, place),
        6 => (place, huge),
        _ => (huge, size),
    }
}

/// Writes a record: as often with the right place and size as with others.
fn write_reserved(random: &mut Random, call: &mut Call) {
    add(random, call);
    let used = call.size(0);
    let right = (used as u64, body_size(&call.buffer[..used.min(call.buffer.len())]) as u64);
    let (place, size) = if random.below(3) > 0 { right } else { other_place(random, right) };
    call.values.extend([place, size]);
}

/// Lists a file.
fn list(random: &mut Random, call: &mut Call) {
    call.first = file(random);
    let size = model::listing(&call.first).map_or(8, |text| text.len());
    call.buffer = buffer_for(random, size);
}

/// Enters a text: mostly under a contents that it was made for.
fn enter(random: &mut Random, call: &mut Call) {
    let images = few_images(random);
    let records = record_count(random, 6);
    call.second = crate::texts::next_text(random, &images, records);
    call.first = match random.below(12) {
        0 | 1 => contents(random),
        2 => files::contents_of(&few_images(random)),
        _ => files::contents_of(&images),
    };
    let size = match model::enter(&call.first, &call.second, usize::MAX) {
        model::Entered::File(file) => file.len(),
        _ => call.first.len(),
    };
    call.buffer = buffer_for(random, size);
}

/// Gives a file that mostly is cut off in its bodies.
fn cut_file(random: &mut Random) -> Vec<u8> {
    let mut bytes = file(random);
    let behind = model::read_contents_front(&bytes).map_or(0, |(_, bodies)| bodies.len());
    if random.below(2) == 0 {
        bytes.truncate(bytes.len() - random.below(behind + 1));
    }
    bytes
}

/// Gives a file to find positions in: mostly with an unsigned fixed-point first column that does not fall, and equal ones in it; at times
/// damaged.
fn file_in_order(random: &mut Random) -> Vec<u8> {
    if random.below(6) == 0 {
        return file(random);
    }
    let images = pairs::images_in_order(random);
    let mut bytes = files::contents_of(&images);
    let read = model::read_contents(&bytes).unwrap_or_default();
    let Some(first) = read.first() else { return bytes };
    let mut keys: Vec<model::Number> = (0..record_count(random, 9)).map(|_| pairs::key(random, first)).collect();
    if random.below(8) > 0 {
        keys = pairs::ordered(keys);
    }
    for index in 1..keys.len() {
        if random.below(4) == 0 {
            keys[index] = keys[index - 1];
        }
    }
    let front = bytes.len();
    for key in keys {
        bytes.extend(pairs::body(random, &read, key));
    }
    match random.below(16) {
        0 => files::change(random, &mut bytes, front),
        1 => bytes.truncate(random.below(bytes.len() + 1)),
        _ => {}
    }
    bytes
}

/// Gives a position for a file: a first column, one a little below or above it, or any number.
fn position(random: &mut Random, columns: &[model::Number]) -> Number {
    if columns.is_empty() || random.below(4) == 0 {
        let number = any_number(random);
        return if number.is_normal() || random.below(8) == 0 { number } else { Number::ZERO };
    }
    let column = one_of(random, columns);
    let near = match random.below(6) {
        0 => model::Number { m: column.m + 1, ..column },
        1 => model::Number { m: column.m.saturating_sub(1), ..column },
        2 => model::Number { negative: true, ..column },
        _ => column,
    };
    Number::from_word(word(if near.is_normal() { &near } else { &column }))
}

/// Finds positions: mostly some that do not fall, at times around 64 of them.
fn find(random: &mut Random, call: &mut Call) {
    call.first = file_in_order(random);
    let columns: Vec<model::Number> = match model::read_file(&call.first) {
        Ok((images, bodies)) => bodies.iter().filter_map(|body| model::unpack_body(&images, body).ok()).map(|record| record[0]).collect(),
        Err(_) => Vec::new(),
    };
    let count = if random.below(12) == 0 { one_of(random, &[63, 64, 65, 66, 300]) } else { random.below(8) };
    let mut positions: Vec<Number> = (0..count).map(|_| position(random, &columns)).collect();
    if random.below(8) > 0 && positions.iter().all(|number| number.is_normal()) {
        positions = pairs::ordered(expected::numbers(&positions)).iter().map(word).map(Number::from_word).collect();
    }
    call.places = words_for(random, positions.len()).into_iter().map(|place| place as usize).collect();
    call.numbers = positions;
}

/// Merges two files.
fn merge(random: &mut Random, call: &mut Call) {
    (call.first, call.second) = pairs::next_pair(random, |random, _| record_count(random, 8));
    let size = model::merge(&call.first, &call.second, usize::MAX).map_or(call.first.len(), |merged| merged.len());
    call.buffer = buffer_for(random, size);
}

/// Gives the next call.
pub fn next_call(random: &mut Random) -> Call {
    let mut call = Call::new(next_kind(random));
    match call.kind {
        Kind::FromParts => from_parts(random, &mut call),
        Kind::FromSteps => from_steps(random, &mut call),
        Kind::Compare => compare(random, &mut call),
        Kind::ReadContents => call.first = contents(random),
        Kind::ReadFile => call.first = file(random),
        Kind::Pack | Kind::PackWithRemainders => pack(random, &mut call),
        Kind::Unpack => unpack(random, &mut call),
        Kind::Alpha => alpha(random, &mut call),
        Kind::LegalLength | Kind::ReadTextNumber | Kind::Convert => call.first = text(random),
        Kind::ReadTextNumbers => text_numbers(random, &mut call),
        Kind::Scan => {
            call.first = line(random);
            call.values = vec![place_in(random, call.first.len())];
        }
        Kind::Print => print(random, &mut call),
        Kind::Forecast => {
            let length = one_of(random, &[0, 1, 80, 4_095, 4_096, 4_097, u64::MAX]);
            call.values = vec![length, one_of(random, &[0, 1, 9, 63, 64, 65, u64::MAX])];
        }
        Kind::ReadField => call.first = field(random),
        Kind::WriteContents => {
            call.first = contents(random);
            call.buffer = buffer_for(random, call.first.len());
        }
        Kind::Add => add(random, &mut call),
        Kind::Reserve => reserve(random, &mut call),
        Kind::WriteReserved => write_reserved(random, &mut call),
        Kind::Show => {
            call.first = file(random);
            call.values = vec![one_of(random, &[0, 0, 1, 1, 2, 3, 4, 5, 6, u64::MAX])];
        }
        Kind::List => list(random, &mut call),
        Kind::Enter => enter(random, &mut call),
        Kind::WholeLength => call.first = cut_file(random),
        Kind::Find => find(random, &mut call),
        Kind::Merge => merge(random, &mut call),
    }
    call
}
