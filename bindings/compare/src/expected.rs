//! What the second implementation answers to a call, in the form of the library's calls.

use crate::call::{Answer, Call, Kind};
use crate::model;
use hulgyevan::{Element, Number};
use model::Refusal;

/// Gives a number as the model has it.
pub fn number(word: Number) -> model::Number {
    model::Number { negative: word.is_negative(), m: word.mantissa().into(), e: word.exponent().into() }
}

/// Gives a list of numbers as the model has it.
pub fn numbers(words: &[Number]) -> Vec<model::Number> {
    words.iter().copied().map(number).collect()
}

/// Gives the word of a sign, a mantissa and an exponent with something added to it; the fields are cut to their bits.
fn fields(negative: bool, mantissa: u128, exponent: i128) -> u64 {
    (u64::from(negative) << 63) | (((exponent & 2047) as u64) << 52) | (mantissa & ((1 << 52) - 1)) as u64
}

/// Gives the word of a number of the model.
pub fn word(number: &model::Number) -> u64 {
    fields(number.negative, number.m, number.e + 99)
}

/// Gives the word of a remainder of the model.
fn remainder_word(remainder: &model::Remainder) -> u64 {
    fields(false, remainder.r, remainder.power + 111)
}

/// Gives the answer word of a refusal.
fn refusal_word(refusal: Refusal) -> u64 {
    refusal.place as u64 * 256 + u64::from(refusal.number)
}

/// Gives an element as the model has it.
fn element(element: &Element) -> model::Element {
    match (element.as_number(), element.as_text()) {
        (Some(found), _) => model::Element::Number(number(found)),
        (None, text) => {
            let (start, length) = text.unwrap_or_default();
            model::Element::Text { start: start as u128, length: length as u128 }
        }
    }
}

/// Gives a list, or refuses with 6 where it is longer than the room.
fn fit<T>(list: Vec<T>, room: usize) -> Result<Vec<T>, Refusal> {
    if list.len() > room {
        model::refuse(6, 0)
    } else {
        Ok(list)
    }
}

impl Answer {
    /// Puts in what a call gives: the values of out-pointers, or the refusal.
    fn give(&mut self, result: Result<Vec<u64>, Refusal>) {
        match result {
            Ok(outs) => self.outs = outs,
            Err(refusal) => self.word = refusal_word(refusal),
        }
    }

    /// Puts in what a call writes at a buffer's start, with the size and other values behind it.
    fn write(&mut self, result: Result<(Vec<u8>, Vec<u64>), Refusal>) {
        let result = result.map(|(bytes, others)| {
            self.buffer[..bytes.len()].copy_from_slice(&bytes);
            [vec![bytes.len() as u64], others].concat()
        });
        self.give(result);
    }

    /// Puts in the buffer after a record was added, and the new used length.
    fn add(&mut self, result: Result<(usize, Vec<u8>), Refusal>) {
        let result = result.map(|(used, after)| {
            self.buffer = after;
            vec![used as u64]
        });
        self.give(result);
    }

    /// Puts in the words that a call writes, at the slice's start.
    fn put_words(&mut self, words: &[u64]) {
        self.words[..words.len()].copy_from_slice(words);
    }
}

/// Makes a number of a sign, a mantissa and an exponent.
fn from_parts(call: &Call) -> Result<Vec<u64>, Refusal> {
    let number = model::Number { negative: call.value(0) != 0, m: call.value(1).into(), e: (call.value(2) as i64).into() };
    if number.is_normal() {
        Ok(vec![word(&number)])
    } else {
        model::refuse(3, 0)
    }
}

/// Makes a number of wheel steps.
fn from_steps(call: &Call) -> Result<Vec<u64>, Refusal> {
    let steps = u128::from(call.value(1));
    if steps > model::HIGHEST_MANTISSA {
        return model::refuse(3, 0);
    }
    Ok(model::scaled(call.value(0) != 0, steps, 0).iter().map(word).collect())
}

/// Compares two numbers.
fn compare(call: &Call) -> Result<Vec<u64>, Refusal> {
    let [first, second] = [0, 1].map(|index| number(Number::from_word(call.value(index))));
    Ok(vec![(model::compare(&first, &second)? as i64 + 1) as u64])
}

/// Reads a contents.
fn read_contents(call: &Call) -> Result<Vec<u64>, Refusal> {
    let images = model::read_contents(&call.first)?;
    Ok(vec![images.len() as u64, model::body_length(&images) as u64])
}

/// Reads a file.
fn read_file(call: &Call) -> Result<Vec<u64>, Refusal> {
    let (images, bodies) = model::read_file(&call.first)?;
    let body = model::body_length(&images);
    let front = call.first.len() - bodies.len() * body;
    Ok(vec![images.len() as u64, front as u64, body as u64, bodies.len() as u64])
}

/// Packs with remainders: the body, and the words of the remainders.
fn remainders(call: &Call) -> Result<(Vec<u8>, Vec<u64>), Refusal> {
    let (body, cut) = model::pack_with_remainders(&call.first, &numbers(&call.numbers), call.buffer.len())?;
    Ok((body, fit(cut.iter().map(remainder_word).collect(), call.words.len())?))
}

/// Unpacks: the words of the numbers.
fn unpack(call: &Call) -> Result<Vec<u64>, Refusal> {
    let numbers = model::unpack(&call.first, &call.second)?;
    fit(numbers.iter().map(word).collect(), call.words.len())
}

/// Reads the numbers of a text: their words, then the place and the word for why reading stopped.
fn read_text_numbers(call: &Call) -> Result<(Vec<u64>, u64, u64), Refusal> {
    let walked = model::read_text_numbers(&call.first, call.size(0));
    let stop = match walked.stop {
        model::Stop::End => 0,
        model::Stop::NoNumber => 8,
        model::Stop::TooMany => 10,
        model::Stop::Refused(refusal) => refusal_word(refusal),
    };
    Ok((fit(walked.numbers.iter().map(word).collect(), call.words.len())?, walked.place as u64, stop))
}

/// Gives the length of the longest field at a byte.
fn scan(call: &Call) -> u64 {
    let at = call.size(0);
    let field = if at < call.first.len() { model::longest_field(&call.first, at) } else { None };
    field.map_or(0, |field| field.length as u64)
}

/// Prints: the bytes, and the count of spilled elements.
fn print(call: &Call) -> Result<(Vec<u8>, Vec<u64>), Refusal> {
    let elements: Vec<model::Element> = call.elements.iter().map(element).collect();
    let printed = model::print(&call.first, &elements, &call.second, call.buffer.len())?;
    Ok((printed.bytes, vec![printed.spilled as u64]))
}

/// Finds positions: the record numbers, and the count of comparisons.
fn find(call: &Call) -> Result<(Vec<usize>, u64), Refusal> {
    let found = model::find(&call.first, &numbers(&call.numbers))?;
    Ok((fit(found.records, call.places.len())?, found.comparisons as u64))
}

/// Puts in what entering a text gives: where it is refused, the line's number, and 0 where that is not for a line.
fn enter(call: &Call, answer: &mut Answer) {
    let line = match model::enter(&call.first, &call.second, call.buffer.len()) {
        model::Entered::File(file) => return answer.write(Ok((file, vec![crate::call::UNTOUCHED]))),
        model::Entered::Refused(refusal) => (0, refusal),
        model::Entered::Line(line, refusal) => (line, refusal),
    };
    answer.give(Err(line.1));
    answer.outs[1] = line.0 as u64;
}

/// Gives the whole length of a file, and the count of bytes behind it.
fn whole_length(call: &Call) -> Result<Vec<u64>, Refusal> {
    let whole = model::whole_length(&call.first)?;
    Ok(vec![whole.length as u64, whole.behind as u64])
}

/// Gives two sizes as values of out-pointers.
fn two((first, second): (usize, usize)) -> Vec<u64> {
    vec![first as u64, second as u64]
}

/// Gives a number's word alone.
fn one(number: model::Number) -> Vec<u64> {
    vec![word(&number)]
}

/// Gives what the model answers to a call, and all that is lent as it is afterwards.
pub fn answer(call: &Call) -> Answer {
    let mut answer = Answer::untouched(call);
    let (first, second, room) = (&call.first[..], &call.second[..], call.buffer.len());
    let alone = |bytes: Vec<u8>| (bytes, Vec::new());
    match call.kind {
        Kind::FromParts => answer.give(from_parts(call)),
        Kind::FromSteps => answer.give(from_steps(call)),
        Kind::Compare => answer.give(compare(call)),
        Kind::ReadContents => answer.give(read_contents(call)),
        Kind::ReadFile => answer.give(read_file(call)),
        Kind::Pack => answer.write(model::pack(first, &numbers(&call.numbers), room).map(alone)),
        Kind::PackWithRemainders => {
            let result = remainders(call);
            if let Ok((_, words)) = &result {
                answer.put_words(words);
            }
            answer.write(result.map(|(body, _)| alone(body)));
        }
        Kind::Unpack => {
            let result = unpack(call);
            if let Ok(words) = &result {
                answer.put_words(words);
            }
            answer.give(result.map(|words| vec![words.len() as u64]));
        }
        Kind::Alpha => answer.write(model::alpha(first, &number(Number::from_word(call.value(0))), room).map(alone)),
        Kind::LegalLength => answer.give(Ok(vec![model::legal_length(first) as u64])),
        Kind::ReadTextNumber => answer.give(model::read_text_number(first).map(|(number, used)| vec![word(&number), used as u64])),
        Kind::Convert => answer.give(model::convert(first).map(one)),
        Kind::ReadTextNumbers => {
            let result = read_text_numbers(call);
            if let Ok((words, ..)) = &result {
                answer.put_words(words);
            }
            answer.give(result.map(|(words, place, stop)| vec![words.len() as u64, place, stop]));
        }
        Kind::Scan => answer.give(Ok(vec![scan(call)])),
        Kind::Print => answer.write(print(call)),
        Kind::Forecast => answer.give(model::forecast(call.size(0), call.size(1)).map(|size| vec![size as u64])),
        Kind::ReadField => answer.give(model::read_field(first).map(one)),
        Kind::WriteContents => answer.write(model::write_contents(first, room).map(alone)),
        Kind::Add => answer.add(model::add(&call.buffer, call.size(0), &numbers(&call.numbers))),
        Kind::Reserve => answer.give(model::reserve(first, call.size(0)).map(two)),
        Kind::WriteReserved => {
            answer.add(model::write(&call.buffer, call.size(0), call.size(1), call.size(2), &numbers(&call.numbers)));
        }
        Kind::Show => answer.give(model::show(first, call.size(0)).map(two)),
        Kind::List => {
            let fit = |text: Vec<u8>| if text.len() > room { model::refuse(6, 0) } else { Ok(text) };
            answer.write(model::listing(first).and_then(fit).map(alone));
        }
        Kind::Enter => enter(call, &mut answer),
        Kind::WholeLength => answer.give(whole_length(call)),
        Kind::Find => {
            let result = find(call);
            if let Ok((records, _)) = &result {
                answer.places[..records.len()].copy_from_slice(records);
            }
            answer.give(result.map(|(_, comparisons)| vec![comparisons]));
        }
        Kind::Merge => answer.write(model::merge(first, second, room).map(alone)),
    }
    answer
}
