//! Calls made of the library: through the crate `hulgyevan`'s types, and through its module `raw`, which shows what the out-pointers point to.

use crate::call::{Answer, Call, Kind, UNTOUCHED};
use hulgyevan::{raw, Element, Number, Refusal, Remainder, Reservation, Stop};

/// All that is lent to a call.
pub struct Lent<'a> {
    pub first: &'a [u8],
    pub second: &'a [u8],
    pub numbers: &'a [Number],
    pub elements: &'a [Element],
    pub buffer: &'a mut [u8],
    /// The words that are lent to be written, as numbers or as remainders; one of them is empty.
    pub number_words: &'a mut [Number],
    pub remainder_words: &'a mut [Remainder],
    pub places: &'a mut [usize],
    pub sizes: [&'a mut usize; 4],
    pub number: &'a mut Number,
    pub word: &'a mut u64,
}

/// Makes a call through the module raw: the answer word, or for a call that has none 0, with what it returns in its first out-pointer.
pub fn raw_word(call: &Call, lent: &mut Lent) -> u64 {
    let Lent { first, second, numbers, elements, buffer, places, number, word, .. } = lent;
    let [size, size1, size2, size3] = &mut lent.sizes;
    let (words, cut) = (&mut *lent.number_words, &mut *lent.remainder_words);
    match call.kind {
        Kind::FromParts => raw::from_parts(call.value(0) != 0, call.value(1), call.value(2) as i64, number),
        Kind::FromSteps => raw::from_steps(call.value(0) != 0, call.value(1), number),
        Kind::Compare => raw::compare(Number::from_word(call.value(0)), Number::from_word(call.value(1)), word),
        Kind::ReadContents => raw::read_contents(first, size, size1),
        Kind::ReadFile => raw::read_file(first, size, size1, size2, size3),
        Kind::Pack => raw::pack(first, numbers, buffer, size),
        Kind::PackWithRemainders => raw::pack_with_remainders(first, numbers, buffer, cut, size),
        Kind::Unpack => raw::unpack(first, second, words, size),
        Kind::Alpha => raw::alpha(first, Number::from_word(call.value(0)), buffer, size),
        Kind::LegalLength => {
            **size = raw::legal_length(first);
            0
        }
        Kind::ReadTextNumber => raw::read_text_number(first, number, size),
        Kind::Convert => raw::convert(first, number),
        Kind::ReadTextNumbers => raw::read_text_numbers(first, call.size(0), words, size, size1, word),
        Kind::Scan => {
            **size = raw::scan(first, call.size(0));
            0
        }
        Kind::Print => raw::print(first, elements, second, buffer, size, size1),
        Kind::Forecast => raw::forecast(call.size(0), call.size(1), size),
        Kind::ReadField => raw::read_field(first, number),
        Kind::WriteContents => raw::write_contents(first, buffer, size),
        Kind::Add => raw::add(call.size(0), numbers, buffer, size),
        Kind::Reserve => raw::reserve(first, call.size(0), size, size1),
        Kind::WriteReserved => raw::write_reserved(call.size(0), call.size(1), call.size(2), numbers, buffer, size),
        Kind::Show => raw::show(first, call.size(0), size, size1),
        Kind::List => raw::list(first, buffer, size),
        Kind::Enter => raw::enter(first, second, buffer, size, size1),
        Kind::WholeLength => raw::whole_length(first, size, size1),
        Kind::Find => raw::find(first, numbers, places, size),
        Kind::Merge => raw::merge(first, second, buffer, size),
    }
}

/// Gives what a kind's out-pointers point to, in the order of the header.
pub fn outs(kind: Kind, lent: &Lent) -> Vec<u64> {
    let sizes = |count: usize| lent.sizes[..count].iter().map(|size| **size as u64).collect::<Vec<u64>>();
    let number = vec![lent.number.word()];
    match kind {
        Kind::FromParts | Kind::FromSteps | Kind::Convert | Kind::ReadField => number,
        Kind::Compare => vec![*lent.word],
        Kind::ReadTextNumber => [number, sizes(1)].concat(),
        Kind::ReadTextNumbers => [sizes(2), vec![*lent.word]].concat(),
        kind => sizes(crate::call::out_count(kind)),
    }
}

/// Makes a call through the module raw, and gives all that there is afterwards.
pub fn raw_answer(call: &Call, lent: &mut Lent) -> Answer {
    let word = raw_word(call, lent);
    Answer {
        word,
        outs: outs(call.kind, lent),
        buffer: lent.buffer.to_vec(),
        words: words_of(lent.number_words, lent.remainder_words),
        places: lent.places.to_vec(),
    }
}

/// Gives the words of numbers and remainders.
fn words_of(numbers: &[Number], remainders: &[Remainder]) -> Vec<u64> {
    numbers.iter().map(|number| number.word()).chain(remainders.iter().map(|remainder| remainder.word())).collect()
}

/// Parts words to be written into numbers and remainders, by the kind of the call.
pub fn words_for(call: &Call) -> (Vec<Number>, Vec<Remainder>) {
    match call.kind {
        Kind::PackWithRemainders => (Vec::new(), call.words.iter().copied().map(Remainder::from_word).collect()),
        _ => (call.words.iter().copied().map(Number::from_word).collect(), Vec::new()),
    }
}

/// Gives one value of an out-pointer.
fn size(value: usize) -> Vec<u64> {
    vec![value as u64]
}

/// Gives the word of why reading a text's numbers stopped.
fn stop_word(stop: Stop) -> u64 {
    match stop {
        Stop::End => 0,
        Stop::NoNumber => 8,
        Stop::TooMany => 10,
        Stop::Refused(refusal) => refusal.answer(),
    }
}

/// Converts a text by each of the three ways that there are for a text in UTF-8.
fn convert(text: &[u8]) -> Result<Number, Refusal> {
    let result = Number::try_from(text);
    if let Ok(text) = std::str::from_utf8(text) {
        assert_eq!(result, text.parse());
        assert_eq!(result, Number::try_from(text));
    }
    result
}

/// Makes a number of steps; where they are an i64, by the two other ways too.
fn from_steps(negative: bool, steps: u64) -> Result<Number, Refusal> {
    let result = Number::from_signed_steps(negative, steps);
    let signed = i64::try_from(if negative { -i128::from(steps) } else { i128::from(steps) });
    if let Ok(signed) = signed {
        assert_eq!(result, Number::from_steps(signed));
        assert_eq!(result, Number::try_from(signed));
    }
    result
}

/// Checks that a number's text reads back, if it is in normal form, and that its parts make it again.
fn check_text(number: Number) {
    let back = Number::from_parts(number.is_negative(), number.mantissa(), number.exponent().into());
    assert_eq!(number.is_normal(), back.is_ok());
    if number.is_normal() {
        assert_eq!(back, Ok(number));
        assert_eq!(number.to_string().parse(), Ok(number), "the text of a number");
    }
}

/// Gives the number of a word passed.
fn number(call: &Call, index: usize) -> Number {
    let number = Number::from_word(call.value(index));
    assert_eq!(number.word(), call.value(index));
    check_text(number);
    number
}

/// Makes a call through the crate's types: what it gives as values of out-pointers, or its refusal.
fn typed(call: &Call, answer: &mut Answer) -> Result<Vec<u64>, Refusal> {
    let (first, second, numbers) = (&call.first[..], &call.second[..], &call.numbers[..]);
    let buffer = &mut answer.buffer[..];
    let (mut words, mut cut) = words_for(call);
    let one = |number: Number| vec![number.word()];
    let result = match call.kind {
        Kind::FromParts => Number::from_parts(call.value(0) != 0, call.value(1), call.value(2) as i64).map(one),
        Kind::FromSteps => from_steps(call.value(0) != 0, call.value(1)).map(one),
        Kind::Compare => number(call, 0).compare(number(call, 1)).map(|order| vec![(order as i64 + 1) as u64]),
        Kind::ReadContents => hulgyevan::read_contents(first).map(|found| [size(found.columns), size(found.body)].concat()),
        Kind::ReadFile => hulgyevan::read_file(first)
            .map(|found| [size(found.columns), size(found.contents), size(found.body), size(found.records)].concat()),
        Kind::Pack => hulgyevan::pack(first, numbers, buffer).map(size),
        Kind::PackWithRemainders => hulgyevan::pack_with_remainders(first, numbers, buffer, &mut cut).map(size),
        Kind::Unpack => hulgyevan::unpack(first, second, &mut words).map(size),
        Kind::Alpha => hulgyevan::alpha(first, number(call, 0), buffer).map(size),
        Kind::LegalLength => Ok(size(hulgyevan::legal_length(first))),
        Kind::ReadTextNumber => hulgyevan::read_text_number(first).map(|(number, used)| [one(number), size(used)].concat()),
        Kind::Convert => convert(first).map(one),
        Kind::ReadTextNumbers => hulgyevan::read_text_numbers(first, call.size(0), &mut words)
            .map(|read| [size(read.count), size(read.place), vec![stop_word(read.stop)]].concat()),
        Kind::Scan => Ok(size(hulgyevan::scan(first, call.size(0)))),
        Kind::Print => {
            hulgyevan::print(first, &call.elements, second, buffer).map(|printed| [size(printed.size), size(printed.spilled)].concat())
        }
        Kind::Forecast => hulgyevan::forecast(call.size(0), call.size(1)).map(size),
        Kind::ReadField => hulgyevan::read_field(first).map(one),
        Kind::WriteContents => hulgyevan::write_contents(first, buffer).map(size),
        Kind::Add => hulgyevan::add(call.size(0), numbers, buffer).map(size),
        Kind::Reserve => {
            hulgyevan::reserve(first, call.size(0)).map(|reservation| [size(reservation.start), size(reservation.size)].concat())
        }
        Kind::WriteReserved => {
            let reservation = Reservation { start: call.size(1), size: call.size(2) };
            hulgyevan::write_reserved(call.size(0), reservation, numbers, buffer).map(size)
        }
        Kind::Show => hulgyevan::show(first, call.size(0)).map(|place| [size(place.start), size(place.len())].concat()),
        Kind::List => hulgyevan::list(first, buffer).map(size),
        Kind::Enter => hulgyevan::enter(first, second, buffer).map(|used| vec![used as u64, UNTOUCHED]).map_err(|refused| {
            assert!(refused.line != Some(0));
            answer.outs[1] = refused.line.unwrap_or(0) as u64;
            refused.refusal
        }),
        Kind::WholeLength => hulgyevan::whole_length(first).map(|whole| [size(whole.length), size(whole.behind)].concat()),
        Kind::Find => hulgyevan::find(first, numbers, &mut answer.places).map(size),
        Kind::Merge => hulgyevan::merge(first, second, buffer).map(size),
    };
    answer.words = words_of(&words, &cut);
    result
}

/// Makes a call through the crate's types, and gives all that there is afterwards.
pub fn typed_answer(call: &Call) -> Answer {
    let mut answer = Answer::untouched(call);
    match typed(call, &mut answer) {
        Ok(outs) => answer.outs = outs,
        Err(refusal) => {
            assert_eq!(refusal.to_string(), format!("refused {} {}", refusal.reason.number(), refusal.place));
            answer.word = refusal.answer();
        }
    }
    answer
}
