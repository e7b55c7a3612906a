//! Alpha texts and text numbers.

use crate::number::Number;
use crate::raw;
use crate::refusal::{answered, Reason, Refusal};

/// Writes the alpha text of a number under an image at the start of a buffer: gives its size, which is the image's.
///
/// Refused with 1, 2, 3, 4, 5, 6.
///
/// ```
/// use hulgyevan::alpha;
/// let mut text = [0; 9];
/// let size = alpha(b"-#.##^^^^", "12.195".parse()?, &mut text)?;
/// assert_eq!(&text[..size], b" 1.21E+01");
/// # Ok::<(), hulgyevan::Refusal>(())
/// ```
pub fn alpha(image: &[u8], number: Number, buffer: &mut [u8]) -> Result<usize, Refusal> {
    let mut size = 0;
    let answer = raw::alpha(image, number, buffer, &mut size);
    answered(answer, size)
}

/// Gives the length of the longest beginning of a text that has the form of a text number; 0 where none has.
///
/// ```
/// use hulgyevan::legal_length;
/// assert_eq!(legal_length(b"+24.37#JK"), 6);
/// assert_eq!(legal_length(b"torn"), 0);
/// ```
pub fn legal_length(text: &[u8]) -> usize {
    raw::legal_length(text)
}

/// Reads the longest beginning of a text that has the form of a text number: gives its number, and how many bytes it has.
///
/// Refused with 8 where there is none, else with 5 where its exponent is outside its limits.
///
/// ```
/// use hulgyevan::{read_text_number, Reason};
/// assert_eq!(read_text_number(b"0012.5 torn")?, ("12.5".parse()?, 7));
/// assert_eq!(read_text_number(b"12E99 torn").unwrap_err().reason, Reason::ExponentOutside);
/// # Ok::<(), hulgyevan::Refusal>(())
/// ```
pub fn read_text_number(text: &[u8]) -> Result<(Number, usize), Refusal> {
    let (mut number, mut used) = (Number::ZERO, 0);
    let answer = raw::read_text_number(text, &mut number, &mut used);
    answered(answer, (number, used))
}

/// Why reading the numbers of a text stopped.
#[derive(Clone, Copy, Debug, PartialEq, Eq, Hash)]
pub enum Stop {
    /// The text ended.
    End,
    /// No text number begins at the place.
    NoNumber,
    /// A text number begins at the place, and 16 were read.
    TooMany,
    /// The number with the refusal's place as its index, counted from 0, has an exponent outside its limits.
    Refused(Refusal),
}

impl Stop {
    /// Gives the answer of an answer word.
    fn of(answer: u64) -> Stop {
        match answered(answer, ()) {
            Ok(()) => Stop::End,
            Err(Refusal { reason: Reason::NotText, .. }) => Stop::NoNumber,
            Err(Refusal { reason: Reason::WrongCount, .. }) => Stop::TooMany,
            Err(refusal) => Stop::Refused(refusal),
        }
    }
}

/// What reading the numbers of a text gives.
#[derive(Clone, Copy, Debug, PartialEq, Eq, Hash)]
pub struct TextNumbers {
    /// How many numbers were read.
    pub count: usize,
    /// The place in the text where reading stopped.
    pub place: usize,
    /// Why it stopped there.
    pub stop: Stop,
}

/// Reads the text numbers that stand one behind the other in a text, from a place on, at most 16: they then stand at the start of `numbers`.
///
/// Refused with 6 alone, where `numbers` is shorter than what was read.
///
/// ```
/// use hulgyevan::{read_text_numbers, Number, Stop, TextNumbers};
/// let mut numbers = [Number::ZERO; 16];
/// let read = read_text_numbers(b"12 - 15 torn", 0, &mut numbers)?;
/// assert_eq!(read, TextNumbers { count: 2, place: 8, stop: Stop::NoNumber });
/// assert_eq!(numbers[..2], [Number::from_steps(12)?, Number::from_steps(-15)?]);
/// # Ok::<(), hulgyevan::Refusal>(())
/// ```
pub fn read_text_numbers(text: &[u8], from: usize, numbers: &mut [Number]) -> Result<TextNumbers, Refusal> {
    let (mut count, mut place, mut stop) = (0, 0, 0);
    let answer = raw::read_text_numbers(text, from, numbers, &mut count, &mut place, &mut stop);
    answered(answer, TextNumbers { count, place, stop: Stop::of(stop) })
}
