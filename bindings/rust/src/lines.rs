//! Print lines and their fields.

use crate::number::Number;
use crate::raw;
use crate::refusal::{answered, Refusal};

/// An element of a line: a number, or a text, which is a part of the texts that are lent to the call.
///
/// ```
/// use hulgyevan::{Element, Number};
/// assert_eq!(Element::number(Number::ZERO).as_number(), Some(Number::ZERO));
/// assert_eq!(Element::text(2, 4).as_text(), Some((2, 4)));
/// ```
#[repr(C)]
#[derive(Clone, Copy, Debug, PartialEq, Eq, Hash)]
pub struct Element {
    kind: u64,
    number: Number,
    start: usize,
    length: usize,
}

impl Element {
    /// Makes an element of a number.
    pub const fn number(number: Number) -> Element {
        Element { kind: 0, number, start: 0, length: 0 }
    }

    /// Makes an element of a text, so many bytes from a place on in the lent texts.
    pub const fn text(start: usize, length: usize) -> Element {
        Element { kind: 1, number: Number::ZERO, start, length }
    }

    /// Gives the number, if the element is one.
    pub fn as_number(self) -> Option<Number> {
        (self.kind == 0).then_some(self.number)
    }

    /// Gives the start and the length of the text, if the element is one.
    pub fn as_text(self) -> Option<(usize, usize)> {
        (self.kind != 0).then_some((self.start, self.length))
    }
}

impl From<Number> for Element {
    /// Makes an element of a number.
    fn from(number: Number) -> Element {
        Element::number(number)
    }
}

/// What printing gives.
#[derive(Clone, Copy, Debug, PartialEq, Eq, Hash)]
pub struct Printed {
    /// The count of bytes written.
    pub size: usize,
    /// The count of elements spilled: their fields print their own bytes.
    pub spilled: usize,
}

/// Gives the length of the longest field that starts at a byte of a line; 0 where none does.
///
/// ```
/// use hulgyevan::scan;
/// assert_eq!(scan(b"a #,###^^^^", 2), 5);
/// assert_eq!(scan(b"a #,###^^^^", 0), 0);
/// ```
pub fn scan(line: &[u8], at: usize) -> usize {
    raw::scan(line, at)
}

/// Prints up to 64 elements into the fields of a line of up to 4,096 bytes, at the start of a buffer.
///
/// Refused with 10, (2), 9, (13 or 3), 6.
///
/// ```
/// use hulgyevan::{print, Element, Number, Printed};
/// let mut buffer = [0; 20];
/// let elements = [Number::from_steps(1234)?.into(), Element::text(0, 4)];
/// let printed = print(b"#,###.# is ####", &elements, b"torn leaf", &mut buffer)?;
/// assert_eq!(printed, Printed { size: 15, spilled: 0 });
/// assert_eq!(&buffer[..15], b"1,234.0 is torn");
/// # Ok::<(), hulgyevan::Refusal>(())
/// ```
pub fn print(line: &[u8], elements: &[Element], texts: &[u8], buffer: &mut [u8]) -> Result<Printed, Refusal> {
    let (mut size, mut spilled) = (0, 0);
    let answer = raw::print(line, elements, texts, buffer, &mut size, &mut spilled);
    answered(answer, Printed { size, spilled })
}

/// Gives how many bytes printing so many elements under a line of a length writes at most.
///
/// Refused with 10 for over 64 elements or a line of over 4,096 bytes.
///
/// ```
/// use hulgyevan::forecast;
/// assert_eq!(forecast(80, 3)?, 4 * 81);
/// assert!(forecast(4_097, 3).is_err());
/// # Ok::<(), hulgyevan::Refusal>(())
/// ```
pub fn forecast(length: usize, count: usize) -> Result<usize, Refusal> {
    let mut size = 0;
    let answer = raw::forecast(length, count, &mut size);
    answered(answer, size)
}

/// Reads a print field back: its blanks and commas are dropped, and what is left is converted.
///
/// Refused with 8, else with 5.
///
/// ```
/// use hulgyevan::read_field;
/// assert_eq!(read_field(b"-  1,234.5")?, "-1234.5".parse()?);
/// # Ok::<(), hulgyevan::Refusal>(())
/// ```
pub fn read_field(field: &[u8]) -> Result<Number, Refusal> {
    let mut number = Number::ZERO;
    let answer = raw::read_field(field, &mut number);
    answered(answer, number)
}
