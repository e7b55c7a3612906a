//! Contents and packed bodies.

use crate::number::{Number, Remainder};
use crate::raw;
use crate::refusal::{answered, Refusal};

/// What a contents says of its bodies.
#[derive(Clone, Copy, Debug, PartialEq, Eq, Hash)]
pub struct Contents {
    /// The count of columns, 1 to 16.
    pub columns: usize,
    /// The size of a body in bytes.
    pub body: usize,
}

/// Reads a contents that is lent alone: one byte with the count of columns, then for each one byte with the length of its image, and the image.
///
/// Refused with 11, 10, (11, 1, 2), 11.
///
/// ```
/// use hulgyevan::{read_contents, Contents};
/// assert_eq!(read_contents(b"\x02\x03###\x02+#")?, Contents { columns: 2, body: 3 });
/// # Ok::<(), hulgyevan::Refusal>(())
/// ```
pub fn read_contents(contents: &[u8]) -> Result<Contents, Refusal> {
    let (mut columns, mut body) = (0, 0);
    let answer = raw::read_contents(contents, &mut columns, &mut body);
    answered(answer, Contents { columns, body })
}

/// Packs a list of numbers, one for each column, under a contents as a body at the start of a buffer: gives the body's size.
///
/// Refused with 11, 10, (11, 1, 2), 11 for the contents, then with 10 for another count of numbers, (3, 4, 5), 6.
///
/// ```
/// use hulgyevan::pack;
/// let mut buffer = [0xff; 4];
/// let size = pack(b"\x02\x03###\x02+#", &["12.195".parse()?, "-0.5".parse()?], &mut buffer)?;
/// assert_eq!((size, buffer), (3, [0x01, 0x20, 0x00, 0xff]));
/// # Ok::<(), hulgyevan::Refusal>(())
/// ```
pub fn pack(contents: &[u8], numbers: &[Number], buffer: &mut [u8]) -> Result<usize, Refusal> {
    let mut size = 0;
    let answer = raw::pack(contents, numbers, buffer, &mut size);
    answered(answer, size)
}

/// Packs as [`pack`] does, and gives with it what each image cut off, a remainder for each number at the start of `remainders`.
///
/// Refused as [`pack`] is, with 6 also where `remainders` is shorter than the count of columns.
///
/// ```
/// use hulgyevan::{pack_with_remainders, Remainder};
/// let (mut body, mut cut) = ([0; 3], [Remainder::ZERO; 2]);
/// let numbers = ["12.195".parse()?, "-0.5".parse()?];
/// assert_eq!(pack_with_remainders(b"\x02\x03###\x02+#", &numbers, &mut body, &mut cut)?, 3);
/// assert_eq!(cut[0].to_string(), "19500000000E-11");
/// assert_eq!(cut[1].to_string(), "5000000000000E-13");
/// # Ok::<(), hulgyevan::Refusal>(())
/// ```
pub fn pack_with_remainders(
    contents: &[u8],
    numbers: &[Number],
    buffer: &mut [u8],
    remainders: &mut [Remainder],
) -> Result<usize, Refusal> {
    let mut size = 0;
    let answer = raw::pack_with_remainders(contents, numbers, buffer, remainders, &mut size);
    answered(answer, size)
}

/// Reads a body back under a contents: gives the count of its numbers, which then stand at the start of `numbers`.
///
/// Refused with 11, 10, (11, 1, 2), 11 for the contents, then with 11 for a body of another length, (7), 6.
///
/// ```
/// use hulgyevan::{unpack, Number, Reason};
/// let mut numbers = [Number::ZERO; 16];
/// let count = unpack(b"\x02\x03###\x02+#", &[0x01, 0x20, 0x15], &mut numbers)?;
/// assert_eq!(numbers[..count], [Number::from_steps(12)?, Number::from_steps(-5)?]);
///
/// // A minus with a zero is packed by nothing.
/// let refusal = unpack(b"\x01\x02+#", &[0x10], &mut numbers).unwrap_err();
/// assert_eq!(refusal.reason, Reason::BadHalf);
/// # Ok::<(), hulgyevan::Refusal>(())
/// ```
pub fn unpack(contents: &[u8], body: &[u8], numbers: &mut [Number]) -> Result<usize, Refusal> {
    let mut count = 0;
    let answer = raw::unpack(contents, body, numbers, &mut count);
    answered(answer, count)
}
