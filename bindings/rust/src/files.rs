//! Record files: a contents, and behind it the bodies of the records.

use crate::number::Number;
use crate::raw;
use crate::refusal::{answered, EntryRefusal, Refusal};
use std::ops::Range;

/// What a record file is made of.
#[derive(Clone, Copy, Debug, PartialEq, Eq, Hash)]
pub struct RecordFile {
    /// The count of columns, 1 to 16.
    pub columns: usize,
    /// The size of the contents in bytes.
    pub contents: usize,
    /// The size of a body in bytes.
    pub body: usize,
    /// The count of records.
    pub records: usize,
}

/// Reads a record file, without the halves of its bodies.
///
/// Refused with 11, 10, (11, 1, 2), 11.
///
/// ```
/// use hulgyevan::{read_file, RecordFile};
/// assert_eq!(read_file(b"\x01\x02##\x05\x12")?, RecordFile { columns: 1, contents: 4, body: 1, records: 2 });
/// # Ok::<(), hulgyevan::Refusal>(())
/// ```
pub fn read_file(file: &[u8]) -> Result<RecordFile, Refusal> {
    let (mut columns, mut contents, mut body, mut records) = (0, 0, 0, 0);
    let answer = raw::read_file(file, &mut columns, &mut contents, &mut body, &mut records);
    answered(answer, RecordFile { columns, contents, body, records })
}

/// Writes a contents, lent alone, at the start of a buffer: gives the used length.
///
/// Refused with 11, 10, (11, 1, 2), 11, 6.
///
/// ```
/// let mut buffer = [0xff; 5];
/// assert_eq!(hulgyevan::write_contents(b"\x01\x02##", &mut buffer)?, 4);
/// assert_eq!(&buffer, b"\x01\x02##\xff");
/// # Ok::<(), hulgyevan::Refusal>(())
/// ```
pub fn write_contents(contents: &[u8], buffer: &mut [u8]) -> Result<usize, Refusal> {
    let mut used = 0;
    let answer = raw::write_contents(contents, buffer, &mut used);
    answered(answer, used)
}

/// Adds a record of some numbers to the file in the first `used` bytes of a buffer: gives the new used length.
///
/// Refused with 11 for the used length, 11, 10, (11, 1, 2), 11 for the file, then with 10 for another count of numbers, (3, 4, 5), 6.
///
/// ```
/// use hulgyevan::{add, Number};
/// let mut buffer = *b"\x01\x02##\xff\xff";
/// assert_eq!(add(4, &[Number::from_steps(12)?], &mut buffer)?, 5);
/// assert_eq!(&buffer, b"\x01\x02##\x12\xff");
/// # Ok::<(), hulgyevan::Refusal>(())
/// ```
pub fn add(used: usize, numbers: &[Number], buffer: &mut [u8]) -> Result<usize, Refusal> {
    let mut new_used = 0;
    let answer = raw::add(used, numbers, buffer, &mut new_used);
    answered(answer, new_used)
}

/// Where a record is to be written: what [`reserve`] gives and [`write_reserved`] takes.
#[derive(Clone, Copy, Debug, PartialEq, Eq, Hash)]
pub struct Reservation {
    /// Where the body will start, which is the used length.
    pub start: usize,
    /// How many bytes it fills.
    pub size: usize,
}

/// Tells where the next body would go in a buffer with a file in its first `used` bytes, and how many bytes it fills.
///
/// Refused with 11 for the used length, 11, 10, (11, 1, 2), 11 for the file.
///
/// ```
/// use hulgyevan::{reserve, Reservation};
/// assert_eq!(reserve(b"\x01\x02##\x05", 5)?, Reservation { start: 5, size: 1 });
/// # Ok::<(), hulgyevan::Refusal>(())
/// ```
pub fn reserve(buffer: &[u8], used: usize) -> Result<Reservation, Refusal> {
    let (mut start, mut size) = (0, 0);
    let answer = raw::reserve(buffer, used, &mut start, &mut size);
    answered(answer, Reservation { start, size })
}

/// Adds a record at the place that [`reserve`] gave: gives the new used length.
///
/// Refused with 11 for the used length, 11, 10, (11, 1, 2) for the contents, 18, 11 for bodies, then with 10 for another count of numbers,
/// (3, 4, 5), 6.
///
/// ```
/// use hulgyevan::{reserve, write_reserved, Number, Reason};
/// let mut buffer = *b"\x01\x02##\x05\xff\xff";
/// let reservation = reserve(&buffer, 5)?;
/// let numbers = [Number::from_steps(12)?];
/// assert_eq!(write_reserved(5, reservation, &numbers, &mut buffer)?, 6);
/// assert_eq!(write_reserved(6, reservation, &numbers, &mut buffer).unwrap_err().reason, Reason::ReservationDiffers);
/// # Ok::<(), hulgyevan::Refusal>(())
/// ```
pub fn write_reserved(used: usize, reservation: Reservation, numbers: &[Number], buffer: &mut [u8]) -> Result<usize, Refusal> {
    let mut new_used = 0;
    let answer = raw::write_reserved(used, reservation.start, reservation.size, numbers, buffer, &mut new_used);
    answered(answer, new_used)
}

/// Shows the record with a number, counted from 0: gives where its body stands in the file.
///
/// Refused with 11, 10, (11, 1, 2), 11 for the file, then 12.
///
/// ```
/// let file = b"\x01\x02##\x05\x12";
/// assert_eq!(&file[hulgyevan::show(file, 1)?], b"\x12");
/// # Ok::<(), hulgyevan::Refusal>(())
/// ```
pub fn show(file: &[u8], index: usize) -> Result<Range<usize>, Refusal> {
    let (mut start, mut size) = (0, 0);
    let answer = raw::show(file, index, &mut start, &mut size);
    answered(answer, start..start.saturating_add(size))
}

/// Lists a file as text at the start of a buffer, with a line for each record: gives the text's size.
///
/// Refused with 11, 10, (11, 1, 2), 11 for the file, then (7), 6.
///
/// ```
/// let mut text = [0; 40];
/// let size = hulgyevan::list(b"\x01\x02##\x05\x12", &mut text)?;
/// assert_eq!(&text[..size], b"columns 1\n05\n12\nrecords 2\n");
/// # Ok::<(), hulgyevan::Refusal>(())
/// ```
pub fn list(file: &[u8], buffer: &mut [u8]) -> Result<usize, Refusal> {
    let mut size = 0;
    let answer = raw::list(file, buffer, &mut size);
    answered(answer, size)
}

/// Makes a record file of a text of lines, such as a listing, at the start of a buffer: gives the file's size.
///
/// Refused with 11, 10, (11, 1, 2), 11 for the contents, then with what is wrong in the first bad line and the number of that line, then
/// with 6.
///
/// ```
/// use hulgyevan::enter;
/// let mut buffer = [0; 8];
/// let size = enter(b"\x01\x02##", b"columns 1\n05\n12\nrecords 2\n", &mut buffer)?;
/// assert_eq!(&buffer[..size], b"\x01\x02##\x05\x12");
/// assert_eq!(enter(b"\x01\x02##", b"5\n100\n", &mut buffer).unwrap_err().line, Some(2));
/// # Ok::<(), hulgyevan::EntryRefusal>(())
/// ```
pub fn enter(contents: &[u8], text: &[u8], buffer: &mut [u8]) -> Result<usize, EntryRefusal> {
    let (mut size, mut line) = (0, 0);
    let answer = raw::enter(contents, text, buffer, &mut size, &mut line);
    answered(answer, size).map_err(|refusal| EntryRefusal { line: (line > 0).then_some(line), refusal })
}

/// How much of a file is whole.
#[derive(Clone, Copy, Debug, PartialEq, Eq, Hash)]
pub struct WholeLength {
    /// The longest used length whose bodies are whole.
    pub length: usize,
    /// The count of bytes behind it: those of a last body that was cut short.
    pub behind: usize,
}

/// Tells how much of a file is whole, whose last body may have been cut short.
///
/// Refused with 11, 10, (11, 1, 2) for the contents.
///
/// ```
/// use hulgyevan::{whole_length, WholeLength};
/// assert_eq!(whole_length(b"\x01\x04####\x01\x02\x03")?, WholeLength { length: 8, behind: 1 });
/// # Ok::<(), hulgyevan::Refusal>(())
/// ```
pub fn whole_length(file: &[u8]) -> Result<WholeLength, Refusal> {
    let (mut length, mut behind) = (0, 0);
    let answer = raw::whole_length(file, &mut length, &mut behind);
    answered(answer, WholeLength { length, behind })
}

/// Finds for each of up to 64 positions that do not fall the first record whose first column is at least the position, or the count of records
/// if there is none: they then stand at the start of `records`. Gives the count of comparisons.
///
/// Refused with 11, 10, (11, 1, 2), 11 for the file, then with 10 for over 64 positions, (7), (3), 16, 14, 15, and with 6 where `records` is
/// shorter than the positions.
///
/// ```
/// use hulgyevan::{find, Number};
/// let positions = [Number::from_steps(5)?, "5.001".parse()?, Number::from_steps(99)?];
/// let mut records = [0; 3];
/// find(b"\x01\x02##\x05\x12\x12", &positions, &mut records)?;
/// assert_eq!(records, [0, 1, 3]);
/// # Ok::<(), hulgyevan::Refusal>(())
/// ```
pub fn find(file: &[u8], positions: &[Number], records: &mut [usize]) -> Result<usize, Refusal> {
    let mut comparisons = 0;
    let answer = raw::find(file, positions, records, &mut comparisons);
    answered(answer, comparisons)
}

/// Merges two files of one contents by their first columns, on equal ones the first file's records before the second's, at the start of a
/// buffer: gives the merged file's size.
///
/// Refused with 11, 10, (11, 1, 2), 11, (7) for the first file, with the same for the second, then with 17, 16, 15, 6.
///
/// ```
/// let mut merged = [0; 8];
/// let size = hulgyevan::merge(b"\x01\x02##\x05\x12", b"\x01\x02##\x07", &mut merged)?;
/// assert_eq!(&merged[..size], b"\x01\x02##\x05\x07\x12");
/// # Ok::<(), hulgyevan::Refusal>(())
/// ```
pub fn merge(first: &[u8], second: &[u8], buffer: &mut [u8]) -> Result<usize, Refusal> {
    let mut size = 0;
    let answer = raw::merge(first, second, buffer, &mut size);
    answered(answer, size)
}
