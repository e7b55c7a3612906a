//! Why a call says no.

use std::error::Error;
use std::fmt;

/// Why a call was refused. Each reason is its number in document 01's table.
///
/// ```
/// use hulgyevan::{pack, Number, Reason};
/// let hundred = Number::from_steps(100)?;
/// let refusal = pack(b"\x01\x02##", &[hundred], &mut [0; 8]).unwrap_err();
/// assert_eq!(refusal.reason, Reason::Exceeds);
/// assert_eq!(refusal.reason.number(), 4);
/// # Ok::<(), hulgyevan::Refusal>(())
/// ```
#[repr(u8)]
#[derive(Clone, Copy, Debug, PartialEq, Eq, PartialOrd, Ord, Hash)]
pub enum Reason {
    /// Bytes that are not an image. The place is the column.
    NotAnImage = 1,
    /// An image with more than 13 #. The place is the column or the field.
    TooManyDigits = 2,
    /// A number that is not in normal form. The place is the column, element or position.
    NotNormal = 3,
    /// A number that exceeds its fixed-point image. The place is the column.
    Exceeds = 4,
    /// An exponent outside its limits. The place is the column.
    ExponentOutside = 5,
    /// Not enough room for the whole answer.
    NoRoom = 6,
    /// A half byte of a body that packing does not write. The place is the column.
    BadHalf = 7,
    /// A text that is no text number.
    NotText = 8,
    /// At least one element, and a line without a field.
    NoField = 9,
    /// A count or a line's length outside its limits, or a list of another count than the columns.
    WrongCount = 10,
    /// A used length past the buffer, bytes too few or too many for a contents, or a body of another length.
    WrongLength = 11,
    /// A record number that the file does not have.
    NoRecord = 12,
    /// A text that is not inside its lent bytes. The place is the element.
    TextOutside = 13,
    /// A position below the one before it.
    PositionsFall = 14,
    /// A record whose first column is below that of the record before it.
    RecordsFall = 15,
    /// A first column that is signed or exponential.
    WrongKind = 16,
    /// Two files whose contents differ.
    ContentsDiffer = 17,
    /// A used length, or a size of bodies, that is not the one that was reserved.
    ReservationDiffers = 18,
}

impl Reason {
    /// Every reason, in the order of the numbers, which begin with 1.
    pub const ALL: [Reason; 18] = [
        Reason::NotAnImage,
        Reason::TooManyDigits,
        Reason::NotNormal,
        Reason::Exceeds,
        Reason::ExponentOutside,
        Reason::NoRoom,
        Reason::BadHalf,
        Reason::NotText,
        Reason::NoField,
        Reason::WrongCount,
        Reason::WrongLength,
        Reason::NoRecord,
        Reason::TextOutside,
        Reason::PositionsFall,
        Reason::RecordsFall,
        Reason::WrongKind,
        Reason::ContentsDiffer,
        Reason::ReservationDiffers,
    ];

    /// Gives the reason's number in the document's table.
    ///
    /// ```
    /// use hulgyevan::Reason;
    /// assert_eq!(Reason::NoRoom.number(), 6);
    /// ```
    pub const fn number(self) -> u8 {
        self as u8
    }

    /// Gives the reason with a number of the document's table, which are 1 to 18.
    ///
    /// ```
    /// use hulgyevan::Reason;
    /// assert_eq!(Reason::from_number(6), Some(Reason::NoRoom));
    /// assert_eq!(Reason::from_number(0), None);
    /// ```
    pub fn from_number(number: u8) -> Option<Reason> {
        Reason::ALL.into_iter().find(|reason| reason.number() == number)
    }
}

impl fmt::Display for Reason {
    /// Says what is wrong in words.
    fn fmt(&self, f: &mut fmt::Formatter) -> fmt::Result {
        f.write_str(match self {
            Reason::NotAnImage => "not an image",
            Reason::TooManyDigits => "an image with more than 13 #",
            Reason::NotNormal => "a number that is not in normal form",
            Reason::Exceeds => "a number that exceeds its image",
            Reason::ExponentOutside => "an exponent outside its limits",
            Reason::NoRoom => "not enough room for the answer",
            Reason::BadHalf => "a half byte that packing does not write",
            Reason::NotText => "not a text number",
            Reason::NoField => "elements, but no field",
            Reason::WrongCount => "a wrong count",
            Reason::WrongLength => "a wrong length",
            Reason::NoRecord => "no record of this number",
            Reason::TextOutside => "a text outside its lent bytes",
            Reason::PositionsFall => "positions that fall",
            Reason::RecordsFall => "records that fall",
            Reason::WrongKind => "a first column that is signed or exponential",
            Reason::ContentsDiffer => "two files whose contents differ",
            Reason::ReservationDiffers => "not the place or size that was reserved",
        })
    }
}

/// Why a call was refused, and the place, counted from 0: a column, field, element or position, as the reason says, else 0.
///
/// Its text is the line that the listing program prints.
///
/// ```
/// use hulgyevan::{read_contents, Reason, Refusal};
/// let refusal = read_contents(b"\x02\x01#\x01X").unwrap_err();
/// assert_eq!(refusal, Refusal { reason: Reason::NotAnImage, place: 1 });
/// assert_eq!(refusal.to_string(), "refused 1 1");
/// ```
#[derive(Clone, Copy, Debug, PartialEq, Eq, Hash)]
pub struct Refusal {
    /// What is wrong.
    pub reason: Reason,
    /// Where, counted from 0.
    pub place: usize,
}

impl Refusal {
    /// Gives the refusal in an answer word, place × 256 + number; nothing where the word is that of no refusal, such as 0, the word for done.
    ///
    /// ```
    /// use hulgyevan::{Reason, Refusal};
    /// assert_eq!(Refusal::from_answer(0), None);
    /// assert_eq!(Refusal::from_answer(3 * 256 + 7), Some(Refusal { reason: Reason::BadHalf, place: 3 }));
    /// ```
    pub fn from_answer(answer: u64) -> Option<Refusal> {
        let reason = Reason::from_number(answer as u8)?;
        Some(Refusal { reason, place: (answer >> 8) as usize })
    }

    /// Gives the answer word, place × 256 + number.
    ///
    /// ```
    /// use hulgyevan::{Reason, Refusal};
    /// assert_eq!(Refusal { reason: Reason::BadHalf, place: 3 }.answer(), 3 * 256 + 7);
    /// ```
    pub const fn answer(self) -> u64 {
        ((self.place as u64) << 8) | self.reason.number() as u64
    }
}

impl fmt::Display for Refusal {
    /// refused, the number and the place, parted by one blank each.
    fn fmt(&self, f: &mut fmt::Formatter) -> fmt::Result {
        write!(f, "refused {} {}", self.reason.number(), self.place)
    }
}

impl Error for Refusal {}

/// Why a text was not entered: the line that is refused, counted from 1, or nothing where the contents or the room is refused; and the refusal.
///
/// ```
/// use hulgyevan::enter;
/// let refusal = enter(b"\x01\x02##", b"5\n100\n", &mut [0; 8]).unwrap_err();
/// assert_eq!(refusal.line, Some(2));
/// assert_eq!(refusal.to_string(), "line 2 refused 4 0");
/// ```
#[derive(Clone, Copy, Debug, PartialEq, Eq, Hash)]
pub struct EntryRefusal {
    /// The number of the line that is refused, counted from 1.
    pub line: Option<usize>,
    /// What is wrong, and where.
    pub refusal: Refusal,
}

impl fmt::Display for EntryRefusal {
    /// line and its number, where a line is refused, and the refusal.
    fn fmt(&self, f: &mut fmt::Formatter) -> fmt::Result {
        if let Some(line) = self.line {
            write!(f, "line {line} ")?;
        }
        self.refusal.fmt(f)
    }
}

impl Error for EntryRefusal {}

/// Gives a value where the answer word is 0, and otherwise the refusal in it. The numbers 1 to 18 are all that the library answers; another one
/// would be a refusal too, with the last reason.
pub(crate) fn answered<T>(answer: u64, value: T) -> Result<T, Refusal> {
    if answer == 0 {
        return Ok(value);
    }
    let unknown = Refusal { reason: Reason::ReservationDiffers, place: (answer >> 8) as usize };
    Err(Refusal::from_answer(answer).unwrap_or(unknown))
}
