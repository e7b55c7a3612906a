//! Positions of a scanning bureau as decimal numbers under # images: packed bodies that sort, byte by byte, as the positions do; alpha texts and
//! print lines; and record files of such bodies. Everything is done by the static library `libhulgyevan.a`, in which each call is proved to
//! answer what the rules say and to touch nothing else; this crate has the types around it, and no rules of its own. `docs/RULES.md` in the
//! repository has the rules, and is "document 01" here.
//!
//! A call takes any input: nothing has to be tested first. Where it says no, it gives a [`Refusal`], its [`Reason`] and a place, and what was
//! lent to it is as it was. What is written to a buffer stands at its start, and the bytes behind it stay as they were. No function panics, and
//! none allocates memory but the `Display` of a number.
//!
//! ```
//! use hulgyevan::{add, find, list, write_contents, Number};
//!
//! // A file of positions in steps and hundredths, around the step past which single floats no longer tell neighbours apart.
//! let mut file = [0; 64];
//! let mut used = write_contents(b"\x01\x0b########.##", &mut file)?;
//! for position in ["16777216", "16777216.25", "16777217"] {
//!     used = add(used, &[position.parse()?], &mut file)?;
//! }
//! let file = &file[..used];
//!
//! let mut text = [0; 80];
//! let size = list(file, &mut text)?;
//! assert_eq!(&text[..size], b"columns 1\n16777216.00\n16777216.25\n16777217.00\nrecords 3\n");
//!
//! let mut records = [0];
//! find(file, &[Number::from_steps(16_777_217)?], &mut records)?;
//! assert_eq!(records, [2]);
//! # Ok::<(), hulgyevan::Refusal>(())
//! ```
//!
//! # Building
//!
//! `build.rs` looks for the archive in the folder that the environment variable `HULGYEVAN_LIB_DIR` names, and if that is not set in
//! `../../crates/hulgyevan/out`, where `rt lib` in `crates/hulgyevan` leaves it. Nothing else is needed, and nothing is downloaded.
#![deny(missing_docs)]
#![deny(unsafe_code)]

/// The most columns of a contents.
pub const MAX_COLUMNS: usize = 16;

/// The most elements of a line.
pub const MAX_ELEMENTS: usize = 64;

/// The most positions of a search.
pub const MAX_POSITIONS: usize = 64;

/// The most bytes of a line.
pub const MAX_LINE: usize = 4_096;

/// The most bytes of a body.
pub const MAX_BODY: usize = 128;

mod bodies;
mod files;
mod lines;
mod number;
#[allow(unsafe_code)]
pub mod raw;
mod refusal;
mod texts;

pub use bodies::{pack, pack_with_remainders, read_contents, unpack, Contents};
pub use files::{
    add, enter, find, list, merge, read_file, reserve, show, whole_length, write_contents, write_reserved, RecordFile, Reservation,
    WholeLength,
};
pub use lines::{forecast, print, read_field, scan, Element, Printed};
pub use number::{Number, Remainder};
pub use refusal::{EntryRefusal, Reason, Refusal};
pub use texts::{alpha, legal_length, read_text_number, read_text_numbers, Stop, TextNumbers};
