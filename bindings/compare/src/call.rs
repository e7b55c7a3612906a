//! Calls of the library as values: what is lent and passed, and what is answered.

use hulgyevan::{Element, Number};

/// The kinds of calls: those of `hulgyevan.h`.
#[derive(Clone, Copy, Debug, PartialEq, Eq, PartialOrd, Ord)]
pub enum Kind {
    FromParts,
    FromSteps,
    Compare,
    ReadContents,
    ReadFile,
    Pack,
    PackWithRemainders,
    Unpack,
    Alpha,
    LegalLength,
    ReadTextNumber,
    Convert,
    ReadTextNumbers,
    Scan,
    Print,
    Forecast,
    ReadField,
    WriteContents,
    Add,
    Reserve,
    WriteReserved,
    Show,
    List,
    Enter,
    WholeLength,
    Find,
    Merge,
}

use Kind::*;

/// The numbers that each kind has to come up with, 0 for done: those that the rules say it can answer.
pub const EXPECTED: &[(Kind, &[u64])] = &[
    (FromParts, &[0, 3]),
    (FromSteps, &[0, 3]),
    (Compare, &[0, 3]),
    (ReadContents, &[0, 1, 2, 10, 11]),
    (ReadFile, &[0, 1, 2, 10, 11]),
    (Pack, &[0, 1, 2, 3, 4, 5, 6, 10, 11]),
    (PackWithRemainders, &[0, 1, 2, 3, 4, 5, 6, 10, 11]),
    (Unpack, &[0, 1, 2, 6, 7, 10, 11]),
    (Alpha, &[0, 1, 2, 3, 4, 5, 6]),
    (LegalLength, &[0]),
    (ReadTextNumber, &[0, 5, 8]),
    (Convert, &[0, 5, 8]),
    (ReadTextNumbers, &[0, 6]),
    (Scan, &[0]),
    (Print, &[0, 2, 3, 6, 9, 10, 13]),
    (Forecast, &[0, 10]),
    (ReadField, &[0, 5, 8]),
    (WriteContents, &[0, 1, 2, 6, 10, 11]),
    (Add, &[0, 1, 2, 3, 4, 5, 6, 10, 11]),
    (Reserve, &[0, 1, 2, 10, 11]),
    (WriteReserved, &[0, 1, 2, 3, 4, 5, 6, 10, 11, 18]),
    (Show, &[0, 1, 2, 10, 11, 12]),
    (List, &[0, 1, 2, 6, 7, 10, 11]),
    (Enter, &[0, 1, 2, 4, 5, 6, 8, 10, 11]),
    (WholeLength, &[0, 1, 2, 10, 11]),
    (Find, &[0, 1, 2, 3, 6, 7, 10, 11, 14, 15, 16]),
    (Merge, &[0, 1, 2, 6, 7, 10, 11, 15, 16, 17]),
];

/// A call: its kind, what is lent, and the values passed. What a kind does not have is empty.
#[derive(Clone, Debug)]
pub struct Call {
    pub kind: Kind,
    /// The first slice of bytes that is read.
    pub first: Vec<u8>,
    /// The second slice of bytes that is read.
    pub second: Vec<u8>,
    /// The list of numbers that is read.
    pub numbers: Vec<Number>,
    /// The elements that are read.
    pub elements: Vec<Element>,
    /// Sizes, signs and words that are passed by value.
    pub values: Vec<u64>,
    /// The buffer as it is lent.
    pub buffer: Vec<u8>,
    /// How many of the buffer's first bytes the call may read: those of the file in it.
    pub filled: usize,
    /// The slice of words, numbers or remainders, that the call may write, as it is lent.
    pub words: Vec<u64>,
    /// The slice of record numbers that the call may write, as it is lent.
    pub places: Vec<usize>,
}

impl Call {
    /// Makes a call to which nothing is lent yet.
    pub fn new(kind: Kind) -> Call {
        Call {
            kind,
            first: Vec::new(),
            second: Vec::new(),
            numbers: Vec::new(),
            elements: Vec::new(),
            values: Vec::new(),
            buffer: Vec::new(),
            filled: 0,
            words: Vec::new(),
            places: Vec::new(),
        }
    }

    /// Gives a value passed; 0 where the kind has none.
    pub fn value(&self, index: usize) -> u64 {
        self.values.get(index).copied().unwrap_or(0)
    }

    /// Gives a value passed as a size.
    pub fn size(&self, index: usize) -> usize {
        self.value(index) as usize
    }
}

/// What an out-pointer points to before the call.
pub const UNTOUCHED: u64 = 0x5a5a_a5a5_1234_8765;

/// What there is after a call: the answer word, what the out-pointers point to, and all that was lent to be written.
#[derive(Clone, Debug, PartialEq, Eq)]
pub struct Answer {
    pub word: u64,
    pub outs: Vec<u64>,
    pub buffer: Vec<u8>,
    pub words: Vec<u64>,
    pub places: Vec<usize>,
}

/// Gives how many out-pointers a kind has; what is returned without an answer word counts as one.
pub fn out_count(kind: Kind) -> usize {
    match kind {
        ReadFile => 4,
        ReadTextNumbers => 3,
        ReadContents | ReadTextNumber | Print | Reserve | Show | Enter | WholeLength => 2,
        _ => 1,
    }
}

impl Answer {
    /// Makes the answer of a call that has changed nothing.
    pub fn untouched(call: &Call) -> Answer {
        Answer {
            word: 0,
            outs: vec![UNTOUCHED; out_count(call.kind)],
            buffer: call.buffer.clone(),
            words: call.words.clone(),
            places: call.places.clone(),
        }
    }

    /// Gives the refusal's number in the answer word, 0 for done.
    pub fn number(&self) -> u64 {
        self.word % 256
    }
}
