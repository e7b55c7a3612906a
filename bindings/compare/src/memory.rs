//! Memory that is lent to calls: plain; between inaccessible pages; or not initialised. And calls that are wrong on purpose.
//! All of the program's `unsafe` is here.

use crate::call::{Call, UNTOUCHED};
use crate::made::{words_for, Lent};
use hulgyevan::{Element, Number, Remainder};
use std::ffi::{c_int, c_void};
use std::mem::MaybeUninit;

extern "C" {
    fn mmap(address: *mut c_void, length: usize, protection: c_int, flags: c_int, file: c_int, offset: i64) -> *mut c_void;
    fn mprotect(address: *mut c_void, length: usize, protection: c_int) -> c_int;
    fn getpagesize() -> c_int;
    fn hulgyevan_legal_length(text: *const u8, length: usize) -> usize;
    fn hulgyevan_write_contents(contents: *const u8, contents_length: usize, buffer: *mut u8, room: usize, used: *mut usize) -> u64;
    fn hulgyevan_forecast(length: usize, count: usize, size: *mut usize) -> u64;
}

const NO_ACCESS: c_int = 0;
const READ: c_int = 1;
const READ_WRITE: c_int = 3;
const PRIVATE_ANONYMOUS: c_int = 0x22;

/// Lends memory to calls.
pub trait Lender {
    /// Lends what a call has, each slice with its values, until the next call.
    fn lend<'a>(&'a mut self, call: &'a Call) -> Lent<'a>;
}

/// Lends what the call has as it is, and copies of what may be written.
#[derive(Default)]
pub struct Plain {
    buffer: Vec<u8>,
    number_words: Vec<Number>,
    remainder_words: Vec<Remainder>,
    places: Vec<usize>,
    sizes: [usize; 4],
    number: Number,
    word: u64,
}

impl Lender for Plain {
    fn lend<'a>(&'a mut self, call: &'a Call) -> Lent<'a> {
        (self.number_words, self.remainder_words) = words_for(call);
        (self.buffer, self.places) = (call.buffer.clone(), call.places.clone());
        (self.sizes, self.number, self.word) = ([UNTOUCHED as usize; 4], Number::from_word(UNTOUCHED), UNTOUCHED);
        Lent {
            first: &call.first,
            second: &call.second,
            numbers: &call.numbers,
            elements: &call.elements,
            buffer: &mut self.buffer,
            number_words: &mut self.number_words,
            remainder_words: &mut self.remainder_words,
            places: &mut self.places,
            sizes: self.sizes.each_mut(),
            number: &mut self.number,
            word: &mut self.word,
        }
    }
}

/// On which side of a lent slice the inaccessible page stands, right beside it.
#[derive(Clone, Copy, PartialEq, Eq)]
pub enum Side {
    Before,
    Behind,
}

/// How many bytes on the other side of a slice are looked at.
const BESIDE: usize = 256;

/// The value of these bytes.
const FILL: u8 = 0xa7;

/// Pages that can be read and written, between two that can't be accessed.
pub struct Region {
    start: *mut u8,
    length: usize,
}

impl Region {
    /// Maps at least so many bytes.
    pub fn new(least: usize) -> Region {
        // SAFETY: new pages are mapped, and only the first and the last of them are left inaccessible.
        unsafe {
            let page = getpagesize() as usize;
            let length = least.next_multiple_of(page);
            let whole = mmap(std::ptr::null_mut(), length + 2 * page, NO_ACCESS, PRIVATE_ANONYMOUS, -1, 0);
            assert!(whole as isize != -1, "mapping failed");
            let region = Region { start: whole.cast::<u8>().add(page), length };
            region.protect(READ_WRITE);
            region
        }
    }

    /// Sets what may be done with the pages between the inaccessible ones.
    pub fn protect(&self, protection: c_int) {
        // SAFETY: the pages are the region's own, and nothing of them is lent while their protection changes.
        let answer = unsafe { mprotect(self.start.cast(), self.length, protection) };
        assert_eq!(answer, 0, "protecting failed");
    }

    /// Gives the place of so many bytes right beside the inaccessible page.
    fn place(&self, size: usize, side: Side) -> *mut u8 {
        assert!(size + BESIDE <= self.length, "{size} bytes in a region of {}", self.length);
        let offset = if side == Side::Before { 0 } else { self.length - size };
        // SAFETY: the offset is within the region.
        unsafe { self.start.add(offset) }
    }

    /// Gives the place of the bytes on the other side of so many bytes.
    fn beside(&self, size: usize, side: Side) -> *mut u8 {
        let offset = if side == Side::Before { size } else { self.length - size - BESIDE };
        // SAFETY: the offset is within the region.
        unsafe { self.start.add(offset) }
    }

    /// Copies values to their place, fills the bytes on the other side, and gives the values there to be read and written.
    pub fn put<T: Copy>(&mut self, values: &[T], side: Side) -> &mut [T] {
        let size = size_of_val(values);
        self.protect(READ_WRITE);
        let place = self.place(size, side).cast::<T>();
        // SAFETY: the place is aligned, as pages and the sizes of values are; the region has room for the values and the bytes beside them.
        unsafe {
            self.beside(size, side).write_bytes(FILL, BESIDE);
            std::ptr::copy_nonoverlapping(values.as_ptr(), place, values.len());
            std::slice::from_raw_parts_mut(place, values.len())
        }
    }

    /// Puts values and makes the pages read-only: a write to any byte of them ends the program.
    pub fn put_read_only<T: Copy>(&mut self, values: &[T], side: Side) -> &[T] {
        let (place, count) = (self.put(values, side).as_ptr(), values.len());
        self.protect(READ);
        // SAFETY: the values were just put there.
        unsafe { std::slice::from_raw_parts(place, count) }
    }

    /// Tells whether the bytes on the other side of so many bytes are as they were.
    fn is_kept(&self, size: usize, side: Side) -> bool {
        // SAFETY: these bytes are within the region, and nothing of it is lent any more.
        let beside = unsafe { std::slice::from_raw_parts(self.beside(size, side), BESIDE) };
        beside.iter().all(|&byte| byte == FILL)
    }
}

/// Lends each slice in pages of its own, right beside an inaccessible page; what is only read, in read-only pages.
pub struct Guarded {
    side: Side,
    read: [Region; 4],
    written: [Region; 4],
    outs: [Region; 6],
    sizes: Vec<usize>,
}

impl Guarded {
    /// Maps the pages.
    pub fn new(side: Side) -> Guarded {
        Guarded {
            side,
            read: [(); 4].map(|()| Region::new(1 << 17)),
            written: [1 << 19, 1 << 14, 1 << 14, 1 << 14].map(Region::new),
            outs: [(); 6].map(|()| Region::new(1)),
            sizes: Vec::new(),
        }
    }

    /// Tells whether the call that was lent to last has left the bytes on the other side of each slice that it may write as they were.
    pub fn is_kept(&self) -> bool {
        let regions = self.written.iter().chain(&self.outs);
        regions.zip(&self.sizes).all(|(region, &size)| region.is_kept(size, self.side))
    }
}

impl Lender for Guarded {
    fn lend<'a>(&'a mut self, call: &'a Call) -> Lent<'a> {
        let side = self.side;
        let (number_words, remainder_words) = words_for(call);
        let written = [call.buffer.len(), size_of_val(&number_words[..]), size_of_val(&remainder_words[..]), size_of_val(&call.places[..])];
        self.sizes = [&written[..], &[size_of::<u64>(); 6]].concat();
        let [first, second, numbers, elements] = &mut self.read;
        let [buffer, to_numbers, to_remainders, places] = &mut self.written;
        let [size0, size1, size2, size3, number, word] = &mut self.outs;
        let size = |region: &'a mut Region| &mut region.put(&[UNTOUCHED as usize], side)[0];
        Lent {
            first: first.put_read_only(&call.first, side),
            second: second.put_read_only(&call.second, side),
            numbers: numbers.put_read_only(&call.numbers, side),
            elements: elements.put_read_only(&call.elements, side),
            buffer: buffer.put(&call.buffer, side),
            number_words: to_numbers.put(&number_words, side),
            remainder_words: to_remainders.put(&remainder_words, side),
            places: places.put(&call.places, side),
            sizes: [size(size0), size(size1), size(size2), size(size3)],
            number: &mut number.put(&[Number::from_word(UNTOUCHED)], side)[0],
            word: &mut word.put(&[UNTOUCHED], side)[0],
        }
    }
}

/// A slice of its own in the heap, of which only the first values are initialised.
struct Block<T>(Box<[MaybeUninit<T>]>);

impl<T: Copy> Block<T> {
    /// Makes a block of so many values, the first of them copied.
    fn new(first: &[T], count: usize) -> Block<T> {
        let mut block = Box::new_uninit_slice(count);
        for (place, value) in block.iter_mut().zip(first) {
            place.write(*value);
        }
        Block(block)
    }

    /// Gives the block's values, of which some may not be initialised.
    fn values(&mut self) -> &mut [T] {
        // SAFETY: values that are not initialised are only written by the call; the program reads what the call says that it has written.
        // A tool that tells where a value that is not initialised decides something sees whether that holds.
        unsafe { std::slice::from_raw_parts_mut(self.0.as_mut_ptr().cast(), self.0.len()) }
    }
}

/// Lends each slice in a block of its own in the heap; what the call may only write is not initialised.
pub struct Uninitialised {
    first: Block<u8>,
    second: Block<u8>,
    numbers: Block<Number>,
    elements: Block<Element>,
    buffer: Block<u8>,
    number_words: Block<Number>,
    remainder_words: Block<Remainder>,
    places: Block<usize>,
    sizes: [Block<usize>; 4],
    number: Block<Number>,
    word: Block<u64>,
}

impl Uninitialised {
    /// Makes the blocks for a call.
    pub fn new(call: &Call) -> Uninitialised {
        let (number_words, remainder_words) = words_for(call);
        Uninitialised {
            first: Block::new(&call.first, call.first.len()),
            second: Block::new(&call.second, call.second.len()),
            numbers: Block::new(&call.numbers, call.numbers.len()),
            elements: Block::new(&call.elements, call.elements.len()),
            buffer: Block::new(&call.buffer[..call.filled], call.buffer.len()),
            number_words: Block::new(&[], number_words.len()),
            remainder_words: Block::new(&[], remainder_words.len()),
            places: Block::new(&[], call.places.len()),
            sizes: [(); 4].map(|()| Block::new(&[], 1)),
            number: Block::new(&[], 1),
            word: Block::new(&[], 1),
        }
    }

    /// Lends the blocks.
    pub fn lend(&mut self) -> Lent<'_> {
        let [size0, size1, size2, size3] = &mut self.sizes;
        Lent {
            first: self.first.values(),
            second: self.second.values(),
            numbers: self.numbers.values(),
            elements: self.elements.values(),
            buffer: self.buffer.values(),
            number_words: self.number_words.values(),
            remainder_words: self.remainder_words.values(),
            places: self.places.values(),
            sizes: [&mut size0.values()[0], &mut size1.values()[0], &mut size2.values()[0], &mut size3.values()[0]],
            number: &mut self.number.values()[0],
            word: &mut self.word.values()[0],
        }
    }
}

/// The names of the calls that are wrong on purpose, by one byte or by a page that can't be written.
pub const WRONG_CALLS: [&str; 6] =
    ["read behind", "read before", "write behind", "write before", "write what is read-only", "answer to what is read-only"];

/// The names of two calls with a slice in the heap that are wrong on purpose, which only a tool that watches the heap can tell.
pub const WRONG_IN_THE_HEAP: [&str; 2] = ["read behind in the heap", "read what is not initialised"];

/// The name of the calls that these differ from.
pub const RIGHT_CALLS: &str = "right";

/// Makes the wrong call with a name, or the right calls; gives false for any other name.
pub fn make_wrong(name: &str) -> bool {
    let named = WRONG_CALLS.contains(&name) || WRONG_IN_THE_HEAP.contains(&name) || name == RIGHT_CALLS;
    if named {
        wrong_call(name);
    }
    named
}

/// Makes the wrong call with a name, or the right calls.
fn wrong_call(name: &str) {
    let mut region = Region::new(1);
    let (text, contents) = (b"1234", b"\x01\x02##");
    let mut size = 0;
    // SAFETY: none; the calls but for those of `right` are wrong, and are to end the program.
    unsafe {
        let mut write = |buffer: *mut u8| hulgyevan_write_contents(contents.as_ptr(), 4, buffer, 4, &mut size);
        let answer = match name {
            "read behind" => hulgyevan_legal_length(region.put(text, Side::Behind).as_ptr(), 5) as u64,
            "read before" => hulgyevan_legal_length(region.put(text, Side::Before).as_ptr().sub(1), 5) as u64,
            "write behind" => write(region.put(&text[..3], Side::Behind).as_mut_ptr()),
            "write before" => write(region.put(&text[..3], Side::Before).as_mut_ptr().sub(1)),
            "write what is read-only" => write(region.put_read_only(text, Side::Behind).as_ptr().cast_mut()),
            "answer to what is read-only" => hulgyevan_forecast(80, 3, region.put_read_only(&[0usize], Side::Behind).as_ptr().cast_mut()),
            "read behind in the heap" => hulgyevan_legal_length(Block::new(text, 4).values().as_ptr(), 5) as u64,
            "read what is not initialised" => hulgyevan_legal_length(Block::new(&text[..3], 4).values().as_ptr(), 4) as u64,
            _ => {
                let mut answer = 0;
                for side in [Side::Before, Side::Behind] {
                    answer += hulgyevan_legal_length(region.put(text, side).as_ptr(), 4) as u64;
                    answer += write(region.put(text, side).as_mut_ptr());
                    answer += hulgyevan_forecast(80, 3, region.put(&[0usize], side).as_mut_ptr());
                }
                answer + hulgyevan_legal_length(Block::new(text, 4).values().as_ptr(), 4) as u64
            }
        };
        println!("{name}: {answer}");
    }
}
