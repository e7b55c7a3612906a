//! The calls of the library as `include/hulgyevan.h` has them, with slices in the place of pointers and lengths, and references in the place of
//! out-pointers. What a call answers is its answer word: 0 for done, else place × 256 + number. The calls of the crate's root stand on these,
//! and say the same in types; this is the only module with `unsafe`.
//!
//! Each call is safe for any values: a shared slice and a mutable one never overlap in Rust, and the library asks for nothing else.

use crate::{Element, Number, Remainder};

mod library {
    use super::{Element, Number, Remainder};

    extern "C" {
        pub fn hulgyevan_from_parts(negative: bool, mantissa: u64, exponent: i64, number: *mut Number) -> u64;
        pub fn hulgyevan_from_steps(negative: bool, steps: u64, number: *mut Number) -> u64;
        pub fn hulgyevan_compare(first: Number, second: Number, order: *mut u64) -> u64;
        pub fn hulgyevan_read_contents(contents: *const u8, contents_length: usize, columns: *mut usize, body: *mut usize) -> u64;
        pub fn hulgyevan_read_file(
            file: *const u8,
            file_length: usize,
            columns: *mut usize,
            contents_size: *mut usize,
            body: *mut usize,
            records: *mut usize,
        ) -> u64;
        pub fn hulgyevan_pack(
            contents: *const u8,
            contents_length: usize,
            numbers: *const Number,
            count: usize,
            buffer: *mut u8,
            room: usize,
            size: *mut usize,
        ) -> u64;
        pub fn hulgyevan_pack_with_remainders(
            contents: *const u8,
            contents_length: usize,
            numbers: *const Number,
            count: usize,
            buffer: *mut u8,
            room: usize,
            remainders: *mut Remainder,
            remainders_room: usize,
            size: *mut usize,
        ) -> u64;
        pub fn hulgyevan_unpack(
            contents: *const u8,
            contents_length: usize,
            body: *const u8,
            body_length: usize,
            numbers: *mut Number,
            room: usize,
            count: *mut usize,
        ) -> u64;
        pub fn hulgyevan_alpha(
            image: *const u8,
            image_length: usize,
            number: Number,
            buffer: *mut u8,
            room: usize,
            size: *mut usize,
        ) -> u64;
        pub fn hulgyevan_legal_length(text: *const u8, length: usize) -> usize;
        pub fn hulgyevan_read_text_number(text: *const u8, length: usize, number: *mut Number, used: *mut usize) -> u64;
        pub fn hulgyevan_convert(text: *const u8, length: usize, number: *mut Number) -> u64;
        pub fn hulgyevan_read_text_numbers(
            text: *const u8,
            length: usize,
            from: usize,
            numbers: *mut Number,
            room: usize,
            count: *mut usize,
            place: *mut usize,
            stop: *mut u64,
        ) -> u64;
        pub fn hulgyevan_scan(line: *const u8, length: usize, at: usize) -> usize;
        pub fn hulgyevan_print(
            line: *const u8,
            length: usize,
            elements: *const Element,
            count: usize,
            texts: *const u8,
            texts_length: usize,
            buffer: *mut u8,
            room: usize,
            size: *mut usize,
            spilled: *mut usize,
        ) -> u64;
        pub fn hulgyevan_forecast(length: usize, count: usize, size: *mut usize) -> u64;
        pub fn hulgyevan_read_field(field: *const u8, length: usize, number: *mut Number) -> u64;
        pub fn hulgyevan_write_contents(contents: *const u8, contents_length: usize, buffer: *mut u8, room: usize, used: *mut usize)
            -> u64;
        pub fn hulgyevan_add(used: usize, numbers: *const Number, count: usize, buffer: *mut u8, room: usize, new_used: *mut usize) -> u64;
        pub fn hulgyevan_reserve(buffer: *const u8, room: usize, used: usize, start: *mut usize, size: *mut usize) -> u64;
        pub fn hulgyevan_write_reserved(
            used: usize,
            start: usize,
            size: usize,
            numbers: *const Number,
            count: usize,
            buffer: *mut u8,
            room: usize,
            new_used: *mut usize,
        ) -> u64;
        pub fn hulgyevan_show(file: *const u8, file_length: usize, index: usize, start: *mut usize, size: *mut usize) -> u64;
        pub fn hulgyevan_list(file: *const u8, file_length: usize, buffer: *mut u8, room: usize, size: *mut usize) -> u64;
        pub fn hulgyevan_enter(
            contents: *const u8,
            contents_length: usize,
            text: *const u8,
            text_length: usize,
            buffer: *mut u8,
            room: usize,
            size: *mut usize,
            line: *mut usize,
        ) -> u64;
        pub fn hulgyevan_whole_length(file: *const u8, file_length: usize, whole: *mut usize, behind: *mut usize) -> u64;
        pub fn hulgyevan_find(
            file: *const u8,
            file_length: usize,
            positions: *const Number,
            count: usize,
            records: *mut usize,
            room: usize,
            comparisons: *mut usize,
        ) -> u64;
        pub fn hulgyevan_merge(
            first: *const u8,
            first_length: usize,
            second: *const u8,
            second_length: usize,
            buffer: *mut u8,
            room: usize,
            size: *mut usize,
        ) -> u64;
    }
}

/// Makes a number of a sign, a mantissa and an exponent.
pub fn from_parts(negative: bool, mantissa: u64, exponent: i64, number: &mut Number) -> u64 {
    // SAFETY: the reference is memory for a word, lent for the call.
    unsafe { library::hulgyevan_from_parts(negative, mantissa, exponent, number) }
}

/// Makes a number of a sign and a count of wheel steps.
pub fn from_steps(negative: bool, steps: u64, number: &mut Number) -> u64 {
    // SAFETY: the reference is memory for a word, lent for the call.
    unsafe { library::hulgyevan_from_steps(negative, steps, number) }
}

/// Compares two numbers by value: the order is 0, 1 or 2.
pub fn compare(first: Number, second: Number, order: &mut u64) -> u64 {
    // SAFETY: the reference is memory for a word, lent for the call.
    unsafe { library::hulgyevan_compare(first, second, order) }
}

/// Reads a contents that is lent alone.
pub fn read_contents(contents: &[u8], columns: &mut usize, body: &mut usize) -> u64 {
    // SAFETY: the slice and the references are lent for the call, and what is written overlaps with nothing.
    unsafe { library::hulgyevan_read_contents(contents.as_ptr(), contents.len(), columns, body) }
}

/// Reads a record file without its halves.
pub fn read_file(file: &[u8], columns: &mut usize, contents_size: &mut usize, body: &mut usize, records: &mut usize) -> u64 {
    // SAFETY: the slice and the references are lent for the call, and what is written overlaps with nothing.
    unsafe { library::hulgyevan_read_file(file.as_ptr(), file.len(), columns, contents_size, body, records) }
}

/// Packs a list of numbers as a body.
pub fn pack(contents: &[u8], numbers: &[Number], buffer: &mut [u8], size: &mut usize) -> u64 {
    let (front, count, room) = (contents.len(), numbers.len(), buffer.len());
    // SAFETY: the slices and the reference are lent for the call, and what is written overlaps with nothing.
    unsafe { library::hulgyevan_pack(contents.as_ptr(), front, numbers.as_ptr(), count, buffer.as_mut_ptr(), room, size) }
}

/// Packs a list of numbers as a body, and gives what each image cut off.
pub fn pack_with_remainders(contents: &[u8], numbers: &[Number], buffer: &mut [u8], remainders: &mut [Remainder], size: &mut usize) -> u64 {
    // SAFETY: the slices and the reference are lent for the call, and what is written overlaps with nothing.
    unsafe {
        library::hulgyevan_pack_with_remainders(
            contents.as_ptr(),
            contents.len(),
            numbers.as_ptr(),
            numbers.len(),
            buffer.as_mut_ptr(),
            buffer.len(),
            remainders.as_mut_ptr(),
            remainders.len(),
            size,
        )
    }
}

/// Reads a body back.
pub fn unpack(contents: &[u8], body: &[u8], numbers: &mut [Number], count: &mut usize) -> u64 {
    let (front, length, room) = (contents.len(), body.len(), numbers.len());
    // SAFETY: the slices and the reference are lent for the call, and what is written overlaps with nothing.
    unsafe { library::hulgyevan_unpack(contents.as_ptr(), front, body.as_ptr(), length, numbers.as_mut_ptr(), room, count) }
}

/// Writes a number as alpha text under an image.
pub fn alpha(image: &[u8], number: Number, buffer: &mut [u8], size: &mut usize) -> u64 {
    // SAFETY: the slices and the reference are lent for the call, and what is written overlaps with nothing.
    unsafe { library::hulgyevan_alpha(image.as_ptr(), image.len(), number, buffer.as_mut_ptr(), buffer.len(), size) }
}

/// Gives the legal length of a text. Never refused.
pub fn legal_length(text: &[u8]) -> usize {
    // SAFETY: the slice is lent for the call.
    unsafe { library::hulgyevan_legal_length(text.as_ptr(), text.len()) }
}

/// Reads the longest beginning of a text that is a text number.
pub fn read_text_number(text: &[u8], number: &mut Number, used: &mut usize) -> u64 {
    // SAFETY: the slice and the references are lent for the call, and what is written overlaps with nothing.
    unsafe { library::hulgyevan_read_text_number(text.as_ptr(), text.len(), number, used) }
}

/// Converts the whole of a text.
pub fn convert(text: &[u8], number: &mut Number) -> u64 {
    // SAFETY: the slice and the reference are lent for the call, and what is written overlaps with nothing.
    unsafe { library::hulgyevan_convert(text.as_ptr(), text.len(), number) }
}

/// Reads the text numbers that stand one behind the other in a text.
pub fn read_text_numbers(text: &[u8], from: usize, numbers: &mut [Number], count: &mut usize, place: &mut usize, stop: &mut u64) -> u64 {
    let (length, room) = (text.len(), numbers.len());
    // SAFETY: the slices and the references are lent for the call, and what is written overlaps with nothing.
    unsafe { library::hulgyevan_read_text_numbers(text.as_ptr(), length, from, numbers.as_mut_ptr(), room, count, place, stop) }
}

/// Gives the length of the longest field that starts at a byte of a line. Never refused.
pub fn scan(line: &[u8], at: usize) -> usize {
    // SAFETY: the slice is lent for the call.
    unsafe { library::hulgyevan_scan(line.as_ptr(), line.len(), at) }
}

/// Prints elements into the fields of a line.
pub fn print(line: &[u8], elements: &[Element], texts: &[u8], buffer: &mut [u8], size: &mut usize, spilled: &mut usize) -> u64 {
    // SAFETY: the slices and the references are lent for the call, and what is written overlaps with nothing.
    unsafe {
        library::hulgyevan_print(
            line.as_ptr(),
            line.len(),
            elements.as_ptr(),
            elements.len(),
            texts.as_ptr(),
            texts.len(),
            buffer.as_mut_ptr(),
            buffer.len(),
            size,
            spilled,
        )
    }
}

/// Gives how many bytes printing writes at most.
pub fn forecast(length: usize, count: usize, size: &mut usize) -> u64 {
    // SAFETY: the reference is memory for a size, lent for the call.
    unsafe { library::hulgyevan_forecast(length, count, size) }
}

/// Reads a print field back.
pub fn read_field(field: &[u8], number: &mut Number) -> u64 {
    // SAFETY: the slice and the reference are lent for the call, and what is written overlaps with nothing.
    unsafe { library::hulgyevan_read_field(field.as_ptr(), field.len(), number) }
}

/// Writes a contents into a buffer.
pub fn write_contents(contents: &[u8], buffer: &mut [u8], used: &mut usize) -> u64 {
    // SAFETY: the slices and the reference are lent for the call, and what is written overlaps with nothing.
    unsafe { library::hulgyevan_write_contents(contents.as_ptr(), contents.len(), buffer.as_mut_ptr(), buffer.len(), used) }
}

/// Adds a record to the file in the first bytes of a buffer.
pub fn add(used: usize, numbers: &[Number], buffer: &mut [u8], new_used: &mut usize) -> u64 {
    let (count, room) = (numbers.len(), buffer.len());
    // SAFETY: the slices and the reference are lent for the call, and what is written overlaps with nothing.
    unsafe { library::hulgyevan_add(used, numbers.as_ptr(), count, buffer.as_mut_ptr(), room, new_used) }
}

/// Tells where the next body would go, and its size.
pub fn reserve(buffer: &[u8], used: usize, start: &mut usize, size: &mut usize) -> u64 {
    // SAFETY: the slice and the references are lent for the call, and what is written overlaps with nothing.
    unsafe { library::hulgyevan_reserve(buffer.as_ptr(), buffer.len(), used, start, size) }
}

/// Adds a record at a place that was reserved.
pub fn write_reserved(used: usize, start: usize, size: usize, numbers: &[Number], buffer: &mut [u8], new_used: &mut usize) -> u64 {
    let (count, room) = (numbers.len(), buffer.len());
    // SAFETY: the slices and the reference are lent for the call, and what is written overlaps with nothing.
    unsafe { library::hulgyevan_write_reserved(used, start, size, numbers.as_ptr(), count, buffer.as_mut_ptr(), room, new_used) }
}

/// Shows where a record's body starts, and its size.
pub fn show(file: &[u8], index: usize, start: &mut usize, size: &mut usize) -> u64 {
    // SAFETY: the slice and the references are lent for the call, and what is written overlaps with nothing.
    unsafe { library::hulgyevan_show(file.as_ptr(), file.len(), index, start, size) }
}

/// Lists a file as text.
pub fn list(file: &[u8], buffer: &mut [u8], size: &mut usize) -> u64 {
    // SAFETY: the slices and the reference are lent for the call, and what is written overlaps with nothing.
    unsafe { library::hulgyevan_list(file.as_ptr(), file.len(), buffer.as_mut_ptr(), buffer.len(), size) }
}

/// Makes a record file of a text of lines.
pub fn enter(contents: &[u8], text: &[u8], buffer: &mut [u8], size: &mut usize, line: &mut usize) -> u64 {
    let (front, length, room) = (contents.len(), text.len(), buffer.len());
    // SAFETY: the slices and the references are lent for the call, and what is written overlaps with nothing.
    unsafe { library::hulgyevan_enter(contents.as_ptr(), front, text.as_ptr(), length, buffer.as_mut_ptr(), room, size, line) }
}

/// Gives the longest used length of a file whose bodies are whole, and the count of bytes behind it.
pub fn whole_length(file: &[u8], whole: &mut usize, behind: &mut usize) -> u64 {
    // SAFETY: the slice and the references are lent for the call, and what is written overlaps with nothing.
    unsafe { library::hulgyevan_whole_length(file.as_ptr(), file.len(), whole, behind) }
}

/// Finds positions in a file: a record number for each.
pub fn find(file: &[u8], positions: &[Number], records: &mut [usize], comparisons: &mut usize) -> u64 {
    let (length, count, room) = (file.len(), positions.len(), records.len());
    // SAFETY: the slices and the reference are lent for the call, and what is written overlaps with nothing.
    unsafe { library::hulgyevan_find(file.as_ptr(), length, positions.as_ptr(), count, records.as_mut_ptr(), room, comparisons) }
}

/// Merges two files into a buffer.
pub fn merge(first: &[u8], second: &[u8], buffer: &mut [u8], size: &mut usize) -> u64 {
    let (one, two, room) = (first.len(), second.len(), buffer.len());
    // SAFETY: the slices and the reference are lent for the call, and what is written overlaps with nothing.
    unsafe { library::hulgyevan_merge(first.as_ptr(), one, second.as_ptr(), two, buffer.as_mut_ptr(), room, size) }
}
