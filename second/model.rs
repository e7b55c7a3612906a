//! Documents 01 and 02 as plain functions on slices: a second implementation, written from the documents alone, but for `compare`,
//! `next_number_place` and `read_text_numbers`, which they do not have, and for `enter` and `whole_length`, which have rules of their own.
//! Each program that includes this file uses only some of the functions.
#![allow(dead_code)]

/// A refusal: the number of the document's table, and the place.
#[derive(Clone, Copy, Debug, PartialEq, Eq)]
pub struct Refusal {
    pub number: u8,
    pub place: usize,
}

/// A number as the document has it. A caller may hand over one that is not in normal form.
#[derive(Clone, Copy, Debug, PartialEq, Eq)]
pub struct Number {
    pub negative: bool,
    pub m: u128,
    pub e: i128,
}

/// An image: its sign byte, the # before and after the point, and whether it is exponential.
#[derive(Clone, Copy, Debug, PartialEq, Eq)]
pub struct Image {
    pub sign: Option<u8>,
    pub whole: usize,
    pub fraction: usize,
    pub exponential: bool,
}

/// A truncated number: n digits, the sign that is kept, and the stored exponent (0 in fixed point).
#[derive(Clone, Debug, PartialEq, Eq)]
pub struct Truncated {
    pub negative: bool,
    pub digits: Vec<u8>,
    pub x: i128,
}

/// What truncation cut off a number: r * 10^power.
#[derive(Clone, Copy, Debug, PartialEq, Eq)]
pub struct Remainder {
    pub r: u128,
    pub power: i128,
}

/// An element of a print call. A text is a part of the lent bytes.
#[derive(Clone, Copy, Debug, PartialEq, Eq)]
pub enum Element {
    Number(Number),
    Text { start: u128, length: u128 },
}

/// A field of a line: where it stands, how long it is, and the image it gives without its commas.
#[derive(Clone, Copy, Debug, PartialEq, Eq)]
pub struct Field {
    pub start: usize,
    pub length: usize,
    pub image: Image,
}

/// What a print call answers.
#[derive(Clone, Debug, PartialEq, Eq)]
pub struct Printed {
    pub bytes: Vec<u8>,
    pub spilled: usize,
}

pub const LOWEST_MANTISSA: u128 = 1_000_000_000_000;
pub const HIGHEST_MANTISSA: u128 = 9_999_999_999_999;
pub const PRECISION: usize = 13;
pub const MAX_COLUMNS: usize = 16;
pub const MAX_ELEMENTS: usize = 64;
pub const MAX_LINE: usize = 4096;
pub const MAX_POSITIONS: usize = 64;

/// Makes a refused answer.
pub fn refuse<T>(number: u8, place: usize) -> Result<T, Refusal> {
    Err(Refusal { number, place })
}

// ---- Numbers ----

impl Number {
    pub const ZERO: Number = Number { negative: false, m: 0, e: 0 };
    pub const LARGEST: Number = Number { negative: false, m: HIGHEST_MANTISSA, e: 99 };

    /// Tells whether the number is in normal form.
    pub fn is_normal(&self) -> bool {
        let mantissa_fits = self.m >= LOWEST_MANTISSA && self.m <= HIGHEST_MANTISSA;
        *self == Number::ZERO || (mantissa_fits && in_limits(self.e))
    }
}

/// Tells whether an exponent is from -99 to 99.
fn in_limits(exponent: i128) -> bool {
    (-99..=99).contains(&exponent)
}

/// Refuses a number that is not in normal form.
fn require_normal(number: &Number, place: usize) -> Result<(), Refusal> {
    if number.is_normal() { Ok(()) } else { refuse(3, place) }
}

/// Gives whole * 10^scale, for a whole of at most 13 digits, in normal form or nothing if e is outside its limits.
pub fn scaled(negative: bool, whole: u128, scale: i128) -> Option<Number> {
    if whole == 0 {
        return Some(Number::ZERO);
    }
    let (mut m, mut e) = (whole, scale + 12);
    while m < LOWEST_MANTISSA {
        m *= 10;
        e -= 1;
    }
    Some(Number { negative, m, e }).filter(Number::is_normal)
}

/// Gives the whole number that a row of digits stands for.
fn whole_of(digits: &[u8]) -> u128 {
    digits.iter().fold(0, |whole, &digit| whole * 10 + u128::from(digit))
}

/// Gives the last `count` digits of a whole number, leading zeros too.
fn digits_of(whole: u128, count: usize) -> Vec<u8> {
    (0..count as u32).rev().map(|power| (whole / 10u128.pow(power) % 10) as u8).collect()
}

/// Gives how a normal number stands to another by value, or refuses with 3 and 0 for the first, 1 for the second.
pub fn compare(first: &Number, second: &Number) -> Result<std::cmp::Ordering, Refusal> {
    require_normal(first, 0)?;
    require_normal(second, 1)?;
    // Zero, then of two nonzero normal numbers the one with the larger exponent, then the one with the larger mantissa is farther out.
    let value = |number: &Number| {
        let sign = if number.negative { -1 } else { 1 };
        let size = if number.m == 0 { 0 } else { (number.e + 100) * 10i128.pow(14) + number.m as i128 };
        sign * size
    };
    Ok(value(first).cmp(&value(second)))
}

// ---- Images ----

impl Image {
    /// Gives the count of digits.
    pub fn n(&self) -> usize {
        self.whole + self.fraction
    }

    /// Gives the length of the image's column in bytes.
    pub fn column_length(&self) -> usize {
        let sign = usize::from(self.sign.is_some());
        let exponent = if self.exponential { 2 } else { 0 };
        (sign + self.n() + exponent).div_ceil(2)
    }
}

/// Tells whether bytes are one or more # and nothing else.
fn only_marks(bytes: &[u8]) -> bool {
    !bytes.is_empty() && bytes.iter().all(|&byte| byte == b'#')
}

/// Takes a + or - off the beginning.
fn split_sign(bytes: &[u8]) -> (Option<u8>, &[u8]) {
    match bytes {
        [sign @ (b'+' | b'-'), rest @ ..] => (Some(*sign), rest),
        _ => (None, bytes),
    }
}

/// Parts bytes at the first point, if there is one.
fn split_point(bytes: &[u8]) -> (&[u8], Option<&[u8]>) {
    match bytes.iter().position(|&byte| byte == b'.') {
        Some(place) => (&bytes[..place], Some(&bytes[place + 1..])),
        None => (bytes, None),
    }
}

/// Tells whether the bytes before the point are rows of # parted by single commas.
fn marks_with_commas(bytes: &[u8]) -> bool {
    bytes.split(|&byte| byte == b',').all(only_marks)
}

/// Reads all of the bytes as an image of any n, with commas as in a line if `commas` is set.
pub fn image_form(bytes: &[u8], commas: bool) -> Option<Image> {
    let (sign, rest) = split_sign(bytes);
    let marks = rest.strip_suffix(b"^^^^").unwrap_or(rest);
    let exponential = marks.len() < rest.len();
    let (before, after) = split_point(marks);
    let before_fits = match after {
        Some(_) if before.is_empty() => true,
        _ if commas && !exponential => marks_with_commas(before),
        _ => only_marks(before),
    };
    if !before_fits || !after.is_none_or(only_marks) {
        return None;
    }
    let whole = before.iter().filter(|&&byte| byte == b'#').count();
    Some(Image { sign, whole, fraction: after.map_or(0, <[u8]>::len), exponential })
}

/// Reads an image at a place, or refuses with 1 or 2.
pub fn read_image(bytes: &[u8], place: usize) -> Result<Image, Refusal> {
    match image_form(bytes, false) {
        None => refuse(1, place),
        Some(image) if image.n() > PRECISION => refuse(2, place),
        Some(image) => Ok(image),
    }
}

/// Gives the whole part of magnitude * 10^f, or nothing if it has far more than 13 digits.
fn whole_part(number: &Number, f: usize) -> Option<u128> {
    let shift = number.e - 12 + f as i128;
    match shift {
        _ if number.m == 0 => Some(0),
        0..=13 => Some(number.m * 10u128.pow(shift as u32)),
        -13..=-1 => Some(number.m / 10u128.pow(-shift as u32)),
        _ if shift > 0 => None,
        _ => Some(0),
    }
}

/// Truncates a normal number under a fixed-point image, or refuses with 4.
fn truncate_fixed(image: &Image, number: &Number, place: usize) -> Result<Truncated, Refusal> {
    let limit = 10u128.pow(image.n() as u32);
    match whole_part(number, image.fraction) {
        Some(k) if k < limit => {
            let negative = number.negative && k > 0 && image.sign.is_some();
            Ok(Truncated { negative, digits: digits_of(k, image.n()), x: 0 })
        }
        _ => refuse(4, place),
    }
}

/// Truncates a normal number under an exponential image, or refuses with 5.
fn truncate_exponential(image: &Image, number: &Number, place: usize) -> Result<Truncated, Refusal> {
    let kept = number.m / 10u128.pow((PRECISION - image.n()) as u32);
    let x = if number.m == 0 { 0 } else { number.e - image.whole as i128 + 1 };
    if !in_limits(x) {
        return refuse(5, place);
    }
    let negative = number.negative && image.sign.is_some();
    Ok(Truncated { negative, digits: digits_of(kept, image.n()), x })
}

/// Truncates a normal number under an image with n of at most 13.
pub fn truncate(image: &Image, number: &Number, place: usize) -> Result<Truncated, Refusal> {
    if image.exponential {
        truncate_exponential(image, number, place)
    } else {
        truncate_fixed(image, number, place)
    }
}

/// Gives the number that a truncation stands for, or nothing if its e is outside the limits.
pub fn number_of(image: &Image, truncated: &Truncated) -> Option<Number> {
    let scale = truncated.x - image.fraction as i128;
    scaled(truncated.negative, whole_of(&truncated.digits), scale)
}

/// Gives what a truncation cut off its number: truncated magnitude plus r * 10^(e - 12) is the magnitude.
pub fn remainder(image: &Image, number: &Number, truncated: &Truncated) -> Remainder {
    let power = if number.m == 0 { 0 } else { number.e - 12 };
    // The truncated magnitude k * 10^(x - f), counted in units of 10^power.
    let kept = match whole_of(&truncated.digits) {
        0 => 0,
        k => k * 10u128.pow((truncated.x - image.fraction as i128 - power) as u32),
    };
    Remainder { r: number.m - kept, power }
}

// ---- Contents ----

/// Reads one column from the beginning of the bytes: its image, and the bytes behind it.
fn read_column(bytes: &[u8], column: usize) -> Result<(Image, &[u8]), Refusal> {
    let Some((&length, rest)) = bytes.split_first() else { return refuse(11, 0) };
    if rest.len() < usize::from(length) {
        return refuse(11, 0);
    }
    let (image, rest) = rest.split_at(usize::from(length));
    Ok((read_image(image, column)?, rest))
}

/// Reads the contents at the beginning of a file: its images, and the bytes behind it.
pub fn read_contents_front(file: &[u8]) -> Result<(Vec<Image>, &[u8]), Refusal> {
    let Some((&count, mut rest)) = file.split_first() else { return refuse(11, 0) };
    if count == 0 || usize::from(count) > MAX_COLUMNS {
        return refuse(10, 0);
    }
    let mut images = Vec::new();
    for column in 0..usize::from(count) {
        let (image, behind) = read_column(rest, column)?;
        images.push(image);
        rest = behind;
    }
    Ok((images, rest))
}

/// Reads a contents that is lent alone: nothing may stand behind it.
pub fn read_contents(bytes: &[u8]) -> Result<Vec<Image>, Refusal> {
    match read_contents_front(bytes)? {
        (images, []) => Ok(images),
        _ => refuse(11, 0),
    }
}

/// Gives the length of a body under a contents.
pub fn body_length(images: &[Image]) -> usize {
    images.iter().map(Image::column_length).sum()
}

/// Refuses with 6 an answer that is longer than the room.
fn fit<T: AsRef<[u8]>>(answer: T, room: usize) -> Result<T, Refusal> {
    if answer.as_ref().len() > room { refuse(6, 0) } else { Ok(answer) }
}

// ---- Packed bodies ----

/// Gives the worth of a packed byte, 255 where a half is above 9.
pub fn worth(byte: u8) -> u8 {
    let (high, low) = (byte / 16, byte % 16);
    if high > 9 || low > 9 { 255 } else { 10 * high + low }
}

/// Gives the bytes of a column that holds a truncated number.
fn column_bytes(image: &Image, truncated: &Truncated) -> Vec<u8> {
    let mut halves = Vec::new();
    if image.sign.is_some() {
        halves.push(u8::from(truncated.negative) + 8 * u8::from(truncated.x < 0));
    }
    halves.extend(&truncated.digits);
    if image.exponential {
        halves.extend(digits_of(truncated.x.unsigned_abs(), 2));
    }
    halves.chunks(2).map(|pair| pair[0] * 16 + pair.get(1).unwrap_or(&0)).collect()
}

/// Packs one number as a column.
pub fn pack_column(image: &Image, number: &Number, column: usize) -> Result<Vec<u8>, Refusal> {
    require_normal(number, column)?;
    let truncated = truncate(image, number, column)?;
    if truncated.x < 0 && image.sign.is_none() {
        return refuse(5, column);
    }
    Ok(column_bytes(image, &truncated))
}

/// Packs a list as a body, whatever its length.
pub fn pack_list(images: &[Image], numbers: &[Number]) -> Result<Vec<u8>, Refusal> {
    if images.len() != numbers.len() {
        return refuse(10, 0);
    }
    let mut body = Vec::new();
    for (column, (image, number)) in images.iter().zip(numbers).enumerate() {
        body.extend(pack_column(image, number, column)?);
    }
    Ok(body)
}

/// The call that packs a list under a contents into a buffer.
pub fn pack(contents: &[u8], numbers: &[Number], room: usize) -> Result<Vec<u8>, Refusal> {
    let images = read_contents(contents)?;
    fit(pack_list(&images, numbers)?, room)
}

/// The call that packs a list under a contents into a buffer, and gives what truncation cut off each number.
pub fn pack_with_remainders(contents: &[u8], numbers: &[Number], room: usize) -> Result<(Vec<u8>, Vec<Remainder>), Refusal> {
    let body = pack(contents, numbers, room)?;
    let images = read_contents(contents)?;
    let cut = |(image, number): (&Image, &Number)| Ok(remainder(image, number, &truncate(image, number, 0)?));
    Ok((body, images.iter().zip(numbers).map(cut).collect::<Result<_, _>>()?))
}

/// Reads the sign, the digits and x out of a column whose halves are all at most 9.
fn column_parts(image: &Image, bytes: &[u8]) -> Truncated {
    let halves: Vec<u8> = bytes.iter().flat_map(|byte| [byte / 16, byte % 16]).collect();
    let (sign, rest) = halves.split_at(usize::from(image.sign.is_some()));
    let sign = sign.first().copied().unwrap_or(0);
    let (digits, rest) = rest.split_at(image.n());
    let size = if image.exponential { whole_of(&rest[..2]) as i128 } else { 0 };
    let x = if sign >= 8 { -size } else { size };
    Truncated { negative: sign % 8 == 1, digits: digits.to_vec(), x }
}

/// Reads a column back. It is accepted exactly when the number it seems to hold packs to the same bytes (demand 2).
pub fn unpack_column(image: &Image, bytes: &[u8], column: usize) -> Result<Number, Refusal> {
    if bytes.iter().any(|&byte| worth(byte) == 255) {
        return refuse(7, column);
    }
    match number_of(image, &column_parts(image, bytes)) {
        Some(number) if pack_column(image, &number, column).as_deref() == Ok(bytes) => Ok(number),
        _ => refuse(7, column),
    }
}

/// Reads back a body that has the right length.
pub fn unpack_body(images: &[Image], mut body: &[u8]) -> Result<Vec<Number>, Refusal> {
    let mut numbers = Vec::new();
    for (column, image) in images.iter().enumerate() {
        let (bytes, behind) = body.split_at(image.column_length());
        numbers.push(unpack_column(image, bytes, column)?);
        body = behind;
    }
    Ok(numbers)
}

/// The call that reads back a body under a contents.
pub fn unpack(contents: &[u8], body: &[u8]) -> Result<Vec<Number>, Refusal> {
    let images = read_contents(contents)?;
    if body.len() != body_length(&images) {
        return refuse(11, 0);
    }
    unpack_body(&images, body)
}

// ---- Alpha text ----

/// Gives the sign byte of a text, if the image has a sign.
fn sign_byte(image: &Image, negative: bool) -> Option<u8> {
    match (image.sign?, negative) {
        (_, true) => Some(b'-'),
        (b'+', false) => Some(b'+'),
        _ => Some(b' '),
    }
}

/// Gives the alpha text of a truncated number.
fn alpha_text(image: &Image, truncated: &Truncated) -> Vec<u8> {
    let mut text: Vec<u8> = truncated.digits.iter().map(|digit| b'0' + digit).collect();
    if image.fraction > 0 {
        text.insert(image.whole, b'.');
    }
    if let Some(sign) = sign_byte(image, truncated.negative) {
        text.insert(0, sign);
    }
    if image.exponential {
        let sign = if truncated.x < 0 { '-' } else { '+' };
        text.extend(format!("E{}{:02}", sign, truncated.x.abs()).bytes());
    }
    text
}

/// The call that writes a number as alpha text into a buffer.
pub fn alpha(image: &[u8], number: &Number, room: usize) -> Result<Vec<u8>, Refusal> {
    let image = read_image(image, 0)?;
    require_normal(number, 0)?;
    fit(alpha_text(&image, &truncate(&image, number, 0)?), room)
}

/// Drops the blanks that a text begins with.
fn without_leading_blanks(mut text: &[u8]) -> &[u8] {
    while let Some(rest) = text.strip_prefix(b" ") {
        text = rest;
    }
    text
}

/// Drops blanks at both ends.
fn without_outer_blanks(text: &[u8]) -> &[u8] {
    let mut text = without_leading_blanks(text);
    while let Some(rest) = text.strip_suffix(b" ") {
        text = rest;
    }
    text
}

/// Reads digits and nothing else.
fn plain_digits(bytes: &[u8]) -> Option<Vec<u8>> {
    bytes.iter().map(|byte| byte.is_ascii_digit().then(|| byte - b'0')).collect()
}

/// Reads what stands behind an E: an optional sign and one or two digits.
fn exponent_form(bytes: &[u8]) -> Option<i128> {
    let (sign, rest) = split_sign(bytes);
    let digits = plain_digits(rest).filter(|digits| (1..=2).contains(&digits.len()))?;
    let size = whole_of(&digits) as i128;
    Some(if sign == Some(b'-') { -size } else { size })
}

/// Reads all of a text that has the form of a text number: its sign, its digits as a whole number, and the power of ten. Blanks may stand
/// between the sign and the first digit or point (document 02, (v)).
pub fn text_form(text: &[u8]) -> Option<(bool, u128, i128)> {
    let (sign, rest) = split_sign(without_outer_blanks(text));
    let rest = if sign.is_some() { without_leading_blanks(rest) } else { rest };
    let (mantissa, exponent) = match rest.iter().position(|&byte| byte == b'E') {
        Some(place) => (&rest[..place], exponent_form(&rest[place + 1..])?),
        None => (rest, 0),
    };
    let (before, after) = split_point(mantissa);
    let after = after.unwrap_or(&[]);
    if !(1..=PRECISION).contains(&(before.len() + after.len())) {
        return None;
    }
    let digits = plain_digits(&[before, after].concat())?;
    Some((sign == Some(b'-'), whole_of(&digits), exponent - after.len() as i128))
}

/// The legal-length call: tries every beginning, the longest first.
pub fn legal_length(text: &[u8]) -> usize {
    (1..=text.len()).rev().find(|&length| text_form(&text[..length]).is_some()).unwrap_or(0)
}

/// The call that reads a text number (document 02, (i)): the longest legal beginning gives its number and how many bytes it used.
pub fn read_text_number(text: &[u8]) -> Result<(Number, usize), Refusal> {
    match legal_length(text) {
        0 => refuse(8, 0),
        used => convert(&text[..used]).map(|number| (number, used)),
    }
}

/// The call that converts the whole of a text.
pub fn convert(text: &[u8]) -> Result<Number, Refusal> {
    let Some((negative, whole, scale)) = text_form(text) else { return refuse(8, 0) };
    match scaled(negative, whole, scale) {
        Some(number) => Ok(number),
        None => refuse(5, 0),
    }
}

/// The call that reads back a print field: drops blanks and commas and converts what is left.
pub fn read_field(field: &[u8]) -> Result<Number, Refusal> {
    let left: Vec<u8> = field.iter().copied().filter(|byte| !b" ,".contains(byte)).collect();
    convert(&left)
}

// ---- Walking a text ----

/// Why reading the numbers of a text stops.
#[derive(Clone, Copy, Debug, PartialEq, Eq)]
pub enum Stop {
    End,
    NoNumber,
    TooMany,
    Refused(Refusal),
}

/// The numbers read, and where and why reading stopped.
#[derive(Clone, Debug, PartialEq, Eq)]
pub struct TextNumbers {
    pub stop: Stop,
    pub place: usize,
    pub numbers: Vec<Number>,
}

/// Gives the next place, from one on, where a text number begins: the text's end if there is none, a place past it as it is.
pub fn next_number_place(text: &[u8], from: usize) -> usize {
    (from..text.len()).find(|&place| legal_length(&text[place..]) > 0).unwrap_or(from.max(text.len()))
}

/// Reads the text numbers that stand one behind the other from a place on, at most 16.
pub fn read_text_numbers(text: &[u8], from: usize) -> TextNumbers {
    let (mut place, mut numbers) = (from, Vec::new());
    let stop = loop {
        let ahead = text.get(place..).unwrap_or(&[]);
        let used = legal_length(ahead);
        match (ahead.is_empty(), used, numbers.len()) {
            (true, _, _) => break Stop::End,
            (_, 0, _) => break Stop::NoNumber,
            (_, _, MAX_COLUMNS) => break Stop::TooMany,
            _ => {}
        }
        match convert(&ahead[..used]) {
            Ok(number) => numbers.push(number),
            Err(refusal) => break Stop::Refused(Refusal { number: refusal.number, place: numbers.len() }),
        }
        place += used;
    };
    TextNumbers { stop, place, numbers }
}

// ---- Print lines ----

/// Tells whether a byte can belong to a field that starts at the beginning, going by the bytes beside it alone.
fn may_belong(bytes: &[u8], place: usize) -> bool {
    let previous = place.checked_sub(1).map(|place| bytes[place]);
    let next = bytes.get(place + 1).copied();
    match bytes[place] {
        b'+' | b'-' => place == 0,
        b'#' => previous != Some(b'^'),
        b'.' => next == Some(b'#'),
        b',' => previous == Some(b'#') && next == Some(b'#'),
        b'^' => matches!(previous, Some(b'#' | b'^')),
        _ => false,
    }
}

/// Finds the longest field that starts at a byte, by trying every length, the longest first.
pub fn longest_field(line: &[u8], start: usize) -> Option<Field> {
    let rest = &line[start..];
    let run = (0..rest.len()).take_while(|&place| may_belong(rest, place)).count();
    (1..=run).rev().find_map(|length| {
        image_form(&rest[..length], true).map(|image| Field { start, length, image })
    })
}

/// Finds the fields of a line from the left.
pub fn fields_of(line: &[u8]) -> Vec<Field> {
    let mut fields = Vec::new();
    let mut place = 0;
    while place < line.len() {
        let field = longest_field(line, place);
        place += field.map_or(1, |field| field.length);
        fields.extend(field);
    }
    fields
}

/// Parts a line at its fields: one literal part before each field and one behind the last.
fn literal_parts<'a>(line: &'a [u8], fields: &[Field]) -> Vec<&'a [u8]> {
    let ends = fields.iter().map(|field| field.start).chain([line.len()]);
    let starts = [0].into_iter().chain(fields.iter().map(|field| field.start + field.length));
    starts.zip(ends).map(|(start, end)| &line[start..end]).collect()
}

/// Counts the zeros before the point that become blanks: the leading ones, but never the last digit there.
fn blanked_zeros(image: &Image, digits: &[u8]) -> usize {
    let leading = digits[..image.whole].iter().take_while(|&&digit| digit == 0).count();
    leading.min(image.whole.saturating_sub(1))
}

/// Prints a truncated number into a fixed-point field, byte for byte along the field's own bytes.
fn print_fixed(image: &Image, own: &[u8], truncated: &Truncated) -> Vec<u8> {
    let blanked = blanked_zeros(image, &truncated.digits);
    let marks_before = |place: usize| own[..place].iter().filter(|&&byte| byte == b'#').count();
    let print_byte = |(place, &byte): (usize, &u8)| match (byte, marks_before(place)) {
        (b'#', index) if index < blanked => b' ',
        (b'#', index) => b'0' + truncated.digits[index],
        (b',', index) if index <= blanked => b' ',
        (b'+' | b'-', _) => sign_byte(image, truncated.negative).unwrap_or(byte),
        _ => byte,
    };
    own.iter().enumerate().map(print_byte).collect()
}

/// Prints a number into a field; nothing if it spills.
fn print_number(image: &Image, own: &[u8], number: &Number) -> Option<Vec<u8>> {
    let truncated = truncate(image, number, 0).ok()?;
    Some(if image.exponential {
        alpha_text(image, &truncated)
    } else {
        print_fixed(image, own, &truncated)
    })
}

/// Fills a field with a text from the left, cut or filled with blanks.
fn print_text(text: &[u8], length: usize) -> Vec<u8> {
    text.iter().copied().chain(std::iter::repeat(b' ')).take(length).collect()
}

/// Refuses an element: 13 for a text that runs past the lent bytes, 3 for a number not in normal form.
fn check_element(element: &Element, texts: &[u8], place: usize) -> Result<(), Refusal> {
    match element {
        Element::Number(number) => require_normal(number, place),
        Element::Text { start, length } => match start.checked_add(*length) {
            Some(end) if end <= texts.len() as u128 => Ok(()),
            _ => refuse(13, place),
        },
    }
}

/// Prints a checked element into a field; nothing if it spills.
fn print_element(field: &Field, own: &[u8], element: &Element, texts: &[u8]) -> Option<Vec<u8>> {
    match *element {
        Element::Number(number) => print_number(&field.image, own, &number),
        Element::Text { start, length } => {
            Some(print_text(&texts[start as usize..(start + length) as usize], field.length))
        }
    }
}

/// Refuses with 10 too many elements or too long a line.
fn check_sizes(line: usize, elements: usize) -> Result<(), Refusal> {
    if elements > MAX_ELEMENTS || line > MAX_LINE { refuse(10, 0) } else { Ok(()) }
}

/// The forecast call: what a print call writes is at most this.
pub fn forecast(line: usize, elements: usize) -> Result<usize, Refusal> {
    check_sizes(line, elements)?;
    Ok((elements + 1) * (line + 1))
}

/// Makes every check of a print call but the last, and gives the fields.
fn check_print(line: &[u8], elements: &[Element], texts: &[u8]) -> Result<Vec<Field>, Refusal> {
    check_sizes(line.len(), elements.len())?;
    let fields = fields_of(line);
    if let Some(place) = fields.iter().position(|field| field.image.n() > PRECISION) {
        return refuse(2, place);
    }
    if fields.is_empty() && !elements.is_empty() {
        return refuse(9, 0);
    }
    for (place, element) in elements.iter().enumerate() {
        check_element(element, texts, place)?;
    }
    Ok(fields)
}

/// Gives the literal bytes that stand before element number `index`, a line's end and new beginning included.
fn bytes_before(parts: &[&[u8]], fields: usize, index: usize) -> Vec<u8> {
    if index > 0 && index % fields == 0 {
        [parts[fields], b"\n", parts[0]].concat()
    } else {
        parts[index % fields].to_vec()
    }
}

/// Gives the literal bytes behind the last element: up to the next field, or to the line's end.
fn bytes_behind<'a>(parts: &[&'a [u8]], fields: usize, elements: usize) -> &'a [u8] {
    match elements {
        0 => parts[0],
        _ if elements % fields == 0 => parts[fields],
        _ => parts[elements % fields],
    }
}

/// The print call. Element number k goes into field k modulo the count of fields.
pub fn print(line: &[u8], elements: &[Element], texts: &[u8], room: usize) -> Result<Printed, Refusal> {
    let fields = check_print(line, elements, texts)?;
    let parts = literal_parts(line, &fields);
    let mut printed = Printed { bytes: Vec::new(), spilled: 0 };
    for (index, element) in elements.iter().enumerate() {
        let field = &fields[index % fields.len()];
        let own = &line[field.start..field.start + field.length];
        let shown = print_element(field, own, element, texts);
        printed.spilled += usize::from(shown.is_none());
        printed.bytes.extend(bytes_before(&parts, fields.len(), index));
        printed.bytes.extend(shown.unwrap_or(own.to_vec()));
    }
    printed.bytes.extend(bytes_behind(&parts, fields.len(), elements.len()));
    printed.bytes = fit(printed.bytes, room)?;
    Ok(printed)
}

// ---- Record file ----

/// Reads a file as its images and its bodies, without reading the halves.
pub fn read_file(file: &[u8]) -> Result<(Vec<Image>, Vec<&[u8]>), Refusal> {
    let (images, rest) = read_contents_front(file)?;
    let length = body_length(&images);
    if rest.len() % length != 0 {
        return refuse(11, 0);
    }
    Ok((images, rest.chunks(length).collect()))
}

/// The call that writes a contents lent alone into a buffer.
pub fn write_contents(contents: &[u8], room: usize) -> Result<Vec<u8>, Refusal> {
    read_contents(contents)?;
    fit(contents.to_vec(), room)
}

/// Gives the file in a buffer, the bytes before the used length, or refuses a used length above the buffer's.
fn used_part(buffer: &[u8], used: usize) -> Result<&[u8], Refusal> {
    buffer.get(..used).map_or(refuse(11, 0), Ok)
}

/// Puts the body of a list behind the used length: the new used length, and the buffer as it is afterwards.
fn put_body(buffer: &[u8], used: usize, images: &[Image], numbers: &[Number]) -> Result<(usize, Vec<u8>), Refusal> {
    let body = fit(pack_list(images, numbers)?, buffer.len() - used)?;
    let end = used + body.len();
    Ok((end, [&buffer[..used], &body, &buffer[end..]].concat()))
}

/// The call that adds a record behind the used length: the new used length, and the buffer as it is afterwards.
pub fn add(buffer: &[u8], used: usize, numbers: &[Number]) -> Result<(usize, Vec<u8>), Refusal> {
    let (images, _) = read_file(used_part(buffer, used)?)?;
    put_body(buffer, used, &images, numbers)
}

/// The call that shows record r: where its body starts in the file, and its length.
pub fn show(file: &[u8], r: usize) -> Result<(usize, usize), Refusal> {
    let (images, bodies) = read_file(file)?;
    let length = body_length(&images);
    if r >= bodies.len() {
        return refuse(12, 0);
    }
    Ok((file.len() - (bodies.len() - r) * length, length))
}

/// Gives the alpha texts of a body, parted by one blank.
fn record_line(images: &[Image], body: &[u8]) -> Result<Vec<u8>, Refusal> {
    let numbers = unpack_body(images, body)?;
    let mut texts = Vec::new();
    for (column, (image, number)) in images.iter().zip(&numbers).enumerate() {
        texts.push(alpha_text(image, &truncate(image, number, column)?));
    }
    Ok(texts.join(&b' '))
}

/// Gives the listing of a file of any length.
pub fn listing(file: &[u8]) -> Result<Vec<u8>, Refusal> {
    let (images, bodies) = read_file(file)?;
    let mut output = format!("columns {}\n", images.len()).into_bytes();
    for body in &bodies {
        output.extend(record_line(&images, body)?);
        output.push(b'\n');
    }
    output.extend(format!("records {}\n", bodies.len()).bytes());
    Ok(output)
}

/// Gives what the listing program prints for a file, a refusal's line included.
pub fn listing_output(file: &[u8]) -> Vec<u8> {
    listing(file).unwrap_or_else(refusal_line)
}

/// Gives the line that a refusal prints.
pub fn refusal_line(refusal: Refusal) -> Vec<u8> {
    format!("refused {} {}\n", refusal.number, refusal.place).into_bytes()
}

// ---- Document 02, (iii) ----

/// Gives a number's magnitude in units of 10^-111, as a row of 211 digits.
fn units(number: &Number) -> Vec<u8> {
    let zeros = (number.e + 99) as usize;
    let digits = [digits_of(number.m, PRECISION), vec![0; zeros]].concat();
    [vec![0; 211 - digits.len()], digits].concat()
}

/// Tells whether a normal number is at least another by value.
pub fn at_least(first: &Number, second: &Number) -> bool {
    match (first.negative, second.negative) {
        (false, true) => true,
        (true, false) => false,
        (false, false) => units(first) >= units(second),
        (true, true) => units(first) <= units(second),
    }
}

/// Tells whether a number is less than the one before it.
fn falls(numbers: &[Number]) -> bool {
    numbers.windows(2).any(|pair| !at_least(&pair[1], &pair[0]))
}

/// Counts the comparisons of the walk over positions and first columns.
fn comparisons(positions: &[Number], columns: &[Number]) -> usize {
    let (mut position, mut record, mut count) = (0, 0, 0);
    while position < positions.len() && record < columns.len() {
        count += 1;
        if at_least(&columns[record], &positions[position]) {
            position += 1;
        } else {
            record += 1;
        }
    }
    count
}

/// What the search for a page's positions gives: a record number for each, and the count of comparisons.
#[derive(Clone, Debug, PartialEq, Eq)]
pub struct Found {
    pub records: Vec<usize>,
    pub comparisons: usize,
}

/// Tells whether an image is unsigned fixed point.
fn is_unsigned_fixed(image: &Image) -> bool {
    image.sign.is_none() && !image.exponential
}

/// Reads every body of a file back, all of its columns, and gives the first columns.
fn first_columns(images: &[Image], bodies: &[&[u8]]) -> Result<Vec<Number>, Refusal> {
    bodies.iter().map(|body| Ok(unpack_body(images, body)?[0])).collect()
}

/// Finds for each position the first record whose first column is at least the position, or the record count.
pub fn find(file: &[u8], positions: &[Number]) -> Result<Found, Refusal> {
    let (images, bodies) = read_file(file)?;
    if positions.len() > MAX_POSITIONS {
        return refuse(10, 0);
    }
    let columns = first_columns(&images, &bodies)?;
    for (index, position) in positions.iter().enumerate() {
        require_normal(position, index)?;
    }
    if !is_unsigned_fixed(&images[0]) {
        return refuse(16, 0);
    }
    if falls(positions) {
        return refuse(14, 0);
    }
    if falls(&columns) {
        return refuse(15, 0);
    }
    let first = |position| columns.iter().position(|column| at_least(column, position)).unwrap_or(columns.len());
    Ok(Found { records: positions.iter().map(first).collect(), comparisons: comparisons(positions, &columns) })
}

// ---- Document 02, (vi) ----

/// A camera's file with all of document 01's checks behind it: the bytes of its contents, its images, its bodies and their first columns.
struct Roll<'a> {
    contents: &'a [u8],
    images: Vec<Image>,
    bodies: Vec<&'a [u8]>,
    columns: Vec<Number>,
}

/// Reads a camera's file, every body too.
fn read_roll(file: &[u8]) -> Result<Roll<'_>, Refusal> {
    let (images, bodies) = read_file(file)?;
    let columns = first_columns(&images, &bodies)?;
    let contents = &file[..file.len() - bodies.len() * body_length(&images)];
    Ok(Roll { contents, images, bodies, columns })
}

/// Gives the records of a camera's file: each one's first column and body.
fn records_of<'a>(roll: &Roll<'a>) -> Vec<(Number, &'a [u8])> {
    roll.columns.iter().copied().zip(roll.bodies.iter().copied()).collect()
}

/// Gives how a number stands to another by value.
fn order_by_value(first: &Number, second: &Number) -> std::cmp::Ordering {
    match (at_least(first, second), at_least(second, first)) {
        (true, true) => std::cmp::Ordering::Equal,
        (true, false) => std::cmp::Ordering::Greater,
        _ => std::cmp::Ordering::Less,
    }
}

/// The call that merges two files into a buffer: the records of both in the order of their first columns, on equal ones the first file's
/// before the second's.
pub fn merge(first: &[u8], second: &[u8], room: usize) -> Result<Vec<u8>, Refusal> {
    let (first, second) = (read_roll(first)?, read_roll(second)?);
    if first.contents != second.contents {
        return refuse(17, 0);
    }
    // The contents are the same, so this says the same of the second file.
    if !is_unsigned_fixed(&first.images[0]) {
        return refuse(16, 0);
    }
    if falls(&first.columns) || falls(&second.columns) {
        return refuse(15, 0);
    }
    let mut records = [records_of(&first), records_of(&second)].concat();
    // A stable sort: records with equal first columns keep their order, each file's own and the first file before the second.
    records.sort_by(|(one, _), (other, _)| order_by_value(one, other));
    let bodies: Vec<&[u8]> = records.iter().map(|(_, body)| *body).collect();
    fit([first.contents, &bodies.concat()].concat(), room)
}

// ---- Document 02, (vii) ----

/// The call that reserves: where the next body would go, which is the used length, and how many bytes it fills. It asks for no room behind
/// the used length, so that it never refuses with 6.
pub fn reserve(buffer: &[u8], used: usize) -> Result<(usize, usize), Refusal> {
    let (images, _) = read_file(used_part(buffer, used)?)?;
    Ok((used, body_length(&images)))
}

/// The call that writes a record, given the place and the size that reserving answers: the new used length, and the buffer as it is
/// afterwards. Any other place or size is refused with 18, right after the checks of the contents.
pub fn write(buffer: &[u8], used: usize, place: usize, size: usize, numbers: &[Number]) -> Result<(usize, Vec<u8>), Refusal> {
    let file = used_part(buffer, used)?;
    let (images, _) = read_contents_front(file)?;
    if (place, size) != (used, body_length(&images)) {
        return refuse(18, 0);
    }
    read_file(file)?;
    put_body(buffer, used, &images, numbers)
}

// ---- Records entered as text ----

/// What the call that enters answers: the file; a refusal of the contents or of the room; or the number of a line, the first being 1, and
/// the refusal of that line.
#[derive(Clone, Debug, PartialEq, Eq)]
pub enum Entered {
    File(Vec<u8>),
    Refused(Refusal),
    Line(usize, Refusal),
}

/// Parts a text into lines: each ends with 0A, and the last one may lack it.
fn lines_of(text: &[u8]) -> Vec<&[u8]> {
    let mut lines: Vec<&[u8]> = text.split(|&byte| byte == b'\n').collect();
    // What stands behind the last 0A is a line only if it has a byte.
    if lines.last().is_some_and(|last| last.is_empty()) {
        lines.pop();
    }
    lines
}

/// Gives the length of the longest beginning that is a text number, the blanks in front of it and behind it included; 0 if there is none.
/// Blanks apart such a beginning has a sign and at most 18 bytes behind it: 13 digits, the point, and E with a sign and two digits.
fn number_length(text: &[u8]) -> usize {
    let (sign, mut rest) = split_sign(without_leading_blanks(text));
    if sign.is_some() {
        rest = without_leading_blanks(rest);
    }
    let word: Vec<u8> = rest.iter().copied().take_while(|&byte| byte != b' ').take(18).collect();
    // With a sign in front, so that none is read at the word's beginning.
    let Some(used) = legal_length(&[b"+", &word[..]].concat()).checked_sub(1) else { return 0 };
    text.len() - without_leading_blanks(&rest[used..]).len()
}

/// Reads the numbers of a line, each parted from the next by at least one blank, or refuses with 8 and 5 and the number's place, or with 10
/// where bytes are left behind 16 numbers.
fn line_numbers(line: &[u8]) -> Result<Vec<Number>, Refusal> {
    let (mut rest, mut numbers) = (line, Vec::new());
    while !rest.is_empty() {
        let place = numbers.len();
        if place == MAX_COLUMNS {
            return refuse(10, 0);
        }
        // No bytes are no text number, which is refused with 8.
        let (text, behind) = rest.split_at(number_length(rest));
        let number = convert(text).map_err(|refusal| Refusal { place, ..refusal })?;
        if !behind.is_empty() && !text.ends_with(b" ") {
            return refuse(8, place);
        }
        numbers.push(number);
        rest = behind;
    }
    Ok(numbers)
}

/// Refuses with 10 a line of a listing that does not give this count behind its word.
fn require_count(line: &[u8], word: &str, count: usize) -> Result<(), Refusal> {
    if line == format!("{word} {count}").as_bytes() { Ok(()) } else { refuse(10, 0) }
}

/// Gives the file that a text's lines make: the contents, then a body for each line that is not a listing's first or last one.
fn enter_lines(contents: &[u8], images: &[Image], lines: &[&[u8]]) -> Result<Vec<u8>, (usize, Refusal)> {
    let (mut file, mut records) = (contents.to_vec(), 0);
    for (index, line) in lines.iter().enumerate() {
        let refused = |refusal| (index + 1, refusal);
        if index == 0 && line.starts_with(b"columns ") {
            require_count(line, "columns", images.len()).map_err(refused)?;
        } else if index + 1 == lines.len() && line.starts_with(b"records ") {
            require_count(line, "records", records).map_err(refused)?;
        } else {
            file.extend(line_numbers(line).and_then(|numbers| pack_list(images, &numbers)).map_err(refused)?);
            records += 1;
        }
    }
    Ok(file)
}

/// The call that makes a record file of a text of lines, such as a listing, under a contents lent alone.
pub fn enter(contents: &[u8], text: &[u8], room: usize) -> Entered {
    let images = match read_contents(contents) {
        Ok(images) => images,
        Err(refusal) => return Entered::Refused(refusal),
    };
    match enter_lines(contents, &images, &lines_of(text)) {
        Ok(file) => fit(file, room).map_or_else(Entered::Refused, Entered::File),
        Err((line, refusal)) => Entered::Line(line, refusal),
    }
}

// ---- A file cut short ----

/// What there is of a file that may have been cut short: the longest length whose bodies are whole, and the count of bytes behind it.
#[derive(Clone, Copy, Debug, PartialEq, Eq)]
pub struct WholeLength {
    pub length: usize,
    pub behind: usize,
}

/// The call that gives the whole length of a file: it is refused as the contents at the file's front is, and never for its bodies.
pub fn whole_length(file: &[u8]) -> Result<WholeLength, Refusal> {
    let (images, rest) = read_contents_front(file)?;
    let behind = rest.len() % body_length(&images);
    Ok(WholeLength { length: file.len() - behind, behind })
}
