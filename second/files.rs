//! Record files and their parts from a seeded generator: valid and damaged ones, short and long.
//! Each program that includes this file uses only some of the functions.
#![allow(dead_code)]
use crate::model;
use model::{Image, Number};

/// A generator of numbers that look random (xorshift), the same for the same seed.
pub struct Random(u64);

impl Random {
    /// Starts from a seed that is not 0.
    pub fn new(seed: u64) -> Random {
        Random(seed.max(1))
    }

    /// Gives the next 64 bits.
    pub fn next(&mut self) -> u64 {
        self.0 ^= self.0 << 13;
        self.0 ^= self.0 >> 7;
        self.0 ^= self.0 << 17;
        self.0.wrapping_mul(0x2545_F491_4F6C_DD1D)
    }

    /// Gives a number below the limit.
    pub fn below(&mut self, limit: usize) -> usize {
        ((self.next() >> 16) % limit as u64) as usize
    }

    /// Gives a number from the first to the last, both included.
    pub fn from_to(&mut self, first: i128, last: i128) -> i128 {
        first + self.below((last - first + 1) as usize) as i128
    }
}

/// Gives one of some values.
pub fn one_of<T: Clone>(random: &mut Random, values: &[T]) -> T {
    values[random.below(values.len())].clone()
}

/// Gives an image that a contents can have.
pub fn image(random: &mut Random) -> Vec<u8> {
    let most = if random.below(3) == 0 { 13 } else { 5 };
    let n = 1 + random.below(most);
    let fraction = if random.below(2) == 0 { 0 } else { random.below(n + 1) };
    let mut bytes = [&b""[..], &b"+"[..], &b"-"[..]][random.below(3)].to_vec();
    bytes.extend(vec![b'#'; n - fraction]);
    if fraction > 0 {
        bytes.push(b'.');
        bytes.extend(vec![b'#'; fraction]);
    }
    if random.below(4) == 0 {
        bytes.extend(b"^^^^");
    }
    bytes
}

/// Gives bytes that no contents can have as an image, for most of them.
pub fn bad_image(random: &mut Random) -> Vec<u8> {
    match random.below(8) {
        0 => Vec::new(),
        1 => b"#.".to_vec(),
        2 => b"+".to_vec(),
        3 => b"#,###".to_vec(),
        4 => vec![b'#'; 14 + random.below(3)],
        5 => b"##^^^".to_vec(),
        6 => [vec![b'#'; 7], b".".to_vec(), vec![b'#'; 7]].concat(),
        _ => (0..random.below(6)).map(|_| b"+-#.,^0 "[random.below(8)]).collect(),
    }
}

/// Gives a contents with these images.
pub fn contents_of(images: &[Vec<u8>]) -> Vec<u8> {
    let mut bytes = vec![images.len() as u8];
    for image in images {
        bytes.push(image.len() as u8);
        bytes.extend(image);
    }
    bytes
}

/// Gives a mantissa whose digits are drawn from two: equal ones, zeros and nines in runs and by turns.
fn two_digits(random: &mut Random) -> u128 {
    let first = 1 + random.below(9) as u128;
    let other = if random.below(2) == 0 { 0 } else { random.below(10) as u128 };
    (0..12).fold(first, |m, _| 10 * m + if random.below(2) == 0 { first } else { other })
}

/// Gives a number that packs under the image, or zero.
pub fn number(random: &mut Random, image: &Image) -> Number {
    let whole = image.whole as i128;
    let (first, last) = match (image.exponential, image.sign) {
        (false, _) => (-(image.fraction as i128) - 2, whole - 1),
        (true, None) => (whole - 1, 99),
        (true, Some(_)) => (-99, 99),
    };
    let digits = 1 + random.below(13) as u32;
    let m = match random.below(4) {
        0 => two_digits(random),
        _ => (1 + random.next() as u128 % 9) * 10u128.pow(12) + random.next() as u128 % 10u128.pow(12),
    };
    let m = m / 10u128.pow(13 - digits) * 10u128.pow(13 - digits);
    let e = if random.below(3) == 0 { last } else { random.from_to(first.min(last), last) };
    let number = Number { negative: random.below(2) == 0, m, e };
    if random.below(8) == 0 || model::pack_column(image, &number, 0).is_err() {
        return Number::ZERO;
    }
    number
}

/// Gives a file with a contents and so many records.
pub fn file(random: &mut Random, images: &[Vec<u8>], records: usize) -> Vec<u8> {
    let contents = contents_of(images);
    let mut bytes = contents.clone();
    if let Ok(read) = model::read_contents(&contents) {
        for _ in 0..records {
            let numbers: Vec<Number> = read.iter().map(|image| number(random, image)).collect();
            bytes.extend(model::pack_list(&read, &numbers).unwrap_or_default());
        }
    }
    bytes
}

/// Gives some images, at most 16.
pub fn images(random: &mut Random) -> Vec<Vec<u8>> {
    let count = if random.below(6) == 0 { 16 } else { 1 + random.below(5) };
    (0..count).map(|_| image(random)).collect()
}

/// Gives how many records a file has: mostly few, at times as many as a file of 65,536 bytes holds, or some more.
pub fn record_count(random: &mut Random, images: &[Vec<u8>]) -> usize {
    let contents = contents_of(images);
    let body = model::read_contents(&contents).map(|read| model::body_length(&read)).unwrap_or(1);
    let most = (65_536 - contents.len()) / body;
    match random.below(40) {
        0 => most,
        1 => most + 1,
        2..=5 => random.below(most / 8 + 1),
        6..=9 => 0,
        _ => random.below(9),
    }
}

/// Changes one byte from a place on, if there is one.
pub fn change(random: &mut Random, bytes: &mut [u8], from: usize) {
    if from < bytes.len() {
        let place = from + random.below(bytes.len() - from);
        bytes[place] = if random.below(2) == 0 { bytes[place] ^ (1 << random.below(8)) } else { random.below(256) as u8 };
    }
}

/// Gives the next file: every second one is damaged in one of several ways.
pub fn next_file(random: &mut Random) -> Vec<u8> {
    let mut images = images(random);
    let records = record_count(random, &images);
    let damage = random.below(20);
    if damage == 0 {
        let place = random.below(images.len());
        images[place] = bad_image(random);
    }
    let mut bytes = file(random, &images, records);
    let contents = contents_of(&images).len();
    match damage {
        1 => bytes[0] = [0, 17, 255, images.len() as u8 + 1][random.below(4)],
        2 => change(random, &mut bytes[..contents], 1),
        3 | 4 | 5 => change(random, &mut bytes, contents),
        6 => bytes.truncate(random.below(contents + 1)),
        7 => bytes.truncate(bytes.len() - random.below(bytes.len() - contents + 1)),
        8 => bytes.extend((0..1 + random.below(9)).map(|_| random.below(256) as u8).collect::<Vec<u8>>()),
        9 => bytes = (0..random.below(40)).map(|_| b"\x01\x02\x03#+-.,^\x00\x12\x99"[random.below(12)]).collect(),
        _ => {}
    }
    bytes
}
