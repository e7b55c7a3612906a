//! Two cameras' files to be merged, from the seeded generator: valid and damaged ones, with equal first columns in both.
//! Each program that includes this file uses only some of the functions.
#![allow(dead_code)]
use crate::{files, model};
use files::{Random, one_of};
use model::{Image, Number};
use std::cmp::Ordering;

/// A record to be written: its first column as it was given, and its body.
type Record = (Number, Vec<u8>);

/// Gives how a number in normal form stands to another by value.
fn order(first: &Number, second: &Number) -> Ordering {
    model::compare(first, second).unwrap_or(Ordering::Equal)
}

/// Gives numbers in normal form in the order of their values.
pub fn ordered(mut numbers: Vec<Number>) -> Vec<Number> {
    numbers.sort_by(order);
    numbers
}

/// Gives some images, of which the first mostly is unsigned fixed point.
pub fn images_in_order(random: &mut Random) -> Vec<Vec<u8>> {
    let mut images = files::images(random);
    if random.below(12) > 0 {
        images[0] = one_of(random, &[&b"#"[..], b"##", b"###", b"##.#", b".###", b"#####", b"#######.######", b"#############"]).to_vec();
    }
    images
}

/// Gives a number for a first column, not below zero.
pub fn key(random: &mut Random, first: &Image) -> Number {
    Number { negative: false, ..files::number(random, first) }
}

/// Gives a body with a first column; no bytes if that does not pack.
pub fn body(random: &mut Random, images: &[Image], key: Number) -> Vec<u8> {
    let mut numbers: Vec<Number> = images.iter().map(|image| files::number(random, image)).collect();
    numbers[0] = key;
    model::pack_list(images, &numbers).unwrap_or_default()
}

/// Gives a record: at times with the first column of one of the others, and at times one of them as it is.
fn record_beside(random: &mut Random, images: &[Image], others: &[Record]) -> Record {
    let choice = random.below(5);
    if choice == 0 && !others.is_empty() {
        return one_of(random, others);
    }
    let key = if choice < 3 && !others.is_empty() { one_of(random, others).0 } else { key(random, &images[0]) };
    (key, body(random, images, key))
}

/// Gives so many records more, beside those that are there.
fn more_records(random: &mut Random, images: &[Image], before: &[Record], count: usize) -> Vec<Record> {
    let mut records = before.to_vec();
    for _ in 0..count {
        let record = record_beside(random, images, &records);
        records.push(record);
    }
    records.split_off(before.len())
}

/// Tells whether an image has no sign and no exponent.
fn is_plain(image: &[u8]) -> bool {
    image.iter().all(|byte| b"#.".contains(byte))
}

/// Puts records in order; of so many times once all stay as they are, and once two neighbours change places.
fn arrange(random: &mut Random, records: &mut [Record], times: usize) {
    let choice = random.below(times);
    if choice > 0 {
        records.sort_by(|(first, _), (second, _)| order(first, second));
    }
    if choice == 1 && records.len() > 1 {
        let place = random.below(records.len() - 1);
        records.swap(place, place + 1);
    }
}

/// Gives a file with these records: mostly in order, but less often so where the first column has another kind.
fn file_of(random: &mut Random, images: &[Vec<u8>], mut records: Vec<Record>) -> Vec<u8> {
    arrange(random, &mut records, if is_plain(&images[0]) { 24 } else { 3 });
    let bodies: Vec<Vec<u8>> = records.into_iter().map(|(_, body)| body).collect();
    [files::contents_of(images), bodies.concat()].concat()
}

/// Gives an image that is a little different: one # more, another sign, the point elsewhere, exponential, or any other.
fn other_image(random: &mut Random, image: &[u8]) -> Vec<u8> {
    let marks = image.strip_prefix(b"+").or(image.strip_prefix(b"-")).unwrap_or(image);
    match random.below(6) {
        0 => [image, b"#"].concat(),
        1 => [b"-", marks].concat(),
        2 => [b"+", marks].concat(),
        3 => [image, b"^^^^"].concat(),
        4 => [b".", &b"#".repeat(image.iter().filter(|&&byte| byte == b'#').count())[..]].concat(),
        _ => files::image(random),
    }
}

/// Gives images that mostly differ from these in one image or in their count.
fn other_images(random: &mut Random, images: &[Vec<u8>]) -> Vec<Vec<u8>> {
    let mut others = images.to_vec();
    let place = random.below(images.len());
    match random.below(6) {
        0 => others.push(files::image(random)),
        1 if images.len() > 1 => drop(others.pop()),
        2 => others[0] = other_image(random, &images[0]),
        _ => others[place] = other_image(random, &images[place]),
    }
    others
}

/// Damages a file with these images in one of several ways: its bodies, its end, or its contents.
fn damage(random: &mut Random, images: &[Vec<u8>], file: &mut Vec<u8>) {
    let front = files::contents_of(images).len().min(file.len());
    let last = file.len() - (file.len() - front).min(3);
    match random.below(16) {
        0..=2 => files::change(random, file, front),
        3 => files::change(random, file, last),
        4 | 5 if front < file.len() => {
            let place = front + random.below(file.len() - front);
            file[place] = one_of(random, &[0x0a, 0xa0, 0xff]);
        }
        6 => file.truncate(random.below(file.len() + 1)),
        7 => file.truncate(last),
        8 => file.push(random.below(256) as u8),
        9 => file[0] = one_of(random, &[0, 17, 255, 2]),
        10 => files::change(random, &mut file[..front], 1),
        _ => {
            let mut images = images.to_vec();
            let place = random.below(images.len());
            images[place] = files::bad_image(random);
            file.splice(..front, files::contents_of(&images));
        }
    }
}

/// Gives the files of two cameras, the count of records of each from `count`: mostly with one contents, first columns that do not fall, and
/// many of them the same in both; at times with two contents, and at times one or both damaged.
pub fn next_pair(random: &mut Random, count: impl Fn(&mut Random, &[Vec<u8>]) -> usize) -> (Vec<u8>, Vec<u8>) {
    let mut images = images_in_order(random);
    if random.below(12) == 0 {
        images[0] = files::image(random);
    }
    let second_images = if random.below(8) == 0 { other_images(random, &images) } else { images.clone() };
    let read = |images: &[Vec<u8>]| model::read_contents(&files::contents_of(images));
    let mut records = [Vec::new(), Vec::new()];
    if let Ok(read) = read(&images) {
        let count = count(random, &images);
        records[0] = more_records(random, &read, &[], count);
    }
    if let Ok(read) = read(&second_images) {
        let before = if images == second_images { records[0].clone() } else { Vec::new() };
        let count = count(random, &second_images);
        records[1] = more_records(random, &read, &before, count);
    }
    let [first, second] = records;
    let mut first = file_of(random, &images, first);
    let mut second = file_of(random, &second_images, second);
    let damaged = random.below(9);
    if matches!(damaged, 0 | 1) {
        damage(random, &images, &mut first);
    }
    if matches!(damaged, 1 | 2) {
        damage(random, &second_images, &mut second);
    }
    (first, second)
}
