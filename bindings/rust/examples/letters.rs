//! Makes a record file of a page's letters, whose positions stand in a text with remarks, then finds two positions in it, prints them as lines,
//! and shows what a refusal is like.

use hulgyevan::{add, find, list, print, read_text_number, show, unpack, write_contents, Element, Number, Refusal};

/// Two columns: the position in steps and hundredths, and the code of the letter.
const CONTENTS: &[u8] = b"\x02\x0b########.##\x03###";

/// The scanner's lines: a position, and the letter as a remark behind it.
const LINES: [&str; 5] = ["16777214 W", "16777216 e", "16777216.25 i", "16777217 s", "16777217.50 e"];

/// Adds the record of a scanner's line to a file: gives the new used length.
fn add_line(line: &str, used: usize, file: &mut [u8]) -> Result<usize, Refusal> {
    let (position, read) = read_text_number(line.as_bytes())?;
    let code = line.as_bytes().get(read).copied().unwrap_or(b' ');
    add(used, &[position, Number::from_steps(i64::from(code))?], file)
}

/// Prints the record with a number as a line of words.
fn print_record(file: &[u8], index: usize) -> Result<(), Refusal> {
    let mut numbers = [Number::ZERO; 2];
    unpack(CONTENTS, &file[show(file, index)?], &mut numbers)?;
    let elements = [Element::number(numbers[0]), Element::number(numbers[1])];
    let mut line = [0; 80];
    let printed = print(b"record at ##,###,###.## has the code ###", &elements, b"", &mut line)?;
    println!("{}", String::from_utf8_lossy(&line[..printed.size]));
    Ok(())
}

fn main() -> Result<(), Refusal> {
    let mut file = [0; 100];
    let mut used = write_contents(CONTENTS, &mut file)?;
    for line in LINES {
        used = add_line(line, used, &mut file)?;
    }
    let mut text = [0; 200];
    let size = list(&file[..used], &mut text)?;
    print!("{}", String::from_utf8_lossy(&text[..size]));

    let mut records = [0; 2];
    let comparisons = find(&file[..used], &["16777216.1".parse()?, Number::from_steps(16_777_217)?], &mut records)?;
    println!("found with {comparisons} comparisons");
    for index in records {
        print_record(&file[..used], index)?;
    }

    let refused = add_line("123456789 x", used, &mut file);
    println!("{}", refused.map_or_else(|refusal| format!("{refusal}: {}", refusal.reason), |used| used.to_string()));
    Ok(())
}
