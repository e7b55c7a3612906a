mod model;

// Prints rows of document 01's known values and of the manuals' worked examples, each computed by the model.
// Where an example has a misprint or follows another dialect, the rows of the Rattle program `vectors` say so, row by row.
use model::{Element, Entered, Number, Refusal};
use std::io::Write;

// The room for a text, a body, a print or a merged file: no row needs more.
const ROOM: usize = 256;

/// Gives a refusal's number and place as words.
fn refusal_words(refusal: Refusal) -> String {
    format!("refused {} {}", refusal.number, refusal.place)
}

/// Gives a number in normal form as words.
fn number_words(number: &Number) -> String {
    format!("{}{} e {:+}", if number.negative { '-' } else { '+' }, number.m, number.e)
}

/// Gives bytes in hexadecimal, parted by blanks.
fn hexadecimal_words(bytes: &[u8]) -> String {
    bytes.iter().map(|byte| format!("{byte:02x}")).collect::<Vec<_>>().join(" ")
}

/// Gives the bytes of a text as characters.
fn characters(bytes: &[u8]) -> String {
    bytes.iter().map(|&byte| char::from(byte)).collect()
}

/// Gives bytes between quotes, each line of them for itself.
fn quoted(bytes: &[u8]) -> String {
    let lines = bytes.split(|&byte| byte == b'\n');
    lines.map(|line| format!("'{}'", characters(line))).collect::<Vec<_>>().join(" ")
}

/// Gives a contents with one column.
fn one_column(image: &str) -> Vec<u8> {
    [&[1, image.len() as u8], image.as_bytes()].concat()
}

/// Gives the alpha text between quotes, or the refusal.
fn alpha_words(image: &str, number: &Number) -> String {
    match model::alpha(image.as_bytes(), number, ROOM) {
        Ok(text) => quoted(&text),
        Err(refusal) => refusal_words(refusal),
    }
}

/// Gives the body of a record with this one column in hexadecimal, or the refusal.
fn body_words(image: &str, number: &Number) -> String {
    match model::pack(&one_column(image), &[*number], ROOM) {
        Ok(body) => hexadecimal_words(&body),
        Err(refusal) => refusal_words(refusal),
    }
}

/// Gives the number whole * 10^scale, the sign being in the whole.
fn number_of(whole: i64, scale: i128) -> Number {
    model::scaled(whole < 0, whole.unsigned_abs().into(), scale).unwrap_or(Number::ZERO)
}

/// Gives the row of an image and a number: its alpha text and its body.
fn image_row(image: &str, whole: i64, scale: i128) -> String {
    let number = number_of(whole, scale);
    let (alpha, body) = (alpha_words(image, &number), body_words(image, &number));
    format!("{image} {whole:+}E{scale:+}: {alpha}; body {body}\n")
}

/// Gives the row of an image and a number: its body, and what is cut off it.
fn cut_row(image: &str, whole: i64, scale: i128) -> String {
    let answer = match model::pack_with_remainders(&one_column(image), &[number_of(whole, scale)], ROOM) {
        Ok((body, cut)) => format!("body {}; cut off {} e {:+}", hexadecimal_words(&body), cut[0].r, cut[0].power),
        Err(refusal) => format!("{}; cut off none", refusal_words(refusal)),
    };
    format!("{image} {whole:+}E{scale:+}: {answer}\n")
}

/// Gives the row of an image's packed size.
fn size_row(image: &str) -> String {
    match model::read_contents(&one_column(image)) {
        Ok(images) => format!("{image}: {} bytes\n", model::body_length(&images)),
        Err(refusal) => format!("{image}: {}\n", refusal_words(refusal)),
    }
}

/// Gives the row of a body that is read back under one column.
fn body_row(image: &str, body: &[u8]) -> String {
    let answer = match model::unpack(&one_column(image), body) {
        Ok(numbers) => number_words(&numbers[0]),
        Err(refusal) => refusal_words(refusal),
    };
    format!("{image} body {}: {answer}\n", hexadecimal_words(body))
}

/// Gives the number of a whole text, or the refusal.
fn converted_words(text: &str) -> String {
    match model::convert(text.as_bytes()) {
        Ok(number) => number_words(&number),
        Err(refusal) => refusal_words(refusal),
    }
}

/// Gives the row of a text: its legal length and its number, or the refusal.
fn text_row(text: &str) -> String {
    format!("'{text}': length {}, {}\n", model::legal_length(text.as_bytes()), converted_words(text))
}

/// Gives what is read of a text, and what the whole of it is converted to.
fn read_words(text: &str) -> String {
    let read = match model::read_text_number(text.as_bytes()) {
        Ok((number, used)) => format!("{}, used {used}", number_words(&number)),
        Err(refusal) => refusal_words(refusal),
    };
    format!("reads {read}; whole {}\n", converted_words(text))
}

/// Gives the elements of a list parted by semicolons: a text number is a number, anything else a text.
fn elements_of(list: &str) -> Vec<Element> {
    let mut elements = Vec::new();
    let mut start = 0;
    for part in list.split(';').filter(|_| !list.is_empty()) {
        elements.push(match model::convert(part.as_bytes()) {
            Ok(number) => Element::Number(number),
            Err(_) => Element::Text { start, length: part.len() as u128 },
        });
        start += part.len() as u128 + 1;
    }
    elements
}

/// Gives the row of a line image printed with the elements of a list.
fn line_row(line: &str, list: &str) -> String {
    let answer = match model::print(line.as_bytes(), &elements_of(list), list.as_bytes(), ROOM) {
        Ok(printed) => format!("{}, spilled {}", quoted(&printed.bytes), printed.spilled),
        Err(refusal) => refusal_words(refusal),
    };
    format!("'{line}' with '{list}': {answer}\n")
}

/// Gives the row of a line image's fields.
fn fields_row(line: &str) -> String {
    let fields = model::fields_of(line.as_bytes());
    let words = fields.iter().map(|field| format!(" '{}'", &line[field.start..field.start + field.length]));
    format!("'{line}': fields{}\n", words.collect::<String>())
}

/// Gives the rows of images: known values, then examples of sources 000 and 004.
fn image_rows() -> String {
    let rows = [
        ("###", 12195, -3),
        ("+##.##", 2439, -2),
        ("-#.##^^^^", 12195, -3),
        ("####.#####", 12195, -3),
        ("+#", -3, -1),
        ("##", 9999, -2),
        ("##", 1, 2),
        ("+#.#^^^^", 5, -2),
        ("#.#^^^^", 5, -2),
        ("##", -12, 0),
        (".##", 5, -1),
        (".##", 1, 0),
        ("##^^^^", 1, -99),
        ("##############", 1, 0),
        ("#.", 1, 0),
        ("##", 1234, 0),
        ("####", 1234, 0),
        ("-#.#^^^^", 12195, -3),
        ("####", 10, 0),
        ("####", 24, 0),
    ];
    rows.iter().map(|&(image, whole, scale)| image_row(image, whole, scale)).collect()
}

/// Gives the rows of packed sizes: the page PACK of sources 000 and 004.
fn size_rows() -> String {
    let images = ["####", "###", "+##.###", "+#.###^^^^", "+#.##^^^^", "+#.##"];
    images.iter().map(|image| size_row(image)).collect()
}

/// Gives the rows of bodies that are read: a known value, then the page UNPACK of source 004.
fn body_rows() -> String {
    let rows: [(&str, &[u8]); 3] = [("+#", &[0x10]), ("####", &[0x00, 0x24]), ("####", &[0x00, 0x24, 0x20])];
    rows.iter().map(|&(image, body)| body_row(image, body)).collect()
}

/// Gives the rows of texts: document 01, then source 000, then source 004.
fn text_rows() -> String {
    let texts = [
        "+24.37#JK",
        "98.7+53.6",
        "12E99",
        "1234",
        "123A5           ",
        "12345           ",
        "4",
        "-10",
        "1432443",
        "-.7865",
        "24.4563",
        "4.5E7",
        "8.7E5.8",
        "-103.2E99",
        ".87E-99",
        "12345678.234567",
        "12345678.23456",
        "-3E2",
        "2.6E-27",
        "4.5E+07",
        "4.5 E-07",
        "1E88",
        "1E88            ",
        "                ",
    ];
    texts.iter().map(|text| text_row(text)).collect()
}

/// Gives the row of a long text: a character, 4094 blanks and a digit.
fn long_row(first: char) -> String {
    format!("'{first}', 4094 blanks and 7: {}", read_words(&format!("{first}{}7", " ".repeat(4_094))))
}

/// Gives the rows of texts with a remark behind the number, and of texts without a number: document 02, (i).
fn read_rows() -> String {
    let texts = ["0012.5 torn", "12E99 torn", "12E99", "torn", "", "   ", "1 2", "-", "12345678901234"];
    let short: String = texts.iter().map(|text| format!("'{text}': {}", read_words(text))).collect();
    short + &long_row(' ')
}

/// Gives the rows of texts with blanks behind the sign, and elsewhere inside: document 02, (v).
fn spaced_rows() -> String {
    let texts = [
        "- 12.5", "- .5", "+   7 ", " -  3E2", "- 0", "- 12.5 torn", "- 12345678901234", "- 12E99", "- 12E99 torn", "- ", "- -1", "- .", "1E- 5",
        "1E 5", "1. 5", "1 .5", ". 5", "12 - 15",
    ];
    let short: String = texts.iter().map(|text| format!("'{text}': {}", read_words(text))).collect();
    short + &long_row('-')
}

/// Gives the rows of what truncation cuts off: document 02, (ii).
fn cut_rows() -> String {
    let rows = [
        ("##", 1, -5),
        ("###.###", 12195, -3),
        ("###", 12195, -3),
        ("#^^^^", 12195, -3),
        ("#############^^^^", 12195, 9),
        ("##", 1, -99),
        ("+#^^^^", 12195, -103),
        ("#^^^^", 99999, 95),
        ("+#", -3, -1),
        ("#", -3, -1),
        ("##", 0, 0),
        ("+#.#^^^^", 0, 0),
        ("##", 1, 2),
        ("#.#^^^^", 5, -2),
        ("##^^^^", 1, -99),
    ];
    rows.iter().map(|&(image, whole, scale)| cut_row(image, whole, scale)).collect()
}

/// Gives the row of a file and positions, written as a text: the records found, and the count of comparisons.
fn page_row(file: &[u8], text: &str) -> String {
    let positions: Vec<Number> = text.split_whitespace().filter_map(|part| model::convert(part.as_bytes()).ok()).collect();
    let answer = match model::find(file, &positions) {
        Ok(found) => {
            let records: String = found.records.iter().map(|record| format!(" {record}")).collect();
            format!("records{records}, comparisons {}", found.comparisons)
        }
        Err(refusal) => refusal_words(refusal),
    };
    format!("file {} at '{text}': {answer}\n", hexadecimal_words(file))
}

/// Gives the rows of positions found in files: document 02, (iii).
fn page_rows() -> String {
    let steps = [1, 2, b'#', b'#', 0x05, 0x12, 0x12, 0x99];
    let falling = [1, 2, b'#', b'#', 0x05, 0x12, 0x11];
    let rows: [(&[u8], &str); 15] = [
        (&steps, "-3 0 5 5.001 12 12.5 99 99.1 1E99"),
        (&steps, "1E-99 12"),
        (&[1, 4, b'#', b'#', b'.', b'#', 0x01, 0x20, 0x12, 0x50], "1.199 1.2 1.25 12.5 13"),
        (&steps, ""),
        (&[1, 2, b'#', b'#'], "1 2"),
        (&[1, 2, b'#', b'#'], ""),
        (&[2, 1, b'#', 1, b'#', 0x10, 0x10, 0x20, 0x2a], "0"),
        (&falling, "1"),
        (&falling, ""),
        (&[1, 2, b'#', b'#', 0x05, 0x12], "12 11.9"),
        (&[1, 2, b'#', b'#', 0x12, 0x05], "12 11.9"),
        (&[1, 2, b'+', b'#'], ""),
        (&[1, 5, b'#', b'^', b'^', b'^', b'^', 0x50, 0x00], "2 1"),
        (&[1, 2, b'#'], "1"),
        (&[1, 3, b'#', b'#', b'#', 0x01, 0x20, 0x01], "1"),
    ];
    rows.iter().map(|&(file, text)| page_row(file, text)).collect()
}

/// Gives the rows of document 02, (iv): mantissas split into digits.
fn digit_rows() -> String {
    let all = "#############";
    let rows = [
        (all, 9999999999999, 0),
        (all, 7777777777777, 0),
        (all, 1111111111111, 0),
        (all, 8421842184218, 0),
        (all, 8000000000000, 0),
        (all, 1000000000000, 0),
        (all, 1000000000001, 0),
        (all, 9090909090909, 0),
        (all, 1234567890123, 0),
        (all, 9876543210987, 0),
        ("#.############", 5678901234567, -12),
        ("+######.#######", -6543210987654, -7),
        ("####", 1234567890123, -9),
        ("#########^^^^", 3456789012345, -4),
    ];
    rows.iter().map(|&(image, whole, scale)| image_row(image, whole, scale)).collect()
}

/// Gives the row of two files that are merged, with room for every byte: the merged file, or the refusal.
fn merge_row(first: &[u8], second: &[u8]) -> String {
    let answer = match model::merge(first, second, ROOM) {
        Ok(merged) => hexadecimal_words(&merged),
        Err(refusal) => refusal_words(refusal),
    };
    format!("merge {} and {}: {answer}\n", hexadecimal_words(first), hexadecimal_words(second))
}

/// Gives the rows of files that are merged, the second column telling the cameras apart in the first rows: document 02, (vi).
fn merge_rows() -> String {
    let left = [2, 2, b'#', b'#', 1, b'#', 0x05, 0x10, 0x12, 0x10, 0x12, 0x00, 0x99, 0x10];
    let right = [2, 2, b'#', b'#', 1, b'#', 0x00, 0x20, 0x12, 0x20, 0x12, 0x00, 0x34, 0x20, 0x99, 0x20];
    let none = [2, 2, b'#', b'#', 1, b'#'];
    let falling = [1, 2, b'#', b'#', 0x05, 0x12, 0x11];
    let steps = [1, 2, b'#', b'#', 0x05, 0x12];
    let signed = [1, 2, b'+', b'#', 0x05, 0x03];
    let exponential = [1, 5, b'#', b'^', b'^', b'^', b'^', 0x50, 0x00];
    let rows: [(&[u8], &[u8]); 21] = [
        (&left, &right),
        (&right, &left),
        (&left, &none),
        (&none, &right),
        (&none, &none),
        (&[1, 2, b'#', b'#', 0x05, 0x05, 0x12], &[1, 2, b'#', b'#', 0x05, 0x12, 0x12, 0x13]),
        (&[1, 1, b'#', 0x10], &[1, 2, b'#', b'#', 0x10]),
        (&[1, 4, b'#', b'#', b'.', b'#', 0x01, 0x20], &[1, 4, b'#', b'.', b'#', b'#', 0x01, 0x20]),
        (&left, &steps),
        (&signed, &[1, 2, b'+', b'#']),
        (&exponential, &exponential),
        (&falling, &steps),
        (&steps, &falling),
        (&falling, &signed),
        (&signed, &falling),
        (&steps, &[1, 1, b'#', 0x1a]),
        (&falling, &[1, 2, b'#', b'#', 0x05, 0xa0]),
        (&[2, 1, b'#', 1, b'#', 0x10, 0x10, 0x20, 0x2a], &[1, 2, b'#']),
        (&[1, 3, b'#', b'#', b'#', 0x01, 0x20, 0x01], &[0]),
        (&[17, 1, b'#'], &[1, 1, b'x']),
        (&steps, &[0]),
    ];
    rows.iter().map(|&(first, second)| merge_row(first, second)).collect()
}

/// Gives the row of a call that reserves: the place and the size, or the refusal.
fn reserve_row(buffer: &[u8], used: usize) -> String {
    let answer = match model::reserve(buffer, used) {
        Ok((place, size)) => format!("{place} {size}"),
        Err(refusal) => refusal_words(refusal),
    };
    format!("reserve {} at {used}: {answer}\n", hexadecimal_words(buffer))
}

/// Gives the row of a call that writes for a place and a size: the new used length and the buffer, or the refusal.
fn write_row(buffer: &[u8], used: usize, (place, size): (usize, usize), numbers: &[Number]) -> String {
    let answer = match model::write(buffer, used, place, size, numbers) {
        Ok((used, after)) => format!("{used} {}", hexadecimal_words(&after)),
        Err(refusal) => refusal_words(refusal),
    };
    let list: String = numbers.iter().map(|number| format!(" {}", number_words(number))).collect();
    format!("write {} at {used} for {place} {size} of{list}: {answer}\n", hexadecimal_words(buffer))
}

/// Gives the rows of records that are reserved and then written: document 02, (vii).
fn reserved_rows() -> String {
    let one = [1, 2, b'#', b'#', 0x05, 0, 0];
    let two = [2, 2, b'#', b'#', 1, b'#', 0x05, 0x10, 0, 0];
    let none = [1, 2, b'#', b'#'];
    let bad = [1, 1, b'X'];
    let long = [&[1, 14][..], &[b'#'; 14]].concat();
    let reserves: [(&[u8], usize); 10] =
        [(&one, 5), (&one, 4), (&none, 4), (&two, 8), (&two, 7), (&none, 5), (&none, 0), (&[0], 1), (&bad, 3), (&long, 16)];
    let [twelve, five, hundred] = [12, 5, 100].map(|whole| number_of(whole, 0));
    let odd = Number { negative: false, m: 12, e: 0 };
    let pair = [five, number_of(2, 0)];
    let writes: [(&[u8], usize, (usize, usize), &[Number]); 14] = [
        (&one, 5, (5, 1), &[twelve]),
        (&one, 5, (4, 1), &[twelve]),
        (&one, 5, (5, 2), &[twelve]),
        (&two, 8, (8, 2), &pair),
        (&two, 7, (7, 2), &pair),
        (&two, 7, (7, 1), &pair),
        (&none, 5, (4, 1), &[twelve]),
        (&bad, 3, (4, 1), &[twelve]),
        (&one[..6], 5, (5, 1), &[]),
        (&one[..6], 5, (4, 1), &[]),
        (&one[..6], 5, (5, 1), &[hundred]),
        (&one[..6], 5, (5, 1), &[odd]),
        (&one[..5], 5, (5, 1), &[twelve]),
        (&one[..5], 5, (5, 1), &[hundred]),
    ];
    let reserves: String = reserves.iter().map(|&(buffer, used)| reserve_row(buffer, used)).collect();
    reserves + &writes.iter().map(|&(buffer, used, reserved, numbers)| write_row(buffer, used, reserved, numbers)).collect::<String>()
}

/// Gives the row of a text that is entered under a contents into so many bytes: the file, or the refusal with the line's number.
fn enter_row(contents: &[u8], text: &str, room: usize) -> String {
    let answer = match model::enter(contents, text.as_bytes(), room) {
        Entered::File(file) => hexadecimal_words(&file),
        Entered::Refused(refusal) => refusal_words(refusal),
        Entered::Line(line, refusal) => format!("line {line} {}", refusal_words(refusal)),
    };
    format!("enter {} under {} into {room}: {answer}\n", quoted(text.as_bytes()), hexadecimal_words(contents))
}

/// Gives the rows of texts that are entered as records.
fn enter_rows() -> String {
    let steps = [1, 2, b'#', b'#'];
    let two = [2, 2, b'#', b'#', 1, b'#'];
    let known = [&[2, 3][..], b"###", &[6], b"+##.##"].concat();
    let letters = [&[2, 11][..], b"########.##", &[5], b"-##.#"].concat();
    let rows: [(&[u8], &str, usize); 16] = [
        (&known, "columns 2\n012 +24.39\n999 -99.99\nrecords 2\n", ROOM),
        (&letters, "16777216 0\n 16777216.5  - 1.5 \n16777217 +.5E1", ROOM),
        (&steps, "", ROOM),
        (&steps, "columns 1\nrecords 0\n", ROOM),
        (&steps, "99.99\n-12\n", ROOM),
        (&steps, "columns 2\n05\nrecords 1\n", ROOM),
        (&steps, "columns 1\n05\nrecords 2\n", ROOM),
        (&steps, "05\ncolumns 1\n", ROOM),
        (&steps, "05\n\n12\n", ROOM),
        (&steps, "05\n  \n12\n", ROOM),
        (&two, "12 1\n1-2\n", ROOM),
        (&two, "12 1x\n", ROOM),
        (&two, "12 99E99\n", ROOM),
        (&two, "12 1\n100 10\n", ROOM),
        (&steps, "05\n12\n", 5),
        (&[1, 1, b'X'], "x\n", 0),
    ];
    rows.iter().map(|&(contents, text, room)| enter_row(contents, text, room)).collect()
}

/// Gives the row of a file that may have been cut short: the length of what is whole, and the count of bytes behind it, or the refusal.
fn whole_row(file: &[u8]) -> String {
    let answer = match model::whole_length(file) {
        Ok(whole) => format!("{} and {} behind", whole.length, whole.behind),
        Err(refusal) => refusal_words(refusal),
    };
    format!("whole {}: {answer}\n", hexadecimal_words(file))
}

/// Gives the rows of files cut short.
fn whole_rows() -> String {
    let pairs = [2, 3, b'#', b'#', b'#', 1, b'#', 0x01, 0x20, 0x10, 0x99, 0x90, 0x20];
    let bad = [1, 3, b'#', b'#', b'#', 0x0a, 0x20, 0x01];
    let rows: [&[u8]; 4] = [&pairs, &pairs[..12], &pairs[..6], &bad];
    rows.iter().map(|file| whole_row(file)).collect()
}

/// Gives the rows of printed lines: known values, then sources 000, 001 and 004.
fn line_rows() -> String {
    let rows = [
        ("#,###.#", "34"),
        ("##", "1234"),
        (" ANGLE - ##.## LENGTH = +##.##", "2.3;27.123"),
        (" #.#", "1;2;3"),
        ("TOTAL SALES = ##### VALUE $###,###.##", "1242.3;73694.23"),
        (" COEFF = +.###^^^ ERROR = -##^^^", "2.13E-5;2.3E-9"),
        (" COEFF = +.###^^^^ ERROR = -##^^^^", "2.13E-5;2.3E-9"),
        (" +#.##", "317.23"),
        (" PROFIT AND LOSS STATEMENT", ""),
        (" SALESMAN ##### TOTAL SALES $##,###.##", "J. SMITH;9237.51"),
        (" SALESMAN ######## TOTAL SALES $##,###.##", "J. SMITH;9237.51"),
        (" AMOUNT =", "1.23"),
        (" AMOUNT = #####", "1.23"),
        (" ANGLE=##.## LENGTH=+##.#", "2.3;-27.123"),
        (" TOTAL SALES- #### VALUE- $########", "1242;73694.23"),
        (" TOTAL SALES- #### VALUE- $#####.##", "1242;73694.23"),
        (" COEFFICIENT= +.###^^^^ ERROR= -##^^^^", "2.13E-5;2.3E-9"),
        (" SALESMAN: ########", "JOHN DOE"),
        (" +#.#^^^^", "6.2E-7;-1.3E-17;7.3E-11;1.2E-8;-3.9E-8;-4.9E-8;6.9E-10;8.4E-9;5.2E-14;-5.4E-13"),
        (" ANGLE= ###.## DEG ERROR= ##.##", "36.49;5.21;85.60;11.92;135.51;8.61"),
        (" THE ANSWER IS - - -", "1"),
        ("####", "10"),
        ("-### XYZ -###.##", "1;2;3"),
    ];
    rows.iter().map(|&(line, list)| line_row(line, list)).collect()
}

/// Gives the rows of fields, for lines that the sources 000, 001 and 004 show without values.
fn fields_rows() -> String {
    let lines = [
        " CODE NO. = ##### COMPOSITION = ## ###",
        " ##### UNITS AT $#,###.## PER UNIT",
        " +#.##^^^^",
        "TOTAL VALUE RECEIVED:$#,###.##",
        " COST = $#,###,###.## CODE = ####",
        " AMOUNT = $#,###.##",
        " ##.##^^^",
        " ##.##^^^^",
        " ##.###!!!!",
        " +#######",
        " THE ANSWER IS ###",
        " A=####",
        "FEAR IN A HANDFUL OF DUST +###,###,###.##",
    ];
    lines.iter().map(|line| fields_row(line)).collect()
}

/// Prints all rows.
fn main() -> std::io::Result<()> {
    let rows = [
        image_rows(), size_rows(), body_rows(), text_rows(), read_rows(), cut_rows(), page_rows(), digit_rows(), spaced_rows(),
        merge_rows(), reserved_rows(), enter_rows(), whole_rows(), line_rows(), fields_rows(),
    ];
    std::io::stdout().write_all(rows.concat().as_bytes())
}
