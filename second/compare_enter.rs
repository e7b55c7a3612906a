mod files;
mod model;
mod texts;

// Runs two entering programs with the same arguments and input and compares standard output, standard error and the exit status byte for
// byte: first cases whose outcome stands here, then arguments and texts from the seeded generator. Then enters the listings of generated
// files, made by a listing program, with both: each must give the file again. Ends with a status that is not 0 where anything differs or an
// outcome never came up.
// Arguments: the two programs, the listing program, the seed, the count of generated texts, the count of generated files that are listed.
use std::collections::BTreeMap;
use std::ffi::OsString;
use std::io::Write;
use std::os::unix::ffi::OsStringExt;
use std::process::{Command, ExitCode, Stdio};

const MAX_FILE: usize = 65_536;
const MAX_REPORT: usize = 4 * MAX_FILE + 64;

/// What a run of a program leaves behind.
#[derive(PartialEq, Eq)]
struct Outcome {
    status: Option<i32>,
    output: Vec<u8>,
    told: Vec<u8>,
}

/// Runs a program with arguments on an input.
fn run(program: &str, arguments: &[OsString], input: &[u8]) -> Outcome {
    let mut child = Command::new(program)
        .args(arguments)
        .stdin(Stdio::piped())
        .stdout(Stdio::piped())
        .stderr(Stdio::piped())
        .spawn()
        .unwrap_or_else(|error| panic!("{program}: {error}"));
    // A program need not read an input to its end, so that a write may fail.
    let _ = child.stdin.take().expect("its input").write_all(input);
    let run = child.wait_with_output().expect("its output");
    Outcome { status: run.status.code(), output: run.stdout, told: run.stderr }
}

/// Gives the kind of an outcome: entered, a refusal with its number, of a line or of the whole, or whatever else was told.
fn kind(outcome: &Outcome) -> String {
    let told = String::from_utf8_lossy(&outcome.told);
    let words: Vec<&str> = told.split_whitespace().collect();
    match (outcome.status, outcome.output.is_empty(), &words[..]) {
        (Some(0), false, []) => "entered".to_string(),
        (Some(1), true, ["refused", number, _]) => format!("refused {number}"),
        (Some(1), true, ["line", _, "refused", number, _]) => format!("line refused {number}"),
        _ => format!("status {:?}, {} bytes, told {told:?}", outcome.status, outcome.output.len()),
    }
}

/// A case: its name, the arguments, the input, and what is to be written or told.
struct Case {
    name: &'static str,
    images: Vec<OsString>,
    text: Vec<u8>,
    expected: Outcome,
}

/// Gives images as arguments.
fn words(images: &[&str]) -> Vec<OsString> {
    images.iter().map(OsString::from).collect()
}

/// Gives a case in which a line is told.
fn told(name: &'static str, images: &[&str], text: impl AsRef<[u8]>, line: &str) -> Case {
    let expected = Outcome { status: Some(1), output: Vec::new(), told: format!("{line}\n").into_bytes() };
    Case { name, images: words(images), text: text.as_ref().to_vec(), expected }
}

/// Gives a case in which a file is written: the contents with the images, then the bodies.
fn enters(name: &'static str, images: &[&str], text: impl AsRef<[u8]>, bodies: &[u8]) -> Case {
    let bytes: Vec<Vec<u8>> = images.iter().map(|image| image.as_bytes().to_vec()).collect();
    let output = [&files::contents_of(&bytes)[..], bodies].concat();
    Case { name, images: words(images), text: text.as_ref().to_vec(), expected: Outcome { status: Some(0), output, told: Vec::new() } }
}

/// Gives the cases of arguments.
fn argument_cases() -> Vec<Case> {
    let (long, long_marks) = (format!("#{}", "x".repeat(256)), "#".repeat(257));
    let no_utf8 = vec![OsString::from("#"), OsString::from_vec(b"#\xff".to_vec())];
    vec![
        told("no image", &[], "5\n", "refused 10 0"),
        told("no image and no text", &[], "", "refused 10 0"),
        told("seventeen images", &["#"; 17], "", "refused 10 0"),
        told("seventeen images, the first none", &["X"; 17], "x", "refused 10 0"),
        told("an image without bytes", &[""], "", "refused 1 0"),
        told("a second image that is none, and a line", &["#", "#,#"], "x", "refused 1 1"),
        told("fourteen digits, then an image that is none", &["##############", "X"], "", "refused 2 0"),
        told("an image that is none, then fourteen digits", &["#", "X", "##############"], "", "refused 1 1"),
        told("an image of 257 bytes that begins as one of one byte", &[&long], "5\n", "refused 1 0"),
        told("an image of 257 digits", &[&long_marks], "5\n", "refused 2 0"),
        Case { images: no_utf8, ..told("an argument that is not in UTF-8", &[], "5 5\n", "reading the arguments failed") },
        enters("sixteen images", &["#"; 16], "1 2 3 4 5 6 7 8 9 0 1 2 3 4 5 6", b"\x10\x20\x30\x40\x50\x60\x70\x80\x90\x00\x10\x20\x30\x40\x50\x60"),
    ]
}

/// Gives the cases of lines.
fn line_cases() -> Vec<Case> {
    vec![
        enters("no text", &["##"], "", b""),
        enters("a listing without records", &["##"], "columns 1\nrecords 0\n", b""),
        enters("a listing", &["##"], "columns 1\n05\n12\nrecords 2\n", b"\x05\x12"),
        enters("a listing without its first line", &["##"], "05\nrecords 1\n", b"\x05"),
        enters("a listing without its last line", &["##"], "columns 1\n05\n", b"\x05"),
        enters("a last line without its end", &["##"], "5\n12", b"\x05\x12"),
        enters("blanks around and between", &["##", "+#"], "  5   -  1  \n12 -2\n", b"\x05\x11\x12\x12"),
        told("another count of columns", &["##"], "columns 2\n05\n", "line 1 refused 10 0"),
        told("a count of columns in another form", &["##"], "columns 01\n05\n", "line 1 refused 10 0"),
        told("another count of records", &["##"], "columns 1\n05\nrecords 2\n", "line 3 refused 10 0"),
        told("a blank behind the count of records", &["##"], "05\nrecords 1 ", "line 2 refused 10 0"),
        told("a listing's first line in another place", &["##"], "5\ncolumns 1\n", "line 2 refused 8 0"),
        told("a listing's last line in another place", &["##"], "records 0\n5\n", "line 1 refused 8 0"),
        told("two listings", &["##"], "columns 1\n05\nrecords 1\ncolumns 1\n05\nrecords 1\n", "line 3 refused 8 0"),
        told("an empty line", &["##"], "5\n\n12\n", "line 2 refused 10 0"),
        told("an empty line behind the last", &["##"], "5\n\n", "line 2 refused 10 0"),
        told("blanks alone", &["##"], "5\n  \n", "line 2 refused 8 0"),
        told("two numbers without a blank", &["##", "#"], "5 1\n1-2\n", "line 2 refused 8 0"),
        told("a letter behind a number", &["##", "#"], "5 1x\n", "line 1 refused 8 1"),
        told("0D before the line's end", &["##"], "5\r\n", "line 1 refused 8 0"),
        told("a byte above 7F", &["##", "#"], b"5 \xb2\n", "line 1 refused 8 1"),
        told("e outside its limits", &["##", "#"], "5 99E99\n", "line 1 refused 5 1"),
        told("e outside its limits, and a letter behind", &["##", "#"], "5 99E99x\n", "line 1 refused 5 1"),
        told("three digits of an exponent", &["##"], "1E999\n", "line 1 refused 8 0"),
        told("a number that exceeds its image", &["##", "#"], "5 1\n5 10\n", "line 2 refused 4 1"),
        told("a number that exceeds, and too few", &["#", "#"], "10\n", "line 1 refused 10 0"),
        told("a negative x under an unsigned image", &["#.#^^^^"], ".05\n", "line 1 refused 5 0"),
        told("fifteen numbers and a letter", &["#"; 16], "0 ".repeat(15) + "x", "line 1 refused 8 15"),
        told("sixteen numbers and a letter", &["#"; 16], "0 ".repeat(16) + "x", "line 1 refused 10 0"),
        told("a letter right behind the sixteenth number", &["#"; 16], "0 ".repeat(15) + "0x", "line 1 refused 8 15"),
    ]
}

/// Gives the cases of the longest texts, longer ones, and the longest files.
fn length_cases() -> Vec<Case> {
    let records = MAX_FILE - 3;
    vec![
        told("a text that is too long, and no image", &[], vec![b' '; MAX_REPORT + 1], "refused 11 0"),
        told("a text that is far too long", &["X"], vec![b'\n'; 3 * MAX_REPORT], "refused 11 0"),
        told("a longest text of blanks", &["#"], vec![b' '; MAX_REPORT], "line 1 refused 8 0"),
        told("a longest text of digits", &["#"], vec![b'1'; MAX_REPORT], "line 1 refused 8 0"),
        told("a longest text of empty lines", &["#"], vec![b'\n'; MAX_REPORT], "line 1 refused 10 0"),
        told("a longest text of good lines", &["#"], b"5\n".repeat(MAX_REPORT / 2), "refused 6 0"),
        told("a bad line behind too many good ones", &["#"], [&b"5\n".repeat(100_000)[..], b"x"].concat(), "line 100001 refused 8 0"),
        told("one record too many", &["#"], b"5\n".repeat(records + 1), "refused 6 0"),
        enters("a longest file", &["#"], b"5\n".repeat(records), &vec![0x50; records]),
        enters("a record in a longest text", &["#"], [&vec![b' '; MAX_REPORT - 1][..], b"5"].concat(), b"\x50"),
        enters("a longest listing", &["+.#^^^^"], longest_listing(), &b"\x05\x00".repeat(32_763)),
    ]
}

/// Gives the longest listing of a longest file: a record's line has four times the bytes of its body.
fn longest_listing() -> Vec<u8> {
    [&b"columns 1\n"[..], &b"+.5E+00\n".repeat(32_763), b"records 32763\n"].concat()
}

/// Runs the cases on both programs, and gives how many there are and how many differ.
fn run_cases(programs: &[&str]) -> (usize, usize) {
    let cases: Vec<Case> = argument_cases().into_iter().chain(line_cases()).chain(length_cases()).collect();
    let mut differ = 0;
    for case in &cases {
        for program in programs {
            let found = run(program, &case.images, &case.text);
            if found != case.expected {
                println!("{}: {program}: {}", case.name, kind(&found));
                differ += 1;
            }
        }
    }
    (cases.len(), differ)
}

/// Gives images as arguments; none has other bytes than those of UTF-8.
fn arguments(images: &[Vec<u8>]) -> Vec<OsString> {
    images.iter().cloned().map(OsString::from_vec).collect()
}

/// Damages images: one that no contents can have, none at all, or too many.
fn damage(random: &mut files::Random, images: &mut Vec<Vec<u8>>) {
    let place = random.below(images.len());
    match random.below(8) {
        0 => images.clear(),
        1 => images.resize(17, b"#".to_vec()),
        2 => images[place] = b"#".repeat(250 + random.below(20)),
        3 => images.push(files::image(random)),
        4 => drop(images.pop()),
        _ => images[place] = files::bad_image(random),
    }
}

/// Runs generated arguments and texts on both programs, and gives the counts of each kind and how many differ.
fn run_texts(programs: &[&str], seed: u64, count: usize) -> (BTreeMap<String, usize>, usize) {
    let mut random = files::Random::new(seed);
    let (mut kinds, mut differ) = (BTreeMap::new(), 0);
    for index in 0..count {
        let mut images = files::images(&mut random);
        let records = files::record_count(&mut random, &images);
        let text = texts::next_text(&mut random, &images, records);
        if random.below(8) == 0 {
            damage(&mut random, &mut images);
        }
        let found: Vec<Outcome> = programs.iter().map(|program| run(program, &arguments(&images), &text)).collect();
        if found[0] != found[1] {
            println!("generated text {index} of {} bytes: {}, but {}", text.len(), kind(&found[0]), kind(&found[1]));
            differ += 1;
        }
        *kinds.entry(kind(&found[0])).or_insert(0) += 1;
    }
    (kinds, differ)
}

/// Gives the images of a file whose contents can be read.
fn images_of(file: &[u8]) -> Vec<Vec<u8>> {
    let mut images = Vec::new();
    let mut rest = &file[1..];
    for _ in 0..file[0] {
        let (image, behind) = rest[1..].split_at(usize::from(rest[0]));
        images.push(image.to_vec());
        rest = behind;
    }
    images
}

/// Lists generated files, enters the listing of each that is listed with both programs, and gives how many files were listed, how many bytes
/// the longest has, and how many were not given again byte for byte.
fn run_files(programs: &[&str], listing: &str, seed: u64, count: usize) -> (usize, usize, usize) {
    let mut random = files::Random::new(seed);
    let (mut listed, mut longest, mut differ) = (0, 0, 0);
    while listed < count {
        let file = files::next_file(&mut random);
        let text = run(listing, &[], &file);
        if text.status != Some(0) || text.output.starts_with(b"refused ") {
            continue;
        }
        listed += 1;
        longest = longest.max(file.len());
        for program in programs {
            let found = run(program, &arguments(&images_of(&file)), &text.output);
            if found != (Outcome { status: Some(0), output: file.clone(), told: Vec::new() }) {
                println!("{program}: the listing of a file of {} bytes: {}", file.len(), kind(&found));
                differ += 1;
            }
        }
    }
    (listed, longest, differ)
}

fn main() -> ExitCode {
    let arguments: Vec<String> = std::env::args().skip(1).collect();
    let [ours, second, listing, seed, texts, files] = &arguments[..] else {
        println!("usage: compare_enter OURS SECOND LISTING SEED TEXTS FILES");
        return ExitCode::FAILURE;
    };
    let programs = [ours.as_str(), second.as_str()];
    let seed = seed.parse().expect("a seed");
    let (cases, wrong) = run_cases(&programs);
    println!("enter: {cases} cases, {wrong} differ");
    let (kinds, differ) = run_texts(&programs, seed, texts.parse().expect("a count"));
    let counts: Vec<String> = kinds.iter().map(|(kind, count)| format!("{kind}: {count}")).collect();
    println!("enter: {texts} generated texts ({}), {differ} differ", counts.join(", "));
    let (listed, longest, lost) = run_files(&programs, listing, seed, files.parse().expect("a count"));
    println!("enter: the listings of {listed} generated files of at most {longest} bytes, {lost} not given again");
    let wanted = [
        "entered", "refused 1", "refused 2", "refused 6", "refused 10", "line refused 4", "line refused 5", "line refused 8", "line refused 10",
    ];
    let missing: Vec<&str> = wanted.into_iter().filter(|kind| !kinds.contains_key(*kind)).collect();
    if !missing.is_empty() {
        println!("enter: never came up: {}", missing.join(", "));
    }
    if wrong + differ + lost == 0 && missing.is_empty() { ExitCode::SUCCESS } else { ExitCode::FAILURE }
}
