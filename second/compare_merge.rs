mod files;
mod model;
mod pairs;

// Runs two merging programs with the same arguments and compares standard output, standard error and the exit status byte for byte: first
// cases whose outcome stands here, then pairs of files from the seeded generator. Ends with a status that is not 0 where anything differs
// or an outcome never came up.
// Arguments: the two programs, a folder for the files, the seed, the count of generated pairs.
use std::collections::BTreeMap;
use std::ffi::OsString;
use std::os::unix::ffi::OsStringExt;
use std::path::Path;
use std::process::{Command, ExitCode};

const MAX_FILE: usize = 65_536;

/// What a run of a program leaves behind.
#[derive(PartialEq, Eq)]
struct Outcome {
    status: Option<i32>,
    output: Vec<u8>,
    told: Vec<u8>,
}

/// Runs a program with arguments.
fn run(program: &str, arguments: &[OsString]) -> Outcome {
    let run = Command::new(program).args(arguments).output().unwrap_or_else(|error| panic!("{program}: {error}"));
    Outcome { status: run.status.code(), output: run.stdout, told: run.stderr }
}

/// Gives the kind of an outcome: merged, a refusal with its number, or whatever else was told.
fn kind(outcome: &Outcome) -> String {
    let told = String::from_utf8_lossy(&outcome.told);
    match (outcome.status, told.strip_prefix("refused ")) {
        (Some(0), None) if told.is_empty() && !outcome.output.is_empty() => "merged".to_string(),
        (Some(1), Some(rest)) if outcome.output.is_empty() => format!("refused {}", rest.split(' ').next().unwrap_or("")),
        _ => format!("status {:?}, {} bytes, told {told:?}", outcome.status, outcome.output.len()),
    }
}

/// A case: its name, the arguments, and what is to be merged or told.
struct Case {
    name: &'static str,
    arguments: Vec<OsString>,
    expected: Outcome,
}

/// Gives words as arguments.
fn words(arguments: &[&str]) -> Vec<OsString> {
    arguments.iter().map(OsString::from).collect()
}

/// Gives a case in which a line is told.
fn told(name: &'static str, arguments: &[&str], line: &str) -> Case {
    let expected = Outcome { status: Some(1), output: Vec::new(), told: format!("{line}\n").into_bytes() };
    Case { name, arguments: words(arguments), expected }
}

/// Gives a case in which two files are merged.
fn merges(name: &'static str, arguments: &[&str], output: Vec<u8>) -> Case {
    let expected = Outcome { status: Some(0), output, told: Vec::new() };
    Case { name, arguments: words(arguments), expected }
}

/// Writes a file into the folder, and gives its name.
fn write(folder: &str, name: &str, bytes: &[u8]) -> String {
    let path = Path::new(folder).join(name);
    std::fs::write(&path, bytes).expect("a file in the folder");
    path.to_str().expect("a name").to_string()
}

/// Gives the name of a file that is not in the folder.
fn absent(folder: &str) -> String {
    Path::new(folder).join("gone.rec").to_str().expect("a name").to_string()
}

/// Gives a file with the columns ## and #: each value of the first so often as its count says, the second telling the camera.
fn camera_file(camera: u8, counts: &[usize; 100]) -> Vec<u8> {
    let record = |value: usize| [(value / 10 * 16 + value % 10) as u8, camera * 16];
    let bodies = counts.iter().enumerate().flat_map(|(value, &count)| record(value).repeat(count));
    files::contents_of(&[b"##".to_vec(), b"#".to_vec()]).into_iter().chain(bodies).collect()
}

/// Gives a file with the one column # and so many bytes in all.
fn digits_file(length: usize) -> Vec<u8> {
    let contents = files::contents_of(&[b"#".to_vec()]);
    [&contents[..], &vec![0x50; length - contents.len()]].concat()
}

/// Gives the cases of other counts of arguments and of files that can't be read.
fn argument_cases(folder: &str) -> Vec<Case> {
    let good = write(folder, "good.rec", &digits_file(5));
    let gone = absent(folder);
    let usage = "usage: merge FIRST SECOND";
    let (no_file, no_folder) = (format!("reading {gone} failed"), format!("reading {folder} failed"));
    let other_bytes = OsString::from_vec(b"good.\xff".to_vec());
    vec![
        told("no arguments", &[], usage),
        told("one argument", &[&good], usage),
        told("three arguments", &[&good, &good, &good], usage),
        told("the first file is not there", &[&gone, &good], &no_file),
        told("the second file is not there", &[&good, &gone], &no_file),
        told("no file is there", &[&gone, &gone], &no_file),
        told("an empty name", &["", &good], "reading  failed"),
        told("a folder as the first file", &[folder, &good], &no_folder),
        told("a folder as the second file", &[&good, folder], &no_folder),
        told("a folder as the second file, the first not there", &[&gone, folder], &no_file),
        told("a folder as the first file, the second not there", &[folder, &gone], &no_folder),
        Case { arguments: vec![good.into(), other_bytes], ..told("an argument that is not in UTF-8", &[], "reading the arguments failed") },
    ]
}

/// Gives the cases of empty files, the longest files and longer ones.
fn length_cases(folder: &str) -> Vec<Case> {
    let (good, empty) = (write(folder, "good.rec", &digits_file(5)), write(folder, "empty.rec", b""));
    let longest = write(folder, "longest.rec", &digits_file(MAX_FILE));
    let longer = write(folder, "longer.rec", &digits_file(MAX_FILE + 1));
    let (none, gone) = (write(folder, "none.rec", &[0]), absent(folder));
    vec![
        told("an empty first file", &[&empty, &good], "refused 11 0"),
        told("an empty second file", &[&good, &empty], "refused 11 0"),
        told("a first file that is too long", &[&longer, &good], "refused 11 0"),
        told("a first file that is too long, the second not there", &[&longer, &gone], &format!("reading {gone} failed")),
        told("a second file that is too long", &[&good, &longer], "refused 11 0"),
        told("a first file without columns, a second one that is too long", &[&none, &longer], "refused 11 0"),
        told("a first file without columns", &[&none, &longest], "refused 10 0"),
        merges("a longest file and itself", &[&longest, &longest], digits_file(2 * MAX_FILE - 3)),
    ]
}

/// Gives the case of two longest files with both cameras' records on each first column.
fn longest_case(folder: &str) -> Case {
    let contents = files::contents_of(&[b"##".to_vec(), b"#".to_vec()]).len();
    let records = (MAX_FILE - contents) / 2;
    let (mut first, mut second) = ([100; 100], [200; 100]);
    first[99] += records - first.iter().sum::<usize>();
    second[0] += records - second.iter().sum::<usize>();
    let files = [camera_file(1, &first), camera_file(2, &second)];
    assert!(files.iter().all(|file| file.len() == MAX_FILE), "files of the longest length");
    let mut merged = files[0][..contents].to_vec();
    for value in 0..100 {
        let counts = |counts: [usize; 100]| std::array::from_fn(|index| if index == value { counts[index] } else { 0 });
        merged.extend(&camera_file(1, &counts(first))[contents..]);
        merged.extend(&camera_file(2, &counts(second))[contents..]);
    }
    assert_eq!(merged.len(), 2 * MAX_FILE - contents);
    let names = [write(folder, "left.rec", &files[0]), write(folder, "right.rec", &files[1])];
    merges("two longest files", &[&names[0], &names[1]], merged)
}

/// Runs the cases on both programs, and gives how many there are and how many differ.
fn run_cases(programs: &[&str], folder: &str) -> (usize, usize) {
    let cases: Vec<Case> = argument_cases(folder).into_iter().chain(length_cases(folder)).chain([longest_case(folder)]).collect();
    let mut differ = 0;
    for case in &cases {
        for program in programs {
            let found = run(program, &case.arguments);
            if found != case.expected {
                println!("{}: {program}: {}", case.name, kind(&found));
                differ += 1;
            }
        }
    }
    (cases.len(), differ)
}

/// Runs generated pairs on both programs, and gives the counts of each kind and how many differ.
fn run_pairs(programs: &[&str], folder: &str, seed: u64, count: usize) -> (BTreeMap<String, usize>, usize) {
    let mut random = files::Random::new(seed);
    let (mut kinds, mut differ) = (BTreeMap::new(), 0);
    for index in 0..count {
        let (first, second) = pairs::next_pair(&mut random, files::record_count);
        let arguments = words(&[&write(folder, "first.rec", &first), &write(folder, "second.rec", &second)]);
        let found: Vec<Outcome> = programs.iter().map(|program| run(program, &arguments)).collect();
        if found[0] != found[1] {
            println!("generated pair {index} of {} and {} bytes: {}, but {}", first.len(), second.len(), kind(&found[0]), kind(&found[1]));
            differ += 1;
        }
        *kinds.entry(kind(&found[0])).or_insert(0) += 1;
    }
    (kinds, differ)
}

fn main() -> ExitCode {
    let arguments: Vec<String> = std::env::args().skip(1).collect();
    let [ours, second, folder, seed, count] = &arguments[..] else {
        println!("usage: compare_merge OURS SECOND FOLDER SEED COUNT");
        return ExitCode::FAILURE;
    };
    let programs = [ours.as_str(), second.as_str()];
    let (cases, wrong) = run_cases(&programs, folder);
    let (kinds, differ) = run_pairs(&programs, folder, seed.parse().expect("a seed"), count.parse().expect("a count"));
    let counts: Vec<String> = kinds.iter().map(|(kind, count)| format!("{kind}: {count}")).collect();
    let (pairs, counts) = (kinds.values().sum::<usize>(), counts.join(", "));
    println!("merge: {cases} cases, {wrong} differ, and {pairs} generated pairs ({counts}), {differ} differ");
    let wanted = ["merged", "refused 1", "refused 2", "refused 7", "refused 10", "refused 11", "refused 15", "refused 16", "refused 17"];
    let missing: Vec<&str> = wanted.into_iter().filter(|kind| !kinds.contains_key(*kind)).collect();
    if !missing.is_empty() {
        println!("merge: never came up: {}", missing.join(", "));
    }
    if wrong + differ == 0 && missing.is_empty() { ExitCode::SUCCESS } else { ExitCode::FAILURE }
}
