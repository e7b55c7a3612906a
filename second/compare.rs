mod files;
mod model;

// Runs two listing programs on the same input and compares every byte that they print: first the cases of a file, whose outputs stand
// there, then files from the seeded generator. Ends with a status that is not 0 where anything differs or a refusal never came up.
// Arguments: the two programs, the file of cases, the seed, the count of generated files.
use std::collections::BTreeMap;
use std::io::Write;
use std::process::{Command, ExitCode, Stdio};

/// Runs a program on the input, and gives what it prints: a status that is not 0, or no output at all, ends the comparison.
fn output(program: &str, input: &[u8]) -> Vec<u8> {
    let mut child = Command::new(program)
        .stdin(Stdio::piped())
        .stdout(Stdio::piped())
        .spawn()
        .unwrap_or_else(|error| panic!("{program}: {error}"));
    // A program need not read an input to its end, so that a write may fail.
    let _ = child.stdin.take().expect("its input").write_all(input);
    let run = child.wait_with_output().expect("its output");
    assert!(run.status.success(), "{program}: {}", run.status);
    assert!(!run.stdout.is_empty(), "{program}: no output");
    run.stdout
}

/// Reads a word of a case: bytes in hexadecimal, or one byte, a star and how often it stands.
fn bytes(word: &str) -> Option<Vec<u8>> {
    if let Some((byte, count)) = word.split_once('*') {
        return Some(vec![u8::from_str_radix(byte, 16).ok()?; count.parse().ok()?]);
    }
    (0..word.len()).step_by(2).map(|at| u8::from_str_radix(word.get(at..at + 2)?, 16).ok()).collect()
}

/// A case: its name, the input, and the output.
struct Case {
    name: String,
    input: Vec<u8>,
    expected: Vec<u8>,
}

/// Reads a case: NAME: BYTES -> LINE | LINE
fn case(line: &str) -> Option<Case> {
    let (name, rest) = line.split_once(':')?;
    let (input, expected) = rest.split_once("->")?;
    let input: Option<Vec<Vec<u8>>> = input.split_whitespace().map(bytes).collect();
    let expected = expected.split('|').map(|line| format!("{}\n", line.strip_prefix(' ').unwrap_or(line).trim_end())).collect::<String>();
    Some(Case { name: name.to_string(), input: input?.concat(), expected: expected.into_bytes() })
}

/// Gives the kind of an output: a listing, or a refusal with its number.
fn kind(output: &[u8]) -> String {
    let text = String::from_utf8_lossy(output);
    match text.strip_prefix("refused ") {
        Some(rest) => format!("refused {}", rest.split(' ').next().unwrap_or("")),
        None => "listed".to_string(),
    }
}

/// Runs the cases on both programs, and gives how many there are and how many differ.
fn run_cases(programs: &[&str], text: &str) -> (usize, usize) {
    let lines = text.lines().filter(|line| !line.is_empty() && !line.starts_with('#'));
    let (mut count, mut differ) = (0, 0);
    for line in lines {
        count += 1;
        let Some(case) = case(line) else {
            println!("no case: {line}");
            differ += 1;
            continue;
        };
        for program in programs {
            let found = output(program, &case.input);
            if found != case.expected {
                println!("{}: {program} prints {:?}", case.name, String::from_utf8_lossy(&found));
                differ += 1;
            }
        }
    }
    (count, differ)
}

/// Runs generated files on both programs, and gives the counts of each kind and how many differ.
fn run_files(programs: &[&str], seed: u64, count: usize) -> (BTreeMap<String, usize>, usize) {
    let mut random = files::Random::new(seed);
    let (mut kinds, mut differ) = (BTreeMap::new(), 0);
    for index in 0..count {
        let file = files::next_file(&mut random);
        let found: Vec<Vec<u8>> = programs.iter().map(|program| output(program, &file)).collect();
        if found[0] != found[1] {
            println!("generated file {index} of {} bytes: the outputs differ", file.len());
            differ += 1;
        }
        *kinds.entry(kind(&found[0])).or_insert(0) += 1;
    }
    (kinds, differ)
}

fn main() -> ExitCode {
    let arguments: Vec<String> = std::env::args().skip(1).collect();
    let [ours, second, cases, seed, count] = &arguments[..] else {
        println!("usage: compare LISTING LISTING CASES SEED COUNT");
        return ExitCode::FAILURE;
    };
    let programs = [ours.as_str(), second.as_str()];
    let text = std::fs::read_to_string(cases).expect("the cases");
    let (cases, wrong) = run_cases(&programs, &text);
    println!("listing: {cases} cases, {wrong} differ");
    let (kinds, differ) = run_files(&programs, seed.parse().expect("a seed"), count.parse().expect("a count"));
    let counts: Vec<String> = kinds.iter().map(|(kind, count)| format!("{kind}: {count}")).collect();
    println!("listing: {count} generated files ({}), {differ} differ", counts.join(", "));
    let missing: Vec<&str> = ["listed", "refused 1", "refused 2", "refused 7", "refused 10", "refused 11"]
        .into_iter()
        .filter(|kind| !kinds.contains_key(*kind))
        .collect();
    if !missing.is_empty() {
        println!("listing: never came up: {}", missing.join(", "));
    }
    if wrong + differ == 0 && missing.is_empty() && cases > 0 {
        ExitCode::SUCCESS
    } else {
        ExitCode::FAILURE
    }
}
