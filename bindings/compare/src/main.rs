//! Makes generated calls of every kind, valid and damaged, of the library, and compares each answer word, each result and each lent byte with
//! what the second implementation of the rules in `second/` gives. Ends with a status that is not 0 where anything differs, or where a kind of
//! call, a refusal that it can give or a size at a limit never came up; in the mode `uninitialised`, where a kind of call was never done.
//!
//! Arguments: a mode, the seed and the count of calls. The modes are
//! - `plain`: each call through the crate's types, and once more through its module `raw`;
//! - `guarded`: each call with every lent slice in pages of its own right before an inaccessible page, then all of them with it right behind;
//!   what is only read is in read-only pages;
//! - `uninitialised`: each call with every slice in a heap block of its own, of which only what the call may read is initialised: to be run
//!   under a tool that watches the heap.
//!
//! `deaths` makes calls that are wrong on purpose, each in a process of its own, which have to end by a signal. `wrong NAME` makes one.

mod call;
mod expected;
mod inputs;
mod made;
mod memory;

// Not this package's own: formatting it leaves them as they are.
#[path = "../../../second/draws.rs"]
#[rustfmt::skip]
mod draws;
#[path = "../../../second/files.rs"]
#[rustfmt::skip]
mod files;
#[path = "../../../second/model.rs"]
#[rustfmt::skip]
mod model;
#[path = "../../../second/pairs.rs"]
#[rustfmt::skip]
mod pairs;
#[path = "../../../second/texts.rs"]
#[rustfmt::skip]
mod texts;

use call::{Answer, Call, Kind, EXPECTED, UNTOUCHED};
use files::Random;
use memory::{Guarded, Lender, Plain, Side, Uninitialised};
use std::collections::BTreeMap;
use std::os::unix::process::ExitStatusExt;
use std::process::{Command, ExitCode, Stdio};
use std::time::Instant;

/// How often something came up, by the kind of call.
type Counts = BTreeMap<(Kind, String), usize>;

/// The mode that is run for few calls, since the tool that it is for is slow.
const FEW_CALLS: &str = "uninitialised";

/// The kinds that write at the start of a buffer or of a slice, which is to be too short by one, just long enough, and longer.
const WRITING: &[Kind] = &[
    Kind::Pack,
    Kind::PackWithRemainders,
    Kind::Unpack,
    Kind::Alpha,
    Kind::ReadTextNumbers,
    Kind::Print,
    Kind::WriteContents,
    Kind::Add,
    Kind::WriteReserved,
    Kind::List,
    Kind::Enter,
    Kind::Find,
    Kind::Merge,
];

/// Sizes at limits that have to come up, besides room.
const LIMITS: &[(Kind, &str)] = &[
    (Kind::Find, "a file of over 255 records"),
    (Kind::List, "a file of over 255 records"),
    (Kind::Merge, "a file of over 255 records"),
    (Kind::Print, "a line of 4096 bytes"),
    (Kind::Print, "a line of 4097 bytes"),
    (Kind::Print, "64 elements"),
    (Kind::Print, "65 elements"),
    (Kind::Print, "a place above 255"),
    (Kind::ReadContents, "16 columns"),
    (Kind::ReadContents, "17 columns"),
    (Kind::Pack, "16 numbers"),
    (Kind::Pack, "17 numbers"),
    (Kind::Unpack, "16 numbers"),
    (Kind::Add, "16 numbers"),
    (Kind::Add, "17 numbers"),
    (Kind::Find, "64 positions"),
    (Kind::Find, "65 positions"),
    (Kind::ReadTextNumbers, "stop 0"),
    (Kind::ReadTextNumbers, "stop 5"),
    (Kind::ReadTextNumbers, "stop 8"),
    (Kind::ReadTextNumbers, "stop 10"),
    (Kind::Enter, "a line refused"),
    (Kind::Enter, "no line refused"),
];

/// Gives all that has to come up in a mode, with the kind of call: for few calls, each kind with a call that is done.
fn demands(mode: &str) -> Vec<(Kind, String)> {
    if mode == FEW_CALLS {
        return EXPECTED.iter().map(|(kind, _)| (*kind, "0".to_string())).collect();
    }
    let numbers = EXPECTED.iter().flat_map(|(kind, numbers)| numbers.iter().map(|number| (*kind, format!("{number}"))));
    let rooms = ["room one short", "room just enough", "room left"];
    let rooms = WRITING.iter().flat_map(|&kind| rooms.map(|room| (kind, room.to_string())));
    let limits = LIMITS.iter().map(|(kind, limit)| (*kind, limit.to_string()));
    numbers.chain(rooms).chain(limits).collect()
}

/// Gives how much room a call has, and how much of it a call that is done fills.
fn room_and_size(call: &Call, answer: &Answer) -> (usize, usize) {
    match call.kind {
        Kind::Unpack | Kind::ReadTextNumbers => (call.words.len(), answer.outs[0] as usize),
        Kind::Find => (call.places.len(), call.numbers.len()),
        _ => (call.buffer.len(), answer.outs[0] as usize),
    }
}

/// Gives the call with one more byte, word or place to write to.
fn with_more_room(call: &Call) -> Call {
    let mut more = call.clone();
    match call.kind {
        Kind::Unpack | Kind::ReadTextNumbers => more.words.push(0),
        Kind::Find => more.places.push(0),
        _ => more.buffer.push(0),
    }
    more
}

/// Tells of a call whether its room is one too short, just enough or more.
fn room_tag(call: &Call, answer: &Answer) -> Option<&'static str> {
    if answer.number() == 6 {
        return (expected::answer(&with_more_room(call)).word == 0).then_some("room one short");
    }
    let (room, size) = room_and_size(call, answer);
    (answer.word == 0 && size > 0).then_some(if room == size { "room just enough" } else { "room left" })
}

/// Tells which limits a call comes to.
fn limit_tags(call: &Call, answer: &Answer) -> Vec<String> {
    let (numbers, first) = (call.numbers.len(), call.first.len());
    match call.kind {
        Kind::Print => {
            let place = if answer.word / 256 > 255 { "a place above 255" } else { "a place below 256" };
            vec![format!("a line of {first} bytes"), format!("{} elements", call.elements.len()), place.to_string()]
        }
        Kind::ReadContents => vec![format!("{} columns", call.first.first().unwrap_or(&0))],
        Kind::Unpack => vec![format!("{} numbers", if answer.word == 0 { answer.outs[0] } else { 0 })],
        Kind::Pack | Kind::Add if answer.word == 0 || numbers > 16 => vec![format!("{numbers} numbers")],
        Kind::Find => vec![format!("{numbers} positions")],
        Kind::ReadTextNumbers if answer.word == 0 => vec![format!("stop {}", answer.outs[2] % 256)],
        Kind::Enter if answer.word > 0 => vec![if answer.outs[1] > 0 { "a line refused" } else { "no line refused" }.to_string()],
        _ => Vec::new(),
    }
}

/// Tells whether a call that is done has read a file of over 255 records.
fn record_tag(call: &Call, answer: &Answer) -> Option<&'static str> {
    if answer.word > 0 || !matches!(call.kind, Kind::Find | Kind::List | Kind::Merge) {
        return None;
    }
    let records = model::read_file(&call.first).map_or(0, |(_, bodies)| bodies.len());
    (records > 255).then_some("a file of over 255 records")
}

/// Counts what came up with a call.
fn count(counts: &mut Counts, call: &Call, answer: &Answer) {
    let room = if WRITING.contains(&call.kind) { room_tag(call, answer) } else { None };
    let named = [room, record_tag(call, answer)].into_iter().flatten().map(str::to_string);
    let tags = limit_tags(call, answer).into_iter().chain([answer.number().to_string()]).chain(named);
    for tag in tags {
        *counts.entry((call.kind, tag)).or_insert(0) += 1;
    }
}

/// Compares what a call was to answer with what it answered. Tells what differs.
fn is_same(call: &Call, found: &Answer, wanted: &Answer, way: &str) -> bool {
    if found != wanted {
        println!("{way}: a call differs\n{call:x?}\nwanted {wanted:x?}\nfound {found:x?}");
    }
    found == wanted
}

/// Makes a call in plain memory both ways.
fn plain(call: &Call, wanted: &Answer, memory: &mut Plain) -> bool {
    let typed = is_same(call, &made::typed_answer(call), wanted, "the crate's types");
    typed & is_same(call, &made::raw_answer(call, &mut memory.lend(call)), wanted, "raw")
}

/// Makes a call beside inaccessible pages.
fn guarded(call: &Call, wanted: &Answer, memory: &mut Guarded) -> bool {
    let found = made::raw_answer(call, &mut memory.lend(call));
    let kept = memory.is_kept();
    if !kept {
        println!("guarded: bytes beside a lent slice are changed\n{call:x?}");
    }
    is_same(call, &found, wanted, "guarded") && kept
}

/// Makes a call in memory that is not initialised, and compares what the call says that it has written.
fn uninitialised(call: &Call, wanted: &Answer) -> bool {
    let mut memory = Uninitialised::new(call);
    let mut lent = memory.lend();
    let word = made::raw_word(call, &mut lent);
    let outs = made::outs(call.kind, &lent);
    let outs_same = outs.iter().zip(&wanted.outs).all(|(found, wanted)| *wanted == UNTOUCHED || found == wanted);
    let (mut bytes, mut words, mut places) = (0, 0, 0);
    if wanted.word == 0 && WRITING.contains(&call.kind) {
        let size = room_and_size(call, wanted).1;
        match call.kind {
            Kind::Unpack | Kind::ReadTextNumbers => words = size,
            Kind::Find => places = size,
            Kind::PackWithRemainders => (bytes, words) = (size, call.numbers.len()),
            _ => bytes = size,
        }
    }
    let numbers = lent.number_words.iter().take(words).map(|number| number.word());
    let found_words: Vec<u64> = numbers.chain(lent.remainder_words.iter().take(words).map(|cut| cut.word())).collect();
    let same = word == wanted.word
        && outs_same
        && lent.buffer[..bytes] == wanted.buffer[..bytes]
        && found_words[..] == wanted.words[..words]
        && lent.places[..places] == wanted.places[..places];
    if !same {
        println!("uninitialised: a call differs\n{call:x?}\nwanted {wanted:x?}");
    }
    same
}

/// Makes so many calls and counts them, or fewer if ten of them differ; gives how many were made and how many of these differ.
fn run(seed: u64, calls: usize, counts: &mut Counts, mut make: impl FnMut(&Call, &Answer) -> bool) -> (usize, usize) {
    let mut random = Random::new(seed);
    let (mut made, mut differ) = (0, 0);
    while made < calls && differ < 10 {
        made += 1;
        let call = inputs::next_call(&mut random);
        let wanted = expected::answer(&call);
        count(counts, &call, &wanted);
        differ += usize::from(!make(&call, &wanted));
    }
    (made, differ)
}

/// Tells how often each kind of call came up, with each number, and what never did; gives whether all that has to came up.
fn report(mode: &str, counts: &Counts) -> bool {
    for (kind, numbers) in EXPECTED {
        let count = |tag: &str| counts.get(&(*kind, tag.to_string())).copied().unwrap_or(0);
        let numbers: Vec<String> = numbers.iter().map(|number| format!("{number}: {}", count(&number.to_string()))).collect();
        println!("{kind:?}: {}", numbers.join(", "));
    }
    let missing: Vec<(Kind, String)> = demands(mode).into_iter().filter(|demand| !counts.contains_key(demand)).collect();
    for (kind, tag) in &missing {
        println!("{kind:?}: never came up: {tag}");
    }
    // A number that the rules do not name for the kind.
    let named = |kind: &Kind, number: u64| EXPECTED.iter().any(|(other, numbers)| other == kind && numbers.contains(&number));
    let other = counts.keys().find(|(kind, tag)| tag.parse().is_ok_and(|number| !named(kind, number)));
    if let Some((kind, tag)) = other {
        println!("{kind:?}: came up, and is not named for it: {tag}");
    }
    missing.is_empty() && other.is_none()
}

/// Runs this program with arguments, and gives the signal that ended it, if one did, or else that it ended by itself with status 0.
fn ended_by(arguments: &[&str]) -> Result<i32, bool> {
    let program = std::env::current_exe().expect("this program");
    let status = Command::new(program).args(arguments).stdout(Stdio::null()).stderr(Stdio::null()).status().expect("a process");
    status.signal().ok_or(status.success())
}

/// Makes each wrong call in a process of its own, which has to end by the signal for memory that can't be accessed, and the right ones, which
/// may not.
fn deaths() -> bool {
    let right = ended_by(&["wrong", memory::RIGHT_CALLS]) == Err(true);
    if !right {
        println!("deaths: the right calls did not end well");
    }
    let alive: Vec<&str> = memory::WRONG_CALLS.into_iter().filter(|name| !matches!(ended_by(&["wrong", name]), Ok(7 | 11))).collect();
    for name in &alive {
        println!("deaths: not ended by a signal: {name}");
    }
    println!("deaths: {} wrong calls, {} of them not ended by a signal", memory::WRONG_CALLS.len(), alive.len());
    right && alive.is_empty()
}

/// Makes calls in a mode; gives how many were made and how many differ, or nothing for a mode that there is not.
fn compare(mode: &str, seed: u64, calls: usize, counts: &mut Counts) -> Option<(usize, usize)> {
    match mode {
        "plain" => {
            let mut memory = Plain::default();
            Some(run(seed, calls, counts, |call, wanted| plain(call, wanted, &mut memory)))
        }
        "guarded" => {
            let [before, behind] = [Side::Before, Side::Behind].map(|side| {
                let mut memory = Guarded::new(side);
                run(seed, calls, counts, |call, wanted| guarded(call, wanted, &mut memory))
            });
            Some((before.0 + behind.0, before.1 + behind.1))
        }
        FEW_CALLS => Some(run(seed, calls, counts, uninitialised)),
        _ => None,
    }
}

/// Compares in a mode and tells the figures; gives whether all is as it should be.
fn compared(mode: &str, seed: &str, calls: &str) -> Option<bool> {
    let (seed, calls) = (seed.parse().ok()?, calls.parse().ok()?);
    let (start, mut counts) = (Instant::now(), Counts::new());
    let (made, differ) = compare(mode, seed, calls, &mut counts)?;
    let complete = report(mode, &counts);
    let seconds = start.elapsed().as_secs_f64();
    println!("{mode}: {made} calls in {seconds:.1} s, {differ} differ");
    Some(differ == 0 && complete)
}

fn main() -> ExitCode {
    let arguments: Vec<String> = std::env::args().skip(1).collect();
    let arguments: Vec<&str> = arguments.iter().map(String::as_str).collect();
    let good = match arguments[..] {
        ["wrong", name] => memory::make_wrong(name).then_some(true),
        ["deaths"] => Some(deaths()),
        [mode, seed, calls] => compared(mode, seed, calls),
        _ => None,
    };
    match good {
        Some(true) => ExitCode::SUCCESS,
        Some(false) => ExitCode::FAILURE,
        None => {
            println!("usage: compare plain|guarded|uninitialised SEED COUNT, or compare deaths, or compare wrong NAME");
            ExitCode::FAILURE
        }
    }
}
