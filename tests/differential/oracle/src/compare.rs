//! Answers of `drive`, read from a file, against the crate's, line by line.

use crate::session::Session;
use iset::probe;
use std::collections::BTreeMap;
use std::fs::File;
use std::io::{BufRead, BufReader};

struct Difference {
    request: String,
    crate_says: String,
    drive_says: String,
    on: String,
    size: usize,
}

impl Difference {
    fn show(&self, title: &str) {
        println!("{title}\n{}\n{}\ncrate: {}\ndrive: {}", self.on, self.request, self.crate_says, self.drive_says);
    }
}

/// Whether a request inserts an interval that the store has. The session's store is still the one
/// before it.
fn is_of_an_equal(request: &str, session: &Session) -> bool {
    let Some(entry) = request.strip_prefix("insert ") else { return false };
    let numbers: Vec<u64> = entry.split(' ').map(|n| n.parse().expect("no number")).collect();
    session.store.has(numbers[0], numbers[1])
}

/// How often each case of a repair ran. Whether all did, on both sides.
fn show_cases(cases: &[u64], names: &[&str]) -> bool {
    for (sides, name) in cases.chunks(2).zip(names) {
        println!("{:>9} {name} on the left; {} on the right", sides[0], sides[1]);
    }
    if cases.contains(&0) {
        println!("a case of the repair did not occur");
    }
    !cases.contains(&0)
}

const REMOVAL: [&str; 5] = ["repair case 1, node", "repair case 2, node", "repair case 3, node", "repair case 4, node", "repair case 5, node"];

const INSERTION: [&str; 3] = ["insertion: red uncle, parent", "insertion: two rotations, parent", "insertion: one rotation, parent"];

/// 0 if all is equal and every case of the repair was seen on both sides; else 1.
pub fn run(requests: &str, answers: &str) -> i32 {
    let open = |name: &str| BufReader::new(File::open(name).expect(name)).lines().map(|l| l.expect("text is wanted"));
    let mut answers = open(answers);
    let mut session = Session::new();
    let mut counts = BTreeMap::<String, u64>::new();
    let mut differences = vec![];
    let mut silent = None;
    // After a difference and a commit the two work on different stores, up to the next store or
    // bytes line.
    let (mut differed, mut apart) = (false, false);
    for request in open(requests) {
        let kind = request.split(' ').next().unwrap().to_string();
        match kind.as_str() {
            "store" | "bytes" => (differed, apart) = (false, false),
            "commit" => apart |= differed,
            _ => {}
        }
        let Some(crate_says) = session.answer(&request) else { continue };
        let Some(drive_says) = answers.next() else {
            silent = Some(request);
            break;
        };
        let key = match request.split(' ').nth(1) {
            Some(query @ ("o" | "e")) => format!("{kind} {query}"),
            _ => kind.clone(),
        };
        *counts.entry(key).or_default() += 1;
        let number = crate_says.split(' ').next().unwrap();
        if number != "0" {
            *counts.entry(format!("(refused {number:0>2})")).or_default() += 1;
        } else if is_of_an_equal(&request, &session) {
            *counts.entry("(inserted beside an equal entry)".to_string()).or_default() += 1;
        }
        if crate_says != drive_says && !apart {
            differed = true;
            let of_bits = kind.starts_with('b') && kind != "build";
            let bytes: Vec<_> = session.bytes.iter().map(|b| b.to_string()).collect();
            let on = if of_bits { format!("bytes {} {}", bytes.len(), bytes.join(" ")) } else { session.store.line() };
            differences.push(Difference { size: on.len() + request.len(), request, crate_says, drive_says, on });
        }
    }
    if let Some(more) = answers.next() {
        println!("drive gave an answer to no request: {more}");
        return 1;
    }
    if let Some(request) = &silent {
        println!("drive gave no answer to: {request}");
    }
    if let Some(first) = differences.first() {
        println!("{} answers differ", differences.len());
        first.show("the first:");
        differences.iter().min_by_key(|d| d.size).unwrap().show("the smallest:");
        return 1;
    }
    if silent.is_some() {
        println!("on: {}", session.store.line());
        return 1;
    }
    let all: u64 = counts.iter().filter(|c| !c.0.starts_with('(')).map(|c| c.1).sum();
    for (kind, count) in &counts {
        println!("{count:>9} {kind}");
    }
    let cases = probe::cases();
    for (kind, cases, names) in [("remove", &cases[..10], &REMOVAL[..]), ("insert", &cases[10..], &INSERTION)] {
        if counts.contains_key(kind) && !show_cases(cases, names) {
            return 1;
        }
    }
    println!("{all} answers compared, all equal");
    0
}
