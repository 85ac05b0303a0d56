//! The crate iset behind the protocol of the program `drive`, and a source of requests. README.md
//! says how it is used.

mod compare;
mod gen;
mod session;
mod shapes;
mod vectors;

use session::Session;
use std::io::{BufRead, Write};

fn main() {
    let args: Vec<String> = std::env::args().skip(1).collect();
    let args: Vec<&str> = args.iter().map(String::as_str).collect();
    let number = |text: &str| text.parse::<u64>().expect("a number is wanted");
    match args[..] {
        ["gen", seed, rounds] => gen::run(number(seed), number(rounds)),
        ["shapes"] => shapes::run(),
        ["vectors", seed] => vectors::run(number(seed)),
        ["answer"] => answer(),
        ["compare", requests, answers] => std::process::exit(compare::run(requests, answers)),
        _ => {
            eprintln!("usage: oracle gen SEED ROUNDS | shapes | vectors SEED | answer < REQUESTS | compare REQUESTS ANSWERS");
            std::process::exit(2);
        }
    }
}

fn answer() {
    let mut session = Session::new();
    let mut out = std::io::BufWriter::new(std::io::stdout().lock());
    for line in std::io::stdin().lock().lines() {
        if let Some(answer) = session.answer(&line.expect("text is wanted")) {
            writeln!(out, "{answer}").unwrap();
        }
    }
}
