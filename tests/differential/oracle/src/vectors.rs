//! A sample of requests to be recorded: document 01's examples, each repair case on each side, and
//! some of every kind.

use crate::gen::{Gen, Keys};
use crate::session::Session;
use iset::probe;

const STORE_A: &str = "15 10 20 1 10 30 2 25 40 3 40 50 4 45 60 5";
const STORE_B: &str = "9 5 9 1 5 9 2 5 9 3";
const EXAMPLES: [&str; 6] = ["0 20 1 25", "0 60 1 70", "1 20 0 25", "2 0 2 0", "1 7 0 7", "0 7 0 7"];

fn examples(gen: &mut Gen) {
    gen.say("# the examples of document 01: store A");
    gen.say(&format!("store 0 4294967295 40{} 1 0", " 7".repeat(40)));
    gen.say(&format!("build {STORE_A}"));
    gen.say("commit");
    gen.say("check");
    for slot in ["0", "1", "2", "3", "4", "5", "4294967295"] {
        gen.say(&format!("remove {slot}"));
    }
    for query in EXAMPLES {
        gen.say(&format!("drain o {query} 2 1 0 0 64"));
        gen.say(&format!("step o {query} 2 1 0"));
    }
    gen.say("step o 0 20 1 25 1 2 6");
    gen.say("# store B");
    gen.say(&format!("store 0 4294967295 24{} 1 0", " 0".repeat(24)));
    gen.say(&format!("build {STORE_B}"));
    gen.say("commit");
    for query in ["5 9", "5 8"] {
        let a = gen.say(&format!("fresh e {query}"));
        gen.say(&format!("drain e {query} {} {} {} 0 64", a[1], a[2], a[3]));
    }
    for slot in ["0", "1", "0"] {
        gen.say(&format!("remove {slot}"));
        gen.say("commit");
    }
    gen.say("bytes 3 1 2 3");
    gen.say("bfrom 10 1");
}

/// Stores that show a case of a repair not seen so far: by removals the first ten, node on the left
/// and on the right, by insertions the others.
fn repairs(gen: &mut Gen, cases: std::ops::Range<usize>) {
    let mut seen = vec![];
    while seen.len() < cases.len() {
        let n = 5 + gen.rng.below(8);
        let keys = gen.keys();
        let mut store = gen.store(n, keys);
        let requests: Vec<_> = if cases.start == 0 {
            (0..store.count).map(|slot| format!("remove {slot}")).collect()
        } else {
            gen.widen(&mut store, 1);
            (0..4).map(|_| gen.range(keys)).map(|(a, b)| format!("insert {a} {b} 5")).collect()
        };
        for request in requests {
            let before = probe::cases();
            let mut trial = Session::new();
            trial.answer(&store.line());
            trial.answer(&request);
            let now = cases.clone().filter(|i| probe::cases()[*i] > before[*i]);
            let new: Vec<_> = now.filter(|i| !seen.contains(i)).collect();
            if !new.is_empty() {
                seen.extend(new);
                gen.say(&store.line());
                gen.say(&request);
                break;
            }
        }
    }
}

/// The first entry and what follows it, an entry beside its equals, each refusal, room given up by
/// a removal and used again.
fn insertions(gen: &mut Gen) {
    gen.say("# insertions: one after the other from the empty map, equal ones too, until it is full");
    gen.say(&format!("store 0 4294967295 64{} 1 255", " 7".repeat(64)));
    for entry in ["5 9 1", "5 9 2", "5 8 3", "1 20 4", "5 9 5", "9 5 6", "7 7 7", "30 40 8", "0 2 9", "5 9 10", "50 60 11", "60 50 12"] {
        gen.say(&format!("insert {entry}"));
        gen.say("commit");
    }
    gen.say("check");
    gen.say("drain o 2 0 2 0 1 1 0 8 8");
    for request in ["remove 3", "insert 4 9 13", "insert 3 4 14"] {
        gen.say(request);
        gen.say("commit");
    }
    gen.say("# each case of insertion's repair, on each side");
    repairs(gen, 10..16);
}

pub fn run(seed: u64) {
    let mut gen = Gen::new(seed, Box::new(std::io::BufWriter::new(std::io::stdout().lock())));
    examples(&mut gen);
    gen.say("# each case of the repair, on each side");
    repairs(&mut gen, 0..10);
    gen.say("# lookups, builds, removals down to nothing");
    for (n, keys) in [(0, Keys::Small), (9, Keys::Small), (7, Keys::Edges), (15, Keys::Medium), (20, Keys::Wide)] {
        gen.build(n, keys);
        let store = gen.store(n, keys);
        gen.say(&store.line());
        gen.queries(1, 4, keys);
        gen.chain(if n == 15 { 6 } else { n / 2 }, keys);
        gen.damage(keys);
    }
    let store = gen.store(64, Keys::Medium);
    gen.say(&store.line());
    gen.queries(1, 2, Keys::Medium);
    gen.chain(5, Keys::Medium);
    gen.say("# bits and stacks");
    gen.bits(36);
    gen.stack(36);
    insertions(&mut gen);
    gen.say("# insertions and removals mixed");
    for (n, keys) in [(0, Keys::Small), (6, Keys::Small), (7, Keys::Edges)] {
        let store = gen.store(n, keys);
        gen.say(&store.line());
        gen.insertions(6, keys);
    }
    gen.say("# unloadings: store A, then others");
    gen.say(&format!("store 0 4294967295 40{} 1 0", " 7".repeat(40)));
    gen.say(&format!("build {STORE_A}"));
    gen.say("commit");
    for query in EXAMPLES {
        gen.say(&format!("unload o {query}"));
    }
    for (n, keys) in [(6, Keys::Small), (9, Keys::Edges), (16, Keys::Medium), (24, Keys::Small)] {
        let store = gen.store(n, keys);
        gen.say(&store.line());
        gen.unloadings(keys);
    }
}
