// A small host: it builds a map, looks up a range, removes an entry, carries the slots that it kept
// over the removal, inserts an entry, and reads through a ticket. To build and run it on x86-64, at
// the top of the repository:
//
//     ./archive
//     ISET_LIB_DIR=$PWD/target/staticlib \
//         cargo run --manifest-path bindings/rust/Cargo.toml --example host
//
// It prints the lines of examples/host.expected, as examples/host.c does.
use iset_proved::{Query, Refusal, Store, Ticket};

const ENTRIES: usize = 8;

/// Prints the entries that intersect a range. The slots are fetched two at a time.
fn look_up(store: &Store, start: u64, end: u64) -> Result<(), Refusal> {
    println!("the entries that intersect [{start}, {end}):");
    for slot in store.hits(Query::overlap(start..end), &mut [0; 2])? {
        let entry = store.get(slot).ok_or(Refusal::NoSuch)?;
        let (range, value) = (entry.range, entry.value);
        println!(
            "  slot {slot}: [{}, {}) value {value}",
            range.start, range.end
        );
    }
    Ok(())
}

/// Removes the entry of a slot, and updates the slots that the host kept: `None` for the removed
/// entry.
fn remove(store: &mut Store, slot: u64, kept: &mut [Option<u64>]) -> Result<(), Refusal> {
    let removed = store.remove(slot)?;
    println!("removed value {} from slot {slot}", removed.value);
    for place in kept {
        if let Some(before) = *place {
            *place = removed.slot_after(before);
            match *place {
                None => println!("  slot {before} was removed"),
                Some(after) => println!("  slot {before} is slot {after} now"),
            }
        }
    }
    Ok(())
}

/// Reads the entry of a ticket, if the store has not changed since.
fn read(store: &Store, ticket: Ticket) -> Result<(), Refusal> {
    let entry = store.read_ticket(ticket)?;
    println!("read value {} in slot {}", entry.value, entry.slot);
    Ok(())
}

fn main() -> Result<(), Refusal> {
    let (mut nodes, mut colours) = ([0; ENTRIES * iset_proved::NODE_WORDS], [0; ENTRIES / 8]);
    let list = [
        [10, 20, 1],
        [10, 30, 2],
        [25, 40, 3],
        [40, 50, 4],
        [45, 60, 5],
    ];
    let mut store = Store::build(&mut nodes, &mut colours, &list)?;
    println!("built {} entries", store.len());
    look_up(&store, 20, 45)?;
    let mut kept = [0, 1, 2, 4].map(Some);
    // A ticket for slot 1: it can be read until the next change.
    let ticket = store.ticket(1);
    read(&store, ticket)?;
    remove(&mut store, 1, &mut kept)?;
    if let Err(why) = read(&store, ticket) {
        println!("refused: {why}");
    }
    println!("inserted value 6 in slot {}", store.insert(30..35, 6)?);
    look_up(&store, 20, 45)?;
    // There is no slot 9: the call is refused, and changes nothing.
    if let Err(why) = remove(&mut store, 9, &mut kept) {
        println!("refused: {why}");
    }
    Ok(())
}
