//! One store, read by several threads. It needs the archives: without ISET_LIB_DIR there is nothing
//! here to run.
#![cfg(iset_linked)]
use std::thread;

use iset_proved::Store;

#[test]
fn readers() {
    let list: Vec<[u64; 3]> = (0..1000).map(|k| [k, k + 2, k]).collect();
    let (mut nodes, mut colours) = (vec![0; 8000], vec![0; 125]);
    let mut store = Store::build(&mut nodes, &mut colours, &list).unwrap();
    let read = store.read();
    thread::scope(|scope| {
        for _ in 0..3 {
            scope.spawn(move || assert!(read.entries().map(|entry| entry.value).eq(0..1000)));
        }
    });
    assert_eq!(store.remove(7).unwrap().value, 7);
}
