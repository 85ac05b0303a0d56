//! A map saved as an image and loaded back, and addresses looked up in the image. The tests need
//! the archives: without ISET_LIB_DIR there is nothing here to run.
#![cfg(iset_linked)]
mod chance;

use chance::Chance;
use iset_proved::{image, image_len, Map, Query, Refusal, Store};

const SLOTS: usize = 40;

/// A map of up to `SLOTS` entries, by insertions and removals, with its memory.
fn made(chance: &mut Chance) -> (Map, Vec<u64>, Vec<u8>) {
    let (mut nodes, mut colours) = (vec![0; SLOTS * 8], vec![0; SLOTS / 8]);
    let mut store = Store::open(Map::new(), &mut nodes, &mut colours).unwrap();
    for _ in 0..chance.below(4 * SLOTS as u64) {
        if store.len() < SLOTS && chance.below(3) > 0 {
            let start = chance.below(100);
            let value = chance.below(u64::MAX);
            store
                .insert(start..start + 1 + chance.below(9), value)
                .unwrap();
        } else if !store.is_empty() {
            store.remove(chance.below(store.len() as u64)).unwrap();
        }
    }
    (store.close(), nodes, colours)
}

/// Memory with room for `SLOTS` entries and one slot more, filled by chance.
fn memory(chance: &mut Chance) -> (Vec<u64>, Vec<u8>) {
    let mut number = |below| chance.below(below);
    let nodes = (0..SLOTS * 8 + 8).map(|_| number(u64::MAX)).collect();
    let colours = (0..SLOTS / 8 + 1).map(|_| number(256) as u8).collect();
    (nodes, colours)
}

fn red(colours: &[u8], slot: usize) -> bool {
    colours[slot / 8] >> (slot % 8) & 1 == 1
}

#[test]
fn what_was_written_is_read_back() {
    let mut chance = Chance(11);
    for _ in 0..300 {
        let (map, nodes, colours) = made(&mut chance);
        let count = map.count as usize;
        let mut image = vec![238; image_len(count) + 3];
        assert_eq!(
            map.write_image(&nodes, &colours, &mut image),
            Ok(image_len(count))
        );
        assert_eq!(image[image_len(count)..], [238; 3]);
        image.truncate(image_len(count));

        let (mut words, mut bits) = memory(&mut chance);
        let (old_words, old_bits) = (words.clone(), bits.clone());
        let other = Map {
            count: 9,
            root: 9,
            version: u32::MAX - chance.below(2) as u32,
        };
        let back = other.read_image(&mut words, &mut bits, &image).unwrap();
        assert_eq!((back.count, back.root), (map.count, map.root));
        assert_eq!(back.version, other.version.wrapping_add(1));
        assert_eq!(words[..count * 8], nodes[..count * 8]);
        assert_eq!(words[count * 8..], old_words[count * 8..]);
        for slot in 0..bits.len() * 8 {
            let expected = if slot < count { &colours } else { &old_bits };
            assert_eq!(red(&bits, slot), red(expected, slot));
        }
        assert_eq!(back.check(&words, &bits), Ok(()));

        let store = Store::open(map, &mut words, &mut bits).unwrap();
        let mut again = vec![0; image.len()];
        assert_eq!(store.write_image(&mut again), Ok(image.len()));
        assert_eq!(again, image);
    }
}

/// The entries of an image below a link, in tree order: start, end, value.
fn entries(image: &[u8], link: usize) -> Vec<[u64; 3]> {
    let number = |at: usize| u32::from_le_bytes(image[at..at + 4].try_into().unwrap()) as usize;
    let word = |at: usize| u64::from_le_bytes(image[at..at + 8].try_into().unwrap());
    let count = number(0);
    if link >= count {
        return Vec::new();
    }
    let (entry, links) = (44 + 24 * link, 44 + 24 * count + 12 * link);
    let mut all = entries(image, number(links));
    all.push([word(entry), word(entry + 8), word(entry + 16)]);
    all.extend(entries(image, number(links + 4)));
    all
}

#[test]
fn addresses_are_looked_up_in_the_bytes() {
    let mut chance = Chance(14);
    for _ in 0..50 {
        let (map, nodes, colours) = made(&mut chance);
        let mut saved = vec![0; image_len(map.count as usize)];
        map.write_image(&nodes, &colours, &mut saved).unwrap();
        let all = entries(&saved, map.root as usize);
        assert_eq!(all.len() as u64, map.count);
        let ends = all.iter().flat_map(|entry| [entry[0], entry[1]]);
        let near = ends.flat_map(|end| [end.wrapping_sub(1), end, end + 1]);
        for address in near.chain([0, u64::MAX]) {
            let holds = |entry: &&[u64; 3]| entry[0] <= address && address < entry[1];
            let values: Vec<u64> = all.iter().filter(holds).map(|entry| entry[2]).collect();
            let count = values.len() as u64;
            assert_eq!(image::count(&saved, address), Ok(count));
            for (k, &value) in values.iter().enumerate() {
                assert_eq!(image::value(&saved, address, k as u64), Ok(value));
            }
            for k in [count, count + 1, u64::MAX] {
                assert_eq!(image::value(&saved, address, k), Err(Refusal::NoSuch));
            }
        }
    }
}

#[test]
fn a_flipped_bit_is_refused_or_comes_back() {
    let mut chance = Chance(12);
    let mut met = [0; 3];
    for _ in 0..2000 {
        let (map, nodes, colours) = made(&mut chance);
        let mut image = vec![0; image_len(map.count as usize)];
        map.write_image(&nodes, &colours, &mut image).unwrap();
        let at = chance.below(image.len() as u64 * 8) as usize;
        image[at / 8] ^= 1 << (at % 8);

        let address = chance.below(110);
        let count = image::count(&image, address);
        let (mut words, mut bits) = memory(&mut chance);
        let before = (words.clone(), bits.clone());
        match Map::new().read_image(&mut words, &mut bits, &image) {
            Ok(back) => {
                let mut again = vec![0; image.len()];
                assert_eq!(back.write_image(&words, &bits, &mut again), Ok(image.len()));
                assert_eq!(again, image);
                let (query, mut out) = (Query::overlap(address..=address), [0; SLOTS]);
                let from = back.begin(&words, &bits, query).unwrap();
                let drained = back.drain(&words, &bits, query, from, 0, &mut out).unwrap();
                assert_eq!(count, Ok(drained.hits));
                for (k, &slot) in out[..drained.hits as usize].iter().enumerate() {
                    let value = image::value(&image, address, k as u64);
                    assert_eq!(value, Ok(words[slot as usize * 8 + 2]));
                }
                met[0] += 1;
            }
            Err(why) => {
                assert_eq!((words, bits), before);
                assert_eq!(count, Err(why));
                assert_eq!(image::value(&image, address, 0), Err(why));
                met[match why {
                    Refusal::BadImage => 1,
                    Refusal::Broken => 2,
                    why => panic!("{why}"),
                }] += 1;
            }
        }
    }
    assert!(met.iter().all(|&times| times > 0), "{met:?}");
}

#[test]
fn lengths_and_rooms() {
    let mut chance = Chance(13);
    let (map, nodes, colours) = made(&mut chance);
    let count = map.count as usize;
    let mut image = vec![0; image_len(count)];
    let short = map.write_image(&nodes, &colours, &mut image[1..]);
    assert_eq!(short, Err(Refusal::ShortOutput));
    assert!(image.iter().all(|&byte| byte == 0));
    map.write_image(&nodes, &colours, &mut image).unwrap();

    let (mut words, mut bits) = memory(&mut chance);
    image.push(0);
    for length in (0..image.len() - 1).chain([image.len()]) {
        let refused = Map::new().read_image(&mut words, &mut bits, &image[..length]);
        assert_eq!(refused, Err(Refusal::BadImage), "{length}");
    }
    image.pop();
    let few = Map::new().read_image(&mut words[..count * 8 - 1], &mut bits, &image);
    assert_eq!(few, Err(Refusal::NoRoom));
    let exact = Map::new().read_image(&mut words[..count * 8], &mut bits, &image);
    assert_eq!(exact.map(|back| back.count), Ok(map.count));

    // a refused store keeps its own map
    let mut store = Store::open(Map::new(), &mut words, &mut bits).unwrap();
    let slot = store.insert(1..2, 3).unwrap();
    image[0] ^= 1;
    assert_eq!(store.read_image(&image), Err(Refusal::BadImage));
    assert_eq!(store.get(slot).map(|entry| entry.value), Some(3));
    let ticket = store.ticket(slot);
    image[0] ^= 1;
    store.read_image(&image).unwrap();
    assert_eq!(store.len(), count);
    assert_eq!(store.read_ticket(ticket), Err(Refusal::Stale));
}
