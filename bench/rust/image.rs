//! A plain Rust writer, reader and lookup of images, with the tests that the library's calls make.
use super::{rust_check, Seen, U};
use core::slice::{from_raw_parts, from_raw_parts_mut};

/// The eleven numbers that an image begins with.
fn heading(count: usize, root: u32) -> [u32; 11] {
    let (n, size) = (count as u32, (count + 7) as u32 / 8);
    [n, root, 1, 44, n * 24, 2, 44 + n * 24, n * 12, 3, 44 + n * 36, size]
}

/// The image's length, 0 where the map or the room is refused.
#[no_mangle]
pub unsafe extern "C" fn rust_write_image(words: *const u64, w: usize, bytes: *const u8, b: usize, count: u64, root: u64, out: *mut u8, room: usize) -> usize {
    let n = count as usize;
    let size = 44 + 36 * n + (n + 7) / 8;
    if n > (w / 8).min(8 * b).min(65535) || !rust_check(words, w, bytes, b, count, root) || room < size {
        return 0;
    }
    let (words, bytes) = (from_raw_parts(words, w), from_raw_parts(bytes, b));
    let out = &mut from_raw_parts_mut(out, room)[..size];
    for (place, number) in out[..44].chunks_exact_mut(4).zip(heading(n, root as u32)) {
        place.copy_from_slice(&number.to_le_bytes());
    }
    let (entries, rest) = out[44..].split_at_mut(24 * n);
    let (links, colours) = rest.split_at_mut(12 * n);
    for ((node, entry), link) in words.chunks_exact(8).zip(entries.chunks_exact_mut(24)).zip(links.chunks_exact_mut(12)) {
        for k in 0..3 {
            entry[8 * k..8 * k + 8].copy_from_slice(&node[k].to_le_bytes());
            link[4 * k..4 * k + 4].copy_from_slice(&(node[5 + k] as u32).to_le_bytes());
        }
    }
    colours.copy_from_slice(&bytes[..(n + 7) / 8]);
    if n % 8 != 0 {
        colours[n / 8] &= (1 << (n % 8)) - 1;
    }
    size
}

struct Image<'a> {
    entries: &'a [u8],
    links: &'a [u8],
    colours: &'a [u8],
    count: u64,
}

impl Image<'_> {
    fn number(&self, slot: usize, k: usize) -> u64 {
        u64::from_le_bytes(self.entries[24 * slot + 8 * k..][..8].try_into().unwrap())
    }

    fn link(&self, slot: usize, k: usize) -> u64 {
        u32::from_le_bytes(self.links[12 * slot + 4 * k..][..4].try_into().unwrap()) as u64
    }

    fn red(&self, slot: usize) -> bool {
        self.colours[slot / 8] >> (slot % 8) & 1 == 1
    }

    /// The check of a subtree, with the hull that it works out; None where a clause fails.
    fn subtree(&self, link: u64, parent: u64, height: u32) -> Option<Option<Seen>> {
        if link == U {
            return Some(None);
        }
        if link >= self.count || height == 0 {
            return None;
        }
        let s = link as usize;
        let (own, below) = ((self.number(s, 0), self.number(s, 1)), (self.link(s, 0), self.link(s, 1)));
        if self.link(s, 2) != parent || own.0 >= own.1 || below.0 == below.1 && below.0 != U {
            return None;
        }
        let left = self.subtree(below.0, link, height - 1)?;
        let right = self.subtree(below.1, link, height - 1)?;
        Seen { size: 1, blacks: 0, red: self.red(s), hull: own, first: own, last: own }.with(left, right).map(Some)
    }

    /// Works out the hulls below a link, children first. Returns the hull of the link's slot.
    fn hulls(&self, words: &mut [u64], link: u64) -> (u64, u64) {
        let s = link as usize;
        let mut hull = (words[8 * s], words[8 * s + 1]);
        for k in [5, 6] {
            let child = words[8 * s + k];
            if child != U {
                let below = self.hulls(words, child);
                hull = (hull.0.min(below.0), hull.1.max(below.1));
            }
        }
        words[8 * s + 3] = hull.0;
        words[8 * s + 4] = hull.1;
        hull
    }
}

/// The map of an image and its root, if the bytes are laid out as one.
fn parsed(image: &[u8]) -> Option<(Image<'_>, u64)> {
    let size = image.len();
    if size < 44 {
        return None;
    }
    let mut head = [0; 11];
    for (number, place) in head.iter_mut().zip(image.chunks_exact(4)) {
        *number = u32::from_le_bytes(place.try_into().unwrap());
    }
    let n = head[0] as usize;
    let long = 44 + 36 * n + (n + 7) / 8;
    if n > 65536 || head != heading(n, head[1]) || size != long || n % 8 != 0 && image[size - 1] >> (n % 8) != 0 {
        return None;
    }
    let (entries, rest) = image[44..].split_at(24 * n);
    let (links, colours) = rest.split_at(12 * n);
    Some((Image { entries, links, colours, count: n as u64 }, head[1] as u64))
}

impl Image<'_> {
    /// The check of the whole map.
    fn good(&self, root: u64) -> bool {
        match self.subtree(root, U, 33) {
            None => false,
            Some(None) => self.count == 0,
            Some(Some(seen)) => seen.size == self.count && !seen.red,
        }
    }

    /// How many entries below a link hold an address.
    fn holding(&self, link: u64, address: u64) -> u64 {
        if link >= self.count {
            return 0;
        }
        let s = link as usize;
        let left = self.holding(self.link(s, 0), address);
        let here = self.number(s, 0) <= address && address < self.number(s, 1);
        left + here as u64 + self.holding(self.link(s, 1), address)
    }
}

/// How many entries of an image hold an address: with the library's tests, or without any but the
/// layout.
#[no_mangle]
pub unsafe extern "C" fn rust_image_count(image: *const u8, size: usize, address: u64, tested: bool) -> u64 {
    match parsed(from_raw_parts(image, size)) {
        Some((map, root)) if !tested || map.count < 65536 && map.good(root) => map.holding(root, address),
        _ => 0,
    }
}

/// The image's root, or 2^32 where the image is refused.
#[no_mangle]
pub unsafe extern "C" fn rust_read_image(words: *mut u64, w: usize, bytes: *mut u8, b: usize, image: *const u8, size: usize) -> u64 {
    let refused = 1 << 32;
    let (map, root) = match parsed(from_raw_parts(image, size)) {
        Some(found) => found,
        None => return refused,
    };
    let n = map.count as usize;
    if n > (w / 8).min(8 * b).min(65535) || !map.good(root) {
        return refused;
    }
    let (words, bytes) = (from_raw_parts_mut(words, w), from_raw_parts_mut(bytes, b));
    for (s, node) in words.chunks_exact_mut(8).take(n).enumerate() {
        for k in 0..3 {
            node[k] = map.number(s, k);
            node[5 + k] = map.link(s, k);
        }
    }
    if n > 0 {
        map.hulls(words, root);
    }
    for s in 0..n {
        bytes[s / 8] = bytes[s / 8] & !(1 << (s % 8)) | (map.red(s) as u8) << (s % 8);
    }
    root
}
