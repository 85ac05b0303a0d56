//! Looking up an address in an image, a saved map, without loading it: over the bytes where they
//! are, for example in a mapped file. Each call tests the whole image and goes over all its
//! entries, twice. Whoever asks often loads the image, by
//! [`Map::read_image`](crate::Map::read_image) or [`Store::read_image`](crate::Store::read_image),
//! and looks up in the map.
//!
//! An entry holds an address if `start <= address < end`. An image is refused with
//! [`Refusal::BadImage`], [`Refusal::NoRoom`] if it has more than 65,535 entries, or
//! [`Refusal::Broken`].
//!
#![cfg_attr(iset_linked, doc = "```")]
#![cfg_attr(not(iset_linked), doc = "```no_run")]
//! use iset_proved::{image, image_len, Refusal, Store};
//!
//! # fn main() -> Result<(), Refusal> {
//! let list = [[10, 20, 1], [10, 30, 2], [25, 40, 3]];
//! let (mut nodes, mut colours) = ([0; 3 * 8], [0; 1]);
//! let mut saved = [0; image_len(3)];
//! Store::build(&mut nodes, &mut colours, &list)?.write_image(&mut saved)?;
//!
//! assert_eq!(image::count(&saved, 10)?, 2);
//! assert_eq!(image::value(&saved, 10, 1)?, 2);
//! assert_eq!(image::value(&saved, 10, 2), Err(Refusal::NoSuch));
//! assert_eq!(image::count(&saved[1..], 10), Err(Refusal::BadImage));
//! # Ok(())
//! # }
//! ```
use crate::{ffi, Refusal};

/// The refusal of [`value`].
fn refusal(image: &[u8], address: u64, k: u64) -> Option<Refusal> {
    // Safety: the pointer and the length are those of a slice.
    let number = unsafe { ffi::iset_image_refusal(image.as_ptr(), image.len(), address, k) };
    Refusal::from_number(number)
}

/// How many entries of an image hold an address.
pub fn count(image: &[u8], address: u64) -> Result<u64, Refusal> {
    match refusal(image, address, 0) {
        // Safety: the pointer and the length are those of a slice.
        None => Ok(unsafe { ffi::iset_image_count(image.as_ptr(), image.len(), address) }),
        Some(Refusal::NoSuch) => Ok(0),
        Some(why) => Err(why),
    }
}

/// The value of the `k`-th of these entries in tree order, counted from 0. It is refused with
/// [`Refusal::NoSuch`] if there are not so many.
pub fn value(image: &[u8], address: u64, k: u64) -> Result<u64, Refusal> {
    match refusal(image, address, k) {
        // Safety: the pointer and the length are those of a slice.
        None => Ok(unsafe { ffi::iset_image_value(image.as_ptr(), image.len(), address, k) }),
        Some(why) => Err(why),
    }
}
