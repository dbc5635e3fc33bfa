//! The trial of the guards themselves: they notice every element that is changed where it may not be.

use super::tally::{each_case, Tally};
use crate::generate::Rng;
use crate::interface::{noise, Lent};

pub fn run(seed: u64, amount: u64) -> Result<Tally, String> {
    each_case("guards", seed, amount, |rng, tally| {
        let length = rng.length(0, 9);
        let contents: Vec<u64> = noise(rng, length);
        let at = rng.below(length as u64 + 4) as isize - 2;
        let inside = 0 <= at && at < length as isize;
        tally.count(if inside { "inside" } else { "outside" });
        let mut written = contents.clone();
        if inside {
            written[at as usize] ^= 1;
        }
        if changed(rng, &contents, at).written().ok() != Some(written).filter(|_| inside) {
            return Err(format!(
                "element {at} of {length}, of an array to be written"
            ));
        }
        if changed(rng, &contents, at).unchanged().is_ok() {
            return Err(format!("element {at} of {length}, of an array to be read"));
        }
        let untouched = Lent::new(rng, "array", &contents);
        untouched.unchanged()
    })
}

/// A lent array with one element changed, counted from the array's first; at most two in front of it and two behind.
fn changed(rng: &mut Rng, contents: &[u64], at: isize) -> Lent<u64> {
    let mut lent = Lent::new(rng, "array", contents);
    // The guards have four elements or more on either side.
    unsafe { *lent.pointer().offset(at) ^= 1 };
    lent
}
