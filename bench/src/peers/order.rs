//! Degeneracy.

use super::sets::{members, size};

/// The vertices of a set in degeneracy order, each with the fewest partners among itself and those after it, and the
/// degeneracy, which is the most partners that a vertex has there.
pub fn degeneracy(partners: impl Fn(usize) -> u64, vertices: u64) -> (Vec<usize>, u32) {
    let (mut order, mut most) = (Vec::with_capacity(64), 0);
    let mut left = vertices;
    while let Some(v) = members(left).min_by_key(|&v| size(partners(v) & left)) {
        most = most.max(size(partners(v) & left));
        order.push(v);
        left &= !(1 << v);
    }
    (order, most)
}
