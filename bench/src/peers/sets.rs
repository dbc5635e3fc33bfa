//! Sets of vertices as 64-bit words.

/// The vertices of a set, ascending.
pub fn members(mut set: u64) -> impl Iterator<Item = usize> {
    std::iter::from_fn(move || {
        let v = set.trailing_zeros() as usize;
        set &= set.wrapping_sub(1);
        (v < 64).then_some(v)
    })
}

pub fn size(set: u64) -> u32 {
    set.count_ones()
}

/// The vertices of a graph of n vertices.
pub fn below(n: u64) -> u64 {
    if n >= 64 {
        u64::MAX
    } else {
        (1 << n) - 1
    }
}

/// The vertices above v.
pub fn above(v: usize) -> u64 {
    !1 << v
}
