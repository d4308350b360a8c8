//! Sets as 64-bit masks.

/// The members of a set, the lowest first.
pub fn members(mut set: u64) -> impl Iterator<Item = usize> {
    std::iter::from_fn(move || {
        if set == 0 {
            return None;
        }
        let k = set.trailing_zeros();
        set &= set - 1;
        Some(k as usize)
    })
}

/// Whether each member of `a` is one of `b`.
pub fn inside(a: u64, b: u64) -> bool {
    a & !b == 0
}

/// Whether a state holds all of `need` and nothing of `avoid`.
pub fn meets(state: u64, need: u64, avoid: u64) -> bool {
    inside(need, state) && avoid & state == 0
}

/// The set of all numbers below `m`.
pub fn all_below(m: usize) -> u64 {
    if m >= 64 {
        u64::MAX
    } else {
        (1 << m) - 1
    }
}
