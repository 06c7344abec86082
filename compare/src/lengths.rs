// Another length for a lent slice, as the cases with a wrong one have it.

/// The changes there are, numbered from 0.
pub const CHANGES: usize = 4;

pub fn changed<T: Copy + Default>(slice: &mut Vec<T>, change: usize) {
    match change {
        0 => slice.truncate(slice.len().saturating_sub(1)),
        1 => slice.push(T::default()),
        2 => slice.clear(),
        _ => slice.extend_from_within(..),
    }
}
