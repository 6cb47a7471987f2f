//! How far two byte strings agree: the largest number of last bytes that are the same in both. (RULES.md,
//! Building.)
//!
//! It is found by trying every number, the largest first, and comparing so many last bytes as a whole.

pub fn agreement(a: &[u8], b: &[u8]) -> usize {
    let shorter = a.len().min(b.len());
    (0..=shorter)
        .rev()
        .find(|n| a[a.len() - n..] == b[b.len() - n..])
        .unwrap()
}

pub fn is_tail(a: &[u8], b: &[u8]) -> bool {
    b.ends_with(a)
}
