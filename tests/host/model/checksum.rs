//! The byte that must stand at index `at` for all the bytes to sum to 0 modulo 256.
//!
//! It is found by trying all 256 bytes beside the sum of the others. Where `at` lies past the end
//! there is no byte to leave out.

pub fn checksum(bytes: &[u8], at: usize) -> u8 {
    let mut others: u64 = 0;
    for (i, byte) in bytes.iter().enumerate() {
        if i != at {
            others += u64::from(*byte);
        }
    }
    (0..=255)
        .find(|byte| (others + u64::from(*byte)) % 256 == 0)
        .unwrap()
}
