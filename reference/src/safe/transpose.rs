//! Rows of bits turned into columns.

/// Bit j of word i becomes bit i of word j: the two squares off the diagonal change places, and then the
/// same is done in each of the four, down to single bits.
pub fn transpose(words: &mut [u64; 64]) {
    let (mut size, mut mask) = (32, u64::MAX >> 32);
    while size != 0 {
        for low in (0..64).filter(|index| index & size == 0) {
            let high = low + size;
            let moved = (words[low] >> size ^ words[high]) & mask;
            words[low] ^= moved << size;
            words[high] ^= moved;
        }
        size /= 2;
        mask ^= mask << size;
    }
}
