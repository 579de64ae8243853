//! Numbers in bytes, and bits in words.

/// The number in four bytes.
///
/// # Safety
/// The four bytes can be read.
#[inline(always)]
pub unsafe fn u32_at(at: *const u8) -> u32 {
    u32::from_le(at.cast::<u32>().read_unaligned())
}

/// The number in eight bytes.
///
/// # Safety
/// The eight bytes can be read.
#[inline(always)]
pub unsafe fn u64_at(at: *const u8) -> u64 {
    u64::from_le(at.cast::<u64>().read_unaligned())
}

/// Takes the lowest bit out of a set that has one.
#[inline(always)]
pub fn take_lowest(set: &mut u64) -> usize {
    let bit = set.trailing_zeros() as usize;
    *set &= *set - 1;
    bit
}

/// One bit; the index is taken by its low six bits.
#[inline(always)]
pub fn bit(index: u8) -> u64 {
    1 << (index & 63)
}
