//! The lent work space. Brute force does not need it; only what the specification
//! says of its contents is kept.

/// The entries of work space asked for each pixel.
pub const ENTRIES_PER_PIXEL: usize = 8;

/// Refusal 6 when the work space is too short. It is left untouched.
pub fn check_work(work: &[u32], pixels: usize) -> Result<(), u32> {
    if work.len() < ENTRIES_PER_PIXEL * pixels {
        return Err(6);
    }
    Ok(())
}

/// Leaves the work space as a return after 6 leaves it: its first
/// 8 x pixels entries zero, later ones untouched.
pub fn zero_work(work: &mut [u32], pixels: usize) {
    work[..ENTRIES_PER_PIXEL * pixels].fill(0);
}
