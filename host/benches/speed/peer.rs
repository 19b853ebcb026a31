//! Crypto++, if it was there when this was built.

use crate::ciphers::Cell;

#[cfg(peer)]
extern "C" {
    fn peer_call(
        f: i32,
        suite: u64,
        key: *const u8,
        second: *const u8,
        text: *const u8,
        n: usize,
        out: *mut u8,
    ) -> usize;
}

pub const IS_THERE: bool = cfg!(peer);

/// The answer's length. `second` is a block long, `out` has 1,088 bytes.
#[cfg(peer)]
pub fn call(f: usize, suite: u64, cell: &Cell, out: &mut [u8; 1088]) -> usize {
    // SAFETY: the lengths are the suite's, and no answer is longer than 1,024 bytes.
    unsafe {
        peer_call(
            f as i32,
            suite,
            cell.key.as_ptr(),
            cell.second.as_ptr(),
            cell.text.as_ptr(),
            cell.text.len(),
            out.as_mut_ptr(),
        )
    }
}

#[cfg(not(peer))]
pub fn call(_: usize, _: u64, _: &Cell, _: &mut [u8; 1088]) -> usize {
    0
}
