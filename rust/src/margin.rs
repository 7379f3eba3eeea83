//! How near an opening came to its edge.
use alloc::boxed::Box;
use core::fmt;
use core::slice;

use crate::ffi;

/// How near an opening came to its edge, for the desk's service screen: the largest size of a coefficient of w, where m = E2 + 5 × w in
/// steps 2 and 3 of document 01's opening, m centred and E2 from −2 to 2. A larger one is nearer to the edge.
///
/// Secret: it tells about the secret key and the triple. Show it to service staff at the desk only; never send it to a console, nor write
/// it to a log that leaves the desk. It cannot be copied or compared, `Debug` does not tell it, and it is overwritten when it goes.
// It stays in one place on the heap, so that a move leaves no copy behind.
pub struct Margin(Box<u32>);

impl Margin {
    /// The largest of a sealed entry that opens. Under a key whose s and e have W nonzero coefficients together it is at most 2 × W.
    pub const LARGEST: u32 = 4096;

    /// The number, which is as secret as the margin. The copy is the caller's to overwrite.
    pub fn value(&self) -> u32 {
        *self.0
    }

    pub(crate) fn zero() -> Self {
        Margin(Box::new(0))
    }

    pub(crate) fn as_mut_number(&mut self) -> &mut u32 {
        &mut self.0
    }
}

impl fmt::Debug for Margin {
    fn fmt(&self, f: &mut fmt::Formatter<'_>) -> fmt::Result {
        f.write_str("Margin(a secret number)")
    }
}

impl Drop for Margin {
    fn drop(&mut self) {
        ffi::wipe(slice::from_mut(&mut *self.0));
    }
}
