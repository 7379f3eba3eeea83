//! The product of the ring alone, which the archive of the calls does not export.

#[link(name = "ring_product", kind = "static")]
extern "C" {
    fn ring_product(a: *const u8, a_length: usize, b: *const u8, b_length: usize, out: *mut u8, out_length: usize) -> u32;
}

pub fn product(a: &[u8], b: &[u8], out: &mut [u8]) -> u32 {
    // SAFETY: the pointers are those of slices with these lengths, and the output is borrowed for writing, so it overlaps nothing.
    unsafe { ring_product(a.as_ptr(), a.len(), b.as_ptr(), b.len(), out.as_mut_ptr(), out.len()) }
}
