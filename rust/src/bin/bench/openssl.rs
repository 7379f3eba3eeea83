//! OpenSSL's SHAKE128 and SHAKE256, the context made once and used again.
use std::ffi::{c_char, c_int, c_void, CStr};

#[link(name = "crypto")]
extern "C" {
    fn EVP_MD_fetch(ctx: *mut c_void, algorithm: *const c_char, properties: *const c_char) -> *mut c_void;
    fn EVP_MD_CTX_new() -> *mut c_void;
    fn EVP_DigestInit_ex(ctx: *mut c_void, md: *const c_void, engine: *mut c_void) -> c_int;
    fn EVP_DigestUpdate(ctx: *mut c_void, data: *const c_void, len: usize) -> c_int;
    fn EVP_DigestFinalXOF(ctx: *mut c_void, out: *mut u8, len: usize) -> c_int;
    fn OpenSSL_version(kind: c_int) -> *const c_char;
}

pub struct Shake {
    md: *mut c_void,
    ctx: *mut c_void,
}

impl Shake {
    pub fn new(name: &CStr) -> Self {
        // SAFETY: the name is a C string; both results are checked. They live as long as the program.
        let (md, ctx) = unsafe { (EVP_MD_fetch(std::ptr::null_mut(), name.as_ptr(), std::ptr::null()), EVP_MD_CTX_new()) };
        assert!(!md.is_null() && !ctx.is_null());
        Shake { md, ctx }
    }

    pub fn hash(&self, input: &[u8], out: &mut [u8]) {
        // SAFETY: the context and the algorithm are OpenSSL's own; the buffers are slices with their lengths.
        let done = unsafe {
            EVP_DigestInit_ex(self.ctx, self.md, std::ptr::null_mut())
                & EVP_DigestUpdate(self.ctx, input.as_ptr().cast(), input.len())
                & EVP_DigestFinalXOF(self.ctx, out.as_mut_ptr(), out.len())
        };
        assert_eq!(done, 1);
    }
}

pub fn version() -> String {
    // SAFETY: OpenSSL answers a C string that it never frees.
    unsafe { CStr::from_ptr(OpenSSL_version(0)) }.to_string_lossy().into_owned()
}
