//! The exports of the archive, over slices of any length. They answer a code: 0 exactly when done, else a number of documents 01 and 02,
//! under 4 and 11 with the place of the bad word above it, as `include/polka.h` has it. Under any code but 0 no output byte has changed,
//! and no lent number.
//! All other modules go through these: nothing else here is unsafe. Tests and benchmark, which lend any length, compile this file once
//! more as their own.

// Nothing checks these against the Rattle source: a slice is a pointer and a length.
mod archive {
    extern "C" {
        pub fn polka_keygen(
            stream: *const u8,
            stream_length: usize,
            noise_s: *const u8,
            noise_s_length: usize,
            noise_e: *const u8,
            noise_e_length: usize,
            public_key: *mut u8,
            public_key_length: usize,
            secret_key: *mut u8,
            secret_key_length: usize,
        ) -> u32;
        pub fn polka_keygen_from_seed(
            seed: *const u8,
            seed_length: usize,
            noise_s: *const u8,
            noise_s_length: usize,
            noise_e: *const u8,
            noise_e_length: usize,
            public_key: *mut u8,
            public_key_length: usize,
            secret_key: *mut u8,
            secret_key_length: usize,
        ) -> u32;
        pub fn polka_check_secret_key(secret_key: *const u8, secret_key_length: usize) -> u32;
        pub fn polka_expand_secret_key(
            secret_key: *const u8,
            secret_key_length: usize,
            expanded_key: *mut u8,
            expanded_key_length: usize,
        ) -> u32;
        pub fn polka_compact_secret_key(
            expanded_key: *const u8,
            expanded_key_length: usize,
            secret_key: *mut u8,
            secret_key_length: usize,
        ) -> u32;
        pub fn polka_encapsulate(
            public_key: *const u8,
            public_key_length: usize,
            triple: *const u8,
            triple_length: usize,
            encapsulation: *mut u8,
            encapsulation_length: usize,
        ) -> u32;
        pub fn polka_decapsulate(
            secret_key: *const u8,
            secret_key_length: usize,
            encapsulation: *const u8,
            encapsulation_length: usize,
            dummy: *const u8,
            dummy_length: usize,
            triple: *mut u8,
            triple_length: usize,
        ) -> u32;
        pub fn polka_seal(
            public_key: *const u8,
            public_key_length: usize,
            noise: *const u8,
            noise_length: usize,
            entry: *const u8,
            entry_length: usize,
            sealed: *mut u8,
            sealed_length: usize,
        ) -> u32;
        pub fn polka_open(
            secret_key: *const u8,
            secret_key_length: usize,
            sealed: *const u8,
            sealed_length: usize,
            dummy_noise: *const u8,
            dummy_noise_length: usize,
            entry: *mut u8,
            entry_length: usize,
        ) -> u32;
        pub fn polka_open_with_margin(
            secret_key: *const u8,
            secret_key_length: usize,
            sealed: *const u8,
            sealed_length: usize,
            dummy_noise: *const u8,
            dummy_noise_length: usize,
            entry: *mut u8,
            entry_length: usize,
            margin: *mut u32,
        ) -> u32;
        pub fn polka_seal_batch(
            public_key: *const u8,
            public_key_length: usize,
            noise: *const u8,
            noise_length: usize,
            entries: *const u8,
            entries_length: usize,
            batch: *mut u8,
            batch_length: usize,
        ) -> u32;
        pub fn polka_open_batch(
            secret_key: *const u8,
            secret_key_length: usize,
            batch: *const u8,
            batch_length: usize,
            dummy_noise: *const u8,
            dummy_noise_length: usize,
            entries: *mut u8,
            entries_length: usize,
            count: *mut u32,
        ) -> u32;
        pub fn polka_shake128(input: *const u8, input_length: usize, out: *mut u8, out_length: usize);
        pub fn polka_shake256(input: *const u8, input_length: usize, out: *mut u8, out_length: usize);
    }
}

// SAFETY, for every call below: the pointers are those of slices with these lengths, and of a number; an output is borrowed for writing,
// so it overlaps nothing. The library keeps no pointer and has no state.

pub fn keygen(stream: &[u8], noise_s: &[u8], noise_e: &[u8], public_key: &mut [u8], secret_key: &mut [u8]) -> u32 {
    unsafe {
        archive::polka_keygen(
            stream.as_ptr(),
            stream.len(),
            noise_s.as_ptr(),
            noise_s.len(),
            noise_e.as_ptr(),
            noise_e.len(),
            public_key.as_mut_ptr(),
            public_key.len(),
            secret_key.as_mut_ptr(),
            secret_key.len(),
        )
    }
}

pub fn keygen_from_seed(seed: &[u8], noise_s: &[u8], noise_e: &[u8], public_key: &mut [u8], secret_key: &mut [u8]) -> u32 {
    unsafe {
        archive::polka_keygen_from_seed(
            seed.as_ptr(),
            seed.len(),
            noise_s.as_ptr(),
            noise_s.len(),
            noise_e.as_ptr(),
            noise_e.len(),
            public_key.as_mut_ptr(),
            public_key.len(),
            secret_key.as_mut_ptr(),
            secret_key.len(),
        )
    }
}

pub fn check_secret_key(secret_key: &[u8]) -> u32 {
    unsafe { archive::polka_check_secret_key(secret_key.as_ptr(), secret_key.len()) }
}

pub fn expand_secret_key(secret_key: &[u8], expanded_key: &mut [u8]) -> u32 {
    unsafe { archive::polka_expand_secret_key(secret_key.as_ptr(), secret_key.len(), expanded_key.as_mut_ptr(), expanded_key.len()) }
}

pub fn compact_secret_key(expanded_key: &[u8], secret_key: &mut [u8]) -> u32 {
    unsafe { archive::polka_compact_secret_key(expanded_key.as_ptr(), expanded_key.len(), secret_key.as_mut_ptr(), secret_key.len()) }
}

pub fn encapsulate(public_key: &[u8], triple: &[u8], encapsulation: &mut [u8]) -> u32 {
    unsafe {
        archive::polka_encapsulate(
            public_key.as_ptr(),
            public_key.len(),
            triple.as_ptr(),
            triple.len(),
            encapsulation.as_mut_ptr(),
            encapsulation.len(),
        )
    }
}

pub fn decapsulate(secret_key: &[u8], encapsulation: &[u8], dummy: &[u8], triple: &mut [u8]) -> u32 {
    unsafe {
        archive::polka_decapsulate(
            secret_key.as_ptr(),
            secret_key.len(),
            encapsulation.as_ptr(),
            encapsulation.len(),
            dummy.as_ptr(),
            dummy.len(),
            triple.as_mut_ptr(),
            triple.len(),
        )
    }
}

pub fn seal(public_key: &[u8], noise: &[u8], entry: &[u8], sealed: &mut [u8]) -> u32 {
    unsafe {
        archive::polka_seal(
            public_key.as_ptr(),
            public_key.len(),
            noise.as_ptr(),
            noise.len(),
            entry.as_ptr(),
            entry.len(),
            sealed.as_mut_ptr(),
            sealed.len(),
        )
    }
}

pub fn open(secret_key: &[u8], sealed: &[u8], dummy_noise: &[u8], entry: &mut [u8]) -> u32 {
    unsafe {
        archive::polka_open(
            secret_key.as_ptr(),
            secret_key.len(),
            sealed.as_ptr(),
            sealed.len(),
            dummy_noise.as_ptr(),
            dummy_noise.len(),
            entry.as_mut_ptr(),
            entry.len(),
        )
    }
}

pub fn open_with_margin(secret_key: &[u8], sealed: &[u8], dummy_noise: &[u8], entry: &mut [u8], margin: &mut u32) -> u32 {
    unsafe {
        archive::polka_open_with_margin(
            secret_key.as_ptr(),
            secret_key.len(),
            sealed.as_ptr(),
            sealed.len(),
            dummy_noise.as_ptr(),
            dummy_noise.len(),
            entry.as_mut_ptr(),
            entry.len(),
            margin,
        )
    }
}

pub fn seal_batch(public_key: &[u8], noise: &[u8], entries: &[u8], batch: &mut [u8]) -> u32 {
    unsafe {
        archive::polka_seal_batch(
            public_key.as_ptr(),
            public_key.len(),
            noise.as_ptr(),
            noise.len(),
            entries.as_ptr(),
            entries.len(),
            batch.as_mut_ptr(),
            batch.len(),
        )
    }
}

pub fn open_batch(secret_key: &[u8], batch: &[u8], dummy_noise: &[u8], entries: &mut [u8], count: &mut u32) -> u32 {
    unsafe {
        archive::polka_open_batch(
            secret_key.as_ptr(),
            secret_key.len(),
            batch.as_ptr(),
            batch.len(),
            dummy_noise.as_ptr(),
            dummy_noise.len(),
            entries.as_mut_ptr(),
            entries.len(),
            count,
        )
    }
}

pub fn shake128(input: &[u8], out: &mut [u8]) {
    unsafe { archive::polka_shake128(input.as_ptr(), input.len(), out.as_mut_ptr(), out.len()) }
}

pub fn shake256(input: &[u8], out: &mut [u8]) {
    unsafe { archive::polka_shake256(input.as_ptr(), input.len(), out.as_mut_ptr(), out.len()) }
}

/// Overwrites bytes, or larger numbers, with zeros by volatile writes, which the compiler may not leave out although nobody reads them
/// again, and moves none of them past the fence.
pub fn wipe<T: Copy + From<u8>>(numbers: &mut [T]) {
    for number in numbers {
        // SAFETY: the pointer is that of a number borrowed for writing.
        unsafe { core::ptr::write_volatile(number, 0.into()) }
    }
    core::sync::atomic::compiler_fence(core::sync::atomic::Ordering::SeqCst);
}
