//! The library's C interface, for slices whose lengths fit.

extern "C" {
    #[allow(clippy::too_many_arguments)]
    fn dokkumel_encrypt(
        order: usize,
        key: *const u8,
        key_len: usize,
        input: *const u8,
        input_len: usize,
        tape: *const u32,
        tape_len: usize,
        output: *mut u8,
        output_len: usize,
        taken: *mut usize,
    ) -> u32;

    fn dokkumel_prepare(
        order: usize,
        key: *const u8,
        key_len: usize,
        tape: *const u32,
        tape_len: usize,
        output: *mut u8,
        output_len: usize,
        taken: *mut usize,
    ) -> u32;

    #[allow(clippy::too_many_arguments)]
    fn dokkumel_encrypt_prepared(
        order: usize,
        prepared: *const u8,
        prepared_len: usize,
        input: *const u8,
        input_len: usize,
        tape: *const u32,
        tape_len: usize,
        output: *mut u8,
        output_len: usize,
        taken: *mut usize,
    ) -> u32;
}

/// An encryption by a single call.
pub fn encrypt(order: usize, key: &[u8], input: &[u8], tape: &[u32], output: &mut [u8]) -> usize {
    let mut taken = 0;
    // All buffers are live slices, and the library writes to output and taken only.
    let status = unsafe {
        dokkumel_encrypt(
            order,
            key.as_ptr(),
            key.len(),
            input.as_ptr(),
            input.len(),
            tape.as_ptr(),
            tape.len(),
            output.as_mut_ptr(),
            output.len(),
            &mut taken,
        )
    };
    assert_eq!(status, 0, "refused");
    taken
}

/// Round keys, prepared once.
pub fn prepare(order: usize, key: &[u8], tape: &[u32], output: &mut [u8]) -> usize {
    let mut taken = 0;
    // As in `encrypt`.
    let status = unsafe {
        dokkumel_prepare(
            order,
            key.as_ptr(),
            key.len(),
            tape.as_ptr(),
            tape.len(),
            output.as_mut_ptr(),
            output.len(),
            &mut taken,
        )
    };
    assert_eq!(status, 0, "refused");
    taken
}

/// An encryption from prepared keys.
pub fn encrypt_prepared(order: usize, prepared: &[u8], input: &[u8], tape: &[u32], output: &mut [u8]) -> usize {
    let mut taken = 0;
    // As in `encrypt`.
    let status = unsafe {
        dokkumel_encrypt_prepared(
            order,
            prepared.as_ptr(),
            prepared.len(),
            input.as_ptr(),
            input.len(),
            tape.as_ptr(),
            tape.len(),
            output.as_mut_ptr(),
            output.len(),
            &mut taken,
        )
    };
    assert_eq!(status, 0, "refused");
    taken
}
