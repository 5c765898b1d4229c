//! Encrypts one block at order 2 (FIPS 197, appendix C.1) and prints the ciphertext.
//!
//! The declarations are those of include/dokkumel.h, which says what each call asks. The safe functions below lend whole slices, so
//! that only lengths are left to get wrong, and the library tests these.

use std::fs::File;
use std::io::Read;

extern "C" {
    fn dokkumel_split(
        order: usize,
        input: *const u8,
        input_len: usize,
        tape: *const u32,
        tape_len: usize,
        output: *mut u8,
        output_len: usize,
        taken: *mut usize,
    ) -> u32;
    fn dokkumel_join(
        order: usize,
        input: *const u8,
        input_len: usize,
        output: *mut u8,
        output_len: usize,
        taken: *mut usize,
    ) -> u32;
    fn dokkumel_encrypt(
        order: usize,
        key: *const u8,
        key_len: usize,
        input: *const u8,
        input_len: usize,
        tape: *const u32,
        tape_len: usize,
        output: *mut u8,
        output_len: usize,
        taken: *mut usize,
    ) -> u32;
}

/// The number of a refusal. A refused call has written nothing and used no tape. Refusal 5 asks for more tape: lend a longer one and call
/// again. Any other is a mistake in the caller: stop, and never send what stands in the output.
#[derive(Debug)]
struct Refused(#[allow(dead_code)] u32);

/// The words of tape taken, or the refusal.
fn answer(status: u32, taken: usize) -> Result<usize, Refused> {
    match status {
        0 => Ok(taken),
        number => Err(Refused(number)),
    }
}

fn split(order: usize, input: &[u8], tape: &[u32], output: &mut [u8]) -> Result<usize, Refused> {
    let (i, t, o) = (input.as_ptr(), tape.as_ptr(), output.as_mut_ptr());
    let mut taken = 0;
    // Safety: the slices are live, output is lent to this call alone, and taken is a local.
    let status = unsafe {
        dokkumel_split(
            order,
            i,
            input.len(),
            t,
            tape.len(),
            o,
            output.len(),
            &mut taken,
        )
    };
    answer(status, taken)
}

fn join(order: usize, input: &[u8], output: &mut [u8]) -> Result<usize, Refused> {
    let (i, o) = (input.as_ptr(), output.as_mut_ptr());
    let mut taken = 0;
    // Safety: as in split.
    let status = unsafe { dokkumel_join(order, i, input.len(), o, output.len(), &mut taken) };
    answer(status, taken)
}

fn encrypt(
    order: usize,
    key: &[u8],
    input: &[u8],
    tape: &[u32],
    output: &mut [u8],
) -> Result<usize, Refused> {
    let (k, i, t, o) = (
        key.as_ptr(),
        input.as_ptr(),
        tape.as_ptr(),
        output.as_mut_ptr(),
    );
    let mut taken = 0;
    // Safety: as in split.
    let status = unsafe {
        dokkumel_encrypt(
            order,
            k,
            key.len(),
            i,
            input.len(),
            t,
            tape.len(),
            o,
            output.len(),
            &mut taken,
        )
    };
    answer(status, taken)
}

const ORDER: usize = 2;
const SHARES: usize = ORDER + 1;

/// Words for two splits of 16 bytes, and for an encryption with a 16-byte key: 200 S-boxes. Both are whole words at every order.
const TAPE: usize = 2 * (ORDER * 16 / 4) + 200 * (3 * ORDER * (ORDER + 1)) / 4;

fn main() -> Result<(), Refused> {
    let key: [u8; 16] = core::array::from_fn(|k| k as u8);
    let block: [u8; 16] = core::array::from_fn(|k| 0x11 * k as u8);
    let (mut key_shares, mut block_shares) = ([0; SHARES * 16], [0; SHARES * 16]);
    let (mut output, mut ciphertext) = ([0; SHARES * 16], [0; 16]);

    // The tape must be random, secret and fresh: a module reads its own generator here.
    let mut random = [0; 4 * TAPE];
    File::open("/dev/urandom")
        .and_then(|mut f| f.read_exact(&mut random))
        .expect("no random bytes");
    let tape: [u32; TAPE] =
        core::array::from_fn(|k| u32::from_le_bytes([0, 1, 2, 3].map(|byte| random[4 * k + byte])));

    // `at` is where the unused tape starts: no word of tape serves twice.
    let mut at = 0;
    at += split(ORDER, &key, &tape[at..], &mut key_shares)?;
    at += split(ORDER, &block, &tape[at..], &mut block_shares)?;
    at += encrypt(ORDER, &key_shares, &block_shares, &tape[at..], &mut output)?;
    join(ORDER, &output, &mut ciphertext)?;

    for byte in ciphertext {
        print!("{byte:02x}");
    }
    println!("\ntape: {at} of {TAPE} words taken");
    Ok(())
}
