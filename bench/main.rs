//! Times the library against the yardstick, and prepared keys against single calls, each pair in one run and in turns, and prints ratios. Both of a
//! pair encrypt the same blocks, and their outputs are compared.

mod library;
mod plain;
mod prepared;

use std::hint::black_box;
use std::time::Instant;

/// Bytes that look random, the same in every run.
fn noise(seed: u64, len: usize) -> Vec<u8> {
    let mut x = seed | 1;
    (0..len)
        .map(|_| {
            x ^= x << 13;
            x ^= x >> 7;
            x ^= x << 17;
            (x >> 24) as u8
        })
        .collect()
}

/// Words of tape for an encryption with a 16-byte key, whose 200 S-boxes draw a whole number of words.
fn tape(order: usize) -> Vec<u32> {
    let bytes = noise(3, 200 * plain::s_box_bytes(order));
    bytes.chunks_exact(4).map(|b| u32::from_le_bytes([b[0], b[1], b[2], b[3]])).collect()
}

const TURNS: usize = 9;

type Encrypt = fn(usize, &[u8], &[u8], &[u32], &mut [u8]) -> usize;

/// Seconds for so many encryptions, each of the block before; and the last output.
fn timed(encrypt: Encrypt, count: usize, order: usize, key: &[u8], block: &[u8], tape: &[u32]) -> (f64, Vec<u8>) {
    let mut input = block.to_vec();
    let mut output = vec![0; block.len()];
    let start = Instant::now();
    for _ in 0..count {
        black_box(encrypt(order, key, &input, tape, &mut output));
        input.copy_from_slice(&output);
    }
    (start.elapsed().as_secs_f64(), output)
}

/// The best time of each over some turns, taken alternately.
fn compare(count: usize, order: usize) -> (f64, f64) {
    let n = order + 1;
    let (key, block) = (noise(1, 16 * n), noise(2, 16 * n));
    let tape = tape(order);
    let (mut ours, mut theirs) = (f64::MAX, f64::MAX);
    for _ in 0..TURNS {
        let (a, x) = timed(library::encrypt, count, order, &key, &block, &tape);
        let (b, y) = timed(plain::encrypt, count, order, &key, &block, &tape);
        assert_eq!(x, y, "the outputs differ at order {order}");
        ours = ours.min(a);
        theirs = theirs.min(b);
    }
    (ours, theirs)
}

fn main() {
    println!("encryptions with a 16-byte key, library against plain Rust with the same steps and tables, best of {TURNS} turns");
    for (order, count) in [(2, 10_000), (1, 10_000), (3, 8000), (4, 6000), (5, 4000), (6, 4000), (7, 3000), (8, 3000)] {
        let (ours, theirs) = compare(count, order);
        println!("order {order}, {count:5} encryptions: {ours:.3} s, {theirs:.3} s, ratio {:.2}", ours / theirs);
    }
    prepared::print();
}
