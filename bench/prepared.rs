//! A morning's work under one key: keys prepared once and then encryptions from them, against as many single calls.

use crate::{library, noise, tape, timed};
use std::time::Instant;

const COUNT: usize = 300;

/// Seconds for the preparation and all encryptions, each of the block before, on the tape behind the preparation's; and the last output.
fn prepared(order: usize, key: &[u8], block: &[u8], tape: &[u32]) -> (f64, Vec<u8>) {
    let mut keys = vec![0; (order + 1) * 176];
    let start = Instant::now();
    let taken = library::prepare(order, key, tape, &mut keys);
    let preparing = start.elapsed().as_secs_f64();
    let (rounds, output) = timed(library::encrypt_prepared, COUNT, order, &keys, block, &tape[taken..]);
    (preparing + rounds, output)
}

/// The best time of each over some turns, taken alternately. Both must put out the same shares.
fn compare(order: usize) -> (f64, f64) {
    let n = order + 1;
    let (key, block) = (noise(1, 16 * n), noise(2, 16 * n));
    let tape = tape(order);
    let (mut once, mut anew) = (f64::MAX, f64::MAX);
    for _ in 0..15 {
        let (a, x) = prepared(order, &key, &block, &tape);
        let (b, y) = timed(library::encrypt, COUNT, order, &key, &block, &tape);
        assert_eq!(x, y, "the outputs differ at order {order}");
        once = once.min(a);
        anew = anew.min(b);
    }
    (once, anew)
}

pub fn print() {
    println!("{COUNT} encryptions with one 16-byte key, prepared once, against {COUNT} single calls, best of 15 turns (160 of 200 S-boxes: 0.80)");
    for order in [1, 2, 8] {
        let (once, anew) = compare(order);
        println!("order {order}: {once:.4} s, {anew:.4} s, ratio {:.3}", once / anew);
    }
}
