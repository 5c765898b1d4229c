//! The yardstick: masked AES in plain Rust, with the same steps and the same log and antilog tables as the library.
//! Written from the steps alone, share after share, and simple on purpose.

/// Doubling in AES's field.
const fn double(a: u8) -> u8 {
    (a << 1) ^ (0x1b & 0u8.wrapping_sub(a >> 7))
}

/// 03 to the power k for k below 510, then zeros.
const fn antilogs() -> [u8; 1021] {
    let mut table = [0; 1021];
    let mut power = 1;
    let mut k = 0;
    while k < 510 {
        table[k] = power;
        power ^= double(power);
        k += 1;
    }
    table
}

/// The k below 255 at which 03 to the k is the byte, and 510 for 00.
const fn logs() -> [u16; 256] {
    let antilogs = antilogs();
    let mut table = [510; 256];
    let mut k = 0;
    while k < 255 {
        table[antilogs[k] as usize] = k as u16;
        k += 1;
    }
    table
}

static ANTILOGS: [u8; 1021] = antilogs();
static LOGS: [u16; 256] = logs();

/// The product by logs: the log of 00 leads into the zeros.
fn times(a: u8, b: u8) -> u8 {
    ANTILOGS[LOGS[a as usize] as usize + LOGS[b as usize] as usize]
}

/// The affine map of the S-box, by its row masks.
fn affine(a: u8) -> u8 {
    const ROWS: [u8; 8] = [0xf1, 0xe3, 0xc7, 0x8f, 0x1f, 0x3e, 0x7c, 0xf8];
    let mut r = 0;
    for (i, row) in ROWS.iter().enumerate() {
        r ^= (((a & row).count_ones() % 2) as u8) << i;
    }
    r ^ 0x63
}

/// Bytes that are drawn from their start on, each once.
struct Drawn<'a> {
    bytes: &'a [u8],
    at: usize,
}

impl Drawn<'_> {
    fn draw(&mut self) -> u8 {
        let t = self.bytes[self.at];
        self.at += 1;
        t
    }
}

const MOST: usize = 9;
type Shares = [u8; MOST];

/// Each share to the power 2 times half, for powers 2, 4 and 16. In a log 256 counts as 1; that of 00 becomes 255, whose double leads into the zeros.
fn raise_all(n: usize, x: &mut Shares, half: usize) {
    for share in x.iter_mut().take(n) {
        let t = LOGS[*share as usize] as usize * half;
        *share = ANTILOGS[2 * (t % 256 + t / 256)];
    }
}

fn refresh(n: usize, x: &mut Shares, tape: &mut Drawn) {
    for i in 0..n {
        for j in i + 1..n {
            let t = tape.draw();
            x[i] ^= t;
            x[j] ^= t;
        }
    }
}

fn product(n: usize, a: &Shares, b: &Shares, tape: &mut Drawn) -> Shares {
    let mut c = [0u8; MOST];
    for i in 0..n {
        c[i] = times(a[i], b[i]);
    }
    for i in 0..n {
        for j in i + 1..n {
            let t = tape.draw();
            c[i] ^= t;
            c[j] ^= (t ^ times(a[i], b[j])) ^ times(a[j], b[i]);
        }
    }
    c
}

/// Bytes that an S-box draws: two refreshes and four products, each one byte for each pair of shares.
pub const fn s_box_bytes(order: usize) -> usize {
    6 * (order * (order + 1) / 2)
}

fn s_box(n: usize, x: &Shares, tape: &mut Drawn) -> Shares {
    let mut z = *x;
    raise_all(n, &mut z, 1);
    refresh(n, &mut z, tape);
    let y = product(n, &z, x, tape);
    let mut w = y;
    raise_all(n, &mut w, 2);
    refresh(n, &mut w, tape);
    let mut y = product(n, &y, &w, tape);
    raise_all(n, &mut y, 8);
    let y = product(n, &y, &w, tape);
    let mut y = product(n, &y, &z, tape);
    for share in y.iter_mut().take(n) {
        *share = affine(*share);
    }
    if n % 2 == 0 {
        y[0] ^= 0x63;
    }
    y
}

/// The S-box of byte k of a string in n shares of l bytes.
fn substitute(n: usize, l: usize, k: usize, s: &mut [u8], tape: &mut Drawn) {
    let mut x = [0u8; MOST];
    for i in 0..n {
        x[i] = s[i * l + k];
    }
    let y = s_box(n, &x, tape);
    for i in 0..n {
        s[i * l + k] = y[i];
    }
}

/// A tape of words that are taken from its start on, each once.
struct Tape<'a> {
    words: &'a [u32],
    at: usize,
}

/// The S-boxes of four bytes of such a string. They draw a whole number of words, which are unpacked together, each from its lowest byte on.
fn substitute_four(n: usize, l: usize, four: [usize; 4], s: &mut [u8], tape: &mut Tape) {
    let words = s_box_bytes(n - 1);
    let mut bytes = [0u8; 4 * s_box_bytes(MOST - 1)];
    for k in 0..words {
        bytes[4 * k..4 * k + 4].copy_from_slice(&tape.words[tape.at + k].to_le_bytes());
    }
    tape.at += words;
    let mut drawn = Drawn { bytes: &bytes, at: 0 };
    for k in four {
        substitute(n, l, k, s, &mut drawn);
    }
}

fn expand(n: usize, nk: usize, key: &[u8], tape: &mut Tape) -> Vec<u8> {
    let total = 4 * (nk + 7);
    let m = 4 * total;
    let mut keys = vec![0u8; n * m];
    for i in 0..n {
        keys[i * m..i * m + 4 * nk].copy_from_slice(&key[i * 4 * nk..(i + 1) * 4 * nk]);
    }
    let mut rcon = 1;
    for w in nk..total {
        let mut t = [0u8; 4 * MOST];
        for i in 0..n {
            t[i * 4..i * 4 + 4].copy_from_slice(&keys[i * m + 4 * (w - 1)..i * m + 4 * w]);
        }
        if w % nk == 0 || (nk > 6 && w % nk == 4) {
            substitute_four(n, 4, [0, 1, 2, 3], &mut t[..4 * n], tape);
        }
        if w % nk == 0 {
            for i in 0..n {
                t[i * 4..i * 4 + 4].rotate_left(1);
            }
            t[0] ^= rcon;
            rcon = double(rcon);
        }
        for i in 0..n {
            for k in 0..4 {
                keys[i * m + 4 * w + k] = keys[i * m + 4 * (w - nk) + k] ^ t[i * 4 + k];
            }
        }
    }
    keys
}

fn add_round_key(n: usize, m: usize, r: usize, keys: &[u8], s: &mut [u8]) {
    for i in 0..n {
        for k in 0..16 {
            s[i * 16 + k] ^= keys[i * m + 16 * r + k];
        }
    }
}

fn shift_rows(s: &mut [u8]) {
    let mut t = [0u8; 16];
    t.copy_from_slice(s);
    for k in 0..16 {
        s[k] = t[k % 4 + 4 * ((k / 4 + k % 4) % 4)];
    }
}

fn mix_columns(s: &mut [u8]) {
    let mut t = [0u8; 16];
    t.copy_from_slice(s);
    for k in 0..16 {
        let (r, c) = (k % 4, 4 * (k / 4));
        let (a, b) = (t[c + r], t[c + (r + 1) % 4]);
        s[k] = double(a) ^ double(b) ^ b ^ t[c + (r + 2) % 4] ^ t[c + (r + 3) % 4];
    }
}

/// One block; all lengths fit. Answers with how many words of tape were taken.
pub fn encrypt(order: usize, key: &[u8], input: &[u8], tape: &[u32], output: &mut [u8]) -> usize {
    let n = order + 1;
    let nk = key.len() / n / 4;
    let nr = nk + 6;
    let m = 16 * (nr + 1);
    let mut tape = Tape { words: tape, at: 0 };
    let keys = expand(n, nk, key, &mut tape);
    output.copy_from_slice(input);
    add_round_key(n, m, 0, &keys, output);
    for r in 1..=nr {
        for row in 0..4 {
            substitute_four(n, 16, [row, row + 4, row + 8, row + 12], output, &mut tape);
        }
        for share in output.chunks_exact_mut(16) {
            shift_rows(share);
            if r < nr {
                mix_columns(share);
            }
        }
        add_round_key(n, m, r, &keys, output);
    }
    tape.at
}
