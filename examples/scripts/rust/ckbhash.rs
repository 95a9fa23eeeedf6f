//! The ckbhash of at most 128 bytes, which are one block of Blake2b (RFC 7693; docs/RULES.md, "Hashes and roots").

const START: [u64; 8] = [
    0x6a09e667f3bcc908, 0xbb67ae8584caa73b, 0x3c6ef372fe94f82b, 0xa54ff53a5f1d36f1,
    0x510e527fade682d1, 0x9b05688c2b3e6c1f, 0x1f83d9abfb41bd6b, 0x5be0cd19137e2179,
];
// a digest of 32 bytes, without a key, and in the last two words the personalisation
const PARAMETERS: [u64; 8] = [
    0x0101_0020, 0, 0, 0, 0, 0, u64::from_le_bytes(*b"ckb-defa"), u64::from_le_bytes(*b"ult-hash"),
];
const ORDER: [[usize; 16]; 10] = [
    [0, 1, 2, 3, 4, 5, 6, 7, 8, 9, 10, 11, 12, 13, 14, 15],
    [14, 10, 4, 8, 9, 15, 13, 6, 1, 12, 0, 2, 11, 7, 5, 3],
    [11, 8, 12, 0, 5, 2, 15, 13, 10, 14, 3, 6, 7, 1, 9, 4],
    [7, 9, 3, 1, 13, 12, 11, 14, 2, 6, 5, 10, 4, 0, 15, 8],
    [9, 0, 5, 7, 2, 4, 10, 15, 14, 1, 11, 12, 6, 8, 3, 13],
    [2, 12, 6, 10, 0, 11, 8, 3, 4, 13, 7, 5, 15, 14, 1, 9],
    [12, 5, 1, 15, 14, 13, 4, 10, 0, 7, 6, 3, 9, 2, 8, 11],
    [13, 11, 7, 14, 12, 1, 3, 9, 5, 0, 15, 4, 8, 6, 2, 10],
    [6, 15, 14, 9, 11, 3, 0, 8, 12, 2, 13, 7, 1, 4, 10, 5],
    [10, 2, 8, 4, 7, 6, 1, 5, 15, 11, 9, 14, 3, 12, 13, 0],
];

#[inline(always)]
fn mix(v: &mut [u64; 16], a: usize, b: usize, c: usize, d: usize, x: u64, y: u64) {
    v[a] = v[a].wrapping_add(v[b]).wrapping_add(x);
    v[d] = (v[d] ^ v[a]).rotate_right(32);
    v[c] = v[c].wrapping_add(v[d]);
    v[b] = (v[b] ^ v[c]).rotate_right(24);
    v[a] = v[a].wrapping_add(v[b]).wrapping_add(y);
    v[d] = (v[d] ^ v[a]).rotate_right(16);
    v[c] = v[c].wrapping_add(v[d]);
    v[b] = (v[b] ^ v[c]).rotate_right(63);
}

fn round(v: &mut [u64; 16], order: &[usize; 16], words: &[u64; 16]) {
    let word = |at: usize| words[order[at] % 16];
    mix(v, 0, 4, 8, 12, word(0), word(1));
    mix(v, 1, 5, 9, 13, word(2), word(3));
    mix(v, 2, 6, 10, 14, word(4), word(5));
    mix(v, 3, 7, 11, 15, word(6), word(7));
    mix(v, 0, 5, 10, 15, word(8), word(9));
    mix(v, 1, 6, 11, 12, word(10), word(11));
    mix(v, 2, 7, 8, 13, word(12), word(13));
    mix(v, 3, 4, 9, 14, word(14), word(15));
}

fn words_of(message: &[u8]) -> [u64; 16] {
    let mut words = [0; 16];
    for (word, bytes) in words.iter_mut().zip(message.chunks(8)) {
        let mut whole = [0; 8];
        whole[..bytes.len()].copy_from_slice(bytes);
        *word = u64::from_le_bytes(whole);
    }
    words
}

/// Of at most 128 bytes: of more it is no hash.
pub fn of_block(message: &[u8]) -> [u8; 32] {
    let words = words_of(message);
    let mut start = START;
    for (it, parameter) in start.iter_mut().zip(PARAMETERS) {
        *it ^= parameter;
    }
    let mut v = [0; 16];
    v[..8].copy_from_slice(&start);
    v[8..].copy_from_slice(&START);
    v[12] ^= message.len() as u64;
    v[14] = !v[14]; // the last block
    for order in ORDER.iter().chain(&ORDER[..2]) {
        round(&mut v, order, &words);
    }
    let mut digest = [0; 32];
    for (i, bytes) in digest.chunks_exact_mut(8).enumerate() {
        bytes.copy_from_slice(&(start[i] ^ v[i] ^ v[i + 8]).to_le_bytes());
    }
    digest
}
