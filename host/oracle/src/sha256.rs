//! SHA-256, written from FIPS 180-4: each part stands below the number of its section.

/// 4.2.2: "the first thirty-two bits of the fractional parts of the cube roots of the first sixty-four prime numbers".
#[rustfmt::skip] // eight in a row, as they are printed there
const K: [u32; 64] = [
    0x428a2f98, 0x71374491, 0xb5c0fbcf, 0xe9b5dba5, 0x3956c25b, 0x59f111f1, 0x923f82a4, 0xab1c5ed5,
    0xd807aa98, 0x12835b01, 0x243185be, 0x550c7dc3, 0x72be5d74, 0x80deb1fe, 0x9bdc06a7, 0xc19bf174,
    0xe49b69c1, 0xefbe4786, 0x0fc19dc6, 0x240ca1cc, 0x2de92c6f, 0x4a7484aa, 0x5cb0a9dc, 0x76f988da,
    0x983e5152, 0xa831c66d, 0xb00327c8, 0xbf597fc7, 0xc6e00bf3, 0xd5a79147, 0x06ca6351, 0x14292967,
    0x27b70a85, 0x2e1b2138, 0x4d2c6dfc, 0x53380d13, 0x650a7354, 0x766a0abb, 0x81c2c92e, 0x92722c85,
    0xa2bfe8a1, 0xa81a664b, 0xc24b8b70, 0xc76c51a3, 0xd192e819, 0xd6990624, 0xf40e3585, 0x106aa070,
    0x19a4c116, 0x1e376c08, 0x2748774c, 0x34b0bcb5, 0x391c0cb3, 0x4ed8aa4a, 0x5b9cca4f, 0x682e6ff3,
    0x748f82ee, 0x78a5636f, 0x84c87814, 0x8cc70208, 0x90befffa, 0xa4506ceb, 0xbef9a3f7, 0xc67178f2,
];

/// 5.3.3: those of the square roots of the first eight primes.
const INITIAL: [u32; 8] =
    [0x6a09e667, 0xbb67ae85, 0x3c6ef372, 0xa54ff53a, 0x510e527f, 0x9b05688c, 0x1f83d9ab, 0x5be0cd19];

/// Bytes of a message block.
const BLOCK: usize = 64;

/// The digest of a message.
pub fn sha256(message: &[u8]) -> [u8; 32] {
    hash(&padded(message))
}

/// 5.1.1: the bit 1, then as few zero bits as leave 64 to a whole number of blocks, then the message's length in bits.
pub fn padded(message: &[u8]) -> Vec<u8> {
    const LENGTH: usize = size_of::<u64>();
    let whole = (message.len() + 1 + LENGTH).next_multiple_of(BLOCK);
    let mut blocks = message.to_vec();
    blocks.push(0x80);
    blocks.resize(whole - LENGTH, 0);
    blocks.extend((8 * message.len() as u64).to_be_bytes());
    blocks
}

/// 6.2.2: the hash of a padded message, block by block. 3.1: in words and bytes the most significant comes first.
pub fn hash(blocks: &[u8]) -> [u8; 32] {
    let words = blocks.chunks_exact(BLOCK).fold(INITIAL, |hash, block| after_block(hash, &schedule(block)));
    let mut digest = [0; 32];
    for (bytes, word) in digest.chunks_exact_mut(4).zip(words) {
        bytes.copy_from_slice(&word.to_be_bytes());
    }
    digest
}

/// 6.2.2, step 1: the message schedule W.
fn schedule(block: &[u8]) -> [u32; 64] {
    let mut w = [0; 64];
    for (word, bytes) in w.iter_mut().zip(block.chunks_exact(4)) {
        *word = u32::from_be_bytes([bytes[0], bytes[1], bytes[2], bytes[3]]);
    }
    for t in 16..64 {
        w[t] = sum([small_sigma_1(w[t - 2]), w[t - 7], small_sigma_0(w[t - 15]), w[t - 16]]);
    }
    w
}

/// 6.2.2, steps 2 to 4: the hash after a block of this schedule.
fn after_block(before: [u32; 8], w: &[u32; 64]) -> [u32; 8] {
    let [mut a, mut b, mut c, mut d, mut e, mut f, mut g, mut h] = before;
    for t in 0..64 {
        let t1 = sum([h, big_sigma_1(e), ch(e, f, g), K[t], w[t]]);
        let t2 = sum([big_sigma_0(a), maj(a, b, c)]);
        h = g;
        g = f;
        f = e;
        e = sum([d, t1]);
        d = c;
        c = b;
        b = a;
        a = sum([t1, t2]);
    }
    let after = [a, b, c, d, e, f, g, h];
    std::array::from_fn(|i| sum([after[i], before[i]]))
}

/// 3.2: "addition modulo 2^32".
fn sum<const COUNT: usize>(words: [u32; COUNT]) -> u32 {
    words.into_iter().fold(0, u32::wrapping_add)
}

// 4.1.2: the six functions.

fn ch(x: u32, y: u32, z: u32) -> u32 {
    (x & y) ^ (!x & z)
}

fn maj(x: u32, y: u32, z: u32) -> u32 {
    (x & y) ^ (x & z) ^ (y & z)
}

fn big_sigma_0(x: u32) -> u32 {
    x.rotate_right(2) ^ x.rotate_right(13) ^ x.rotate_right(22)
}

fn big_sigma_1(x: u32) -> u32 {
    x.rotate_right(6) ^ x.rotate_right(11) ^ x.rotate_right(25)
}

fn small_sigma_0(x: u32) -> u32 {
    x.rotate_right(7) ^ x.rotate_right(18) ^ (x >> 3)
}

fn small_sigma_1(x: u32) -> u32 {
    x.rotate_right(17) ^ x.rotate_right(19) ^ (x >> 10)
}
