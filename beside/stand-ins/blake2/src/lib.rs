//! Stand-in for `blake2`: BLAKE2b with no key and 32 bytes of digest, as RFC 7693 section 3 has it. The crate's `Blake2b` is generic in
//! the size of its output, which `tapes` lets the compiler infer as 32; here it is 32.

pub trait Digest {
    fn new() -> Self;
    fn update(&mut self, data: impl AsRef<[u8]>);
    fn finalize(self) -> [u8; 32];
}

/// Keeps the whole message: records are short.
pub struct Blake2b {
    message: Vec<u8>,
}

impl Digest for Blake2b {
    fn new() -> Self {
        Self { message: Vec::new() }
    }

    fn update(&mut self, data: impl AsRef<[u8]>) {
        self.message.extend_from_slice(data.as_ref());
    }

    fn finalize(self) -> [u8; 32] {
        blake2b_32(&self.message)
    }
}

const BLOCK: usize = 128;

const IV: [u64; 8] = [
    0x6a09e667f3bcc908,
    0xbb67ae8584caa73b,
    0x3c6ef372fe94f82b,
    0xa54ff53a5f1d36f1,
    0x510e527fade682d1,
    0x9b05688c2b3e6c1f,
    0x1f83d9abfb41bd6b,
    0x5be0cd19137e2179,
];

const SIGMA: [[usize; 16]; 10] = [
    [0, 1, 2, 3, 4, 5, 6, 7, 8, 9, 10, 11, 12, 13, 14, 15],
    [14, 10, 4, 8, 9, 15, 13, 6, 1, 12, 0, 2, 11, 7, 5, 3],
    [11, 8, 12, 0, 5, 2, 15, 13, 10, 14, 3, 6, 7, 1, 9, 4],
    [7, 9, 3, 1, 13, 12, 11, 14, 2, 6, 5, 10, 4, 0, 15, 8],
    [9, 0, 5, 7, 2, 4, 10, 15, 14, 1, 11, 12, 6, 8, 3, 13],
    [2, 12, 6, 10, 0, 11, 8, 3, 4, 13, 7, 5, 15, 14, 1, 9],
    [12, 5, 1, 15, 14, 13, 4, 10, 0, 7, 6, 3, 9, 2, 8, 11],
    [13, 11, 7, 14, 12, 1, 3, 9, 5, 0, 15, 4, 8, 6, 2, 10],
    [6, 15, 14, 9, 11, 3, 0, 8, 12, 2, 13, 7, 1, 4, 10, 5],
    [10, 2, 8, 4, 7, 6, 1, 5, 15, 11, 9, 14, 3, 12, 13, 0],
];

/// Section 3.3; no key is used.
fn blake2b_32(message: &[u8]) -> [u8; 32] {
    let mut h = IV;
    h[0] ^= 0x0101_0000 ^ 32;

    // an empty message is one block of zeros
    let blocks = message.len().div_ceil(BLOCK).max(1);
    for index in 0..blocks {
        let from = index * BLOCK;
        let to = message.len().min(from + BLOCK);
        let mut block = [0; BLOCK];
        block[..to - from].copy_from_slice(&message[from..to]);
        compress(&mut h, &block, to as u128, index + 1 == blocks);
    }

    let mut digest = [0; 32];
    for (part, word) in digest.chunks_exact_mut(8).zip(h) {
        part.copy_from_slice(&word.to_le_bytes());
    }
    digest
}

/// Section 3.2.
fn compress(h: &mut [u64; 8], block: &[u8; BLOCK], offset: u128, last: bool) {
    let mut m = [0; 16];
    for (word, bytes) in m.iter_mut().zip(block.chunks_exact(8)) {
        *word = u64::from_le_bytes(bytes.try_into().expect("8 bytes"));
    }

    let mut v = [0; 16];
    v[..8].copy_from_slice(h);
    v[8..].copy_from_slice(&IV);
    v[12] ^= offset as u64;
    v[13] ^= (offset >> 64) as u64;
    if last {
        v[14] = !v[14];
    }

    for round in 0..12 {
        let s = SIGMA[round % 10];
        for column in 0..4 {
            mix(&mut v, [column, column + 4, column + 8, column + 12], m[s[2 * column]], m[s[2 * column + 1]]);
        }
        for diagonal in 0..4 {
            let places = [diagonal, 4 + (diagonal + 1) % 4, 8 + (diagonal + 2) % 4, 12 + (diagonal + 3) % 4];
            mix(&mut v, places, m[s[8 + 2 * diagonal]], m[s[9 + 2 * diagonal]]);
        }
    }

    for (index, word) in h.iter_mut().enumerate() {
        *word ^= v[index] ^ v[index + 8];
    }
}

/// Section 3.1: sums are modulo 2^64.
fn mix(v: &mut [u64; 16], [a, b, c, d]: [usize; 4], x: u64, y: u64) {
    v[a] = v[a].wrapping_add(v[b]).wrapping_add(x);
    v[d] = (v[d] ^ v[a]).rotate_right(32);
    v[c] = v[c].wrapping_add(v[d]);
    v[b] = (v[b] ^ v[c]).rotate_right(24);
    v[a] = v[a].wrapping_add(v[b]).wrapping_add(y);
    v[d] = (v[d] ^ v[a]).rotate_right(16);
    v[c] = v[c].wrapping_add(v[d]);
    v[b] = (v[b] ^ v[c]).rotate_right(63);
}

#[cfg(test)]
mod tests {
    use super::*;

    fn hex(bytes: [u8; 32]) -> String {
        bytes.iter().map(|byte| format!("{byte:02x}")).collect()
    }

    /// The digests were taken from Python: `hashlib.blake2b(message, digest_size=32).hexdigest()`.
    #[test]
    fn digests_as_python_gives_them() {
        let counting = |length: usize| (0..length).map(|i| (i % 251) as u8).collect::<Vec<u8>>();
        let table = [
            (Vec::new(), "0e5751c026e543b2e8ab2eb06099daa1d1e5df47778f7787faab45cdf12fe3a8"),
            (b"abc".to_vec(), "bddd813c634239723171ef3fee98579b94964e3bb1cb3e427262c8c068d52319"),
            (counting(128), "c3582f71ebb2be66fa5dd750f80baae97554f3b015663c8be377cfcb2488c1d1"),
            (counting(129), "f7f3c46ba2564ff4c4c162da1f5b605f9f1c4aa6a20652a9f9a337c1a2f5b9c9"),
            (counting(1000), "b372d0608f720c8c3dd41e9c8eecb10143b41abe520b616607e754bf79c08331"),
        ];
        for (message, digest) in table {
            let mut hasher = Blake2b::new();
            hasher.update(&message[..message.len() / 2]);
            hasher.update(&message[message.len() / 2..]);
            assert_eq!(hex(hasher.finalize()), digest);
        }
    }
}
