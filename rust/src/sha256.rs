//! SHA-256 (FIPS 180-4), so that a member can hold a file against the ledger
//! with `sha256sum`. It stands here because no crate from a registry is used.

use std::fmt::{self, Display, Formatter};

/// The digest of some bytes, shown as `sha256sum` shows it.
#[derive(Clone, Copy, Debug, PartialEq, Eq)]
pub struct Digest([u8; 32]);

impl Digest {
    pub fn of(bytes: &[u8]) -> Digest {
        let mut hasher = Hasher::new();
        hasher.add(bytes);
        hasher.digest()
    }
}

impl Display for Digest {
    fn fmt(&self, formatter: &mut Formatter<'_>) -> fmt::Result {
        self.0
            .iter()
            .try_for_each(|byte| write!(formatter, "{byte:02x}"))
    }
}

const BLOCK: usize = 64;

/// The first 32 bits of the fractional parts of the square roots of the first
/// 8 primes, and of the cube roots of the first 64.
const BEGIN: [u32; 8] = [
    0x6a09e667, 0xbb67ae85, 0x3c6ef372, 0xa54ff53a, 0x510e527f, 0x9b05688c, 0x1f83d9ab, 0x5be0cd19,
];
const ROUNDS: [u32; 64] = [
    0x428a2f98, 0x71374491, 0xb5c0fbcf, 0xe9b5dba5, 0x3956c25b, 0x59f111f1, 0x923f82a4, 0xab1c5ed5,
    0xd807aa98, 0x12835b01, 0x243185be, 0x550c7dc3, 0x72be5d74, 0x80deb1fe, 0x9bdc06a7, 0xc19bf174,
    0xe49b69c1, 0xefbe4786, 0x0fc19dc6, 0x240ca1cc, 0x2de92c6f, 0x4a7484aa, 0x5cb0a9dc, 0x76f988da,
    0x983e5152, 0xa831c66d, 0xb00327c8, 0xbf597fc7, 0xc6e00bf3, 0xd5a79147, 0x06ca6351, 0x14292967,
    0x27b70a85, 0x2e1b2138, 0x4d2c6dfc, 0x53380d13, 0x650a7354, 0x766a0abb, 0x81c2c92e, 0x92722c85,
    0xa2bfe8a1, 0xa81a664b, 0xc24b8b70, 0xc76c51a3, 0xd192e819, 0xd6990624, 0xf40e3585, 0x106aa070,
    0x19a4c116, 0x1e376c08, 0x2748774c, 0x34b0bcb5, 0x391c0cb3, 0x4ed8aa4a, 0x5b9cca4f, 0x682e6ff3,
    0x748f82ee, 0x78a5636f, 0x84c87814, 0x8cc70208, 0x90befffa, 0xa4506ceb, 0xbef9a3f7, 0xc67178f2,
];

/// A digest on its way, for what is too long to be held at once.
pub struct Hasher {
    state: [u32; 8],
    length: u64,
    /// The last bytes added, not yet a whole block.
    rest: Vec<u8>,
}

impl Default for Hasher {
    fn default() -> Hasher {
        Hasher::new()
    }
}

impl Hasher {
    pub fn new() -> Hasher {
        Hasher {
            state: BEGIN,
            length: 0,
            rest: Vec::with_capacity(2 * BLOCK),
        }
    }

    pub fn add(&mut self, mut bytes: &[u8]) {
        self.length += bytes.len() as u64;
        if !self.rest.is_empty() {
            let wanted = (BLOCK - self.rest.len()).min(bytes.len());
            let (first, later) = bytes.split_at(wanted);
            self.rest.extend_from_slice(first);
            bytes = later;
            if self.rest.len() < BLOCK {
                return;
            }
            take_in(&mut self.state, &self.rest);
            self.rest.clear();
        }
        let whole = bytes.len() - bytes.len() % BLOCK;
        take_in(&mut self.state, &bytes[..whole]);
        self.rest.extend_from_slice(&bytes[whole..]);
    }

    pub fn digest(mut self) -> Digest {
        // One bit, zeros up to a whole block, and the length in bits.
        self.rest.push(0x80);
        while self.rest.len() % BLOCK != BLOCK - 8 {
            self.rest.push(0);
        }
        self.rest
            .extend_from_slice(&(8 * self.length).to_be_bytes());
        take_in(&mut self.state, &self.rest);
        let mut digest = [0; 32];
        for (bytes, word) in digest.chunks_exact_mut(4).zip(self.state) {
            bytes.copy_from_slice(&word.to_be_bytes());
        }
        Digest(digest)
    }
}

/// One round. The eight words change places from round to round: here their
/// names do, so that nothing is copied.
macro_rules! round {
    ($word:expr, $a:ident $b:ident $c:ident $d:ident $e:ident $f:ident $g:ident $h:ident) => {
        let high = $e.rotate_right(6) ^ $e.rotate_right(11) ^ $e.rotate_right(25);
        let one = $h
            .wrapping_add(high)
            .wrapping_add($g ^ ($e & ($f ^ $g)))
            .wrapping_add($word);
        let low = $a.rotate_right(2) ^ $a.rotate_right(13) ^ $a.rotate_right(22);
        $d = $d.wrapping_add(one);
        $h = one
            .wrapping_add(low)
            .wrapping_add(($a & $b) | ($c & ($a | $b)));
    };
}

/// Takes in whole blocks.
fn take_in(state: &mut [u32; 8], blocks: &[u8]) {
    #[cfg(target_arch = "x86_64")]
    if instructions::are_there() {
        // Safe, since the processor was asked.
        return unsafe { instructions::take_in(state, blocks) };
    }
    take_in_by_words(state, blocks);
}

fn take_in_by_words(state: &mut [u32; 8], blocks: &[u8]) {
    for block in blocks.chunks_exact(BLOCK) {
        let words = schedule(block);
        let [mut a, mut b, mut c, mut d, mut e, mut f, mut g, mut h] = *state;
        for eight in words.chunks_exact(8) {
            round!(eight[0], a b c d e f g h);
            round!(eight[1], h a b c d e f g);
            round!(eight[2], g h a b c d e f);
            round!(eight[3], f g h a b c d e);
            round!(eight[4], e f g h a b c d);
            round!(eight[5], d e f g h a b c);
            round!(eight[6], c d e f g h a b);
            round!(eight[7], b c d e f g h a);
        }
        for (sum, new) in state.iter_mut().zip([a, b, c, d, e, f, g, h]) {
            *sum = sum.wrapping_add(new);
        }
    }
}

/// The words of the 64 rounds, each with its round's own added.
fn schedule(block: &[u8]) -> [u32; 64] {
    let mut words = [0u32; 64];
    for (word, bytes) in words.iter_mut().zip(block.chunks_exact(4)) {
        *word = u32::from_be_bytes([bytes[0], bytes[1], bytes[2], bytes[3]]);
    }
    for at in 16..64 {
        let [two, fifteen] = [words[at - 2], words[at - 15]];
        let near = two.rotate_right(17) ^ two.rotate_right(19) ^ (two >> 10);
        let far = fifteen.rotate_right(7) ^ fifteen.rotate_right(18) ^ (fifteen >> 3);
        words[at] = words[at - 16]
            .wrapping_add(far)
            .wrapping_add(words[at - 7])
            .wrapping_add(near);
    }
    for (word, round) in words.iter_mut().zip(ROUNDS) {
        *word = word.wrapping_add(round);
    }
    words
}

/// The same by the processor's own instructions for it, some five times as
/// fast: every moved file has three digests taken.
#[cfg(target_arch = "x86_64")]
mod instructions {
    use super::{BLOCK, ROUNDS};
    use std::arch::is_x86_feature_detected;
    use std::arch::x86_64::*;

    pub fn are_there() -> bool {
        is_x86_feature_detected!("sha")
            && is_x86_feature_detected!("ssse3")
            && is_x86_feature_detected!("sse4.1")
    }

    #[target_feature(enable = "sha,ssse3,sse4.1")]
    pub fn take_in(state: &mut [u32; 8], blocks: &[u8]) {
        let from_big_end = _mm_set_epi64x(0x0c0d0e0f_08090a0b, 0x04050607_00010203);
        // The instructions want the words as a b e f and c d g h.
        let [a, b, c, d, e, f, g, h] = state.map(|word| word as i32);
        let mut abef = _mm_set_epi32(a, b, e, f);
        let mut cdgh = _mm_set_epi32(c, d, g, h);
        for block in blocks.chunks_exact(BLOCK) {
            let begun = (abef, cdgh);
            let mut words = [0, 16, 32, 48].map(|at| {
                let four = load(&block[at..at + 16]);
                _mm_shuffle_epi8(four, from_big_end)
            });
            for (turn, rounds) in ROUNDS.chunks_exact(4).enumerate() {
                let [now, one, two, three] = [0, 1, 2, 3].map(|ahead| (turn + ahead) % 4);
                let [w, x, y, z] = [rounds[0], rounds[1], rounds[2], rounds[3]];
                let rounds = _mm_set_epi32(z as i32, y as i32, x as i32, w as i32);
                let sum = _mm_add_epi32(words[now], rounds);
                cdgh = _mm_sha256rnds2_epu32(cdgh, abef, sum);
                abef = _mm_sha256rnds2_epu32(abef, cdgh, _mm_shuffle_epi32(sum, 0x0e));
                // The words of four turns later, in the place of these.
                let far = _mm_sha256msg1_epu32(words[now], words[one]);
                let far = _mm_add_epi32(far, _mm_alignr_epi8(words[three], words[two], 4));
                words[now] = _mm_sha256msg2_epu32(far, words[three]);
            }
            abef = _mm_add_epi32(abef, begun.0);
            cdgh = _mm_add_epi32(cdgh, begun.1);
        }
        let low = |pair| _mm_cvtsi128_si64(pair) as u64;
        let high = |pair| low(_mm_unpackhi_epi64(pair, pair));
        let halves = |pair: u64| [(pair >> 32) as u32, pair as u32];
        let ([a, b], [e, f]) = (halves(high(abef)), halves(low(abef)));
        let ([c, d], [g, h]) = (halves(high(cdgh)), halves(low(cdgh)));
        *state = [a, b, c, d, e, f, g, h];
    }

    #[target_feature(enable = "sse2")]
    fn load(bytes: &[u8]) -> __m128i {
        let word = |at: usize| i64::from_le_bytes(bytes[at..at + 8].try_into().unwrap());
        _mm_set_epi64x(word(8), word(0))
    }
}

#[cfg(test)]
mod tests {
    use super::{take_in, take_in_by_words, Digest, Hasher, BEGIN};

    /// The examples published with the standard.
    #[test]
    fn published_digests() {
        for (text, digest) in [
            (
                "",
                "e3b0c44298fc1c149afbf4c8996fb92427ae41e4649b934ca495991b7852b855",
            ),
            (
                "abc",
                "ba7816bf8f01cfea414140de5dae2223b00361a396177a9cb410ff61f20015ad",
            ),
            (
                "abcdbcdecdefdefgefghfghighijhijkijkljklmklmnlmnomnopnopq",
                "248d6a61d20638b8e5c026930c3e6039a33ce45964ff2167f6ecedd419db06c1",
            ),
        ] {
            assert_eq!(Digest::of(text.as_bytes()).to_string(), digest);
        }
        let million = vec![b'a'; 1_000_000];
        assert_eq!(
            Digest::of(&million).to_string(),
            "cdc76e5c9914fb9281a1c7e284d73e67f1809a48a497200e046d39ccc7112cd0"
        );
    }

    #[test]
    fn parts_give_the_digest_of_the_whole() {
        let bytes: Vec<u8> = (0..1_000u32).map(|number| (number * 7) as u8).collect();
        for size in [1, 3, 55, 56, 63, 64, 65, 127, 128, 999] {
            let mut hasher = Hasher::new();
            bytes.chunks(size).for_each(|part| hasher.add(part));
            assert_eq!(hasher.digest(), Digest::of(&bytes), "{size}");
        }
    }

    /// Whichever way the processor has, the other gives the same.
    #[test]
    fn both_ways_agree() {
        let bytes: Vec<u8> = (0..64 * 50u32).map(|number| (number * 31) as u8).collect();
        for blocks in [0, 1, 2, 7, 50] {
            let (mut one, mut other) = (BEGIN, BEGIN);
            take_in(&mut one, &bytes[..64 * blocks]);
            take_in_by_words(&mut other, &bytes[..64 * blocks]);
            assert_eq!(one, other, "{blocks}");
        }
    }
}
