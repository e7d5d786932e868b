//! SHA-256 (FIPS 180-4) in plain Rust, message after message by the steps of the standard, with no instructions that
//! only some processors have: a module of the programs that are timed beside `clubcard` and its library.

// Each of these uses some of it.
#![allow(dead_code)]

pub type Key = [u8; 32];

const ROUND_CONSTANTS: [u32; 64] = [
    0x428a2f98, 0x71374491, 0xb5c0fbcf, 0xe9b5dba5, 0x3956c25b, 0x59f111f1, 0x923f82a4, 0xab1c5ed5,
    0xd807aa98, 0x12835b01, 0x243185be, 0x550c7dc3, 0x72be5d74, 0x80deb1fe, 0x9bdc06a7, 0xc19bf174,
    0xe49b69c1, 0xefbe4786, 0x0fc19dc6, 0x240ca1cc, 0x2de92c6f, 0x4a7484aa, 0x5cb0a9dc, 0x76f988da,
    0x983e5152, 0xa831c66d, 0xb00327c8, 0xbf597fc7, 0xc6e00bf3, 0xd5a79147, 0x06ca6351, 0x14292967,
    0x27b70a85, 0x2e1b2138, 0x4d2c6dfc, 0x53380d13, 0x650a7354, 0x766a0abb, 0x81c2c92e, 0x92722c85,
    0xa2bfe8a1, 0xa81a664b, 0xc24b8b70, 0xc76c51a3, 0xd192e819, 0xd6990624, 0xf40e3585, 0x106aa070,
    0x19a4c116, 0x1e376c08, 0x2748774c, 0x34b0bcb5, 0x391c0cb3, 0x4ed8aa4a, 0x5b9cca4f, 0x682e6ff3,
    0x748f82ee, 0x78a5636f, 0x84c87814, 0x8cc70208, 0x90befffa, 0xa4506ceb, 0xbef9a3f7, 0xc67178f2,
];

const INITIAL_HASH: [u32; 8] = [
    0x6a09e667, 0xbb67ae85, 0x3c6ef372, 0xa54ff53a, 0x510e527f, 0x9b05688c, 0x1f83d9ab, 0x5be0cd19,
];

// Nested rotations take fewer copies of `x` than three of `x` itself.
fn big_sigma_0(x: u32) -> u32 {
    (x ^ (x ^ x.rotate_right(9)).rotate_right(11)).rotate_right(2)
}

fn big_sigma_1(x: u32) -> u32 {
    (x ^ (x ^ x.rotate_right(14)).rotate_right(5)).rotate_right(6)
}

fn small_sigma_0(x: u32) -> u32 {
    (x ^ x.rotate_right(11)).rotate_right(7) ^ (x >> 3)
}

fn small_sigma_1(x: u32) -> u32 {
    (x ^ x.rotate_right(2)).rotate_right(17) ^ (x >> 10)
}

macro_rules! round {
    ($a:ident $b:ident $c:ident $d:ident $e:ident $f:ident $g:ident $h:ident, $constant:expr, $word:expr) => {
        let sum = $h
            .wrapping_add(big_sigma_1($e))
            .wrapping_add($g ^ ($e & ($f ^ $g)))
            .wrapping_add($constant)
            .wrapping_add($word);
        $d = $d.wrapping_add(sum);
        $h = sum
            .wrapping_add(big_sigma_0($a))
            .wrapping_add($b ^ (($a ^ $b) & ($b ^ $c)));
    };
}

// Eight rounds bring each variable back to its place.
macro_rules! eight_rounds {
    ($a:ident $b:ident $c:ident $d:ident $e:ident $f:ident $g:ident $h:ident, $first:expr, $word:expr) => {
        round!($a $b $c $d $e $f $g $h, ROUND_CONSTANTS[$first], $word($first));
        round!($h $a $b $c $d $e $f $g, ROUND_CONSTANTS[$first + 1], $word($first + 1));
        round!($g $h $a $b $c $d $e $f, ROUND_CONSTANTS[$first + 2], $word($first + 2));
        round!($f $g $h $a $b $c $d $e, ROUND_CONSTANTS[$first + 3], $word($first + 3));
        round!($e $f $g $h $a $b $c $d, ROUND_CONSTANTS[$first + 4], $word($first + 4));
        round!($d $e $f $g $h $a $b $c, ROUND_CONSTANTS[$first + 5], $word($first + 5));
        round!($c $d $e $f $g $h $a $b, ROUND_CONSTANTS[$first + 6], $word($first + 6));
        round!($b $c $d $e $f $g $h $a, ROUND_CONSTANTS[$first + 7], $word($first + 7));
    };
}

fn compress(state: &mut [u32; 8], block: &[u8; 64]) {
    let mut words = [0; 16];
    for (word, bytes) in words.iter_mut().zip(block.chunks_exact(4)) {
        *word = u32::from_be_bytes(bytes.try_into().unwrap());
    }
    let [mut a, mut b, mut c, mut d, mut e, mut f, mut g, mut h] = *state;
    eight_rounds!(a b c d e f g h, 0, |i: usize| words[i]);
    eight_rounds!(a b c d e f g h, 8, |i: usize| words[i]);
    // Later words of the schedule stand over those that are 16 places before them.
    let mut next = |i: usize| {
        words[i % 16] = words[i % 16]
            .wrapping_add(small_sigma_0(words[(i + 1) % 16]))
            .wrapping_add(words[(i + 9) % 16])
            .wrapping_add(small_sigma_1(words[(i + 14) % 16]));
        words[i % 16]
    };
    eight_rounds!(a b c d e f g h, 16, next);
    eight_rounds!(a b c d e f g h, 24, next);
    eight_rounds!(a b c d e f g h, 32, next);
    eight_rounds!(a b c d e f g h, 40, next);
    eight_rounds!(a b c d e f g h, 48, next);
    eight_rounds!(a b c d e f g h, 56, next);
    for (word, added) in state.iter_mut().zip([a, b, c, d, e, f, g, h]) {
        *word = word.wrapping_add(added);
    }
}

/// A message of at most 119 bytes, padded.
pub struct Message {
    pub bytes: [u8; 128],
    length: usize,
}

impl Message {
    pub fn new(parts: &[&[u8]]) -> Message {
        let mut message = Message {
            bytes: [0; 128],
            length: 0,
        };
        for part in parts {
            let end = message.length + part.len();
            message.bytes[message.length..end].copy_from_slice(part);
            message.length = end;
        }
        message.bytes[message.length] = 0x80;
        let end = if message.length < 56 { 64 } else { 128 };
        let bits = 8 * message.length as u64;
        message.bytes[end - 8..end].copy_from_slice(&bits.to_be_bytes());
        message
    }

    pub fn state(&self) -> [u32; 8] {
        let mut state = INITIAL_HASH;
        compress(&mut state, self.bytes[..64].try_into().unwrap());
        if self.length >= 56 {
            compress(&mut state, self.bytes[64..].try_into().unwrap());
        }
        state
    }

    pub fn digest(&self) -> Key {
        let mut digest = [0; 32];
        for (bytes, word) in digest.chunks_exact_mut(4).zip(self.state()) {
            bytes.copy_from_slice(&word.to_be_bytes());
        }
        digest
    }
}

/// The SHA-256 of a long message.
pub fn sha256(bytes: &[u8]) -> Key {
    let mut state = INITIAL_HASH;
    let mut blocks = bytes.chunks_exact(64);
    for block in &mut blocks {
        compress(&mut state, block.try_into().unwrap());
    }
    let rest = blocks.remainder();
    let mut last = [0; 128];
    last[..rest.len()].copy_from_slice(rest);
    last[rest.len()] = 0x80;
    let end = if rest.len() < 56 { 64 } else { 128 };
    last[end - 8..end].copy_from_slice(&(8 * bytes.len() as u64).to_be_bytes());
    for block in last[..end].chunks_exact(64) {
        compress(&mut state, block.try_into().unwrap());
    }
    let mut digest = [0; 32];
    for (bytes, word) in digest.chunks_exact_mut(4).zip(state) {
        bytes.copy_from_slice(&word.to_be_bytes());
    }
    digest
}
