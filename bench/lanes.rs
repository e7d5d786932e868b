//! Times one block of SHA-256 (FIPS 180-4) over one lane, four and eight, for each digest. bench/lanes.py builds it.
#![feature(portable_simd)]

use std::hint::black_box;
use std::simd::Simd;
use std::time::Instant;

const FIRST: [u32; 8] = [
    0x6a09e667, 0xbb67ae85, 0x3c6ef372, 0xa54ff53a, 0x510e527f, 0x9b05688c, 0x1f83d9ab, 0x5be0cd19,
];

/// The round constants: the first 32 bits of the fractional parts of the cube roots of the first 64 primes.
fn constants() -> [u32; 64] {
    let mut found = [0; 64];
    let (mut prime, mut count) = (2u64, 0);
    while count < 64 {
        if (2..prime).all(|it| prime % it != 0) {
            found[count] = ((prime as f64).cbrt().fract() * 4294967296.0) as u32;
            count += 1;
        }
        prime += 1;
    }
    found
}

fn turned<const N: usize>(x: Simd<u32, N>, by: u32) -> Simd<u32, N> {
    (x >> Simd::splat(by)) | (x << Simd::splat(32 - by))
}

#[inline(never)]
fn block<const N: usize>(state: &mut [Simd<u32, N>; 8], words: &[Simd<u32, N>; 16], k: &[u32; 64]) {
    let mut w = *words;
    let [mut a, mut b, mut c, mut d, mut e, mut f, mut g, mut h] = *state;
    for t in 0..64 {
        if t >= 16 {
            let (x, y) = (w[(t + 1) % 16], w[(t + 14) % 16]);
            let low = turned(x, 7) ^ turned(x, 18) ^ (x >> Simd::splat(3));
            let high = turned(y, 17) ^ turned(y, 19) ^ (y >> Simd::splat(10));
            w[t % 16] += low + w[(t + 9) % 16] + high;
        }
        let one = h + (turned(e, 6) ^ turned(e, 11) ^ turned(e, 25)) + ((e & f) ^ (!e & g)) + Simd::splat(k[t]) + w[t % 16];
        let two = (turned(a, 2) ^ turned(a, 13) ^ turned(a, 22)) + ((a & b) ^ (a & c) ^ (b & c));
        (h, g, f, e, d, c, b, a) = (g, f, e, d + one, c, b, a, one + two);
    }
    for (old, new) in state.iter_mut().zip([a, b, c, d, e, f, g, h]) {
        *old += new;
    }
}

/// The least nanoseconds a block of one lane takes, of twenty turns.
fn least<const N: usize>(k: &[u32; 64]) -> f64 {
    let mut state = FIRST.map(Simd::splat);
    let words = [Simd::splat(black_box(0x61626364)); 16];
    let mut found = f64::MAX;
    for _ in 0..20 {
        let start = Instant::now();
        for _ in 0..20_000 {
            block::<N>(&mut state, black_box(&words), k);
        }
        found = found.min(start.elapsed().as_nanos() as f64 / 20_000.0 / N as f64);
    }
    black_box(state);
    found
}

fn main() {
    let k = constants();
    assert_eq!((k[0], k[63]), (0x428a2f98, 0xc67178f2));
    println!("one {:.0} ns, four {:.0} ns, eight {:.0} ns", least::<1>(&k), least::<4>(&k), least::<8>(&k));
}
