//! The loops of `ribbon_core` in plain Rust with no proofs, over the rows of `benches ribbon`, to be timed beside it:
//! `ribbon_reference KEYS PLANES ROUNDS`. It prints what `benches ribbon` prints.

use std::hint::black_box;

struct Row {
    start: u32,
    coeff: u128,
    tag: u16,
}

// The generator splitmix64 (Steele, Lea and Flood 2014).
struct Random {
    state: u64,
}

impl Random {
    fn next(&mut self) -> u64 {
        self.state = self.state.wrapping_add(0x9e37_79b9_7f4a_7c15);
        let mut z = self.state;
        z = (z ^ (z >> 30)).wrapping_mul(0xbf58_476d_1ce4_e5b9);
        z = (z ^ (z >> 27)).wrapping_mul(0x94d0_49bb_1331_11eb);
        z ^ (z >> 31)
    }

    fn row(&mut self, starts: u32) -> Row {
        let coeff = (u128::from(self.next()) << 64 | u128::from(self.next())) | 1;
        let place = self.next();
        Row {
            start: ((u128::from(place) * u128::from(starts)) >> 64) as u32,
            coeff,
            tag: place as u16,
        }
    }
}

fn at_lowest(coeff: u128) -> (u128, u32) {
    let low = coeff as u64;
    if low != 0 {
        let zeros = low.trailing_zeros();
        return (coeff >> zeros, zeros);
    }
    let zeros = coeff.trailing_zeros();
    (coeff >> zeros, zeros)
}

struct System {
    coeffs: Vec<u128>,
    targets: Vec<u16>,
}

impl System {
    fn new(starts: u32) -> System {
        let columns = starts as usize + 127;
        System {
            coeffs: vec![0; columns],
            targets: vec![0; columns],
        }
    }

    fn add(&mut self, row: &Row, mut target: u16) -> bool {
        let mut at = row.start as usize;
        let mut coeff = row.coeff;
        loop {
            let pivot = self.coeffs[at];
            if pivot == 0 {
                self.coeffs[at] = coeff;
                self.targets[at] = target;
                return true;
            }
            coeff ^= pivot;
            target ^= self.targets[at];
            if coeff == 0 {
                return target == 0;
            }
            let (odd, skipped) = at_lowest(coeff);
            coeff = odd;
            at += skipped as usize;
        }
    }

    fn solve(&self, planes: usize) -> Vec<u64> {
        let columns = self.coeffs.len();
        let width = columns.div_ceil(64);
        let mut words = vec![0; planes * width];
        let mut windows = [0u128; 16];
        for word in (0..width).rev() {
            for at in (64 * word..columns.min(64 * word + 64)).rev() {
                let (coeff, target) = (self.coeffs[at], self.targets[at]);
                for (plane, window) in windows[..planes].iter_mut().enumerate() {
                    let above = *window << 1;
                    let bit = ((coeff & above).count_ones() ^ u32::from(target >> plane)) & 1;
                    *window = above | u128::from(bit);
                }
            }
            for plane in 0..planes {
                words[plane * width + word] = windows[plane] as u64;
            }
        }
        words
    }
}

fn main() {
    let numbers: Vec<u32> = std::env::args()
        .skip(1)
        .map(|word| word.parse().unwrap())
        .collect();
    let (keys, planes, rounds) = (numbers[0], numbers[1], numbers[2]);
    let mut random = Random { state: 7 };
    for _ in 0..rounds {
        let starts = keys + keys / 8 + 1;
        let mut system = System::new(starts);
        let mut kept = 0;
        for _ in 0..keys {
            let row = random.row(starts);
            if system.add(&row, row.tag >> (16 - planes)) {
                kept += 1;
            }
        }
        black_box(system.solve(planes as usize));
        println!("{kept} {starts}");
    }
}
