// The plain loop in Rust: the same work, data and checksum as lane_sampler_bench.
use std::time::Instant;

#[derive(Clone, Copy)]
struct Masks {
    over: [u64; 4],
    under: [u64; 4],
    len: u16,
}

// Returns the samples, which are those of lane_sampler_bench.
fn samples() -> [u32; 4096] {
    let mut values = [0; 4096];
    let mut seed: u32 = 12345;
    for value in &mut values {
        seed = seed.wrapping_mul(1664525).wrapping_add(1013904223);
        *value = (seed >> 8) % 10000;
    }
    values
}

#[inline(never)]
fn classify(values: &[u32], threshold: u32) -> Masks {
    let mut over = [0; 4];
    let mut under = [0; 4];
    for (i, &value) in values.iter().enumerate() {
        over[i / 64] |= u64::from(value > threshold) << (i % 64);
        under[i / 64] |= u64::from(value < threshold) << (i % 64);
    }
    Masks { over, under, len: values.len() as u16 }
}

// The plain loop, a word at a time.
#[inline(never)]
fn classify_by_words(values: &[u32], threshold: u32) -> Masks {
    let mut over = [0; 4];
    let mut under = [0; 4];
    for (word, part) in values.chunks(64).enumerate().take(4) {
        for (i, &value) in part.iter().enumerate() {
            over[word] |= u64::from(value > threshold) << i;
            under[word] |= u64::from(value < threshold) << i;
        }
    }
    Masks { over, under, len: values.len() as u16 }
}

// Returns the checksum after the masks of one more block.
fn added(sum: u64, masks: Masks) -> u64 {
    let [a, b, c, d] = masks.over;
    let [e, f, g, h] = masks.under;
    sum.rotate_left(1) ^ a ^ b ^ c ^ d ^ e ^ f ^ g ^ h
}

// Prints the checksum and the time of a block.
fn timed(name: &str, rounds: u32, size: usize, classify: fn(&[u32], u32) -> Masks) {
    let values = samples();
    let start = Instant::now();
    let mut sum = 0;
    let mut lens = 0;
    for round in 0..rounds {
        for block in 0..16 {
            let from = 256 * block;
            let masks = classify(&values[from..from + size], 4000 + round % 2048);
            lens += u64::from(masks.len);
            sum = added(sum, masks);
        }
    }
    let tenths = start.elapsed().as_nanos() * 10 / (u128::from(rounds.max(1)) * 16);
    assert_eq!(lens, size as u64 * 16 * u64::from(rounds));
    println!("{name} {sum:016X} {}.{} ns", tenths / 10, tenths % 10);
}

fn main() {
    let rounds: u32 = std::env::args().nth(1).and_then(|w| w.parse().ok()).unwrap_or(256);
    let size: usize = std::env::args().nth(2).and_then(|w| w.parse().ok()).unwrap_or(256).min(256);
    timed("rust", rounds, size, classify);
    timed("rust_by_words", rounds, size, classify_by_words);
}
