//! The numbers by which the programs choose their calls, memories strewn with FF, and the sum that tells
//! what came of the calls.

pub fn next(seed: u32) -> u32 {
    seed.wrapping_mul(1664525).wrapping_add(1013904223)
}

pub fn added(sum: u32, number: u32) -> u32 {
    sum.wrapping_mul(31).wrapping_add(number)
}

pub fn summed<'a>(sum: u32, bytes: impl IntoIterator<Item = &'a u8>) -> u32 {
    bytes
        .into_iter()
        .fold(sum, |sum, byte| added(sum, (*byte).into()))
}

/// A memory of which one in `every` bytes is FF and the others are under `under`.
pub fn strewn(seed: &mut u32, length: usize, every: u32, under: u32) -> Vec<u8> {
    (0..length)
        .map(|_| {
            let a = next(*seed);
            *seed = next(a);
            if (a >> 16) % every == 0 {
                0xFF
            } else {
                ((*seed >> 16) % under) as u8
            }
        })
        .collect()
}
