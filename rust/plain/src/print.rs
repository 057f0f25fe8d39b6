//! The fingerprint of a situation.

/// Bytes that are taken together, so that not every byte waits for the one before it.
const TOGETHER: usize = 8;

/// The powers of 33 that the bytes taken together count with, and the one for what came before them.
const POWERS: [u32; TOGETHER] = powers();
const BEFORE: u32 = POWERS[0].wrapping_mul(33);

const fn powers() -> [u32; TOGETHER] {
    let mut powers = [1u32; TOGETHER];
    let mut i = TOGETHER - 1;
    while i > 0 {
        powers[i - 1] = powers[i].wrapping_mul(33);
        i -= 1;
    }
    powers
}

/// It "starts at 0 and becomes 33 times itself plus the byte, modulo 2^32, for each byte of the situation".
pub fn fingerprint(situation: &[u8]) -> u32 {
    let chunks = situation.chunks_exact(TOGETHER);
    let rest = chunks.remainder();
    let print = chunks.fold(0u32, |print, chunk| print.wrapping_mul(BEFORE).wrapping_add(weighed(chunk)));
    rest.iter().fold(print, mixed)
}

fn mixed(print: u32, byte: &u8) -> u32 {
    print.wrapping_mul(33).wrapping_add((*byte).into())
}

fn weighed(chunk: &[u8]) -> u32 {
    chunk.iter().zip(POWERS).fold(0, |sum, (&byte, power)| sum.wrapping_add(power.wrapping_mul(byte.into())))
}

#[cfg(test)]
mod tests {
    use super::{fingerprint, mixed};

    #[test]
    fn is_the_one_of_document_01() {
        // The largest situation has 1,672 bytes.
        let bytes: Vec<u8> = (0..1_700u32).map(|at| (at * at * 31 + 7) as u8).collect();
        for length in 0..bytes.len() {
            assert_eq!(fingerprint(&bytes[..length]), bytes[..length].iter().fold(0, mixed));
        }
    }
}
