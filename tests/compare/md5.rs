//! The makers' own MD5: the constants by RFC 1321's sentence (3.4) and not by its table,
//! the whole message padded at once. It shares nothing with the reference's.

use std::sync::LazyLock;

static SINES: LazyLock<[u32; 64]> = LazyLock::new(|| {
    std::array::from_fn(|step| {
        let sine = (step as f64 + 1.0).sin().abs();
        (sine * 4_294_967_296.0) as u32
    })
});

/// By round, then by step modulo 4.
const ROTATIONS: [u32; 16] = [7, 12, 17, 22, 5, 9, 14, 20, 4, 11, 16, 23, 6, 10, 15, 21];

pub fn md5(message: &[u8]) -> [u8; 16] {
    let mut padded = message.to_vec();
    padded.push(128);
    padded.resize((message.len() + 9).next_multiple_of(64), 0);
    let bits = 8 * message.len() as u64;
    let end = padded.len();
    padded[end - 8..].copy_from_slice(&bits.to_le_bytes());

    let mut state: [u32; 4] = [0x6745_2301, 0xEFCD_AB89, 0x98BA_DCFE, 0x1032_5476];
    for block in padded.chunks(64) {
        let word = |at: usize| {
            let four = &block[4 * at..];
            four[..4]
                .iter()
                .rev()
                .fold(0, |word: u32, &byte| word << 8 | u32::from(byte))
        };
        let [mut a, mut b, mut c, mut d] = state;
        for step in 0..64 {
            let (mixed, at) = match step / 16 {
                0 => (d ^ (b & (c ^ d)), step),
                1 => (c ^ (d & (b ^ c)), 5 * step + 1),
                2 => (b ^ c ^ d, 3 * step + 5),
                _ => (c ^ (b | !d), 7 * step),
            };
            let sum = [a, mixed, SINES[step], word(at % 16)]
                .into_iter()
                .fold(0, u32::wrapping_add);
            let turned = sum.rotate_left(ROTATIONS[step / 16 * 4 + step % 4]);
            (a, d, c, b) = (d, c, b, b.wrapping_add(turned));
        }
        for (whole, part) in state.iter_mut().zip([a, b, c, d]) {
            *whole = whole.wrapping_add(part);
        }
    }
    state.map(u32::to_le_bytes).concat().try_into().unwrap()
}
