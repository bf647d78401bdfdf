//! MD5, from RFC 1321, step by step; section numbers are the RFC's.

use super::{check, Checked};

pub const DIGEST_SIZE: usize = 16;
const BLOCK_SIZE: usize = 64;

/// 3.4: the integer part of 4294967296 times abs(sin(i)), i from 1 to 64, as A.3 prints it.
#[rustfmt::skip]
pub(super) const T: [u32; 64] = [
    0xd76aa478, 0xe8c7b756, 0x242070db, 0xc1bdceee,
    0xf57c0faf, 0x4787c62a, 0xa8304613, 0xfd469501,
    0x698098d8, 0x8b44f7af, 0xffff5bb1, 0x895cd7be,
    0x6b901122, 0xfd987193, 0xa679438e, 0x49b40821,
    0xf61e2562, 0xc040b340, 0x265e5a51, 0xe9b6c7aa,
    0xd62f105d, 0x02441453, 0xd8a1e681, 0xe7d3fbc8,
    0x21e1cde6, 0xc33707d6, 0xf4d50d87, 0x455a14ed,
    0xa9e3e905, 0xfcefa3f8, 0x676f02d9, 0x8d2a4c8a,
    0xfffa3942, 0x8771f681, 0x6d9d6122, 0xfde5380c,
    0xa4beea44, 0x4bdecfa9, 0xf6bb4b60, 0xbebfbc70,
    0x289b7ec6, 0xeaa127fa, 0xd4ef3085, 0x04881d05,
    0xd9d4d039, 0xe6db99e5, 0x1fa27cf8, 0xc4ac5665,
    0xf4292244, 0x432aff97, 0xab9423a7, 0xfc93a039,
    0x655b59c3, 0x8f0ccc92, 0xffeff47d, 0x85845dd1,
    0x6fa87e4f, 0xfe2ce6e0, 0xa3014314, 0x4e0811a1,
    0xf7537e82, 0xbd3af235, 0x2ad7d2bb, 0xeb86d391,
];

/// 3.4: how far each of four steps in a row rotates, round by round.
const SHIFTS: [[u32; 4]; 4] = [
    [7, 12, 17, 22],
    [5, 9, 14, 20],
    [4, 11, 16, 23],
    [6, 10, 15, 21],
];

/// 3.4: the word of a round's first step, and how much further on that of each next step is.
const WORDS: [(usize, usize); 4] = [(0, 1), (1, 5), (5, 3), (0, 7)];

// ---- 3.4: the four functions ----

fn f(x: u32, y: u32, z: u32) -> u32 {
    (x & y) | (!x & z)
}

fn g(x: u32, y: u32, z: u32) -> u32 {
    (x & z) | (y & !z)
}

fn h(x: u32, y: u32, z: u32) -> u32 {
    x ^ y ^ z
}

fn i(x: u32, y: u32, z: u32) -> u32 {
    y ^ (x | !z)
}

// ---- 3.4: a block ----

/// A, B, C and D.
type Registers = [u32; 4];

/// One of the rounds 0 to 3, 16 steps. After each the registers move on by one.
fn round(
    number: usize,
    function: impl Fn(u32, u32, u32) -> u32,
    registers: Registers,
    words: &[u32; 16],
) -> Registers {
    let [mut a, mut b, mut c, mut d] = registers;
    let (first, further) = WORDS[number];
    for step in 0..16 {
        let word = words[(first + further * step) % 16];
        let sum = a
            .wrapping_add(function(b, c, d))
            .wrapping_add(word)
            .wrapping_add(T[16 * number + step]);
        let rotated = sum.rotate_left(SHIFTS[number][step % 4]);
        [a, b, c, d] = [d, b.wrapping_add(rotated), b, c];
    }
    [a, b, c, d]
}

/// A block's words, low-order byte first.
fn words(block: &[u8]) -> [u32; 16] {
    std::array::from_fn(|at| {
        let four = block[4 * at..4 * at + 4].try_into().unwrap();
        u32::from_le_bytes(four)
    })
}

fn add_block(registers: &mut Registers, block: &[u8]) {
    let words = words(block);
    let mut next = *registers;
    next = round(0, f, next, &words);
    next = round(1, g, next, &words);
    next = round(2, h, next, &words);
    next = round(3, i, next, &words);
    for (register, next) in registers.iter_mut().zip(next) {
        *register = register.wrapping_add(next);
    }
}

// ---- The message ----

/// 3.1 and 3.2: what is left of a message behind its whole blocks, padded, then the message's
/// length in bits.
fn last_blocks(rest: &[u8], length: usize) -> Vec<u8> {
    let mut last = rest.to_vec();
    last.push(0x80);
    while last.len() % BLOCK_SIZE != 56 {
        last.push(0);
    }
    let bits = (length as u64).wrapping_mul(8);
    last.extend(bits.to_le_bytes());
    last
}

pub fn md5(message: &[u8]) -> [u8; DIGEST_SIZE] {
    // 3.3
    let mut registers = [0x67452301, 0xefcdab89, 0x98badcfe, 0x10325476];
    let blocks = message.chunks_exact(BLOCK_SIZE);
    let last = last_blocks(blocks.remainder(), message.len());
    for block in blocks.chain(last.chunks_exact(BLOCK_SIZE)) {
        add_block(&mut registers, block);
    }
    // 3.5
    let mut digest = [0; DIGEST_SIZE];
    for (four, register) in digest.chunks_exact_mut(4).zip(registers) {
        four.copy_from_slice(&register.to_le_bytes());
    }
    digest
}

// ---- The call ----

/// Writes the digest at the buffer's front; the answer is its size. A refusal leaves the
/// buffer as it was.
pub fn digest(message: &[u8], buffer: &mut [u8]) -> Checked<u32> {
    check(34, buffer.len() >= DIGEST_SIZE, DIGEST_SIZE)?;
    buffer[..DIGEST_SIZE].copy_from_slice(&md5(message));
    Ok(DIGEST_SIZE as u32)
}

/// For C: the answer is number × 2^32 + place.
pub fn digest_for_c(message: &[u8], buffer: &mut [u8]) -> u64 {
    match digest(message, buffer) {
        Ok(size) => u64::from(size),
        Err(refusal) => refusal.packed(),
    }
}
