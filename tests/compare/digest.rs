//! `station_digest` against the reference and the makers' own MD5.

use std::fs::File;
use std::io::{BufWriter, Write};
use std::path::Path;

use reference::digest::digest_for_c;

use crate::bench::{Answer, Bench};
use crate::fence::{zeros, Fence, ROOM};
use crate::maker::md5::md5;
use crate::random::Random;

extern "C" {
    fn station_digest(
        bytes: *const u8,
        bytes_len: usize,
        digest: *mut u8,
        digest_len: usize,
    ) -> u64;
}

/// All families with their names, in the order in which they run.
const ALL: [(&str, fn(&mut Desk, &mut Random)); 4] = [
    ("digests", lengths),
    ("large digests", large),
    ("digest buffers", rooms),
    ("a digest of over 2^32 bits", over_32_bits),
];

const SIZE: usize = 16;
/// Bytes before the buffer, which must stay.
const BEFORE: usize = 64;

pub fn all(bench: &mut Bench) {
    let memory = &mut Memory::new();
    let mut desk = Desk { bench, memory };
    for (seed, (name, family)) in ALL.iter().enumerate() {
        if desk.bench.begins(name) {
            family(&mut desk, &mut Random::new(300 + seed as u64));
        }
    }
}

/// Where buffers are.
pub struct Memory {
    fence: Fence,
    /// What buffers hold beforehand.
    noise: Vec<u8>,
    calls: usize,
}

impl Memory {
    pub fn new() -> Memory {
        Memory {
            fence: Fence::new(),
            noise: Random::new(9).bytes(1 << 17),
            calls: 0,
        }
    }
}

pub struct Desk<'a> {
    pub bench: &'a mut Bench,
    pub memory: &'a mut Memory,
}

/// Answer and buffer for a digest and a buffer that holds this.
fn with_buffer(digest: [u8; SIZE], before: &[u8]) -> (Answer, Vec<u8>) {
    let mut buffer = before.to_vec();
    match buffer.get_mut(..SIZE) {
        Some(front) => {
            front.copy_from_slice(&digest);
            (Answer::new(0, SIZE), buffer)
        }
        None => (Answer::new(34, SIZE), buffer),
    }
}

impl Desk<'_> {
    /// The message's digest, with room for it and in any buffer.
    fn case(&mut self, random: &mut Random, message: &[u8]) {
        self.bench.package(message);
        let known = md5(message);
        self.digest(SIZE, known);
        let room = random.below(40);
        self.digest(room, known);
    }

    /// Asks for the lent message's digest in a buffer of `room` bytes that ends at a page
    /// that faults.
    pub fn digest(&mut self, room: usize, known: [u8; SIZE]) -> Answer {
        self.bench.asks("digest", vec![room as u64]);
        let Memory {
            fence,
            noise,
            calls,
        } = &mut *self.memory;
        let message = self.bench.bytes();
        let (lent, length) = (self.bench.lent, message.len());
        let shift = *calls % 251;
        let around = &noise[shift..shift + BEFORE + room];
        let before = &around[BEFORE..];

        let mut buffer = before.to_vec();
        let reference = Answer(digest_for_c(message, &mut buffer));
        let reference = (reference, buffer);

        let memory = fence.last(BEFORE + room);
        memory.copy_from_slice(around);
        let digest = memory[BEFORE..].as_mut_ptr();
        let answer = Answer(unsafe { station_digest(lent, length, digest, room) });
        let library = (answer, memory[BEFORE..].to_vec());

        let known = with_buffer(known, before);
        if memory[..BEFORE] != around[..BEFORE] {
            self.bench.fail("library: bytes before the buffer");
        }
        if library != reference || library != known {
            let shown = |(answer, buffer): &(Answer, Vec<u8>)| {
                format!("{answer}: {}", hex(&buffer[..room.min(SIZE)]))
            };
            let [library, reference, known] = [&library, &reference, &known].map(shown);
            self.bench.fail(&format!(
                "library {library}, reference {reference}, known {known}"
            ));
        }
        *calls += 1;
        self.bench.agree_digest(answer);
        answer
    }
}

fn hex(bytes: &[u8]) -> String {
    bytes.iter().map(|byte| format!("{byte:02x}")).collect()
}

/// Every length from 0 to 300 and around block boundaries, of bytes of each sort; messages
/// that differ in one bit.
fn lengths(desk: &mut Desk, random: &mut Random) {
    let near_blocks = (5..40).flat_map(|block| 64 * block - 12..64 * block + 4);
    for length in (0..=300).chain(near_blocks) {
        for byte in [0x00, 0xFF, 0x80, random.byte()] {
            desk.case(random, &vec![byte; length]);
        }
        for _ in 0..8 {
            let message = random.bytes(length);
            desk.case(random, &message);
        }
    }
    for length in [1, 16, 55, 56, 64, 119, 120, 128, 200] {
        let mut message = random.bytes(length);
        for bit in 0..8 * length {
            message[bit / 8] ^= 1 << (bit % 8);
            desk.case(random, &message);
            message[bit / 8] ^= 1 << (bit % 8);
        }
    }
}

/// Random bytes of many lengths up to a million.
fn large(desk: &mut Desk, random: &mut Random) {
    for around in [4096, 8192, 16_384, 32_768, 65_536, 1 << 17] {
        for length in around - 10..around + 3 {
            let message = random.bytes(length);
            desk.case(random, &message);
        }
    }
    for length in [1 << 19, 1_000_000, ROOM - 9, ROOM - 8, ROOM - 1, ROOM] {
        let message = random.bytes(length);
        desk.case(random, &message);
    }
    for _ in 0..300 {
        let length = random.below(20_000);
        let message = random.bytes(length);
        desk.case(random, &message);
    }
}

/// Every room from 0 to 40, and more.
fn rooms(desk: &mut Desk, random: &mut Random) {
    for length in [0, 1, 15, 16, 17, 55, 56, 63, 64, 65, 300, 70_000] {
        let message = random.bytes(length);
        desk.bench.package(&message);
        let known = md5(&message);
        for room in (0..=40).chain([64, 255, 256, 257, 4096, 65_535, 65_536, 65_537]) {
            desk.digest(room, known);
        }
    }
}

/// So many zero bytes that their number in bits takes 33 bits.
const MANY: usize = (1 << 29) + 1;
/// What md5sum says of them.
const DIGEST_OF_MANY: &str = "ea3b62c6b93cb3625a1fd76777985f5a";

fn over_32_bits(desk: &mut Desk, _: &mut Random) {
    let message = zeros(MANY);
    desk.bench.case(&[]);
    let [mut library, mut reference] = [[7; SIZE + 1]; 2];
    let mut answers = [0; 2];
    answers[0] = unsafe {
        station_digest(
            message.as_ptr(),
            message.len(),
            library.as_mut_ptr(),
            library.len(),
        )
    };
    answers[1] = digest_for_c(message, &mut reference);
    for (answer, buffer) in answers.into_iter().zip([library, reference]) {
        let digest = hex(&buffer[..SIZE]);
        if answer != SIZE as u64 || digest != DIGEST_OF_MANY || buffer[SIZE] != 7 {
            desk.bench
                .fail(&format!("{digest}, md5sum {DIGEST_OF_MANY}"));
        }
    }
    desk.bench.agree_digest(Answer(answers[0]));
}

/// Shows both digests, to look into a difference.
pub fn show(message: &[u8], room: usize) {
    let lent = Fence::new().lend(message);
    let mut fence = Fence::new();
    let mut buffer = vec![0xA5; room];
    let answer = Answer(digest_for_c(message, &mut buffer));
    println!("reference {answer}: {}", hex(&buffer));
    let memory = fence.last(room);
    memory.fill(0xA5);
    let digest = memory.as_mut_ptr();
    let answer = Answer(unsafe { station_digest(lent, message.len(), digest, room) });
    println!("library   {answer}: {}", hex(memory));
    println!("makers    {}", hex(&md5(message)));
}

// ---- For other programs to compare with ----

/// The digest by library, reference or makers.
fn digest_by(by: &str, message: &[u8]) -> [u8; SIZE] {
    let mut digest = [0; SIZE];
    let answer = match by {
        "library" => unsafe {
            let (bytes, out) = (message.as_ptr(), digest.as_mut_ptr());
            station_digest(bytes, message.len(), out, SIZE)
        },
        "reference" => digest_for_c(message, &mut digest),
        "makers" => {
            digest = md5(message);
            SIZE as u64
        }
        _ => panic!("by library, reference or makers"),
    };
    assert!(answer == SIZE as u64, "{}", Answer(answer));
    digest
}

/// Prints the files' digests as md5sum does.
pub fn print(by: &str, files: &[String]) {
    for file in files {
        let message = std::fs::read(file).unwrap();
        println!("{}  {file}", hex(&digest_by(by, &message)));
    }
}

/// Writes messages to a folder, each as a file: of every length from 0 to 300, around block
/// boundaries, and large.
pub fn messages(folder: &Path) {
    let mut random = Random::new(400);
    let boundaries = (5..70).flat_map(|block| 64 * block - 10..64 * block + 3);
    let large = [
        65_535,
        65_536,
        65_537,
        1_000_000,
        (1 << 20) + 55,
        (1 << 20) + 56,
    ];
    for length in (0..=300).chain(boundaries).chain(large) {
        let message = random.bytes(length);
        std::fs::write(folder.join(length.to_string()), message).unwrap();
    }
}

/// Writes random messages to one file, each behind its length, four bytes, with its digest by
/// the library and the reference behind it.
pub fn many(file: &Path, count: usize, seed: u64) {
    let mut random = Random::new(seed);
    let mut out = BufWriter::new(File::create(file).unwrap());
    for _ in 0..count {
        let most = random.pick(&[70, 140, 300, 300, 1000]);
        let length = random.below(most);
        let message = random.bytes(length);
        let digests = ["library", "reference"].map(|by| digest_by(by, &message));
        out.write_all(&(length as u32).to_be_bytes()).unwrap();
        out.write_all(&message).unwrap();
        out.write_all(&digests.concat()).unwrap();
    }
    out.flush().unwrap();
}
