//! RFC 1321's test suite, its table, and the call's buffers.

use super::digest::{digest, digest_for_c, md5, T};
use super::samples::maker::md5 as makers;
use super::*;

fn hex(digest: [u8; 16]) -> String {
    digest.iter().map(|byte| format!("{byte:02x}")).collect()
}

/// A.5.
#[rustfmt::skip]
const SUITE: [(&str, &str); 7] = [
    ("", "d41d8cd98f00b204e9800998ecf8427e"),
    ("a", "0cc175b9c0f1b6a831c399e269772661"),
    ("abc", "900150983cd24fb0d6963f7d28e17f72"),
    ("message digest", "f96b697d7cb7938d525a2f31aaf161d0"),
    ("abcdefghijklmnopqrstuvwxyz", "c3fcd3d76192e4007dfb496cca67e13b"),
    ("ABCDEFGHIJKLMNOPQRSTUVWXYZabcdefghijklmnopqrstuvwxyz0123456789",
     "d174ab98d277d9f5a5611c2c9f419d9f"),
    ("12345678901234567890123456789012345678901234567890123456789012345678901234567890",
     "57edf4a22be3c955ac49da2e2107b67a"),
];

#[test]
fn the_papers_suite() {
    for (message, right) in SUITE {
        assert_eq!(hex(md5(message.as_bytes())), right, "{message:?}");
        assert_eq!(hex(makers::md5(message.as_bytes())), right, "{message:?}");
    }
}

/// The table is what the RFC's sentence says.
#[test]
fn the_papers_table() {
    for (at, number) in T.into_iter().enumerate() {
        let sine = (at as f64 + 1.0).sin().abs();
        assert_eq!(f64::from(number), (4_294_967_296.0 * sine).floor(), "{at}");
    }
}

#[test]
fn as_the_makers() {
    let message: Vec<u8> = (0..1000u32).map(|n| (n * n / 7) as u8).collect();
    for length in 0..=message.len() {
        let message = &message[..length];
        assert_eq!(md5(message), makers::md5(message), "{length}");
    }
}

#[test]
fn room_for_a_digest() {
    let right = md5(b"abc");
    for room in 0..16 {
        let mut buffer = vec![7; room];
        let refusal = Refusal {
            number: 34,
            place: 16,
        };
        assert_eq!(digest(b"abc", &mut buffer), Err(refusal));
        assert_eq!(digest_for_c(b"abc", &mut buffer), (34 << 32) + 16);
        assert_eq!(buffer, vec![7; room]);
    }
    for room in 16..40 {
        let mut buffer = vec![7; room];
        assert_eq!(digest(b"abc", &mut buffer), Ok(16));
        assert_eq!(buffer[..16], right);
        assert_eq!(buffer[16..], vec![7; room - 16]);
        buffer.fill(7);
        assert_eq!(digest_for_c(b"abc", &mut buffer), 16);
        assert_eq!(buffer[..16], right);
        assert_eq!(buffer[16..], vec![7; room - 16]);
    }
}
