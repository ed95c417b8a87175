//! HMAC (RFC 2104) with SHA-256, in stock Rust.

use crate::sha256::sha256;

const BLOCK: usize = 64;

/// The tag of bytes under a key of 32 bytes.
pub fn tag(key: &[u8; 32], bytes: &[u8]) -> [u8; 32] {
    let mut pad = [0x36u8; BLOCK];
    for (it, byte) in pad.iter_mut().zip(key) {
        *it ^= byte;
    }
    let inner = sha256(&[&pad, bytes].concat());
    sha256(&[&pad.map(|it| it ^ 0x36 ^ 0x5c)[..], &inner].concat())
}
