// Times our SHA-256 beside its peers in one run, turn by turn, and prints how fast it is in theirs.
use sha2::{Digest, Sha256};
use std::time::{Duration, Instant};

const SIZE: usize = 256 << 20;
const TURNS: usize = 9;

extern "C" {
    fn dozhebul_sha256(message: *const u8, len: usize, out: *mut u8, room: usize) -> bool;
    fn SHA256(message: *const u8, len: usize, out: *mut u8) -> *mut u8;
}

fn ours(message: &[u8]) -> [u8; 32] {
    let mut out = [0; 32];
    // Both pointers come with the lengths of what they point to.
    let written = unsafe { dozhebul_sha256(message.as_ptr(), message.len(), out.as_mut_ptr(), out.len()) };
    assert!(written);
    out
}

fn openssl(message: &[u8]) -> [u8; 32] {
    let mut out = [0; 32];
    // SHA256 writes 32 bytes.
    unsafe { SHA256(message.as_ptr(), message.len(), out.as_mut_ptr()) };
    out
}

fn rustcrypto(message: &[u8]) -> [u8; 32] {
    Sha256::digest(message).into()
}

fn main() {
    let message: Vec<u8> = (0..SIZE).map(|i| (i % 251) as u8).collect();
    let digests = [ours, openssl, rustcrypto];
    let mut best = [Duration::MAX; 3];
    for _ in 0..TURNS {
        let mut seen = [[0; 32]; 3];
        for (i, digest) in digests.iter().enumerate() {
            let start = Instant::now();
            seen[i] = digest(&message);
            best[i] = best[i].min(start.elapsed());
        }
        assert!(seen[0] == seen[1] && seen[0] == seen[2], "the digests differ");
    }
    let against = |i: usize| best[i].as_secs_f64() / best[0].as_secs_f64();
    println!(
        "sha256 over {} MiB, best of {} turns: {:.2} times as fast as OpenSSL's scalar path, {:.2} times as fast as RustCrypto's sha2 (soft)",
        SIZE >> 20,
        TURNS,
        against(1),
        against(2),
    );
}
