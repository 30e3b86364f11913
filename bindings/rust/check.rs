//! What the programs that try the binding share: a test that says what failed, and the replies of a gateway.
#![allow(dead_code)]
use std::process::ExitCode;
use std::sync::atomic::{AtomicUsize, Ordering};

/// How often.
static FAILED: AtomicUsize = AtomicUsize::new(0);

/// Says what is not as expected, the first 20 times.
pub fn fail(what: &str) {
    if FAILED.fetch_add(1, Ordering::Relaxed) < 20 {
        println!("not as expected: {what}");
    }
}

pub fn expect(ok: bool, what: &str) {
    if !ok {
        fail(what);
    }
}

/// The exit status.
pub fn ended() -> ExitCode {
    let failed = FAILED.load(Ordering::Relaxed);
    if failed > 20 {
        println!("and {} more", failed - 20);
    }
    ExitCode::from((failed > 0) as u8)
}

/// The payload of a reply: its byte, its sequence, model 14 with a serial number, the error, the data.
pub fn reply(bem: u8, sequence: u8, error: i32, data: &[u8]) -> Vec<u8> {
    [&[bem, sequence, 14, 0, 1, 2, 3, 4], &error.to_le_bytes()[..], data].concat()
}
