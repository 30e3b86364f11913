//! Cases for module 1's decoder.
use super::Each;
use super::rng::Rng;
use crate::engine::format::ngt1::encode_ngt_message;
use crate::script::*;

const LETTERS: [u8; 5] = [0x10, 0x02, 0x03, 0x00, 0xA1];

/// Calls each with every string of so many letters.
fn every_string(len: usize, each: Each) {
    let mut digits = vec![0; len];
    loop {
        let text: Vec<u8> = digits.iter().map(|&d: &usize| LETTERS[d]).collect();
        each(&text);
        let Some(i) = digits.iter().position(|&d| d + 1 < LETTERS.len()) else {
            return;
        };
        digits[i] += 1;
        digits[..i].fill(0);
    }
}

/// Every string up to `longest` letters, to a new decoder, as a slice and byte by byte.
pub fn strings(longest: usize, each: Each) {
    for len in 0..=longest {
        every_string(len, &mut |text| {
            let mut case = Vec::new();
            for op in [DEC_PUSH, DEC_BYTES] {
                call(&mut case, DEC_RESET, &[]);
                call(&mut case, op, text);
            }
            each(&case);
        });
    }
}

/// A decoder in any state, over EE.
pub fn raw(case: &mut Vec<u8>, phase: u8, count: usize, lent: usize) {
    let mut body = vec![phase];
    put_u16(&mut body, count);
    put_u16(&mut body, lent);
    call(case, DEC_RAW, &body);
}

/// The counts and buffer lengths around each limit.
const COUNTS: [usize; 13] = [0, 1, 2, 3, 4, 257, 258, 1022, 1023, 1024, 1025, 1026, 65_535];
const LENGTHS: [usize; 5] = [0, 1023, 1024, 1025, 1100];

/// Every phase, with counts and buffers around the limits, on every byte and on every two and three letters. Size 0: a sample.
pub fn steps(size: usize, each: Each) {
    let (counts, lengths) = match size {
        0 => (&[0, 3, 1023, 1024, 1025][..], &[1023, 1024][..]),
        _ => (&COUNTS[..], &LENGTHS[..]),
    };
    for phase in 0..4 {
        for &count in counts {
            let mut on = |lent: usize, text: &[u8]| {
                let mut case = Vec::new();
                for op in [DEC_PUSH, DEC_BYTES] {
                    raw(&mut case, phase, count, lent);
                    call(&mut case, op, text);
                    call(&mut case, DEC_LOOK, &[]);
                }
                each(&case);
            };
            for &lent in lengths {
                if size == 0 {
                    for b in LETTERS {
                        on(lent, &[b]);
                    }
                    continue;
                }
                for b in 0..=255 {
                    on(lent, &[b]);
                }
            }
            if size > 0 {
                for len in [2, 3] {
                    every_string(len, &mut |text| on(COLLECT, text));
                }
            }
        }
    }
}

/// A frame of so many payload bytes.
fn frame(r: &mut Rng, len: usize, out: &mut Vec<u8>) {
    let command = r.pick(&[0x93, 0xA0, 0xA1, 0x10, 0x02, 0x03, 0xD0]);
    let payload = r.content(len);
    encode_ngt_message(command, &payload, out);
}

/// A frame that does not end, around the limit of 1,024.
fn unended(r: &mut Rng, out: &mut Vec<u8>) {
    out.extend_from_slice(&[0x10, 0x02]);
    for _ in 0..r.around(&[3, 1022, 1023, 1024, 1025]) {
        let b = if r.chance(2) { 0x10 } else { r.byte() };
        out.push(b);
        if b == 0x10 && r.chance(95) {
            out.push(b);
        }
    }
}

/// A frame with any body, its sum mostly right, its declared length sometimes.
fn closed(r: &mut Rng, out: &mut Vec<u8>) {
    let len = r.around(&[0, 1, 2, 3, 10, 256, 257, 258, 512, 1022, 1023, 1024]);
    let mut body = r.bytes(len);
    if len > 2 && r.chance(30) {
        body[1] = (len - 3) as u8;
    }
    if len > 2 && r.chance(70) {
        let sum = body[..len - 1].iter().fold(0u8, |s, &b| s.wrapping_add(b));
        body[len - 1] = 0u8.wrapping_sub(sum);
    }
    out.extend_from_slice(&[0x10, 0x02]);
    for b in body {
        out.push(b);
        if b == 0x10 {
            out.push(b);
        }
    }
    out.extend_from_slice(&[0x10, 0x03]);
}

/// Bytes of a serial line: frames, noise and damage.
fn stream(r: &mut Rng) -> Vec<u8> {
    let mut out = Vec::new();
    for _ in 0..1 + r.below(4) {
        match r.below(10) {
            0..=4 => {
                let len = r.around(&[0, 1, 2, 14, 17, 128, 254]);
                frame(r, len.min(255), &mut out);
            }
            5 => {
                for _ in 0..r.below(12) {
                    out.push(r.wire());
                }
            }
            6 => unended(r, &mut out),
            7 => closed(r, &mut out),
            _ => {
                let len = r.below(20);
                frame(r, len, &mut out);
            }
        }
    }
    if r.chance(50) {
        for _ in 0..1 + r.below(3) {
            r.damage(&mut out);
        }
    }
    out
}

/// A whole stored state: what is held is any bytes, or a body that closes with a message.
fn stored(r: &mut Rng, case: &mut Vec<u8>) {
    let mut body = vec![r.below(4) as u8];
    if r.chance(50) {
        body.extend_from_slice(&[0xA1, 1, 0x41, 0x1D]);
    } else {
        let len = r.around(&[0, 2, 4, 258, 1023, 1024]);
        body.extend_from_slice(&r.content(len));
    }
    call(case, DEC_SET, &body);
}

/// A stream in pieces, from a new decoder, the last case's or a stored state.
pub fn case(r: &mut Rng, case: &mut Vec<u8>) {
    let start = r.below(20);
    match start {
        0..=9 => call(case, DEC_RESET, &[]),
        10 | 11 => stored(r, case),
        12 => {
            let (phase, count) = (r.below(4) as u8, r.around(&COUNTS[..12]));
            let lent = r.pick(&LENGTHS);
            raw(case, phase, count, lent);
        }
        _ => {}
    }
    let bytes = stream(r);
    let mut rest = &bytes[..];
    while !rest.is_empty() {
        let len = if r.chance(70) { rest.len() } else { 1 + r.below(rest.len()) };
        call(case, r.pick(&[DEC_PUSH, DEC_PUSH, DEC_BYTES]), &rest[..len]);
        rest = &rest[len..];
    }
    if r.chance(5) {
        call(case, r.pick(&[DEC_LOOK, DEC_PUSH, DEC_BYTES]), &[]);
    }
    if start == 12 {
        // the next case may go on from here, but not with a decoder that refuses all
        call(case, DEC_RESET, &[]);
    }
}

/// Streams one behind the other, for the listing program.
pub fn streams(r: &mut Rng, count: usize) -> Vec<u8> {
    (0..count).flat_map(|_| stream(r)).collect()
}
