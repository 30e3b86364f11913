//! Rows decode-* and encode-*.
use crate::ngt1::{self, Decoder, Event, MAX_FRAME};
use crate::race::{Side, row, timed};
use crate::same;
use oracle::engine::format::ngt1::{
    N2K_MSG_RECEIVED, NGT_MSG_RECEIVED, NGT_MSG_SEND, Ngt1Decoder, NgtError, NgtEvent, encode_ngt_message,
};
use oracle::generate::Rng;
use std::hint::black_box;

/// Bytes of a stream, and of a piece of it: what a read from the serial port may give.
const STREAM: usize = 1 << 17;
const PIECE: usize = 4096;

/// A payload of command 93: most records are one CAN frame, the others fast packets.
pub fn record(r: &mut Rng) -> Vec<u8> {
    let len = if r.chance(90) { 8 } else { 9 + r.below(215) };
    let pgn = 126_992 + r.below(4_000) as u32;
    let mut payload = vec![2 + r.below(5) as u8];
    payload.extend_from_slice(&pgn.to_le_bytes()[..3]);
    payload.extend([255, r.byte()]);
    payload.extend(r.u32().to_le_bytes());
    payload.push(len as u8);
    payload.extend(r.bytes(len));
    payload
}

fn stream(command: u8, mut payload: impl FnMut() -> Vec<u8>) -> Vec<u8> {
    let mut bytes = Vec::new();
    while bytes.len() < STREAM {
        encode_ngt_message(command, &payload(), &mut bytes);
    }
    bytes
}

/// The Rust's event in the port's words, with the payload.
fn told(event: NgtEvent) -> (Event, Vec<u8>) {
    match event {
        NgtEvent::Message(m) => (Event::Message { command: m.command, len: m.payload.len() }, m.payload),
        NgtEvent::Error(e) => {
            let e = match e {
                NgtError::ShortMessage => Event::ShortMessage,
                NgtError::BadChecksum => Event::BadChecksum,
                NgtError::LengthMismatch { declared, actual } => Event::LengthMismatch { declared, actual },
                NgtError::BadEscape(b) => Event::BadEscape(b),
                NgtError::TooLong => Event::TooLong,
            };
            (e, Vec::new())
        }
    }
}

fn rust_bytes(stream: &[u8]) -> usize {
    let mut decoder = Ngt1Decoder::new();
    let mut messages = 0;
    for piece in stream.chunks(PIECE) {
        for b in piece {
            if let Some(NgtEvent::Message(m)) = decoder.push_byte(*b) {
                black_box(&m);
                messages += 1;
            }
        }
    }
    messages
}

fn rust_slices(stream: &[u8]) -> usize {
    let mut decoder = Ngt1Decoder::new();
    let mut messages = 0;
    for piece in stream.chunks(PIECE) {
        for event in decoder.push_bytes(piece) {
            if let NgtEvent::Message(m) = event {
                black_box(&m);
                messages += 1;
            }
        }
    }
    messages
}

/// Calls `each` with every event of a stream.
fn port_events(stream: &[u8], mut each: impl FnMut(&Decoder, Event)) {
    let mut decoder = Decoder::new();
    for piece in stream.chunks(PIECE) {
        let mut at = 0;
        while at < piece.len() {
            let (used, event) = decoder.feed(&piece[at..]);
            at += used;
            each(&decoder, event);
        }
    }
}

fn port(stream: &[u8]) -> usize {
    let mut messages = 0;
    port_events(stream, |decoder, event| {
        if let Event::Message { .. } = event {
            black_box(decoder.payload(event));
            messages += 1;
        }
    });
    messages
}

fn decode(name: &str, stream: &[u8]) {
    let mut decoder = Ngt1Decoder::new();
    let wanted: Vec<_> = stream.iter().filter_map(|b| decoder.push_byte(*b)).map(told).collect();
    let mut got = Vec::new();
    port_events(stream, |decoder, event| {
        if event != Event::Nothing {
            got.push((event, decoder.payload(event).to_vec()));
        }
    });
    same(name, &wanted, &got);
    let messages = wanted.iter().filter(|(event, _)| matches!(event, Event::Message { .. })).count();
    same(name, &messages, &rust_bytes(stream));
    same(name, &messages, &rust_slices(stream));
    same(name, &messages, &port(stream));
    let side = |work: fn(&[u8]) -> usize| -> Side {
        Box::new(move || {
            timed(|| {
                black_box(work(black_box(stream)));
            })
        })
    };
    row(name, stream.len(), &["push_byte", "push_bytes"], vec![side(rust_bytes), side(rust_slices)], side(port));
}

/// Frames the payloads one after the other, often enough for a time that can be told.
fn encode(name: &str, payloads: &[Vec<u8>]) {
    let mut frame = Vec::with_capacity(MAX_FRAME);
    let mut out = [0u8; MAX_FRAME];
    let mut bytes = 0;
    for payload in payloads {
        frame.clear();
        encode_ngt_message(NGT_MSG_SEND, payload, &mut frame);
        let written = ngt1::encode(NGT_MSG_SEND, payload, &mut out).map(|w| out[..w.count].to_vec());
        same(name, &Ok(frame.clone()), &written);
        bytes += frame.len();
    }
    let turns = (100_000 / bytes).max(1);
    let rust: Side = Box::new(|| {
        timed(|| {
            for _ in 0..turns {
                for payload in payloads {
                    frame.clear();
                    encode_ngt_message(NGT_MSG_SEND, black_box(payload), &mut frame);
                    black_box(&frame);
                }
            }
        })
    });
    let port: Side = Box::new(|| {
        timed(|| {
            for _ in 0..turns {
                for payload in payloads {
                    let written = ngt1::encode(NGT_MSG_SEND, black_box(payload), &mut out);
                    black_box((&written, &out));
                }
            }
        })
    });
    row(name, bytes * turns, &["Vec kept"], vec![rust], port);
}

pub fn rows(r: &mut Rng) {
    decode("decode-realistic", &stream(N2K_MSG_RECEIVED, || record(r)));
    decode("decode-dle", &stream(NGT_MSG_RECEIVED, || vec![0x10; 255]));
    decode("decode-random", &stream(NGT_MSG_RECEIVED, || r.bytes(255)));
    decode("decode-noise", &r.bytes(STREAM));
    let some = |r: &mut Rng, len: usize| -> Vec<Vec<u8>> { (0..64).map(|_| r.bytes(len)).collect() };
    encode("encode-short", &some(r, 19));
    encode("encode-255", &some(r, 255));
    encode("encode-dle", &[vec![0x10; 255]]);
}
