//! Module 1's decoder, and the listing program.
use super::refusals;
use crate::engine::format::ngt1::{Ngt1Decoder, NgtError, NgtEvent, access};
use crate::script::*;

pub struct Framing {
    decoder: Ngt1Decoder,
    /// The mirror of the buffer that the port is lent.
    lent: Vec<u8>,
    /// A state that the Rust cannot hold: phase and count.
    raw: Option<(u8, usize)>,
}

impl Default for Framing {
    fn default() -> Self {
        Framing { decoder: Ngt1Decoder::new(), lent: vec![FILL; COLLECT], raw: None }
    }
}

impl Framing {
    pub fn step(&mut self, op: u8, body: &[u8]) -> Result<Vec<u8>, u8> {
        let mut out = Vec::new();
        match op {
            DEC_RESET => *self = Framing::default(),
            DEC_SET => self.set(body)?,
            DEC_RAW => {
                self.set_raw(body);
                return Ok(out);
            }
            DEC_LOOK => {}
            _ => self.push(body, &mut out)?,
        }
        self.put_state(&mut out);
        Ok(out)
    }

    fn set(&mut self, body: &[u8]) -> Result<(), u8> {
        let mut r = Reader(body);
        let (phase, held) = (r.u8() % 4, r.rest());
        refusals::decoder(held.len(), COLLECT)?;
        self.decoder = access::make_decoder(phase, held);
        self.raw = None;
        self.lent.resize(COLLECT, FILL);
        self.lent[..held.len()].copy_from_slice(held);
        Ok(())
    }

    fn set_raw(&mut self, body: &[u8]) {
        let mut r = Reader(body);
        let (phase, count) = (r.u8() % 4, usize::from(r.u16()));
        self.lent = vec![FILL; LONGEST_LENT.min(r.u16().into())];
        match refusals::decoder(count, self.lent.len()) {
            Ok(()) => {
                self.decoder = access::make_decoder(phase, &self.lent[..count]);
                self.raw = None;
            }
            Err(_) => self.raw = Some((phase, count)),
        }
    }

    fn push(&mut self, bytes: &[u8], out: &mut Vec<u8>) -> Result<(), u8> {
        if let (Some((_, count)), false) = (self.raw, bytes.is_empty()) {
            refusals::decoder(count, self.lent.len())?;
        }
        for (at, &b) in bytes.iter().enumerate() {
            let held = access::decoder(&self.decoder).1.len();
            let event = self.decoder.push_byte(b);
            if access::decoder(&self.decoder).1.len() == held + 1 {
                self.lent[held] = b;
            }
            if let Some(event) = event {
                put_u16(out, at);
                self.put_event(&event, out);
            }
        }
        Ok(())
    }

    fn put_event(&self, event: &NgtEvent, out: &mut Vec<u8>) {
        match event {
            NgtEvent::Message(m) => {
                assert_eq!(self.lent[2..2 + m.payload.len()], m.payload[..]);
                out.extend_from_slice(&[0, m.command, m.payload.len() as u8]);
                out.extend_from_slice(&m.payload);
            }
            NgtEvent::Error(e) => {
                out.push(number(e));
                match e {
                    NgtError::LengthMismatch { declared, actual } => {
                        out.push(*declared);
                        put_u16(out, *actual);
                    }
                    NgtError::BadEscape(b) => out.push(*b),
                    _ => {}
                }
            }
        }
    }

    fn put_state(&self, out: &mut Vec<u8>) {
        let (phase, held) = access::decoder(&self.decoder);
        let (phase, count) = self.raw.unwrap_or((phase, held.len()));
        out.push(phase);
        put_u16(out, count);
        put_u32(out, sum(&self.lent));
    }
}

/// "1 to 5 are events."
fn number(e: &NgtError) -> u8 {
    match e {
        NgtError::ShortMessage => 1,
        NgtError::BadChecksum => 2,
        NgtError::LengthMismatch { .. } => 3,
        NgtError::BadEscape(_) => 4,
        NgtError::TooLong => 5,
    }
}

/// "11 mode, 13 pcode, 40 supported, .."
fn name(payload: &[u8]) -> &'static str {
    match payload.first() {
        None => "none",
        Some(0x11) => "mode",
        Some(0x13) => "pcode",
        Some(0x40) => "supported",
        Some(0x41) => "product-info",
        Some(0x47) => "enable",
        Some(0x49) => "tx-list-f1",
        Some(0x4f) => "tx-list-f2",
        Some(0xf0) => "startup",
        Some(0xf1) => "error",
        Some(0xf4) => "nack",
        Some(_) => "other",
    }
}

/// What the listing program prints: the Rust's events, in document 01's words.
pub fn listing(bytes: &[u8]) -> String {
    let mut decoder = Ngt1Decoder::new();
    let (mut text, mut n) = (String::new(), 0);
    for (at, &b) in bytes.iter().enumerate() {
        let Some(event) = decoder.push_byte(b) else {
            continue;
        };
        n += 1;
        text += &match event {
            NgtEvent::Message(m) => {
                let bem = match m.command {
                    0xA0 | 0xA1 => name(&m.payload),
                    _ => "none",
                };
                let (cmd, len) = (m.command, m.payload.len());
                format!("n={n} at={at} kind=msg cmd={cmd:02x} len={len} bem={bem}\n")
            }
            NgtEvent::Error(e) => format!("n={n} at={at} kind=err no={}\n", number(&e)),
        };
    }
    text
}
