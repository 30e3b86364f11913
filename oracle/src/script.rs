//! Calls and answers, as FORMAT.md has them.

pub const DEC_RESET: u8 = 0x10;
pub const DEC_PUSH: u8 = 0x11;
pub const ENCODE: u8 = 0x12;
pub const DEC_SET: u8 = 0x13;
pub const DEC_RAW: u8 = 0x14;
pub const DEC_LOOK: u8 = 0x15;
pub const DEC_BYTES: u8 = 0x16;
pub const N2K_SEND: u8 = 0x20;
pub const N2K_RECV: u8 = 0x21;
pub const N2K_READ: u8 = 0x22;
pub const REPLY: u8 = 0x30;
pub const MODE: u8 = 0x31;
pub const STARTUP: u8 = 0x32;
pub const RESPONSE: u8 = 0x33;
pub const PROD_RESET: u8 = 0x38;
pub const PROD_ADD: u8 = 0x39;
pub const PROD_RAW: u8 = 0x3a;
pub const PROD_LOOK: u8 = 0x3b;
pub const FIRMWARE_OF: u8 = 0x3c;
pub const PROD_TAKE: u8 = 0x3d;
pub const FIRMWARE_IN: u8 = 0x3e;
pub const PCODE: u8 = 0x48;
pub const COMMAND: u8 = 0x49;
pub const LENT: u8 = 0x4a;
pub const BEGIN: u8 = 0x60;
pub const RESTART: u8 = 0x61;
pub const MESSAGE: u8 = 0x62;
pub const TICK: u8 = 0x63;
pub const FIRMWARE: u8 = 0x64;
pub const LACKS: u8 = 0x65;
pub const ABANDON: u8 = 0x66;
pub const DUMP: u8 = 0x67;
pub const SET: u8 = 0x68;
pub const SET_RAW: u8 = 0x69;
pub const LENT_S: u8 = 0x6a;
pub const PARTS: u8 = 0x6b;
pub const IS_DONE: u8 = 0x6c;
pub const LOOK: u8 = 0x6d;

/// No such op; no session.
pub const UNKNOWN: u8 = 254;
pub const NO_SESSION: u8 = 255;

/// What fills a lent area or buffer before a call.
pub const FILL: u8 = 0xEE;

/// The limits of the lent memories, document 01's for the decoder; FORMAT.md's longest for DEC_RAW.
pub const COLLECT: usize = 1024;
pub const LONGEST_LENT: usize = 1100;

pub fn call(out: &mut Vec<u8>, op: u8, body: &[u8]) {
    out.push(op);
    put_u16(out, body.len());
    out.extend_from_slice(body);
}

pub fn answer(out: &mut Vec<u8>, op: u8, number: u8, body: &[u8]) {
    out.extend_from_slice(&[op, number]);
    put_u16(out, body.len());
    out.extend_from_slice(body);
}

pub fn put_u16(out: &mut Vec<u8>, n: usize) {
    let n = u16::try_from(n).expect("a count of 16 bits");
    out.extend_from_slice(&n.to_le_bytes());
}

pub fn put_u32(out: &mut Vec<u8>, n: u32) {
    out.extend_from_slice(&n.to_le_bytes());
}

/// A list: its count, then its PGNs.
pub fn put_list(out: &mut Vec<u8>, pgns: &[u32]) {
    put_u16(out, pgns.len());
    for &pgn in pgns {
        put_u32(out, pgn);
    }
}

/// Reads a body from its front; what lies past its end is 0.
pub struct Reader<'a>(pub &'a [u8]);

impl<'a> Reader<'a> {
    fn number(&mut self, bytes: usize) -> u64 {
        let mut n = 0;
        for i in 0..bytes {
            n |= u64::from(self.0.get(i).copied().unwrap_or(0)) << (8 * i);
        }
        self.0 = &self.0[bytes.min(self.0.len())..];
        n
    }

    pub fn u8(&mut self) -> u8 {
        self.number(1) as u8
    }

    pub fn u16(&mut self) -> u16 {
        self.number(2) as u16
    }

    pub fn u32(&mut self) -> u32 {
        self.number(4) as u32
    }

    pub fn u64(&mut self) -> u64 {
        self.number(8)
    }

    pub fn list(&mut self) -> Vec<u32> {
        let n = self.u16();
        self.pgns(n.into())
    }

    pub fn pgns(&mut self, n: usize) -> Vec<u32> {
        (0..n).map(|_| self.u32()).collect()
    }

    pub fn rest(&mut self) -> &'a [u8] {
        std::mem::take(&mut self.0)
    }
}

/// The calls of a block: where each starts, op, body.
pub fn calls(block: &[u8]) -> impl Iterator<Item = (usize, u8, &[u8])> {
    let mut at = 0;
    std::iter::from_fn(move || {
        let op = *block.get(at)?;
        if op == 0 {
            return None;
        }
        let len = u16::from_le_bytes([*block.get(at + 1)?, *block.get(at + 2)?]) as usize;
        let body = block.get(at + 3..at + 3 + len)?;
        let found = (at, op, body);
        at += 3 + len;
        Some(found)
    })
}

/// The answers of a transcript: op, number, body.
pub fn answers(transcript: &[u8]) -> impl Iterator<Item = (u8, u8, &[u8])> {
    let mut at = 0;
    std::iter::from_fn(move || {
        let &[op, number, l0, l1] = transcript.get(at..at + 4)? else {
            return None;
        };
        let len = u16::from_le_bytes([l0, l1]) as usize;
        let body = transcript.get(at + 4..at + 4 + len)?;
        at += 4 + len;
        Some((op, number, body))
    })
}

/// The transcript's word for a lent buffer.
pub fn sum(bytes: &[u8]) -> u32 {
    let next = |sum: u64, &b: &u8| (sum * 65_599 + u64::from(b) + 1) % 2_147_483_647;
    bytes.iter().fold(0, next) as u32
}
