//! Cases for what is read: records, replies, product info.
use super::rng::Rng;
use crate::script::*;

/// A reply: its byte, sequence, error and data, cut at 255 bytes.
pub fn reply_of(bem: u8, sequence: u8, error: i32, data: &[u8]) -> Vec<u8> {
    let mut payload = vec![bem, sequence, 0x0e, 0x00, 1, 2, 3, 4];
    payload.extend_from_slice(&error.to_le_bytes());
    payload.extend_from_slice(data);
    payload.truncate(255);
    payload
}

/// `to_raw_frame`: lengths around 11 and around the data's end, commands 93 and others.
pub fn record(r: &mut Rng, case: &mut Vec<u8>) {
    let len = if r.chance(50) { r.around(&[0, 10, 11, 12, 20, 255, 266]) } else { r.below(300) };
    let mut payload = r.bytes(len);
    if len > 10 && r.chance(90) {
        payload[10] = (len - 11 + 1).saturating_sub(r.below(4)).min(255) as u8;
    }
    payload.insert(0, r.pick(&[0x93, 0x93, 0x93, 0x93, 0x94, 0x92, 0xA0]));
    call(case, N2K_READ, &payload);
}

/// `parse`, `operating_mode`, `startup_status`.
pub fn reply(r: &mut Rng, case: &mut Vec<u8>) {
    match r.below(3) {
        0 => {
            let len = if r.chance(50) { r.around(&[0, 11, 12, 13, 255]) } else { r.below(300) };
            let mut payload = r.bytes(len);
            if len > 11 && r.chance(50) {
                let error = r.pick(&[0, -996, -997, 1, i32::MIN, i32::MAX, -1]);
                payload[8..12].copy_from_slice(&error.to_le_bytes());
            }
            call(case, r.pick(&[REPLY, RESPONSE]), &payload);
        }
        1 => {
            let len = r.around(&[11, 12, 13, 14, 15, 40]);
            let mut payload = r.bytes(len);
            payload[0] = r.pick(&[0x11, 0x11, 0x11, 0x10, 0x12]);
            if len > 13 && r.chance(80) {
                payload[12] = r.below(9) as u8;
                payload[13] = r.pick(&[0, 0, 0, 1]);
            }
            call(case, r.pick(&[MODE, RESPONSE]), &payload);
        }
        _ => {
            let len = r.around(&[11, 12, 14, 15, 17, 18, 19]);
            let payload = r.bytes(len);
            call(case, r.pick(&[STARTUP, RESPONSE]), &payload);
        }
    }
}

/// Characters of texts: digits, dots, what is trimmed, what is not, and 80 and up.
fn characters(r: &mut Rng, len: usize) -> Vec<u8> {
    let from: &[u8] = match r.below(5) {
        0 => b"0123456789.",
        1 => b"0123456789..., v",
        2 => &[9, 10, 11, 12, 13, 0x1c, 0x1f, 0x20, b'a', b'.', b'2'],
        3 => b"01.",
        _ => return (0..len).map(|_| r.byte() & 0x7f).collect(),
    };
    (0..len).map(|_| r.pick(from)).collect()
}

/// A version number around each bound.
fn version(r: &mut Rng) -> Vec<u8> {
    let major = r.around(&[0, 2, 65, 66, 9_999, 65_535, 65_536]);
    let minor = match r.below(4) {
        0 => format!("{:03}", r.below(1000)),
        1 => format!("{:02}", r.below(100)),
        2 => format!("{}", r.around(&[0, 5, 50, 499, 500, 535, 536, 999, 1000])),
        _ => format!("{:04}", r.below(1000)),
    };
    let zeros = "0".repeat(r.pick(&[0, 0, 0, 1, 20]));
    let before = r.pick(&["", "", "1.100, ", " ", "v", "1.2.3 "]);
    let after = r.pick(&["", "", " ", " .", ".", ", 7", "b", " 3.x"]);
    format!("{before}{zeros}{major}.{minor}{after}").into_bytes()
}

/// A text of every length, ended by 00, by FF or by its place's end, now and then with a byte from 80 up before or after its end.
fn text(r: &mut Rng) -> [u8; 32] {
    let mut text = if r.chance(50) {
        let len = r.below(33);
        characters(r, len)
    } else {
        version(r)
    };
    text.truncate(32);
    let len = text.len();
    let end = r.pick(&[0x00, 0x00, 0xFF, 0xFF, 0x20]);
    text.resize(32, end);
    if r.chance(30) {
        // after the first end byte nothing counts
        for b in text.iter_mut().skip(len + 1) {
            *b = r.byte();
        }
    }
    if r.chance(8) {
        let at = r.below(32);
        text[at] = r.pick(&[0x80, 0x81, 0xC3, 0xE9, 0xFE]);
    }
    text.try_into().unwrap()
}

/// `ProductInfo::add` and `firmware`, on products of any state.
pub fn product(r: &mut Rng, case: &mut Vec<u8>) {
    match r.below(12) {
        0 => call(case, PROD_RESET, &[]),
        1 | 2 => {
            let mut raw = vec![r.byte()];
            for _ in 0..4 {
                raw.push(r.pick(&[0, 1, 31, 32, 32, 33, 255]));
            }
            if r.chance(60) {
                for n in &mut raw[1..] {
                    *n = (*n).min(32);
                }
            }
            call(case, PROD_RAW, &raw);
        }
        _ => {}
    }
    for _ in 0..1 + r.below(6) {
        let sequence = if r.chance(95) { 1 + r.below(6) } else { r.below(256) } as u8;
        let mut data: Vec<u8> = match sequence {
            6 => {
                let mut data = r.bytes(8);
                for _ in 0..4 {
                    data.extend_from_slice(&text(r));
                }
                data.extend_from_slice(&r.bytes(4));
                data.truncate(r.pick(&[137, 138, 138, 138, 139, 140]));
                data
            }
            1 => {
                let len = r.around(&[5, 6, 6, 40]);
                r.bytes(len)
            }
            _ => {
                let mut data = text(r).to_vec();
                data.truncate(r.pick(&[31, 32, 32, 32, 32]));
                data
            }
        };
        if r.chance(10) {
            data.extend_from_slice(&[0xE9; 3]);
        }
        let (bem, error) = (r.pick(&[0x41, 0x41, 0x41, 0x99]), r.pick(&[0, 0, -5]));
        let mut payload = reply_of(bem, sequence, error, &data);
        if r.chance(2) {
            payload.truncate(r.around(&[11]));
        }
        call(case, r.pick(&[PROD_ADD, PROD_ADD, PROD_TAKE]), &payload);
        if r.chance(30) {
            call(case, r.pick(&[PROD_LOOK, FIRMWARE_OF]), &[]);
        }
    }
    call(case, PROD_LOOK, &[]);
    call(case, FIRMWARE_OF, &[]);
    let stored = text(r);
    let count = r.pick(&[32, 32, 31, 5, 0, 33]);
    call(case, FIRMWARE_IN, &[&[count], &stored[..]].concat());
}
