//! The edges of document 01, published messages, and every pair of refusals that can hold at once, as fixed cases.
use crate::generate::Each;
use crate::script::*;

mod refusals;
mod session;
pub use refusals::refusals;
pub use session::session;

/// A case of one call after another.
fn case(calls: &[(u8, &[u8])]) -> Vec<u8> {
    let mut case = Vec::new();
    for (op, body) in calls {
        call(&mut case, *op, body);
    }
    case
}

fn u16s(numbers: &[usize]) -> Vec<u8> {
    let mut out = Vec::new();
    for &n in numbers {
        put_u16(&mut out, n);
    }
    out
}

/// Bytes in hexadecimal.
fn hex(text: &str) -> Vec<u8> {
    let byte = |t| u8::from_str_radix(t, 16).unwrap();
    text.split_whitespace().map(byte).collect()
}

/// Document 01's rows of module 1, and its listing input.
const STREAMS: [&str; 14] = [
    "10 03",
    "10 02 A1 01 41 1E 10 03",
    "10 02 A1 02 41 1C 10 03",
    "10 02 A1 10 05",
    "10 02 A1 10 02 A1 01 41 1D 10 03",
    "10 02 A1 01 41 1D 10 03 10 03",
    "10 02 A1 01 10 10 4E 10 03",
    // a second DLE outside a frame cancels the first
    "10 10 02 A1 01 41 1D 10 03",
    "10 05 10 02 A1 01 41 1D 10 03",
    // the smallest message, and too short ones
    "10 02 00 00 00 10 03",
    "10 02 10 03",
    "10 02 00 10 03",
    "10 02 00 00 10 03",
    // canboat's start-up: set the operating mode to 2
    "10 02 A1 03 11 02 00 49 10 03",
];

/// States that no stream reaches: idle and an outside escape, with a body held.
const HELD: [&str; 5] = ["", "A1", "A1 01", "A1 01 41 1D", "A1 02 41 1C"];
const ENDS: [&str; 6] = ["10 03", "03", "10 10 10 03", "10 05 10 03", "10", "41 10 03"];

pub fn framing(_: usize, each: Each) {
    for stream in STREAMS {
        let bytes = hex(stream);
        each(&case(&[(DEC_RESET, &[]), (DEC_PUSH, &bytes), (DEC_RESET, &[]), (DEC_BYTES, &bytes)]));
    }
    for phase in 0..4 {
        for held in HELD {
            for end in ENDS {
                let state = [&[phase], &hex(held)[..]].concat();
                let end = hex(end);
                each(&case(&[(DEC_SET, &state), (DEC_PUSH, &end), (DEC_SET, &state), (DEC_BYTES, &end)]));
            }
        }
        // 16 and 7, each alone, both, neither
        for count in [1024, 1025] {
            for lent in [1023, 1024] {
                let raw = [&[phase][..], &u16s(&[count, lent])].concat();
                each(&case(&[
                    (DEC_RAW, &raw),
                    (DEC_LOOK, &[]),
                    (DEC_PUSH, &[0x41]),
                    (DEC_LOOK, &[]),
                    (DEC_RAW, &raw),
                    (DEC_BYTES, &[0x10]),
                    (DEC_LOOK, &[]),
                    (DEC_PUSH, &[]),
                ]));
            }
        }
        // a stored state of more than 1,024 bytes is refused, and nothing changes
        let state = [&[phase][..], &[7; 1025]].concat();
        each(&case(&[(DEC_RESET, &[]), (DEC_SET, &state), (DEC_LOOK, &[])]));
    }
    // after 5 the rest of the frame is noise, and its DLE ETX gives 1
    let long = [&hex("10 02")[..], &[0x41; 1025], &hex("10 10 10 03")].concat();
    each(&case(&[(DEC_RESET, &[]), (DEC_PUSH, &long), (DEC_RESET, &[]), (DEC_BYTES, &long)]));
    // 256 payload bytes, their length declared as 0: the lengths differ
    let wide = [&hex("10 02 A1 00")[..], &[0; 256], &hex("5F 10 03")].concat();
    each(&case(&[(DEC_RESET, &[]), (DEC_PUSH, &wide), (DEC_RESET, &[]), (DEC_BYTES, &wide)]));
    messages(each);
    each(&case(&[(0x7f, &[1, 2, 3]), (LENT, &[0x7f])]));
}

/// `encode_ngt_message`: document 01's row, a DLE in each place, and 6 and 7, each alone, both, neither, at the limits.
fn messages(each: Each) {
    for (command, payload, need) in [
        (0xA1, vec![], 7),
        (0xA1, vec![0x10], 9),
        (0xA1, vec![0x41], 8),
        // command, length and checksum are DLE
        (0x10, vec![0x41], 9),
        (0xA1, vec![0; 16], 24),
        (0xA1, vec![0x4E], 9),
        (0xA1, vec![0x10; 255], 519),
        (0xA1, vec![0; 255], 262),
        (0xA1, vec![0; 256], 263),
    ] {
        for room in [0, need - 1, need, need + 1] {
            both(ENCODE, &[&[command][..], &u16s(&[room]), &payload].concat(), each);
        }
    }
}

/// The call, and the lent area after it.
fn both(op: u8, body: &[u8], each: Each) {
    each(&case(&[(op, body), (LENT, &[&[op], body].concat())]));
}

pub fn encode(_: usize, each: Each) {
    messages(each);
    let (pgn, time) = (126_983u32.to_le_bytes(), 0x1002_0310u32.to_le_bytes());
    for room in [0, 7, 12, 600] {
        for len in [0, 1, 8, 223, 243, 244, 245, 248, 249, 250] {
            let (room, data) = (u16s(&[room]), vec![0x10; len]);
            both(N2K_SEND, &[&[6], &pgn[..], &[255], &room, &data].concat(), each);
            both(N2K_RECV, &[&[6], &pgn[..], &[255, 1], &time, &room, &data].concat(), each);
        }
        for len in [0, 1, 252, 253, 254] {
            both(PCODE, &[&u16s(&[room])[..], &vec![1; len]].concat(), each);
        }
    }
    // of a PGN the low 24 bits
    for pgn in [0x3FFFF, 0x40000, 0xFF_FFFF, 0x0110_0203, u32::MAX] {
        let (pgn, room) = (pgn.to_le_bytes(), u16s(&[64]));
        both(N2K_SEND, &[&[6], &pgn[..], &[255], &room, &[9]].concat(), each);
        both(N2K_RECV, &[&[6], &pgn[..], &[255, 1], &time, &room, &[9]].concat(), each);
        both(COMMAND, &[&[4], &room[..], &pgn].concat(), each);
    }
    for kind in 0..10u8 {
        for room in 0..32 {
            both(COMMAND, &[&[kind], &u16s(&[room])[..], &pgn].concat(), each);
        }
    }
    both(0x7f, &[], each);
}

/// Software texts and the versions that document 01 and the Rust's own comments give.
const VERSIONS: [&str; 26] = [
    "2.05",
    "65.535",
    "65.536",
    "1.2.3",
    "1.100, 2.690",
    "66.0",
    ".5",
    "5.",
    "5",
    "",
    "..",
    "1..2",
    "2.5.",
    "0002.5",
    "65536.0",
    "65535.1",
    "2.0000",
    "2.1234",
    "2.500 3",
    "3.1 2.x",
    "2.5,1.2.3",
    "v2.5b",
    "2,5",
    "2.5-1",
    "+2.5",
    "0000000000000000000000000002.50",
];

fn reply(sequence: u8, data: &[u8]) -> Vec<u8> {
    [&[0x41, sequence, 0x0e, 0, 1, 2, 3, 4, 0, 0, 0, 0], data].concat()
}

fn text(content: &[u8], end: u8) -> Vec<u8> {
    let mut text = content.to_vec();
    text.resize(32, end);
    text
}

pub fn records(_: usize, each: Each) {
    // 9, 8, 10 and their pairs; bytes after the data
    for command in [0x93, 0x94] {
        for len in [0, 10, 11, 12, 13, 255, 265, 266, 300] {
            for data in [0, 1, 2, 244, 255] {
                let mut payload = vec![0x42; len];
                if len > 10 {
                    payload[10] = data;
                }
                each(&case(&[(N2K_READ, &[&[command], &payload[..]].concat())]));
            }
        }
    }
    // every byte another
    let mut all: Vec<u8> = (0..30).map(|i| 0xF0 - 7 * i).collect();
    for op in [REPLY, STARTUP, RESPONSE] {
        each(&case(&[(op, &all)]));
    }
    all.splice(0..1, [0x93]);
    all[11] = 12;
    each(&case(&[(N2K_READ, &all)]));
    // the header's fields, −996, the modes, startup
    let error = hex("11 01 0E 00 78 56 34 12 1C FC FF FF 02 00");
    for len in 0..=error.len() {
        for op in [REPLY, MODE, STARTUP, RESPONSE, PROD_ADD, PROD_TAKE] {
            each(&case(&[(op, &error[..len])]));
        }
    }
    // no reply is too long
    for len in [255, 256, 300, 1000] {
        let mut long = error.clone();
        long.resize(len, 7);
        for op in [REPLY, MODE, STARTUP, RESPONSE, PROD_ADD] {
            each(&case(&[(op, &long)]));
        }
    }
    for mode in 0..9 {
        for high in [0, 1] {
            let told = [&error[..12], &[mode, high]].concat();
            each(&case(&[(MODE, &told), (RESPONSE, &told)]));
        }
        let other = [&[0x10 + mode], &error[1..12], &[2, 0]].concat();
        each(&case(&[(MODE, &other), (RESPONSE, &other)]));
    }
    for len in 0..8 {
        each(&case(&[(STARTUP, &[&error[..12], &[9; 8][..len]].concat())]));
    }
    for version in VERSIONS {
        let software = text(version.as_bytes(), 0);
        each(&case(&[(PROD_RESET, &[]), (PROD_ADD, &reply(3, &software)), (FIRMWARE_OF, &[])]));
        // any stored text, also one that `add` would not store
        for before in ["", " ", "\0", "\u{e9}"] {
            let stored = [before.as_bytes(), version.as_bytes(), &[0xE9, b'1']].concat();
            let whole = stored.len().min(32);
            for count in [0, 1, whole - 1, whole, 32, 33, 255] {
                each(&case(&[(FIRMWARE_IN, &[&[count as u8], &stored[..]].concat())]));
            }
        }
    }
    products(each);
}

/// A text of `len` letters with this end byte, trimmed bytes around it, and a byte from 80 up before or after the end.
fn products(each: Each) {
    for len in 0..=32 {
        for end in [0x00, 0xFF, 0x20] {
            each(&case(&[(PROD_RESET, &[]), (PROD_ADD, &reply(2, &text(&vec![b'a'; len], end)))]));
        }
        for odd in [0x7F, 0x80, 0xFE, 0xFF, 0x00, 0x20, 0x09, 0x0D, 0x08, 0x0E, 0x1C, 0x85, 0xA0] {
            let mut content = vec![b'a'; 32];
            content[len.min(31)] = odd;
            each(&case(&[(PROD_RESET, &[]), (PROD_ADD, &reply(2, &content)), (PROD_LOOK, &[])]));
        }
    }
    // trimmed at both ends, and only there; after the end nothing counts
    for odd in [0x08, 0x09, 0x0A, 0x0B, 0x0C, 0x0D, 0x0E, 0x1F, 0x20, 0x21] {
        let content = text(&[odd, odd, b'a', odd, b'b', odd], 0);
        let mut after = text(&[b'a', odd, 0xFF], 0);
        after[20] = 0xE9;
        each(&case(&[
            (PROD_RESET, &[]),
            (PROD_ADD, &reply(2, &content)),
            (PROD_ADD, &reply(3, &after)),
            (PROD_LOOK, &[]),
        ]));
    }
    // a part too short on a product that is not whole
    for (sequence, len) in [(1, 4), (1, 5), (2, 31), (6, 137)] {
        each(&case(&[(PROD_RESET, &[]), (PROD_ADD, &reply(sequence, &vec![b'7'; len])), (PROD_LOOK, &[])]));
    }
    // all five parts in an order, then what changes nothing: the yes stays
    let x = text(b"x", 0);
    let parts: Vec<_> = [(5, &x[..]), (4, &x), (3, &x), (2, &x), (1, &[1; 6]), (7, &x), (2, &x[..31]), (1, &[1; 5])]
        .map(|(sequence, data)| reply(sequence, data))
        .to_vec();
    let adds: Vec<(u8, &[u8])> = parts.iter().map(|p| (PROD_ADD, &p[..])).collect();
    each(&case(&[&[(PROD_RESET, &[][..])], &adds[..]].concat()));
    // sequence 6: lengths around 138, and a byte from 80 up in each text: nothing is set
    let whole: Vec<u8> = (0..140).map(|i| if i < 8 { i } else { 0x30 + i % 10 }).collect();
    for len in [0, 137, 138, 139, 140] {
        each(&case(&[(PROD_RESET, &[]), (PROD_ADD, &reply(6, &whole[..len])), (PROD_LOOK, &[])]));
    }
    for at in 0..140 {
        let mut odd = whole.clone();
        odd[at] = 0xE9;
        each(&case(&[(PROD_RESET, &[]), (PROD_ADD, &reply(6, &odd)), (PROD_LOOK, &[])]));
    }
    // one byte too few: nothing is set, so nothing is judged
    each(&case(&[(PROD_RESET, &[]), (PROD_ADD, &reply(6, &[0xE9; 137])), (PROD_LOOK, &[])]));
    // 8, 16 and 15, alone and together, on a stored state, where all stays
    for counts in [[32; 4], [33, 0, 0, 0], [0, 33, 0, 0], [0, 0, 33, 0], [0, 0, 0, 255]] {
        for sequence in [1, 2, 6, 9] {
            for byte in [b'a', 0xE9] {
                let raw = [&[0xFF], &counts[..]].concat();
                let add = reply(sequence, &[byte; 138]);
                each(&case(&[
                    (PROD_RAW, &raw),
                    (PROD_LOOK, &[]),
                    (FIRMWARE_OF, &[]),
                    (PROD_ADD, &add[..11]),
                    (PROD_TAKE, &add[..11]),
                    (PROD_ADD, &add),
                    (PROD_LOOK, &[]),
                ]));
            }
        }
    }
}
