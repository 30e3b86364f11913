//! Calls and answers as text, a line each.
use crate::script::*;

/// The op's name, and the fields of its body: their names and bytes. What is left is told in hexadecimal.
type Fields = &'static [(&'static str, usize)];
const OPS: &[(u8, &str, Fields)] = &[
    (DEC_RESET, "DEC_RESET", &[]),
    (DEC_PUSH, "DEC_PUSH", &[]),
    (DEC_BYTES, "DEC_BYTES", &[]),
    (ENCODE, "ENCODE", &[("command", 1), ("room", 2)]),
    (DEC_SET, "DEC_SET", &[("phase", 1)]),
    (DEC_RAW, "DEC_RAW", &[("phase", 1), ("count", 2), ("lent", 2)]),
    (DEC_LOOK, "DEC_LOOK", &[]),
    (N2K_SEND, "N2K_SEND", &[("priority", 1), ("pgn", 4), ("destination", 1), ("room", 2)]),
    (N2K_RECV, "N2K_RECV", &[("priority", 1), ("pgn", 4), ("destination", 1), ("source", 1), ("time", 4), ("room", 2)]),
    (N2K_READ, "N2K_READ", &[("command", 1)]),
    (REPLY, "REPLY", &[]),
    (MODE, "MODE", &[]),
    (STARTUP, "STARTUP", &[]),
    (RESPONSE, "RESPONSE", &[]),
    (PROD_RESET, "PROD_RESET", &[]),
    (PROD_ADD, "PROD_ADD", &[]),
    (PROD_RAW, "PROD_RAW", &[("parts", 1), ("model", 1), ("software", 1), ("hardware", 1), ("serial", 1)]),
    (PROD_LOOK, "PROD_LOOK", &[]),
    (FIRMWARE_OF, "FIRMWARE_OF", &[]),
    (PROD_TAKE, "PROD_TAKE", &[]),
    (FIRMWARE_IN, "FIRMWARE_IN", &[("count", 1)]),
    (PCODE, "PCODE", &[("room", 2)]),
    (COMMAND, "COMMAND", &[("kind", 1), ("room", 2)]),
    (LENT, "LENT", &[("op", 1)]),
    (BEGIN, "BEGIN", &[("wanted", 2), ("saved", 2), ("present", 2), ("refused", 2)]),
    (RESTART, "RESTART", &[]),
    (MESSAGE, "MESSAGE", &[("now", 8), ("room", 2)]),
    (TICK, "TICK", &[("now", 8), ("room", 2)]),
    (FIRMWARE, "FIRMWARE", &[("firmware", 2)]),
    (LACKS, "LACKS", &[("pgn", 4)]),
    (ABANDON, "ABANDON", &[]),
    (DUMP, "DUMP", &[]),
    (SET, "SET", &[("phase", 1), ("due", 8), ("attempt", 1)]),
    (SET_RAW, "SET_RAW", &[("phase", 1), ("due", 8), ("attempt", 1)]),
    (LENT_S, "LENT_S", &[("op", 1), ("now", 8), ("room", 2)]),
    (PARTS, "PARTS", &[]),
    (IS_DONE, "IS_DONE", &[]),
    (LOOK, "LOOK", &[]),
];

pub fn hex(bytes: &[u8]) -> String {
    let each: Vec<String> = bytes.iter().map(|b| format!("{b:02x}")).collect();
    each.join(" ")
}

pub fn name(op: u8) -> &'static str {
    OPS.iter().find(|o| o.0 == op).map_or("?", |o| o.1)
}

pub fn call(op: u8, body: &[u8]) -> String {
    let fields = OPS.iter().find(|o| o.0 == op).map_or(&[][..], |o| o.2);
    let (mut text, mut rest) = (format!("{op:02x} {}", name(op)), body);
    for (field, width) in fields {
        let (here, after) = rest.split_at((*width).min(rest.len()));
        let n = here.iter().rev().fold(0u64, |n, b| n << 8 | u64::from(*b));
        text += &format!(" {field}={n}");
        rest = after;
    }
    if !rest.is_empty() {
        text += &format!(" {}", hex(rest));
    }
    text
}

pub fn answer(told: Option<(u8, u8, &[u8])>) -> String {
    match told {
        None => "nothing".into(),
        Some((_, number, body)) => format!("no={number} {}", hex(body)),
    }
}
