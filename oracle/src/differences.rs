//! The smallest inputs of docs/DIFFERENCES.md, run on the Rust: each says what the Rust does where the port, by document 01, does
//! something else. What the port does on them is in the edges.
use crate::engine::codec::ngt1_tx_list::{TxListSync, access as tx};
use crate::engine::format::ngt1::*;
use crate::engine::frame::RawFrame;
use std::panic::{AssertUnwindSafe, catch_unwind};

fn panics<T>(f: impl FnOnce() -> T) -> bool {
    catch_unwind(AssertUnwindSafe(f)).is_err()
}

fn message(payload: &[u8]) -> Vec<u8> {
    let mut out = Vec::new();
    encode_ngt_message(0xA1, payload, &mut out);
    out
}

fn frame(data: usize) -> RawFrame {
    RawFrame::new(None, 6, 126_983, 1, 255, vec![0; data])
}

fn session(wanted: Vec<u32>, saved: Vec<u32>) -> TxListSync {
    TxListSync::new(wanted, tx::record(saved, vec![], vec![]))
}

/// A session that reads its list in Format 1.
fn reading() -> TxListSync {
    let mut s = session(vec![7], vec![]);
    s.on_message(&[0x11, 1, 0, 0, 0, 0, 0, 0, 0, 0, 0, 0, 2, 0], 0);
    s.on_tick(2_000);
    s
}

fn listed(count: u8, bytes: usize) -> Vec<u8> {
    let mut payload = vec![0x49, 1, 0, 0, 0, 0, 0, 0, 0, 0, 0, 0, count];
    payload.resize(bytes, 0);
    payload
}

fn product(text: &[u8]) -> ProductInfo {
    let mut data = text.to_vec();
    data.resize(32, 0);
    let mut info = ProductInfo::default();
    info.add(&BemResponse { bem: 0x41, sequence: 2, model_id: 0, serial: 0, error: 0, data: &data });
    info
}

/// What the Rust does, by the row of docs/DIFFERENCES.md.
fn rows() -> Vec<(&'static str, bool)> {
    let at_limit = |wanted: Vec<u32>, saved: Vec<u32>| tx::lengths(&session(wanted, saved));
    let mut old = message(&[0x41]);
    old.extend(message(&[0x41]));
    let mut stored =
        tx::make(tx::View { phase: 2, attempt: 3, due: 10, known: Some((true, vec![1])), ..Default::default() });
    stored.on_tick(10);
    vec![
        ("6: a payload of 256 panics", panics(|| message(&[0; 256]))),
        ("6: send data of 250 panics", panics(|| encode_n2k_send_frame(&frame(250)))),
        ("6: received data of 245 gives none", encode_n2k_received_frame(&frame(245), 0).is_none()),
        ("6: 254 ports panic", panics(|| encode_set_port_pcode(&[0; 254]))),
        ("6: a session message of 300 bytes is taken", {
            let mut s = reading();
            s.on_message(&listed(255, 300), 2_001);
            tx::lengths(&s)[6] == 71
        }),
        ("7: two frames are appended to one Vec", old.len() == 16),
        ("11: 65 wanted are taken", at_limit(vec![1; 65], vec![])[0] == 65),
        ("12: 193 saved are taken", at_limit(vec![], vec![1; 193])[1] == 193),
        (
            "13: a tick at the last time panics, checked",
            panics(|| {
                let mut s = session(vec![], vec![]);
                s.on_message(&[0x11, 1, 0, 0, 0, 0, 0, 0, 0, 0, 0, 0, 2, 0], u64::MAX);
            }),
        ),
        ("14: a list of 1,025 is taken", {
            let mut s = reading();
            for i in 0..18 {
                s.on_message(&listed(if i < 17 { 60 } else { 5 }, 255), 2_001);
            }
            tx::lengths(&s)[6] == 1025
        }),
        ("15: a text with E9 is taken, as U+FFFD", product(b"caf\xe9").model == "caf\u{fffd}"),
        ("15: a text in UTF-8 is taken", product("café".as_bytes()).model == "café"),
        (
            "16: a 47 while enabling with nothing owed panics",
            panics(|| tx::make(tx::View { phase: 4, ..Default::default() }).on_message(&[0x47], 0)),
        ),
        ("a stored list stays when the third attempt ends", tx::view(&stored).known == Some((true, vec![1]))),
        ("push_bytes gives all events of a slice", Ngt1Decoder::new().push_bytes(&old).len() == 2),
        ("bytes outside a frame are kept, once asked for", {
            let mut d = Ngt1Decoder::new();
            d.collect_text();
            d.push_bytes(b"ok");
            d.take_text() == b"ok"
        }),
        ("a record's timestamp is text", {
            let payload = vec![0, 1, 2, 3, 4, 5, 10, 0, 0, 0, 0];
            let frame = NgtMessage { command: 0x93, payload }.to_raw_frame();
            frame.unwrap().timestamp.as_deref() == Some("10")
        }),
    ]
}

/// Runs them all; the names of those that the Rust does otherwise.
pub fn differences() -> (usize, Vec<&'static str>) {
    std::panic::set_hook(Box::new(|_| {}));
    let rows = rows();
    drop(std::panic::take_hook());
    let wrong = rows.iter().filter(|(_, holds)| !holds).map(|(name, _)| *name).collect();
    (rows.len(), wrong)
}
