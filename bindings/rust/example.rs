//! Encodes A1 41, feeds the frame and a damaged copy of it in two pieces, and prints the events; then reads a record and a Format 2
//! list, and has two gateways transmit PGN 126983. Exit status 1: not as expected.
mod check;
mod ngt1;
use check::{ended, expect, reply};
use ngt1::{encode, record, Decoder, Event, Lacks, Parts, Record, Session, Written, MAX_FRAME, MAX_LISTED, MAX_SENT};
use std::process::ExitCode;

/// Feeds all bytes, prints each event and adds it, with its payload, to `events`.
fn feed(decoder: &mut Decoder, bytes: &[u8], events: &mut Vec<(Event, Vec<u8>)>) {
    let mut at = 0;
    while at < bytes.len() {
        let (used, event) = decoder.feed(&bytes[at..]);
        at += used;
        if event != Event::Nothing {
            println!("{:02x?}, payload {:02x?}", event, decoder.payload(event));
            events.push((event, decoder.payload(event).to_vec()));
        }
        if let Event::Refused(_) = event {
            return;
        }
    }
}

/// The same, byte by byte.
fn push(bytes: &[u8]) -> Vec<(Event, Vec<u8>)> {
    let mut decoder = Decoder::new();
    let mut events = Vec::new();
    for b in bytes {
        let event = decoder.push(*b);
        if event != Event::Nothing {
            events.push((event, decoder.payload(event).to_vec()));
        }
    }
    events
}

/// Supported PGNs 126983 (index 7) and 126993 (index 9), of which 9 is enabled, and the proprietary PGN 65281.
fn listed() -> Vec<u32> {
    let mut parts = Parts::new();
    let mut out = [0u32; MAX_LISTED];
    parts.supported(&[0, 0, 0x11, 0, 0, 0, 0, 2, 0, 2, 7, 0x07, 0xF0, 1, 9, 0x11, 0xF0, 1]);
    parts.enabled(&[0, 2, 0x11, 0, 0, 1, 0, 1, 9, 6, 0, 0]);
    if parts.pgns(&mut out).is_some() {
        return Vec::new();
    }
    parts.enabled(&[0, 3, 0x11, 0, 0, 1, 2, 0]);
    let count = parts.pgns(&mut out).unwrap_or(0);
    out[..count].to_vec()
}

/// A start-up with a gateway that tells its list in one of the formats: it wants 126983, and the gateway saves it.
fn starts_up(firmware: Option<u16>, list: &[Vec<u8>]) -> Result<Session, u8> {
    let mut out = [0u8; MAX_SENT];
    let mut session = Session::begin(&[126983])?;
    if let Some(version) = firmware {
        session.set_firmware(version)?;
    }
    session.message(0, &reply(0x11, 1, 0, &[2, 0]), &mut out)?;
    session.tick(2_000, &mut out)?;
    for part in list {
        session.message(2_001, part, &mut out)?;
    }
    session.message(2_001, &reply(0x47, 1, 0, &[0; 14]), &mut out)?;
    session.message(2_001, &reply(0x01, 1, 0, &[]), &mut out)?;
    session.message(2_001, &reply(0x4B, 1, 0, &[]), &mut out)?;
    Ok(session)
}

fn main() -> ExitCode {
    let want = [0x10, 0x02, 0xA1, 0x01, 0x41, 0x1D, 0x10, 0x03];
    let mut out = [0u8; MAX_FRAME];
    expect(encode(0xA1, &[0x41], &mut out) == Ok(Written { count: 8, doubled: 0 }), "encode");
    expect(out[..8] == want && out[8..].iter().all(|b| *b == 0), "frame");
    expect(encode(0xA1, &[0x10], &mut out) == Ok(Written { count: 9, doubled: 1 }), "doubled");
    expect(encode(0xA1, &[0; 256], &mut out) == Err(6), "refusal 6");
    expect(encode(0xA1, &[], &mut []) == Err(7), "refusal 7");

    let mut stream = [want, want].concat();
    stream[8 + 5] = 0x1E;
    let mut decoder = Decoder::new();
    let mut events = Vec::new();
    feed(&mut decoder, &stream[..11], &mut events);
    feed(&mut decoder, &stream[11..], &mut events);
    let message = Event::Message { command: 0xA1, len: 1 };
    expect(events == [(message, vec![0x41]), (Event::BadChecksum, vec![])], "events");
    expect(push(&stream) == events, "push and feed agree");

    let payload = [2, 0x07, 0xF0, 0x01, 255, 33, 1, 2, 0, 0, 2, 0xAA, 0xBB, 0xCC];
    let want = Record { timestamp: 513, prio: 2, pgn: 126983, src: 33, dst: 255, data: &[0xAA, 0xBB] };
    expect(record(0x93, &payload) == Ok(want), "record");
    expect(record(0xA0, &payload) == Err(9), "refusal 9");
    expect(record(0x93, &payload[..10]) == Err(8), "refusal 8");
    expect(record(0x93, &payload[..12]) == Err(10), "refusal 10");
    expect(listed() == [126993, 65281], "Format 2 list");

    let first = [reply(0x49, 1, 0, &[1, 0x11, 0xF0, 1, 0]), reply(0x49, 4, 0, &[])];
    let second = [
        reply(0x40, 1, 0, &[0, 0, 0x11, 0, 0, 0, 0, 2, 0, 2, 7, 0x07, 0xF0, 1, 9, 0x11, 0xF0, 1]),
        reply(0x4F, 2, 0, &[0, 3, 0x11, 0, 0, 1, 2, 0]),
        reply(0x4F, 1, 0, &[0, 2, 0x11, 0, 0, 1, 0, 1, 9, 6, 0, 0]),
    ];
    for (firmware, list, known) in [(None, &first[..], &[126993, 126983][..]), (Some(2690), &second, &[126993, 65281, 126983])] {
        let session = starts_up(firmware, list);
        expect(session.as_ref().is_ok_and(|s| s.is_done() && s.known() == known), "start-up");
        expect(session.as_ref().is_ok_and(|s| s.record() == [&[126983][..], &[], &[]]), "record");
        expect(session.is_ok_and(|s| s.lacks(126983) == Ok(Lacks::Nothing) && s.lacks(1) != Ok(Lacks::Nothing)), "lacks");
    }
    expect(Session::begin(&[0; 65]).is_err_and(|number| number == 11), "refusal 11");
    ended()
}
