//! The session's fixed cases.
use super::{Each, case, hex, u16s};
use crate::generate::Stored;
use crate::script::*;

pub(super) fn at(now: u64, room: usize, payload: &[u8]) -> Vec<u8> {
    [&now.to_le_bytes()[..], &u16s(&[room]), payload].concat()
}

fn message(now: u64, text: &str) -> (u8, Vec<u8>) {
    (MESSAGE, at(now, 512, &hex(text)))
}

fn tick(now: u64) -> (u8, Vec<u8>) {
    (TICK, at(now, 512, &[]))
}

fn begin(lists: [&[u32]; 4]) -> (u8, Vec<u8>) {
    let mut body = u16s(&lists.map(<[u32]>::len));
    for pgn in lists.concat() {
        put_u32(&mut body, pgn);
    }
    (BEGIN, body)
}

/// The calls, and then a look at everything.
fn run(calls: Vec<(u8, Vec<u8>)>, each: Each) {
    let mut all: Vec<(u8, &[u8])> = calls.iter().map(|(op, body)| (*op, &body[..])).collect();
    all.extend([(DUMP, &[][..]), (PARTS, &[][..])]);
    each(&case(&all));
}

const MODE_REPLY: &str = "11 01 0E 00 01 02 03 04 00 00 00 00 02 00";
/// Format 1: PGNs 126992 and 127245; then what ends the list, with 126983 in it, which must not be read.
pub(super) const LISTED: &str = "49 01 0E 00 01 02 03 04 00 00 00 00 02 10 F0 01 00 0D F1 01 00";
const CLOSING: &str = "49 04 0E 00 01 02 03 04 00 00 00 00 01 07 F0 01 00";
const SUPPORTED: &str = "40 01 0E 00 01 02 03 04 00 00 00 00 00 00 11 00 00 34 12 02 00 02 00 10 F0 01 01 0D F1 01";
const ENABLED: &str = "4F 01 0E 00 01 02 03 04 00 00 00 00 00 02 11 00 00 01 00 01 01 06 E8 03";
const MAPS: &str = "4F 02 0E 00 01 02 03 04 00 00 00 00 00 03 11 00 00 02 01 80 01 02";

fn enabled(error: &str) -> String {
    format!("47 01 0E 00 01 02 03 04 {error} 07 F0 01 00 01 FE FF FF FF FE FF FF FF 06")
}

const DONE_WELL: &str = "00 00 00 00";
const ALREADY: &str = "1C FC FF FF";
const REFUSED: &str = "1B FC FF FF";

/// A session up to its first read, firmware told or not.
fn reading(lists: [&[u32]; 4], firmware: Option<u16>) -> Vec<(u8, Vec<u8>)> {
    let mut calls = vec![begin(lists)];
    calls.extend(firmware.map(|f| (FIRMWARE, f.to_le_bytes().to_vec())));
    calls.extend([message(1_000, MODE_REPLY), tick(2_999), tick(3_000)]);
    calls
}

fn with(mut calls: Vec<(u8, Vec<u8>)>, more: Vec<(u8, Vec<u8>)>, each: Each) {
    calls.extend(more);
    run(calls, each);
}

/// Module 6, told as document 01 tells it.
fn stories(each: Each) {
    let wanted: [&[u32]; 4] = [&[126_983, 126_992, 126_983, 65_280], &[], &[], &[]];
    let answers = |errors: [&str; 3]| -> Vec<_> {
        let say = |(i, e): (usize, &str)| message(3_100 + i as u64, &enabled(e));
        errors.into_iter().enumerate().map(say).collect()
    };
    let save = vec![message(3_200, "01"), message(3_300, "4B")];
    // Format 1: repeats are asked for twice; nothing is read from the closing message; saved when activate is answered
    for errors in [[DONE_WELL; 3], [ALREADY; 3], [REFUSED; 3], [DONE_WELL, ALREADY, REFUSED]] {
        let mut more = vec![message(3_001, LISTED), message(3_002, CLOSING)];
        more.extend(answers(errors));
        more.extend(save.clone());
        more.extend([(LACKS, 126_983u32.to_le_bytes().to_vec()), (RESTART, vec![])]);
        with(reading(wanted, None), more, each);
    }
    // Format 2, its parts in the order that an NGT-1 with firmware 2.690 has
    let mut more = vec![message(3_001, SUPPORTED), message(3_002, MAPS), message(3_003, ENABLED)];
    more.extend(answers([DONE_WELL; 3]));
    more.extend(save);
    with(reading(wanted, Some(2690)), more.clone(), each);
    more[1] = message(3_002, "4F 01 0E 00 01 02 03 04 FF FF FF FF");
    with(reading(wanted, Some(2500)), more, each);
    // silence: three attempts in Format 2, three in Format 1, done
    for firmware in [None, Some(2499), Some(2500)] {
        let ticks = (0..8).map(|i| tick(13_000 + 10_000 * i)).collect();
        with(reading(wanted, firmware), ticks, each);
    }
    // a timeout in each later phase, one tick before and at the end of the wait
    for answered in 0..3 {
        let mut more = vec![message(3_001, CLOSING)];
        more.extend([message(3_002, &enabled(DONE_WELL)), message(3_003, "01")].into_iter().take(answered));
        more.extend([tick(3_001 + answered as u64 + 9_999), tick(3_001 + answered as u64 + 10_000)]);
        with(reading([&[7], &[], &[], &[]], None), more, each);
    }
    // old lists: present ones are known and not asked for, refused ones not asked for, saved ones asked for and not saved again
    let old: [&[u32]; 4] = [&[5, 6, 5, 8, 9, 1], &[6, 6], &[9, 9, 8], &[8, 1]];
    let more = vec![
        message(3_001, "49 04"),
        message(3_002, &enabled(DONE_WELL)),
        message(3_003, &enabled(DONE_WELL)),
        message(3_004, &enabled(DONE_WELL)),
        message(3_005, "01"),
        message(3_006, "4B 09 09"),
    ];
    with(reading(old, None), more, each);
    // the clock goes back an hour after the mode: the wait of 2,000 ms lasts that much longer
    let hour = 3_600_000;
    let calls = vec![
        begin([&[126_983], &[], &[], &[]]),
        message(hour, MODE_REPLY),
        tick(0),
        tick(2_000),
        tick(hour + 1_999),
        tick(hour + 2_000),
        message(0, "49 04"),
        tick(9_999),
        tick(10_000),
    ];
    run(calls, each);
    // firmware told at odd times; abandon, and restart after it
    let odd = vec![
        (FIRMWARE, 100u16.to_le_bytes().to_vec()),
        tick(13_000),
        (ABANDON, vec![]),
        (LACKS, vec![7, 0, 0, 0]),
        message(13_001, MODE_REPLY),
        (RESTART, vec![]),
        message(13_002, MODE_REPLY),
        tick(15_002),
    ];
    with(reading([&[7], &[], &[], &[]], Some(2500)), odd, each);
}

/// A reply: its byte, sequence and error, then data in hexadecimal.
fn reply(bem: u8, sequence: u8, error: i32, data: &str) -> Vec<u8> {
    let mut payload = vec![bem, sequence, 0x0e, 0, 1, 2, 3, 4];
    payload.extend_from_slice(&error.to_le_bytes());
    payload.extend_from_slice(&hex(data));
    payload
}

fn say(now: u64, payload: &[u8]) -> (u8, Vec<u8>) {
    (MESSAGE, at(now, 512, payload))
}

/// What a gateway may say beside the point.
fn beside(each: Each) {
    let wanted: [&[u32]; 4] = [&[126_983, 7], &[], &[], &[]];
    // no mode, too short, an error, then a second one: the first with a mode starts the wait
    let mut calls = vec![begin(wanted)];
    for (i, (error, data)) in [(0, "02"), (0, ""), (-7, "FF FF"), (0, "02 00")].into_iter().enumerate() {
        calls.push(say(100 * i as u64, &reply(0x11, 9, error, data)));
    }
    calls.extend([say(5, &[0x11]), tick(2_199), tick(2_200)]);
    run(calls, each);
    // Format 1: other sequences, an error, the count byte missing, the last group cut, ends at every length
    for len in 12..=21 {
        let listed = &hex(LISTED)[..len];
        let mut more = vec![say(3_001, listed)];
        for sequence in [0, 2, 3, 5] {
            more.push(say(9_000, &reply(0x49, sequence, 0, "01 07 F0 01 00")));
        }
        more.extend([
            say(3_100, &reply(0x49, 1, -5, "09 07 00 00 00 08 00")),
            tick(13_099),
            say(3_200, &[0x49]),
            tick(13_100),
        ]);
        with(reading(wanted, None), more, each);
    }
    // enable answers: too short, another sequence, other errors, another reply byte
    for (i, answer) in [
        reply(0x47, 1, 0, "")[..11].to_vec(),
        vec![0x47],
        reply(0x47, 0, 0, ""),
        reply(0x47, 2, -996, ""),
        reply(0x47, 1, 1, ""),
        reply(0x47, 1, -996 + 65_536, ""),
        reply(0x47, 1, 256, ""),
        reply(0x46, 1, 0, ""),
    ]
    .into_iter()
    .enumerate()
    {
        let mut more =
            vec![message(3_001, CLOSING), say(3_002 + i as u64, &answer), say(3_100, &reply(0x47, 1, 0, ""))];
        more.extend([
            message(3_101, "4B"),
            message(3_102, "02"),
            say(3_103, &reply(0x01, 3, -5, "")),
            message(3_104, "01"),
        ]);
        more.extend([say(3_105, &reply(0x4b, 7, -5, "")), (LACKS, vec![7, 0, 0, 0])]);
        with(reading(wanted, None), more, each);
    }
    // Format 2: too short to be a reply, an error of each sign, a second attempt after half the parts, the wait started anew
    for error in [1, -1, 65_536] {
        for bem in [0x40, 0x4f] {
            with(reading(wanted, Some(2690)), vec![say(3_001, &reply(bem, 1, error, "")), tick(13_001)], each);
        }
    }
    let more = vec![
        message(3_001, SUPPORTED),
        say(12_999, &reply(0x40, 1, 0, "")[..11]),
        tick(13_001),
        message(13_002, ENABLED),
        message(13_003, MAPS),
        say(20_000, &reply(0x4f, 1, 0, "")),
        tick(29_999),
        tick(30_000),
        message(30_001, SUPPORTED),
        message(30_002, MAPS),
        message(30_003, ENABLED),
    ];
    with(reading(wanted, Some(2690)), more, each);
}

/// Known lists that a third attempt of Format 1 ends with, and attempt numbers that no session has.
fn odd_states(each: Each) {
    for attempt in [0, 1, 2, 3, 4, 255] {
        for phase in [2, 3] {
            for known_kind in [0, 1, 2] {
                let mut state = Stored::sized(phase, [1, 1, 1, 1, 0, 0, 2, 3, 2]);
                (state.attempt, state.known_kind) = (attempt, known_kind);
                let mut lent = vec![TICK];
                lent.extend_from_slice(&at(5_000, 32, &[]));
                let set = state.body();
                each(&case(&[(SET, &set), (TICK, &at(4_999, 32, &[])), (LENT_S, &lent), (DUMP, &[])]));
            }
        }
    }
}

pub fn session(_: usize, each: Each) {
    stories(each);
    beside(each);
    odd_states(each);
}
