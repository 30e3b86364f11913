//! The refusals of document 01 that the Rust does not have: which number, in which order. Our own reading, made from the text of
//! document 01 alone; its sentences stand beside each test. docs/DECISIONS.md records the review of this file.
use crate::engine::format::ngt1::BemResponse;

/// "tick over 18446744073709541615": 13.
pub const LAST_TICK: u64 = 18_446_744_073_709_541_615;

/// The first number whose test fails, in the order given.
fn first(tests: &[(bool, u8)]) -> Result<(), u8> {
    match tests.iter().find(|(fails, _)| *fails) {
        Some(&(_, number)) => Err(number),
        None => Ok(()),
    }
}

/// "Order: decoder 16, 7." "A count passes its capacity (decoder 1,024)"; "decoder buffer under 1,024".
pub fn decoder(count: usize, lent: usize) -> Result<(), u8> {
    first(&[(count > 1024, 16), (lent < 1024, 7)])
}

/// "Encoders 6, 7." First "payload or data over its limit"; 7 comes once the need is known.
pub fn payload(len: usize, limit: usize) -> Result<(), u8> {
    first(&[(len > limit, 6)])
}

/// "Encoder output under need."
pub fn output(room: usize, need: usize) -> Result<(), u8> {
    first(&[(room < need, 7)])
}

/// "Records 9, 8, 10." "Record command not 93"; "record under 11"; "record data past payload".
pub fn record(command: u8, payload: &[u8]) -> Result<(), u8> {
    first(&[(command != 0x93, 9), (payload.len() < 11, 8)])?;
    first(&[(11 + usize::from(payload[10]) > payload.len(), 10)])
}

/// "Replies and startup: 8." "Reply under 12".
pub fn reply(len: usize) -> Result<(), u8> {
    first(&[(len < 12, 8)])
}

/// "Startup data under 3."
pub fn startup(data: usize) -> Result<(), u8> {
    first(&[(data < 3, 8)])
}

/// "`firmware`, ..: 16." "A count passes its capacity (text 32)".
pub fn texts(counts: [u8; 4]) -> Result<(), u8> {
    first(&[(counts.iter().any(|&n| n > 32), 16)])
}

/// "Product 16, 15." "Byte 80 to FE before a text's end", "a text ends before its first 00 or FF", in the texts that this reply
/// would set: "sequence 6 with at least 138 data bytes sets all; .. texts of 32 at 8, 40, 72, 104", "sequences 2 to 5 with at
/// least 32 set model, software, hardware, serial".
pub fn product(counts: [u8; 4], reply: &BemResponse) -> Result<(), u8> {
    let places: &[usize] = match (reply.sequence, reply.data.len()) {
        (6, 138..) => &[8, 40, 72, 104],
        (2..=5, 32..) => &[0],
        _ => &[],
    };
    let other = |&at: &usize| {
        let text = &reply.data[at..at + 32];
        let end = text.iter().position(|&b| b == 0 || b == 0xff).unwrap_or(32);
        text[..end].iter().any(|&b| (0x80..=0xfe).contains(&b))
    };
    texts(counts)?;
    first(&[(places.iter().any(other), 15)])
}

/// The counts of a session: each list's, used in this phase or not.
#[derive(Clone, Copy, Default, Debug)]
pub struct Counts {
    pub phase: u8,
    pub wanted: usize,
    pub saved: usize,
    pub present: usize,
    pub refused: usize,
    pub owed: usize,
    pub fresh: usize,
    pub list: usize,
    pub known: usize,
    pub proprietary: usize,
}

/// "State is not well formed when: .." : 16.
pub fn session(c: &Counts) -> Result<(), u8> {
    let records = [c.saved, c.present, c.refused];
    let passes = |most: usize| records.iter().any(|&n| n > most);
    // "a count passes its capacity (..; wanted, owed, fresh 64; list 1,024; proprietary 512; known 1,344; record lists 256)"
    let capacity = c.wanted > 64
        || c.owed > 64
        || c.fresh > 64
        || c.list > 1024
        || c.proprietary > 512
        || c.known > 1344
        || passes(256);
    // "before enabling (done aside) a record list passes 192"
    let before = c.phase < 4 && passes(192);
    // "enabling, nothing is owed, or fresh + owed passes 64, known + owed 1,344, or present + owed, refused + owed or
    // saved + fresh + owed 256"
    let enabling = c.phase == 4
        && (c.owed == 0
            || c.fresh + c.owed > 64
            || c.known + c.owed > 1344
            || c.present + c.owed > 256
            || c.refused + c.owed > 256
            || c.saved + c.fresh + c.owed > 256);
    // "committing or activating, saved + fresh passes 256"
    let saving = (c.phase == 5 || c.phase == 6) && c.saved + c.fresh > 256;
    first(&[(capacity || before || enabling || saving, 16)])
}

/// "Begin 11, 12." "Over 64 wanted at begin"; "a record list over 192, at begin or restart".
pub fn begin(wanted: usize, records: [usize; 3]) -> Result<(), u8> {
    first(&[(wanted > 64, 11)])?;
    record_lists(records)
}

/// "Restart 16, 12." The 12.
pub fn record_lists(records: [usize; 3]) -> Result<(), u8> {
    first(&[(records.iter().any(|&n| n > 192), 12)])
}

/// "Session message 16, 13, 6, 7, 14." "Session message over 255"; "session output under 32"; "Format 1 list would pass 1,024",
/// where `list` is the list's count after the message. 16 is tested before.
pub fn message(now: u64, payload: usize, room: usize, list: usize) -> Result<(), u8> {
    first(&[(now > LAST_TICK, 13), (payload > 255, 6), (room < 32, 7), (list > 1024, 14)])
}

/// "Tick 16, 13, 7." 16 is tested before.
pub fn tick(now: u64, room: usize) -> Result<(), u8> {
    first(&[(now > LAST_TICK, 13), (room < 32, 7)])
}
