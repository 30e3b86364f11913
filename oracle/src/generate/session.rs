//! Whole sessions, from begin on: a gateway in some manner, a clock in some way, settings and questions at any time.
use super::gateway::{Gateway, Manner, noise, pgn, pgns};
use super::rng::Rng;
use crate::run::{LAST_TICK, Side};
use crate::script::*;

/// The most calls of a case, but for the last looks.
const LENGTH: usize = 60;

/// A case being written, with the Rust beside it: the generator sees the phase, the script is fixed all the same.
struct Play<'a> {
    case: &'a mut Vec<u8>,
    side: Side,
    /// how many whole looks are left: an answer of some KB each
    looks: usize,
}

impl Play<'_> {
    /// Makes the call, and hands back what it wrote.
    fn call(&mut self, op: u8, body: &[u8]) -> Vec<u8> {
        call(self.case, op, body);
        let answer = self.side.step(op, body);
        match op {
            MESSAGE | TICK if answer.number == 0 => {
                let written = u16::from_le_bytes([answer.body[0], answer.body[1]]);
                answer.body[2..2 + usize::from(written)].to_vec()
            }
            _ => Vec::new(),
        }
    }

    fn phase(&self) -> u8 {
        self.side.session.as_ref().unwrap().phase()
    }

    fn due(&self) -> u64 {
        self.side.session.as_ref().unwrap().due()
    }
}

/// The clock's next reading.
fn later(r: &mut Rng, now: u64, due: u64, dawdles: bool) -> u64 {
    const HOUR: u64 = 3_600_000;
    let due = if due == 0 { now } else { due };
    match r.below(if dawdles { 8 } else { 20 }) {
        0 | 1 => due.saturating_sub(1),
        2 | 3 => due,
        4 => due.saturating_add(1),
        5 => now,
        6 => now.saturating_add(r.pick(&[1_999, 2_000, 9_999, 10_000, 10_001])),
        7 => now.saturating_sub(r.pick(&[1, 5_000, 20_000])),
        8 if r.chance(30) => now.saturating_sub(HOUR),
        9 if r.chance(5) => r.pick(&[LAST_TICK - 1, LAST_TICK, LAST_TICK + 1, u64::MAX, 0]),
        10 if now > LAST_TICK / 2 => r.below(1 << 40) as u64,
        _ => now.saturating_add(r.below(50) as u64),
    }
}

/// The lists of a begin: small ones with repeats, or ones around the limits.
fn lists(r: &mut Rng) -> [Vec<u32>; 4] {
    let most = r.pick(&[0, 1, 2, 4, 8]);
    let mut lists = [pgns(r, most), pgns(r, 3), pgns(r, 3), pgns(r, 3)];
    if r.chance(3) {
        for (i, list) in lists.iter_mut().enumerate() {
            let len = match i {
                0 => r.around(&[63, 64]),
                _ if r.chance(50) => r.around(&[128, 191, 192]),
                _ => 3,
            };
            *list = (0..len as u32).map(|k| if r.chance(80) { 1000 + k } else { pgn(r) }).collect();
        }
    }
    lists
}

pub fn begin_body(lists: &[Vec<u32>; 4]) -> Vec<u8> {
    let mut body = Vec::new();
    for list in lists {
        put_u16(&mut body, list.len());
    }
    for pgn in lists.iter().flatten() {
        put_u32(&mut body, *pgn);
    }
    body
}

/// The body of a message or tick.
pub fn at(now: u64, room: usize, payload: &[u8]) -> Vec<u8> {
    let mut body = now.to_le_bytes().to_vec();
    put_u16(&mut body, room);
    body.extend_from_slice(payload);
    body
}

const FIRMWARES: [u16; 8] = [0, 2499, 2500, 2501, 2690, 2690, 2690, 65_535];

fn set_firmware(r: &mut Rng, play: &mut Play) {
    play.call(FIRMWARE, &r.pick(&FIRMWARES).to_le_bytes());
}

pub fn case(r: &mut Rng, case: &mut Vec<u8>) {
    let mut play = Play { case, side: Side::default(), looks: 4 };
    let lists = lists(r);
    play.call(BEGIN, &begin_body(&lists));
    if play.side.session.is_none() {
        play.call(TICK, &at(0, 512, &[]));
        return;
    }
    let mut gateway = Gateway::new(r);
    gateway.start(r);
    let mut now = match r.below(6) {
        0 => 0,
        1 => LAST_TICK - 30_000,
        _ => r.below(1 << 40) as u64,
    };
    if r.chance(60) {
        set_firmware(r, &mut play);
    }
    for _ in 0..LENGTH {
        now = later(r, now, play.due(), gateway.manner == Manner::Dawdles);
        if play.phase() == 7 && r.chance(30) {
            if r.chance(50) {
                break;
            }
            play.call(RESTART, &[]);
            gateway.start(r);
            if r.chance(60) {
                set_firmware(r, &mut play);
            }
            continue;
        }
        turn(r, &mut play, &mut gateway, now);
    }
    for op in [DUMP, PARTS] {
        play.call(op, &[]);
    }
    for &pgn in lists[0].iter().take(3) {
        play.call(LACKS, &pgn.to_le_bytes());
    }
}

/// One call in the middle of a session.
fn turn(r: &mut Rng, play: &mut Play, gateway: &mut Gateway, now: u64) {
    let room = if r.chance(97) { r.pick(&[32, 64, 512]) } else { r.pick(&[0, 31, 32, 33]) };
    let tick = if play.phase() == 1 { 70 } else { 25 };
    let (op, payload) = match r.below(100) {
        n if n < tick => (TICK, Vec::new()),
        99 => (MESSAGE, noise(r)),
        98 if r.chance(20) => {
            play.call(ABANDON, &[]);
            return;
        }
        97 if r.chance(20) => {
            play.call(RESTART, &[]);
            gateway.start(r);
            return;
        }
        96 => return set_firmware(r, play),
        94 | 95 if play.looks > 0 => {
            play.looks -= 1;
            play.call(r.pick(&[DUMP, PARTS]), &[]);
            return;
        }
        91..=93 => {
            play.call(LACKS, &pgn(r).to_le_bytes());
            return;
        }
        90 => {
            play.call(IS_DONE, &[]);
            return;
        }
        _ => match gateway.speak(r) {
            Some(said) => (MESSAGE, said),
            None => (TICK, Vec::new()),
        },
    };
    let body = at(now, room, &payload);
    if r.chance(2) {
        play.call(LENT_S, &[&[op], &body[..]].concat());
    } else {
        let written = play.call(op, &body);
        gateway.hear(r, &written);
    }
}
