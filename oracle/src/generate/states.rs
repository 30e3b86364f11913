//! Whole stored sessions, well formed and not, reachable and not.
use super::Each;
use super::gateway::{enabled_part, listed, pgn, pgns, proprietary_part, supported_part};
use super::records::reply_of;
use super::rng::Rng;
use super::session::at;
use crate::run::LAST_TICK;
use crate::script::*;

/// Places among the nine lists of a stored state.
pub const WANTED: usize = 0;
pub const SAVED: usize = 1;
pub const PRESENT: usize = 2;
pub const REFUSED: usize = 3;
pub const OWED: usize = 4;
pub const FRESH: usize = 5;
pub const LIST: usize = 6;
pub const KNOWN: usize = 7;
pub const PROPRIETARY: usize = 8;

/// In that order.
const CAPACITIES: [usize; 9] = [64, 256, 256, 256, 64, 64, 1024, 1344, 512];

#[derive(Clone, Default)]
pub struct Stored {
    pub phase: u8,
    pub due: u64,
    pub attempt: u8,
    pub firmware: Option<u16>,
    /// 0 none, 1 partial, 2 whole
    pub known_kind: u8,
    pub lists: [Vec<u32>; 9],
    pub flags: u8,
    pub supported: Vec<Option<(u8, u32)>>,
    pub enabled: Vec<Option<u8>>,
}

impl Stored {
    /// A state of this phase whose lists have these lengths, with PGNs all different.
    pub fn sized(phase: u8, lengths: [usize; 9]) -> Stored {
        let list = |i: usize| (0..lengths[i] as u32).map(|k| 10_000 * i as u32 + k).collect();
        Stored { phase, due: 5_000, attempt: 1, known_kind: 2, lists: std::array::from_fn(list), ..Stored::default() }
    }

    pub fn body(&self) -> Vec<u8> {
        let mut body = vec![self.phase];
        body.extend_from_slice(&self.due.to_le_bytes());
        body.extend_from_slice(&[self.attempt, self.firmware.is_some().into()]);
        put_u16(&mut body, self.firmware.unwrap_or(0).into());
        body.push(self.known_kind);
        for list in &self.lists {
            put_list(&mut body, list);
        }
        body.extend_from_slice(&[self.flags, self.supported.len() as u8]);
        for place in &self.supported {
            let (index, pgn) = place.unwrap_or((7, 7));
            body.extend_from_slice(&[place.is_some().into(), index]);
            put_u32(&mut body, pgn);
        }
        body.push(self.enabled.len() as u8);
        for place in &self.enabled {
            body.extend_from_slice(&[place.is_some().into(), place.unwrap_or(7)]);
        }
        body
    }
}

/// Every call on the state that SET_RAW puts in, each from that state anew, then SET.
pub fn every_call(state: &Stored, each: Each) {
    let body = state.body();
    let enable = reply_of(0x47, 1, 0, &[]);
    for (op, arguments) in [
        (RESTART, vec![]),
        (MESSAGE, at(5_000, 32, &enable)),
        (MESSAGE, at(5_000, 32, &[1])),
        (MESSAGE, at(5_000, 32, &[0x4b])),
        (TICK, at(5_000, 32, &[])),
        (FIRMWARE, vec![0xc4, 9]),
        (LACKS, vec![0, 0, 0, 0]),
        (ABANDON, vec![]),
        (IS_DONE, vec![]),
    ] {
        let mut case = Vec::new();
        call(&mut case, SET_RAW, &body);
        call(&mut case, op, &arguments);
        call(&mut case, DUMP, &[]);
        call(&mut case, LOOK, &[]);
        each(&case);
    }
    let mut case = Vec::new();
    call(&mut case, SET, &body);
    call(&mut case, TICK, &at(0, 32, &[]));
    each(&case);
}

/// Every bound of "State is not well formed when", at the bound and one above, in every phase. Size 0: enabling's sums, one call.
pub fn bounds(size: usize, each: Each) {
    if size == 0 {
        return sums(4, &mut |state| {
            let mut case = Vec::new();
            call(&mut case, SET_RAW, &state.body());
            call(&mut case, MESSAGE, &at(5_000, 32, &reply_of(0x47, 1, 0, &[])));
            each(&case);
        });
    }
    for phase in 0..8 {
        let mut all = |state: Stored| every_call(&state, each);
        counts(phase, &mut all);
        sums(phase, &mut all);
        let nothing = Stored::sized(phase, [0; 9]);
        // a known list that is said not to be there
        let mut unknown = nothing.clone();
        unknown.known_kind = 0;
        unknown.lists[KNOWN] = vec![0, 5];
        unknown.lists[OWED] = vec![0; 5];
        all(nothing);
        all(unknown);
    }
}

/// As short as the phase allows.
fn shortest(phase: u8) -> [usize; 9] {
    let mut lengths = [0; 9];
    lengths[OWED] = usize::from(phase == 4);
    lengths
}

/// Each list at its capacity and one above; the record lists at 192 and one above.
fn counts(phase: u8, each: &mut dyn FnMut(Stored)) {
    let capacities = CAPACITIES.into_iter().enumerate();
    let records = [SAVED, PRESENT, REFUSED].map(|list| (list, 192));
    for (list, bound) in capacities.chain(records) {
        for above in [0, 1] {
            let mut lengths = shortest(phase);
            lengths[list] = bound + above;
            kinds(list, Stored::sized(phase, lengths), each);
        }
    }
}

/// The state; where the known list is at stake, also with a partial one and with none.
fn kinds(list: usize, mut state: Stored, each: &mut dyn FnMut(Stored)) {
    each(state.clone());
    if list == KNOWN {
        for kind in [0, 1] {
            state.known_kind = kind;
            each(state.clone());
        }
    }
}

/// Each sum at its bound and one above, no list over its capacity.
fn sums(phase: u8, each: &mut dyn FnMut(Stored)) {
    for (lists, bound) in [
        (&[FRESH, OWED][..], 64),
        (&[KNOWN, OWED], 1344),
        (&[PRESENT, OWED], 256),
        (&[REFUSED, OWED], 256),
        (&[SAVED, FRESH, OWED], 256),
        (&[SAVED, FRESH], 256),
    ] {
        for above in [0, 1] {
            let mut lengths = shortest(phase);
            for &list in &lists[1..] {
                lengths[list] = 20;
            }
            lengths[lists[0]] = bound + above - 20 * (lists.len() - 1);
            kinds(lists[0], Stored::sized(phase, lengths), each);
        }
    }
}

/// Lengths that are mostly small and sometimes around a bound.
fn random_lists(r: &mut Rng) -> [Vec<u32>; 9] {
    let big = r.chance(10);
    std::array::from_fn(|i| {
        let capacity = CAPACITIES[i];
        let len = match r.below(4) {
            0 if big => r.around(&[capacity, capacity.min(192), capacity.min(192)]),
            1 if big => r.below(capacity + 1),
            _ => r.below(6),
        };
        (0..len as u32).map(|k| if r.chance(70) { pgn(r) } else { 5000 + k }).collect()
    })
}

fn random_state(r: &mut Rng, now: u64) -> Stored {
    let sizes = [0, 1, 2, 3, 3, 255];
    let places = |r: &mut Rng| {
        let filled = r.pick(&[50, 90, 100]);
        let n = r.pick(&sizes);
        (0..n).map(|_| r.chance(filled).then_some((r.below(6) as u8, pgn(r) & 0xFF_FFFF))).collect()
    };
    let supported: Vec<_> = places(r);
    let enabled: Vec<_> = places(r);
    let phase = r.below(8) as u8;
    let mut lists = random_lists(r);
    if phase == 2 && r.chance(10) {
        lists[LIST] = vec![9; r.around(&[964, 1000, 1023])];
    }
    Stored {
        phase,
        due: if r.chance(98) { now + r.below(12_000) as u64 } else { r.pick(&[0, LAST_TICK + 1, u64::MAX]) },
        attempt: r.pick(&[0, 1, 2, 3, 3, 4, 255]),
        firmware: r.chance(50).then(|| r.pick(&[0, 2499, 2500, 65_535])),
        known_kind: r.below(3) as u8,
        lists,
        flags: r.below(8) as u8,
        supported,
        enabled: enabled.into_iter().map(|p| p.map(|(index, _)| index)).collect(),
    }
}

/// A message that some phase takes.
fn taken(r: &mut Rng) -> Vec<u8> {
    let (size, first, count) = (r.pick(&[0, 1, 2, 3, 255]), r.below(4) as u8, r.below(5) as u8);
    match r.below(8) {
        0 => {
            let entries: Vec<_> = (0..count).map(|i| (i, pgn(r) & 0xFF_FFFF)).collect();
            reply_of(0x40, 1, 0, &supported_part(size, first, count, &entries))
        }
        1 => reply_of(0x4f, 1, 0, &enabled_part(size, first, count, &r.bytes(4))),
        2 => {
            let maps = [r.below(34), r.below(34)].map(|n| r.bytes(n));
            reply_of(0x4f, 2, 0, &proprietary_part([&maps[0], &maps[1]]))
        }
        3 | 4 => reply_of(0x47, r.pick(&[1, 1, 1, 2]), r.pick(&[0, -996, -1]), &[]),
        5 => vec![r.pick(&[0x01, 0x4b, 0x47, 0x49, 0x11])],
        6 => reply_of(r.pick(&[0x40, 0x4f, 0x11]), 1, r.pick(&[0, -1]), &[2, 0]),
        _ => {
            let list = pgns(r, 60);
            reply_of(0x49, r.pick(&[1, 1, 4]), 0, &listed(list.len() as u8, &list))
        }
    }
}

/// Any stored state, then a few calls on it.
pub fn case(r: &mut Rng, case: &mut Vec<u8>) {
    let now = r.pick(&[0, 5_000, 1 << 40, LAST_TICK - 20_000]);
    let state = random_state(r, now);
    call(case, r.pick(&[SET, SET, SET_RAW]), &state.body());
    for _ in 0..1 + r.below(8) {
        let time = match r.below(4) {
            0 => now.saturating_sub(r.below(20_000) as u64),
            1 => now + 12_000,
            _ => now + r.below(10_000) as u64,
        };
        let room = if r.chance(95) { 32 } else { 31 };
        match r.below(20) {
            0..=3 => call(case, TICK, &at(time, room, &[])),
            4 => call(case, LACKS, &pgn(r).to_le_bytes()),
            5 => call(case, RESTART, &[]),
            6 => call(case, PARTS, &[]),
            7 => call(case, FIRMWARE, &r.pick(&[2499u16, 2500]).to_le_bytes()),
            8 if r.chance(20) => call(case, ABANDON, &[]),
            8 => call(case, r.pick(&[IS_DONE, LOOK]), &[]),
            9 => {
                let payload = taken(r);
                let op = r.pick(&[MESSAGE, TICK]);
                call(case, LENT_S, &[&[op], &at(time, room, &payload)[..]].concat());
            }
            _ => {
                let payload = taken(r);
                call(case, MESSAGE, &at(time, room, &payload));
            }
        }
    }
    call(case, DUMP, &[]);
    call(case, PARTS, &[]);
}
