//! The session's refusals: every set of them that can hold at once.
use super::session::{LISTED, at};
use super::{Each, case, hex, u16s};
use crate::generate::{LIST, OWED, Stored, WANTED};
use crate::run::LAST_TICK;
use crate::script::*;

/// 16, 13, 6, 7 and 14 of a message, 16, 13 and 7 of a tick: each set of them, with the lent bytes; then a look. Of those with 14, which
/// is for phase 2 alone and takes a long list, no more than pairs where `pairs`.
fn sets(phase: u8, pairs: bool, each: Each) {
    for set in 0u32..if phase == 2 { 32 } else { 16 } {
        if pairs && set >= 16 && set.count_ones() > 2 {
            continue;
        }
        let holds = |i: usize| set >> i & 1 == 1;
        let mut lengths = [0; 9];
        lengths[WANTED] = if holds(0) { 65 } else { 1 };
        lengths[OWED] = usize::from(phase == 4);
        lengths[LIST] = if holds(4) { 1024 } else { 2 };
        let state = Stored::sized(phase, lengths).body();
        let now = if holds(1) { LAST_TICK + 1 } else { LAST_TICK };
        let room = if holds(3) { 31 } else { 32 };
        let mut payload = hex(LISTED);
        payload.resize(if holds(2) { 256 } else { 255 }, 0);
        let body = at(now, room, &payload);
        let lent = |op: u8| [&[op], &body[..]].concat();
        each(&case(&[
            (SET_RAW, &state),
            (MESSAGE, &body),
            (LENT_S, &lent(MESSAGE)),
            (MESSAGE, &at(now, room, &[])),
            (LENT_S, &lent(TICK)),
            (TICK, &at(now, room, &[])),
            (LOOK, &[]),
            (TICK, &at(0, 32, &[])),
        ]));
    }
}

/// 14 counts what would be added, and only where it would be: in phase 3 the list is not in use.
fn format_1(each: Each) {
    for (phase, have, count, told) in [
        (2, 1023, 1, 1),
        (2, 1023, 2, 2),
        (2, 1023, 2, 1),
        (2, 1024, 0, 3),
        (2, 1024, 1, 0),
        (2, 964, 60, 60),
        (2, 965, 60, 60),
        (3, 1024, 1, 1),
    ] {
        let mut lengths = [0; 9];
        lengths[LIST] = have;
        let mut payload = hex("49 01 0E 00 01 02 03 04 00 00 00 00");
        payload.push(count);
        payload.extend_from_slice(&vec![3; 4 * told]);
        let state = Stored::sized(phase, lengths).body();
        // short ones add nothing; the closing one ends the list, also after a 14
        let mut calls = vec![(SET, &state[..])];
        let bodies = [&payload[..], &payload[..2], &payload[..12], &[0x49, 4]].map(|p| at(0, 32, p));
        calls.extend(bodies.iter().map(|body| (MESSAGE, &body[..])));
        each(&case(&calls));
    }
}

/// Begin: 11 and 12, each list. Restart: 16 and 12. A session that a refused begin leaves: none.
fn begins(each: Each) {
    for wanted in [64, 65] {
        for (saved, present, refused) in [(192, 192, 192), (193, 0, 0), (0, 193, 0), (0, 0, 193)] {
            let body = u16s(&[wanted, saved, present, refused]);
            each(&case(&[(BEGIN, &body), (TICK, &at(0, 32, &[]))]));
            let stored = Stored::sized(7, [wanted, saved, present, refused, 0, 0, 0, 0, 0]).body();
            each(&case(&[(SET_RAW, &stored), (RESTART, &[]), (DUMP, &[]), (LOOK, &[])]));
        }
    }
    for op in [RESTART, MESSAGE, TICK, FIRMWARE, LACKS, ABANDON, DUMP, PARTS, LENT_S, IS_DONE, LOOK] {
        let none = (BEGIN, &u16s(&[65, 0, 0, 0])[..]);
        each(&case(&[none, (op, &[])]));
    }
}

/// Size 0: the sets in one phase only, with 14 in pairs.
pub fn refusals(size: usize, each: Each) {
    for phase in if size == 0 { 2..3 } else { 0..8 } {
        sets(phase, size == 0, each);
    }
    format_1(each);
    begins(each);
}
