//! Sessions whose lists are as long as they can be, played to their end.
use super::Each;
use super::gateway::proprietary_part;
use super::records::reply_of;
use super::session::at;
use super::states::{FRESH, KNOWN, LIST, OWED, PRESENT, PROPRIETARY, REFUSED, SAVED, Stored, WANTED};
use crate::script::*;

/// How the gateway answers each enable command: all good, all there already, all refused, or by turns.
const ANSWERS: [&[i32]; 4] = [&[0], &[-996], &[-997], &[0, -996, -997, 0]];

/// From the state on: what ends the read, if it is reading, then every answer to the end, and a look after each step of note.
fn play(state: &Stored, ends: Option<&[u8]>, errors: &[i32]) -> Vec<u8> {
    let mut case = Vec::new();
    call(&mut case, SET, &state.body());
    if let Some(payload) = ends {
        call(&mut case, MESSAGE, &at(5_000, 32, payload));
        call(&mut case, DUMP, &[]);
    }
    for (i, &error) in (0..65).zip(errors.iter().cycle()) {
        call(&mut case, MESSAGE, &at(5_001 + i, 32, &reply_of(0x47, 1, error, &[])));
    }
    call(&mut case, MESSAGE, &at(5_100, 32, &[0x01]));
    call(&mut case, MESSAGE, &at(5_101, 32, &[0x4b]));
    call(&mut case, DUMP, &[]);
    for pgn in [0, 63, 20_000, 60_000] {
        call(&mut case, LACKS, &u32::to_le_bytes(pgn));
    }
    call(&mut case, RESTART, &[]);
    case
}

/// All lists before enabling at their limits; those that the phase does not use empty, or full and dead.
fn reading(phase: u8, dead: bool) -> Stored {
    let mut lengths = [0; 9];
    lengths[WANTED] = 64;
    for list in [SAVED, PRESENT, REFUSED] {
        lengths[list] = 192;
    }
    if phase == 2 {
        lengths[LIST] = 1024;
    }
    if dead {
        (lengths[OWED], lengths[FRESH]) = (64, 64);
        (lengths[LIST], lengths[KNOWN], lengths[PROPRIETARY]) = (1024, 1344, 512);
    }
    Stored::sized(phase, lengths)
}

/// Format 2 with 255 places filled on both sides.
fn format_2(dead: bool) -> Stored {
    let mut state = reading(3, dead);
    state.flags = 3;
    state.supported = (0..255).map(|i| Some((i, 40_000 + u32::from(i)))).collect();
    state.enabled = (0..255).rev().map(Some).collect();
    state
}

/// Enabling, each sum at its bound.
fn enabling(each: &mut dyn FnMut(Stored)) {
    for owed in [1, 20, 64] {
        let mut lengths = [0; 9];
        lengths[WANTED] = 64;
        lengths[OWED] = owed;
        lengths[FRESH] = 64 - owed;
        lengths[KNOWN] = 1344 - owed;
        lengths[PRESENT] = 256 - owed;
        lengths[REFUSED] = 256 - owed;
        lengths[SAVED] = 256 - 64;
        each(Stored::sized(4, lengths));
    }
}

/// Size 0: two of them.
pub fn largest(size: usize, each: Each) {
    let maps = reply_of(0x4f, 2, 0, &proprietary_part([&[0xFF; 32], &[0xFF; 32]]));
    let closing = [0x49, 4];
    if size == 0 {
        each(&play(&reading(2, true), Some(&closing), ANSWERS[3]));
        each(&play(&format_2(false), Some(&maps), ANSWERS[0]));
        return;
    }
    for errors in ANSWERS {
        for dead in [false, true] {
            each(&play(&reading(2, dead), Some(&closing), errors));
            each(&play(&format_2(dead), Some(&maps), errors));
        }
        enabling(&mut |state| each(&play(&state, None, errors)));
    }
}
