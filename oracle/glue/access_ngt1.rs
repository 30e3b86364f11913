// Child of engine::format::ngt1: reads and makes its private states.
use super::*;

/// The phase (0 idle, 1 in frame, 2 escape outside, 3 escape inside) and the bytes held.
pub fn decoder(d: &Ngt1Decoder) -> (u8, &[u8]) {
    let phase = match d.state {
        State::Idle => 0,
        State::InFrame => 1,
        State::Escape { in_frame: false } => 2,
        State::Escape { in_frame: true } => 3,
    };
    (phase, &d.buf)
}

/// A decoder in any state, reachable or not.
pub fn make_decoder(phase: u8, held: &[u8]) -> Ngt1Decoder {
    let mut d = Ngt1Decoder::new();
    d.state = match phase {
        0 => State::Idle,
        1 => State::InFrame,
        2 => State::Escape { in_frame: false },
        _ => State::Escape { in_frame: true },
    };
    d.buf = held.to_vec();
    d
}

/// The parts of a product info that have come, by bit.
pub fn parts(p: &ProductInfo) -> u8 {
    p.parts
}

pub fn set_parts(p: &mut ProductInfo, parts: u8) {
    p.parts = parts;
}
