//! Cases for everything that is written.
use super::rng::Rng;
use crate::run::Side;
use crate::script::*;

/// The front and the end of a body, with the room between them.
fn body(front: &[u8], room: usize, end: &[u8]) -> Vec<u8> {
    let mut body = front.to_vec();
    put_u16(&mut body, room);
    body.extend_from_slice(end);
    body
}

/// What the call needs: found by running it in much room. 0 where it is refused for another cause.
fn need(op: u8, front: &[u8], end: &[u8]) -> usize {
    let answer = Side::default().step(op, &body(front, 1000, end));
    match answer.number {
        0 => u16::from_le_bytes([answer.body[0], answer.body[1]]).into(),
        _ => 0,
    }
}

/// The call, in room that is around its need or any, and half of the time with the lent area told.
fn put(r: &mut Rng, case: &mut Vec<u8>, op: u8, front: &[u8], end: &[u8]) {
    let room = match r.below(4) {
        0 => r.below(600),
        1 => 600,
        _ => r.around(&[need(op, front, end)]),
    };
    let body = body(front, room, end);
    if r.chance(50) {
        call(case, op, &body);
    } else {
        call(case, LENT, &[&[op], &body[..]].concat());
    }
}

/// Bytes of any number up to 300, often around a limit.
fn content(r: &mut Rng, limit: usize) -> Vec<u8> {
    let len = match r.below(4) {
        0 => r.around(&[limit, limit, 300]),
        1 => r.around(&[0, 1, 16, 100, 128]),
        _ => r.below(limit + 1),
    };
    r.content(len)
}

/// `encode_ngt_message`.
pub fn message(r: &mut Rng, case: &mut Vec<u8>) {
    let (command, payload) = (r.wire(), content(r, 255));
    put(r, case, ENCODE, &[command], &payload);
}

fn pgn(r: &mut Rng) -> u32 {
    let any = r.u32();
    r.pick(&[any, any & 0xFF_FFFF, 126_983, 0x1010_1010, 0x10_0203, 0, u32::MAX])
}

fn command(r: &mut Rng, case: &mut Vec<u8>) {
    let kind = r.below(9) as u8;
    let arguments = match kind {
        2 => r.pick(&[0, 1, 2, 6, 7, 0x10, 0x1010, 0x1000, 65_535u16]).to_le_bytes().to_vec(),
        4 => pgn(r).to_le_bytes().to_vec(),
        _ => Vec::new(),
    };
    put(r, case, COMMAND, &[kind], &arguments);
}

/// A message, a record or a command.
pub fn case(r: &mut Rng, case: &mut Vec<u8>) {
    match r.below(5) {
        0 => message(r, case),
        1 => {
            let front = [&[r.wire()], &pgn(r).to_le_bytes()[..], &[r.wire()]].concat();
            let data = content(r, 249);
            put(r, case, N2K_SEND, &front, &data);
        }
        2 => {
            let head = [&[r.wire()], &pgn(r).to_le_bytes()[..], &[r.wire(), r.wire()]].concat();
            let front = [&head[..], &pgn(r).to_le_bytes()].concat();
            let data = content(r, 244);
            put(r, case, N2K_RECV, &front, &data);
        }
        3 => {
            let ports = content(r, 253);
            put(r, case, PCODE, &[], &ports);
        }
        _ => command(r, case),
    }
}
