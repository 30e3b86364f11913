//! Everything that is written: messages (module 1), records (module 2), commands (module 4).
use super::{Answer, area, refusals};
use crate::engine::codec::ngt1_tx_list::access;
use crate::engine::format::ngt1::*;
use crate::engine::frame::RawFrame;
use crate::script::*;

/// The room that the call lends, and what it writes there, or the number.
fn encode(op: u8, body: &[u8]) -> (usize, Result<Vec<u8>, u8>) {
    let mut r = Reader(body);
    match op {
        ENCODE => {
            let (command, room, payload) = (r.u8(), r.u16(), r.rest());
            (room.into(), message(command, payload))
        }
        N2K_SEND => {
            let (prio, pgn, dst) = (r.u8(), r.u32(), r.u8());
            let (room, data) = (r.u16(), r.rest());
            let write = || encode_n2k_send_frame(&RawFrame::new(None, prio, pgn, 0, dst, data.iter().copied()));
            (room.into(), refusals::payload(data.len(), 249).map(|()| write()))
        }
        N2K_RECV => {
            let (prio, pgn, dst, src, time) = (r.u8(), r.u32(), r.u8(), r.u8(), r.u32());
            let (room, data) = (r.u16(), r.rest());
            let frame = RawFrame::new(None, prio, pgn, src, dst, data.iter().copied());
            let bytes = encode_n2k_received_frame(&frame, time);
            // the Rust has this refusal too
            assert_eq!(bytes.is_none(), refusals::payload(data.len(), 244).is_err());
            (room.into(), bytes.ok_or(6))
        }
        PCODE => {
            let (room, ports) = (r.u16(), r.rest());
            let bytes = refusals::payload(ports.len(), 253).map(|()| encode_set_port_pcode(ports));
            (room.into(), bytes)
        }
        COMMAND => {
            let (kind, room) = (r.u8(), r.u16());
            (room.into(), command(kind, r))
        }
        _ => (0, Err(UNKNOWN)),
    }
}

fn message(command: u8, payload: &[u8]) -> Result<Vec<u8>, u8> {
    refusals::payload(payload.len(), 255)?;
    let mut out = Vec::new();
    encode_ngt_message(command, payload, &mut out);
    Ok(out)
}

fn command(kind: u8, mut r: Reader) -> Result<Vec<u8>, u8> {
    Ok(match kind {
        0 => encode_get_product_info(),
        1 => encode_get_operating_mode(),
        2 => encode_set_operating_mode(OperatingMode::from_code(r.u16())),
        3 => encode_get_port_pcode(),
        4 => access::enable(r.u32()),
        5 => access::read_f1(),
        6 => access::read_f2(),
        7 => access::commit(),
        8 => access::activate(),
        _ => return Err(UNKNOWN),
    })
}

pub fn step(op: u8, body: &[u8]) -> Result<Vec<u8>, u8> {
    let (room, bytes) = encode(op, body);
    let bytes = bytes?;
    refusals::output(room, bytes.len())?;
    let mut out = Vec::new();
    put_u16(&mut out, bytes.len());
    out.extend_from_slice(&area(room, &bytes));
    Ok(out)
}

/// The call's number, and the lent area after it.
pub fn lent(body: &[u8]) -> Answer {
    let mut r = Reader(body);
    let (room, bytes) = encode(r.u8(), r.rest());
    let written = bytes.and_then(|b| refusals::output(room, b.len()).map(|()| b));
    match written {
        Err(UNKNOWN) => Answer::refused(UNKNOWN),
        Err(number) => Answer { number, body: area(room, &[]) },
        Ok(bytes) => Ok(area(room, &bytes)).into(),
    }
}
