//! Modules 5 and 6: the session, from begin and from any stored state.
use super::refusals::{self, Counts};
use super::{Answer, area};
use crate::engine::codec::ngt1_tx_list::{TxListSync, access};
use crate::script::*;

pub struct Session {
    sync: TxListSync,
    /// A stored state that is not well formed, which the Rust is then never called on: its counts, and what LOOK tells.
    bad: Option<(Counts, Vec<u8>)>,
}

impl Session {
    pub fn begin(body: &[u8]) -> Result<Session, u8> {
        let mut r = Reader(body);
        let n: [usize; 4] = std::array::from_fn(|_| r.u16().into());
        refusals::begin(n[0], [n[1], n[2], n[3]])?;
        let [wanted, saved, present, refused] = n.map(|n| r.pgns(n));
        Ok(Session { sync: TxListSync::new(wanted, access::record(saved, present, refused)), bad: None })
    }

    pub fn set(body: &[u8]) -> Result<Session, u8> {
        let session = Session::set_raw(body);
        refusals::session(&session.counts())?;
        Ok(session)
    }

    pub fn set_raw(body: &[u8]) -> Session {
        let mut r = Reader(body);
        let (phase, due, attempt) = (r.u8() % 8, r.u64(), r.u8());
        let (some, firmware, kind) = (r.u8(), r.u16(), r.u8());
        let lists: [Vec<u32>; 9] = std::array::from_fn(|_| r.list());
        let flags = r.u8();
        let size = r.u8();
        let supported = (0..size)
            .map(|_| (r.u8(), r.u8(), r.u32()))
            .map(|(filled, index, pgn)| (filled & 1 == 1).then_some((index, pgn)))
            .collect();
        let size = r.u8();
        let enabled =
            (0..size).map(|_| (r.u8(), r.u8())).map(|(filled, index)| (filled & 1 == 1).then_some(index)).collect();
        let counts = counts(phase, lists.each_ref().map(Vec::len));
        let stored = (phase, due, attempt, some, firmware, kind);
        let bad = refusals::session(&counts).is_err().then(|| (counts, look(stored, &lists)));
        let [wanted, saved, present, refused, owed, fresh, list, known, proprietary] = lists;
        let view = access::View {
            phase,
            due,
            attempt: attempt.into(),
            firmware: (some & 1 == 1).then_some(firmware),
            wanted,
            list,
            owed,
            fresh,
            known: (kind != 0).then_some((kind == 2, known)),
            saved,
            present,
            refused,
            supported: (flags & 1 != 0).then_some(supported),
            enabled: (flags & 2 != 0).then_some(enabled),
            proprietary: (flags & 4 != 0).then_some(proprietary),
        };
        Session { sync: access::make(view), bad }
    }

    pub fn phase(&self) -> u8 {
        access::phase(&self.sync)
    }

    pub fn due(&self) -> u64 {
        access::due(&self.sync)
    }

    /// The counts that the port would hold.
    fn counts(&self) -> Counts {
        let here = || counts(self.phase(), access::lengths(&self.sync));
        self.bad.as_ref().map_or_else(here, |bad| bad.0)
    }

    pub fn summary(&self) -> Vec<u8> {
        let c = self.counts();
        let mut out = vec![c.phase, self.sync.is_done().into()];
        put_u16(&mut out, if c.phase == 2 { c.list } else { c.owed });
        put_u16(&mut out, c.fresh);
        put_u16(&mut out, access::known_kind(&self.sync).into());
        for n in [c.known, c.saved, c.present, c.refused] {
            put_u16(&mut out, n);
        }
        out
    }

    pub fn step(&mut self, op: u8, body: &[u8]) -> Result<Vec<u8>, u8> {
        let mut r = Reader(body);
        let c = self.counts();
        if op == LOOK {
            return Ok(self.bad.as_ref().map_or(Vec::new(), |bad| bad.1.clone()));
        }
        refusals::session(&c)?;
        match op {
            RESTART => {
                refusals::record_lists([c.saved, c.present, c.refused])?;
                self.sync.restart();
            }
            MESSAGE | TICK => {
                let written = self.write(op, body).1?;
                let mut out = Vec::new();
                put_u16(&mut out, written.len());
                out.extend_from_slice(&written);
                out.extend_from_slice(&self.summary());
                return Ok(out);
            }
            FIRMWARE => self.sync.set_firmware(r.u16()),
            LACKS => {
                return Ok(vec![match self.sync.lacks(r.u32()) {
                    None => 0,
                    Some(true) => 1,
                    Some(false) => 2,
                }]);
            }
            ABANDON => self.sync.abandon(),
            IS_DONE => return Ok(vec![self.sync.is_done().into()]),
            DUMP => return Ok(self.dump()),
            _ => return Ok(self.parts()),
        }
        Ok(self.summary())
    }

    /// The room that a message or tick lends, and the commands that it writes there, end to end, or the number.
    fn write(&mut self, op: u8, body: &[u8]) -> (usize, Result<Vec<u8>, u8>) {
        let mut r = Reader(body);
        let (now, room, payload) = (r.u64(), usize::from(r.u16()), r.rest());
        let c = self.counts();
        let commands = refusals::session(&c).and_then(|()| match op {
            MESSAGE => {
                // "Format 1 list would pass 1,024": "reply 49 with byte 1 equal to 1 adds PGNs"
                let taken = c.phase == 2 && payload.starts_with(&[0x49, 1]);
                let list = c.list + if taken { access::adds(payload) } else { 0 };
                refusals::message(now, payload.len(), room, list)?;
                Ok(self.sync.on_message(payload, now))
            }
            _ => {
                refusals::tick(now, room)?;
                let commands = self.sync.on_tick(now);
                // "When the third in Format 1 times out the session is done, with no list known." A stored state may hold one there,
                // which the Rust leaves: a listed difference.
                if c.phase == 2 && self.sync.is_done() {
                    self.sync.abandon();
                }
                Ok(commands)
            }
        });
        (room, commands.map(|c| c.concat()))
    }

    /// The call's number, and the lent area after it.
    pub fn lent(&mut self, body: &[u8]) -> Answer {
        let mut r = Reader(body);
        let op = r.u8();
        if op != MESSAGE && op != TICK {
            return Answer::refused(UNKNOWN);
        }
        match self.write(op, r.rest()) {
            (room, Err(number)) => Answer { number, body: area(room, &[]) },
            (room, Ok(bytes)) => Ok(area(room, &bytes)).into(),
        }
    }

    fn dump(&self) -> Vec<u8> {
        let v = access::view(&self.sync);
        let mut out = vec![v.phase];
        out.extend_from_slice(&v.due.to_le_bytes());
        out.extend_from_slice(&[v.attempt as u8, access::known_kind(&self.sync)]);
        let known = v.known.map_or(Vec::new(), |k| k.1);
        for list in [v.saved, v.present, v.refused, v.owed, v.fresh, v.list, known] {
            put_list(&mut out, &list);
        }
        out
    }

    fn parts(&self) -> Vec<u8> {
        let v = access::view(&self.sync);
        let mut out = vec![v.firmware.is_some().into()];
        put_u16(&mut out, v.firmware.unwrap_or(0).into());
        put_list(&mut out, &v.wanted);
        let told = [v.supported.is_some(), v.enabled.is_some(), v.proprietary.is_some()];
        out.push((0..3).map(|i| u8::from(told[i]) << i).sum());
        let supported = v.supported.unwrap_or_default();
        out.push(supported.len() as u8);
        for place in supported {
            let (index, pgn) = place.unwrap_or((0, 0));
            out.extend_from_slice(&[place.is_some().into(), index]);
            put_u32(&mut out, pgn);
        }
        let enabled = v.enabled.unwrap_or_default();
        out.push(enabled.len() as u8);
        for place in enabled {
            out.extend_from_slice(&[place.is_some().into(), place.unwrap_or(0)]);
        }
        put_list(&mut out, &v.proprietary.unwrap_or_default());
        out
    }
}

fn counts(phase: u8, lengths: [usize; 9]) -> Counts {
    let [wanted, saved, present, refused, owed, fresh, list, known, proprietary] = lengths;
    Counts { phase, wanted, saved, present, refused, owed, fresh, list, known, proprietary }
}

/// The capacities of the nine lists' arrays.
const CAPACITIES: [usize; 9] = [64, 256, 256, 256, 64, 64, 1024, 1344, 512];

/// All that a session which is not well formed holds: the counts as given, and a sum of each list as far as its array goes.
fn look(stored: (u8, u64, u8, u8, u16, u8), lists: &[Vec<u32>; 9]) -> Vec<u8> {
    let (phase, due, attempt, some, firmware, kind) = stored;
    let mut out = vec![phase];
    out.extend_from_slice(&due.to_le_bytes());
    out.extend_from_slice(&[attempt, some & 1]);
    put_u16(&mut out, if some & 1 == 1 { firmware.into() } else { 0 });
    out.push(if kind == 2 { 2 } else { kind.min(1) });
    for (list, capacity) in lists.iter().zip(CAPACITIES) {
        put_u16(&mut out, list.len());
        let kept: Vec<u8> = list.iter().take(capacity).flat_map(|pgn| pgn.to_le_bytes()).collect();
        put_u32(&mut out, sum(&kept));
    }
    out
}
