//! The gateway's side of a session: it hears the commands that the session wrote and has answers to send, in its own manner.
use super::records::reply_of;
use super::rng::Rng;
use crate::engine::format::ngt1::{Ngt1Decoder, NgtEvent};
use std::collections::VecDeque;

#[derive(Clone, Copy, PartialEq)]
pub enum Manner {
    /// answers in order
    Helps,
    /// answers around the end of the wait
    Dawdles,
    /// answers with wrong fields
    Lies,
    /// says things again
    Repeats,
    /// says much more than it was asked
    Floods,
    /// falls silent
    Stops,
}

pub const MANNERS: [Manner; 8] = [
    Manner::Helps,
    Manner::Helps,
    Manner::Helps,
    Manner::Dawdles,
    Manner::Lies,
    Manner::Repeats,
    Manner::Floods,
    Manner::Stops,
];

pub struct Gateway {
    pub manner: Manner,
    /// (index, PGN)
    supported: Vec<(u8, u32)>,
    enabled: Vec<u8>,
    maps: [Vec<u8>; 2],
    list: Vec<u32>,
    /// what it will say next
    queue: VecDeque<Vec<u8>>,
    /// how often it still speaks, where it stops
    breath: usize,
}

/// PGNs from a small set, so that lists meet.
pub fn pgn(r: &mut Rng) -> u32 {
    match r.below(6) {
        0 => 0xFF00 + r.below(16) as u32,
        1 => 0x1FF00 + r.below(16) as u32,
        2 => 126_983 + r.below(3) as u32,
        3 => r.pick(&[0, 1, 0x10, 0x1010, 0x10_1010, 0x1010_1010, 0x40000, u32::MAX]),
        _ => 130_300 + r.below(12) as u32,
    }
}

pub fn pgns(r: &mut Rng, most: usize) -> Vec<u32> {
    (0..r.below(most + 1)).map(|_| pgn(r)).collect()
}

/// The data of a part of the Supported PGN List.
pub fn supported_part(size: u8, first: u8, count: u8, entries: &[(u8, u32)]) -> Vec<u8> {
    let mut data = vec![0, 0x00, 0x11, 0, 0, 0x34, 0x12, size, first, count];
    for (index, pgn) in entries {
        data.push(*index);
        data.extend_from_slice(&pgn.to_le_bytes()[..3]);
    }
    data
}

/// The data of a part of the Format 2 list's standard PGNs.
pub fn enabled_part(size: u8, first: u8, count: u8, entries: &[u8]) -> Vec<u8> {
    let mut data = vec![0, 0x02, 0x11, 0, 0, size, first, count];
    for index in entries {
        data.extend_from_slice(&[*index, 6, 0xe8, 3]);
    }
    data
}

/// The replies that tell a list in parts of up to `most` entries; an empty part where it has none.
pub fn in_parts<T>(list: &[T], most: usize, bem: u8, part: fn(u8, u8, u8, &[T]) -> Vec<u8>) -> Vec<Vec<u8>> {
    let tell = |first: usize, entries: &[T]| {
        let data = part(list.len() as u8, first as u8, entries.len() as u8, entries);
        reply_of(bem, 1, 0, &data)
    };
    if list.is_empty() {
        return vec![tell(0, &[])];
    }
    list.chunks(most).enumerate().map(|(i, entries)| tell(i * most, entries)).collect()
}

/// The data of the Format 2 list's proprietary PGNs.
pub fn proprietary_part(maps: [&[u8]; 2]) -> Vec<u8> {
    let mut data = vec![0, 0x03, 0x11, 0, 0];
    for map in maps {
        data.push(map.len() as u8);
        data.extend_from_slice(map);
    }
    data
}

/// The data of a Format 1 message: a count, and PGNs.
pub fn listed(count: u8, pgns: &[u32]) -> Vec<u8> {
    let mut data = vec![count];
    for pgn in pgns {
        data.extend_from_slice(&pgn.to_le_bytes());
    }
    data
}

/// The payloads of the commands that a call wrote.
fn commands(bytes: &[u8]) -> Vec<Vec<u8>> {
    let events = Ngt1Decoder::new().push_bytes(bytes);
    let payload = |e| match e {
        NgtEvent::Message(m) => m.payload,
        NgtEvent::Error(e) => panic!("the session wrote what is no message: {e:?}"),
    };
    events.into_iter().map(payload).collect()
}

impl Gateway {
    pub fn new(r: &mut Rng) -> Gateway {
        let manner = r.pick(&MANNERS);
        let most = r.pick(&[0, 1, 3, 40, 40, 254]);
        let supported: Vec<(u8, u32)> = (0..r.below(most + 1))
            .map(|i| (if r.chance(90) { i as u8 } else { r.byte() }, pgn(r) & 0xFF_FFFF))
            .collect();
        let most = r.pick(&[0, 1, 3, 20, 20, 254]);
        let enabled = (0..r.below(most + 1)).map(|_| r.below(supported.len() + 2) as u8).collect();
        let maps = std::array::from_fn(|_| {
            let len = r.pick(&[0, 1, 2, 31, 32, 32, 32, 32, 33, 50]);
            (0..len).map(|_| if r.chance(20) { r.byte() } else { 0 }).collect()
        });
        let most = r.pick(&[0, 3, 30, 120]);
        Gateway { manner, supported, enabled, maps, list: pgns(r, most), queue: VecDeque::new(), breath: r.below(12) }
    }

    /// It is up: it tells its mode, and forgets what it was asked.
    pub fn start(&mut self, r: &mut Rng) {
        self.queue.clear();
        let mode = [r.pick(&[2, 2, 1, 0xFF]), r.pick(&[0, 0, 1])];
        self.queue.push_back(reply_of(0x11, 1, r.pick(&[0, 0, -7]), &mode));
    }

    /// Hears what a call wrote, and gets its answers ready.
    pub fn hear(&mut self, r: &mut Rng, bytes: &[u8]) {
        for command in commands(bytes) {
            match command[0] {
                0x49 => self.format_1(r),
                0x40 => self.supported_list(r),
                0x4f => self.format_2(r),
                0x47 => {
                    let pgn = u32::from_le_bytes(command[1..5].try_into().unwrap());
                    let error = match pgn {
                        0x40000 => -997,
                        _ if self.list.contains(&pgn) && r.chance(80) => -996,
                        _ => r.pick(&[0, 0, 0, 0, -996, -1, 1, i32::MIN]),
                    };
                    let data = [&command[1..], &[6]].concat();
                    self.queue.push_back(reply_of(0x47, 1, error, &data));
                }
                other => {
                    let error = r.pick(&[0, 0, 0, -5]);
                    self.queue.push_back(reply_of(other, 1, error, &[]));
                }
            }
        }
    }

    fn format_1(&mut self, r: &mut Rng) {
        let mut pgns = self.list.clone();
        if self.manner == Manner::Floods {
            let many = r.around(&[960, 1020, 1024, 1024, 1080]) as u32;
            pgns.extend(5000..5000 + many);
            pgns.truncate(r.around(&[1023, 1024, 1024, 1100]));
        }
        let most = r.pick(&[1, 7, 60, 60, 60]);
        for part in pgns.chunks(if pgns.len() > 200 { 60 } else { most }) {
            let count = if r.chance(95) { part.len() as u8 } else { r.byte() };
            self.queue.push_back(reply_of(0x49, 1, 0, &listed(count, part)));
        }
        for sequence in [2, 3, 4] {
            let data = listed(2, &[60_000, 126_983]);
            self.queue.push_back(reply_of(0x49, sequence, 0, &data));
        }
    }

    fn supported_list(&mut self, r: &mut Rng) {
        let most = 1 + r.below(50);
        let parts = in_parts(&self.supported, most, 0x40, supported_part);
        self.send(r, parts);
    }

    fn format_2(&mut self, r: &mut Rng) {
        let most = 1 + r.below(50);
        let mut parts = in_parts(&self.enabled, most, 0x4f, enabled_part);
        parts.push(reply_of(0x4f, 2, 0, &proprietary_part([&self.maps[0], &self.maps[1]])));
        self.send(r, parts);
    }

    /// Parts in any order, among what it has to say.
    fn send(&mut self, r: &mut Rng, mut parts: Vec<Vec<u8>>) {
        match r.below(3) {
            0 => parts.reverse(),
            1 => r.shuffle(&mut parts),
            _ => {}
        }
        self.queue.extend(parts);
        if r.chance(20) {
            r.shuffle(self.queue.make_contiguous());
        }
    }

    /// What it says now, if anything.
    pub fn speak(&mut self, r: &mut Rng) -> Option<Vec<u8>> {
        if self.manner == Manner::Stops {
            self.breath = self.breath.checked_sub(1)?;
        }
        if self.manner == Manner::Floods && r.chance(30) {
            return Some(noise(r));
        }
        let said = match self.manner {
            Manner::Repeats if r.chance(50) => self.queue.front().cloned(),
            _ => self.queue.pop_front(),
        };
        let mut said = said?;
        if self.manner == Manner::Lies && r.chance(50) {
            lie(r, &mut said);
        }
        Some(said)
    }
}

/// A field of the reply is wrong: its byte, sequence, error, a byte of the data, or its length.
fn lie(r: &mut Rng, said: &mut Vec<u8>) {
    match r.below(7) {
        0 => said[0] = r.pick(&[0x01, 0x11, 0x40, 0x47, 0x49, 0x4b, 0x4f, 0xf0, 0xf4]),
        1 => said[1] = r.pick(&[0, 1, 2, 3, 4, 6, 255]),
        2 if said.len() > 11 => {
            let error = r.pick(&[0, -996, -997, 1, i32::MIN]);
            said[8..12].copy_from_slice(&error.to_le_bytes());
        }
        3 | 4 if said.len() > 12 => {
            // mostly the fields at the data's front: variant, size, first, count
            let at = 12 + r.below((said.len() - 12).min(12));
            said[at] = r.pick(&[0, 1, 2, 3, 0x10, 0x11, 32, 255]);
        }
        5 => said.truncate(r.below(said.len() + 1)),
        _ => {
            let len = r.pick(&[said.len(), 255, 256, 300]);
            said.resize(len, 0);
            r.damage(said);
        }
    }
}

/// A message that nobody asked for.
pub fn noise(r: &mut Rng) -> Vec<u8> {
    let bem = r.pick(&[0x01, 0x11, 0x13, 0x40, 0x41, 0x47, 0x49, 0x4b, 0x4f, 0xf0, 0xf1, 0xf2, 0xf4]);
    let sequence = r.pick(&[0, 1, 1, 1, 2, 4, 6]);
    let error = r.pick(&[0, 0, 0, 0, -996, -1]);
    let size = r.pick(&[0, 1, 2, 3, 255]);
    let (first, count) = (r.pick(&[0, 1, 2, 3, 255]), r.pick(&[0, 1, 2, 5, 255]));
    let data = match r.below(7) {
        0 => {
            let len = r.below(40);
            r.bytes(len)
        }
        1 => {
            let entries: Vec<_> = (0..r.below(6)).map(|i| (i as u8, pgn(r) & 0xFF_FFFF)).collect();
            supported_part(size, first, count, &entries)
        }
        2 => {
            let len = r.below(6);
            enabled_part(size, first, count, &r.bytes(len))
        }
        3 => {
            let maps = [r.around(&[0, 31, 32, 60]), r.around(&[0, 31, 32, 60])].map(|n| r.bytes(n));
            let mut data = proprietary_part([&maps[0], &maps[1]]);
            if r.chance(30) {
                data.truncate(r.below(data.len() + 1));
            }
            data
        }
        4 => Vec::new(),
        _ => {
            let list = pgns(r, 60);
            listed(r.byte(), &list)
        }
    };
    let mut payload = reply_of(bem, sequence, error, &data);
    if r.chance(10) {
        payload.truncate(r.below(payload.len() + 1));
    }
    payload
}
