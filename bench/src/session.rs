//! Rows f1-message, session-* and lacks.
use crate::ngt1::{Lacks, Session};
use crate::race::{Side, row, timed};
use crate::same;
use oracle::engine::codec::ngt1_tx_list::{TxListSync, access};
use std::hint::black_box;

/// A reply of the gateway, with no error.
fn reply(bem: u8, sequence: u8, data: &[u8]) -> Vec<u8> {
    let head = [bem, sequence, 14, 0, 1, 2, 3, 4, 0, 0, 0, 0];
    [&head, data].concat()
}

/// The first message of a Format 1 list.
fn listed(pgns: &[u32]) -> Vec<u8> {
    let mut data = vec![pgns.len() as u8];
    data.extend(pgns.iter().flat_map(|p| p.to_le_bytes()));
    reply(0x49, 1, &data)
}

/// A start-up: what the host wants, and the gateway's messages, first the one that confirms the start.
struct StartUp {
    wanted: Vec<u32>,
    mode: Vec<u8>,
    /// the list in Format 1, then an answer for each PGN wanted, the commit and the activation
    messages: Vec<Vec<u8>>,
}

/// The gateway's list, and how many of the messages tell it.
fn list() -> Vec<u32> {
    (0..1_020).map(|i| 60_000 + 7 * i).collect()
}

const TELLS: usize = 18;

fn start_up() -> StartUp {
    let mut messages: Vec<Vec<u8>> = list().chunks(60).map(listed).collect();
    messages.push(reply(0x49, 4, &[]));
    messages.extend(vec![reply(0x47, 1, &[0; 14]); 64]);
    messages.extend([reply(0x01, 1, &[]), reply(0x4b, 1, &[])]);
    StartUp { wanted: (0..64).map(|i| 126_983 + i).collect(), mode: reply(0x11, 1, &[2, 0]), messages }
}

impl StartUp {
    fn rust(&self, mut sent: impl FnMut(Vec<Vec<u8>>)) -> TxListSync {
        let mut s = TxListSync::new(self.wanted.clone(), access::record(vec![], vec![], vec![]));
        sent(s.on_message(&self.mode, 1));
        sent(s.on_tick(2_001));
        for m in &self.messages {
            sent(s.on_message(m, 2_002));
        }
        s
    }

    fn port(&self, s: &mut Session, out: &mut [u8], mut sent: impl FnMut(&[u8])) {
        let mut told = |count: Result<usize, u8>, out: &[u8]| sent(&out[..count.unwrap_or(0)]);
        let _ = s.begin_afresh(&self.wanted);
        told(s.message(1, &self.mode, out), out);
        told(s.tick(2_001, out), out);
        for m in &self.messages {
            told(s.message(2_002, m, out), out);
        }
    }
}

/// A session of the port, with nothing learnt.
fn begun(want: &[u32]) -> Session {
    Session::begin(want).unwrap_or_else(|number| panic!("begin is refused with {number}"))
}

/// A session of each side that waits for the list, and one that reads it.
fn waiting(up: &StartUp) -> (TxListSync, Session) {
    let mut rust = TxListSync::new(vec![1], access::record(vec![], vec![], vec![]));
    let mut port = begun(&[1]);
    same("begin", &0, &rust.on_message(&up.mode, 0).len());
    same("begin", &Ok(0), &port.message(0, &up.mode, &mut [0; 32]));
    (rust, port)
}

fn reading(up: &StartUp) -> (TxListSync, Session) {
    let (mut rust, mut port) = waiting(up);
    let mut out = [0; 32];
    let count = port.tick(2_000, &mut out).unwrap_or(0);
    same("read", &rust.on_tick(2_000).concat()[..], &out[..count]);
    (rust, port)
}

pub fn f1(name: &str) {
    let up = start_up();
    let (mut rust, mut port) = reading(&up);
    let part = &up.messages[0][..];
    let mut out = [0; 32];
    same(name, &0, &rust.on_message(part, 2_001).len());
    same(name, &Ok(0), &port.message(2_001, part, &mut out));
    same(name, &access::view(&rust).list[..], port.list());
    same(name, &60, &port.list().len());
    let turns = 5_000;
    let rust: Side = Box::new(|| {
        timed(|| {
            for _ in 0..turns {
                access::clear_list(&mut rust);
                black_box(&rust.on_message(black_box(part), black_box(2_001)));
            }
        })
    });
    let port: Side = Box::new(|| {
        timed(|| {
            for _ in 0..turns {
                port.empty_list();
                black_box(&port.message(black_box(2_001), black_box(part), &mut out));
            }
        })
    });
    println!(
        "# {name}: the list is emptied before each call, which is one store on either side; the Rust keeps the list's memory."
    );
    row(name, turns, &["on_message"], vec![rust], port);
}

fn tick(name: &str, up: &StartUp) {
    let (mut rust, mut port) = waiting(up);
    let mut out = [0; 32];
    same(name, &0, &rust.on_tick(5).len());
    same(name, &Ok(0), &port.tick(5, &mut out));
    let turns = 20_000;
    let rust: Side = Box::new(|| {
        timed(|| {
            for _ in 0..turns {
                black_box(&rust.on_tick(black_box(5)));
            }
        })
    });
    let port: Side = Box::new(|| {
        timed(|| {
            for _ in 0..turns {
                black_box(&port.tick(black_box(5), &mut out));
            }
        })
    });
    row(name, turns, &["on_tick"], vec![rust], port);
}

fn message(name: &str, up: &StartUp) {
    let (mut rust, mut port) = waiting(up);
    let other = &reply(0x41, 1, &[0; 6])[..];
    let mut out = [0; 32];
    let before = (access::view(&rust), port.known().len());
    same(name, &0, &rust.on_message(other, 5).len());
    same(name, &Ok(0), &port.message(5, other, &mut out));
    same(name, &before, &(access::view(&rust), port.known().len()));
    let turns = 20_000;
    let rust: Side = Box::new(|| {
        timed(|| {
            for _ in 0..turns {
                black_box(&rust.on_message(black_box(other), black_box(5)));
            }
        })
    });
    let port: Side = Box::new(|| {
        timed(|| {
            for _ in 0..turns {
                black_box(&port.message(black_box(5), black_box(other), &mut out));
            }
        })
    });
    row(name, turns, &["on_message"], vec![rust], port);
}

fn whole(name: &str, up: &StartUp) {
    let mut port = begun(&[]);
    let mut out = [0; 32];
    let mut wanted = Vec::new();
    let mut got = Vec::new();
    let rust = up.rust(|sent| wanted.extend(sent.concat()));
    up.port(&mut port, &mut out, |sent| got.extend_from_slice(sent));
    same(name, &wanted, &got);
    same(name, &(true, true), &(rust.is_done(), port.is_done()));
    let view = access::view(&rust);
    let known = view.known.map_or(vec![], |(_, pgns)| pgns);
    same(name, &known[..], port.known());
    same(name, &(1_020 + 64), &known.len());
    same(name, &[&view.saved[..], &view.present, &view.refused], &port.record());
    same(name, &64, &view.saved.len());
    let turns = 20;
    let rust: Side = Box::new(|| {
        timed(|| {
            for _ in 0..turns {
                black_box(&black_box(up).rust(|sent| {
                    black_box(&sent);
                }));
            }
        })
    });
    let port: Side = Box::new(|| {
        timed(|| {
            for _ in 0..turns {
                black_box(up).port(&mut port, &mut out, |sent| {
                    black_box(sent);
                });
                black_box(&port);
            }
        })
    });
    println!(
        "# {name}: ns per session: begun, 85 messages and a tick. The port's arrays are not cleared between sessions."
    );
    row(name, turns, &["new .. on_message"], vec![rust], port);
}

fn lacks(name: &str, up: &StartUp) {
    let list = list();
    let mut rust = TxListSync::new(vec![], access::record(vec![], vec![], vec![]));
    let mut port = begun(&[]);
    let mut out = [0; 32];
    rust.on_message(&up.mode, 1);
    let _ = port.message(1, &up.mode, &mut out);
    rust.on_tick(2_001);
    let _ = port.tick(2_001, &mut out);
    for m in &up.messages[..TELLS] {
        rust.on_message(m, 2_002);
        let _ = port.message(2_002, m, &mut out);
    }
    same(name, &list[..], port.known());
    let told = |says: Option<bool>| says.map_or(Lacks::Nothing, |complete| if complete { Lacks::Whole } else { Lacks::Partial });
    for pgn in [126_983, 60_000, 60_001, list[1019]] {
        same(name, &Ok(told(rust.lacks(pgn))), &port.lacks(pgn));
    }
    let turns = 2_000;
    let rust: Side = Box::new(|| {
        timed(|| {
            for _ in 0..turns {
                black_box(&black_box(&rust).lacks(black_box(126_983)));
            }
        })
    });
    let port: Side = Box::new(|| {
        timed(|| {
            for _ in 0..turns {
                black_box(&black_box(&port).lacks(black_box(126_983)));
            }
        })
    });
    row(name, turns, &["lacks"], vec![rust], port);
}

pub fn rows() {
    let up = start_up();
    tick("session-tick", &up);
    message("session-message", &up);
    whole("session-whole", &up);
    lacks("lacks", &up);
}
