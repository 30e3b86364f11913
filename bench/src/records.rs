//! Row record-read.
use crate::framing::record;
use crate::ngt1;
use crate::race::{Side, row, timed};
use crate::same;
use oracle::engine::format::ngt1::{N2K_MSG_RECEIVED, NgtMessage};
use oracle::generate::Rng;
use std::hint::black_box;

pub fn rows(r: &mut Rng) {
    let name = "record-read";
    let messages: Vec<NgtMessage> =
        (0..256).map(|_| NgtMessage { command: N2K_MSG_RECEIVED, payload: record(r) }).collect();
    for m in &messages {
        let f = m.to_raw_frame().unwrap();
        let time = f.timestamp.unwrap().parse().unwrap();
        let wanted = ngt1::Record { timestamp: time, prio: f.prio, pgn: f.pgn, src: f.src, dst: f.dst, data: &f.data };
        same(name, &Ok(wanted), &ngt1::record(m.command, &m.payload));
    }
    let turns = 10;
    let rust: Side = Box::new(|| {
        timed(|| {
            for _ in 0..turns {
                for m in &messages {
                    black_box(&black_box(m).to_raw_frame());
                }
            }
        })
    });
    let port: Side = Box::new(|| {
        timed(|| {
            for _ in 0..turns {
                for m in &messages {
                    let m = black_box(m);
                    black_box(&ngt1::record(m.command, &m.payload));
                }
            }
        })
    });
    println!(
        "# {name}: the Rust writes the timestamp out as a text and copies the data; the port gives numbers and lends the data."
    );
    row(name, messages.len() * turns, &["to_raw_frame"], vec![rust], port);
}
