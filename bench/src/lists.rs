//! Row f2-read.
use crate::ngt1::{MAX_LISTED, Parts};
use crate::race::{Side, row, timed};
use crate::same;
use oracle::engine::codec::ngt1_tx_list::access::F2;
use oracle::generate::Rng;
use std::hint::black_box;

/// Entries of a full reply.
const PART: usize = 58;

/// The data of replies: 40 where `supported` is set, else 4F.
struct Reply {
    supported: bool,
    data: Vec<u8>,
}

/// The parts of a list, each with transfer id, structure variant, size, first index and count.
fn parts(head: &[u8], entries: &[[u8; 4]]) -> Vec<Vec<u8>> {
    let part = |(i, some): (usize, &[[u8; 4]])| {
        let place = [entries.len() as u8, (i * PART) as u8, some.len() as u8];
        [head, &place, some.as_flattened()].concat()
    };
    entries.chunks(PART).enumerate().map(part).collect()
}

/// 255 supported PGNs, 220 of them enabled in any order, and 200 proprietary ones.
fn replies(r: &mut Rng) -> Vec<Reply> {
    let mut index: Vec<u8> = (0..255).collect();
    r.shuffle(&mut index);
    let pgn = |i: usize| (126_000 + 7 * i as u32).to_le_bytes();
    let listed: Vec<[u8; 4]> = index.iter().enumerate().map(|(i, k)| [*k, pgn(i)[0], pgn(i)[1], pgn(i)[2]]).collect();
    r.shuffle(&mut index);
    let enabled: Vec<[u8; 4]> = index[..220].iter().map(|k| [*k, 6, 0xE8, 3]).collect();
    let mut maps = [[0u8; 32]; 2];
    for k in 0..200 {
        let bit = k * 512 / 200;
        maps[bit / 256][bit % 256 / 8] |= 1 << (bit % 8);
    }
    let maps = [&[0, 3, 0x11, 0, 0, 32][..], &maps[0], &[32], &maps[1]].concat();
    let supported = parts(&[0, 0, 0x11, 0, 0, 9, 1], &listed).into_iter().map(|data| Reply { supported: true, data });
    let enabled = parts(&[0, 2, 0x11, 0, 0], &enabled).into_iter().map(|data| Reply { supported: false, data });
    supported.chain([Reply { supported: false, data: maps }]).chain(enabled).collect()
}

/// A whole read: the list is asked for after each reply, as the session does.
fn rust(replies: &[Reply]) -> Option<Vec<u32>> {
    let mut f2 = F2::default();
    let mut list = None;
    for reply in replies {
        if reply.supported {
            f2.add_supported(&reply.data)
        } else {
            f2.add_enabled(&reply.data)
        }
        list = f2.pgns();
    }
    list
}

fn port(replies: &[Reply], out: &mut [u32; MAX_LISTED]) -> Option<usize> {
    let mut parts = Parts::new();
    let mut list = None;
    for reply in replies {
        if reply.supported {
            parts.supported(&reply.data)
        } else {
            parts.enabled(&reply.data)
        }
        list = parts.pgns(out);
    }
    list
}

pub fn rows(r: &mut Rng) {
    let name = "f2-read";
    let replies = replies(r);
    let mut out = [0; MAX_LISTED];
    let wanted = rust(&replies);
    let got = port(&replies, &mut out).map(|n| out[..n].to_vec());
    same(name, &Some(420), &wanted.as_ref().map(Vec::len));
    same(name, &wanted, &got);
    let turns = 20;
    let rust: Side = Box::new(|| {
        timed(|| {
            for _ in 0..turns {
                black_box(&rust(black_box(&replies)));
            }
        })
    });
    let port: Side = Box::new(|| {
        timed(|| {
            for _ in 0..turns {
                let count = port(black_box(&replies), &mut out);
                black_box((&count, &out));
            }
        })
    });
    println!("# {name}: ns per read of {} replies, the list asked for after each as the session does.", replies.len());
    row(name, turns, &["F2List"], vec![rust], port);
}
