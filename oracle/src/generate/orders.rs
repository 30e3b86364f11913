//! Format 2 reads: the parts of small lists of every size, in every order, and every way of cutting them.
use super::Each;
use super::gateway::{enabled_part, in_parts, proprietary_part, supported_part};
use super::records::reply_of;
use super::session::{at, begin_body};
use crate::script::*;

/// Calls each with every order of the parts.
fn every_order(parts: &mut Vec<Vec<u8>>, from: usize, each: &mut dyn FnMut(&[Vec<u8>])) {
    if from == parts.len() {
        return each(parts);
    }
    for i in from..parts.len() {
        parts.swap(from, i);
        every_order(parts, from + 1, each);
        parts.swap(from, i);
    }
}

/// Lists of up to `largest` places, cut into parts of up to that many, in every order, each part told and then, at the end, told again.
pub fn orders(largest: usize, each: Each) {
    odd_parts(each);
    // an index is not its place, and the last stands twice: the first match counts
    let supported: Vec<(u8, u32)> = [(0, 130_300), (4, 130_301), (4, 130_302)].to_vec();
    let enabled = [4, 0, 9];
    for s in 0..=largest {
        for e in 0..=largest {
            for most in 1..=largest {
                let mut parts = in_parts(&supported[..s], most, 0x40, supported_part);
                parts.extend(in_parts(&enabled[..e], most, 0x4f, enabled_part));
                parts.push(reply_of(0x4f, 2, 0, &proprietary_part([&[1, 0x80], &[2]])));
                every_order(&mut parts, 0, &mut |order| each(&read(order)));
            }
        }
    }
}

/// Parts that do not fit together: a size that changes, places at and past the end, a count that is not so, a cut entry, overlaps,
/// other variants, too little data.
fn odd_parts(each: Each) {
    let entry = |index: u8| (index, 130_300 + u32::from(index));
    let supported = |size, first, count, n: u8| {
        let entries: Vec<_> = (0..n).map(|i| entry(first + i)).collect();
        reply_of(0x40, 1, 0, &supported_part(size, first, count, &entries))
    };
    let enabled = |size, first, count, indexes: &[u8]| reply_of(0x4f, 1, 0, &enabled_part(size, first, count, indexes));
    let maps = reply_of(0x4f, 2, 0, &proprietary_part([&[1, 0x80], &[2]]));
    let cut = |part: Vec<u8>, less: usize| part[..part.len() - less].to_vec();
    let with = |mut part: Vec<u8>, at: usize, b: u8| {
        part[at] = b;
        part
    };
    let whole = supported(3, 0, 3, 3);
    for odd in [
        supported(4, 0, 3, 3),
        supported(2, 0, 3, 3),
        supported(3, 3, 1, 1),
        supported(3, 9, 1, 1),
        supported(3, 2, 3, 3),
        supported(3, 0, 0, 3),
        supported(3, 0, 255, 1),
        supported(3, 1, 2, 1),
        supported(255, 254, 2, 1),
        supported(0, 0, 1, 1),
        with(whole.clone(), 20, 254),
        cut(supported(3, 0, 3, 3), 1),
        cut(supported(3, 0, 0, 0), 1),
        with(whole.clone(), 13, 1),
        with(whole.clone(), 14, 0x12),
        with(whole.clone(), 15, 1),
        with(whole.clone(), 16, 1),
        with(whole.clone(), 0, 0x4f),
        enabled(2, 0, 3, &[0, 1, 2]),
        enabled(4, 0, 3, &[0, 1, 2]),
        enabled(3, 1, 9, &[1]),
        cut(enabled(3, 0, 3, &[2, 2, 9]), 3),
        cut(enabled(3, 0, 0, &[]), 1),
        cut(maps.clone(), 1),
        cut(maps.clone(), 2),
        reply_of(0x4f, 2, 0, &proprietary_part([&[0xFF; 40], &[0x81; 33]])),
        reply_of(0x4f, 2, 0, &[proprietary_part([&[8], &[]]), vec![1, 2, 3]].concat()),
    ] {
        let parts = [whole.clone(), enabled(3, 0, 3, &[2, 0, 9]), maps.clone()];
        for at in 0..=2 {
            let mut told = parts.to_vec();
            told.insert(at, odd.clone());
            each(&read(&told));
        }
    }
}

/// A session that reads in Format 2 and is told these parts.
fn read(parts: &[Vec<u8>]) -> Vec<u8> {
    let mut case = Vec::new();
    let lists = [vec![126_983, 130_300], vec![], vec![], vec![]];
    call(&mut case, BEGIN, &begin_body(&lists));
    call(&mut case, FIRMWARE, &2690u16.to_le_bytes());
    call(&mut case, MESSAGE, &at(0, 32, &reply_of(0x11, 1, 0, &[2, 0])));
    call(&mut case, TICK, &at(2_000, 32, &[]));
    for (i, part) in parts.iter().enumerate() {
        call(&mut case, MESSAGE, &at(2_001 + i as u64, 32, part));
        call(&mut case, PARTS, &[]);
    }
    call(&mut case, MESSAGE, &at(2_100, 32, &parts[0]));
    call(&mut case, DUMP, &[]);
    call(&mut case, PARTS, &[]);
    case
}
