//! The Rust side by itself: how much each generator asks, and what it is answered.
use crate::blocks::Blocks;
use crate::generate::{Part, batches, fill};
use crate::script::*;
use crate::text;
use std::collections::BTreeMap;
use std::time::Instant;

/// Runs a part and prints how often each op was answered with each number, and how often each phase was reached.
pub fn alone(part: &Part, seed: u64, size: usize) {
    let start = Instant::now();
    let mut numbers: BTreeMap<(u8, u8), usize> = BTreeMap::new();
    let mut phases = [0usize; 8];
    let (mut cases, mut count) = (0, 0);
    for (seed, size) in batches(part, seed, size) {
        let mut blocks = Blocks::default();
        fill(part, seed, size, &mut blocks);
        cases += blocks.cases;
        count += blocks.calls;
        for (op, number, body) in answers(&blocks.transcript) {
            *numbers.entry((op, number)).or_default() += 1;
            if number == 0 && (op == MESSAGE || op == TICK) {
                phases[usize::from(body[body.len() - 16])] += 1;
            }
        }
    }
    let seconds = start.elapsed().as_secs_f64();
    println!("{}: {cases} cases, {count} calls, {seconds:.1} s", part.name);
    for ((op, number), n) in numbers {
        println!("  {op:02x} {:12} no={number:3} {n}", text::name(op));
    }
    if phases.iter().sum::<usize>() > 0 {
        println!("  phase after a message or tick: {phases:?}");
    }
}
