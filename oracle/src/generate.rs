//! Where scripts come from. A part is a kind of case for one program: all of a fixed set, or as many as asked for from a seed.
mod encode;
mod framing;
mod gateway;
mod largest;
mod orders;
mod records;
mod rng;
mod session;
mod states;

pub use framing::streams;
pub use rng::Rng;
pub use states::{LIST, OWED, Stored, WANTED};

use crate::blocks::Blocks;
use crate::edges;
use Kind::{Fixed, Random};

/// Hands each case on.
pub type Each<'a> = &'a mut dyn FnMut(&[u8]);

pub enum Kind {
    /// All cases, for a size.
    Fixed(fn(usize, Each)),
    /// One case.
    Random(fn(&mut Rng, &mut Vec<u8>)),
}

pub struct Part {
    pub program: &'static str,
    pub name: &'static str,
    pub kind: Kind,
    /// Sizes or numbers of cases: quick, full, and in the stored sample.
    pub quick: usize,
    pub full: usize,
    pub sample: usize,
}

const fn part(program: &'static str, name: &'static str, kind: Kind, [quick, full, sample]: [usize; 3]) -> Part {
    Part { program, name, kind, quick, full, sample }
}

/// The edges come first, then the short parts.
pub const PARTS: &[Part] = &[
    part("replay_framing", "framing-edges", Fixed(edges::framing), [0, 0, 0]),
    part("replay_encode", "encode-edges", Fixed(edges::encode), [0, 0, 0]),
    part("replay_records", "records-edges", Fixed(edges::records), [0, 0, 0]),
    part("replay_session", "session-edges", Fixed(edges::session), [0, 0, 0]),
    part("replay_framing", "streams", Random(framing::case), [60_000, 1_000_000, 250]),
    part("replay_framing", "messages", Random(encode::message), [60_000, 1_000_000, 100]),
    part("replay_encode", "encoders", Random(encode::case), [30_000, 1_000_000, 200]),
    part("replay_records", "records", Random(records::record), [30_000, 1_000_000, 150]),
    part("replay_records", "replies", Random(records::reply), [30_000, 1_000_000, 150]),
    part("replay_records", "products", Random(records::product), [30_000, 1_000_000, 100]),
    part("replay_session", "refusals", Fixed(edges::refusals), [1, 1, 0]),
    part("replay_session", "largest", Fixed(largest::largest), [1, 1, 0]),
    part("replay_session", "bounds", Fixed(states::bounds), [1, 1, 0]),
    part("replay_session", "orders", Fixed(orders::orders), [2, 3, 1]),
    part("replay_session", "sessions", Random(session::case), [30_000, 500_000, 12]),
    part("replay_session", "states", Random(states::case), [60_000, 1_000_000, 14]),
    part("replay_framing", "strings", Fixed(framing::strings), [7, 8, 3]),
    part("replay_framing", "steps", Fixed(framing::steps), [1, 1, 0]),
];

/// The cases of a part: a size or a number of them.
pub fn fill(part: &Part, seed: u64, size: usize, blocks: &mut Blocks) {
    match part.kind {
        Fixed(all) => all(size, &mut |case| blocks.add(case)),
        Random(one) => {
            let (mut rng, mut case) = (Rng(seed), Vec::new());
            for _ in 0..size {
                case.clear();
                one(&mut rng, &mut case);
                blocks.add(&case);
            }
        }
    }
}

/// How many cases go to a program at once.
const BATCH: usize = 5_000;

/// The size of quick's first batch.
pub fn first_size(part: &Part) -> usize {
    match part.kind {
        Fixed(_) => part.quick,
        Random(_) => part.quick.min(BATCH),
    }
}

/// The part's cases in batches: the seed and size of each. No two seeds share a batch.
pub fn batches(part: &Part, seed: u64, size: usize) -> Vec<(u64, usize)> {
    match part.kind {
        Fixed(_) => vec![(seed, size)],
        Random(_) => (0..size.div_ceil(BATCH))
            .map(|i| (seed.wrapping_mul(1_000_003).wrapping_add(i as u64), BATCH.min(size - i * BATCH)))
            .collect(),
    }
}
