//! Scripts in blocks of 65,536 bytes, whose transcripts are at most as long.
use crate::run::Side;
use crate::script::{answer, calls};

pub const BLOCK: usize = 65_536;

/// A script, with canboat's transcript of it.
#[derive(Default)]
pub struct Blocks {
    pub script: Vec<u8>,
    pub transcript: Vec<u8>,
    pub cases: usize,
    pub calls: usize,
    side: Side,
    /// where the present block and its transcript start
    from: usize,
    told: usize,
}

impl Blocks {
    /// Adds a case, in a new block where it does not fit the present one.
    pub fn add(&mut self, case: &[u8]) {
        assert!(case.len() <= BLOCK, "a case longer than a block");
        if self.script.len() - self.from + case.len() > BLOCK {
            self.next_block();
        }
        let before = self.transcript.len();
        self.side.run(case, &mut self.transcript);
        if self.transcript.len() - self.told > BLOCK {
            self.transcript.truncate(before);
            self.next_block();
            self.side.run(case, &mut self.transcript);
            assert!(self.transcript.len() - self.told <= BLOCK, "a case that says more than a block");
        }
        self.script.extend_from_slice(case);
        self.cases += 1;
        self.calls += calls(case).count();
    }

    /// Fills the present block up and starts the next one.
    pub fn next_block(&mut self) {
        self.script.resize(self.from + BLOCK, 0);
        self.from = self.script.len();
        self.told = self.transcript.len();
        self.side = Side::default();
    }
}

/// canboat's transcript of a block, or nothing where it would be longer than a block.
pub fn run_block(block: &[u8]) -> Option<Vec<u8>> {
    let (mut side, mut out) = (Side::default(), Vec::new());
    for (_, op, body) in calls(block) {
        let told = side.step(op, body);
        if out.len() + 4 + told.body.len() > BLOCK {
            return None;
        }
        answer(&mut out, op, told.number, &told.body);
    }
    Some(out)
}

/// canboat's transcript of a whole script.
pub fn run(script: &[u8]) -> Vec<u8> {
    let mut out = Vec::new();
    for block in script.chunks(BLOCK) {
        Side::default().run(block, &mut out);
    }
    out
}
