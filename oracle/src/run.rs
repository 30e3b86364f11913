//! Runs calls on canboat's Rust and writes what it answers. What the port adds to the Rust, its refusals and its lent memory, is
//! tested and mirrored here; the Rust is then called only where document 01 lets the call through.
mod encoders;
mod framing;
mod refusals;
mod replies;
mod session;

pub use framing::listing;
pub use refusals::LAST_TICK;
pub use session::Session;

use crate::script::*;

/// An answer: the number, and the body.
pub struct Answer {
    pub number: u8,
    pub body: Vec<u8>,
}

impl Answer {
    fn refused(number: u8) -> Answer {
        Answer { number, body: Vec::new() }
    }
}

impl From<Result<Vec<u8>, u8>> for Answer {
    fn from(r: Result<Vec<u8>, u8>) -> Answer {
        match r {
            Ok(body) => Answer { number: 0, body },
            Err(number) => Answer::refused(number),
        }
    }
}

/// The lent area after a call that wrote `bytes` at its front.
fn area(room: usize, bytes: &[u8]) -> Vec<u8> {
    let mut area = bytes.to_vec();
    area.resize(room, FILL);
    area
}

/// Everything that the calls of a block can change.
#[derive(Default)]
pub struct Side {
    framing: framing::Framing,
    product: replies::Product,
    pub session: Option<Session>,
}

impl Side {
    pub fn step(&mut self, op: u8, body: &[u8]) -> Answer {
        match op {
            DEC_RESET | DEC_PUSH | DEC_BYTES | DEC_SET | DEC_RAW | DEC_LOOK => self.framing.step(op, body).into(),
            ENCODE | N2K_SEND | N2K_RECV | PCODE | COMMAND => encoders::step(op, body).into(),
            LENT => encoders::lent(body),
            N2K_READ | REPLY | MODE | STARTUP | RESPONSE => replies::step(op, body).into(),
            PROD_RESET | PROD_ADD | PROD_TAKE | PROD_RAW | PROD_LOOK | FIRMWARE_OF | FIRMWARE_IN => {
                self.product.step(op, body).into()
            }
            BEGIN => self.put(Session::begin(body)),
            SET => self.put(Session::set(body)),
            SET_RAW => {
                self.session = Some(Session::set_raw(body));
                Ok(Vec::new()).into()
            }
            RESTART | MESSAGE | TICK | FIRMWARE | LACKS | ABANDON | DUMP | PARTS | IS_DONE | LOOK => {
                match &mut self.session {
                    Some(session) => session.step(op, body).into(),
                    None => Answer::refused(NO_SESSION),
                }
            }
            LENT_S => match &mut self.session {
                Some(session) => session.lent(body),
                None => Answer::refused(NO_SESSION),
            },
            _ => Answer::refused(UNKNOWN),
        }
    }

    /// A new session, or none.
    fn put(&mut self, made: Result<Session, u8>) -> Answer {
        let (session, answer) = match made {
            Ok(session) => {
                let summary = session.summary();
                (Some(session), Ok(summary))
            }
            Err(number) => (None, Err(number)),
        };
        self.session = session;
        answer.into()
    }

    /// The calls of a block; their answers go to the end of `out`.
    pub fn run(&mut self, block: &[u8], out: &mut Vec<u8>) {
        for (_, op, body) in calls(block) {
            let a = self.step(op, body);
            answer(out, op, a.number, &a.body);
        }
    }
}
