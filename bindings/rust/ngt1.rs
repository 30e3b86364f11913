//! NGT-1 framing, N2K records, Format 2 lists and the start-up session. Links with `libngt1_session.a` and
//! `libngt1.a`, a program that has no session with `libngt1.a` alone; `bindings/c/ngt1.h` says what the functions do.
#![allow(dead_code)]

unsafe extern "C" {
    fn ngt1_encode(
        cmd: u8,
        payload: *const u8,
        payload_len: usize,
        out: *mut u8,
        out_len: usize,
        answer: *mut u64,
        answer_len: usize,
    ) -> u64;
    fn ngt1_feed(
        phase: u8,
        count: usize,
        buf: *mut u8,
        buf_len: usize,
        bytes: *const u8,
        bytes_len: usize,
        answer: *mut u64,
        answer_len: usize,
    ) -> u64;
    fn ngt1_push(
        phase: u8,
        count: usize,
        buf: *mut u8,
        buf_len: usize,
        b: u8,
        answer: *mut u64,
        answer_len: usize,
    ) -> u64;
    fn ngt1_record(
        command: u8,
        payload: *const u8,
        payload_len: usize,
        answer: *mut u64,
        answer_len: usize,
    ) -> u64;
    fn ngt1_parts_new() -> F2List;
    fn ngt1_parts_supported(parts: F2List, data: *const u8, data_len: usize) -> F2List;
    fn ngt1_parts_enabled(parts: F2List, data: *const u8, data_len: usize) -> F2List;
    fn ngt1_parts_pgns(parts: F2List, out: *mut u32, out_len: usize) -> Listed;
    fn ngt1_session_begin(n: *mut [u64; 17], wanted: *mut [u32; 64], want: *const u32, want_len: usize) -> u64;
    fn ngt1_session_restart(n: *mut [u64; 17]) -> u64;
    fn ngt1_session_firmware(n: *mut [u64; 17], version: u16) -> u64;
    fn ngt1_session_abandon(n: *mut [u64; 17]) -> u64;
    fn ngt1_session_tick(n: *mut [u64; 17], time: u64, out: *mut u8, out_len: usize) -> Answer;
    fn ngt1_session_ignores(
        n: *const [u64; 17],
        time: u64,
        payload: *const u8,
        payload_len: usize,
        room: usize,
    ) -> bool;
    fn ngt1_session_add(
        n: *mut [u64; 17],
        list: *mut [u32; 1024],
        time: u64,
        payload: *const u8,
        payload_len: usize,
        room: usize,
    ) -> bool;
    fn ngt1_session_message(
        n: *mut [u64; 17],
        wanted: *mut [u32; 64],
        owed: *mut [u32; 64],
        fresh: *mut [u32; 64],
        list: *mut [u32; 1024],
        known: *mut [u32; 1344],
        saved: *mut [u32; 256],
        present: *mut [u32; 256],
        refused: *mut [u32; 256],
        time: u64,
        payload: *const u8,
        payload_len: usize,
        out: *mut u8,
        out_len: usize,
    ) -> Answer;
    fn ngt1_session_part(
        n: *mut [u64; 17],
        parts: F2List,
        wanted: *mut [u32; 64],
        owed: *mut [u32; 64],
        known: *mut [u32; 1344],
        present: *mut [u32; 256],
        refused: *mut [u32; 256],
        time: u64,
        payload: *const u8,
        payload_len: usize,
        out: *mut u8,
        out_len: usize,
    ) -> PartAnswer;
    fn ngt1_session_lacks(n: *const [u64; 17], known: *const [u32; 1344], pgn: u32) -> u64;
}

/// No message has a longer payload.
pub const MAX_PAYLOAD: usize = 255;
/// No frame is longer.
pub const MAX_FRAME: usize = 520;
const BUFFER: usize = 1024;

/// Bytes written, and how many of them double a DLE.
#[derive(Clone, Copy, Debug, PartialEq, Eq)]
pub struct Written {
    pub count: usize,
    pub doubled: usize,
}

/// Wraps a message in a frame at the start of `out`; the bytes after it are kept.
/// Refusals: 6, the payload is over 255 bytes; 7, `out` is under the frame's length.
pub fn encode(cmd: u8, payload: &[u8], out: &mut [u8]) -> Result<Written, u8> {
    let mut a = [0u64; 3];
    unsafe {
        ngt1_encode(cmd, payload.as_ptr(), payload.len(), out.as_mut_ptr(), out.len(), a.as_mut_ptr(), a.len());
    }
    match a[0] {
        0 => Ok(Written { count: a[1] as usize, doubled: a[2] as usize }),
        number => Err(number as u8),
    }
}

/// What the bytes gave.
#[derive(Clone, Copy, Debug, PartialEq, Eq)]
pub enum Event {
    Nothing,
    /// A message with so many bytes of payload: see `Decoder::payload`.
    Message { command: u8, len: usize },
    /// 1: fewer than 3 bytes in the frame.
    ShortMessage,
    /// 2: its bytes do not add up to 0 modulo 256.
    BadChecksum,
    /// 3: its payload has another length than it declares.
    LengthMismatch { declared: u8, actual: usize },
    /// 4: this byte after a DLE in the frame.
    BadEscape(u8),
    /// 5: more than 1,024 bytes in the frame.
    TooLong,
    /// 16 or 7; a `Decoder` of this module never gives one.
    Refused(u8),
}

fn event(kind: u64, first: u64, second: u64) -> Event {
    match kind {
        0 => Event::Nothing,
        1 => Event::ShortMessage,
        2 => Event::BadChecksum,
        3 => Event::LengthMismatch { declared: first as u8, actual: second as usize },
        4 => Event::BadEscape(first as u8),
        5 => Event::TooLong,
        100 => Event::Message { command: first as u8, len: second as usize },
        number => Event::Refused(number as u8),
    }
}

/// A decoder with its buffer.
pub struct Decoder {
    phase: u8,
    count: usize,
    buf: [u8; BUFFER],
}

impl Default for Decoder {
    fn default() -> Self {
        Decoder::new()
    }
}

impl Decoder {
    pub fn new() -> Decoder {
        Decoder { phase: 0, count: 0, buf: [0; BUFFER] }
    }

    /// Feeds bytes up to and with the one that gives the first event: how many were used, and the event.
    pub fn feed(&mut self, bytes: &[u8]) -> (usize, Event) {
        let mut a = [0u64; 6];
        unsafe {
            ngt1_feed(
                self.phase,
                self.count,
                self.buf.as_mut_ptr(),
                self.buf.len(),
                bytes.as_ptr(),
                bytes.len(),
                a.as_mut_ptr(),
                a.len(),
            );
        }
        self.phase = a[0] as u8;
        self.count = a[1] as usize;
        (a[2] as usize, event(a[3], a[4], a[5]))
    }

    /// Feeds one byte.
    pub fn push(&mut self, b: u8) -> Event {
        let mut a = [0u64; 5];
        unsafe {
            ngt1_push(self.phase, self.count, self.buf.as_mut_ptr(), self.buf.len(), b, a.as_mut_ptr(), a.len());
        }
        self.phase = a[0] as u8;
        self.count = a[1] as usize;
        event(a[2], a[3], a[4])
    }

    /// The payload of the message that was just given; empty at any other event.
    pub fn payload(&self, event: Event) -> &[u8] {
        match event {
            Event::Message { len, .. } => self.buf[2..].get(..len).unwrap_or(&[]),
            _ => &[],
        }
    }
}

/// An N2K frame off the bus; the timestamp is the gateway's, in milliseconds. The data are a part of the payload that was read.
#[derive(Clone, Copy, Debug, PartialEq, Eq)]
pub struct Record<'a> {
    pub timestamp: u32,
    pub prio: u8,
    pub pgn: u32,
    pub src: u8,
    pub dst: u8,
    pub data: &'a [u8],
}

/// Reads the payload of a message 93.
/// Refusals: 9, the command is not 93; 8, the payload is under 11 bytes; 10, the data pass its end.
pub fn record(command: u8, payload: &[u8]) -> Result<Record<'_>, u8> {
    let mut a = [0u64; 8];
    unsafe {
        ngt1_record(command, payload.as_ptr(), payload.len(), a.as_mut_ptr(), a.len());
    }
    match a[0] {
        0 => Ok(Record {
            timestamp: a[1] as u32,
            prio: a[2] as u8,
            pgn: a[3] as u32,
            src: a[4] as u8,
            dst: a[5] as u8,
            data: payload[a[6] as usize..].get(..a[7] as usize).unwrap_or(&[]),
        }),
        number => Err(number as u8),
    }
}

#[derive(Clone, Copy, PartialEq, Eq)]
#[repr(C)]
struct SupportedEntry {
    filled: bool,
    index: u8,
    pgn: u32,
}

#[derive(Clone, Copy, PartialEq, Eq)]
#[repr(C)]
struct EnabledEntry {
    filled: bool,
    index: u8,
}

#[derive(Clone, Copy, PartialEq, Eq)]
#[repr(C)]
struct SizedParts<T> {
    sized: bool,
    size: u8,
    entries: [T; 255],
}

#[derive(Clone, Copy, PartialEq, Eq)]
#[repr(C)]
struct Proprietary {
    told: bool,
    list: List512,
}

#[derive(Clone, Copy, PartialEq, Eq)]
#[repr(C)]
struct List512 {
    pgns: [u32; 512],
    n: usize,
}

#[derive(Clone, Copy, PartialEq, Eq)]
#[repr(C)]
struct F2List {
    supported: SizedParts<SupportedEntry>,
    enabled: SizedParts<EnabledEntry>,
    proprietary: Proprietary,
}

#[repr(C)]
struct Listed {
    number: u64,
    count: u64,
}

/// No Format 2 list is longer.
pub const MAX_LISTED: usize = 767;

/// The parts of a Format 2 read. A value of 4,624 bytes.
#[derive(Clone, Copy)]
pub struct Parts(F2List);

impl Default for Parts {
    fn default() -> Self {
        Parts::new()
    }
}

impl Parts {
    pub fn new() -> Parts {
        Parts(unsafe { ngt1_parts_new() })
    }

    /// Takes in the data of a reply 40, which stand after its 12 bytes of header.
    pub fn supported(&mut self, data: &[u8]) {
        self.0 = unsafe { ngt1_parts_supported(self.0, data.as_ptr(), data.len()) };
    }

    /// Takes in the data of a reply 4F.
    pub fn enabled(&mut self, data: &[u8]) {
        self.0 = unsafe { ngt1_parts_enabled(self.0, data.as_ptr(), data.len()) };
    }

    /// How many PGNs the list has, which then stand at the start of `out`; `None` where not all three parts are in hand.
    pub fn pgns(&self, out: &mut [u32; MAX_LISTED]) -> Option<usize> {
        let listed = unsafe { ngt1_parts_pgns(self.0, out.as_mut_ptr(), out.len()) };
        (listed.number == 0).then_some(listed.count as usize)
    }
}

#[repr(C)]
struct Answer {
    number: u64,
    count: u64,
}

#[repr(C)]
struct PartAnswer {
    number: u64,
    count: u64,
    parts: F2List,
}

/// What a session's call answers: how many bytes there are to send, at the start of its output; or the refusal's number.
pub type Sent = Result<usize, u8>;

fn sent(number: u64, count: u64) -> Sent {
    match number {
        0 => Ok(count as usize),
        number => Err(number as u8),
    }
}

fn done(number: u64) -> Result<(), u8> {
    match number {
        0 => Ok(()),
        number => Err(number as u8),
    }
}

/// What the gateway's list says of a PGN that it lacks.
#[derive(Clone, Copy, Debug, PartialEq, Eq)]
pub enum Lacks {
    /// It is on the list, or no list is known.
    Nothing,
    /// It is not on the list, which was read whole (Format 2).
    Whole,
    /// It is not on the list, which may have missed it (Format 1).
    Partial,
}

/// A session's output, at least, whatever is to be sent. No call writes more.
pub const MAX_SENT: usize = 32;

/// A start-up session: has the gateway transmit the PGNs that are wanted. Times are milliseconds of a clock that is not set back.
/// Give it the gateway's messages and ticks, and send what they write, until it is done.
/// A call changes the session where it stands. Refusals change nothing: 16 a state that is not well formed, 13 a time over
/// 18446744073709541615, 6 a message over 255 bytes, 7 an output under 32, 14 a Format 1 list that would pass 1,024.
#[derive(Clone, PartialEq, Eq)]
pub struct Session {
    // What they are is told in bindings/c/ngt1.h. They are open to the crate for bindings/rust/numbers.rs: a program writes none of them.
    pub(crate) numbers: [u64; 17],
    pub(crate) wanted: [u32; 64],
    pub(crate) owed: [u32; 64],
    pub(crate) fresh: [u32; 64],
    pub(crate) list: [u32; 1024],
    pub(crate) known: [u32; 1344],
    pub(crate) saved: [u32; 256],
    pub(crate) present: [u32; 256],
    pub(crate) refused: [u32; 256],
    parts: F2List,
}

// Places of the numbers.
const PHASE: usize = 0;
const LIST: usize = 5;
const KNOWN: usize = 7;
const SAVED: usize = 8;
const PRESENT: usize = 9;
const REFUSED: usize = 10;

/// Phases.
const READING_F1: u64 = 2;
const READING_F2: u64 = 3;
const DONE: u64 = 7;

impl Session {
    /// A session that wants these PGNs and has learnt nothing. Refusal: 11, over 64 are wanted.
    pub fn begin(want: &[u32]) -> Result<Session, u8> {
        let mut session = Session {
            numbers: [0; 17],
            wanted: [0; 64],
            owed: [0; 64],
            fresh: [0; 64],
            list: [0; 1024],
            known: [0; 1344],
            saved: [0; 256],
            present: [0; 256],
            refused: [0; 256],
            parts: unsafe { ngt1_parts_new() },
        };
        session.begin_again(want).map(|()| session)
    }

    /// A new session in the same memory, which keeps what the last one learnt. Refusals: 11, over 64 are wanted; 12, a list of the
    /// record is over 192. The old session stands then.
    pub fn begin_again(&mut self, want: &[u32]) -> Result<(), u8> {
        done(unsafe { ngt1_session_begin(&mut self.numbers, &mut self.wanted, want.as_ptr(), want.len()) })
    }

    /// A new session in the same memory, which has learnt nothing. Refusal: 11; the session then wants nothing.
    pub fn begin_afresh(&mut self, want: &[u32]) -> Result<(), u8> {
        self.numbers = [0; 17];
        self.begin_again(want)
    }

    /// The session from its start, as after a restart of the gateway: what is wanted and learnt is kept; no list is known, and the
    /// firmware is not told. Refusals: 16, 12.
    pub fn restart(&mut self) -> Result<(), u8> {
        done(unsafe { ngt1_session_restart(&mut self.numbers) })
    }

    /// The gateway's firmware version times 1000, from its product information. Where 2500 or more is told before the read starts,
    /// Format 2 is read first; else Format 1. Refusal: 16.
    pub fn set_firmware(&mut self, version: u16) -> Result<(), u8> {
        done(unsafe { ngt1_session_firmware(&mut self.numbers, version) })
    }

    /// The gateway has no list to set: the session is done, and no list is known. Refusal: 16.
    pub fn abandon(&mut self) -> Result<(), u8> {
        done(unsafe { ngt1_session_abandon(&mut self.numbers) })
    }

    /// The passing of time. Refusals: 16, 13, 7.
    #[inline]
    pub fn tick(&mut self, time: u64, out: &mut [u8]) -> Sent {
        let a = unsafe { ngt1_session_tick(&mut self.numbers, time, out.as_mut_ptr(), out.len()) };
        sent(a.number, a.count)
    }

    /// The payload of a message A0 of the gateway. Refusals: 16, 13, 6, 7, 14.
    #[inline]
    pub fn message(&mut self, time: u64, payload: &[u8], out: &mut [u8]) -> Sent {
        let ready = self.numbers[PHASE] == READING_F1 && self.add(time, payload, out.len())
            || unsafe { ngt1_session_ignores(&self.numbers, time, payload.as_ptr(), payload.len(), out.len()) };
        if ready { Ok(0) } else { self.hear(time, payload, out) }
    }

    /// True: it was PGNs more of a Format 1 list, and all is done; false: nothing was done. `room` is the length of the output.
    #[inline]
    pub(crate) fn add(&mut self, time: u64, payload: &[u8], room: usize) -> bool {
        unsafe { ngt1_session_add(&mut self.numbers, &mut self.list, time, payload.as_ptr(), payload.len(), room) }
    }

    /// A message that may change something. Apart from the above, since its frame holds parts of a Format 2 read.
    #[inline(never)]
    pub(crate) fn hear(&mut self, time: u64, payload: &[u8], out: &mut [u8]) -> Sent {
        let (bytes, len) = (payload.as_ptr(), payload.len());
        if self.numbers[PHASE] == READING_F2 {
            let a = unsafe {
                ngt1_session_part(
                    &mut self.numbers,
                    self.parts,
                    &mut self.wanted,
                    &mut self.owed,
                    &mut self.known,
                    &mut self.present,
                    &mut self.refused,
                    time,
                    bytes,
                    len,
                    out.as_mut_ptr(),
                    out.len(),
                )
            };
            self.parts = a.parts;
            return sent(a.number, a.count);
        }
        let a = unsafe {
            ngt1_session_message(
                &mut self.numbers,
                &mut self.wanted,
                &mut self.owed,
                &mut self.fresh,
                &mut self.list,
                &mut self.known,
                &mut self.saved,
                &mut self.present,
                &mut self.refused,
                time,
                bytes,
                len,
                out.as_mut_ptr(),
                out.len(),
            )
        };
        sent(a.number, a.count)
    }

    /// Whether the session has ended.
    pub fn is_done(&self) -> bool {
        self.numbers[PHASE] == DONE
    }

    /// Whether the gateway's list, once read, lacks the PGN, so that it would drop a frame of it. Refusal: 16.
    #[inline]
    pub fn lacks(&self, pgn: u32) -> Result<Lacks, u8> {
        match unsafe { ngt1_session_lacks(&self.numbers, &self.known, pgn) } {
            0 => Ok(Lacks::Nothing),
            1 => Ok(Lacks::Whole),
            2 => Ok(Lacks::Partial),
            number => Err(number as u8),
        }
    }

    fn held<'a>(&self, list: &'a [u32], place: usize) -> &'a [u32] {
        list.get(..self.numbers[place] as usize).unwrap_or(list)
    }

    /// The Format 1 list as far as it was read.
    pub fn list(&self) -> &[u32] {
        self.held(&self.list, LIST)
    }

    /// Forgets the Format 1 list as far as it was read.
    pub fn empty_list(&mut self) {
        self.numbers[LIST] = 0;
    }

    /// The gateway's list, with what is present or was enabled since; empty where none is known.
    pub fn known(&self) -> &[u32] {
        self.held(&self.known, KNOWN)
    }

    /// What the gateway confirmed: saved, already there, refused.
    pub fn record(&self) -> [&[u32]; 3] {
        [self.held(&self.saved, SAVED), self.held(&self.present, PRESENT), self.held(&self.refused, REFUSED)]
    }
}
