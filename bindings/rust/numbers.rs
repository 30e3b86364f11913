//! Tries what bindings/c/ngt1.h says of numbers, through the Rust binding: the 17 of a session, each at every step of a run, with the
//! record; the two values of a decoder's errors; every refusal of a session, after which nothing has changed; and `Session::add`. What is
//! expected follows from the header and document 01, and is not taken from a run. Exit status 1: not as expected.
mod check;
mod ngt1;
use check::{ended, expect, fail, reply};
use ngt1::{Decoder, Event, Lacks, MAX_SENT, Sent, Session};
use std::process::ExitCode;

// Places of the 17 numbers.
const PHASE: usize = 0;
const ATTEMPT: usize = 1;
const WANTED: usize = 2;
const OWED: usize = 3;
const FRESH: usize = 4;
const LIST: usize = 5;
const PROPRIETARY: usize = 6;
const KNOWN: usize = 7;
const SAVED: usize = 8;
const PRESENT: usize = 9;
const REFUSED: usize = 10;
const DUE: usize = 11;
const IS_KNOWN: usize = 12;
const IS_WHOLE: usize = 13;
const IS_TOLD: usize = 14;
const VERSION: usize = 15;
const NO_PARTS: usize = 16;

// Phases.
const AWAITS_MODE: u64 = 0;
const WAITS: u64 = 1;
const READS_F1: u64 = 2;
const READS_F2: u64 = 3;
const ENABLES: u64 = 4;
const COMMITS: u64 = 5;
const ACTIVATES: u64 = 6;
const DONE: u64 = 7;

/// A number that says nothing in the phase.
const ANY: u64 = u64::MAX;
/// One over the last time.
const LATE: u64 = 18446744073709541616;

// Data of replies. Format 1: a count, then PGNs of four bytes.
const MODE: &[u8] = &[2, 0];
const PAGE_OF_2: &[u8] = &[2, 0x11, 0xF0, 1, 0, 0x0D, 0xF1, 1, 0]; // 126993, 127245
const PAGE_OF_1: &[u8] = &[1, 0x12, 0xF1, 1, 0]; // 127250

// Format 2: 126983 has index 7 and 126993 index 9; 9 is enabled; bits 0 and 15 from 0xFF00 on, bit 1 from 0x1FF00 on.
const SUPPORTED: &[u8] = &[0, 0, 0x11, 0, 0, 0, 0, 2, 0, 2, 7, 0x07, 0xF0, 1, 9, 0x11, 0xF0, 1];
const ENABLED: &[u8] = &[0, 2, 0x11, 0, 0, 1, 0, 1, 9, 6, 0, 0];
const PROPRIETARY_MAPS: &[u8] = &[0, 3, 0x11, 0, 0, 2, 0x01, 0x80, 1, 0x02];

/// A session with its output, and a state of it in words.
struct Trial {
    s: Session,
    out: [u8; MAX_SENT],
    state: String,
}

/// What a call sends: nothing, a command of this byte, the two of Format 2, or enable of this PGN.
enum Sends {
    Nothing,
    Command(u8),
    ReadF2,
    Enable(u32),
}

impl Trial {
    fn begin(want: &[u32]) -> Trial {
        let s = Session::begin(want).unwrap_or_else(|number| panic!("begin is refused with {number}"));
        Trial { s, out: [0; MAX_SENT], state: String::new() }
    }

    /// A tick is taken, and this is to be sent.
    fn tick(&mut self, when: &str, time: u64, want: Sends) {
        let sent = self.s.tick(time, &mut self.out);
        self.sends(when, sent, want);
    }

    /// The same of a message.
    fn hear(&mut self, when: &str, time: u64, payload: &[u8], want: Sends) {
        let sent = self.s.message(time, payload, &mut self.out);
        self.sends(when, sent, want);
    }

    fn sends(&self, when: &str, sent: Sent, want: Sends) {
        let out = &self.out;
        let ok = match want {
            Sends::Nothing => sent == Ok(0),
            Sends::Command(bem) => sent == Ok(8) && out[4] == bem,
            Sends::ReadF2 => sent == Ok(16) && out[4] == 0x40 && out[12] == 0x4F,
            Sends::Enable(pgn) => sent == Ok(21) && out[4] == 0x47 && out[5..9] == pgn.to_le_bytes(),
        };
        expect(ok, &format!("{when}: {sent:?}, or another command"));
    }

    /// All 17 numbers: those that are not named are 0.
    fn numbers_are(&self, when: &str, named: &[&[(usize, u64)]]) {
        let mut want = [0; 17];
        for (place, value) in named.iter().copied().flatten() {
            want[*place] = *value;
        }
        for (place, (is, want)) in self.s.numbers.iter().zip(want).enumerate() {
            expect(want == ANY || *is == want, &format!("{when}: number {place} is {is}, not {want}"));
        }
    }

    fn lacks(&self, when: &str, pgn: u32, want: Lacks) {
        let says = self.s.lacks(pgn);
        expect(says == Ok(want), &format!("{when}: lacks says {says:?} of {pgn}, not {want:?}"));
    }
}

/// A payload with zeros after it, so long.
fn padded(payload: &[u8], len: usize) -> Vec<u8> {
    let mut longer = payload.to_vec();
    longer.resize(len, 0);
    longer
}

fn pgns_are(what: &str, pgns: &[u32], want: &[u32]) {
    expect(pgns == want, &format!("{what} is {pgns:?}, not {want:?}"));
}

/// A list in Format 1, which has 126993, and an answer of each kind: 126983 is enabled, 126984 already there, 126985 refused.
fn first_session() -> Trial {
    let mut t = Trial::begin(&[126983, 126993, 126984, 126985]);
    t.numbers_are("begin", &[&[(PHASE, AWAITS_MODE), (WANTED, 4), (NO_PARTS, 1)]]);
    pgns_are("wanted", &t.s.wanted[..4], &[126983, 126993, 126984, 126985]);
    t.lacks("no list is known", 126983, Lacks::Nothing);

    t.hear("the mode", 100, &reply(0x11, 1, 0, MODE), Sends::Nothing);
    t.numbers_are("the mode", &[&[(PHASE, WAITS), (WANTED, 4), (DUE, 2100), (NO_PARTS, 1)]]);
    t.tick("before the due time", 2099, Sends::Nothing);
    t.tick("the read", 2150, Sends::Command(0x49));
    let reads = [(PHASE, READS_F1), (ATTEMPT, 1), (WANTED, 4), (NO_PARTS, 1)];
    t.numbers_are("the read", &[&reads, &[(DUE, 12150)]]);
    t.hear("two PGNs", 2200, &reply(0x49, 1, 0, PAGE_OF_2), Sends::Nothing);
    t.numbers_are("two PGNs", &[&reads, &[(LIST, 2), (DUE, 12200)]]);
    t.hear("one more", 2300, &reply(0x49, 1, 0, PAGE_OF_1), Sends::Nothing);
    t.numbers_are("one more", &[&reads, &[(LIST, 3), (DUE, 12300)]]);
    pgns_are("list", t.s.list(), &[126993, 127245, 127250]);

    t.hear("the list's end", 2400, &reply(0x49, 4, 0, &[]), Sends::Enable(126983));
    let read = [(WANTED, 4), (LIST, 3), (IS_KNOWN, 1), (NO_PARTS, 1)];
    t.numbers_are("the list's end", &[&read, &[(PHASE, ENABLES), (OWED, 3), (KNOWN, 3), (DUE, 12400)]]);
    pgns_are("owed", &t.s.owed[..3], &[126983, 126984, 126985]);
    t.lacks("on the list", 126993, Lacks::Nothing);
    t.lacks("not yet enabled", 126983, Lacks::Partial);

    t.hear("error 0", 2500, &reply(0x47, 1, 0, &[]), Sends::Enable(126984));
    t.numbers_are("error 0", &[&read, &[(PHASE, ENABLES), (OWED, 2), (FRESH, 1), (KNOWN, 4), (DUE, 12500)]]);
    pgns_are("owed", &t.s.owed[..2], &[126984, 126985]);
    pgns_are("fresh", &t.s.fresh[..1], &[126983]);
    t.hear("error -996", 2600, &reply(0x47, 1, -996, &[]), Sends::Enable(126985));
    let there = [(PHASE, ENABLES), (OWED, 1), (FRESH, 1), (KNOWN, 5), (PRESENT, 1), (DUE, 12600)];
    t.numbers_are("error -996", &[&read, &there]);
    t.hear("error -1000", 2700, &reply(0x47, 1, -1000, &[]), Sends::Command(0x01));
    let answered = [&read[..], &[(OWED, ANY), (KNOWN, 5), (PRESENT, 1), (REFUSED, 1)]].concat();
    t.numbers_are("error -1000", &[&answered, &[(PHASE, COMMITS), (FRESH, 1), (DUE, 12700)]]);

    t.hear("commit", 2800, &reply(0x01, 1, 0, &[]), Sends::Command(0x4B));
    t.numbers_are("commit", &[&answered, &[(PHASE, ACTIVATES), (FRESH, 1), (DUE, 12800)]]);
    expect(!t.s.is_done(), "not done while activating");
    t.hear("activate", 2900, &reply(0x4B, 1, 0, &[]), Sends::Nothing);
    t.numbers_are("activate", &[&answered, &[(PHASE, DONE), (FRESH, ANY), (SAVED, 1), (DUE, ANY)]]);
    expect(t.s.is_done(), "done");
    let [saved, present, refused] = t.s.record();
    pgns_are("saved", saved, &[126983]);
    pgns_are("present", present, &[126984]);
    pgns_are("refused", refused, &[126985]);
    pgns_are("known", t.s.known(), &[126993, 127245, 127250, 126983, 126984]);
    t.lacks("on the list", 126993, Lacks::Nothing);
    t.lacks("enabled", 126983, Lacks::Nothing);
    t.lacks("already there", 126984, Lacks::Nothing);
    t.lacks("refused", 126985, Lacks::Partial);
    t
}

/// A second session in the same memory: 126984 and 126985 are not asked for again; 126983 is, and is not saved again. In the end one PGN
/// is saved, two are present and three are refused. Then a session that has learnt nothing.
fn second_session(mut t: Trial) {
    expect(t.s.begin_again(&[126983, 126984, 126985, 126986, 126987, 126988]) == Ok(()), "begin again");
    let kept = [(PHASE, AWAITS_MODE), (WANTED, 6), (SAVED, 1), (PRESENT, 1), (REFUSED, 1), (NO_PARTS, 1)];
    t.numbers_are("begin again", &[&kept]);
    t.hear("the mode", 0, &reply(0x11, 1, 0, MODE), Sends::Nothing);
    t.tick("the read", 2000, Sends::Command(0x49));
    t.hear("PGNs", 2100, &reply(0x49, 1, 0, PAGE_OF_1), Sends::Nothing);
    t.hear("the list's end again", 2200, &reply(0x49, 4, 0, &[]), Sends::Enable(126983));
    let read = [(WANTED, 6), (LIST, 1), (SAVED, 1), (IS_KNOWN, 1), (NO_PARTS, 1)];
    let now = [(PHASE, ENABLES), (OWED, 4), (KNOWN, 2), (PRESENT, 1), (REFUSED, 1), (DUE, 12200)];
    t.numbers_are("the list's end again", &[&read, &now]);
    pgns_are("owed", &t.s.owed[..4], &[126983, 126986, 126987, 126988]);
    t.hear("saved before", 2300, &reply(0x47, 1, 0, &[]), Sends::Enable(126986));
    t.hear("already there", 2400, &reply(0x47, 1, -996, &[]), Sends::Enable(126987));
    t.hear("refused", 2500, &reply(0x47, 1, 5, &[]), Sends::Enable(126988));
    let now = [(PHASE, ENABLES), (OWED, 1), (KNOWN, 4), (PRESENT, 2), (REFUSED, 2), (DUE, 12500)];
    t.numbers_are("three answers", &[&read, &now]);
    t.hear("sequence 2 refuses too; nothing is to be saved", 2600, &reply(0x47, 2, 0, &[]), Sends::Nothing);
    let now = [(PHASE, DONE), (OWED, ANY), (FRESH, ANY), (KNOWN, 4), (PRESENT, 2), (REFUSED, 3), (DUE, ANY)];
    t.numbers_are("done again", &[&read, &now]);
    let [saved, present, refused] = t.s.record();
    pgns_are("saved", saved, &[126983]);
    pgns_are("present", present, &[126984, 126986]);
    pgns_are("refused", refused, &[126985, 126987, 126988]);
    pgns_are("known", t.s.known(), &[127250, 126984, 126983, 126986]);

    expect(t.s.begin_afresh(&[126983, 126984]) == Ok(()), "begin afresh");
    t.numbers_are("begin afresh", &[&[(PHASE, AWAITS_MODE), (WANTED, 2), (NO_PARTS, 1)]]);
    expect(t.s.begin_afresh(&[0; 65]) == Err(11) && t.s.numbers[WANTED] == 0, "begin afresh with 65");
}

/// A list in Format 2, read in the third attempt; then the session from its start.
fn format_2() {
    let mut t = Trial::begin(&[126983]);
    expect(t.s.set_firmware(2690) == Ok(()), "firmware");
    let told = [(WANTED, 1), (IS_TOLD, 1), (VERSION, 2690)];
    t.numbers_are("firmware", &[&told, &[(PHASE, AWAITS_MODE), (NO_PARTS, 1)]]);
    t.hear("the mode", 1000, &reply(0x11, 1, 0, MODE), Sends::Nothing);
    t.numbers_are("the mode", &[&told, &[(PHASE, WAITS), (DUE, 3000), (NO_PARTS, 1)]]);
    t.tick("Format 2", 3000, Sends::ReadF2);
    t.numbers_are("Format 2", &[&told, &[(PHASE, READS_F2), (ATTEMPT, 1), (DUE, 13000), (NO_PARTS, 1)]]);
    t.tick("attempt 2", 13000, Sends::ReadF2);
    t.numbers_are("attempt 2", &[&told, &[(PHASE, READS_F2), (ATTEMPT, 2), (DUE, 23000), (NO_PARTS, 1)]]);
    t.hear("a part", 14000, &reply(0x4F, 1, 0, PROPRIETARY_MAPS), Sends::Nothing);
    t.numbers_are("a part", &[&told, &[(PHASE, READS_F2), (ATTEMPT, 2), (PROPRIETARY, 3), (DUE, 24000)]]);
    t.tick("attempt 3", 24000, Sends::ReadF2);
    let now = [(PHASE, READS_F2), (ATTEMPT, 3), (PROPRIETARY, ANY), (DUE, 34000), (NO_PARTS, 1)];
    t.numbers_are("attempt 3", &[&told, &now]);
    t.hear("supported", 25000, &reply(0x40, 1, 0, SUPPORTED), Sends::Nothing);
    t.numbers_are("supported", &[&told, &[(PHASE, READS_F2), (ATTEMPT, 3), (DUE, 35000)]]);
    t.hear("enabled", 26000, &reply(0x4F, 1, 0, ENABLED), Sends::Nothing);
    t.hear("all three parts", 27000, &reply(0x4F, 2, 0, PROPRIETARY_MAPS), Sends::Enable(126983));
    let now = [(PHASE, ENABLES), (OWED, 1), (PROPRIETARY, ANY), (KNOWN, 4), (DUE, 37000), (IS_KNOWN, 1), (IS_WHOLE, 1)];
    t.numbers_are("all three parts", &[&told, &now]);
    pgns_are("known", t.s.known(), &[126993, 65280, 65295, 130817]);
    t.lacks("on the whole list", 65295, Lacks::Nothing);
    t.lacks("not on the whole list", 126983, Lacks::Whole);

    expect(t.s.restart() == Ok(()), "restart");
    let silent = [(OWED, ANY), (FRESH, ANY), (PROPRIETARY, ANY), (DUE, ANY), (VERSION, ANY), (NO_PARTS, ANY)];
    t.numbers_are("restart", &[&silent, &[(PHASE, AWAITS_MODE), (WANTED, 1)]]);
    t.lacks("no list is known any more", 126983, Lacks::Nothing);
}

/// Reads that fail: an error in Format 2, then three attempts in Format 1; and a session that is abandoned.
fn failures() {
    let mut t = Trial::begin(&[126983]);
    expect(t.s.set_firmware(2500) == Ok(()), "firmware 2.500");
    t.hear("the mode", 0, &reply(0x11, 1, 0, MODE), Sends::Nothing);
    t.tick("Format 2 from 2500 on", 2000, Sends::ReadF2);
    t.hear("an error in Format 2", 2100, &reply(0x40, 1, -1, &[]), Sends::Command(0x49));
    let told = [(WANTED, 1), (IS_TOLD, 1), (VERSION, 2500), (NO_PARTS, 1)];
    for attempt in 1..=3 {
        let due = 2100 + 10000 * attempt;
        t.numbers_are("an attempt in Format 1", &[&told, &[(PHASE, READS_F1), (ATTEMPT, attempt), (DUE, due)]]);
        t.tick("the next attempt", due, if attempt < 3 { Sends::Command(0x49) } else { Sends::Nothing });
    }
    t.numbers_are("no attempt left", &[&told, &[(PHASE, DONE), (DUE, ANY)]]);

    let mut t = Trial::begin(&[126983]);
    expect(t.s.set_firmware(2499) == Ok(()), "firmware 2.499");
    t.hear("the mode", 0, &reply(0x11, 1, 0, MODE), Sends::Nothing);
    t.tick("Format 1 below 2500", 2000, Sends::Command(0x49));
    t.hear("PGNs", 2100, &reply(0x49, 1, 0, PAGE_OF_2), Sends::Nothing);
    t.tick("attempt 2, from an empty list", 12100, Sends::Command(0x49));
    let told = [(WANTED, 1), (IS_TOLD, 1), (VERSION, 2499), (NO_PARTS, 1)];
    t.numbers_are("attempt 2, from an empty list", &[&told, &[(PHASE, READS_F1), (ATTEMPT, 2), (DUE, 22100)]]);
    t.hear("PGNs", 12200, &reply(0x49, 1, 0, PAGE_OF_1), Sends::Nothing);
    t.hear("the list's end", 12300, &reply(0x49, 4, 0, &[]), Sends::Enable(126983));
    expect(t.s.abandon() == Ok(()), "abandon");
    t.numbers_are("abandon", &[&told, &[(PHASE, DONE), (OWED, ANY), (FRESH, ANY), (LIST, 1), (DUE, ANY)]]);
    pgns_are("known", t.s.known(), &[]);
}

/// An error of the decoder, by feed and by push: its values. The decoder is idle then: a message that follows is read.
fn decoder_error(what: &str, bytes: &[u8], want: Event) {
    let message = [0x10, 0x02, 0xA1, 0x01, 0x41, 0x1D, 0x10, 0x03];
    let (mut fed, mut pushed) = (Decoder::new(), Decoder::new());
    let told = fed.feed(bytes);
    expect(told == (bytes.len(), want), &format!("{what}: feed tells {told:?}"));
    for (i, b) in bytes.iter().enumerate() {
        let told = pushed.push(*b);
        let want = if i + 1 < bytes.len() { Event::Nothing } else { want };
        expect(told == want, &format!("{what}: push tells {told:?} at byte {i}"));
    }
    for decoder in [&mut fed, &mut pushed] {
        expect(decoder.feed(&message) == (8, Event::Message { command: 0xA1, len: 1 }), &format!("{what}: the message after it"));
    }
}

fn decoder_errors() {
    let mismatch = Event::LengthMismatch { declared: 2, actual: 1 };
    decoder_error("2 bytes declared and 1 there", &[0x10, 0x02, 0xA1, 0x02, 0x41, 0x1C, 0x10, 0x03], mismatch);
    decoder_error("a DLE before 05", &[0x10, 0x02, 0xA1, 0x10, 0x05], Event::BadEscape(5));
}

impl Trial {
    /// A session that has come to a phase by calls, in memory that was 5A where it is not used. Strange: with numbers that no session
    /// has, which are flags over 1, a version over 16 bits, an attempt where there is none or over 32 bits.
    fn reach(phase: u64, strange: bool) -> Trial {
        let mut t = Trial::begin(&[]);
        let s = &mut t.s;
        for small in [&mut s.wanted, &mut s.owed, &mut s.fresh] {
            small.fill(0x5A5A5A5A);
        }
        for record in [&mut s.saved, &mut s.present, &mut s.refused] {
            record.fill(0x5A5A5A5A);
        }
        s.list.fill(0x5A5A5A5A);
        s.known.fill(0x5A5A5A5A);
        expect(s.begin_again(&[126983]) == Ok(()), "begin");
        if phase == READS_F2 {
            expect(s.set_firmware(2690) == Ok(()), "firmware");
        }
        if phase > AWAITS_MODE {
            t.hear("on the way", 0, &reply(0x11, 1, 0, MODE), Sends::Nothing);
        }
        if phase > WAITS {
            t.tick("on the way", 2000, if phase == READS_F2 { Sends::ReadF2 } else { Sends::Command(0x49) });
        }
        let steps = [
            (phase == READS_F1, reply(0x49, 1, 0, PAGE_OF_2), Sends::Nothing),
            (phase == READS_F2, reply(0x4F, 1, 0, PROPRIETARY_MAPS), Sends::Nothing),
            (phase > READS_F2, reply(0x49, 4, 0, &[]), Sends::Enable(126983)),
            (phase > ENABLES, reply(0x47, 1, 0, &[]), Sends::Command(0x01)),
            (phase > COMMITS, reply(0x01, 1, 0, &[]), Sends::Command(0x4B)),
            (phase > ACTIVATES, reply(0x4B, 1, 0, &[]), Sends::Nothing),
        ];
        for (given, payload, sends) in steps {
            if given {
                t.hear("on the way", 2100, &payload, sends);
            }
        }
        t.state = format!("phase {phase}");
        expect(t.s.numbers[PHASE] == phase, &format!("{}: not reached", t.state));
        if strange {
            t.state += ", strange numbers";
            let n = &mut t.s.numbers;
            n[ATTEMPT] = if phase == READS_F1 || phase == READS_F2 { 4294967303 } else { 7 };
            n[IS_KNOWN] = 2;
            n[IS_WHOLE] = 3;
            n[IS_TOLD] = 4;
            n[VERSION] = 70000;
            n[NO_PARTS] = 5;
        }
        t.out = [0xEE; MAX_SENT];
        t
    }

    /// The same with one of the numbers set; proprietary PGNs count where a part is in hand.
    fn reach_with(phase: u64, strange: bool, place: usize, value: u64) -> Trial {
        let mut t = Trial::reach(phase, strange);
        t.s.numbers[place] = value;
        if place == PROPRIETARY {
            t.s.numbers[NO_PARTS] = 0;
        }
        t.state += &format!(", number {place} is {value}");
        t
    }

    /// The session and the output are those. What changed is put back.
    fn unchanged(&mut self, what: &str, was: Session) {
        if self.s != was {
            let changed = (0..17).find(|i| self.s.numbers[*i] != was.numbers[*i]);
            let which = match changed {
                Some(i) => format!("number {i} was {} and is {}", was.numbers[i], self.s.numbers[i]),
                None => "an array or the parts changed".to_string(),
            };
            fail(&format!("{}: {what}: {which}", self.state));
        }
        expect(self.out == [0xEE; MAX_SENT], &format!("{}: {what}: the output changed", self.state));
        self.s = was;
        self.out = [0xEE; MAX_SENT];
    }

    /// A call is refused with this number, and nothing changes.
    fn refused<T>(&mut self, what: &str, want: u8, call: impl FnOnce(&mut Session, &mut [u8]) -> Result<T, u8>) {
        let was = self.s.clone();
        let number = call(&mut self.s, &mut self.out).err().unwrap_or(0);
        expect(number == want, &format!("{}: {what}: {number}, not {want}", self.state));
        self.unchanged(what, was);
    }

    /// A message that is of interest in the phase.
    fn of_interest(&self) -> Vec<u8> {
        match self.s.numbers[PHASE] {
            READS_F1 => reply(0x49, 4, 0, &[]),
            READS_F2 => reply(0x4F, 1, 0, ENABLED),
            ENABLES => reply(0x47, 1, 0, &[]),
            COMMITS => reply(0x01, 1, 0, &[]),
            ACTIVATES => reply(0x4B, 1, 0, &[]),
            _ => reply(0x11, 1, 0, MODE),
        }
    }

    /// In every phase: over 64 wanted, a time over the limit, a message of 256 bytes, an output of 31; and which comes first.
    fn over_limits(&mut self) {
        let message = self.of_interest();
        let too_long = padded(&message, 256);
        self.refused("begin with 65", 11, |s, _| s.begin_again(&[0; 65]));
        self.refused("tick over the limit", 13, |s, out| s.tick(LATE, out));
        self.refused("tick at 2^64 - 1", 13, |s, out| s.tick(u64::MAX, out));
        self.refused("tick into 31 bytes", 7, |s, out| s.tick(1000, &mut out[..31]));
        self.refused("due tick into 31 bytes", 7, |s, out| s.tick(99000, &mut out[..31]));
        self.refused("tick over the limit into 31 bytes", 13, |s, out| s.tick(LATE, &mut out[..31]));
        self.refused("message over the limit", 13, |s, out| s.message(LATE, &message, out));
        self.refused("message of 256 bytes", 6, |s, out| s.message(3000, &too_long, out));
        self.refused("message into 31 bytes", 7, |s, out| s.message(3000, &message, &mut out[..31]));
        self.refused("message of 256 bytes over the limit", 13, |s, out| s.message(LATE, &too_long, &mut out[..31]));
        self.refused("message of 256 bytes into 31", 6, |s, out| s.message(3000, &too_long, &mut out[..31]));
    }

    /// A state that is not well formed: 16 comes first.
    fn not_formed(&mut self) {
        let message = self.of_interest();
        let too_long = padded(&message, 256);
        self.refused("restart", 16, |s, _| s.restart());
        self.refused("firmware", 16, |s, _| s.set_firmware(2690));
        self.refused("abandon", 16, |s, _| s.abandon());
        self.refused("lacks", 16, |s, _| s.lacks(126983));
        self.refused("tick", 16, |s, out| s.tick(1000, out));
        self.refused("due tick", 16, |s, out| s.tick(99000, out));
        self.refused("tick over the limit into 31 bytes", 16, |s, out| s.tick(LATE, &mut out[..31]));
        self.refused("message", 16, |s, out| s.message(3000, &message, out));
        self.refused("message of 256 bytes over the limit", 16, |s, out| s.message(LATE, &too_long, &mut out[..31]));
    }
}

/// A number by which the state is not well formed. One less is well formed; but 0 owed is the least there is.
fn not_formed_with(phase: u64, strange: bool, place: usize, value: u64) {
    let mut t = Trial::reach_with(phase, strange, place, value);
    t.not_formed();
    if place == PHASE {
        t.refused("begin", 16, |s, _| s.begin_again(&[0; 64]));
    }
    if value > 0 {
        t.s.numbers[place] = value - 1;
        expect(t.s.set_firmware(2690) == Ok(()), &format!("{}: one less is refused", t.state));
    }
}

/// A list of the record over 192: 12, after 11 and after 16, for before enabling the state is not well formed then.
fn over_record(phase: u64, strange: bool, place: usize) {
    let mut t = Trial::reach_with(phase, strange, place, 193);
    t.refused("begin with 64", 12, |s, _| s.begin_again(&[0; 64]));
    t.refused("begin with 65", 11, |s, _| s.begin_again(&[0; 65]));
    if phase < ENABLES {
        t.not_formed();
    } else {
        t.refused("restart", 12, |s, _| s.restart());
    }
    t.s.numbers[place] = 192;
    expect(t.s.restart().and_then(|()| t.s.begin_again(&[0; 64])) == Ok(()), &format!("{}: 192 is refused", t.state));
}

/// The Format 1 list would pass 1,024: 14, after 7; up to 1,024 it is taken.
fn over_list(strange: bool) {
    let (one, two) = (reply(0x49, 1, 0, PAGE_OF_1), reply(0x49, 1, 0, PAGE_OF_2));
    let mut t = Trial::reach_with(READS_F1, strange, LIST, 1023);
    t.refused("two PGNs", 14, |s, out| s.message(3000, &two, out));
    t.refused("two PGNs with room for 31 bytes", 7, |s, out| s.message(3000, &two, &mut out[..31]));
    let sent = t.s.message(3000, &one, &mut t.out);
    let taken = t.s.numbers[LIST] == 1024 && t.s.numbers[DUE] == 13000 && t.s.list[1023] == 127250;
    expect(sent == Ok(0) && taken, &format!("{}: one PGN is not taken", t.state));
    t.refused("one PGN more", 14, |s, out| s.message(4000, &one, out));
}

/// Every refusal, in every phase that has it.
fn refusals(strange: bool) {
    for phase in 0..=7 {
        Trial::reach(phase, strange).over_limits();
        not_formed_with(phase, strange, PHASE, 8);
        for place in [SAVED, PRESENT, REFUSED] {
            over_record(phase, strange, place);
        }
    }
    // Over what there is room for.
    let over = [(WANTED, 65), (OWED, 65), (FRESH, 65), (LIST, 1025), (KNOWN, 1345), (SAVED, 257), (PRESENT, 257), (REFUSED, 257)];
    for (place, value) in over {
        not_formed_with(DONE, strange, place, value);
    }
    not_formed_with(READS_F2, strange, PROPRIETARY, 513);
    not_formed_with(AWAITS_MODE, strange, WANTED, 65);
    // Enabling, with none owed, and with one owed.
    for (place, value) in [(OWED, 0), (FRESH, 64), (KNOWN, 1344), (SAVED, 256), (PRESENT, 256), (REFUSED, 256)] {
        not_formed_with(ENABLES, strange, place, value);
    }
    // Committing and activating, with one fresh.
    not_formed_with(COMMITS, strange, SAVED, 256);
    not_formed_with(ACTIVATES, strange, SAVED, 256);
    over_list(strange);
}

/// The last time is taken; what is due then is the last number of 64 bits.
fn last_time() {
    let mut t = Trial::reach(WAITS, false);
    t.tick("the last time", LATE - 1, Sends::Command(0x49));
    expect(t.s.numbers[DUE] == u64::MAX, "the last due time");
}

/// A page that fits is taken by `add`, which leaves what the long way leaves in a copy of the session.
fn adds(what: &str, at: u64, payload: &[u8], count: u64, last: u32) {
    let mut t = Trial::reach_with(READS_F1, false, LIST, at);
    let mut copy = t.s.clone();
    let sent = copy.hear(3000, payload, &mut t.out);
    let end = at + count;
    let left = copy.numbers[LIST] == end && copy.numbers[DUE] == 13000 && (count == 0 || copy.list[end as usize - 1] == last);
    expect(sent == Ok(0) && left, &format!("{}: {what}: what the message leaves", t.state));
    expect(t.s.add(3000, payload, MAX_SENT), &format!("{}: {what}: not added", t.state));
    t.unchanged(what, copy);
}

impl Trial {
    /// Nothing else is taken, and nothing changes.
    fn adds_not(&mut self, what: &str, payload: &[u8], time: u64, room: usize) {
        let was = self.s.clone();
        expect(!self.s.add(time, payload, room), &format!("{}: {what}: added", self.state));
        self.unchanged(what, was);
    }
}

fn adding() {
    let two = reply(0x49, 1, 0, PAGE_OF_2);
    adds("two PGNs", 0, &two, 2, 127245);
    adds("two more", 700, &two, 2, 127245);
    adds("two up to 1,024", 1022, &two, 2, 127245);
    adds("two, cut off in the second", 1023, &two[..two.len() - 1], 1, 126993);
    adds("two, and 255 bytes", 2, &padded(&two, 255), 2, 127245);
    adds("an end before the count", 1024, &two[..12], 0, 0);

    for strange in [false, true] {
        let mut t = Trial::reach(READS_F1, strange);
        t.adds_not("the closing message", &reply(0x49, 4, 0, PAGE_OF_2), 3000, 32);
        t.adds_not("sequence 2", &reply(0x49, 2, 0, PAGE_OF_2), 3000, 32);
        t.adds_not("a time over the limit", &two, LATE, 32);
        t.adds_not("room for 31", &two, 3000, 31);
        t.adds_not("256 bytes", &padded(&two, 256), 3000, 32);
        t.adds_not("no byte", &[], 3000, 32);
        Trial::reach_with(READS_F1, strange, LIST, 1023).adds_not("two PGNs past 1,024", &two, 3000, 32);
        Trial::reach_with(READS_F1, strange, WANTED, 65).adds_not("65 wanted", &two, 3000, 32);
        for phase in [AWAITS_MODE, WAITS, READS_F2, ENABLES, COMMITS, ACTIVATES, DONE] {
            Trial::reach(phase, strange).adds_not("another phase", &two, 3000, 32);
        }
    }
}

fn main() -> ExitCode {
    second_session(first_session());
    format_2();
    failures();
    decoder_errors();
    refusals(false);
    last_time();
    adding();
    refusals(true);
    ended()
}
