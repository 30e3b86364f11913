//! What is read: records (module 2), replies and product info (module 3).
use super::refusals;
use crate::engine::format::ngt1::*;
use crate::script::*;

pub fn step(op: u8, body: &[u8]) -> Result<Vec<u8>, u8> {
    match op {
        N2K_READ => record(body),
        REPLY => Ok(reply(&parse(body)?)),
        RESPONSE => Ok(response(body)),
        MODE => Ok(match parse(body)?.operating_mode() {
            None => vec![0],
            Some(mode) => [&[1], &mode.code().to_le_bytes()[..]].concat(),
        }),
        _ => startup(&parse(body)?),
    }
}

/// A parsed reply, or 8.
fn parse(payload: &[u8]) -> Result<BemResponse<'_>, u8> {
    let parsed = BemResponse::parse(payload);
    // the Rust has this refusal too
    assert_eq!(parsed.is_none(), refusals::reply(payload.len()).is_err());
    parsed.ok_or(8)
}

/// "A number field of it tells refusal 8; the data are then empty and the other fields 0."
fn parse_or_none(payload: &[u8]) -> (u8, BemResponse<'_>) {
    match parse(payload) {
        Ok(b) => (0, b),
        Err(number) => (number, BemResponse { bem: 0, sequence: 0, model_id: 0, serial: 0, error: 0, data: &[] }),
    }
}

/// The response that `parse` makes of any payload, and what `operating_mode` and `startup_status` say of it.
fn response(payload: &[u8]) -> Vec<u8> {
    let (number, b) = parse_or_none(payload);
    let mut out = vec![number];
    let head = reply(&b);
    out.extend_from_slice(&head[..12]);
    put_u16(&mut out, b.data.len());
    out.extend_from_slice(b.data);
    let mode = b.operating_mode();
    out.push(match mode {
        None => 0,
        Some(OperatingMode::Other(_)) => 2,
        Some(_) => 1,
    });
    put_u16(&mut out, mode.map_or(0, OperatingMode::code).into());
    let (number, status) = match startup(&b) {
        Ok(status) => (0, status),
        Err(number) => (number, vec![0; 6]),
    };
    out.push(number);
    out.extend_from_slice(&status);
    out
}

fn record(body: &[u8]) -> Result<Vec<u8>, u8> {
    let mut r = Reader(body);
    let (command, payload) = (r.u8(), r.rest().to_vec());
    let refused = refusals::record(command, &payload);
    let frame = NgtMessage { command, payload }.to_raw_frame();
    // the Rust refuses in the same cases, without a number
    assert_eq!(frame.is_none(), refused.is_err());
    refused?;
    let f = frame.unwrap();
    let time: u32 = f.timestamp.unwrap().parse().unwrap();
    let mut out = vec![f.prio];
    put_u32(&mut out, f.pgn);
    out.extend_from_slice(&[f.dst, f.src]);
    put_u32(&mut out, time);
    out.push(f.data.len() as u8);
    out.extend_from_slice(&f.data);
    Ok(out)
}

fn reply(b: &BemResponse) -> Vec<u8> {
    let mut out = vec![b.bem, b.sequence];
    put_u16(&mut out, b.model_id.into());
    put_u32(&mut out, b.serial);
    put_u32(&mut out, b.error as u32);
    out.extend_from_slice(b.data);
    out
}

fn startup(b: &BemResponse) -> Result<Vec<u8>, u8> {
    let status = startup_status(b);
    // the Rust has this refusal too
    assert_eq!(status.is_none(), refusals::startup(b.data.len()).is_err());
    let (version, status) = status.ok_or(8)?;
    let mut out = Vec::new();
    put_u16(&mut out, version.into());
    put_u32(&mut out, status);
    Ok(out)
}

fn firmware(info: &ProductInfo) -> Vec<u8> {
    match info.firmware() {
        None => vec![0],
        Some(f) => [&[1], &f.to_le_bytes()[..]].concat(),
    }
}

/// The firmware of any stored software text. A byte from 80 up, which the Rust's text cannot hold, is neither digit nor dot, like `x`.
fn firmware_in(body: &[u8]) -> Result<Vec<u8>, u8> {
    let mut r = Reader(body);
    let count = r.u8();
    refusals::texts([0, count, 0, 0])?;
    let stored = |_| match r.u8() {
        b if b.is_ascii() => char::from(b),
        _ => 'x',
    };
    let software_version = (0..count).map(stored).collect();
    let mut info = ProductInfo::default();
    info.software_version = software_version;
    Ok(firmware(&info))
}

#[derive(Default)]
pub struct Product {
    info: ProductInfo,
    /// A state that the Rust cannot hold: parts and text counts.
    raw: Option<(u8, [u8; 4])>,
}

/// "Parts as bits 1 to 5."
const ALL_PARTS: u8 = 0b11_1110;

impl Product {
    pub fn step(&mut self, op: u8, body: &[u8]) -> Result<Vec<u8>, u8> {
        match op {
            PROD_RESET => {
                *self = Product::default();
                Ok(Vec::new())
            }
            PROD_RAW => {
                self.set_raw(body);
                Ok(Vec::new())
            }
            PROD_ADD => self.add(&parse(body)?),
            PROD_TAKE => self.add(&parse_or_none(body).1),
            FIRMWARE_IN => firmware_in(body),
            PROD_LOOK => Ok(self.look()),
            _ => {
                refusals::texts(self.counts())?;
                Ok(firmware(&self.info))
            }
        }
    }

    fn add(&mut self, reply: &BemResponse) -> Result<Vec<u8>, u8> {
        refusals::product(self.counts(), reply)?;
        let whole = self.info.add(reply);
        Ok([&[whole.into()], &self.look()[..]].concat())
    }

    fn texts(&self) -> [&str; 4] {
        let p = &self.info;
        [&p.model, &p.software_version, &p.hardware_version, &p.serial_number]
    }

    fn counts(&self) -> [u8; 4] {
        match self.raw {
            Some((_, counts)) => counts,
            None => self.texts().map(|t| t.len() as u8),
        }
    }

    fn set_raw(&mut self, body: &[u8]) {
        let mut r = Reader(body);
        let parts = r.u8() & ALL_PARTS;
        let counts: [u8; 4] = std::array::from_fn(|_| r.u8());
        self.raw = refusals::texts(counts).is_err().then_some((parts, counts));
        let [model, software, hardware, serial] = counts.map(|n| "x".repeat(n.min(32).into()));
        self.info = ProductInfo::default();
        self.info.model = model;
        self.info.software_version = software;
        self.info.hardware_version = hardware;
        self.info.serial_number = serial;
        access::set_parts(&mut self.info, parts);
    }

    fn look(&self) -> Vec<u8> {
        let mut out = vec![access::parts(&self.info)];
        put_u16(&mut out, self.info.nmea2000_version.into());
        put_u16(&mut out, self.info.product_code.into());
        for (count, text) in self.counts().into_iter().zip(self.texts()) {
            out.push(count);
            out.extend_from_slice(text.as_bytes());
        }
        let firmware = self.info.firmware().filter(|_| self.raw.is_none());
        out.push(firmware.is_some().into());
        put_u16(&mut out, firmware.unwrap_or(0).into());
        out
    }
}
