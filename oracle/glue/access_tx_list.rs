// Child of engine::codec::ngt1_tx_list: reads and makes records and sessions.
use super::*;

pub fn record(saved: Vec<u32>, present: Vec<u32>, refused: Vec<u32>) -> Arc<Mutex<TxListRecord>> {
    Arc::new(Mutex::new(TxListRecord {
        saved,
        present,
        refused,
    }))
}

/// A session's whole state, in plain values. A field that the phase does not have is empty.
#[derive(Debug, Clone, PartialEq, Eq, Default)]
pub struct View {
    /// 0 await startup, 1 read at, 2 reading Format 1, 3 reading Format 2, 4 enabling, 5 committing, 6 activating, 7 done
    pub phase: u8,
    pub due: u64,
    pub attempt: u32,
    pub firmware: Option<u16>,
    pub wanted: Vec<u32>,
    /// the Format 1 list so far
    pub list: Vec<u32>,
    pub owed: Vec<u32>,
    pub fresh: Vec<u32>,
    /// whole, PGNs
    pub known: Option<(bool, Vec<u32>)>,
    pub saved: Vec<u32>,
    pub present: Vec<u32>,
    pub refused: Vec<u32>,
    pub supported: Option<Vec<Option<(u8, u32)>>>,
    pub enabled: Option<Vec<Option<u8>>>,
    pub proprietary: Option<Vec<u32>>,
}

pub fn phase(s: &TxListSync) -> u8 {
    match &s.state {
        State::AwaitStartup => 0,
        State::ReadAt { .. } => 1,
        State::Reading { .. } => 2,
        State::ReadingF2 { .. } => 3,
        State::Enabling { .. } => 4,
        State::Committing { .. } => 5,
        State::Activating { .. } => 6,
        State::Done => 7,
    }
}

/// When the next tick acts; 0 where none does.
pub fn due(s: &TxListSync) -> u64 {
    match &s.state {
        State::AwaitStartup | State::Done => 0,
        State::ReadAt { at } => *at,
        _ => s.deadline,
    }
}

/// How many PGNs a Format 1 message would add.
pub fn adds(payload: &[u8]) -> usize {
    list_pgns(payload).len()
}

/// The lengths of the lists that the phase has: wanted, saved, present, refused, owed, fresh, list, known, proprietary.
pub fn lengths(s: &TxListSync) -> [usize; 9] {
    let (owed, fresh, list, proprietary) = match &s.state {
        State::Enabling { todo, added } => (todo.len(), added.len(), 0, 0),
        State::Committing { added } | State::Activating { added } => (0, added.len(), 0, 0),
        State::Reading { have, .. } => (0, 0, have.len(), 0),
        State::ReadingF2 { list, .. } => (0, 0, 0, list.proprietary.as_ref().map_or(0, Vec::len)),
        _ => (0, 0, 0, 0),
    };
    let known = s.known.as_ref().map_or(0, |k| k.pgns.len());
    let r = s.record.lock().unwrap();
    let (saved, present, refused) = (r.saved.len(), r.present.len(), r.refused.len());
    [
        s.wanted.len(),
        saved,
        present,
        refused,
        owed,
        fresh,
        list,
        known,
        proprietary,
    ]
}

/// 0 no list known, 1 a partial one, 2 a whole one.
pub fn known_kind(s: &TxListSync) -> u8 {
    s.known.as_ref().map_or(0, |k| 1 + k.complete as u8)
}

pub fn view(s: &TxListSync) -> View {
    let mut v = View {
        phase: phase(s),
        due: due(s),
        firmware: s.firmware,
        wanted: s.wanted.clone(),
        ..View::default()
    };
    match &s.state {
        State::AwaitStartup | State::Done | State::ReadAt { .. } => {}
        State::Reading { have, attempt } => {
            v.list = have.clone();
            v.attempt = *attempt;
        }
        State::ReadingF2 { list, attempt } => {
            v.attempt = *attempt;
            v.supported = list.supported.items.clone();
            v.enabled = list.enabled.items.clone();
            v.proprietary = list.proprietary.clone();
        }
        State::Enabling { todo, added } => {
            v.owed = todo.clone();
            v.fresh = added.clone();
        }
        State::Committing { added } | State::Activating { added } => v.fresh = added.clone(),
    }
    v.known = s.known.as_ref().map(|k| (k.complete, k.pgns.clone()));
    let r = s.record.lock().unwrap();
    (v.saved, v.present, v.refused) = (r.saved.clone(), r.present.clone(), r.refused.clone());
    v
}

/// A session in any state, reachable or not, from the fields that its phase has.
pub fn make(v: View) -> TxListSync {
    let state = match v.phase {
        0 => State::AwaitStartup,
        1 => State::ReadAt { at: v.due },
        2 => State::Reading {
            have: v.list,
            attempt: v.attempt,
        },
        3 => State::ReadingF2 {
            list: F2List {
                supported: Parts { items: v.supported },
                enabled: Parts { items: v.enabled },
                proprietary: v.proprietary,
            },
            attempt: v.attempt,
        },
        4 => State::Enabling {
            todo: v.owed,
            added: v.fresh,
        },
        5 => State::Committing { added: v.fresh },
        6 => State::Activating { added: v.fresh },
        _ => State::Done,
    };
    TxListSync {
        wanted: v.wanted,
        known: v.known.map(|(complete, pgns)| Known { pgns, complete }),
        state,
        deadline: v.due,
        record: record(v.saved, v.present, v.refused),
        firmware: v.firmware,
    }
}

/// The Format 1 list so far is empty again; its memory is kept.
pub fn clear_list(s: &mut TxListSync) {
    if let State::Reading { have, .. } = &mut s.state {
        have.clear();
    }
}

/// A Format 2 read by itself.
#[derive(Default)]
pub struct F2(F2List);

impl F2 {
    pub fn add_supported(&mut self, data: &[u8]) {
        self.0.add_supported(data);
    }

    pub fn add_enabled(&mut self, data: &[u8]) {
        self.0.add_enabled(data);
    }

    pub fn pgns(&self) -> Option<Vec<u32>> {
        self.0.pgns()
    }
}

// The commands of module 4 that canboat writes in this file.
pub fn enable(pgn: u32) -> Vec<u8> {
    enable_command(pgn)
}

pub fn read_f1() -> Vec<u8> {
    command(&[BEM_TX_PGN_ENABLE_LIST_F1])
}

pub fn read_f2() -> Vec<u8> {
    [
        command(&[BEM_SUPPORTED_PGN_LIST]),
        command(&[BEM_TX_PGN_ENABLE_LIST_F2]),
    ]
    .concat()
}

pub fn commit() -> Vec<u8> {
    command(&[BEM_COMMIT_TO_EEPROM])
}

pub fn activate() -> Vec<u8> {
    command(&[BEM_ACTIVATE_PGN_ENABLE_LISTS])
}
