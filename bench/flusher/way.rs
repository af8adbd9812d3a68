//! From a console to a receipt in plain Rust: rings of one writer and one reader, a plant for the sequencer, one for what is stored and one
//! that is shown, and a journal of frames behind gates.
use crate::plant::{Action, Attr, Kind, Plant};
use crate::ring::{Reader, Writer, ring};
use std::fs::File;
use std::os::unix::fs::FileExt;
use std::sync::{Arc, RwLock};

pub const SLOTS: usize = 18;
pub const ROOM: u64 = 64;
const OPEN: u8 = 0xA5;

#[allow(dead_code)]
#[derive(Clone, Copy)]
pub enum Verdict {
    Accepted(Action),
    Refused(u8, u64),
}

#[derive(Clone, Copy)]
pub struct Entry {
    slot: u8,
    serial: u64,
    verdict: Verdict,
}

#[allow(dead_code)]
pub struct Receipt {
    serial: u64,
    pub verdict: Verdict,
    number: u64,
}

pub struct Batch {
    first: u64,
    entries: Vec<Entry>,
}

pub struct Console {
    requests: Writer<(u64, Action)>,
    replies: Reader<Receipt>,
    sent: u64,
    received: u64,
}

impl Console {
    pub fn send(&mut self, action: Action) -> Option<u64> {
        if self.sent - self.received == ROOM {
            return None;
        }
        self.requests.push((self.sent + 1, action)).ok()?;
        self.sent += 1;
        Some(self.sent)
    }

    pub fn receive(&mut self) -> Option<Receipt> {
        let receipt = self.replies.pop()?;
        self.received += 1;
        Some(receipt)
    }
}

pub struct Sequencer {
    live: Plant,
    inboxes: Vec<Reader<(u64, Action)>>,
    open: Option<Batch>,
    sealed: Writer<Batch>,
    free: Reader<Batch>,
}

impl Sequencer {
    pub fn take(&mut self, slot: u8) -> Option<Verdict> {
        let open = self.open.as_mut()?;
        if open.entries.len() == 256 {
            return None;
        }
        let (serial, want) = self.inboxes[slot as usize].pop()?;
        let verdict = match self.live.check(slot, want) {
            Ok(action) => {
                self.live.apply(&action);
                Verdict::Accepted(action)
            }
            Err(refusal) => Verdict::Refused(refusal, self.live.count()),
        };
        open.entries.push(Entry {
            slot,
            serial,
            verdict,
        });
        Some(verdict)
    }

    pub fn is_empty(&self) -> bool {
        self.open.as_ref().is_none_or(|open| open.entries.is_empty())
    }

    pub fn is_full(&self) -> bool {
        self.open.as_ref().is_some_and(|open| open.entries.len() == 256)
    }

    pub fn seal(&mut self) -> bool {
        if self.is_empty() {
            return false;
        }
        let Some(mut next) = self.free.pop() else {
            return false;
        };
        next.entries.clear();
        next.first = self.live.count() + 1;
        let full = self.open.replace(next);
        full.is_some_and(|full| self.sealed.push(full).is_ok())
    }
}

/// The journal of a file: a frame's body behind its gate, a sync, the gate, a sync.
pub struct Journal {
    file: Option<File>,
    at: u64,
    frame: Vec<u8>,
    call: u8,
}

impl Journal {
    pub fn begin(&mut self, batch: &Batch, actions: usize) {
        self.frame.clear();
        self.frame.extend_from_slice(&1u64.to_be_bytes());
        self.frame.extend_from_slice(&batch.first.to_be_bytes());
        self.frame.extend_from_slice(&(actions as u16).to_be_bytes());
        for entry in &batch.entries {
            if let Verdict::Accepted(action) = entry.verdict {
                self.frame.extend_from_slice(&text(action));
            }
        }
        self.frame.push(0);
        self.call = 1;
    }

    /// One call; whether it was the last.
    pub fn advance(&mut self) -> Option<bool> {
        let file = self.file.as_ref()?;
        match self.call {
            1 => file.write_all_at(&self.frame, self.at + 1).ok()?,
            3 => file.write_all_at(&[OPEN], self.at).ok()?,
            _ => file.sync_data().ok()?,
        }
        self.call += 1;
        if self.call == 5 {
            self.at += self.frame.len() as u64;
        }
        Some(self.call == 5)
    }
}

fn text(action: Action) -> [u8; 16] {
    let (kind, id, value) = match action {
        Action::Clock(now) => (1, 0, now),
        Action::Value(id, value) => (2, id, value as u64),
        Action::Ack(id) => (3, id, 0),
        Action::Oos(id, on) => (7, id, on as u64),
        _ => (0, 0, 0),
    };
    let mut bytes = [0; 16];
    bytes[0] = kind;
    bytes[1..5].copy_from_slice(&id.to_be_bytes());
    bytes[5..13].copy_from_slice(&value.to_be_bytes());
    bytes
}

#[derive(Clone, Copy, PartialEq)]
pub enum Phase {
    Fetched,
    Committing,
    Stored,
    Published,
}

/// What is shown: a plant, also one under a lock.
pub trait Show {
    fn show(&mut self, actions: impl Iterator<Item = Action>);
}

impl Show for Plant {
    fn show(&mut self, actions: impl Iterator<Item = Action>) {
        for action in actions {
            self.apply(&action);
        }
    }
}

impl Show for Arc<RwLock<Plant>> {
    fn show(&mut self, actions: impl Iterator<Item = Action>) {
        self.write().expect("a plant").show(actions);
    }
}

pub struct Flusher<S> {
    stored: Plant,
    shown: S,
    journal: Journal,
    outboxes: Vec<Writer<Receipt>>,
    sealed: Reader<Batch>,
    free: Writer<Batch>,
    held: Option<Batch>,
    phase: Phase,
    next: usize,
    number: u64,
}

impl<S: Show> Flusher<S> {
    pub fn is_free(&self) -> bool {
        self.held.is_none()
    }

    pub fn stored(&self) -> u64 {
        self.stored.count()
    }

    pub fn fetch(&mut self) -> bool {
        if self.held.is_some() {
            return false;
        }
        self.held = self.sealed.pop();
        self.phase = Phase::Fetched;
        self.next = 0;
        self.held.is_some()
    }

    /// Whether the batch is stored; `None` where there is nothing to do, or the file failed.
    pub fn advance(&mut self) -> Option<bool> {
        let batch = self.held.as_ref()?;
        if self.phase == Phase::Fetched {
            let actions = accepted(batch).count();
            if actions == 0 {
                self.phase = Phase::Stored;
                return Some(true);
            }
            self.journal.begin(batch, actions);
            self.phase = Phase::Committing;
        }
        if self.phase != Phase::Committing {
            return None;
        }
        let done = self.journal.advance()?;
        if done {
            for action in accepted(batch) {
                self.stored.apply(&action);
            }
            self.phase = Phase::Stored;
        }
        Some(done)
    }

    pub fn publish(&mut self) -> bool {
        let (Some(batch), Phase::Stored) = (&self.held, self.phase) else {
            return false;
        };
        self.shown.show(accepted(batch));
        self.phase = Phase::Published;
        true
    }

    pub fn release(&mut self) -> Option<u8> {
        let (Some(batch), Phase::Published) = (&self.held, self.phase) else {
            return None;
        };
        let entry = batch.entries.get(self.next)?;
        let number = match entry.verdict {
            Verdict::Accepted(_) => self.number + 1,
            Verdict::Refused(_, number) => number,
        };
        let receipt = Receipt {
            serial: entry.serial,
            verdict: entry.verdict,
            number,
        };
        self.outboxes[entry.slot as usize].push(receipt).ok()?;
        self.number = number;
        self.next += 1;
        Some(entry.slot)
    }

    pub fn give_back(&mut self) -> bool {
        match self.held.take() {
            Some(batch) if self.phase == Phase::Published && self.next == batch.entries.len() => self.free.push(batch).is_ok(),
            held => {
                self.held = held;
                false
            }
        }
    }
}

fn accepted(batch: &Batch) -> impl Iterator<Item = Action> + '_ {
    batch.entries.iter().filter_map(|entry| match entry.verdict {
        Verdict::Accepted(action) => Some(action),
        Verdict::Refused(..) => None,
    })
}

pub struct Way<S> {
    pub consoles: Vec<Console>,
    pub sequencer: Sequencer,
    pub flusher: Flusher<S>,
}

pub fn new_plant(alarms: u32) -> Plant {
    let attr = |_| Attr {
        kind: Kind::High,
        setpoint: 800,
        deadband: 10,
        priority: 1,
        area: 0,
        latching: false,
        max_shelve: 0,
        _tag: [0; 33],
        _text: [0; 81],
    };
    Plant::new((0..alarms).map(attr).collect(), 1)
}

fn new_batch() -> Batch {
    Batch {
        first: 1,
        entries: Vec::with_capacity(256),
    }
}

impl<S: Show> Way<S> {
    pub fn new(alarms: u32, shown: S, file: Option<File>) -> Self {
        let (mut consoles, mut inboxes, mut outboxes) = (vec![], vec![], vec![]);
        for _ in 0..SLOTS {
            let (requests, inbox) = ring(ROOM as usize);
            let (outbox, replies) = ring(ROOM as usize);
            consoles.push(Console {
                requests,
                replies,
                sent: 0,
                received: 0,
            });
            inboxes.push(inbox);
            outboxes.push(outbox);
        }
        let (sealed, fetched) = ring(8);
        let (mut given, free) = ring(8);
        for _ in 0..7 {
            assert!(given.push(new_batch()).is_ok());
        }
        Way {
            consoles,
            sequencer: Sequencer {
                live: new_plant(alarms),
                inboxes,
                open: Some(new_batch()),
                sealed,
                free,
            },
            flusher: Flusher {
                stored: new_plant(alarms),
                shown,
                journal: Journal {
                    file,
                    at: 4096,
                    frame: Vec::with_capacity(4116),
                    call: 0,
                },
                outboxes,
                sealed: fetched,
                free: given,
                held: None,
                phase: Phase::Fetched,
                next: 0,
                number: 0,
            },
        }
    }
}
