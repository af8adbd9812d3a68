//! The same calls in plain Rust: what `alm_speed keeper` is compared with. A copy of as many bytes as a checkpoint writes; and commits of 256
//! actions, checked and done to a plant, two writes and two syncs each.
#[path = "../plant/plant.rs"]
mod plant;
mod sizes;

use plant::{Action, Attr, Kind, Plant};
use sizes::{ALARMS, AREAS, IMAGE, OPEN, SEGMENT};
use std::fs::File;
use std::hint::black_box;
use std::os::unix::fs::FileExt;
use std::time::Instant;

const PIECE: usize = 65_536;
const COMMITS: u32 = 4077;
const CHECKPOINTS: u32 = 20;

/// The plant that is formatted.
fn new_plant() -> Plant {
    let attr = |number| Attr {
        kind: Kind::High,
        setpoint: 800,
        deadband: 10,
        priority: (number % 4) as u8 + 1,
        area: (number % AREAS) as u8,
        latching: false,
        max_shelve: 0,
        _tag: [0; 33],
        _text: [0; 81],
    };
    Plant::new((0..ALARMS).map(attr).collect(), AREAS as u32)
}

/// The values of a turn: alarm after alarm comes, and once all have, one after the other goes.
fn values(turn: u32) -> impl Iterator<Item = Action> {
    (turn * 256..turn * 256 + 256).map(|place| {
        let value = if (place / ALARMS as u32) % 2 == 0 { 1000 } else { 0 };
        Action::Value(place % ALARMS as u32, value)
    })
}

fn write_frame(first: u64, actions: &[Action], bytes: &mut Vec<u8>) {
    bytes.clear();
    bytes.extend_from_slice(&1u64.to_be_bytes());
    bytes.extend_from_slice(&first.to_be_bytes());
    bytes.extend_from_slice(&(actions.len() as u16).to_be_bytes());
    for action in actions {
        if let Action::Value(id, value) = action {
            bytes.extend_from_slice(&[2, 0, 0, 0]);
            bytes.extend_from_slice(&id.to_be_bytes());
            bytes.extend_from_slice(&value.to_be_bytes());
        }
    }
    bytes.push(0);
}

/// Where the next frame goes, and what is stored.
struct Journal {
    file: File,
    at: u64,
    stored: Plant,
    bytes: Vec<u8>,
}

impl Journal {
    fn commit(&mut self, actions: &[Action]) -> Option<()> {
        write_frame(self.stored.count() + 1, actions, &mut self.bytes);
        for action in actions {
            if self.stored.refused(action).is_some() {
                return None;
            }
            self.stored.apply(action);
        }
        self.file.write_all_at(&self.bytes, self.at + 1).ok()?;
        self.file.sync_data().ok()?;
        self.file.write_all_at(&[OPEN], self.at).ok()?;
        self.file.sync_data().ok()?;
        self.at += self.bytes.len() as u64;
        Some(())
    }
}

fn report(name: &str, sum: u64, start: Instant) {
    println!("{name} {sum} {}", start.elapsed().as_nanos());
}

fn main() {
    let path = std::env::args().nth(1).expect("a device");
    let image = vec![1u8; 26 + IMAGE];
    let mut copy = vec![0u8; 26 + IMAGE];
    let start = Instant::now();
    for _ in 0..CHECKPOINTS {
        copy.copy_from_slice(black_box(&image));
        black_box(&mut copy);
    }
    report("body", CHECKPOINTS as u64, start);

    let other = format!("{path}.plain");
    let file = File::options().read(true).write(true).create(true).truncate(true).open(&other).expect("a file");
    file.write_all_at(&vec![0; SEGMENT], 0).expect("room");
    let start = Instant::now();
    for _ in 0..CHECKPOINTS {
        copy.copy_from_slice(black_box(&image));
        for (number, piece) in copy.chunks(PIECE).enumerate() {
            file.write_all_at(piece, 1 + (PIECE * number) as u64).expect("a piece");
        }
        file.sync_data().expect("a sync");
        file.write_all_at(&[OPEN], 0).expect("a gate");
        file.sync_data().expect("a sync");
    }
    report("checkpoint", CHECKPOINTS as u64, start);
    let mut journal = Journal {
        file,
        at: 0,
        stored: new_plant(),
        bytes: Vec::with_capacity(4116),
    };
    let mut actions = Vec::with_capacity(256);
    let mut done = 0;
    let start = Instant::now();
    for turn in 0..COMMITS {
        actions.clear();
        actions.extend(values(turn));
        done += journal.commit(&actions).is_some() as u64;
    }
    report("commit", done, start);
    std::fs::remove_file(other).expect("removed");
}
