//! The same way in plain Rust: what `alm_speed flusher` is compared with. The parts are those of way.rs.
#[path = "../plant/plant.rs"]
mod plant;
mod ring;
mod way;

use plant::{Action, Plant};
use std::fs::File;
use std::os::unix::fs::FileExt;
use std::time::Instant;
use way::{Verdict, Way, new_plant};

fn go_round(way: &mut Way<Plant>, asked: &[(u8, Action)]) -> u64 {
    for (slot, want) in asked {
        let _ = way.consoles[*slot as usize].send(*want);
    }
    for (slot, _) in asked {
        let _ = way.sequencer.take(*slot);
    }
    let _ = way.sequencer.seal();
    let _ = way.flusher.fetch();
    for _ in 0..8 {
        if way.flusher.advance() != Some(false) {
            break;
        }
    }
    let _ = way.flusher.publish();
    for _ in 0..256 {
        if way.flusher.release().is_none() {
            break;
        }
    }
    let _ = way.flusher.give_back();
    asked
        .iter()
        .filter_map(|(slot, _)| way.consoles[*slot as usize].receive())
        .map(|receipt| match receipt.verdict {
            Verdict::Accepted(_) => 2,
            Verdict::Refused(..) => 1,
        })
        .sum()
}

fn ask_refused(slots: u8, each: u8, asked: &mut Vec<(u8, Action)>) {
    for slot in 0..slots {
        for _ in 0..each {
            asked.push((slot, Action::Ack(0)));
        }
    }
}

fn ask_accepted(round: u64, each: u32, after: u64, asked: &mut Vec<(u8, Action)>) {
    let value = if round % 2 == 0 { 1000 } else { 0 };
    for number in 0..each {
        asked.push((16, Action::Value(number, value)));
        asked.push((17, Action::Clock(after + round * each as u64 + number as u64 + 1)));
    }
}

fn time_course(way: &mut Way<Plant>, name: &str, rounds: u64, ask: impl Fn(u64, &mut Vec<(u8, Action)>)) {
    let mut asked = Vec::with_capacity(256);
    let mut sum = 0;
    let start = Instant::now();
    for round in 0..rounds {
        asked.clear();
        ask(round, &mut asked);
        sum += go_round(way, &asked);
    }
    println!("{name} {sum} {}", start.elapsed().as_nanos());
}

fn time_refusals(alarms: u32, names: [&str; 2]) {
    let mut way = Way::new(alarms, new_plant(alarms), None);
    time_course(&mut way, names[0], 4000, |_, asked| ask_refused(18, 14, asked));
    time_course(&mut way, names[1], 200_000, |_, asked| ask_refused(1, 1, asked));
}

fn main() {
    time_refusals(64, ["refused_252", "refused_1"]);
    time_refusals(16_384, ["refused_252_largest", "refused_1_largest"]);
    for path in std::env::args().skip(1) {
        let file = File::options().read(true).write(true).create(true).truncate(true).open(path).expect("a file");
        file.write_all_at(&vec![0; 25_165_824], 0).expect("room");
        let mut way = Way::new(16_384, new_plant(16_384), Some(file));
        time_course(&mut way, "accepted_128", 4000, |round, asked| ask_accepted(round, 64, 0, asked));
        time_course(&mut way, "accepted_2", 20_000, |round, asked| ask_accepted(round, 1, 256_000, asked));
    }
}
