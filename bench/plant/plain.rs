//! The same plant in plain Rust, on the same input: what `alm_speed plant` is compared with.
mod plant;

use plant::{Action, Attr, Kind, Plant};
use std::time::Instant;

const ALARMS: u32 = 16_384;
const AREAS: u32 = 64;
/// The alarms of priority 1.
const FIRST: u32 = 10_000;

fn new_plant() -> Plant {
    let attr = |number: u32| Attr {
        kind: Kind::High,
        setpoint: 800,
        deadband: 10,
        priority: if number < FIRST { 1 } else { (number % 3) as u8 + 2 },
        area: (number % AREAS) as u8,
        latching: number % 8 == 0,
        max_shelve: 3600,
        _tag: [0; 33],
        _text: [0; 81],
    };
    Plant::new((0..ALARMS).map(attr).collect(), AREAS)
}

fn random(seed: u64) -> u64 {
    let a = seed ^ (seed << 13);
    let b = a ^ (a >> 7);
    b ^ (b << 17)
}

fn at_random(plant: &mut Plant, seed: &mut u64) -> u32 {
    let mut accepted = 0;
    for _ in 0..4096 {
        *seed = random(*seed);
        let id = (*seed >> 8) as u32 % ALARMS;
        accepted += if *seed & 1 == 1 {
            plant.send(0, Action::Ack(id))
        } else {
            plant.send(16, Action::Value(id, if *seed & 2 == 0 { 1000 } else { 0 }))
        };
    }
    accepted
}

fn in_turn(plant: &mut Plant) -> u32 {
    (0..ALARMS)
        .map(|id| plant.send(16, Action::Value(id, 1000)) + plant.send(0, Action::Ack(id)) + plant.send(16, Action::Value(id, 0)))
        .sum()
}

fn shelve(plant: &mut Plant) -> u32 {
    (0..1000).map(|id| plant.send(0, Action::Shelve(id, 1))).sum()
}

/// So many seconds, in each of which something is done before the clock; writes how many actions were accepted, and the time.
fn time_course(name: &str, seconds: u32, mut within: impl FnMut(&mut Plant) -> u32) {
    let mut plant = new_plant();
    let start = Instant::now();
    let mut accepted = 0;
    for second in 0..seconds {
        accepted += within(&mut plant) + plant.send(17, Action::Clock(second as u64 + 1));
    }
    println!("{name} {accepted} {}", start.elapsed().as_nanos());
}

fn time_fill(times: u32) {
    let mut plant = new_plant();
    for id in 0..ALARMS {
        plant.send(16, Action::Value(id, 1000));
    }
    let mut out = Vec::with_capacity(ALARMS as usize);
    let start = Instant::now();
    let mut sum = 0;
    for _ in 0..times {
        plant.fill(std::hint::black_box(1), &mut out);
        sum += out.len();
    }
    println!("fill {sum} {}", start.elapsed().as_nanos());
}

fn main() {
    let mut seed = 88172645463325252;
    time_course("random", 1000, |plant| at_random(plant, &mut seed));
    time_course("in_turn", 100, in_turn);
    time_course("shelvings_end", 1000, shelve);
    time_course("seconds", 1_000_000, |_| 0);
    time_fill(2000);
}
