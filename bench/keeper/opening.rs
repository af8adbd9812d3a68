//! Opening a device in plain Rust, once: what `alm_speed open` is compared with. It reads the device, its image into rows and the actions of its
//! segment on them.
#[path = "../plant/plant.rs"]
mod plant;
mod sizes;

use plant::{Action, Attr, Kind, Plant};
use sizes::{ALARM, AREA, AREAS, IMAGE, OPEN, SEGMENT};
use std::fs::File;
use std::os::unix::fs::FileExt;
use std::time::Instant;

const HEADER: usize = 23;
const HEAD: usize = 25;
const HALF: usize = HEAD + IMAGE + SEGMENT;

fn number(bytes: &[u8], at: usize, len: usize) -> u64 {
    bytes[at..at + len].iter().fold(0, |sum, byte| sum << 8 | *byte as u64)
}

fn attr(text: &[u8]) -> Option<Attr> {
    Some(Attr {
        kind: match text[0] {
            1 => Kind::High,
            2 => Kind::Low,
            3 => Kind::Discrete,
            _ => return None,
        },
        setpoint: number(text, 4, 8) as i64,
        deadband: number(text, 12, 8) as i64,
        priority: text[1],
        area: text[2],
        latching: text[3] == 1,
        max_shelve: number(text, 20, 4) as u32,
        _tag: text[24..57].try_into().ok()?,
        _text: text[57..138].try_into().ok()?,
    })
}

fn action(text: &[u8]) -> Option<Action> {
    let id = number(text, 4, 4) as u32;
    let argument = number(text, 8, 8);
    match text[0] {
        1 => Some(Action::Clock(argument)),
        2 => Some(Action::Value(id, argument as i64)),
        3 => Some(Action::Ack(id)),
        4 => Some(Action::Reset(id)),
        5 => Some(Action::Shelve(id, argument as u32)),
        6 => Some(Action::Unshelve(id)),
        7 => Some(Action::Oos(id, argument == 1)),
        8 => Some(Action::Design(id, argument == 1)),
        _ => None,
    }
}

/// The plant of an image in which no alarm was ever annunciated.
fn restore(image: &[u8]) -> Option<Plant> {
    let alarms = 16 + AREA * AREAS;
    for area in image[16..alarms].chunks_exact(AREA) {
        if area.iter().any(|byte| *byte != 0) {
            return None;
        }
    }
    let attrs: Option<Vec<Attr>> = image[alarms..].chunks_exact(ALARM).map(attr).collect();
    for text in image[alarms..].chunks_exact(ALARM) {
        if text[138..].iter().any(|byte| *byte != 0) {
            return None;
        }
    }
    Some(Plant::new(attrs?, AREAS as u32))
}

fn replay(plant: &mut Plant, segment: &[u8], epoch: u64) -> Option<()> {
    let mut at = 0;
    while segment[at] == OPEN {
        if number(segment, at + 1, 8) != epoch || number(segment, at + 9, 8) != plant.count() + 1 {
            return None;
        }
        let actions = number(segment, at + 17, 2) as usize;
        at += 19;
        for text in segment[at..at + 16 * actions].chunks_exact(16) {
            let action = action(text)?;
            if plant.refused(&action).is_some() {
                return None;
            }
            plant.apply(&action);
        }
        at += 16 * actions;
    }
    Some(())
}

fn open(file: &File) -> Option<u64> {
    let mut header = [0; HEADER];
    file.read_exact_at(&mut header, 0).ok()?;
    let mut heads = [[0; HEAD]; 2];
    file.read_exact_at(&mut heads[0], HEADER as u64).ok()?;
    file.read_exact_at(&mut heads[1], (HEADER + HALF) as u64).ok()?;
    let epoch = |half: usize| if heads[half][0] == OPEN { number(&heads[half], 1, 8) } else { 0 };
    let standing = if epoch(0) > epoch(1) { 0 } else { 1 };
    let mut half = vec![0; IMAGE + SEGMENT];
    file.read_exact_at(&mut half, (HEADER + HEAD + standing * HALF) as u64).ok()?;
    let mut plant = restore(&half[..IMAGE])?;
    replay(&mut plant, &half[IMAGE..], epoch(standing))?;
    Some(plant.count())
}

fn main() {
    let path = std::env::args().nth(1).expect("a device");
    let file = File::open(&path).expect("a device");
    let start = Instant::now();
    let count = open(&file).expect("a plant");
    println!("open {count} {}", start.elapsed().as_nanos());
}
