//! The same threads in plain Rust: what `alm_speed threads` is compared with. A thread for each slot, one for the sequencer and one for the
//! flusher, over the parts of ../flusher/way.rs; the plant that is shown stands under an `RwLock`. Who has nothing to do looks again 64 times, and
//! then sleeps until it is rung for.
#[path = "../plant/plant.rs"]
mod plant;
#[path = "../flusher/ring.rs"]
mod ring;
#[path = "../flusher/way.rs"]
mod way;

use plant::{Action, Plant};
use std::fs::File;
use std::os::unix::fs::FileExt;
use std::sync::atomic::{AtomicBool, AtomicU64, AtomicUsize, Ordering::SeqCst};
use std::sync::{Arc, OnceLock, RwLock};
use std::thread::{self, Thread};
use std::time::{Duration, Instant};
use way::{Console, Flusher, SLOTS, Sequencer, Way, new_plant};

type Shown = Arc<RwLock<Plant>>;

#[derive(Default)]
struct Bell {
    listens: AtomicBool,
    thread: OnceLock<Thread>,
}

impl Bell {
    fn ring(&self) {
        if self.listens.load(SeqCst) {
            self.listens.store(false, SeqCst);
            if let Some(thread) = self.thread.get() {
                thread.unpark();
            }
        }
    }

    fn wait(&self, idle: u32) {
        if idle < 64 {
            thread::yield_now();
        } else if self.listens.load(SeqCst) {
            thread::park_timeout(Duration::from_millis(100));
        } else {
            self.thread.get_or_init(thread::current);
            self.listens.store(true, SeqCst);
        }
    }
}

#[derive(Default)]
struct Flags {
    out: AtomicBool,
    sealed: AtomicBool,
    ended: AtomicUsize,
    looks: AtomicU64,
    sequencer: Bell,
    flusher: Bell,
    slots: [Bell; SLOTS],
}

#[derive(Clone, Copy)]
enum Enough {
    Requests(u64),
    Looks(u64),
}

#[derive(Clone, Copy)]
enum Role {
    Ask { out: u64, enough: Enough },
    Look { hundreds: u64 },
}

fn next(slot: usize, sent: u64) -> Action {
    let odd = sent % 2 == 0;
    match slot {
        16 => Action::Value(16, if odd { 1000 } else { 0 }),
        17 => Action::Clock(sent + 1),
        _ => Action::Oos(slot as u32, odd),
    }
}

fn ask(flags: &Flags, slot: usize, mut console: Console, out: u64, enough: Enough) {
    let (mut sent, mut answered, mut idle) = (0, 0, 0);
    loop {
        let mut rests = true;
        if console.receive().is_some() {
            answered += 1;
            rests = false;
        }
        let done = match enough {
            Enough::Requests(number) => sent >= number,
            Enough::Looks(number) => flags.looks.load(SeqCst) >= number,
        };
        if done {
            if answered == sent {
                break;
            }
        } else if sent - answered < out && console.send(next(slot, sent)).is_some() {
            sent += 1;
            flags.sequencer.ring();
            rests = false;
        }
        if rests {
            flags.slots[slot].wait(idle);
            idle += 1;
        } else {
            idle = 0;
        }
    }
}

fn look(flags: &Flags, shown: &Shown, hundreds: u64) {
    for _ in 0..hundreds {
        for _ in 0..100 {
            std::hint::black_box(shown.read().expect("a plant").row(0));
        }
        flags.looks.fetch_add(100, SeqCst);
    }
}

fn sit(flags: &Flags, shown: &Shown, slot: usize, console: Console, role: Role) {
    match role {
        Role::Ask { out, enough } => ask(flags, slot, console, out, enough),
        Role::Look { hundreds } => look(flags, shown, hundreds),
    }
    flags.ended.fetch_add(1, SeqCst);
    flags.sequencer.ring();
}

fn sequence(flags: &Flags, mut sequencer: Sequencer) {
    let mut idle = 0;
    loop {
        let last = flags.ended.load(SeqCst) == SLOTS;
        let mut taken = false;
        for slot in 0..SLOTS as u8 {
            taken |= sequencer.take(slot).is_some();
        }
        if (sequencer.is_full() || !flags.out.load(SeqCst)) && sequencer.seal() {
            flags.out.store(true, SeqCst);
            flags.flusher.ring();
            taken = true;
        }
        if taken {
            idle = 0;
            continue;
        }
        if last && sequencer.is_empty() {
            break;
        }
        flags.sequencer.wait(idle);
        idle += 1;
    }
    flags.sealed.store(true, SeqCst);
    flags.flusher.ring();
}

fn flush(flags: &Flags, mut flusher: Flusher<Shown>) -> u64 {
    let mut idle = 0;
    loop {
        let last = flags.sealed.load(SeqCst);
        if flusher.is_free() && !flusher.fetch() {
            if flags.out.swap(false, SeqCst) {
                flags.sequencer.ring();
            }
            if last {
                return flusher.stored();
            }
            flags.flusher.wait(idle);
            idle += 1;
            continue;
        }
        idle = 0;
        flusher.advance();
        flusher.publish();
        if let Some(slot) = flusher.release() {
            flags.slots[slot as usize].ring();
        }
        if flusher.give_back() {
            flags.sequencer.ring();
        }
    }
}

/// How many actions are stored, and how many looks were shown.
fn run(path: &str, role: impl Fn(usize) -> Role) -> (u64, u64) {
    let file = File::options().read(true).write(true).create(true).truncate(true).open(path).expect("a file");
    file.write_all_at(&vec![0; 25_165_824], 0).expect("room");
    let shown = Arc::new(RwLock::new(new_plant(SLOTS as u32)));
    let flags = Flags::default();
    let Way {
        consoles,
        sequencer,
        flusher,
    } = Way::new(SLOTS as u32, shown.clone(), Some(file));
    let stored = thread::scope(|scope| {
        for (slot, console) in consoles.into_iter().enumerate() {
            let (flags, shown, role) = (&flags, &shown, role(slot));
            scope.spawn(move || sit(flags, shown, slot, console, role));
        }
        scope.spawn({
            let flags = &flags;
            move || sequence(flags, sequencer)
        });
        flush(&flags, flusher)
    });
    (stored, flags.looks.into_inner())
}

fn time(name: &str, course: impl Fn() -> u64) {
    let start = Instant::now();
    let done = course();
    println!("{name} {done} {}", start.elapsed().as_nanos());
}

fn ask_all(path: &str, out: u64, each: u64) -> u64 {
    let enough = Enough::Requests(each);
    run(path, |_| Role::Ask { out, enough }).0
}

fn look_all(path: &str, readers: usize, hundreds: u64) -> u64 {
    let enough = Enough::Looks(readers as u64 * hundreds * 100);
    let role = |slot| match slot {
        16 => Role::Ask { out: 64, enough },
        slot if slot < readers => Role::Look { hundreds },
        _ => Role::Look { hundreds: 0 },
    };
    run(path, role).1
}

fn main() {
    for path in std::env::args().skip(1) {
        time("one_out", || ask_all(&path, 1, 4000));
        time("64_out", || ask_all(&path, 64, 40_000));
        time("looks_1", || look_all(&path, 1, 100_000));
        time("looks_8", || look_all(&path, 8, 25_000));
    }
}
