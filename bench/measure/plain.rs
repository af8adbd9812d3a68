//! The same measure in plain Rust, on the same input: what `alm_speed measure` is compared with.
use std::time::Instant;

const ALARMS: u32 = 16_384;
const AREAS: u32 = 64;
const SECONDS: usize = 600;
const MOST: u64 = 1 << 40;
const CALLS: u32 = 50_000_000;
const ROUNDS: u32 = 1_000_000;

struct Ring {
    counts: [u64; SECONDS],
    present: usize,
    total: u64,
}

impl Ring {
    fn pass(&mut self, seconds: u64) {
        if self.total == 0 {
            return;
        }
        for _ in 0..seconds.min(SECONDS as u64) {
            let oldest = if self.present == 0 { SECONDS - 1 } else { self.present - 1 };
            self.total -= self.counts[oldest];
            self.counts[oldest] = 0;
            self.present = oldest;
        }
    }
}

#[derive(Clone, Copy)]
struct Recent {
    kept: [u64; 3],
    count: usize,
}

struct Measure {
    clock: u64,
    areas: Vec<u8>,
    rings: Vec<Ring>,
    floods: Vec<bool>,
    moments: Vec<Recent>,
    noted: u64,
}

impl Measure {
    fn new() -> Self {
        Measure {
            clock: 0,
            areas: (0..ALARMS).map(|number| (number % AREAS) as u8).collect(),
            rings: (0..AREAS).map(|_| Ring { counts: [0; SECONDS], present: 0, total: 0 }).collect(),
            floods: vec![false; AREAS as usize],
            moments: vec![Recent { kept: [0; 3], count: 0 }; ALARMS as usize],
            noted: 0,
        }
    }

    fn annunciate(&mut self, number: u32) {
        if self.noted < MOST {
            let ring = &mut self.rings[self.areas[number as usize] as usize];
            ring.counts[ring.present] += 1;
            ring.total += 1;
            let recent = &mut self.moments[number as usize];
            recent.kept = [self.clock, recent.kept[0], recent.kept[1]];
            if recent.count < 3 {
                recent.count += 1;
            }
            self.noted += 1;
        }
    }

    fn advance(&mut self) {
        let next = self.clock + 1;
        if next < 1 << 40 {
            let seconds = next - self.clock;
            for ring in self.rings.iter_mut() {
                ring.pass(seconds);
            }
            self.clock = next;
        }
    }

    fn settle(&mut self) {
        for (area, ring) in self.rings.iter().enumerate() {
            let before = self.floods[area];
            self.floods[area] = if ring.total > 10 {
                true
            } else if ring.total < 5 {
                false
            } else {
                before
            };
        }
    }

    fn windows(&self) -> u64 {
        let mut sum = 0u64;
        for area in 0..AREAS {
            sum = sum.wrapping_add(self.rings[area as usize].total);
        }
        sum
    }
}

fn annunciate(measure: &mut Measure, times: u32) {
    for turn in 0..times {
        measure.annunciate(turn.wrapping_mul(7_919) % ALARMS);
    }
}

fn ask(measure: &mut Measure, times: u32) -> u64 {
    let mut sum = 0u64;
    for turn in 0..times {
        measure.annunciate(turn % ALARMS);
        sum = sum.wrapping_add(measure.windows());
    }
    sum
}

fn settle(measure: &mut Measure, times: u32) {
    for turn in 0..times {
        measure.annunciate(turn % ALARMS);
        measure.settle();
    }
}

fn pass(measure: &mut Measure, seconds: u32) {
    for second in 0..seconds {
        if second % 300 == 0 {
            annunciate(measure, 64);
        }
        measure.advance();
    }
}

fn fill(measure: &mut Measure) {
    for _ in 0..600 {
        annunciate(measure, 100_000);
        measure.advance();
    }
}

fn report(name: &str, sum: u64, start: Instant) {
    println!("{name} {sum} {}", start.elapsed().as_nanos());
}

fn time_annunciations(measure: &mut Measure, name: &str) {
    let start = Instant::now();
    annunciate(measure, CALLS);
    report(name, measure.windows(), start);
}

fn time_windows(measure: &mut Measure, name: &str) {
    let start = Instant::now();
    let sum = ask(measure, ROUNDS);
    report(name, sum, start);
}

fn time_settling(measure: &mut Measure, name: &str) {
    let start = Instant::now();
    settle(measure, ROUNDS);
    report(name, measure.windows(), start);
}

fn main() {
    let mut measure = Measure::new();
    time_windows(&mut measure, "windows_few");
    time_settling(&mut measure, "settle_few");
    time_annunciations(&mut measure, "annunciated_few");
    fill(&mut measure);
    time_windows(&mut measure, "windows_many");
    time_settling(&mut measure, "settle_many");
    time_annunciations(&mut measure, "annunciated_many");
    let start = Instant::now();
    pass(&mut measure, ROUNDS);
    report("advance_64_areas", measure.windows(), start);
    std::hint::black_box(&measure.floods);
}
