//! The same lists and wheel in plain Rust, on the same input: what `alm_speed links` is compared with.
use std::time::Instant;

const NODES: u32 = 16_384;
const LISTS: u32 = 64;
const WEEK: u64 = 604_800;
const MOVES: u32 = 30_000_000;
const SLOTS: u32 = 256;

#[derive(Clone, Copy)]
struct Link {
    next: u32,
    prev: u32,
    list: Option<u32>,
}

/// Circular lists with one link a list behind the nodes.
struct Family {
    nodes: u32,
    links: Vec<Link>,
    lengths: Vec<u32>,
}

impl Family {
    fn new(nodes: u32, lists: u32) -> Self {
        Family {
            nodes,
            links: (0..nodes + lists)
                .map(|place| Link { next: place, prev: place, list: None })
                .collect(),
            lengths: vec![0; lists as usize],
        }
    }

    fn list_of(&self, node: u32) -> Option<u32> {
        self.links[node as usize].list
    }

    fn push_back(&mut self, list: u32, node: u32) {
        let end = self.nodes + list;
        let before = self.links[end as usize].prev;
        self.links[before as usize].next = node;
        self.links[node as usize] = Link { next: end, prev: before, list: Some(list) };
        self.links[end as usize].prev = node;
        self.lengths[list as usize] += 1;
    }

    fn unlink(&mut self, node: u32) {
        let link = self.links[node as usize];
        if let Some(list) = link.list {
            self.links[link.prev as usize].next = link.next;
            self.links[link.next as usize].prev = link.prev;
            self.links[node as usize].list = None;
            self.lengths[list as usize] -= 1;
        }
    }
}

struct Wheel {
    deadlines: Vec<Option<u64>>,
    slots: Family,
}

impl Wheel {
    fn new(nodes: u32) -> Self {
        Wheel { deadlines: vec![None; nodes as usize], slots: Family::new(nodes, SLOTS) }
    }

    fn put(&mut self, node: u32, deadline: u64) {
        self.deadlines[node as usize] = Some(deadline);
        self.slots.push_back((deadline % SLOTS as u64) as u32, node);
    }

    fn due(&self, from: u64, to: u64, out: &mut Vec<u32>) {
        out.clear();
        for turn in 0..(to - from).min(SLOTS as u64) {
            let slot = ((from + 1 + turn) % SLOTS as u64) as u32;
            let mut at = self.slots.links[(self.slots.nodes + slot) as usize].next;
            while at < self.slots.nodes {
                if let Some(deadline) = self.deadlines[at as usize] {
                    if from < deadline && deadline <= to {
                        out.push(at);
                    }
                }
                at = self.slots.links[at as usize].next;
            }
        }
        out.sort_unstable_by_key(|&node| (self.deadlines[node as usize], node));
    }
}

fn random(seed: u64) -> u64 {
    let a = seed ^ (seed << 13);
    let b = a ^ (a >> 7);
    b ^ (b << 17)
}

fn moves(chains: &mut [Family]) -> u32 {
    let mut seed = 88172645463325252;
    let mut sum = 0u32;
    for _ in 0..MOVES {
        seed = random(seed);
        let node = ((seed >> 8) % NODES as u64) as u32;
        let list = ((seed >> 40) % LISTS as u64) as u32;
        if chains[0].list_of(node).is_some() {
            chains[0].unlink(node);
        } else {
            chains[0].push_back(list, node);
            sum = sum.wrapping_add(1);
        }
    }
    sum
}

fn node_of(turn: u32) -> u32 {
    (turn as u64 * 7_919 % NODES as u64) as u32
}

fn ask(wheel: &Wheel, rounds: u32, from: u64, step: u64, out: &mut Vec<u32>) -> u64 {
    let mut sum = 0u64;
    let mut at = from;
    for _ in 0..rounds {
        let to = at + step;
        wheel.due(at, to, out);
        sum = sum.wrapping_add(out.len() as u64);
        if let Some(first) = out.first() {
            sum = sum.wrapping_add(*first as u64);
        }
        at = to;
    }
    sum
}

fn main() {
    let mut chains = vec![Family::new(NODES, LISTS)];
    let start = Instant::now();
    let sum = moves(&mut chains);
    println!("moves {sum} {}", start.elapsed().as_nanos());

    let mut out = Vec::with_capacity(NODES as usize);

    let mut once = Wheel::new(NODES);
    for turn in 0..NODES {
        once.put(node_of(turn), 1_000);
    }
    let start = Instant::now();
    let mut sum = 0u64;
    for _ in 0..200 {
        sum = sum.wrapping_add(ask(&once, 1, 999, 1, &mut out));
    }
    println!("due_in_one_second {sum} {}", start.elapsed().as_nanos());

    let mut week = Wheel::new(NODES);
    let mut seed = 88172645463325252;
    for turn in 0..NODES {
        seed = random(seed);
        week.put(node_of(turn), 1 + seed % WEEK);
    }
    let start = Instant::now();
    let sum = ask(&week, WEEK as u32, 0, 1, &mut out);
    println!("due_each_second_of_a_week {sum} {}", start.elapsed().as_nanos());

    let start = Instant::now();
    let mut sum = 0u64;
    for _ in 0..100 {
        sum = sum.wrapping_add(ask(&week, 1, 0, WEEK, &mut out));
    }
    println!("due_over_a_week_at_once {sum} {}", start.elapsed().as_nanos());
}
