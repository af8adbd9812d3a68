//! The plant in plain Rust. Rows by number, lists threaded by index for priorities, areas and the 256 slots of the wheel, a ring of
//! 600 counters an area, the last three moments.
#![allow(dead_code)]

#[derive(Clone, Copy, PartialEq)]
pub enum Kind {
    High,
    Low,
    Discrete,
}
#[derive(Clone, Copy, PartialEq)]
pub enum Core {
    Normal,
    Unack,
    Acked,
    RtnUnack,
    LatchUnack,
    LatchAcked,
}
#[derive(Clone, Copy)]
pub struct Attr {
    pub kind: Kind,
    pub setpoint: i64,
    pub deadband: i64,
    pub priority: u8,
    pub area: u8,
    pub latching: bool,
    pub max_shelve: u32,
    pub _tag: [u8; 33],
    pub _text: [u8; 81],
}
#[derive(Clone, Copy)]
pub struct Row {
    active: bool,
    core: Core,
    shelved_until: Option<u64>,
    by_design: bool,
    out_of_service: bool,
    stamp: u64,
}
impl Row {
    pub fn suppressed(&self) -> bool {
        self.shelved_until.is_some() || self.by_design || self.out_of_service
    }
}
#[derive(Clone, Copy)]
pub enum Action {
    Clock(u64),
    Value(u32, i64),
    Ack(u32),
    Reset(u32),
    Shelve(u32, u32),
    Unshelve(u32),
    Oos(u32, bool),
    Design(u32, bool),
}
pub enum Role {
    Console,
    Feed,
    Clock,
}
pub fn role(slot: u8) -> Role {
    match slot {
        16 => Role::Feed,
        17 => Role::Clock,
        _ => Role::Console,
    }
}

#[derive(Clone, Copy)]
pub struct Link {
    next: u32,
    prev: u32,
    list: Option<u32>,
}
pub struct Family {
    nodes: u32,
    links: Vec<Link>,
    lengths: Vec<u32>,
}
impl Family {
    pub fn new(nodes: u32, lists: u32) -> Self {
        Family {
            nodes,
            links: (0..nodes + lists)
                .map(|p| Link {
                    next: p,
                    prev: p,
                    list: None,
                })
                .collect(),
            lengths: vec![0; lists as usize],
        }
    }
    pub fn push_back(&mut self, list: u32, node: u32) {
        let end = self.nodes + list;
        let before = self.links[end as usize].prev;
        self.links[before as usize].next = node;
        self.links[node as usize] = Link {
            next: end,
            prev: before,
            list: Some(list),
        };
        self.links[end as usize].prev = node;
        self.lengths[list as usize] += 1;
    }
    pub fn unlink(&mut self, node: u32) {
        let link = self.links[node as usize];
        if let Some(list) = link.list {
            self.links[link.prev as usize].next = link.next;
            self.links[link.next as usize].prev = link.prev;
            self.links[node as usize].list = None;
            self.lengths[list as usize] -= 1;
        }
    }
}
pub struct Ring {
    counts: [u64; 600],
    present: usize,
    total: u64,
}

pub struct Plant {
    now: u64,
    count: u64,
    next: u64,
    attrs: Vec<Attr>,
    rows: Vec<Row>,
    priorities: Family,
    areas: Family,
    slots: Family,
    rings: Vec<Ring>,
    moments: Vec<([u64; 3], usize)>,
    floods: Vec<bool>,
    working: Vec<u32>,
}
pub enum Outcome {
    Changed(Row),
    Annunciated(Row),
    Shelved(Row),
}

pub fn detect(a: &Attr, active: bool, v: i64) -> Option<bool> {
    let changes = if active {
        match a.kind {
            Kind::High => v < a.setpoint - a.deadband,
            Kind::Low => v > a.setpoint + a.deadband,
            Kind::Discrete => v != a.setpoint,
        }
    } else {
        match a.kind {
            Kind::High => v >= a.setpoint,
            Kind::Low => v <= a.setpoint,
            Kind::Discrete => v == a.setpoint,
        }
    };
    if changes {
        Some(!active)
    } else {
        None
    }
}
pub fn comes(core: Core) -> Option<Core> {
    match core {
        Core::Unack | Core::Acked => None,
        _ => Some(Core::Unack),
    }
}
pub fn goes(core: Core, latching: bool) -> Option<Core> {
    match core {
        Core::Unack => Some(if latching { Core::LatchUnack } else { Core::RtnUnack }),
        Core::Acked => Some(if latching { Core::LatchAcked } else { Core::Normal }),
        _ => None,
    }
}
pub fn ack(core: Core) -> Option<Core> {
    match core {
        Core::Unack => Some(Core::Acked),
        Core::RtnUnack => Some(Core::Normal),
        Core::LatchUnack => Some(Core::LatchAcked),
        _ => None,
    }
}
pub fn reset(core: Core) -> Option<Core> {
    if core == Core::LatchAcked {
        Some(Core::Normal)
    } else {
        None
    }
}
pub fn led(row: Row, active: bool, next: Option<Core>, stamp: u64) -> Outcome {
    match next {
        Some(Core::Unack) => Outcome::Annunciated(Row {
            core: Core::Unack,
            active,
            stamp,
            ..row
        }),
        Some(core) => Outcome::Changed(Row {
            core,
            active,
            stamp: if core != Core::Normal { row.stamp } else { 0 },
            ..row
        }),
        None => Outcome::Changed(Row { active, ..row }),
    }
}
pub fn reflagged(row: Row, stamp: u64) -> Outcome {
    if row.suppressed() {
        Outcome::Changed(Row {
            core: Core::Normal,
            stamp: if row.shelved_until.is_some() { row.stamp } else { 0 },
            ..row
        })
    } else if row.active {
        Outcome::Annunciated(Row {
            core: Core::Unack,
            stamp,
            ..row
        })
    } else {
        Outcome::Changed(Row {
            core: Core::Normal,
            stamp: 0,
            ..row
        })
    }
}

impl Plant {
    pub fn new(attrs: Vec<Attr>, areas: u32) -> Self {
        let alarms = attrs.len() as u32;
        Plant {
            now: 0,
            count: 0,
            next: 1,
            attrs,
            rows: vec![
                Row {
                    active: false,
                    core: Core::Normal,
                    shelved_until: None,
                    by_design: false,
                    out_of_service: false,
                    stamp: 0
                };
                alarms as usize
            ],
            priorities: Family::new(alarms, 4),
            areas: Family::new(alarms, areas),
            slots: Family::new(alarms, 256),
            rings: (0..areas)
                .map(|_| Ring {
                    counts: [0; 600],
                    present: 0,
                    total: 0,
                })
                .collect(),
            moments: vec![([0; 3], 0); alarms as usize],
            floods: vec![false; areas as usize],
            working: Vec::with_capacity(alarms as usize),
        }
    }
    pub fn row(&self, alarm: u32) -> Option<Row> {
        self.rows.get(alarm as usize).copied()
    }
    pub fn count(&self) -> u64 {
        self.count
    }
    pub fn refused(&self, action: &Action) -> Option<u8> {
        let own = match *action {
            Action::Clock(t) => {
                if self.now < t {
                    None
                } else {
                    Some(10)
                }
            }
            Action::Value(i, _)
            | Action::Ack(i)
            | Action::Reset(i)
            | Action::Shelve(i, _)
            | Action::Unshelve(i)
            | Action::Oos(i, _)
            | Action::Design(i, _) => match (self.attrs.get(i as usize), self.rows.get(i as usize)) {
                (Some(a), Some(r)) => match *action {
                    Action::Value(_, v) => {
                        if detect(a, r.active, v).is_some() {
                            None
                        } else {
                            Some(9)
                        }
                    }
                    Action::Ack(_) => {
                        if ack(r.core).is_some() {
                            None
                        } else {
                            Some(2)
                        }
                    }
                    Action::Reset(_) => {
                        if reset(r.core).is_some() {
                            None
                        } else {
                            Some(3)
                        }
                    }
                    Action::Shelve(_, s) => {
                        if r.shelved_until.is_some() {
                            Some(4)
                        } else if s == 0 || s > a.max_shelve {
                            Some(6)
                        } else {
                            None
                        }
                    }
                    Action::Unshelve(_) => {
                        if r.shelved_until.is_some() {
                            None
                        } else {
                            Some(5)
                        }
                    }
                    Action::Oos(_, on) => {
                        if on == r.out_of_service {
                            Some(7)
                        } else {
                            None
                        }
                    }
                    Action::Design(_, on) => {
                        if on == r.by_design {
                            Some(8)
                        } else {
                            None
                        }
                    }
                    Action::Clock(_) => None,
                },
                _ => Some(1),
            },
        };
        own.or(if self.count >= 1 << 48 { Some(12) } else { None })
    }
    pub fn check(&self, slot: u8, want: Action) -> Result<Action, u8> {
        let may = matches!(
            (role(slot), &want),
            (Role::Clock, Action::Clock(_))
                | (Role::Feed, Action::Value(..) | Action::Design(..))
                | (
                    Role::Console,
                    Action::Ack(_) | Action::Reset(_) | Action::Shelve(..) | Action::Unshelve(_) | Action::Oos(..)
                )
        );
        if !may {
            return Err(11);
        }
        match self.refused(&want) {
            Some(r) => Err(r),
            None => Ok(want),
        }
    }
    pub fn file(&mut self, i: u32, row: Row) {
        let before = self.rows[i as usize];
        self.rows[i as usize] = row;
        let (was, is) = (before.core != Core::Normal, row.core != Core::Normal);
        if was != is || is && before.stamp != row.stamp {
            let (p, r) = (self.attrs[i as usize].priority as u32 - 1, self.attrs[i as usize].area as u32);
            if was {
                self.priorities.unlink(i);
                self.areas.unlink(i);
            }
            if is {
                self.priorities.push_back(p, i);
                self.areas.push_back(r, i);
            }
        }
        if before.shelved_until != row.shelved_until {
            if before.shelved_until.is_some() {
                self.slots.unlink(i)
            }
            if let Some(d) = row.shelved_until {
                self.slots.push_back((d % 256) as u32, i)
            }
        }
    }
    pub fn settle(&mut self, area: usize) {
        let w = self.rings[area].total;
        self.floods[area] = if w > 10 {
            true
        } else if w < 5 {
            false
        } else {
            self.floods[area]
        };
    }
    pub fn put(&mut self, i: u32, outcome: Outcome) -> bool {
        match outcome {
            Outcome::Changed(row) => {
                self.file(i, row);
                false
            }
            Outcome::Shelved(row) => {
                self.file(i, row);
                self.next += 1;
                false
            }
            Outcome::Annunciated(row) => {
                self.file(i, row);
                self.next += 1;
                let ring = &mut self.rings[self.attrs[i as usize].area as usize];
                ring.total += 1;
                ring.counts[ring.present] += 1;
                let (kept, count) = &mut self.moments[i as usize];
                *kept = [self.now, kept[0], kept[1]];
                if *count < 3 {
                    *count += 1
                }
                true
            }
        }
    }
    pub fn apply(&mut self, action: &Action) {
        self.count += 1;
        match *action {
            Action::Clock(t) => {
                let alarms = self.slots.nodes;
                let mut out = std::mem::take(&mut self.working);
                out.clear();
                for turn in 0..(t - self.now).min(256) {
                    let slot = ((self.now + 1 + turn) % 256) as u32;
                    let mut at = self.slots.links[(alarms + slot) as usize].next;
                    while at < alarms {
                        if self.rows[at as usize].shelved_until.is_some_and(|d| d <= t) {
                            out.push(at)
                        }
                        at = self.slots.links[at as usize].next;
                    }
                }
                out.sort_unstable_by_key(|&i| (self.rows[i as usize].shelved_until, i));
                for ring in &mut self.rings {
                    if ring.total == 0 {
                        continue;
                    }
                    for _ in 0..(t - self.now).min(600) {
                        let oldest = if ring.present == 0 { 599 } else { ring.present - 1 };
                        ring.total -= ring.counts[oldest];
                        ring.counts[oldest] = 0;
                        ring.present = oldest;
                    }
                }
                self.now = t;
                for &i in &out {
                    let row = Row {
                        shelved_until: None,
                        ..self.rows[i as usize]
                    };
                    let next = reflagged(row, self.next);
                    self.put(i, next);
                }
                self.working = out;
                for area in 0..self.floods.len() {
                    self.settle(area)
                }
            }
            Action::Value(i, _)
            | Action::Ack(i)
            | Action::Reset(i)
            | Action::Shelve(i, _)
            | Action::Unshelve(i)
            | Action::Oos(i, _)
            | Action::Design(i, _) => {
                let a = &self.attrs[i as usize];
                let row = self.rows[i as usize];
                let area = a.area as usize;
                let stamp = self.next;
                let next = match *action {
                    Action::Value(_, v) => match detect(a, row.active, v) {
                        None => Outcome::Changed(row),
                        Some(active) => {
                            if row.suppressed() {
                                Outcome::Changed(Row { active, ..row })
                            } else {
                                led(
                                    row,
                                    active,
                                    if active { comes(row.core) } else { goes(row.core, a.latching) },
                                    stamp,
                                )
                            }
                        }
                    },
                    Action::Ack(_) => led(row, row.active, ack(row.core), stamp),
                    Action::Reset(_) => led(row, row.active, reset(row.core), stamp),
                    Action::Shelve(_, s) => Outcome::Shelved(Row {
                        core: Core::Normal,
                        shelved_until: Some(self.now + s as u64),
                        stamp,
                        ..row
                    }),
                    Action::Unshelve(_) => reflagged(
                        Row {
                            shelved_until: None,
                            ..row
                        },
                        stamp,
                    ),
                    Action::Oos(_, on) => reflagged(Row { out_of_service: on, ..row }, stamp),
                    Action::Design(_, on) => reflagged(Row { by_design: on, ..row }, stamp),
                    Action::Clock(_) => Outcome::Changed(row),
                };
                if self.put(i, next) {
                    self.settle(area)
                }
            }
        }
    }
    pub fn send(&mut self, slot: u8, want: Action) -> u32 {
        match self.check(slot, want) {
            Ok(action) => {
                self.apply(&action);
                1
            }
            Err(_) => 0,
        }
    }
    pub fn fill(&self, priority: u32, out: &mut Vec<u32>) {
        out.clear();
        let alarms = self.priorities.nodes;
        let mut at = self.priorities.links[(alarms + priority - 1) as usize].next;
        while at < alarms {
            out.push(at);
            at = self.priorities.links[at as usize].next;
        }
    }
}
