//! What goes over the channels: requests and their receipts.

/// How many requests may be unanswered, and how many each channel holds.
pub const ROOM: u64 = 64;

#[derive(Clone, Copy)]
#[allow(dead_code)]
pub enum Action {
    Ack(u32),
    Value(u32, i64),
}

#[allow(dead_code)]
pub enum Verdict {
    Accepted(Action),
    Refused(u8, u64),
}

#[allow(dead_code)]
pub struct Receipt {
    pub serial: u64,
    pub verdict: Verdict,
    pub number: u64,
}

pub fn refused(serial: u64, request: Action) -> Receipt {
    let refusal = match request {
        Action::Ack(_) => 2,
        Action::Value(..) => 9,
    };
    Receipt {
        serial,
        verdict: Verdict::Refused(refusal, 1000),
        number: 1000,
    }
}

/// How many requests go through.
pub fn count() -> u64 {
    std::env::args()
        .nth(1)
        .and_then(|word| word.parse().ok())
        .unwrap_or(100_000)
}
