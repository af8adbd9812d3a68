//! What `alm_speed rings` exchanges, over two channels of 64 of Rust's own library, by the calls that wait: one thread sends until 64
//! requests are unanswered, receives eight receipts, and so on; another answers.
mod receipt;

use receipt::{Action, ROOM, Receipt, count, refused};
use std::sync::mpsc::{Receiver, SyncSender, sync_channel};
use std::thread;

/// How many receipts are received before more requests are sent: with eight the most go through.
const TURN: u64 = 8;

fn ask(requests: SyncSender<Action>, replies: Receiver<Receipt>, count: u64) -> (u64, u64) {
    let (mut sent, mut received) = (0, 0);
    while received < count {
        while sent < count && sent - received < ROOM {
            requests.send(Action::Ack(0)).expect("it is taken");
            sent += 1;
        }
        for _ in 0..(sent - received).min(TURN) {
            received = replies.recv().expect("it is answered").serial;
        }
    }
    (sent, received)
}

fn answer(requests: Receiver<Action>, replies: SyncSender<Receipt>) -> u64 {
    let mut answered = 0;
    for request in requests {
        answered += 1;
        let receipt = refused(answered, request);
        replies.send(receipt).expect("it is received");
    }
    answered
}

fn main() {
    let count = count();
    let (to_answer, from_ask) = sync_channel(ROOM as usize);
    let (to_ask, from_answer) = sync_channel(ROOM as usize);
    let other = thread::spawn(move || answer(from_ask, to_ask));
    let (sent, received) = ask(to_answer, from_answer, count);
    let answered = other.join().expect("the thread ends");
    println!("sent {sent} taken {answered} released {answered} received {received}");
}
