//! What `alm_speed rings` exchanges, over two channels of 64 of Rust's own library, polled as the rings are: one thread sends requests
//! and receives their receipts by turns, as many as go and then as many as have come, with up to 64 unanswered; another answers.
mod receipt;

use receipt::{Action, ROOM, Receipt, count, refused};
use std::sync::mpsc::{Receiver, SyncSender, sync_channel};
use std::{hint, thread};

const PAUSES: u32 = 40;

fn pause() {
    for _ in 0..PAUSES {
        hint::spin_loop();
    }
}

/// Sends up to so many, and says how many went.
fn send(requests: &SyncSender<Action>, most: u64) -> u64 {
    (0..most)
        .take_while(|_| requests.try_send(Action::Ack(0)).is_ok())
        .count() as u64
}

/// Receives what has come, and gives the serial of the last receipt.
fn receive(replies: &Receiver<Receipt>) -> Option<u64> {
    (0..ROOM)
        .map_while(|_| replies.try_recv().ok())
        .map(|receipt| receipt.serial)
        .last()
}

fn ask(requests: SyncSender<Action>, replies: Receiver<Receipt>, count: u64) -> (u64, u64) {
    let (mut sent, mut received) = (0, 0);
    while received < count {
        sent += send(&requests, (count - sent).min(ROOM + received - sent));
        pause();
        match receive(&replies) {
            Some(last) => received = last,
            None => thread::yield_now(),
        }
    }
    (sent, received)
}

fn answer(requests: Receiver<Action>, replies: SyncSender<Receipt>, count: u64) -> u64 {
    let mut answered = 0;
    while answered < count {
        match requests.try_recv() {
            Ok(request) => {
                answered += 1;
                assert!(replies.try_send(refused(answered, request)).is_ok());
            }
            Err(_) => thread::yield_now(),
        }
    }
    answered
}

fn main() {
    let count = count();
    let (to_answer, from_ask) = sync_channel(ROOM as usize);
    let (to_ask, from_answer) = sync_channel(ROOM as usize);
    let other = thread::spawn(move || answer(from_ask, to_ask, count));
    let (sent, received) = ask(to_answer, from_answer, count);
    let answered = other.join().expect("the thread ends");
    println!("sent {sent} taken {answered} released {answered} received {received}");
}
