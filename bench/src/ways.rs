//! The three that are checked equal and timed beside each other.
use crate::{fast, fastest};
use compare::library;

/// Edition, vectors, start state; line and summary are lent. 0, or a refusal.
type Send = fn(u64, &[u8], u64, &mut [u8], &mut [u8]) -> u64;
/// Edition and line; vectors, summary and counters are lent. 0, or a refusal.
type Receive = fn(u64, &[u8], &mut [u8], &mut [u8], &mut [u8]) -> u64;

/// One way to send and to receive, with the library's contract.
#[derive(Clone, Copy)]
pub struct Way {
    pub name: &'static str,
    pub send: Send,
    pub receive: Receive,
}

pub const WAYS: [Way; 3] = [
    Way { name: "library", send: library::send, receive: library::receive },
    Way { name: "plain Rust", send: fast::send, receive: fast::receive },
    Way { name: "fastest Rust", send: fastest::send, receive: fastest::receive },
];
