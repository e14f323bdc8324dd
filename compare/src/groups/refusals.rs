//! Every refusal, alone and with others, with the lent slices one byte short, exact and longer.
use crate::calls::{Calls, Outcome};
use crate::lines::Line;
use crate::lists::{list, list_after_lock};
use crate::random::Random;
use crate::reference::edition::Edition;
use crate::reference::sending;

/// Lengths around one that is wanted: one short (where it can be), exact, one more, and more.
fn around(wanted: usize) -> Vec<usize> {
    let mut lengths = vec![wanted, wanted + 1, wanted + 40];
    if wanted > 0 {
        lengths.extend([0, wanted / 2, wanted - 1]);
    }
    lengths
}

pub fn refusals(calls: &mut Calls) -> Outcome {
    sending(calls)?;
    first_control_byte(calls)?;
    receiving(calls)
}

/// The number of the edition, or an unknown one at times.
fn edition(calls: &mut Calls) -> u64 {
    match calls.random.below(16) {
        0 => 2 + calls.random.below(4) as u64,
        1 => calls.edition as u64 + (1 << calls.random.pick(&[8, 16, 32, 63])),
        _ => calls.edition as u64,
    }
}

/// A control byte above 15 in some word.
pub fn spoil_control_byte(vectors: &mut [u8], random: &mut Random) {
    if !vectors.is_empty() {
        let word = random.below(vectors.len().div_ceil(5));
        vectors[5 * word] = 16 + random.below(240) as u8;
    }
}

fn sending(calls: &mut Calls) -> Outcome {
    for length in [0, 1, 10, 39, 40, 41, 80, 400, 999_960, 999_999, 1_000_000, 1_000_001, 1_000_040] {
        let mut vectors = list(calls.edition, length / 40 * 4, 100, &mut calls.random);
        vectors.resize(length, 0);
        for spoilt in [false, true] {
            if spoilt {
                spoil_control_byte(&mut vectors, &mut calls.random);
            }
            for start in [0, (1 << 58) - 1, 1 << 58, u64::MAX] {
                send_around(calls, &vectors, start)?;
            }
        }
    }
    Ok(())
}

/// All rooms and summaries of a short list, and some of a long one.
fn send_around(calls: &mut Calls, vectors: &[u8], start: u64) -> Outcome {
    for room in around(vectors.len() / 40 * 33) {
        for summary in around(sending::SUMMARY_BYTES) {
            if vectors.len() < 1_000 || calls.random.once_in(12) {
                let edition = edition(calls);
                calls.send_into(edition, vectors, start, room, summary)?;
            }
        }
    }
    Ok(())
}

/// A control byte above 15 at each word of a list, and two at once: the first is the place.
fn first_control_byte(calls: &mut Calls) -> Outcome {
    for word in 0..48 {
        let mut vectors = list(calls.edition, 24, 0, &mut calls.random);
        vectors[5 * word] = 16 << calls.random.below(4);
        calls.send(&vectors, 0)?;
        spoil_control_byte(&mut vectors, &mut calls.random);
        calls.send(&vectors, 0)?;
    }
    for _ in 0..20 {
        let mut vectors = list(calls.edition, 400, 0, &mut calls.random);
        spoil_control_byte(&mut vectors, &mut calls.random);
        calls.send(&vectors, 0)?;
    }
    Ok(())
}

/// Noise where the length is odd, else control vectors that give lock, then frames and errors.
fn line(edition: Edition, length: usize, random: &mut Random) -> Vec<u8> {
    if length % 2 == 1 {
        return random.bytes(length);
    }
    let vectors = list_after_lock(edition, 8 * length / 66 + 1, 100, random);
    let mut line = Line::of_list(edition, &vectors, random.start_state()).bytes();
    line.truncate(length);
    line
}

fn receiving(calls: &mut Calls) -> Outcome {
    for length in [0, 1, 8, 9, 16, 17, 33, 66, 528, 700, 824_999, 825_000, 825_001, 900_000] {
        let line = line(calls.edition, length, &mut calls.random);
        for room in around(8 * length / 66 * 10) {
            receive_around(calls, &line, room)?;
        }
    }
    Ok(())
}

/// Lengths of a lent summary and of lent counters: none, around those that they want, around a summary's before request 3/13, long.
const LENGTHS: [usize; 13] = [0, 1, 31, 32, 33, 64, 79, 80, 81, 95, 96, 97, 200];

/// All summaries and counters of a short line, and some of a long one.
fn receive_around(calls: &mut Calls, line: &[u8], room: usize) -> Outcome {
    for summary in LENGTHS {
        for counters in LENGTHS {
            if line.len() < 1_000 || calls.random.once_in(25) {
                let old = calls.random.counters(counters);
                let edition = edition(calls);
                calls.receive_into(edition, line, room, summary, &old)?;
            }
        }
    }
    Ok(())
}
