//! How calls are timed.
use crate::frames;
use crate::index;
use crate::traffic::Traffic;
use crate::ways::WAYS;
use compare::library;
use compare::reference::edition::Edition;
use compare::reference::state::VECTORS;
use std::cell::RefCell;
use std::hint::black_box;
use std::time::{Duration, Instant};

/// All rows are timed so many times over, for what else the machine does comes and goes, and each time with so many calls at least, and for
/// so long.
pub const ROUNDS: usize = 5;
const CALLS: usize = 50;
const AT_LEAST: Duration = Duration::from_millis(100);
/// A call over fewer blocks is timed with others of its kind, about so many blocks in all.
const BLOCKS_AT_A_TIME: usize = 2_000;

/// Something that is timed in rounds: how, and the best so far, in ns.
pub struct Timed {
    time: Box<dyn Fn() -> Vec<f64>>,
    pub best: Vec<f64>,
}

impl Timed {
    fn new<const N: usize>(time: impl Fn() -> [f64; N] + 'static) -> Timed {
        Timed { time: Box::new(move || time().to_vec()), best: vec![f64::MAX; N] }
    }

    pub fn again(&mut self) {
        let times = (self.time)();
        self.best.iter_mut().zip(times).for_each(|(best, time)| *best = best.min(time));
    }
}

/// A vector, and so the room that an empty burst asks for.
const VECTOR_BYTES: usize = 10;

/// What is lent to a call. Sending has no counters.
#[derive(Clone, PartialEq)]
pub struct Lent {
    pub out: Vec<u8>,
    pub summary: [u8; library::RECEIVE_SUMMARY_BYTES],
    pub counters: [u8; library::COUNTERS_BYTES],
}

impl Lent {
    fn new(room: usize) -> Lent {
        let (summary, counters) = ([0; library::RECEIVE_SUMMARY_BYTES], [0; library::COUNTERS_BYTES]);
        Lent { out: vec![0; room], summary, counters }
    }
}

/// Nanoseconds a block of the best call of each way, called in turn, each on buffers of its own, after a look that they agree. A call over no
/// block counts as one over one.
fn best<const N: usize>(blocks: usize, room: usize, call: impl Fn(usize, &mut Lent) -> u64) -> [f64; N] {
    let blocks = blocks.max(1);
    let mut lents = [(); N].map(|_| Lent::new(room));
    let results: Vec<u64> = lents.iter_mut().enumerate().map(|(way, lent)| call(way, lent)).collect();
    assert!(results.iter().all(|result| *result == 0) && lents.iter().all(|lent| *lent == lents[0]), "they differ");
    let together = (BLOCKS_AT_A_TIME / blocks).max(1);
    let mut best = [f64::MAX; N];
    let (mut calls, all_began) = (0, Instant::now());
    while calls < CALLS || all_began.elapsed() < AT_LEAST {
        for (way, lent) in lents.iter_mut().enumerate() {
            let began = Instant::now();
            for _ in 0..together {
                black_box(call(way, black_box(lent)));
            }
            best[way] = best[way].min(began.elapsed().as_secs_f64());
        }
        calls += 1;
    }
    best.map(|seconds| seconds * 1e9 / (together * blocks) as f64)
}

/// The three ways to send, in ns a block.
pub fn sending(edition: Edition, vectors: Vec<u8>) -> Timed {
    Timed::new::<3>(move || {
        best(vectors.len() / 10, vectors.len() / 40 * 33, |way, lent| {
            (WAYS[way].send)(edition as u64, &vectors, 0, &mut lent.out, &mut lent.summary)
        })
    })
}

/// The three ways to receive, in ns a block.
pub fn receiving(edition: Edition, line: Vec<u8>) -> Timed {
    let blocks = tested(edition, &line);
    Timed::new::<3>(move || {
        best(blocks, 8 * line.len() / 66 * 10, |way, lent| {
            (WAYS[way].receive)(edition as u64, &line, &mut lent.out, &mut lent.summary, &mut lent.counters)
        })
    })
}

/// The library's two ways to receive, in bursts of this many bytes and in one call, in ns a block.
pub fn bursts(edition: Edition, line: Vec<u8>, bytes: usize) -> Timed {
    let blocks = tested(edition, &line);
    Timed::new::<2>(move || {
        best(blocks, 8 * line.len() / 66 * 10, |way, lent| match way {
            0 => in_bursts(edition as u64, &line, bytes, lent),
            _ => library::receive(edition as u64, &line, &mut lent.out, &mut lent.summary, &mut lent.counters),
        })
    })
}

/// An empty burst after this line, in ns a call.
pub fn empty_burst(edition: Edition, line: &[u8]) -> Timed {
    let mut state = [0; library::STATE_BYTES];
    let Lent { mut out, mut summary, mut counters } = Lent::new(8 * line.len() / 66 * 10 + VECTOR_BYTES);
    let begun = library::begin(edition as u64, &mut state);
    let done = begun | library::burst(&mut state, line, &mut out, &mut summary, &mut counters);
    assert_eq!(done, 0, "refused");
    let state = RefCell::new(state);
    Timed::new::<1>(move || {
        best(1, VECTOR_BYTES, |_, lent| {
            let state = &mut *state.borrow_mut();
            library::burst(state, &[], &mut lent.out, &mut lent.summary, &mut lent.counters)
        })
    })
}

/// The frames of vectors, by the library and in plain Rust, in ns a word. The list has room for any.
pub fn frames(vectors: Vec<u8>) -> Timed {
    Timed::new::<2>(move || {
        best(vectors.len() / 5, vectors.len() / 10 * 12, |way, lent| {
            let list = [library::frames, frames::list][way];
            list(&vectors, &mut lent.out, &mut lent.summary)
        })
    })
}

/// An index of these vectors built, the count up to the last of them and the search for the last error with it, and the full count in plain
/// Rust, in us a call.
pub fn index(vectors: Vec<u8>) -> Timed {
    let (number, [errors, _]) = (vectors.len() as u64 / 10, index::full_count(&vectors));
    let bytes = (vectors.len() / 640 + 1) * 8;
    let mut built = vec![0; bytes];
    assert_eq!(library::index(&vectors, &mut built), 0, "refused");
    Timed::new::<4>(move || {
        [0, 1, 2, 3].map(|what| {
            let [us] = best(1_000, bytes, |_, lent| match what {
                0 => library::index(&vectors, &mut lent.out),
                1 => library::count(&vectors, &built, 1, number - 1, &mut lent.summary),
                2 => library::find_error(&vectors, &built, errors, &mut lent.summary),
                _ => (black_box(index::full_count(black_box(&vectors))) == [0, 0]) as u64,
            });
            us
        })
    })
}

/// How many blocks of a line are tested.
pub fn tested(edition: Edition, line: &[u8]) -> usize {
    let (_, summary) = library::received(edition, line);
    library::word(&summary, 0) as usize
}

/// A line in bursts of this many bytes, and the closing call. Each has the rest of the room that one call over the whole has.
fn in_bursts(edition: u64, line: &[u8], bytes: usize, lent: &mut Lent) -> u64 {
    let mut state = [0; library::STATE_BYTES];
    let mut result = library::begin(edition, &mut state);
    for burst in line.chunks(bytes) {
        let handed_out = 10 * library::word(&state, VECTORS) as usize;
        let room = &mut lent.out[handed_out..];
        result |= library::burst(&mut state, burst, room, &mut lent.summary, &mut lent.counters);
    }
    let handed_out = 10 * library::word(&state, VECTORS) as usize;
    result | library::close(&mut state, &mut lent.out[handed_out..], &mut lent.summary, &mut lent.counters)
}

/// The line that is received.
pub fn line_of(edition: Edition, t: &Traffic) -> Vec<u8> {
    t.line.clone().unwrap_or_else(|| library::sent(edition, &t.vectors, 0).0)
}
