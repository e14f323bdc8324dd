//! Lines that come in bursts: cut anywhere, with refused calls between, and over the length limit.
use super::damage::{good, hunted, spoil_window};
use crate::bursts::{Lends, Step};
use crate::calls::{enough, Calls, Outcome};
use crate::captures::Capture;
use crate::lines::{self, idle, of_any_kind, until_high, Line};
use crate::lists;
use crate::random::Random;
use crate::reference::block::Kind;
use crate::reference::diagrams::WINDOW;
use crate::reference::edition::Edition;
use crate::reference::receiving::MOST_LINE_BYTES;
use crate::reference::state::LINE_BYTES;

type Make = fn(Edition, &mut Random) -> Vec<u8>;

/// The lines of the other groups, as short as they can be and still show what they show.
const LINES: [Make; 12] = [
    clean,
    nearly_legal,
    lines::damaged,
    flipped,
    noise_after_lock,
    noise,
    one_byte,
    shifted,
    losing_lock,
    high,
    out_of_turn,
    last_frame,
];

const CUTTINGS: usize = 1_000;

pub fn bursts(calls: &mut Calls) -> Outcome {
    for make in LINES {
        let mut line = Vec::new();
        for n in 0..CUTTINGS {
            if n % 10 == 0 {
                line = make(calls.edition, &mut calls.random);
            }
            let capture = Capture::begin(calls)?;
            cut(calls, capture, &line)?;
        }
    }
    let tally = calls.tally;
    enough("calls that end inside a header", tally.in_header)?;
    enough("calls that end before a bit to skip", tally.before_skip)?;
    enough("calls that hold a Terminate", tally.held_end)
}

/// One of these lines.
pub fn some_line(edition: Edition, random: &mut Random) -> Vec<u8> {
    random.pick(&LINES)(edition, random)
}

fn clean(edition: Edition, random: &mut Random) -> Vec<u8> {
    let vectors = lists::list_after_lock(edition, 64 + random.below(60), 0, random);
    Line::of_list(edition, &vectors, random.start_state()).bytes()
}

fn nearly_legal(edition: Edition, random: &mut Random) -> Vec<u8> {
    let vectors = lists::list_after_lock(edition, 64 + random.below(60), 200, random);
    Line::of_list(edition, &vectors, random.start_state()).bytes()
}

fn flipped(edition: Edition, random: &mut Random) -> Vec<u8> {
    let mut line = good(edition, 110, random);
    line.flip_some(random.below(4), 66 * 64, random);
    line.bytes()
}

fn noise_after_lock(edition: Edition, random: &mut Random) -> Vec<u8> {
    let mut line = good(edition, 130, random);
    let from = 66 * 64 + random.below(66 * 40);
    line.burst(from, 1 << random.below(11), random);
    line.bytes()
}

fn noise(_: Edition, random: &mut Random) -> Vec<u8> {
    let bytes = random.below(800);
    random.bytes(bytes)
}

fn one_byte(_: Edition, random: &mut Random) -> Vec<u8> {
    vec![random.pick(&[0x00, 0xff, 0x55, 0xaa, 0x01, 0x80]); random.below(700)]
}

/// Bits are missing at the start, or bits of no block stand there, and lock is found after slips.
fn shifted(edition: Edition, random: &mut Random) -> Vec<u8> {
    let mut line = if random.once_in(2) { good(edition, 130, random) } else { hunted(220, random) };
    match random.below(2) {
        0 => line.cut(0, 30 + random.below(36)),
        _ => line.stretch(0, random.below(30), random),
    }
    line.bytes()
}

fn losing_lock(edition: Edition, random: &mut Random) -> Vec<u8> {
    let mut line = good(edition, 140, random);
    let one_in = 2 + random.below(5);
    (64..140).filter(|_| random.once_in(one_in)).for_each(|block| line.spoil_header(block));
    line.bytes()
}

/// Blocks of any kind before and after the 16th invalid header of a window.
fn high(edition: Edition, random: &mut Random) -> Vec<u8> {
    let mut blocks = until_high();
    let last = blocks.len() - 1;
    blocks[last - 3..last].fill_with(|| of_any_kind(edition, random));
    blocks.extend((0..10).map(|_| of_any_kind(edition, random)));
    Line::of_blocks(&blocks, random.start_state()).bytes()
}

fn out_of_turn(edition: Edition, random: &mut Random) -> Vec<u8> {
    let blocks: Vec<_> = (0..110).map(|n| if n < 64 { idle() } else { of_any_kind(edition, random) }).collect();
    Line::of_blocks(&blocks, random.start_state()).bytes()
}

/// Frames without data, and at the end a Terminate or what follows one.
fn last_frame(edition: Edition, random: &mut Random) -> Vec<u8> {
    let mut vectors = lists::idle().repeat(64);
    for _ in 0..20 {
        vectors.extend(lists::start());
        vectors.extend(lists::of_kind(edition, Kind::T, random));
    }
    vectors.extend(lists::idle().repeat(random.below(2)));
    let mut line = Line::of_list(edition, &vectors, random.start_state()).bytes();
    line.truncate(line.len() - random.below(20));
    line
}

/// The bursts that a line is cut into. Some are near each other, at times many of one byte, and some are empty.
fn cuts<'a>(line: &'a [u8], random: &mut Random) -> Vec<&'a [u8]> {
    let mut at = vec![0, line.len()];
    for _ in 0..random.below(9) {
        let place = match random.below(4) {
            0 => random.pick(&at),
            1 => (random.pick(&at) + random.below(20)).min(line.len()),
            _ => random.below(line.len() + 1),
        };
        at.push(place);
    }
    if random.once_in(8) {
        let first = random.below(line.len() + 1);
        at.extend((first..line.len()).take(30));
    }
    at.sort();
    at.windows(2).map(|ends| &line[ends[0]..ends[1]]).collect()
}

/// The rest of a capture, in bursts.
fn cut(calls: &mut Calls, mut capture: Capture, line: &[u8]) -> Outcome {
    for burst in cuts(line, &mut calls.random) {
        stumble(calls, &mut capture, Step::Burst(burst))?;
        capture.burst(calls, burst)?;
    }
    stumble(calls, &mut capture, Step::Close)?;
    capture.close(calls)?;
    // "9, any call after the closing one"
    for step in [Step::Close, Step::Burst(&line[..line.len().min(9)])] {
        let lends = capture.lends(step);
        refused(calls, &mut capture, step, &lends, 9)?;
    }
    capture.same_as_one_call()
}

fn refused(calls: &mut Calls, capture: &mut Capture, step: Step, lends: &Lends, number: u64) -> Outcome {
    match capture.call(calls, step, lends)? {
        result if result == number => Ok(()),
        result => Err(format!("result {result} and not {number}")),
    }
}

/// At times, calls before this one that are refused: a lent slice is too short, or the sum of the bytes too large.
fn stumble(calls: &mut Calls, capture: &mut Capture, step: Step) -> Outcome {
    while calls.random.once_in(3) {
        let mut lends = capture.lends(step);
        let random = &mut calls.random;
        match random.below(4) {
            0 => lends.room -= random.pick(&[1, 10, lends.room]),
            1 => lends.summary_room -= random.pick(&[1, 8, lends.summary_room]),
            2 => lends.counters.truncate(random.pick(&[31, 28, 0])),
            _ => lends.state.truncate(random.pick(&[231, 224, 0])),
        }
        refused(calls, capture, step, &lends, 4)?;
    }
    if calls.random.once_in(50) {
        let too_many = vec![0x55; MOST_LINE_BYTES + 1 - capture.words()[LINE_BYTES] as usize];
        let mut lends = capture.lends(Step::Burst(&too_many));
        lends.room -= calls.random.pick(&[0, lends.room]);
        refused(calls, capture, Step::Burst(&too_many), &lends, 1)?;
    }
    Ok(())
}

/// Cuttings around the end of a window with few and with many invalid headers. What comes before it is one burst.
pub fn windows(calls: &mut Calls) -> Outcome {
    for invalid in [0, 14, 15, 16, 17] {
        let blocks = 64 + WINDOW as usize;
        let mut line = good(calls.edition, blocks + 50, &mut calls.random);
        spoil_window(&mut line, 64, invalid, &mut calls.random);
        spoil_window(&mut line, blocks, invalid, &mut calls.random);
        let line = line.bytes();
        let (first, rest) = line.split_at(66 * (blocks - 30) / 8);
        let mut capture = Capture::begin(calls)?;
        capture.burst(calls, first)?;
        for _ in 0..CUTTINGS / 5 {
            cut(calls, capture.clone(), rest)?;
        }
    }
    Ok(())
}

/// "The length limit applies to the sum": 825,000 bytes in several bursts, then one more, then none.
pub fn longest(calls: &mut Calls) -> Outcome {
    for make in [clean as Make, noise] {
        let mut line: Vec<u8> = Vec::new();
        while line.len() < MOST_LINE_BYTES {
            line.extend(make(calls.edition, &mut calls.random));
        }
        line.truncate(MOST_LINE_BYTES);
        let mut capture = Capture::begin(calls)?;
        for burst in cuts(&line, &mut calls.random) {
            capture.burst(calls, burst)?;
        }
        for bytes in [1, 2, 500] {
            let more = Step::Burst(&line[..bytes]);
            let lends = capture.lends(more);
            refused(calls, &mut capture, more, &lends, 1)?;
        }
        capture.burst(calls, &[])?;
        capture.close(calls)?;
        capture.same_as_one_call()?;
    }
    Ok(())
}
