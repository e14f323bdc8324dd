//! Damaged lines.
use crate::calls::{Calls, Outcome};
use crate::lines::{self, Line};
use crate::lists::list_after_lock;
use crate::random::Random;
use crate::reference::block::Block;
use crate::reference::diagrams::WINDOW;
use crate::reference::edition::{Edition, EDITIONS};

/// A good line of `n` blocks, sent in this edition, that locks at once.
pub fn good(edition: Edition, n: usize, random: &mut Random) -> Line {
    let strays = random.pick(&[0, 20]);
    let vectors = list_after_lock(edition, n, strays, random);
    Line::of_list(edition, &vectors, random.start_state())
}

pub fn flips(calls: &mut Calls) -> Outcome {
    for n in 0..2_000 {
        let blocks = 68 + 4 * calls.random.below(40);
        let sender = calls.random.pick(&EDITIONS);
        let mut line = good(sender, blocks, &mut calls.random);
        let from = if n % 3 == 0 { 0 } else { 66 * 64 };
        line.flip_some(n % 4, from, &mut calls.random);
        calls.receive(&line.bytes())?;
    }
    Ok(())
}

pub fn noise(calls: &mut Calls) -> Outcome {
    for _ in 0..500 {
        let mut line = good(calls.edition, 400, &mut calls.random);
        for _ in 0..1 + calls.random.below(3) {
            let from = calls.random.below(line.bits.len());
            let count = 1 << calls.random.below(14);
            line.burst(from, count, &mut calls.random);
        }
        calls.receive(&line.bytes())?;
    }
    for _ in 0..300 {
        let count = calls.random.below(3_000);
        let bytes = calls.random.bytes(count);
        calls.receive(&bytes)?;
    }
    for byte in [0x00, 0xff, 0x55, 0xaa, 0x01, 0x80] {
        calls.receive(&[byte; 5_000])?;
    }
    Ok(())
}

/// Data and control blocks whose payload bits are fair coins, so that a wrong position shows an invalid header soon.
pub fn hunted(n: usize, random: &mut Random) -> Line {
    let blocks: Vec<Block> =
        (0..n).map(|_| if random.once_in(2) { lines::data(random) } else { lines::control(random) }).collect();
    Line::of_blocks(&blocks, random.start_state())
}

pub fn slips(calls: &mut Calls) -> Outcome {
    for position in 0..66 {
        let mut line = hunted(1_000, &mut calls.random);
        line.cut(0, position);
        let middle = 66 * 500 + calls.random.below(66);
        line.cut(middle, position);
        calls.receive(&line.bytes())?;
        let mut line = good(calls.edition, 1_000, &mut calls.random);
        let middle = 66 * 200 + calls.random.below(66);
        line.stretch(middle, position, &mut calls.random);
        calls.receive(&line.bytes())?;
    }
    Ok(())
}

pub fn lock(calls: &mut Calls) -> Outcome {
    for n in 0..400 {
        let mut line = good(calls.edition, 600, &mut calls.random);
        // some 4 to 24 invalid headers in 64
        let one_in = 2 + n % 15;
        for block in 64..600 {
            if calls.random.once_in(one_in) {
                line.spoil_header(block);
            }
        }
        calls.receive(&line.bytes())?;
    }
    // 15, 16 or 17 invalid headers in a span of 64, wherever the span lies
    for _ in 0..400 {
        let mut line = good(calls.edition, 400, &mut calls.random);
        let from = 64 + calls.random.below(200);
        for _ in 0..15 + calls.random.below(4) {
            line.spoil_header(from + calls.random.below(64));
        }
        calls.receive(&line.bytes())?;
    }
    Ok(())
}

/// Spoils `count` headers of a window that begins at block `from`, its first and last blocks among them at times.
pub fn spoil_window(line: &mut Line, from: usize, count: usize, random: &mut Random) {
    let window = WINDOW as usize;
    let mut blocks = Vec::new();
    while blocks.len() < count {
        let block = match random.below(12) {
            0 => 0,
            1 => window - 1,
            2 => 1,
            3 => window - 2,
            _ => random.below(window),
        };
        if !blocks.contains(&block) {
            blocks.push(block);
        }
    }
    for block in blocks {
        if 66 * (from + block) < line.bits.len() {
            line.spoil_header(from + block);
        }
    }
}

pub fn rate(calls: &mut Calls) -> Outcome {
    for n in 0..9 {
        let mut line = good(calls.edition, 64 + 3 * WINDOW as usize + 400, &mut calls.random);
        for window in 0..4 {
            let count = calls.random.pick(&[0, 14, 15, 15, 16, 16, 17, 40]);
            spoil_window(&mut line, 64 + WINDOW as usize * window, count, &mut calls.random);
        }
        if n % 3 == 2 {
            // a loss of lock clears the counts, and the next windows begin elsewhere
            let from = 66 * (64 + calls.random.below(2 * WINDOW as usize));
            line.burst(from, 66 * 100, &mut calls.random);
        }
        calls.receive(&line.bytes())?;
    }
    for one_in in [100, 400, 1_200, 1_300, 2_000] {
        let mut line = good(calls.edition, 50_000, &mut calls.random);
        for block in 64..50_000 {
            if calls.random.once_in(one_in) {
                line.spoil_header(block);
            }
        }
        calls.receive(&line.bytes())?;
    }
    Ok(())
}

pub fn truncated(calls: &mut Calls) -> Outcome {
    let bytes = good(calls.edition, 100, &mut calls.random).bytes();
    for n in 0..=bytes.len() {
        calls.receive(&bytes[..n])?;
    }
    for _ in 0..200 {
        let mut line = good(calls.edition, 300, &mut calls.random);
        line.flip_some(2, 0, &mut calls.random);
        let bytes = line.bytes();
        let n = calls.random.below(bytes.len());
        calls.receive(&bytes[..n])?;
    }
    Ok(())
}
