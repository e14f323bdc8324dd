//! One block at a time: types, octets, codes.
use crate::calls::{Calls, Outcome};
use crate::lines::{self, block, carrying, of_any_kind, Line};
use crate::lists;
use crate::random::Random;
use crate::reference::block::{kind, kinds, put, width, Block, Format, Kind, FORMATS};
use crate::reference::edition::Edition;
use crate::reference::vector::Vector;

/// A line in lock whose block 64 or 65 is this one: after a block that gives any diagram state, before any kind or none.
fn around(edition: Edition, tested: Block, random: &mut Random) -> Line {
    let mut blocks = vec![lines::idle(); 64];
    if !random.once_in(4) {
        blocks.push(of_any_kind(edition, random));
    }
    blocks.push(tested);
    if !random.once_in(8) {
        blocks.push(of_any_kind(edition, random));
    }
    Line::of_blocks(&blocks, random.start_state())
}

/// Payloads that stand at an edge: all codes idle, all ones, all codes 1e, all codes 06, both O codes f, one of them.
fn edges() -> [u64; 6] {
    let all = |code: u64| (0..8).map(|i| code << (8 + 7 * i)).sum();
    [0, u64::MAX, all(0x1e), all(0x06), 0xff << 32, 0x0f << 32]
}

pub fn types(calls: &mut Calls) -> Outcome {
    for header in [[false, false], [false, true], [true, false], [true, true]] {
        for type_byte in 0..=255 {
            let random_ones = [(); 7].map(|_| calls.random.word());
            for rest in edges().into_iter().chain(random_ones) {
                let tested = block(header, (rest & !255) | type_byte);
                let line = around(calls.edition, tested, &mut calls.random);
                calls.receive(&line.bytes())?;
            }
        }
    }
    Ok(())
}

/// A vector with another octet, data or control, in one character position.
fn with_octet(vector: &Vector, position: usize, octet: u8, control: bool) -> Vector {
    let (word, lane) = (5 * (position / 4), position % 4);
    let mut changed = *vector;
    changed[word + 1 + lane] = octet;
    changed[word] = (vector[word] & !(1 << lane)) | ((control as u8) << lane);
    changed
}

pub fn octets(calls: &mut Calls) -> Outcome {
    for format in 0..=FORMATS.len() {
        for position in 0..8 {
            for control in [false, true] {
                let mut list = lists::idle().repeat(64);
                for octet in 0..=255 {
                    let good = match FORMATS.get(format) {
                        Some(format) => lists::of_format(calls.edition, format, &mut calls.random),
                        None => lists::data(&mut calls.random),
                    };
                    let before = calls.random.pick(kinds(calls.edition));
                    list.extend(lists::of_kind(calls.edition, before, &mut calls.random));
                    list.extend(with_octet(&good, position, octet, control));
                }
                let start = calls.random.start_state();
                calls.both_ways(&list, start)?;
            }
        }
    }
    Ok(())
}

/// For each field of each format every value, with the other fields valid and the unused bits random.
pub fn codes(calls: &mut Calls) -> Outcome {
    for format in FORMATS.iter() {
        let mut at = 8;
        for field in &format.fields {
            let mut blocks = vec![lines::idle(); 64];
            for value in 0..1u32 << width(*field) {
                let mut tested = good(calls.edition, format, &mut calls.random);
                put(&mut tested.payload, at, width(*field), value as u8);
                blocks.push(of_any_kind(calls.edition, &mut calls.random));
                blocks.push(tested);
            }
            let start = calls.random.start_state();
            calls.receive(&Line::of_blocks(&blocks, start).bytes())?;
            at += width(*field);
        }
    }
    Ok(())
}

/// A block of a format that is not bad, its unused bits random.
pub fn good(edition: Edition, format: &Format, random: &mut Random) -> Block {
    loop {
        let mut block = carrying(&lists::of_format(edition, format, random));
        unused(format, &mut block, random);
        if kind(edition, &block) != Kind::E {
            return block;
        }
    }
}

/// Random bits where the format has none of its own.
fn unused(format: &Format, block: &mut Block, random: &mut Random) {
    let mut at = 8;
    for field in &format.fields {
        if field.0 == '-' {
            for i in 0..width(*field) {
                block.payload[at + i] = random.word() & 1 == 1;
            }
        }
        at += width(*field);
    }
}
