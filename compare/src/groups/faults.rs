//! Why a block is bad: one bad block at a time, on lines that have no other but invalid headers.
use super::blocks::good;
use crate::calls::{Calls, Outcome};
use crate::lines::{block, control, idle, until_high, Line};
use crate::reference::block::{fields_of, put, width, Block, Format, Item, FORMATS};

pub fn faults(calls: &mut Calls) -> Outcome {
    headers_and_types(calls)?;
    for format in FORMATS.iter() {
        one_code(calls, format)?;
        two_codes(calls, format)?;
        all_codes(calls, format)?;
    }
    Ok(())
}

/// Receives a block by a receiver that is not locked, locked, and high.
fn receive(calls: &mut Calls, tested: Block) -> Outcome {
    for mut blocks in [vec![], vec![idle(); 64], until_high()] {
        blocks.push(tested);
        calls.receive(&Line::of_blocks(&blocks, 0).bytes())?;
    }
    Ok(())
}

fn headers_and_types(calls: &mut Calls) -> Outcome {
    for header in [[false, false], [false, true], [true, false], [true, true]] {
        for type_byte in 0..=255 {
            for rest in [0, calls.random.word()] {
                receive(calls, block(header, (rest & !255) | type_byte))?;
            }
        }
    }
    Ok(())
}

/// The fields of a format that hold a code, each with its first bit.
fn code_fields(format: &Format) -> Vec<(Item, usize)> {
    fields_of(format, &idle())
        .into_iter()
        .filter(|((letter, _), _, _)| matches!(letter, 'C' | 'O'))
        .map(|(field, at, _)| (field, at))
        .collect()
}

/// Every code in each field, the others good.
fn one_code(calls: &mut Calls, format: &Format) -> Outcome {
    for (field, at) in code_fields(format) {
        for code in 0..1 << width(field) {
            let mut tested = good(calls.edition, format, &mut calls.random);
            put(&mut tested.payload, at, width(field), code);
            receive(calls, tested)?;
        }
    }
    Ok(())
}

/// Any codes, most of them bad, in each two fields, the others good.
fn two_codes(calls: &mut Calls, format: &Format) -> Outcome {
    let fields = code_fields(format);
    for (i, one) in fields.iter().enumerate() {
        for other in &fields[i + 1..] {
            for _ in 0..16 {
                let mut tested = good(calls.edition, format, &mut calls.random);
                for (field, at) in [one, other] {
                    put(&mut tested.payload, *at, width(*field), calls.random.byte());
                }
                receive(calls, tested)?;
            }
        }
    }
    Ok(())
}

/// Any codes in all fields.
fn all_codes(calls: &mut Calls, format: &Format) -> Outcome {
    for _ in 0..64 {
        let mut tested = control(&mut calls.random);
        put(&mut tested.payload, 0, 8, format.type_byte);
        receive(calls, tested)?;
    }
    Ok(())
}
