//! Request 1/13: "The classification of a received block should say which: header, type, control code or ordered set code".
use super::block::{fields_of, format_of, received, Block, CONTROL, DATA};
use super::edition::Edition;

#[derive(Clone, Copy, PartialEq, Eq, Debug)]
pub enum Fault {
    Header,
    Type,
    ControlCode,
    SetCode,
}

/// "In that order".
pub const FAULTS: [Fault; 4] = [Fault::Header, Fault::Type, Fault::ControlCode, Fault::SetCode];

/// "The first of these"; none where the block is not bad.
pub fn fault(edition: Edition, block: &Block) -> Option<Fault> {
    FAULTS.into_iter().find(|fault| has(edition, block, *fault))
}

fn has(edition: Edition, block: &Block, fault: Fault) -> bool {
    match fault {
        Fault::Header => block.header != DATA && block.header != CONTROL,
        Fault::Type => block.header == CONTROL && format_of(block).is_none(),
        Fault::ControlCode => has_bad_code(edition, block, 'C'),
        Fault::SetCode => has_bad_code(edition, block, 'O'),
    }
}

/// Is the code of one of a control block's fields of this letter bad?
fn has_bad_code(edition: Edition, block: &Block, letter: char) -> bool {
    let Some(format) = format_of(block).filter(|_| block.header == CONTROL) else {
        return false;
    };
    // "code 1e in a block of type 1e is a control code fault"
    let bad = |code| received(edition, letter, code).is_none() || (format.type_byte == 0x1e && code == 0x1e);
    fields_of(format, block).into_iter().any(|((field, _), _, code)| field == letter && bad(code))
}
