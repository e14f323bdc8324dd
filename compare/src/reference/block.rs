//! "Characters", "Block formats" and "Kinds", and what request 9/13 adds to them.
use super::edition::Edition;
use super::vector::{characters, vector, Character, Vector};
use std::sync::LazyLock;
use Character::{Control, Data};

#[derive(Clone, Copy, PartialEq, Eq, Debug)]
pub enum Kind {
    D,
    C,
    S,
    T,
    E,
    /// Eight low power idles: in the new edition alone.
    LI,
}

/// "Block bits 0 and 1 are the header [..] Bits 2 to 65 are the payload, lowest bit of each field first."
#[derive(Clone, Copy, PartialEq, Eq, Debug)]
pub struct Block {
    pub header: [bool; 2],
    pub payload: [bool; 64],
}

/// "0 then 1 for data, 1 then 0 for control."
pub const DATA: [bool; 2] = [false, true];
pub const CONTROL: [bool; 2] = [true, false];

/// Table 49-1: XGMII octet and 7-bit code. Request 9/13: the newer edition "adds the low power idle character, XGMII 06 with code 06".
#[rustfmt::skip]
const CODES: [(u8, u8); 9] = [
    (0x07, 0x00), (0xfe, 0x1e), (0x1c, 0x2d), (0x3c, 0x33), (0x7c, 0x4b), (0xbc, 0x55), (0xdc, 0x66), (0xf7, 0x78),
    (0x06, 0x06),
];

/// The character table of an edition: "These eight 7-bit codes are the valid control characters", and the ninth in the new one.
pub fn codes(edition: Edition) -> &'static [(u8, u8)] {
    match edition {
        Edition::Old => &CODES[..8],
        Edition::New => &CODES,
    }
}

/// The kinds that a block can have.
pub fn kinds(edition: Edition) -> &'static [Kind] {
    const KINDS: [Kind; 6] = [Kind::D, Kind::C, Kind::S, Kind::T, Kind::E, Kind::LI];
    match edition {
        Edition::Old => &KINDS[..5],
        Edition::New => &KINDS,
    }
}

/// "9c has ordered set code 0 and 5c code f."
pub const O_CODES: [(u8, u8); 2] = [(0x9c, 0x0), (0x5c, 0xf)];

/// "fb is Start, fd Terminate".
pub const START: u8 = 0xfb;
pub const TERMINATE: u8 = 0xfd;

/// Figure 49-7 as the document prints it: type, the kind of a block whose codes are all valid, characters, fields after the type.
#[rustfmt::skip]
const FIGURE: [(u8, Kind, &str, &str); 15] = [
    (0x1e, Kind::C, "C0 C1 C2 C3 C4 C5 C6 C7", "C0 C1 C2 C3 C4 C5 C6 C7"),
    (0x2d, Kind::C, "C0 C1 C2 C3 O4 D5 D6 D7", "C0 C1 C2 C3 O4 D5 D6 D7"),
    (0x33, Kind::S, "C0 C1 C2 C3 S4 D5 D6 D7", "C0 C1 C2 C3 -4 D5 D6 D7"),
    (0x66, Kind::S, "O0 D1 D2 D3 S4 D5 D6 D7", "D1 D2 D3 O0 -4 D5 D6 D7"),
    (0x55, Kind::C, "O0 D1 D2 D3 O4 D5 D6 D7", "D1 D2 D3 O0 O4 D5 D6 D7"),
    (0x78, Kind::S, "S0 D1 D2 D3 D4 D5 D6 D7", "D1 D2 D3 D4 D5 D6 D7"),
    (0x4b, Kind::C, "O0 D1 D2 D3 C4 C5 C6 C7", "D1 D2 D3 O0 C4 C5 C6 C7"),
    (0x87, Kind::T, "T0 C1 C2 C3 C4 C5 C6 C7", "-7 C1 C2 C3 C4 C5 C6 C7"),
    (0x99, Kind::T, "D0 T1 C2 C3 C4 C5 C6 C7", "D0 -6 C2 C3 C4 C5 C6 C7"),
    (0xaa, Kind::T, "D0 D1 T2 C3 C4 C5 C6 C7", "D0 D1 -5 C3 C4 C5 C6 C7"),
    (0xb4, Kind::T, "D0 D1 D2 T3 C4 C5 C6 C7", "D0 D1 D2 -4 C4 C5 C6 C7"),
    (0xcc, Kind::T, "D0 D1 D2 D3 T4 C5 C6 C7", "D0 D1 D2 D3 -3 C5 C6 C7"),
    (0xd2, Kind::T, "D0 D1 D2 D3 D4 T5 C6 C7", "D0 D1 D2 D3 D4 -2 C6 C7"),
    (0xe1, Kind::T, "D0 D1 D2 D3 D4 D5 T6 C7", "D0 D1 D2 D3 D4 D5 -1 C7"),
    (0xff, Kind::T, "D0 D1 D2 D3 D4 D5 D6 T7", "D0 D1 D2 D3 D4 D5 D6"),
];

/// A letter of the figure and the number behind it.
pub type Item = (char, usize);

pub struct Format {
    pub type_byte: u8,
    pub kind: Kind,
    pub characters: Vec<Item>,
    pub fields: Vec<Item>,
}

pub static FORMATS: LazyLock<Vec<Format>> = LazyLock::new(|| {
    FIGURE
        .iter()
        .map(|(type_byte, kind, characters, fields)| Format {
            type_byte: *type_byte,
            kind: *kind,
            characters: items(characters),
            fields: items(fields),
        })
        .collect()
});

fn items(text: &str) -> Vec<Item> {
    text.split(' ').map(|word| (word.chars().next().unwrap(), word[1..].parse().unwrap())).collect()
}

/// "C 7 bits, D 8, O 4, `-n` n unused bits".
pub fn width((letter, number): Item) -> usize {
    match letter {
        'C' => 7,
        'D' => 8,
        'O' => 4,
        '-' => number,
        _ => unreachable!("no such field"),
    }
}

fn second(table: &[(u8, u8)], octet: u8) -> Option<u8> {
    table.iter().find(|pair| pair.0 == octet).map(|pair| pair.1)
}

fn first(table: &[(u8, u8)], code: u8) -> Option<u8> {
    table.iter().find(|pair| pair.1 == code).map(|pair| pair.0)
}

/// What a character of a vector puts into its field, where the figure's letter fits it. Start and Terminate have no field.
fn sent(edition: Edition, letter: char, character: Character) -> Option<u8> {
    match (letter, character) {
        ('D', Data(octet)) => Some(octet),
        ('C', Control(octet)) => second(codes(edition), octet),
        ('O', Control(octet)) => second(&O_CODES, octet),
        ('S', Control(START)) | ('T', Control(TERMINATE)) => Some(0),
        _ => None,
    }
}

/// The character that a field's value stands for, where there is one.
pub fn received(edition: Edition, letter: char, value: u8) -> Option<Character> {
    match letter {
        'D' => Some(Data(value)),
        'C' => first(codes(edition), value).map(Control),
        'O' => first(&O_CODES, value).map(Control),
        'S' => Some(Control(START)),
        'T' => Some(Control(TERMINATE)),
        _ => unreachable!("no such character"),
    }
}

/// `count` bits of a payload from bit `at`, as a number, lowest bit first.
fn number(payload: &[bool; 64], at: usize, count: usize) -> u8 {
    (0..count).map(|i| (payload[at + i] as u8) << i).sum()
}

/// Puts a number into `count` bits of a payload from bit `at`.
pub fn put(payload: &mut [bool; 64], at: usize, count: usize, value: u8) {
    for i in 0..count {
        payload[at + i] = (value >> i) & 1 == 1;
    }
}

/// The block that carries a vector, where there is one.
pub fn encode(edition: Edition, vector: &Vector) -> Option<Block> {
    let characters = characters(vector);
    if let Some(block) = encode_data(&characters) {
        return Some(block);
    }
    FORMATS.iter().find_map(|format| encode_as(edition, format, &characters))
}

/// "A data block carries D0 to D7."
fn encode_data(characters: &[Character; 8]) -> Option<Block> {
    let mut payload = [false; 64];
    for (i, character) in characters.iter().enumerate() {
        let Data(octet) = character else {
            return None;
        };
        put(&mut payload, 8 * i, 8, *octet);
    }
    Some(Block { header: DATA, payload })
}

fn encode_as(edition: Edition, format: &Format, characters: &[Character; 8]) -> Option<Block> {
    for (letter, i) in &format.characters {
        sent(edition, *letter, characters[*i])?;
    }
    let mut payload = [false; 64];
    put(&mut payload, 0, 8, format.type_byte);
    let mut at = 8;
    for field in &format.fields {
        let (letter, i) = *field;
        if letter != '-' {
            put(&mut payload, at, width(*field), sent(edition, letter, characters[i])?);
        }
        at += width(*field);
    }
    Some(Block { header: CONTROL, payload })
}

/// The format of a control block's type byte, where it is one of the fifteen.
pub fn format_of(block: &Block) -> Option<&'static Format> {
    FORMATS.iter().find(|format| format.type_byte == number(&block.payload, 0, 8))
}

/// The value of each field of a control block, with the field and its first bit.
pub fn fields_of(format: &Format, block: &Block) -> Vec<(Item, usize, u8)> {
    let mut at = 8;
    let mut fields = Vec::new();
    for field in &format.fields {
        fields.push((*field, at, number(&block.payload, at, width(*field))));
        at += width(*field);
    }
    fields
}

/// "A received block is: D, header 01. C, header 10 and [..]. E, all else."
pub fn kind(edition: Edition, block: &Block) -> Kind {
    match block.header {
        DATA => Kind::D,
        CONTROL => format_of(block).map_or(Kind::E, |format| kind_as(edition, format, block)),
        _ => Kind::E,
    }
}

fn kind_as(edition: Edition, format: &Format, block: &Block) -> Kind {
    let fields = fields_of(format, block);
    for ((letter, _), _, value) in &fields {
        let valid = *letter == '-' || received(edition, *letter, *value).is_some();
        // "type 1e with eight valid codes none of which is 1e"
        if !valid || (format.type_byte == 0x1e && *value == 0x1e) {
            return Kind::E;
        }
    }
    // request 9/13: type 1e with eight codes 06 is the extra kind; a mixture with others stays what it was
    if format.type_byte == 0x1e && fields.iter().all(|(_, _, value)| *value == 0x06) {
        return Kind::LI;
    }
    format.kind
}

/// "A vector to be sent has the kind of the block that would carry it, E if none."
pub fn kind_of_vector(edition: Edition, vector: &Vector) -> Kind {
    encode(edition, vector).map_or(Kind::E, |block| kind(edition, &block))
}

/// The vector of a block that is not of kind E.
pub fn decode(edition: Edition, block: &Block) -> Vector {
    if block.header == DATA {
        return vector(&std::array::from_fn(|i| Data(number(&block.payload, 8 * i, 8))));
    }
    let format = format_of(block).unwrap();
    let fields = fields_of(format, block);
    vector(&std::array::from_fn(|i| {
        let (letter, _) = format.characters[i];
        let field = fields.iter().find(|(item, _, _)| *item == (letter, i));
        received(edition, letter, field.map_or(0, |(_, _, value)| *value)).unwrap()
    }))
}

/// "In state E the sent block is type 1e with eight codes 1e".
pub fn error_block(edition: Edition) -> Block {
    encode(edition, &super::vector::ERROR).unwrap()
}
