//! Random vectors and lists of them.
use crate::random::Random;
use crate::reference::block::{codes, kind_of_vector, kinds, Format, Kind, FORMATS, O_CODES, START, TERMINATE};
use crate::reference::diagrams::{transmit, State};
use crate::reference::edition::Edition;
use crate::reference::vector::{vector, Character, Vector, ERROR};
use Character::{Control, Data};

/// Eight idles.
pub fn idle() -> Vector {
    vector(&[Control(0x07); 8])
}

/// Eight low power idles.
pub fn low_power() -> Vector {
    vector(&[Control(0x06); 8])
}

/// A Start and seven data octets.
pub fn start() -> Vector {
    vector(&std::array::from_fn(|i| if i == 0 { Control(START) } else { Data(0x55) }))
}

/// A Terminate and seven idles.
pub fn end() -> Vector {
    vector(&std::array::from_fn(|i| Control(if i == 0 { TERMINATE } else { 0x07 })))
}

/// A character that fits a letter of the block formats; control characters are mostly this one.
fn character(edition: Edition, letter: char, mostly: u8, random: &mut Random) -> Character {
    match letter {
        'D' => Data(random.byte()),
        'C' if random.once_in(4) => Control(random.pick(codes(edition)).0),
        'C' => Control(mostly),
        'O' => Control(random.pick(&O_CODES).0),
        'S' => Control(START),
        'T' => Control(TERMINATE),
        _ => unreachable!("no such character"),
    }
}

/// A vector that a format carries. Its control characters are mostly idles; in the new edition they are low power idles at times.
pub fn of_format(edition: Edition, format: &Format, random: &mut Random) -> Vector {
    let low_power = edition == Edition::New && random.once_in(4);
    let mostly = if low_power { 0x06 } else { 0x07 };
    vector(&std::array::from_fn(|i| character(edition, format.characters[i].0, mostly, random)))
}

/// A vector that some format carries.
fn of_some_format(edition: Edition, random: &mut Random) -> Vector {
    of_format(edition, &FORMATS[random.below(FORMATS.len())], random)
}

/// Eight data octets.
pub fn data(random: &mut Random) -> Vector {
    vector(&std::array::from_fn(|_| Data(random.byte())))
}

/// Any vector whose control bytes are at most 15.
pub fn any(random: &mut Random) -> Vector {
    let mut bytes = random.word().to_le_bytes().to_vec();
    bytes.extend(random.bytes(2));
    let mut vector: Vector = bytes.try_into().unwrap();
    vector[0] &= 15;
    vector[5] &= 15;
    vector
}

/// A vector that few bits keep from being a good one: one character of a good vector changed.
pub fn spoilt(edition: Edition, random: &mut Random) -> Vector {
    let mut vector = of_some_format(edition, random);
    let (word, lane) = (5 * random.below(2), random.below(4));
    match random.below(3) {
        0 => vector[word] ^= 1 << lane,
        1 => vector[word + 1 + lane] = random.pick(&[0xfe, 0xfb, 0xfd, 0x9c, 0x5c, 0x06, 0x07]),
        _ => vector[word + 1 + lane] ^= 1 << random.below(8),
    }
    vector
}

/// Mostly a bad vector; bad in the old edition alone are those that the new one carries.
fn bad(edition: Edition, random: &mut Random) -> Vector {
    match random.below(6) {
        0 => ERROR,
        1 => any(random),
        2 => low_power(),
        3 => of_some_format(Edition::New, random),
        _ => spoilt(edition, random),
    }
}

/// A vector of a kind that the edition has.
pub fn of_kind(edition: Edition, kind: Kind, random: &mut Random) -> Vector {
    loop {
        let vector = match kind {
            Kind::D => data(random),
            Kind::E => bad(edition, random),
            Kind::LI => low_power(),
            Kind::C if random.once_in(2) => idle(),
            _ => of_some_format(edition, random),
        };
        if kind_of_vector(edition, &vector) == kind {
            return vector;
        }
    }
}

/// Kinds that the transmit diagram takes with no error, `strays` in a thousand of them any kind at all.
pub struct Walk {
    edition: Edition,
    state: State,
    strays: usize,
}

impl Walk {
    pub fn new(edition: Edition, strays: usize) -> Walk {
        Walk { edition, state: State::Init, strays }
    }

    pub fn next(&mut self, random: &mut Random) -> Kind {
        let stray = random.below(1000) < self.strays;
        loop {
            let kind = match random.below(8) {
                0..=2 => Kind::D,
                3..=4 => Kind::C,
                _ => random.pick(kinds(self.edition)),
            };
            let state = transmit(self.state, kind);
            if stray || state != State::E {
                self.state = state;
                return kind;
            }
        }
    }
}

/// A list of `n` vectors; a legal one where `strays` is 0.
pub fn list(edition: Edition, n: usize, strays: usize, random: &mut Random) -> Vec<u8> {
    let mut walk = Walk::new(edition, strays);
    (0..n).flat_map(|_| of_kind(edition, walk.next(random), random)).collect()
}

/// A list of `n` vectors whose first 64 are control vectors.
pub fn list_after_lock(edition: Edition, n: usize, strays: usize, random: &mut Random) -> Vec<u8> {
    let mut vectors: Vec<u8> = (0..64.min(n)).flat_map(|_| of_kind(edition, Kind::C, random)).collect();
    vectors.extend(list(edition, n - 64.min(n), strays, random));
    vectors
}
