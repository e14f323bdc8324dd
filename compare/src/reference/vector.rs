//! "Vectors, words and line bits": words, vectors and their characters.

/// "A vector is two words, ten bytes, characters 0 to 7."
pub type Vector = [u8; 10];

/// "Error vector".
pub const ERROR: Vector = [0x0f, 0xfe, 0xfe, 0xfe, 0xfe, 0x0f, 0xfe, 0xfe, 0xfe, 0xfe];

/// "Local Fault vector".
pub const LOCAL_FAULT: Vector = [0x01, 0x9c, 0x00, 0x00, 0x01, 0x01, 0x9c, 0x00, 0x00, 0x01];

#[derive(Clone, Copy, PartialEq, Eq, Debug)]
pub enum Character {
    Control(u8),
    Data(u8),
}

/// "A word is five bytes: a control byte (bit i set when lane i carries a control character), then lanes 0 to 3."
pub fn lanes(word: &[u8]) -> [Character; 4] {
    std::array::from_fn(|lane| {
        let octet = word[1 + lane];
        if (word[0] >> lane) & 1 == 1 {
            Character::Control(octet)
        } else {
            Character::Data(octet)
        }
    })
}

/// The characters of a vector's two words.
pub fn characters(vector: &Vector) -> [Character; 8] {
    let words = [lanes(&vector[..5]), lanes(&vector[5..])];
    std::array::from_fn(|i| words[i / 4][i % 4])
}

/// The vector with these characters.
pub fn vector(characters: &[Character; 8]) -> Vector {
    let mut vector = [0; 10];
    for (i, character) in characters.iter().enumerate() {
        let (word, lane) = (5 * (i / 4), i % 4);
        vector[word + 1 + lane] = match character {
            Character::Control(octet) | Character::Data(octet) => *octet,
        };
        if let Character::Control(_) = character {
            vector[word] |= 1 << lane;
        }
    }
    vector
}
