//! Error vectors and vectors of kind S counted in plain Rust, one after the other, with no index.

pub const ERROR: [u8; 10] = [0x0f, 0xfe, 0xfe, 0xfe, 0xfe, 0x0f, 0xfe, 0xfe, 0xfe, 0xfe];

fn is_control(octet: u8) -> bool {
    matches!(octet, 0x06 | 0x07 | 0xfe | 0x1c | 0x3c | 0x7c | 0xbc | 0xdc | 0xf7)
}

fn is_start(vector: &[u8]) -> bool {
    match (vector[0], vector[5]) {
        (0x01, 0x00) => vector[1] == 0xfb,
        (0x01, 0x01) => vector[6] == 0xfb && matches!(vector[1], 0x9c | 0x5c),
        (0x0f, 0x01) => vector[6] == 0xfb && vector[1..5].iter().all(|octet| is_control(*octet)),
        _ => false,
    }
}

/// The full count, of both.
pub fn full_count(vectors: &[u8]) -> [u64; 2] {
    vectors
        .chunks_exact(10)
        .fold([0, 0], |[errors, starts], vector| [errors + (vector == ERROR) as u64, starts + is_start(vector) as u64])
}
