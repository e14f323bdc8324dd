//! The lines that are timed, 100,000 blocks each.
use crate::index::ERROR;
use compare::lists;
use compare::random::Random;
use compare::reference::edition::Edition;

const BLOCKS: usize = 100_000;
const IDLE: (bool, u8) = (true, 0x07);

pub struct Traffic {
    pub name: &'static str,
    /// What is sent.
    pub vectors: Vec<u8>,
    /// What is received where it is not the line of the vectors.
    pub line: Option<Vec<u8>>,
}

/// Four lines for each edition, and one of low power idle for the new one.
pub fn all(edition: Edition) -> Vec<Traffic> {
    let mut random = Random::new(1);
    let noise = (0..BLOCKS).flat_map(|_| lists::any(&mut random)).collect();
    let noisy_line = random.bytes(BLOCKS / 4 * 33);
    let mut all = vec![
        Traffic { name: "all idle", vectors: lists::idle().repeat(BLOCKS), line: None },
        Traffic { name: "1,500-octet frames", vectors: long_frames(), line: None },
        Traffic { name: "64-octet frames", vectors: frames(|n| 64 + n % 8), line: None },
        Traffic { name: "noise", vectors: noise, line: Some(noisy_line) },
    ];
    if edition == Edition::New {
        all.push(low_power());
    }
    all
}

/// Those of an edition that the one before does not have.
pub fn new_in(edition: Edition) -> Vec<Traffic> {
    match edition {
        Edition::Old => all(edition),
        Edition::New => vec![low_power()],
    }
}

pub fn long_frames() -> Vec<u8> {
    frames(|_| 1_500)
}

/// A frame in every second word.
pub fn most_frames() -> Traffic {
    let vector = [0x0f, 0x07, 0x07, 0x07, 0x07, 0x03, 0xfb, 0xfd, 0x00, 0x00];
    Traffic { name: "as many frames as fit", vectors: vector.repeat(BLOCKS), line: None }
}

/// The same with an error vector in each hundred.
pub fn with_errors(mut traffic: Traffic) -> Traffic {
    traffic.vectors.chunks_mut(1_000).for_each(|hundred| hundred[500..510].copy_from_slice(&ERROR));
    traffic
}

/// 64 vectors of idles, then low power idle.
fn low_power() -> Traffic {
    let vectors = [lists::idle().repeat(64), lists::low_power().repeat(BLOCKS - 64)].concat();
    Traffic { name: "low power idle", vectors, line: None }
}

/// 64 vectors of idles, then frames back to back: Start and preamble, octets, Terminate and eleven idles, then idles up to a word.
/// Sizes that differ by up to seven put Terminate at all eight positions.
fn frames(size: impl Fn(usize) -> usize) -> Vec<u8> {
    let mut random = Random::new(2);
    let mut characters = vec![IDLE; 64 * 8];
    for n in 0.. {
        characters.push((true, 0xfb));
        characters.extend([(false, 0x55); 6]);
        characters.push((false, 0xd5));
        characters.extend((0..size(n)).map(|_| (false, random.byte())));
        characters.push((true, 0xfd));
        characters.extend([IDLE; 11]);
        characters.resize(characters.len().next_multiple_of(4), IDLE);
        if characters.len() >= 8 * BLOCKS {
            break;
        }
    }
    words(&characters[..8 * BLOCKS])
}

/// Characters as words: a control byte, then four lanes.
fn words(characters: &[(bool, u8)]) -> Vec<u8> {
    characters
        .chunks(4)
        .flat_map(|lanes| {
            let control = (0..4).map(|i| (lanes[i].0 as u8) << i).sum();
            [control, lanes[0].1, lanes[1].1, lanes[2].1, lanes[3].1]
        })
        .collect()
}
