//! Frames in plain Rust: one pass over the words, with the library's contract.

/// The bytes of an entry, and of the summary.
const ENTRY: usize = 12;
const SUMMARY: usize = 8;

/// A frame that is open: the word of its Start, its octets, and whether an error character came.
struct Open {
    word: usize,
    octets: u32,
    clean: bool,
}

/// Lists the frames of vectors: 0, or refusal number + 256 x place.
pub fn list(vectors: &[u8], list: &mut [u8], summary: &mut [u8]) -> u64 {
    let result = checked(vectors, list, summary.len() >= SUMMARY);
    if summary.len() >= SUMMARY {
        let number = if result == 0 { walk(vectors, &mut Entries::Written(list)) } else { 0 };
        summary[..SUMMARY].copy_from_slice(&(number as u64).to_le_bytes());
    }
    result
}

fn checked(vectors: &[u8], list: &[u8], summary_fits: bool) -> u64 {
    if vectors.len() > 1_000_000 {
        return 1;
    }
    if vectors.len() % 40 != 0 {
        return 2;
    }
    if let Some(word) = vectors.chunks_exact(5).position(|word| word[0] > 15) {
        return 5 + 256 * 5 * word as u64;
    }
    if !summary_fits {
        return 4;
    }
    if list.len() / ENTRY >= vectors.len() / 10 {
        return 0;
    }
    let number = walk(vectors, &mut Entries::Counted);
    if list.len() < ENTRY * number {
        return 4 + 256 * number as u64;
    }
    0
}

/// Where entries go.
enum Entries<'a> {
    Counted,
    Written(&'a mut [u8]),
}

impl Entries<'_> {
    fn put(&mut self, i: usize, open: &Open, good: bool) {
        if let Entries::Written(list) = self {
            let entry = &mut list[ENTRY * i..][..ENTRY];
            entry[..4].copy_from_slice(&(open.word as u32).to_le_bytes());
            entry[4..8].copy_from_slice(&open.octets.to_le_bytes());
            entry[8..].copy_from_slice(&(good as u32).to_le_bytes());
        }
    }
}

/// The frames one by one: how many they are.
fn walk(vectors: &[u8], entries: &mut Entries) -> usize {
    let (mut number, mut quiet, mut open) = (0, false, None);
    for (k, word) in vectors.chunks_exact(5).enumerate() {
        let (flags, lanes) = (word[0], u32::from_le_bytes([word[1], word[2], word[3], word[4]]));
        let ended = match &mut open {
            None if quiet && flags & 1 == 1 && word[1] == 0xfb => {
                let mut begun = Open { word: k, octets: 0, clean: true };
                let ended = read(&mut begun, word, 1);
                open = Some(begun);
                ended
            }
            None => None,
            Some(frame) if flags == 0 => {
                frame.octets += 4;
                None
            }
            Some(frame) => read(frame, word, 0),
        };
        if let (Some(good), Some(frame)) = (ended, &open) {
            entries.put(number, frame, good);
            number += 1;
            open = None;
        }
        quiet = flags == 15 && lanes == 0x0707_0707 || flags == 1 && word[1] == 0x9c;
    }
    if let Some(frame) = &open {
        entries.put(number, frame, false);
        number += 1;
    }
    number
}

/// The characters of a word from a lane on: whether the frame is good, where one of them ends it.
fn read(frame: &mut Open, word: &[u8], from: usize) -> Option<bool> {
    for lane in from..4 {
        if word[0] >> lane & 1 == 0 {
            frame.octets += 1;
        } else if word[1 + lane] == 0xfe {
            frame.clean = false;
        } else {
            return Some(frame.clean && word[1 + lane] == 0xfd);
        }
    }
    None
}
