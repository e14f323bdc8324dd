//! Request 5/13: "Users want frames and not vectors." The frames of a list, "by Clause 46 as source document 004 drafts it".
use super::block::{START, TERMINATE};
use super::sending::{judge_control_bytes, judge_length};
use super::vector::{lanes, Character};
use super::{refused, Refusal};
use Character::{Control, Data};

/// Document 004's control characters: "07 Idle", "9C Sequence (only valid in lane 0)", "FE Receive error".
const IDLE: u8 = 0x07;
const SEQUENCE: u8 = 0x9c;
const ERROR: u8 = 0xfe;

/// An entry of the list is three numbers of 32 bits. The summary is one of 64 bits, the number of frames.
pub const ENTRY_BYTES: usize = 12;
pub const SUMMARY_BYTES: usize = 8;

pub struct Frame {
    /// "Word number from 0": of the word with the Start.
    pub word: usize,
    /// "Data octets after Start".
    pub octets: Vec<u8>,
    /// Did an error character come?
    pub error: bool,
    /// The control character at which it ends; none where it is "still open at the end".
    pub end: Option<Character>,
}

impl Frame {
    /// "Good only if that is Terminate and no error character came." So "a frame still open at the end is listed as bad".
    pub fn good(&self) -> bool {
        self.end == Some(Control(TERMINATE)) && !self.error
    }

    /// What is listed: "word number from 0, data octets after Start, good or bad".
    pub fn entry(&self) -> [u32; 3] {
        [self.word as u32, self.octets.len() as u32, self.good() as u32]
    }
}

/// The list as it crosses the C boundary.
pub fn bytes(frames: &[Frame]) -> Vec<u8> {
    frames.iter().flat_map(Frame::entry).flat_map(u32::to_le_bytes).collect()
}

/// The summary as it crosses it: the number of frames.
pub fn summary(frames: &[Frame]) -> Vec<u8> {
    (frames.len() as u64).to_le_bytes().to_vec()
}

/// What listing answers, given the lengths of the lent list and of the lent summary.
pub fn list(vectors: &[u8], room: usize, summary_room: usize) -> Result<Vec<Frame>, Refusal> {
    // "1, 2, 5 as in sending"
    judge_length(vectors)?;
    judge_control_bytes(vectors)?;
    if summary_room < SUMMARY_BYTES {
        return refused(4);
    }
    // "then 4 for a list too small, with the number of frames as place"
    let frames = frames(vectors);
    if room < ENTRY_BYTES * frames.len() {
        return Err(Refusal { number: 4, place: frames.len() });
    }
    Ok(frames)
}

/// The frames of any number of words: "Each frame is listed once, in order". Two words alone say whether one begins: where the first of
/// them is four idles or a sequence ordered set, no frame is open behind it.
pub fn frames(words: &[u8]) -> Vec<Frame> {
    let words: Vec<[Character; 4]> = words.chunks(5).map(lanes).collect();
    // "a Start in the very first word begins none"
    (1..words.len())
        .filter(|word| begins(words[word - 1], words[*word]))
        .map(|word| frame(word, &words.as_flattened()[4 * word + 1..]))
        .collect()
}

/// "A frame begins with Start in lane 0 of a word if the word before was four idles or a sequence ordered set".
fn begins(before: [Character; 4], word: [Character; 4]) -> bool {
    let idles = before == [Control(IDLE); 4];
    // document 004: "a Sequence control character in lane 0", and data in the others
    let sequence = matches!(before, [Control(SEQUENCE), Data(_), Data(_), Data(_)]);
    word[0] == Control(START) && (idles || sequence)
}

/// The frame with its Start in a word, given all characters after the Start, those of the same word too.
fn frame(word: usize, later: &[Character]) -> Frame {
    // "It ends at the first later control character that is not an error character"
    let ends = |character: &Character| matches!(character, Control(octet) if *octet != ERROR);
    let end = later.iter().position(ends).unwrap_or(later.len());
    Frame {
        word,
        octets: later[..end].iter().filter_map(data).collect(),
        error: later[..end].contains(&Control(ERROR)),
        end: later.get(end).copied(),
    }
}

/// The octet of a data character.
fn data(character: &Character) -> Option<u8> {
    match character {
        Data(octet) => Some(*octet),
        Control(_) => None,
    }
}
