//! Frames: one call of the library beside the same call of the second program, and words to make lists of.
use crate::calls::{same, Calls, Lent};
use crate::library;
use crate::reference::frames::{self, Frame, ENTRY_BYTES, SUMMARY_BYTES};
use crate::reference::vector::Character;

/// An entry of the list: word number, octets, and 1 where the frame is good, else 0.
pub type Entry = [u32; 3];

/// What listing gives: its result, and the entries, of which a refusal has none.
pub type Listed = (u64, Vec<Entry>);

impl Calls {
    /// What both give of a list of vectors.
    pub fn frames(&mut self, vectors: &[u8], room: usize, summary_room: usize) -> Result<Listed, String> {
        let mut input = Lent::new(vectors, &mut self.random);
        let mut list = Lent::new(&vec![0xa5; room], &mut self.random);
        let mut summary = Lent::new(&vec![0x5a; summary_room], &mut self.random);
        let answer = frames::list(vectors, room, summary_room);
        let (result, output, words) = match &answer {
            Ok(frames) => (0, frames::bytes(frames), frames::summary(frames)),
            Err(refusal) => self.refusal(*refusal, SUMMARY_BYTES, summary_room),
        };
        let expected = [input.with(&[]), list.with(&output), summary.with(&words)];
        let got = library::frames(input.slice(), list.slice(), summary.slice());
        let frames = answer.unwrap_or_default();
        self.tally.frames += frames.len() as u64;
        self.tally.good_frames += frames.iter().filter(|frame| frame.good()).count() as u64;
        self.tally.open_frames += frames.iter().filter(|frame| frame.end.is_none()).count() as u64;
        self.tally.small_lists += (result > 4 && result % 256 == 4) as u64;
        same(
            &format!("frames of {} bytes, list {room}, summary {summary_room}", vectors.len()),
            ["vectors", "list", "summary"],
            (result, &expected),
            (got, &[input, list, summary]),
        )?;
        Ok((result, frames.iter().map(Frame::entry).collect()))
    }

    /// The entries of a list of vectors that is not refused, with exactly the room that they want.
    pub fn all_frames(&mut self, vectors: &[u8]) -> Result<Vec<Entry>, String> {
        let room = ENTRY_BYTES * frames::frames(vectors).len();
        let (result, entries) = self.frames(vectors, room, SUMMARY_BYTES)?;
        assert_eq!(result, 0);
        Ok(entries)
    }
}

/// "A word is five bytes".
pub type Word = [u8; 5];

pub const IDLES: Word = [0x0f, 0x07, 0x07, 0x07, 0x07];
pub const START: Word = [0x01, 0xfb, 0x55, 0x55, 0x55];
pub const DATA: Word = [0x00, 0x10, 0x20, 0x30, 0x40];
pub const END: Word = [0x0f, 0xfd, 0x07, 0x07, 0x07];
/// A Start and its Terminate in one word, and four error characters.
pub const WHOLE: Word = [0x09, 0xfb, 0x55, 0x55, 0xfd];
pub const ERRORS: Word = [0x0f, 0xfe, 0xfe, 0xfe, 0xfe];
/// A sequence ordered set, Local Fault, and an ordered set that is none.
pub const SEQUENCE: Word = [0x01, 0x9c, 0x00, 0x00, 0x01];
pub const SIGNAL: Word = [0x01, 0x5c, 0x00, 0x00, 0x01];

/// A word with another character in a lane.
pub fn with(word: Word, lane: usize, character: Character) -> Word {
    let (octet, control) = match character {
        Character::Control(octet) => (octet, 1),
        Character::Data(octet) => (octet, 0),
    };
    let mut word = word;
    word[0] = word[0] & !(1 << lane) | control << lane;
    word[1 + lane] = octet;
    word
}

/// Words as a list of vectors, which come in fours: behind the words come idles, as many as are wanted for that.
pub fn filled(words: &[Word]) -> Vec<u8> {
    let mut vectors = words.concat();
    vectors.extend(IDLES.repeat((8 - words.len() % 8) % 8));
    vectors
}
