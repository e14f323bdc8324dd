//! The index: one call of the library beside the same call of the second program, and vectors to make lists of.
use crate::calls::{same, Calls, Lent};
use crate::library;
use crate::reference::block::{kind_of_vector, Kind, START};
use crate::reference::edition::Edition;
use crate::reference::index::{self, SUMMARY_BYTES};
use crate::reference::vector::{vector, Character, Vector};
use crate::reference::Refusal;
use Character::{Control, Data};

/// What an index is asked.
#[derive(Clone, Copy, Debug)]
pub enum Question {
    /// "How many from a up to but not b".
    Count(u64, u64),
    /// "Where is the n-th error vector".
    Find(u64),
}

/// What is answered: the result, and the words of the summary, which are zeros of a refusal. They are error vectors and vectors of kind S,
/// or a vector's number and how many entries were read.
pub type Answered = (u64, [u64; 2]);

impl Calls {
    /// What both give where an index is built into so many bytes: the result, and the index, of which a refusal has nothing.
    pub fn build(&mut self, vectors: &[u8], index_room: usize) -> Result<(u64, Vec<u8>), String> {
        let mut input = Lent::new(vectors, &mut self.random);
        let mut lent = Lent::new(&vec![0xa5; index_room], &mut self.random);
        let (result, output) = match index::build(vectors, index_room) {
            Ok(entries) => (0, index::bytes(&entries)),
            Err(refusal) => (self.refusal(refusal, 0, 0).0, Vec::new()),
        };
        let expected = [input.with(&[]), lent.with(&output)];
        let got = library::index(input.slice(), lent.slice());
        if result == 0 {
            self.tally.indexes += 1;
            self.tally.entries += (index_room / index::ENTRY_BYTES) as u64;
            self.tally.new_starts += new_starts(vectors);
        }
        same(
            &format!("the index of {} bytes, room {index_room}", vectors.len()),
            ["vectors", "index"],
            (result, &expected),
            (got, &[input, lent]),
        )?;
        Ok((result, output))
    }

    /// The index of a list that is not refused.
    pub fn built(&mut self, vectors: &[u8]) -> Result<Vec<u8>, String> {
        let (result, index) = self.build(vectors, index::index_bytes(vectors))?;
        assert_eq!(result, 0);
        Ok(index)
    }

    /// What both answer by any index.
    pub fn ask(
        &mut self,
        question: Question,
        vectors: &[u8],
        index: &[u8],
        summary_room: usize,
    ) -> Result<Answered, String> {
        let mut input = Lent::new(vectors, &mut self.random);
        let mut entries = Lent::new(index, &mut self.random);
        let mut summary = Lent::new(&vec![0x5a; summary_room], &mut self.random);
        let (result, words, content) = match self.reference_answer(question, vectors, index, summary_room) {
            Ok(words) => (0, words, index::summary(words)),
            Err(refusal) => {
                let (result, _, zeros) = self.refusal(refusal, SUMMARY_BYTES, summary_room);
                (result, [0, 0], zeros)
            }
        };
        let expected = [input.with(&[]), entries.with(&[]), summary.with(&content)];
        let (v, i, s) = (input.slice(), entries.slice(), summary.slice());
        let got = match question {
            Question::Count(a, b) => library::count(v, i, a, b, s),
            Question::Find(n) => library::find_error(v, i, n, s),
        };
        same(
            &described(question, vectors, index, summary_room),
            ["vectors", "index", "summary"],
            (result, &expected),
            (got, &[input, entries, summary]),
        )?;
        Ok((result, words))
    }

    fn reference_answer(
        &mut self,
        question: Question,
        vectors: &[u8],
        index: &[u8],
        summary_room: usize,
    ) -> Result<[u64; 2], Refusal> {
        match question {
            Question::Count(a, b) => {
                let counted = index::count(vectors, index, a, b, summary_room)?;
                self.tally.counts += 1;
                self.tally.held_counts += counted.is_changed() as u64;
                Ok(counted.held())
            }
            Question::Find(n) => {
                let found = index::find(vectors, index, n, summary_room);
                self.tally.not_found += found.is_err_and(|refusal| refusal.number == 12) as u64;
                let words = found?.words();
                self.tally.found += 1;
                self.tally.most_read = self.tally.most_read.max(words[1]);
                Ok(words)
            }
        }
    }
}

/// How many vectors are of kind S in the new edition alone.
fn new_starts(vectors: &[u8]) -> u64 {
    let is_start = |edition, vector: &[u8]| kind_of_vector(edition, vector.try_into().unwrap()) == Kind::S;
    let is_new = |vector: &&[u8]| is_start(Edition::New, vector) && !is_start(Edition::Old, vector);
    vectors.chunks(10).filter(|vector| vector.contains(&START)).filter(is_new).count() as u64
}

/// A question in words, with the first numbers of the index.
fn described(question: Question, vectors: &[u8], index: &[u8], summary_room: usize) -> String {
    let entries = index.chunks_exact(index::ENTRY_BYTES).take(8).flat_map(index::of_bytes);
    format!(
        "{question:?} in {} vectors, summary {summary_room}, by an index of {} bytes that begins {:?}",
        index::number_of(vectors),
        index.len(),
        entries.collect::<Vec<_>>()
    )
}

/// A Start in the middle, after four control characters of this octet: a block of type 33.
pub fn late_start(octet: u8) -> Vector {
    vector(&std::array::from_fn(|i| match i {
        0..4 => Control(octet),
        4 => Control(START),
        _ => Data(0x55),
    }))
}

/// A Start in the middle, after an ordered set with this octet: a block of type 66.
pub fn start_after_set(octet: u8) -> Vector {
    vector(&std::array::from_fn(|i| match i {
        0 => Control(octet),
        4 => Control(START),
        _ => Data(0x01),
    }))
}
