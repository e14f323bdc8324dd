//! Request 8/13: "Counts without reading the capture again." The index beside the vectors, what is counted and found by it, and the same
//! without it.
use super::block::{kind_of_vector, Kind, START};
use super::edition::Edition;
use super::sending::{judge_control_bytes, judge_length};
use super::vector::{Vector, ERROR};
use super::{refused, Refusal};

/// "At each multiple of 64".
pub const STRIDE: usize = 64;

/// An entry is two numbers of 32 bits. A summary is two of 64 bits.
pub const ENTRY_BYTES: usize = 8;
pub const SUMMARY_BYTES: usize = 16;

/// "How many error vectors and vectors of kind S".
pub type Counts = [u64; 2];

/// How many vectors a list has.
pub fn number_of(vectors: &[u8]) -> usize {
    vectors.len() / 10
}

/// How long the index of a list is: "at each multiple of 64 from 0 to the number of vectors" it has an entry.
pub fn index_bytes(vectors: &[u8]) -> usize {
    ENTRY_BYTES * (number_of(vectors) / STRIDE + 1)
}

fn is_error(vector: &Vector) -> bool {
    *vector == ERROR
}

/// Vectors have no edition. What is of kind S in the old one is so in the new one too, which adds low power idles before a Start.
fn is_start(vector: &Vector) -> bool {
    // without an octet of Start it is none, and most have no such octet
    vector.contains(&START) && kind_of_vector(Edition::New, vector) == Kind::S
}

/// The vectors "from a up to but not b".
fn between(vectors: &[u8], a: usize, b: usize) -> impl Iterator<Item = &Vector> {
    vectors[10 * a..10 * b].chunks(10).map(|vector| vector.try_into().unwrap())
}

/// "The full count" of the vectors from `a` up to but not `b`.
pub fn full_count(vectors: &[u8], a: usize, b: usize) -> Counts {
    [is_error, is_start].map(|is| between(vectors, a, b).filter(|vector| is(vector)).count() as u64)
}

/// "Where is the n-th error vector", looked for from the first vector on. "n counts from 1; 0 has none".
pub fn full_search(vectors: &[u8], n: u64) -> Option<usize> {
    let errors_before = n.checked_sub(1)?;
    let all = between(vectors, 0, number_of(vectors)).enumerate();
    let mut errors = all.filter(|(_, vector)| is_error(vector)).map(|(number, _)| number);
    errors.nth(errors_before as usize)
}

/// The index of a list: "how many error vectors and vectors of kind S stand before" each multiple of 64.
pub fn entries_of(vectors: &[u8]) -> Vec<Counts> {
    let mut entries = vec![[0, 0]];
    for end in (STRIDE..=number_of(vectors)).step_by(STRIDE) {
        let [errors, starts] = entries[entries.len() - 1];
        let [more_errors, more_starts] = full_count(vectors, end - STRIDE, end);
        entries.push([errors + more_errors, starts + more_starts]);
    }
    entries
}

/// An index as it crosses the C boundary.
pub fn bytes(entries: &[Counts]) -> Vec<u8> {
    entries.iter().flatten().flat_map(|number| (*number as u32).to_le_bytes()).collect()
}

/// The index that it was, whoever wrote it.
pub fn of_bytes(index: &[u8]) -> Vec<Counts> {
    let number = |bytes: &[u8]| u32::from_le_bytes(bytes.try_into().unwrap()) as u64;
    index.chunks(ENTRY_BYTES).map(|entry| [number(&entry[..4]), number(&entry[4..])]).collect()
}

/// A summary as it crosses it.
pub fn summary(words: [u64; 2]) -> Vec<u8> {
    words.into_iter().flat_map(u64::to_le_bytes).collect()
}

/// What building an index answers, given the length of the lent one.
pub fn build(vectors: &[u8], index_room: usize) -> Result<Vec<Counts>, Refusal> {
    judge_vectors(vectors)?;
    judge_index(vectors, index_room)?;
    Ok(entries_of(vectors))
}

/// Refusal 11 is "checked after 1, 2 and 5".
fn judge_vectors(vectors: &[u8]) -> Result<(), Refusal> {
    judge_length(vectors)?;
    judge_control_bytes(vectors)
}

/// 11, "an index of the wrong length, handed in or to be built".
fn judge_index(vectors: &[u8], index_room: usize) -> Result<(), Refusal> {
    if index_room != index_bytes(vectors) {
        return refused(11);
    }
    Ok(())
}

/// What is counted by an index: the differences of what it gives for the two ends, and b - a.
pub struct Counted {
    pub differences: [i64; 2],
    pub most: u64,
}

impl Counted {
    /// "Holds the result to 0 through b - a".
    pub fn held(&self) -> Counts {
        self.differences.map(|difference| difference.clamp(0, self.most as i64) as u64)
    }

    /// Is the result another one for it?
    pub fn is_changed(&self) -> bool {
        self.held().map(|number| number as i64) != self.differences
    }
}

/// What "how many from a up to but not b" answers by any index, given the length of the lent summary.
pub fn count(vectors: &[u8], index: &[u8], a: u64, b: u64, summary_room: usize) -> Result<Counted, Refusal> {
    judge_vectors(vectors)?;
    // "11, a after b or b past the end"
    if a > b || b > number_of(vectors) as u64 {
        return refused(11);
    }
    judge_index(vectors, index.len())?;
    if summary_room < SUMMARY_BYTES {
        return refused(4);
    }
    let index = of_bytes(index);
    let [before_a, before_b] = [a, b].map(|end| before(vectors, &index, end as usize));
    // "subtracts"
    let differences = std::array::from_fn(|i| before_b[i] as i64 - before_a[i] as i64);
    Ok(Counted { differences, most: b - a })
}

/// "For each end one entry and the count over at most 63 vectors".
fn before(vectors: &[u8], index: &[Counts], end: usize) -> Counts {
    let entry = end / STRIDE;
    let after = full_count(vectors, STRIDE * entry, end);
    std::array::from_fn(|i| index[entry][i] + after[i])
}

/// An error vector that was found: its number from 0, and "how many entries it read".
#[derive(Clone, Copy, PartialEq, Eq, Debug)]
pub struct Found {
    pub vector: usize,
    pub entries_read: usize,
}

impl Found {
    pub fn words(&self) -> [u64; 2] {
        [self.vector as u64, self.entries_read as u64]
    }
}

/// What "where is the n-th error vector" answers by any index, given the length of the lent summary.
pub fn find(vectors: &[u8], index: &[u8], n: u64, summary_room: usize) -> Result<Found, Refusal> {
    judge_vectors(vectors)?;
    judge_index(vectors, index.len())?;
    // "12, no such vector"
    let Some(found) = found(vectors, &of_bytes(index), n) else {
        return refused(12);
    };
    if summary_room < SUMMARY_BYTES {
        return refused(4);
    }
    Ok(found)
}

/// The entries that are read, in turn: "halving a range of entries until one remains", which is read too.
pub fn entries_read(index: &[Counts], n: u64) -> Vec<usize> {
    let mut range = 0..index.len();
    let mut read = Vec::new();
    while range.len() > 1 {
        let middle = range.start + range.len() / 2;
        let [errors_before, _] = index[middle];
        read.push(middle);
        range = if errors_before < n { middle..range.end } else { range.start..middle };
    }
    read.push(range.start);
    read
}

/// Of the at most 64 vectors after the entry that remains, the one that makes n with the entry's number.
fn found(vectors: &[u8], index: &[Counts], n: u64) -> Option<Found> {
    let read = entries_read(index, n);
    let entry = *read.last()?;
    let [errors_before, _] = index[entry];
    let (first, end) = (STRIDE * entry, (STRIDE * (entry + 1)).min(number_of(vectors)));
    let place = full_search(&vectors[10 * first..10 * end], n.checked_sub(errors_before)?)?;
    Some(Found { vector: first + place, entries_read: read.len() })
}
