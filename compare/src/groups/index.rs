//! The index: every octet of what it counts, counts between any two ends, every error vector looked for, lists at random and the longest,
//! indexes of other lists and of noise, every refusal, and what is received.
use super::refusals::spoil_control_byte;
use super::{bits, first};
use crate::calls::{enough, Calls, Outcome};
use crate::index::{late_start, start_after_set, Answered, Question};
use crate::library;
use crate::lines::{damaged, Line};
use crate::lists::{self, list_after_lock};
use crate::random::Random;
use crate::reference::block::{codes, Kind};
use crate::reference::edition::{Edition, EDITIONS};
use crate::reference::index::{
    bytes, entries_of, full_count, full_search, index_bytes, number_of, of_bytes, Counts, ENTRY_BYTES, STRIDE,
    SUMMARY_BYTES,
};
use crate::reference::vector::{Vector, ERROR};
use Question::{Count, Find};

pub fn index(calls: &mut Calls) -> Outcome {
    // an index has no edition: what the two runs of this group differ in is the random numbers, and what is received
    calls.random = Random::new(calls.random.word() ^ calls.edition as u64);
    every_octet(calls)?;
    every_control_byte(calls)?;
    all_ends(calls)?;
    lists_at_random(calls)?;
    far_numbers(calls)?;
    foreign(calls)?;
    lengths_of_the_index(calls)?;
    summaries(calls)?;
    control_bytes(calls)?;
    faults_of_building(calls)?;
    faults_of_counting(calls)?;
    faults_of_finding(calls)?;
    received(calls)?;
    largest(calls)?;
    let tally = calls.tally;
    enough("vectors of kind S in the new edition alone", tally.new_starts)?;
    enough("counts that were held", tally.held_counts)?;
    enough("error vectors found", tally.found)?;
    enough("searches that found none", tally.not_found)
}

fn expect<A: PartialEq + std::fmt::Debug>(what: &str, got: A, expected: A) -> Outcome {
    if got != expected {
        return Err(format!("{what}: {got:?} and not {expected:?}"));
    }
    Ok(())
}

// ---- by an index that was built from the vectors

/// A list, its index, and what stands before each vector and before the end, counted one by one.
struct Indexed {
    vectors: Vec<u8>,
    index: Vec<u8>,
    before: Vec<Counts>,
}

impl Indexed {
    /// Each entry of the index is the full count before it.
    fn new(calls: &mut Calls, vectors: Vec<u8>) -> Result<Indexed, String> {
        let index = calls.built(&vectors)?;
        let mut before = vec![[0, 0]];
        for vector in 0..number_of(&vectors) {
            let one = full_count(&vectors, vector, vector + 1);
            before.push(std::array::from_fn(|i| before[vector][i] + one[i]));
        }
        for (entry, counts) in of_bytes(&index).into_iter().enumerate() {
            expect(&format!("entry {entry}"), counts, before[STRIDE * entry])?;
        }
        Ok(Indexed { vectors, index, before })
    }

    fn number(&self) -> usize {
        number_of(&self.vectors)
    }

    /// How many error vectors it has.
    fn errors(&self) -> u64 {
        self.before[self.number()][0]
    }

    fn ask(&self, calls: &mut Calls, question: Question) -> Result<Answered, String> {
        calls.ask(question, &self.vectors, &self.index, SUMMARY_BYTES)
    }

    /// "It must equal the full count."
    fn count(&self, calls: &mut Calls, a: usize, b: usize) -> Outcome {
        let full = std::array::from_fn(|i| self.before[b][i] - self.before[a][i]);
        let gave = self.ask(calls, Count(a as u64, b as u64))?;
        expect(&format!("from {a} to {b} of {}", self.number()), gave, (0, full))
    }

    /// The n-th error vector by the index is the n-th of all, and no more than 12 entries are read.
    fn find(&self, calls: &mut Calls, n: u64) -> Outcome {
        let (result, [vector, read]) = self.ask(calls, Find(n))?;
        let full = full_search(&self.vectors, n).map_or((12, 0), |vector| (0, vector as u64));
        expect(&format!("error vector {n} of {}", self.number()), (result, vector), full)?;
        if read > 12 || (read == 0) != (result == 12) {
            return Err(format!("error vector {n} of {}: {read} entries read", self.number()));
        }
        Ok(())
    }

    /// Every error vector, and numbers that none has.
    fn find_all(&self, calls: &mut Calls) -> Outcome {
        (0..=self.errors() + 1).try_for_each(|n| self.find(calls, n))
    }

    /// Some ends, the whole, some error vectors, the first and the last, and numbers that none has.
    fn some(&self, calls: &mut Calls) -> Outcome {
        for _ in 0..20 {
            let (a, b) = ends(self.number(), &mut calls.random);
            self.count(calls, a, b)?;
            let n = calls.random.below(self.errors() as usize + 1);
            self.find(calls, n as u64)?;
        }
        self.count(calls, 0, self.number())?;
        [0, 1, self.errors(), self.errors() + 1].into_iter().try_for_each(|n| self.find(calls, n))
    }
}

/// Each vector of a list by itself, the whole, and every error vector.
fn one_by_one(calls: &mut Calls, vectors: Vec<u8>) -> Outcome {
    let list = Indexed::new(calls, vectors)?;
    for vector in 0..list.number() {
        list.count(calls, vector, vector + 1)?;
    }
    list.count(calls, 0, list.number())?;
    list.find_all(calls)
}

/// The error vector, and one of each sort of kind S.
fn counted_vectors() -> [Vector; 7] {
    [
        ERROR,
        lists::start(),
        late_start(0x07),
        late_start(0x06),
        late_start(0xfe),
        start_after_set(0x9c),
        start_after_set(0x5c),
    ]
}

/// Every octet in each lane of them, as a control character and as data.
fn every_octet(calls: &mut Calls) -> Outcome {
    for vector in counted_vectors() {
        for (word, lane) in (0..8).map(|i| (5 * (i / 4), i % 4)) {
            for control in [0, 1] {
                let changed = |octet: u8| {
                    let mut vector = vector;
                    vector[word] = vector[word] & !(1 << lane) | control << lane;
                    vector[word + 1 + lane] = octet;
                    vector
                };
                let vectors: Vec<u8> = (0..=255).flat_map(changed).collect();
                one_by_one(calls, vectors)?;
            }
        }
    }
    Ok(())
}

/// Every two control bytes up to 15 of them.
fn every_control_byte(calls: &mut Calls) -> Outcome {
    for vector in counted_vectors() {
        let changed = |n: u8| {
            let mut vector = vector;
            (vector[0], vector[5]) = (n % 16, n / 16);
            vector
        };
        let vectors: Vec<u8> = (0..=255).flat_map(changed).collect();
        one_by_one(calls, vectors)?;
    }
    Ok(())
}

/// A vector with one bit changed, but no control byte above 15.
fn nearly(vector: Vector, random: &mut Random) -> Vector {
    let mut vector = vector;
    let byte = random.below(10);
    vector[byte] ^= 1 << random.below(if byte % 5 == 0 { 4 } else { 8 });
    vector
}

/// A Start in the middle after any valid control characters, low power idles among them.
fn after_any_codes(random: &mut Random) -> Vector {
    let mut vector = late_start(0x07);
    vector[1..5].fill_with(|| random.pick(codes(Edition::New)).0);
    vector
}

/// A vector of any sort but the error vector, mostly.
fn other(random: &mut Random) -> Vector {
    match random.below(8) {
        0 => nearly(ERROR, random),
        1 => random.pick(&counted_vectors()[1..]),
        2 => after_any_codes(random),
        3 => nearly(random.pick(&counted_vectors()), random),
        4 => lists::spoilt(Edition::New, random),
        5 => lists::any(random),
        6 => lists::data(random),
        _ => lists::idle(),
    }
}

/// Vectors of all sorts, one in so many the error vector.
fn mixed(length: usize, one_in: usize, random: &mut Random) -> Vec<u8> {
    (0..length).flat_map(|_| if random.once_in(one_in) { ERROR } else { other(random) }).collect()
}

/// Error vectors, idles and Starts in runs, some of them longer than what an entry stands for.
fn in_runs(length: usize, random: &mut Random) -> Vec<u8> {
    let mut vectors = Vec::new();
    while vectors.len() < 10 * length {
        let vector = random.pick(&[ERROR, lists::idle(), lists::start(), late_start(0x06)]);
        let longest = 1 << random.below(9);
        vectors.extend(vector.repeat(1 + random.below(longest)));
    }
    vectors.truncate(10 * length);
    vectors
}

/// A list of a length: without error vectors, with few, with many, with nothing else, in runs, or frames.
fn list(length: usize, random: &mut Random) -> Vec<u8> {
    match random.below(10) {
        0 => lists::idle().repeat(length),
        1 => ERROR.repeat(length),
        2 => mixed(length, usize::MAX, random),
        3..=5 => mixed(length, random.pick(&[2, 3, 10, 64, 200, 1_000]), random),
        6..=7 => in_runs(length, random),
        _ => lists::list(random.pick(&EDITIONS), length, random.pick(&[0, 50, 300]), random),
    }
}

/// All ends of lists that have up to three entries, past the end and a after b too, and all error vectors.
fn all_ends(calls: &mut Calls) -> Outcome {
    for length in [0, 4, 60, 64, 68, 132] {
        let vectors = mixed(length, 3, &mut calls.random);
        let list = Indexed::new(calls, vectors)?;
        for (a, b) in (0..length + 2).flat_map(|a| (0..length + 2).map(move |b| (a, b))) {
            if a <= b && b <= length {
                list.count(calls, a, b)?;
            } else {
                let gave = list.ask(calls, Count(a as u64, b as u64))?;
                expect(&format!("from {a} to {b} of {length}"), gave, (11, [0, 0]))?;
            }
        }
        list.find_all(calls)?;
    }
    Ok(())
}

/// A number of vectors in whole groups: any, or near a multiple of 64.
fn length(most: usize, random: &mut Random) -> usize {
    let near = STRIDE * random.below(most / STRIDE + 1) + random.pick(&[0, 4, 60]);
    if random.once_in(2) {
        near.min(most)
    } else {
        4 * random.below(most / 4 + 1)
    }
}

/// An end of a count: any, the first or the last, or near a multiple of 64.
fn end(most: usize, random: &mut Random) -> usize {
    let near = STRIDE * random.below(most / STRIDE + 1) + random.pick(&[0, 1, 2, 62, 63]);
    match random.below(8) {
        0 => 0,
        1 => most,
        2..=4 => near.min(most),
        _ => random.below(most + 1),
    }
}

/// Two ends, the lower one first.
fn ends(most: usize, random: &mut Random) -> (usize, usize) {
    let (one, other) = (end(most, random), end(most, random));
    (one.min(other), one.max(other))
}

/// Many short lists, empty ones among them, with every error vector, and long ones.
fn lists_at_random(calls: &mut Calls) -> Outcome {
    for n in 0..440 {
        let length = length(if n < 400 { 400 } else { 6_000 }, &mut calls.random);
        let vectors = list(length, &mut calls.random);
        let list = Indexed::new(calls, vectors)?;
        list.some(calls)?;
        if n < 400 {
            list.find_all(calls)?;
        }
    }
    Ok(())
}

/// Numbers that are far past the end, also such as are a number of the list but for a high bit.
fn far_numbers(calls: &mut Calls) -> Outcome {
    for _ in 0..20 {
        let length = length(200, &mut calls.random);
        let vectors = list(length, &mut calls.random);
        let list = Indexed::new(calls, vectors)?;
        let near = end(length, &mut calls.random) as u64;
        let high = [8, 16, 31, 32, 33, 48, 56, 58, 59, 60, 61, 62, 63].map(|bit| near + (1 << bit));
        for far in high.into_iter().chain([u64::MAX, u64::MAX - 1, u64::MAX - 63, u64::MAX - 64]) {
            for (a, b) in [(0, far), (far, far), (far, 0), (far, near), (near, far), (far, u64::MAX), (u64::MAX, far)] {
                let gave = list.ask(calls, Count(a, b))?;
                expect(&format!("from {a} to {b}"), gave, (11, [0, 0]))?;
            }
            list.find(calls, far)?;
        }
    }
    Ok(())
}

/// The longest lists: with the most entries, with one group of vectors less, and with one more, which is refused.
fn largest(calls: &mut Calls) -> Outcome {
    for sort in 0..4 {
        let length = [100_000, 100_000, 99_996, 99_968][sort];
        let random = &mut calls.random;
        let vectors = match sort {
            0 => ERROR.repeat(length),
            1 => mixed(length, 2, random),
            2 => mixed(length, 5_000, random),
            _ => in_runs(length, random),
        };
        let list = Indexed::new(calls, vectors)?;
        list.some(calls)?;
        for _ in 0..20 {
            let foreign = foreign_index(&list.vectors, &list.index, &mut calls.random);
            any_question(calls, &list.vectors, &foreign)?;
        }
        too_many(calls, list)?;
    }
    expect("entries read at most", calls.tally.most_read, 12)
}

/// The same list with 100,004 vectors, by its index and by one of the length that theirs would have.
fn too_many(calls: &mut Calls, list: Indexed) -> Outcome {
    let mut vectors = list.vectors;
    vectors.resize(1_000_040, 0);
    for index_room in [list.index.len(), index_bytes(&vectors)] {
        let index = vec![0; index_room];
        let built = calls.build(&vectors, index_room)?;
        expect("too many to build", built, (1, vec![]))?;
        for question in [Count(0, 1), Find(1)] {
            let gave = calls.ask(question, &vectors, &index, SUMMARY_BYTES)?;
            expect("too many to ask", gave, (1, [0, 0]))?;
        }
    }
    Ok(())
}

// ---- by foreign indexes

/// "A foreign index still gets an answer within its ranges or refusal 12."
fn foreign(calls: &mut Calls) -> Outcome {
    for _ in 0..1_500 {
        let length = length(if calls.random.once_in(4) { 1_500 } else { 300 }, &mut calls.random);
        let vectors = list(length, &mut calls.random);
        let index = bytes(&entries_of(&vectors));
        let foreign = foreign_index(&vectors, &index, &mut calls.random);
        for _ in 0..8 {
            any_question(calls, &vectors, &foreign)?;
        }
    }
    Ok(())
}

/// An index of the right length that is not, or mostly not, that of the vectors.
fn foreign_index(vectors: &[u8], index: &[u8], random: &mut Random) -> Vec<u8> {
    let mut entries = of_bytes(index);
    let (one, two, number) = (random.below(entries.len()), random.below(entries.len()), random.below(2));
    let most = number_of(vectors) + 2;
    match random.below(11) {
        0 => return random.bytes(index.len()),
        1 => return vec![random.pick(&[0x00, 0xff, 0x7f, 0x80]); index.len()],
        2 => entries.reverse(),
        3 => entries.swap(one, two),
        4 => entries.rotate_left(one),
        5 => entries[one][number] += 1,
        6 => entries[one][number] = entries[one][number].wrapping_sub(1),
        7 => entries[one][number] = random.word() >> random.below(64),
        8 => entries.iter_mut().flatten().for_each(|number| *number = random.below(most) as u64),
        9 => entries = entries_of(&in_runs(number_of(vectors), random)),
        _ => entries.iter_mut().for_each(|entry| entry[number] += most as u64),
    }
    bytes(&entries)
}

/// A question of any sort, and its answer within its ranges.
fn any_question(calls: &mut Calls, vectors: &[u8], index: &[u8]) -> Outcome {
    let random = &mut calls.random;
    let (a, b) = ends(number_of(vectors), random);
    let (a, b) = (a as u64, b as u64);
    // around the first and the last that an entry's number and the vectors after it can make
    let after = random.below(STRIDE) as u64;
    let near = random.pick(&of_bytes(index))[0] + random.pick(&[0, 1, 64, 65, after, after]);
    let n = random.pick(&[near, near, near, 0, 1, 2, 1 << 31, 1 << 32, (1 << 32) + near, u64::MAX]);
    let (result, counts) = calls.ask(Count(a, b), vectors, index, SUMMARY_BYTES)?;
    if result != 0 || counts.iter().any(|count| *count > b - a) {
        return Err(format!("from {a} to {b}: result {result}, {counts:?}"));
    }
    let (result, [vector, read]) = calls.ask(Find(n), vectors, index, SUMMARY_BYTES)?;
    let is_error = |vector: u64| vectors.chunks(10).nth(vector as usize) == Some(&ERROR);
    if !(result == 12 || result == 0 && is_error(vector) && (1..=12).contains(&read)) {
        return Err(format!("the {n}-th error vector: result {result}, vector {vector}, {read} entries read"));
    }
    Ok(())
}

// ---- refusals

/// Every length of an index from none to some bytes more than an entry too many, and far ones.
fn lengths_of_the_index(calls: &mut Calls) -> Outcome {
    for length in [0, 4, 60, 64, 68, 128, 252, 256, 260] {
        let vectors = list(length, &mut calls.random);
        let index = calls.built(&vectors)?;
        for index_room in (0..=index.len() + ENTRY_BYTES + 1).chain([ENTRY_BYTES * length, 100_000]) {
            let mut entries = index.clone();
            entries.resize(index_room, 0);
            calls.build(&vectors, index_room)?;
            for question in [Count(0, length as u64), Count(0, 0), Find(0), Find(1)] {
                for summary_room in [0, SUMMARY_BYTES] {
                    calls.ask(question, &vectors, &entries, summary_room)?;
                }
            }
        }
    }
    Ok(())
}

/// Each length of a summary: with an answer, and with each refusal.
fn summaries(calls: &mut Calls) -> Outcome {
    for length in [0, 4, 64, 132] {
        let vectors = [ERROR.repeat(length / 2), lists::start().repeat(length / 2)].concat();
        let index = calls.built(&vectors)?;
        for summary_room in 0..=3 * SUMMARY_BYTES {
            for question in [Count(0, length as u64), Count(1, 0), Find(0), Find(1), Find(length as u64)] {
                calls.ask(question, &vectors, &index, summary_room)?;
                calls.ask(question, &vectors, &index[1..], summary_room)?;
                calls.ask(question, &vectors[length / 4..], &index, summary_room)?;
            }
        }
    }
    Ok(())
}

/// Every control byte above 15 in some word, and then a second one: the first is the place, wherever the vectors asked for stand.
fn control_bytes(calls: &mut Calls) -> Outcome {
    for control_byte in 16..=255 {
        let length = 4 + length(300, &mut calls.random);
        let mut vectors = list(length, &mut calls.random);
        let index = calls.built(&vectors)?;
        let word = calls.random.below(2 * length);
        vectors[5 * word] = control_byte;
        for _ in 0..2 {
            let (a, b) = ends(length, &mut calls.random);
            calls.build(&vectors, index.len())?;
            calls.ask(Count(a as u64, b as u64), &vectors, &index, SUMMARY_BYTES)?;
            calls.ask(Find(1), &vectors, &index, SUMMARY_BYTES)?;
            spoil_control_byte(&mut vectors, &mut calls.random);
        }
    }
    Ok(())
}

/// A list with the faults that are refused with 1, 2 and 5, the place of the last, and an index with that of 11.
struct Faulty {
    vectors: Vec<u8>,
    errors: u64,
    place: usize,
    index: Vec<u8>,
}

/// At least one of its vectors is the error vector.
fn faulty([long, ragged, spoilt, other_length]: [bool; 4], random: &mut Random) -> Faulty {
    let length = 4 + length(300, random);
    let mut vectors = list(length, random);
    let at = random.below(length);
    vectors[10 * at..10 * at + 10].copy_from_slice(&ERROR);
    let [errors, _] = full_count(&vectors, 0, length);
    let mut index = bytes(&entries_of(&vectors));
    if long {
        vectors.resize(1_000_040, 0);
    }
    if ragged {
        vectors.truncate(vectors.len() - 1 - random.below(39));
    }
    let place = 5 * random.below(vectors.len().div_ceil(5));
    if spoilt {
        vectors[place] = 16 + random.below(240) as u8;
    }
    index.resize(index_bytes(&vectors), 0);
    if other_length {
        let wanted = index.len();
        index.resize(random.pick(&[0, wanted - 1, wanted + 1, wanted - ENTRY_BYTES, wanted + ENTRY_BYTES]), 0);
    }
    Faulty { vectors, errors, place, index }
}

/// The result of a call with these faults.
fn result<const N: usize>(faults: [bool; N], numbers: [u64; N], faulty: &Faulty) -> u64 {
    match first(faults, numbers) {
        5 => 5 + 256 * faulty.place as u64,
        number => number,
    }
}

/// Every set of faults at once: 11 is "checked after 1, 2 and 5".
fn faults_of_building(calls: &mut Calls) -> Outcome {
    for n in 0..16 * 6 {
        let faults = bits::<4>(n % 16);
        let faulty = faulty(faults, &mut calls.random);
        let (got, _) = calls.build(&faulty.vectors, faulty.index.len())?;
        expect(&format!("faults {faults:?}"), got, result(faults, [1, 2, 5, 11], &faulty))?;
    }
    Ok(())
}

fn summary_room(short: bool, random: &mut Random) -> usize {
    if short {
        random.below(SUMMARY_BYTES)
    } else {
        SUMMARY_BYTES + random.below(2)
    }
}

/// Every set of faults at once: "a after b or b past the end, or an index of the wrong length", then a summary that is too short.
fn faults_of_counting(calls: &mut Calls) -> Outcome {
    for n in 0..128 * 2 {
        let faults = bits::<7>(n % 128);
        let [long, ragged, spoilt, other_length, turned, past, short] = faults;
        let random = &mut calls.random;
        let faulty = faulty([long, ragged, spoilt, other_length], random);
        let number = number_of(&faulty.vectors);
        let b = if past { number + 1 + random.below(70) } else { random.below(number + 1) };
        let a = if turned { b + 1 + random.below(70) } else { end(b, random) };
        let room = summary_room(short, random);
        let (got, _) = calls.ask(Count(a as u64, b as u64), &faulty.vectors, &faulty.index, room)?;
        expect(&format!("faults {faults:?}"), got, result(faults, [1, 2, 5, 11, 11, 11, 4], &faulty))?;
    }
    Ok(())
}

/// Every set of faults at once: "12, no such vector", after 11, and then a summary that is too short.
fn faults_of_finding(calls: &mut Calls) -> Outcome {
    for n in 0..64 * 4 {
        let faults = bits::<6>(n % 64);
        let [long, ragged, spoilt, other_length, none, short] = faults;
        let random = &mut calls.random;
        let faulty = faulty([long, ragged, spoilt, other_length], random);
        let n = if none { random.pick(&[0, faulty.errors + 1, u64::MAX]) } else { 1 + random.word() % faulty.errors };
        let room = summary_room(short, random);
        let (got, _) = calls.ask(Find(n), &faulty.vectors, &faulty.index, room)?;
        expect(&format!("faults {faults:?}"), got, result(faults, [1, 2, 5, 11, 12, 4], &faulty))?;
    }
    Ok(())
}

// ---- what is received

/// Frames that begin in every way that the edition has, low power idles before the Start among them.
fn begun(edition: Edition, random: &mut Random) -> Vec<u8> {
    let mut vectors = lists::idle().repeat(64);
    while vectors.len() < 10 * 164 {
        vectors.extend(lists::of_kind(edition, Kind::S, random));
        vectors.extend(lists::of_kind(edition, Kind::T, random));
        vectors.extend(lists::idle().repeat(random.below(2)));
    }
    Line::of_list(edition, &vectors, random.start_state()).bytes()
}

/// Begun and replaced in the summary of a receiving call are the counts over all of the vectors that it hands out. Behind those come idles,
/// as many as are wanted for a whole group.
fn received(calls: &mut Calls) -> Outcome {
    let mut all: Counts = [0, 0];
    for n in 0..400 {
        let sender = calls.random.pick(&EDITIONS);
        let line = match n % 4 {
            0 => damaged(calls.edition, &mut calls.random),
            1 => begun(sender, &mut calls.random),
            2 => flipped(sender, &mut calls.random),
            _ => damaged(sender, &mut calls.random),
        };
        let (mut vectors, summary) = library::received(calls.edition, &line);
        let handed_out = number_of(&vectors);
        vectors.extend(lists::idle().repeat(handed_out.next_multiple_of(4) - handed_out));
        let expected: Counts = [11, 10].map(|word| library::word(&summary, word));
        let list = Indexed::new(calls, vectors)?;
        for end in [handed_out, list.number()] {
            let gave = list.ask(calls, Count(0, end as u64))?;
            expect("replaced and begun", gave, (0, expected))?;
        }
        list.find_all(calls)?;
        all = std::array::from_fn(|i| all[i] + expected[i]);
    }
    enough("vectors replaced", all[0])?;
    enough("frames begun", all[1])
}

/// A line of frames and strays with a few flipped bits after lock.
fn flipped(edition: Edition, random: &mut Random) -> Vec<u8> {
    let vectors = list_after_lock(edition, 164, 100, random);
    let mut line = Line::of_list(edition, &vectors, random.start_state());
    line.flip_some(random.below(8), 66 * 64, random);
    line.bytes()
}
