//! Demands 2 and 3 as properties of the library, over random lists and random flips, "with one edition at both ends".
use compare::library::{received, sent, word, words};
use compare::lines::{blocks_of, flip};
use compare::lists::{end, idle, list, list_after_lock, low_power, start};
use compare::random::Random;
use compare::reference::block::{decode, fields_of, format_of, kind_of_vector, kinds, Block, Kind, DATA};
use compare::reference::edition::{Edition, EDITIONS};
use compare::reference::vector::{characters, vector, Character, Vector, ERROR, LOCAL_FAULT};

/// "For every vector list that sending accepts from any allowed start state, that is legal, whose first 64 vectors are control
/// vectors", and whose last may end a frame since request 6/13: 63 Local Fault vectors, then the list from vector 63 on.
#[test]
fn demand_2_legal_lists_come_back() {
    let mut random = Random::new(2);
    for edition in EDITIONS {
        let mut last = Vec::new();
        for n in 0..4_000 {
            let vectors = list_after_lock(edition, 64 + 4 * random.below(40), 0, &mut random);
            comes_back(edition, &vectors, random.start_state(), &format!("{edition:?} edition, list {n}"));
            last.push(kind_of_vector(edition, vectors.last_chunk().unwrap()));
        }
        // of no kind that can be the last there are few
        for kind in kinds(edition).iter().filter(|kind| **kind != Kind::E) {
            let count = last.iter().filter(|last| *last == kind).count();
            assert!(count > 100, "{edition:?} edition: {count} lists end with kind {kind:?}");
        }
    }
}

/// Sends a legal list and receives its line.
fn comes_back(edition: Edition, vectors: &[u8], start: u64, list: &str) {
    let (line, summary) = sent(edition, vectors, start);
    assert_eq!(word(&summary, 2), 0, "{list}: nothing is replaced");
    let (answers, summary) = received(edition, &line);
    assert_eq!(answers[..630], LOCAL_FAULT.repeat(63), "{list}");
    assert_eq!(answers[630..], vectors[630..], "{list}");
    let words = words(&summary);
    let count = vectors.len() as u64 / 10;
    assert_eq!(words[..5], [count, 0, 1, 0, count], "{list}");
    // a receiver that starts with zeros takes the first block amiss, unless the sender started with zeros too
    let bad: u64 = words[5..9].iter().sum();
    assert!(bad == 0 || (bad == 1 && start != 0), "{list}: {bad} bad blocks");
    let kinds: Vec<Kind> =
        vectors.chunks(10).map(|vector| kind_of_vector(edition, vector.try_into().unwrap())).collect();
    let starts = kinds.iter().filter(|kind| **kind == Kind::S).count() as u64;
    assert_eq!(words[9..], [kinds.ends_with(&[Kind::T]) as u64, starts, 0], "{list}");
}

/// "With the new edition demand 3 holds for one flipped bit and not for three".
fn most_flips(edition: Edition) -> usize {
    match edition {
        Edition::Old => 3,
        Edition::New => 1,
    }
}

/// "At most three flipped bits of the sent line, all in block 64 or later, never both header bits of one block". Mostly near each
/// other or a tap apart, so that they meet.
fn flips(most: usize, line_bits: usize, random: &mut Random) -> Vec<usize> {
    let first = 64 * 66;
    loop {
        let base = first + random.below(line_bits - first);
        let mut flips = vec![base];
        for _ in 0..random.below(most) {
            let apart = random.pick(&[1, 2, 3, 4, 5, 6, 7, 8, 19, 39, 58, 60, 66, 132, 997]);
            flips.push(if random.once_in(2) { base + apart } else { base.saturating_sub(apart) });
        }
        flips.sort();
        flips.dedup();
        let inside = flips.iter().all(|bit| first <= *bit && *bit < line_bits);
        let both = flips.windows(2).any(|two| two[0] % 66 == 0 && two[1] == two[0] + 1);
        if inside && !both {
            return flips;
        }
    }
}

/// The payload bits among the flipped bits, counted without headers.
fn payload_bits(flips: &[usize]) -> Vec<usize> {
    flips.iter().filter(|bit| *bit % 66 >= 2).map(|bit| bit / 66 * 64 + bit % 66 - 2).collect()
}

/// First payload bit of each data character of a block, by its position in the vector.
fn data_places(block: &Block) -> Vec<(usize, usize)> {
    if block.header == DATA {
        return (0..8).map(|i| (i, 8 * i)).collect();
    }
    fields_of(format_of(block).unwrap(), block)
        .iter()
        .filter(|((letter, _), _, _)| *letter == 'D')
        .map(|((_, i), at, _)| (*i, *at))
        .collect()
}

/// "An odd number of flipped payload bits stand 0, 39 or 58 payload bits before it."
fn differs(bit: usize, flipped: &[usize]) -> bool {
    let before = |places: usize| flipped.iter().filter(|f| **f + places == bit).count();
    (before(0) + before(39) + before(58)) % 2 == 1
}

/// The vector of block `n` with those data bits changed that the flips change.
fn changed(edition: Edition, n: usize, block: &Block, flipped: &[usize]) -> Vector {
    let mut vector = decode(edition, block);
    for (i, at) in data_places(block) {
        for bit in 0..8 {
            if differs(64 * n + at + bit, flipped) {
                vector[5 * (i / 4) + 1 + i % 4] ^= 1 << bit;
            }
        }
    }
    vector
}

/// How many answers were the error vector, and how many had data bits changed.
#[derive(Default)]
struct Answers {
    errors: u32,
    changed: u32,
}

impl Answers {
    /// Flips bits of the line sent for a list. Each answer from number 63 on is the error vector, or the sent block with exactly those
    /// data bits changed.
    fn make_nothing_up(&mut self, edition: Edition, vectors: &[u8], start: u64, flips: &[usize]) {
        let (mut line, _) = sent(edition, vectors, start);
        flip(&mut line, flips);
        let (answers, _) = received(edition, &line);
        let flipped = payload_bits(flips);
        for (i, block) in blocks_of(edition, vectors).iter().enumerate().skip(63) {
            let answer: &Vector = answers[10 * i..10 * i + 10].try_into().unwrap();
            let allowed = changed(edition, i, block, &flipped);
            assert!(
                *answer == ERROR || *answer == allowed,
                "{edition:?} edition, flips {flips:?} of {vectors:02x?} from {start:x}, vector {i}: {answer:02x?} and neither error \
                 nor {allowed:02x?}"
            );
            self.errors += (*answer == ERROR) as u32;
            self.changed += (*answer != ERROR && allowed != decode(edition, block)) as u32;
        }
    }
}

#[test]
fn demand_3_few_flips_never_make_something_up() {
    let mut random = Random::new(3);
    for edition in EDITIONS {
        let mut answers = Answers::default();
        for _ in 0..6_000 {
            let strays = random.pick(&[0, 0, 10, 300]);
            let vectors = list(edition, 68 + 4 * random.below(12), strays, &mut random);
            let flips = flips(most_flips(edition), vectors.len() / 10 * 66, &mut random);
            answers.make_nothing_up(edition, &vectors, random.start_state(), &flips);
        }
        let Answers { errors, changed } = answers;
        // neither case is empty
        assert!(errors > 1_000 && changed > 1_000, "{edition:?} edition: {errors} errors, {changed} with changed data");
    }
}

/// Each bit of blocks 64 to 83 in turn: idles, low power idles, both mixed, an ordered set, and frames between all these.
#[test]
fn demand_3_no_single_flip_makes_something_up() {
    let mixed = vector(&std::array::from_fn(|i| Character::Control(if i < 3 { 0x06 } else { 0x07 })));
    let data = vector(&std::array::from_fn(|i| Character::Data(0x11 * i as u8)));
    let frame = [start(), data, end()];
    let quiet = [low_power(); 3];
    let after_lock =
        [&[idle()][..], &frame, &quiet, &[idle()], &frame, &quiet, &[mixed, LOCAL_FAULT], &frame, &[idle()]];
    let vectors = [idle().repeat(64), after_lock.concat().concat()].concat();
    assert_eq!(vectors.len(), 840);
    let (_, summary) = sent(Edition::New, &vectors, 0);
    assert_eq!(word(&summary, 2), 0, "nothing is replaced");
    for edition in EDITIONS {
        let mut answers = Answers::default();
        for bit in 64 * 66..84 * 66 {
            answers.make_nothing_up(edition, &vectors, 0, &[bit]);
        }
        let Answers { errors, changed } = answers;
        assert!(errors > 1_000 && changed > 100, "{edition:?} edition: {errors} errors, {changed} with changed data");
    }
}

/// Control characters are told from data in what demand 3 compares.
#[test]
fn demand_3_changes_data_characters_only() {
    let mut random = Random::new(4);
    let edition = Edition::New;
    for block in blocks_of(edition, &list(edition, 400, 100, &mut random)) {
        let all: Vec<usize> = (0..64).collect();
        let (before, after) = (characters(&decode(edition, &block)), characters(&changed(edition, 0, &block, &all)));
        for i in 0..8 {
            match before[i] {
                Character::Control(_) => assert_eq!(before[i], after[i]),
                Character::Data(_) => assert!(matches!(after[i], Character::Data(_))),
            }
        }
    }
}
