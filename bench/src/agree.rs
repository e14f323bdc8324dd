//! The hand-written versions keep the library's contract: same result and same bytes, on many short calls in both editions, refused ones
//! too, and on long lists and lines, over several windows of the error rate.
use crate::frames;
use crate::index;
use crate::traffic::{self, Traffic};
use crate::ways::{Way, WAYS};
use compare::library;
use compare::lines::{control, idle, of_any_kind, until_high, Line};
use compare::lists;
use compare::random::Random;
use compare::reference::block::{kinds, put, Kind, FORMATS};
use compare::reference::diagrams::WINDOW;
use compare::reference::edition::{Edition, EDITIONS};
use compare::reference::vector::LOCAL_FAULT;

/// Calls all with lent slices of this content.
fn same<const N: usize>(lent: [Vec<u8>; N], call: impl Fn(&Way, &mut [Vec<u8>; N]) -> u64) {
    let [by_library, others @ ..] = WAYS.map(|way| {
        let mut lent = lent.clone();
        (way.name, call(&way, &mut lent), lent)
    });
    for (name, result, lent) in others {
        assert!(result == by_library.1 && lent == by_library.2, "{name} differs from the library");
    }
}

fn same_sent(edition: u64, vectors: &[u8], start: u64, room: usize, summary_room: usize) {
    same([vec![0xa5; room], vec![0x5a; summary_room]], |way, [line, summary]| {
        (way.send)(edition, vectors, start, line, summary)
    });
}

fn same_received(edition: u64, line: &[u8], room: usize, summary_room: usize, counters: Vec<u8>) {
    same([vec![0xa5; room], vec![0x5a; summary_room], counters], |way, [vectors, summary, counters]| {
        (way.receive)(edition, line, vectors, summary, counters)
    });
}

/// The number of an edition, or of none at times.
fn number(edition: Edition, random: &mut Random) -> u64 {
    edition as u64 + if random.once_in(16) { 2 << random.below(63) } else { 0 }
}

fn sending(edition: Edition, random: &mut Random) {
    let mut vectors = lists::list(edition, 4 * random.below(30), random.pick(&[0, 300]), random);
    if random.once_in(8) {
        vectors.truncate(vectors.len().saturating_sub(7));
    }
    if random.once_in(8) && !vectors.is_empty() {
        let word = random.below(vectors.len().div_ceil(5));
        vectors[5 * word] |= 16;
    }
    let start = random.start_state() + if random.once_in(8) { 1 << 58 } else { 0 };
    let room = (vectors.len() / 40 * 33 + 3).saturating_sub(random.below(5));
    same_sent(number(edition, random), &vectors, start, room, 27 - random.below(5));
}

fn receiving(edition: Edition, random: &mut Random) {
    let vectors = lists::list_after_lock(edition, 4 * random.below(100), 20, random);
    receiving_damaged(edition, &vectors, 40, random);
}

/// The line of a list, without its first bits and with some flipped.
fn receiving_damaged(edition: Edition, vectors: &[u8], flips: usize, random: &mut Random) {
    let mut line = Line::of_list(edition, vectors, random.start_state());
    line.cut(0, random.below(66).min(line.bits.len()));
    if !line.bits.is_empty() {
        line.flip_some(random.below(flips), 0, random);
    }
    receiving_line(edition, &line, random);
}

/// Part of a list that is timed, from its start or not: stretches of idles, of low power idles and of data.
fn timed(edition: Edition, traffic: &[Traffic], random: &mut Random) {
    let traffic = &traffic[random.below(traffic.len())];
    let from = if random.once_in(2) { 0 } else { 40 * random.below(2_000) };
    let groups = if random.once_in(8) { random.below(300) } else { random.below(40) };
    let vectors = &traffic.vectors[from..from + 40 * groups];
    same_sent(edition as u64, vectors, random.start_state(), 33 * groups, 24);
    let flips = random.pick(&[1, 2, 20]);
    receiving_damaged(edition, vectors, flips, random);
}

fn receiving_noise(edition: Edition, random: &mut Random) {
    let bytes = if random.once_in(2) { random.below(20) } else { random.below(3_000) };
    same_received(
        edition as u64,
        &random.bytes(bytes),
        8 * bytes / 66 * 10,
        library::RECEIVE_SUMMARY_BYTES,
        random.counters(library::COUNTERS_BYTES),
    );
}

/// A long list with strays, and its line, damaged.
fn long(edition: Edition, random: &mut Random) {
    let vectors = lists::list_after_lock(edition, 40_000, 2, random);
    same_sent(edition as u64, &vectors, random.start_state(), vectors.len() / 40 * 33, 24);
    receiving_damaged(edition, &vectors, 400, random);
}

/// Blocks of every type with any codes, by a receiver that is locked, high or neither.
fn receiving_bad_blocks(edition: Edition, random: &mut Random) {
    let mut blocks = match random.below(3) {
        0 => vec![],
        1 => vec![idle(); 64],
        _ => until_high(),
    };
    for format in FORMATS.iter() {
        let mut block = control(random);
        put(&mut block.payload, 0, 8, format.type_byte);
        blocks.push(block);
    }
    receiving_line(edition, &Line::of_blocks(&blocks, random.start_state()), random);
}

/// Blocks of all kinds, each after each other one, as no sender sends them. Half of the lines have so many invalid headers that lock is
/// lost, after a block of any kind.
fn receiving_out_of_turn(edition: Edition, random: &mut Random) {
    let mut blocks = vec![idle(); 64];
    blocks.extend((0..60).map(|_| of_any_kind(edition, random)));
    let mut line = Line::of_blocks(&blocks, random.start_state());
    if random.once_in(2) {
        (64..blocks.len()).filter(|_| random.once_in(3)).for_each(|block| line.spoil_header(block));
    }
    receiving_line(edition, &line, random);
}

/// A frame whose Terminate is the last block, or has one block of any kind after it.
fn receiving_last_frame(edition: Edition, random: &mut Random) {
    let mut vectors = lists::idle().repeat(64);
    vectors.extend(lists::start());
    vectors.extend(lists::of_kind(edition, Kind::T, random));
    if random.once_in(2) {
        vectors.extend(lists::of_kind(edition, random.pick(kinds(edition)), random));
    }
    receiving_line(edition, &Line::of_list(edition, &vectors, random.start_state()), random);
}

fn receiving_line(edition: Edition, line: &Line, random: &mut Random) {
    let line = line.bytes();
    let room = (8 * line.len() / 66 * 10 + 3).saturating_sub(random.below(5));
    let [summary, counters] =
        [library::RECEIVE_SUMMARY_BYTES, library::COUNTERS_BYTES].map(|n| n + 3 - random.below(5));
    same_received(number(edition, random), &line, room, summary, random.counters(counters));
}

/// Invalid headers in one window after the other: 16 set `high`, and the end of a window with fewer clears it. In the second line `high`
/// is never set, as the end of a window forgets what it counted.
const INVALID: [[usize; 5]; 2] = [[16, 15, 16, 16, 0], [15; 5]];

/// Where the n-th stands in window i: from its first block on, inside, or from its last block back; too far apart to lose lock.
type Place = fn(usize, usize) -> usize;
const PLACES: [Place; 3] = [|_, n| 1_000 * n, |i, n| 500 + i + 1_000 * n, |_, n| WINDOW as usize - 1 - 1_000 * n];

/// A line over whole windows. `high` is looked at where a window ends: its last block is already answered by it.
fn receiving_windows(edition: Edition, invalid: [usize; 5], place: Place, random: &mut Random) {
    let window = WINDOW as usize;
    let mut line = Line::of_blocks(&vec![idle(); 64 + invalid.len() * window + 4], random.start_state());
    for (i, invalid) in invalid.into_iter().enumerate() {
        (0..invalid).for_each(|n| line.spoil_header(64 + i * window + place(i, n)));
    }
    let line = line.bytes();
    let (vectors, _) = library::received(edition, &line);
    for (i, invalid) in invalid.into_iter().enumerate() {
        let last = 64 + (i + 1) * window - 1;
        let high = vectors[10 * last..10 * last + 10] == LOCAL_FAULT;
        assert_eq!(high, invalid == 16, "high at the end of window {i}");
    }
    let room = 8 * line.len() / 66 * 10;
    let counters = random.counters(library::COUNTERS_BYTES);
    same_received(edition as u64, &line, room, library::RECEIVE_SUMMARY_BYTES, counters);
}

fn check_in(edition: Edition, random: &mut Random) {
    for invalid in INVALID {
        PLACES.into_iter().for_each(|place| receiving_windows(edition, invalid, place, random));
    }
    for _ in 0..4 {
        long(edition, random);
    }
    let traffic = traffic::all(edition);
    for _ in 0..2_000 {
        sending(edition, random);
        receiving(edition, random);
        timed(edition, &traffic, random);
        receiving_noise(edition, random);
        receiving_bad_blocks(edition, random);
        receiving_out_of_turn(edition, random);
        receiving_last_frame(edition, random);
    }
    let too_long = vec![0; 1_000_040];
    same_sent(edition as u64, &too_long, 0, 825_033, 24);
    let counters = vec![0; library::COUNTERS_BYTES];
    same_received(edition as u64, &too_long[..825_001], 1_000_010, library::RECEIVE_SUMMARY_BYTES, counters);
}

/// Frames of these vectors, with lent slices of so many bytes.
fn same_frames(vectors: &[u8], room: usize, summary_room: usize) {
    let [library, plain] = [library::frames, frames::list].map(|list| {
        let (mut entries, mut summary) = (vec![0xa5; room], vec![0x5a; summary_room]);
        (list(vectors, &mut entries, &mut summary), entries, summary)
    });
    assert!(library == plain, "plain Rust lists other frames than the library");
}

/// Words of which frames are made, at times one whose characters are any, at times a list that is refused.
fn listing(random: &mut Random) {
    const WORDS: [[u8; 5]; 8] = [
        [0x0f, 0x07, 0x07, 0x07, 0x07],
        [0x01, 0xfb, 0x55, 0x55, 0x55],
        [0x00, 0x01, 0x02, 0x03, 0x04],
        [0x01, 0x9c, 0x00, 0x00, 0x01],
        [0x0e, 0x01, 0xfd, 0x07, 0x07],
        [0x04, 0x01, 0x02, 0xfe, 0x04],
        [0x03, 0xfb, 0xfd, 0x00, 0x00],
        [0x01, 0x5c, 0x00, 0x00, 0x01],
    ];
    let mut vectors: Vec<u8> = (0..8 * random.below(20)).flat_map(|_| random.pick(&WORDS)).collect();
    for _ in 0..random.below(4) {
        let (word, byte) = (random.below(vectors.len() / 5 + 1), random.below(5));
        if let Some(changed) = vectors.get_mut(5 * word + byte) {
            *changed = random.pick(&[0x07, 0xfb, 0xfd, 0xfe, 0x9c, 0x00, 0x0f]);
        }
    }
    vectors.truncate(vectors.len().saturating_sub(if random.once_in(16) { 5 } else { 0 }));
    let room = (vectors.len() / 10 * 12).saturating_sub(random.below(1 + vectors.len()));
    same_frames(&vectors, room, 9 - random.below(3));
}

fn check_frames(random: &mut Random) {
    (0..20_000).for_each(|_| listing(random));
    let mut lists = traffic::all(Edition::Old);
    lists.push(traffic::most_frames());
    for list in &lists {
        same_frames(&list.vectors, list.vectors.len() / 10 * 12, 8);
        same_frames(&list.vectors, 12 * 50_000, 8);
    }
    same_frames(&vec![0; 1_000_040], 0, 8);
}

/// The counts over all vectors, with the library's index and without one.
fn check_index() {
    for list in traffic::all(Edition::New).into_iter().map(traffic::with_errors) {
        let (mut built, mut summary) = (vec![0; (list.vectors.len() / 640 + 1) * 8], [0; 16]);
        let number = list.vectors.len() as u64 / 10;
        let done =
            library::index(&list.vectors, &mut built) | library::count(&list.vectors, &built, 0, number, &mut summary);
        let counted = [library::word(&summary, 0), library::word(&summary, 1)];
        assert!(done == 0 && counted == index::full_count(&list.vectors), "plain Rust counts others than the library");
    }
}

pub fn check() {
    let mut random = Random::new(3);
    EDITIONS.into_iter().for_each(|edition| check_in(edition, &mut random));
    check_frames(&mut random);
    check_index();
}
