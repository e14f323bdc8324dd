//! Request 5/13: frames, held to numbers that stand here. Frames have no edition.
use compare::calls::{in_both, Calls};
use compare::frames::{filled, with, Entry, Word, DATA, END, ERRORS, IDLES, SEQUENCE, SIGNAL, START, WHOLE};
use compare::library;
use compare::lists::{self, list_after_lock};
use compare::random::Random;
use compare::reference;
use compare::reference::edition::Edition;
use compare::reference::vector::Character::{Control, Data};
use compare::reference::vector::{vector, LOCAL_FAULT};
use std::thread;

const GOOD: u32 = 1;
const BAD: u32 = 0;

/// No frame at all.
const NONE: [Entry; 0] = [];

/// The frames of words, and of idles behind them, as the library and the second program agree on them.
fn frames(words: &[Word]) -> Vec<Entry> {
    frames_of(&filled(words))
}

/// The same of a list of vectors.
fn frames_of(vectors: &[u8]) -> Vec<Entry> {
    Calls::new(Edition::Old, 1).all_frames(vectors).unwrap()
}

/// The result of listing, as both agree on it.
fn result(vectors: &[u8], room: usize, summary_room: usize) -> u64 {
    Calls::new(Edition::Old, 1).frames(vectors, room, summary_room).unwrap().0
}

/// Result, list and summary of the library alone, every byte of the last two a 7 before.
fn listed(vectors: &[u8], room: usize, summary_room: usize) -> (u64, Vec<u8>, Vec<u8>) {
    let (mut list, mut summary) = (vec![7; room], vec![7; summary_room]);
    let result = library::frames(vectors, &mut list, &mut summary);
    (result, list, summary)
}

// ---- what is listed

/// "Word number from 0, data octets after Start, good or bad": three numbers of four bytes, and in the summary the number of frames.
#[test]
fn a_good_frame() {
    let words = [
        [0x0f, 0x07, 0x07, 0x07, 0x07],
        [0x0f, 0x07, 0x07, 0x07, 0x07],
        [0x01, 0xfb, 0x55, 0x55, 0x55],
        [0x00, 0x55, 0x55, 0x55, 0xd5],
        [0x00, 0x01, 0x02, 0x03, 0x04],
        [0x08, 0x05, 0x06, 0x07, 0xfd],
        [0x0f, 0x07, 0x07, 0x07, 0x07],
        [0x0f, 0x07, 0x07, 0x07, 0x07],
    ];
    assert_eq!(frames(&words), [[2, 14, GOOD]]);
    let [frame] = &reference::frames::frames(&words.concat())[..] else { panic!("not one frame") };
    assert_eq!(frame.octets, [0x55, 0x55, 0x55, 0x55, 0x55, 0x55, 0xd5, 1, 2, 3, 4, 5, 6, 7]);
    let list = vec![2, 0, 0, 0, 14, 0, 0, 0, 1, 0, 0, 0];
    let summary = vec![1, 0, 0, 0, 0, 0, 0, 0];
    assert_eq!(listed(&words.concat(), 12, 8), (0, list, summary));
}

#[test]
fn lists_without_a_frame() {
    assert_eq!(frames(&[]), NONE);
    assert_eq!(frames(&[IDLES; 16]), NONE);
    assert_eq!(frames(&[DATA; 16]), NONE);
    assert_eq!(frames(&[SEQUENCE; 16]), NONE);
    assert_eq!(frames(&[START; 16]), NONE);
    assert_eq!(listed(&[], 0, 8), (0, vec![], vec![0; 8]));
    assert_eq!(listed(&IDLES.repeat(8), 0, 8), (0, vec![], vec![0; 8]));
}

/// "Each frame is listed once, in order": 64 to 67 octets, each frame's Terminate in another lane, behind the seven of a preamble.
#[test]
fn frames_one_after_another() {
    let ends = [END, [0x0e, 1, 0xfd, 7, 7], [0x0c, 1, 2, 0xfd, 7], [0x08, 1, 2, 3, 0xfd]];
    let words = ends.map(|end| [&[IDLES, START], &[DATA; 17][..], &[end]].concat()).concat();
    assert_eq!(frames(&words), [[1, 71, GOOD], [21, 72, GOOD], [41, 73, GOOD], [61, 74, GOOD]]);
}

/// "It ends at the first later control character": in any lane, those of the Start's own word too.
#[test]
fn a_terminate_in_any_lane() {
    for octets in 0..11 {
        let (word, lane) = (1 + (1 + octets) / 4, (1 + octets) % 4);
        let mut words = [IDLES, START, DATA, DATA, DATA];
        words[word] = with(words[word], lane, Control(0xfd));
        assert_eq!(frames(&words), [[1, octets as u32, GOOD]]);
    }
    assert_eq!(frames(&[IDLES, [0x0f, 0xfb, 0xfd, 0x07, 0x07]]), [[1, 0, GOOD]]);
}

// ---- where a frame begins

/// "A Start in the very first word begins none."
#[test]
fn a_start_in_the_very_first_word() {
    assert_eq!(frames(&[START, DATA, END]), NONE);
    assert_eq!(frames(&[IDLES, START, DATA, END]), [[1, 7, GOOD]]);
    // and hides no later one
    assert_eq!(frames(&[START, IDLES, START, END]), [[2, 3, GOOD]]);
    assert_eq!(frames(&[START, DATA, DATA, SEQUENCE, START, END]), [[4, 3, GOOD]]);
}

/// "If the word before was four idles or a sequence ordered set".
#[test]
fn words_after_which_a_start_begins_none() {
    let words = [DATA, END, ERRORS, SIGNAL, [0x01, 0xfd, 1, 2, 3], [0x0f, 0x06, 0x06, 0x06, 0x06], [0x00, 7, 7, 7, 7]];
    for before in words {
        assert_eq!(frames(&[IDLES, before, START, DATA, END]), NONE, "{before:02x?}");
        assert_eq!(frames(&[before, START, DATA, END]), NONE, "{before:02x?}");
    }
}

/// In each lane an error character, a low power idle, a Terminate, a reserved character, or data.
#[test]
fn three_idles_are_not_four() {
    for lane in 0..4 {
        for other in [Control(0xfe), Control(0x06), Control(0xfd), Control(0x00), Control(0x9c), Data(0x07), Data(0x00)]
        {
            let before = with(IDLES, lane, other);
            assert_eq!(frames(&[IDLES, before, START, DATA, END]), NONE, "{before:02x?}");
        }
    }
}

/// 9c in lane 0 and data in the others, whatever it is; 5c is no sequence.
#[test]
fn sequence_ordered_sets() {
    for before in [SEQUENCE, [0x01, 0x9c, 0, 0, 0], [0x01, 0x9c, 0, 0, 2], [0x01, 0x9c, 0xff, 0x07, 0xfb]] {
        assert_eq!(frames(&[before, START, DATA, END]), [[1, 7, GOOD]], "{before:02x?}");
    }
    let none = [SIGNAL, [0x00, 0x9c, 0, 0, 1], [0x02, 0x00, 0x9c, 0, 1], [0x0f, 0x9c, 0x07, 0x07, 0x07], [0x0f; 5]];
    for before in none.into_iter().chain((1..4).map(|lane| with(SEQUENCE, lane, Control(0x07)))) {
        assert_eq!(frames(&[before, START, DATA, END]), NONE, "{before:02x?}");
    }
}

/// "With Start in lane 0": not in another one, and not as data.
#[test]
fn starts_in_other_lanes() {
    for lane in 1..4 {
        assert_eq!(frames(&[IDLES, with(DATA, lane, Control(0xfb)), DATA, END]), NONE);
        assert_eq!(frames(&[IDLES, with(IDLES, lane, Control(0xfb)), DATA, END]), NONE);
    }
    assert_eq!(frames(&[IDLES, [0x00, 0xfb, 0x55, 0x55, 0x55], DATA, END]), NONE);
}

// ---- how a frame ends

/// "Good only if [..] no error character came", which is no octet, and ends no frame.
#[test]
fn an_error_character_makes_a_frame_bad() {
    // in each lane after the Start, up to the last before the Terminate
    for place in 1..12 {
        let mut words = [IDLES, START, DATA, DATA, END];
        words[1 + place / 4] = with(words[1 + place / 4], place % 4, Control(0xfe));
        assert_eq!(frames(&words), [[1, 10, BAD]]);
    }
    assert_eq!(frames(&[IDLES, START, ERRORS, DATA, END]), [[1, 7, BAD]]);
    assert_eq!(frames(&[IDLES, START, [0x0f, 0xfe, 0xfe, 0xfe, 0xfd]]), [[1, 3, BAD]]);
    // data of the same octet is an octet, and behind the Terminate the frame is over
    assert_eq!(frames(&[IDLES, START, [0x00, 0xfe, 0xfe, 0xfe, 0xfe], END]), [[1, 7, GOOD]]);
    assert_eq!(frames(&[IDLES, START, [0x0f, 0xfd, 0xfe, 0xfe, 0xfe]]), [[1, 3, GOOD]]);
}

/// "Good only if that is Terminate": every other control character but an error character ends a frame as bad, in any lane.
#[test]
fn other_ends() {
    for octet in (0..=255).filter(|octet| ![0xfd, 0xfe].contains(octet)) {
        for lane in 0..4 {
            let end = with(DATA, lane, Control(octet));
            assert_eq!(frames(&[IDLES, START, end, END]), [[1, 3 + lane as u32, BAD]], "{end:02x?}");
        }
    }
}

/// "A frame still open at the end is listed as bad."
#[test]
fn open_at_the_end() {
    let mut words = [IDLES; 8];
    words[7] = START;
    assert_eq!(frames(&words), [[7, 3, BAD]]);
    words[6] = START;
    words[7] = DATA;
    assert_eq!(frames(&words), [[6, 7, BAD]]);
    words[7] = ERRORS;
    assert_eq!(frames(&words), [[6, 3, BAD]]);
    words[7] = [0x08, 1, 2, 3, 0xfd];
    assert_eq!(frames(&words), [[6, 6, GOOD]]);
    assert_eq!(frames(&[&[IDLES, START], &[DATA; 14][..]].concat()), [[1, 59, BAD]]);
}

/// A Start ends the frame that it stands in, and begins none.
#[test]
fn a_start_inside_a_frame() {
    assert_eq!(frames(&[IDLES, START, DATA, START, DATA, END]), [[1, 7, BAD]]);
    assert_eq!(frames(&[IDLES, START, START, DATA, END]), [[1, 3, BAD]]);
    assert_eq!(frames(&[IDLES, [0x05, 0xfb, 1, 0xfb, 3], DATA, END]), [[1, 1, BAD]]);
    assert_eq!(frames(&[IDLES, START, START, IDLES, START, END]), [[1, 3, BAD], [4, 3, GOOD]]);
}

/// Four idles, or a sequence ordered set, end a frame and let the next one begin.
#[test]
fn the_word_that_ends_a_frame_before_the_next_start() {
    for between in [IDLES, SEQUENCE] {
        let words = [IDLES, START, DATA, between, START, DATA, END];
        assert_eq!(frames(&words), [[1, 7, BAD], [4, 7, GOOD]]);
        assert_eq!(frames(&[between, START, between, START, between, START]), [[1, 3, BAD], [3, 3, BAD], [5, 3, BAD]]);
    }
    // a Terminate with three idles is none of the two
    assert_eq!(frames(&[IDLES, START, DATA, END, START, DATA, END]), [[1, 7, GOOD]]);
}

// ---- refusals

/// Eight words with two frames.
const TWO: [Word; 8] = [IDLES, START, END, SEQUENCE, START, DATA, IDLES, IDLES];

/// "1, 2, 5 as in sending, then 4 for a list too small, with the number of frames as place."
#[test]
fn refusals_and_their_places() {
    let two = TWO.concat();
    assert_eq!(frames_of(&two), [[1, 3, GOOD], [4, 7, BAD]]);
    for length in [1_000_001, 1_000_040, 1_000_080] {
        assert_eq!(result(&vec![0; length], 24, 8), 1, "{length}");
    }
    for length in [1, 5, 10, 39, 41, 45, 50, 60, 999_999] {
        assert_eq!(result(&vec![0; length], 24, 8), 2, "{length}");
    }
    for control_byte in [0x10, 0x1f, 0x20, 0x40, 0x80, 0xff] {
        for word in 0..8 {
            let mut vectors = two.clone();
            vectors[5 * word] = control_byte;
            assert_eq!(result(&vectors, 24, 8), 5 + 256 * 5 * word as u64, "{control_byte:02x} in word {word}");
            // a later one is not the place
            vectors[35] = 0xff;
            assert_eq!(result(&vectors, 24, 8), 5 + 256 * 5 * word as u64, "{control_byte:02x} in word {word}");
        }
    }
    for room in 0..24 {
        assert_eq!(result(&two, room, 8), 4 + 256 * 2, "{room}");
    }
    for summary_room in 0..8 {
        assert_eq!(result(&two, 24, summary_room), 4, "{summary_room}");
    }
    assert_eq!(result(&two, 24, 8), 0);
}

/// "The first that applies in these orders is given, and no later one": the summary's 4 comes before the list's.
#[test]
fn the_order_of_refusals() {
    let spoilt = |length: usize| vec![0x10; length];
    assert_eq!(result(&spoilt(1_000_041), 0, 0), 1);
    assert_eq!(result(&spoilt(1_000_040), 0, 0), 1);
    assert_eq!(result(&spoilt(1_000_000), 0, 0), 5);
    assert_eq!(result(&spoilt(999_999), 0, 0), 2);
    assert_eq!(result(&spoilt(41), 0, 0), 2);
    assert_eq!(result(&spoilt(40), 0, 0), 5);
    let two = TWO.concat();
    assert_eq!(result(&two, 0, 0), 4);
    assert_eq!(result(&two, 23, 7), 4);
    assert_eq!(result(&two, 23, 8), 4 + 512);
    // a list that has no frames wants no room
    assert_eq!(result(&IDLES.repeat(8), 0, 7), 4);
    assert_eq!(result(&IDLES.repeat(8), 0, 8), 0);
}

/// "Success writes exactly the stated bytes from the start of the lent room; the rest is unchanged." A refusal leaves the list as it was,
/// and the summary "takes the zeros of a refusal; one too short for it is refusal 4 and stays unchanged".
#[test]
fn what_is_written() {
    let two = TWO.concat();
    let entries = [1, 0, 0, 0, 3, 0, 0, 0, 1, 0, 0, 0, 4, 0, 0, 0, 7, 0, 0, 0, 0, 0, 0, 0];
    let summary = [2, 0, 0, 0, 0, 0, 0, 0];
    assert_eq!(listed(&two, 24, 8), (0, entries.to_vec(), summary.to_vec()));
    assert_eq!(listed(&two, 29, 17), (0, [&entries[..], &[7; 5]].concat(), [&summary[..], &[7; 9]].concat()));
    for room in [0, 1, 12, 23] {
        assert_eq!(listed(&two, room, 8), (4 + 512, vec![7; room], vec![0; 8]));
        assert_eq!(listed(&two, room, 9), (4 + 512, vec![7; room], [&[0; 8][..], &[7]].concat()));
        assert_eq!(listed(&two, room, 7), (4, vec![7; room], vec![7; 7]));
    }
    assert_eq!(listed(&two, 24, 7), (4, vec![7; 24], vec![7; 7]));
    assert_eq!(listed(&two[..39], 24, 8), (2, vec![7; 24], vec![0; 8]));
    assert_eq!(listed(&two[..39], 24, 7), (2, vec![7; 24], vec![7; 7]));
    assert_eq!(listed(&[0x10; 40], 24, 8), (5, vec![7; 24], vec![0; 8]));
    assert_eq!(listed(&vec![0; 1_000_040], 24, 8), (1, vec![7; 24], vec![0; 8]));
}

// ---- long lists, and what is received

/// The same as `listed` of the library alone, on a stack of 64 kB.
fn listed_on_a_small_stack(vectors: Vec<u8>, room: usize) -> (u64, Vec<u8>, Vec<u8>) {
    let small = thread::Builder::new().stack_size(65_536);
    small.spawn(move || listed(&vectors, room, 8)).unwrap().join().unwrap()
}

/// 100,000 vectors, every other word a Start. "Reading between frames and reading inside a frame hand over to each other until no words
/// remain", and the stack gets no deeper by it.
#[test]
fn a_hundred_thousand_frames() {
    for (word, octets, verdict) in [(WHOLE, 2, GOOD), (START, 3, BAD)] {
        let vectors = [IDLES, word].concat().repeat(100_000);
        let entries: Vec<Entry> = (0..100_000).map(|i| [2 * i + 1, octets, verdict]).collect();
        assert!(frames_of(&vectors) == entries);
        let list: Vec<u8> = entries.concat().into_iter().flat_map(u32::to_le_bytes).collect();
        let summary = vec![0xa0, 0x86, 0x01, 0, 0, 0, 0, 0];
        assert!(listed_on_a_small_stack(vectors.clone(), 1_200_000) == (0, list, summary));
        assert_eq!(result(&vectors, 1_199_999, 8), 4 + 256 * 100_000);
        assert_eq!(result(&[vectors, IDLES.repeat(8)].concat(), 1_200_000, 8), 1);
    }
}

/// One frame in the longest list, open at its end and not.
#[test]
fn the_longest_frame() {
    let mut words = [vec![IDLES, START], vec![DATA; 199_998]].concat();
    assert_eq!(frames(&words), [[1, 799_995, BAD]]);
    words[199_999] = [0x08, 1, 2, 3, 0xfd];
    assert_eq!(frames(&words), [[1, 799_994, GOOD]]);
}

/// Sends a list from some state, and receives it.
fn passed_on(edition: Edition, vectors: &[u8]) -> Vec<u8> {
    library::received(edition, &library::sent(edition, vectors, 1).0).0
}

/// A legal list whose first 64 vectors are control vectors has the same frames when it was sent and received, though the first 63 vectors
/// are answered as Local Fault.
#[test]
fn frames_of_what_is_received() {
    let mut vectors = lists::idle().repeat(64);
    // a Terminate at each of the eight characters, and then a Start in a vector's second word, after a sequence ordered set
    for k in 0..8 {
        let end = |i: usize| if i < k { Data(0x20) } else { Control(if i == k { 0xfd } else { 0x07 }) };
        vectors.extend([lists::start(), vector(&std::array::from_fn(end)), lists::idle()].concat());
    }
    vectors.extend([SEQUENCE, START, DATA, DATA, END, IDLES, IDLES, IDLES].concat());
    let words = [128, 134, 140, 146, 152, 158, 164, 170, 177];
    let octets = [7, 8, 9, 10, 11, 12, 13, 14, 11];
    let expected: Vec<Entry> = words.into_iter().zip(octets).map(|(word, octets)| [word, octets, GOOD]).collect();
    assert_eq!(frames_of(&vectors), expected);
    let received = in_both(|edition| passed_on(edition, &vectors));
    assert_eq!(received[..630], LOCAL_FAULT.repeat(63));
    assert_eq!(frames_of(&received), expected);
}

#[test]
fn frames_of_what_is_received_of_random_lists() {
    let mut random = Random::new(5);
    let mut listed = 0;
    for n in 0..400 {
        let edition = [Edition::Old, Edition::New][n % 2];
        let vectors = list_after_lock(edition, 64 + 4 * (n % 50), 0, &mut random);
        let sent = frames_of(&vectors);
        assert_eq!(frames_of(&passed_on(edition, &vectors)), sent);
        listed += sent.len();
    }
    assert!(listed > 1_000, "only {listed} frames");
}
