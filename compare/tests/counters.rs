//! Request 3/13: frames begun, vectors replaced, and a record of counters that each call updates in place, held to numbers that stand
//! here, in both editions.
use compare::calls::{agreed, agreed_in_both, in_both, Calls};
use compare::library::{self, COUNTERS_BYTES, RECEIVE_SUMMARY_BYTES};
use compare::lines::{block, damaged, end, idle, invalid, start, until_high, Line};
use compare::lists;
use compare::random::Random;
use compare::reference::block::{kind_of_vector, Block, Kind, CONTROL, DATA};
use compare::reference::counters::Counters;
use compare::reference::edition::{Edition, EDITIONS};
use compare::reference::vector::{Vector, ERROR};

const TOP: u32 = 4_294_967_295;

/// Receives onto lent counters, as the library and the second program agree on it in both editions: the result.
fn receive(line: &[u8], room: usize, summary_room: usize, counters: &mut [u8]) -> u64 {
    let (result, then) = in_both(|edition| {
        let number = edition as u64;
        Calls::new(edition, 1).receive_into(number, line, room, summary_room, counters).unwrap();
        let mut lent = counters.to_vec();
        (library::receive(number, line, &mut vec![0; room], &mut vec![0; summary_room], &mut lent), lent)
    });
    counters.copy_from_slice(&then);
    result
}

/// What counters with these numbers are after a line.
fn after(line: &[u8], old: [u32; 8]) -> [u32; 8] {
    let mut counters = Counters(old).bytes();
    assert_eq!(receive(line, 8 * line.len() / 66 * 10, RECEIVE_SUMMARY_BYTES, &mut counters), 0);
    Counters::of_bytes(&counters).0
}

/// A line of which every field counts another number.
fn of_all() -> Vec<u8> {
    let bad = |payload, count| vec![block(CONTROL, payload); count];
    let blocks = [
        vec![invalid(); 2],
        vec![idle(); 64],
        [start(), end()].repeat(7),
        vec![idle(), invalid()],
        bad(0x00, 4),
        bad(0x1e | 1 << 8, 5),
        bad(0x4b | 1 << 32, 6),
        // after an error it begins no frame
        vec![start(), idle()],
    ];
    let mut line = Line::of_blocks(&blocks.concat(), 0);
    // the bits that the two slips skip
    line.bits.insert(66, false);
    line.bits.insert(66 + 1 + 66, false);
    line.bytes()
}

/// What it adds: tested, slips, header, type, control code and ordered set code faults, begun, replaced.
const ALL: [u32; 8] = [99, 2, 3, 4, 5, 6, 7, 17];

#[test]
fn each_field_counts_its_own() {
    assert_eq!(after(&of_all(), [0; 8]), ALL);
    let (_, words) = agreed_in_both(&of_all());
    let counted = [&words[..2], &words[5..9], &words[10..]].concat();
    assert_eq!(counted, ALL.map(u64::from));
}

#[test]
fn a_field_becomes_its_old_number_plus_what_the_call_added() {
    let old = [1, 20, 300, 4_000, 50_000, 600_000, 7_000_000, 80_000_000];
    assert_eq!(after(&of_all(), old), [100, 22, 303, 4_004, 50_005, 600_006, 7_000_007, 80_000_017]);
}

/// The fields, one after another, four bytes each, lowest byte first. Bytes behind them stay.
#[test]
fn the_record_as_bytes() {
    let mut counters =
        *b"\x9d\xff\xff\0\xfe\xff\0\0\xfd\0\0\0\0\0\0\xff\xff\xff\xff\xff\0\0\0\0\0\0\x01\0\xee\xff\xff\xff behind";
    assert_eq!(receive(&of_all(), 990, RECEIVE_SUMMARY_BYTES, &mut counters), 0);
    let then =
        b"\0\0\0\x01\0\0\x01\0\0\x01\0\0\x04\0\0\xff\xff\xff\xff\xff\x06\0\0\0\x07\0\x01\0\xff\xff\xff\xff behind";
    assert_eq!(counters, *then);
}

#[test]
fn a_field_at_the_top_stays() {
    for i in 0..8 {
        let (mut old, mut then) = ([0; 8], ALL);
        (old[i], then[i]) = (TOP, TOP);
        assert_eq!(after(&of_all(), old), then, "field {i}");
    }
}

#[test]
fn a_field_one_below_the_top_goes_there_and_no_further() {
    for i in 0..8 {
        let (mut old, mut then) = ([0; 8], ALL);
        (old[i], then[i]) = (TOP - 1, TOP);
        assert_eq!(after(&of_all(), old), then, "field {i}");
    }
}

#[test]
fn all_fields_at_once_near_the_top() {
    assert_eq!(after(&of_all(), ALL.map(|added| TOP - added - 1)), [TOP - 1; 8]);
    assert_eq!(after(&of_all(), ALL.map(|added| TOP - added)), [TOP; 8], "exactly there");
    assert_eq!(after(&of_all(), ALL.map(|added| TOP - added + 1)), [TOP; 8]);
}

#[test]
fn all_bits_set_stay() {
    let mut counters = [0xff; COUNTERS_BYTES];
    assert_eq!(receive(&of_all(), 990, RECEIVE_SUMMARY_BYTES, &mut counters), 0);
    assert_eq!(counters, [0xff; COUNTERS_BYTES]);
}

#[test]
fn a_line_of_no_block_adds_nothing() {
    for old in [[0; 8], ALL, [TOP - 1; 8], [TOP; 8]] {
        assert_eq!(after(&[], old), old);
        assert_eq!(after(&[0xff; 8], old), old);
    }
}

#[test]
fn two_calls_in_a_row_add_up() {
    assert_eq!(after(&of_all(), after(&of_all(), [0; 8])), ALL.map(|added| 2 * added));
    // nine zero bytes: one block, one slip, one invalid header
    assert_eq!(after(&[0; 9], after(&of_all(), [0; 8])), [100, 3, 4, 4, 5, 6, 7, 17]);
    // the first takes three fields to the top, the second leaves them there
    let near = [TOP - 98, TOP - 4, TOP - 3, 0, 0, 0, 0, TOP - 34];
    assert_eq!(after(&of_all(), after(&of_all(), near)), [TOP, TOP, TOP, 8, 10, 12, 14, TOP]);
}

#[test]
fn the_largest_numbers_that_one_call_adds() {
    let line = |blocks: &[Block]| Line::of_blocks(&[&[idle(); 64], blocks].concat(), 0).bytes();
    let frames = line(&[start(), end()].repeat(49_968));
    assert_eq!(after(&frames, [0; 8]), [100_000, 0, 0, 0, 0, 0, 49_968, 0]);
    let bad = line(&vec![block(CONTROL, 0x00); 99_936]);
    assert_eq!(after(&bad, [0; 8]), [100_000, 0, 0, 99_936, 0, 0, 0, 99_936]);
}

/// Whatever the counters hold, and whatever else is wrong with the call.
#[test]
fn a_refused_call_changes_no_byte() {
    let (line, too_long) = (of_all(), vec![0x55; 825_001]);
    let refused = [
        (1, &too_long, 1_000_000, 96, 32),
        (1, &too_long, 0, 0, 0),
        (1, &too_long, 0, 95, 31),
        (4, &line, 989, 96, 32),
        (4, &line, 0, 200, 200),
        (4, &line, 990, 95, 32),
        (4, &line, 990, 80, 32),
        (4, &line, 990, 0, 33),
        (4, &line, 990, 96, 31),
        (4, &line, 990, 200, 28),
        (4, &line, 990, 96, 0),
        (4, &line, 0, 0, 0),
    ];
    for (number, line, room, summary_room, counters_room) in refused {
        for byte in [0x00, 0x5a, 0xfe, 0xff] {
            let mut counters = vec![byte; counters_room];
            assert_eq!(receive(line, room, summary_room, &mut counters), number);
            assert_eq!(counters, vec![byte; counters_room], "{number}: {room} {summary_room} {counters_room}");
        }
    }
}

/// "The summary goes into a lent slice of its own, which takes the zeros of a refusal": also where the counters are what is too short.
#[test]
fn short_counters_leave_zeros_in_the_summary() {
    for counters_room in 0..32 {
        let (result, summary) = in_both(|edition| {
            let (mut summary, mut counters) = ([7; RECEIVE_SUMMARY_BYTES + 1], vec![0; counters_room]);
            (library::receive(edition as u64, &[0; 9], &mut [0; 10], &mut summary, &mut counters), summary)
        });
        assert_eq!(result, 4);
        assert_eq!(summary, std::array::from_fn(|i| if i < RECEIVE_SUMMARY_BYTES { 0 } else { 7 }));
    }
}

/// Begun and replaced of a line of these blocks.
fn counts(blocks: &[Block]) -> [u64; 2] {
    let (_, words) = agreed_in_both(&Line::of_blocks(blocks, 0).bytes());
    [words[10], words[11]]
}

/// The same where 64 idle blocks, which give lock, come first.
fn in_lock(blocks: &[Block]) -> [u64; 2] {
    counts(&[&[idle(); 64], blocks].concat())
}

fn data() -> Block {
    block(DATA, 0)
}

#[test]
fn a_start_block_of_each_format_begins_a_frame() {
    for payload in [0x33, 0x66, 0x78, 0x33 | 0x1e << 8, 0x66 | 0xf << 32] {
        assert_eq!(in_lock(&[block(CONTROL, payload), data(), end(), idle()]), [1, 0], "{payload:x}");
    }
    // bad codes make it a bad block
    for payload in [0x33 | 0x01 << 8, 0x66 | 0x1 << 32] {
        assert_eq!(in_lock(&[block(CONTROL, payload), idle()]), [0, 1], "{payload:x}");
    }
}

#[test]
fn a_start_begins_a_frame_after_idles_after_terminate_and_as_the_block_that_gives_lock() {
    assert_eq!(in_lock(&[start(), end(), idle()]), [1, 0]);
    assert_eq!(in_lock(&[start(), end(), start(), data(), end(), start(), end()]), [3, 0]);
    assert_eq!(counts(&[vec![idle(); 63], vec![start(), end()]].concat()), [1, 0]);
}

/// In a frame, and after an error of any cause.
#[test]
fn a_start_answered_as_an_error_is_not_begun() {
    assert_eq!(in_lock(&[start(), start(), end(), idle()]), [1, 1]);
    assert_eq!(in_lock(&[start(), data(), start(), start(), idle()]), [1, 2]);
    assert_eq!(in_lock(&[data(), start(), idle()]), [0, 2]);
    assert_eq!(in_lock(&[end(), start(), idle()]), [0, 2]);
    assert_eq!(in_lock(&[invalid(), start(), idle()]), [0, 2]);
    assert_eq!(in_lock(&[block(CONTROL, 0x00), start(), start(), data(), end(), idle()]), [0, 3]);
    // idles after the error, and the next one is begun
    assert_eq!(in_lock(&[data(), idle(), start(), end()]), [1, 1]);
}

#[test]
fn a_start_answered_as_local_fault_is_not_begun() {
    assert_eq!(counts(&[start()]), [0, 0]);
    assert_eq!(
        counts(&[vec![idle(); 62], vec![start(), end()]].concat()),
        [0, 1],
        "it leaves no frame for Terminate to end"
    );
    // of its 16 invalid headers the last sets high
    assert_eq!(counts(&[until_high(), vec![start(), end()]].concat()), [0, 15]);
}

#[test]
fn the_last_vector_counts_too() {
    assert_eq!(in_lock(&[start()]), [1, 0]);
    assert_eq!(in_lock(&[start(), end(), start()]), [2, 0]);
    assert_eq!(in_lock(&[start(), start()]), [1, 1]);
    assert_eq!(in_lock(&[data()]), [0, 1]);
    assert_eq!(in_lock(&[invalid()]), [0, 1]);
    assert_eq!(in_lock(&[end()]), [0, 1]);
}

#[test]
fn a_terminate_is_replaced_where_the_block_after_it_does_not_let_it_end() {
    assert_eq!(in_lock(&[start(), end()]), [1, 0]);
    for (next, replaced) in [(idle(), 0), (start(), 0), (data(), 1), (end(), 1), (invalid(), 2)] {
        assert_eq!(in_lock(&[start(), end(), next])[1], replaced);
    }
}

/// How many of these vectors are of kind S, and how many the error vector.
fn among(edition: Edition, vectors: &[u8]) -> [u64; 2] {
    let vectors: Vec<&Vector> = vectors.chunks(10).map(|vector| vector.try_into().unwrap()).collect();
    let count = |is: &dyn Fn(&Vector) -> bool| vectors.iter().filter(|vector| is(vector)).count() as u64;
    [count(&|vector| kind_of_vector(edition, vector) == Kind::S), count(&|vector| *vector == ERROR)]
}

#[test]
fn begun_and_replaced_are_the_starts_and_the_error_vectors_among_the_answers() {
    let mut random = Random::new(9);
    let mut all = [0; 2];
    for n in 0..4_000 {
        let edition = random.pick(&EDITIONS);
        let line = if n % 2 == 0 {
            damaged(edition, &mut random)
        } else {
            let vectors = lists::list_after_lock(edition, 164, 200, &mut random);
            Line::of_list(edition, &vectors, random.start_state()).bytes()
        };
        let (vectors, words) = agreed(edition, &line);
        assert_eq!(words[10..], among(edition, &vectors), "line {n}");
        all = std::array::from_fn(|i| all[i] + words[10 + i]);
    }
    // neither case is empty
    assert!(all.iter().all(|count| *count > 10_000), "{all:?}");
}
