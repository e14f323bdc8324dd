//! Request 6/13: the last frame of a capture. A missing next block counts as C, and a flag says that the last vector was judged
//! without its successor. In both editions.
use compare::calls::{agreed, agreed_in_both};
use compare::lines::{block, end, idle, invalid, start, until_high, Line};
use compare::lists;
use compare::random::Random;
use compare::reference::block::{kind_of_vector, Block, Kind, CONTROL, DATA, TERMINATE};
use compare::reference::edition::EDITIONS;
use compare::reference::vector::{vector, Character, Vector, ERROR, LOCAL_FAULT};
use std::cmp::Ordering;
use Character::{Control, Data};

/// Terminate blocks by the number of their data octets. The other bits are zeros: octets 00 and the code of idle.
const TYPES: [u64; 8] = [0x87, 0x99, 0xaa, 0xb4, 0xcc, 0xd2, 0xe1, 0xff];

/// The vector of the terminate block with this many octets.
fn end_after(octets: usize) -> Vector {
    vector(&std::array::from_fn(|i| match i.cmp(&octets) {
        Ordering::Less => Data(0x00),
        Ordering::Equal => Control(TERMINATE),
        Ordering::Greater => Control(0x07),
    }))
}

fn data() -> Block {
    block(DATA, 0)
}

/// The last vectors of a line, two of them, and its flag.
fn last_two(line: &Line) -> ([Vector; 2], u64) {
    let (vectors, words) = agreed_in_both(&line.bytes());
    let last: [u8; 20] = *vectors.last_chunk().unwrap();
    ([last[..10].try_into().unwrap(), last[10..].try_into().unwrap()], words[9])
}

/// The last vector and the flag of a line of these blocks.
fn last(blocks: &[Block]) -> (Vector, u64) {
    let ([_, last], flag) = last_two(&Line::of_blocks(blocks, 0));
    (last, flag)
}

/// The same where 64 idle blocks, which give lock, come first.
fn last_in_lock(blocks: &[Block]) -> (Vector, u64) {
    last(&[&[idle(); 64], blocks].concat())
}

#[test]
fn a_capture_that_stops_after_terminate_shows_the_frame() {
    for (octets, type_byte) in TYPES.into_iter().enumerate() {
        let end = block(CONTROL, type_byte);
        assert_eq!(last_in_lock(&[start(), end]), (end_after(octets), 1), "type {type_byte:x}");
        assert_eq!(last_in_lock(&[start(), data(), data(), end]), (end_after(octets), 1), "type {type_byte:x}");
    }
}

/// State E comes of data outside a frame, of a Start in a frame, of a bad block.
#[test]
fn so_does_one_whose_terminate_comes_in_state_e() {
    for (octets, type_byte) in TYPES.into_iter().enumerate() {
        let end = block(CONTROL, type_byte);
        let accepted = (end_after(octets), 1);
        assert_eq!(last_in_lock(&[data(), end]), accepted, "type {type_byte:x}");
        assert_eq!(last_in_lock(&[start(), start(), end]), accepted, "type {type_byte:x}");
        assert_eq!(last_in_lock(&[start(), block(CONTROL, 0x00), end]), accepted, "type {type_byte:x}");
    }
}

/// Terminate is accepted where these blocks stop, and an error where an invalid header follows, which answers Local Fault and
/// leaves these slips, locked and high.
fn taken_back_by_an_invalid_header(blocks: &[Block], left: [u64; 3]) {
    assert_eq!(last(blocks), (lists::end(), 1));
    let more = Line::of_blocks(&[blocks, &[invalid()]].concat(), 0);
    assert_eq!(last_two(&more), ([ERROR, LOCAL_FAULT], 0));
    assert_eq!(agreed_in_both(&more.bytes()).1[1..4], left);
}

/// "A next block that loses lock still counts as E": its header is the 16th invalid one of 64.
#[test]
fn a_terminate_before_loss_of_lock_is_an_error() {
    let blocks = [vec![idle(); 64], vec![invalid(); 15], vec![idle(), start(), end()]].concat();
    taken_back_by_an_invalid_header(&blocks, [1, 0, 0]);
}

/// Its header is the 16th invalid one of the window, and the first of its 64.
#[test]
fn a_terminate_before_a_high_error_rate_is_an_error() {
    let blocks = [vec![idle(); 64], vec![invalid(); 15], vec![idle(); 49], vec![start(), end()]].concat();
    taken_back_by_an_invalid_header(&blocks, [0, 1, 1]);
}

/// A line of whole bytes that ends with this many bits of a data block after Terminate. Up to three more idle blocks fill a byte,
/// and a stray bit before the first block where the number is odd: that one shows the header 00 then, and slips.
fn with_bits_of_data(bits: usize) -> Line {
    let strays = bits % 2;
    let upto_end = |more: usize| [vec![data()], vec![idle(); 64 + more], vec![start(), end()]].concat();
    let blocks = (0..4).map(upto_end).find(|blocks| (strays + 66 * blocks.len() + bits) % 8 == 0).unwrap();
    let mut line = Line::of_blocks(&[&blocks[..], &[data()]].concat(), 0);
    line.bits.truncate(66 * blocks.len() + bits);
    line.bits.splice(0..0, vec![false; strays]);
    line
}

/// "Bits that do not fill a block are not tested": a next block that is cut is a missing one.
#[test]
fn a_next_block_cut_in_the_middle_is_missing() {
    for bits in 0..66 {
        let line = with_bits_of_data(bits);
        assert_eq!(line.bits.len() % 8, 0);
        let ([begun, ended], flag) = last_two(&line);
        assert_eq!((begun, ended, flag), (lists::start(), lists::end(), 1), "{bits} bits");
    }
    let ([ended, _], flag) = last_two(&with_bits_of_data(66));
    assert_eq!((ended, flag), (ERROR, 0));
}

#[test]
fn an_empty_capture_has_no_flag() {
    let (vectors, words) = agreed_in_both(&[]);
    assert_eq!((vectors, words), (vec![], [0; 12]));
}

#[test]
fn no_flag_where_the_last_vector_is_no_terminate() {
    let zeros = vector(&[Data(0x00); 8]);
    assert_eq!(last_in_lock(&[idle()]), (lists::idle(), 0));
    assert_eq!(last_in_lock(&[start()]), (lists::start(), 0));
    assert_eq!(last_in_lock(&[start(), data()]), (zeros, 0));
    assert_eq!(last_in_lock(&[data()]), (ERROR, 0));
    assert_eq!(last_in_lock(&[start(), invalid()]), (ERROR, 0));
    // a Terminate whose successor is there
    assert_eq!(last_in_lock(&[start(), end(), idle()]), (lists::idle(), 0));
    assert_eq!(last_in_lock(&[start(), end(), start()]), (lists::start(), 0));
}

/// After idles, after Terminate, and as the block that gives lock.
#[test]
fn a_last_terminate_out_of_turn_is_an_error() {
    assert_eq!(last_in_lock(&[end()]), (ERROR, 0));
    assert_eq!(last_in_lock(&[start(), end(), idle(), end()]), (ERROR, 0));
    assert_eq!(last(&[vec![idle(); 62], vec![start(), end()]].concat()), (ERROR, 0));
}

/// The second of two is judged without its successor, and so accepted after the first, which it made an error.
#[test]
fn of_two_terminates_at_the_end_the_second_is_accepted() {
    let line = Line::of_blocks(&[vec![idle(); 64], vec![start(), end(), end()]].concat(), 0);
    assert_eq!(last_two(&line), ([ERROR, lists::end()], 1));
}

#[test]
fn a_last_terminate_is_local_fault_while_not_locked_or_high() {
    let frame = vec![start(), end()];
    assert_eq!(last(&frame), (LOCAL_FAULT, 0));
    assert_eq!(last(&[vec![idle(); 61], frame.clone()].concat()), (LOCAL_FAULT, 0));
    assert_eq!(last(&[until_high(), frame].concat()), (LOCAL_FAULT, 0));
}

/// Wherever a capture stops, its vectors are those of a longer one, but for a last one with the flag; and that one is a Terminate.
#[test]
fn only_a_last_vector_with_the_flag_may_change_in_a_longer_capture() {
    let mut random = Random::new(8);
    let (mut flagged, mut changed) = (0, 0);
    for round in 0..40 {
        let edition = EDITIONS[round % 2];
        let vectors = lists::list_after_lock(edition, 160, 100, &mut random);
        let mut line = Line::of_list(edition, &vectors, random.start_state());
        line.flip_some(random.below(4), 66 * 64, &mut random);
        let line = line.bytes();
        let (all, _) = agreed(edition, &line);
        for n in 9..line.len() {
            let (vectors, words) = agreed(edition, &line[..n]);
            let (before, last) = vectors.split_last_chunk::<10>().unwrap();
            let same = all.starts_with(&vectors);
            assert!(all.starts_with(before) && (same || words[9] == 1), "{n} bytes");
            assert_eq!(words[9], (kind_of_vector(edition, last) == Kind::T) as u64, "{n} bytes");
            flagged += words[9];
            changed += !same as u64;
        }
    }
    // neither case is empty
    assert!(changed > 100 && flagged > changed + 100, "{flagged} with the flag, {changed} of them changed");
}
