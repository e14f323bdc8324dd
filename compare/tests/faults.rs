//! Request 1/13: which blocks are counted as bad, and under which reason, held to numbers that stand here, in both editions.
use compare::calls::{agreed, in_both};
use compare::library::{sent, word};
use compare::lines::{block, carrying, damaged, data, idle, until_high, Line};
use compare::lists;
use compare::random::Random;
use compare::reference::block::{kind, Block, Kind, CONTROL, DATA};
use compare::reference::edition::{Edition, EDITIONS};
use compare::reference::receiving::receive;
use compare::reference::vector::{vector, Character, ERROR, LOCAL_FAULT};
use Character::{Control, Data};

const NONE: [u64; 4] = [0, 0, 0, 0];
const HEADER: [u64; 4] = [1, 0, 0, 0];
const TYPE: [u64; 4] = [0, 1, 0, 0];
const CONTROL_CODE: [u64; 4] = [0, 0, 1, 0];
const SET_CODE: [u64; 4] = [0, 0, 0, 1];

/// What receiving says of a line: the vectors; tested, slips, locked, high; header, type, control code and ordered set code faults.
fn seen_in(edition: Edition, line: &[u8]) -> (Vec<u8>, [u64; 4], [u64; 4]) {
    let (vectors, words) = agreed(edition, line);
    (vectors, words[..4].try_into().unwrap(), words[5..9].try_into().unwrap())
}

/// The same of a line of which both editions say it.
fn seen(line: &[u8]) -> (Vec<u8>, [u64; 4], [u64; 4]) {
    in_both(|edition| seen_in(edition, line))
}

/// The faults of a line of these blocks.
fn faults(blocks: &[Block], start: u64) -> [u64; 4] {
    seen(&Line::of_blocks(blocks, start).bytes()).2
}

/// Those of a block on a line of its own.
fn alone(header: [bool; 2], payload: u64) -> [u64; 4] {
    faults(&[block(header, payload)], 0)
}

/// Control codes begin at bit 8 (1e, 2d, 33), 15 (87) or 36 (4b), ordered set codes at bits 32 and 36.
#[test]
fn each_reason_by_itself() {
    assert_eq!(alone(DATA, 0), NONE);
    assert_eq!(alone(CONTROL, 0x1e), NONE);
    assert_eq!(alone([false, false], 0x1e), HEADER);
    assert_eq!(alone([true, true], 0x1e), HEADER);
    assert_eq!(alone(CONTROL, 0x00), TYPE);
    for payload in [0x1e | 1 << 8, 0x2d | 1 << 8, 0x33 | 1 << 8, 0x87 | 1 << 15, 0x4b | 1 << 36] {
        assert_eq!(alone(CONTROL, payload), CONTROL_CODE, "{payload:x}");
    }
    for payload in [0x2d | 1 << 36, 0x66 | 1 << 32, 0x55 | 1 << 32, 0x55 | 1 << 36, 0x4b | 1 << 32] {
        assert_eq!(alone(CONTROL, payload), SET_CODE, "{payload:x}");
    }
}

#[test]
fn a_block_counts_once_under_the_first_reason() {
    assert_eq!(alone([true, true], 0x00), HEADER);
    assert_eq!(alone([false, false], 0x4b | 1 << 32 | 1 << 36), HEADER);
    assert_eq!(alone(CONTROL, u64::MAX << 8), TYPE);
    // the control code before the ordered set code in the block, and after it
    assert_eq!(alone(CONTROL, 0x2d | 1 << 8 | 1 << 36), CONTROL_CODE);
    assert_eq!(alone(CONTROL, 0x4b | 1 << 32 | 1 << 36), CONTROL_CODE);
    // several of one reason
    assert_eq!(alone(CONTROL, 0x1e | 1 << 8 | 1 << 15 | 1 << 57), CONTROL_CODE);
    assert_eq!(alone(CONTROL, 0x55 | 1 << 32 | 1 << 36), SET_CODE);
}

#[test]
fn code_1e_is_a_control_code_fault_in_type_1e_alone() {
    for i in 0..8 {
        assert_eq!(alone(CONTROL, 0x1e | 0x1e << (8 + 7 * i)), CONTROL_CODE, "code {i}");
    }
    for i in 0..4 {
        assert_eq!(alone(CONTROL, 0x2d | 0x1e << (8 + 7 * i)), NONE, "code {i}");
        assert_eq!(alone(CONTROL, 0x33 | 0x1e << (8 + 7 * i)), NONE, "code {i}");
        assert_eq!(alone(CONTROL, 0x4b | 0x1e << (36 + 7 * i)), NONE, "code {i}");
    }
    for i in 0..7 {
        assert_eq!(alone(CONTROL, 0x87 | 0x1e << (15 + 7 * i)), NONE, "code {i}");
    }
}

/// "In state E the sent block is type 1e with eight codes 1e": for an error vector, for one that no block carries, out of turn.
#[test]
fn an_error_block_that_was_sent_is_a_control_code_fault() {
    let mut list = lists::idle().repeat(65);
    for replaced in [ERROR, vector(&[Control(0x01); 8]), lists::end()] {
        list.extend(replaced);
        list.extend(lists::idle());
    }
    list.extend(lists::idle());
    let (line, summary) = in_both(|edition| sent(edition, &list, 0));
    assert_eq!(word(&summary, 2), 3);
    let (vectors, summary, faults) = seen(&line);
    assert_eq!(vectors[650..660], ERROR);
    assert_eq!((summary, faults), ([72, 0, 1, 0], [0, 0, 3, 0]));
}

/// Good blocks that the receive diagram answers as the error vector.
#[test]
fn a_good_block_out_of_turn_counts_under_no_reason() {
    let [idle, start, data, end] = [lists::idle(), lists::start(), vector(&[Data(0x11); 8]), lists::end()];
    // data after idle, a Start in a frame, a Terminate that data follows
    let tried = [data, idle, start, start, end, idle, start, end, data, end, idle];
    let answers = [ERROR, idle, start, ERROR, end, idle, start, ERROR, data, end, idle];
    let all = [vec![idle; 64], tried.to_vec()].concat();
    let blocks: Vec<Block> = all.iter().map(carrying).collect();
    let (vectors, summary, faults) = seen(&Line::of_blocks(&blocks, 0).bytes());
    assert_eq!(vectors[640..], answers.concat());
    assert_eq!((summary, faults), ([75, 0, 1, 0], NONE));
}

/// What receiving says where one block of each reason follows; the one with the invalid header comes last, for it may slip.
fn one_of_each_after(blocks: &[Block]) -> (Vec<u8>, [u64; 4], [u64; 4]) {
    let [type_byte, control_code, set_code] = [0x00, 0x1e | 1 << 8, 0x4b | 1 << 32].map(|bad| block(CONTROL, bad));
    let bad = [type_byte, control_code, set_code, block([true, true], 0x1e)];
    seen(&Line::of_blocks(&[blocks, &bad].concat(), 0).bytes())
}

#[test]
fn bad_blocks_count_while_not_locked() {
    let (vectors, summary, faults) = one_of_each_after(&[]);
    assert_eq!(vectors, LOCAL_FAULT.repeat(4));
    assert_eq!((summary, faults), ([4, 1, 0, 0], [1, 1, 1, 1]));
}

#[test]
fn bad_blocks_count_in_lock() {
    let (vectors, summary, faults) = one_of_each_after(&[idle(); 64]);
    assert_eq!(vectors[640..], ERROR.repeat(4));
    assert_eq!((summary, faults), ([68, 0, 1, 0], [1, 1, 1, 1]));
}

#[test]
fn bad_blocks_count_while_high() {
    let (vectors, summary, faults) = one_of_each_after(&until_high());
    assert_eq!(vectors[1290..], LOCAL_FAULT.repeat(4));
    assert_eq!((summary, faults), ([133, 0, 1, 1], [17, 1, 1, 1]));
}

/// "The receiver starts with zeros": bit i of the sender's start state is missed 57 - i bits into the first payload, and 38 - i where
/// that is one. The second block has a whole payload before it.
#[test]
fn the_descramblers_zero_start_shows_in_the_first_block() {
    let idles = |start| faults(&[idle(); 100], start);
    assert_eq!(idles(0), NONE);
    assert_eq!(idles(1 << 57), TYPE, "type 1f");
    assert_eq!(idles(1 << 49), CONTROL_CODE, "C0 is 01");
    let sets = |start| faults(&[carrying(&LOCAL_FAULT); 100], start);
    assert_eq!(sets(0), NONE);
    assert_eq!(sets(1 << 25), SET_CODE, "O0 is 1");
    assert_eq!(faults(&[block(DATA, 0); 100], (1 << 58) - 1), NONE, "data is as good with other octets");
}

/// Zeros before data blocks whose line bits are 0, 1 and 64 zeros: each position but the true one shows the header 00 at once.
#[test]
fn a_line_that_begins_with_stray_bits_counts_a_header_for_each() {
    for strays in 0..66 {
        let mut line = Line::of_blocks(&[block(DATA, 0); 200], 0);
        line.bits.splice(0..0, vec![false; strays]);
        let strays = strays as u64;
        let (_, summary, faults) = seen(&line.bytes());
        assert_eq!((summary, faults), ([200, strays, 1, 0], [strays, 0, 0, 0]));
    }
}

/// One stray bit, and the first payload's last bit is the one that the slip skips. It stands 39 places before bit 38 of the next payload
/// and 58 before bit 57, where the descrambler misses it: codes 4 and 7 of the idles are bad.
#[test]
fn the_bit_that_a_slip_skips_is_missed_in_the_block_after_it() {
    for (last_bit, bad) in [(0, [1, 0, 0, 0]), (1, [1, 0, 1, 0])] {
        let mut blocks = vec![idle(); 66];
        blocks[0] = block(DATA, last_bit << 63);
        let mut line = Line::of_blocks(&blocks, 0);
        line.bits.insert(0, false);
        let (_, summary, faults) = seen(&line.bytes());
        assert_eq!((summary, faults), ([66, 1, 1, 0], bad), "last bit {last_bit}");
    }
}

#[test]
fn the_four_together_are_the_tested_blocks_of_kind_e() {
    let mut random = Random::new(5);
    let mut all = NONE;
    for n in 0..2_000 {
        let edition = random.pick(&EDITIONS);
        let line = damaged(edition, &mut random);
        let blocks = receive(edition as u64, &line, usize::MAX, usize::MAX, &mut [0; 32]).ok().unwrap().blocks;
        let bad = blocks.iter().filter(|block| kind(edition, block) == Kind::E).count() as u64;
        let (_, _, faults) = seen_in(edition, &line);
        assert_eq!(faults.iter().sum::<u64>(), bad, "line {n}");
        all = std::array::from_fn(|i| all[i] + faults[i]);
    }
    assert!(all.iter().all(|count| *count > 100), "{all:?}");
}

/// A longer beginning of a line has the bad blocks of a shorter one, and at most one more where it is a byte longer.
#[test]
fn counts_only_grow_with_the_line() {
    let mut random = Random::new(6);
    for round in 0..20 {
        let edition = EDITIONS[round % 2];
        let line = damaged(edition, &mut random);
        let mut before = NONE;
        for n in 0..=line.len() {
            let (_, _, now) = seen_in(edition, &line[..n]);
            assert!((0..4).all(|i| before[i] <= now[i]), "{n} bytes");
            assert!(now.iter().sum::<u64>() <= 1 + before.iter().sum::<u64>(), "{n} bytes");
            before = now;
        }
    }
}

/// Cut at any of the 66 positions, a clean line adds nothing once the receiver is locked.
#[test]
fn a_clean_line_adds_nothing_in_lock() {
    let mut random = Random::new(7);
    for (cut, edition) in (0..66).flat_map(|cut| EDITIONS.map(|edition| (cut, edition))) {
        let blocks: Vec<Block> = (0..800).map(|_| data(&mut random)).chain([idle(); 200]).collect();
        let mut line = Line::of_blocks(&blocks, random.start_state());
        line.cut(0, cut);
        let bytes = line.bytes();
        let (_, [_, _, locked, _], before) = seen_in(edition, &bytes[..bytes.len() - 200 * 66 / 8]);
        let (_, _, after) = seen_in(edition, &bytes);
        assert_eq!((locked, after), (1, before), "after {cut} bits");
    }
}
