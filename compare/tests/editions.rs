//! Request 9/13: two editions of Clause 49. Refusal 13, the character 06, the kind and the state LI, held to what stands here.
use compare::calls::{agreed, in_both, Answer, Calls};
use compare::library::{self, received, sent, RECEIVE_SUMMARY_BYTES};
use compare::lines::{self, block, carrying, flip, Line};
use compare::lists::{end, idle, list_after_lock, low_power, start};
use compare::random::Random;
use compare::reference::block::{encode, kind, kind_of_vector, Block, Kind, CONTROL};
use compare::reference::edition::{Edition, EDITIONS};
use compare::reference::vector::{vector, Character, Vector, ERROR, LOCAL_FAULT};
use Character::{Control, Data};

/// The payload of a block of eight low power idles: type 1e and eight times code 06.
const LOW_POWER: u64 = 0x0c18_3060_c183_061e;

/// Eight data octets.
fn data() -> Vector {
    vector(&[Data(0x11); 8])
}

/// One low power idle among idles.
fn mixed() -> Vector {
    vector(&std::array::from_fn(|i| Control(if i == 5 { 0x06 } else { 0x07 })))
}

// ---- refusal 13

const UNKNOWN: [u64; 7] = [2, 3, 255, 256, 1 << 32, (1 << 32) + 1, u64::MAX];

/// What a summary of sevens is after a refusal: zeros where there is room for all of them.
fn refused_summary(len: usize, wanted: usize) -> Vec<u8> {
    let zeros = if len < wanted { 0 } else { wanted };
    (0..len).map(|i| if i < zeros { 0 } else { 7 }).collect()
}

/// The result of sending. A refusal leaves the line as it was.
fn send(edition: u64, vectors: &[u8], start: u64, room: usize, summary_room: usize) -> u64 {
    Calls::new(Edition::Old, 1).send_into(edition, vectors, start, room, summary_room).unwrap();
    let (mut line, mut summary) = (vec![7; room], vec![7; summary_room]);
    let result = library::send(edition, vectors, start, &mut line, &mut summary);
    if result != 0 {
        assert_eq!(line, vec![7; room]);
        assert_eq!(summary, refused_summary(summary_room, 24));
    }
    result
}

/// The result of receiving. A refusal leaves vectors and counters as they were.
fn receive(edition: u64, line: &[u8], room: usize, summary_room: usize, counters_room: usize) -> u64 {
    let old = vec![9; counters_room];
    Calls::new(Edition::Old, 1).receive_into(edition, line, room, summary_room, &old).unwrap();
    let (mut vectors, mut summary, mut counters) = (vec![7; room], vec![7; summary_room], old.clone());
    let result = library::receive(edition, line, &mut vectors, &mut summary, &mut counters);
    if result != 0 {
        assert_eq!(vectors, vec![7; room]);
        assert_eq!(summary, refused_summary(summary_room, RECEIVE_SUMMARY_BYTES));
        assert_eq!(counters, old);
    }
    result
}

/// A call gives this result in both editions, and 13 in an unknown one.
fn is_hidden_by_13(result: u64, call: impl Fn(u64) -> u64) {
    assert_eq!(in_both(|edition| call(edition as u64)), result);
    for edition in UNKNOWN {
        assert_eq!(call(edition), 13, "edition {edition}, and else {result}");
    }
}

#[test]
fn sending_in_an_unknown_edition_is_refused_before_all_else() {
    let good = idle().repeat(4);
    let too_long = idle().repeat(100_004);
    let mut bad = good.clone();
    bad[15] = 16;
    is_hidden_by_13(0, |edition| send(edition, &good, 0, 33, 24));
    is_hidden_by_13(0, |edition| send(edition, &[], 0, 0, 24));
    is_hidden_by_13(1, |edition| send(edition, &too_long, 0, 825_033, 24));
    is_hidden_by_13(2, |edition| send(edition, &good[1..], 0, 33, 24));
    is_hidden_by_13(3, |edition| send(edition, &good, 1 << 58, 33, 24));
    is_hidden_by_13(4, |edition| send(edition, &good, 0, 32, 24));
    for summary_room in [0, 1, 23] {
        is_hidden_by_13(4, |edition| send(edition, &good, 0, 33, summary_room));
    }
    is_hidden_by_13(5 + 256 * 15, |edition| send(edition, &bad, 0, 33, 24));
    let all_wrong = vec![16; 1_000_001];
    is_hidden_by_13(1, |edition| send(edition, &all_wrong, u64::MAX, 0, 0));
}

#[test]
fn receiving_in_an_unknown_edition_is_refused_before_all_else() {
    let (good, too_long) = ([0; 9], vec![0; 825_001]);
    is_hidden_by_13(0, |edition| receive(edition, &good, 10, 96, 32));
    is_hidden_by_13(0, |edition| receive(edition, &[], 0, 96, 32));
    is_hidden_by_13(1, |edition| receive(edition, &too_long, 1_000_000, 96, 32));
    is_hidden_by_13(4, |edition| receive(edition, &good, 9, 96, 32));
    for summary_room in [0, 1, 95] {
        is_hidden_by_13(4, |edition| receive(edition, &good, 10, summary_room, 32));
    }
    for counters_room in [0, 1, 31] {
        is_hidden_by_13(4, |edition| receive(edition, &good, 10, 96, counters_room));
    }
    is_hidden_by_13(1, |edition| receive(edition, &too_long, 0, 0, 0));
}

#[test]
fn no_number_but_0_and_1_is_an_edition() {
    let powers = (1..64).flat_map(|n| [1 << n, (1 << n) + 1]);
    for edition in (2..1_000).chain(powers) {
        assert_eq!(send(edition, &[], 0, 0, 24), 13, "edition {edition}");
        assert_eq!(receive(edition, &[], 0, 96, 32), 13, "edition {edition}");
    }
}

// ---- the character and the kind

/// A control block's kind in the old edition and in the new one.
fn kinds(payload: u64) -> [Kind; 2] {
    EDITIONS.map(|edition| kind(edition, &block(CONTROL, payload)))
}

#[test]
fn a_block_of_eight_codes_06_is_of_kind_li() {
    assert_eq!(kinds(LOW_POWER), [Kind::E, Kind::LI]);
    assert_eq!(carrying(&low_power()), block(CONTROL, LOW_POWER));
    assert_eq!(encode(Edition::Old, &low_power()), None);
    assert_eq!(low_power(), [0x0f, 0x06, 0x06, 0x06, 0x06, 0x0f, 0x06, 0x06, 0x06, 0x06]);
    assert_eq!(EDITIONS.map(|edition| kind_of_vector(edition, &low_power())), [Kind::E, Kind::LI]);
}

#[test]
fn a_mixture_is_of_kind_c_unless_a_code_is_1e_or_of_no_character() {
    assert_eq!(EDITIONS.map(|edition| kind_of_vector(edition, &mixed())), [Kind::E, Kind::C]);
    for at in (0..8).map(|i| 8 + 7 * i) {
        let other = |code: u64| kinds(LOW_POWER & !(127 << at) | code << at);
        for code in [0x00, 0x2d, 0x33, 0x4b, 0x55, 0x66, 0x78] {
            assert_eq!(other(code), [Kind::E, Kind::C], "code {code:x} at bit {at}");
        }
        for code in [0x1e, 0x01, 0x02, 0x04, 0x07, 0x0e, 0x16, 0x26, 0x46] {
            assert_eq!(other(code), [Kind::E, Kind::E], "code {code:x} at bit {at}");
        }
        assert_eq!(kinds(0x1e | 0x06 << at), [Kind::E, Kind::C], "one code 06 at bit {at}");
    }
}

/// Types and the first bit of their control codes, with the number of these.
const CODES: [(u64, usize, usize); 11] = [
    (0x1e, 8, 8),
    (0x2d, 8, 4),
    (0x33, 8, 4),
    (0x4b, 36, 4),
    (0x87, 15, 7),
    (0x99, 22, 6),
    (0xaa, 29, 5),
    (0xb4, 36, 4),
    (0xcc, 43, 3),
    (0xd2, 50, 2),
    (0xe1, 57, 1),
];

/// A block on a line of its own: the four faults.
fn faults(edition: Edition, payload: u64) -> [u64; 4] {
    let (_, words) = agreed(edition, &Line::of_blocks(&[block(CONTROL, payload)], 0).bytes());
    words[5..9].try_into().unwrap()
}

#[test]
fn code_06_is_a_fault_in_the_old_edition_wherever_a_code_stands_and_none_in_the_new() {
    for (type_byte, first, count) in CODES {
        let places = (0..count).map(|i| first + 7 * i);
        let all: u64 = places.clone().map(|at| 0x06 << at).sum();
        for codes in places.map(|at| 0x06 << at).chain([all]) {
            let payload = type_byte | codes;
            assert_eq!(faults(Edition::Old, payload), [0, 0, 1, 0], "{payload:x}");
            assert_eq!(faults(Edition::New, payload), [0; 4], "{payload:x}");
        }
    }
}

/// Also beside a fault of another reason, which is then the first or is not.
#[test]
fn code_06_hides_no_other_fault_in_the_new_edition() {
    for (payload, old, new) in [
        (0x01 | 0x06 << 8, [0, 1, 0, 0], [0, 1, 0, 0]),
        (0x1e | 0x06 << 8 | 0x1e << 15, [0, 0, 1, 0], [0, 0, 1, 0]),
        (0x2d | 0x06 << 8 | 0x01 << 15, [0, 0, 1, 0], [0, 0, 1, 0]),
        (0x2d | 0x06 << 8 | 0x1 << 36, [0, 0, 1, 0], [0, 0, 0, 1]),
        (0x4b | 0x1 << 32 | 0x06 << 36, [0, 0, 1, 0], [0, 0, 0, 1]),
        // 6 is no ordered set code
        (0x55 | 0x6 << 32, [0, 0, 0, 1], [0, 0, 0, 1]),
    ] {
        assert_eq!((faults(Edition::Old, payload), faults(Edition::New, payload)), (old, new), "{payload:x}");
    }
}

// ---- sending

/// The line and the words of the summary of a list from state 0, as the library and the second program agree on it. Idles before
/// these vectors fill a group.
fn line_of(edition: Edition, vectors: &[Vector]) -> (Vec<u8>, [u64; 3]) {
    let idles = vectors.len().next_multiple_of(4) - vectors.len();
    let list = [vec![idle(); idles], vectors.to_vec()].concat().concat();
    Calls::new(edition, 1).send(&list, 0).unwrap();
    let (line, summary) = sent(edition, &list, 0);
    (line, std::array::from_fn(|i| library::word(&summary, i)))
}

#[test]
fn a_list_with_06_is_sent_as_errors_in_the_old_edition_and_as_it_is_in_the_new() {
    let list = [idle(), low_power(), mixed(), idle()];
    let (line, [_, diagram, replaced]) = line_of(Edition::Old, &list);
    assert_eq!(line, line_of(Edition::Old, &[idle(), ERROR, ERROR, idle()]).0);
    assert_eq!((diagram, replaced), (1, 2));
    let (line, [_, diagram, replaced]) = line_of(Edition::New, &list);
    let blocks = [0x1e, LOW_POWER, 0x1e | 0x06 << 43, 0x1e].map(|payload| block(CONTROL, payload));
    assert_eq!(line, Line::of_blocks(&blocks, 0).bytes());
    assert_eq!((diagram, replaced), (1, 0));
}

/// The diagram's end state and the number of replaced vectors.
fn sends(vectors: &[Vector]) -> (u64, u64) {
    let (_, [_, diagram, replaced]) = line_of(Edition::New, vectors);
    (diagram, replaced)
}

#[test]
fn where_low_power_idle_may_be_sent() {
    assert_eq!(sends(&[low_power(), idle(), idle(), idle()]), (1, 1), "not after INIT");
    assert_eq!(sends(&[low_power(); 4]), (5, 1), "but after the error that this is");
    assert_eq!(sends(&[idle(), low_power()]), (5, 0), "after C");
    assert_eq!(sends(&[start(), end(), low_power()]), (5, 0), "after T");
    assert_eq!(sends(&[start(), low_power()]), (4, 1), "not after D");
    assert_eq!(sends(&[start(), data(), low_power()]), (4, 1), "not after D");
    assert_eq!(sends(&[ERROR, low_power()]), (5, 1), "after E");
    assert_eq!(sends(&[start(), low_power(), low_power()]), (5, 1), "after E");
    assert_eq!(sends(&[low_power(), low_power()]), (5, 0), "after LI");
}

#[test]
fn what_may_be_sent_after_low_power_idle() {
    for (next, then) in [(idle(), 1), (mixed(), 1), (LOCAL_FAULT, 1), (low_power(), 5)] {
        assert_eq!(sends(&[low_power(), next]), (then, 0), "{next:02x?}");
    }
    for next in [start(), data(), end(), ERROR] {
        assert_eq!(sends(&[low_power(), next]), (4, 1), "{next:02x?}");
    }
    assert_eq!(sends(&[low_power(), idle(), start()]), (2, 0), "a Start after idles again");
}

// ---- receiving

/// What receiving says of blocks in lock, after 64 idle blocks, from vector 64 on.
fn in_lock(edition: Edition, blocks: &[Block]) -> Answer {
    let (vectors, words) = agreed(edition, &Line::of_blocks(&[&[lines::idle(); 64], blocks].concat(), 0).bytes());
    (vectors[640..].to_vec(), words)
}

/// The blocks of these vectors are answered as those, in the new edition. The words behind the faults: alone, begun, replaced.
fn comes_back(vectors: &[Vector], answers: &[Vector]) -> [u64; 3] {
    let blocks: Vec<Block> = vectors.iter().map(carrying).collect();
    let (vectors, words) = in_lock(Edition::New, &blocks);
    assert_eq!(vectors, answers.concat());
    words[9..].try_into().unwrap()
}

/// As the block that gives lock it comes after INIT.
#[test]
fn low_power_idle_after_init_is_an_error() {
    for (last, answer) in [(lines::low_power(), ERROR), (lines::idle(), idle())] {
        let line = Line::of_blocks(&[vec![lines::idle(); 63], vec![last]].concat(), 0);
        let (vectors, words) = agreed(Edition::New, &line.bytes());
        assert_eq!(vectors, [vec![LOCAL_FAULT; 63], vec![answer]].concat().concat());
        assert_eq!(words, [64, 0, 1, 0, 64, 0, 0, 0, 0, 0, 0, (answer == ERROR) as u64]);
    }
}

#[test]
fn where_low_power_idle_is_answered_as_it_is() {
    let quiet = low_power();
    assert_eq!(comes_back(&[quiet, quiet], &[quiet, quiet]), [0, 0, 0], "after C, after LI");
    assert_eq!(comes_back(&[start(), end(), quiet], &[start(), end(), quiet]), [0, 1, 0], "after T");
    assert_eq!(comes_back(&[start(), quiet], &[start(), ERROR]), [0, 1, 1], "not after D");
    assert_eq!(comes_back(&[start(), data(), quiet], &[start(), data(), ERROR]), [0, 1, 1], "not after D");
    assert_eq!(comes_back(&[data(), quiet], &[ERROR, quiet]), [0, 0, 1], "after E");
    assert_eq!(comes_back(&[start(), quiet, quiet], &[start(), ERROR, quiet]), [0, 1, 1], "after E");
}

#[test]
fn what_is_answered_as_it_is_after_low_power_idle() {
    for next in [idle(), mixed(), LOCAL_FAULT] {
        assert_eq!(comes_back(&[low_power(), next], &[low_power(), next]), [0, 0, 0], "{next:02x?}");
    }
    for next in [start(), data(), end(), ERROR] {
        assert_eq!(comes_back(&[low_power(), next], &[low_power(), ERROR]), [0, 0, 1], "{next:02x?}");
    }
    let woken = [low_power(), idle(), start(), end()];
    assert_eq!(comes_back(&woken, &woken), [1, 1, 0], "a Start after idles again");
}

/// The Start begins no frame, and what would be one goes on after the error.
#[test]
fn a_frame_straight_from_low_power_idle_is_not_begun() {
    let sent = [low_power(), start(), data(), end(), idle()];
    assert_eq!(comes_back(&sent, &[low_power(), ERROR, data(), end(), idle()]), [0, 0, 1]);
}

/// Terminate is judged by the block after it.
#[test]
fn a_frame_may_end_before_low_power_idle_in_the_new_edition_alone() {
    for next in [low_power(), mixed()] {
        let frame = [start(), data(), end(), next];
        assert_eq!(comes_back(&frame, &frame), [0, 1, 0]);
        let (vectors, words) = in_lock(Edition::Old, &frame.map(|vector| carrying(&vector)));
        assert_eq!(vectors, [start(), data(), ERROR, ERROR].concat());
        assert_eq!(words[5..], [0, 0, 1, 0, 0, 1, 2]);
    }
    // in state E too
    assert_eq!(comes_back(&[data(), end(), low_power()], &[ERROR, end(), low_power()]), [0, 0, 1]);
}

/// On a line that a sender of the new edition made, each block with low power idle is a control code fault.
#[test]
fn the_old_edition_takes_low_power_idle_for_bad_blocks() {
    let frame = [start(), data(), end()];
    let list = [&[idle(); 64][..], &[low_power(); 10], &[idle(); 2], &frame, &[mixed(), low_power(), idle()]].concat();
    assert_eq!(list.len(), 82);
    let (line, [_, diagram, replaced]) = line_of(Edition::New, &list);
    assert_eq!((diagram, replaced), (1, 0));
    let (vectors, words) = agreed(Edition::New, &line);
    assert_eq!(vectors[630..], [&[idle(); 2][..], &list[63..]].concat().concat()[..]);
    assert_eq!(words, [84, 0, 1, 0, 84, 0, 0, 0, 0, 0, 1, 0]);
    let (vectors, words) = agreed(Edition::Old, &line);
    let errors = [&[idle(); 3][..], &[ERROR; 10], &[idle(); 2], &[start(), data(), ERROR, ERROR, ERROR, idle()]];
    assert_eq!(vectors[630..], errors.concat().concat()[..]);
    assert_eq!(words, [84, 0, 1, 0, 84, 0, 0, 12, 0, 0, 1, 13]);
}

// ---- both editions

/// "In the old one nothing changes", and in the new one nothing but what 06 brings: a list without it has one line and one answer.
#[test]
fn the_editions_differ_by_06_alone() {
    let mut random = Random::new(10);
    for _ in 0..2_000 {
        let vectors = list_after_lock(Edition::Old, 100, 0, &mut random);
        let start = random.start_state();
        let (line, _) = in_both(|edition| sent(edition, &vectors, start));
        let answers = in_both(|edition| received(edition, &line).0);
        assert_eq!(answers[630..], vectors[630..]);
    }
}

/// "Code 06 differs from idle in two bits": of an all idle line bits 4307 and 4308 are bits 15 and 16 of block 65's payload. They stand
/// in its second code, which is bad by them, and 58 places later in the first code of block 66.
#[test]
fn two_flips_make_06_of_idle_in_the_new_edition_and_an_error_in_the_old() {
    let mut made = idle();
    made[1] = 0x06;
    for (edition, answer, bad) in [(Edition::Old, ERROR, 2), (Edition::New, made, 1)] {
        let (mut line, _) = sent(edition, &idle().repeat(68), 0);
        flip(&mut line, &[4307, 4308]);
        let (vectors, words) = agreed(edition, &line);
        assert_eq!(vectors[630..], [idle(), idle(), ERROR, answer, idle()].concat());
        assert_eq!(words, [68, 0, 1, 0, 68, 0, 0, bad, 0, 0, 0, bad]);
        // either of the two alone makes errors of both blocks
        for bit in [4307, 4308] {
            let (mut line, _) = sent(edition, &idle().repeat(68), 0);
            flip(&mut line, &[bit]);
            let (vectors, _) = agreed(edition, &line);
            assert_eq!(vectors[630..], [idle(), idle(), ERROR, ERROR, idle()].concat());
        }
    }
}
