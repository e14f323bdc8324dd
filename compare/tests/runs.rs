//! "Run and compared": document 01's own list, each run through the library in both editions and held to numbers that stand here.
use compare::calls::{agreed, agreed_in_both, in_both, Calls};
use compare::library::{received, send, sent, word};
use compare::lines::{data, idle, Line};
use compare::lists;
use compare::random::Random;
use compare::reference::edition::EDITIONS;
use compare::reference::vector::{vector, Character, ERROR, LOCAL_FAULT};

const WINDOW: usize = 19_531;

/// A line of idle blocks, some of whose headers are invalid.
fn idles(blocks: usize, invalid: impl IntoIterator<Item = usize>) -> Line {
    let mut line = Line::of_blocks(&vec![idle(); blocks], 0);
    for block in invalid {
        line.spoil_header(block);
    }
    line
}

/// What receiving says of a line: tested, slips, locked, high.
fn summary(line: &Line) -> [u64; 4] {
    in_both(|edition| {
        let (_, [tested, slips, locked, high, ..]) = agreed(edition, &line.bytes());
        [tested, slips, locked, high]
    })
}

/// The vectors of a line.
fn vectors(line: &Line) -> Vec<u8> {
    in_both(|edition| received(edition, &line.bytes()).0)
}

#[test]
fn sixty_three_valid_headers_then_an_invalid_one_slip() {
    assert_eq!(summary(&idles(64, [63])), [64, 1, 0, 0]);
}

#[test]
fn sixty_four_valid_headers_lock() {
    let line = idles(64, []);
    assert_eq!(summary(&line), [64, 0, 1, 0]);
    let vectors = vectors(&line);
    assert_eq!(vectors[..630], LOCAL_FAULT.repeat(63));
    assert_eq!(vectors[630..], lists::idle());
}

#[test]
fn sixty_four_headers_with_one_invalid_do_not_lock() {
    for invalid in 0..64 {
        let [_, slips, locked, _] = summary(&idles(64, [invalid]));
        assert!(slips >= 1 && locked == 0, "invalid header {invalid}");
    }
}

#[test]
fn in_lock_fifteen_invalid_of_sixty_four_stay() {
    let invalid = (0..15).map(|i| 64 + 4 * i);
    assert_eq!(summary(&idles(128, invalid)), [128, 0, 1, 0]);
}

#[test]
fn in_lock_the_sixteenth_invalid_of_sixty_four_slips() {
    let invalid: Vec<usize> = (0..15).map(|i| 64 + 4 * i).collect();
    let sixteenth = || invalid.iter().copied().chain([127]);
    assert_eq!(summary(&idles(128, sixteenth())), [128, 1, 0, 0]);
    // one block later it is the first of the next sixty-four
    let next = invalid.iter().copied().chain([128]);
    assert_eq!(summary(&idles(129, next)), [129, 0, 1, 1]);
}

#[test]
fn a_hundred_thousand_vectors_pass_and_four_more_are_refused() {
    let vectors = lists::idle().repeat(100_004);
    for edition in EDITIONS {
        let (mut line, mut summary) = (vec![7; 825_033], [7; 24]);
        assert_eq!(send(edition as u64, &vectors[..1_000_000], 0, &mut line[..825_000], &mut summary), 0);
        let (answers, summary) = received(edition, &line[..825_000]);
        assert_eq!((word(&summary, 0), word(&summary, 4)), (100_000, 100_000));
        assert_eq!(answers[..630], LOCAL_FAULT.repeat(63));
        assert_eq!(answers[630..], vectors[630..1_000_000]);
        let mut summary = [7; 24];
        assert_eq!(send(edition as u64, &vectors, 0, &mut line, &mut summary), 1);
        assert_eq!(summary, [0; 24]);
    }
}

#[test]
fn start_state_2_58_less_1_passes_and_2_58_is_refused() {
    let vectors = lists::idle().repeat(4);
    for edition in EDITIONS {
        let (mut line, mut summary) = ([0; 33], [0; 24]);
        assert_eq!(send(edition as u64, &vectors, (1 << 58) - 1, &mut line, &mut summary), 0);
        assert_eq!(send(edition as u64, &vectors, 1 << 58, &mut line, &mut summary), 3);
        Calls::new(edition, 1).send(&vectors, (1 << 58) - 1).unwrap();
    }
}

/// Blocks of a window that are far from each other, so that lock stays. Window 0 begins with block 64.
fn spread(window: usize, count: usize) -> Vec<usize> {
    (0..count).map(|i| 64 + WINDOW * window + 100 * i).collect()
}

#[test]
fn the_sixteenth_invalid_header_of_a_window_sets_high() {
    let upto_sixteenth = 64 + 1500 + 1;
    assert_eq!(summary(&idles(upto_sixteenth, spread(0, 15)))[2..], [1, 0]);
    assert_eq!(summary(&idles(upto_sixteenth, spread(0, 16)))[2..], [1, 1]);
    // at the last block of the window too, but not across its end
    let edge = 64 + WINDOW - 1;
    let ends = |last: usize| spread(0, 15).into_iter().chain([last]);
    assert_eq!(summary(&idles(edge + 1, ends(edge)))[2..], [1, 1]);
    assert_eq!(summary(&idles(edge + 2, ends(edge + 1)))[2..], [1, 0]);
}

#[test]
fn high_is_cleared_at_the_end_of_a_window_with_fewer() {
    let invalid: Vec<usize> = spread(0, 16).into_iter().chain(spread(1, 15)).collect();
    let end = 64 + 2 * WINDOW;
    assert_eq!(summary(&idles(end - 1, invalid.clone()))[2..], [1, 1]);
    assert_eq!(summary(&idles(end, invalid))[2..], [1, 0]);
    // a window that ends with sixteen keeps it
    let kept = spread(0, 16).into_iter().chain(spread(1, 16));
    assert_eq!(summary(&idles(end, kept))[2..], [1, 1]);
}

#[test]
fn nine_zero_bytes_give_one_local_fault_vector_and_one_slip() {
    let (vectors, words) = agreed_in_both(&[0; 9]);
    assert_eq!(vectors, LOCAL_FAULT);
    assert_eq!(words, [1, 1, 0, 0, 1, 1, 0, 0, 0, 0, 0, 0]);
}

/// Why demand 3 stops at three: payload bits 6, 7, 10 and 11 of one block come back 58 bits later, in the type byte of the next, and
/// turn idles (1e) into an ordered set (2d) that nobody sent.
#[test]
fn four_flips_turn_type_1e_into_2d() {
    let mut line = idles(68, []);
    for bit in [6, 7, 10, 11] {
        line.flip(66 * 65 + 2 + bit);
    }
    let made_up = [0x0f, 0x07, 0x07, 0x07, 0x07, 0x01, 0x9c, 0x00, 0x00, 0x00];
    assert_eq!(vectors(&line)[640..], [lists::idle(), ERROR, made_up, lists::idle()].concat());
    // with any three of the four it is an error
    for left_out in [6, 7, 10, 11] {
        line.flip(66 * 65 + 2 + left_out);
        assert_eq!(vectors(&line)[660..670], ERROR);
        line.flip(66 * 65 + 2 + left_out);
    }
}

#[test]
fn lock_is_found_from_each_of_the_66_positions() {
    let mut random = Random::new(1);
    for cut in 0..66 {
        let blocks: Vec<_> = (0..1_000).map(|_| data(&mut random)).chain([idle(); 2]).collect();
        let mut line = Line::of_blocks(&blocks, 0);
        line.cut(0, cut);
        let [_, slips, locked, high] = summary(&line);
        assert_eq!((slips, locked, high), ((66 - cut as u64) % 66, 1, 0), "after {cut} bits");
        assert!(vectors(&line).ends_with(&lists::idle()), "after {cut} bits");
    }
}

/// "Errors we have already seen made": after E, a Start begins no frame at once; Terminate is judged by the block after it.
#[test]
fn a_start_after_an_error_begins_no_frame() {
    let mut list = lists::idle().repeat(64);
    list.extend(ERROR);
    list.extend(lists::start());
    list.extend(lists::idle().repeat(2));
    let (line, summary) = in_both(|edition| sent(edition, &list, 0));
    assert_eq!(word(&summary, 2), 2);
    let (vectors, _) = agreed_in_both(&line);
    assert_eq!(vectors[640..660], ERROR.repeat(2));
}

#[test]
fn terminate_is_accepted_where_a_start_or_control_block_follows() {
    let (start, end) = (lists::start(), lists::end());
    let data = vector(&[Character::Data(0x11); 8]);
    for (next, taken) in [(lists::idle(), true), (start, true), (data, false), (end, false), (ERROR, false)] {
        let mut list = lists::idle().repeat(64);
        for vector in [start, end, next, lists::idle()] {
            list.extend(vector);
        }
        let (line, _) = in_both(|edition| sent(edition, &list, 0));
        let (vectors, _) = agreed_in_both(&line);
        assert_eq!(vectors[640..650], start);
        assert_eq!(vectors[650..660] == end, taken);
        assert_eq!(vectors[650..660] == ERROR, !taken);
    }
}
