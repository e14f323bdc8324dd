//! Request 2/13: captures that arrive in bursts, held to numbers that stand here, in both editions. Each call is compared with both ways of
//! the second program as well.
use compare::bursts::Step;
use compare::calls::{in_both, Calls};
use compare::captures::Capture;
use compare::library::{begin, burst, close, word, words, COUNTERS_BYTES, RECEIVE_SUMMARY_BYTES};
use compare::lines::{block, data, end, idle, invalid, start, Line};
use compare::lists;
use compare::random::Random;
use compare::reference::block::{Block, CONTROL, DATA};
use compare::reference::counters::Counters;
use compare::reference::edition::{Edition, EDITIONS};
use compare::reference::state::*;
use compare::reference::vector::{Vector, ERROR, LOCAL_FAULT};

/// A capture from empty counters on.
struct Probe {
    calls: Calls,
    capture: Capture,
}

impl Probe {
    fn begin(edition: Edition) -> Probe {
        let mut calls = Calls::new(edition, 1);
        let capture = Capture::begin_with(&mut calls, &[0; 32]).unwrap();
        Probe { calls, capture }
    }

    /// The vectors that a call hands out.
    fn call(&mut self, step: Step) -> Vec<u8> {
        let before = self.capture.vectors.len();
        let lends = self.capture.lends(step);
        assert_eq!(self.capture.call(&mut self.calls, step, &lends).unwrap(), 0);
        self.capture.same_as_kept().unwrap();
        self.capture.vectors[before..].to_vec()
    }

    fn burst(&mut self, line: &[u8]) -> Vec<u8> {
        self.call(Step::Burst(line))
    }

    fn close(&mut self) -> Vec<u8> {
        let vectors = self.call(Step::Close);
        self.capture.same_as_one_call().unwrap();
        vectors
    }

    /// The words of the state but the edition.
    fn words(&self) -> [u64; 28] {
        *self.capture.words().first_chunk().unwrap()
    }

    fn summary(&self) -> [u64; 12] {
        words(self.capture.summary[..].try_into().unwrap())
    }

    fn counters(&self) -> [u32; 8] {
        Counters::of_bytes(self.capture.counters[..].try_into().unwrap()).0
    }

    /// The result of a call with a lent slice this much shorter than it has to be: state, vectors, summary, counters.
    fn shortened(&mut self, step: Step, by: [usize; 4]) -> u64 {
        let mut lends = self.capture.lends(step);
        lends.state.truncate(lends.state.len() - by[0]);
        lends.room -= by[1];
        lends.summary_room -= by[2];
        lends.counters.truncate(lends.counters.len() - by[3]);
        self.capture.call(&mut self.calls, step, &lends).unwrap()
    }
}

/// 64 idle blocks, which give lock, then these.
fn in_lock(blocks: &[Block]) -> Vec<Block> {
    [&[idle(); 64], blocks].concat()
}

/// The line of blocks, cut behind some of them, as many as fill whole bytes.
fn cut_behind(blocks: &[Block], more: &[Block]) -> [Vec<u8>; 2] {
    assert_eq!(blocks.len() % 4, 0);
    let line = Line::of_blocks(&[blocks, more].concat(), 0).bytes();
    let (first, second) = line.split_at(66 * blocks.len() / 8);
    [first.to_vec(), second.to_vec()]
}

fn some_data() -> Block {
    block(DATA, 0x1122_3344)
}

// ---- the fresh state

#[test]
fn a_fresh_state_is_zeros_and_the_edition() {
    for edition in EDITIONS {
        let (result, state) = Calls::new(edition, 1).begin(edition as u64, &[7; 240]).unwrap();
        assert_eq!(result, 0);
        assert_eq!(state[..224], [0; 224]);
        assert_eq!(state[224..232], (edition as u64).to_le_bytes());
        assert_eq!(state[232..], [7; 8], "behind the state nothing changes");
    }
}

#[test]
fn beginning_refuses_an_unknown_edition_then_a_short_state() {
    let refusals =
        [(2, 232, 13), (u64::MAX, 240, 13), (1 << 32, 231, 13), (2, 0, 13), (0, 231, 4), (1, 231, 4), (0, 0, 4)];
    for (edition, length, number) in refusals {
        let state = vec![7; length];
        assert_eq!(Calls::new(Edition::Old, 1).begin(edition, &state).unwrap(), (number, state));
    }
}

// ---- where the line is cut

/// One block and its slip, the skipped bit, and five bits more.
#[test]
fn the_state_after_nine_zero_bytes() {
    let (words, vectors, summary) = in_both(|edition| {
        let mut probe = Probe::begin(edition);
        assert_eq!(probe.burst(&[0; 9]), []);
        (probe.words(), probe.close(), probe.summary())
    });
    let mut expected = [0; 28];
    expected[LINE_BYTES] = 9;
    expected[CARRIED] = 5;
    expected[HELD..TESTED].copy_from_slice(&[1, 0, 4, 0xfe_fefe_fe0f, 0xfe_fefe_fe0f]);
    expected[TESTED..=REASONS].copy_from_slice(&[1, 1, 0, 1]);
    assert_eq!(words, expected);
    assert_eq!(vectors, LOCAL_FAULT);
    assert_eq!(summary, [1, 1, 0, 0, 1, 1, 0, 0, 0, 0, 0, 0]);
}

/// The first two in one word, the others in the next, each first bit lowest.
#[test]
fn carried_bits() {
    let words = in_both(|edition| {
        let mut probe = Probe::begin(edition);
        probe.burst(&[0xb6]);
        let one = probe.words();
        probe.burst(&[0x01, 0x80, 0x55, 0xaa, 0x0f, 0xf0, 0xff]);
        [one, probe.words()]
    });
    assert_eq!(words[0][CARRIED..SKIP], [8, 0b10, 0b101101]);
    assert_eq!(words[1][CARRIED..SKIP], [64, 0b10, 0xfff0_0faa_5580_01b6 >> 2]);
    assert_eq!(words[1][TESTED], 0);
}

/// The last 58 payload bits of the line, the oldest lowest: not those that a header has.
#[test]
fn scrambler_bits() {
    let words = in_both(|edition| {
        let mut probe = Probe::begin(edition);
        // header 1 0, payload 1 0 .. 0 1 1, then six bits that are carried: 1 1 1 1 0 0
        probe.burst(&[0b101, 0, 0, 0, 0, 0, 0, 0, 0b11_1111]);
        probe.words()
    });
    assert_eq!(words[SCRAMBLER], 0b11 << 56);
    assert_eq!(words[CARRIED..SKIP], [6, 0b11, 0b0011]);
}

/// The fourth block ends with a byte, and its header is invalid.
fn slip_behind_the_fourth(skipped: bool) -> Vec<u8> {
    let mut line = Line::of_blocks(&[vec![idle(); 3], vec![invalid()], vec![idle(); 66]].concat(), 0);
    line.bits.insert(4 * 66, skipped);
    line.bytes()
}

#[test]
fn a_cut_between_a_slip_and_the_bit_that_it_skips() {
    for skipped in [false, true] {
        let line = slip_behind_the_fourth(skipped);
        let (words, summary) = in_both(|edition| {
            let mut probe = Probe::begin(edition);
            probe.burst(&line[..33]);
            let words = probe.words();
            probe.burst(&[]);
            assert_eq!(probe.words(), words, "an empty burst skips nothing");
            probe.burst(&line[33..]);
            probe.close();
            (words, probe.summary())
        });
        assert_eq!(words[CARRIED..=SKIP], [0, 0, 0, 1]);
        assert_eq!(words[TESTED..=SLIPS], [4, 1]);
        assert_eq!(summary[..5], [70, 1, 1, 0, 70], "lock is found where the line goes on");
    }
}

/// The slip is counted, though the bit that it skips never comes.
#[test]
fn a_capture_that_stops_before_the_bit_to_skip() {
    let line = slip_behind_the_fourth(true);
    let (words, summary) = in_both(|edition| {
        let mut probe = Probe::begin(edition);
        probe.burst(&line[..33]);
        probe.close();
        (probe.words(), probe.summary())
    });
    assert_eq!(summary, [4, 1, 0, 0, 4, 1, 0, 0, 0, 0, 0, 0]);
    assert_eq!(words[SKIP], 1, "it is still to be skipped");
}

/// Behind three blocks and one skipped bit, the first bit of the next header is the last of byte 24.
#[test]
fn a_cut_inside_a_header() {
    let mut line = Line::of_blocks(&[vec![invalid()], vec![idle(); 67]].concat(), 0);
    line.bits.insert(66, true);
    let line = line.bytes();
    let (words, summary) = in_both(|edition| {
        let mut probe = Probe::begin(edition);
        probe.burst(&line[..25]);
        let words = probe.words();
        probe.burst(&line[25..]);
        probe.close();
        (words, probe.summary())
    });
    assert_eq!(words[CARRIED..=SKIP], [1, 1, 0, 0], "the header is 1 then 0");
    assert_eq!(summary[..5], [68, 1, 1, 0, 68]);
}

/// Frames and errors in lock, and a slip before it.
fn of_all() -> Vec<u8> {
    let mut random = Random::new(5);
    let blocks = [
        vec![invalid()],
        in_lock(&[start(), some_data(), end(), start(), end(), some_data(), block(CONTROL, 0x00), idle(), start()]),
        vec![data(&mut random), end(), idle(), invalid(), start(), end()],
    ];
    let mut line = Line::of_blocks(&blocks.concat(), 0);
    line.bits.insert(66, false);
    line.bytes()
}

#[test]
fn a_cut_at_each_byte() {
    let line = of_all();
    for edition in EDITIONS {
        for at in 0..=line.len() {
            let mut probe = Probe::begin(edition);
            probe.burst(&line[..at]);
            probe.burst(&line[at..]);
            probe.close();
        }
    }
}

/// Each hands out the vector of the block before the one that it fills.
#[test]
fn bursts_of_one_byte() {
    let line = of_all();
    for edition in EDITIONS {
        let mut probe = Probe::begin(edition);
        for byte in &line {
            let tested = probe.words()[TESTED];
            let handed = probe.burst(&[*byte]).len() as u64 / 10;
            let words = probe.words();
            assert_eq!(handed, words[TESTED].saturating_sub(1) - tested.saturating_sub(1));
            assert_eq!(words[VECTORS], words[TESTED].saturating_sub(1));
        }
        assert_eq!(probe.close().len(), 10);
    }
}

#[test]
fn captures_do_not_touch_each_other() {
    let lines = [of_all(), slip_behind_the_fourth(false)];
    let mut probes = EDITIONS.map(Probe::begin);
    for n in 0..10 {
        for (probe, line) in probes.iter_mut().zip(&lines) {
            let cut = |n: usize| line.len() * n / 10;
            probe.burst(&line[cut(n)..cut(n + 1)]);
        }
    }
    probes.iter_mut().for_each(|probe| _ = probe.close());
}

// ---- the held vector

/// The last tested block is held, whatever its kind, and no empty burst hands it out.
#[test]
fn an_empty_burst_is_no_end() {
    for last in [idle(), start(), some_data(), end(), block(CONTROL, 0x00), invalid()] {
        let [line, _] = cut_behind(&in_lock(&[start(), some_data(), some_data(), last]), &[]);
        in_both(|edition| {
            let mut probe = Probe::begin(edition);
            assert_eq!(probe.burst(&[]), []);
            assert_eq!(probe.words(), [0; 28]);
            assert_eq!(probe.burst(&line).len(), 670);
            let (words, summary) = (probe.words(), probe.summary());
            for _ in 0..3 {
                assert_eq!(probe.burst(&[]), []);
                assert_eq!((probe.words(), probe.summary()), (words, summary));
            }
            assert_eq!(probe.close().len(), 10);
        });
    }
}

/// What is handed out of a frame's Terminate once the next burst brings this block.
fn terminate_before(next: Block) -> Vector {
    let [first, second] = cut_behind(&in_lock(&[start(), some_data(), some_data(), end()]), &[next, idle()]);
    in_both(|edition| {
        let mut probe = Probe::begin(edition);
        probe.burst(&first);
        assert_eq!(probe.words()[DIAGRAM..TESTED], [2, 1, 1, 3, 0x07_0707_fd0f, 0x07_0707_070f]);
        assert_eq!(probe.summary(), [68, 0, 1, 0, 67, 0, 0, 0, 0, 0, 1, 0]);
        *probe.burst(&second).first_chunk().unwrap()
    })
}

#[test]
fn a_held_terminate_waits_for_the_next_burst() {
    for next in [idle(), start(), block(CONTROL, 0x55)] {
        assert_eq!(terminate_before(next), lists::end());
    }
    for next in [some_data(), end(), block(CONTROL, 0x00), invalid()] {
        assert_eq!(terminate_before(next), ERROR);
    }
}

/// A held Terminate, and the burst after it brings a block with an invalid header: what is handed out, and the summary then.
fn terminate_before_invalid(blocks: &[Block]) -> (Vec<u8>, [u64; 12]) {
    let [first, second] = cut_behind(blocks, &[invalid()]);
    in_both(|edition| {
        let mut probe = Probe::begin(edition);
        probe.burst(&first);
        assert_eq!(probe.words()[HELD..=HELD_KIND], [1, 1, 3]);
        (probe.burst(&second), probe.summary())
    })
}

/// "A next block that loses lock still counts as E": the 16th invalid header of 64 comes with the next burst.
#[test]
fn a_held_terminate_before_loss_of_lock() {
    let blocks = in_lock(&[vec![invalid(); 15], vec![idle(); 3], vec![start(), end()]].concat());
    let (handed, summary) = terminate_before_invalid(&blocks);
    assert_eq!(handed, ERROR);
    assert_eq!(summary[..5], [85, 1, 0, 0, 84]);
}

/// The 16th of the window, and the first of its 64.
#[test]
fn a_held_terminate_before_a_high_error_rate() {
    let blocks = in_lock(&[vec![invalid(); 15], vec![idle(); 51], vec![start(), end()]].concat());
    let (handed, summary) = terminate_before_invalid(&blocks);
    assert_eq!(handed, ERROR);
    assert_eq!(summary[..5], [133, 0, 1, 1, 132]);
}

// ---- the closing call

#[test]
fn closing_nothing() {
    for line in [&[][..], &[0x5a; 8]] {
        let (words, vectors, summary, counters) = in_both(|edition| {
            let mut probe = Probe::begin(edition);
            if !line.is_empty() {
                probe.burst(line);
            }
            assert_eq!(probe.shortened(Step::Close, [0, 1, 0, 0]), 4, "room for a vector is wanted");
            let vectors = probe.close();
            (probe.words(), vectors, probe.summary(), probe.counters())
        });
        assert_eq!((vectors, summary, counters), (vec![], [0; 12], [0; 8]));
        assert_eq!(words[..3], [1, line.len() as u64, 0]);
        assert_eq!(words[CARRIED], 8 * line.len() as u64, "what is carried stays");
        assert_eq!(words[SKIP..], [0; 16]);
    }
}

/// The vector of the last block, the flag that it was judged without its successor, and the words that then are as they were.
fn closed(last: Block) -> (Vec<u8>, u64) {
    let [line, _] = cut_behind(&in_lock(&[start(), some_data(), some_data(), last]), &[]);
    in_both(|edition| {
        let mut probe = Probe::begin(edition);
        probe.burst(&line);
        let before = probe.words();
        let vectors = probe.close();
        let after = probe.words();
        assert_eq!(after[CLOSED], 1);
        assert_eq!(after[LINE_BYTES..HELD], before[LINE_BYTES..HELD]);
        assert_eq!(after[HELD..TESTED], [0; 5]);
        assert_eq!(after[TESTED..VECTORS], before[TESTED..VECTORS]);
        assert_eq!(after[VECTORS], before[VECTORS] + 1);
        assert_eq!(after[REASONS..BEGUN], before[REASONS..BEGUN]);
        (vectors, probe.summary()[9])
    })
}

#[test]
fn closing_answers_the_last_block_as_if_control_came_next() {
    assert_eq!(closed(end()), (lists::end().to_vec(), 1));
    assert_eq!(closed(idle()), (ERROR.to_vec(), 0), "idles inside a frame");
    assert_eq!(closed(start()), (ERROR.to_vec(), 0));
    assert_eq!(closed(invalid()), (ERROR.to_vec(), 0));
    let (data, flag) = closed(some_data());
    assert_eq!((&data[..6], flag), (&[0, 0x44, 0x33, 0x22, 0x11, 0][..], 0));
}

#[test]
fn after_the_closing_call_every_call_is_refused_with_9() {
    in_both(|edition| {
        let mut probe = Probe::begin(edition);
        probe.burst(&of_all());
        probe.close();
        for step in [Step::Close, Step::Burst(&[]), Step::Burst(&[0; 9]), Step::Burst(&vec![0; 825_001])] {
            assert_eq!(probe.shortened(step, [0; 4]), 9);
            assert_eq!(probe.shortened(step, [0, 10, 1, 1]), 9);
            assert_eq!(probe.shortened(step, [1, 0, 0, 0]), 4, "a state that cannot be read");
        }
    });
}

// ---- counts

/// Reasons are counted with the block that is tested, begun and replaced with the vector that is handed out.
#[test]
fn summary_and_counters_of_the_line_so_far() {
    let bad = block(CONTROL, 0x00);
    let [first, second] = cut_behind(&in_lock(&[start(), end(), start(), bad]), &[bad, start(), idle(), idle()]);
    let (summaries, counters) = in_both(|edition| {
        let mut probe = Probe::begin(edition);
        let (mut summaries, mut counters) = (vec![], vec![]);
        for step in [Step::Burst(&first), Step::Burst(&second[..9]), Step::Burst(&second[9..]), Step::Close] {
            probe.call(step);
            summaries.push(probe.summary());
            counters.push(probe.counters());
        }
        (summaries, counters)
    });
    let expected = [
        [68, 0, 1, 0, 67, 0, 1, 0, 0, 0, 2, 0],
        [69, 0, 1, 0, 68, 0, 2, 0, 0, 0, 2, 1],
        [72, 0, 1, 0, 71, 0, 2, 0, 0, 0, 2, 3],
        [72, 0, 1, 0, 72, 0, 2, 0, 0, 0, 2, 3],
    ];
    assert_eq!(summaries, expected);
    assert_eq!(counters, expected.map(|s| [s[0], s[1], s[5], s[6], s[7], s[8], s[10], s[11]].map(|n| n as u32)));
}

/// The one that takes a field there, and those after it.
#[test]
fn counters_stay_at_the_top() {
    let [first, second] = cut_behind(&in_lock(&[start(), end(), start(), end()]), &[idle(), idle(), idle(), idle()]);
    for edition in EDITIONS {
        let mut calls = Calls::new(edition, 1);
        let old = Counters([u32::MAX - 67, 5, u32::MAX, u32::MAX - 1, 0, 0, u32::MAX - 1, 0]);
        let mut capture = Capture::begin_with(&mut calls, &old.bytes()).unwrap();
        for burst in [first.as_slice(), &second] {
            capture.burst(&mut calls, burst).unwrap();
            let now = Counters::of_bytes(capture.counters[..].try_into().unwrap()).0;
            assert_eq!(now, [u32::MAX, 5, u32::MAX, u32::MAX - 1, 0, 0, u32::MAX, 0]);
        }
        capture.close(&mut calls).unwrap();
        capture.same_as_one_call().unwrap();
    }
}

// ---- refused calls

/// "Room below 10 x (floor(carried and new bits / 66) + 1)".
#[test]
fn the_room_that_a_call_wants() {
    // carried bits in bytes, new bytes, room
    for (carried, new, room) in
        [(0, 0, 10), (0, 8, 10), (0, 9, 20), (1, 7, 10), (1, 8, 20), (8, 0, 10), (8, 1, 20), (8, 33, 50)]
    {
        let line = vec![0x55; carried + new];
        in_both(|edition| {
            let mut probe = Probe::begin(edition);
            probe.burst(&line[..carried]);
            let step = Step::Burst(&line[carried..]);
            assert_eq!(probe.capture.lends(step).room, room);
            assert_eq!(probe.shortened(step, [0, 1, 0, 0]), 4);
            assert_eq!(probe.shortened(step, [0, 0, 0, 0]), 0);
        });
    }
}

/// That nothing is changed is seen where the call is compared, by what it was lent.
#[test]
fn a_refused_call_changes_nothing_and_may_be_made_again() {
    let line = of_all();
    let short = [
        [1, 0, 0, 0],
        [232, 0, 0, 0],
        [0, 1, 0, 0],
        [0, 10, 0, 0],
        [0, 0, 1, 0],
        [0, 0, 96, 0],
        [0, 0, 0, 1],
        [0, 0, 0, 32],
        [1, 1, 1, 1],
    ];
    in_both(|edition| {
        let mut probe = Probe::begin(edition);
        for step in line.chunks(100).map(Step::Burst).chain([Step::Close]) {
            short.into_iter().for_each(|by| assert_eq!(probe.shortened(step, by), 4));
            probe.call(step);
        }
        probe.capture.same_as_one_call().unwrap();
    });
}

#[test]
fn the_length_limit_is_of_the_sum() {
    let line = [of_all(), Line::of_blocks(&vec![idle(); 100_000], 0).bytes()].concat();
    for edition in EDITIONS {
        let mut calls = Calls::new(edition, 1);
        let mut capture = Capture::begin(&mut calls).unwrap();
        let mut call = |step: Step| {
            let lends = capture.lends(step);
            capture.call(&mut calls, step, &lends).unwrap()
        };
        for n in 0..5 {
            assert_eq!(call(Step::Burst(&line[100_000 * n..100_000 * (n + 1)])), 0);
        }
        assert_eq!(call(Step::Burst(&line[500_000..825_001])), 1, "one byte more");
        assert_eq!(call(Step::Burst(&line[500_000..824_999])), 0);
        assert_eq!(call(Step::Burst(&line[..2])), 1);
        assert_eq!(call(Step::Burst(&line[824_999..825_000])), 0, "just the limit");
        assert_eq!(call(Step::Burst(&line[..1])), 1);
        assert_eq!(call(Step::Burst(&line[..825_000])), 1);
        assert_eq!(call(Step::Burst(&[])), 0);
        assert_eq!(call(Step::Close), 0);
        assert_eq!(word(&capture.summary, 0), word(&capture.summary, 4));
        capture.same_as_one_call().unwrap();
    }
}

/// The library alone: a refused call leaves zeros in a summary that has room for them, and every other lent byte as it was.
#[test]
fn a_refusal_leaves_zeros_in_the_summary() {
    for (state_len, room, counters_len) in [(231, 10, 32), (0, 10, 32), (232, 9, 32), (232, 10, 31)] {
        for summary_len in [0, 95, 96, 97] {
            let (mut state, mut vectors) = ([7; STATE_BYTES], vec![7; room]);
            assert_eq!(begin(0, &mut state), 0);
            let fresh = state;
            for closing in [false, true] {
                let (mut summary, mut counters) = (vec![7; summary_len], [7; COUNTERS_BYTES]);
                let (s, c) = (&mut state[..state_len], &mut counters[..counters_len]);
                let result = if closing {
                    close(s, &mut vectors, &mut summary, c)
                } else {
                    burst(s, &[0x55; 8], &mut vectors, &mut summary, c)
                };
                assert_eq!(result, 4);
                let zeros = if summary_len < RECEIVE_SUMMARY_BYTES { 0 } else { RECEIVE_SUMMARY_BYTES };
                assert!(
                    summary[..zeros].iter().all(|byte| *byte == 0) && summary[zeros..].iter().all(|byte| *byte == 7)
                );
                assert!(state == fresh && counters == [7; COUNTERS_BYTES] && vectors == vec![7; room]);
            }
        }
    }
}
