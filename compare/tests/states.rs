//! Request 2/13: states whose numbers no capture has led to. Refusals, each limit, and what the numbers of an accepted state mean, held to
//! what stands here. Each call is compared with the second program as well.
use compare::bursts::{words, Gave, Lends, Step};
use compare::calls::{in_both, Calls};
use compare::library::word;
use compare::lines::{end, idle, Line};
use compare::lists;
use compare::reference::edition::{Edition, EDITIONS};
use compare::reference::state::*;
use compare::reference::vector::{ERROR, LOCAL_FAULT};

/// Calls with all that is wanted of the slices, and more.
fn call(state: &Words, step: Step) -> Gave {
    let lends = Lends { state: bytes(state).to_vec(), counters: vec![0; 32], room: 10_000, summary_room: 96 };
    Calls::new(Edition::Old, 1).step(step, &lends).unwrap()
}

/// The result of an empty burst and of the closing call, which is the same.
fn judged(state: &Words) -> u64 {
    let [burst, closing] = [Step::Burst(&[]), Step::Close].map(|step| call(state, step).result);
    assert_eq!(burst, closing, "a closing call is judged as a burst of no bytes");
    burst
}

/// A fresh state with some of its words changed.
fn with(edition: Edition, changed: &[(usize, u64)]) -> Words {
    let mut words = fresh(edition);
    changed.iter().for_each(|(word, number)| words[*word] = *number);
    words
}

/// A locked receiver with all counts at their limits.
fn at_the_limits(edition: Edition) -> Words {
    let mut words = with(edition, &[(LOCK_TESTED, 63), (LOCK_INVALID, 15), (LOCKED, 1), (WINDOW_BLOCKS, 19_530)]);
    words[WINDOW_INVALID] = 19_530;
    words[HIGH] = 1;
    words[LINE_BYTES] = 825_000;
    words[SCRAMBLER] = (1 << 58) - 1;
    words[CARRIED] = 65;
    words[DIAGRAM] = 4 + edition as u64;
    words[TESTED..=REPLACED].fill(100_000);
    words
}

const LIMITED: [usize; 17] = [
    LINE_BYTES,
    LOCK_TESTED,
    LOCK_INVALID,
    WINDOW_BLOCKS,
    WINDOW_INVALID,
    SCRAMBLER,
    CARRIED,
    DIAGRAM,
    TESTED,
    SLIPS,
    VECTORS,
    REASONS,
    REASONS + 1,
    REASONS + 2,
    REASONS + 3,
    BEGUN,
    REPLACED,
];

#[test]
fn each_limit_is_allowed_and_one_more_is_not() {
    for edition in EDITIONS {
        let limits = at_the_limits(edition);
        assert_eq!(judged(&limits), 0);
        for word in LIMITED {
            for above in [limits[word] + 1, 1 << 63, u64::MAX] {
                let mut words = limits;
                words[word] = above;
                assert_eq!(judged(&words), 10, "word {word} is {above}");
            }
        }
    }
}

#[test]
fn no_more_invalid_than_tested() {
    let locked =
        |changed: &[(usize, u64)]| in_both(|edition| judged(&with(edition, &[&[(LOCKED, 1)], changed].concat())));
    for (tested, invalid) in [(LOCK_TESTED, LOCK_INVALID), (WINDOW_BLOCKS, WINDOW_INVALID)] {
        assert_eq!(locked(&[(tested, 5), (invalid, 5)]), 0);
        assert_eq!(locked(&[(tested, 5), (invalid, 6)]), 10);
        assert_eq!(locked(&[(invalid, 1)]), 10);
    }
}

#[test]
fn not_locked_there_is_nothing_invalid_and_no_high() {
    let unlocked = |changed: &[(usize, u64)]| in_both(|edition| judged(&with(edition, changed)));
    assert_eq!(unlocked(&[(LOCK_TESTED, 63), (LOCK_INVALID, 1)]), 10);
    assert_eq!(unlocked(&[(WINDOW_BLOCKS, 9), (WINDOW_INVALID, 1)]), 10);
    assert_eq!(unlocked(&[(HIGH, 1)]), 10);
    assert_eq!(unlocked(&[(HIGH, 1 << 63)]), 10);
    assert_eq!(unlocked(&[(LOCK_TESTED, 63), (WINDOW_BLOCKS, 19_530)]), 0);
    assert_eq!(unlocked(&[(LOCKED, 1 << 63), (HIGH, 1 << 63)]), 0, "any number but 0 is a yes");
}

/// "And given for nothing else".
#[test]
fn other_words_are_never_refused() {
    let free = [LOCKED, HIGH, CARRIED_HEADER, CARRIED_PAYLOAD, SKIP, HELD, HELD_UP, HELD_KIND, HELD_FIRST, HELD_SECOND];
    in_both(|edition| {
        for number in [0, 1, 2, 6, 1 << 40, 1 << 58, 1 << 63, u64::MAX] {
            let mut words = at_the_limits(edition);
            free.into_iter().for_each(|word| words[word] = number);
            if number == 0 {
                (words[LOCK_INVALID], words[WINDOW_INVALID]) = (0, 0);
            }
            assert_eq!(judged(&words), 0, "{number}");
        }
        let odd = [(LOCKED, 1), (WINDOW_BLOCKS, 19_530), (WINDOW_INVALID, 16)];
        assert_eq!(judged(&with(edition, &odd)), 0, "16 invalid without high");
    });
}

/// The state too short, then 13, 9, 10, 1 and 4, each hidden by those before it.
#[test]
fn refusals_in_their_order() {
    for edition in EDITIONS {
        let line = [0; 9];
        let mut words = with(edition, &[(EDITION, 2), (CLOSED, 1), (CARRIED, 66), (LINE_BYTES, 824_992)]);
        let (mut room, mut state_bytes) = (9, 231);
        let call = |words: &Words, room: usize, state_bytes: usize| {
            let state = bytes(words)[..state_bytes].to_vec();
            let lends = Lends { state, counters: vec![0; 32], room, summary_room: 96 };
            Calls::new(edition, 1).step(Step::Burst(&line), &lends).unwrap().result
        };
        assert_eq!(call(&words, room, state_bytes), 4);
        state_bytes = 232;
        assert_eq!(call(&words, room, state_bytes), 13);
        words[EDITION] = edition as u64;
        assert_eq!(call(&words, room, state_bytes), 9);
        words[CLOSED] = 0;
        assert_eq!(call(&words, room, state_bytes), 10);
        words[CARRIED] = 65;
        assert_eq!(call(&words, room, state_bytes), 1);
        words[LINE_BYTES] = 824_991;
        assert_eq!(call(&words, room, state_bytes), 4);
        room = 30;
        assert_eq!(call(&words, room, state_bytes), 0);
    }
}

/// Any number but 0 says that it was closed, and any above 1 is an unknown edition.
#[test]
fn closed_states_and_unknown_editions() {
    for number in [1, 2, 1 << 32, 1 << 63, u64::MAX] {
        assert_eq!(in_both(|edition| judged(&with(edition, &[(CLOSED, number)]))), 9);
    }
    for number in [2, 256, 1 << 32, (1 << 32) + 1, u64::MAX] {
        assert_eq!(in_both(|edition| judged(&with(edition, &[(EDITION, number), (CLOSED, 1)]))), 13);
    }
}

/// The words of a state after a burst, but the edition.
fn after(state: &Words, line: &[u8]) -> [u64; 28] {
    let gave = call(state, Step::Burst(line));
    assert_eq!(gave.result, 0);
    *words(&gave.state).first_chunk().unwrap()
}

#[test]
fn an_empty_burst_writes_what_the_numbers_mean() {
    let odd = [
        (LOCKED, 1 << 63),
        (HIGH, 2),
        (CARRIED, 5),
        (CARRIED_HEADER, u64::MAX),
        (CARRIED_PAYLOAD, u64::MAX),
        (SKIP, 1 << 32),
        (HELD, 0),
        (HELD_UP, 7),
        (HELD_KIND, 7),
        (HELD_FIRST, 7),
        (HELD_SECOND, 7),
    ];
    let words = in_both(|edition| after(&with(edition, &odd), &[]));
    assert_eq!(words[LOCKED..=HIGH], [1, 0, 0, 1]);
    assert_eq!(words[CARRIED..=SKIP], [5, 0b11, 0b111, 1], "bits above their number are none");
    assert_eq!(words[HELD..TESTED], [0; 5], "where no block is held, the words of one mean nothing");
    let held = [(HELD, 9), (HELD_UP, 9), (HELD_KIND, 9), (HELD_FIRST, u64::MAX), (HELD_SECOND, 1 << 40)];
    let words = in_both(|edition| after(&with(edition, &held), &[]));
    assert_eq!(words[HELD..TESTED], [1, 1, 4, (1 << 40) - 1, 0], "an unknown kind is E, and a word has 40 bits");
}

/// One bit or none of what is carried counts of the first word, where there are so few.
#[test]
fn few_carried_bits() {
    for (carried, header) in [(0, 0), (1, 1), (2, 3), (3, 3)] {
        let odd = [(CARRIED, carried), (CARRIED_HEADER, u64::MAX), (CARRIED_PAYLOAD, u64::MAX)];
        let words = in_both(|edition| after(&with(edition, &odd), &[]));
        assert_eq!(words[CARRIED..SKIP], [carried, header, (carried == 3) as u64]);
    }
}

/// The vector and the summary's flag of a held block when the capture is closed, from a state of the diagram.
fn answered(edition: Edition, diagram: u64, up: u64, kind: u64) -> (Vec<u8>, u64) {
    let held =
        [(DIAGRAM, diagram), (HELD, 1), (HELD_UP, up), (HELD_KIND, kind), (HELD_FIRST, u64::MAX), (HELD_SECOND, 2)];
    let gave = call(&with(edition, &held), Step::Close);
    assert_eq!(gave.result, 0);
    (gave.vectors, word(&gave.summary, 9))
}

/// The vector that the words above tell.
const TOLD: [u8; 10] = [0xff, 0xff, 0xff, 0xff, 0xff, 2, 0, 0, 0, 0];

#[test]
fn a_held_block_is_answered_by_its_words() {
    // INIT, C, D, T and E by D, C, S, T and E: is the vector that is told answered?
    let told = [[0, 1, 1, 0, 0], [0, 1, 1, 0, 0], [1, 0, 0, 1, 0], [0, 1, 1, 0, 0], [1, 1, 0, 1, 0]];
    for edition in EDITIONS {
        for (diagram, by_kind) in told.iter().enumerate() {
            for (kind, told) in by_kind.iter().enumerate() {
                let vector = if *told == 1 { TOLD } else { ERROR };
                let alone = (*told == 1 && kind == 3) as u64;
                assert_eq!(
                    answered(edition, diagram as u64, 1, kind as u64),
                    (vector.to_vec(), alone),
                    "{diagram} {kind}"
                );
                assert_eq!(answered(edition, diagram as u64, 0, kind as u64), (LOCAL_FAULT.to_vec(), 0));
            }
        }
    }
}

/// Low power idle is a kind and a state of the new edition alone; other numbers are none of either.
#[test]
fn kinds_that_the_edition_does_not_have() {
    assert_eq!(answered(Edition::Old, 1, 1, 5).0, ERROR);
    assert_eq!(answered(Edition::New, 1, 1, 5).0, TOLD);
    assert_eq!(answered(Edition::New, 5, 1, 1).0, TOLD);
    for kind in [6, 7, 256, 257, 1 << 32, (1 << 32) + 1, u64::MAX] {
        assert_eq!(in_both(|edition| answered(edition, 1, 1, kind)).0, ERROR);
    }
}

/// "Begun" and "replaced" go by the same words.
#[test]
fn a_held_start_begins_a_frame() {
    let counts = |up, diagram| {
        let held = [(DIAGRAM, diagram), (HELD, 1), (HELD_UP, up), (HELD_KIND, 2), (BEGUN, 100_000), (REPLACED, 7)];
        in_both(|edition| {
            let gave = call(&with(edition, &held), Step::Close);
            [word(&gave.summary, 10), word(&gave.summary, 11), gave.counters[24] as u64, gave.counters[28] as u64]
        })
    };
    assert_eq!(counts(1, 1), [100_001, 7, 1, 0]);
    assert_eq!(counts(1, 2), [100_000, 8, 0, 1]);
    assert_eq!(counts(0, 1), [100_000, 7, 0, 0]);
}

/// A count that a burst takes over its limit is handed back so, and the next call refuses it.
#[test]
fn counts_that_pass_their_limit() {
    in_both(|edition| {
        let gave = call(&with(edition, &[(TESTED, 100_000)]), Step::Burst(&[0; 9]));
        assert_eq!((gave.result, word(&gave.summary, 0), words(&gave.state)[TESTED]), (0, 100_001, 100_001));
        assert_eq!(judged(&words(&gave.state)), 10);
    });
}

/// The carried bits go with the bit that is skipped: behind it a block begins.
#[test]
fn a_bit_to_skip_beside_carried_bits() {
    let blocks = [vec![idle(); 64], vec![end()]].concat();
    let mut line = Line::of_blocks(&blocks, 0);
    line.bits.insert(0, true);
    let line = line.bytes();
    let odd = [(CARRIED, 60), (CARRIED_HEADER, 1), (CARRIED_PAYLOAD, 77), (SKIP, 1)];
    in_both(|edition| {
        let skipped = after(&with(edition, &odd), &line);
        assert_eq!(skipped, after(&with(edition, &[(SKIP, 1)]), &line));
        assert_eq!((skipped[LOCKED], skipped[TESTED], skipped[HELD_KIND]), (1, 65, 3));
        let one = after(&with(edition, &odd), &line[..1]);
        assert_eq!(one[CARRIED..=SKIP], [7, line[0] as u64 >> 1 & 3, line[0] as u64 >> 3, 0]);
        let none = after(&with(edition, &odd), &[]);
        assert_eq!(none[CARRIED..=SKIP], [60, 1, 77, 1], "no bit comes, and they stay");
    });
}

/// A state that is told to be locked goes on as one that was: 64 headers are not waited for.
#[test]
fn a_locked_state_goes_on() {
    let line = Line::of_blocks(&[idle(), idle(), idle(), idle()], 0).bytes();
    in_both(|edition| {
        let gave = call(&with(edition, &[(LOCKED, 5), (DIAGRAM, 1)]), Step::Burst(&line));
        assert_eq!(gave.vectors, lists::idle().repeat(3));
        let last = call(&words(&gave.state), Step::Close);
        assert_eq!(last.vectors, lists::idle());
    });
}

/// The window's numbers after one block more with a good header, from so many blocks of which so many were invalid.
fn window_after_one_more(blocks: u64, invalid: u64) -> [u64; 3] {
    let state = [(LOCKED, 1), (WINDOW_BLOCKS, blocks), (WINDOW_INVALID, invalid)];
    let line = Line::of_blocks(&[idle()], 0).bytes();
    in_both(|edition| after(&with(edition, &state), &line)[WINDOW_BLOCKS..=HIGH].try_into().unwrap())
}

/// 16 invalid headers of a window are a high error rate with the next block, whatever the flag said.
#[test]
fn a_window_with_too_many_invalid_headers_that_is_not_high() {
    assert_eq!(window_after_one_more(100, 15), [101, 15, 0]);
    assert_eq!(window_after_one_more(100, 16), [101, 16, 1]);
    assert_eq!(window_after_one_more(19_530, 15), [0, 0, 0]);
    assert_eq!(window_after_one_more(19_530, 16), [0, 0, 1]);
    assert_eq!(window_after_one_more(19_530, 19_530), [0, 0, 1]);
}

/// Closing changes the two flags, the held block's words and its counts, and in the others writes flags as 0 and 1.
#[test]
fn the_state_that_closing_leaves() {
    for edition in EDITIONS {
        let mut words = at_the_limits(edition);
        words[CARRIED] = 3;
        words[DIAGRAM] = 2;
        (words[LOCKED], words[HIGH], words[SKIP]) = (2, 3, 4);
        words[CARRIED_HEADER..=CARRIED_PAYLOAD].fill(u64::MAX);
        words[HELD..=HELD_SECOND].copy_from_slice(&[8, 8, 3, 8, 8]);
        let gave = call(&words, Step::Close);
        let mut expected = words;
        (expected[CLOSED], expected[LOCKED], expected[HIGH], expected[SKIP]) = (1, 1, 1, 1);
        expected[HELD..=HELD_SECOND].fill(0);
        expected[VECTORS] += 1;
        assert_eq!(compare::bursts::words(&gave.state), expected);
    }
}
