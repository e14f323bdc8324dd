//! States that no capture has led to: any numbers in any word, judged, and where they are accepted gone on from.
use super::bursts::some_line;
use crate::bursts::{words, Lends, Step};
use crate::calls::{enough, Calls, Outcome};
use crate::random::Random;
use crate::reference::counters::COUNTERS_BYTES;
use crate::reference::edition::{Edition, EDITIONS};
use crate::reference::receiving::{MOST_LINE_BYTES, SUMMARY_BYTES};
use crate::reference::resumed::wanted;
use crate::reference::state::*;

/// The limits and the numbers beside them, and the ends of some widths.
#[rustfmt::skip]
const EDGES: [u64; 40] = [
    0, 1, 2, 3, 4, 5, 6, 7, 14, 15, 16, 17, 57, 62, 63, 64, 65, 66, 67, 255, 256,
    19_529, 19_530, 19_531, 65_536, 99_999, 100_000, 100_001, 824_999, 825_000, 825_001,
    (1 << 32) - 1, 1 << 32, (1 << 40) - 1, 1 << 40, (1 << 58) - 1, 1 << 58, (1 << 63) - 1, 1 << 63, u64::MAX,
];

pub fn states(calls: &mut Calls) -> Outcome {
    one_word(calls)?;
    several_words(calls)?;
    likely(calls)?;
    any_numbers(calls)?;
    near_the_length_limit(calls)?;
    beginnings(calls)?;
    enough("accepted calls from foreign states", calls.tally.foreign)
}

/// A state that bursts lead to, and what the line holds behind them.
fn reached(calls: &mut Calls) -> Result<(Words, Vec<u8>), String> {
    let mut line = some_line(calls.edition, &mut calls.random);
    let (_, state) = calls.begin(calls.edition as u64, &[0; STATE_BYTES])?;
    // the last block that is read is one of the last, where the line is what it was made for
    let near_end = line.len().saturating_sub(calls.random.below(400));
    let rest = line.split_off(near_end);
    let burst = Step::Burst(&line);
    let lends = lends(&words(&state), burst, &mut calls.random);
    let gave = calls.step(burst, &lends)?;
    Ok((words(&gave.state), rest))
}

/// Every edge in every word of a state that was reached.
fn one_word(calls: &mut Calls) -> Outcome {
    for word in 0..WORDS {
        for edge in EDGES {
            for _ in 0..4 {
                let (mut words, rest) = reached(calls)?;
                words[word] = edge;
                go_on(calls, words, &rest)?;
            }
        }
    }
    Ok(())
}

fn several_words(calls: &mut Calls) -> Outcome {
    for _ in 0..2_000 {
        let (mut words, rest) = reached(calls)?;
        for _ in 0..2 + calls.random.below(3) {
            let word = calls.random.below(WORDS);
            words[word] = number(&mut calls.random);
        }
        go_on(calls, words, &rest)?;
    }
    Ok(())
}

/// Numbers that are mostly accepted, in all words.
fn likely(calls: &mut Calls) -> Outcome {
    for _ in 0..4_000 {
        let words = likely_words(calls.edition, &mut calls.random);
        let line = some_line(calls.edition, &mut calls.random);
        let from = calls.random.below(line.len() + 1);
        go_on(calls, words, &line[from..])?;
    }
    Ok(())
}

fn any_numbers(calls: &mut Calls) -> Outcome {
    for _ in 0..1_000 {
        let words = std::array::from_fn(|_| number(&mut calls.random));
        go_on(calls, words, &[0x55; 40])?;
    }
    Ok(())
}

/// Sums of the bytes so far and the new ones that are just the limit, one below and one above, in each state.
fn near_the_length_limit(calls: &mut Calls) -> Outcome {
    for n in 0..300 {
        let (mut words, rest) = reached(calls)?;
        words[LINE_BYTES] = (MOST_LINE_BYTES - rest.len() - 1 + n % 3) as u64;
        let step = Step::Burst(&rest);
        let lends = lends(&words, step, &mut calls.random);
        calls.step(step, &lends)?;
    }
    Ok(())
}

/// A number of any size, or an edge.
fn number(random: &mut Random) -> u64 {
    if random.once_in(2) {
        return random.pick(&EDGES);
    }
    random.word() >> random.below(64)
}

/// No, or a yes in one of many ways.
fn flag(random: &mut Random) -> u64 {
    random.pick(&[0, 0, 0, 1, 1, 2, 1 << 32, 1 << 63, u64::MAX])
}

/// A number up to a limit, the limit itself at times.
fn up_to(most: u64, random: &mut Random) -> u64 {
    match random.below(4) {
        0 => most,
        1 => most - random.below(3).min(most as usize) as u64,
        _ => random.word() % (most + 1),
    }
}

fn likely_words(edition: Edition, random: &mut Random) -> Words {
    let mut words = fresh(edition);
    words[LINE_BYTES] = up_to(820_000, random);
    words[LOCKED] = flag(random);
    words[LOCK_TESTED] = up_to(63, random);
    words[WINDOW_BLOCKS] = up_to(19_530, random);
    if words[LOCKED] != 0 {
        words[LOCK_INVALID] = up_to(words[LOCK_TESTED].min(15), random);
        let most = random.pick(&[0, 14, 15, 16, 19_530]);
        words[WINDOW_INVALID] = up_to(words[WINDOW_BLOCKS].min(most), random);
        words[HIGH] = flag(random);
    }
    words[SCRAMBLER] = random.start_state();
    words[CARRIED] = up_to(65, random);
    [CARRIED_HEADER, CARRIED_PAYLOAD].into_iter().for_each(|word| words[word] = random.word());
    words[SKIP] = flag(random);
    words[DIAGRAM] = up_to(4 + edition as u64, random);
    [HELD, HELD_UP].into_iter().for_each(|word| words[word] = flag(random));
    words[HELD_KIND] = if random.once_in(8) { number(random) } else { up_to(6, random) };
    [HELD_FIRST, HELD_SECOND].into_iter().for_each(|word| words[word] = random.word() >> random.below(30));
    (TESTED..=REPLACED).for_each(|word| words[word] = up_to(100_000, random));
    if random.once_in(8) {
        words[random.below(WORDS)] = number(random);
    }
    words
}

/// What a call is lent from a state: just what it wants, and now and then a byte less.
fn lends(words: &Words, step: Step, random: &mut Random) -> Lends {
    let mut less = || random.once_in(20) as usize;
    let (room, summary_room) = (wanted(words[CARRIED].min(66), step.bytes().len()) - less(), SUMMARY_BYTES - less());
    let counters_room = COUNTERS_BYTES - less();
    Lends { state: bytes(words).to_vec(), counters: random.counters(counters_room), room, summary_room }
}

/// Bursts from a state, and a closing call; each accepted call's state is handed to the next.
fn go_on(calls: &mut Calls, mut state: Words, line: &[u8]) -> Outcome {
    let middle = calls.random.below(line.len() + 1);
    let steps = [&line[..0], &line[..middle], &line[middle..]].map(Step::Burst);
    let first = calls.random.below(4);
    for step in steps.into_iter().skip(first).chain([Step::Close, Step::Close]) {
        let lends = lends(&state, step, &mut calls.random);
        let gave = calls.step(step, &lends)?;
        calls.tally.foreign += (gave.result == 0) as u64;
        state = words(&gave.state);
    }
    Ok(())
}

/// Unknown editions and short slices of a fresh state, and of each call.
fn beginnings(calls: &mut Calls) -> Outcome {
    for edition in EDGES.into_iter().chain(EDITIONS.map(|edition| edition as u64)) {
        for length in [0, 1, 8, 224, 231, 232, 233, 300] {
            let old = calls.random.bytes(length);
            calls.begin(edition, &old)?;
            short_state(calls, edition, length)?;
        }
    }
    Ok(())
}

/// The other slices of any length too: a state that is too short is found before any of them is looked at.
fn short_state(calls: &mut Calls, edition: u64, length: usize) -> Outcome {
    let mut state = bytes(&fresh(calls.edition)).to_vec();
    state[8 * EDITION..].copy_from_slice(&edition.to_le_bytes());
    state.resize(length, 0x77);
    for step in [Step::Burst(&[0x55; 20]), Step::Close] {
        for (room, summary_room, counters_room) in [(30, 96, 32), (29, 96, 32), (30, 95, 32), (30, 96, 31), (0, 0, 0)] {
            let counters = calls.random.counters(counters_room);
            calls.step(step, &Lends { state: state.clone(), counters, room, summary_room })?;
        }
    }
    Ok(())
}
