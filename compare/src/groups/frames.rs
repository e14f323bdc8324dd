//! Frames: words of every sort around one another, every octet in each lane, lists at random, rooms of every length, every refusal, and
//! what is received.
use super::refusals::spoil_control_byte;
use super::{bits, first};
use crate::calls::{enough, Calls, Outcome};
use crate::frames::{filled, with, Entry, Word, DATA, END, ERRORS, IDLES, SEQUENCE, SIGNAL, START, WHOLE};
use crate::library;
use crate::lines::damaged;
use crate::lists::list_after_lock;
use crate::random::Random;
use crate::reference::frames::{ENTRY_BYTES, SUMMARY_BYTES};
use crate::reference::vector::Character::{self, Control, Data};

pub fn frames(calls: &mut Calls) -> Outcome {
    // frames have no edition: what the two runs of this group differ in is the random numbers, and what is received
    calls.random = Random::new(calls.random.word() ^ calls.edition as u64);
    four_of_all(calls)?;
    eight_of_five(calls)?;
    three_over_and_over(calls)?;
    every_octet(calls)?;
    every_mixture(calls)?;
    short_lists(calls)?;
    long_lists(calls)?;
    rooms(calls)?;
    control_bytes(calls)?;
    faults_of_listing(calls)?;
    received(calls)?;
    largest(calls)?;
    let tally = calls.tally;
    enough("good frames", tally.good_frames)?;
    enough("bad frames", tally.frames - tally.good_frames)?;
    enough("frames still open at the end", tally.open_frames)?;
    enough("lists too small", tally.small_lists)
}

/// Words of every sort that frames tell apart.
#[rustfmt::skip]
const WORDS: [Word; 16] = [
    IDLES, START, DATA, END, SEQUENCE, SIGNAL, WHOLE, ERRORS,
    // a Start with an error character, an error character among data, and one before a Terminate
    [0x05, 0xfb, 0x55, 0xfe, 0x55], [0x04, 0x10, 0x20, 0xfe, 0x40], [0x0e, 0x10, 0xfe, 0xfd, 0x07],
    // Terminate and Start in another lane
    [0x0c, 0x10, 0x20, 0xfd, 0x07], [0x02, 0x10, 0xfb, 0x30, 0x40],
    // nearly four idles, and nearly a sequence ordered set
    [0x0f, 0x07, 0x07, 0x07, 0xfe], [0x0f, 0x06, 0x07, 0x07, 0x07], [0x09, 0x9c, 0x00, 0x00, 0x07],
];

/// The `n`-th of all rows of a length that can be made of these.
fn row<const N: usize, A: Copy>(of: &[A], n: usize) -> [A; N] {
    std::array::from_fn(|i| of[n / of.len().pow(i as u32) % of.len()])
}

/// Every four words of all sorts, at the very start and at the very end.
fn four_of_all(calls: &mut Calls) -> Outcome {
    for n in 0..WORDS.len().pow(4) {
        let four = row::<4, _>(&WORDS, n);
        calls.all_frames(&filled(&four))?;
        calls.all_frames(&[[IDLES; 4], four].concat().concat())?;
    }
    Ok(())
}

/// Every list of eight words of five sorts.
fn eight_of_five(calls: &mut Calls) -> Outcome {
    const FIVE: [Word; 5] = [IDLES, START, DATA, ERRORS, END];
    for n in 0..FIVE.len().pow(8) {
        calls.all_frames(&row::<8, _>(&FIVE, n).concat())?;
    }
    Ok(())
}

/// Every three words of all sorts, over and over: frames, or none, that come at the same distance all through a long list.
fn three_over_and_over(calls: &mut Calls) -> Outcome {
    for n in 0..WORDS.len().pow(3) {
        calls.all_frames(&row::<3, _>(&WORDS, n).concat().repeat(1_000))?;
    }
    Ok(())
}

/// Two frames, one after idles and one after a sequence ordered set, with every octet in each lane, as a control character and as data.
fn every_octet(calls: &mut Calls) -> Outcome {
    const FRAMES: [Word; 8] = [IDLES, START, DATA, END, SEQUENCE, START, DATA, END];
    for (i, lane) in (0..8).flat_map(|i| (0..4).map(move |lane| (i, lane))) {
        for octet in 0..=255 {
            for character in [Control(octet), Data(octet)] {
                let mut words = FRAMES;
                words[i] = with(words[i], lane, character);
                calls.all_frames(&words.concat())?;
            }
        }
    }
    Ok(())
}

/// Characters that frames tell apart, and data with the same octets as some of them.
const CHARACTERS: [Character; 8] =
    [Control(0x07), Control(0xfb), Control(0xfd), Control(0xfe), Control(0x9c), Control(0x06), Data(0xfb), Data(0xfe)];

/// Any of these characters in each lane: of the word before a Start, of the word with it, of one in a frame, and of the last.
fn every_mixture(calls: &mut Calls) -> Outcome {
    for n in 0..CHARACTERS.len().pow(4) {
        let characters = row::<4, _>(&CHARACTERS, n);
        let word = (0..4).fold(DATA, |word, lane| with(word, lane, characters[lane]));
        calls.all_frames(&[word, START, END, IDLES, word, DATA, END, word].concat())?;
        calls.all_frames(&[IDLES, START, word, END, IDLES, START, DATA, word].concat())?;
    }
    Ok(())
}

/// A character that matters to frames, or any.
fn character(random: &mut Random) -> Character {
    match random.below(3) {
        0 => Control(random.byte()),
        1 => Data(random.byte()),
        _ => random.pick(&CHARACTERS),
    }
}

/// A word with another character in some lane.
fn changed(word: Word, random: &mut Random) -> Word {
    with(word, random.below(4), character(random))
}

/// A word with other octets in its data lanes.
fn refilled(word: Word, random: &mut Random) -> Word {
    let lanes = (0..4).filter(|lane| word[0] >> lane & 1 == 0);
    lanes.fold(word, |word, lane| with(word, lane, Data(random.byte())))
}

/// A Terminate in some lane, data before it, idles after it.
fn end(random: &mut Random) -> Word {
    let at = random.below(4);
    let end = (at..4).fold(DATA, |word, lane| with(word, lane, Control(0x07)));
    with(end, at, Control(0xfd))
}

/// Any word whose control byte is at most 15.
fn any(random: &mut Random) -> Word {
    std::array::from_fn(|i| if i == 0 { random.byte() & 15 } else { random.byte() })
}

/// Words at random: frames of up to so many words of data, words of all sorts, and words of any bytes. One in so many is changed.
fn words(length: usize, longest: usize, changes: usize, random: &mut Random) -> Vec<Word> {
    let mut words = Vec::new();
    while words.len() < length {
        match random.below(8) {
            0 => words.push(any(random)),
            1..=3 => words.push(random.pick(&WORDS)),
            _ => {
                words.extend([random.pick(&[IDLES, SEQUENCE]), START]);
                words.extend(vec![DATA; random.below(longest + 1)]);
                words.push(end(random));
            }
        }
    }
    words.truncate(length);
    for word in &mut words {
        *word = refilled(*word, random);
        if random.once_in(changes) {
            *word = changed(*word, random);
        }
    }
    words
}

/// Many short lists, empty ones among them.
fn short_lists(calls: &mut Calls) -> Outcome {
    for n in 0..12_000 {
        let length = 8 * calls.random.below(13);
        let words = match n % 4 {
            0 => (0..length).map(|_| any(&mut calls.random)).collect(),
            i => words(length, 6, [3, 10, 1_000][i - 1], &mut calls.random),
        };
        calls.all_frames(&words.concat())?;
    }
    Ok(())
}

/// Long ones, with short frames and with long ones.
fn long_lists(calls: &mut Calls) -> Outcome {
    for n in 0..200 {
        let length = 8 * calls.random.below(1_000);
        let words = words(length, [4, 400][n % 2], [20, 1_000][n / 2 % 2], &mut calls.random);
        calls.all_frames(&words.concat())?;
    }
    Ok(())
}

/// Every room from none to a few bytes more than is wanted, and each length of a summary.
fn rooms(calls: &mut Calls) -> Outcome {
    for n in 0..200 {
        let vectors = words(8 * (n % 5), 3, 20, &mut calls.random).concat();
        let wanted = ENTRY_BYTES * calls.all_frames(&vectors)?.len();
        for room in 0..=wanted + ENTRY_BYTES + 1 {
            calls.frames(&vectors, room, SUMMARY_BYTES)?;
        }
        for summary_room in [0, 1, 7, 8, 9, 16] {
            for room in [0, wanted / 2, wanted, wanted + 1] {
                calls.frames(&vectors, room, summary_room)?;
            }
        }
    }
    Ok(())
}

/// Every control byte above 15 in some word, and then a second one: the first is the place.
fn control_bytes(calls: &mut Calls) -> Outcome {
    for control_byte in 16..=255 {
        let mut vectors = words(8 * (1 + calls.random.below(10)), 3, 20, &mut calls.random).concat();
        let word = calls.random.below(vectors.len() / 5);
        vectors[5 * word] = control_byte;
        calls.frames(&vectors, vectors.len(), SUMMARY_BYTES)?;
        spoil_control_byte(&mut vectors, &mut calls.random);
        calls.frames(&vectors, vectors.len(), SUMMARY_BYTES)?;
    }
    Ok(())
}

/// Every set of faults at once: "1, 2, 5 as in sending, then 4", of the summary and then of the list.
fn faults_of_listing(calls: &mut Calls) -> Outcome {
    const NUMBERS: [u64; 5] = [1, 2, 5, 4, 4];
    for n in 0..32 * 10 {
        let faults = bits::<5>(n % 32);
        let [long, ragged, spoilt, short_summary, short_list] = faults;
        // a list with a frame at least, so that a lent list can be too small
        let length = 8 * (1 + calls.random.below(20));
        let rest = words(length - 2, 3, 20, &mut calls.random);
        let mut vectors = [&[IDLES, START], &rest[..]].concat().concat();
        let count = calls.all_frames(&vectors)?.len();
        let random = &mut calls.random;
        if long {
            vectors.resize(1_000_040, 0);
        }
        if ragged {
            vectors.truncate(vectors.len() - 1 - random.below(39));
        }
        let control_byte = 5 * random.below(vectors.len().div_ceil(5));
        if spoilt {
            vectors[control_byte] = 16 + random.below(240) as u8;
        }
        let wanted = ENTRY_BYTES * count;
        let room = if short_list { random.pick(&[0, wanted / 2, wanted - 1]) } else { wanted + random.below(2) };
        let summary_room = if short_summary { random.below(8) } else { 8 + random.below(2) };
        let (result, _) = calls.frames(&vectors, room, summary_room)?;
        let number = first(faults, NUMBERS);
        let place = match number {
            5 => control_byte,
            4 if !short_summary => count,
            _ => 0,
        };
        let expected = number + 256 * place as u64;
        if result != expected {
            return Err(format!("faults {faults:?}: result {result} and not {expected}"));
        }
    }
    Ok(())
}

/// The frames of what is received: of a legal list after lock those that were sent, and of a damaged line any.
fn received(calls: &mut Calls) -> Outcome {
    for _ in 0..200 {
        let length = 64 + 4 * calls.random.below(100);
        let vectors = list_after_lock(calls.edition, length, 0, &mut calls.random);
        let (line, _) = library::sent(calls.edition, &vectors, calls.random.start_state());
        let sent = calls.all_frames(&vectors)?;
        let received = frames_of_line(calls, &line)?;
        if sent != received {
            return Err(format!("sent {sent:?} and received {received:?}"));
        }
        let line = damaged(calls.edition, &mut calls.random);
        frames_of_line(calls, &line)?;
    }
    Ok(())
}

/// The frames of the vectors that a line is answered with, but for those that are no whole group.
fn frames_of_line(calls: &mut Calls, line: &[u8]) -> Result<Vec<Entry>, String> {
    let (mut vectors, _) = library::received(calls.edition, line);
    vectors.truncate(vectors.len() / 40 * 40);
    calls.all_frames(&vectors)
}

/// The longest list: with the most frames, good ones and such as end with the word before the next Start; with one frame alone; and with a
/// group of vectors more, which is refused.
fn largest(calls: &mut Calls) -> Outcome {
    for pair in [[IDLES, WHOLE], [IDLES, START], [SEQUENCE, START]] {
        let mut vectors = pair.concat().repeat(100_000);
        let count = calls.all_frames(&vectors)?.len();
        if count != 100_000 {
            return Err(format!("{count} frames in the longest list"));
        }
        calls.frames(&vectors, 100_000 * ENTRY_BYTES - 1, SUMMARY_BYTES)?;
        vectors.extend(IDLES.repeat(8));
        calls.frames(&vectors, 100_000 * ENTRY_BYTES, SUMMARY_BYTES)?;
    }
    let frame = [vec![IDLES, START], vec![DATA; 199_997], vec![END]].concat();
    calls.all_frames(&frame.concat())?;
    Ok(())
}
