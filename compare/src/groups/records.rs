//! Capture records: files read at any place, cut, spoilt and of noise; bodies written and read back; and what an old reader finds.
use super::{bits, first};
use crate::calls::{enough, Calls, Outcome};
use crate::random::Random;
use crate::records::{head, old_read, record, Read};
use crate::reference::records::{kept_limit, HEAD_BYTES, LIMIT, SUMMARY_BYTES};

/// Lengths of a body: none, around a group of vectors, around both limits and the most whole groups below each, the most that two bytes
/// hold, and whole groups above both limits.
#[rustfmt::skip]
const LENGTHS: [usize; 22] = [
    0, 1, 39, 40, 41, 80, 4_079, 4_080, 4_081, 4_091, 4_092, 4_093, 4_120,
    65_439, 65_440, 65_441, 65_471, 65_472, 65_473, 65_480, 65_520, 65_535,
];

/// Those of short files: most records are read to their end.
const SHORT: [usize; 10] = [0, 0, 1, 2, 3, 4, 39, 40, 41, 80];

/// Lengths of a lent summary: none, around the one that it wants, a word more.
const SUMMARIES: [usize; 6] = [0, 1, 39, 40, 41, 48];

pub fn records(calls: &mut Calls) -> Outcome {
    // records have no edition: what the two runs of this group differ in is the random numbers
    calls.random = Random::new(calls.random.word() ^ calls.edition as u64);
    short_files(calls)?;
    long_files(calls)?;
    cuts(calls)?;
    every_kind(calls)?;
    every_length(calls)?;
    noise(calls)?;
    summaries(calls)?;
    faults_of_reading(calls)?;
    writing(calls)?;
    faults_of_writing(calls)?;
    written_files(calls)?;
    let tally = calls.tally;
    enough("records read", tally.records)?;
    enough("records that an old reader refuses", tally.long_records)?;
    enough("ends of records", tally.ends)?;
    enough("records written", tally.written)
}

/// What the library and the second program give at a place. An old reader gives the same unless a longer body begins there: "An old reader
/// meets a longer body with refusal 7 and never shows part of it."
fn read(calls: &mut Calls, file: &[u8], place: u64) -> Result<Read, String> {
    let gave = calls.read_record(file, place, SUMMARY_BYTES)?;
    let expected = if longer_at(file, place) { (7 + 256 * place, [0; 5]) } else { gave };
    let old = old_read(file, place);
    if old != expected {
        return Err(format!("an old reader at place {place} of {} bytes: {old:?} and not {expected:?}", file.len()));
    }
    Ok(gave)
}

/// Does a head stand there whose length is above 4,092?
fn longer_at(file: &[u8], place: u64) -> bool {
    let place = place.min(file.len() as u64) as usize;
    matches!(file[place..], [low, high, _, _, ..] if low as u64 + 256 * high as u64 > 4_092)
}

/// The records from a place on, one after another, up to the end of them or to the first that is refused, which comes last.
fn walk(calls: &mut Calls, file: &[u8], from: u64) -> Result<Vec<Read>, String> {
    walk_by(from, |place| read(calls, file, place))
}

fn walk_by(from: u64, mut read: impl FnMut(u64) -> Result<Read, String>) -> Result<Vec<Read>, String> {
    let mut found = Vec::new();
    let mut place = from;
    loop {
        let gave = read(place)?;
        found.push(gave);
        if gave.1[0] == 0 {
            return Ok(found);
        }
        place = gave.1[4];
    }
}

/// Records of bodies of these lengths, of both kinds. A few of kind 1 are no whole groups of vectors.
fn file(lengths: &[usize], random: &mut Random) -> Vec<u8> {
    let mut file = Vec::new();
    for _ in 0..random.below(9) {
        let length = random.pick(lengths);
        let vectors = if length % 40 == 0 { random.once_in(2) } else { random.once_in(40) };
        file.extend(record(if vectors { 1 } else { 2 }, &random.bytes(length)));
    }
    file
}

/// Walked from every place, behind the end too, and from 0 where the file is cut at any byte.
fn short_files(calls: &mut Calls) -> Outcome {
    for _ in 0..40 {
        let file = file(&SHORT, &mut calls.random);
        for place in 0..=file.len() + 5 {
            walk(calls, &file, place as u64)?;
        }
        for bytes in 0..file.len() {
            walk(calls, &file[..bytes], 0)?;
        }
        far_places(calls, &file)?;
    }
    Ok(())
}

/// Walked from place 0, from places near its heads, and from any.
fn long_files(calls: &mut Calls) -> Outcome {
    for _ in 0..40 {
        let file = file(&LENGTHS, &mut calls.random);
        for (_, [_, _, start, ..]) in walk(calls, &file, 0)? {
            let near = (start + calls.random.below(4) as u64).saturating_sub(5);
            walk(calls, &file, near)?;
        }
        for _ in 0..4 {
            let any = calls.random.below(file.len() + 1);
            walk(calls, &file, any as u64)?;
        }
        far_places(calls, &file)?;
    }
    Ok(())
}

/// Places at the end, past it, and far past it, also such as are a place of the file but for a high bit.
fn far_places(calls: &mut Calls, file: &[u8]) -> Outcome {
    let length = file.len() as u64;
    for place in [length, length + 1, length + 4, 1 << 32, 1 << 56, 1 << 63, u64::MAX - 4, u64::MAX - 3, u64::MAX] {
        walk(calls, file, place)?;
    }
    for bit in [32, 48, 55, 56, 63] {
        let near = calls.random.pick(&[0, 0, file.len() / 2, file.len()]) as u64;
        walk(calls, file, near + (1 << bit))?;
    }
    Ok(())
}

/// A record between two others, the file cut at every byte of its head and of the next, and at some of its body.
fn cuts(calls: &mut Calls) -> Outcome {
    for length in LENGTHS {
        for kind in [1, 2] {
            let before = record(2, &calls.random.bytes(7));
            let record = record(kind, &calls.random.bytes(length));
            let file = [&before[..], &record, &head(0, 2)].concat();
            let (start, end) = (before.len(), before.len() + record.len());
            let mut at = vec![start + 4 + length / 2, end - length.min(2), end - length.min(1)];
            at.extend(start..start + 6);
            at.extend(end..=file.len());
            for bytes in at.into_iter().filter(|bytes| *bytes <= file.len()) {
                walk(calls, &file[..bytes], 0)?;
                read(calls, &file[..bytes], start as u64)?;
            }
        }
    }
    Ok(())
}

/// Every kind that two bytes hold, of an empty body, of a group of vectors, or of a byte more.
fn every_kind(calls: &mut Calls) -> Outcome {
    for kind in 0..=65_535 {
        let file = record(kind, &vec![0x77; calls.random.pick(&[0, 40, 41])]);
        read(calls, &file, 0)?;
    }
    Ok(())
}

/// Every length that two bytes hold, of each kind and of none, the body cut; and some of them whole, a byte short and a byte longer.
fn every_length(calls: &mut Calls) -> Outcome {
    for length in 0..=65_535 {
        let kind = calls.random.pick(&[1, 2, 3]);
        let file = [&head(length, kind)[..], &[0x77; 3][..length.min(3)]].concat();
        read(calls, &file, 0)?;
    }
    for _ in 0..200 {
        let groups = calls.random.once_in(2);
        let length = if groups { 40 * calls.random.below(1_639) } else { calls.random.below(65_536) };
        let mut file = record(calls.random.pick(&[1, 2]), &vec![calls.random.byte(); length]);
        read(calls, &file, 0)?;
        file.push(calls.random.byte());
        read(calls, &file, 0)?;
        read(calls, &file[..file.len() - 2], 0)?;
    }
    Ok(())
}

/// Any bytes, and bytes that are mostly such as stand in heads.
fn noise(calls: &mut Calls) -> Outcome {
    for n in 0..2_000 {
        let length = calls.random.below(200);
        let mut file = calls.random.bytes(length);
        if n % 4 != 0 {
            file.iter_mut().for_each(|byte| *byte = [0, 0, 0, 0, 0, 0, 1, 2, 2, 3, 40, *byte][*byte as usize % 12]);
        }
        walk(calls, &file, 0)?;
        for _ in 0..5 {
            let any = calls.random.below(length + 4);
            walk(calls, &file, any as u64)?;
        }
    }
    Ok(())
}

/// Each length of a summary, at every place of a short file: records, the end of them, refusals.
fn summaries(calls: &mut Calls) -> Outcome {
    for _ in 0..20 {
        let file = file(&SHORT, &mut calls.random);
        for place in 0..=file.len() as u64 + 2 {
            for room in SUMMARIES {
                calls.read_record(&file, place, room)?;
            }
        }
        for room in SUMMARIES {
            calls.read_record(&file, u64::MAX, room)?;
        }
    }
    Ok(())
}

/// The length of a body under or above a limit, in whole groups of vectors or not. Those under it are not empty.
fn length(limit: usize, long: bool, ragged: bool, random: &mut Random) -> usize {
    let groups = if long { limit / 40 + 1 } else { 1 + random.below(limit / 40 - 1) };
    40 * groups + if ragged { 1 + random.below(14) } else { 0 }
}

/// Every set of faults at once: "6 (head), 7, 8, 6 (body), 2 (kind 1 only)", then a summary that is too short.
fn faults_of_reading(calls: &mut Calls) -> Outcome {
    const NUMBERS: [u64; 6] = [6, 7, 8, 6, 2, 4];
    for n in 0..64 * 20 {
        let faults = bits::<6>(n % 64);
        let [cut_head, long, other_kind, cut_body, ragged, short] = faults;
        let random = &mut calls.random;
        let length = length(LIMIT, long, ragged, random);
        let kind = match (other_kind, ragged) {
            (true, _) => random.pick(&[0, 3, 255, 256, 257, 258, 513, 32_769, 65_535]),
            (false, true) => 1,
            (false, false) => random.pick(&[1, 2]),
        };
        let before = random.below(50);
        let mut file = random.bytes(before);
        file.extend(head(length, kind));
        let body = if cut_body { random.pick(&[0, 1, length / 2, length - 1]) } else { length + random.below(3) };
        file.resize(before + 4 + body, random.byte());
        if cut_head {
            file.truncate(before + 1 + random.below(3));
        }
        let room = if short { random.pick(&[0, 1, 39]) } else { random.pick(&[40, 41, 48]) };
        let (result, _) = calls.read_record(&file, before as u64, room)?;
        let number = first(faults, NUMBERS);
        let place = if number == 4 { 0 } else { before as u64 };
        let expected = if number == 0 { 0 } else { number + 256 * place };
        if result != expected {
            return Err(format!("faults {faults:?}: result {result} and not {expected}"));
        }
    }
    Ok(())
}

/// Kinds that a writer is handed, also such as are 1 or 2 in their lowest bytes.
#[rustfmt::skip]
const KINDS: [u64; 13] = [
    1, 2, 0, 3, 255, 256, 257, 65_536, 65_537, (1 << 32) + 1, (1 << 32) + 2, (1 << 63) + 1, u64::MAX,
];

/// "A yes or no": 0 is no.
const WIDE: [u64; 6] = [0, 1, 2, 256, 1 << 32, u64::MAX];

/// All kinds, limits and rooms of a short body, and some of a long one. Three bodies have lengths that two bytes do not hold.
fn writing(calls: &mut Calls) -> Outcome {
    for length in LENGTHS.into_iter().chain([65_536, 65_576, 131_072]) {
        let body = calls.random.bytes(length);
        for kind in KINDS {
            for wide in WIDE {
                for room in [length + 4, length + 3, length + 5, length + 44, length, length / 2, 0] {
                    if length < 100 || calls.random.once_in(if length < 5_000 { 3 } else { 25 }) {
                        written(calls, kind, &body, wide, room)?;
                    }
                }
            }
        }
        // of each length and limit one at least that is written, where one can be
        for wide in [0, 1] {
            written(calls, 1, &body, wide, length + 4)?;
            written(calls, 2, &body, wide, length + 4)?;
        }
    }
    Ok(())
}

/// What is written is read back by the reader with the limit that was kept.
fn written(calls: &mut Calls, kind: u64, body: &[u8], wide: u64, room: usize) -> Result<Vec<u8>, String> {
    let (result, file) = calls.write_record(kind, body, wide, room)?;
    if result == 0 {
        let length = body.len() as u64;
        let expected = (0, [1, kind, 4, length, 4 + length]);
        let new = read(calls, &file, 0)?;
        let kept = if wide == 0 { old_read(&file, 0) } else { new };
        if (new, kept, &file[4..]) != (expected, expected, body) {
            return Err(format!("{length} bytes of kind {kind}, wide {wide}, are read back as {new:?} and {kept:?}"));
        }
    }
    Ok(file)
}

/// Every set of faults at once: "writing one 7, 8, 2 (kind 1), 4, with place 0".
fn faults_of_writing(calls: &mut Calls) -> Outcome {
    const NUMBERS: [u64; 4] = [7, 8, 2, 4];
    for n in 0..16 * 40 {
        let faults = bits::<4>(n % 16);
        let [long, other_kind, ragged, short] = faults;
        let random = &mut calls.random;
        let wide = random.pick(&WIDE);
        let length = length(kept_limit(wide), long, ragged, random);
        let kind = match (other_kind, ragged) {
            (true, _) => random.pick(&KINDS[2..]),
            (false, true) => 1,
            (false, false) => random.pick(&KINDS[..2]),
        };
        let wanted = length + HEAD_BYTES;
        let room = if short { random.pick(&[0, length, wanted - 1]) } else { wanted + random.pick(&[0, 1, 40]) };
        let body = vec![random.byte(); length];
        let (result, _) = calls.write_record(kind, &body, wide, room)?;
        let expected = first(faults, NUMBERS);
        if result != expected {
            return Err(format!("faults {faults:?}, wide {wide}: result {result} and not {expected}"));
        }
    }
    Ok(())
}

/// Records that were written one after another are found one after another. "Files for phones not yet updated stay readable": of those that
/// keep the old limit, by an old reader too.
fn written_files(calls: &mut Calls) -> Outcome {
    for n in 0..60 {
        let wide = (n % 3 == 0) as u64;
        let mut file = Vec::new();
        let mut expected = Vec::new();
        for _ in 0..calls.random.below(12) {
            let kind = calls.random.pick(&KINDS[..2]);
            let length = calls.random.pick(&LENGTHS);
            let bytes = calls.random.bytes(length);
            let record = written(calls, kind, &bytes, wide, length + 4)?;
            if !record.is_empty() {
                let start = file.len() as u64 + 4;
                expected.push((0, [1, kind, start, length as u64, start + length as u64]));
                file.extend(record);
            }
        }
        expected.push((0, [0; 5]));
        let found = walk(calls, &file, 0)?;
        let kept = if wide == 0 { walk_by(0, |place| Ok(old_read(&file, place)))? } else { found.clone() };
        if (&found, &kept) != (&expected, &expected) {
            return Err(format!("records written with wide {wide}: {found:?} and {kept:?} and not {expected:?}"));
        }
    }
    Ok(())
}
