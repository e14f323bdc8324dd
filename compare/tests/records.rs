//! Request 7/13: capture records, and the limit of their bodies that is in force, held to numbers that stand here. Records have no edition.
use compare::calls::{agreed_in_both, Calls};
use compare::library;
use compare::random::Random;
use compare::records::{head, old_read, record, Read};
use compare::reference::edition::Edition;
use compare::reference::vector::LOCAL_FAULT;

/// What reading gives at the end of records.
const END: Read = (0, [0; 5]);

/// What it gives where it refuses.
fn refused(number: u64, place: u64) -> Read {
    (number + 256 * place, [0; 5])
}

/// What it gives of a record with its head at a place.
fn found(kind: u64, place: u64, length: u64) -> Read {
    (0, [1, kind, place + 4, length, place + 4 + length])
}

/// Reads at a place, as the library and the second program agree on it.
fn read(file: &[u8], place: u64) -> Read {
    Calls::new(Edition::Old, 1).read_record(file, place, 40).unwrap()
}

/// All that is found from place 0 on, up to the end or to a refusal, by a way of reading.
fn all(read: impl Fn(u64) -> Read) -> Vec<Read> {
    let mut found = vec![read(0)];
    while let Some((0, [1, _, _, _, next])) = found.last() {
        found.push(read(*next));
    }
    found
}

/// The result of writing and the bytes that it wrote, as the library and the second program agree on them.
fn write_into(kind: u64, body: &[u8], wide: u64, room: usize) -> (u64, Vec<u8>) {
    Calls::new(Edition::Old, 1).write_record(kind, body, wide, room).unwrap()
}

/// The same with exactly the room that is wanted.
fn write(kind: u64, body: &[u8], wide: u64) -> (u64, Vec<u8>) {
    write_into(kind, body, wide, body.len() + 4)
}

/// Zeros as a record.
fn zeros(kind: usize, length: usize) -> Vec<u8> {
    record(kind, &vec![0; length])
}

// ---- reading

/// "The receiver's input `09 00 02 00` and nine zero bytes".
#[test]
fn the_documents_example() {
    let file = [0x09, 0x00, 0x02, 0x00, 0, 0, 0, 0, 0, 0, 0, 0, 0];
    assert_eq!(read(&file, 0), (0, [1, 2, 4, 9, 13]));
    assert_eq!(old_read(&file, 0), (0, [1, 2, 4, 9, 13]));
    assert_eq!(read(&file, 13), END);
    // the body, as it stands, is what receiving takes
    let (vectors, words) = agreed_in_both(&file[4..13]);
    assert_eq!(vectors, LOCAL_FAULT);
    assert_eq!(words[..4], [1, 1, 0, 0], "tested, slips, locked, high");
    assert_eq!(write(2, &[0; 9], 0), (0, file.to_vec()));
}

/// "No bytes left, or a place past them, is a plain end of records".
#[test]
fn a_plain_end() {
    for place in [0, 1, 4, 1 << 32, 1 << 56, 1 << 63, u64::MAX] {
        assert_eq!(read(&[], place), END);
    }
    let file = zeros(2, 9);
    for place in [13, 14, 17, 1 << 32, (1 << 32) + 13, 1 << 56, 1 << 63, u64::MAX - 3, u64::MAX] {
        assert_eq!(read(&file, place), END, "place {place}");
    }
}

#[test]
fn an_empty_body_is_allowed() {
    assert_eq!(read(&[0, 0, 1, 0], 0), (0, [1, 1, 4, 0, 4]));
    assert_eq!(read(&[0, 0, 2, 0], 0), (0, [1, 2, 4, 0, 4]));
    assert_eq!(write(1, &[], 0), (0, vec![0, 0, 1, 0]));
    assert_eq!(write(2, &[], 1), (0, vec![0, 0, 2, 0]));
}

/// "Raise the body limit to 65,472 bytes; the two-byte length still holds it."
#[test]
fn the_reader_takes_65_472_bytes_and_no_more() {
    assert_eq!(head(65_472, 2), [0xc0, 0xff, 0x02, 0x00]);
    assert_eq!(read(&zeros(2, 65_472), 0), (0, [1, 2, 4, 65_472, 65_476]));
    for length in [65_473, 65_480, 65_535] {
        assert_eq!(read(&zeros(2, length), 0), refused(7, 0), "{length}");
        assert_eq!(read(&zeros(1, length), 0), refused(7, 0), "{length}");
    }
}

#[test]
fn an_old_reader_takes_4_092_bytes_and_no_more() {
    assert_eq!(read(&zeros(2, 4_092), 0), (0, [1, 2, 4, 4_092, 4_096]));
    assert_eq!(old_read(&zeros(2, 4_092), 0), (0, [1, 2, 4, 4_092, 4_096]));
    for length in [4_093, 4_096, 32_768, 65_472] {
        assert_eq!(read(&zeros(2, length), 0), found(2, 0, length as u64), "{length}");
        assert_eq!(old_read(&zeros(2, length), 0), refused(7, 0), "{length}");
    }
}

/// 65,472 is no multiple of 40, and neither is 4,092.
#[test]
fn the_largest_bodies_of_vectors() {
    assert_eq!(read(&zeros(1, 65_440), 0), (0, [1, 1, 4, 65_440, 65_444]));
    assert_eq!(read(&zeros(1, 65_472), 0), refused(2, 0));
    assert_eq!(read(&zeros(1, 65_480), 0), refused(7, 0));
    assert_eq!(old_read(&zeros(1, 4_080), 0), (0, [1, 1, 4, 4_080, 4_084]));
    assert_eq!(old_read(&zeros(1, 4_092), 0), refused(2, 0));
    assert_eq!(old_read(&zeros(1, 4_120), 0), refused(7, 0));
    assert_eq!(read(&zeros(1, 4_120), 0), found(1, 0, 4_120));
    for (length, wide, result) in
        [(65_440, 1, 0), (65_472, 1, 2), (65_480, 1, 7), (4_080, 0, 0), (4_092, 0, 2), (4_120, 0, 7)]
    {
        assert_eq!(write(1, &vec![0; length], wide).0, result, "{length}");
    }
}

#[test]
fn vectors_come_in_fours() {
    for length in [1, 10, 39, 41, 79] {
        assert_eq!(read(&zeros(1, length), 0), refused(2, 0), "{length}");
        assert_eq!(read(&zeros(2, length), 0), found(2, 0, length as u64), "{length}");
        assert_eq!(write(1, &vec![0; length], 0).0, 2, "{length}");
        assert_eq!(write(2, &vec![0; length], 0).0, 0, "{length}");
    }
    for length in [40, 80, 4_040] {
        assert_eq!(read(&zeros(1, length), 0), found(1, 0, length as u64), "{length}");
    }
}

/// Length and kind have two bytes each, the lower one first.
#[test]
fn a_head_is_little_endian() {
    let file = |head: [u8; 4]| [&head[..], &[0; 600]].concat();
    assert_eq!(read(&file([0x02, 0x01, 0x02, 0x00]), 0), (0, [1, 2, 4, 258, 262]));
    assert_eq!(read(&file([0x02, 0x00, 0x00, 0x02]), 0), refused(8, 0));
    assert_eq!(read(&file([0x02, 0x00, 0x02, 0x01]), 0), refused(8, 0));
    assert_eq!(read(&file([0x28, 0x00, 0x01, 0x80]), 0), refused(8, 0));
    for kind in (0..=65_535).filter(|kind| *kind != 1 && *kind != 2) {
        assert_eq!(read(&head(0, kind), 0), refused(8, 0), "kind {kind}");
    }
}

/// "Record cut: under 4 head bytes, or body past the end", with the place of the head.
#[test]
fn a_file_cut_at_every_byte() {
    let file = [zeros(1, 40), zeros(2, 9)].concat();
    for bytes in 1..file.len() {
        let cut = &file[..bytes];
        let first = if bytes < 44 { refused(6, 0) } else { found(1, 0, 40) };
        assert_eq!(read(cut, 0), first, "{bytes} bytes");
        let second = if bytes <= 44 { END } else { refused(6, 44) };
        assert_eq!(read(cut, 44), second, "{bytes} bytes");
    }
    assert_eq!(read(&file, 44), (0, [1, 2, 48, 9, 57]));
    // a long body, a byte short and whole
    let long = zeros(2, 65_472);
    assert_eq!(read(&long[..65_475], 0), refused(6, 0));
    assert_eq!(read(&long[..4], 0), refused(6, 0));
    assert_eq!(read(&[&long[..], &[7]].concat(), 0), found(2, 0, 65_472));
}

/// A result has the place of the head, times 256.
#[test]
fn the_place_of_a_refusal() {
    let file = [zeros(2, 252), vec![0, 0, 3, 0]].concat();
    assert_eq!(read(&file, 256), (8 + 65_536, [0; 5]));
    let far = [zeros(2, 65_472).repeat(20), vec![0xc1, 0xff, 2, 0]].concat();
    assert_eq!(read(&far, 1_309_520), (7 + 256 * 1_309_520, [0; 5]));
    assert_eq!(read(&far[..1_309_523], 1_309_520), (6 + 256 * 1_309_520, [0; 5]));
}

/// "Reading a record 6 (head), 7, 8, 6 (body), 2 (kind 1 only), all with the head's place", then the summary's 4, with place 0.
#[test]
fn the_order_of_readings_refusals() {
    let head = |length: u16, kind: u16| [length.to_le_bytes(), kind.to_le_bytes()].concat();
    let whole = |length: u16, kind: u16| [head(length, kind), vec![0; length as usize]].concat();
    let refusals = [
        (6, head(65_473, 3)[..3].to_vec(), 40),
        (6, head(65_473, 3)[..1].to_vec(), 39),
        (7, head(65_473, 3), 40),
        (7, whole(65_473, 3), 40),
        (7, head(65_473, 1), 39),
        (7, head(65_535, 2), 0),
        (8, head(65_472, 3), 40),
        (8, head(41, 0), 40),
        (8, whole(41, 257), 39),
        (8, head(0, 3), 0),
        (6, head(65_472, 2), 40),
        (6, head(41, 1), 40),
        (6, head(1, 1), 39),
        (2, whole(41, 1), 40),
        (2, whole(65_472, 1), 39),
        (2, whole(1, 1), 0),
    ];
    for (number, bad, summary) in refusals {
        // at the start of a file, and behind a record
        for before in [vec![], zeros(2, 9)] {
            let file = [&before[..], &bad].concat();
            let gave = Calls::new(Edition::Old, 1).read_record(&file, before.len() as u64, summary).unwrap();
            assert_eq!(
                gave,
                refused(number, before.len() as u64),
                "{:02x?}, summary {summary}",
                &bad[..bad.len().min(4)]
            );
        }
    }
    for summary in [0, 1, 39] {
        let file = [zeros(2, 9), zeros(1, 40)].concat();
        for place in [0, 13, 57, 58, u64::MAX] {
            let gave = Calls::new(Edition::Old, 1).read_record(&file, place, summary).unwrap();
            assert_eq!(gave, refused(4, 0), "a record, or the end, at {place}");
        }
    }
}

/// Five numbers of eight bytes, the lowest first. "One too short for it is refusal 4 and stays unchanged", a longer one keeps its rest, and
/// it "takes the zeros of a refusal".
#[test]
fn the_summary_as_bytes() {
    let file = [zeros(2, 300), vec![0, 0, 3, 0]].concat();
    let read = |place: u64, length: usize| {
        let mut summary = vec![7; length];
        let before = file.clone();
        let result = library::read_record(&file, place, &mut summary);
        assert_eq!(file, before);
        (result, summary)
    };
    let words =
        [1, 0, 0, 0, 0, 0, 0, 0, 2, 0, 0, 0, 0, 0, 0, 0, 4, 0, 0, 0, 0, 0, 0, 0, 0x2c, 1, 0, 0, 0, 0, 0, 0, 0x30, 1];
    let words = [&words[..], &[0; 6]].concat();
    assert_eq!(read(0, 40), (0, words.clone()));
    assert_eq!(read(0, 48), (0, [&words[..], &[7; 8]].concat()));
    assert_eq!(read(308, 41), (0, [&[0; 40][..], &[7]].concat()));
    assert_eq!(read(304, 48), (8 + 256 * 304, [&[0; 40][..], &[7; 8]].concat()));
    for length in [0, 1, 8, 39] {
        assert_eq!(read(0, length), (4, vec![7; length]));
        assert_eq!(read(308, length), (4, vec![7; length]));
        assert_eq!(read(304, length), (8 + 256 * 304, vec![7; length]));
    }
}

#[test]
fn many_records_in_a_row() {
    let bodies =
        [(2, 0), (1, 40), (2, 9), (1, 0), (2, 4_092), (1, 4_080), (2, 4_093), (1, 65_440), (2, 65_472), (2, 1)];
    let mut file = Vec::new();
    let mut expected = Vec::new();
    for (kind, length) in bodies.repeat(5) {
        expected.push(found(kind, file.len() as u64, length));
        file.extend(zeros(kind as usize, length as usize));
    }
    assert_eq!(file.len(), 5 * 143_267);
    let end = [&expected[..], &[END]].concat();
    assert_eq!(all(|place| read(&file, place)), end);
    // an old reader finds those before the first longer one, and there stops
    let old = [&expected[..6], &[refused(7, 8_245)]].concat();
    assert_eq!(all(|place| old_read(&file, place)), old);
    // a thousand heads and nothing else
    let empty = [0, 0, 2, 0].repeat(1_000);
    assert_eq!(all(|place| read(&empty, place)).len(), 1_001);
    assert_eq!(all(|place| old_read(&empty, place)).last(), Some(&END));
}

/// "An old reader meets a longer body with refusal 7 and never shows part of it": also where what it holds of it would be records.
#[test]
fn an_old_reader_shows_no_part_of_a_longer_body() {
    let body = zeros(2, 9).repeat(400);
    let file = [zeros(1, 40), record(2, &body), zeros(2, 9)].concat();
    assert_eq!(all(|place| read(&file, place)), [found(1, 0, 40), found(2, 44, 5_200), found(2, 5_248, 9), END]);
    assert_eq!(all(|place| old_read(&file, place)), [found(1, 0, 40), refused(7, 44)]);
    // a cut head is one for both, a cut body is not looked at by the old one
    assert_eq!([read(&file[..47], 44), old_read(&file[..47], 44)], [refused(6, 44); 2]);
    assert_eq!([read(&file[..48], 44), old_read(&file[..48], 44)], [refused(6, 44), refused(7, 44)]);
    // neither is a kind that there is not
    let other = record(3, &body);
    assert_eq!([read(&other, 0), old_read(&other, 0)], [refused(8, 0), refused(7, 0)]);
}

// ---- writing

/// "A writer is told, by a yes or no, which limit to keep, so that files for phones not yet updated stay readable."
#[test]
fn no_keeps_4_092_and_yes_65_472() {
    let body = Random::new(1).bytes(65_473);
    let whole = |length: usize, head: [u8; 4]| (0, [&head[..], &body[..length]].concat());
    assert_eq!(write(2, &body[..4_092], 0), whole(4_092, [0xfc, 0x0f, 0x02, 0x00]));
    assert_eq!(write(2, &body[..4_093], 0), (7, vec![]));
    assert_eq!(write(2, &body[..65_472], 0), (7, vec![]));
    for yes in [1, 2, 256, 1 << 32, u64::MAX] {
        assert_eq!(write(2, &body[..4_092], yes), whole(4_092, [0xfc, 0x0f, 0x02, 0x00]));
        assert_eq!(write(2, &body[..4_093], yes), whole(4_093, [0xfd, 0x0f, 0x02, 0x00]));
        assert_eq!(write(1, &body[..65_440], yes), whole(65_440, [0xa0, 0xff, 0x01, 0x00]));
        assert_eq!(write(2, &body[..65_472], yes), whole(65_472, [0xc0, 0xff, 0x02, 0x00]));
        assert_eq!(write(2, &body, yes), (7, vec![]));
    }
}

/// Lengths whose two lowest bytes are those of a short body.
#[test]
fn lengths_that_two_bytes_do_not_hold() {
    for length in [65_536, 65_537, 65_576, 131_072, 1_000_000] {
        for wide in [0, 1] {
            assert_eq!(write(2, &vec![0; length], wide), (7, vec![]), "{length}");
        }
    }
}

#[test]
fn kinds_other_than_1_and_2_are_refused() {
    for kind in [0, 3, 255, 256, 257, 258, 65_536, 65_537, (1 << 32) + 1, (1 << 32) + 2, (1 << 63) + 2, u64::MAX] {
        assert_eq!(write(kind, &[0; 40], 0), (8, vec![]), "kind {kind}");
        assert_eq!(write(kind, &[], 1), (8, vec![]), "kind {kind}");
    }
}

/// "Success writes exactly the stated bytes from the start of the lent room; the rest is unchanged." A refusal writes none.
#[test]
fn what_is_written_into_the_room() {
    let write = |kind: u64, length: usize| {
        let mut room = [7; 48];
        (library::write_record(kind, &vec![5; length], 0, &mut room), room)
    };
    let (result, room) = write(2, 41);
    assert_eq!((result, &room[..4], &room[4..45], &room[45..]), (0, &[41, 0, 2, 0][..], &[5; 41][..], &[7; 3][..]));
    let (result, room) = write(1, 40);
    assert_eq!((result, &room[..4], &room[4..44], &room[44..]), (0, &[40, 0, 1, 0][..], &[5; 40][..], &[7; 4][..]));
    let (result, room) = write(2, 0);
    assert_eq!((result, &room[..4], &room[4..]), (0, &[0, 0, 2, 0][..], &[7; 44][..]));
    for (number, kind, length) in [(7, 2, 4_093), (8, 3, 9), (2, 1, 41), (4, 2, 45)] {
        assert_eq!(write(kind, length), (number, [7; 48]));
    }
}

/// "Writing one 7, 8, 2 (kind 1), 4, with place 0."
#[test]
fn the_order_of_writings_refusals() {
    let refusals = [
        (7, 3, 4_093, 0, 0),
        (7, 1, 4_093, 0, 4_097),
        (7, 2, 4_093, 0, 4_096),
        (7, 1, 65_473, 1, 0),
        (7, 0, 65_473, 1, 65_477),
        (8, 3, 4_092, 0, 0),
        (8, 257, 41, 0, 45),
        (8, 0, 65_472, 1, 65_475),
        (2, 1, 4_092, 0, 0),
        (2, 1, 65_472, 1, 65_475),
        (2, 1, 4_093, 1, 4_097),
        (4, 2, 4_093, 1, 4_096),
        (4, 1, 40, 0, 43),
        (4, 2, 65_472, 1, 65_475),
        (4, 2, 0, 0, 3),
        (4, 1, 0, 1, 0),
        (0, 2, 65_472, 1, 65_476),
        (0, 1, 0, 0, 4),
    ];
    for (number, kind, length, wide, room) in refusals {
        let (result, _) = write_into(kind, &vec![0; length], wide, room);
        assert_eq!(result, number, "{length} bytes of kind {kind}, wide {wide}, room {room}");
    }
}

/// A line in records of the longest body that is kept, the last with what is left.
fn in_records(line: &[u8], most: usize, wide: u64) -> Vec<u8> {
    line.chunks(most)
        .flat_map(|body| {
            let (result, record) = write(2, body, wide);
            assert_eq!(result, 0);
            record
        })
        .collect()
}

/// The bodies of a file's records, joined, and how many they are.
fn joined(file: &[u8]) -> (Vec<u8>, usize) {
    let found = all(|place| read(file, place));
    assert_eq!(found.last(), Some(&END));
    let bodies: Vec<&[u8]> = found[..found.len() - 1]
        .iter()
        .map(|(_, [_, _, start, _, end])| &file[*start as usize..*end as usize])
        .collect();
    (bodies.concat(), bodies.len())
}

/// "4,092 bytes a record makes long captures slow to copy": what a program gathers at most, and the longest line.
#[test]
fn a_line_in_records_of_either_limit() {
    for (length, short_records, long_records) in [(49_500, 13, 1), (825_000, 202, 13)] {
        let line = Random::new(2).bytes(length);
        let (old, new) = (in_records(&line, 4_092, 0), in_records(&line, 65_472, 1));
        assert_eq!([old.len(), new.len()], [short_records, long_records].map(|records| length + 4 * records));
        assert_eq!(joined(&old), (line.clone(), short_records));
        assert_eq!(joined(&new), (line, long_records));
        // an old reader finds all of the first, and of the second nothing
        assert_eq!(all(|place| old_read(&old, place)), all(|place| read(&old, place)));
        assert_eq!(all(|place| old_read(&new, place)), [refused(7, 0)]);
    }
}
