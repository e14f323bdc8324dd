//! Request 8/13: an index beside the vectors, counts and error vectors by it, held to numbers that stand here. An index has no edition.
use compare::calls::{agreed, Calls};
use compare::index::{late_start, start_after_set, Answered, Question};
use compare::library::{self, sent};
use compare::lists::{data, end, idle, low_power, start};
use compare::random::Random;
use compare::reference::block::{kind_of_vector, Kind};
use compare::reference::edition::Edition;
use compare::reference::index::{bytes, entries_read, full_count, of_bytes, Counts};
use compare::reference::vector::{Vector, ERROR, LOCAL_FAULT};
use std::thread;
use Question::{Count, Find};

/// What is answered where there is no such vector, and where an end or the index is wrong.
const NONE: Answered = (12, [0, 0]);
const WRONG: Answered = (11, [0, 0]);

/// This many idles, but for other vectors at these places.
fn idles_but(number: usize, others: &[(usize, Vector)]) -> Vec<u8> {
    let mut vectors = vec![idle(); number];
    others.iter().for_each(|(place, vector)| vectors[*place] = *vector);
    vectors.concat()
}

/// The index of a list, as the library and the second program agree on it.
fn built(vectors: &[u8]) -> Vec<u8> {
    Calls::new(Edition::Old, 1).built(vectors).unwrap()
}

/// The result of building into so many bytes, as both agree on it.
fn build(vectors: &[u8], index_room: usize) -> u64 {
    Calls::new(Edition::Old, 1).build(vectors, index_room).unwrap().0
}

/// The answer by any index, as both agree on it.
fn ask_by(index: &[u8], question: Question, vectors: &[u8]) -> Answered {
    Calls::new(Edition::Old, 1).ask(question, vectors, index, 16).unwrap()
}

/// The answer by the index of the list itself.
fn ask(question: Question, vectors: &[u8]) -> Answered {
    ask_by(&built(vectors), question, vectors)
}

/// Error vectors and vectors of kind S in the whole of a list.
fn in_all(vectors: &[u8]) -> Counts {
    let (result, counts) = ask(Count(0, vectors.len() as u64 / 10), vectors);
    assert_eq!(result, 0);
    counts
}

/// Is it counted as the error vector, and as one of kind S? It stands alone among idles.
fn counted(vector: Vector) -> Counts {
    in_all(&idles_but(4, &[(2, vector)]))
}

// ---- what an index holds

/// "At each multiple of 64 from 0": before the first vector stands none.
#[test]
fn four_vectors_have_one_entry_of_zeros() {
    for vector in [idle(), ERROR, start()] {
        assert_eq!(built(&vector.repeat(4)), [0; 8]);
        assert_eq!(built(&vector.repeat(60)), [0; 8]);
    }
    assert_eq!(built(&[]), [0; 8]);
}

/// "To the number of vectors": one of them is a multiple of 64 too.
#[test]
fn sixty_four_vectors_have_two_entries() {
    assert_eq!(built(&ERROR.repeat(64)), [0, 0, 0, 0, 0, 0, 0, 0, 64, 0, 0, 0, 0, 0, 0, 0]);
    assert_eq!(built(&start().repeat(64)), [0, 0, 0, 0, 0, 0, 0, 0, 0, 0, 0, 0, 64, 0, 0, 0]);
    assert_eq!(built(&ERROR.repeat(68)), [0, 0, 0, 0, 0, 0, 0, 0, 64, 0, 0, 0, 0, 0, 0, 0]);
}

/// Numbers of vectors, and the bytes of their index.
#[rustfmt::skip]
const LENGTHS: [(usize, usize); 13] = [
    (0, 8), (4, 8), (60, 8), (64, 16), (68, 16), (124, 16), (128, 24), (132, 24), (1_024, 136),
    (99_964, 12_496), (99_968, 12_504), (99_996, 12_504), (100_000, 12_504),
];

/// "An index of the wrong length, handed in or to be built".
#[test]
fn how_long_an_index_is() {
    for (number, wanted) in LENGTHS {
        let vectors = ERROR.repeat(number);
        assert_eq!(build(&vectors, wanted), 0, "{number}");
        assert_eq!(ask_by(&vec![0; wanted], Count(0, 0), &vectors), (0, [0, 0]), "{number}");
        for index_room in [0, wanted - 8, wanted - 1, wanted + 1, wanted + 8] {
            assert_eq!(build(&vectors, index_room), 11, "{number} in {index_room}");
            let index = vec![0; index_room];
            assert_eq!(ask_by(&index, Count(0, 0), &vectors), WRONG, "{number} by {index_room}");
            assert_eq!(ask_by(&index, Find(1), &vectors), WRONG, "{number} by {index_room}");
        }
    }
}

/// Error vectors at five places and vectors of kind S at four.
fn nine() -> Vec<u8> {
    let errors = [0, 63, 64, 127, 128].map(|place| (place, ERROR));
    let starts = [1, 62, 65, 131].map(|place| (place, start()));
    idles_but(132, &[&errors[..], &starts].concat())
}

/// "How many error vectors and vectors of kind S stand before it": a vector at 64 stands behind the entry at 64.
#[test]
fn what_stands_before_an_entry() {
    let index = [0, 0, 0, 0, 0, 0, 0, 0, 2, 0, 0, 0, 2, 0, 0, 0, 4, 0, 0, 0, 3, 0, 0, 0];
    assert_eq!(built(&nine()), index);
    assert_eq!(of_bytes(&index), [[0, 0], [2, 2], [4, 3]]);
}

/// Two numbers of four bytes, the lowest first.
#[test]
fn an_entry_as_bytes() {
    assert_eq!(built(&ERROR.repeat(320))[40..], [0x40, 0x01, 0, 0, 0, 0, 0, 0]);
    assert_eq!(built(&start().repeat(320))[40..], [0, 0, 0, 0, 0x40, 0x01, 0, 0]);
    let long = [ERROR.repeat(65_600), start().repeat(320)].concat();
    assert_eq!(built(&long)[8 * 1_030..], [0x40, 0x00, 0x01, 0, 0x40, 0x01, 0, 0]);
}

// ---- what is counted

/// Ten bytes, "0f fe fe fe fe 0f fe fe fe fe", and no other ones.
#[test]
fn the_error_vector_and_nothing_else() {
    assert_eq!(counted([0x0f, 0xfe, 0xfe, 0xfe, 0xfe, 0x0f, 0xfe, 0xfe, 0xfe, 0xfe]), [1, 0]);
    for byte in 0..10 {
        let bits = if byte % 5 == 0 { 4 } else { 8 };
        for bit in 0..bits {
            let mut vector = ERROR;
            vector[byte] ^= 1 << bit;
            assert_eq!(counted(vector), [0, 0], "{vector:02x?}");
        }
    }
    let half = [ERROR[..5].to_vec(), idle()[..5].to_vec()].concat();
    assert_eq!(counted(half[..].try_into().unwrap()), [0, 0]);
    assert_eq!(counted([0, 0xfe, 0xfe, 0xfe, 0xfe, 0, 0xfe, 0xfe, 0xfe, 0xfe]), [0, 0]);
}

/// "S, type 33 with four valid codes, 66 with a valid O code, or 78."
#[test]
fn vectors_of_kind_s() {
    assert_eq!(counted([0x01, 0xfb, 0x55, 0x55, 0x55, 0x00, 0x55, 0x55, 0x55, 0xd5]), [0, 1]);
    assert_eq!(counted([0x0f, 0x07, 0x07, 0x07, 0x07, 0x01, 0xfb, 0x55, 0x55, 0x55]), [0, 1]);
    assert_eq!(counted([0x01, 0x9c, 0x00, 0x00, 0x01, 0x01, 0xfb, 0x55, 0x55, 0x55]), [0, 1]);
    assert_eq!(counted([0x01, 0x5c, 0x00, 0x00, 0x01, 0x01, 0xfb, 0x55, 0x55, 0x55]), [0, 1]);
    for octet in [0x07, 0xfe, 0x1c, 0x3c, 0x7c, 0xbc, 0xdc, 0xf7] {
        assert_eq!(counted(late_start(octet)), [0, 1], "{octet:02x}");
    }
    for octet in [0x9c, 0x5c] {
        assert_eq!(counted(start_after_set(octet)), [0, 1], "{octet:02x}");
    }
}

#[test]
fn vectors_that_are_nearly_of_kind_s() {
    // Start as data, in another lane, twice, before a control character, and after what is no ordered set
    assert_eq!(counted([0x00, 0xfb, 0x55, 0x55, 0x55, 0x00, 0x55, 0x55, 0x55, 0xd5]), [0, 0]);
    assert_eq!(counted([0x02, 0x55, 0xfb, 0x55, 0x55, 0x00, 0x55, 0x55, 0x55, 0xd5]), [0, 0]);
    assert_eq!(counted([0x01, 0xfb, 0x55, 0x55, 0x55, 0x01, 0xfb, 0x55, 0x55, 0x55]), [0, 0]);
    assert_eq!(counted([0x01, 0xfb, 0x55, 0x55, 0x55, 0x08, 0x55, 0x55, 0x55, 0xfd]), [0, 0]);
    assert_eq!(counted([0x00, 0x9c, 0x00, 0x00, 0x01, 0x01, 0xfb, 0x55, 0x55, 0x55]), [0, 0]);
    assert_eq!(counted([0x07, 0x07, 0x07, 0x07, 0x07, 0x01, 0xfb, 0x55, 0x55, 0x55]), [0, 0]);
    for octet in [0x00, 0x05, 0x9c, 0x5c, 0xfb, 0xfd, 0xff] {
        assert_eq!(counted(late_start(octet)), [0, 0], "{octet:02x}");
    }
    for octet in [0x00, 0x06, 0x07, 0xfb, 0xfd, 0xfe] {
        assert_eq!(counted(start_after_set(octet)), [0, 0], "{octet:02x}");
    }
    for vector in [idle(), low_power(), end(), LOCAL_FAULT, data(&mut Random::new(1))] {
        assert_eq!(counted(vector), [0, 0], "{vector:02x?}");
    }
}

/// Request 9/13 "adds the low power idle character": what is of kind S in one of the two editions is counted.
#[test]
fn low_power_idles_before_a_start() {
    for lane in 1..5 {
        let mut vector = late_start(0x07);
        vector[lane] = 0x06;
        assert_eq!([Edition::Old, Edition::New].map(|edition| kind_of_vector(edition, &vector)), [Kind::E, Kind::S]);
        assert_eq!(counted(vector), [0, 1], "{vector:02x?}");
    }
    assert_eq!(counted(late_start(0x06)), [0, 1]);
    assert_eq!(counted([0x0f, 0x06, 0x07, 0xfe, 0xf7, 0x01, 0xfb, 0x55, 0x55, 0x55]), [0, 1]);
    // as data, and beside a character that neither edition has
    assert_eq!(counted([0x0e, 0x06, 0x06, 0x06, 0x06, 0x01, 0xfb, 0x55, 0x55, 0x55]), [0, 0]);
    assert_eq!(counted([0x0f, 0x06, 0x06, 0x06, 0x05, 0x01, 0xfb, 0x55, 0x55, 0x55]), [0, 0]);
    let index = built(&late_start(0x06).repeat(64));
    assert_eq!(index[8..], [0, 0, 0, 0, 64, 0, 0, 0]);
}

/// "How many from a up to but not b".
#[test]
fn from_a_up_to_but_not_b() {
    let vectors = nine();
    let counts = [
        (0, 132, [5, 4]),
        (0, 1, [1, 0]),
        (1, 2, [0, 1]),
        (0, 63, [1, 2]),
        (0, 64, [2, 2]),
        (0, 65, [3, 2]),
        (62, 66, [2, 2]),
        (63, 64, [1, 0]),
        (64, 65, [1, 0]),
        (64, 128, [2, 1]),
        (65, 128, [1, 1]),
        (66, 127, [0, 0]),
        (127, 129, [2, 0]),
        (128, 132, [1, 1]),
        (129, 132, [0, 1]),
        (131, 132, [0, 1]),
        (1, 131, [4, 3]),
    ];
    for (a, b, expected) in counts {
        assert_eq!(ask(Count(a, b), &vectors), (0, expected), "from {a} to {b}");
        assert_eq!(full_count(&vectors, a as usize, b as usize), expected, "from {a} to {b}");
    }
}

#[test]
fn from_a_to_a_there_are_none() {
    for vectors in [nine(), ERROR.repeat(132), start().repeat(128)] {
        for a in 0..=vectors.len() as u64 / 10 {
            assert_eq!(ask(Count(a, a), &vectors), (0, [0, 0]), "{a}");
        }
    }
    assert_eq!(ask(Count(0, 0), &[]), (0, [0, 0]));
}

/// "11, a after b or b past the end".
#[test]
fn ends_that_are_refused() {
    let vectors = ERROR.repeat(68);
    assert_eq!(ask(Count(0, 68), &vectors), (0, [68, 0]));
    assert_eq!(ask(Count(68, 68), &vectors), (0, [0, 0]));
    for (a, b) in [(1, 0), (68, 67), (0, 69), (69, 69), (69, 68), (64, 63), (u64::MAX, 0), (0, u64::MAX)] {
        assert_eq!(ask(Count(a, b), &vectors), WRONG, "from {a} to {b}");
    }
    for far in [1 << 32, (1 << 32) + 4, 1 << 58, 1 << 60, 1 << 63, u64::MAX - 3, u64::MAX] {
        for (a, b) in [(far, far), (0, far), (far, 68), (far, u64::MAX)] {
            assert_eq!(ask(Count(a, b), &vectors), WRONG, "from {a} to {b}");
        }
    }
    assert_eq!(ask(Count(0, 1), &[]), WRONG);
    assert_eq!(ask(Count(1, 1), &[]), WRONG);
}

// ---- the n-th error vector

/// "n counts from 1; 0 has none".
#[test]
fn sixty_eight_error_vectors() {
    let vectors = ERROR.repeat(68);
    assert_eq!(ask(Find(0), &vectors), NONE);
    for n in 1..=68 {
        assert_eq!(ask(Find(n), &vectors), (0, [n - 1, 2]), "{n}");
    }
    assert_eq!(ask(Find(64), &vectors), (0, [63, 2]));
    assert_eq!(ask(Find(65), &vectors), (0, [64, 2]));
    for n in [69, 70, 132, 1 << 32, (1 << 32) + 1, 1 << 63, u64::MAX] {
        assert_eq!(ask(Find(n), &vectors), NONE, "{n}");
    }
}

#[test]
fn lists_without_an_error_vector() {
    for vectors in [vec![], idle().repeat(4), start().repeat(64), late_start(0xfe).repeat(132)] {
        for n in [0, 1, 2, u64::MAX] {
            assert_eq!(ask(Find(n), &vectors), NONE, "{n}");
        }
    }
}

/// One entry: it is the one that remains, and is read.
#[test]
fn one_entry_is_read_where_there_is_but_one() {
    let vectors = idles_but(60, &[(7, ERROR), (8, ERROR), (59, ERROR)]);
    assert_eq!(ask(Find(1), &vectors), (0, [7, 1]));
    assert_eq!(ask(Find(2), &vectors), (0, [8, 1]));
    assert_eq!(ask(Find(3), &vectors), (0, [59, 1]));
    assert_eq!(ask(Find(4), &vectors), NONE);
}

/// Three entries, 0, 64 and 128. The middle one is the second; what is below it is one entry, and from it on there are two.
#[test]
fn three_entries() {
    let vectors = ERROR.repeat(128);
    for n in 1..=64 {
        assert_eq!(ask(Find(n), &vectors), (0, [n - 1, 2]), "{n}");
    }
    for n in 65..=128 {
        assert_eq!(ask(Find(n), &vectors), (0, [n - 1, 3]), "{n}");
    }
    // the last entry remains, and no vector stands after it
    assert_eq!(ask(Find(129), &vectors), NONE);
}

/// Five entries, 0, 1, 1, 1 and 2: of those with the same number the last is where it goes on.
#[test]
fn entries_with_the_same_number() {
    let vectors = idles_but(260, &[(10, ERROR), (200, ERROR)]);
    let index = of_bytes(&built(&vectors));
    assert_eq!(index, [[0, 0], [1, 0], [1, 0], [1, 0], [2, 0]]);
    assert_eq!(entries_read(&index, 1), [2, 1, 0]);
    assert_eq!(ask(Find(1), &vectors), (0, [10, 3]));
    assert_eq!(entries_read(&index, 2), [2, 3, 4, 3]);
    assert_eq!(ask(Find(2), &vectors), (0, [200, 4]));
}

/// "Reports how many entries it read": of so many entries, for the first error vector and for the last.
#[test]
fn entries_read_of_so_many() {
    let read = [(1, 1, 1), (2, 2, 2), (3, 2, 3), (4, 3, 3), (5, 3, 4), (6, 3, 4), (7, 3, 4), (8, 4, 4), (9, 4, 5)];
    for (entries, first, last) in read.into_iter().chain([(15, 4, 5), (16, 5, 5), (17, 5, 6)]) {
        let number = 64 * (entries - 1) + 4;
        let vectors = ERROR.repeat(number as usize);
        assert_eq!(ask(Find(1), &vectors), (0, [0, first]), "{entries} entries");
        assert_eq!(ask(Find(number), &vectors), (0, [number - 1, last]), "{entries} entries");
    }
}

/// "At most 12": 1,563 entries become 781, 390, 195, 97, 48, 24, 12, 6, 3 and 1 below the middle, and from it on 782, 391, 196, 98, 49, 25,
/// 13, 7, 4, 2 and 1.
#[test]
fn a_hundred_thousand_vectors() {
    let vectors = ERROR.repeat(100_000);
    assert_eq!(ask(Find(1), &vectors), (0, [0, 11]));
    assert_eq!(ask(Find(100_000), &vectors), (0, [99_999, 12]));
    assert_eq!(ask(Find(100_001), &vectors), NONE);
    assert_eq!(ask(Count(0, 100_000), &vectors), (0, [100_000, 0]));
    assert_eq!(ask(Count(1, 99_999), &vectors), (0, [99_998, 0]));
    let index = of_bytes(&built(&vectors));
    assert_eq!(entries_read(&index, 100_000), [781, 1172, 1367, 1465, 1514, 1538, 1550, 1556, 1559, 1561, 1562, 1562]);
    // one error vector, wherever it is
    for (place, read) in [(0, 11), (63, 11), (64, 12), (127, 12), (99_967, 12), (99_968, 12), (99_999, 12)] {
        let vectors = idles_but(100_000, &[(place, ERROR)]);
        assert_eq!(ask(Find(1), &vectors), (0, [place as u64, read]), "{place}");
        assert_eq!(ask(Find(2), &vectors), NONE, "{place}");
    }
}

/// Each of the 1,563 entries remains once, after 10 halvings or after 11: 485 / 1,024 and 1,078 / 2,048 make 1.
#[test]
fn no_search_reads_more_than_twelve_entries() {
    let vectors = ERROR.repeat(100_000);
    let index = built(&vectors);
    let mut read = [0; 13];
    for entry in 0..1_563 {
        let (n, mut summary) = (64 * entry + 1, [0; 16]);
        assert_eq!(library::find_error(&vectors, &index, n, &mut summary), 0);
        assert_eq!(library::word(&summary, 0), n - 1);
        read[library::word(&summary, 1) as usize] += 1;
    }
    assert_eq!(read, [0, 0, 0, 0, 0, 0, 0, 0, 0, 0, 0, 485, 1_078]);
}

// ---- foreign indexes

/// The largest number that an entry holds.
const TOP: u64 = 4_294_967_295;

/// "Holds the result to 0 through b - a".
#[test]
fn counts_by_a_foreign_index_are_held() {
    let vectors = idle().repeat(68);
    let rising = bytes(&[[0, 0], [TOP, TOP]]);
    let falling = bytes(&[[TOP, TOP], [0, 0]]);
    for (a, b, most) in [(0, 64, 64), (0, 68, 68), (63, 64, 1), (60, 66, 6), (0, 63, 0), (64, 68, 0), (5, 5, 0)] {
        assert_eq!(ask_by(&rising, Count(a, b), &vectors), (0, [most, most]), "from {a} to {b}");
        assert_eq!(ask_by(&falling, Count(a, b), &vectors), (0, [0, 0]), "from {a} to {b}");
    }
    // each of the two by itself
    let mixed = bytes(&[[0, TOP], [TOP, 0]]);
    assert_eq!(ask_by(&mixed, Count(60, 66), &vectors), (0, [6, 0]));
    let mixed = bytes(&[[TOP, 7], [0, 10]]);
    assert_eq!(ask_by(&mixed, Count(60, 66), &vectors), (0, [0, 3]));
}

#[test]
fn counts_by_a_foreign_index_that_are_within_their_range() {
    let vectors = ERROR.repeat(68);
    let index = bytes(&[[0, 7], [10, 0]]);
    // 10 and 2 vectors, less 60; and less none
    assert_eq!(ask_by(&index, Count(60, 66), &vectors), (0, [0, 0]));
    assert_eq!(ask_by(&index, Count(0, 66), &vectors), (0, [12, 0]));
    assert_eq!(ask_by(&index, Count(5, 66), &vectors), (0, [7, 0]));
    assert_eq!(ask_by(&index, Count(0, 64), &vectors), (0, [10, 0]));
    // the same entry for both ends
    assert_eq!(ask_by(&index, Count(3, 60), &vectors), (0, [57, 0]));
    assert_eq!(ask_by(&index, Count(64, 68), &vectors), (0, [4, 0]));
}

/// The number of an entry and the vectors after it are more than 32 bits hold.
#[test]
fn counts_by_an_index_of_the_largest_numbers() {
    let vectors = [ERROR.repeat(64), start().repeat(64)].concat();
    let index = [0xff; 24];
    assert_eq!(ask_by(&index, Count(0, 63), &vectors), (0, [63, 0]));
    assert_eq!(ask_by(&index, Count(1, 63), &vectors), (0, [62, 0]));
    assert_eq!(ask_by(&index, Count(64, 127), &vectors), (0, [0, 63]));
    assert_eq!(ask_by(&index, Count(3, 66), &vectors), (0, [0, 2]));
    assert_eq!(ask_by(&index, Count(0, 128), &vectors), (0, [0, 0]));
}

/// "A foreign index still gets an answer within its ranges or refusal 12."
#[test]
fn error_vectors_by_a_foreign_index() {
    let vectors = ERROR.repeat(68);
    let index = bytes(&[[5, 0], [9, 0]]);
    // the entry that remains says 5 already
    for n in 0..=5 {
        assert_eq!(ask_by(&index, Find(n), &vectors), NONE, "{n}");
    }
    for (n, vector) in [(6, 0), (7, 1), (9, 3), (10, 64), (13, 67)] {
        assert_eq!(ask_by(&index, Find(n), &vectors), (0, [vector, 2]), "{n}");
    }
    assert_eq!(ask_by(&index, Find(14), &vectors), NONE);
    // all of them after the last entry
    let zeros = [0; 16];
    assert_eq!(ask_by(&zeros, Find(1), &vectors), (0, [64, 2]));
    assert_eq!(ask_by(&zeros, Find(4), &vectors), (0, [67, 2]));
    assert_eq!(ask_by(&zeros, Find(5), &vectors), NONE);
    let tops = [0xff; 16];
    assert_eq!(ask_by(&tops, Find(1), &vectors), NONE);
    assert_eq!(ask_by(&tops, Find(TOP), &vectors), NONE);
    assert_eq!(ask_by(&tops, Find(TOP + 1), &vectors), (0, [64, 2]));
    assert_eq!(ask_by(&tops, Find(TOP + 4), &vectors), (0, [67, 2]));
    assert_eq!(ask_by(&tops, Find(TOP + 5), &vectors), NONE);
    assert_eq!(ask_by(&tops, Find(u64::MAX), &vectors), NONE);
}

/// "At most 64 vectors" after the entry that remains, though the next entry says that more stand before it.
#[test]
fn no_further_than_the_vectors_of_one_entry() {
    let vectors = ERROR.repeat(132);
    let index = bytes(&[[0, 0], [100, 0], [200, 0]]);
    assert_eq!(ask_by(&index, Find(64), &vectors), (0, [63, 2]));
    for n in 65..=100 {
        assert_eq!(ask_by(&index, Find(n), &vectors), NONE, "{n}");
    }
    assert_eq!(ask_by(&index, Find(101), &vectors), (0, [64, 3]));
    assert_eq!(ask_by(&index, Find(164), &vectors), (0, [127, 3]));
    assert_eq!(ask_by(&index, Find(165), &vectors), NONE);
    assert_eq!(ask_by(&index, Find(204), &vectors), (0, [131, 3]));
    assert_eq!(ask_by(&index, Find(205), &vectors), NONE);
}

/// The halving rule goes by the entries that it reads, whatever the others hold.
#[test]
fn an_index_that_does_not_rise() {
    let vectors = ERROR.repeat(260);
    let entries = [[0, 0], [9, 0], [2, 0], [9, 0], [0, 0]];
    let index = bytes(&entries);
    for (n, path) in [(1, &[2, 1, 0][..]), (2, &[2, 1, 0]), (3, &[2, 3, 2]), (9, &[2, 3, 2]), (10, &[2, 3, 4, 4])] {
        assert_eq!(entries_read(&entries, n), path, "{n}");
    }
    for (n, vector) in [(1, 0), (2, 1), (3, 128), (4, 129), (9, 134)] {
        assert_eq!(ask_by(&index, Find(n), &vectors), (0, [vector, 3]), "{n}");
    }
    assert_eq!(ask_by(&index, Find(10), &vectors), NONE);
}

/// An index that is off by one error vector, at one entry.
#[test]
fn one_number_off_by_one() {
    let vectors = ERROR.repeat(132);
    let index = bytes(&[[0, 0], [65, 0], [128, 0]]);
    assert_eq!(ask_by(&index, Count(0, 64), &vectors), (0, [64, 0]));
    assert_eq!(ask_by(&index, Count(1, 64), &vectors), (0, [63, 0]));
    assert_eq!(ask_by(&index, Count(64, 128), &vectors), (0, [63, 0]));
    assert_eq!(ask_by(&index, Find(64), &vectors), (0, [63, 2]));
    assert_eq!(ask_by(&index, Find(65), &vectors), NONE);
    assert_eq!(ask_by(&index, Find(66), &vectors), (0, [64, 3]));
}

// ---- refusals

/// "Checked after 1, 2 and 5", as in sending.
#[test]
fn refusals_1_2_and_5() {
    let all = |vectors: &[u8]| {
        let index_room = vectors.len() / 640 * 8 + 8;
        let index = vec![0; index_room];
        let asked = [Count(0, 0), Find(1)].map(|question| ask_by(&index, question, vectors));
        assert_eq!(asked, [(build(vectors, index_room), [0, 0]); 2]);
        asked[0].0
    };
    for length in [1_000_001, 1_000_040, 1_000_080] {
        assert_eq!(all(&vec![0; length]), 1, "{length}");
    }
    for length in [1, 5, 10, 39, 41, 60, 650, 999_999] {
        assert_eq!(all(&vec![0; length]), 2, "{length}");
    }
    for control_byte in [0x10, 0x1f, 0x20, 0x40, 0x80, 0xff] {
        for word in [0, 1, 7, 127, 128, 135] {
            let mut vectors = ERROR.repeat(68);
            vectors[5 * word] = control_byte;
            assert_eq!(all(&vectors), 5 + 256 * 5 * word as u64, "{control_byte:02x} in word {word}");
            // a later one is not the place
            vectors[675] = 0xff;
            assert_eq!(all(&vectors), 5 + 256 * 5 * word as u64, "{control_byte:02x} in word {word}");
        }
    }
}

/// The result with a summary of so many bytes, as both agree on it.
fn result(question: Question, vectors: &[u8], index: &[u8], summary_room: usize) -> u64 {
    Calls::new(Edition::Old, 1).ask(question, vectors, index, summary_room).unwrap().0
}

/// "The first that applies in these orders is given, and no later one": 1, 2, 5, then 11, then 12, and last the summary's 4.
#[test]
fn the_order_of_refusals() {
    let spoilt = |length: usize| vec![0x10; length];
    for (number, length) in [(1, 1_000_041), (1, 1_000_040), (2, 999_999), (2, 41), (5, 1_000_000), (5, 40)] {
        assert_eq!(build(&spoilt(length), 1), number);
        for question in [Count(2, 1), Count(0, u64::MAX), Find(0)] {
            assert_eq!(result(question, &spoilt(length), &[0], 0), number, "{question:?} of {length}");
        }
    }
    let (vectors, index) = (ERROR.repeat(68), built(&ERROR.repeat(68)));
    for summary_room in [0, 1, 15] {
        for question in [Count(2, 1), Count(0, 69), Count(0, 0), Find(0), Find(1), Find(69)] {
            assert_eq!(result(question, &vectors, &index[..15], summary_room), 11, "{question:?}");
        }
        assert_eq!(result(Count(2, 1), &vectors, &index, summary_room), 11);
        assert_eq!(result(Count(0, 69), &vectors, &index, summary_room), 11);
        assert_eq!(result(Find(0), &vectors, &index, summary_room), 12);
        assert_eq!(result(Find(69), &vectors, &index, summary_room), 12);
        assert_eq!(result(Find(68), &vectors, &index, summary_room), 4);
        assert_eq!(result(Count(0, 68), &vectors, &index, summary_room), 4);
    }
    assert_eq!(result(Find(68), &vectors, &index, 16), 0);
    assert_eq!(result(Count(0, 68), &vectors, &index, 16), 0);
}

/// Result and index of the library alone, every byte of the index a 7 before.
fn index_of(vectors: &[u8], index_room: usize) -> (u64, Vec<u8>) {
    let mut index = vec![7; index_room];
    let result = library::index(vectors, &mut index);
    (result, index)
}

/// The same of an answer's summary.
fn summary_of(question: Question, vectors: &[u8], index: &[u8], summary_room: usize) -> (u64, Vec<u8>) {
    let mut summary = vec![7; summary_room];
    let result = match question {
        Count(a, b) => library::count(vectors, index, a, b, &mut summary),
        Find(n) => library::find_error(vectors, index, n, &mut summary),
    };
    (result, summary)
}

/// An index is written whole, and of a refusal not at all. The summary is two numbers of eight bytes, the lowest first. It "takes the zeros
/// of a refusal; one too short for it is refusal 4 and stays unchanged", and a longer one keeps its rest.
#[test]
fn what_is_written() {
    let vectors = [ERROR.repeat(300), start().repeat(600)].concat();
    let (result, index) = index_of(&vectors, 120);
    assert_eq!((result, &index[..8], &index[112..]), (0, &[0; 8][..], &[0x2c, 1, 0, 0, 0x54, 2, 0, 0][..]));
    for (number, vectors, index_room) in [(11, &vectors[..], 119), (11, &vectors, 128), (2, &vectors[1..], 120)] {
        assert_eq!(index_of(vectors, index_room), (number, vec![7; index_room]));
    }
    assert_eq!(index_of(&[0x10; 40], 8), (5, vec![7; 8]));
    assert_eq!(index_of(&vec![0; 1_000_040], 12_504), (1, vec![7; 12_504]));
    let counts = [0x2c, 1, 0, 0, 0, 0, 0, 0, 0x58, 2, 0, 0, 0, 0, 0, 0];
    let found = [0x2b, 1, 0, 0, 0, 0, 0, 0, 5, 0, 0, 0, 0, 0, 0, 0];
    for (question, words) in [(Count(0, 900), counts), (Find(300), found)] {
        assert_eq!(summary_of(question, &vectors, &index, 16), (0, words.to_vec()));
        assert_eq!(summary_of(question, &vectors, &index, 25), (0, [&words[..], &[7; 9]].concat()));
        for summary_room in [0, 1, 8, 15] {
            assert_eq!(summary_of(question, &vectors, &index, summary_room), (4, vec![7; summary_room]));
        }
    }
    for (number, question) in [(11, Count(1, 0)), (11, Count(0, 901)), (12, Find(0)), (12, Find(301))] {
        assert_eq!(summary_of(question, &vectors, &index, 16), (number, vec![0; 16]));
        assert_eq!(summary_of(question, &vectors, &index, 17), (number, [&[0; 16][..], &[7]].concat()));
        assert_eq!(summary_of(question, &vectors, &index, 15), (number, vec![7; 15]));
    }
}

// ---- long lists, and what is received

/// All three calls on a stack of 64 kB.
#[test]
fn a_small_stack() {
    let all = || {
        let vectors = ERROR.repeat(100_000);
        let (result, index) = index_of(&vectors, 12_504);
        assert_eq!((result, &index[12_496..]), (0, &[0x80, 0x86, 1, 0, 0, 0, 0, 0][..]));
        let words = |number: u32, other: u8| [&number.to_le_bytes()[..], &[0; 4], &[other], &[0; 7]].concat();
        assert_eq!(summary_of(Count(0, 100_000), &vectors, &index, 16), (0, words(100_000, 0)));
        assert_eq!(summary_of(Find(100_000), &vectors, &index, 16), (0, words(99_999, 12)));
    };
    thread::Builder::new().stack_size(65_536).spawn(all).unwrap().join().unwrap();
}

/// The counts over all vectors that are handed out of a list, and what receiving says of it: replaced and begun.
fn received(sender: Edition, receiver: Edition, vectors: &[u8]) -> (Counts, Counts) {
    let (answers, words) = agreed(receiver, &sent(sender, vectors, 1).0);
    (in_all(&answers), [words[11], words[10]])
}

/// Begun, "a block of kind S answered as decoded", and replaced, "answered as the error vector", are the counts over all that is handed out.
#[test]
fn begun_and_replaced() {
    let frames = [start(), end(), late_start(0x07), end(), start_after_set(0x9c), end(), idle(), idle()].concat();
    let vectors = [idle().repeat(64), frames].concat();
    for (sender, receiver) in [(Edition::Old, Edition::Old), (Edition::New, Edition::New), (Edition::Old, Edition::New)]
    {
        assert_eq!(received(sender, receiver, &vectors), ([0, 3], [0, 3]));
    }
    // low power idles before the second Start: in the old edition a bad block, with the Terminate before it
    let frames = [start(), end(), late_start(0x06), end()].concat();
    let vectors = [idle().repeat(64), frames].concat();
    assert_eq!(received(Edition::New, Edition::New, &vectors), ([0, 2], [0, 2]));
    assert_eq!(received(Edition::New, Edition::Old, &vectors), ([2, 1], [2, 1]));
    assert_eq!(received(Edition::Old, Edition::Old, &vectors), ([2, 1], [2, 1]));
    // a Start in the middle of a frame, and one that meets a receiver without lock
    let vectors = [start().repeat(4), idle().repeat(64), start().repeat(4)].concat();
    assert_eq!(received(Edition::Old, Edition::Old, &vectors), ([3, 1], [3, 1]));
}
