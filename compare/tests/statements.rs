//! The demands, and what is said of the old edition and of old readers, claim no more than is so: for each must-fail edit of one of their
//! statements a run of the library, of old readers one of the second program, for which the edited statement is untrue. The tests have the
//! edits' names.
use std::fs::{read_dir, read_to_string};

use compare::library::{receive, received, send, sent, word, words, COUNTERS_BYTES, RECEIVE_SUMMARY_BYTES};
use compare::lines::flip;
use compare::lists::{end, idle, low_power, start};
use compare::records::{old_read, record};
use compare::reference::edition::Edition;
use compare::reference::vector::{characters, vector, Character, Vector, ERROR, LOCAL_FAULT};

/// Eight data octets.
fn data() -> Vector {
    vector(&std::array::from_fn(|i| Character::Data(i as u8)))
}

/// This many idle vectors, these, and idles up to a multiple of four.
fn list(idles: usize, vectors: &[Vector]) -> Vec<Vector> {
    let mut list = vec![idle(); idles];
    list.extend(vectors);
    list.resize(list.len().next_multiple_of(4), idle());
    list
}

/// What comes back of the line sent for a list from state 0, these of its bits flipped.
fn returned_in(edition: Edition, list: &[Vector], flips: &[usize]) -> Vec<Vector> {
    let (mut line, _) = sent(edition, &list.concat(), 0);
    flip(&mut line, flips);
    received(edition, &line).0.chunks(10).map(|vector| vector.try_into().unwrap()).collect()
}

/// The same in the old edition.
fn returned(list: &[Vector], flips: &[usize]) -> Vec<Vector> {
    returned_in(Edition::Old, list, flips)
}

/// How many vectors of a list sending replaces.
fn replaced(edition: Edition, list: &[Vector]) -> u64 {
    word(&sent(edition, &list.concat(), 0).1, 2)
}

/// The control flags and control characters (among them the codes of ordered sets) of a vector.
fn control(vector: &Vector) -> [Option<u8>; 8] {
    characters(vector).map(|character| match character {
        Character::Control(octet) => Some(octet),
        Character::Data(_) => None,
    })
}

/// The files that state the demands, and what is said of the old edition and of old readers.
const STATEMENTS: [&str; 9] =
    ["Outcome", "Demand1", "Words", "Demand2", "Damage", "Demand3", "Unchanged", "OldReader", "Readable"];

/// None of those edits is without its test.
#[test]
fn every_edit_has_its_test() {
    let here = include_str!("statements.rs");
    let mut edits = 0;
    for package in read_dir(format!("{}/../crates", env!("CARGO_MANIFEST_DIR"))).unwrap() {
        let Ok(folder) = read_dir(package.unwrap().path().join("must-fail")) else { continue };
        for edit in folder {
            let path = edit.unwrap().path();
            let text = read_to_string(&path).unwrap();
            if STATEMENTS.iter().any(|file| text.contains(&format!("file: specs/{file}.antt"))) {
                let name = path.file_stem().unwrap().to_str().unwrap();
                assert!(here.contains(&format!("fn {name}()")), "{} has no test", path.display());
                edits += 1;
            }
        }
    }
    assert!(edits > 0);
}

// ---- demands 1 and 2

#[test]
fn error_is_legal() {
    let sent = list(64, &[data()]);
    assert_eq!(returned(&sent, &[])[64], ERROR);
}

#[test]
fn frame_begun_before_lock() {
    let sent = list(62, &[start(), data(), end()]);
    assert_eq!(returned(&sent, &[])[62..65], [LOCAL_FAULT, ERROR, end()]);
}

/// The list is legal in the newer edition, and its vector 63 meets a receiver that has just locked.
#[test]
fn sixty_three_control_vectors() {
    let sent = list(63, &[low_power()]);
    assert_eq!(replaced(Edition::New, &sent), 0);
    assert_eq!(returned_in(Edition::New, &sent, &[])[63], ERROR);
}

#[test]
fn one_slip() {
    let (line, _) = sent(Edition::Old, &idle().repeat(64), 0);
    assert_eq!(words(&received(Edition::Old, &line).1)[1], 0);
}

#[test]
fn refusal_without_place() {
    let mut vectors = idle().repeat(4);
    vectors[15] = 16;
    assert_eq!(send(0, &vectors, 0, &mut [0; 33], &mut [0; 24]), 5 + 256 * 15);
}

#[test]
fn room_cut() {
    let mut room = [7; 11];
    assert_eq!(receive(0, &[0; 9], &mut room, &mut [0; RECEIVE_SUMMARY_BYTES], &mut [0; COUNTERS_BYTES]), 0);
    assert_eq!(room[..10], LOCAL_FAULT);
    assert_eq!(room[10], 7);
}

#[test]
fn sixty_two_faults() {
    assert_eq!(returned(&list(64, &[]), &[])[62..], [LOCAL_FAULT, idle()]);
}

#[test]
fn sixty_vectors() {
    assert_eq!(returned(&list(60, &[]), &[]), [LOCAL_FAULT; 60]);
}

#[test]
fn summary_of_ones() {
    let mut summary = [1; 24];
    assert_eq!(send(0, &[0; 39], 0, &mut [], &mut summary), 2);
    assert_eq!(summary, [0; 24]);
}

// ---- demand 3

/// One header bit of block 63: the receiver does not lock, and an idle comes back as a Local Fault.
#[test]
fn flip_in_block_63() {
    assert_eq!(returned(&list(68, &[]), &[63 * 66])[63..67], [LOCAL_FAULT; 4]);
}

/// Four bits turn type 1e into 2d. The first of them shows again in the code of character 4, which is that of f7: it then reads as an ordered
/// set with its data octets.
#[test]
fn four_flips() {
    let sent = vector(&std::array::from_fn(|i| Character::Control(if i == 4 { 0xf7 } else { 0x07 })));
    let flips = [0, 1, 4, 5].map(|bit| 64 * 66 + 2 + bit);
    let answer = returned(&list(64, &[sent]), &flips)[64];
    assert_eq!(control(&answer), [Some(0x07), Some(0x07), Some(0x07), Some(0x07), Some(0x9c), None, None, None]);
}

/// "Code 06 differs from idle in two bits": bits 15 and 16 of block 65's payload show again 58 places after them, in the first code of
/// block 66.
#[test]
fn two_flips_new() {
    let sent = list(68, &[]);
    let answer = returned_in(Edition::New, &sent, &[4307, 4308])[66];
    assert_eq!(control(&answer), std::array::from_fn(|i| Some(if i == 0 { 0x06 } else { 0x07 })));
    assert_ne!(control(&answer), control(&sent[66]));
    assert_ne!(answer, ERROR);
    // an error in the old edition, and with one flip in the newer one too
    assert_eq!(returned_in(Edition::Old, &sent, &[4307, 4308])[66], ERROR);
    assert_eq!(returned_in(Edition::New, &sent, &[4307])[66], ERROR);
}

/// A flipped payload bit shows 39 places after it and not 38.
#[test]
fn seen_38_before() {
    let sent = list(64, &[start(), data(), data(), end()]);
    let answer = returned(&sent, &[65 * 66 + 2])[65];
    let changed = |bit: usize| (characters(&answer)[bit / 8], characters(&data())[bit / 8]);
    let differs = |bit: usize| match changed(bit) {
        (Character::Data(a), Character::Data(b)) => (a ^ b) >> (bit % 8) & 1 == 1,
        _ => panic!("no data"),
    };
    assert_eq!((0..64).filter(|bit| differs(*bit)).collect::<Vec<_>>(), [0, 39, 58]);
}

/// Both header bits of the block that ends a frame: it comes back as data.
#[test]
fn whole_header() {
    let sent = list(64, &[start(), end()]);
    let answer = returned(&sent, &[65 * 66, 65 * 66 + 1])[65];
    assert_eq!(control(&answer), [None; 8]);
    assert_ne!(control(&answer), control(&end()));
}

// ---- the old edition

/// "In the old one nothing changes", and in the newer one a vector of 06 is sent as its own block.
#[test]
fn sent_in_the_newer() {
    let list = list(65, &[low_power()]);
    assert_eq!([Edition::Old, Edition::New].map(|edition| replaced(edition, &list)), [1, 0]);
}

/// It is received as its own block too, where the old edition answers the error vector.
#[test]
fn received_in_the_newer() {
    let (line, _) = sent(Edition::New, &list(65, &[low_power()]).concat(), 0);
    let answer = |edition| received(edition, &line).0[650..660].to_vec();
    assert_eq!([answer(Edition::Old), answer(Edition::New)], [ERROR.to_vec(), low_power().to_vec()]);
}

// ---- 7/13

#[test]
fn old_reader_ends() {
    assert_eq!(old_read(&record(2, &[0; 4_093]), 0).0, 7);
}
