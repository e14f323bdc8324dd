//! Document 01's marked examples, of the second program: it is compared with the library, so it is held to the document here, in both
//! editions.
use compare::calls::in_both;
use compare::lines::block;
use compare::reference::block::{encode, kind, kind_of_vector, Kind, CONTROL};
use compare::reference::edition::Edition;
use compare::reference::scrambler::Scrambler;
use compare::reference::sending::bytes;
use compare::reference::vector::{vector, Character, Vector, LOCAL_FAULT};
use Character::{Control, Data};

/// The payload bytes of the control block that carries a vector.
fn payload(vector: &Vector) -> Vec<u8> {
    let block = in_both(|edition| encode(edition, vector).unwrap());
    assert_eq!(block.header, CONTROL);
    bytes(&block.payload)
}

/// The kind of a control block, of its payload as a number.
fn control(payload: u64) -> Kind {
    in_both(|edition| kind(edition, &block(CONTROL, payload)))
}

#[test]
fn a_eight_idles() {
    assert_eq!(payload(&vector(&[Control(0x07); 8])), [0x1e, 0, 0, 0, 0, 0, 0, 0]);
}

#[test]
fn b_local_fault() {
    assert_eq!(payload(&LOCAL_FAULT), [0x55, 0, 0, 1, 0, 0, 0, 1]);
}

#[test]
fn c_start() {
    let mut characters = [Data(0x55); 8];
    characters[0] = Control(0xfb);
    characters[7] = Data(0xd5);
    assert_eq!(payload(&vector(&characters)), [0x78, 0x55, 0x55, 0x55, 0x55, 0x55, 0x55, 0xd5]);
}

#[test]
fn d_terminate_and_seven_idles() {
    let mut characters = [Control(0x07); 8];
    characters[0] = Control(0xfd);
    assert_eq!(payload(&vector(&characters)), [0x87, 0, 0, 0, 0, 0, 0, 0]);
}

#[test]
fn e_seven_data_and_terminate() {
    let characters = [1, 2, 3, 4, 5, 6, 7, 0xfd];
    let characters = std::array::from_fn(|i| if i < 7 { Data(characters[i]) } else { Control(characters[i]) });
    assert_eq!(payload(&vector(&characters)), [0xff, 1, 2, 3, 4, 5, 6, 7]);
}

#[test]
fn f_type_00() {
    assert_eq!(control(0x00), Kind::E);
}

#[test]
fn g_o_code_1() {
    assert_eq!(control(0x4b | 0x1 << 32), Kind::E);
}

#[test]
fn h_o_code_f() {
    assert_eq!(control(0x4b | 0xf << 32), Kind::C);
}

#[test]
fn i_idle_type_with_an_error_code() {
    for i in 0..8 {
        assert_eq!(control(0x1e | 0x1e << (8 + 7 * i)), Kind::E);
    }
}

#[test]
fn j_ordered_set_with_an_error_code() {
    for i in 0..4 {
        assert_eq!(control(0x4b | 0x1e << (36 + 7 * i)), Kind::C);
    }
}

#[test]
fn k_header_11() {
    assert_eq!(in_both(|edition| kind(edition, &block([true, true], 0x1e))), Kind::E);
}

#[test]
fn l_payload_1_scrambled() {
    let mut scrambler = Scrambler { state: 0 };
    let sent = scrambler.scramble(&block(CONTROL, 1).payload);
    let ones: Vec<usize> = (0..64).filter(|i| sent[*i]).collect();
    assert_eq!(ones, [0, 39, 58]);
}

/// "Every other control octet or code, 06 included, is an error."
#[test]
fn octet_06_is_an_error_in_the_old_edition() {
    let mut characters = [Control(0x07); 8];
    characters[3] = Control(0x06);
    assert_eq!(kind_of_vector(Edition::Old, &vector(&characters)), Kind::E);
    assert_eq!(kind(Edition::Old, &block(CONTROL, 0x1e | 0x06 << 8)), Kind::E);
}
