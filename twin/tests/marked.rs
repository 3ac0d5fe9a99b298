//! The twelve marked examples of document 01.

mod common;
use common::*;

const BTID: &str = "AAECAwQFBgcICQoLDA0ODw==@bsf.example";
const NAF_ID: &[u8] = b"n.e\x01\x00\x00\x00\x02";

fn shelf() -> Vec<twin::Row> {
    vec![row("p", "n.e", false, 0, 0)]
}

#[test]
fn example_1_number_3600_is_90_1c() {
    let mut state = twin::State::open(b"bsf.example", 3600, 3600).unwrap_or_else(|_| panic!());
    let mut out = [0; 160];
    assert_eq!(state.event(&[], &start(100, "a@b"), &mut out), (0, 5));
    assert_eq!(out[..5], octets("01 90 1c 01 00"));
    assert_eq!(state.event(&[], &octets("04 64 90 1c 01"), &mut out), (0, 1));
}

#[test]
fn example_2_a_longer_form_is_form() {
    let mut desk = Desk::new();
    assert_eq!(desk.ask(&octets("01 80 00 03 61 40 62")), "3 -");
    assert_eq!(desk.ask(&octets("01 00 03 61 40 62")), "0 01070100");
}

#[test]
fn example_3_a_btid() {
    let answer = Desk::new().sign_in(100, 1, &vector("a@b", 0, NONE));
    let expected = [vec![3, 36], BTID.into(), number(100), number(3700)].concat();
    assert_eq!(answer, format!("0 {}", hex(&expected)));
}

#[test]
fn example_4_a_kdf_string() {
    let parameters = [&b"gba-me"[..], &up(0), b"a@b", NAF_ID].concat();
    let mut out = [0; 42];
    assert_eq!(twin::kdf_string(1, &parameters, &[6, 16, 3, 8], &mut out), (0, 42));
    let expected = "01 6762612d6d65 0006 000102030405060708090a0b0c0d0e0f 0010 614062 0003 6e2e650100000002 0008";
    assert_eq!(out[..], octets(expected));
}

#[test]
fn examples_5_and_6_a_run_lapses_after_30_seconds() {
    for (time, line) in [(129, "0 04"), (130, "7 -")] {
        let mut desk = Desk::new();
        desk.ask(&start(100, "a@b"));
        assert_eq!(desk.ask(&abort(time, 7, 1)), line);
    }
}

#[test]
fn examples_7_and_8_a_session_expires() {
    let mut desk = Desk::with(&shelf());
    desk.sign_in(100, 1, &vector("a@b", 0, &given(60, 0, &[])));
    let found = desk.ask(&key(159, "p", BTID, NAF_ID, 0));
    assert_eq!(found, "0 05f5678a136496c7f7b6321c9cb16710e19c23f0a3a74c728cbd592fc3cc42f13e64a0010000");
    assert_eq!(desk.ask(&key(160, "p", BTID, NAF_ID, 0)), "15 -");
}

#[test]
fn example_9_a_second_vector_is_refused() {
    let mut desk = Desk::new();
    desk.ask(&start(100, "a@b"));
    let challenge = [vec![2], up(0).to_vec(), up(0xa0).to_vec()].concat();
    assert_eq!(desk.ask(&reply(100, 7, 1, &vector("a@b", 0, NONE))), format!("0 {}", hex(&challenge)));
    assert_eq!(desk.ask(&reply(100, 7, 1, &vector("a@b", 1, NONE))), "8 -");
}

#[test]
fn example_10_a_shorter_prefix_is_a_wrong_response() {
    let mut desk = Desk::new();
    desk.ask(&start(100, "a@b"));
    desk.ask(&reply(100, 7, 1, &vector("a@b", 0, NONE)));
    assert_eq!(desk.ask(&response(100, 7, 1, &[1, 2, 3, 4])), "0 06");
    assert_eq!(desk.ask(&response(100, 7, 1, &[1, 2, 3, 4, 5, 6, 7, 8])), "7 -");
}

#[test]
fn example_11_an_abort_after_the_session_is_stale() {
    let mut desk = Desk::with(&shelf());
    assert!(desk.sign_in(100, 1, &vector("a@b", 0, NONE)).starts_with("0 03"));
    assert_eq!(desk.ask(&abort(101, 7, 1)), "7 -");
    assert!(desk.ask(&key(101, "p", BTID, NAF_ID, 0)).starts_with("0 05"));
}

#[test]
fn example_12_a_lifetime_of_59_is_form() {
    let mut desk = Desk::new();
    desk.ask(&start(100, "a@b"));
    assert_eq!(desk.ask(&reply(100, 7, 1, &vector("a@b", 0, &given(59, 0, &[])))), "3 -");
    assert!(desk.ask(&reply(100, 7, 1, &vector("a@b", 0, &given(60, 0, &[])))).starts_with("0 02"));
}
