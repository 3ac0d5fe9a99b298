//! Each refusal, the order of the checks, and what each event does to the next.

mod common;
use common::*;
use twin::State;

const BTID: &str = "AAECAwQFBgcICQoLDA0ODw==@bsf.example";
const NAF_ID: &[u8] = b"n.e\x01\x00\x00\x00\x02";
const XRES: &[u8] = &[1, 2, 3, 4, 5, 6, 7, 8];
const LAST_TIME: u64 = 999_999_999_999;

fn shelf() -> Vec<twin::Row> {
    vec![row("p", "n.e", true, 0, 0)]
}

/// The B-TID text of a RAND that counts up from `rand`.
fn btid(rand: u8) -> String {
    let mut desk = Desk::new();
    let answer = desk.sign_in(0, 1, &vector("a@b", rand, NONE));
    String::from_utf8(octets(&answer[2..])[2..38].to_vec()).unwrap()
}

#[test]
fn an_opening_out_of_range_is_not_open() {
    for (domain, lifetime) in [(0, 3600), (65, 3600), (1, 59), (1, 604_801), (1, 0)] {
        assert!(State::open(&vec![b'd'; domain], 7, lifetime).is_err_and(|number| number == 1));
    }
    for (domain, restart, lifetime) in [(1, 0, 60), (64, u32::MAX, 604_800)] {
        assert!(State::open(&vec![b'd'; domain], restart, lifetime).is_ok());
    }
}

#[test]
fn the_closed_state_refuses_before_the_buffer_is_measured() {
    let mut closed = State::closed();
    let mut out = [0; 160];
    assert_eq!(closed.event(&[], &start(1, "a@b"), &mut out), (1, 0));
    assert_eq!(closed.event(&[], &[], &mut []), (1, 0));
}

#[test]
fn a_short_buffer_refuses_before_the_body_is_read() {
    let mut state = Desk::new().state;
    let mut out = [0; 160];
    assert_eq!(state.event(&[], &[], &mut out[..159]), (2, 0));
    assert_eq!(state.event(&[], &[], &mut out), (3, 0));
    assert_eq!(state.event(&[], &start(1, "a@b"), &mut out[..159]), (2, 0));
    assert_eq!(state.event(&[], &start(1, "a@b"), &mut out), (0, 4));
}

/// Every body of one kind, cut short anywhere or with an octet more, is not as laid out.
#[test]
fn cut_and_longer_bodies_are_form() {
    let entries = [(1, 0, [0; 4], "u"), (1, 1, [0; 4], "v")];
    let bodies = [
        start(100, "a@b"),
        reply(100, 7, 1, &vector("a@b", 0, NONE)),
        reply(100, 7, 1, &vector("a@b", 0, AS_BEFORE)),
        reply(100, 7, 1, &vector("a@b", 0, &given(60, 5, &entries))),
        response(100, 7, 1, XRES),
        abort(100, 7, 1),
        key(100, "p", BTID, NAF_ID, 0),
    ];
    let mut desk = Desk::new();
    for body in bodies {
        for length in 0..body.len() {
            assert_eq!(desk.ask(&body[..length]), "3 -");
        }
        assert_eq!(desk.ask(&[&body[..], &[0]].concat()), "3 -");
        assert_ne!(desk.clone().ask(&body), "3 -");
    }
}

#[test]
fn ranges_of_fields() {
    let name = |length: usize| "n".repeat(length);
    let with_impi = |length: usize| Vector { impi: name(length).into(), ..vector("", 0, NONE) };
    let with_xres = |length: usize| Vector { xres: vec![1; length], ..vector("a@b", 0, NONE) };
    let with = |settings: &[u8]| reply(1, 7, 1, &vector("a@b", 0, settings));
    let user = |length: usize| with(&given(0, 0, &[(1, 0, [0; 4], &name(length))]));
    let naf_id = |length: usize| vec![b'f'; length];
    let many = |count: u64| -> Vec<u8> {
        let entries: Vec<Entry> = (1..=count).map(|application| (application, 0, [0; 4], "u")).collect();
        with(&given(0, 0, &entries))
    };
    let two = |one: (u64, u64), other: (u64, u64)| {
        with(&given(0, 0, &[(one.0, one.1, [1; 4], "u"), (9, 9, [0; 4], "w"), (other.0, other.1, [2; 4], "v")]))
    };
    let top = u64::from(u32::MAX);
    let formed = [
        start(0, "n"),
        start(LAST_TIME, &name(64)),
        reply(1, top, top, &with_impi(1)),
        reply(1, 0, 0, &with_impi(64)),
        reply(1, 7, 1, &with_xres(4)),
        reply(1, 7, 1, &with_xres(16)),
        with(&given(0, 0, &[])),
        with(&given(60, LAST_TIME, &[])),
        with(&given(604_800, 1, &[(top, 255, [0xff; 4], "u")])),
        user(1),
        user(32),
        many(4),
        two((1, 0), (1, 1)),
        two((1, 0), (2, 0)),
        response(1, 7, 1, &[0; 4]),
        response(1, 7, 1, &[0; 16]),
        abort(1, top, top),
        abort(1, 0, 0),
        key(1, "p", "t", &naf_id(6), top),
        key(1, &name(64), &name(89), &naf_id(69), 0),
    ];
    let not_formed = [
        start(LAST_TIME + 1, "n"),
        start(1, ""),
        start(1, &name(65)),
        reply(1, top + 1, 1, &with_impi(1)),
        reply(1, 7, top + 1, &with_impi(1)),
        reply(1, 7, 1, &with_impi(0)),
        reply(1, 7, 1, &with_impi(65)),
        reply(1, 7, 1, &with_xres(3)),
        reply(1, 7, 1, &with_xres(17)),
        with(&[3]),
        with(&[255]),
        with(&given(1, 0, &[])),
        with(&given(59, 0, &[])),
        with(&given(604_801, 0, &[])),
        with(&given(0, LAST_TIME + 1, &[])),
        with(&given(0, 0, &[(0, 0, [0; 4], "u")])),
        with(&given(0, 0, &[(top + 1, 0, [0; 4], "u")])),
        with(&given(0, 0, &[(1, 256, [0; 4], "u")])),
        user(0),
        user(33),
        many(5),
        two((1, 0), (1, 0)),
        response(1, 7, 1, &[0; 3]),
        response(1, 7, 1, &[0; 17]),
        abort(LAST_TIME + 1, 7, 1),
        abort(1, top + 1, 1),
        abort(1, 7, top + 1),
        key(LAST_TIME + 1, "p", "t", &naf_id(6), 0),
        key(1, "", "t", &naf_id(6), 0),
        key(1, &name(65), "t", &naf_id(6), 0),
        key(1, "p", "", &naf_id(6), 0),
        key(1, "p", &name(90), &naf_id(6), 0),
        key(1, "p", "t", &naf_id(5), 0),
        key(1, "p", "t", &naf_id(70), 0),
        key(1, "p", "t", &naf_id(6), top + 1),
        octets("00 01 03 61 40 62"),
        octets("06 01 03 61 40 62"),
        octets("81 01 03 61 40 62"),
        octets("01 81 80 00 03 61 40 62"),
        octets("01 ff ff ff ff ff ff ff ff ff ff ff 01 03 61 40 62"),
        octets("01 01 83 00 61 40 62"),
    ];
    for body in formed {
        assert_ne!(Desk::new().ask(&body), "3 -", "{}", hex(&body));
    }
    for body in not_formed {
        assert_eq!(Desk::new().ask(&body), "3 -", "{}", hex(&body));
    }
}

#[test]
fn names_are_octets_as_they_are() {
    let mut desk = Desk::new();
    let impi = [0, 0xff, b'@', 0x80];
    assert_eq!(desk.ask(&[&[1, 1, 4][..], &impi].concat()), "0 01070100");
    let vector = Vector { impi: impi.to_vec(), ..vector("", 0, NONE) };
    assert!(desk.ask(&reply(1, 7, 1, &vector)).starts_with("0 02"));
    let longer = Vector { impi: [&impi[..], &[0]].concat(), ..vector.clone() };
    desk.ask(&[&[1, 1, 4][..], &impi].concat());
    assert_eq!(desk.ask(&reply(1, 7, 2, &longer)), "9 -");
}

#[test]
fn the_clock_holds_all_kinds_and_refusals_and_keys_do_not_record() {
    let mut desk = Desk::with(&shelf());
    desk.sign_in(100, 1, &vector("a@b", 0, NONE));
    assert!(desk.ask(&key(500, "p", BTID, NAF_ID, 0)).starts_with("0 05"));
    assert_eq!(desk.ask(&key(600, "q", BTID, NAF_ID, 0)), "14 -");
    assert_eq!(desk.ask(&abort(600, 7, 1)), "7 -");
    assert_eq!(desk.ask(&start(100, "a@b")), "0 01070200");
    for body in [
        start(99, "a@b"),
        reply(99, 8, 9, &vector("x", 0, AS_BEFORE)),
        response(99, 8, 9, XRES),
        abort(99, 8, 9),
        key(99, "q", "t", NAF_ID, 0),
    ] {
        assert_eq!(desk.ask(&body), "4 -");
    }
    assert!(desk.ask(&key(100, "p", BTID, NAF_ID, 0)).starts_with("0 05"));
    assert!(desk.ask(&reply(110, 7, 2, &vector("a@b", 1, NONE))).starts_with("0 02"));
    assert_eq!(desk.ask(&start(109, "a@b")), "4 -");
    assert_eq!(desk.ask(&response(112, 7, 2, &[0; 4])), "0 06");
    assert_eq!(desk.ask(&start(111, "a@b")), "4 -");
    assert_eq!(desk.ask(&start(113, "a@b")), "0 01070300");
    assert_eq!(desk.ask(&abort(115, 7, 3)), "0 04");
    assert_eq!(desk.ask(&start(114, "a@b")), "4 -");
}

#[test]
fn the_33rd_run_waits_for_a_place() {
    let mut full = Desk::new();
    for run in 1..=32 {
        let time = if run < 32 { 100 } else { 101 };
        assert_eq!(full.ask(&start(time, "a@b")), format!("0 0107{run:02x}00"));
    }
    assert_eq!(full.ask(&start(129, "a@b")), "6 -");
    // 31 of them lapse.
    let mut later = full.clone();
    assert_eq!(later.ask(&start(130, "c@d")), "0 01072100");
    assert_eq!(later.ask(&abort(130, 7, 32)), "0 04");
    assert_eq!(later.ask(&abort(130, 7, 31)), "7 -");
    assert_eq!(later.ask(&abort(130, 7, 33)), "0 04");
    // Or one is aborted.
    assert_eq!(full.ask(&abort(129, 7, 5)), "0 04");
    assert_eq!(full.ask(&start(129, "c@d")), "0 01072100");
    assert_eq!(full.ask(&start(129, "c@d")), "6 -");
    assert_eq!(full.ask(&abort(129, 7, 5)), "7 -");
}

#[test]
fn stale_is_another_restart_or_no_open_run() {
    let mut desk = Desk::new();
    desk.ask(&start(100, "a@b"));
    for (restart, run) in [(6, 1), (8, 1), (0, 1), (7, 0), (7, 2)] {
        assert_eq!(desk.ask(&reply(100, restart, run, &vector("x", 0, AS_BEFORE))), "7 -");
        assert_eq!(desk.ask(&response(100, restart, run, XRES)), "7 -");
        assert_eq!(desk.ask(&abort(100, restart, run)), "7 -");
    }
    assert_eq!(desk.ask(&reply(130, 7, 1, &vector("a@b", 0, NONE))), "7 -");
    assert!(desk.ask(&reply(129, 7, 1, &vector("a@b", 0, NONE))).starts_with("0 02"));
    assert_eq!(desk.ask(&response(130, 7, 1, XRES)), "7 -");
    assert!(desk.ask(&response(129, 7, 1, XRES)).starts_with("0 03"));
    assert_eq!(desk.ask(&response(129, 7, 1, XRES)), "7 -");
    assert_eq!(desk.ask(&reply(129, 7, 1, &vector("a@b", 5, NONE))), "7 -");
}

#[test]
fn the_checks_of_a_vector_come_in_order() {
    let mut desk = Desk::new();
    desk.sign_in(100, 1, &vector("a@b", 0, NONE));
    desk.ask(&start(100, "a@b"));
    // Each fails all the checks after it too.
    assert_eq!(desk.ask(&reply(100, 7, 2, &vector("c@d", 0, AS_BEFORE))), "9 -");
    assert_eq!(desk.ask(&reply(100, 7, 2, &vector("a@b", 0, AS_BEFORE))), "10 -");
    assert_eq!(desk.ask(&reply(100, 7, 2, &vector("a@b", 0, NONE))), "11 -");
    assert_eq!(desk.ask(&response(100, 7, 2, XRES)), "12 -");
    assert!(desk.ask(&reply(100, 7, 2, &vector("a@b", 1, NONE))).starts_with("0 02"));
    assert_eq!(desk.ask(&reply(100, 7, 2, &vector("c@d", 0, AS_BEFORE))), "8 -");
    assert_eq!(desk.ask(&response(100, 7, 2, &[0; 4])), "0 06");
    assert_eq!(desk.ask(&reply(100, 7, 2, &vector("c@d", 0, AS_BEFORE))), "7 -");
}

#[test]
fn a_rand_is_seen_in_live_sessions_and_open_challenged_runs() {
    let mut desk = Desk::new();
    desk.sign_in(100, 1, &vector("a@b", 0, &given(60, 0, &[])));
    desk.ask(&start(100, "c@d"));
    desk.ask(&start(100, "e@f"));
    assert_eq!(desk.ask(&reply(100, 7, 2, &vector("c@d", 0, NONE))), "11 -");
    assert!(desk.ask(&reply(100, 7, 2, &vector("c@d", 1, NONE))).starts_with("0 02"));
    assert_eq!(desk.ask(&reply(100, 7, 3, &vector("e@f", 1, NONE))), "11 -");
    // An ended run's RAND may come again.
    assert_eq!(desk.ask(&abort(100, 7, 2)), "0 04");
    assert!(desk.ask(&reply(100, 7, 3, &vector("e@f", 1, NONE))).starts_with("0 02"));
    // So may a lapsed run's.
    desk.ask(&start(130, "c@d"));
    assert!(desk.ask(&reply(130, 7, 4, &vector("c@d", 1, NONE))).starts_with("0 02"));
    // And an expired session's.
    desk.ask(&start(159, "g@h"));
    assert_eq!(desk.ask(&reply(159, 7, 5, &vector("g@h", 0, NONE))), "11 -");
    assert!(desk.ask(&reply(160, 7, 5, &vector("g@h", 0, NONE))).starts_with("0 02"));
}

#[test]
fn expiry_is_start_plus_the_settings_lifetime_or_the_default() {
    for (settings, lifetime) in [
        (NONE.to_vec(), 3600),
        (given(0, 0, &[]), 3600),
        (given(0, 5, &[]), 3600),
        (given(60, 0, &[]), 60),
        (given(604_800, 5, &[]), 604_800),
    ] {
        let answer = Desk::new().sign_in(100, 1, &vector("a@b", 0, &settings));
        let times = [number(100), number(100 + lifetime)].concat();
        assert!(answer.ends_with(&hex(&times)), "{answer}");
    }
    let answer = Desk::new().sign_in(LAST_TIME, 1, &vector("a@b", 0, &given(604_800, 0, &[])));
    assert!(answer.ends_with(&hex(&number(1_000_000_604_799))));
}

#[test]
fn only_settings_with_a_timestamp_are_offered() {
    for (settings, offered) in [
        (NONE.to_vec(), 0),
        (given(60, 0, &[(1, 0, [0; 4], "u")]), 0),
        (given(60, 1, &[]), 1),
        (given(60, LAST_TIME, &[]), LAST_TIME),
    ] {
        let mut desk = Desk::new();
        desk.sign_in(100, 1, &vector("a@b", 0, &settings));
        let answer = |run, offered| format!("0 {}", hex(&[vec![1, 7, run], number(offered)].concat()));
        assert_eq!(desk.ask(&start(100, "c@d")), answer(2, 0));
        assert_eq!(desk.ask(&start(100, "a@b")), answer(3, offered));
        let expected = if offered == 0 { "10 -" } else { "0 02" };
        assert!(desk.ask(&reply(100, 7, 3, &vector("a@b", 1, AS_BEFORE))).starts_with(expected));
        assert_eq!(desk.ask(&reply(100, 7, 2, &vector("c@d", 2, AS_BEFORE))), "10 -");
        // A session that is no longer live is not offered.
        let expired = if settings == NONE { 3700 } else { 160 };
        assert_eq!(desk.ask(&start(expired, "a@b")), answer(4, 0));
    }
}

#[test]
fn as_before_takes_the_copy_of_the_start() {
    let rows = [row("p", "n.e", false, 0, 0)];
    let mut desk = Desk::with(&rows);
    let old = given(100, 5, &[(1, 0, [1; 4], "old")]);
    let new = given(200, 6, &[(1, 0, [2; 4], "new")]);
    desk.sign_in(100, 1, &vector("a@b", 0, &old));
    assert_eq!(desk.ask(&start(101, "a@b")), "0 01070205");
    // Another run changes the session's settings before the reply comes.
    let answer = desk.sign_in(102, 3, &vector("a@b", 1, &new));
    assert!(answer.ends_with(&hex(&[number(102), number(302)].concat())));
    assert!(desk.ask(&reply(103, 7, 2, &vector("a@b", 2, AS_BEFORE))).starts_with("0 02"));
    let answer = desk.ask(&response(104, 7, 2, XRES));
    assert!(answer.ends_with(&hex(&[number(104), number(204)].concat())));
    let tail = hex(&[&number(104)[..], &number(204), &[0, 1, 1, 1, 1, 1, 3], b"old"].concat());
    assert!(desk.ask(&key(104, "p", &btid(2), NAF_ID, 1)).ends_with(&tail));
    // The copy outlives the session it was taken from.
    assert_eq!(desk.ask(&start(203, "a@b")), "0 01070405");
    assert!(desk.ask(&reply(210, 7, 4, &vector("a@b", 3, AS_BEFORE))).starts_with("0 02"));
    assert!(desk.ask(&response(210, 7, 4, XRES)).ends_with(&hex(&[number(210), number(310)].concat())));
    // No settings in the reply: the session has none, although some were offered.
    assert_eq!(desk.ask(&start(220, "a@b")), "0 01070505");
    assert!(desk.ask(&reply(220, 7, 5, &vector("a@b", 4, NONE))).starts_with("0 02"));
    assert!(desk.ask(&response(220, 7, 5, XRES)).ends_with(&hex(&[number(220), number(3820)].concat())));
    assert!(desk.ask(&key(220, "p", &btid(4), NAF_ID, 1)).ends_with("0000"));
    assert_eq!(desk.ask(&start(221, "a@b")), "0 01070600");
}

#[test]
fn a_response_is_equal_in_length_and_octets() {
    for res in [&XRES[..7], &[XRES, &[9]].concat(), &[1, 2, 3, 4, 5, 6, 7, 9], &[0, 2, 3, 4, 5, 6, 7, 8]] {
        let mut desk = Desk::with(&shelf());
        desk.ask(&start(100, "a@b"));
        desk.ask(&reply(100, 7, 1, &vector("a@b", 0, NONE)));
        assert_eq!(desk.ask(&response(100, 7, 1, res)), "0 06");
        assert_eq!(desk.ask(&response(100, 7, 1, XRES)), "7 -");
        assert_eq!(desk.ask(&key(100, "p", BTID, NAF_ID, 0)), "15 -");
    }
}

#[test]
fn a_new_session_replaces_the_students_own() {
    let mut desk = Desk::with(&shelf());
    desk.sign_in(100, 1, &vector("a@b", 0, NONE));
    desk.sign_in(100, 2, &vector("c@d", 1, NONE));
    desk.sign_in(101, 3, &vector("a@b", 2, NONE));
    assert_eq!(desk.ask(&key(101, "p", BTID, NAF_ID, 0)), "15 -");
    assert!(desk.ask(&key(101, "p", &btid(1), NAF_ID, 0)).ends_with("0363406400"));
    assert!(desk.ask(&key(101, "p", &btid(2), NAF_ID, 0)).ends_with("0361406200"));
    // The replaced session's RAND may come again.
    desk.ask(&start(101, "e@f"));
    assert!(desk.ask(&reply(101, 7, 4, &vector("e@f", 0, NONE))).starts_with("0 02"));
}

#[test]
fn the_65th_session_waits_and_its_run_stays() {
    let mut desk = Desk::with(&shelf());
    for n in 0..64u8 {
        let settings = given(if n == 40 { 60 } else { 600 }, 0, &[]);
        assert!(desk.sign_in(100, u64::from(n) + 1, &vector(&format!("s{n}"), n, &settings)).starts_with("0 03"));
    }
    desk.ask(&start(140, "late"));
    desk.ask(&reply(140, 7, 65, &vector("late", 100, NONE)));
    assert_eq!(desk.ask(&response(150, 7, 65, XRES)), "13 -");
    // The refusal recorded no time and the run is still there.
    assert_eq!(desk.ask(&start(140, "wrong")), "0 01074200");
    assert!(desk.ask(&reply(140, 7, 66, &vector("wrong", 101, NONE))).starts_with("0 02"));
    // A wrong RES is answered even now.
    assert_eq!(desk.ask(&response(140, 7, 66, &[0; 4])), "0 06");
    // A student with a live session replaces it.
    assert!(desk.sign_in(140, 67, &vector("s63", 102, NONE)).starts_with("0 03"));
    assert_eq!(desk.ask(&key(140, "p", &btid(63), NAF_ID, 0)), "15 -");
    // One expires at 160; then there is a place.
    assert_eq!(desk.ask(&response(159, 7, 65, XRES)), "13 -");
    assert!(desk.ask(&response(160, 7, 65, XRES)).starts_with("0 03"));
    assert!(desk.ask(&key(160, "p", &btid(100), NAF_ID, 0)).starts_with("0 05"));
    for n in (0..63).filter(|&n| n != 40) {
        assert!(desk.ask(&key(160, "p", &btid(n), NAF_ID, 0)).starts_with("0 05"));
    }
}

#[test]
fn an_expired_session_of_the_same_student_is_no_place_among_64() {
    let mut desk = Desk::new();
    desk.sign_in(100, 1, &vector("a@b", 200, &given(60, 0, &[])));
    for n in 0..63u8 {
        desk.sign_in(100, u64::from(n) + 2, &vector(&format!("s{n}"), n, NONE));
    }
    desk.ask(&start(159, "a@b"));
    desk.ask(&reply(159, 7, 65, &vector("a@b", 201, NONE)));
    desk.sign_in(160, 66, &vector("new", 202, NONE));
    assert_eq!(desk.ask(&response(161, 7, 65, XRES)), "13 -");
}

#[test]
fn a_row_is_the_first_with_this_peer_and_fqdn() {
    let mut none = row("p", "n.e", true, 0, 0);
    none.peer_length = 0;
    let mut long = row("p", "n.e", true, 0, 0);
    long.fqdn_length = 65;
    let mut prefix = row("pp", "n.e", true, 0, 0);
    prefix.peer_length = 1;
    let rows = [
        none,
        long,
        row("P", "n.e", true, 0, 0),
        row("q", "n.e", true, 0, 0),
        row("p", "n.f", true, 0, 0),
        row("p", "n.", true, 0, 0),
        row("p", "n.e.", true, 0, 0),
        prefix,
        row("p", "n.e", false, 0, 0),
    ];
    let mut desk = Desk::with(&rows);
    desk.sign_in(100, 1, &vector("a@b", 0, NONE));
    assert!(desk.ask(&key(100, "p", BTID, NAF_ID, 0)).ends_with("0361406200"));
    desk.rows.remove(7);
    assert!(desk.ask(&key(100, "p", BTID, NAF_ID, 0)).ends_with("0000"));
    desk.rows.pop();
    assert_eq!(desk.ask(&key(100, "p", BTID, NAF_ID, 0)), "14 -");
    assert_eq!(desk.ask(&key(100, "p", "no such B-TID", NAF_ID, 0)), "14 -");
    assert_eq!(Desk::new().ask(&key(100, "p", "no such B-TID", NAF_ID, 0)), "14 -");
}

#[test]
fn a_btid_is_compared_as_text() {
    let mut desk = Desk::with(&shelf());
    desk.sign_in(100, 1, &vector("a@b", 0, NONE));
    for text in [
        "AAECAwQFBgcICQoLDA0ODx==@bsf.example", // spare bits
        "AAECAwQFBgcICQoLDA0ODw==@bsf.exampl",
        "AAECAwQFBgcICQoLDA0ODw==@bsf.example.",
        "AAECAwQFBgcICQoLDA0ODw==@bsg.example",
        "AAECAwQFBgcICQoLDA0ODw==@BSF.example",
        "AAECAwQFBgcICQoLDA0ODw==#bsf.example",
        "AAECAwQFBgcICQoLDA0ODw==",
        "AAECAwQFBgcICQoLDA0ODw@bsf.example",
        "BAECAwQFBgcICQoLDA0ODw==@bsf.example",
        "@bsf.example",
        "x",
    ] {
        assert_eq!(desk.ask(&key(100, "p", text, NAF_ID, 0)), "15 -");
    }
    assert!(desk.ask(&key(100, "p", BTID, NAF_ID, 0)).starts_with("0 05"));
}

#[test]
fn entries_go_by_application_and_the_rows_group() {
    let rows = [
        row("p", "zero", false, 0, 0),
        row("p", "two", false, 2, 0),
        row("p", "needs", false, 2, 8),
        row("p", "lacks", false, 1, 8),
    ];
    let mut desk = Desk::with(&rows);
    let entries = [(8, 2, [0, 0, 0, 1], "u82"), (9, 2, [0, 0, 0, 2], "u92"), (9, 0, [0, 0, 0, 3], "u90")];
    desk.sign_in(100, 1, &vector("a@b", 0, &given(0, 0, &entries)));
    let mut tail = |fqdn: &str, application| {
        let answer = desk.ask(&key(100, "p", BTID, &[fqdn.as_bytes(), &[1, 0, 0, 0, 2]].concat(), application));
        match answer.strip_prefix("0 05") {
            Some(fields) => fields[64..].strip_prefix(&hex(&[number(100), number(3700)].concat())).unwrap().to_string(),
            None => answer,
        }
    };
    let entry = |flags: u8, name: &str| format!("0001000000{flags:02x}03{}", hex(name.as_bytes()));
    assert_eq!(tail("zero", 0), "0000");
    assert_eq!(tail("zero", 8), "0000");
    assert_eq!(tail("zero", 9), entry(3, "u90"));
    assert_eq!(tail("two", 9), entry(2, "u92"));
    assert_eq!(tail("two", 7), "0000");
    assert_eq!(tail("needs", 0), "0000");
    assert_eq!(tail("needs", 8), entry(1, "u82"));
    assert_eq!(tail("needs", 9), entry(2, "u92"));
    assert_eq!(tail("lacks", 9), "16 -");
    // A session without settings has no entry.
    desk.sign_in(100, 2, &vector("a@b", 1, NONE));
    let naf_id = |fqdn: &str| [fqdn.as_bytes(), &[1, 0, 0, 0, 2]].concat();
    assert_eq!(desk.ask(&key(100, "p", &btid(1), &naf_id("needs"), 0)), "16 -");
    assert!(desk.ask(&key(100, "p", &btid(1), &naf_id("two"), 9)).ends_with("0000"));
    // The B-TID comes before the policy.
    assert_eq!(desk.ask(&key(100, "p", BTID, &naf_id("needs"), 0)), "15 -");
}

#[test]
fn the_longest_answer_has_148_octets() {
    let impi = "i".repeat(64);
    let fqdn = "f".repeat(64);
    let user_name = "u".repeat(32);
    let mut desk = Desk::with(&[row("p", &fqdn, true, 255, 1)]);
    let vector = Vector {
        impi: impi.clone().into(),
        rand: [0xff; 16],
        autn: [0xfe; 16],
        xres: vec![0xfd; 16],
        ck: [0xfc; 16],
        ik: [0xfb; 16],
        settings: given(604_800, LAST_TIME, &[(1, 255, [0xfa; 4], &user_name)]),
    };
    desk.sign_in(LAST_TIME, 1, &vector);
    let btid = "/////////////////////w==@bsf.example";
    let naf_id = [fqdn.as_bytes(), &[0xfe; 5]].concat();
    let expected = [
        vec![5],
        octets("6d95ae17fd5942e69f81fc416d8a1b79aeefc129591e3a017b1d83a6e2107f92"),
        number(LAST_TIME),
        number(1_000_000_604_799),
        text(&impi),
        vec![1, 0xfa, 0xfa, 0xfa, 0xfa],
        text(&user_name),
    ]
    .concat();
    assert_eq!(expected.len(), 148);
    assert_eq!(desk.ask(&key(LAST_TIME, "p", btid, &naf_id, 1)), format!("0 {}", hex(&expected)));
}
