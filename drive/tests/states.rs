//! States that no opening and no event made are answered without fault, and a refusal leaves them as they are. What the answer is
//! is proved; the independent server has no such states, so nothing is compared here.

use drive::draw::Draw;
use drive::generate;
use drive::library::{event, Row, State};

/// Puts any octets at some places of a state, and good values where C has two alone.
fn disturb(state: &mut State, draw: &mut Draw) {
    let count = std::mem::size_of::<State>();
    let mut octets = state.octets().to_vec();
    for _ in 0..draw.pick(&[1, 10, 1000, count]) {
        let at = draw.below(count);
        octets[at] = draw.pick(&[0, 1, 64, 65, 255, 200]);
    }
    state.put_octets(&octets);
}

#[test]
fn any_state_is_answered() {
    let mut state = State::new();
    for seed in 1..=400 {
        let history = generate::history(seed);
        let rows: Vec<Row> = history.rows.iter().map(Row::from).collect();
        let mut draw = Draw::new(seed);
        drive::library::open(&mut state, &history.domain, history.restart, history.lifetime);
        for given in &history.events {
            if draw.chance(30) {
                disturb(&mut state, &mut draw);
            }
            let before = state.clone();
            let mut out = [0xa5; 512];
            let reply = event(&mut state, &rows, &given.body, &mut out[..given.room]);
            assert!(reply.number <= 16 && (reply.number == 0) == (reply.length > 0), "seed {seed}");
            assert!(out[reply.length..].iter().all(|&octet| octet == 0xa5), "seed {seed}");
            assert!(reply.number == 0 || *state == *before, "seed {seed}");
        }
    }
}
