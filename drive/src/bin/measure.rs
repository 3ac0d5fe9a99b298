//! What each event costs through the proved library and through the independent server, in one process and by turns.
//!
//!   measure time TURNS            a table of nanoseconds
//!   measure count SIDE CASE N     N events of a case, for a counter of instructions
//!   measure size                  octets of the state, and of the stack that an event takes
//!   measure cases                 the names of the cases

use drive::library;
use drive::write::*;
use std::hint::black_box;
use std::time::Instant;

const DOMAIN: &[u8] = b"bsf.campus.example";
const RESTART: u64 = 7;
const LIFETIME: u64 = 43_200;
const NOW: u64 = 32_400;

/// A server as its host sees it.
trait Server {
    fn open(rows: &[twin::Row]) -> Self;
    fn event(&mut self, body: &[u8], out: &mut [u8]) -> (u32, usize);
}

struct Proved {
    state: Box<library::State>,
    rows: Vec<library::Row>,
}

impl Server for Proved {
    fn open(rows: &[twin::Row]) -> Self {
        let mut state = library::State::new();
        assert_eq!(library::open(&mut state, DOMAIN, RESTART, LIFETIME), 0);
        Proved { state, rows: rows.iter().map(library::Row::from).collect() }
    }

    #[inline(never)]
    fn event(&mut self, body: &[u8], out: &mut [u8]) -> (u32, usize) {
        let reply = library::event(&mut self.state, &self.rows, body, out);
        (reply.number, reply.length)
    }
}

struct Twin {
    state: Box<twin::State>,
    rows: Vec<twin::Row>,
}

impl Server for Twin {
    fn open(rows: &[twin::Row]) -> Self {
        let state =
            twin::State::open(DOMAIN, RESTART as u32, LIFETIME as u32).unwrap_or_else(|_| twin::State::closed());
        Twin { state: Box::new(state), rows: rows.to_vec() }
    }

    #[inline(never)]
    fn event(&mut self, body: &[u8], out: &mut [u8]) -> (u32, usize) {
        self.state.event(&self.rows, body, out)
    }
}

/// What is measured.
#[derive(Clone, Copy, PartialEq)]
enum What {
    Start,
    VectorNone,
    VectorGiven,
    Right,
    Wrong,
    Abort,
    Key,
    Form,
    Stale,
    NotYours,
}

#[derive(Clone, Copy)]
struct Case {
    name: &'static str,
    what: What,
    rows: usize,
    /// Live sessions, and runs open beside the one of the case.
    sessions: usize,
    runs: usize,
}

const fn case(name: &'static str, what: What, rows: usize, sessions: usize, runs: usize) -> Case {
    Case { name, what, rows, sessions, runs }
}

const CASES: &[Case] = &[
    case("START, 0 open runs, 1 session", What::Start, 16, 1, 0),
    case("START, 31 open runs, 1 session", What::Start, 16, 1, 31),
    case("START, 0 open runs, 64 sessions", What::Start, 16, 64, 0),
    case("START, 31 open runs, 64 sessions", What::Start, 16, 64, 31),
    case("VECTOR, no settings, 16 sessions, 15 other runs", What::VectorNone, 16, 16, 15),
    case("VECTOR, four entries, 16 sessions, 15 other runs", What::VectorGiven, 16, 16, 15),
    case("VECTOR, four entries, 64 sessions, 31 other runs", What::VectorGiven, 16, 64, 31),
    case("RESPONSE, right, 16 sessions, 15 other runs", What::Right, 16, 16, 15),
    case("RESPONSE, right, 64 sessions, 31 other runs", What::Right, 16, 64, 31),
    case("RESPONSE, wrong, 16 sessions, 15 other runs", What::Wrong, 16, 16, 15),
    case("ABORT, 16 sessions, 15 other runs", What::Abort, 16, 16, 15),
    case("KEY, 1 row, 1 session", What::Key, 1, 1, 0),
    case("KEY, 16 rows, 1 session", What::Key, 16, 1, 0),
    case("KEY, 256 rows, 1 session", What::Key, 256, 1, 0),
    case("KEY, 1 row, 16 sessions", What::Key, 1, 16, 0),
    case("KEY, 16 rows, 16 sessions", What::Key, 16, 16, 0),
    case("KEY, 256 rows, 16 sessions", What::Key, 256, 16, 0),
    case("KEY, 1 row, 64 sessions", What::Key, 1, 64, 0),
    case("KEY, 16 rows, 64 sessions", What::Key, 16, 64, 0),
    case("KEY, 256 rows, 64 sessions", What::Key, 256, 64, 0),
    case("refused by FORM", What::Form, 16, 16, 15),
    case("refused by STALE", What::Stale, 16, 16, 15),
    case("refused by NOT YOURS, 16 rows", What::NotYours, 16, 16, 15),
];

const BATCHES: &str = "the morning load, in batches";

fn shelf(place: usize) -> Vec<u8> {
    format!("shelf-{place}.campus.example").into_bytes()
}

fn student(place: usize) -> Vec<u8> {
    format!("student-{place}@campus.example").into_bytes()
}

fn rows(count: usize) -> Vec<twin::Row> {
    (0..count)
        .map(|place| {
            let name = shelf(place);
            let mut row = twin::Row { identity: true, group: 0, required: 1, ..Default::default() };
            row.peer[..name.len()].copy_from_slice(&name);
            row.fqdn[..name.len()].copy_from_slice(&name);
            (row.peer_length, row.fqdn_length) = (name.len(), name.len());
            row
        })
        .collect()
}

fn rand(number: u64) -> [u8; 16] {
    let front = (number + 1).wrapping_mul(0x9e37_79b9_7f4a_7c15);
    let mut rand = [0; 16];
    rand[..8].copy_from_slice(&front.to_be_bytes());
    rand[8..].copy_from_slice(&front.wrapping_mul(0x9e37_79b9_7f4a_7c15).to_be_bytes());
    rand
}

const XRES: [u8; 8] = [1, 2, 3, 4, 5, 6, 7, 8];

/// A server in the state of a case, and the events that lead to it and back.
struct Bench<S> {
    server: S,
    case: Case,
    last: u64,
    out: [u8; 160],
}

impl<S: Server> Bench<S> {
    fn new(case: Case) -> Self {
        let mut bench = Bench { server: S::open(&rows(case.rows)), case, last: 0, out: [0; 160] };
        for place in 0..case.sessions {
            bench.start(&student(place));
            bench.vector(&student(place), true);
            bench.give(&bench.response(&XRES));
        }
        for place in 0..case.runs {
            // Every other one is challenged.
            bench.start(&student(100 + place));
            if place % 2 == 0 {
                bench.vector(&student(100 + place), false);
            }
        }
        bench
    }

    fn give(&mut self, body: &[u8]) {
        let (number, _) = self.server.event(body, &mut self.out);
        assert_eq!(number, 0, "{}", self.case.name);
    }

    fn start(&mut self, impi: &[u8]) {
        self.give(&Body::new(START, NOW).text(impi).octets);
        self.last += 1;
    }

    fn vector(&mut self, impi: &[u8], given: bool) {
        let body = self.vector_body(impi, given);
        self.give(&body);
    }

    fn of_run(&self, kind: u8) -> Body {
        Body::new(kind, NOW).number(RESTART).number(self.last)
    }

    fn vector_body(&self, impi: &[u8], given: bool) -> Vec<u8> {
        let body = self.of_run(VECTOR).text(impi).octets(&rand(self.last)).octets(&[0xa0; 16]).text(&XRES);
        let body = body.octets(&[0xc0; 16]).octets(&[0x10; 16]);
        if !given {
            return body.octet(0).octets;
        }
        let mut body = body.octet(2).number(LIFETIME).number(900).number(4);
        for application in 1..=4 {
            body = body.number(application).number(0).octets(&[0, 0, 0, 1]).text(b"student-at-shelf");
        }
        body.octets
    }

    fn response(&self, res: &[u8]) -> Vec<u8> {
        self.of_run(RESPONSE).text(res).octets
    }

    fn key_body(&self, row: usize, session: u64) -> Vec<u8> {
        let naf_id = [&shelf(row)[..], &[1, 0, 0, 0, 2]].concat();
        Body::new(KEY, NOW).text(&shelf(row)).text(&btid(&rand(session), DOMAIN)).text(&naf_id).number(4).octets
    }

    /// Leads to the event of the case, gives the event to `timed`, and leads back.
    fn once(&mut self, timed: &mut impl FnMut(&mut S, &[u8], &mut [u8]) -> u32) {
        // The student of the case has the last session.
        let own = student(self.case.sessions - 1);
        let (body, refused) = match self.case.what {
            What::Start => (Body::new(START, NOW).text(&own).octets, 0),
            What::VectorNone | What::VectorGiven => {
                self.start(&own);
                (self.vector_body(&own, self.case.what == What::VectorGiven), 0)
            }
            What::Right | What::Wrong => {
                self.start(&own);
                self.vector(&own, true);
                (self.response(if self.case.what == What::Right { &XRES } else { &[0; 8] }), 0)
            }
            What::Abort => {
                self.start(&own);
                (self.of_run(ABORT).octets, 0)
            }
            What::Key => (self.key_body(self.case.rows - 1, self.case.sessions as u64), 0),
            What::Form => (self.of_run(ABORT).octet(0).octets, 3),
            What::Stale => (Body::new(ABORT, NOW).number(RESTART).number(1).octets, 7),
            What::NotYours => (self.key_body(self.case.rows, 1), 14),
        };
        let number = timed(&mut self.server, &body, &mut self.out);
        assert_eq!(number, refused, "{}", self.case.name);
        match self.case.what {
            What::Start => {
                self.last += 1;
                self.give(&self.of_run(ABORT).octets);
            }
            What::VectorNone | What::VectorGiven => self.give(&self.of_run(ABORT).octets),
            _ => {}
        }
    }

    /// The middle one of so many times, in nanoseconds.
    fn time(&mut self, count: usize, clock: f64) -> f64 {
        let mut times: Vec<f64> = vec![];
        for _ in 0..count {
            self.once(&mut |server, body, out| {
                let before = Instant::now();
                let (number, _) = black_box(server.event(black_box(body), black_box(out)));
                times.push(before.elapsed().as_nanos() as f64);
                number
            });
        }
        middle(&mut times) - clock
    }

    fn count(&mut self, count: usize) {
        for _ in 0..count {
            self.once(&mut |server, body, out| measured(server, body, out));
        }
    }
}

/// A counter of instructions looks for this name.
#[inline(never)]
fn measured<S: Server>(server: &mut S, body: &[u8], out: &mut [u8]) -> u32 {
    server.event(black_box(body), black_box(out)).0
}

fn middle(times: &mut [f64]) -> f64 {
    times.sort_by(f64::total_cmp);
    times[times.len() / 2]
}

/// What the clock itself costs.
fn clock() -> f64 {
    let mut times: Vec<f64> = (0..10_001)
        .map(|_| {
            let before = Instant::now();
            black_box(&before);
            before.elapsed().as_nanos() as f64
        })
        .collect();
    middle(&mut times)
}

fn time(turns: usize) {
    let clock = clock();
    println!("case\tproved\ttwin");
    for &case in CASES {
        let (mut proved, mut twin) = (Bench::<Proved>::new(case), Bench::<Twin>::new(case));
        let mut best = [f64::MAX; 2];
        for _ in 0..turns {
            best[0] = best[0].min(proved.time(401, clock));
            best[1] = best[1].min(twin.time(401, clock));
        }
        println!("{}\t{:.0}\t{:.0}", case.name, best[0], best[1]);
    }
    let (proved, twin) = batches(turns);
    println!("{BATCHES}\t{proved:.0}\t{twin:.0}");
}

/// The morning load as `bench/morning` has it: opening part, then events.
fn morning(count: usize) -> (Vec<u8>, usize) {
    let table = rows(16);
    let mut input = vec![];
    text(&mut input, DOMAIN);
    number(&mut input, RESTART);
    number(&mut input, LIFETIME);
    number(&mut input, 16);
    for row in &table {
        text(&mut input, &row.peer[..row.peer_length]);
        text(&mut input, &row.fqdn[..row.fqdn_length]);
        input.push(1);
        number(&mut input, 0);
        number(&mut input, 1);
    }
    let opening = input.len();
    let mut draw = drive::draw::Draw::new(9);
    let mut bench = Bench { server: Twin::open(&table), case: CASES[0], last: 0, out: [0; 160] };
    let mut given = 0;
    let mut sessions = [None; 64];
    let mut moment = NOW;
    while given < count {
        let first = draw.below(4) * 16;
        let before = bench.last;
        for phase in [START, VECTOR, RESPONSE, KEY] {
            for place in 0..16 {
                bench.last = before + 1 + place as u64;
                let own = student(first + place);
                let mut bodies = match phase {
                    START => vec![Body::new(START, NOW).text(&own).octets],
                    VECTOR => vec![bench.vector_body(&own, true)],
                    RESPONSE => vec![bench.response(&XRES)],
                    _ => vec![],
                };
                if phase == RESPONSE {
                    sessions[first + place] = Some(bench.last);
                }
                if phase == KEY {
                    let live: Vec<u64> = sessions.iter().flatten().copied().collect();
                    bodies = (0..10).map(|_| bench.key_body(draw.below(16), draw.pick(&live))).collect();
                }
                for body in bodies {
                    // The time of the event stands after its kind.
                    let at = 1 + read_number(&body[1..]).map_or(0, |(_, length)| length);
                    let mut moved = vec![body[0]];
                    number(&mut moved, moment);
                    moved.extend_from_slice(&body[at..]);
                    text(&mut input, &moved);
                    given += 1;
                }
            }
            moment += 1;
        }
    }
    (input, opening)
}

/// Nanoseconds of the processor that this thread has had.
fn used() -> f64 {
    let mut time = [0i64; 2];
    // SAFETY: the clock writes seconds and nanoseconds there.
    unsafe { clock_gettime(3, &mut time) };
    time[0] as f64 * 1e9 + time[1] as f64
}

/// The lines of an input through `pr_serve`, 64 KiB at a time.
#[inline(never)]
fn measured_proved(input: &[u8], opening: usize, lines: &mut Vec<u8>) {
    let shelf = library::shelf(&rows(16));
    let mut out = vec![0; 65_536];
    let mut state = library::State::new();
    library::open(&mut state, DOMAIN, RESTART, LIFETIME);
    let (mut at, mut place) = (opening, 1);
    loop {
        let end = input.len().min(at + 65_536);
        let done = library::serve(&mut state, &shelf, place, &input[at..end], &mut out);
        lines.extend_from_slice(&out[..done.length]);
        (at, place) = (at + done.at, done.place);
        if done.number == 3 || done.number == 0 && end == input.len() {
            break;
        }
    }
}

/// The lines of an input through the independent server's program.
#[inline(never)]
fn measured_twin(input: &[u8], lines: &mut Vec<u8>) {
    twin::serve(input, lines).unwrap_or(());
}

/// Nanoseconds an event in batches, without input and output.
fn batches(turns: usize) -> (f64, f64) {
    let (input, opening) = morning(41_600);
    let (mut lines, mut expected) = (vec![0; 16 << 20], vec![0; 16 << 20]);
    let mut best = [f64::MAX; 2];
    for _ in 0..turns {
        lines.clear();
        expected.clear();
        let before = used();
        measured_proved(black_box(&input), opening, &mut lines);
        let between = used();
        measured_twin(black_box(&input), &mut expected);
        let after = used();
        best = [best[0].min(between - before), best[1].min(after - between)];
        assert!(lines == expected, "the lines differ");
    }
    let count = lines.iter().filter(|&&octet| octet == b'\n').count() as f64;
    (best[0] / count, best[1] / count)
}

/// Events in batches, for a counter of instructions. `count` is a multiple of the 208 that sixteen students make.
fn count_batches(side: &str, count: usize) {
    let (input, opening) = morning(count);
    let mut lines = Vec::with_capacity(1 << 20);
    match side {
        "proved" => measured_proved(&input, opening, &mut lines),
        _ => measured_twin(&input, &mut lines),
    }
    assert_eq!(lines.iter().filter(|&&octet| octet == b'\n').count(), count);
}

extern "C" {
    fn clock_gettime(clock: i32, time: *mut [i64; 2]) -> i32;
    fn pthread_attr_init(attr: *mut [u64; 8]) -> i32;
    fn pthread_attr_setstack(attr: *mut [u64; 8], place: *mut u8, size: usize) -> i32;
    fn pthread_create(
        thread: *mut u64,
        attr: *const [u64; 8],
        run: extern "C" fn(*mut u8) -> *mut u8,
        with: *mut u8,
    ) -> i32;
    fn pthread_join(thread: u64, result: *mut *mut u8) -> i32;
}

/// The octets of a stack of its own that a function takes.
fn stack(run: extern "C" fn(*mut u8) -> *mut u8, with: *mut u8) -> usize {
    const SIZE: usize = 4 << 20;
    let layout = std::alloc::Layout::from_size_align(SIZE, 4096).unwrap_or_else(|_| unreachable!());
    // SAFETY: the memory is this thread's stack alone, and is looked at when the thread has ended.
    unsafe {
        let place = std::alloc::alloc(layout);
        std::ptr::write_bytes(place, 0xa5, SIZE);
        let (mut attr, mut thread) = ([0; 8], 0);
        pthread_attr_init(&mut attr);
        pthread_attr_setstack(&mut attr, place, SIZE);
        assert_eq!(pthread_create(&mut thread, &attr, run, with), 0);
        pthread_join(thread, std::ptr::null_mut());
        let left = std::slice::from_raw_parts(place, SIZE).iter().take_while(|&&octet| octet == 0xa5).count();
        std::alloc::dealloc(place, layout);
        SIZE - left
    }
}

extern "C" fn nothing(with: *mut u8) -> *mut u8 {
    with
}

/// Every event of a history, in a server that stands on the heap.
extern "C" fn all<S: Server>(with: *mut u8) -> *mut u8 {
    // SAFETY: `size` hands over a server and bodies that outlive the thread.
    let (server, bodies) = unsafe { &mut *with.cast::<(S, Vec<Vec<u8>>)>() };
    let mut out = [0; 160];
    for body in bodies {
        server.event(body, &mut out);
    }
    with
}

fn size() {
    let (input, opening) = morning(500);
    let mut bodies = vec![];
    let mut at = opening;
    while let Some((length, more)) = read_number(&input[at..]) {
        bodies.push(input[at + more..at + more + length as usize].to_vec());
        at += more + length as usize;
        if at == input.len() {
            break;
        }
    }
    let ground = stack(nothing, std::ptr::null_mut());
    let mut proved = (Proved::open(&rows(16)), bodies.clone());
    let mut twin = (Twin::open(&rows(16)), bodies);
    let proved_stack = stack(all::<Proved>, (&mut proved as *mut (Proved, Vec<Vec<u8>>)).cast()) - ground;
    let twin_stack = stack(all::<Twin>, (&mut twin as *mut (Twin, Vec<Vec<u8>>)).cast()) - ground;
    println!("the state\t{}\t{}", std::mem::size_of::<library::State>(), std::mem::size_of::<twin::State>());
    println!("the stack of an event\t{proved_stack}\t{twin_stack}");
}

fn main() {
    let words: Vec<String> = std::env::args().skip(1).collect();
    let words: Vec<&str> = words.iter().map(String::as_str).collect();
    let found = |name: &str| CASES.iter().copied().find(|case| case.name == name);
    match words[..] {
        ["time", turns] => time(turns.parse().unwrap_or(20)),
        ["cases"] => CASES.iter().for_each(|case| println!("{}", case.name)),
        ["size"] => size(),
        ["count", side, BATCHES, count] => count_batches(side, count.parse().unwrap_or(208)),
        ["count", side, name, count] => match (side, found(name), count.parse()) {
            ("proved", Some(case), Ok(count)) => Bench::<Proved>::new(case).count(count),
            ("twin", Some(case), Ok(count)) => Bench::<Twin>::new(case).count(count),
            _ => panic!("no such case"),
        },
        _ => panic!("measure time TURNS | count SIDE CASE N | size | cases"),
    }
}
