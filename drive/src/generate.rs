//! One seed, one history. The draws are aimed at the state: the generator runs the independent server along, so it knows
//! run numbers, challenges and B-TIDs, and most events mean something to the state that they meet.

use crate::draw::Draw;
use crate::history::{Event, History, PROGRAM_ROWS, ROOM};
use crate::write::*;
use names::{domain, names, rows};

mod damage;
mod events;
mod names;
mod scripts;
mod times;

const LAST_TIME: u64 = 999_999_999_999;
const NAME: usize = 64;
const PROTOCOL: [u8; 5] = [1, 0, 0, 0, 2];
const APPLICATIONS: [u64; 4] = [1, 2, 7, u32::MAX as u64];
const GROUPS: [u64; 3] = [0, 1, 255];

/// What a history dwells on.
#[derive(Clone, Copy, PartialEq)]
enum Theme {
    Mix,
    Runs,
    Sessions,
    Keys,
    Settings,
    Damage,
    Spent,
    Closed,
}

#[derive(Clone, Copy)]
enum Plan {
    Start,
    Vector,
    Response,
    Abort,
    Key,
    Damaged,
    SignIn,
    LateReply,
    SessionEdge,
    ReplacedCopy,
    SameRand,
}

#[derive(Clone)]
struct Card {
    rand: [u8; 16],
    autn: [u8; 16],
    xres: Vec<u8>,
    ck: [u8; 16],
    ik: [u8; 16],
}

#[derive(Clone)]
struct Run {
    number: u32,
    student: usize,
    start: u64,
    over: bool,
    offered: bool,
    card: Option<Card>,
    lifetime: u64,
}

#[derive(Clone)]
struct Session {
    student: usize,
    rand: [u8; 16],
    expiry: u64,
    replaced: bool,
}

/// A body, and what the generator needs to learn from its answer.
struct Meant {
    body: Body,
    student: usize,
    card: Option<Card>,
    lifetime: u64,
}

struct World {
    draw: Draw,
    theme: Theme,
    state: twin::State,
    history: History,
    /// While it is set, events have no slips: a table is being filled.
    clean: bool,
    /// The recorded time.
    now: u64,
    students: Vec<Vec<u8>>,
    runs: Vec<Run>,
    sessions: Vec<Session>,
    rands: Vec<[u8; 16]>,
}

/// The history of a seed.
pub fn history(seed: u64) -> History {
    let mut world = World::new(seed);
    let length = match world.theme {
        Theme::Sessions => world.draw.between(260, 520),
        Theme::Runs => world.draw.between(60, 300),
        Theme::Closed if world.history.program => world.draw.between(1, 6),
        Theme::Closed => world.draw.between(5, 60),
        _ => world.draw.between(20, 400),
    };
    if world.theme == Theme::Sessions {
        world.fill_sessions();
    }
    if world.theme == Theme::Runs {
        world.fill_runs();
    }
    while world.history.events.len() < length {
        let plan = world.plan();
        world.act(plan);
    }
    world.end();
    world.history
}

impl World {
    fn new(seed: u64) -> World {
        let mut draw = Draw::new(seed);
        let program = draw.chance(50);
        let mut themes = vec![
            (30, Theme::Mix),
            (12, Theme::Runs),
            (14, Theme::Sessions),
            (16, Theme::Keys),
            (14, Theme::Settings),
            (8, Theme::Damage),
            (if program { 30 } else { 3 }, Theme::Closed), // an event program reads openings in many forms
        ];
        if !program {
            themes.push((3, Theme::Spent));
        }
        let theme = draw.weighted(&themes);
        let count = match theme {
            Theme::Sessions => draw.between(66, 72),
            Theme::Runs => draw.between(3, 40),
            _ => draw.between(1, 8),
        };
        let students = names(&mut draw, count);
        let mut history = History {
            seed,
            domain: domain(&mut draw),
            restart: draw.pick(&[0, 1, 7, 300, u32::MAX as u64]),
            lifetime: match theme {
                Theme::Sessions => draw.pick(&[3600, 43_200, 604_800]),
                _ => draw.pick(&[60, 61, 100, 3600, 604_799, 604_800]),
            },
            rows: rows(&mut draw, program, theme),
            events: vec![],
            given: if theme == Theme::Spent { u32::MAX - draw.between(0, 6) as u32 } else { 0 },
            program,
            opening: None,
            tail: vec![],
        };
        if theme == Theme::Closed {
            damage::spoil_opening(&mut draw, &mut history);
        }
        let (_, state) = open_twin(&history);
        let now = match draw.below(10) {
            0 => 0,
            1 => LAST_TIME - draw.between(0, 2000) as u64,
            2 => 1_000_000_000 + draw.between(0, 1_000_000) as u64,
            _ => draw.between(0, 1000) as u64,
        };
        World {
            draw,
            theme,
            state,
            history,
            clean: false,
            now,
            students,
            runs: vec![],
            sessions: vec![],
            rands: vec![],
        }
    }

    fn plan(&mut self) -> Plan {
        use Plan::*;
        let plans: &[(usize, Plan)] = match self.theme {
            Theme::Keys => &[(8, Start), (8, Vector), (8, Response), (1, Abort), (60, Key), (2, Damaged), (6, SignIn)],
            Theme::Damage => &[(14, Start), (14, Vector), (12, Response), (4, Abort), (14, Key), (40, Damaged)],
            Theme::Runs => {
                &[(50, Start), (12, Vector), (12, Response), (10, Abort), (6, Key), (2, Damaged), (2, LateReply)]
            }
            Theme::Sessions => &[
                (12, Start),
                (14, Vector),
                (14, Response),
                (1, Abort),
                (16, Key),
                (2, Damaged),
                (8, SignIn),
                (8, SessionEdge),
            ],
            Theme::Settings => &[
                (12, Start),
                (16, Vector),
                (12, Response),
                (2, Abort),
                (18, Key),
                (2, Damaged),
                (10, SignIn),
                (12, ReplacedCopy),
            ],
            _ => &[
                (18, Start),
                (20, Vector),
                (18, Response),
                (4, Abort),
                (22, Key),
                (4, Damaged),
                (3, SignIn),
                (3, LateReply),
                (2, SessionEdge),
                (2, ReplacedCopy),
                (2, SameRand),
            ],
        };
        self.draw.weighted(plans)
    }

    fn act(&mut self, plan: Plan) {
        match plan {
            Plan::Start => {
                let student = self.student();
                let time = self.start_time();
                let meant = self.start(student, time);
                self.give(meant);
            }
            Plan::Vector => {
                let meant = self.any_vector();
                self.give(meant);
            }
            Plan::Response => {
                let meant = self.any_response();
                self.give(meant);
            }
            Plan::Abort => {
                let run = self.some_run(&[(70, 0), (20, 1), (10, 2)]);
                let time = self.run_time(&run);
                let meant = self.of_run(ABORT, time, &run);
                self.give(meant);
            }
            Plan::Key => {
                let meant = self.any_key();
                self.give(meant);
            }
            Plan::Damaged => self.damaged(),
            Plan::SignIn => {
                let student = self.student();
                self.sign_in(student);
            }
            Plan::LateReply => self.late_reply(),
            Plan::SessionEdge => self.session_edge(),
            Plan::ReplacedCopy => self.replaced_copy(),
            Plan::SameRand => self.same_rand(),
        }
    }

    /// Below `limit`; the low ones are slips, which don't come while a table is being filled.
    fn slip(&mut self, limit: usize) -> usize {
        if self.clean {
            limit - 1
        } else {
            self.draw.below(limit)
        }
    }

    /// A student: in a full table often one who has no session.
    fn student(&mut self) -> usize {
        let now = self.now;
        if self.theme == Theme::Sessions && self.draw.chance(40) {
            let has = |student| self.sessions.iter().any(|s| s.student == student && !s.replaced && s.expiry > now);
            let without: Vec<usize> = (0..self.students.len()).filter(|&student| !has(student)).collect();
            if !without.is_empty() {
                return self.draw.pick(&without);
            }
        }
        self.draw.below(self.students.len())
    }

    /// Gives an event and learns from its answer; whether it was answered.
    fn give(&mut self, meant: Meant) -> bool {
        let room = if self.history.program || self.slip(100) > 9 {
            ROOM
        } else {
            self.draw.pick(&[161, 161, 200, 512, 159, 159, 148, 1, 0])
        };
        let mut out = [0; 512];
        let (number, length) = self.state.event(&self.history.rows, &meant.body.octets, &mut out[..room]);
        if number == 0 {
            self.learn(&meant, &out[..length]);
        }
        self.history.events.push(Event { body: meant.body.octets, room });
        number == 0
    }

    fn learn(&mut self, meant: &Meant, answer: &[u8]) {
        if answer[0] == 5 {
            return;
        }
        let fields = &meant.body.octets[1..];
        let Some((time, at)) = read_number(fields) else { return };
        self.now = time;
        if answer[0] == 1 {
            let Some((_, at)) = read_number(&answer[1..]) else { return };
            let Some((number, more)) = read_number(&answer[1 + at..]) else { return };
            let offered = answer[1 + at + more..] != [0];
            let (student, start) = (meant.student, time);
            let lifetime = 0;
            return self.runs.push(Run {
                number: number as u32,
                student,
                start,
                over: false,
                offered,
                card: None,
                lifetime,
            });
        }
        let Some((_, more)) = read_number(&fields[at..]) else { return };
        let Some((number, _)) = read_number(&fields[at + more..]) else { return };
        let Some(run) = self.runs.iter_mut().rev().find(|run| u64::from(run.number) == number) else { return };
        match answer[0] {
            2 => {
                run.card = meant.card.clone();
                run.lifetime = meant.lifetime;
            }
            3 => {
                run.over = true;
                let Some((length, at)) = read_number(&answer[1..]) else { return };
                let after = &answer[1 + at + length as usize..];
                let Some((_, at)) = read_number(after) else { return };
                let Some((expiry, _)) = read_number(&after[at..]) else { return };
                let (student, rand) = (run.student, run.card.as_ref().map_or([0; 16], |card| card.rand));
                for session in self.sessions.iter_mut().filter(|session| session.student == student) {
                    session.replaced = true;
                }
                self.sessions.push(Session { student, rand, expiry, replaced: false });
            }
            _ => run.over = true,
        }
    }
}

/// The number that the independent server's opening returns, and the state, as the history says.
pub fn open_twin(history: &History) -> (u32, twin::State) {
    let opened = match (u32::try_from(history.restart), u32::try_from(history.lifetime)) {
        (Ok(restart), Ok(lifetime)) => twin::State::open(&history.domain, restart, lifetime),
        _ => Err(twin::NOT_OPEN),
    };
    match opened {
        Ok(state) => (0, state.with_runs_given(history.given)),
        Err(number) => (number, twin::State::closed()),
    }
}
