//! `--script`: answers a script of calls, as oracle/README.md describes it. The same script is the
//! input of the program filling_test, whose output must be the same.
use crate::command::{Command, Reader};
use crate::compare::{run, Ask};
use crate::filling::{next_copy, start, State, Stop};
use crate::flat::{Flat, COPIES};
use crate::hash::{bits, hash, state_hash};
use crate::job::{self, Job};
use crate::nesting::{fill_order, next_random, Plan};
use crate::own::Own;
use crate::plain::{self, Request};
use crate::print::{hex, offcut, position_room, positions};
use crate::rooms::{numbers, Rooms, Sizes, ROOMS};
use crate::stack::next_copies;
use crate::watch::Watch;

/// The longest rooms that a script can ask for, in slots: shapes, sheet, placed, sheet entries,
/// placed entries, bucket numbers of the sheet's and of the placed strips, intervals, positions.
const LONGEST: [usize; ROOMS] = [8200, 8200, 8200, 16500, 16500, 1400, 1400, 8200, 24600];

/// Which rooms hold numbers of 16 bits and not doubles.
fn number_room(a: usize) -> bool {
    (3..=6).contains(&a)
}

/// What a slot of room a holds before a call: not a number, an infinity, minus zero, or whatever
/// double a draw's bits are; in a room of numbers a draw's last 16 bits.
fn garbage(a: usize, state: &mut u64) -> u64 {
    let draw = next_random(state);
    match draw % 8 {
        _ if number_room(a) => draw % 65_536,
        0 => bits(f64::NAN),
        1 => bits(f64::INFINITY),
        2 => bits(f64::NEG_INFINITY),
        3 => bits(-0.0),
        _ => bits(f64::from_bits(draw)),
    }
}

pub struct Script {
    job: Vec<u8>,
    order: Vec<usize>,
    /// Every room as bits or numbers, at its longest.
    rooms: [Vec<u64>; ROOMS],
    lengths: [usize; ROOMS],
    state: Flat,
    /// What calls are compared with, unless job, state or rooms were changed since the start.
    own: Option<Own>,
    /// Whether nothing is compared.
    by_hand: bool,
    out: String,
}

impl Script {
    fn new(by_hand: bool) -> Self {
        Self {
            job: vec![],
            order: vec![],
            rooms: LONGEST.map(|n| vec![0; n]),
            lengths: [0; ROOMS],
            state: Flat::zero(),
            own: None,
            by_hand,
            out: String::new(),
        }
    }

    fn sizes(&self) -> Sizes {
        Sizes::of(self.lengths)
    }

    /// The rooms as they are lent.
    fn lent(&self) -> Rooms {
        let words = |a: usize| self.rooms[a][..self.lengths[a]].iter();
        let doubles = |a| words(a).map(|&w| f64::from_bits(w)).collect();
        let short = |a| words(a).map(|&w| w as u16).collect();
        Rooms {
            shapes: doubles(0),
            sheet: doubles(1),
            placed: doubles(2),
            sheet_entries: short(3),
            placed_entries: short(4),
            sheet_firsts: short(5),
            placed_firsts: short(6),
            intervals: doubles(7),
            positions: doubles(8),
        }
    }

    fn left(&mut self, r: &Rooms) {
        let doubles = [(0, &r.shapes), (1, &r.sheet), (2, &r.placed), (7, &r.intervals)];
        for (a, room) in doubles.into_iter().chain([(8, &r.positions)]) {
            for (slot, &x) in self.rooms[a].iter_mut().zip(room) {
                *slot = bits(x);
            }
        }
        let short = [&r.sheet_entries, &r.placed_entries, &r.sheet_firsts, &r.placed_firsts];
        for (a, room) in (3..).zip(short) {
            self.rooms[a][..room.len()].copy_from_slice(&numbers(room));
        }
    }

    /// The hashes of all rooms.
    fn rooms_line(&mut self) {
        self.out += "rooms";
        for (room, &n) in self.rooms.iter().zip(&self.lengths) {
            self.out += &format!(" {:016x}", hash(&room[..n]));
        }
        self.out += "\n";
    }

    /// What a call answers, then the state.
    fn state_line(&mut self, answer: &str) {
        let s = &self.state;
        let (right, area) = (hex(s.right), hex(s.unplaced_area));
        let state = state_hash(s);
        self.out += &format!("{answer} {} {} {right} {area}", s.taken, s.placed_strips);
        self.out += &format!(" {state:016x}\n");
    }

    /// Start: a refused one leaves zeros.
    fn start(&mut self) -> Result<(), String> {
        let mut rooms = Rooms::new(&self.sizes());
        let result = match job::read(&self.job) {
            Err(n) => Err(Stop::Refused(n)),
            Ok(job) => start(&job, &self.order, &mut rooms).map(|state| (job, state)),
        };
        self.own = None;
        let number = match result {
            Ok((job, state)) => {
                self.state = Flat::started(&state);
                self.own = (!self.by_hand).then(|| Own::started(job, &self.order));
                0
            }
            Err(stop) => {
                self.state = Flat::zero();
                rooms = Rooms::new(&self.sizes());
                refusal(stop)?
            }
        };
        self.left(&rooms);
        self.state_line(&format!("start {number}"));
        Ok(())
    }

    /// The planner with rooms takes a copy, beside the lifted code where the state is its own.
    fn step(&self, job: &Job, state: &mut State, rooms: &mut Rooms) -> Result<(), Stop> {
        match &self.own {
            None => next_copy(job, state, rooms, &mut Watch::default()),
            Some(own) => own.step(&self.state, state, rooms),
        }
    }

    /// Next copy: the job's refusal, then 31, then the planner with rooms; its number or 0.
    fn next_copy(&mut self) -> Result<u32, String> {
        let mut rooms = self.lent();
        let number = match job::read(&self.job) {
            Err(n) => n,
            Ok(job) => match self.state.state(&job, &rooms) {
                None => 31,
                Some(mut state) => match self.step(&job, &mut state, &mut rooms) {
                    Ok(()) => {
                        self.state.stepped(&state);
                        0
                    }
                    Err(stop) => refusal(stop)?,
                },
            },
        };
        rooms.clear_intervals();
        self.called(Request::Next, number, &rooms)
    }

    fn next(&mut self) -> Result<(), String> {
        let number = self.next_copy()?;
        self.state_line(&format!("next {number}"));
        Ok(())
    }

    /// The next n copies. The interval room is zeroed before them too.
    fn stack(&mut self, n: usize) -> Result<(), String> {
        let mut rooms = self.lent();
        rooms.clear_intervals();
        self.left(&rooms);
        let taken = next_copies(n, || self.next_copy())?;
        self.state_line(&format!("stack {} {}", taken.number, taken.took));
        Ok(())
    }

    /// Takes the copy at place n back: the job's refusal, then the planner with rooms. Of the rooms it
    /// is lent all but intervals and positions, which stay.
    fn withdraw(&mut self, n: usize) -> Result<(), String> {
        let mut rooms = self.lent();
        let number = match job::read(&self.job) {
            Err(n) => n,
            Ok(job) => self.state.withdraw(&job, &mut rooms, n),
        };
        self.called(Request::Back(n), number, &rooms)?;
        self.state_line(&format!("next {number}"));
        Ok(())
    }

    /// After a single step: its rooms and the comparisons. Its number again.
    fn called(&mut self, request: Request, number: u32, rooms: &Rooms) -> Result<u32, String> {
        self.left(rooms);
        if let Some(own) = &mut self.own {
            own.called(request, number, &self.state, rooms)?;
        }
        Ok(number)
    }

    /// The plan of a filling in the given order, or its refusal, compared with the lifted one and with
    /// the plain planner.
    fn filled(&self, job: &Job) -> Result<Result<Plan, u32>, String> {
        if self.by_hand {
            let mut rooms = Rooms::new(&self.sizes());
            return match fill_order(job, &self.order, &mut rooms, &mut Watch::default()) {
                Ok(plan) => Ok(Ok(plan)),
                Err(stop) => refusal(stop).map(Err),
            };
        }
        let order = Some(self.order.clone());
        let ask = Ask { sizes: self.sizes(), order, plain_work: plain::WORK, looks: false };
        run(job, &ask).map(|answer| answer.plan)
    }

    fn fill(&mut self) -> Result<(), String> {
        let mut rooms = Rooms::new(&self.sizes());
        let result = match job::read(&self.job) {
            Err(n) => Err(n),
            Ok(job) => self.filled(&job)?.map(|plan| (job, plan)),
        };
        self.out += &match result {
            Ok((job, plan)) => {
                rooms.positions = position_room(&job, &plan, rooms.positions.len());
                plan_line(&job, &plan)
            }
            Err(number) => {
                let zero = hex(0.0);
                let nothing = hash(&[0; 64 + 64 + 1024]);
                format!("fill {number} 0 0 {zero} {zero} {zero} {nothing:016x}\n")
            }
        };
        self.left(&rooms);
        self.own = None;
        Ok(())
    }

    /// The leaf: the inset or the apart strips of one orientation; or the job's refusal, then 9, and
    /// an empty part.
    fn leaf(&mut self, kind: usize, orientation: u64, inset: bool) {
        let number = match job::read(&self.job) {
            Err(n) => n,
            Ok(job) => match job.parts.get(kind) {
                Some(part) if orientation < part.orientations.len() as u64 => 0,
                _ => 9,
            },
        };
        let mut part = vec![];
        if number == 0 {
            let (apart, other) = self.state.ranges(16 * kind + orientation as usize);
            let which = if inset { other } else { apart };
            part = self.rooms[0][6 * which.start..6 * which.end].to_vec();
        }
        let n = part.len();
        self.out += &format!("leaf {number} {n} {:016x}\n", hash(&part));
    }

    fn show(&mut self, a: usize) {
        self.out += &format!("room {a}");
        for w in &self.rooms[a][..self.lengths[a]] {
            self.out += &format!(" {w:016x}");
        }
        self.out += "\n";
    }

    /// Garbage in room a from slot n on.
    fn spoil(&mut self, a: usize, n: usize, seed: u64) {
        let mut state = seed;
        for slot in self.rooms[a][..self.lengths[a]].iter_mut().skip(n) {
            *slot = garbage(a, &mut state);
        }
        let rooms = self.lent();
        self.own = self.own.take().filter(|own| a > 6 || own.fits(&self.state, &rooms));
    }

    /// One number of the state.
    fn edit(&mut self, a: usize, n: usize, m: u64) -> Result<(), String> {
        let s = &mut self.state;
        let (x, i) = (f64::from_bits(m), m as usize);
        match a {
            0 => s.resolution = x,
            1 => s.sheet_bounds[n] = x,
            2 => s.sheet_strips = i,
            3 => s.apart_strips = i,
            4 => s.inset_bounds[n] = x,
            5 => s.parts[n] = i,
            6 => s.order[n] = i,
            7 => s.taken = i,
            8 => s.next_column[n] = i,
            9 => s.look_counts[n] = i,
            10 => s.placed_strips = i,
            11 => s.orientation[n] = i,
            12 => s.x[n] = x,
            13 => s.y[n] = x,
            14 => s.gap[n] = x,
            15 => s.unplaced_area = x,
            16 => s.right = x,
            _ => return Err(format!("the state has no number {a}")),
        }
        self.own = None;
        Ok(())
    }

    fn obey(&mut self, c: Command, data: &mut Reader) -> Result<(), String> {
        match c.letter {
            b'T' => self.out += &format!("{}\n", String::from_utf8_lossy(data.take(c.n)?)),
            b'J' => {
                self.job = data.take(c.n)?.to_vec();
                self.own = None;
            }
            b'O' => {
                let list = data.take(2 * c.n)?.chunks(2);
                self.order = list.map(|b| (b[0] as usize) << 8 | b[1] as usize).collect();
                if self.order.len() > COPIES + 4 {
                    return Err("an order that is too long".into());
                }
            }
            b'L' if c.n > LONGEST[c.a] => return Err(format!("room {} of {}", c.a, c.n)),
            b'L' => self.lengths[c.a] = c.n,
            b'H' => self.spoil(c.a, c.n, c.m),
            b'R' if c.n >= self.lengths[c.a] => return Err(format!("room {} at {}", c.a, c.n)),
            b'R' => {
                self.rooms[c.a][c.n] = if number_room(c.a) { c.m % 65_536 } else { c.m };
                self.own = None;
            }
            b'E' => self.edit(c.a, c.n, c.m)?,
            b'S' => self.start()?,
            b'N' => self.next()?,
            b'M' => self.stack(c.n)?,
            b'W' => self.withdraw(c.n)?,
            b'F' => self.fill()?,
            b'K' => self.leaf(c.n, c.m, c.a == 1),
            b'P' => self.show(c.a),
            b'V' => self.rooms_line(),
            other => return Err(format!("no command {other}")),
        }
        Ok(())
    }
}

fn refusal(stop: Stop) -> Result<u32, String> {
    match stop {
        Stop::Refused(n) => Ok(n),
        Stop::Differ(message) => Err(message),
    }
}

/// What a filling answers: counts, right, unplaced area, offcut, and the hash of the copies placed
/// and unplaced by kind and of the look counts by slot.
fn plan_line(job: &Job, plan: &Plan) -> String {
    let (list, copies) = positions(job, plan);
    let mut words = vec![0; 64 + 64 + 1024];
    let mut looks = plan.layout.looks.iter();
    for (kind, part) in job.parts.iter().enumerate() {
        words[kind] = copies[kind] as u64;
        words[64 + kind] = (part.quantity - copies[kind]) as u64;
        for (o, n) in (0..part.orientations.len()).zip(&mut looks) {
            words[128 + 16 * kind + o] = *n;
        }
    }
    let (right, area) = (plan.layout.right, plan.layout.unplaced_area);
    let offcut = offcut(job, plan);
    let without = plan.order.len() - list.len();
    let (right, area, offcut) = (hex(right), hex(area), hex(offcut));
    let counts = hash(&words);
    format!("fill 0 {} {without} {right} {area} {offcut} {counts:016x}\n", list.len())
}

pub fn script(data: &[u8], by_hand: bool) -> Result<String, String> {
    let mut reader = Reader::new(data);
    let mut s = Script::new(by_hand);
    while let Some(command) = reader.command()? {
        s.obey(command, &mut reader)?;
    }
    Ok(s.out)
}
