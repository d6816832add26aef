//! The oracle: reads a job and prints what document 01 says `plan` prints,
//! with the lifted Rust, a planner with rooms and the plain planner compared.
//! Options are described in oracle/README.md.

mod batch;
mod command;
mod compare;
mod filling;
mod flat;
mod frame;
mod hash;
mod index;
mod job;
mod layout;
mod modes;
mod nesting;
mod own;
mod plain;
mod print;
mod probed;
mod rooms;
mod script;
mod stack;
mod strips;
mod surroundings;
mod timed;
mod trace;
mod watch;
mod withdraw;
mod write;

use compare::{run, Answer, Ask};
use rooms::Sizes;
use std::io::{Read, Write};

/// The longest job of the program `plan`, in bytes.
const LONGEST: usize = 65_536;

#[derive(Default)]
pub struct Options {
    strips: Option<String>,
    frame: Option<String>,
    looks: bool,
    order: Option<String>,
    shuffle: Option<u64>,
    rooms: Option<String>,
    intervals: Option<String>,
    calls: Option<usize>,
    trace: bool,
    script: bool,
    judge: bool,
    write: bool,
    list: bool,
    answer: bool,
    draws: bool,
    after: bool,
    batch: Option<String>,
    out: Option<String>,
    plan: Option<String>,
    lifted_only: bool,
    by_hand: bool,
    time: Option<u32>,
    plain_work: Option<u64>,
    nan_hatch: bool,
    draw_list: Option<u64>,
    frames: Option<u64>,
    seed: Option<u64>,
}

/// Numbers with commas; an empty text is no number.
fn numbers(text: &str) -> Result<Vec<usize>, String> {
    let fields = text.split(',').filter(|t| !t.is_empty());
    fields.map(|t| t.parse().map_err(|_| format!("not a number: {t}"))).collect()
}

fn parse(args: &[String]) -> Result<Options, String> {
    let mut o = Options::default();
    let mut rest = args.iter();
    while let Some(name) = rest.next() {
        let mut value = || rest.next().cloned().ok_or(format!("{name} needs a value"));
        let number =
            |text: String| text.parse::<u64>().map_err(|_| format!("not a number: {text}"));
        match name.as_str() {
            "--strips" => o.strips = Some(value()?),
            "--frame" => o.frame = Some(value()?),
            "--looks" => o.looks = true,
            "--order" => o.order = Some(value()?),
            "--shuffle" => o.shuffle = Some(number(value()?)?),
            "--rooms" => o.rooms = Some(value()?),
            "--intervals" => o.intervals = Some(value()?),
            "--calls" => o.calls = Some(number(value()?)? as usize),
            "--trace" => o.trace = true,
            "--script" => o.script = true,
            "--judge" => o.judge = true,
            "--write" => o.write = true,
            "--list" => o.list = true,
            "--answer" => o.answer = true,
            "--draws" => o.draws = true,
            "--after" => o.after = true,
            "--batch" => o.batch = Some(value()?),
            "--out" => o.out = Some(value()?),
            "--plan" => o.plan = Some(value()?),
            "--lifted-only" => o.lifted_only = true,
            "--by-hand" => o.by_hand = true,
            "--time" => o.time = Some(number(value()?)? as u32),
            "--plain-work" => o.plain_work = Some(number(value()?)?),
            "--nan-hatch" => o.nan_hatch = true,
            "--draw-list" | "--frames" => {
                let count = if name == "--frames" { &mut o.frames } else { &mut o.draw_list };
                *count = Some(number(value()?)?);
                o.seed = Some(number(value()?)?);
            }
            _ => return Err(format!("no option {name}")),
        }
    }
    Ok(o)
}

impl Options {
    /// 11 is of the program alone: not where a call of the library is meant.
    fn program(&self) -> bool {
        let library = self.order.is_some() || self.shuffle.is_some() || self.rooms.is_some();
        !(library || self.trace || self.answer || self.time.is_some())
    }

    fn sizes(&self) -> Result<Sizes, String> {
        match self.rooms.as_deref() {
            None => Ok(Sizes::plan()),
            Some("ample") => Ok(Sizes::ample()),
            Some(text) => Sizes::parse(text).ok_or("--rooms needs nine numbers".into()),
        }
    }

    /// Corner and axis of `--frame`; else lower left, along y.
    fn frame(&self) -> Result<(u8, u8), String> {
        let Some(text) = &self.frame else {
            return Ok((0, 1));
        };
        match numbers(text)?[..] {
            [corner @ 0..=3, axis @ 0..=1] => Ok((corner as u8, axis as u8)),
            _ => Err("--frame CORNER,AXIS".into()),
        }
    }

    /// The given order, or one drawn for the job with this number.
    fn order(&self, job: &job::Job, number: u64) -> Result<Option<Vec<usize>>, String> {
        if let Some(text) = &self.order {
            return numbers(text).map(Some);
        }
        let Some(seed) = self.shuffle else {
            return Ok(None);
        };
        let mut order = nesting::copy_order(job);
        let mut state = seed.wrapping_mul(1_000_003).wrapping_add(number);
        for i in (1..order.len()).rev() {
            let j = nesting::next_random(&mut state) % (i as u64 + 1);
            order.swap(i, j as usize);
        }
        Ok(Some(order))
    }
}

/// The text for a job, and the answer where planners ran.
pub fn answer_text(
    bytes: &[u8],
    o: &Options,
    number: u64,
) -> Result<(String, Option<Answer>), String> {
    if let Some(text) = other_text(bytes, o)? {
        return Ok((text, None));
    }
    let job = match job::read(bytes) {
        Err(n) if o.trace => return Ok((trace::refused(n, &o.sizes()?), None)),
        Err(n) => return Ok((print::refusal(n), None)),
        Ok(job) => job,
    };
    let order = o.order(&job, number)?;
    if o.trace {
        return trace_text(&job, o, order).map(|text| (text, None));
    }
    let plain_work = o.plain_work.unwrap_or(plain::WORK);
    let ask = Ask { sizes: o.sizes()?, order, plain_work, looks: o.looks };
    let answer = run(&job, &ask)?;
    let mut text: String = answer.looks.iter().map(|l| l.line() + "\n").collect();
    text += &match &answer.plan {
        Err(n) => print::refusal(*n),
        Ok(plan) => print::plan(&job, plan) + &if o.draws { print::draws(plan) } else { "".into() },
    };
    if o.after {
        let mut rooms = rooms::Rooms::new(&ask.sizes);
        if let Ok(plan) = &answer.plan {
            rooms.positions = print::position_room(&job, plan, ask.sizes.positions);
        }
        text += &trace::rooms_text(&rooms);
    }
    Ok((text, Some(answer)))
}

/// What needs no planner of ours: 11, strips, readings, the lifted code alone.
fn other_text(bytes: &[u8], o: &Options) -> Result<Option<String>, String> {
    if let Some(which) = &o.strips {
        return match which.as_str() {
            "part" => modes::strips_text(bytes, false, o.frame()?).map(Some),
            "sheet" => modes::strips_text(bytes, true, o.frame()?).map(Some),
            _ => Err("--strips part or --strips sheet".into()),
        };
    }
    if o.judge {
        return layout::judge_text(bytes, o.by_hand).map(Some);
    }
    if o.write {
        return write::write_text(bytes, o.by_hand).map(Some);
    }
    if o.program() && bytes.len() > LONGEST {
        return Ok(Some(print::refusal(11)));
    }
    if !(o.answer || o.list || o.lifted_only || o.by_hand || o.time.is_some()) {
        return Ok(None);
    }
    let text = match (job::read(bytes), o.time) {
        (Err(n), _) => print::refusal(n),
        (Ok(_), _) if o.answer => "ok\n".into(),
        (Ok(job), _) if o.list => layout::list_text(&job, &o.sizes()?)?,
        (Ok(job), Some(runs)) => modes::time(&job, runs),
        (Ok(job), None) if o.by_hand => modes::by_hand_text(&job, &o.sizes()?)?,
        (Ok(job), None) => modes::lifted_text(&job),
    };
    Ok(Some(text))
}

fn trace_text(job: &job::Job, o: &Options, order: Option<Vec<usize>>) -> Result<String, String> {
    let intervals = numbers(o.intervals.as_deref().unwrap_or(""))?;
    let calls = trace::Calls { sizes: o.sizes()?, order, intervals, calls: o.calls };
    let signal = probed::Signal::default();
    let mut lifted = probed::lifted::reach::Lifted::new(job, &signal);
    let mut watch = watch::Watch { lifted: Some(&mut lifted), ..Default::default() };
    trace::trace(job, &calls, &mut watch)
}

/// `--draw-list N SEED`: each state before the draw, and the lifted draw.
fn draw_list(n: u64, seed: u64) -> String {
    let (mut state, mut out) = (seed, String::new());
    for _ in 0..n {
        let before = state;
        let drawn = probed::lifted::reach::next(&mut state);
        out += &format!("{before:016x} {drawn:016x}\n");
    }
    out
}

/// Whether all agree.
fn oracle() -> Result<bool, String> {
    let args: Vec<String> = std::env::args().skip(1).collect();
    let options = parse(&args)?;
    let mut agree = true;
    let text = if options.nan_hatch {
        modes::nan_hatch()
    } else if let Some(n) = options.frames {
        let (text, same) = modes::frames_text(n, options.seed.unwrap_or(0));
        agree = same;
        text
    } else if let Some(n) = options.draw_list {
        draw_list(n, options.seed.unwrap_or(0))
    } else if let Some(file) = &options.batch {
        let data = std::fs::read(file).map_err(|e| format!("{file}: {e}"))?;
        return batch::batch(&data, &options);
    } else {
        let mut bytes = vec![];
        std::io::stdin().read_to_end(&mut bytes).map_err(|e| e.to_string())?;
        if options.script {
            script::script(&bytes, options.by_hand)?
        } else {
            answer_text(&bytes, &options, 0)?.0
        }
    };
    std::io::stdout().write_all(text.as_bytes()).map_err(|e| e.to_string())?;
    Ok(agree)
}

fn main() {
    match oracle() {
        Ok(true) => {}
        Ok(false) => std::process::exit(1),
        Err(message) => {
            eprintln!("oracle: {message}");
            std::process::exit(1);
        }
    }
}
