//! Many jobs in one process. The container is a row of records: a byte with
//! the label's length, the label, four bytes (most significant first) with
//! the job's length, the job.
use crate::{answer_text, Options};
use std::collections::BTreeMap;
use std::io::Write;
use std::process::{Command, Stdio};
use std::sync::atomic::{AtomicUsize, Ordering};

pub fn records(data: &[u8]) -> Result<Vec<(String, &[u8])>, String> {
    let mut list = vec![];
    let mut at = 0;
    let mut take = |n: usize| {
        let piece = data.get(at..at + n).ok_or("container ends inside a record");
        at += n;
        piece
    };
    while let Ok(length) = take(1) {
        let label = String::from_utf8_lossy(take(length[0] as usize)?).into_owned();
        let length = take(4)?.iter().fold(0, |n, &b| n << 8 | b as usize);
        list.push((label, take(length)?));
    }
    Ok(list)
}

fn record(label: &str, text: &str) -> Vec<u8> {
    let mut out = vec![label.len() as u8];
    out.extend(label.as_bytes());
    out.extend((text.len() as u32).to_be_bytes());
    out.extend(text.as_bytes());
    out
}

/// What a pipe takes at once.
const PIPE: usize = 65_536;

/// Standard output of the program `plan` on a job; an error where it fails.
fn printed(program: &str, job: &[u8]) -> Result<String, String> {
    let mut child = Command::new(program)
        .stdin(Stdio::piped())
        .stdout(Stdio::piped())
        .spawn()
        .map_err(|e| format!("{program}: {e}"))?;
    let mut input = child.stdin.take().expect("piped");
    // A program may answer without reading all.
    let mut writer = None;
    if job.len() <= PIPE {
        input.write_all(job).ok();
        drop(input);
    } else {
        let job = job.to_vec();
        writer = Some(std::thread::spawn(move || input.write_all(&job).ok()));
    }
    let output = child.wait_with_output().map_err(|e| format!("{program}: {e}"))?;
    writer.map(|w| w.join().ok());
    if !output.status.success() {
        return Err(format!("{program}: {}", output.status));
    }
    Ok(String::from_utf8_lossy(&output.stdout).into_owned())
}

#[derive(Default)]
struct Counts {
    answers: BTreeMap<String, usize>,
    plain: usize,
    looks: u64,
    differ: usize,
}

/// The kind of an answer: its first line, a plan's without the numbers.
fn heading(text: &str) -> String {
    let line = text.lines().next().unwrap_or("");
    if line.starts_with("no ") { line.into() } else { line.split(' ').next().unwrap_or("").into() }
}

impl Counts {
    /// One job: its answer, or a message on standard error.
    fn job(&mut self, number: usize, label: &str, job: &[u8], options: &Options) -> String {
        let text = match answer_text(job, options, number as u64) {
            Ok((text, answer)) => {
                self.plain += answer.as_ref().is_some_and(|a| a.plain) as usize;
                self.looks += answer.map_or(0, |a| a.compared);
                text
            }
            Err(message) => {
                self.differ += 1;
                eprintln!("job {number} {label}: {message}");
                return "differ\n".into();
            }
        };
        *self.answers.entry(heading(&text)).or_default() += 1;
        if let Some(program) = &options.plan {
            match printed(program, job) {
                Ok(other) if other == text => {}
                Ok(_) => {
                    self.differ += 1;
                    eprintln!("job {number} {label}: {program} prints otherwise");
                }
                Err(message) => {
                    self.differ += 1;
                    eprintln!("job {number} {label}: {message}");
                }
            }
        }
        text
    }

    fn add(&mut self, other: Counts) {
        for (answer, n) in other.answers {
            *self.answers.entry(answer).or_default() += n;
        }
        self.plain += other.plain;
        self.looks += other.looks;
        self.differ += other.differ;
    }

    fn print(&self, jobs: usize) {
        for (answer, n) in &self.answers {
            println!("{answer}: {n}");
        }
        println!("looks compared: {}", self.looks);
        println!("plain planner compared: {}", self.plain);
        println!("{jobs} jobs, {} disagreements", self.differ);
    }
}

/// What one core has answered: its counts, and texts by job number.
type Share = (Counts, Vec<(usize, String)>);

/// Takes the next job until none is left.
fn work(list: &[(String, &[u8])], next: &AtomicUsize, options: &Options) -> Share {
    let mut share = Share::default();
    loop {
        let number = next.fetch_add(1, Ordering::Relaxed);
        let Some((label, job)) = list.get(number) else {
            return share;
        };
        let text = share.0.job(number, label, job, options);
        if options.out.is_some() {
            share.1.push((number, text));
        }
    }
}

/// All jobs of a container, on every core but where time is measured; whether all agree.
pub fn batch(data: &[u8], options: &Options) -> Result<bool, String> {
    let list = records(data)?;
    let cores = std::thread::available_parallelism().map_or(1, |n| n.get());
    let cores = if options.time.is_some() { 1 } else { cores };
    let next = AtomicUsize::new(0);
    let shares: Vec<Share> = std::thread::scope(|scope| {
        let start = |_| scope.spawn(|| work(&list, &next, options));
        let running: Vec<_> = (0..cores).map(start).collect();
        running.into_iter().map(|r| r.join().expect("a worker")).collect()
    });
    let mut counts = Counts::default();
    let mut texts = vec![];
    for (share, answered) in shares {
        counts.add(share);
        texts.extend(answered);
    }
    if let Some(file) = &options.out {
        texts.sort();
        let out: Vec<u8> = texts.iter().flat_map(|(n, text)| record(&list[*n].0, text)).collect();
        std::fs::write(file, out).map_err(|e| format!("{file}: {e}"))?;
    }
    counts.print(list.len());
    Ok(counts.differ == 0)
}
