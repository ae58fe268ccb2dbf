//! Times the check on large families of jobs, and on small random ones, by the proved library, by the program as a process of its own, by a walk that
//! remembers in Rust, and member by member in Rust. All replies are compared with the expected lines before anything is timed.
//!
//! usage: check PROGRAM FAMILIES RANDOM     the program, and two directories that tests/reference/families.py wrote
use bench::gates::Refusal;
use bench::jobs::{image_and_end, line, line_of_reply, Job, Verdict};
use bench::tables::Tables;
use bench::{library, members, walk};
use std::path::{Path, PathBuf};
use std::process::{Command, Stdio};
use std::time::{Duration, Instant};

/// The families that are timed, in the table's order. The others are only compared, and by the walk in Rust alone.
const TIMED: [&str; 17] = [
    "basis",
    "ghz",
    "ghz-reversed",
    "ghz-other-sign",
    "phases",
    "copies",
    "last",
    "one",
    "traps",
    "traps-one",
    "crowd",
    "crowd-one",
    "choices",
    "choices-few-allowed",
    "choices-other-leaf",
    "choices-no-leaf",
    "far-k",
];
const ROUNDS: usize = 5;
/// What takes longer when it is compared is not timed.
const LIMIT: Duration = Duration::from_secs(5);
/// What is timed has no limit but this one, which ends the program.
const AT_MOST: Duration = Duration::from_secs(120);
/// A round is as many calls as take this long, at least one.
const ROUND: Duration = Duration::from_millis(2);
/// The first argument of the program when it calls itself for one job by the library.
const ALONE: &str = "--library-alone";

struct Named {
    family: String,
    n: usize,
    path: PathBuf,
    job: Job,
    line: String,
}

fn read(path: PathBuf) -> Named {
    let name = path.file_stem().unwrap().to_str().unwrap();
    let (family, n) = name.rsplit_once('-').unwrap();
    Named {
        family: family.to_string(),
        n: n.parse().unwrap(),
        job: Job::of_input(&std::fs::read(&path).unwrap()),
        line: std::fs::read_to_string(path.with_extension("line"))
            .unwrap()
            .trim_end()
            .to_string(),
        path,
    }
}

/// The jobs of a directory, each family by its number of qubits.
fn jobs_of(directory: &str) -> Vec<Named> {
    let entries = std::fs::read_dir(directory).unwrap();
    let paths = entries.map(|entry| entry.unwrap().path());
    let mut jobs: Vec<Named> = paths
        .filter(|path| path.extension().is_some_and(|e| e == "job"))
        .map(read)
        .collect();
    jobs.sort_by_key(|j| {
        (
            TIMED.iter().position(|f| *f == j.family),
            j.family.clone(),
            j.n,
        )
    });
    jobs
}

// ---- the ways from bytes to a reply
fn by_library(job: &Job) -> [u8; 64] {
    library::check(&job.start, &job.circuit, &job.end, job.allowance)
}

/// The program from its start to its end, with the job as its input: the line that it prints.
fn by_program(program: &str, path: &Path) -> String {
    let input = std::fs::File::open(path).unwrap();
    let output = Command::new(program).stdin(input).output().unwrap();
    String::from_utf8(output.stdout)
        .unwrap()
        .trim_end()
        .to_string()
}

fn by_walk(job: &Job) -> Result<Verdict, Refusal> {
    let (image, end) = image_and_end(job)?;
    Ok(walk::check(&Tables::new(&image, &end), job.allowance))
}

/// Nothing if it takes longer than the limit.
fn by_members(job: &Job, limit: Duration) -> Option<Result<Verdict, Refusal>> {
    match image_and_end(job) {
        Ok((image, end)) => {
            members::check(&Tables::new(&image, &end), job.allowance, limit).map(Ok)
        }
        Err(refusal) => Some(Err(refusal)),
    }
}

fn by_members_whole(job: &Job) -> Result<Verdict, Refusal> {
    by_members(job, AT_MOST).expect("it ended within the limit before")
}

fn line_by_library(job: &Job) -> String {
    line_of_reply(
        &by_library(job),
        job.start.get(3).copied().unwrap_or(0).min(20),
    )
}

/// The same in a process of its own, which is ended at the limit.
fn line_by_library_alone(path: &Path) -> Option<String> {
    let mut child = Command::new(std::env::current_exe().unwrap())
        .arg(ALONE)
        .arg(path)
        .stdout(Stdio::piped())
        .spawn()
        .unwrap();
    let until = Instant::now() + LIMIT;
    while child.try_wait().unwrap().is_none() {
        if Instant::now() > until {
            child.kill().unwrap();
            child.wait().unwrap();
            return None;
        }
        std::thread::sleep(Duration::from_millis(1));
    }
    let output = child.wait_with_output().unwrap();
    Some(
        String::from_utf8(output.stdout)
            .unwrap()
            .trim_end()
            .to_string(),
    )
}

fn same(way: &str, job: &Named, got: &str) {
    assert!(
        got == job.line,
        "{}-{}, {way}: wanted '{}', got '{got}'",
        job.family,
        job.n,
        job.line
    );
}

// ---- times
/// Keeps the compiler from leaving out a reply that nobody reads.
fn done<T>(reply: T) {
    std::hint::black_box(reply);
}

type Way<'a> = Option<Box<dyn Fn() + 'a>>;

/// The mean of the calls of one round.
fn round(way: &dyn Fn(), calls: u32) -> Duration {
    let begin = Instant::now();
    for _ in 0..calls {
        way();
    }
    begin.elapsed() / calls
}

/// Least and median of the rounds, which go through the ways in turn; nothing for a way that is not timed.
fn timed(ways: &[Way]) -> Vec<Option<(Duration, Duration)>> {
    let calls: Vec<u32> = ways
        .iter()
        .map(|way| {
            let once = way.as_ref().map_or(ROUND, |way| round(way, 1));
            (ROUND.as_nanos() / once.as_nanos().max(1)).clamp(1, 1000) as u32
        })
        .collect();
    let mut found = vec![Vec::new(); ways.len()];
    for _ in 0..ROUNDS {
        for (i, way) in ways.iter().enumerate() {
            if let Some(way) = way {
                found[i].push(round(way, calls[i]));
            }
        }
    }
    let ends = |mut times: Vec<Duration>| {
        times.sort();
        times.first().map(|&least| (least, times[ROUNDS / 2]))
    };
    found.into_iter().map(ends).collect()
}

fn columns(times: &[Option<(Duration, Duration)>]) -> String {
    let us = |d: Duration| d.as_secs_f64() * 1e6;
    let late = format!("over {} s", LIMIT.as_secs());
    times
        .iter()
        .map(|time| match time {
            Some((least, median)) => format!(" {:11.1} {:11.1}", us(*least), us(*median)),
            None => format!(" {late:>23}"),
        })
        .collect()
}

fn heading(first: &str) {
    println!(
        "{first} {:>23} {:>23} {:>23} {:>23}",
        "library", "program, whole run", "Rust, remembering", "Rust, by members"
    );
}

fn families(program: &str, jobs: &[Named]) {
    for job in jobs {
        same("Rust, remembering", job, &line(&by_walk(&job.job)));
    }
    println!(
        "{} jobs of the families: the expected line from the walk in Rust",
        jobs.len()
    );
    let asked: Vec<&Named> = jobs
        .iter()
        .filter(|j| TIMED.contains(&j.family.as_str()))
        .collect();
    let mut ended = Vec::new();
    for job in &asked {
        let (one, other) = (
            line_by_library_alone(&job.path),
            by_members(&job.job, LIMIT),
        );
        one.iter().for_each(|got| {
            same("library", job, got);
            same("program", job, &by_program(program, &job.path));
        });
        other
            .iter()
            .for_each(|got| same("Rust, by members", job, &line(got)));
        ended.push((one.is_some(), other.is_some()));
    }
    println!(
        "of the {} that are timed: the expected line from the library and the program for {}, from Rust by members for {}; the others take over {} s",
        asked.len(),
        ended.iter().filter(|e| e.0).count(),
        ended.iter().filter(|e| e.1).count(),
        LIMIT.as_secs()
    );
    println!("time from bytes to reply in µs, {ROUNDS} rounds in turn: least, median");
    heading(&format!("{:22} {:>2} {:22}", "family", "n", "reply"));
    for (job, (one, other)) in asked.iter().zip(ended) {
        let times = timed(&[
            one.then(|| Box::new(|| done(by_library(&job.job))) as Box<dyn Fn()>),
            one.then(|| Box::new(|| done(by_program(program, &job.path))) as Box<dyn Fn()>),
            Some(Box::new(|| done(by_walk(&job.job)))),
            other.then(|| Box::new(|| done(by_members_whole(&job.job))) as Box<dyn Fn()>),
        ]);
        let reply: Vec<&str> = job.line.split(' ').take(2).collect();
        println!(
            "{:22} {:2} {:22}{}",
            job.family,
            job.n,
            reply.join(" "),
            columns(&times)
        );
    }
}

fn random(program: &str, jobs: &[Named]) {
    for job in jobs {
        same("library", job, &line_by_library(&job.job));
        same("program", job, &by_program(program, &job.path));
        same("Rust, remembering", job, &line(&by_walk(&job.job)));
        same("Rust, by members", job, &line(&by_members_whole(&job.job)));
    }
    println!(
        "{} small random jobs: the expected line from all four",
        jobs.len()
    );
    println!("time of all of them in µs, {ROUNDS} rounds in turn: least, median");
    heading(&format!("{:48}", "jobs"));
    let times = timed(&[
        Some(Box::new(|| {
            jobs.iter().for_each(|j| done(by_library(&j.job)))
        })),
        Some(Box::new(|| {
            jobs.iter().for_each(|j| done(by_program(program, &j.path)))
        })),
        Some(Box::new(|| jobs.iter().for_each(|j| done(by_walk(&j.job))))),
        Some(Box::new(|| {
            jobs.iter().for_each(|j| done(by_members_whole(&j.job)))
        })),
    ]);
    println!("{:48}{}", jobs.len(), columns(&times));
}

fn main() {
    let args: Vec<String> = std::env::args().skip(1).collect();
    match args.iter().map(String::as_str).collect::<Vec<_>>()[..] {
        [ALONE, path] => println!("{}", line_by_library(&read(path.into()).job)),
        [program, one, other] => {
            families(program, &jobs_of(one));
            random(program, &jobs_of(other));
        }
        _ => panic!("usage: check PROGRAM FAMILIES RANDOM"),
    }
}
